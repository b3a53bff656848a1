"""Malformed captures and walks, and a plain reader of docs/CAPTURE.md to compare with.

Small files of each format are cut everywhere, each of their bytes is set to some other values, and fields that are
lengths or counts to wrong values. Packets are changed too with their checksums made good again, so that what is tested
after the checksums is reached. The program must refuse exactly what the plain reader refuses, for the same fault at the
same offset. For what it reads it must report the same number of LSAs and
areas, each finding, and what headers name, and write the same dump.
"""
import os
import pathlib
import re
import struct
import tempfile

import plain_captures
from malformed import ended, with_byte
from plain_reader import number, with_checksum

# The lines of areas without a kind, and of LSAs that headers name.
LACK = re.compile("database: (NoKind|Unseen|Newer) ")

# An AS-external-LSA of 10.9.0.0/16, with an external metric of the second type.
EXTERNAL = with_checksum(bytes.fromhex(
    "00050205 0a090000 02020202 80000003 0000 0024 ffff0000 80000014 00000000 00000007"))

# A summary-LSA of 10.8.0.0/16.
SUMMARY = with_checksum(bytes.fromhex("00070203 0a080000 01010101 80000002 0000 001c ffff0000 00000005"))


def with_field(data: bytes, place: int, size: int, value: int, order: str = "big") -> bytes:
    return data[:place] + value.to_bytes(size, order) + data[place + size:]


# ---- samples, made by the functions of tests/generated/capture


def raw(make, *packets: bytes) -> bytes:
    """A capture of packets in IPv4 without a link header."""
    return make.pcap(*map(make.datagram, packets), link=101)


def instances(make) -> bytes:
    """Copies of an LSA before its flush and after it, and an older instance of another."""
    older = with_checksum(with_field(SUMMARY, 12, 4, 0x80000001))
    updates = [(make.ONE, SUMMARY), (make.aged(make.ONE, 3600), older), (make.aged(make.ONE, 0),)]
    return raw(make, *(make.update(*lsas) for lsas in updates))


def blocks(make, order: str) -> bytes:
    """A pcapng file with options of its interface, a block that is ignored, and both packet blocks."""
    def numbers(form: str, *values: int) -> bytes:
        return struct.pack(order + form, *values)

    frames = [make.datagram(make.update(make.ONE)), make.datagram(make.hello(0, 2))]
    options = numbers("HH", 2, 3) + b"en0\0" + numbers("HH", 9, 1) + b"\x09\0\0\0" + numbers("HH", 0, 0)
    made = make.block(0x0A0D0D0A, numbers("IHHq", 0x1A2B3C4D, 1, 0, -1), order)
    made += make.block(1, numbers("HHI", 101, 0, 96) + options, order)
    made += make.block(5, numbers("III", 0, 0, 0), order)
    made += make.block(6, numbers("IIIII", 0, 395812000, 7, len(frames[0]), len(frames[0])) + frames[0], order)
    return made + make.block(3, numbers("I", len(frames[1])) + frames[1], order)


def named(walk: bytes) -> bytes:
    """A walk with the names of the OSPF-MIB."""
    names = {b"2.1.3": b"ospfImportAsExtern", b"4.1.8": b"ospfLsdbAdvertisement", b"4.1.5": b"ospfLsdbSequence",
             b"19.1.7": b"ospfAsLsdbAdvertisement"}
    for arcs, name in names.items():
        walk = walk.replace(b".1.3.6.1.2.1.14." + arcs, b"OSPF-MIB::" + name)
    walk = walk.replace(b".1.1.1.1.1.1.1.1.1 = ", b".routerLink.1.1.1.1.1.1.1.1 = ")
    return walk.replace(b"INTEGER: 2", b"INTEGER: importNoExternal(2)")


def walk(make) -> bytes:
    """A walk of a stub area, with a row whose bytes are missing, and an AS-external-LSA."""
    lines = ".1.3.6.1.2.1.14.2.1.3.0.0.0.1 = INTEGER: 2\n" + make.row(make.ONE, "0.0.0.1.")
    lines += make.column("4.1.5", make.TWO, "INTEGER: 5", "0.0.0.1.")
    pairs = " ".join(f"{byte:02X}" for byte in EXTERNAL)
    return (lines + make.column("19.1.7", EXTERNAL, "Hex-STRING: " + pairs, "")).encode()


def samples(make) -> list[bytes]:
    """A file of each format."""
    one = make.datagram(make.update(make.ONE))
    pieces = make.fragments(make.update(make.ONE), 32)
    return [
        make.pcap(one, link=101),
        make.pcap(make.ethernet(one), order=">", magic=0xA1B23C4D),
        blocks(make, "<"),
        blocks(make, ">"),
        make.pcap(make.ethernet(one, tags=2)),
        make.pcap(bytes.fromhex("0000 0001 0006 020000000001 0000 0800") + one, link=113),
        make.pcap(bytes.fromhex("0800 0000 00000002 0001 00 06 0200000000010000") + one, link=276),
        make.pcap(*pieces, make.datagram(make.hello(0, 2)), link=101),
        make.pcap(one, link=101, cut=20),
        raw(make, make.update(make.ONE, auth=2)),
        raw(make, make.hello(1, 0), make.update(SUMMARY, area=1)),
        raw(make, make.update(make.ONE), make.description(make.issued(make.ONE, 0x80000001, 0xD55B), make.THREE),
            make.acknowledgment(make.TWO, area=1, auth=2)),
        instances(make),
        walk(make),
        named(walk(make)),
    ]


# ---- changed files


def some_values(byte: int) -> set[int]:
    """Values that a byte is set to: the ends, the next one, and its top and its lowest bit flipped."""
    return {0, 255, (byte + 1) % 256, byte ^ 128, byte ^ 1} - {byte}


def false_values(true: int, size: int) -> set[int]:
    """Wrong values of a length or a count: the ends, about its own value, and about the lengths of headers."""
    about = {true - 1, true + 1, true + 4, 2 * true, 12, 19, 20, 24, 28, 32, 44, 262_144, 262_145, 16_777_220}
    top = 256 ** size - 1
    return {value for value in about | {0, 1, top, top - 3, top // 2 + 1} if 0 <= value <= top} - {true}


def lengths(make) -> list[tuple[bytes, str, list[tuple[int, int]]]]:
    """Samples, with the place and the size of each field in them that is a length or a count: of the record or the
    block, of the datagram, of the packet, of the LSA and its links."""
    def of_packet(place: int) -> list[tuple[int, int]]:
        return [(place + 2, 2), (place + 22, 2), (place + 44, 4), (place + 66, 2), (place + 70, 2)]

    one = make.pcap(make.datagram(make.update(make.ONE)), link=101)
    several = blocks(make, "<")
    # The blocks of `several`, and where each begins.
    at, fields = 0, []
    while at < len(several):
        size = int.from_bytes(several[at + 4:at + 8], "little")
        fields += [(at + 4, 4), (at + size - 4, 4)]
        fields += {1: [(at + 12, 4), (at + 18, 2), (at + 26, 2)], 3: [(at + 8, 4)],
                   6: [(at + 8, 4), (at + 20, 4), (at + 24, 4)]}.get(several[at], [])
        at += size
    return [(one, "little", [(32, 4), (36, 4)]), (one, "big", of_packet(40)), (several, "little", fields)]


def summed(make, packet: bytes) -> bytes:
    """A packet with a good checksum of the length that it says."""
    data = packet[:max(number(packet[2:4]), 24)]
    return with_field(packet, 12, 2, make.checksum(data[:12] + data[14:16] + data[24:]))


def good_packets(make):
    """Packets that are changed, with good checksums of their own, and of their LSAs as well."""
    lsas = [make.ONE, EXTERNAL]
    whole = make.update(*lsas, area=1)
    for packet in (whole, make.hello(1, 2)):
        for place, byte in enumerate(packet):
            yield from (summed(make, with_byte(packet, place, value)) for value in some_values(byte))
        for place, size in ((2, 2), (24, 4)):
            true = number(packet[place:place + size])
            yield from (summed(make, with_field(packet, place, size, value)) for value in false_values(true, size))
    for index, lsa in enumerate(lsas):
        for place, byte in enumerate(lsa):
            for value in some_values(byte):
                changed = with_checksum(with_byte(lsa, place, value))
                yield make.update(*lsas[:index], changed, *lsas[index + 1:], area=1)
        for place in (18, 22):
            for value in false_values(number(lsa[place:place + 2]), 2):
                yield make.update(with_checksum(with_field(lsa, place, 2, value)), SUMMARY)


def variants(make):
    """The files."""
    for whole in samples(make):
        for place, byte in enumerate(whole):
            yield whole[:place]
            yield from (with_byte(whole, place, value) for value in some_values(byte))
    for whole, order, fields in lengths(make):
        for place, size in fields:
            true = int.from_bytes(whole[place:place + size], order)
            yield from (with_field(whole, place, size, value, order) for value in false_values(true, size))
    for packet in good_packets(make):
        yield raw(make, make.update(make.TWO), packet)


# ---- runs


def is_as_read(program: str, data: bytes, folder: pathlib.Path) -> tuple[bool, bool]:
    """Whether the program answers as the plain reader, and whether that is a dump."""
    file, out = folder / "malformed", folder / "malformed.out"
    file.write_bytes(data)
    words = [program, "--out", str(out), str(file)]
    status, said, error = ended(words, folder / "malformed.replies", folder / "malformed.error")
    left = out.read_bytes() if out.exists() else None
    if left is not None:
        out.unlink()
    try:
        contents = plain_captures.contents_of(data)
    except plain_captures.Refused as refused:
        line = f"{file}: {refused.fault} at {refused.offset}\n"
        if refused.fault == "Compressed":
            line = f"{file}: Compressed (zcat {file} | ospf-capture -)\n"
        return (status, said, error.decode(), left) == (3, b"", line, None), False
    findings = [f"{file}: {finding}" for finding in contents.findings if not plain_captures.is_notice(finding)]
    notices = [f"{file}: {finding}" for finding in contents.findings if plain_captures.is_notice(finding)]
    try:
        dump = plain_captures.dump_of([contents])
    except plain_captures.Refused as refused:
        return (status, said, error.decode(), left) == (3, b"", f"dump: {refused.fault}\n", None), False
    lines = error.decode().splitlines()
    lacks = plain_captures.unnamed([contents]) + plain_captures.named([contents])
    lacks = [line for line in lacks if not plain_captures.is_notice(line)]
    # There may be more findings and notices, of the database.
    is_same = set(findings) <= set(lines) and [line for line in lines if LACK.match(line)] == lacks
    is_same = is_same and status in ((1,) if findings or lacks else (0, 1))
    first, *more = said.decode().splitlines()
    is_same = is_same and first == f"{file}: {contents.line()}" and set(notices) <= set(more)
    return is_same and all(map(plain_captures.is_notice, (line.partition(": ")[2] for line in more))) and left == dump, True


def checks(program: str, make):
    """One check of all of them, with the first that is not read so; `make` has the functions of
    tests/generated/capture. The files are in memory where they can be, since there are many."""
    tried = accepted = 0
    with tempfile.TemporaryDirectory(dir="/dev/shm" if os.path.isdir("/dev/shm") else None) as folder:
        for data in variants(make):
            is_same, is_dump = is_as_read(program, data, pathlib.Path(folder))
            tried += 1
            accepted += is_dump
            if not is_same:
                yield "malformed files", [f"the program and the plain reader of {data.hex()}"]
                return
    yield f"{tried} malformed files, of which {accepted} make a dump", []

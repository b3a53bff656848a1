"""Cases whose dumps are made, since they are too many or too long to be written down: the sample cut everywhere, and
the limits of docs/FORMATS.md. Checksums that stand here were made by another program from the formula of RFC 905."""
from cases import Case
from sample import SAMPLE

LONGEST_DUMP = 16_777_216
MOST_LSAS, MOST_AS_LSAS = 8192, 65_535

FULL, TOO_LONG = "refused E11 Full", "refused E10 TooLong"
NO_AREA, NO_ROUTER, KEY_TAKEN = "refused E1 NoArea", "refused E2 NoRouter", "refused E9 KeyTaken"

# The sample's LSAs, and the first of them with a stub link to 10.7.0.0/16 of cost 0.
ROUTER_1, ROUTER_2 = SAMPLE[13:49], SAMPLE[49:97]
ROUTER_1_WITH_STUB = bytes.fromhex(
    "00010201 01010101 01010101 80000001 907e0030 00000002 02020202 0a000001 0100000a 0a070000 ffff0000 03000000"
)

# What 2.2.2.2 can add: a summary-LSA for 10.8.0.0/16 and AS-external-LSAs for 10.9.0.0/16 and 10.10.0.0/16.
SUMMARY_8 = bytes.fromhex("00010203 0a080000 02020202 80000001 92a9001c ffff0000 00000007")
EXTERNAL_9 = bytes.fromhex("00010205 0a090000 02020202 80000001 80230024 ffff0000 80000014 00000000 00000000")
EXTERNAL_10 = bytes.fromhex("00010205 0a0a0000 02020202 80000001 742e0024 ffff0000 80000014 00000000 00000000")

ADD_STUB = "add-stub 0.0.0.0 1.1.1.1 10.7.0.0/16 0"
ADD_SUMMARY = "add-summary 0.0.0.0 2.2.2.2 10.8.0.0/16 7"
ADD_EXTERNAL = "add-external 2.2.2.2 10.9.0.0/16 2 20 0.0.0.0 0"
GROWTHS = (ADD_STUB, ADD_SUMMARY, ADD_EXTERNAL)

# The router-LSA of 3.3.3.3, as long as links fit: 5,459 stub links to 10.7.0.0/16 of cost 0.
LONGEST_ROUTER = bytes.fromhex(
    "00010201 03030303 03030303 80000001 7065fffc 00001553" + "0a070000 ffff0000 03000000" * 5459
)


def dump_of(backbone: list[bytes], external: list[bytes]) -> bytes:
    """A dump of area 0.0.0.0 and the AS list."""
    front = bytes.fromhex("4f535750 0101 00000000 00") + len(backbone).to_bytes(2, "big")
    return front + b"".join(backbone) + len(external).to_bytes(2, "big") + b"".join(external)


def balanced(byte: int) -> bytes:
    """Three bytes that add nothing to the sums of a checksum: modulo 255 the second is -2 times the others."""
    return bytes([byte, (510 - 2 * byte) % 255, byte])


def longest_opaque(number: int) -> bytes:
    """An opaque LSA of AS scope of 65,535 bytes. The number gives another Link State ID, and no other checksum."""
    header = bytes.fromhex("0001020b01") + balanced(number) + bytes.fromhex("02020202 80000001 79eeffff")
    return header + bytes(65_515)


def last_opaque(length: int) -> bytes:
    """An opaque LSA of AS scope, of 84 bytes or of 85."""
    checksum = {84: "15fd0054", 85: "17fa0055"}[length]
    return bytes.fromhex("0001020b 02000000 02020202 80000001" + checksum) + bytes(length - 20)


def small_opaque(kind: int, checksum: str, number: int) -> bytes:
    """An opaque LSA without a body: of area scope where its type is 10, of AS scope where it is 11."""
    high, low = number.to_bytes(2, "big")
    ids = balanced(high) + b"\0" + balanced(low) + b"\0"
    return bytes([0, 1, 2, kind]) + ids + bytes.fromhex("80000001" + checksum + "0014")


LONGEST_OPAQUE = [longest_opaque(number) for number in range(255)]


def long_dump(length: int, done: tuple[str, ...] = ()) -> bytes:
    """A dump of 16,777,056 bytes and those of its last LSA, and what these growths add."""
    backbone = [ROUTER_1_WITH_STUB if ADD_STUB in done else ROUTER_1, ROUTER_2, LONGEST_ROUTER]
    external = LONGEST_OPAQUE + [last_opaque(length)]
    return dump_of(
        backbone + [SUMMARY_8] * (ADD_SUMMARY in done), external + [EXTERNAL_9] * (ADD_EXTERNAL in done)
    )


def carried_out(dump: bytes, lines: list[tuple[str, str]], out: bytes) -> Case:
    """A run that ends well: each line of its script with the reply of branch 0."""
    script = "".join(f"{line}\n" for line, _ in lines)
    replies = "".join(f"@0 {reply}\n" for _, reply in lines)
    return Case(dump=dump, script=script.encode(), replies=replies.encode(), status=0, error=b"", out=out)


def refused(dump: bytes, fault: str) -> Case:
    """A run of a refused dump: a script that would reply, were it carried out."""
    return Case(dump=dump, script=b"info\n", replies=b"", status=3, error=f"dump: {fault}\n".encode(), out=None)


def fault_where_cut(length: int) -> str:
    """The fault of the sample that is cut to this length in bytes."""
    ends = [(4, 0), (5, 4), (6, 5), (10, 6), (11, 10), (13, 11), (49, 13), (97, 49), (99, 97)]
    offset = next(offset for end, offset in ends if length < end)
    return f"L9 Lsa Truncated at {offset}" if offset in (13, 49) else f"L3 Truncated at {offset}"


def cuts():
    for length in range(len(SAMPLE)):
        yield f"the sample cut to {length} bytes", refused(SAMPLE[:length], fault_where_cut(length))


def longest_dumps():
    """A dump may have 16,777,216 bytes: each of three growths reaches the limit, and passes it by one byte."""
    yield "16777216 zeros", refused(bytes(LONGEST_DUMP), "L1 BadMagic at 0")
    yield "16777217 zeros", refused(bytes(LONGEST_DUMP + 1), "L13 TooLarge at 0")
    fits, passes = long_dump(84), long_dump(85)
    for turn in range(3):
        first, second, third = GROWTHS[turn:] + GROWTHS[:turn]
        name = third.split()[0]
        full = long_dump(84, GROWTHS)
        assert len(full) == LONGEST_DUMP
        done = [(first, "ok"), (second, "ok"), (third, "ok")]
        yield f"{name} fills a dump", carried_out(fits, done, full)
        yield f"{name} that filled a dump is undone", carried_out(
            fits, done + [("undo 1", "ok")], long_dump(84, (first, second))
        )
        yield f"{name} would pass a dump's limit", carried_out(
            passes, [(first, "ok"), (second, "ok"), (third, FULL)], long_dump(85, (first, second))
        )


def refusals_of_a_full_dump():
    lines = [(growth, "ok") for growth in GROWTHS] + [
        (ADD_STUB, FULL),
        ("add-stub 0.0.0.0 9.9.9.9 10.7.0.0/16 0", NO_ROUTER),
        ("add-stub 0.0.0.0 3.3.3.3 10.7.0.0/16 0", TOO_LONG),
        (ADD_SUMMARY, KEY_TAKEN),
        (ADD_EXTERNAL, KEY_TAKEN),
        ("add-summary 0.0.0.7 2.2.2.2 10.10.0.0/16 7", NO_AREA),
        ("add-summary 0.0.0.0 2.2.2.2 10.10.0.0/16 7", FULL),
        ("add-external 2.2.2.2 10.10.0.0/16 2 20 0.0.0.0 0", FULL),
    ]
    full = long_dump(84, GROWTHS)
    yield "refusals of a full dump", carried_out(long_dump(84), lines, full)
    shorter = [("drop-link 0.0.0.0 1.1.1.1 2", "ok"), (ADD_STUB, "ok")]
    yield "a full dump has room again", carried_out(long_dump(84), lines + shorter, full)


def most_links():
    """A router-LSA has at most 5,459 links without TOS metrics."""
    stub = "0a000000 ff000000 03000001"
    almost = bytes.fromhex("00010201 01010101 01010101 80000001 c1b1fff0 00001552" + stub * 5458)
    full = bytes.fromhex("00010201 01010101 01010101 80000001 4117fffc 00001553" + stub * 5459)
    add = "add-stub 0.0.0.0 1.1.1.1 10.0.0.0/8 1"
    yield "the last link that fits", carried_out(
        dump_of([almost], []), [(add, "ok"), (add, TOO_LONG)], dump_of([full], [])
    )
    adds = [(f"add-stub 0.0.0.0 1.1.1.1 {n >> 8}.{n & 255}.0.0/16 0", "ok") for n in range(5458)]
    more = [("add-stub 0.0.0.0 1.1.1.1 0.0.0.0/16 0", TOO_LONG), ("undo 5458", "ok")]
    yield "5458 links are added and undone", carried_out(SAMPLE, adds + more, SAMPLE)


def most_lsas_of_an_area():
    backbone = [ROUTER_1, ROUTER_2] + [small_opaque(10, "f865", number) for number in range(2, MOST_LSAS - 1)]
    lines = [
        (ADD_SUMMARY, "ok"),
        ("add-summary 0.0.0.0 2.2.2.2 10.10.0.0/16 7", FULL),
        (ADD_SUMMARY, KEY_TAKEN),
        ("add-summary 0.0.0.0 9.9.9.9 10.10.0.0/16 7", NO_ROUTER),
        ("info", "info areas 1 lsas 8192 as 0 vbits 0 vlinks 0 done 1 undone 0"),
        (ADD_EXTERNAL, "ok"),
    ]
    yield "8192 LSAs of an area", carried_out(
        dump_of(backbone, []), lines, dump_of(backbone + [SUMMARY_8], [EXTERNAL_9])
    )


def most_lsas_of_as_scope():
    external = [small_opaque(11, "ea72", number) for number in range(MOST_AS_LSAS - 1)]
    other = "add-external 2.2.2.2 10.10.0.0/16 2 20 0.0.0.0 0"
    lines = [
        (ADD_EXTERNAL, "ok"),
        (other, FULL),
        (ADD_EXTERNAL, KEY_TAKEN),
        ("add-external 9.9.9.9 10.10.0.0/16 2 20 0.0.0.0 0", NO_ROUTER),
        ("info", "info areas 1 lsas 2 as 65535 vbits 0 vlinks 0 done 1 undone 0"),
        (ADD_SUMMARY, "ok"),
        ("drop-external 2.2.2.2 10.9.0.0/16", "ok"),
        (other, "ok"),
        ("info", "info areas 1 lsas 3 as 65535 vbits 0 vlinks 0 done 4 undone 0"),
    ]
    backbone = [ROUTER_1, ROUTER_2]
    yield "65535 LSAs of AS scope", carried_out(
        dump_of(backbone, external), lines, dump_of(backbone + [SUMMARY_8], external + [EXTERNAL_10])
    )


def cases():
    """The name of each case, and the case."""
    for part in (cuts, longest_dumps, refusals_of_a_full_dump, most_links, most_lsas_of_an_area, most_lsas_of_as_scope):
        yield from part()

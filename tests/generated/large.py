"""Networks as large as the limits of docs/FORMATS.md allow: replies worked out by formula, and processor time in
proportion to the size of the network."""
import os
import pathlib
import struct
import subprocess
from typing import Callable

from cases import Case

R1, R2 = 0x01010101, 0x02020202
# Router IDs from here on are those of many routers alike.
MANY = 0x0B000000
POINT_TO_POINT, STUB = 1, 3
MOST_LINKS, MOST_LSAS, MOST_AS_LSAS, MOST_AREAS = 5459, 8192, 65_535, 64
LONGEST_DUMP, LONGEST_LSA = 16_777_216, 65_535
MOST_EDITS = 10_000

# Link ID, Link Data, type and metric of a link.
Link = tuple[int, int, int, int]
# A line of a script, and its reply.
Exchange = tuple[str, str]


def dotted(address: int) -> str:
    return ".".join(str(byte) for byte in address.to_bytes(4, "big"))


def lsa(kind: int, ident: int, adv: int, body: bytes) -> bytes:
    """An LSA with its checksum (RFC 2328, 12.1.7; RFC 905, annex B)."""
    front = struct.pack(">BBIII", 2, kind, ident, adv, 0x80000001)
    data = front + b"\0\0" + struct.pack(">H", 20 + len(body)) + body
    count = len(data)
    first, second = sum(data), sum(map(int.__mul__, data, range(count, 0, -1)))
    check = ((count - 15) * first - second) % 255, (second - (count - 14) * first) % 255
    return b"\0\1" + front + bytes(byte or 255 for byte in check) + data[16:]


def router(ident: int, links: list[Link], flags: int = 0) -> bytes:
    body = [struct.pack(">IIBBH", other, data, kind, 0, cost) for other, data, kind, cost in links]
    return lsa(1, ident, ident, struct.pack(">BBH", flags, 0, len(links)) + b"".join(body))


def summary(network: int, mask: int, adv: int, metric: int) -> bytes:
    return lsa(3, network, adv, struct.pack(">II", mask, metric))


def external(network: int, adv: int, metric: int, forward: int = 0) -> bytes:
    """An AS-external-LSA of a network of 24 bits; the bit E stands in the metric's first byte."""
    return lsa(5, network, adv, struct.pack(">IIII", 0xFFFFFF00, metric, forward, 0))


def dump_of(areas: list[list[bytes]], as_wide: list[bytes]) -> bytes:
    """A dump of areas 0.0.0.0, 0.0.0.1 and so on, and of the AS list."""
    parts = [b"OSWP\x01", bytes([len(areas)])]
    for ident, lsas in enumerate(areas):
        parts += [struct.pack(">IBH", ident, 0, len(lsas)), *lsas]
    return b"".join([*parts, struct.pack(">H", len(as_wide)), *as_wide])


def run_of(dump: bytes, exchanges: list[Exchange]) -> Case:
    """A run that ends well and leaves the dump as it was; replies are those of branch 0 where none is named."""
    script, replies = [], []
    for line, reply in exchanges:
        branch = line[1] if line.startswith("@") else "0"
        script.append(f"{line}\n")
        replies.append(f"@{branch} {reply}\n")
    return Case(
        dump=dump, script="".join(script).encode(), replies="".join(replies).encode(), status=0, error=b"", out=dump
    )


def table(router: str, lines: list[str]) -> Exchange:
    return f"table {router}", "\n".join([f"table {router} {len(lines)}", *lines])


def chain(size: int) -> Case:
    """Links of cost 65535, and a stub network of cost 65535 at the far end: so no way can cost more."""
    routers = [MANY + place for place in range(size)]
    lsas = []
    for place, ident in enumerate(routers):
        links = [(ident - 1, 1, POINT_TO_POINT, 65535)] if place else []
        links += [(ident + 1, 2, POINT_TO_POINT, 65535)] if place < size - 1 else [(0x14000000, 0xFF000000, STUB, 65535)]
        lsas.append(router(ident, links))
    first, cost = dotted(MANY), 65535 * size
    at_first = table(first, [f"20.0.0.0/8 intra {cost} 0 0.0.0.0 link:0.0.0.2"])
    cheaper = table(first, [f"20.0.0.0/8 intra {cost - 65534} 0 0.0.0.0 link:0.0.0.2"])
    at_last = table(dotted(routers[-1]), ["20.0.0.0/8 intra 65535 0 0.0.0.0 connected"])
    info = f"info areas 1 lsas {size} as 0 vbits 0 vlinks 0 done 0 undone 0"
    return run_of(dump_of([lsas], []), [
        at_first, at_last, (f"cost 0.0.0.0 {first} 1 1", "ok"), cheaper, at_last, ("undo 1", "ok"), at_first, ("@1 info", info)
    ])


def longest(count: int) -> Case:
    """LSAs of 65,535 bytes of which nothing is calculated, and one of 241: 256 of them fill a dump."""
    lsas = [lsa(8, place, R1, bytes(LONGEST_LSA - 20)) for place in range(count)] + [lsa(8, count, R1, bytes(221))]
    info = f"info areas 1 lsas {count + 1} as 0 vbits 0 vlinks 0 done 0 undone 0"
    return run_of(dump_of([lsas], []), [("@1 info", info), ("tables", "tables 0"), ("refresh", "ok"), ("undo 1", "ok")])


def externals(count: int) -> Case:
    """Networks outside the AS, of both types of metric; each fourth has a forwarding address on a stub network."""
    backbone = [
        router(R1, [(R2, 0x0A000001, POINT_TO_POINT, 10)]),
        router(R2, [(R1, 0x0A000002, POINT_TO_POINT, 10), (0x0A020000, 0xFFFF0000, STUB, 5)], flags=2),
    ]
    as_wide, lines = [], ["10.2.0.0/16 intra 15 0 0.0.0.0 link:10.0.0.1"]
    for place in range(count):
        network, metric, inside = 0x40000000 + 256 * place, 1 + place % 1000, 10 + 5 * (place % 4 == 0)
        second = place % 2
        as_wide.append(external(network, R2, second << 31 | metric, 0x0A020000 + place if inside > 10 else 0))
        way = f"ext2 {inside} {metric}" if second else f"ext1 {inside + metric} 0"
        lines.append(f"{dotted(network)}/24 {way} - link:10.0.0.1")
    full = table("1.1.1.1", lines)
    first, rest = dotted(0x40000000), lines[:1] + lines[2:]
    info = f"info areas 1 lsas 2 as {count} vbits 0 vlinks 0 done 0 undone 0"
    return run_of(dump_of([backbone], as_wide), [
        full, (f"drop-external 2.2.2.2 {first}/24", "ok"), table("1.1.1.1", rest), ("undo 1", "ok"), full, ("@1 info", info)
    ])


def areas(count: int) -> Case:
    """A router in all areas, with a neighbor in each. Each area has a network of its own, and all have one in common."""
    lsas, common, own = [], [], []
    for ident in range(count):
        neighbor, data = MANY + ident, 0x0A000000 + ident
        stubs = [(0x14000000 + (ident << 16), 0xFFFF0000, STUB, 1 + ident), (0x1E000000, 0xFF000000, STUB, 7)]
        lsas.append([
            router(R1, [(neighbor, data, POINT_TO_POINT, 10)], flags=1),
            router(neighbor, [(R1, 1, POINT_TO_POINT, 10), *stubs], flags=1),
            summary(0x28000000, 0xFF000000, neighbor, 100 - ident),
        ])
        own.append(f"{dotted(0x14000000 + (ident << 16))}/16 intra {11 + ident} 0 {dotted(ident)} link:{dotted(data)}")
        common.append(f"link:{dotted(data)}")
    lines = [*own, f"30.0.0.0/8 intra 17 0 0.0.0.0 {','.join(common)}", "40.0.0.0/8 inter 110 0 0.0.0.0 link:10.0.0.0"]
    last, neighbor = dotted(count - 1), dotted(MANY + count - 1)
    fewer = own[:-1] + [f"30.0.0.0/8 intra 17 0 0.0.0.0 {','.join(common[:-1])}", lines[-1]]
    info = f"info areas {count} lsas {3 * count} as 0 vbits 0 vlinks 0 done 0 undone 0"
    return run_of(dump_of(lsas, []), [
        table("1.1.1.1", lines), (f"fail-link {last} 1.1.1.1 {neighbor}", "ok"), table("1.1.1.1", fewer), ("undo 1", "ok"),
        table("1.1.1.1", lines), ("@1 info", info),
    ])


def links(count: int) -> Case:
    """A router with a link, and all stub networks that fit."""
    stubs = [(0x14000000 + 256 * place, 0xFFFFFF00, STUB, place % 65536) for place in range(count - 1)]
    lsas = [
        router(R1, [(R2, 0x0A000001, POINT_TO_POINT, 10)]),
        router(R2, [*stubs, (R1, 0x0A000002, POINT_TO_POINT, 10)]),
    ]

    def lines(front: int, hop: str) -> list[str]:
        return [f"{dotted(net)}/24 intra {front + metric} 0 0.0.0.0 {hop}" for net, _, _, metric in stubs]

    at_1, at_2 = table("1.1.1.1", lines(10, "link:10.0.0.1")), table("2.2.2.2", lines(0, "connected"))
    full = "refused E10 TooLong" if count == MOST_LINKS else "ok"
    undo = [] if count == MOST_LINKS else [("undo 1", "ok")]
    return run_of(dump_of([lsas], []), [
        at_1, at_2, ("add-stub 0.0.0.0 2.2.2.2 10.7.0.0/16 3", full), *undo, (f"drop-link 0.0.0.0 2.2.2.2 {count}", "ok"),
        table("1.1.1.1", []), at_2, (f"drop-link 0.0.0.0 2.2.2.2 {count}", "refused E3 NoLink"), ("undo 1", "ok"), at_1,
    ])


def parallel(count: int) -> Case:
    """Parallel links of one cost between two routers: each is a next hop."""
    def hops(begin: int) -> str:
        return ",".join(f"link:{dotted(0x0A000000 + place)}" for place in range(begin, count))

    ends = [(R1, R2, []), (R2, R1, [(0x14000000, 0xFF000000, STUB, 5)])]
    lsas = [
        router(one, [(two, 0x0A000000 + place, POINT_TO_POINT, 10) for place in range(count - len(more))] + more)
        for one, two, more in ends
    ]

    def at_1(cost: int, begin: int) -> Exchange:
        return table("1.1.1.1", [f"20.0.0.0/8 intra {cost} 0 0.0.0.0 {hops(begin)}"])

    return run_of(dump_of([lsas], []), [
        at_1(15, 0), ("cost 0.0.0.0 1.1.1.1 1 11", "ok"), at_1(15, 1), ("undo 1", "ok"), at_1(15, 0),
        ("fail-link 0.0.0.0 2.2.2.2 1.1.1.1", "ok"), table("1.1.1.1", []), ("undo 1", "ok"),
    ])


def equal_ways(count: int) -> Case:
    """`count` ways of equal cost, each over a router of its own, to a router with a stub network, and to one beyond it."""
    middle = [MANY + place for place in range(count)]
    beyond = 0x03030303
    stub = (0x14000000, 0xFF000000, STUB, 5)
    lsas = [
        router(R1, [(ident, 0x0A000000 + place, POINT_TO_POINT, 10) for place, ident in enumerate(middle)]),
        router(R2, [(ident, 1, POINT_TO_POINT, 10) for ident in middle] + [(beyond, 2, POINT_TO_POINT, 1), stub]),
        router(beyond, [(R2, 1, POINT_TO_POINT, 1), (0x15000000, 0xFF000000, STUB, 5)]),
        *(router(ident, [(R1, 1, POINT_TO_POINT, 10), (R2, 2, POINT_TO_POINT, 10)]) for ident in middle),
    ]
    hops = [f"link:{dotted(0x0A000000 + place)}" for place in range(count)]

    def lines(ways: list[str]) -> list[str]:
        return [f"{net}.0.0.0/8 intra {cost} 0 0.0.0.0 {','.join(ways)}" for net, cost in ((20, 25), (21, 26))]

    before, after = lines(hops), lines(hops[:6] + hops[7:])
    changes = [f"~ {now} was {was.split(' ', 1)[1]}" for now, was in zip(after, before)]
    return run_of(dump_of([lsas], []), [
        table("1.1.1.1", before), ("cost 0.0.0.0 1.1.1.1 7 11", "ok"), table("1.1.1.1", after),
        ("compare 1.1.1.1", "\n".join(["compare 1.1.1.1 2", *changes])), ("undo 1", "ok"), ("compare 1.1.1.1", "compare 1.1.1.1 0"),
    ])


def originators(count: int) -> Case:
    """`count` area border routers at one distance, each with a summary-LSA of the same prefix: each is a next hop."""
    borders = [MANY + place for place in range(count)]
    lsas = [router(R1, [(ident, 0x0A000000 + place, POINT_TO_POINT, 10) for place, ident in enumerate(borders)])]
    lsas += [router(ident, [(R1, 1, POINT_TO_POINT, 10)], flags=1) for ident in borders]
    lsas += [summary(0x14000000, 0xFF000000, ident, 7) for ident in borders]

    def at_1(cost: int, places: list[int]) -> Exchange:
        hops = ",".join(f"link:{dotted(0x0A000000 + place)}" for place in places)
        return table("1.1.1.1", [f"20.0.0.0/8 inter {cost} 0 0.0.0.0 {hops}"])

    places, last = list(range(count)), dotted(borders[-1])
    return run_of(dump_of([lsas], []), [
        at_1(17, places), ("cost 0.0.0.0 1.1.1.1 7 11", "ok"), at_1(17, places[:6] + places[7:]), ("refresh", "ok"),
        (f"summary 0.0.0.0 {last} 20.0.0.0/8 6", "ok"), at_1(16, places[-1:]), (f"summary 0.0.0.0 {last} 20.0.0.0/8 8", "ok"),
        at_1(17, places[:6] + places[7:-1]), (f"fail-router {last}", "ok"), at_1(17, places[:6] + places[7:-1]),
        ("undo 5", "ok"), at_1(17, places),
    ])


# Hosts of one router in `forwards`.
HOSTS = 5457


def forwards(count: int) -> Case:
    """Networks outside the AS, of both types of metric, each with a forwarding address that is a host with a route of its
    own: one of the stub networks of 32 bits of these routers."""
    hosts = [0x30000000 + 3 * place for place in range(count)]
    owners = [MANY + place for place in range(-(-count // HOSTS))]
    lsas = [router(R1, [(ident, 0x0A000000 + place, POINT_TO_POINT, 10) for place, ident in enumerate(owners)])]
    for place, ident in enumerate(owners):
        own = [(host, 0xFFFFFFFF, STUB, 1 + host % 7) for host in hosts[HOSTS * place:HOSTS * (place + 1)]]
        lsas.append(router(ident, [(R1, 1, POINT_TO_POINT, 10), *own], flags=2))
    as_wide = [
        external(0x40000000 + 256 * place, owners[0], place % 2 << 31 | 1 + place % 1000, hosts[place * 7 % count])
        for place in range(count)
    ]

    def ways(nearest: int) -> list[str]:
        """The lines where the link to the first of the routers has this cost."""
        def way(host: int) -> tuple[int, str]:
            place = (host - 0x30000000) // 3 // HOSTS
            return (nearest if place == 0 else 10) + 1 + host % 7, f"link:{dotted(0x0A000000 + place)}"

        lines = [f"{dotted(host)}/32 intra {way(host)[0]} 0 0.0.0.0 {way(host)[1]}" for host in hosts]
        for place in range(count):
            (inside, hop), metric = way(hosts[place * 7 % count]), 1 + place % 1000
            costs = f"ext2 {inside} {metric}" if place % 2 else f"ext1 {inside + metric} 0"
            lines.append(f"{dotted(0x40000000 + 256 * place)}/24 {costs} - {hop}")
        return lines

    near = table("1.1.1.1", ways(10))
    return run_of(dump_of([lsas], as_wide), [
        near, ("cost 0.0.0.0 1.1.1.1 1 30", "ok"), table("1.1.1.1", ways(30)), ("undo 1", "ok"), near
    ])


def edits(count: int) -> Case:
    """`count` edits of one summary-LSA, the last of an area with four fifths of `count`: all are undone, and done again."""
    summaries = count * 4 // 5
    lsas = [
        router(R1, [(R2, 0x0A000001, POINT_TO_POINT, 10)]),
        router(R2, [(R1, 0x0A000002, POINT_TO_POINT, 10)], flags=1),
        *(summary(0x14000000 + 256 * place, 0xFFFFFF00, R2, 1 + place % 1000) for place in range(summaries)),
    ]
    nets = [dotted(0x14000000 + 256 * place) for place in range(summaries)]
    lines = [f"{net}/24 inter {11 + place % 1000} 0 0.0.0.0 link:10.0.0.1" for place, net in enumerate(nets)]
    full, undo, redo = table("1.1.1.1", lines), (f"undo {count}", "ok"), (f"redo {count}", "ok")
    changed = table("1.1.1.1", [*lines[:-1], f"{nets[-1]}/24 inter {10 + count} 0 0.0.0.0 link:10.0.0.1"])
    metrics = [(f"summary 0.0.0.0 2.2.2.2 {nets[-1]}/24 {metric}", "ok") for metric in range(1, count + 1)]
    more = [("refresh", "refused E12 HistoryFull")] if count == MOST_EDITS else []
    info = f"info areas 1 lsas {summaries + 2} as 0 vbits 0 vlinks 0 done {count} undone 0"
    return run_of(dump_of([lsas], []), [
        full, *metrics, ("info", info), *more, changed, undo, full, redo, changed, *[("undo 1", "ok")] * count, full,
        ("undo 1", "refused U1 NothingToUndo"),
    ])


# Each network, the size at which it meets a limit, and what the size counts.
NETWORKS: list[tuple[Callable[[int], Case], int, str]] = [
    (chain, MOST_LSAS, "routers in a chain"),
    (longest, LONGEST_DUMP // LONGEST_LSA, "LSAs of 65535 bytes"),
    (externals, MOST_AS_LSAS, "networks outside the AS"),
    (areas, MOST_AREAS, "areas of one router"),
    (links, MOST_LINKS, "links of one router"),
    (parallel, MOST_LINKS, "parallel links"),
    (equal_ways, 4000, "ways of equal cost"),
    (originators, MOST_LSAS // 2 - 1, "originators of one prefix"),
    (forwards, 12 * HOSTS, "forwarding addresses that are hosts"),
    (edits, MOST_EDITS, "edits of one LSA"),
]


def cases():
    """The name of each case, and the case."""
    for network, size, what in NETWORKS:
        yield f"{size} {what}", network(size)
    assert len(longest(LONGEST_DUMP // LONGEST_LSA).dump) == LONGEST_DUMP


def seconds(case: Case, program: str, folder: pathlib.Path) -> float:
    """The processor time of a run."""
    dump, script = folder / "large.oswp", folder / "large.txt"
    dump.write_bytes(case.dump)
    script.write_bytes(case.script)
    words = [program, "--dump", str(dump), "--script", str(script)]
    with subprocess.Popen(words, stdin=subprocess.DEVNULL, stdout=subprocess.DEVNULL) as run:
        _, status, used = os.wait4(run.pid, 0)
        run.returncode = os.waitstatus_to_exitcode(status)
    return used.ru_utime + used.ru_stime


def is_in_proportion(network: Callable[[int], Case], size: int, program: str, folder: pathlib.Path) -> bool:
    """Whether four times the size takes less than nine times the time; with a square it would be sixteen times. Times
    below a hundredth of a second show nothing, and a machine that is busy may make one of some runs slow."""
    whole, part = network(size), network(size // 4)
    for _ in range(4):
        least = max(seconds(part, program, folder), 0.01)
        if seconds(whole, program, folder) < 9 * least:
            return True
    return False


def checks(program: str, folder: pathlib.Path):
    """The name of each check of time, and what it found."""
    for network, size, what in NETWORKS:
        found = [] if is_in_proportion(network, size, program, folder) else ["time and size"]
        yield f"time of {size // 4} and of {size} {what}", found

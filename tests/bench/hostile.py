#!/usr/bin/env python3
"""Networks within the limits, and scripts, that would make a careless program slow: many of one thing in one place.

    tests/bench/hostile.py NAME FOLDER

writes `NAME.dump` and a file `NAME.WORK.script` for each of its scripts, as `workloads.py` does; NETWORKS has the
names, as `hostile-mesh`. What is hostile about each stands at its function.
"""
import pathlib
import struct
import sys

sys.path.append(str(pathlib.Path(__file__).resolve().parent.parent / "generated"))
from networks import dotted, mask  # noqa: E402
from workloads import lsa  # noqa: E402

# A link: its type, Link ID, Link Data and metric.
Link = tuple[int, int, int, int]
Scripts = dict[str, list[str]]

MOST_LINKS, MOST_LSAS, MOST_AS_LSAS = 5459, 8192, 65_535
LONGEST_SCRIPT = 1_048_576
R1, R2, R3 = 0x01010101, 0x02020202, 0x03030303
ONE, TWO = dotted(R1), dotted(R2)


def router(ident: int, links: list[Link], flags: int = 0) -> bytes:
    body = b"".join(struct.pack(">IIBBH", other, data, kind, 0, cost) for kind, other, data, cost in links)
    return lsa(1, ident, ident, struct.pack(">BBH", flags, 0, len(links)) + body)


def network(ident: int, adv: int, length: int, routers: list[int]) -> bytes:
    return lsa(2, ident, adv, struct.pack(f">I{len(routers)}I", mask(length), *routers))


def summary(kind: int, ident: int, adv: int, length: int, cost: int) -> bytes:
    return lsa(kind, ident, adv, struct.pack(">II", mask(length) if kind == 3 else 0, cost))


def external(ident: int, adv: int, length: int, cost: int, forward: int = 0) -> bytes:
    return lsa(5, ident, adv, struct.pack(">IIII", mask(length), cost, forward, 0))


def dump_of(areas: list[list[bytes]], externals: list[bytes] = []) -> bytes:
    """A dump of areas 0.0.0.0, 0.0.0.1 and so on, and of the AS list."""
    parts = [b"OSWP\x01", bytes([len(areas)])]
    for ident, lsas in enumerate(areas):
        parts += [struct.pack(">IBH", ident, 0, len(lsas)), *lsas]
    return b"".join([*parts, struct.pack(">H", len(externals)), *externals])


def as_long_as_may_be(lines: list[str]) -> list[str]:
    """The lines again and again, as often as they fit into a script of 1,048,576 bytes."""
    return lines * (LONGEST_SCRIPT // sum(len(line) + 1 for line in lines))


def undone(lines: list[str], times: int) -> list[str]:
    """Each line so often, and undone each time."""
    return [line for _ in range(times) for each in lines for line in (each, "undo 1")]


def pair(flags: int = 3) -> list[bytes]:
    """1.1.1.1 and 2.2.2.2 with a link of cost 10."""
    return [router(R1, [(1, R2, 0x0A000001, 10)]), router(R2, [(1, R1, 0x0A000002, 10)], flags)]


def star(size: int, there: int = 10, flags: int = 0) -> list[bytes]:
    """A star of this number of routers: 1.1.1.1, and routers from 1.1.1.2 on."""
    links = [(1, R1 + place, 0x0A000000 + place, there) for place in range(1, size)]
    return [router(R1, links)] + [router(R1 + place, [(1, R1, 1, 10)], flags) for place in range(1, size)]


def parallel() -> tuple[bytes, Scripts]:
    """5,459 parallel links of one cost between two routers."""
    lsas = [router(one, [(1, two, 0x0A000000 + place, 10) for place in range(MOST_LINKS)]) for one, two in ((R1, R2), (R2, R1))]
    edit = f"cost 0.0.0.0 {ONE} 5459 "
    return dump_of([lsas]), {
        "table": [f"table {ONE}"] * 20,
        "cost_table": [line for cost in range(1, 101) for line in (f"{edit}{cost}", f"table {ONE}", "undo 1")],
        "cost": [f"{edit}{cost}" for cost in range(1, 10_001)] + ["undo 10000", "redo 10000"],
        "drop_links": [f"drop-link 0.0.0.0 {ONE} 1"] * 5459 + [f"table {ONE}", "undo 5459"],
        "fail_link": undone([f"fail-link 0.0.0.0 {ONE} {TWO}"], 500),
    }


def identical() -> tuple[bytes, Scripts]:
    """5,459 links of a router that are all equal, to routers that have the same number back."""
    lsas = [router(one, [(1, two, 7, 10)] * MOST_LINKS) for one, two in ((R1, R2), (R2, R1))]
    return dump_of([lsas]), {"table": undone([f"cost 0.0.0.0 {ONE} 1 9", f"table {ONE}"], 50)}


def two_way() -> tuple[bytes, Scripts]:
    """120 routers in pairs, each with 5,459 links: to the other of its pair, and to routers that are not there."""
    lsas = []
    for place in range(120):
        links = [(1, 0x20000000 + number, number, 10) for number in range(MOST_LINKS - 1)]
        lsas.append(router(R1 + place, [*links, (1, R1 + (place ^ 1), 7, 10)]))
    return dump_of([lsas]), {"tables": ["tables", f"cost 0.0.0.0 {ONE} 5459 11", "tables"]}


def hub() -> tuple[bytes, Scripts]:
    """A star of 5,460 routers, and one whose links lead to routers that are not there."""
    away = [(1, 0x20000000 + place, place, 10) for place in range(MOST_LINKS)]
    lsas = star(MOST_LINKS + 1) + [router(R2, away)]
    far = dotted(R1 + MOST_LINKS)
    return dump_of([lsas]), {
        "table": [f"table {ONE}", f"table {far}", f"table {TWO}"] * 5,
        "cost_table": [line for cost in range(1, 41) for line in (f"cost 0.0.0.0 {ONE} 5459 {cost}", f"table {ONE}")],
        "fail_router": undone([f"fail-router {ONE}", f"fail-router {far}"], 100),
        "fail_router_long": as_long_as_may_be([f"fail-router {far}", "undo 1"]),
        "branches": [line for branch in range(8) for line in (f"@{branch} cost 0.0.0.0 {ONE} 1 7", f"@{branch} table {far}")] * 4,
    }


def mesh() -> tuple[bytes, Scripts]:
    """A full mesh of 1,100 routers, with 1.2 million links."""
    size = 1100
    lsas = [
        router(R1 + one, [(1, R1 + two, one * size + two, 10) for two in range(size) if two != one]) for one in range(size)
    ]
    return dump_of([lsas]), {
        "table": [f"table {ONE}"],
        "cost_table": [line for cost in range(1, 11) for line in (f"cost 0.0.0.0 {ONE} 7 {cost}", f"table {ONE}", "undo 1")],
    }


def decreasing() -> tuple[bytes, Scripts]:
    """Routers of which each has links to all after it, the farther the costlier: each distance is lowered again and again."""
    size = 1000
    lsas = []
    for one in range(size):
        links = [(1, R1 + two, 1, 1 + (two - one) ** 2 % 65_535 if two > one else 65_535) for two in range(size) if two != one]
        lsas.append(router(R1 + one, links))
    return dump_of([lsas]), {"table": [f"table {ONE}", f"cost 0.0.0.0 {ONE} 1 2", f"table {ONE}"]}


def lan() -> tuple[bytes, Scripts]:
    """A network of 8,100 routers, which lists each of them twice."""
    routers = [R1 + place for place in range(8100)]
    lsas = [router(each, [(2, 0x0A000001, 0x0B000000 + each, 10)]) for each in routers]
    lsas.append(network(0x0A000001, R1, 8, routers[::-1] + routers))
    return dump_of([lsas]), {
        "table": [f"table {ONE}"] * 5,
        "fail_net": undone(["fail-net 0.0.0.0 10.0.0.1"], 20),
        "cost_table": [line for cost in range(1, 21) for line in (f"cost 0.0.0.0 {ONE} 1 {cost}", f"table {ONE}", "undo 1")],
    }


def same_lan() -> tuple[bytes, Scripts]:
    """8,190 network-LSAs of one Link State ID, of which the last counts."""
    lsas = [router(each, [(2, 0x0A000001, each, 10)]) for each in (R1, R2)]
    lsas += [network(0x0A000001, 0x10000000 + place, 8, [R1, R2]) for place in range(MOST_LSAS - 2)]
    return dump_of([lsas]), {"table": [f"table {ONE}"] * 20 + undone(["fail-net 0.0.0.0 10.0.0.1"], 20)}


def lans_of_one_prefix() -> tuple[bytes, Scripts]:
    """A router on 5,459 networks of one prefix, and another router on 2,700 of them."""
    networks = [0x0A000001 + place for place in range(MOST_LINKS)]
    lsas = [router(R1, [(2, each, each, 10) for each in networks]), router(R2, [(2, each, 7, 10) for each in networks[::2]])]
    lsas += [network(each, R2, 8, [R1, R2]) for each in networks]
    return dump_of([lsas]), {"table": [f"table {ONE}", f"cost 0.0.0.0 {ONE} 1 11"] * 10 + [f"table {TWO}"]}


def one_stub_network() -> tuple[bytes, Scripts]:
    """5,459 routers at one distance with the same stub network, and a router with 5,458 links to it."""
    links = [(1, R1 + place, 0x0A000000 + place, 10) for place in range(1, MOST_LINKS + 1)]
    stub = (3, 0x14000000, mask(8), 1)
    lsas = [router(R1, links)] + [router(R1 + place, [(1, R1, 1, 10), stub]) for place in range(MOST_LINKS, 0, -1)]
    lsas.append(router(R2, [stub] * MOST_LINKS))
    return dump_of([lsas]), {"table": [f"table {ONE}", f"table {TWO}"] * 10}


def one_summary() -> tuple[bytes, Scripts]:
    """2,729 area border routers at one distance, each with a summary-LSA of the same prefix and of the same AS boundary
    router."""
    size = 2730
    lsas = star(size, flags=1)
    for place in range(1, size):
        lsas += [summary(3, 0x14000000, R1 + place, 8, 7), summary(4, R3, R1 + place, 0, 7)]
    externals = [external(0x40000000 + 256 * place, R3, 24, 20) for place in range(MOST_AS_LSAS)]
    return dump_of([lsas], externals[:2000]), {
        "table": [f"table {ONE}"],
        "edit_table": undone([f"cost 0.0.0.0 {ONE} 7 11", f"table {ONE}"], 5),
        "refresh": ["refresh"] * 50,
    }


def strange_summaries() -> tuple[bytes, Scripts]:
    """8,190 summary-LSAs of one prefix, from the same number of routers that are not there."""
    lsas = pair() + [summary(3, 0x14000000, 0x20000000 + place, 8, 7) for place in range(MOST_LSAS - 2)]
    lines = [f"summary 0.0.0.0 {dotted(0x20000000 + place)} 20.0.0.0/8 9" for place in range(MOST_LSAS - 2)]
    return dump_of([lsas]), {"table": [f"table {ONE}"] * 100, "summary": lines, "refresh": ["refresh"] * 200}


def summaries_of_one() -> tuple[bytes, Scripts]:
    """8,190 summary-LSAs of one router: of one prefix, by their host bits, and of different ones."""
    first, last = 0x14000000, 0x14000000 + MOST_LSAS - 2
    lsas = pair() + [summary(3, ident, R2, 8, 7) for ident in range(first, last - 1)]
    lsas.append(summary(3, 0x15000000, R2, 8, 7))
    return dump_of([lsas]), {
        "table": [f"table {ONE}"] * 100,
        "summary": undone([f"summary 0.0.0.0 {TWO} 21.0.0.0/8 9"], 2000),
        "none": [f"summary 0.0.0.0 {TWO} 22.0.0.0/8 9"] * 10_000,
        "add": [f"add-summary 0.0.0.0 {TWO} 21.0.0.0/8 9"] * 10_000,
    }


def boundary_routers() -> tuple[bytes, Scripts]:
    """4,000 AS boundary routers beyond one area border router, and 65,535 AS-external-LSAs of them in turn."""
    boundary = [0x20000000 + place for place in range(4000)]
    lsas = pair() + [summary(4, each, R2, 0, 7) for each in boundary]
    externals = [external(0x40000000 + 256 * place, boundary[place * 7 % 4000], 24, 20) for place in range(MOST_AS_LSAS)]
    return dump_of([lsas], externals), {"table": [f"table {ONE}"], "edit_table": undone([f"cost 0.0.0.0 {ONE} 1 11", f"table {ONE}"], 3)}


def one_external() -> tuple[bytes, Scripts]:
    """65,535 AS-external-LSAs of one prefix, by their host bits, from 1,000 routers at one distance."""
    lsas = star(1001, flags=2)
    externals = [external(0x40000000 + place, R1 + 1 + place % 1000, 8, 20) for place in range(MOST_AS_LSAS)]
    return dump_of([lsas], externals), {
        "table": [f"table {ONE}"] * 3,
        "add": [f"add-external {dotted(R1 + 1)} 65.0.0.0/24 2 7 0.0.0.0 0"] * 3000,
        "drop": [f"drop-external {dotted(R1 + 1)} 66.0.0.0/24"] * 3000,
        "drop_first": undone([f"drop-external {dotted(R1 + 1000)} 64.0.0.0/8"], 1000),
        "drop_all": [f"drop-external {dotted(R1 + 1)} 64.0.0.0/8"] * 60,
        "fail_router": undone([f"fail-router {dotted(R1 + 1)}"], 100),
        "drop_default": as_long_as_may_be([f"drop-external {dotted(R1 + 1000)} 0.0.0.0/0"]),
        "drop_first_long": as_long_as_may_be([f"drop-external {dotted(R1 + 1000)} 64.0.0.0/8", "undo 1"]),
        "fail_router_long": as_long_as_may_be([f"fail-router {dotted(R1 + 1)}", "undo 1"]),
    }


def host_routes(last: bytes, forward: list[int]) -> bytes:
    """190 routers with 5,458 stub networks of length 32 each, a million, and AS-external-LSAs with these forwarding
    addresses in turn."""
    count = 190
    lsas = [router(R1, [(1, R2 + place, place, 10) for place in range(count)])]
    for place in range(count):
        first = 0x30000000 + MOST_LINKS * place
        stubs = [(3, first + number, mask(32), 1) for number in range(MOST_LINKS - 1)]
        lsas.append(router(R2 + place, [(1, R1, 1, 10), *stubs], 2))
    externals = [external(0x40000000 + 256 * place, R2, 24, 20, forward[place % len(forward)]) for place in range(MOST_AS_LSAS)]
    return dump_of([[*lsas, last]], externals)


def forward_to_hosts() -> tuple[bytes, Scripts]:
    """A million routes to hosts, and 65,535 forwarding addresses that are these hosts."""
    dump = host_routes(router(R3, []), [0x30000000 + 17 * place for place in range(60_000)])
    return dump, {"table": [f"table {ONE}"]}


def forward_past_hosts() -> tuple[bytes, Scripts]:
    """A million routes to hosts, a default route before them, and forwarding addresses after them that it alone covers."""
    default = router(R3, [(1, R2, 1, 1)])
    dump = host_routes(default, [0x3F000000])
    return dump, {"table": [f"table {ONE}", f"add-stub 0.0.0.0 {ONE} 0.0.0.0/0 1", f"table {ONE}"]}


def nested() -> tuple[bytes, Scripts]:
    """A stub network of each length from 0 to 32 around one address, many in one of length 8, and 65,535 forwarding
    addresses in them."""
    stubs = [(3, 0x30000000 & mask(length), mask(length), 1) for length in range(33)]
    many = [(3, 0x30000000 + 2 * place, mask(32), 1) for place in range(MOST_LINKS - 34)]
    lsas = [router(R1, [(1, R2, 1, 10)]), router(R2, [(1, R1, 1, 10), *stubs, *many], 2)]
    externals = [external(0x40000000 + 256 * place, R2, 24, 20, 0x30000001 + 2 * place) for place in range(MOST_AS_LSAS)]
    return dump_of([lsas], externals), {"table": [f"table {ONE}"] * 3}


def one_edit() -> tuple[bytes, Scripts]:
    """One edit 10,000 times, on the small sample."""
    stub = (3, 0x0A020000, mask(16), 5)
    lsas = [router(R1, [(1, R2, 0x0A000001, 10)]), router(R2, [(1, R1, 0x0A000002, 10), stub])]
    cost = f"cost 0.0.0.0 {ONE} 1 7"
    return dump_of([lsas]), {
        "cost": [cost] * 10_000 + ["undo 10000", "redo 10000"],
        "cost_table": [line for _ in range(9000) for line in (cost, f"table {ONE}")],
        "history": [cost] * 10_000 + ["undo 10000", "redo 10000"] * 500,
        "one_by_one": [cost] * 10_000 + ["undo 1"] * 10_000 + ["redo 1"] * 10_000,
        "full": [cost] * 30_000,
        "compare": [line for _ in range(9000) for line in (cost, f"compare {ONE}")],
        "deep_compare": [cost] * 10_000 + [f"compare {ONE}"] * 10_000,
        "refresh": ["refresh"] * 10_000 + ["undo 10000"],
        "stubs": [f"add-stub 0.0.0.0 {ONE} 10.7.0.0/16 1"] * 5458 + ["undo 5458"],
        "summaries": undone([f"add-summary 0.0.0.0 {TWO} 10.8.0.0/16 7"], 16_000),
        "externals": undone([f"add-external {TWO} 10.8.0.0/16 1 7 0.0.0.0 0"], 15_000),
        "summaries_table": [line for _ in range(7000) for line in (f"add-summary 0.0.0.0 {TWO} 10.8.0.0/16 7", f"table {ONE}", "undo 1")],
        "fail_router": undone([f"fail-router {TWO}"], 30_000),
        "info": ["info"] * 200_000,
        "table": [f"table {ONE}"] * 70_000,
        "branches": [f"@{number % 8} {cost}" for number in range(30_000)],
        "no_router": ["table 9.9.9.9"] * 70_000,
        "blanks": [" " * 1_000_000],
        "empty": [""] * 1_000_000,
        "words": ["a " * 500_000],
        "unknown": ["x"] * 500_000,
        "digits": ["undo " + "1" * 1_000_000],
        "address": ["table " + "1." * 500_000],
        "edit_words": [cost + " 1" * 500_000],
    }


def many_lsas() -> tuple[bytes, Scripts]:
    """64 areas of 8,192 LSAs each, half a million: a router in each area, and LSAs of which nothing is calculated."""
    areas = []
    for ident in range(64):
        others = [lsa(6, place, 0x20000000 + 9 * place, b"") for place in range(MOST_LSAS - 3, -1, -1)]
        areas.append([*others, router(R1, [(1, R2 + ident, 1, 10)]), router(R2 + ident, [(1, R1, 1, 10)])])
    last, some = dotted(R2 + 63), 300
    return dump_of(areas), {
        "load": ["info"],
        "info": ["info"] * 2000,
        "branches": [f"@{branch} info" for branch in range(8)],
        "named": [f"@{branch} undo 0" for branch in range(8)],
        "table": [f"table {ONE}"] * some,
        "no_table": ["table 9.9.9.9"] * 3000,
        "no_comparison": ["compare 9.9.9.9"] * 3000,
        "no_router": ["cost 0.0.0.63 9.9.9.9 1 1"] * 3000,
        "no_such_router": ["fail-router 9.9.9.9"] * 3000,
        "no_network": ["fail-net 0.0.0.63 9.9.9.9"] * 3000,
        "no_summary": [f"summary 0.0.0.63 {ONE} 10.0.0.0/8 1"] * 3000,
        "no_external": [f"drop-external {ONE} 10.0.0.0/8"] * 3000,
        "cost": [f"cost 0.0.0.63 {ONE} 1 {cost}" for cost in range(1, 3001)],
        "cost_table": [line for cost in range(1, 101) for line in (f"cost 0.0.0.63 {ONE} 1 {cost}", f"table {ONE}")],
        "fail_router": undone([f"fail-router {last}"], 500),
        "fail_router_long": as_long_as_may_be([f"fail-router {last}", "undo 1"]),
        "fail_routers_long": as_long_as_may_be([f"fail-router {ONE}", "undo 1"]),
        "add_stub": undone([f"add-stub 0.0.0.63 {last} 10.0.0.0/8 1"], 2000),
        "add_external": undone([f"add-external {last} 10.0.0.0/8 1 1 0.0.0.0 0"], 2000),
        "refresh": ["refresh"] * 300,
        "tables": ["tables"] * 5,
    }


def same_keys() -> tuple[bytes, Scripts]:
    """65,535 AS-external-LSAs whose keys fall, and 8,190 opaque LSAs of an area whose keys differ in their ends alone."""
    lsas = pair() + [lsa(10, 0x01000000 + (place << 11), R2, b"") for place in range(MOST_LSAS - 2)]
    externals = [external(0xF0000000 - (place << 12), R2, 20, 20) for place in range(MOST_AS_LSAS)]
    return dump_of([lsas], externals), {
        "table": [f"table {ONE}"],
        "adds": [f"drop-external {TWO} {dotted(0xF0000000 - (place << 12))}/20" for place in range(5000)] + ["undo 5000"],
        "drop_last": undone([f"drop-external {TWO} {dotted(0xF0000000 - (65_534 << 12) & 0xFFFFFFFF)}/20"], 1000),
        "drop_default": as_long_as_may_be([f"drop-external {TWO} 0.0.0.0/0"]),
        "drop_default_of_none": as_long_as_may_be([f"drop-external {ONE} 0.0.0.0/0"]),
    }


def falling_keys() -> tuple[bytes, Scripts]:
    """55,535 AS-external-LSAs of one router, and the 10,000 more that a branch may add, each with a Link State ID
    before all others; and a default route that comes last of the LSAs: its prefix covers all others, and no other LSA has it."""
    count = MOST_AS_LSAS - 10_000
    externals = [external(0x80000000 + 256 * place, R2, 24, 20) for place in range(count - 1)] + [external(0xFFFFFFFF, R2, 0, 20)]
    adds = [f"add-external {TWO} {dotted(0x40000000 - 256 * place)}/24 2 7 0.0.0.0 0" for place in range(10_000)]
    drops = [f"drop-external {TWO} {dotted(0x40000000 - 256 * place)}/24" for place in range(10_000)]
    return dump_of([pair()], externals), {
        "add": [*adds, "info", "undo 10000", "redo 10000", "undo 10000"],
        "add_undone": undone(adds, 1),
        "add_twice": [*adds, "undo 10000", *adds[:9000], "undo 9000"],
        "add_and_drop": [line for pair_of in zip(adds[:5000], drops) for line in pair_of] + ["undo 10000"],
        "branches": [f"@{branch} {line}" for line in adds[:2400] for branch in range(8)],
        "drop_default": as_long_as_may_be([f"drop-external {TWO} 0.0.0.0/0", "undo 1"]),
        "no_default": as_long_as_may_be([f"drop-external {ONE} 0.0.0.0/0"]),
        "add_by_lower": [line.replace(TWO, ONE) for line in adds],
        "fail_router": undone([f"fail-router {TWO}"], 200),
    }


def chain_after_equal_ways() -> tuple[bytes, Scripts]:
    """2,000 ways of equal cost to a router, and a chain of 4,000 routers beyond it: each of them has 2,000 next hops."""
    ways, beyond = 2000, 4000
    spokes = [0x20000000 + place for place in range(ways)]
    lsas = [router(R1, [(1, each, 0x0A000000 + place, 10) for place, each in enumerate(spokes)])]
    lsas += [router(each, [(1, R1, 1, 10), (1, R3, 2, 10)]) for each in spokes]
    for place in range(beyond):
        links = [(1, R3 + place + 1, 1, 10)] if place < beyond - 1 else [(3, 0x14000000, mask(8), 1)]
        links += [(1, R3 + place - 1, 2, 10)] if place else [(1, each, 2, 10) for each in spokes]
        lsas.append(router(R3 + place, links))
    return dump_of([lsas]), {"table": [f"table {ONE}"], "edit_table": undone([f"cost 0.0.0.0 {ONE} 1 11", f"table {ONE}"], 2)}


def layers() -> tuple[bytes, Scripts]:
    """Layers of 60 routers, each joined to all of the next, beyond one router: 60 ways to each, and all of them join."""
    width, deep = 60, 100
    layer = [[0x20000000 + 256 * depth + place for place in range(width)] for depth in range(deep)]
    lsas = [router(R1, [(1, each, 0x0A000000 + place, 10) for place, each in enumerate(layer[0])])]
    for depth in range(deep):
        ends = ([R1] if depth == 0 else layer[depth - 1]) + (layer[depth + 1] if depth + 1 < deep else [])
        lsas += [router(each, [(1, other, 1, 10) for other in ends]) for each in layer[depth]]
    return dump_of([lsas]), {"table": [f"table {ONE}"], "edit_table": undone([f"cost 0.0.0.0 {ONE} 1 11", f"table {ONE}"], 3)}


def lonely() -> tuple[bytes, Scripts]:
    """8,192 routers without links: a tree for each."""
    return dump_of([[router(R1 + place, []) for place in range(MOST_LSAS)]]), {"tables": ["tables"], "again": ["tables"] * 3}


def star_tables() -> tuple[bytes, Scripts]:
    """A star of 1,500 routers without stub networks: a tree for each."""
    return dump_of([star(1500)]), {"tables": ["tables"], "again": ["tables", f"cost 0.0.0.0 {ONE} 1 11", "tables"]}


def areas_of_one() -> tuple[bytes, Scripts]:
    """A router in 40 areas, which have the same 5,000 stub networks at the same cost."""
    stubs = [(3, 0x14000000 + 256 * place, mask(24), 1) for place in range(5000)]
    areas = [[router(R1, [(1, R2, ident, 10)]), router(R2, [(1, R1, 1, 10), *stubs], 1)] for ident in range(40)]
    return dump_of(areas), {
        "table": [f"table {ONE}"] * 3,
        "cost_table": [line for cost in range(1, 11) for line in (f"cost 0.0.0.7 {ONE} 1 {cost}", f"table {ONE}")],
        "refresh": ["refresh"] * 20,
    }


def borders() -> tuple[bytes, Scripts]:
    """800 area border routers of two areas, in stars, and 7,000 summary-LSAs of them in each: the metric of each is calculated again."""
    size = 800
    areas = []
    for ident in (0, 1):
        centre = 0x20000000 + ident
        links = [(1, R1 + place, place, 10) for place in range(size)]
        lsas = [router(centre, [*links, (3, 0x14000000 + (ident << 16), mask(24), 1)])]
        lsas += [router(R1 + place, [(1, centre, 1, 10)], 1) for place in range(size)]
        there = 0x14000000 + (1 - ident << 16)
        lsas += [summary(3, there + 256 * number, R1 + place, 24, 7) for place in range(size) for number in range(8)]
        areas.append(lsas)
    return dump_of(areas), {"refresh": ["refresh", "undo 1", f"cost 0.0.0.0 {ONE} 1 11", "refresh", "refresh"], "table": [f"table {ONE}"]}


def pairs() -> tuple[bytes, Scripts]:
    """4,096 pairs of routers in an area: no edit of one pair has to look at the others."""
    ends = [R1 + 2 * place for place in range(MOST_LSAS // 2)]
    lsas = [lsa for one in ends for lsa in (router(one, [(1, one + 1, 1, 10)]), router(one + 1, [(1, one, 2, 10)]))]
    last = dotted(ends[-1])
    return dump_of([lsas]), {
        "fail_link": as_long_as_may_be([f"fail-link 0.0.0.0 {ONE} {dotted(R1 + 1)}", "undo 1"]),
        "fail_link_last": as_long_as_may_be([f"fail-link 0.0.0.0 {dotted(ends[-1] + 1)} {last}", "undo 1"]),
        "no_link": as_long_as_may_be([f"fail-link 0.0.0.0 {ONE} {last}"]),
        "fail_router": as_long_as_may_be([f"fail-router {last}", "undo 1"]),
        "drop_link": as_long_as_may_be([f"drop-link 0.0.0.0 {last} 1", "undo 1"]),
    }


def small_lan() -> tuple[bytes, Scripts]:
    """A network of two routers among 5,400 others, and another one among 190 routers of 5,459 links to networks each."""
    lan = [router(R2, [(2, 0x0B000001, 1, 10)]), router(R3, [(2, 0x0B000001, 2, 10)]), network(0x0B000001, R2, 8, [R2, R3])]
    links = [(2, 0x0A000000 + place, place, 10) for place in range(MOST_LINKS)]
    areas = [star(5400) + lan, [router(R1 + place, links) for place in range(190)] + lan]
    return dump_of(areas), {
        "fail_net": as_long_as_may_be(["fail-net 0.0.0.0 11.0.0.1", "undo 1"]),
        "fail_net_of_many": undone(["fail-net 0.0.0.1 11.0.0.1"], 500),
        "no_net": as_long_as_may_be(["fail-net 0.0.0.1 10.0.0.1"]),
    }


def many_areas() -> tuple[bytes, Scripts]:
    """64 areas with a star of 100 routers each, which are in all of them."""
    last = dotted(R1 + 5)
    return dump_of([star(100, flags=3) for _ in range(64)]), {
        "table": [f"table {ONE}"] * 400,
        "no_table": ["table 9.9.9.9"] * 70_000,
        "no_comparison": ["compare 9.9.9.9"] * 60_000,
        "no_router": as_long_as_may_be(["fail-router 9.9.9.9"]),
        "cost": as_long_as_may_be([f"cost 0.0.0.63 {last} 1 7", "undo 1"]),
        "cost_refresh": [f"cost 0.0.0.63 {last} 1 7", "refresh", "undo 2"] * 30,
        "add_external": as_long_as_may_be([f"add-external {last} 10.0.0.0/8 1 1 0.0.0.0 0", "undo 1"]),
        "fail_router": as_long_as_may_be([f"fail-router {last}", "undo 1"]),
    }


def deep_history() -> tuple[bytes, Scripts]:
    """10,000 edits in a star of 1,500 routers, whose tables in the loaded database are asked for; kept trees dropped by edits."""
    edit = f"cost 0.0.0.0 {dotted(R1 + 7)} 1 11"
    return dump_of([star(1500)]), {
        "compare": [edit] * 10_000 + [f"compare {dotted(R1 + place)}" for place in range(300)],
        "compare_two": [edit] * 10_000 + [f"compare {dotted(R1 + place % 2)}" for place in range(300)],
        "undo_table": [edit] * 10_000 + ["undo 10000", f"table {ONE}", "redo 10000", f"table {ONE}"] * 30,
        "kept_trees": ["tables"] + [edit, "undo 1"] * 10_000,
    }


def one_record() -> tuple[bytes, Scripts]:
    """65,535 AS-external-LSAs that an edit removes at once."""
    externals = [external(0x40000000 + 256 * place, R2, 24, 20) for place in range(MOST_AS_LSAS)]
    lsas = [*star(3, flags=3), router(R2, [(1, R1, 1, 10)], 3)]
    other = dotted(R1 + 1)
    return dump_of([lsas], externals), {
        "compare": [f"fail-router {TWO}"] + [f"compare {ONE}", f"compare {other}"] * 20,
        "undo_redo": [f"fail-router {TWO}"] + ["undo 1", "redo 1"] * 300,
        "branches": [f"@{branch} {line}" for line in (f"fail-router {TWO}", f"compare {ONE}") for branch in range(8)],
    }


NETWORKS = {
    f"hostile-{made.__name__.replace('_', '-')}": made
    for made in (
        parallel, identical, two_way, hub, mesh, decreasing, lan, same_lan, lans_of_one_prefix, one_stub_network,
        one_summary, strange_summaries, summaries_of_one, boundary_routers, one_external, forward_to_hosts,
        forward_past_hosts, nested, one_edit, many_lsas, same_keys, falling_keys, chain_after_equal_ways, layers, lonely, star_tables,
        areas_of_one, borders, pairs, small_lan, many_areas, deep_history, one_record,
    )
}


def main(name: str, folder: str) -> None:
    dump, scripts = NETWORKS[name]()
    pathlib.Path(folder, f"{name}.dump").write_bytes(dump)
    for work, lines in scripts.items():
        pathlib.Path(folder, f"{name}.{work}.script").write_text("\n".join(lines) + "\n")


if __name__ == "__main__":
    main(*sys.argv[1:])

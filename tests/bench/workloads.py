#!/usr/bin/env python3
"""Large networks and scripts to measure the planner on. The same seed gives the same files.

`one100` to `one8192`: one area of this number of routers, joined by preferential attachment to about five links each, with
costs from 1 to 64 of which many tie, and two stub networks each. `chain8192`: a chain with links of cost 65535.
`mesh128`: a full mesh. `multi20k` and `multi65k`: a backbone of 200 routers and 16 areas of 200, the last two of them
stub areas, with two border routers each, LANs, summary-LSAs of both types between all areas, and 20,000 or 65,535
AS-external-LSAs; `multi500` is a small one of that kind. Their summary-LSAs have the metrics of RFC 2328, 12.4.3, so
that `refresh` changes nothing until an edit does.

    tests/bench/workloads.py NAME FOLDER

writes `NAME.dump` and a file `NAME.WORK.script` for each of its scripts.
"""
import heapq
import pathlib
import random
import struct
import sys
from dataclasses import dataclass, field

sys.path.append(str(pathlib.Path(__file__).resolve().parent.parent / "generated"))
from networks import dotted, mask  # noqa: E402

COSTS = [1, 1, 2, 2, 4, 4, 5, 8, 8, 10, 10, 10, 10, 16, 16, 20, 20, 32, 40, 64]
LS_INFINITY = 0xFFFFFF
FAR = 1 << 60
# The weights of the second sum of a checksum, for LSAs of any length.
WEIGHTS = list(range(70_000, 0, -1))

Prefix = tuple[int, int]


def lsa(kind: int, ident: int, adv: int, body: bytes, stub: bool = False) -> bytes:
    """An LSA with its checksum (RFC 2328, 12.1.7), made by sums over all bytes at once, since there are many."""
    head = struct.pack(">BBIII", 0 if stub else 2, kind, ident, adv, 0x80000001)
    data = head + b"\0\0" + struct.pack(">H", 20 + len(body)) + body
    length = len(data)
    first = sum(data) % 255
    second = sum(map(int.__mul__, data, WEIGHTS[-length:])) % 255
    check = ((length - 15) * first - second) % 255 or 255, (second - (length - 14) * first) % 255 or 255
    return b"\0\1" + head + bytes(check) + data[16:]


@dataclass
class Area:
    """Routers with their links, each (type, Link ID, Link Data, metric), and LANs."""

    ident: int
    chance: random.Random
    stub: bool = False
    links: dict[int, list[tuple[int, int, int, int]]] = field(default_factory=dict)
    flags: dict[int, int] = field(default_factory=dict)
    lans: list[tuple[int, int, list[int]]] = field(default_factory=list)
    summaries: list[tuple[int, int, int, int, int]] = field(default_factory=list)
    joined: int = 0

    def routers(self) -> list[int]:
        return list(self.links)

    def add_router(self, router: int) -> None:
        self.links[router] = []
        self.flags[router] = 0

    def join(self, one: int, other: int, there: int, back: int) -> None:
        data = 0x0A000000 + self.ident * 0x20000 + 2 * self.joined
        self.joined += 1
        self.links[one].append((1, other, data, there))
        self.links[other].append((1, one, data + 1, back))

    def add_stub(self, router: int, address: int, length: int, cost: int) -> None:
        self.links[router].append((3, address, mask(length), cost))

    def add_lan(self, address: int, routers: list[int]) -> None:
        ident = address + len(routers)
        for place, router in enumerate(routers, 1):
            self.links[router].append((2, ident, address + place, self.chance.choice(COSTS)))
        self.lans.append((ident, routers[-1], routers))

    def costs(self) -> tuple[int, int]:
        there = self.chance.choice(COSTS)
        return there, there if self.chance.random() < 0.9 else self.chance.choice(COSTS)

    def attach(self, degree: float) -> None:
        """Preferential attachment, then further links between near routers."""
        chance, routers = self.chance, self.routers()
        ends = [routers[0]]
        for router in routers[1:]:
            other = chance.choice(ends)
            self.join(router, other, *self.costs())
            ends += [router, other]
        for _ in range(int(len(routers) * (degree / 2 - 1))):
            place = chance.randrange(len(routers))
            near = min(len(routers) - 1, max(0, place + chance.randint(-40, 40)))
            one, other = routers[place], routers[near]
            if chance.random() >= 0.7:
                one, other = chance.choice(ends), chance.choice(ends)
            if one != other:
                self.join(one, other, *self.costs())

    def lsas(self) -> list[bytes]:
        made = []
        for router, links in self.links.items():
            body = struct.pack(">BBH", self.flags[router], 0, len(links))
            body += b"".join(struct.pack(">IIBBH", ident, data, kind, 0, cost) for kind, ident, data, cost in links)
            made.append(lsa(1, router, router, body, self.stub))
        for ident, adv, routers in self.lans:
            made.append(lsa(2, ident, adv, struct.pack(f">I{len(routers)}I", mask(24), *routers), self.stub))
        for kind, ident, adv, length, cost in self.summaries:
            body = struct.pack(">II", mask(length) if kind == 3 else 0, cost)
            made.append(lsa(kind, ident, adv, body, self.stub))
        return made

    def edges(self, vertex: tuple[str, int]) -> list[tuple[tuple[str, int], int]]:
        kind, ident = vertex
        if kind == "lan":
            return [(("router", router), 0) for lan, _, routers in self.lans if lan == ident for router in routers]
        names = {1: "router", 2: "lan"}
        return [((names[kind], other), cost) for kind, other, _, cost in self.links[ident] if kind in names]

    def distances(self, root: int) -> dict[tuple[str, int], int]:
        start = ("router", root)
        found, queue, settled = {start: 0}, [(0, start)], set()
        while queue:
            distance, vertex = heapq.heappop(queue)
            if vertex in settled:
                continue
            settled.add(vertex)
            for other, cost in self.edges(vertex):
                if distance + cost < found.get(other, FAR):
                    found[other] = distance + cost
                    heapq.heappush(queue, (distance + cost, other))
        return found

    def prefixes(self, distances: dict[tuple[str, int], int]) -> dict[Prefix, int]:
        """The least cost to each stub network and LAN."""
        best: dict[Prefix, int] = {}
        offers = [
            ((data and ident & data, bin(data).count("1")), distances[("router", router)] + cost)
            for router, links in self.links.items()
            if ("router", router) in distances
            for kind, ident, data, cost in links
            if kind == 3
        ]
        offers += [((ident & mask(24), 24), distances[("lan", ident)]) for ident, _, _ in self.lans if ("lan", ident) in distances]
        for net, cost in offers:
            best[net] = min(best.get(net, FAR), cost)
        return best

    def random_cost(self, chance: random.Random, metric: int | None = None) -> str:
        """A line that changes the cost of a link to a router or a LAN."""
        while True:
            router = chance.choice(self.routers())
            numbers = [number for number, link in enumerate(self.links[router], 1) if link[0] != 3]
            if numbers:
                cost = metric or chance.randint(1, 64)
                return f"cost {dotted(self.ident)} {dotted(router)} {chance.choice(numbers)} {cost}"


def area_of(size: int, step: int, chance: random.Random) -> Area:
    """A backbone of `size` routers without links, with IDs from 1.0.0.1 in steps of `step`."""
    area = Area(0, chance)
    for place in range(size):
        area.add_router(0x01000001 + step * place)
    return area


def one_area(size: int, chance: random.Random) -> Area:
    area = area_of(size, 0x101, chance)
    area.attach(chance.uniform(4.5, 5.5))
    for place, router in enumerate(area.routers()):
        area.add_stub(router, 0xC0A80000 + place, 32, chance.choice([0, 1]))
        # One network in fifty has two routers, so that ways tie.
        shared = place if chance.random() < 0.98 else max(0, place - 1)
        area.add_stub(router, 0x14000000 + 256 * shared, 24, chance.choice([1, 10]))
    return area


def chain(size: int, chance: random.Random) -> Area:
    area = area_of(size, 1, chance)
    routers = area.routers()
    for one, other in zip(routers, routers[1:]):
        area.join(one, other, 65535, 65535)
    for place, router in enumerate(routers):
        area.add_stub(router, 0x14000000 + 256 * place, 24, 65535 if place == size - 1 else 1)
    return area


def mesh(size: int, chance: random.Random) -> Area:
    area = area_of(size, 1, chance)
    routers = area.routers()
    for place, router in enumerate(routers):
        for other in routers[:place]:
            cost = chance.choice([5, 10, 10, 10, 20])
            area.join(router, other, cost, cost)
        area.add_stub(router, 0xC0A80000 + place, 32, 0)
        area.add_stub(router, 0x14000000 + 256 * place, 24, 10)
    return area


class SeveralAreas:
    """A backbone and other areas, with two border routers each."""

    def __init__(self, externals: int, chance: random.Random, others: int = 16, size: int = 200) -> None:
        self.chance = chance
        self.areas = [Area(ident, chance, stub=ident > others - 2) for ident in range(others + 1)]
        for area in self.areas:
            for place in range(size):
                area.add_router(0x01000001 + (area.ident << 16) + place)
        self.border: dict[int, Area] = {}
        for area in self.areas[1:]:
            self.share_border(area)
        for area in self.areas:
            self.fill(area)
        self.boundary = self.boundary_routers()
        self.add_summaries()
        self.externals = self.external_routes(externals)

    def share_border(self, area: Area) -> None:
        """Two routers of the backbone take the place of the area's first two."""
        backbone = self.areas[0]
        free = [router for router in backbone.routers() if router not in self.border]
        for old, router in zip(area.routers()[:2], self.chance.sample(free, 2)):
            del area.links[old], area.flags[old]
            area.add_router(router)
            area.flags[router] |= 1
            backbone.flags[router] |= 1
            self.border[router] = area

    def fill(self, area: Area) -> None:
        area.attach(self.chance.uniform(3.6, 4.6))
        for place, router in enumerate(area.routers()):
            area.add_stub(router, 0x14000000 + (area.ident << 16) + 256 * place, 24, self.chance.choice([1, 10]))
        for place in range(10):
            routers = self.chance.sample(area.routers(), self.chance.randint(3, 6))
            area.add_lan(0x1E000000 + (area.ident << 16) + 256 * place, routers)

    def boundary_routers(self) -> list[tuple[int, Area]]:
        """AS boundary routers: some of the backbone, and one of each area that is not a stub area."""
        found: dict[int, Area] = {}
        for area in self.areas[:1] * 6 + [area for area in self.areas[1:] if not area.stub]:
            router = self.chance.choice([router for router in area.routers() if router not in self.border])
            area.flags[router] |= 2
            found[router] = area
        return sorted(found.items())

    def dues_of(self, area: Area, distances: dict[tuple[str, int], int]) -> dict[tuple[int, Prefix], int]:
        """The metrics due for an area's networks (type 3) and AS boundary routers (type 4), at these distances in it."""
        dues = {(3, net): cost for net, cost in area.prefixes(distances).items()}
        for asbr, home in self.boundary:
            if home is area and ("router", asbr) in distances:
                dues[4, (asbr, 0)] = distances["router", asbr]
        return dues

    def add_summaries(self) -> None:
        """The summary-LSAs of each border router, with the metrics of RFC 2328, 12.4.3."""
        backbone = self.areas[0]
        reachable: dict[tuple[int, Prefix], list[tuple[int, int]]] = {}
        for router, area in self.border.items():
            distances = area.distances(router)
            for (kind, net), cost in sorted(self.dues_of(area, distances).items()):
                if cost < LS_INFINITY:
                    reachable.setdefault((kind, net), []).append((router, cost))
                    backbone.summaries.append((kind, net[0], router, net[1], cost))
        for router, area in self.border.items():
            self.announce(area, router, reachable)

    def announce(self, area: Area, router: int, reachable: dict[tuple[int, Prefix], list[tuple[int, int]]]) -> None:
        """The summary-LSAs of a border router in its area: networks and AS boundary routers of the backbone and of other areas."""
        backbone = self.areas[0]
        distances = backbone.distances(router)
        own = set(area.prefixes(area.distances(router)))
        dues = self.dues_of(backbone, distances)
        homes = dict(self.boundary)
        for (kind, net), ways in reachable.items():
            costs = [distances["router", other] + cost for other, cost in ways if other != router and ("router", other) in distances]
            if (kind, net) not in dues and costs and not (kind == 4 and homes[net[0]] is area):
                dues[kind, net] = min(costs)
        if area.stub:
            dues = {(kind, net): cost for (kind, net), cost in dues.items() if kind == 3} | {(3, (0, 0)): 1}
        for (kind, net), cost in sorted(dues.items()):
            if cost < LS_INFINITY and not (kind == 3 and net in own):
                area.summaries.append((kind, net[0], router, net[1], cost))

    def external_routes(self, count: int) -> list[tuple[int, int, int, int, int, int]]:
        """(address, originator, length, metric with the bit E, forwarding address, tag) of each AS-external-LSA."""
        chance = self.chance
        forwards = [ident + 60 for area in self.areas if not area.stub for ident, _, _ in area.lans[:3]]
        made: dict[tuple[int, int], tuple[int, int, int, int, int, int]] = {}
        while len(made) < count:
            length = chance.choice([24, 24, 24, 22, 20, 16, 32])
            address = chance.randrange(0x40000000, 0xC0000000) & mask(length)
            if made and chance.random() < 0.1:
                address, _, length = chance.choice(list(made.values())[-50:])[:3]
            router, _ = chance.choice(self.boundary)
            metric = chance.choice([1, 20, 20, 20, 50, 100]) | (chance.random() < 0.8) << 31
            forward = chance.choice(forwards) if chance.random() < 0.1 else 0
            made.setdefault((address, router), (address, router, length, metric, forward, chance.choice([0, 65001])))
        return list(made.values())


def dump_of(areas: list[Area], externals: list[tuple[int, int, int, int, int, int]]) -> bytes:
    parts = [b"OSWP\x01", bytes([len(areas)])]
    for area in areas:
        lsas = area.lsas()
        parts += [struct.pack(">IBH", area.ident, area.stub, len(lsas)), *lsas]
    parts.append(struct.pack(">H", len(externals)))
    for address, router, length, metric, forward, tag in externals:
        parts.append(lsa(5, address, router, struct.pack(">IIII", mask(length), metric, forward, tag)))
    return b"".join(parts)


def area_scripts(area: Area, chance: random.Random) -> dict[str, list[str]]:
    """What is done with one area: tables, costs changed and undone, comparisons, branches."""
    routers = area.routers()
    size, middle = len(routers), dotted(routers[len(routers) // 2])

    def costs(count: int) -> list[str]:
        return [area.random_cost(chance) for _ in range(count)]

    some = [dotted(router) for router in chance.sample(routers, min(200 if size <= 4000 else 60, size))]
    eight = [dotted(router) for router in chance.sample(routers, 8)]
    scripts = {
        "table": [f"table {middle}"],
        "edit_table": [line for cost in costs(1000 if size <= 1000 else 250) for line in (cost, f"table {middle}", "undo 1")],
        "edits": costs(10_000) + ["info", "undo 10000", "info", "redo 10000", "undo 10000"],
        "compare": costs(20) + [f"compare {router}" for router in some],
        "branches": [
            line
            for _ in range(50 if size <= 1000 else 10)
            for branch, router in enumerate(eight)
            for line in (f"@{branch} {area.random_cost(chance)}", f"@{branch} table {router}")
        ],
    }
    if size <= 1000:
        scripts["tables"] = ["tables", *costs(1), "tables"]
    if size == 8192:
        scripts["edit_compare"] = [line for cost in costs(250) for line in (cost, f"compare {middle}", "undo 1")]
    return scripts


def several_scripts(net: SeveralAreas, chance: random.Random) -> dict[str, list[str]]:
    """What is done with several areas: tables, `refresh`, external routes, comparisons, failures, branches."""

    def any_of(area: Area) -> str:
        return dotted(chance.choice(area.routers()))

    some = [dotted(router) for router in chance.sample([router for area in net.areas for router in area.links], 40)]
    around = [net.areas[place % len(net.areas)] for place in range(100)]
    refresh = [line for area in around[:20] for line in (area.random_cost(chance), "refresh", f"table {any_of(net.areas[1])}", "undo 1")]
    external = []
    for place, (address, router, length, *_) in enumerate(chance.sample(net.externals, min(len(net.externals), 4000))):
        external.append(f"drop-external {dotted(router)} {dotted(address)}/{length}")
        if place % 2:
            external.append(f"add-external {dotted(router)} {dotted(0xC8000000 + 256 * place)}/24 2 {chance.randint(1, 99)} 0.0.0.0 0")
    failing = chance.sample(sorted(net.border.items(), key=lambda item: item[0]), 8) + net.boundary[:4]
    fail = [line for router, area in failing for line in (f"fail-router {dotted(router)}", "refresh", f"compare {any_of(area)}", "undo 2")]
    fail += [line for area in net.areas for line in (f"fail-net {dotted(area.ident)} {dotted(area.lans[0][0])}", f"compare {any_of(area)}", "undo 1")]
    branches = [
        line
        for turn in range(5)
        for branch in range(8)
        for area in [net.areas[branch * 2 % len(net.areas)]]
        for line in (f"@{branch} {area.random_cost(chance)}", f"@{branch} refresh", f"@{branch} {'table' if turn == 4 else 'compare'} {any_of(area)}")
    ]
    return {
        "table": [f"table {some[0]}"],
        "tables40": [f"table {router}" for router in some],
        "refresh": ["refresh", "info", *refresh, "refresh", "info", "undo 21"],
        "externals": [*external, "info", f"undo {len(external)}"],
        "edit_compare": [
            line
            for place, area in enumerate(around)
            for line in (area.random_cost(chance, 1 + 63 * (place % 2)), f"compare {any_of(area)}", "undo 1")
        ],
        "fail": fail,
        "branches": branches,
    }


EXTERNALS = {"multi500": 500, "multi20k": 20_000, "multi65k": 65_535}


def made(name: str) -> tuple[bytes, dict[str, list[str]]]:
    """The dump of a network, and its scripts by their names."""
    chance = random.Random(f"ospf-plan {name}")
    if name in EXTERNALS:
        small = {"others": 6, "size": 30} if name == "multi500" else {}
        net = SeveralAreas(EXTERNALS[name], chance, **small)
        return dump_of(net.areas, net.externals), several_scripts(net, chance)
    kinds = {"one": one_area, "chain": chain, "mesh": mesh}
    kind = name.rstrip("0123456789")
    area = kinds[kind](int(name[len(kind):]), chance)
    return dump_of([area], []), area_scripts(area, chance)


def main(name: str, folder: str) -> None:
    dump, scripts = made(name)
    pathlib.Path(folder, f"{name}.dump").write_bytes(dump)
    for work, lines in scripts.items():
        pathlib.Path(folder, f"{name}.{work}.script").write_text("\n".join(lines) + "\n")


if __name__ == "__main__":
    main(*sys.argv[1:])

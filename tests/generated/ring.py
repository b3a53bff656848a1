"""A ring of 40 routers with ten networks of four neighboring routers each: the table of each router, worked out by a
plain program that knows of no shortest-path tree (RFC 2328, 16.1 and 16.1.1): distances by rounds over all edges, and
each next hop given from the first edges of a path to all that ways of least cost lead to from there."""
from cases import Case
from large import POINT_TO_POINT, STUB, dotted, dump_of, lsa, router, run_of, table

ROUTERS, NETWORKS = 40, 10
TRANSIT = 2
MASK = 0xFFFFFF00
# A router that names one of the ring, and that none names.
ALONE = 0x09090909

# The distances from the first router where the costs are uneven: of the routers, and then of the networks.
FROM_FIRST = [
    0, 1, 2, 5, 6, 8, 8, 9, 11, 13, 13, 15, 18, 19, 20, 23, 24, 26, 26, 27, 29, 31, 31, 29, 28, 28, 26, 22, 21, 21, 19,
    15, 14, 14, 12, 8, 7, 7, 5, 1, 2, 8, 13, 20, 26, 31, 28, 21, 14, 7,
]
# The next hops of the first router to the twenty-second where ways are equal, and how many there are of all routers to all.
FARTHEST = ["link:10.0.0.1", "link:10.0.0.2", "link:10.0.0.4", "link:10.0.0.5", "gateway:10.6.0.0:10.6.0.2"]
HOPS_OF_ALL = 2638

# An edge: the vertex that it leads to, its cost, and the address of the router's interface.
Edge = tuple[int, int, int]
# A hop: its kind in the order of hops, and its addresses.
Hop = tuple[int, ...]


def ident(place: int) -> int:
    return 0x01010100 + place % ROUTERS


def network(place: int) -> int:
    """The address of the Designated Router on the network of a place."""
    return 0x0A050001 + (place // 4 % NETWORKS << 8)


LANS = {network(4 * number) for number in range(NETWORKS)}
KINDS = ["connected", "link", "attached", "gateway"]


def costs(place: int, is_equal: bool) -> tuple[int, int]:
    """The costs of the links to the next place and back."""
    return (1, 2 if place % 5 == 0 else 1) if is_equal else (1 + place % 3, 1 + place % 4)


def links(place: int, is_equal: bool) -> list[tuple[int, int, int, int]]:
    """A router's links to both neighbors, to its network unless it is the last of the four, at each eighth place to a
    router that has no link back, and where ways are equal at each tenth place twice more to the next one."""
    front = 0x0A000000 | place << 8
    on, back = costs(place, is_equal)
    found = [(ident(place + 1), front | 1, POINT_TO_POINT, on), (ident(place + 39), front | 2, POINT_TO_POINT, back)]
    if place % 4 != 3:
        found.append((network(place), 0x0A060000 | place, TRANSIT, 2))
    if place % 8 == 0:
        found.append((ident(place + 20), front | 3, POINT_TO_POINT, 1))
    if is_equal and place % 10 == 0:
        found += [(ident(place + 1), front | 5, POINT_TO_POINT, 1), (ident(place + 1), front | 4, POINT_TO_POINT, 1)]
    return found


def edges(rows: dict[int, list[tuple[int, int, int, int]]]) -> dict[int, list[Edge]]:
    """The edges out of each vertex: over links of which the other end names the router too."""
    lists = {network(4 * number): [ident(4 * number + place) for place in range(4)] for number in range(NETWORKS)}
    found = {vertex: [] for vertex in [*rows, *lists]}
    for one, row in rows.items():
        for other, data, kind, cost in row:
            if kind == TRANSIT and one in lists[other]:
                found[one].append((other, cost, data))
                found[other].append((one, 0, data))
            if kind == POINT_TO_POINT and any(back[:1] + back[2:3] == (one, POINT_TO_POINT) for back in rows[other]):
                found[one].append((other, cost, data))
    return found


def distances(graph: dict[int, list[Edge]], root: int) -> dict[int, int]:
    """The distance of each vertex that is reached: rounds over all edges until nothing is nearer."""
    found, is_nearer = {root: 0}, True
    while is_nearer:
        is_nearer = False
        for one, row in graph.items():
            for other, cost, _ in row:
                if one in found and found[one] + cost < found.get(other, 1 << 32):
                    found[other], is_nearer = found[one] + cost, True
    return found


def hops(graph: dict[int, list[Edge]], root: int, near: dict[int, int]) -> dict[int, set[Hop]]:
    """The next hops of each vertex, by the first two edges of the ways of least cost to it."""
    found: dict[int, set[Hop]] = {vertex: set() for vertex in graph}

    def tight(one: int) -> list[Edge]:
        return [edge for edge in graph[one] if one in near and near[one] + edge[1] == near[edge[0]]]

    def give(hop: Hop, vertex: int) -> None:
        if hop not in found[vertex]:
            found[vertex].add(hop)
            for other, _, _ in tight(vertex):
                give(hop, other)

    for other, _, data in tight(root):
        if other not in LANS:
            give((1, data), other)
            continue
        found[other].add((2, data))
        for beyond, _, address in tight(other):
            give((3, data, address), beyond)
    return found


def hop_text(hop: Hop) -> str:
    return ":".join([KINDS[hop[0]], *map(dotted, hop[1:])])


def lines(graph: dict[int, list[Edge]], root: int) -> list[str]:
    """The table of a router: a stub network of cost 1 of each router, and the networks."""
    near = distances(graph, root)
    ways = hops(graph, root, near)
    ways[root] = {(0,)}
    found = []
    for vertex, cost in near.items():
        net = vertex & MASK if vertex in LANS else 0x14000000 | (vertex & 0xFFFF) << 8
        way = ",".join(map(hop_text, sorted(ways[vertex])))
        found.append((net, f"{dotted(net)}/24 intra {cost + (vertex not in LANS)} 0 0.0.0.0 {way}"))
    return [line for _, line in sorted(found)]


def tables(is_equal: bool) -> Case:
    """The tables of all routers, and of the one that none names."""
    rows = {ident(place): links(place, is_equal) for place in range(ROUTERS)}
    rows[ALONE] = [(ident(0), 0x0A000004, POINT_TO_POINT, 1)]
    graph = edges(rows)
    check(graph, is_equal)
    lsas = [router(one, [*row, (0x14000000 | (one & 0xFFFF) << 8, MASK, STUB, 1)]) for one, row in rows.items()]
    for number in range(NETWORKS):
        routers = b"".join(ident(4 * number + place).to_bytes(4, "big") for place in range(4))
        lsas.append(lsa(2, network(4 * number), ident(4 * number), MASK.to_bytes(4, "big") + routers))
    return run_of(dump_of([lsas], []), [table(dotted(one), lines(graph, one)) for one in rows])


def check(graph: dict[int, list[Edge]], is_equal: bool) -> None:
    """The plain program finds what is known of the ring."""
    near = distances(graph, ident(0))
    if is_equal:
        found = {one: hops(graph, one, distances(graph, one)) for one in map(ident, range(ROUTERS))}
        assert [hop_text(hop) for hop in sorted(found[ident(0)][ident(21)])] == FARTHEST
        assert sum(len(of) for each in found.values() for of in each.values()) == HOPS_OF_ALL
    else:
        assert [near[ident(place)] for place in range(ROUTERS)] + [near[lan] for lan in sorted(LANS)] == FROM_FIRST


def cases() -> list[tuple[str, Case]]:
    return [("ring/equal_ways", tables(True)), ("ring/uneven_costs", tables(False))]

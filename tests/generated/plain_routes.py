"""Calculates routing tables as RFC 2328, section 16, and docs/DECISIONS.md have them, in plain steps; and the metrics that
`refresh` gives to summary-LSAs (docs/FORMATS.md).

It was written from these alone, so that it can be compared with the program. Nothing in it is fast.
"""
import dataclasses
import functools
import heapq

from plain_reader import number

INFINITY = 16777215
BACKBONE = 0

# A hop is its kind and its addresses, so that they sort as they are printed.
CONNECTED, LINK, ATTACHED, GATEWAY = range(4)
KINDS = ["connected", "link", "attached", "gateway"]
Hops = frozenset[tuple]
# The address and the length of a prefix.
Net = tuple[int, int]


def is_live(lsa: bytes) -> bool:
    return number(lsa[:2]) % 32768 < 3600


def links(lsa: bytes) -> list[tuple[int, bytes, bytes, int]]:
    """Type, Link ID, Link Data and metric of each link of a router-LSA."""
    found, at = [], 24
    while at < len(lsa):
        found.append((lsa[at + 8], lsa[at:at + 4], lsa[at + 4:at + 8], number(lsa[at + 10:at + 12])))
        at += 12 + 4 * lsa[at + 9]
    return found


def net_of(address: bytes, mask: bytes) -> Net:
    return number(address) & number(mask), f"{number(mask):032b}".count("1")


# ---- one area (16.1)


class Graph:
    """The routers of an area by their IDs, its networks by their Link State IDs, and the edges between them."""

    def __init__(self, lsas: tuple[bytes, ...]):
        self.routers = {lsa[4:8]: lsa for lsa in lsas if lsa[3] == 1 and is_live(lsa)}
        self.networks: dict[bytes, bytes] = {}
        for lsa in lsas:
            if lsa[3] == 2 and is_live(lsa):
                other = self.networks.get(lsa[4:8])
                if other is None or other[8:12] < lsa[8:12]:
                    self.networks[lsa[4:8]] = lsa
        self.links = {router: links(lsa) for router, lsa in self.routers.items()}
        # The edges of each vertex, each with where it leads, its cost and its Link Data.
        self.edges: dict[tuple[str, bytes], list[tuple[tuple[str, bytes], int, bytes]]] = {}
        for network in self.networks:
            self.edges["network", network] = []
        for router in self.routers:
            self.edges["router", router] = []
        self.add_edges()

    def attached(self, network: bytes) -> set[bytes]:
        lsa = self.networks[network]
        return {lsa[at:at + 4] for at in range(24, len(lsa), 4)}

    def add_edges(self) -> None:
        """Adds an edge for each link that has one back."""
        neighbors = {(router, link[1]) for router, its_links in self.links.items() for link in its_links if link[0] == 1}
        attached = {(network, router) for network in self.networks for router in self.attached(network)}
        for router, its_links in self.links.items():
            for kind, there, data, metric in its_links:
                if kind == 1 and (there, router) in neighbors:
                    self.edges["router", router].append((("router", there), metric, data))
                elif kind == 2 and (there, router) in attached:
                    self.edges["router", router].append((("network", there), metric, data))
                    self.edges["network", there].append((("router", router), 0, data))


graph_of = functools.lru_cache(256)(Graph)


def handed_on(hops: Hops, data: bytes) -> Hops:
    """The hops of a network, for a router that is attached to it by this address."""
    return frozenset((GATEWAY, hop[1], data) if hop[0] == ATTACHED else hop for hop in hops)


@functools.lru_cache(1024)
def tree(lsas: tuple[bytes, ...], root: bytes) -> dict[tuple[str, bytes], tuple[int, Hops]]:
    """The distance and the hops of each vertex that is reached."""
    graph, start = graph_of(lsas), ("router", root)
    distance, queue = {start: 0}, [(0, start)]
    while queue:
        far, vertex = heapq.heappop(queue)
        if far > distance[vertex]:
            continue
        for there, metric, _ in graph.edges[vertex]:
            if far + metric < distance.get(there, 2 ** 40):
                distance[there] = far + metric
                heapq.heappush(queue, (far + metric, there))
    # A network comes before the routers that are as far, since from it to them it costs nothing.
    hops: dict[tuple[str, bytes], Hops] = {vertex: frozenset() for vertex in distance}
    for vertex in sorted(distance, key=lambda vertex: (distance[vertex], vertex[0])):
        for there, metric, data in graph.edges[vertex]:
            if distance[vertex] + metric != distance[there]:
                continue
            if vertex == start:
                hops[there] |= {(LINK if there[0] == "router" else ATTACHED, data)}
            else:
                hops[there] |= handed_on(hops[vertex], data) if vertex[0] == "network" else hops[vertex]
    return {vertex: (distance[vertex], hops[vertex]) for vertex in distance}


@dataclasses.dataclass(frozen=True)
class Route:
    """A route: its kind, cost and second cost, its areas, and its hops."""

    kind: str
    cost: int
    cost2: int
    areas: frozenset[int]
    hops: Hops

    def joined(self, other: "Route") -> "Route":
        return dataclasses.replace(self, areas=self.areas | other.areas, hops=self.hops | other.hops)


def best(routes: dict, there, route: Route) -> None:
    """Takes a route of one kind into account: the least cost wins, and equal ones are joined."""
    other = routes.get(there)
    if other is None or route.cost < other.cost:
        routes[there] = route
    elif route.cost == other.cost:
        routes[there] = other.joined(route)


def routes_in(area: int, lsas: tuple[bytes, ...], root: bytes) -> dict[Net, Route]:
    """What an area offers: its networks, of which one counts for each prefix, and its stub networks."""
    graph, found, routes = graph_of(lsas), tree(lsas, root), {}
    nearest: dict[Net, tuple] = {}
    for network, lsa in graph.networks.items():
        if ("network", network) in found:
            far, hops = found["network", network]
            net = net_of(network, lsa[20:24])
            if net not in nearest or (far, -number(network)) < nearest[net][:2]:
                nearest[net] = (far, -number(network), hops)
    for net, (far, _, hops) in nearest.items():
        best(routes, net, Route("intra", far, 0, frozenset([area]), hops))
    for router, its_links in graph.links.items():
        if ("router", router) in found:
            far, hops = found["router", router]
            for kind, ident, mask, metric in its_links:
                if kind == 3:
                    here = frozenset([(CONNECTED,)]) if router == root else hops
                    best(routes, net_of(ident, mask), Route("intra", far + metric, 0, frozenset([area]), here))
    return routes


# ---- a router (16.2, 16.4)


@dataclasses.dataclass
class Inside:
    """The ways of a router inside the AS: routes to networks, and to other AS boundary routers, for each by area."""

    routes: dict[Net, Route]
    asbrs: dict[bytes, dict[int, Route]]


def is_attached(lsas: tuple[bytes, ...], router: bytes) -> bool:
    return any(lsa[3] == 1 and lsa[4:8] == router and is_live(lsa) for lsa in lsas)


Areas = tuple[tuple[int, int, tuple[bytes, ...]], ...]


@functools.lru_cache(1024)
def inside(areas: Areas, root: bytes) -> Inside | None:
    """The ways of a router through areas, each with its ID, its kind and its LSAs; none where it is attached to none."""
    attached = {area: lsas for area, _, lsas in areas if is_attached(lsas, root)}
    if not attached:
        return None
    routes: dict[Net, Route] = {}
    asbrs: dict[bytes, dict[int, Route]] = {}
    for area, lsas in attached.items():
        for net, route in routes_in(area, lsas, root).items():
            best(routes, net, route)
        for (kind, router), (far, hops) in tree(lsas, root).items():
            if kind == "router" and router != root and graph_of(lsas).routers[router][20] & 2:
                asbrs.setdefault(router, {})[area] = Route("intra", far, 0, frozenset([area]), hops)
    where = next(iter(attached)) if len(attached) == 1 else BACKBONE
    if where in attached:
        add_summaries(routes, asbrs, where, attached[where], root)
    return Inside(routes, asbrs)


def add_summaries(routes: dict, asbrs: dict, area: int, lsas: tuple[bytes, ...], root: bytes) -> None:
    """Takes the summary-LSAs of an area into account."""
    found, graph, nets, ways = tree(lsas, root), graph_of(lsas), {}, {}
    for lsa in lsas:
        metric, origin = number(lsa[25:28]), lsa[8:12]
        if lsa[3] not in (3, 4) or not is_live(lsa) or metric == INFINITY or origin == root:
            continue
        if ("router", origin) not in found or not graph.routers[origin][20] & 1:
            continue
        far, hops = found["router", origin]
        route = Route("inter", far + metric, 0, frozenset([area]), hops)
        if lsa[3] == 3:
            best(nets, net_of(lsa[4:8], lsa[20:24]), route)
        elif lsa[4:8] != root:
            best(ways, lsa[4:8], route)
    for net, route in nets.items():
        routes.setdefault(net, route)
    for router, route in ways.items():
        asbrs.setdefault(router, {}).setdefault(area, route)


def class_of(route: Route) -> int:
    """0 for ways within areas other than the backbone, which come first (16.4.1)."""
    return 0 if route.kind == "intra" and any(area != BACKBONE for area in route.areas) else 1


def preferred(ways: dict[int, Route]) -> tuple[int, Route]:
    """The preferred of the ways to an AS boundary router, and its area (16.4.1)."""
    return min(ways.items(), key=lambda way: (class_of(way[1]), way[1].cost, -way[0]))


def match(routes: dict[Net, Route], address: bytes) -> Route | None:
    """The route of the longest prefix that covers an address."""
    for length in range(32, -1, -1):
        net = number(address) & (2 ** 32 - 2 ** (32 - length)), length
        if net in routes:
            return routes[net]
    return None


def externals(ways: Inside, areas: Areas, as_wide: tuple[bytes, ...], root: bytes) -> dict[Net, Route]:
    """The external routes."""
    found: dict[Net, tuple[tuple, Route]] = {}
    if not any(kind == 0 and is_attached(lsas, root) for _, kind, lsas in areas):
        return {}
    for lsa in as_wide:
        metric, net = number(lsa[25:28]), net_of(lsa[4:8], lsa[20:24])
        if lsa[3] != 5 or not is_live(lsa) or metric == INFINITY or lsa[8:12] == root or net in ways.routes:
            continue
        if lsa[8:12] not in ways.asbrs:
            continue
        way: Route | None = preferred(ways.asbrs[lsa[8:12]])[1]
        if lsa[28:32] != bytes(4):
            way = match(ways.routes, lsa[28:32])
        if way is None:
            continue
        hops = handed_on(way.hops, lsa[28:32]) if lsa[28:32] != bytes(4) else way.hops
        if lsa[24] & 128:
            rank, route = (2, metric, class_of(way), way.cost), Route("ext2", way.cost, metric, frozenset(), hops)
        else:
            cost = way.cost + metric
            rank, route = (1, 0, class_of(way), cost), Route("ext1", cost, 0, frozenset(), hops)
        if net not in found or rank < found[net][0]:
            found[net] = rank, route
        elif rank == found[net][0]:
            found[net] = rank, found[net][1].joined(route)
    return {net: route for net, (_, route) in found.items()}


def dotted(address: bytes) -> str:
    return ".".join(map(str, address))


def line(net: Net, route: Route) -> bytes:
    """The line of a route in a table."""
    hops = ",".join(":".join([KINDS[hop[0]], *map(dotted, hop[1:])]) for hop in sorted(route.hops))
    area = dotted(min(route.areas).to_bytes(4, "big")) if route.areas else "-"
    return f"{dotted(net[0].to_bytes(4, 'big'))}/{net[1]} {route.kind} {route.cost} {route.cost2} {area} {hops}".encode()


def table(areas: Areas, as_wide: tuple[bytes, ...], root: bytes) -> tuple[bytes, ...]:
    """The lines of the table of a router; none where it is attached to no area."""
    ways = inside(areas, root)
    if ways is None:
        return ()
    routes = externals(ways, areas, as_wide, root) | ways.routes
    return tuple(line(net, route) for net, route in sorted(routes.items()))


# ---- the metrics of summary-LSAs (12.4.3)


def is_covered(areas: Areas, area: int, kind: int, lsa: bytes) -> bool:
    """Whether the metric of an LSA of this area is one that its originator calculates."""
    if lsa[3] not in (3, 4) or not is_live(lsa):
        return False
    if kind == 1 and lsa[3] == 3 and lsa[20:24] == bytes(4):
        return False
    attached = [other for other, _, lsas in areas if is_attached(lsas, lsa[8:12])]
    return area in attached and len(attached) > 1


def due(areas: Areas, area: int, kind: int, lsa: bytes) -> int:
    """The metric that the originator of a summary-LSA announces."""
    ways, way, its_areas = inside(areas, lsa[8:12]), None, frozenset()
    if lsa[3] == 3:
        way = ways.routes.get(net_of(lsa[4:8], lsa[20:24]))
        its_areas = way.areas if way else its_areas
    elif kind == 0 and lsa[4:8] in ways.asbrs:
        through, way = preferred(ways.asbrs[lsa[4:8]])
        its_areas = frozenset([through])
    if way is None or area in its_areas or (area == BACKBONE and way.kind == "inter"):
        return INFINITY
    return min(way.cost, INFINITY)


def refreshed(areas: Areas, with_metric) -> Areas:
    """The areas with the metrics that summary-LSAs are due: first those of the backbone, then the others."""
    for is_turn in (lambda area: area == BACKBONE, lambda area: area != BACKBONE):
        made = []
        for area, kind, lsas in areas:
            new = list(lsas)
            for place, lsa in enumerate(lsas):
                if is_turn(area) and is_covered(areas, area, kind, lsa):
                    metric = due(areas, area, kind, lsa)
                    if metric != number(lsa[25:28]):
                        new[place] = with_metric(lsa, metric)
            made.append((area, kind, tuple(new)))
        areas = tuple(made)
    return areas

#!/usr/bin/env python3
"""Carries events out on databases, in plain steps: what the routers of a network originate after a link is cut, an interface
gets another cost, a router is drained, or a router fails; and, by plain_additions.py, after links, routers and prefixes come or go.

It was written from RFC 2328 (9.4, 12.4.1, 12.4.2, 14) and RFC 6987 alone, so that it can be compared with the program. Summaries
of border routers and their bit B are left as they are.

usage: tests/generated/plain_events.py FOLDER..

Each folder has dumps `d0.oswp`, `d1.oswp` and so on of a real network, and `events.txt`, whose line K is the event between two of
them. The LSAs of types 1, 2 and 5 after each event must be those of the next dump by meaning: flags without bit B, links and
routers in any order, the address of each Designated Router as one of its network, an unnumbered link without its ifIndex. LSAs of
a router that failed may still stand there; one that withdraws its last external prefix may keep bit E, as it does in FRR while it
still redistributes. The last line is `N passed, M failed`.
"""
import collections
import pathlib
import sys

import plain_additions
from plain_planner import Refused, State, address, links_of, originated, prefix, router_key, state_of, with_links, with_metric
from plain_reader import number, with_checksum
from plain_routes import is_live, net_of
from plain_settling import RAISED

POINT_TO_POINT, TRANSIT, STUB = 1, 2, 3
MAX_LINK_METRIC = 65535


# ---- links and interfaces (12.4.1, A.4.2)


def leads_to(link: bytes, kind: int, ident: bytes) -> bool:
    return link[8] == kind and link[:4] == ident


def covers(stub: bytes, host: bytes) -> bool:
    """Whether the network of a stub link has an address."""
    mask = number(stub[4:8])
    return stub[8] == STUB and number(stub[:4]) & mask == number(host) & mask


def with_cost(link: bytes, metric: int) -> bytes:
    return link[:10] + metric.to_bytes(2, "big") + link[12:]


def router_lsa(lsas, router: bytes) -> bytes | None:
    """The router-LSA of a router in an area, below MaxAge."""
    return next((lsa for lsa in lsas if lsa[3:12] == router_key(router) and is_live(lsa)), None)


def links_in(lsas, router: bytes) -> list[bytes]:
    lsa = router_lsa(lsas, router)
    return links_of(lsa) if lsa else []


def stub_of(links: list[bytes], place: int) -> bytes | None:
    """The stub link right after a point-to-point link, which may be that of its interface."""
    after = links[place + 1:place + 2]
    if links[place][8] != POINT_TO_POINT or not after or after[0][8] != STUB:
        return None
    return after[0] if covers(after[0], links[place][4:8]) or number(after[0][4:8]) == 0xFFFFFFFF else None


def far_ends(lsas, router: bytes, place: int) -> list[int]:
    """The places of the neighbor's links at the other end of a link, by their addresses where these say it."""
    links = links_in(lsas, router)
    if links[place][8] != POINT_TO_POINT:
        return []
    theirs = links_in(lsas, links[place][:4])
    back = [at for at, link in enumerate(theirs) if leads_to(link, POINT_TO_POINT, router)]
    own, facing = stub_of(links, place), []
    for at in back:
        stub = stub_of(theirs, at)
        if (own and covers(own, theirs[at][4:8])) or (stub and covers(stub, links[place][4:8])):
            facing.append(at)
    return facing or back


def places_of(lsas, router: bytes, place: int) -> list[int]:
    """The places of the links of an interface: its own, and that of its network."""
    links = links_in(lsas, router)
    stub = stub_of(links, place)
    theirs = links_in(lsas, links[place][:4])
    ends = [theirs[at][4:8] for at in far_ends(lsas, router, place)]
    is_own = stub and any(covers(stub, host) for host in [links[place][4:8], *ends])
    return [place, place + 1] if is_own else [place]


def places_to(lsas, router: bytes, neighbor: bytes) -> list[int]:
    return [at for at, link in enumerate(links_in(lsas, router)) if leads_to(link, POINT_TO_POINT, neighbor)]


# ---- rebuilt LSAs


def rebuilt(lsa: bytes, links: list[bytes]) -> list[bytes]:
    """A router-LSA with these links, which is withdrawn where there is none (16.2); the same where nothing changes."""
    if links == links_of(lsa):
        return [lsa]
    return [with_links(lsa, links)] if links else []


def changed(db: State, router: bytes, choose, change) -> State:
    """In each area the chosen links of a router give way to what they change to."""
    for place, lsas in enumerate(db.sections[:-1]):
        lsa = router_lsa(lsas, router)
        chosen = set(choose(place, lsas)) if lsa else set()
        if chosen:
            links = [new for at, link in enumerate(links_of(lsa)) for new in (change(link) if at in chosen else [link])]
            after = rebuilt(lsa, links)
            db = db.with_section(place, [new for old in lsas for new in (after if old is lsa else [old])])
    return db


def removed(_link: bytes) -> list[bytes]:
    return []


def costing(metric: int):
    return lambda link: [with_cost(link, metric)]


def found(db: State, choose) -> bool:
    return any(list(choose(place, lsas)) for place, lsas in enumerate(db.sections[:-1]))


def must_have(db: State, *routers: bytes) -> None:
    if len(routers) == 2 and routers[0] == routers[1]:
        raise Refused("SameRouter")
    for router in routers:
        if not db.areas_of(router):
            raise Refused("NoRouter")


# ---- links


def to_neighbor(router: bytes, neighbor: bytes, host: bytes | None = None):
    """Chooses the links of the interfaces of a router to a neighbor, perhaps of those alone that have an address."""
    def choose(_place: int, lsas):
        links = links_in(lsas, router)
        for at in places_to(lsas, router, neighbor):
            if host in (None, links[at][4:8]):
                yield from places_of(lsas, router, at)
    return choose


def at_end(router: bytes, neighbor: bytes, host: bytes):
    """Chooses the links of the neighbor at the other end of the interface with an address."""
    def choose(_place: int, lsas):
        links = links_in(lsas, router)
        for at in places_to(lsas, router, neighbor):
            if links[at][4:8] == host:
                ends = far_ends(lsas, router, at)
                if len(ends) > 1 or any(len(far_ends(lsas, neighbor, end)) > 1 for end in ends):
                    raise Refused("UnclearEnd")
                for end in ends:
                    yield from places_of(lsas, neighbor, end)
    return choose


def both_ends(db: State, router: bytes, own, neighbor: bytes, other, change) -> State:
    """The links at both ends are chosen before one changes."""
    ours = {place: set(own(place, lsas)) for place, lsas in enumerate(db.sections[:-1])}
    theirs = {place: set(other(place, lsas)) for place, lsas in enumerate(db.sections[:-1])}
    db = changed(db, router, lambda place, _: ours[place], change)
    return changed(db, neighbor, lambda place, _: theirs[place], change)


def cut_links(db: State, router: bytes, neighbor: bytes) -> State:
    must_have(db, router, neighbor)
    own, other = to_neighbor(router, neighbor), to_neighbor(neighbor, router)
    if not found(db, own) and not found(db, other):
        raise Refused("NotNeighbors")
    return both_ends(db, router, own, neighbor, other, removed)


def cut_link(db: State, router: bytes, neighbor: bytes, host: bytes) -> State:
    must_have(db, router, neighbor)
    if not found(db, to_neighbor(router, neighbor, host)):
        router, neighbor = neighbor, router
        if not found(db, to_neighbor(router, neighbor, host)):
            raise Refused("NoInterface")
    return both_ends(db, router, to_neighbor(router, neighbor, host), neighbor, at_end(router, neighbor, host), removed)


def cost_to(db: State, router: bytes, neighbor: bytes, metric: int, both: bool) -> State:
    must_have(db, router, neighbor)
    own = to_neighbor(router, neighbor)
    if not found(db, own):
        raise Refused("NotNeighbors")
    if metric == 0:
        raise Refused("ZeroCost")
    other = to_neighbor(neighbor, router) if both else lambda _place, _lsas: []
    return both_ends(db, router, own, neighbor, other, costing(metric))


def cost_at(db: State, router: bytes, host: bytes, metric: int) -> State:
    must_have(db, router)

    def interfaces(_place: int, lsas):
        for at, link in enumerate(links_in(lsas, router)):
            if link[8] in (POINT_TO_POINT, TRANSIT) and link[4:8] == host:
                yield from places_of(lsas, router, at)

    def stubs(_place: int, lsas):
        links = links_in(lsas, router)
        paired = {at for place in range(len(links)) for at in places_of(lsas, router, place)[1:]}
        return [at for at, link in enumerate(links) if covers(link, host) and at not in paired]

    masks = [links_in(lsas, router)[at][4:8] for place, lsas in enumerate(db.sections[:-1]) for at in stubs(place, lsas)]

    def smallest(place: int, lsas):
        return [at for at in stubs(place, lsas) if links_in(lsas, router)[at][4:8] == max(masks)]

    choose = interfaces if found(db, interfaces) else smallest
    if not found(db, choose):
        raise Refused("NoInterface")
    if metric == 0 and choose is interfaces:
        raise Refused("ZeroCost")
    return changed(db, router, choose, costing(metric))


def drain(db: State, router: bytes) -> State:
    must_have(db, router)

    def transit(_place: int, lsas):
        return [at for at, link in enumerate(links_in(lsas, router)) if link[8] in (POINT_TO_POINT, TRANSIT)]

    return changed(db, router, transit, costing(MAX_LINK_METRIC))


def raised(db: State, router: bytes) -> State:
    """The summaries of networks by a router get the metric that FRR gives them while it is drained."""
    for place, lsas in enumerate(db.sections[:-1]):
        db = db.with_section(place, [with_metric(lsa, RAISED) if lsa[3] == 3 and lsa[8:12] == router and is_live(lsa) else lsa
                                     for lsa in lsas])
    return db


# ---- networks


def attached(lsa: bytes) -> list[bytes]:
    return [lsa[at:at + 4] for at in range(24, len(lsa), 4)]


def net(lsa: bytes) -> tuple[int, int]:
    return net_of(lsa[4:8], lsa[20:24])


def joins(lsas, router: bytes, network: bytes) -> bool:
    return any(leads_to(link, TRANSIT, network[4:8]) for link in links_in(lsas, router))


class Left:
    """A network that a router leaves: who stays, its network-LSA afterwards, and what becomes of links to it."""

    def __init__(self, lsas, network: bytes, gone: bytes):
        self.network, self.gone = network, gone
        self.routers = [router for router in attached(network) if router != gone and joins(lsas, router, network)]
        self.after, self.address = None, network[4:8]
        if len(self.routers) < 2:
            return
        body = network[20:24] + b"".join(self.routers)
        if network[8:12] == gone:
            head = max(self.routers)
            self.address = next(link[4:8] for link in links_in(lsas, head) if leads_to(link, TRANSIT, network[4:8]))
            self.after = originated(network[2], 2, self.address, head, body)
        else:
            self.after = with_checksum(network[:18] + (20 + len(body)).to_bytes(2, "big") + body)

    def link(self, router: bytes, link: bytes) -> bytes | None:
        """What becomes of the link of a router to the network."""
        if router == self.gone:
            return None
        if router not in self.routers:
            return link
        if self.after is None:
            ident, length = net(self.network)
            return ident.to_bytes(4, "big") + self.network[20:24] + bytes([STUB, 0]) + link[10:12]
        return self.address + link[4:]


def leaving(lsas, gone: bytes, networks: list[bytes], failed: bool) -> list[bytes]:
    """The LSAs of an area where a router leaves these networks, and perhaps fails."""
    left = {network[3:12]: Left(lsas, network, gone) for network in networks}
    new_keys = {there.after[3:12] for there in left.values() if there.after}
    made = []
    for lsa in lsas:
        if lsa[3:12] in left:
            after = left[lsa[3:12]].after
            made += [after] if after else []
        elif lsa[3:12] in new_keys or (failed and lsa[8:12] == gone):
            continue
        elif lsa[3] == 1:
            links = []
            for link in links_of(lsa):
                if failed and leads_to(link, POINT_TO_POINT, gone):
                    continue
                there = next((it for it in left.values() if leads_to(link, TRANSIT, it.network[4:8])), None)
                new = there.link(lsa[8:12], link) if there else link
                links += [new] if new else []
            made += rebuilt(lsa, links)
        else:
            made.append(lsa)
    return made


def cut_network(db: State, router: bytes, prefix_: tuple[int, int]) -> State:
    must_have(db, router)
    any_left = False
    for place, lsas in enumerate(db.sections[:-1]):
        networks = [lsa for lsa in lsas if lsa[3] == 2 and is_live(lsa) and net(lsa) == prefix_ and joins(lsas, router, lsa)]
        any_left = any_left or bool(networks)
        db = db.with_section(place, leaving(lsas, router, networks, False))
    if not any_left:
        raise Refused("NotOnNetwork")
    return db


def fail(db: State, router: bytes) -> State:
    must_have(db, router)
    for place, lsas in enumerate(db.sections[:-1]):
        networks = [lsa for lsa in lsas if lsa[3] == 2 and is_live(lsa) and router in [lsa[8:12], *attached(lsa)]]
        db = db.with_section(place, leaving(lsas, router, networks, True))
    return db.with_section(len(db.sections) - 1, [lsa for lsa in db.sections[-1] if lsa[8:12] != router])


# ---- lines


def event(before: State, db: State, line: str) -> State:
    """The database after the event of a line, such as `cut 1.1.1.1 2.2.2.2`; `before` is the loaded one."""
    word, first, *words = line.split()
    router, words = address(first.encode()), [it.encode() for it in words]
    if word in plain_additions.EVENTS:
        return plain_additions.EVENTS[word](db, router, words)
    if word in plain_additions.RELATIVE:
        return plain_additions.RELATIVE[word](before, db, router, words)
    if word == "drain":
        return raised(drain(db, router), router) if words else drain(db, router)
    if word == "fail":
        return fail(db, router)
    if word == "cut" and b"/" in words[0]:
        ident, length = prefix(words[0])
        return cut_network(db, router, (number(ident), length))
    other = address(words[0])
    if word == "cut":
        return cut_link(db, router, other, address(words[1])) if words[1:] else cut_links(db, router, other)
    if word != "set-cost":
        raise ValueError(line)
    # A Router ID may be an address as well: of a neighbor first, then of an interface.
    if found(db, to_neighbor(router, other)) or words[2:]:
        return cost_to(db, router, other, int(words[1]), words[2:] == [b"both"])
    return cost_at(db, router, other, int(words[1]))


# ---- what real routers did


def data(link: bytes) -> bytes | None:
    """The Link Data of a link, but for the ifIndex of an unnumbered one, which no event names."""
    return None if link[8] == POINT_TO_POINT and link[4] == 0 else link[4:8]


def meaning(db: State, dead: set[bytes], withdrawing: bytes) -> collections.Counter:
    """The LSAs of types 1, 2 and 5 by what they say, without those of dead routers, and without bit E of one that withdraws."""
    found: collections.Counter = collections.Counter()
    for place, lsas in enumerate(db.sections):
        nets = {lsa[4:8]: net(lsa) for lsa in lsas if lsa[3] == 2 and is_live(lsa)}
        for lsa in lsas:
            if not is_live(lsa) or lsa[8:12] in dead:
                continue
            if lsa[3] == 1 and links_of(lsa):
                links = [(link[8], nets.get(link[:4], link[:4]) if link[8] == TRANSIT else link[:4], data(link), link[10:12])
                         for link in links_of(lsa)]
                found[place, lsa[8:12], lsa[20] & (~3 if lsa[8:12] == withdrawing else ~1), tuple(sorted(links, key=repr))] += 1
            elif lsa[3] == 2:
                found[place, net(lsa), tuple(sorted(attached(lsa)))] += 1
            elif lsa[3] == 5:
                found[place, lsa[3:12], lsa[20:]] += 1
    return found


def is_as_real(folder: pathlib.Path, step: int, line: str, dead: set[bytes]) -> bool:
    loaded, before, after = (state_of((folder / f"d{it}.oswp").read_bytes())[0] for it in (0, step - 1, step))
    withdrawing = address(line.split()[1].encode()) if line.startswith("withdraw ") else b""
    made, real = (meaning(it, dead, withdrawing) for it in (event(loaded, before, line), after))
    for item in (made - real) + (real - made):
        print(f"{folder.name} step {step} ({line}): {'only made' if item in made else 'only real'}: {item}")
    return made == real


def main(folders: list[str]) -> int:
    passed = failed = 0
    for folder in map(pathlib.Path, folders):
        dead: set[bytes] = set()
        for step, line in enumerate((folder / "events.txt").read_text().splitlines(), 1):
            if line.startswith("fail "):
                dead.add(address(line.split()[1].encode()))
            good = is_as_real(folder, step, line, dead)
            passed, failed = passed + good, failed + (not good)
    print(f"{passed} passed, {failed} failed")
    return 1 if failed else 0


if __name__ == "__main__":
    sys.exit(main(sys.argv[1:]))

"""Links, routers and prefixes that come or go, in plain steps: `connect`, `join`, `new-router`, `announce` and `withdraw`.

It was written from RFC 2328 (12.4.1, 12.4.2, 12.4.4 and appendix E) alone, so that it can be compared with the program.
"""
from plain_planner import Refused, State, address, links_of, mask, originated, prefix, router_key, with_links
from plain_reader import number, with_checksum
from plain_routes import BACKBONE, is_attached, is_live, net_of

POINT_TO_POINT, TRANSIT, STUB = 1, 2, 3
BIT_E = 2
STUB_AREA = 1
EXTERNAL = 5
Net = tuple[int, int]


def link(kind: int, ident: bytes, data: bytes, metric: int) -> bytes:
    return ident + data + bytes([kind, 0]) + metric.to_bytes(2, "big")


def stub(net: Net, metric: int) -> bytes:
    return link(STUB, net[0].to_bytes(4, "big"), mask(net[1]).to_bytes(4, "big"), metric)


def net_in(word: bytes) -> Net:
    ident, length = prefix(word)
    return number(ident), length


def is_of(net: Net, host: bytes) -> bool:
    return number(host) & mask(net[1]) == net[0]


# ---- router-LSAs (12.4.1)


def live_router(lsas, router: bytes) -> bytes | None:
    return next((lsa for lsa in lsas if lsa[3:12] == router_key(router) and is_live(lsa)), None)


def areas_of(db: State, router: bytes) -> list[int]:
    """The places of the areas that a router is attached to."""
    return [place for place, (_, _, lsas) in enumerate(db.areas()) if is_attached(lsas, router)]


def with_flags(lsa: bytes, flags: int) -> bytes:
    return lsa if lsa[20] == flags else with_checksum(lsa[:20] + bytes([flags]) + lsa[21:])


def new_router_lsa(db: State, place: int, router: bytes, links: list[bytes]) -> bytes:
    """A router-LSA in an area without one of this router. Bit E is as in its other areas, and never set in a stub area."""
    is_stub = db.heads[place][1] == STUB_AREA
    others = [live_router(db.sections[at], router)[20] for at in areas_of(db, router)]
    flags = 0 if is_stub else BIT_E * any(flags & BIT_E for flags in others)
    body = bytes([flags, 0]) + len(links).to_bytes(2, "big") + b"".join(links)
    return originated(0 if is_stub else 2, 1, router, router, body)


def with_more(db: State, place: int, router: bytes, links: list[bytes]) -> State:
    """A router has more links in an area."""
    lsas = db.sections[place]
    old = live_router(lsas, router)
    if old is None:
        kept = [lsa for lsa in lsas if lsa[3:12] != router_key(router)]
        return db.with_section(place, [*kept, new_router_lsa(db, place, router, links)])
    new = with_links(old, links_of(old) + links)
    return db.with_section(place, [new if lsa is old else lsa for lsa in lsas])


def place_of(db: State, words: list[bytes], router: bytes) -> int:
    """The area that is named after `in`, or else the one that the router alone is attached to."""
    if words[:1] == [b"in"]:
        return db.place(address(words[1]))
    places = areas_of(db, router)
    if len(places) != 1:
        raise Refused("WhichArea")
    return places[0]


def new_router(db: State, router: bytes, words: list[bytes]) -> State:
    """`new-router ID in AREA`"""
    place = db.place(address(words[1]))
    if live_router(db.sections[place], router):
        raise Refused("KeyTaken")
    return with_more(db, place, router, [])


# ---- links


def free_index(lsas, router: bytes) -> bytes:
    """The least ifIndex that no unnumbered link of a router has."""
    old = live_router(lsas, router)
    used = {number(it[4:8]) for it in (links_of(old) if old else []) if it[8] == POINT_TO_POINT and it[4] == 0}
    return next(at for at in range(1, 1 << 24) if at not in used).to_bytes(4, "big")


def connect(db: State, router: bytes, words: list[bytes]) -> State:
    """`connect R S METRIC [METRIC-BACK] [in AREA] [ADDRESS/LEN ADDRESS]`"""
    other, metric, words = address(words[0]), int(words[1]), words[2:]
    back = metric
    if words and words[0].isdigit():
        back, words = int(words[0]), words[1:]
    place = place_of(db, words, router)
    words = words[2:] if words[:1] == [b"in"] else words
    if words:
        host, _, length = words[0].partition(b"/")
        own, theirs = address(host), address(words[1])
        net = number(own) & mask(int(length)), int(length)
        stubs = [stub(net, metric)], [stub(net, back)]
    else:
        own, theirs, stubs = free_index(db.sections[place], router), free_index(db.sections[place], other), ([], [])
    db = with_more(db, place, router, [link(POINT_TO_POINT, other, own, metric), *stubs[0]])
    return with_more(db, place, other, [link(POINT_TO_POINT, router, theirs, back), *stubs[1]])


def known_address(before: State, place: int, router: bytes, net: Net) -> bytes | None:
    """The address that a router had on a network in the loaded database."""
    old = live_router(before.sections[place], router) if place < len(before.sections) - 1 else None
    found = [it[4:8] for it in (links_of(old) if old else []) if it[8] == TRANSIT and is_of(net, it[4:8])]
    return found[0] if found else None


def free_address(lsas, net: Net, taken: set[bytes]) -> bytes:
    used = taken | {it[4:8] for lsa in lsas if lsa[3] == 1 for it in links_of(lsa)}
    hosts = (at.to_bytes(4, "big") for at in range(net[0] + 1, net[0] + 2 ** (32 - net[1]) - 1))
    return next(host for host in hosts if host not in used)


def join(before: State, db: State, router: bytes, words: list[bytes]) -> State:
    """`join R PREFIX METRIC`: to a transit network, or to the stub of one router, which becomes its Designated Router."""
    net, metric = net_in(words[0]), int(words[1])
    for place, lsas in enumerate(db.sections[:-1]):
        network = next((lsa for lsa in lsas if lsa[3] == 2 and is_live(lsa) and net_of(lsa[4:8], lsa[20:24]) == net), None)
        if network is not None:
            body = network[20:] + router
            new = with_checksum(network[:18] + (20 + len(body)).to_bytes(2, "big") + body)
            db = db.with_section(place, [new if lsa is network else lsa for lsa in lsas])
            own = known_address(before, place, router, net) or free_address(lsas, net, set())
            return with_more(db, place, router, [link(TRANSIT, network[4:8], own, metric)])
        alone = [lsa for lsa in lsas if lsa[3] == 1 and is_live(lsa) and lsa[8:12] != router
                 and any(it[:8] == stub(net, 0)[:8] and it[8] == STUB for it in links_of(lsa))]
        if len(alone) == 1:
            return joined_by_two(before, db, place, alone[0], router, net, metric)
    raise Refused("NoNetwork")


def joined_by_two(before: State, db: State, place: int, alone: bytes, router: bytes, net: Net, metric: int) -> State:
    lsas, head = db.sections[place], alone[8:12]
    theirs = known_address(before, place, head, net) or free_address(lsas, net, set())
    own = known_address(before, place, router, net) or free_address(lsas, net, {theirs})
    links = [link(TRANSIT, theirs, theirs, number(it[10:12])) if it[8] == STUB and it[:8] == stub(net, 0)[:8] else it
             for it in links_of(alone)]
    body = mask(net[1]).to_bytes(4, "big") + head + router
    network = originated(alone[2], 2, theirs, head, body)
    kept = [lsa for lsa in lsas if lsa[3:12] != network[3:12]]
    db = db.with_section(place, [with_links(alone, links) if lsa is alone else lsa for lsa in kept] + [network])
    return with_more(db, place, router, [link(TRANSIT, theirs, own, metric)])


# ---- prefixes


def home_of(db: State, router: bytes) -> int:
    """The area in which a router has a new stub network: its only one, or the first one that is not the backbone."""
    places = areas_of(db, router)
    if not places:
        raise Refused("NoRouter")
    inner = [place for place in places if db.heads[place][0] != BACKBONE]
    return (inner or places)[0]


def announce(db: State, router: bytes, words: list[bytes]) -> State:
    """`announce R PREFIX METRIC [external TYPE [via ADDRESS]]`"""
    net, metric = net_in(words[0]), int(words[1])
    if words[2:3] == [b"external"]:
        forward = address(words[5]) if words[4:5] == [b"via"] else bytes(4)
        return announce_external(db, router, net, int(words[3]), metric, forward)
    place = home_of(db, router)
    old = live_router(db.sections[place], router)
    others = [it for it in links_of(old) if not (it[8] == STUB and it[:8] == stub(net, 0)[:8])]
    new = with_links(old, [*others, stub(net, metric)])
    return db.with_section(place, [new if lsa is old else lsa for lsa in db.sections[place]])


def external_of(db: State, router: bytes, net: Net) -> bytes | None:
    return next((lsa for lsa in db.sections[-1]
                 if lsa[3] == EXTERNAL and lsa[8:12] == router and is_live(lsa) and net_of(lsa[4:8], lsa[20:24]) == net), None)


def announce_external(db: State, router: bytes, net: Net, kind: int, metric: int, forward: bytes) -> State:
    if not areas_of(db, router):
        raise Refused("NoRouter")
    old, last = external_of(db, router, net), len(db.sections) - 1
    body = mask(net[1]).to_bytes(4, "big") + bytes([128 * (kind - 1)]) + metric.to_bytes(3, "big") + forward
    ident = old[4:8] if old else net[0].to_bytes(4, "big")
    new = originated(2, EXTERNAL, ident, router, body + (old[32:36] if old else bytes(4)))
    if any(lsa[3:12] == new[3:12] for lsa in db.sections[-1] if lsa is not old):
        raise Refused("KeyTaken")
    lsas = [new if lsa is old else lsa for lsa in db.sections[last]] if old else [*db.sections[last], new]
    return with_bit_e(db.with_section(last, lsas), router, lambda _place, _lsa: True)


def with_bit_e(db: State, router: bytes, is_set) -> State:
    """Bit E of a router in all its areas but stub areas."""
    for place in areas_of(db, router):
        old = live_router(db.sections[place], router)
        if db.heads[place][1] != STUB_AREA:
            new = with_flags(old, old[20] | BIT_E if is_set(place, old) else old[20] & ~BIT_E)
            db = db.with_section(place, [new if lsa is old else lsa for lsa in db.sections[place]])
    return db


def withdraw(before: State, db: State, router: bytes, words: list[bytes]) -> State:
    """`withdraw R PREFIX`: a stub network, or an external prefix; with the last one bit E is as in the loaded database."""
    net = net_in(words[0])
    old = external_of(db, router, net)
    if old is not None:
        db = db.with_section(len(db.sections) - 1, [lsa for lsa in db.sections[-1] if lsa is not old])
        if any(lsa[8:12] == router and is_live(lsa) for lsa in db.sections[-1]):
            return db
        loaded = {place: live_router(before.sections[place], router) for place in range(len(before.heads))}
        return with_bit_e(db, router, lambda place, _lsa: bool(loaded.get(place) and loaded[place][20] & BIT_E))
    for place in areas_of(db, router):
        lsa = live_router(db.sections[place], router)
        kept = [it for it in links_of(lsa) if not (it[8] == STUB and it[:8] == stub(net, 0)[:8])]
        if len(kept) < len(links_of(lsa)):
            return db.with_section(place, [with_links(lsa, kept) if it is lsa else it for it in db.sections[place]])
    raise Refused("NoPrefix")


EVENTS = {"connect": connect, "new-router": new_router, "announce": announce}
# Those that look at the loaded database, too.
RELATIVE = {"join": join, "withdraw": withdraw}

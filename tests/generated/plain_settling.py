#!/usr/bin/env python3
"""Lets the summaries of border routers follow, in plain steps: what they originate after a network has changed.

It was written from RFC 2328 (12.4.1, 12.4.3, 16.2 and appendix E) alone, so that it can be compared with the program. A summary
that was due in the loaded database, with its metric there, follows: it gets the metric that is due now, or is withdrawn. One that
was not due there, or had another metric, is held as it is. One that is due now, and was not due in the loaded database or was
withdrawn since, is made. Bit B follows where a router is attached to several areas now and was not, or the other way round.

usage: tests/generated/plain_settling.py FOLDER..

Each folder has dumps `d0.oswp`, `d1.oswp` and so on of a real network, and `events.txt` with a line for each step between them.
The LSAs of types 1, 2 and 5 of each dump, but for bit B, with the summaries of the step before must settle to the summaries of
that dump, and to its bit B, by meaning. Not compared are the summaries of a router that is no border router any more: FRR leaves
them where they are, and nobody uses them (16.2). Where a router is drained, its summaries into areas may all have the metric
16711680, which FRR gives them. The last line is `N passed, M failed`.
"""
import collections
import pathlib
import sys

from plain_planner import State, originated, state_of, with_metric
from plain_reader import number, with_checksum
from plain_routes import BACKBONE, INFINITY, inside, is_attached, is_live, net_of, preferred

NETWORK, BOUNDARY_ROUTER = 3, 4
BIT_B = 1
STUB_AREA = 1
DEFAULT = 0, 0
# The metric of a drained border router's summaries in FRR.
RAISED = 16711680
# What a summary is about: its type, and the prefix or the Router ID.
Subject = tuple


# ---- what is due (12.4.3)


def areas_of(db: State, router: bytes) -> list[int]:
    """The areas that a router is attached to."""
    return [area for area, _, lsas in db.areas() if is_attached(lsas, router)]


def border_routers(db: State) -> list[bytes]:
    """The routers that are attached to several areas."""
    return [router for router in db.attached() if len(areas_of(db, router)) > 1]


def may_enter(area: int, way, its_areas) -> bool:
    """Whether a route is announced into an area: not of the area itself, and into the backbone only if it is intra-area."""
    return area not in its_areas and not (area == BACKBONE and way.kind == "inter") and way.cost < INFINITY


def due_from(db: State, router: bytes, area: int, kind: int) -> dict[Subject, int]:
    """What a border router announces into an area of this kind, with the metrics."""
    ways, found = inside(db.areas(), router), {}
    for net, way in ways.routes.items():
        if may_enter(area, way, way.areas) and not (kind == STUB_AREA and net == DEFAULT):
            found[NETWORK, net] = way.cost
    for boundary, by_area in ways.asbrs.items():
        through, way = preferred(by_area)
        if kind != STUB_AREA and may_enter(area, way, [through]):
            found[BOUNDARY_ROUTER, boundary] = way.cost
    return found


def due_in(db: State, area: int, kind: int) -> dict[bytes, dict[Subject, int]]:
    """What each border router of an area announces into it."""
    return {router: due_from(db, router, area, kind) for router in border_routers(db) if area in areas_of(db, router)}


def subject(lsa: bytes) -> Subject:
    return (NETWORK, net_of(lsa[4:8], lsa[20:24])) if lsa[3] == NETWORK else (lsa[3], lsa[4:8])


def metric(lsa: bytes) -> int:
    return number(lsa[25:28])


def is_summary(lsa: bytes) -> bool:
    return lsa[3] in (NETWORK, BOUNDARY_ROUTER) and is_live(lsa)


# ---- summaries that follow


class Loaded:
    """An area of the loaded database: its summaries, and what was due."""

    def __init__(self, db: State, place: int):
        area, kind = db.heads[place]
        self.metrics = {(lsa[8:12], subject(lsa)): metric(lsa) for lsa in db.sections[place] if is_summary(lsa)}
        self.idents = {(lsa[8:12], subject(lsa)): lsa[4:8] for lsa in db.sections[place] if is_summary(lsa)}
        self.due = {(router, of): cost for router, its in due_in(db, area, kind).items() for of, cost in its.items()}

    def was_due(self, key) -> bool:
        """A summary that stood with the metric that was due, or one that did not stand."""
        return key not in self.metrics or self.metrics[key] == self.due.get(key, INFINITY)

    def was_left_out(self, key) -> bool:
        """A summary that was due and did not stand."""
        return key not in self.metrics and key in self.due


def is_held(lsa: bytes, loaded: Loaded, key) -> bool:
    """A summary that was not due in the loaded database, or is raised since, as those of a drained border router."""
    return not loaded.was_due(key) or metric(lsa) == RAISED


def following(lsas, loaded: Loaded, due: dict) -> list[bytes]:
    """The LSAs of an area whose summaries follow."""
    made = []
    for lsa in lsas:
        key = (lsa[8:12], subject(lsa)) if is_summary(lsa) else None
        if key is None or is_held(lsa, loaded, key) or metric(lsa) == due.get(key, INFINITY):
            made.append(lsa)
        elif key in due:
            made.append(with_metric(lsa, due[key]))
    return made


def mask_of(of: Subject) -> int:
    """The mask of a summary's body: that of the prefix, or 0."""
    return 2 ** 32 - 2 ** (32 - of[1][1]) if of[0] == NETWORK else 0


def idents_of(of: Subject) -> list[bytes]:
    """The Link State IDs that a summary may have (appendix E): the address, or the last one of the prefix."""
    if of[0] == BOUNDARY_ROUTER:
        return [of[1]]
    address = of[1][0]
    return [address.to_bytes(4, "big"), (address | (2 ** 32 - 1 - mask_of(of))).to_bytes(4, "big")]


def with_ident(lsa: bytes, ident: bytes) -> bytes:
    return with_checksum(lsa[:4] + ident + lsa[8:])


def placed(lsas: list[bytes], key, kind: int, cost: int, old: bytes | None) -> list[bytes]:
    """The LSAs with one more summary. Of two prefixes with one address the longer one gets the last address of its own."""
    router, of = key
    body = mask_of(of).to_bytes(4, "big") + cost.to_bytes(4, "big")
    idents = [old] if old else idents_of(of)
    taken = {lsa[4:8]: lsa for lsa in lsas if lsa[3] == of[0] and lsa[8:12] == router and is_live(lsa)}
    first = taken.get(idents[0])
    if first is not None and len(idents) > 1:
        if number(first[20:24]) > mask_of(of):
            moved = with_ident(first, idents_of(subject(first))[1])
            lsas = [moved if lsa is first else lsa for lsa in lsas]
        else:
            idents = idents[1:]
    new = originated(0 if kind == STUB_AREA else 2, of[0], idents[0], router, body)
    return [lsa for lsa in lsas if lsa[3:12] != new[3:12]] + [new]


def settled_area(before: State, db: State, place: int) -> State:
    """The database whose summaries into one area follow."""
    area, kind = db.heads[place]
    loaded = Loaded(before, place)
    due = {(router, of): cost for router, its in due_in(db, area, kind).items() for of, cost in its.items()}
    lsas = following(db.sections[place], loaded, due)
    stand = {(lsa[8:12], subject(lsa)) for lsa in lsas if is_summary(lsa)}
    for key in sorted(due):
        if key not in stand and not loaded.was_left_out(key):
            lsas = placed(lsas, key, kind, due[key], loaded.idents.get(key))
    return db.with_section(place, lsas)


# ---- bit B (12.4.1)


def with_bit(lsa: bytes, is_set: bool) -> bytes:
    flags = lsa[20] | BIT_B if is_set else lsa[20] & ~BIT_B
    return lsa if flags == lsa[20] else with_checksum(lsa[:20] + bytes([flags]) + lsa[21:])


def bits_of(db: State) -> dict[tuple[int, bytes], bool]:
    """Whether the router-LSA of an area and a router has bit B."""
    return {(area, lsa[8:12]): bool(lsa[20] & BIT_B) for area, _, lsas in db.areas() for lsa in lsas if lsa[3] == 1 and is_live(lsa)}


def bits_settled(before: State, db: State) -> State:
    """A database whose routers have bit B where they are attached to several areas; as before where that did not change."""
    loaded = bits_of(before)
    for place, (area, _, lsas) in enumerate(db.areas()):
        made = []
        for lsa in lsas:
            if lsa[3] == 1 and is_live(lsa):
                was, now = (len(areas_of(it, lsa[8:12])) > 1 for it in (before, db))
                lsa = with_bit(lsa, loaded.get((area, lsa[8:12]), now) if was == now else now)
            made.append(lsa)
        db = db.with_section(place, made)
    return db


def settled(before: State, db: State) -> State:
    """A database whose summaries and bits B follow, relative to the loaded one: those of the backbone, then those of other areas."""
    db = bits_settled(before, db)
    order = sorted(range(len(db.heads)), key=lambda place: (db.heads[place][0] != BACKBONE, place))
    for place in order:
        db = settled_area(before, db, place)
    return db


# ---- what real routers did


def said(area: int, lsa: bytes, raised: bytes) -> tuple | None:
    """What a live LSA says, if it is a summary below LSInfinity or has bit B; without the metrics of networks by one router."""
    if is_summary(lsa) and metric(lsa) != INFINITY:
        cost = None if lsa[8:12] == raised and lsa[3] == NETWORK else metric(lsa)
        return area, lsa[8:12], subject(lsa), cost
    if lsa[3] == 1 and len(lsa) > 24:
        return area, lsa[8:12], bool(lsa[20] & BIT_B)
    return None


def meaning(db: State, border: set[bytes], dead: set[bytes], raised: bytes) -> collections.Counter:
    """What the LSAs of an area say, without dead routers and without the summaries of those that are no border routers."""
    live = [(area, lsa) for (area, _), lsas in zip(db.heads, db.sections) for lsa in lsas if is_live(lsa) and lsa[8:12] not in dead]
    items = [said(area, lsa, raised) for area, lsa in live if not is_summary(lsa) or lsa[8:12] in border]
    return collections.Counter(item for item in items if item)


def is_kept(lsa: bytes) -> bool:
    return lsa[3] not in (NETWORK, BOUNDARY_ROUTER)


def begun(real: State, old: State, dead: set[bytes]) -> State:
    """The LSAs of a dump but for its summaries and bits B, and these as they were before."""
    bits = {lsa[8:12]: bool(lsa[20] & BIT_B) for lsas in old.sections for lsa in lsas if lsa[3] == 1}
    for place, lsas in enumerate(real.sections[:-1]):
        own = [with_bit(lsa, bits.get(lsa[8:12], False)) if lsa[3] == 1 else lsa
               for lsa in lsas if is_kept(lsa) and lsa[8:12] not in dead and (lsa[3] != 1 or len(lsa) > 24)]
        summaries = [lsa for lsa in old.sections[place] if not is_kept(lsa) and lsa[8:12] not in dead]
        real = real.with_section(place, own + summaries)
    return real


def raised_in(real: State, line: str) -> bytes:
    """The router that is drained, where its summaries of networks have FRR's metric; else none."""
    if not line.startswith("drain "):
        return b""
    router = bytes(map(int, line.split()[1].split(".")))
    metrics = {metric(lsa) for lsas in real.sections for lsa in lsas if lsa[3] == NETWORK and lsa[8:12] == router and is_live(lsa)}
    return router if metrics == {RAISED} else b""


def is_as_real(folder: pathlib.Path, step: int, line: str, old: State, loaded: State, dead: set[bytes]) -> tuple[bool, State]:
    real = state_of((folder / f"d{step}.oswp").read_bytes())[0]
    made = settled(loaded, begun(real, old, dead))
    border, raised = set(border_routers(made)), raised_in(real, line)
    ours, theirs = meaning(made, border, dead, raised), meaning(real, border, dead, raised)
    for item in (ours - theirs) + (theirs - ours):
        print(f"{folder.name} step {step} ({line}): {'only made' if item in ours - theirs else 'only real'}: {item}")
    return ours == theirs, made


def main(folders: list[str]) -> int:
    passed = failed = 0
    for folder in map(pathlib.Path, folders):
        dead: set[bytes] = set()
        loaded = old = state_of((folder / "d0.oswp").read_bytes())[0]
        passed, failed = passed + (settled(loaded, loaded) == loaded), failed + (settled(loaded, loaded) != loaded)
        for step, line in enumerate((folder / "events.txt").read_text().splitlines(), 1):
            if line.startswith("fail "):
                dead.add(bytes(map(int, line.split()[1].split("."))))
            good, old = is_as_real(folder, step, line, old, loaded, dead)
            passed, failed = passed + good, failed + (not good)
    print(f"{passed} passed, {failed} failed")
    return 1 if failed else 0


if __name__ == "__main__":
    sys.exit(main(sys.argv[1:]))

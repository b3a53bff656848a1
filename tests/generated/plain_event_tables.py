#!/usr/bin/env python3
"""Carries the events of real networks out one after another, settles after each, and compares each router's table with the one
that the router itself had.

usage: tests/generated/plain_event_tables.py FOLDER..

Each folder has a dump `d0.oswp`, `events.txt`, whose line K is event K, and `dK.expected.json`, the routes of each router after
it. Prefixes, kinds, costs and areas must be the same, but for those of routers that failed. A router that is drained has its
summaries raised where `dK.oswp` shows it so. The last line is `N passed, M failed`, by events.
"""
import json
import pathlib
import sys

from plain_events import event
from plain_planner import State, address, state_of
from plain_routes import table
from plain_settling import raised_in, settled

INSIDE = "intra", "inter"


def calculated(db: State, router: str) -> dict[str, tuple]:
    """Kind, costs and area of the route to each prefix."""
    lines = [line.decode().split() for line in table(db.areas(), db.sections[-1], address(router.encode()))]
    return {net: (kind, int(cost), int(cost2), area) for net, kind, cost, cost2, area, _ in lines}


def shown(routes: list[dict]) -> dict[str, tuple]:
    """The same of the routes that a router showed."""
    return {it["prefix"]: (it["kind"], it["cost"], it["cost2"], it["area"] if it["kind"] in INSIDE else "-") for it in routes}


def differences(folder: pathlib.Path, step: int, db: State, failed: set[str]) -> int:
    """The number of prefixes for which a table differs, each on a line of its own."""
    routers = json.loads((folder / f"d{step}.expected.json").read_text())["routers"]
    found = 0
    for router in sorted(set(routers) - failed):
        ours, theirs = calculated(db, router), shown(routers[router])
        for net in sorted(net for net in {*ours, *theirs} if ours.get(net) != theirs.get(net)):
            print(f"{folder.name} step {step}: {router} {net}: {ours.get(net)} in place of {theirs.get(net)}")
            found += 1
    return found


def carried_out(folder: pathlib.Path, step: int, line: str, loaded: State, db: State) -> State:
    real = state_of((folder / f"d{step}.oswp").read_bytes())[0]
    return settled(loaded, event(loaded, db, f"{line} raised" if raised_in(real, line) else line))


def main(folders: list[str]) -> int:
    passed = failed = 0
    for folder in map(pathlib.Path, folders):
        loaded = db = state_of((folder / "d0.oswp").read_bytes())[0]
        dead: set[str] = set()
        for step, line in enumerate((folder / "events.txt").read_text().splitlines(), 1):
            dead |= {line.split()[1]} if line.startswith("fail ") else set()
            db = carried_out(folder, step, line, loaded, db)
            good = not differences(folder, step, db, dead)
            passed, failed = passed + good, failed + (not good)
    print(f"{passed} passed, {failed} failed")
    return 1 if failed else 0


if __name__ == "__main__":
    sys.exit(main(sys.argv[1:]))

"""Saved sessions at the limits of docs/FORMATS.md, and dumps that are too long and have a wrong magic or version: made,
since they are too long to be written down. What they leave follows from that page."""
from cases import Case
from large import POINT_TO_POINT, R1, R2, router
from made import ADD_EXTERNAL, ADD_STUB, ADD_SUMMARY, FULL, GROWTHS, LONGEST_DUMP, ROUTER_1, long_dump, refused
from sample import SAMPLE

LONGEST_SESSION = 17_825_792
MOST_EDITS = 10_000
HISTORY_FULL, NO_UNDO, NO_REDO = "refused E12 HistoryFull", "refused U1 NothingToUndo", "refused U2 NothingToRedo"
# Where the two numbers of a session of the sample stand, and its first line.
NUMBERS, LINES = 99, 103

# A line of a script, and its reply in branch 0 or in the one that the line names.
Exchange = tuple[str, str]


def as_base(dump: bytes) -> bytes:
    """The base of a session that began at the database of a dump of version 1."""
    return dump[:4] + b"\2" + dump[5:]


def session(dump: bytes, done: list[str], undone: list[str]) -> bytes:
    """The session that began at the database of this dump, and has these edits."""
    numbers = len(done).to_bytes(2, "big") + len(undone).to_bytes(2, "big")
    return as_base(dump) + numbers + "".join(f"{line}\n" for line in done + undone).encode()


def filled(front: bytes, length: int) -> bytes:
    """A front, and zeros up to a length."""
    return front + bytes(length - len(front))


def resumed(dump: bytes, exchanges: list[Exchange], out: bytes, save: bytes) -> Case:
    """A run on a saved session that ends well."""
    replies = "".join(f"@{line[1] if line.startswith('@') else '0'} {reply}\n" for line, reply in exchanges)
    script = "".join(f"{line}\n" for line, _ in exchanges)
    return Case(
        dump=dump, script=script.encode(), replies=replies.encode(), status=0, error=b"", out=out, saves=True, save=save
    )


def stopped(dump: bytes, fault: str) -> Case:
    """A run of a refused session, which saves none."""
    case = refused(dump, fault)
    case.saves = True
    return case


def lengths():
    """A dump of version 2 may have 17,825,792 bytes, every other one 16,777,216: what is longer is refused before its
    content is looked at."""
    empty = session(SAMPLE, [], [])
    fronts = [
        ("a session", empty, LONGEST_SESSION, f"L4 TrailingBytes at {len(empty)}"),
        ("a session without numbers", as_base(SAMPLE)[:97], LONGEST_SESSION, "L4 TrailingBytes at 103"),
        ("a session with a bad checksum", empty[:29] + b"\xd5\x5b" + empty[31:], LONGEST_SESSION, "L9 Lsa Checksum at 13"),
        ("a dump", SAMPLE, LONGEST_DUMP, f"L4 TrailingBytes at {len(SAMPLE)}"),
        ("version 3", empty[:4] + b"\3" + empty[5:], LONGEST_DUMP, "L2 BadVersion at 4"),
        ("version 0", empty[:4] + b"\0" + empty[5:], LONGEST_DUMP, "L2 BadVersion at 4"),
        ("version 2 after another magic", b"OSWQ" + empty[4:], LONGEST_DUMP, "L1 BadMagic at 0"),
        ("version 3 after another magic", b"PSWP\3" + empty[5:], LONGEST_DUMP, "L1 BadMagic at 0"),
    ]
    for name, front, most, fault in fronts:
        yield f"{most} bytes, {name}", stopped(filled(front, most), fault)
        yield f"{most + 1} bytes, {name}", stopped(filled(front, most + 1), "L13 TooLarge at 0")
    yield f"{LONGEST_DUMP + 1} bytes, a session", stopped(filled(empty, LONGEST_DUMP + 1), f"L4 TrailingBytes at {len(empty)}")
    yield f"{LONGEST_SESSION + 1} bytes, version 3", stopped(
        filled(empty[:4] + b"\3", LONGEST_SESSION + 1), "L13 TooLarge at 0"
    )


def longest_bases():
    """A base has the limit of a dump of version 1: with one byte more it is refused once it is read, whatever follows."""
    base, passes = long_dump(84, GROWTHS), long_dump(85, GROWTHS)
    assert (len(base), len(passes)) == (LONGEST_DUMP, LONGEST_DUMP + 1)
    same, drop, info = "cost 0.0.0.0 1.1.1.1 1 10", "drop-link 0.0.0.0 1.1.1.1 2", "info areas 1 lsas 4 as 257 vbits 0 vlinks 0"
    opened = session(base, [same], [drop])
    yield "a base of 16777216 bytes", resumed(
        opened, [("info", f"{info} done 1 undone 1"), ("@1 info", f"{info} done 0 undone 0")], base, opened
    )
    lines = [(ADD_STUB, FULL), ("redo 1", "ok"), (ADD_STUB, "ok"), (ADD_STUB, FULL)]
    yield "a base of 16777216 bytes, and edits", resumed(opened, lines, base, session(base, [same, drop, ADD_STUB], []))
    shorter = long_dump(84, (ADD_SUMMARY, ADD_EXTERNAL))
    yield "a base of 16777216 bytes that is shorter now", resumed(
        session(base, [same, drop], []), [("undo 0", "ok")], shorter, session(base, [same, drop], [])
    )
    first = LONGEST_DUMP + 4
    yield "a base of 16777216 bytes, and an edit that adds", stopped(
        session(base, [ADD_STUB], []), f"L15 BadHistory 0 at {first}"
    )
    yield "a base of 16777216 bytes, and an undone edit that adds", stopped(
        session(base, [same], [ADD_STUB]), f"L15 BadHistory 1 at {first + len(same) + 1}"
    )
    yield "a base of 16777216 bytes without numbers", stopped(as_base(base), f"L3 Truncated at {LONGEST_DUMP}")
    yield "a base of 16777217 bytes", stopped(session(passes, [], []), "L13 TooLarge at 0")
    yield "a base of 16777217 bytes, and edits", stopped(session(passes, [same], [drop]), "L13 TooLarge at 0")
    yield "a base of 16777217 bytes without numbers", stopped(as_base(passes), "L13 TooLarge at 0")
    last = len(passes) - 36
    yield "a fault at the end of a base of 16777217 bytes", stopped(
        as_base(passes[:last + 16] + b"\x80\x24" + passes[last + 18:]), f"L9 Lsa Checksum at {last}"
    )


def sample_with(metric: int) -> bytes:
    """The sample with another metric of the link of 1.1.1.1."""
    first = router(R1, [(R2, 0x0A000001, POINT_TO_POINT, metric)])
    return SAMPLE[:13] + first + SAMPLE[13 + len(first):]


def full_histories():
    """A session may have 10,000 edits, done and undone ones together."""
    assert sample_with(10) == SAMPLE and ROUTER_1 in SAMPLE
    costs = [f"cost 0.0.0.0 1.1.1.1 1 {20_000 + number}" for number in range(MOST_EDITS)]
    last, more = 20_000 + MOST_EDITS - 1, "cost 0.0.0.0 1.1.1.1 1 7"
    counts = "info areas 1 lsas 2 as 0 vbits 0 vlinks 0 done"
    all_undone = session(SAMPLE, [], costs)
    for done in (MOST_EDITS, MOST_EDITS // 2, 0):
        undone = MOST_EDITS - done
        dump, name = session(SAMPLE, costs[:done], costs[done:]), f"{done} done and {undone} undone edits"
        now = sample_with(20_000 + done - 1) if done else SAMPLE
        front = [("info", f"{counts} {done} undone {undone}"), ("@1 info", f"{counts} 0 undone 0")]
        refusals = [
            (f"undo {done + 1}", NO_UNDO), (f"redo {undone + 1}", NO_REDO), ("cost 0.0.0.0 9.9.9.9 1 7", (
                HISTORY_FULL if done == MOST_EDITS else "refused E2 NoRouter"
            )),
        ]
        yield name, resumed(dump, front + refusals, now, dump)
        yield f"{name}, all undone", resumed(dump, [(f"undo {done}", "ok")], SAMPLE, all_undone)
        forth = [(f"redo {undone}", "ok"), (more, HISTORY_FULL), ("refresh", HISTORY_FULL)]
        yield f"{name}, all done", resumed(dump, forth, sample_with(last), session(SAMPLE, costs, []))
        back = forth + [(f"undo {MOST_EDITS}", "ok"), ("undo 1", NO_UNDO), ("info", f"{counts} 0 undone {MOST_EDITS}")]
        yield f"{name}, all done and undone", resumed(dump, back, SAMPLE, all_undone)
        if done < MOST_EDITS:
            counted = [("info", f"{counts} {done + 1} undone 0"), ("redo 1", NO_REDO)]
            yield f"{name}, and one more", resumed(
                dump, [(more, "ok")] + counted, sample_with(7), session(SAMPLE, costs[:done] + [more], [])
            )
    yield "10000 done edits, undone and done one by one", resumed(
        session(SAMPLE, costs, []), [("undo 1", "ok")] * MOST_EDITS + [("redo 1", "ok")] * MOST_EDITS, sample_with(last),
        session(SAMPLE, costs, []),
    )
    for done, undone in ((MOST_EDITS + 1, 0), (MOST_EDITS, 1), (1, MOST_EDITS), (0, MOST_EDITS + 1), (65_535, 65_535)):
        numbers = done.to_bytes(2, "big") + undone.to_bytes(2, "big")
        lines = "".join(f"{line}\n" for line in costs + [more]).encode()
        yield f"{done} done and {undone} undone edits", stopped(
            as_base(SAMPLE) + numbers + lines, f"L15 BadHistory 10000 at {NUMBERS}"
        )
    none = "cost 0.0.0.0 1.1.1.1 2 7"
    for done in (MOST_EDITS, 0):
        lines = costs[:-1] + [none]
        at = LINES + sum(len(line) + 1 for line in costs[:-1])
        yield f"{done} done edits, and the last is refused", stopped(
            session(SAMPLE, lines[:done], lines[done:]), f"L15 BadHistory 9999 at {at}"
        )


def cases():
    """The name of each case, and the case."""
    for part in (lengths, longest_bases, full_histories):
        yield from part()

"""Studies in limited address spaces, so that memory runs out in the middle of whatever is done then.

Each study is run in ever smaller spaces, from one that is ample to the smallest in which the program starts. It must end with
status 0 and all of its output, or with status 5, its line and a part of the output from its beginning, and then the old
file of `--out` is left whole.
"""
import dataclasses
import pathlib
import resource
import subprocess

import large
from limited import least_space, sizes
from sample import COST, EDITED, SAMPLE
from study_ends import summary

OLD_OUT = b"a dump"


@dataclasses.dataclass
class Study:
    """A study, what it prints, and the dump that it leaves."""

    name: str
    dump: bytes
    lines: bytes
    output: bytes
    out: bytes
    # The sizes of the address spaces, in bytes, from the smallest one.
    sizes: list[int]


def histories(least: int) -> Study:
    """Full histories of three branches, with their log, in address spaces from `least` bytes on."""
    edit = b"cost 0.0.0.0 1.1.1.1 1 7\n"
    lines, replies = [COST], [b"@0 ok\n"]
    for branch in (b"@1 ", b"@2 ", b"@3 "):
        lines += [(branch + edit) * 10_000, branch + b"log\n", branch + b"undo 10000\n"]
        replies += [(branch + b"ok\n") * 10_000, branch + b"log 10000\n" + edit * 10_000, branch + b"ok\n"]
    output = b"".join(replies) + summary(30_007)
    return Study("full histories", SAMPLE, b"".join(lines), output, EDITED, sizes(least, 13 / 12, 17))


def chain(size: int, least: int) -> Study:
    """Words about a chain of `size` routers with a network at its far end: who uses what, the way of a packet, changes, loops.

    The address spaces are from `least` bytes on.
    """
    routers = [large.dotted(large.MANY + place) for place in range(size)]
    costs = [65535 * (size - place) for place in range(size)]
    used = f"20.0.0.0/8 intra cost {costs[0]} area 0.0.0.0 via {routers[1]} 0.0.0.1 out 0.0.0.2"
    steps = [f"{here} -> {there} out 0.0.0.2 cost 65535, 20.0.0.0/8 intra cost {cost}"
             for here, there, cost in zip(routers, routers[1:], costs)]
    groups = " 0 ".join("router-gone router-new lost gone gained type dearer cheaper moved unchanged".split())
    answers = [
        (f"routes {routers[0]}", [f"routes {routers[0]} 1", used]),
        (f"path {routers[0]} 20.0.0.9", [f"path {routers[0]} 20.0.0.9 {size} delivered", *steps,
                                         f"{routers[-1]} delivered, 20.0.0.0/8 intra cost 65535"]),
        ("changes", [f"changes 0 {groups} {size}"]),
        ("loops", ["loops 0 loops 0 blackholes 0"]),
        ("expect lost none", ["ok"]),
        (f"expect path {routers[0]} 20.1.1.1 via {routers[size // 2]}", ["ok"]),
        (f"expect not hops {routers[1]} 20.0.0.0/8 >= 2", ["ok"]),
    ]
    lines = "".join(f"{line}\n" for line, _ in answers)
    replies = "".join("@0 " + "".join(f"{row}\n" for row in rows) for _, rows in answers)
    dump = large.chain(size).dump
    return Study("a chain", dump, lines.encode(), replies.encode() + summary(7, 0, 3), dump, sizes(least, 56 / 55, 19))


def differences(study: Study, size: int, program: str, folder: pathlib.Path) -> tuple[list[str], int]:
    """What differs of a run in an address space of this size, and how many bytes it printed."""
    folder.mkdir(exist_ok=True)
    for name, data in (("dump", study.dump), ("out", OLD_OUT), ("lines", study.lines)):
        (folder / name).write_bytes(data)
    words = [program, "--dump", "dump", "--out", "out", "lines"]
    run = subprocess.run(words, stdin=subprocess.DEVNULL, capture_output=True, timeout=120, cwd=folder,
                         preexec_fn=lambda: resource.setrlimit(resource.RLIMIT_AS, (size, size)))
    left = run.returncode, run.stderr, (folder / "out").read_bytes()
    is_whole = (*left, run.stdout) == (0, b"", study.out, study.output)
    is_part = left == (5, b"memory: OutOfMemory\n", OLD_OUT) and study.output.startswith(run.stdout)
    return [] if is_whole or is_part else [f"status {run.returncode}, output or files"], len(run.stdout)


def checks(program: str, folder: pathlib.Path):
    """The name of each run, and what differs; and what the runs together did not show."""
    least = least_space(program)
    for study in (histories(least), chain(300, least)):
        printed = set()
        for size in reversed(study.sizes):
            found, length = differences(study, size, program, folder / "limited")
            yield f"a study of {study.name} in {size} bytes of memory", found
            printed.add(length)
        missing = [] if {0, len(study.output)} <= printed else ["the ends, none of the output and all of it,"]
        missing += [] if len(printed) > 3 else ["how far the output comes"]
        yield f"memory of a study of {study.name} that runs out at the beginning, in the middle and not at all", missing

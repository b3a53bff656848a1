"""Runs in limited address spaces, so that memory truly runs out, in the middle of whatever is done then.

Two runs, of full histories in three branches and of tables with many next hops, are made in ever larger spaces: from the
smallest in which the program starts to one that is ample. Each must end well and whole, or without memory and with a part
of the replies from their beginning, without a dump and without a session.
"""
import dataclasses
import pathlib
import resource
import subprocess

import large
from ends import full_history, full_history_replies
from sample import COST, EDITED, SAMPLE, SESSION


@dataclasses.dataclass
class Run:
    """A run of the program, and what it leaves where there is memory."""

    name: str
    dump: bytes
    script: bytes
    replies: bytes
    out: bytes
    saved: bytes
    # The sizes of the address spaces, in bytes.
    sizes: list[int]


def status_in(size: int, program: str) -> int:
    """The status of `--version` in an address space of this size in bytes: 127 where the program cannot be loaded."""
    limit = lambda: resource.setrlimit(resource.RLIMIT_AS, (size, size))
    return subprocess.run([program, "--version"], capture_output=True, timeout=120, preexec_fn=limit).returncode


def least_space(program: str) -> int:
    """The smallest address space in bytes in which the program starts, to a page of 4,096 bytes."""
    too_small, enough = 0, 1 << 14
    while enough - too_small > 1:
        pages = (too_small + enough) // 2
        if status_in(pages << 12, program) in (0, 5):
            enough = pages
        else:
            too_small = pages
    return enough << 12


def sizes(least: int, times: float, count: int) -> list[int]:
    """`count` sizes in bytes, from `least` on, each `times` the one before."""
    return [round(least * times**step) for step in range(count)]


def histories(least: int) -> Run:
    """Full histories in three branches, in address spaces from `least` bytes on."""
    branches = [b"@%d " % branch for branch in range(1, 4)]
    return Run(
        name="full histories",
        dump=SAMPLE,
        script=COST + b"".join(full_history(branch) for branch in branches),
        replies=b"@0 ok\n" + b"".join(full_history_replies(branch) for branch in branches),
        out=EDITED,
        saved=SESSION,
        sizes=sizes(least, 13 / 12, 19),
    )


def tables(least: int) -> Run:
    """Tables and comparisons in two branches, with 4,000 next hops of equal cost, in spaces from `least` bytes on."""
    case = large.equal_ways(4000)
    undone = b"\0\0\0\1cost 0.0.0.0 1.1.1.1 7 11\n"
    return Run(
        name="tables",
        dump=case.dump,
        script=case.script + b"".join(b"@1 " + line + b"\n" for line in case.script.splitlines()),
        replies=case.replies + case.replies.replace(b"@0", b"@1"),
        out=case.dump,
        saved=case.dump[:4] + b"\2" + case.dump[5:] + undone,
        sizes=sizes(least, 28 / 27, 30),
    )


def ended_in(size: int, run: Run, program: str, folder: pathlib.Path) -> tuple[int, bytes, str, bytes | None, bytes | None]:
    """Status, replies, standard error, and the dump and the session written in an address space of this size in bytes."""
    dump, out, save = (folder / f"limited.{name}" for name in ("dump", "out", "save"))
    dump.write_bytes(run.dump)
    out.unlink(missing_ok=True)
    save.unlink(missing_ok=True)
    limit = lambda: resource.setrlimit(resource.RLIMIT_AS, (size, size))
    words = [program, "--dump", str(dump), "--out", str(out), "--save", str(save)]
    ended = subprocess.run(words, input=run.script, capture_output=True, timeout=120, preexec_fn=limit)
    out, save = (file.read_bytes() if file.exists() else None for file in (out, save))
    return ended.returncode, ended.stdout, ended.stderr.decode(), out, save


def checks(program: str, folder: pathlib.Path):
    """The name of each run, and how it ended wrongly; and what the runs together did not show."""
    least = least_space(program)
    for run in (histories(least), tables(least)):
        lengths = set()
        for size in run.sizes:
            status, replies, *left = ended_in(size, run, program, folder)
            is_whole = (status, replies, *left) == (0, run.replies, "", run.out, run.saved)
            is_part = (status, *left) == (5, "memory: OutOfMemory\n", None, None) and run.replies.startswith(replies)
            yield f"{run.name} in {size} bytes of memory", [] if is_whole or is_part else ["status, replies or files"]
            lengths.add(len(replies))
        missing = [] if {0, len(run.replies)} <= lengths else ["the ends, none of the replies and all of them,"]
        missing += [] if len(lengths) > 3 else ["how far the replies come"]
        yield f"memory of {run.name} that runs out at the beginning, in the middle and not at all", missing

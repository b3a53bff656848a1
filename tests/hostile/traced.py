"""What the program asks of the system, seen by strace, and what it does where the system refuses one of these calls.

A new file must be synced before it is renamed, and the outputs written in their order. A full disk at any of their calls
must leave the old files, and want of memory in the parser of the command line must end with status 5. Without strace
(`apt-get install -y strace`) nothing of this is seen, and each check fails.
"""
import dataclasses
import pathlib
import re
import shutil
import subprocess

from sample import COST, EDITED, SESSION

CALLS = "openat,write,fsync,rename,brk,mmap"
OLD_OUT, OLD_SAVED = b"a dump", b"a study"
REPLIES = b"@0 ok\n"
# Nearly the longest word that the system hands to a program: a copy of it takes nearly all that the heap grows by at once.
LONG_WORD = "x" * 131_000


@dataclasses.dataclass
class Traced:
    """A run under strace: its end, and its calls in order."""

    status: int
    replies: bytes
    error: bytes
    calls: list[str]

    def first(self, pattern: str) -> int:
        """The place of the first call that matches, or after the last one."""
        return next((at for at, call in enumerate(self.calls) if re.match(pattern, call)), len(self.calls))


def traced(program: str, folder: pathlib.Path, words: list[str], refused: list[str]) -> Traced:
    """Runs the program with COST on standard input. `refused` are calls that fail, as strace's option `inject` has them."""
    log = folder / "calls"
    inject = [word for how in refused for word in ("-e", f"inject={how}")]
    ended = subprocess.run(["strace", "-o", str(log), "-e", f"trace={CALLS}", *inject, program, *words], input=COST,
        capture_output=True, timeout=120, cwd=folder)
    return Traced(ended.returncode, ended.stdout, ended.stderr, log.read_text().splitlines())


def saving(program: str, folder: pathlib.Path, refused: list[str]) -> Traced:
    """A run that replaces the old files `out` and `saved` of a new folder."""
    shutil.rmtree(folder, ignore_errors=True)
    folder.mkdir()
    (folder / "out").write_bytes(OLD_OUT)
    (folder / "saved").write_bytes(OLD_SAVED)
    return traced(program, folder, ["--out", str(folder / "out"), "--save", str(folder / "saved")], refused)


def left_differences(folder: pathlib.Path, out: bytes, saved: bytes) -> list[str]:
    """What the folder has otherwise than these two files."""
    left = {file.name: file.read_bytes() for file in folder.iterdir() if file.name != "calls"}
    return [] if left == {"out": out, "saved": saved} else [f"the files {sorted(left)} and their texts"]


def renamed_when_synced(run: Traced, path: pathlib.Path, length: int) -> list[str]:
    """Whether the file was made new, written whole, synced, and then renamed over the old one."""
    name = re.escape(str(path))
    made = run.first(rf'openat\(AT_FDCWD, "{name}\.1\.new", .*O_EXCL')
    if made == len(run.calls):
        return ["how a new file is made"]
    file = run.calls[made].split(" = ")[1]
    written = [at for at, call in enumerate(run.calls) if at > made and re.match(rf"write\({file},.* = {length}$", call)]
    synced = [at for at, call in enumerate(run.calls) if at > made and re.match(rf"fsync\({file}\) += 0$", call)]
    renamed = run.first(rf'rename\("{name}\.1\.new", "{name}"\) += 0$')
    if not written or not synced:
        return ["a write or a sync, which was not seen,"]
    return [] if made < written[-1] < synced[0] < renamed < len(run.calls) else ["the order of write, sync and rename"]


def order_differences(program: str, folder: pathlib.Path) -> list[str]:
    """In which order the outputs are written: the replies, the dump and the session, each whole before the next."""
    run = saving(program, folder, [])
    out, saved = folder / "out", folder / "saved"
    found = [] if (run.status, run.replies, run.error) == (0, REPLIES, b"") else ["how the run ended"]
    found += left_differences(folder, EDITED, SESSION)
    found += renamed_when_synced(run, out, len(EDITED)) + renamed_when_synced(run, saved, len(SESSION))
    replied = run.first(r"write\(1, ")
    begun = [run.first(rf'openat\(AT_FDCWD, "{re.escape(str(path))}(\.1\.new)?", ') for path in (out, saved)]
    ended = run.first(rf'rename\("{re.escape(str(out))}\.1\.new"')
    return found + ([] if replied < begun[0] < ended < begun[1] < len(run.calls) else ["the order of the outputs"])


def made_at(run: Traced, path: pathlib.Path) -> int:
    """The place, among the opened files, of the new one beside a path, from 1 on."""
    opened = [call for call in run.calls if call.startswith("openat(")]
    return next(at for at, call in enumerate(opened, 1) if f'"{path}.1.new"' in call)


def refusals(ample: Traced, folder: pathlib.Path):
    """Each call of the outputs that fails: its name, how strace makes it fail, and the replies and files that are left."""
    out, saved = made_at(ample, folder / "out"), made_at(ample, folder / "saved")
    none, dump = (OLD_OUT, OLD_SAVED), (EDITED, OLD_SAVED)
    yield "a full disk as the replies are written", "write:error=ENOSPC:when=1..2", b"", none
    yield "a full disk as the new dump is made", f"openat:error=ENOSPC:when={out}", REPLIES, none
    yield "a full disk as the dump is written", "write:error=ENOSPC:when=2", REPLIES, none
    yield "a full disk as the dump is synced", "fsync:error=ENOSPC:when=1", REPLIES, none
    yield "a dump that cannot be renamed", "rename:error=EACCES:when=1", REPLIES, none
    yield "a full disk as the new session is made", f"openat:error=ENOSPC:when={saved}", REPLIES, dump
    yield "a full disk as the session is written", "write:error=ENOSPC:when=3", REPLIES, dump
    yield "a full disk as the session is synced", "fsync:error=ENOSPC:when=2", REPLIES, dump
    yield "a session that cannot be renamed", "rename:error=EACCES:when=2", REPLIES, dump


def refused_differences(program: str, folder: pathlib.Path, how: str, replies: bytes, left: tuple[bytes, bytes]) -> list[str]:
    """What a run leaves otherwise where a call of its outputs fails."""
    run = saving(program, folder, [how])
    found = [] if (run.status, run.replies, run.error) == (4, replies, b"file: Write\n") else ["status, replies or line"]
    found += [] if any("(INJECTED)" in call for call in run.calls) else ["the call that fails, which was not made,"]
    return found + left_differences(folder, *left)


def growths(run: Traced, end: int) -> list[int]:
    """The places of the calls before `end` that ask for a larger heap."""
    return [at for at, call in enumerate(run.calls[:end]) if call.startswith("brk(0x")]


def parser_differences(program: str, folder: pathlib.Path) -> list[str]:
    """How the program ends otherwise where the parser of the command line has no memory to report a long word.

    `--version` needs none for the words after it, so the heap of that run grows as it does before the parser."""
    words = [LONG_WORD, LONG_WORD]
    shown = traced(program, folder, ["--version", LONG_WORD, "--", LONG_WORD], [])
    ample = traced(program, folder, words, [])
    if shown.status != 0 or ample.status != 2 or not ample.error.startswith(b"error: unexpected argument 'xxx"):
        return ["how the runs with memory ended"]
    before = len(growths(shown, shown.first(r"write\(1, ")))
    asked = growths(ample, ample.first(r"write\(2, "))
    if len(asked) <= before:
        return ["the growths of the parser, which were not seen,"]
    at = asked[before]
    # A heap that does not grow shows by its end, which the system returns, and not by an error; 0 is below any end.
    refused = {"brk": "retval=0", "mmap": "error=ENOMEM"}
    counts = {name: 1 + sum(call.startswith(f"{name}(") for call in ample.calls[:at]) for name in refused}
    run = traced(program, folder, words, [f"{name}:{refused[name]}:when={n}+" for name, n in counts.items()])
    is_ended = (run.status, run.replies, run.error) == (5, b"", b"memory: OutOfMemory\n")
    return [] if is_ended else [f"status {run.status} for 5, replies or line"]


def checks(program: str, folder: pathlib.Path):
    """The name of each check, and what differs from what is wanted."""
    if shutil.which("strace") is None:
        yield "strace is missing (apt-get install -y strace), so the program's calls were not seen", ["they"]
        return
    room = folder / "traced"
    yield "new files are synced and then renamed, and the outputs are written in order", order_differences(program, room)
    ample = saving(program, room, [])
    for name, how, replies, left in refusals(ample, room):
        yield name, refused_differences(program, room, how, replies, left)
    yield "no memory for the parser of the command line", parser_differences(program, room)

"""How the program ends: runs of every exit status, with files, pipes and command lines as they come, and with scripts
that are too long for case files."""
import dataclasses
import os
import pathlib
import resource
import shutil
import signal
import subprocess

from sample import BASE, COST, EDITED, SAMPLE, SESSION, with_metric

INFO = b"@0 info areas 1 lsas 2 as 0 vbits 0 vlinks 0 done 1 undone 0\n"
NO_EDITS = b"@0 info areas 1 lsas 2 as 0 vbits 0 vlinks 0 done 0 undone 0\n"
USAGE = "\n\nUsage: ospf-plan [OPTIONS]\n\nFor more information, try '--help'.\n"


# The number of the user and of the group without rights.
NOBODY = 65534


@dataclasses.dataclass
class End:
    """One run, in a folder of its own, and how it must end. In its words `FOLDER` stands for that folder, `EMPTY` for the
    empty word, and `DESCRIPTOR` for the number under which the program has the file `saved` open."""

    name: str
    words: str
    status: int
    error: str = ""
    replies: bytes | None = b""
    stdin: bytes | None = b""
    # Whether zeros without end follow on standard input.
    is_endless: bool = False
    # Where standard output goes, as `output_to` has it. A file gets a part of the replies, from their beginning.
    stdout: str = "pipe"
    # The same of standard error; where it is no pipe, the status alone reports it.
    stderr: str = "pipe"
    # What must stand in the file `out` of the folder; `None` where there may be no such file.
    out: bytes | None = None
    # The same of the file `saved`.
    saved: bytes | None = None
    # The file `saved` before the run, if it is there, and its mode; and whether `link` leads to it.
    before: bytes | None = None
    mode: int = 0o640
    linked: bool = False
    # The file `out` before the run, and another file that is named `saved.1.new`, if they are there.
    old_out: bytes | None = None
    beside: bytes | None = None
    # The bytes that a file may have at most; whether a longer one ends the program, as a crash would.
    room: int | None = None
    is_ended: bool = False
    memory: int | None = None
    # Whether it is run by a user that may read and write none of the files.
    as_nobody: bool = False


TABLE = b"table 1.1.1.1\n"
EDITED_TABLE = b"@0 table 1.1.1.1 1\n10.2.0.0/16 intra 65540 0 0.0.0.0 link:10.0.0.1\n"

# Lines of the longest script, which has 1,048,576 bytes.
COMMENTS = b"# sixteen bytes\n" * 65_536


def full_history(branch: bytes) -> bytes:
    """Ten thousand edits, one more, one refused in any case, a refresh, and an undo of all that are done."""
    more = [b"cost 0.0.0.0 1.1.1.1 1 0\n", b"refresh\n", b"undo 10000\n"]
    return b"".join(branch + line for line in [b"cost 0.0.0.0 1.1.1.1 1 7\n"] * 10_001 + more)


def full_history_replies(branch: bytes) -> bytes:
    """What these are answered."""
    return b"".join(branch + line for line in [b"ok\n"] * 10_000 + [b"refused E12 HistoryFull\n"] * 3 + [b"ok\n"])


ENDS = [
    # ---- 0: done
    End("no option, an empty script", "", 0),
    End("standard input as script", "", 0, replies=b"@0 ok\n" + INFO, stdin=COST + b"info"),
    End("a dump, a script and --out", "--dump FOLDER/dump --script FOLDER/script --out FOLDER/out", 0,
        replies=b"@0 ok\n", out=EDITED),
    End("the dump's own file as --out", "--dump FOLDER/out --out FOLDER/out", 0, replies=b"@0 ok\n", stdin=COST,
        out=EDITED),
    End("the script's own file as --out", "--script FOLDER/out --out FOLDER/out", 0, replies=b"@0 ok\n", out=EDITED),
    End("an empty script and /dev/full as standard output", "", 0, stdout="full"),
    End("standard input closed, and a script", "--script FOLDER/script --out FOLDER/out", 0, replies=b"@0 ok\n",
        stdin=None, out=EDITED),
    End("standard input closed, a dump and a script", "--dump FOLDER/dump --script FOLDER/script --out FOLDER/out", 0,
        replies=b"@0 ok\n", stdin=None, out=EDITED),
    End("standard error closed", "--dump FOLDER/dump --out FOLDER/out --save FOLDER/saved", 0, replies=b"@0 ok\n",
        stdin=COST, stderr="closed", out=EDITED, saved=SESSION),
    End("standard input and standard error closed, and a script", "--script FOLDER/script --out FOLDER/out", 0,
        replies=b"@0 ok\n", stdin=None, stderr="closed", out=EDITED),
    End("--dump alone", "--dump FOLDER/edited", 0, replies=EDITED_TABLE, stdin=TABLE),
    End("--script alone", "--script FOLDER/script", 0, replies=b"@0 ok\n"),
    End("--out alone", "--out FOLDER/out", 0, replies=b"@0 ok\n", stdin=COST, out=EDITED),
    End("options with an equals sign", "--out=FOLDER/out --dump=FOLDER/edited", 0, replies=EDITED_TABLE, stdin=TABLE,
        out=EDITED),
    End("options in another order", "--out FOLDER/out --script FOLDER/script --dump FOLDER/edited", 0,
        replies=b"@0 ok\n", out=EDITED),
    End("a full history", "--out FOLDER/out", 0, replies=full_history_replies(b"@0 "), stdin=full_history(b""),
        out=SAMPLE),
    End("a full history of one branch", "--out FOLDER/out", 0, stdin=full_history(b"@1 ")
        + b"cost 0.0.0.0 1.1.1.1 1 13\n@1 undo 1\n", replies=full_history_replies(b"@1 ")
        + b"@0 ok\n@1 refused U1 NothingToUndo\n", out=with_metric(b"\x00\x0d", bytes.fromhex("0c21"))),
    End("a script of 1,048,576 bytes", "--out FOLDER/out", 0, stdin=COMMENTS, out=SAMPLE),
    End("standard input as dump, and a script", "--dump /dev/stdin --script FOLDER/script --out FOLDER/out", 0,
        replies=b"@0 ok\n", stdin=SAMPLE, out=EDITED),
    End("standard input as dump, which leaves no script", "--dump /dev/stdin --out FOLDER/out", 0, stdin=EDITED,
        out=EDITED),
    End("standard output as --out", "--out /dev/stdout", 0, replies=b"@0 ok\n" + EDITED, stdin=COST),
    # ---- 0: sessions are saved
    End("--save alone", "--save FOLDER/saved", 0, replies=b"@0 ok\n", stdin=COST, saved=SESSION),
    End("--save and --out", "--save FOLDER/saved --out FOLDER/out", 0, replies=b"@0 ok\n", stdin=COST, out=EDITED,
        saved=SESSION),
    End("the loaded session as --save", "--dump FOLDER/saved --save FOLDER/saved", 0, replies=INFO, stdin=b"info\n",
        before=SESSION, saved=SESSION),
    End("a link to a file as --save", "--save FOLDER/link", 0, replies=b"@0 ok\n", stdin=COST, before=b"a study",
        linked=True, saved=SESSION),
    End("a link that leads nowhere as --save", "--save FOLDER/link", 0, replies=b"@0 ok\n", stdin=COST, linked=True,
        saved=SESSION),
    End("one file as dump, --out and --save", "--dump FOLDER/saved --out FOLDER/saved --save FOLDER/saved", 0,
        replies=b"@0 ok\n", stdin=COST, before=SAMPLE, saved=SESSION),
    End("one saved session as dump, --out and --save", "--dump FOLDER/saved --out FOLDER/saved --save FOLDER/saved", 0,
        replies=INFO, stdin=b"info", before=SESSION, saved=SESSION),
    End("the script's own file as --save", "--script FOLDER/saved --save FOLDER/saved", 0, replies=b"@0 ok\n",
        before=COST, saved=SESSION),
    End("standard output as --save", "--save /dev/stdout", 0, replies=b"@0 ok\n" + SESSION, stdin=COST),
    End("a file of another mode as --save", "--save FOLDER/saved", 0, replies=b"@0 ok\n", stdin=COST,
        before=b"a study", mode=0o604, saved=SESSION),
    End("standard output closed, and an empty script", "--dump FOLDER/dump --save FOLDER/saved", 0, stdin=b"",
        stdout="closed", before=b"a study", saved=BASE),
    End("a file named saved.1.new beside --save", "--save FOLDER/saved", 0, replies=b"@0 ok\n", stdin=COST,
        before=b"a study", beside=b"another study", saved=SESSION),
    End("a file named saved.1.new beside a session that is not there yet", "--save FOLDER/saved", 0, replies=b"@0 ok\n",
        stdin=COST, beside=b"another study", saved=SESSION),
    End("an open file as --save, by its descriptor", "--save /proc/self/fd/DESCRIPTOR", 0, replies=b"@0 ok\n", stdin=COST,
        before=b"a longer study than the session that comes after it. " * 9, saved=SESSION),
    End("an open file as dump and --save, by its descriptor",
        "--dump /proc/self/fd/DESCRIPTOR --save /proc/self/fd/DESCRIPTOR", 0, replies=b"@0 ok\n", stdin=COST,
        before=SAMPLE, saved=SESSION),
    # ---- 2: the command line is refused
    End("an option that is not there", "--frob", 2, f"error: unexpected argument '--frob' found{USAGE}"),
    End("a word that is no option", "dump", 2, f"error: unexpected argument 'dump' found{USAGE}"),
    End("an option twice", "--dump a --dump b", 2,
        f"error: the argument '--dump <FILE>' cannot be used multiple times{USAGE}"),
    End("an option without its file", "--script", 2,
        "error: a value is required for '--script <FILE>' but none was supplied\n\n"
        "For more information, try '--help'.\n"),
    End("--out without its file", "--out", 2,
        "error: a value is required for '--out <FILE>' but none was supplied\n\n"
        "For more information, try '--help'.\n"),
    End("--save without its file", "--save", 2,
        "error: a value is required for '--save <FILE>' but none was supplied\n\n"
        "For more information, try '--help'.\n"),
    End("a word that is no text", "--dump \udcff", 2, "error: an argument is not UTF-8 text\n"),
    End("a word that is no text, and nobody hears", "--dump \udcff", 2, stderr="full"),
    End("a word that is no text, and standard error closed", "--dump \udcff", 2, stderr="closed"),
    End("an option that is not there, and standard error closed", "--frob", 2, stderr="closed"),
    End("an option that is not there, and nobody hears", "--frob", 2, stderr="full"),
    # ---- 3: the dump is refused
    End("a byte after the dump", "--dump FOLDER/long --out FOLDER/out", 3, "dump: L4 TrailingBytes at 99\n"),
    End("a refused dump before a script that cannot be read", "--dump FOLDER/long --script FOLDER", 3,
        "dump: L4 TrailingBytes at 99\n"),
    End("a truncated dump before a script that cannot be read", "--dump FOLDER/short --script FOLDER", 3,
        "dump: L3 Truncated at 97\n"),
    End("an empty dump", "--dump /dev/null", 3, "dump: L3 Truncated at 0\n"),
    End("an endless dump", "--dump /dev/zero", 3, "dump: L13 TooLarge at 0\n"),
    End("an endless dump on standard input", "--dump /dev/stdin --script FOLDER/script --out FOLDER/out", 3,
        "dump: L13 TooLarge at 0\n", stdin=SAMPLE, is_endless=True),
    End("an endless session on standard input", "--dump /dev/stdin --script FOLDER/script --out FOLDER/out", 3,
        "dump: L13 TooLarge at 0\n", stdin=BASE, is_endless=True),
    End("an endless session on standard input, and a file as --save", "--dump /dev/stdin --save FOLDER/saved", 3,
        "dump: L13 TooLarge at 0\n", stdin=SESSION, is_endless=True, before=SESSION, saved=SESSION),
    End("a refused dump, and a file as --save", "--dump FOLDER/long --save FOLDER/saved", 3,
        "dump: L4 TrailingBytes at 99\n", before=SESSION, saved=SESSION),
    End("a saved session that was cut, as --save", "--dump FOLDER/saved --save FOLDER/saved", 3,
        "dump: L3 Truncated at 103\n", before=SESSION[:-1], saved=SESSION[:-1]),
    End("a refused dump, and nobody hears", "--dump FOLDER/long --out FOLDER/out", 3, stderr="full"),
    End("a refused dump, and standard error closed", "--dump FOLDER/long --out FOLDER/out", 3, stderr="closed"),
    End("a refused dump that is --out too, and standard error closed", "--dump FOLDER/saved --out FOLDER/saved", 3,
        stderr="closed", before=SESSION[:-1], saved=SESSION[:-1]),
    # ---- 4: a file cannot be opened, read or written
    End("no such dump", "--dump FOLDER/none --out FOLDER/out", 4, "file: Open dump\n"),
    End("no such dump and no such script", "--dump FOLDER/none --script FOLDER/none", 4, "file: Open dump\n"),
    End("no such script", "--script FOLDER/none --out FOLDER/out", 4, "file: Open script\n"),
    End("no such script for a refused dump", "--dump FOLDER/long --script FOLDER/none", 4, "file: Open script\n"),
    End("no such folder for --out", "--out FOLDER/none/out", 4, "file: Open out\n", replies=b"@0 ok\n", stdin=COST),
    End("an empty path as --out", "--out EMPTY", 4, "file: Open out\n", replies=b"@0 ok\n", stdin=COST),
    End("an empty path as --out, and a file as --save", "--out EMPTY --save FOLDER/saved", 4, "file: Open out\n",
        replies=b"@0 ok\n", stdin=COST, before=b"a study", saved=b"a study"),
    End("an empty path as --save", "--save EMPTY --out FOLDER/out", 4, "file: Open save\n", replies=b"@0 ok\n",
        stdin=COST, out=EDITED),
    End("an empty path as dump", "--dump EMPTY", 4, "file: Open dump\n"),
    End("an empty path as script", "--script EMPTY", 4, "file: Open script\n"),
    End("a dump that may not be read", "--dump FOLDER/locked", 4, "file: Open dump\n", as_nobody=True),
    End("a script that may not be read", "--script FOLDER/locked", 4, "file: Open script\n", as_nobody=True),
    End("a file as --out that may not be written", "--out FOLDER/locked", 4, "file: Open out\n", replies=b"@0 ok\n",
        stdin=COST, as_nobody=True),
    End("a folder for --out that may not be written", "--out FOLDER/out", 4, "file: Open out\n", replies=b"@0 ok\n",
        stdin=COST, as_nobody=True),
    End("a file as --save that may not be written", "--save FOLDER/locked", 4, "file: Open save\n",
        replies=b"@0 ok\n", stdin=COST, as_nobody=True),
    End("a folder for --save that may not be written", "--save FOLDER/saved", 4, "file: Open save\n",
        replies=b"@0 ok\n", stdin=COST, as_nobody=True),
    End("a folder as --out", "--out FOLDER", 4, "file: Open out\n", replies=b"@0 ok\n", stdin=COST),
    End("a folder as dump", "--dump FOLDER --out FOLDER/out", 4, "file: Read\n", stdin=COST),
    End("a folder as script", "--script FOLDER --out FOLDER/out", 4, "file: Read\n"),
    End("a folder as dump, and a file as --save", "--dump FOLDER --save FOLDER/saved", 4, "file: Read\n", stdin=COST,
        before=b"a study", saved=b"a study"),
    End("standard input closed", "--out FOLDER/out", 4, "file: Read\n", stdin=None),
    End("standard input closed, and a file as --save", "--save FOLDER/saved", 4, "file: Read\n", stdin=None,
        before=b"a study", saved=b"a study"),
    End("standard input closed, and nobody hears", "--out FOLDER/out", 4, stdin=None, stderr="full"),
    End("standard input closed, and a dump", "--dump FOLDER/dump --out FOLDER/out", 4, "file: Read\n", stdin=None),
    End("standard input closed, and a dump that is a script too", "--dump FOLDER/saved --out FOLDER/out", 4, "file: Read\n",
        stdin=None, before=SESSION, saved=SESSION),
    End("standard input closed, a dump, and a file as --save", "--dump FOLDER/dump --save FOLDER/saved", 4, "file: Read\n",
        stdin=None, before=b"a study", saved=b"a study"),
    End("standard input and standard error closed, and a dump", "--dump FOLDER/dump --out FOLDER/out", 4, stdin=None,
        stderr="closed"),
    End("standard input and standard output closed, and a dump", "--dump FOLDER/dump --out FOLDER/out", 4, "file: Read\n",
        stdin=None, stdout="closed"),
    End("an endless script", "--script /dev/zero --out FOLDER/out", 4, "file: TooLarge\n"),
    End("an endless script on standard input", "--out FOLDER/out", 4, "file: TooLarge\n", stdin=COST, is_endless=True),
    End("a script of 1,048,577 bytes", "--out FOLDER/out", 4, "file: TooLarge\n", stdin=COMMENTS + b"#"),
    End("a script of 1,048,577 bytes, and a file as --save", "--save FOLDER/saved", 4, "file: TooLarge\n",
        stdin=COMMENTS + b"#", before=b"a study", saved=b"a study"),
    End("/dev/full as --out", "--out /dev/full", 4, "file: Write\n", replies=b"@0 ok\n", stdin=COST),
    End("/dev/full as --out, and a file as --save", "--out /dev/full --save FOLDER/saved", 4, "file: Write\n",
        replies=b"@0 ok\n", stdin=COST, before=b"a study", saved=b"a study"),
    End("no such folder for --out, and --save", "--out FOLDER/none/out --save FOLDER/saved", 4, "file: Open out\n",
        replies=b"@0 ok\n", stdin=COST),
    End("/dev/full as --save", "--save /dev/full --out FOLDER/out", 4, "file: Write\n", replies=b"@0 ok\n", stdin=COST,
        out=EDITED),
    End("no such folder for --save", "--save FOLDER/none/saved --out FOLDER/out", 4, "file: Open save\n",
        replies=b"@0 ok\n", stdin=COST, out=EDITED),
    End("a folder as --save", "--save FOLDER", 4, "file: Open save\n", replies=b"@0 ok\n", stdin=COST),
    End("no room for the dump", "--out FOLDER/out --save FOLDER/saved", 4, "file: Write\n", replies=b"@0 ok\n",
        stdin=COST, before=b"a study", room=98, saved=b"a study"),
    End("no room for the session", "--save FOLDER/saved", 4, "file: Write\n", replies=b"@0 ok\n", stdin=COST,
        before=b"a study", room=100, saved=b"a study"),
    End("no room for a session that is not there yet", "--save FOLDER/saved", 4, "file: Write\n", replies=b"@0 ok\n",
        stdin=COST, room=100),
    End("no room for the dump, and files as --out and --save", "--out FOLDER/out --save FOLDER/saved", 4, "file: Write\n",
        replies=b"@0 ok\n", stdin=COST, old_out=b"a dump", out=b"a dump", before=b"a study", room=98, saved=b"a study"),
    End("no room for the session, and files as --out and --save", "--out FOLDER/out --save FOLDER/saved", 4,
        "file: Write\n", replies=b"@0 ok\n", stdin=COST, old_out=b"a dump", out=EDITED, before=b"a study", room=100,
        saved=b"a study"),
    End("no room for the replies, and files as --out and --save", "--out FOLDER/out --save FOLDER/saved", 4,
        "file: Write\n", stdin=COST, stdout="full", old_out=b"a dump", out=b"a dump", before=b"a study",
        saved=b"a study"),
    End("no room for the session, and a file named saved.1.new beside it", "--save FOLDER/saved", 4, "file: Write\n",
        replies=b"@0 ok\n", stdin=COST, before=b"a study", beside=b"another study", room=100, saved=b"a study"),
    End("the program ends while it saves", "--save FOLDER/saved", -signal.SIGXFSZ, replies=b"@0 ok\n", stdin=COST,
        before=b"a study", room=100, is_ended=True, saved=b"a study"),
    End("/dev/full as standard output", "--out FOLDER/out", 4, "file: Write\n", stdin=COST, stdout="full"),
    End("standard output closed", "--out FOLDER/out", 4, "file: Write\n", stdin=COST, stdout="closed"),
    End("a pipe that nobody reads", "--out FOLDER/out", 4, "file: Write\n", stdin=COST, stdout="unread"),
    End("a pipe into head", "--out FOLDER/out --save FOLDER/saved", 4, "file: Write\n", stdin=b"info\n" * 100_000,
        stdout="head", before=b"a study", saved=b"a study"),
    End("/dev/full as standard output, and --save", "--save FOLDER/saved", 4, "file: Write\n", stdin=COST,
        stdout="full", before=b"a study", saved=b"a study"),
    End("standard output closed, and a dump", "--dump FOLDER/dump --script FOLDER/script --out FOLDER/out", 4,
        "file: Write\n", stdout="closed"),
    End("standard output closed, and --save", "--save FOLDER/saved", 4, "file: Write\n", stdin=COST,
        stdout="closed"),
    End("no such dump, and standard error closed", "--dump FOLDER/none --out FOLDER/out", 4, stderr="closed"),
    End("no such folder for --save, and standard error closed", "--save FOLDER/none/saved --out FOLDER/out", 4,
        replies=b"@0 ok\n", stdin=COST, stderr="closed", out=EDITED),
    End("/dev/full as --out, and standard error closed", "--out /dev/full --save FOLDER/saved", 4, replies=b"@0 ok\n",
        stdin=COST, stderr="closed", before=b"a study", saved=b"a study"),
    End("standard output and standard error closed", "--save FOLDER/saved", 4, stdin=COST, stdout="closed", stderr="closed",
        before=b"a study", saved=b"a study"),
    End("a file as standard output that fills up", "--out FOLDER/out --save FOLDER/saved", 4, "file: Write\n",
        stdin=b"info\n" * 100_000, replies=NO_EDITS * 100_000, stdout="file", room=1_000_000, before=b"a study",
        saved=b"a study"),
    End("a file as standard output without room for the first line", "--out FOLDER/out", 4, "file: Write\n", stdin=b"info\n",
        replies=NO_EDITS, stdout="file", room=10),
    End("a file as standard output without room for the last byte", "--out FOLDER/out", 4, "file: Write\n",
        stdin=b"info\n" * 100_000, replies=NO_EDITS * 100_000, stdout="file", room=100_000 * len(NO_EDITS) - 1),
    End("a pipe that nobody reads, and nobody hears", "--save FOLDER/saved", 4, stdin=COST, stdout="unread",
        stderr="full"),
    # ---- 5: want of memory
    End("a large dump and little memory", "--dump FOLDER/large", 5, "memory: OutOfMemory\n", memory=16 << 20),
    End("a large dump and little memory, and a file as --save", "--dump FOLDER/large --save FOLDER/saved", 5,
        "memory: OutOfMemory\n", memory=16 << 20, before=b"a study", saved=b"a study"),
    End("a large dump and little memory, and nobody hears", "--dump FOLDER/large", 5, memory=16 << 20,
        stderr="full"),
]


def make_files(folder: pathlib.Path, case: End) -> None:
    (folder / "dump").write_bytes(SAMPLE)
    (folder / "script").write_bytes(COST)
    (folder / "edited").write_bytes(EDITED)
    (folder / "long").write_bytes(SAMPLE + b"\0")
    (folder / "short").write_bytes(SAMPLE[:98])
    (folder / "locked").write_bytes(SAMPLE)
    (folder / "locked").chmod(0)
    if case.memory is not None:
        with (folder / "large").open("wb") as large:
            large.truncate(16_777_216)
    if case.before is not None:
        (folder / "saved").write_bytes(case.before)
        (folder / "saved").chmod(case.mode)
    if case.old_out is not None:
        (folder / "out").write_bytes(case.old_out)
    if case.beside is not None:
        (folder / "saved.1.new").write_bytes(case.beside)
    if case.linked:
        (folder / "link").symlink_to("saved")
    if "--dump FOLDER/out" in case.words:
        (folder / "out").write_bytes(SAMPLE)
    if "--script FOLDER/out" in case.words:
        (folder / "out").write_bytes(COST)


def output_to(kind: str, folder: pathlib.Path) -> int:
    """A file descriptor for the program to write to; `PIPE` where these checks read it, or where it is to be closed."""
    if kind == "file":
        return os.open(folder / "replies", os.O_WRONLY | os.O_CREAT, 0o644)
    if kind == "full":
        return os.open("/dev/full", os.O_WRONLY)
    if kind == "head":
        # It reads one line and goes away.
        head = subprocess.Popen(["head", "-n", "1"], stdin=subprocess.PIPE, stdout=subprocess.DEVNULL)
        return os.dup(head.stdin.fileno())
    if kind == "unread":
        reader, writer = os.pipe()
        os.close(reader)
        return writer
    return subprocess.PIPE


def before_run(case: End):
    """What the child does before the program starts."""

    def prepare() -> None:
        if case.stdout == "closed":
            os.close(1)
        if case.stdin is None:
            os.close(0)
        if case.stderr == "closed":
            os.close(2)
        if case.room is not None:
            resource.setrlimit(resource.RLIMIT_FSIZE, (case.room, case.room))
            signal.signal(signal.SIGXFSZ, signal.SIG_DFL if case.is_ended else signal.SIG_IGN)
        if case.memory is not None:
            resource.setrlimit(resource.RLIMIT_AS, (case.memory, case.memory))
        if case.as_nobody and os.geteuid() == 0:
            os.setgroups([])
            os.setgid(NOBODY)
            os.setuid(NOBODY)

    return prepare


def ended(case: End, program: str, folder: pathlib.Path, stdout: int, stderr: int) -> subprocess.CompletedProcess:
    """The run of a case."""
    words = [program] + ["" if word == "EMPTY" else word.replace("FOLDER", str(folder)) for word in case.words.split()]
    how = {"stdout": stdout, "stderr": stderr, "timeout": 120, "preexec_fn": before_run(case), "cwd": folder}
    if "DESCRIPTOR" in case.words:
        with (folder / "saved").open("r+b") as held:
            number = held.fileno()
            words = [word.replace("DESCRIPTOR", str(number)) for word in words]
            run = subprocess.run(words, input=case.stdin, pass_fds=[number], **how)
            # What was written stands in the file that was open, and not in another of its name.
            if held.read() != case.saved:
                run.returncode = -1
            return run
    if case.is_endless:
        (folder / "front").write_bytes(case.stdin)
        with subprocess.Popen(["cat", str(folder / "front"), "/dev/zero"], stdout=subprocess.PIPE) as endless:
            run = subprocess.run(words, stdin=endless.stdout, **how)
            endless.kill()
            return run
    how["input"] = case.stdin
    if not case.as_nobody:
        return subprocess.run(words, **how)
    # The program may lie where not everyone may go, so it is opened here.
    opened = os.open(program, os.O_RDONLY)
    try:
        return subprocess.run(words, executable=f"/proc/self/fd/{opened}", pass_fds=[opened], **how)
    finally:
        os.close(opened)


def differences(case: End, program: str, folder: pathlib.Path) -> list[str]:
    shutil.rmtree(folder, ignore_errors=True)
    folder.mkdir()
    make_files(folder, case)
    stdout = output_to(case.stdout, folder)
    stderr = output_to(case.stderr, folder)
    if case.as_nobody:
        # The folder takes no new file. Otherwise what may not be opened is the file, and not the folder that it lies in.
        folder.parent.chmod(0o711)
        folder.chmod(0o555)
    run = ended(case, program, folder, stdout, stderr)
    folder.chmod(0o755)
    for stream in {stdout, stderr} - {subprocess.PIPE}:
        os.close(stream)
    found = []
    if run.returncode != case.status:
        found.append(f"status {run.returncode} for {case.status}")
    if run.stderr is not None and run.stderr.decode() != case.error:
        found.append(f"standard error {run.stderr.decode()!r}")
    if case.stdout == "pipe" and run.stdout != case.replies:
        found.append("replies")
    if case.stdout == "file" and not case.replies.startswith((folder / "replies").read_bytes()):
        found.append("replies")
    out = folder / "out"
    if (out.read_bytes() if out.exists() else None) != case.out:
        found.append("the dump written")
    return found + saved_differences(case, folder)


def saved_differences(case: End, folder: pathlib.Path) -> list[str]:
    """What differs from what must be of the saved file, of the link to it, and of what stands beside."""
    saved, link = folder / "saved", folder / "link"
    found = []
    if (saved.read_bytes() if saved.exists() else None) != case.saved:
        found.append("the session saved")
    if case.before is not None and saved.stat().st_mode & 0o777 != case.mode:
        found.append("the mode of the session saved")
    if link.is_symlink() != case.linked:
        found.append("the link")
    left = {file.name: file.read_bytes() for file in folder.glob("*.new")}
    if left != ({} if case.beside is None else {"saved.1.new": case.beside}) and not case.is_ended:
        found.append("files beside")
    return found

"""How ospf-study ends: runs of every exit status, as docs/STUDY.md has them in its sections 1 and 8.

Each is an `End` of ends.py, in a folder of its own, which has the sample as `dump`, an edit of it as the study `script`,
and other files that fail. FILE in a line on standard error is the argument as it was given: `-` is standard input.
"""
import pathlib
import shutil
import subprocess

import ends
from ends import COMMENTS, End
from sample import COST, EDITED, SAMPLE, SESSION


def summary(lines: int, refused: int = 0, expectations: int = 0, failed: int = 0) -> bytes:
    """The last line of standard output."""
    result = b"failed" if refused or failed else b"ok"
    return b"study %s lines %d refused %d expectations %d failed %d\n" % (result, lines, refused, expectations, failed)


def documents(*members: bytes, passed: bytes = b"ok", refused: int = 0, failed: int = 0, expectations: int = 0) -> bytes:
    """The documents of the lines of standard input, by what each has after its number, and the summary."""
    lines = b"".join(b'{"file":"-","line":%d,%b}\n' % (number, text) for number, text in enumerate(members, 1))
    return lines + b'{"summary":{"result":"%b","lines":%d,"refused":%d,"expectations":%d,"failed":%d}}\n' % (
        passed, len(members), refused, expectations, failed)


# What the study `script`, or COST, is answered; and a line that no program takes, with its reply and its line.
DONE = b"@0 ok\n" + summary(1)
BAD, BAD_REPLY, BAD_ERROR = b"frob\n", b"script S2 UnknownWord\n", "-:1: script S2 UnknownWord frob (did you mean fail-link)\n"
QUESTIONS = b"info\n" * 100_000
ANSWERS = ends.NO_EDITS * 100_000 + summary(100_000)

ACCEPTED = [
    End("a study and --out", "--dump dump --out out script", 0, replies=DONE, out=EDITED),
    End("an old file as --out", "--dump dump --out out script", 0, replies=DONE, old_out=b"a dump", out=EDITED),
    End("the dump's own file as --out", "--dump FOLDER/out --out FOLDER/out script", 0, replies=DONE, out=EDITED),
    End("the baseline's own file as --out", "--dump dump --baseline out --out out script", 0, replies=DONE,
        old_out=SAMPLE, out=EDITED),
    End("standard output as --out", "--dump dump --out /dev/stdout script", 0, replies=DONE + EDITED),
    End("no study", "--dump dump", 0, replies=DONE, stdin=COST),
    End("no study, and documents", "--dump dump --format json --out out", 0, stdin=COST,
        replies=documents(b'"branch":0,"word":"cost","answer":"ok"'), out=EDITED),
    End("texts as they are without --format", "--dump dump --format text", 0, replies=DONE, stdin=COST),
    End("- as study", "--dump dump -", 0, replies=DONE, stdin=COST),
    End("- twice, which leaves nothing for the second", "--dump dump - script -", 0, stdin=b"lost\n",
        replies=b"@0 lost 0\n@0 ok\n" + summary(2)),
    End("a study twice", "--dump dump script script", 0, replies=b"@0 ok\n@0 ok\n" + summary(2)),
    End("1,000 studies", "--dump dump" + " script" * 1000, 0, replies=b"@0 ok\n" * 1000 + summary(1000)),
    End("an empty study", "--dump dump /dev/null", 0, replies=summary(0)),
    End("an empty names file", "--dump dump --names /dev/null script", 0, replies=DONE),
    End("standard input as dump", "--dump /dev/stdin script", 0, replies=DONE, stdin=SAMPLE),
    End("standard input as baseline", "--dump dump --baseline /dev/stdin script", 0, replies=DONE, stdin=SESSION),
    End("standard input as names", "--dump dump --names /dev/stdin script", 0, replies=DONE, stdin=b"1.1.1.1 r1\n"),
    End("standard input closed, and a study", "--dump dump script", 0, replies=DONE, stdin=None),
    End("standard error closed", "--dump dump --out out script", 0, replies=DONE, stderr="closed", out=EDITED),
    End("standard error full", "--dump dump --out out script", 0, replies=DONE, stderr="full", out=EDITED),
]

NOT_ACCEPTED = [
    End("a line that is no command, and --out", "--dump dump --out out", 1, BAD_ERROR, BAD_REPLY + summary(1, 1),
        stdin=BAD + COST, old_out=b"a dump", out=b"a dump"),
    End("a line that is no command, --keep-going and --out", "--dump dump --keep-going --out out", 1, BAD_ERROR,
        BAD_REPLY + b"@0 ok\n" + summary(2, 1), stdin=BAD + COST, old_out=b"a dump", out=b"a dump"),
    End("a line that is no command, and no such folder for --out, which is not opened", "--dump dump --out none/out", 1,
        BAD_ERROR, BAD_REPLY + summary(1, 1), stdin=BAD),
    End("a line that is no command, and documents", "--dump dump --format json --out out", 1, BAD_ERROR,
        documents(b'"answer":"fault","code":"S2","name":"UnknownWord","at":"frob","hint":"did you mean fail-link"',
                  passed=b"failed", refused=1), stdin=BAD + COST, old_out=b"a dump", out=b"a dump"),
    End("an expectation that does not hold, and documents", "--dump dump --format json", 1, "-:1: failed lost 0\n",
        documents(b'"branch":7,"word":"expect","answer":"failed","expected":"lost","found":"lost 0"', passed=b"failed",
                  failed=1, expectations=1), stdin=b"@7 expect not lost none\n"),
    End("a refused line in the second study", "--dump dump script - script", 1, "-:2: refused E1 NoArea 0.0.0.1 (the database has 0.0.0.0)\n",
        b"@0 ok\n@0 refused E1 NoArea\n" + summary(2, 1), stdin=b"\ncost 0.0.0.1 1.1.1.1 1 7\n"),
    End("a router that is not there", "--dump dump --out out", 1,
        "-:1: refused N1 NoRouter 9.9.9.9 (the database has 1.1.1.1)\n",
        b"@0 refused N1 NoRouter\n" + summary(1, 1), stdin=b"expect not path 9.9.9.9 10.2.0.1 delivered\n"),
    End("nothing to undo", "--dump dump", 1,
        "-:1: refused U1 NothingToUndo microloops (0 edits are done)\n",
        b"@0 refused U1 NothingToUndo\n" + summary(1, 1), stdin=b"expect microloops none\n"),
    End("an expectation that does not hold, and --out", "--dump dump --out out", 1, "-:2: failed lost 0\n",
        b"@0 ok\n@0 failed lost 0\n" + summary(2, 0, 1, 1), stdin=COST + b"expect not lost none\n", old_out=b"a dump",
        out=b"a dump"),
]

MISSING_VALUE = "error: a value is required for '--{0} <{1}>' but none was supplied\n\nFor more information, try '--help'.\n"
COMMAND_LINE = [
    *(End(f"--{option} without its file", f"--{option}", 2, MISSING_VALUE.format(option, value))
      for option, value in (("dump", "DUMP"), ("baseline", "DUMP"), ("names", "FILE"), ("out", "DUMP"))),
    End("another --format", "--dump dump --format xml", 2, "error: invalid value 'xml' for '--format <FORMAT>'\n"
        "  [possible values: text, json]\n\nFor more information, try '--help'.\n"),
    End("a word that is no text", "--dump dump \udcff", 2, "error: an argument is not UTF-8 text\n"),
    End("no dump, and nobody hears", "script", 2, stderr="full"),
    End("an option twice, and standard error closed", "--dump dump --dump dump script", 2, stderr="closed"),
]

REFUSED = [
    End("a byte after the dump", "--dump long --out out script", 3, "dump: L4 TrailingBytes at 99\n", old_out=b"a dump",
        out=b"a dump"),
    End("a byte after the baseline", "--dump dump --baseline long --out out script", 3,
        "baseline: L4 TrailingBytes at 99\n", old_out=b"a dump", out=b"a dump"),
    End("a refused dump before the baseline and the names", "--dump short --baseline long --names script script", 3,
        "dump: L3 Truncated at 97\n"),
    End("a refused baseline before the names", "--dump dump --baseline long --names script script", 3,
        "baseline: L4 TrailingBytes at 99\n"),
    End("a names file that is none", "--dump dump --names script --out out script", 3, "script:1: H1 BadAddress cost\n",
        old_out=b"a dump", out=b"a dump"),
    End("standard input as a names file that is none", "--dump dump --names /dev/stdin script", 3,
        "/dev/stdin:3: H3 BadName x!\n", stdin=b"1.1.1.1 r1\n\n2.2.2.2 r2 x! y!"),
    End("an empty dump", "--dump /dev/null script", 3, "dump: L3 Truncated at 0\n"),
    End("an endless dump", "--dump /dev/zero script", 3, "dump: L13 TooLarge at 0\n"),
    End("an endless baseline", "--dump dump --baseline /dev/stdin script", 3, "baseline: L13 TooLarge at 0\n",
        stdin=SAMPLE, is_endless=True),
    End("an endless baseline is refused before the dump is loaded", "--dump long --baseline /dev/zero script", 3,
        "baseline: L13 TooLarge at 0\n"),
    End("a refused dump, and nobody hears", "--dump long script", 3, stderr="full"),
    End("a refused names file, and standard error closed", "--dump dump --names script script", 3, stderr="closed"),
]

# Each file of a run that cannot be opened, with the word for it and the command line that has X in its place.
INPUTS = {
    "dump": "--dump X script",
    "baseline": "--dump dump --baseline X script",
    "names": "--dump dump --names X script",
    "study": "--dump dump script X script",
}


def not_opened(what: str, name: str) -> str:
    """The line of a file that cannot be opened: of several studies it names the one, as it was given."""
    return f"file: Open study {name}\n" if what == "study" else f"file: Open {what}\n"


INPUT_FILES = [
    end
    for what, words in INPUTS.items()
    for end in (
        End(f"no such {what}", "--out out " + words.replace("X", "none"), 4, not_opened(what, "none"),
            old_out=b"a dump", out=b"a dump"),
        End(f"an empty path as {what}", words.replace("X", "EMPTY"), 4, not_opened(what, "")),
        End(f"a {what} that may not be read", words.replace("X", "locked"), 4, not_opened(what, "locked"), as_nobody=True),
        End(f"a folder as {what}", "--out out " + words.replace("X", "FOLDER"), 4, "file: Read\n", old_out=b"a dump",
            out=b"a dump"),
        End(f"no such {what}, and nobody hears", words.replace("X", "none"), 4, stderr="full"),
    )
]

FILES = [
    End("no file is there", "--dump none --baseline none --names none none", 4, "file: Open dump\n"),
    End("only the dump is there", "--dump dump --baseline none --names none none", 4, "file: Open baseline\n"),
    End("no names and no study are there", "--dump dump --names none none", 4, "file: Open names\n"),
    End("all files are opened before the dump is read", "--dump FOLDER script none", 4, "file: Open study none\n"),
    End("all files are read before the dump is loaded", "--dump long --names script FOLDER", 4, "file: Read\n"),
    End("an endless dump is refused before the study is read", "--dump /dev/zero script /dev/zero", 3, "dump: L13 TooLarge at 0\n"),
    End("an endless dump is refused before a folder is read", "--dump /dev/zero script FOLDER", 3, "dump: L13 TooLarge at 0\n"),
    End("standard input closed", "--dump dump --out out", 4, "file: Read\n", stdin=None),
    End("standard input closed, and - as the second study", "--dump dump script -", 4, "file: Read\n", stdin=None),
    End("standard input closed, and nobody hears", "--dump dump", 4, stdin=None, stderr="full"),
    End("an endless study", "--dump dump /dev/zero", 4, "file: TooLarge\n"),
    End("an endless study on standard input", "--dump dump script - script", 4, "file: TooLarge\n", stdin=COST,
        is_endless=True),
    End("endless names", "--dump dump --names /dev/zero script", 4, "file: TooLarge\n"),
    End("a study of 1,048,577 bytes", "--dump dump script -", 4, "file: TooLarge\n", stdin=COMMENTS + b"#"),
    End("names of 1,048,577 bytes", "--dump dump --names /dev/stdin script", 4, "file: TooLarge\n", stdin=COMMENTS + b"#"),
]

OUTPUTS = [
    End("no such folder for --out", "--dump dump --out none/out script", 4, "file: Open out\n", DONE),
    End("an empty path as --out", "--dump dump --out EMPTY script", 4, "file: Open out\n", DONE),
    End("a folder as --out", "--dump dump --out FOLDER script", 4, "file: Open out\n", DONE),
    End("a folder for --out that may not be written", "--dump dump --out out script", 4, "file: Open out\n", DONE,
        as_nobody=True),
    End("a file as --out that may not be written", "--dump dump --out locked script", 4, "file: Open out\n", DONE,
        as_nobody=True),
    End("/dev/full as --out", "--dump dump --out /dev/full script", 4, "file: Write\n", DONE),
    End("no room for the dump", "--dump dump --out out script", 4, "file: Write\n", DONE, room=98),
    End("no room for the dump, and an old file as --out", "--dump dump --out out script", 4, "file: Write\n", DONE,
        old_out=b"a dump", room=98, out=b"a dump"),
    End("no such folder for --out, and standard error closed", "--dump dump --out none/out script", 4, replies=DONE,
        stderr="closed"),
    *(End(f"standard output {kind}, and an old file as --out", "--dump dump --out out script", 4, "file: Write\n",
          stdout=kind, old_out=b"a dump", out=b"a dump") for kind in ("full", "closed", "unread")),
    *(End(f"standard output {kind}, and an empty study", "--dump dump /dev/null", 4, "file: Write\n", stdout=kind)
      for kind in ("full", "closed", "unread")),
    *(End(f"standard output {kind}, so that the reply before a line is not out", "--dump dump", 4, "file: Write\n",
          stdin=BAD, stdout=kind) for kind in ("full", "closed", "unread")),
    End("a pipe into head", "--dump dump --out out", 4, "file: Write\n", stdin=QUESTIONS, stdout="head",
        old_out=b"a dump", out=b"a dump"),
    End("a file as standard output that fills up", "--dump dump --out out", 4, "file: Write\n", stdin=QUESTIONS,
        replies=ANSWERS, stdout="file", room=1_000_000, old_out=b"a dump", out=b"a dump"),
    End("a file as standard output without room for the last byte", "--dump dump", 4, "file: Write\n", stdin=QUESTIONS,
        replies=ANSWERS, stdout="file", room=len(ANSWERS) - 1),
    *(End(f"standard error {kind}, and a line that is no command{after}", f"--dump dump{after} --out out", 4,
          replies=BAD_REPLY, stdin=BAD + COST, stderr=kind, old_out=b"a dump", out=b"a dump")
      for kind in ("full", "closed", "unread") for after in ("", " --keep-going")),
    End("standard output full, and nobody hears", "--dump dump script", 4, stdout="full", stderr="full"),
]

MEMORY = [
    End("a large dump and little memory", "--dump large --out out script", 5, "memory: OutOfMemory\n", memory=16 << 20,
        old_out=b"a dump", out=b"a dump"),
    End("a large baseline and little memory", "--dump dump --baseline large script", 5, "memory: OutOfMemory\n",
        memory=16 << 20),
    End("a large dump and little memory, and nobody hears", "--dump large script", 5, memory=16 << 20, stderr="full"),
]


def order_differences(program: str, folder: pathlib.Path) -> list[str]:
    """Where both streams are one, each reply stands in front of its line, and after the line before."""
    shutil.rmtree(folder, ignore_errors=True)
    folder.mkdir()
    (folder / "dump").write_bytes(SAMPLE)
    study = BAD + COST + b"expect not lost none\ninfo\n"
    run = subprocess.run([program, "--dump", "dump", "--keep-going"], input=study, stdout=subprocess.PIPE,
                         stderr=subprocess.STDOUT, timeout=120, cwd=folder)
    wanted = BAD_REPLY + BAD_ERROR.encode() + b"@0 ok\n@0 failed lost 0\n-:3: failed lost 0\n" + ends.INFO + summary(4, 1, 1, 1)
    return [] if (run.returncode, run.stdout) == (1, wanted) else [f"status {run.returncode} or {run.stdout!r}"]


def checks(program: str, folder: pathlib.Path):
    """The name of each check, and what differs from what is wanted."""
    for end in (*ACCEPTED, *NOT_ACCEPTED, *COMMAND_LINE, *REFUSED, *INPUT_FILES, *FILES, *OUTPUTS, *MEMORY):
        yield end.name, ends.differences(end, program, folder / "end")
    yield "both streams in one file", order_differences(program, folder / "end")

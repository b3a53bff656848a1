"""Studies and names files of any bytes, and large ones.

Those of random bytes and of changed lines are made of a fixed seed, and each is run with --keep-going and without. What a
run prints is read beside plain readers of docs/STUDY.md: which lines of a study are answered, for which branch, and the
first fault of a names file. The replies decide the lines on standard error, the summary and the status; a run without
--keep-going prints what the other prints up to the first line that is not accepted. No run takes more than a second of
processor time.
"""
import os
import pathlib
import random
import re
import resource
import tempfile

import large
import mutants
from ends import COMMENTS, NO_EDITS
from malformed import ended
from program import ROOT
from sample import SAMPLE
from study_ends import summary

SEED, COUNT, MOST_SECONDS = 1, 100, 1
DUMP = (ROOT / "examples" / "two-areas.oswp").read_bytes()
NAMES = (ROOT / "examples" / "hosts").read_bytes() + b"10.1.0.3 lan-3 card # of r3\nfe80::1 r6\n\n"
STUDY = (ROOT / "examples" / "maintenance.study").read_bytes() + b"""
routers
links r3
networks
@1 fail-router r3
@1 changes
@1 lost
@1 gone
loops
@1 microloops 1
routes r1 10.1.5.9
path r1 10.1.5.9
explain r1 10.1.5.0/24
log
help expect
table 1.1.1.1
compare 1.1.1.1
info
@1 expect not same r1
expect changes <= 3
expect no-route r1 10.99.0.0/16
expect hops r4 0.0.0.0/0 >= 2
expect gone only 10.1.0.0/24 10.4.0.0/16
expect blackholes none
add-external r2 10.8.0.0/16 1 20 0.0.0.0 7
"""

# ---- plain readers

WORDS = """cost drop-link fail-link fail-net fail-router add-stub summary add-summary add-external drop-external refresh undo
redo table tables compare info routers links networks routes path explain changes lost gone loops microloops log help expect
route no-route hops blackholes same intra inter ext1 ext2 own not via avoids delivered none only""".encode().split()
PART = rb"(0|[1-9]\d?|1\d\d|2[0-4]\d|25[0-5])"
ADDRESS = re.compile(rb"\.".join([PART] * 4))


def words_of(line: bytes) -> list[bytes]:
    """The words of a line, between the bytes 20, 09 and 0d."""
    return [word for word in re.split(rb"[ \t\r]+", line) if word]


def shown(word: bytes) -> bytes:
    """A word at fault as it is printed (section 1)."""
    front = b"".join(b"%c" % byte if 0x21 <= byte <= 0x7E and byte != 0x5C else b"\\x%02x" % byte for byte in word[:64])
    return front + (b".." if len(word) > 64 else b"")


def fault_of_name(name: bytes, address: bytes, taken: dict[bytes, bytes]) -> bytes:
    """The code of the fault of a name, where it has one (section 2)."""
    if not re.fullmatch(rb"[A-Za-z0-9._-]{1,255}", name):
        return b"H3 BadName"
    if ADDRESS.fullmatch(name) or re.fullmatch(rb"\d+", name) or name in WORDS:
        return b"H4 ReservedName"
    return b"H5 NameTaken" if taken.setdefault(name, address) != address else b""


def fault_of_names(text: bytes) -> bytes:
    """The first fault of a names file, as its line is printed after the file; nothing where it is accepted."""
    taken: dict[bytes, bytes] = {}
    for number, line in enumerate(text.split(b"\n"), 1):
        words = words_of(line.partition(b"#")[0])
        if not words or b":" in words[0]:
            continue
        if not ADDRESS.fullmatch(words[0]):
            return b"%d: H1 BadAddress %s" % (number, shown(words[0]))
        if len(words) == 1:
            return b"%d: H2 MissingName %s" % (number, shown(words[0]))
        for name in words[1:]:
            if fault := fault_of_name(name, words[0], taken):
                return b"%d: %s %s" % (number, fault, shown(name))
    return b""


def answered_lines(text: bytes) -> list[tuple[int, list[bytes]]]:
    """The number and the words of each line of a study that has a reply."""
    lines = [(number, words_of(line)) for number, line in enumerate(text.split(b"\n"), 1)]
    return [(number, words) for number, words in lines if words and not words[0].startswith(b"#")]


# ---- what a run prints


def replies_of(output: bytes) -> list[bytes]:
    """The replies, each with the lines that belong to it, and the summary."""
    return re.split(rb"(?m)^(?=@|script |study )", output)[1:]


def error_of(reply: bytes, file: bytes, number: int, words: list[bytes]) -> bytes | None:
    """The line on standard error that belongs to the reply to a line, as a pattern; `None` where the reply cannot be."""
    place = re.escape(b"%s:%d: " % (file, number))
    branch = words[0] if re.fullmatch(rb"@[0-7]", words[0]) else b"@0"
    if re.fullmatch(rb"script S[2-9] \w+\n", reply):
        at_fault = b"|".join(re.escape(shown(word)) for word in words)
        return place + re.escape(reply[:-1]) + rb" (" + at_fault + rb") \([ -~]+\)\n"
    if words[0].startswith(b"@") and words[0] != branch or not reply.startswith(branch + b" "):
        return None
    said = reply[len(branch) + 1:]
    if re.fullmatch(rb"refused [ENU]\d+ \w+\n", said):
        at_fault = b"|".join(re.escape(shown(part)) for word in words for part in word.split(b","))
        return place + re.escape(said[:-1]) + rb" (" + at_fault + rb") \([ -~]+\)\n"
    if re.fullmatch(rb"failed [ -~]+\n", said):
        return place + re.escape(said)
    word = words[1] if words[0] == branch else words[0]
    is_question = re.match(re.escape(word) + rb"( [^\n]*)?\n", said)
    return b"" if is_question or re.fullmatch(rb"ok( [ -~]+)?\n", said) else None


def wanted_summary(replies: list[bytes], lines: list[tuple[int, list[bytes]]]) -> bytes:
    """The summary of these replies."""
    refused = [reply.startswith(b"script ") or reply[3:].startswith(b"refused ") for reply in replies]
    failed = sum(reply[3:].startswith(b"failed ") for reply in replies)
    expectations = sum(b"expect" in words[:2] and not is_refused for (_, words), is_refused in zip(lines, refused)
                       if words[0] == b"expect" or words[0].startswith(b"@"))
    return summary(len(replies), sum(refused), expectations, failed)


def study_differences(run: tuple[int, bytes, bytes], study: bytes, file: bytes) -> list[str]:
    """What a run with --keep-going does otherwise than its study and its replies say."""
    status, output, error = run
    lines, (*replies, last) = answered_lines(study), replies_of(output) or [b""]
    if len(lines) != len(replies):
        return [f"{len(replies)} replies for {len(lines)}"]
    errors = [error_of(reply, file, *line) for reply, line in zip(replies, lines)]
    if None in errors:
        return [f"reply {replies[errors.index(None)]!r} to {lines[errors.index(None)]}"]
    found = [] if re.fullmatch(b"".join(errors), error) else [f"standard error {error!r}"]
    found += [] if last == wanted_summary(replies, lines) else [f"the summary {last!r}"]
    return found + ([] if status == (1 if any(errors) else 0) else [f"status {status}"])


def front(run: tuple[int, bytes, bytes], study: bytes) -> tuple[int, bytes, bytes]:
    """What a run without --keep-going does, where the other run has ended so."""
    status, output, error = run
    if status != 1:
        return run
    lines, replies = answered_lines(study), replies_of(output)[:-1]
    count = 1 + next(at for at, reply in enumerate(replies) if re.match(rb"script |@\d (refused|failed) ", reply))
    last = wanted_summary(replies[:count], lines)
    return status, b"".join(replies[:count]) + last, error[:error.index(b"\n") + 1]


class Room:
    """A folder with the files of a run."""

    def __init__(self, program: str, folder: str):
        self.program, self.folder = program, pathlib.Path(folder)
        self.names, self.study = str(self.folder / "hosts"), str(self.folder / "a.study")

    def run(self, files: dict[str, bytes], *options: str) -> tuple[tuple[int, bytes, bytes], list[str]]:
        """Status and streams of a run over these files, and what it took too long."""
        for name, data in files.items():
            (self.folder / name).write_bytes(data)
        words = [self.program, "--dump", str(self.folder / "dump"), "--names", self.names, *options, self.study]
        before = resource.getrusage(resource.RUSAGE_CHILDREN)
        run = ended(words, self.folder / "output", self.folder / "error")
        after = resource.getrusage(resource.RUSAGE_CHILDREN)
        seconds = after.ru_utime + after.ru_stime - before.ru_utime - before.ru_stime
        return run, [] if seconds <= MOST_SECONDS else [f"{seconds:.1f} seconds of processor time"]

    def differences(self, names: bytes, study: bytes) -> list[str]:
        """What the two runs over a names file and a study do otherwise than they must."""
        files = {"dump": DUMP, "hosts": names, "a.study": study}
        whole, slow = self.run(files, "--keep-going")
        strict, slow_strict = self.run(files)
        if fault := fault_of_names(names):
            refused = (3, b"", f"{self.names}:".encode() + fault + b"\n")
            return slow + slow_strict + [f"{run}" for run in (whole, strict) if run != refused]
        found = study_differences(whole, study, self.study.encode())
        if not found and strict != front(whole, study):
            found = [f"the run without --keep-going, {strict},"]
        return slow + slow_strict + found


# ---- what is run


def random_bytes(chance: random.Random) -> bytes:
    """Random bytes, of which many are ends of lines, blanks or of the words of the language."""
    count = chance.choice([1, 10, 100, 1000, 10_000])
    kinds = [lambda: chance.randbytes(1), lambda: chance.choice([b"\n", b" ", b"#", b"\t", b"\r"]), lambda: chance.choice(WORDS)]
    return b"".join(chance.choice(kinds)() for _ in range(count))


def changed(chance: random.Random, text: bytes, other: bytes) -> bytes:
    """A text with changed lines, and now and then with changed bytes."""
    text = mutants.changed_lines(chance, text, other)
    return mutants.changed_bytes(chance, text, other) if chance.random() < 0.3 else text


def inputs(chance: random.Random):
    """Names files and studies, with what they are."""
    for _ in range(COUNT // 4):
        yield "a study of random bytes", NAMES, random_bytes(chance)
        yield "a names file of random bytes", random_bytes(chance), STUDY
    for _ in range(COUNT):
        yield "a changed study", NAMES, changed(chance, STUDY, NAMES)
        yield "a changed names file", changed(chance, NAMES, NAMES), STUDY


def long_names() -> bytes:
    """10,000 lines of names."""
    return b"".join(b"10.9.%d.%d s%d x%d\n" % (place // 256, place % 256, place, place) for place in range(10_000))


def padded(text: bytes) -> bytes:
    """A text with comments, which has 1,048,576 bytes."""
    return text + COMMENTS[:len(COMMENTS) - len(text) - 1] + b"\n"


def large_runs():
    """Files as large as they may be: what is run, the files, and the output."""
    one, reply = b"lost\n", b"@0 lost 0\n" + summary(1)
    yield "a study of 1,048,576 bytes", {"a.study": padded(one)}, reply
    yield "a study of one line of 1,048,576 bytes", {"a.study": b"lost" + b" " * (2 ** 20 - 4)}, reply
    yield "1,048,576 lines without words", {"a.study": b"\n" * (2 ** 20 - 4) + b"lost"}, reply
    yield "names of 1,048,576 bytes", {"hosts": padded(NAMES)}, reply
    yield "10,000 lines of names", {"hosts": long_names(), "a.study": one}, reply
    yield "10,000 lines", {"a.study": b"info\n" * 10_000}, NO_EDITS * 10_000 + summary(10_000)
    areas = large.areas(64)
    study = areas.script + b"networks\nexpect same\nexpect loops none\nexpect blackholes none\nexpect microloops 0 none\n"
    replies = areas.replies + b"@0 networks 0\n" + b"@0 ok\n" * 4
    count = study.count(b"\n")
    yield "64 areas", {"dump": areas.dump, "a.study": study}, replies + summary(count, 0, 4)


def checks(program: str, folder: pathlib.Path):
    """The name of each check, and what differs from what is wanted. The files are in memory where they can be."""
    chance = random.Random(SEED)
    with tempfile.TemporaryDirectory(dir="/dev/shm" if os.path.isdir("/dev/shm") else folder) as own:
        room = Room(program, own)
        for place, (name, names, study) in enumerate(inputs(chance)):
            yield f"{name}, {place}", room.differences(names, study)
        for name, files, output in large_runs():
            run, slow = room.run({"dump": SAMPLE, "hosts": NAMES, "a.study": b"lost\n", **files})
            yield name, slow + ([] if run == (0, output, b"") else [f"status {run[0]} or streams"])

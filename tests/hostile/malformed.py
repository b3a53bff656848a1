"""Malformed dumps: bytes that are set to other values, and a plain reader of docs/FORMATS.md to compare with.

Each byte of the sample, and of a saved session on it, is set to each of its 256 values, and both are cut everywhere. Of
a dump with LSAs of several types, in areas of both kinds, each byte is set to some, as it is and with the checksum of
its LSA made good again, so that what is tested after the checksum is reached too. The program must refuse exactly what
the plain reader refuses, for the same fault at the same offset, and what it opens it must write back byte for byte.
"""
import os
import pathlib
import signal
import tempfile

import plain_reader
from cases import read_case
from plain_reader import with_checksum
from sample import SAMPLE

CASES = pathlib.Path(__file__).resolve().parent.parent / "cases"

# Areas of both kinds, with LSAs of the types 1 to 5 and 7, in 409 bytes.
SEVERAL = read_case(CASES / "sessions" / "v1-0104.case").dump

# The sample after two costs, of which the second is undone, in 155 bytes.
SESSION = (SAMPLE[:4] + b"\x02" + SAMPLE[5:] + b"\0\1\0\1" + b"cost 0.0.0.0 1.1.1.1 1 11\n"
           + b"cost 0.0.0.0 1.1.1.1 1 12\n")


def with_byte(dump: bytes, place: int, value: int) -> bytes:
    return dump[:place] + bytes([value]) + dump[place + 1:]


def lsas_of(dump: bytes) -> list[tuple[int, int]]:
    """Where each LSA of an accepted dump begins and ends."""
    found, at = [], 6
    counts = [(7, 5)] * dump[5] + [(2, 0)]
    for size, before in counts:
        count = plain_reader.number(dump[at + before:at + size])
        at += size
        for _ in range(count):
            found.append((at, at + plain_reader.number(dump[at + 18:at + 20])))
            at = found[-1][1]
    return found


def some_values(byte: int) -> set[int]:
    """Values that a byte is set to: the ends, its neighbors, and its top bit flipped."""
    return {0, 1, 255, (byte + 1) % 256, (byte - 1) % 256, byte ^ 128} - {byte}


def variants():
    """The dumps."""
    for whole in (SAMPLE, SESSION):
        for place in range(len(whole)):
            yield whole[:place]
            yield from (with_byte(whole, place, value) for value in range(256))
    for place, byte in enumerate(SEVERAL):
        yield from (with_byte(SEVERAL, place, value) for value in some_values(byte))
    for begin, end in lsas_of(SEVERAL):
        for place in range(begin, end):
            for value in some_values(SEVERAL[place]):
                lsa = with_byte(SEVERAL, place, value)[begin:end]
                yield SEVERAL[:begin] + with_checksum(lsa) + SEVERAL[end:]


def ended(words: list[str], replies: pathlib.Path, error: pathlib.Path) -> tuple[int, bytes, bytes]:
    """Status, standard output and standard error of a run, which gets no standard input. There are many, so that the
    least is done for each."""
    made = os.O_WRONLY | os.O_CREAT | os.O_TRUNC
    pid = os.posix_spawn(words[0], words, {}, file_actions=[
        (os.POSIX_SPAWN_OPEN, 0, "/dev/null", os.O_RDONLY, 0),
        (os.POSIX_SPAWN_OPEN, 1, replies, made, 0o600),
        (os.POSIX_SPAWN_OPEN, 2, error, made, 0o600),
    ])
    # A run that does not end ends these checks.
    signal.alarm(120)
    _, status = os.waitpid(pid, 0)
    signal.alarm(0)
    return os.waitstatus_to_exitcode(status), replies.read_bytes(), error.read_bytes()


def is_as_read(program: str, dump: bytes, refusal: str, folder: pathlib.Path) -> bool:
    """Whether the program refuses a dump so, or opens it where it is not to be refused."""
    file, out = folder / "malformed.oswp", folder / "malformed.out"
    file.write_bytes(dump)
    back = "--save" if plain_reader.is_session(dump) else "--out"
    words = [program, "--dump", str(file), "--script", "/dev/null", back, str(out)]
    run = ended(words, folder / "malformed.replies", folder / "malformed.error")
    left = out.read_bytes() if out.exists() else None
    if left is not None:
        out.unlink()
    return (*run, left) == ((3, b"", refusal.encode(), None) if refusal else (0, b"", b"", dump))


def checks(program: str):
    """One check of all of them, with the first that is not read so. Their files are in memory where they can be, since
    there are many."""
    tried = accepted = 0
    with tempfile.TemporaryDirectory(dir="/dev/shm" if os.path.isdir("/dev/shm") else None) as folder:
        for dump in variants():
            refusal = plain_reader.refusal(dump)
            tried += 1
            accepted += not refusal
            if not is_as_read(program, dump, refusal, pathlib.Path(folder)):
                yield "malformed dumps", [f"the program and the plain reader of {dump.hex()}"]
                return
    yield f"{tried} malformed dumps, of which {accepted} are accepted", []

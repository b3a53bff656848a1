"""The cases of tests/cases, as calls of the library: what each writes is compared byte for byte."""
import pathlib
import shlex
import sys
from collections.abc import Iterable

TESTS = pathlib.Path(__file__).resolve().parent.parent
sys.path += [str(TESTS / "cases"), str(TESTS / "cases" / "study"), str(TESTS.parent / "python")]

from cases import Case, read_case, unescaped  # noqa: E402
from dumps import dump_of  # noqa: E402
from ospf_plan import errors, library  # noqa: E402

# The options of a study that name a file to be read, and those without a value.
FILES, FLAGS = ("--dump", "--baseline", "--names"), ("--keep-going", "--verbose")

# What the files of a study's case contain, by the kind of their part.
CONTENTS = {"dump": dump_of, "file": unescaped, "large": lambda lines: b"#" * int(lines[0])}


def end_of(error: errors.PlanError) -> tuple[int, bytes]:
    """The status of a program, and its line on standard error, for the exception of a run that ended early."""
    if isinstance(error, errors.DumpRefused):
        return 3, f"{error.what}: {error.code} {error.name} at {error.offset}\n".encode()
    if isinstance(error, errors.NamesRefused):
        return 3, f"names:{error.line}: {error.code} {error.name} {error.word}\n".encode()
    if isinstance(error, errors.TooLarge):
        return 4, b"file: TooLarge\n"
    return 5, b"memory: OutOfMemory\n"


def differing(wanted: dict[str, object], got: dict[str, object]) -> list[str]:
    return [name for name, value in wanted.items() if value != got[name]]


def run_differences(case: Case) -> list[str]:
    """What a run writes otherwise than its case has it."""
    wanted = {"status": case.status, "error": case.error, "replies": case.replies}
    try:
        texts = library.run(case.dump, case.script, wants_dump=True, wants_session=case.saves)
    except errors.PlanError as error:
        status, line = end_of(error)
        return differing(wanted, {"status": status, "error": line, "replies": b""})
    wanted |= {"out": case.out, "save": case.save or b""}
    return differing(
        wanted, {"status": 0, "error": b"", "replies": texts.replies, "out": texts.dump, "save": texts.session}
    )


class StudyCase:
    """A run of a study: its parts, each with its lines, and what its arguments ask for."""

    def __init__(self, path: pathlib.Path) -> None:
        self.parts: dict[str, list[str]] = {}
        lines: list[str] = []
        for line in path.read_text(encoding="ascii").split("\n"):
            if line.startswith("== "):
                lines = self.parts.setdefault(line[3:], [])
            elif line:
                lines.append(line)
        named = [(*name.partition(" "), lines) for name, lines in self.parts.items()]
        self.files = {file: CONTENTS[kind](lines) for kind, _, file, lines in named if kind in CONTENTS}
        self.options: dict[str, str] = {}
        self.studies: list[str] = []
        self.read_arguments(shlex.split(" ".join(self.parts["arguments"])))

    def read_arguments(self, words: list[str]) -> None:
        while words:
            word = words.pop(0)
            if word in FLAGS or not word.startswith("--"):
                self.options[word] = ""
                self.studies += [] if word in FLAGS else [word]
            else:
                self.options[word] = words.pop(0) if words else ""

    def text(self, name: str) -> bytes:
        return unescaped(self.parts.get(name, []))

    def is_call(self) -> bool:
        """Whether the run is one call: the files that it names are there, there is one study, and no terminal."""
        status = int(self.parts["status"][0])
        read = [self.options[option] for option in FILES if option in self.options]
        return (
            status != 2 and "--dump" in self.options and "terminal" not in self.parts and len(self.studies) <= 1
            and all(name in self.files or name == "-" for name in [*read, *self.studies]) and "-" not in read
            and self.text("stderr") not in (b"file: Read\n", b"file: Write\n") and b"file: Open" not in self.text("stderr")
        )

    def name(self) -> str:
        """The name of the study, as it was given."""
        return self.studies[0] if self.studies else "-"

    def wanted(self) -> dict[str, object]:
        """What the run writes, with the names of files that the library has in the place of those that were given."""
        places = [(self.name(), "-"), (self.options.get("--names") or "names", "names")]
        stderr = self.text("stderr")
        for old, new in places:
            lines = [line.removeprefix(f"{old}:".encode()) for line in stderr.splitlines(keepends=True)]
            stderr = b"".join(
                f"{new}:".encode() + line if len(line) < len(whole) else whole
                for line, whole in zip(lines, stderr.splitlines(keepends=True))
            )
        stdout = self.text("stdout").replace(f'{{"file":"{self.name()}"'.encode(), b'{"file":"-"')
        out = [dump_of(lines) for name, lines in self.parts.items() if name.startswith("out ") and lines != ["none"]]
        return {"status": int(self.parts["status"][0]), "stderr": stderr, "stdout": stdout, "out": b"".join(out)}

    def got(self) -> dict[str, object]:
        """What the call writes."""
        read = {option: self.files[self.options[option]] for option in FILES if option in self.options}
        try:
            texts = library.study(
                read["--dump"], self.files[self.name()] if self.name() in self.files else self.text("stdin"),
                names=read.get("--names", b""), baseline=read.get("--baseline"),
                keep_going="--keep-going" in self.options, verbose="--verbose" in self.options,
                json=self.options.get("--format") == "json", wants_dump="--out" in self.options,
            )
        except errors.PlanError as error:
            status, line = end_of(error)
            return {"status": status, "stderr": line, "stdout": b"", "out": b""}
        return {"status": int(not texts.accepted), "stderr": texts.errors, "stdout": texts.replies, "out": texts.dump}


def checks() -> Iterable[tuple[str, list[str]]]:
    """The name of each check, and what differs from what is wanted."""
    for path in sorted((TESTS / "cases").glob("*/*.case")):
        yield f"{path.parent.name}/{path.stem}", run_differences(read_case(path))
    for path in sorted((TESTS / "cases" / "study").glob("*/*.case")):
        case = StudyCase(path)
        if case.is_call():
            yield f"study/{path.parent.name}/{path.stem}", differing(case.wanted(), case.got())

"""What can go wrong, as exceptions. Codes and names are those that the programs print."""
from __future__ import annotations

import re


class PlanError(Exception):
    """Why a call has no answer."""


class DumpRefused(PlanError):
    """A dump, a saved session or a baseline is refused, for its first fault."""

    def __init__(self, what: str, code: str, name: str, offset: int) -> None:
        super().__init__(f"{what}: {code} {name} at {offset}")
        self.what = what
        """`dump` or `baseline`."""
        self.code = code
        """As `L4`."""
        self.name = name
        """As `TrailingBytes`, or `Lsa ZeroCost`."""
        self.offset = offset
        """The number of bytes before the field or the LSA at fault."""


class NamesRefused(PlanError):
    """A names file is refused, for its first fault."""

    def __init__(self, line: int, code: str, name: str, word: str) -> None:
        super().__init__(f"line {line} of the names: {code} {name} {word}")
        self.line = line
        """The line, counted from 1."""
        self.code = code
        """As `H3`."""
        self.name = name
        """As `BadName`."""
        self.word = word
        """The word at fault."""


class LineRefused(PlanError):
    """A line of a study has a fault, or is refused. It changed nothing."""

    def __init__(self, line: str, code: str, name: str, at: str, hint: str) -> None:
        super().__init__(f"{line}: {code} {name} {at} ({hint})")
        self.line = line
        """The line."""
        self.code = code
        """As `S2` of a fault, `E3`, `N1` or `U1` of a refusal."""
        self.name = name
        """As `NoLink`."""
        self.at = at
        """The word at fault."""
        self.hint = hint
        """What would have been right."""


class FileRefused(PlanError):
    """A file of a network, or a list, is refused, for its first fault."""

    def __init__(self, file: str, name: str, offset: int | None) -> None:
        super().__init__(f"{file}: {name}" + ("" if offset is None else f" at {offset}"))
        self.file = file
        """The name of the file."""
        self.name = name
        """As `UnknownKind`, `Compressed`, `NotAList`, or `TooLarge` above 536,870,912 bytes."""
        self.offset = offset
        """The number of bytes before what is malformed, where the fault has a place."""


class FilesRefused(PlanError):
    """The files of a network make no database together."""

    def __init__(self, name: str) -> None:
        super().__init__(f"the files make no database: {name}")
        self.name = name
        """As `TooManyAreas`."""


class TooLarge(PlanError):
    """A study, the names or a script are longer than 1,048,576 bytes."""

    def __init__(self) -> None:
        super().__init__("an input has more than 1,048,576 bytes")


class OutOfMemory(PlanError):
    """A call needs more memory than `library.MOST_MEMORY`, or than the system has."""

    def __init__(self) -> None:
        super().__init__("memory ran out")


DUMP_LINE = re.compile(r"(dump|baseline): (L\d+) (.+) at (\d+)\n")
NAMES_LINE = re.compile(r"names:(\d+): (H\d+) (\S+) (.*)\n")


def from_line(line: str) -> PlanError:
    """The exception for the line of a run that ended early."""
    if match := DUMP_LINE.fullmatch(line):
        return DumpRefused(match[1], match[2], match[3], int(match[4]))
    if match := NAMES_LINE.fullmatch(line):
        return NamesRefused(int(match[1]), match[2], match[3], match[4])
    if line.startswith("memory:"):
        return OutOfMemory()
    return TooLarge()


FILE_LINE = re.compile(r"(\w+)(?: at (\d+))?(?: \(zcat .*\))?\n", re.S)


def from_capture_line(line: str, names: list[str]) -> PlanError:
    """The exception for the line of a run over files of these names that ended early."""
    if line in ("", "memory: OutOfMemory\n"):
        return OutOfMemory()
    for name in names:
        match = FILE_LINE.fullmatch(line.removeprefix(f"{name}: "))
        if line.startswith(f"{name}: ") and match:
            return FileRefused(name, match[1], int(match[2]) if match[2] else None)
    return FilesRefused(line.removeprefix("dump: ").removesuffix("\n"))

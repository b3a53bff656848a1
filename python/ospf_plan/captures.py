"""Databases from what a network gives: packet captures, SNMP walks and printed databases (docs/CAPTURE.md)."""
from __future__ import annotations

import os
import pathlib
import re
from collections.abc import Iterable
from dataclasses import dataclass
from typing import TypeAlias

from . import library
from .database import Database
from .errors import FileRefused
from .results import Rows

Source: TypeAlias = "str | os.PathLike[str] | tuple[str, bytes]"
"""A file: its path, or its name and its bytes."""

CONTENTS_LINE = re.compile(r"\d+: (.*), (\d+) LSAs, (\d+) areas")


@dataclass(frozen=True)
class CapturedFile:
    """What a file contains."""

    name: str
    kind: str
    """`capture`, `walk`, `printed`, or `printed in JSON`."""
    lsas: int
    """The number of its LSAs, where each copy counts."""
    areas: int
    """The number of areas of which it has an LSA or the kind."""


@dataclass(frozen=True)
class CaptureFinding:
    """What is missing in files or in their database, or cannot be used."""

    about: str
    """The name of the file or of the list, or `database` for all files together."""
    text: str
    """As `Missing area 0.0.0.0 router 2.2.2.2`: docs/CAPTURE.md says what each means, and what to do about it."""
    is_notice: bool
    """Whether it changes no table: only opaque LSAs are left out."""


@dataclass(frozen=True)
class Captured:
    """What files of a network contain, and the database that they make."""

    database: Database
    files: Rows[CapturedFile]
    findings: Rows[CaptureFinding]

    @property
    def warnings(self) -> Rows[CaptureFinding]:
        """The findings for which tables may be wrong, or lack routes."""
        return Rows([finding for finding in self.findings if not finding.is_notice])

    @property
    def notices(self) -> Rows[CaptureFinding]:
        """The findings that change no table."""
        return Rows([finding for finding in self.findings if finding.is_notice])


def _read(source: Source) -> tuple[str, bytes]:
    if isinstance(source, tuple):
        return source
    return os.fspath(source), pathlib.Path(source).read_bytes()


def _findings(text: bytes, names: list[str], is_notice: bool) -> list[CaptureFinding]:
    """The findings of lines that begin with places of names, or with `database`."""
    found = []
    for line in text.decode().splitlines():
        place, _, words = line.partition(": ")
        found.append(CaptureFinding(names[int(place)] if place.isdigit() else place, words, is_notice))
    return found


def capture(
    files: Iterable[Source], *, against: Iterable[Source] = (), names: str | os.PathLike[str] | None = None,
    keep_flushed: bool = False,
) -> Captured:
    """Makes a database of files of any kinds, as `ospf-capture` does, and compares it with lists of other routers.

    `names` is a names file for the database. With `keep_flushed` flushed LSAs stay in it, at MaxAge. Raises `FileRefused`,
    `FilesRefused` or `OutOfMemory`, and OSError for a file that cannot be read.
    """
    given, lists = [_read(source) for source in files], [_read(source) for source in against]
    named = [name for name, _ in [*given, *lists]]
    # The library gets places as names, which no line of a finding can be mistaken for.
    numbered = [(str(place).encode(), data) for place, (_, data) in enumerate([*given, *lists])]
    try:
        texts = library.capture(numbered[: len(given)], numbered[len(given):], keep_flushed=keep_flushed)
    except FileRefused as error:
        raise FileRefused(named[int(error.file)], error.name, error.offset) from None
    matches = [CONTENTS_LINE.fullmatch(line) for line in texts.contents.decode().splitlines()]
    contained = [
        CapturedFile(name, match[1], int(match[2]), int(match[3])) for name, match in zip(named, matches) if match
    ]
    findings = _findings(texts.warnings, named, False) + _findings(texts.notices, named, True)
    host_names = b"" if names is None else pathlib.Path(names).read_bytes()
    return Captured(Database(texts.dump, host_names), Rows(contained), Rows(findings))

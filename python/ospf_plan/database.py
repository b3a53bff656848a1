"""Link state databases."""
from __future__ import annotations

import pathlib
from typing import TYPE_CHECKING, Any

from . import library, results
from .errors import LineRefused
from .results import Rows
from .study import Study, answers_of

if TYPE_CHECKING:
    import networkx


class Database:
    """The link state databases of a network: a dump, or a saved session of `ospf-plan`.

    It is loaded once, and never changes: changes are made in a `Study`.
    """

    def __init__(self, dump: bytes, names: bytes = b"") -> None:
        """A dump, and a names file in the format of /etc/hosts.

        Raises `DumpRefused`, `NamesRefused`, `TooLarge` or `OutOfMemory`.
        """
        self._dump = bytes(dump)
        self._names = bytes(names)
        library.study(self._dump, b"", names=self._names)

    @classmethod
    def load(cls, path: str | pathlib.Path, names: str | pathlib.Path | None = None) -> Database:
        """The database of a file, with the names of another one."""
        return cls(pathlib.Path(path).read_bytes(), b"" if names is None else pathlib.Path(names).read_bytes())

    @property
    def dump(self) -> bytes:
        """The bytes that were loaded."""
        return self._dump

    # ---- studies

    def study(self, *, baseline: Database | None = None) -> Study:
        """A study of this database."""
        return Study(self, baseline=baseline)

    def answers(self, lines: list[str], *, baseline: Database | None = None) -> list[dict[str, Any]]:
        """The JSON documents that answer the lines of a study, whatever becomes of each."""
        text = "".join(f"{line}\n" for line in lines).encode()
        other = None if baseline is None else baseline.dump
        return answers_of(library.study(self._dump, text, names=self._names, baseline=other, keep_going=True))

    def left(self, lines: list[str]) -> bytes:
        """The dump that the lines of a study leave, where all are accepted.

        Raises `LineRefused` for the first line that is not, an expectation that fails among them.
        """
        text = "".join(f"{line}\n" for line in lines).encode()
        texts = library.study(self._dump, text, names=self._names, wants_dump=True)
        if not texts.accepted:
            answer = answers_of(texts)[-1]
            found = answer.get("found", answer.get("hint", ""))
            raise LineRefused(
                lines[answer["line"] - 1], answer.get("code", ""), answer.get("name", "Failed"), answer.get("at", ""), found
            )
        return texts.dump

    def run(self, script: str) -> str:
        """The replies that a script of `ospf-plan` gives on this database, byte for byte as the program has them."""
        return library.run(self._dump, script.encode()).replies.decode()

    # ---- what is in it

    def routers(self) -> Rows[results.Router]:
        """The routers that are attached to an area."""
        return Study(self).routers()

    def links(self, router: str | None = None) -> Rows[results.Link]:
        """The links of all routers, or of one."""
        return Study(self).links(router)

    def networks(self) -> Rows[results.Network]:
        """The transit networks."""
        return Study(self).networks()

    def table(self, router: str) -> Rows[results.TableRoute]:
        """The routing table of a router (RFC 2328, 11)."""
        return Study(self).table(router)

    def routes(self, router: str, address: str | None = None) -> Rows[results.Route]:
        """What a router uses, by neighbor; with an address the longest match alone."""
        return Study(self).routes(router, address)

    def path(self, router: str, address: str) -> results.Path:
        """The ways of a packet from a router to an address."""
        return Study(self).path(router, address)

    def audit(self) -> Rows[results.Finding]:
        """What the answers may not be trusted for."""
        return Study(self).audit()

    def info(self) -> results.Info:
        """Counts of the database."""
        return Study(self).info()

    def to_networkx(self) -> networkx.MultiDiGraph:
        """A graph of routers and transit networks: see `Study.to_networkx`."""
        return Study(self).to_networkx()

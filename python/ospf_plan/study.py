"""Studies: edits of a database, questions about it, and expectations."""
from __future__ import annotations

import json
from collections.abc import Iterable
from types import TracebackType
from typing import TYPE_CHECKING, Any

from . import documents, library, results
from .errors import LineRefused
from .results import Changes, Expectation, Outage, Rows

if TYPE_CHECKING:
    import networkx

    from .database import Database

EDITS = frozenset({
    "cost", "drop-link", "fail-link", "fail-net", "fail-router", "add-stub", "summary", "add-summary", "add-external",
    "drop-external", "refresh", "cut", "set-cost", "drain", "fail",
})
"""The words of edits and events."""


def words(*parts: object) -> str:
    """A line of words. A word has no space: it would be two."""
    texts = [str(part) for part in parts]
    for text in texts:
        if not text or any(character.isspace() for character in text):
            raise ValueError(f"{text!r} is not one word")
    return " ".join(texts)


class Study:
    """Edits and events of a database, one after another, and questions about what they leave.

    Routers are Router IDs, or names of the names file. A link is its number in the router-LSA, the router's own address on
    it, or its neighbor. Each method of an edit raises `LineRefused` where the planner refuses the edit; then nothing has
    changed. A `with` block takes back the edits that are made in it:

        with Study(database) as study:
            study.cut("r1", "r2")
            print(study.lost().to_dicts())
    """

    def __init__(self, database: Database, *, baseline: Database | None = None) -> None:
        """A study without lines. `baseline` is compared with in place of the database as it was loaded."""
        self._database = database
        self._baseline = baseline
        self._lines: list[str] = []
        self._done = 0
        self._marks: list[int] = []

    # ---- lines

    @property
    def lines(self) -> tuple[str, ...]:
        """The edits, events and expectations so far, as lines that `ospf-study` takes."""
        return tuple(self._lines)

    def text(self) -> str:
        """The study as a text, to be saved under version control."""
        return "".join(f"{line}\n" for line in self._lines)

    def _answers(self, lines: Iterable[str]) -> list[dict[str, Any]]:
        """The documents that answer these lines after those of the study."""
        return self._database.answers([*self._lines, *lines], baseline=self._baseline)[len(self._lines):]

    def _answer(self, line: str) -> dict[str, Any]:
        """The document that answers a line after those of the study."""
        answer = self._answers([line])[0]
        if answer["answer"] in ("fault", "refused"):
            raise LineRefused(line, answer["code"], answer["name"], answer["at"], answer["hint"])
        return answer

    def _edit(self, *parts: object) -> Study:
        line = words(*parts)
        self._answer(line)
        self._lines.append(line)
        self._done += 1
        return self

    def __enter__(self) -> Study:
        self._marks.append(self._done)
        return self

    def __exit__(
        self, kind: type[BaseException] | None, error: BaseException | None, trace: TracebackType | None
    ) -> None:
        made = self._done - self._marks.pop()
        if made > 0:
            self.undo(made)

    # ---- events

    def cut(self, router: str, to: str, address: str | None = None) -> Study:
        """Takes the point-to-point links of two routers away at both ends, each with the stub network of its interface.

        With `address` the one link whose interface has it, at `router` or else at its neighbor `to`. Where `to` is a prefix,
        as `10.1.0.0/24`, the interface of `router` to this transit network goes.
        """
        return self._edit("cut", router, to, *(() if address is None else (address,)))

    def set_cost(self, router: str, to: str, metric: int, *, both: bool = False) -> Study:
        """Sets the cost of a router's interfaces, 0 to 65535 for a stub network and 1 to 65535 for others.

        `to` is a neighbor, or the router's own address on the interface. The stub network of a point-to-point interface
        gets the cost too. With `both` the interfaces of the neighbor get it as well.
        """
        return self._edit("set-cost", router, to, metric, *(("both",) if both else ()))

    def drain(self, router: str) -> Study:
        """Makes a router the last resort: its links to routers and transit networks cost 65535 (RFC 6987)."""
        return self._edit("drain", router)

    def fail(self, router: str) -> Study:
        """Lets a router fail: its LSAs go, and so do the links of others to it, and its place in transit networks."""
        return self._edit("fail", router)

    # ---- edits

    def cost(self, area: str, router: str, link: str | int, metric: int) -> Study:
        """Sets the cost of a link, 0 to 65535: 65535 drains it."""
        return self._edit("cost", area, router, link, metric)

    def drop_link(self, area: str, router: str, link: str | int) -> Study:
        """Removes one link of a router: one direction of a point-to-point link, or a stub network."""
        return self._edit("drop-link", area, router, link)

    def fail_link(self, area: str, router: str, neighbor: str) -> Study:
        """Removes the point-to-point links of two routers, in both directions. Their stub networks stay."""
        return self._edit("fail-link", area, router, neighbor)

    def fail_net(self, area: str, address: str) -> Study:
        """Removes a transit network, named by the address of its Designated Router."""
        return self._edit("fail-net", area, address)

    def fail_router(self, router: str) -> Study:
        """Removes all LSAs of a router."""
        return self._edit("fail-router", router)

    def add_stub(self, area: str, router: str, prefix: str, metric: int) -> Study:
        """Adds a stub network, of a cost of 0 to 65535."""
        return self._edit("add-stub", area, router, prefix, metric)

    def summary(self, area: str, router: str, prefix: str, metric: int) -> Study:
        """Sets the metric of a summary, 0 to 16777215: 16777215 withdraws it."""
        return self._edit("summary", area, router, prefix, metric)

    def add_summary(self, area: str, router: str, prefix: str, metric: int) -> Study:
        """Adds a summary, of a metric of 0 to 16777215."""
        return self._edit("add-summary", area, router, prefix, metric)

    def add_external(
        self, router: str, prefix: str, type: int, metric: int, forward: str = "0.0.0.0", tag: int = 0
    ) -> Study:
        """Adds an external prefix of type 1 or 2, of a metric of 0 to 16777215."""
        return self._edit("add-external", router, prefix, type, metric, forward, tag)

    def drop_external(self, router: str, prefix: str) -> Study:
        """Removes an external prefix."""
        return self._edit("drop-external", router, prefix)

    def refresh(self) -> Study:
        """Sets the metrics of summaries as their border routers announce them."""
        return self._edit("refresh")

    def undo(self, count: int = 1) -> Study:
        """Takes the last edits back."""
        line = words("undo", count)
        self._answer(line)
        self._lines.append(line)
        self._done -= count
        return self

    def redo(self, count: int = 1) -> Study:
        """Carries out undone edits again."""
        line = words("redo", count)
        self._answer(line)
        self._lines.append(line)
        self._done += count
        return self

    # ---- questions

    def routers(self) -> Rows[results.Router]:
        """The routers that are attached."""
        return documents.rows(results.Router, self._answer("routers")["routers"])

    def links(self, router: str | None = None) -> Rows[results.Link]:
        """The links of all routers, or of one."""
        line = "links" if router is None else words("links", router)
        return documents.rows(results.Link, self._answer(line)["links"])

    def networks(self) -> Rows[results.Network]:
        """The transit networks."""
        return documents.rows(results.Network, self._answer("networks")["networks"])

    def table(self, router: str) -> Rows[results.TableRoute]:
        """The routing table of a router."""
        return documents.rows(results.TableRoute, self._answer(words("table", router))["routes"])

    def tables(self) -> Rows[results.Table]:
        """The routing tables of all routers."""
        return documents.rows(results.Table, self._answer("tables")["tables"])

    def routes(self, router: str, address: str | None = None) -> Rows[results.Route]:
        """What a router uses, by neighbor; with an address the longest match alone."""
        line = words("routes", router) if address is None else words("routes", router, address)
        return documents.rows(results.Route, self._answer(line)["routes"])

    def path(self, router: str, address: str) -> results.Path:
        """The ways of a packet from a router to an address."""
        return documents.read(results.Path, self._answer(words("path", router, address)))

    def explain(self, router: str, prefix: str) -> results.Explanation:
        """Why a route is what it is, by the rules of RFC 2328."""
        return documents.read(results.Explanation, self._answer(words("explain", router, prefix)))

    def changes(self, router: str | None = None) -> Changes:
        """What differs from the baseline, for all routers or for one."""
        answer = self._answer("changes" if router is None else words("changes", router))
        return Changes(list(documents.rows(results.Change, answer["changes"])), answer["counts"])

    def lost(self) -> Rows[results.Pair]:
        """Routes that are gone though their prefix is still announced."""
        return documents.rows(results.Pair, self._answer("lost")["pairs"])

    def gone(self) -> Rows[results.Pair]:
        """Routes that are gone because nobody announces their prefix."""
        return documents.rows(results.Pair, self._answer("gone")["pairs"])

    def loops(self) -> results.Loops:
        """Forwarding loops, and blackholes that the baseline does not have."""
        return documents.read(results.Loops, self._answer("loops"))

    def microloops(self, count: int = 1) -> Rows[results.Loop]:
        """What may loop while routers change over the last edits."""
        return documents.rows(results.Loop, self._answer(words("microloops", count))["loops"])

    def differences(self) -> Rows[results.Difference]:
        """The LSAs that differ from the baseline."""
        return documents.rows(results.Difference, self._answer("differences")["differences"])

    def audit(self) -> Rows[results.Finding]:
        """What the answers may not be trusted for."""
        return documents.rows(results.Finding, self._answer("audit")["findings"])

    def info(self) -> results.Info:
        """Counts of the database and of the edits."""
        return documents.read(results.Info, self._answer("info"))

    def log(self) -> tuple[str, ...]:
        """The edits and events that are done, as lines that `ospf-study` takes; `ospf-plan` takes those of edits."""
        return tuple(self._answer("log")["lines"])

    # ---- expectations

    def expect(self, condition: str) -> Expectation:
        """Adds an expectation to the study, as `lost none`, whether it holds or not, and says what was found."""
        line = f"expect {condition}"
        if "\n" in line:
            raise ValueError("a condition is one line")
        answer = self._answer(line)
        self._lines.append(line)
        return Expectation(answer["expected"], answer["answer"] == "ok", answer["found"])

    # ---- more than one answer

    def sweep(self, lines: Iterable[str] | None = None) -> Rows[Outage]:
        """What each of these edits does by itself; without them each failure of a point-to-point link and of a router.

        Each edit is compared with the database as it was loaded, the edits of the study included.
        """
        edits = list(self._failures() if lines is None else lines)
        answers = self._answers(line for edit in edits for line in (edit, "changes", "undo 1"))
        found = []
        for edit, (made, changed, _undone) in zip(edits, zip(*[iter(answers)] * 3, strict=True)):
            if made["answer"] != "ok" or edit.split()[0] not in EDITS:
                raise LineRefused(edit, made.get("code", ""), made.get("name", "NoEdit"), made.get("at", edit), made.get("hint", ""))
            counts = changed["counts"]
            found.append(Outage(edit, counts, counts["lost"] + counts["gone"], counts["dearer"]))
        return Rows(found)

    def _failures(self) -> list[str]:
        """A line for each failure of a point-to-point link, and of a router."""
        ends = {
            (link.area, *sorted((link.router, link.to or "")))
            for link in self.links() if link.type == "point-to-point" and link.back
        }
        return [words("fail-link", *link) for link in sorted(ends)] + [
            words("fail-router", router.router) for router in self.routers()
        ]

    def save(self) -> bytes:
        """The dump that the edits leave."""
        return self._database.left([*self._lines])

    def to_networkx(self) -> networkx.MultiDiGraph:
        """A graph of routers and transit networks. An edge has `area`, `cost`, and `number`, that of the link."""
        import networkx

        graph = networkx.MultiDiGraph()
        for router in self.routers():
            graph.add_node(router.router, kind="router", name=router.name, areas=router.areas, roles=router.roles)
        for network in self.networks():
            graph.add_node(network.prefix, kind="network", area=network.area, router=network.router)
            for member in network.members:
                graph.add_edge(network.prefix, member, area=network.area, cost=0, number=None)
        for link in self.links():
            end = link.to if link.type == "point-to-point" else link.prefix if link.type == "transit" else None
            if end is not None and end in graph and link.back:
                graph.add_edge(link.router, end, area=link.area, cost=link.cost, number=link.number)
        return graph


def answers_of(texts: library.StudyTexts) -> list[dict[str, Any]]:
    """The documents of a study, without that of the summary."""
    return [json.loads(line) for line in texts.replies.splitlines()[:-1]]

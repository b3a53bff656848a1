"""The JSON documents of studies, read as results."""
from __future__ import annotations

import dataclasses
from typing import Any, TypeVar

from . import results
from .results import Rows

T = TypeVar("T")

PARTS: dict[type, dict[str, type]] = {
    results.Link: {"stub": results.StubOfLink},
    results.Table: {"routes": results.TableRoute},
    results.Route: {"ways": results.Way},
    results.Step: {"route": results.Route},
    results.Path: {"steps": results.Step},
    results.Change: {"now": results.Route, "was": results.Route},
    results.Pair: {"was": results.Route},
    results.Loops: {"loops": results.Loop, "blackholes": results.Blackhole},
    results.Difference: {"lsa": results.Lsa},
    results.Candidate: {"lsa": results.Lsa},
    results.Explanation: {
        "route": results.Route, "candidates": results.Candidate, "steps": results.LeastStep, "rests": results.Lsa,
    },
}
"""The class of a part of a result, by its key."""

RENAMED = {"from": "sources", "class": "class_", "as": "external"}
"""Keys that Python has words for."""


def _part(kind: type | None, value: Any) -> Any:
    if isinstance(value, list):
        return tuple(_part(kind, item) for item in value)
    return value if kind is None or value is None else read(kind, value)


def read(kind: type[T], document: dict[str, Any]) -> T:
    """A result of this class. Keys of the document that say which line it answers are passed over."""
    fields = {field.name for field in dataclasses.fields(kind)}  # type: ignore[arg-type]
    parts = PARTS.get(kind, {})
    renamed = {RENAMED.get(key, key) if kind is not results.Info or key == "as" else key: value for key, value in document.items()}
    return kind(**{key: _part(parts.get(key), value) for key, value in renamed.items() if key in fields})


def rows(kind: type[T], documents: list[dict[str, Any]]) -> Rows[T]:
    """The results of a list of documents."""
    return Rows([read(kind, document) for document in documents])

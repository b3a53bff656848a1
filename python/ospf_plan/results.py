"""The answers of the planner. Costs and metrics are numbers without a unit, as OSPF has them.

Routers and areas are dotted texts, as `1.1.1.1`. Each class has the keys of the JSON documents that docs/study-schema.json
describes; a key with a hyphen has an underscore here.
"""
from __future__ import annotations

import dataclasses
from collections.abc import Iterator, Sequence
from dataclasses import dataclass
from typing import Any, Generic, TypeVar, overload

T = TypeVar("T")


@dataclass(frozen=True)
class Router:
    """A router that is attached to an area."""

    router: str
    name: str | None
    """Its name in the names file."""
    areas: tuple[str, ...]
    roles: tuple[str, ...]
    """`abr` and `asbr`."""
    links: int
    """The number of its point-to-point links."""
    transit: int
    """The number of its links to transit networks."""
    stubs: int
    """The number of its stub networks."""


@dataclass(frozen=True)
class StubOfLink:
    """The stub network of a point-to-point interface."""

    number: int
    prefix: str
    cost: int


@dataclass(frozen=True)
class Link:
    """A link of a router-LSA. What its type does not have is None, or empty."""

    router: str
    area: str
    number: int
    """Its number in the router-LSA, counted from 1."""
    type: str
    """`point-to-point`, `transit`, `stub`, `virtual`, or `type N`."""
    cost: int
    to: str | None = None
    """The neighbor, or the address of the Designated Router."""
    data: str | None = None
    """The router's own address on the link, or its interface index in dotted form."""
    back: tuple[int, ...] = ()
    """The costs of the way back."""
    peers: tuple[str, ...] = ()
    """The addresses of the other end."""
    stub: StubOfLink | None = None
    prefix: str | None = None
    """The prefix of a stub network or of a transit network."""
    of: int | None = None
    """The number of the point-to-point link whose stub network it is."""


@dataclass(frozen=True)
class Network:
    """A transit network, as a LAN."""

    area: str
    prefix: str
    address: str
    """The address of its Designated Router, which names it."""
    router: str
    """Its Designated Router."""
    members: tuple[str, ...]
    one_way: tuple[str, ...]
    """Routers that it lists and that have no link to it."""


@dataclass(frozen=True)
class TableRoute:
    """A route of a routing table (RFC 2328, 11)."""

    prefix: str
    kind: str
    """`intra`, `inter`, `ext1` or `ext2`."""
    cost: int
    cost2: int
    """The type 2 metric of an `ext2` route, else 0."""
    area: str | None
    hops: tuple[str, ...]


@dataclass(frozen=True)
class Table:
    """The routing table of a router."""

    router: str
    routes: tuple[TableRoute, ...]


@dataclass(frozen=True)
class Way:
    """A way of a route: `via` a neighbor, `direct` to a network, or `exit` from the AS."""

    kind: str
    out: str | None
    """The router's own address on the interface."""
    router: str | None = None
    """The neighbor of `via`."""
    addresses: tuple[str, ...] = ()
    """The neighbor's addresses."""
    address: str | None = None
    """The forwarding address of `exit`."""


@dataclass(frozen=True)
class Route:
    """What a router uses for a prefix."""

    prefix: str
    kind: str
    """`intra`, `inter`, `ext1`, `ext2`, or `own` for an external route of the router itself."""
    metric: int | None
    cost: int | None = None
    """None of an own one."""
    area: str | None = None
    ways: tuple[Way, ...] = ()
    external: str | None = None
    """`ext1` or `ext2` of an own one."""
    forward: str | None = None


@dataclass(frozen=True)
class Step:
    """A step of a path, or its end at a router."""

    router: str
    route: Route | None = None
    """The route that the router uses, without its ways; None where it has none."""
    to: str | None = None
    out: str | None = None
    cost: int | None = None
    end: str | None = None
    """`delivered`, `external` or `blackhole`."""
    address: str | None = None


@dataclass(frozen=True)
class Path:
    """All ways of a packet from a router to an address."""

    router: str
    address: str
    ends: tuple[str, ...]
    """`delivered`, `external`, `blackhole`, `loop`."""
    routers: tuple[str, ...]
    """The routers that packets pass, by the least number of steps."""
    steps: tuple[Step, ...]
    loops: tuple[tuple[str, ...], ...]


@dataclass(frozen=True)
class Change:
    """What differs from the baseline for a router and a prefix."""

    change: str
    """`router-gone`, `router-new`, `lost`, `gone`, `gained`, `type`, `dearer`, `cheaper` or `moved`."""
    router: str
    prefix: str | None
    now: Route | None
    was: Route | None


@dataclass(frozen=True)
class Pair:
    """A router that has no route to a prefix any more."""

    router: str
    prefix: str
    was: Route | None
    announced: tuple[str, ...]
    """The routers that announce the prefix now."""


@dataclass(frozen=True)
class Loop:
    """Routers that send packets for a prefix around."""

    prefix: str
    routers: tuple[str, ...]


@dataclass(frozen=True)
class Blackhole:
    """A router that gets packets for a prefix and has no route to it."""

    prefix: str
    router: str
    sources: tuple[str, ...]
    """The routers that send them."""


@dataclass(frozen=True)
class Loops:
    """Forwarding loops, and blackholes that the baseline does not have."""

    loops: tuple[Loop, ...]
    blackholes: tuple[Blackhole, ...]


@dataclass(frozen=True)
class Lsa:
    """The name of an LSA."""

    type: int
    id: str
    router: str
    area: str | None = None
    prefix: str | None = None


@dataclass(frozen=True)
class Difference:
    """How the database differs from the baseline."""

    change: str
    """`new`, `gone` or `changed`."""
    area: str | None
    lsa: Lsa | None
    what: str


@dataclass(frozen=True)
class Candidate:
    """What could give a router a route, and by which rule of RFC 2328 it is used or not."""

    state: str
    """`used` or `lost`."""
    lsa: Lsa
    link: int | None
    distance: int | None
    metric: int
    rule: str


@dataclass(frozen=True)
class LeastStep:
    """A step of a least path."""

    area: str
    router: str
    kind: str
    to: str
    out: str
    over: str | None
    cost: int
    sum: int
    """The distance of its end from the router."""


@dataclass(frozen=True)
class Explanation:
    """Why a route is what it is."""

    router: str
    prefix: str
    route: Route | None
    rule: str | None
    candidates: tuple[Candidate, ...]
    steps: tuple[LeastStep, ...]
    rests: tuple[Lsa, ...]
    """The LSAs on which the route rests."""


@dataclass(frozen=True)
class Finding:
    """Something in the database for which the answers may not be trusted."""

    kind: str
    count: int
    first: str
    meaning: str
    action: str
    class_: str
    """`wrong` or `note`."""


@dataclass(frozen=True)
class Info:
    """Counts of the database and of the edits."""

    areas: int
    lsas: int
    external: int
    """The number of LSAs of the AS."""
    vbits: int
    vlinks: int
    done: int
    """The number of edits that are done."""
    undone: int


@dataclass(frozen=True)
class Expectation:
    """Whether a condition holds."""

    expected: str
    holds: bool
    found: str


@dataclass(frozen=True)
class Outage:
    """What one failure does."""

    line: str
    """The edit, as a line of a study."""
    counts: dict[str, int]
    """The number of changes of each kind."""
    lost: int
    dearer: int


def _flat(value: Any, name: str = "") -> dict[str, Any]:
    """The fields of a value, those of values in it with their names before them."""
    found: dict[str, Any] = {}
    for field in dataclasses.fields(value):
        part, key = getattr(value, field.name), f"{name}{field.name}"
        if dataclasses.is_dataclass(part) and not isinstance(part, type):
            found |= _flat(part, f"{key}_")
        elif isinstance(part, tuple):
            found[key] = [_flat(item) if dataclasses.is_dataclass(item) else item for item in part]
        else:
            found[key] = part
    return found


class Rows(Sequence[T], Generic[T]):
    """Answers in their order, which cannot be changed."""

    def __init__(self, rows: Sequence[T]) -> None:
        self._rows = tuple(rows)

    @overload
    def __getitem__(self, at: int) -> T: ...

    @overload
    def __getitem__(self, at: slice) -> "Rows[T]": ...

    def __getitem__(self, at):
        return Rows(self._rows[at]) if isinstance(at, slice) else self._rows[at]

    def __len__(self) -> int:
        return len(self._rows)

    def __iter__(self) -> Iterator[T]:
        return iter(self._rows)

    def __eq__(self, other: object) -> bool:
        return isinstance(other, Rows) and self._rows == other._rows

    def __hash__(self) -> int:
        return hash(self._rows)

    def __repr__(self) -> str:
        return f"Rows({list(self._rows)!r})"

    def to_dicts(self) -> list[dict[str, Any]]:
        """A flat dict for each row, as `pandas.DataFrame` takes them: `was.cost` is `was_cost`."""
        return [_flat(row) for row in self._rows]


class Changes(Rows[Change]):
    """What differs from the baseline, and how much of each kind."""

    def __init__(self, rows: Sequence[Change], counts: dict[str, int]) -> None:
        super().__init__(rows)
        self.counts = counts
        """The number of changes of each kind, and of routes that are `unchanged`."""

    def of(self, kind: str) -> Rows[Change]:
        """The changes of one kind, as `lost`."""
        return Rows([change for change in self if change.change == kind])

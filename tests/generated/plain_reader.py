"""Reads a dump as docs/FORMATS.md has it, in plain steps: which fault it is refused for, if any. Of saved sessions it
reads those whose edits are all `cost`.

It was written from that page and RFC 2328 alone, so that it can be compared with the program.
"""
import dataclasses
import re

LONGEST_DUMP = 16_777_216
LONGEST_SESSION = 17_825_792
MOST_EDITS = 10_000

# The one spelling of an address and of a number, and that of the edit `cost`.
BYTE = rb"(?:25[0-5]|2[0-4][0-9]|1[0-9]{2}|[1-9]?[0-9])"
ADDRESS = rb"(" + rb"\.".join([BYTE] * 4) + rb")"
NUMBER = rb"(0|[1-9][0-9]*)"
COST = re.compile(rb"cost " + rb" ".join([ADDRESS, ADDRESS, NUMBER, NUMBER]))


@dataclasses.dataclass
class Refused(Exception):
    """The fault of a dump, as it is printed, and its offset."""

    fault: str
    offset: int

    def line(self) -> str:
        """What standard error must have."""
        return f"dump: {self.fault} at {self.offset}\n"


def number(data: bytes) -> int:
    return int.from_bytes(data, "big")


def with_checksum(lsa: bytes) -> bytes:
    """An LSA with the checksum that docs/FORMATS.md makes."""
    data = lsa[2:16] + b"\0\0" + lsa[18:]
    count = len(data)
    first = sum(data)
    second = sum((count - place) * byte for place, byte in enumerate(data))
    made = ((count - 15) * first - second) % 255, (second - (count - 14) * first) % 255
    return lsa[:16] + bytes(byte or 255 for byte in made) + lsa[18:]


def is_mask(data: bytes) -> bool:
    """Ones followed by zeros."""
    return "01" not in format(number(data), "032b")


def has_good_checksum(lsa: bytes) -> bool:
    data = lsa[2:]
    count = len(data)
    first = sum(data) % 255
    second = sum((count - place) * byte for place, byte in enumerate(data)) % 255
    return first == second == 0 and lsa[16:18] != b"\0\0"


def links(lsa: bytes) -> list[tuple[bytes, int, int]] | None:
    """Link Data, type and metric of each link of a router-LSA, where the links end exactly at its length."""
    found, at = [], 24
    if len(lsa) < 24:
        return None
    for _ in range(number(lsa[22:24])):
        link = lsa[at:at + 12]
        if len(link) < 12:
            return None
        found.append((link[4:8], link[8], number(link[10:12])))
        at += 12 + 4 * link[9]
    return found if at == len(lsa) else None


def has_body(lsa: bytes) -> bool:
    """Whether the body has the shape of its type."""
    kind, length = lsa[3], len(lsa)
    if kind == 1:
        return links(lsa) is not None
    if kind == 2:
        return length >= 24 and length % 4 == 0
    if kind in (3, 4):
        return length >= 28 and length % 4 == 0
    if kind == 5:
        return length >= 36 and length % 12 == 0
    return True


def masks(lsa: bytes) -> list[bytes]:
    """The masks that are checked: of networks, summaries of networks, externals, and stub links."""
    if lsa[3] == 1:
        return [data for data, kind, _ in links(lsa) if kind == 3]
    return [lsa[20:24]] if lsa[3] in (2, 3, 5) else []


def fault_of_lsa(data: bytes) -> str | None:
    """The first fault of the LSA at the front of these bytes."""
    if len(data) < 20:
        return "Truncated"
    length = number(data[18:20])
    if length < 20:
        return "Length"
    if length > len(data):
        return "Truncated"
    lsa = data[:length]
    if not 1 <= lsa[3] <= 11:
        return "BadType"
    if not has_body(lsa):
        return "Body"
    if not has_good_checksum(lsa):
        return "Checksum"
    if not all(map(is_mask, masks(lsa))):
        return "Mask"
    if lsa[3] == 1 and lsa[4:8] != lsa[8:12]:
        return "RouterId"
    if lsa[3] == 1 and any(kind in (1, 2) and metric == 0 for _, kind, metric in links(lsa)):
        return "ZeroCost"
    return None


class Reader:
    """A dump, and how far it is read."""

    def __init__(self, dump: bytes):
        self.dump, self.at = dump, 0
        # The areas, each with the router-LSAs of its routers.
        self.areas: dict[int, dict[bytes, bytes]] = {}

    def field(self, size: int) -> bytes:
        data = self.dump[self.at:self.at + size]
        if len(data) < size:
            raise Refused("L3 Truncated", self.at)
        self.at += size
        return data

    def lsas(self, count: int, is_as_wide: bool, routers: dict[bytes, bytes]) -> None:
        keys = set()
        for _ in range(count):
            data = self.dump[self.at:]
            fault = fault_of_lsa(data)
            if fault:
                raise Refused(f"L9 Lsa {fault}", self.at)
            if (data[3] in (5, 11)) != is_as_wide:
                raise Refused("L10 WrongSection", self.at)
            key = data[3:12]
            if key in keys:
                raise Refused("L11 DuplicateLsa", self.at)
            keys.add(key)
            length = number(data[18:20])
            if data[3] == 1:
                routers[data[8:12]] = data[:length]
            self.at += length

    def area(self, before: int) -> int:
        """The ID of the area that is read, which must be above that of the one before."""
        start = self.at
        ident = number(self.field(4))
        if ident <= before:
            raise Refused("L6 AreaOrder", start)
        start = self.at
        kind = self.field(1)[0]
        if kind > 1:
            raise Refused("L7 BadAreaKind", start)
        if kind == 1 and ident == 0:
            raise Refused("L12 BackboneStub", start)
        start = self.at
        count = number(self.field(2))
        if count > 8192:
            raise Refused("L8 TooManyLsas", start)
        self.lsas(count, False, self.areas.setdefault(ident, {}))
        return ident

    def base(self) -> None:
        """The areas and the LSAs of AS scope."""
        start = self.at
        areas = self.field(1)[0]
        if areas > 64:
            raise Refused("L5 TooManyAreas", start)
        ident = -1
        for _ in range(areas):
            ident = self.area(ident)
        self.lsas(number(self.field(2)), True, {})

    def carries_out(self, line: bytes) -> bool:
        """Whether a line spells an edit `cost` that is carried out. Such an edit changes nothing that another asks for."""
        spelled = COST.fullmatch(line)
        if spelled is None:
            return False
        area, router = (bytes(map(int, spelled[place].split(b"."))) for place in (1, 2))
        link, metric = int(spelled[3]), int(spelled[4])
        lsa = self.areas.get(number(area), {}).get(router)
        if lsa is None or link > 65535 or metric > 65535 or not 1 <= link <= len(links(lsa)):
            return False
        return metric > 0 or links(lsa)[link - 1][1] not in (1, 2)

    def edit(self, index: int) -> None:
        """The line of an edit."""
        line, feed, _ = self.dump[self.at:].partition(b"\n")
        if not feed:
            raise Refused("L3 Truncated", self.at)
        if not self.carries_out(line):
            raise Refused(f"L15 BadHistory {index}", self.at)
        self.at += len(line) + 1

    def history(self) -> None:
        """The edits of a session."""
        start = self.at
        count = number(self.field(2)) + number(self.field(2))
        if count > MOST_EDITS:
            raise Refused(f"L15 BadHistory {MOST_EDITS}", start)
        for index in range(count):
            self.edit(index)


def is_session(dump: bytes) -> bool:
    return dump.startswith(b"OSWP\x02")


def read(dump: bytes, reader: Reader) -> None:
    """Reads a whole dump. Raises `Refused` for its first fault."""
    if len(dump) > (LONGEST_SESSION if is_session(dump) else LONGEST_DUMP):
        raise Refused("L13 TooLarge", 0)
    if reader.field(4) != b"OSWP":
        raise Refused("L1 BadMagic", 0)
    if reader.field(1) not in (b"\x01", b"\x02"):
        raise Refused("L2 BadVersion", 4)
    reader.base()
    if is_session(dump):
        if reader.at > LONGEST_DUMP:
            raise Refused("L13 TooLarge", 0)
        reader.history()
    if reader.at != len(dump):
        raise Refused("L4 TrailingBytes", reader.at)


def refusal(dump: bytes) -> str:
    """What standard error must have where the dump is loaded: nothing where it is accepted."""
    try:
        read(dump, Reader(dump))
    except Refused as refused:
        return refused.line()
    return ""

"""Dumps that are written as text, so that a person can read the database of a case.

A line is an area, an LSA of the last area or, for type 5 and 11, of the AS, or a link of the last router:

    area 0.0.0.1 [stub]
    router 2.2.2.2 [bits VEB]
      link 1.1.1.1 10.0.12.2 10          point-to-point: neighbor, Link Data, metric
      transit 10.1.0.5 10.1.0.2 10       Designated Router's address, Link Data, metric
      stub 10.2.0.0/16 1
      virtual 3.3.3.3 10.0.23.2 5
    network 10.1.0.5/24 by 5.5.5.5 members 5.5.5.5 2.2.2.2
    summary 10.3.0.0/16 by 2.2.2.2 metric 20
    asbr 4.4.4.4 by 2.2.2.2 metric 10
    external 10.9.0.0/16 by 4.4.4.4 type 2 metric 20 [forward 10.1.0.77] [tag 7]
    other 7 10.9.0.0 by 4.4.4.4 [body 00ff]

    done cost 0.0.0.0 1.1.1.1 1 20         an edit of a saved session, and one that is undone
    undone fail-router 2.2.2.2

An LSA may end with `age N`, `options N` (hexadecimal) or `id ADDRESS`. It has age 1, sequence number 80000001, and
options 02, in a stub area 00.
"""
import pathlib
import sys

HERE = pathlib.Path(__file__).resolve().parent
ROOT = HERE.parent.parent.parent
sys.path.append(str(ROOT / "tests" / "generated"))

from plain_reader import with_checksum

LINKS = {"link": 1, "transit": 2, "stub": 3, "virtual": 4}
KINDS = {"router": 1, "network": 2, "summary": 3, "asbr": 4, "external": 5}
BITS = {"V": 4, "E": 2, "B": 1}


def address(text: str) -> bytes:
    return bytes(map(int, text.split(".")))


def prefix(text: str) -> tuple[bytes, bytes]:
    """The address and the mask."""
    front, _, length = text.partition("/")
    return address(front), (2 ** 32 - 2 ** (32 - int(length))).to_bytes(4, "big")


class Lsa:
    """An LSA that is being read."""

    def __init__(self, words: list[str], is_stub: bool):
        self.kind = int(words[1]) if words[0] == "other" else KINDS[words[0]]
        first = 2 if words[0] == "other" else 1
        self.name = words[first]
        self.fields = fields(words[first + 1:])
        self.options = int(self.fields.get("options", ["00" if is_stub else "02"])[0], 16)
        self.links: list[bytes] = []

    def add_link(self, words: list[str]) -> None:
        kind = LINKS[words[0]]
        front, data = prefix(words[1]) if kind == 3 else (address(words[1]), address(words[2]))
        self.links.append(front + data + bytes([kind, 0]) + int(words[-1]).to_bytes(2, "big"))

    def field(self, name: str, otherwise: str = "0") -> str:
        return self.fields.get(name, [otherwise])[0]

    def body(self) -> bytes:
        if self.kind == 1:
            bits = sum(BITS.get(letter, 0) for letter in self.field("bits", ""))
            return bytes([bits, 0]) + len(self.links).to_bytes(2, "big") + b"".join(self.links)
        if self.kind == 2:
            return prefix(self.name)[1] + b"".join(map(address, self.fields["members"]))
        metric = int(self.field("metric")).to_bytes(3, "big")
        if self.kind in (3, 4):
            return (prefix(self.name)[1] if self.kind == 3 else bytes(4)) + b"\0" + metric
        if self.kind == 5:
            kind = bytes([128 * (int(self.field("type")) - 1)])
            return (prefix(self.name)[1] + kind + metric + address(self.field("forward", "0.0.0.0"))
                    + int(self.field("tag")).to_bytes(4, "big"))
        return bytes.fromhex(self.field("body", ""))

    def bytes(self) -> bytes:
        ident = self.field("id", self.name.partition("/")[0])
        origin = self.field("by", self.name)
        front = int(self.field("age", "1")).to_bytes(2, "big") + bytes([self.options, self.kind])
        body = self.body()
        head = front + address(ident) + address(origin) + bytes.fromhex("80000001 0000")
        return with_checksum(head + (20 + len(body)).to_bytes(2, "big") + body)


NAMES = {"by", "bits", "members", "metric", "type", "forward", "tag", "age", "options", "id", "body"}


def fields(words: list[str]) -> dict[str, list[str]]:
    found: dict[str, list[str]] = {}
    last: list[str] = []
    for word in words:
        if word in NAMES:
            last = found.setdefault(word, [])
        else:
            last.append(word)
    return found


def dump_of(lines: list[str]) -> bytes:
    """The dump that lines describe; a single line may name a file of the repository."""
    if len(lines) == 1 and "/" in lines[0] and not lines[0].startswith("area"):
        path = ROOT / lines[0]
        return dump_of(path.read_text().splitlines()) if path.suffix == ".txt" else path.read_bytes()
    areas: list[tuple[str, bool, list[Lsa]]] = []
    as_wide: list[Lsa] = []
    edits: dict[str, list[str]] = {"done": [], "undone": []}
    for words in filter(None, (line.partition("#")[0].split() for line in lines)):
        if words[0] in edits:
            edits[words[0]].append(" ".join(words[1:]) + "\n")
        elif words[0] == "area":
            areas.append((words[1], "stub" in words, []))
        elif words[0] in LINKS:
            areas[-1][2][-1].add_link(words)
        else:
            lsa = Lsa(words, bool(areas) and areas[-1][1] and words[0] != "external")
            (as_wide if lsa.kind in (5, 11) else areas[-1][2]).append(lsa)
    made = bytes([len(areas)])
    for ident, is_stub, lsas in areas:
        made += address(ident) + bytes([is_stub]) + section(lsas)
    made += section(as_wide)
    return b"OSWP\2" + made + history(edits) if any(edits.values()) else b"OSWP\1" + made


def history(edits: dict[str, list[str]]) -> bytes:
    """The edits of a saved session: the done ones, and the undone ones as `redo` takes them."""
    counts = b"".join(len(lines).to_bytes(2, "big") for lines in edits.values())
    return counts + "".join(edits["done"] + edits["undone"]).encode()


def section(lsas: list[Lsa]) -> bytes:
    return len(lsas).to_bytes(2, "big") + b"".join(lsa.bytes() for lsa in lsas)

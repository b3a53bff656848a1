"""Carries out scripts as docs/FORMATS.md defines, in plain steps: the reply to each line, the dump that is left, and the
session that is saved. It reads saved sessions with edits of every kind, too.

It was written from that page, docs/DECISIONS.md and RFC 2328 alone, so that it can be compared with the program.
"""
import dataclasses
import itertools
import re

import plain_reader
import plain_routes
from plain_reader import LONGEST_DUMP, MOST_EDITS, number, with_checksum

MOST_LSAS, MOST_LSAS_OF_AS, LONGEST_LSA = 8192, 65535, 65535

# ---- lines of scripts

BYTE = rb"(?:25[0-5]|2[0-4][0-9]|1[0-9]{2}|[1-9]?[0-9])"
ADDRESS = re.compile(rb"\.".join([BYTE] * 4))
NUMBER = re.compile(rb"0|[1-9][0-9]*")
LENGTH = re.compile(rb"[12]?[0-9]|3[0-2]")
BLANKS = re.compile(rb"[ \t\r]+")

# The arguments of each command: addresses (a), prefixes (p), types of metrics (t), or the greatest number.
SHORT, LONG, WORD = 65535, 16777215, 4294967295
EDITS: dict[bytes, tuple] = {
    b"cost": ("a", "a", SHORT, SHORT), b"drop-link": ("a", "a", SHORT), b"fail-link": ("a", "a", "a"),
    b"fail-net": ("a", "a"), b"fail-router": ("a",), b"add-stub": ("a", "a", "p", SHORT),
    b"summary": ("a", "a", "p", LONG), b"add-summary": ("a", "a", "p", LONG),
    b"add-external": ("a", "p", "t", LONG, "a", WORD), b"drop-external": ("a", "p"), b"refresh": (),
}
COMMANDS: dict[bytes, tuple] = EDITS | {
    b"undo": (WORD,), b"redo": (WORD,), b"table": ("a",), b"tables": (), b"compare": ("a",), b"info": (),
}


class Refused(Exception):
    """Why a line is refused, as it is printed."""


def address(word: bytes) -> bytes:
    if not ADDRESS.fullmatch(word):
        raise Refused("S6 BadAddress")
    return bytes(map(int, word.split(b".")))


def mask(length: int) -> int:
    return 2 ** 32 - 2 ** (32 - length)


def prefix(word: bytes) -> tuple[bytes, int]:
    """The address and the length."""
    front, slash, back = word.partition(b"/")
    if not slash or not ADDRESS.fullmatch(front) or not LENGTH.fullmatch(back):
        raise Refused("S7 BadPrefix")
    found = bytes(map(int, front.split(b".")))
    if number(found) & ~mask(int(back)):
        raise Refused("S7 BadPrefix")
    return found, int(back)


def argument(kind: str | int, word: bytes):
    if kind == "a":
        return address(word)
    if kind == "p":
        return prefix(word)
    least, most = (1, 2) if kind == "t" else (0, kind)
    if not NUMBER.fullmatch(word) or not least <= int(word[:20]) <= most:
        raise Refused("S5 BadNumber")
    return int(word)


@dataclasses.dataclass
class Command:
    """A line of a script: its words and what they mean."""

    branch: int
    words: list[bytes]
    values: list


def words_of(line: bytes) -> list[bytes]:
    return [word for word in BLANKS.split(line) if word]


def command(line: bytes) -> Command | None:
    """What a line means; `None` where it has no reply. Raises `Refused`."""
    words, branch = words_of(line), 0
    if not words or words[0].startswith(b"#"):
        return None
    if words[0].startswith(b"@"):
        if not re.fullmatch(rb"@[0-7]", words[0]):
            raise Refused("S8 BadBranch")
        branch, words = int(words[0][1:]), words[1:]
    if not words:
        raise Refused("S3 MissingWord")
    if words[0] not in COMMANDS:
        raise Refused("S2 UnknownWord")
    kinds = COMMANDS[words[0]]
    if len(words) - 1 != len(kinds):
        raise Refused("S3 MissingWord" if len(words) - 1 < len(kinds) else "S4 ExtraWord")
    return Command(branch, words, [argument(kind, word) for kind, word in zip(kinds, words[1:])])


# ---- LSAs


def router_key(router: bytes) -> bytes:
    return b"\1" + router + router


def links_of(lsa: bytes) -> list[bytes]:
    """The links of a router-LSA, each with its TOS metrics."""
    found, at = [], 24
    while at < len(lsa):
        size = 12 + 4 * lsa[at + 9]
        found.append(lsa[at:at + size])
        at += size
    return found


def with_links(lsa: bytes, links: list[bytes]) -> bytes:
    body = b"".join(links)
    made = lsa[:18] + (24 + len(body)).to_bytes(2, "big") + lsa[20:22] + len(links).to_bytes(2, "big") + body
    return with_checksum(made)


def without_links(lsa: bytes, kind: int, ident: bytes) -> bytes:
    """A router-LSA without its links of a type and a Link ID; where it has none it stays as it is."""
    links = links_of(lsa)
    kept = [link for link in links if link[8] != kind or link[:4] != ident]
    return lsa if len(kept) == len(links) else with_links(lsa, kept)


def with_metric(lsa: bytes, metric: int) -> bytes:
    """A summary-LSA with this metric."""
    return with_checksum(lsa[:25] + metric.to_bytes(3, "big") + lsa[28:])


def originated(options: int, kind: int, ident: bytes, router: bytes, body: bytes) -> bytes:
    """An LSA that an edit adds."""
    front = bytes([0, 1, options, kind]) + ident + router + bytes.fromhex("80000001 0000")
    return with_checksum(front + (20 + len(body)).to_bytes(2, "big") + body)


def is_for(lsa: bytes, kind: int, router: bytes, net: tuple[bytes, int]) -> bool:
    """Whether a router originated an LSA of a type for a prefix, whatever host bits its Link State ID has."""
    ones = mask(net[1])
    return (lsa[3] == kind and lsa[8:12] == router and number(lsa[20:24]) == ones
            and number(lsa[4:8]) & ones == number(net[0]))


# ---- databases


@dataclasses.dataclass(frozen=True)
class State:
    """A database: the ID and the kind of each area, and the LSAs of each and of the AS."""

    heads: tuple[tuple[int, int], ...]
    sections: tuple[tuple[bytes, ...], ...]

    def areas(self) -> plain_routes.Areas:
        return tuple((ident, kind, lsas) for (ident, kind), lsas in zip(self.heads, self.sections))

    def base(self) -> bytes:
        """What follows the version in its dump."""
        made = bytes([len(self.heads)])
        for (ident, kind), lsas in zip(self.heads, self.sections):
            made += ident.to_bytes(4, "big") + bytes([kind]) + len(lsas).to_bytes(2, "big") + b"".join(lsas)
        return made + len(self.sections[-1]).to_bytes(2, "big") + b"".join(self.sections[-1])

    def dump(self) -> bytes:
        return b"OSWP\1" + self.base()

    def has_room(self, more: int) -> bool:
        return 8 + 7 * len(self.heads) + sum(map(len, itertools.chain(*self.sections))) + more <= LONGEST_DUMP

    def place(self, area: bytes) -> int:
        idents = [ident for ident, _ in self.heads]
        if number(area) not in idents:
            raise Refused("E1 NoArea")
        return idents.index(number(area))

    def router(self, place: int, router: bytes) -> bytes:
        """The router-LSA of a router in an area."""
        for lsa in self.sections[place]:
            if lsa[3:12] == router_key(router):
                return lsa
        raise Refused("E2 NoRouter")

    def areas_of(self, router: bytes) -> list[int]:
        """The places of the areas to which a router is attached."""
        return [place for place, lsas in enumerate(self.sections)
                if any(lsa[3:12] == router_key(router) and number(lsa[:2]) % 32768 < 3600 for lsa in lsas)]

    def attached(self) -> list[bytes]:
        """The routers that are attached to an area, in rising order."""
        routers = {lsa[8:12] for lsas in self.sections for lsa in lsas if lsa[3] == 1}
        return sorted(router for router in routers if self.areas_of(router))

    def with_section(self, place: int, lsas) -> "State":
        return dataclasses.replace(self, sections=self.sections[:place] + (tuple(lsas),) + self.sections[place + 1:])

    def with_lsa(self, place: int, old: bytes, new: bytes) -> "State":
        return self.with_section(place, [new if lsa[3:12] == old[3:12] else lsa for lsa in self.sections[place]])

    def info(self) -> str:
        routers = [lsa for lsas in self.sections for lsa in lsas if lsa[3] == 1]
        virtual = sum(link[8] == 4 for lsa in routers for link in links_of(lsa))
        return (f"areas {len(self.heads)} lsas {sum(map(len, self.sections[:-1]))} as {len(self.sections[-1])}"
                f" vbits {sum(bool(lsa[20] & 4) for lsa in routers)} vlinks {virtual}")


def state_of(dump: bytes) -> tuple[State, int]:
    """The database of an accepted dump of either version, and where its base ends."""
    at, heads, sections = 6, [], []

    def lsas(count: int):
        nonlocal at
        for _ in range(count):
            length = number(dump[at + 18:at + 20])
            yield dump[at:at + length]
            at += length

    for _ in range(dump[5]):
        heads.append((number(dump[at:at + 4]), dump[at + 4]))
        at += 7
        sections.append(tuple(lsas(number(dump[at - 2:at]))))
    at += 2
    sections.append(tuple(lsas(number(dump[at - 2:at]))))
    return State(tuple(heads), tuple(sections)), at


# ---- edits


def cost(db: State, area: bytes, router: bytes, link: int, metric: int) -> State:
    place = db.place(area)
    lsa = db.router(place, router)
    links = links_of(lsa)
    if not 1 <= link <= len(links):
        raise Refused("E3 NoLink")
    old = links[link - 1]
    if metric == 0 and old[8] in (1, 2):
        raise Refused("E4 ZeroCost")
    links[link - 1] = old[:10] + metric.to_bytes(2, "big") + old[12:]
    return db.with_lsa(place, lsa, with_links(lsa, links))


def drop_link(db: State, area: bytes, router: bytes, link: int) -> State:
    place = db.place(area)
    lsa = db.router(place, router)
    links = links_of(lsa)
    if not 1 <= link <= len(links):
        raise Refused("E3 NoLink")
    return db.with_lsa(place, lsa, with_links(lsa, links[:link - 1] + links[link:]))


def fail_link(db: State, area: bytes, router: bytes, neighbor: bytes) -> State:
    place = db.place(area)
    if router == neighbor:
        raise Refused("E5 SameRouter")
    both = [(db.router(place, one), other) for one, other in ((router, neighbor), (neighbor, router))]
    made = [without_links(lsa, 1, other) for lsa, other in both]
    if all(new is lsa for new, (lsa, _) in zip(made, both)):
        raise Refused("E3 NoLink")
    for new, (lsa, _) in zip(made, both):
        db = db.with_lsa(place, lsa, new)
    return db


def fail_net(db: State, area: bytes, network: bytes) -> State:
    place = db.place(area)
    kept = [lsa for lsa in db.sections[place] if lsa[3:8] != b"\2" + network]
    if len(kept) == len(db.sections[place]):
        raise Refused("E6 NoNetwork")
    return db.with_section(place, [without_links(lsa, 2, network) if lsa[3] == 1 else lsa for lsa in kept])


def fail_router(db: State, router: bytes) -> State:
    if not any(lsa[3:12] == router_key(router) for lsas in db.sections for lsa in lsas):
        raise Refused("E2 NoRouter")
    kept = (tuple(lsa for lsa in lsas if lsa[8:12] != router) for lsas in db.sections)
    return dataclasses.replace(db, sections=tuple(kept))


def add_stub(db: State, area: bytes, router: bytes, net: tuple[bytes, int], metric: int) -> State:
    place = db.place(area)
    lsa = db.router(place, router)
    if len(lsa) + 12 > LONGEST_LSA:
        raise Refused("E10 TooLong")
    if not db.has_room(12):
        raise Refused("E11 Full")
    link = net[0] + mask(net[1]).to_bytes(4, "big") + b"\3\0" + metric.to_bytes(2, "big")
    return db.with_lsa(place, lsa, with_links(lsa, links_of(lsa) + [link]))


def summary(db: State, area: bytes, router: bytes, net: tuple[bytes, int], metric: int) -> State:
    place = db.place(area)
    for lsa in db.sections[place]:
        if is_for(lsa, 3, router, net):
            return db.with_lsa(place, lsa, with_metric(lsa, metric))
    raise Refused("E7 NoSummary")


def added(db: State, place: int, lsa: bytes, most: int) -> State:
    lsas = db.sections[place]
    if any(other[3:12] == lsa[3:12] for other in lsas):
        raise Refused("E9 KeyTaken")
    if len(lsas) >= most or not db.has_room(len(lsa)):
        raise Refused("E11 Full")
    return db.with_section(place, (*lsas, lsa))


def add_summary(db: State, area: bytes, router: bytes, net: tuple[bytes, int], metric: int) -> State:
    place = db.place(area)
    db.router(place, router)
    body = mask(net[1]).to_bytes(4, "big") + metric.to_bytes(4, "big")
    options = 0 if db.heads[place][1] else 2
    return added(db, place, originated(options, 3, net[0], router, body), MOST_LSAS)


def add_external(db: State, router: bytes, net: tuple[bytes, int], kind: int, metric: int, forward: bytes,
                 tag: int) -> State:
    if not any(lsa[3:12] == router_key(router) for lsas in db.sections for lsa in lsas):
        raise Refused("E2 NoRouter")
    body = mask(net[1]).to_bytes(4, "big") + bytes([128 * (kind - 1)]) + metric.to_bytes(3, "big") + forward
    lsa = originated(2, 5, net[0], router, body + tag.to_bytes(4, "big"))
    return added(db, len(db.heads), lsa, MOST_LSAS_OF_AS)


def drop_external(db: State, router: bytes, net: tuple[bytes, int]) -> State:
    for place, lsa in enumerate(db.sections[-1]):
        if is_for(lsa, 5, router, net):
            return db.with_section(len(db.heads), db.sections[-1][:place] + db.sections[-1][place + 1:])
    raise Refused("E8 NoExternal")


def refresh(db: State) -> State:
    sections = tuple(lsas for _, _, lsas in plain_routes.refreshed(db.areas(), with_metric))
    return dataclasses.replace(db, sections=sections + db.sections[-1:])


EFFECTS = {
    b"cost": cost, b"drop-link": drop_link, b"fail-link": fail_link, b"fail-net": fail_net,
    b"fail-router": fail_router, b"add-stub": add_stub, b"summary": summary, b"add-summary": add_summary,
    b"add-external": add_external, b"drop-external": drop_external, b"refresh": refresh,
}


# ---- branches


class Branch:
    """A database under its edits: each done edit with the database before it, each undone one with that after it."""

    def __init__(self, base: State):
        self.base = self.state = base
        self.done: list[tuple[bytes, State]] = []
        # The next that `redo` takes stands last.
        self.undone: list[tuple[bytes, State]] = []

    def edit(self, line: Command) -> None:
        if len(self.done) >= MOST_EDITS:
            raise Refused("E12 HistoryFull")
        state = EFFECTS[line.words[0]](self.state, *line.values)
        self.done.append((b" ".join(line.words), self.state))
        self.state, self.undone = state, []

    def undo(self, count: int) -> None:
        if count > len(self.done):
            raise Refused("U1 NothingToUndo")
        for _ in range(count):
            line, before = self.done.pop()
            self.undone.append((line, self.state))
            self.state = before

    def redo(self, count: int) -> None:
        if count > len(self.undone):
            raise Refused("U2 NothingToRedo")
        for _ in range(count):
            line, after = self.undone.pop()
            self.done.append((line, self.state))
            self.state = after

    def session(self) -> bytes:
        """What `--save` writes."""
        lines = [line + b"\n" for line, _ in self.done + self.undone[::-1]]
        counts = len(self.done).to_bytes(2, "big") + len(self.undone).to_bytes(2, "big")
        return b"OSWP\2" + self.base.base() + counts + b"".join(lines)


class SessionReader(plain_reader.Reader):
    """A dump of either version, with edits of every kind."""

    branch: Branch | None = None

    def carries_out(self, line: bytes) -> bool:
        if self.branch is None:
            self.branch = Branch(state_of(self.dump)[0])
        try:
            read = command(line)
            if read is None or read.words[0] not in EDITS or b" ".join(read.words) != line:
                return False
            self.branch.edit(read)
        except Refused:
            return False
        return True


def opened(dump: bytes) -> Branch:
    """What branch 0 of a dump begins with. Raises `plain_reader.Refused`."""
    reader = SessionReader(dump)
    plain_reader.read(dump, reader)
    state, end = state_of(dump)
    branch = reader.branch or Branch(state)
    if plain_reader.is_session(dump):
        branch.undo(number(dump[end + 2:end + 4]))
    return branch


# ---- replies


def table(db: State, router: bytes) -> tuple[bytes, ...]:
    """The lines of a router's table; none where it is attached to no area."""
    return plain_routes.table(db.areas(), db.sections[-1], router)


def counted(word: str, router: bytes, lines) -> bytes:
    """The text of a table or of a comparison."""
    return b"\n".join([f"{word} {plain_routes.dotted(router)} {len(lines)}".encode(), *lines])


def compared(base: tuple[bytes, ...], now: tuple[bytes, ...]) -> list[bytes]:
    """The lines of the comparison of two tables."""
    old, new = ({prefix(line.partition(b" ")[0]): line for line in lines} for lines in (base, now))
    made = []
    for net in sorted(old.keys() | new.keys()):
        if net not in old:
            made.append(b"+ " + new[net])
        elif net not in new:
            made.append(b"- " + old[net])
        elif old[net] != new[net]:
            made.append(b"~ " + new[net] + b" was " + old[net].partition(b" ")[2])
    return made


class Planner:
    """The branches of a run."""

    def __init__(self, dump: bytes):
        self.branches = {0: opened(dump)}
        self.base = self.branches[0].base

    def branch(self, place: int) -> Branch:
        return self.branches.setdefault(place, Branch(self.base))

    def reply(self, line: bytes) -> bytes:
        """The reply to a line; nothing where it has none."""
        try:
            read = command(line)
        except Refused as refused:
            return f"script {refused}\n".encode()
        if read is None:
            return b""
        try:
            answer = self.answer(read, self.branch(read.branch))
        except Refused as refused:
            answer = f"refused {refused}".encode()
        return b"@%d %s\n" % (read.branch, answer)

    def answer(self, read: Command, branch: Branch) -> bytes:
        word, state = read.words[0].decode(), branch.state
        if read.words[0] in EDITS:
            branch.edit(read)
        elif word == "undo":
            branch.undo(*read.values)
        elif word == "redo":
            branch.redo(*read.values)
        elif word == "info":
            return f"info {state.info()} done {len(branch.done)} undone {len(branch.undone)}".encode()
        elif word == "tables":
            routers = state.attached()
            return b"\n".join([b"tables %d" % len(routers)] + [counted("table", one, table(state, one)) for one in routers])
        else:
            return self.shown(word, read.values[0], state)
        return b"ok"

    def shown(self, word: str, router: bytes, state: State) -> bytes:
        """A table, or how it differs from that of the loaded database."""
        if not (self.base if word == "compare" else state).areas_of(router):
            raise Refused("N1 NoRouter")
        lines = table(state, router)
        return counted(word, router, compared(table(self.base, router), lines) if word == "compare" else lines)

    def replies(self, script: bytes) -> bytes:
        return b"".join(map(self.reply, script.split(b"\n")))

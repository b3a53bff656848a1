"""Malformed inputs for tests/hostile/fuzz: bytes, LSAs, dumps, scripts, captures, walks and prints.

Each function takes a source of chance, so that what it makes is determined by its seed.
"""
import dataclasses
import random
import re

import plain_planner
from plain_reader import links, number, with_checksum

# Numbers about which something changes: limits of the formats, lengths of their parts, ends of ranges.
LIMITS = [0, 1, 2, 3, 4, 5, 7, 8, 11, 12, 13, 16, 19, 20, 21, 23, 24, 28, 32, 33, 36, 44, 63, 64, 65, 127, 128, 255, 256,
          3599, 3600, 8191, 8192, 8193, 9999, 10000, 10001, 32767, 32768, 36368, 65534, 65535, 65536, 262144, 262145,
          16777214, 16777215, 16777216, 2 ** 31 - 1, 2 ** 31, 2 ** 31 + 1, 2 ** 32 - 2, 2 ** 32 - 1]


def limit(chance: random.Random, size: int) -> bytes:
    """A number of this size in bytes, mostly one at a limit."""
    value = chance.choice(LIMITS) if chance.random() < 0.8 else chance.getrandbits(8 * size)
    return (value % 256 ** size).to_bytes(size, chance.choice(["big", "big", "little"]))


# ---- bytes


def turned_bit(chance: random.Random, data: bytes, other: bytes) -> bytes:
    place = chance.randrange(len(data))
    return data[:place] + bytes([data[place] ^ 1 << chance.randrange(8)]) + data[place + 1:]


def other_byte(chance: random.Random, data: bytes, other: bytes) -> bytes:
    place = chance.randrange(len(data))
    value = chance.choice([0, 1, 255, data[place] + 1, data[place] - 1, data[place] ^ 128, chance.randrange(256)])
    return data[:place] + bytes([value % 256]) + data[place + 1:]


def number_at_limit(chance: random.Random, data: bytes, other: bytes) -> bytes:
    size = chance.choice([1, 2, 2, 3, 4, 4])
    place = chance.randrange(len(data))
    return data[:place] + limit(chance, size) + data[place + size:]


def cut_at_end(chance: random.Random, data: bytes, other: bytes) -> bytes:
    return data[:chance.randrange(len(data))]


def cut_within(chance: random.Random, data: bytes, other: bytes) -> bytes:
    place = chance.randrange(len(data))
    return data[:place] + data[place + chance.choice([1, 1, 2, 4, 12, 20, chance.randrange(1, 64)]):]


def range_twice(chance: random.Random, data: bytes, other: bytes) -> bytes:
    place = chance.randrange(len(data))
    size = chance.choice([1, 2, 4, 12, 20, 36, chance.randrange(1, 128)])
    return data[:place + size] + data[place:]


def inserted(chance: random.Random, data: bytes, other: bytes) -> bytes:
    place = chance.randrange(len(data) + 1)
    return data[:place] + chance.randbytes(chance.choice([1, 1, 2, 4, 20])) + data[place:]


def spliced(chance: random.Random, data: bytes, other: bytes) -> bytes:
    """The front of one and the back of another."""
    return data[:chance.randrange(len(data) + 1)] + other[chance.randrange(len(other) + 1):]


def overlaid(chance: random.Random, data: bytes, other: bytes) -> bytes:
    """A piece of another within it."""
    start = chance.randrange(len(other) + 1)
    piece = other[start:start + chance.choice([4, 8, 20, 36, 100])]
    place = chance.randrange(len(data) + 1)
    return data[:place] + piece + data[place + chance.choice([0, len(piece)]):]


BYTE_CHANGES = [turned_bit, turned_bit, other_byte, other_byte, number_at_limit, number_at_limit, cut_at_end, cut_within,
                range_twice, inserted, spliced, overlaid]


def changed_bytes(chance: random.Random, data: bytes, other: bytes, most: int = 3) -> bytes:
    """Bytes after one change or several; `other` is a file of the same kind."""
    for _ in range(chance.randint(1, most)):
        data = chance.choice(BYTE_CHANGES)(chance, data or b"\0", other)
    return data


# ---- LSAs


def identifiers(lsas: list[bytes]) -> list[bytes]:
    """The addresses and Router IDs that LSAs name, and some that they do not."""
    found = [b"\0\0\0\0", b"\xff\xff\xff\xff", b"\1\1\1\1", b"\x0a\0\0\1"]
    for lsa in (lsa for lsa in lsas if len(lsa) >= 20):
        found += [lsa[4:8], lsa[8:12]] + [lsa[at:at + 4] for at in range(24, min(len(lsa) - 3, 72), 4)]
    return found


def with_numbers(lsa: bytes) -> bytes:
    """An LSA with the length that it has, and a router-LSA with the number of links that fill it, if one does."""
    lsa = lsa[:18] + (len(lsa) % 65536).to_bytes(2, "big") + lsa[20:]
    if lsa[3] == 1 and len(lsa) >= 24:
        count, at = 0, 24
        while at + 12 <= len(lsa):
            count, at = count + 1, at + 12 + 4 * lsa[at + 9]
        lsa = lsa[:22] + (count % 65536).to_bytes(2, "big") + lsa[24:]
    return lsa


def other_field(chance: random.Random, lsa: bytes, names: list[bytes]) -> bytes:
    """An LSA with another value in one of the fields of its header."""
    place, values = chance.choice([
        (0, [bytes(2), b"\x0e\x0f", b"\x0e\x10", b"\x0e\x11", b"\x8e\x10", b"\x8e\x0f", b"\x80\1", b"\xff\xff"]),
        (2, [b"\0", b"\2", b"\x22", b"\xff"]), (3, [bytes([kind]) for kind in range(13)]),
        (4, names), (8, names), (4, [lsa[8:12]]),
        (12, [b"\x80\0\0\0", b"\x80\0\0\1", b"\x7f\xff\xff\xff", b"\xff\xff\xff\xff", bytes(4), b"\x80\0\0\2"]),
    ])
    value = chance.choice(values)
    return lsa[:place] + value + lsa[place + len(value):]


def other_body(chance: random.Random, lsa: bytes, names: list[bytes]) -> bytes:
    """An LSA with another value in its body, or with more or less of it."""
    if len(lsa) <= 20:
        return lsa + chance.choice([bytes(4), bytes(8), chance.choice(names) * 4])
    if lsa[3] == 1:
        return other_link(chance, lsa, names)
    place = 20 + 4 * chance.randrange((len(lsa) - 17) // 4)
    values = [chance.choice(names), limit(chance, 4), b"\xff\xff\xff\0", b"\xff\xff\xff\xff", b"\xff\0\xff\0", bytes(4),
              b"\x80\xff\xff\xff", b"\0\xff\xff\xff", b"\0\xff\xff\xfe", b"\x80\0\0\1", b"\0\0\0\x0a"]
    return chance.choice([
        lsa[:place] + chance.choice(values) + lsa[place + 4:], lsa[:place] + chance.choice(values) + lsa[place + 4:],
        lsa[:place] + lsa[place + 4:], lsa[:place] + lsa[place + 12:], lsa + chance.choice(names), lsa + lsa[24:36],
    ])


def other_link(chance: random.Random, lsa: bytes, names: list[bytes]) -> bytes:
    """A router-LSA with other bits, or with another link, one more or one less."""
    pieces = plain_planner.links_of(lsa) if links(lsa) is not None else [lsa[24:36]]
    place = chance.randrange(len(pieces) or 1)
    old = (pieces or [bytes(12)])[place]
    kind, metric = bytes([chance.choice([0, 1, 1, 2, 2, 3, 3, 4, 5])]), chance.choice([0, 1, 10, 65534, 65535])
    data = chance.choice([*names, b"\xff\xff\xff\0", b"\xff\xff\xff\xff", b"\xff\0\xff\0"])
    new = chance.choice([
        chance.choice(names) + old[4:], old[:4] + data + old[8:], old[:8] + kind + old[9:],
        old[:10] + metric.to_bytes(2, "big") + old[12:], old[:9] + b"\1" + old[10:12] + bytes(4) + old[12:],
        chance.choice(names) + data + kind + b"\0" + metric.to_bytes(2, "big"),
    ])
    pieces = chance.choice([pieces[:place] + [new] + pieces[place + 1:], pieces[:place] + [new] + pieces[place + 1:],
                            pieces[:place] + pieces[place + 1:], pieces + [new], pieces + [old], [new] + pieces])
    bits = bytes([chance.randrange(8)]) if chance.random() < 0.2 else lsa[20:21]
    return lsa[:20] + bits + lsa[21:24] + b"".join(pieces)


def changed_lsa(chance: random.Random, lsa: bytes, names: list[bytes], repaired: bool) -> bytes:
    """An LSA after a change. Where it is repaired, mostly its length and number of links fit, and its checksum does."""
    kind = chance.random()
    if kind < 0.3:
        lsa = other_field(chance, lsa, names)
    elif kind < 0.85:
        lsa = other_body(chance, lsa, names)
    else:
        lsa = changed_bytes(chance, lsa, lsa, 1)
    if len(lsa) < 20:
        return lsa
    if repaired and chance.random() < 0.85:
        lsa = with_numbers(lsa)
    return with_checksum(lsa) if repaired else lsa


# ---- dumps


@dataclasses.dataclass
class Parts:
    """The parts of a dump: version, areas, LSAs of AS scope; of a session its edits, of which the first `done` are done."""

    version: int
    heads: list[tuple[int, int]]
    sections: list[list[bytes]]
    lines: list[bytes]
    done: int

    def lsas(self) -> list[bytes]:
        return [lsa for lsas in self.sections for lsa in lsas]

    def dump(self) -> bytes:
        made = b"OSWP" + bytes([self.version % 256, len(self.heads) % 256])
        for (ident, kind), lsas in zip(self.heads, self.sections):
            made += (ident % 2 ** 32).to_bytes(4, "big") + bytes([kind % 256]) + count_of(lsas) + b"".join(lsas)
        made += count_of(self.sections[-1]) + b"".join(self.sections[-1])
        if self.version == 2:
            done = min(self.done, len(self.lines))
            made += done.to_bytes(2, "big") + (len(self.lines) - done).to_bytes(2, "big")
            made += b"".join(line + b"\n" for line in self.lines)
        return made


def count_of(lsas: list[bytes]) -> bytes:
    return (len(lsas) % 65536).to_bytes(2, "big")


def parts_of(dump: bytes) -> Parts:
    """The parts of an accepted dump."""
    state, end = plain_planner.state_of(dump)
    done, lines = 0, []
    if dump[4] == 2:
        done, lines = number(dump[end:end + 2]), dump[end + 4:].split(b"\n")[:-1]
    return Parts(dump[4], list(state.heads), [list(lsas) for lsas in state.sections], lines, done)


def copied(parts: Parts) -> Parts:
    return dataclasses.replace(parts, heads=list(parts.heads), sections=[list(lsas) for lsas in parts.sections],
                               lines=list(parts.lines))


def change_lsas(chance: random.Random, parts: Parts, others: list[bytes], repaired: bool) -> None:
    """Changes an LSA, adds, removes or moves one."""
    section = chance.choice([lsas for lsas in parts.sections if lsas] or parts.sections)
    place = chance.randrange(len(section) or 1)
    kind = chance.random()
    if not section or kind < 0.12:
        section.insert(place, chance.choice(others))
    elif kind < 0.72:
        section[place] = changed_lsa(chance, section[place], identifiers(parts.lsas()), repaired)
    elif kind < 0.82:
        section.pop(place)
    elif kind < 0.88:
        chance.choice(parts.sections).append(section.pop(place))
    elif kind < 0.92:
        section.insert(place, section[place])
    else:
        lsa = other_field(chance, section[place], identifiers(parts.lsas()))
        section.append(with_checksum(lsa) if repaired else lsa)


def change_areas(chance: random.Random, parts: Parts) -> None:
    """Changes an area, adds or removes one."""
    place = chance.randrange(len(parts.heads) or 1)
    kind = chance.random()
    if not parts.heads or kind < 0.3:
        idents = [ident for ident, _ in parts.heads] or [-1]
        ident = max(idents) + 1 if chance.random() < 0.7 else chance.choice(LIMITS)
        parts.heads.append((ident, chance.choice([0, 0, 1])))
        parts.sections.insert(-1, list(chance.choice(parts.sections)) if chance.random() < 0.5 else [])
    elif kind < 0.5:
        parts.heads.pop(place)
        parts.sections.pop(place)
    elif kind < 0.75:
        parts.heads[place] = (parts.heads[place][0], chance.choice([0, 1, 1, 2, 255]))
    else:
        parts.heads[place] = (chance.choice([parts.heads[place][0] + 1, *LIMITS]), parts.heads[place][1])


def change_history(chance: random.Random, parts: Parts) -> None:
    """Makes it a session, or changes its edits."""
    if parts.version != 2:
        parts.version, parts.lines, parts.done = 2, [], 0
    words = Words(parts)
    kind = chance.random()
    if not parts.lines or kind < 0.6:
        for _ in range(chance.choice([1, 2, 4, 8])):
            parts.lines.append(words.edit(chance))
    elif kind < 0.7:
        parts.lines.pop(chance.randrange(len(parts.lines)))
    elif kind < 0.8:
        chance.shuffle(parts.lines)
    else:
        place = chance.randrange(len(parts.lines))
        parts.lines[place] = changed_line(chance, parts.lines[place])
    parts.done = chance.choice([len(parts.lines), parts.done, chance.randint(0, len(parts.lines))])


def changed_dump(chance: random.Random, parts: Parts, others: list[bytes]) -> bytes:
    """A dump after changes; half of them have good checksums."""
    parts, repaired = copied(parts), chance.random() < 0.5
    for _ in range(chance.choice([0, 0, 1, 1, 1, 2, 4])):
        kind = chance.random()
        if kind < 0.7:
            change_lsas(chance, parts, others, repaired)
        elif kind < 0.82:
            change_areas(chance, parts)
        else:
            change_history(chance, parts)
    dump = parts.dump()
    return changed_bytes(chance, dump, chance.choice(others), 1) if chance.random() < 0.1 else dump


# ---- scripts


def dotted(data: bytes) -> bytes:
    return b".".join(b"%d" % byte for byte in data)


class Words:
    """What lines of scripts may name in a database, and the lines."""

    def __init__(self, parts: Parts):
        sections = [[lsa for lsa in lsas if len(lsa) >= 24] for lsas in parts.sections]
        lsas = [lsa for section in sections for lsa in section]
        self.areas = [ident.to_bytes(4, "big") for ident, _ in parts.heads if 0 <= ident < 2 ** 32] or [bytes(4)]
        self.routers = [lsa[8:12] for lsa in lsas if lsa[3] == 1] or [lsa[8:12] for lsa in lsas] or [b"\1\1\1\1"]
        self.networks = [lsa[4:8] for lsa in lsas if lsa[3] == 2] or [b"\x0a\0\0\1"]
        self.prefixes = [(lsa[4:8], lsa[20:24]) for lsa in lsas if lsa[3] in (3, 5)] or [
            (b"\x0a\x09\0\0", b"\xff\xff\0\0")]
        self.neighbors = [link[:4] for lsa in lsas if lsa[3] == 1 and links(lsa) is not None
                          for link in plain_planner.links_of(lsa) if link[8] == 1] or self.routers
        # The area of each router-LSA, its router and its number of links; what is summarized, and by whom.
        self.places = [(ident.to_bytes(4, "big"), lsa[8:12], number(lsa[22:24]))
                       for (ident, _), section in zip(parts.heads, sections) if 0 <= ident < 2 ** 32
                       for lsa in section if lsa[3] == 1]
        self.summaries = [(ident.to_bytes(4, "big"), lsa) for (ident, _), section in zip(parts.heads, sections)
                          if 0 <= ident < 2 ** 32 for lsa in section if lsa[3] == 3]
        self.externals = [lsa for lsa in sections[-1] if lsa[3] == 5]

    def prefix(self, chance: random.Random) -> bytes:
        if chance.random() < 0.6:
            return prefix_of(*chance.choice(self.prefixes))
        length = chance.choice([0, 1, 8, 16, 24, 30, 31, 32])
        ident = number(chance.choice([*self.networks, *self.routers, chance.randbytes(4)])) & plain_planner.mask(length)
        return dotted(ident.to_bytes(4, "big")) + b"/%d" % length

    def edit(self, chance: random.Random) -> bytes:
        """An edit, which mostly is carried out."""
        area, router, count = chance.choice(self.places or [(bytes(4), b"\1\1\1\1", 1)])
        front, link = dotted(area) + b" " + dotted(router) + b" ", chance.randint(1, count + 1)
        metric, long = chance.choice([0, 1, 2, 5, 10, 64, 65535]), chance.choice([0, 1, 7, 100, 16777214, 16777215])
        made = [
            b"cost " + front + b"%d %d" % (link, metric), b"cost " + front + b"%d %d" % (1, metric),
            b"drop-link " + front + b"%d" % link, b"fail-link " + front + dotted(chance.choice(self.neighbors)),
            b"fail-net " + dotted(area) + b" " + dotted(chance.choice(self.networks)), b"fail-router " + dotted(router),
            b"add-stub " + front + self.prefix(chance) + b" %d" % metric,
            b"add-summary " + front + self.prefix(chance) + b" %d" % long,
            b"add-external " + dotted(router) + b" " + self.prefix(chance) + b" %d %d " % (chance.randint(1, 2), long)
            + dotted(chance.choice([bytes(4), *self.networks])) + b" %d" % chance.choice(LIMITS), b"refresh",
        ]
        if self.summaries:
            area, lsa = chance.choice(self.summaries)
            made += [b"summary " + dotted(area) + b" " + dotted(lsa[8:12]) + b" " + prefix_of(lsa[4:8], lsa[20:24])
                     + b" %d" % long] * 2
        if self.externals:
            lsa = chance.choice(self.externals)
            made += [b"drop-external " + dotted(lsa[8:12]) + b" " + prefix_of(lsa[4:8], lsa[20:24])]
        return chance.choice(made)

    def line(self, chance: random.Random) -> bytes:
        """A command, mostly of branch 0."""
        kind, router = chance.random(), dotted(chance.choice(self.routers))
        if kind < 0.5:
            line = self.edit(chance)
        elif kind < 0.6:
            line = b"undo %d" % chance.choice([0, 1, 1, 1, 2, 3])
        elif kind < 0.68:
            line = b"redo %d" % chance.choice([0, 1, 1, 2])
        elif kind < 0.95:
            line = chance.choice([b"table ", b"table ", b"compare "]) + router
        else:
            line = chance.choice([b"info", b"info", b"tables"])
        return line if chance.random() < 0.85 else b"@%d " % chance.choice([0, 1, 1, 2, 7]) + line


def prefix_of(address: bytes, mask: bytes) -> bytes:
    length = f"{number(mask):032b}".rstrip("0").count("1")
    ident = number(address) & plain_planner.mask(length)
    return dotted(ident.to_bytes(4, "big")) + b"/%d" % length


UNUSUAL_WORDS = [b"", b"@0", b"@7", b"@8", b"@", b"@00", b"#", b"# x", b"0", b"00", b"01", b"-1", b"+1", b"1e3", b"65535",
             b"65536", b"16777215", b"16777216", b"4294967295", b"4294967296", b"99999999999999999999999", b"0.0.0.0",
             b"255.255.255.255", b"256.0.0.0", b"1.1.1", b"1.1.1.1.1", b"01.1.1.1", b"1..1.1", b".1.1.1", b"1.1.1.1/32",
             b"0.0.0.0/0", b"10.0.0.0/8", b"10.0.0.0/08", b"10.0.0.1/8", b"10.0.0.0/33", b"10.0.0.0/", b"/8",
             b"10.0.0.0//8", b"\t", b"\r", b"\x0b", b"\x0c", b"\0", b"\xff", b"\xc2\xa0", b"refresh", b"Cost", b"tables",
             b"table", b"cost", b"undo", b"redo", b"info", b"compare", b"1", b"2", b"3"]


def changed_line(chance: random.Random, line: bytes) -> bytes:
    """A line with another word, one more or one less, other blanks, or a changed byte."""
    words = line.split(b" ")
    place, kind = chance.randrange(len(words)), chance.random()
    if kind < 0.4:
        words[place] = chance.choice(UNUSUAL_WORDS)
    elif kind < 0.5:
        words.insert(place, chance.choice(UNUSUAL_WORDS))
    elif kind < 0.6:
        words.pop(place)
    elif kind < 0.7:
        words[place] = chance.choice(words)
    elif kind < 0.85:
        return changed_bytes(chance, line, line, 1)
    return chance.choice([b" ", b" ", b"  ", b"\t", b" \r"]).join(words)


def changed_lines(chance: random.Random, text: bytes, other: bytes, change=changed_line) -> bytes:
    """A text with lines removed, twice, in other places, changed, or of another text."""
    lines = text.split(b"\n")
    for _ in range(chance.choice([1, 1, 2, 4])):
        place, kind = chance.randrange(len(lines)), chance.random()
        if kind < 0.5:
            lines[place] = change(chance, lines[place])
        elif kind < 0.6 and len(lines) > 1:
            lines.pop(place)
        elif kind < 0.7:
            lines.insert(place, lines[place])
        elif kind < 0.8:
            lines.insert(chance.randrange(len(lines)), lines.pop(place))
        elif kind < 0.9:
            lines.insert(place, chance.choice(other.split(b"\n")))
        elif kind < 0.95:
            lines = lines[:place] + other.split(b"\n")[chance.randrange(other.count(b"\n") + 1):]
        else:
            lines = lines[:place + 1]
            lines[-1] = lines[-1][:chance.randrange(len(lines[-1]) + 1)]
    return b"\n".join(lines)


def script(chance: random.Random, parts: Parts, others: list[bytes]) -> bytes:
    """A script for a database, or a changed one for another."""
    kind = chance.random()
    if kind < 0.65:
        words = Words(parts)
        count = chance.choice([1, 3, 8, 20, 40])
        made = b"\n".join(words.line(chance) for _ in range(count)) + b"\n"
    else:
        made = chance.choice(others)
    if kind < 0.45:
        return made
    made = changed_lines(chance, made, chance.choice(others))
    return changed_bytes(chance, made, chance.choice(others), 2) if kind > 0.95 else made


# ---- texts of walks and prints

WORD = re.compile(rb"[0-9A-Za-z.|*/:_-]+")


def changed_text_line(chance: random.Random, line: bytes) -> bytes:
    """A line with another word or number in one place."""
    found = list(WORD.finditer(line))
    if not found or chance.random() < 0.15:
        return changed_bytes(chance, line, line, 1) if line else chance.choice(UNUSUAL_WORDS)
    word = chance.choice(found)
    values = [chance.choice(UNUSUAL_WORDS), b"%d" % chance.choice(LIMITS), b"%x" % chance.choice(LIMITS), b"",
              chance.choice(found)[0], changed_bytes(chance, word[0], word[0], 1)]
    return line[:word.start()] + chance.choice(values) + line[word.end():]


def changed_text(chance: random.Random, text: bytes, other: bytes) -> bytes:
    """A text with changed lines, and some with changed bytes."""
    if chance.random() < 0.8:
        text = changed_lines(chance, text, other, changed_text_line)
    return changed_bytes(chance, text, other, 2) if chance.random() < 0.25 else text


def shorter_text(chance: random.Random, text: bytes, begin: bytes) -> bytes:
    """Some of the parts of a text, each of which begins with these words."""
    front, *parts = text.split(begin)
    if len(parts) > 4:
        parts = [part for part in parts if chance.random() < 4 / len(parts)]
    return front + b"".join(begin + part for part in parts)

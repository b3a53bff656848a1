"""Networks that are made at random, and their dumps, for the tests of the built program."""
import random
import struct
from dataclasses import dataclass, field

COSTS = [1, 1, 2, 4, 4, 8, 10, 10, 10, 20, 64]


def dotted(number: int) -> str:
    return ".".join(str(byte) for byte in number.to_bytes(4, "big"))


def mask(length: int) -> int:
    return (0xFFFFFFFF << (32 - length)) & 0xFFFFFFFF


def lsa(kind: int, ident: int, adv: int, body: bytes) -> bytes:
    """An LSA of age 1 with its checksum (RFC 2328, 12.1.7)."""
    data = bytearray(struct.pack(">HBBIIIHH", 1, 2, kind, ident, adv, 0x80000001, 0, 20 + len(body)) + body)
    length = len(data) - 2
    first = second = 0
    for byte in data[2:]:
        first = (first + byte) % 255
        second = (second + first) % 255
    data[16] = ((length - 15) * first - second) % 255 or 255
    data[17] = (second - (length - 14) * first) % 255 or 255
    return bytes(data)


@dataclass
class Area:
    """Routers with their links, each (type, Link ID, Link Data, metric), and LANs."""

    ident: int
    links: dict[int, list] = field(default_factory=dict)
    flags: dict[int, int] = field(default_factory=dict)
    lans: list = field(default_factory=list)
    summaries: list[bytes] = field(default_factory=list)

    def add_router(self, router: int) -> None:
        self.links.setdefault(router, [])
        self.flags.setdefault(router, 0)

    def join(self, one: int, other: int, there: int, back: int) -> None:
        data = 0x0A000000 + (self.ident << 16) + 2 * sum(map(len, self.links.values()))
        self.links[one].append((1, other, data, there))
        self.links[other].append((1, one, data + 1, back))

    def lan(self, address: int, routers: list[int], costs: list[int]) -> None:
        ident = address + len(routers)
        for place, (router, cost) in enumerate(zip(routers, costs), 1):
            self.links[router].append((2, ident, address + place, cost))
        self.lans.append((ident, routers[-1], routers))

    def lsas(self) -> list[bytes]:
        made = []
        for router, links in self.links.items():
            body = struct.pack(">BBH", self.flags[router], 0, len(links))
            body += b"".join(struct.pack(">IIBBH", ident, data, kind, 0, metric) for kind, ident, data, metric in links)
            made.append(lsa(1, router, router, body))
        for ident, adv, routers in self.lans:
            made.append(lsa(2, ident, adv, struct.pack(f">I{len(routers)}I", mask(24), *routers)))
        return made + self.summaries


def area_at_random(chance: random.Random, ident: int, routers: list[int]) -> Area:
    """An area whose routers are all joined, with some further links, LANs, and stub networks of common prefixes."""
    area = Area(ident)
    for router in routers:
        area.add_router(router)
    for place in range(1, len(routers)):
        area.join(routers[place], routers[chance.randrange(place)], chance.choice(COSTS), chance.choice(COSTS))
    for _ in range(len(routers)):
        one, other = chance.choice(routers), chance.choice(routers)
        if one != other:
            area.join(one, other, chance.choice(COSTS), chance.choice(COSTS))
    for place in range(len(routers) // 8):
        listed = chance.sample(routers, chance.randint(2, 4))
        area.lan(0x1E000000 + (ident << 16) + 256 * place, listed, [chance.choice(COSTS) for _ in listed])
    for place, router in enumerate(routers):
        area.links[router].append((3, 0x14000000 + (ident << 16) + 256 * (place // 2), mask(24), chance.choice(COSTS)))
    return area


@dataclass
class Network:
    """Areas, the first of them the backbone, and AS-external-LSAs, each (address, originator, LSA)."""

    areas: list[Area]
    externals: list[tuple[int, int, bytes]]

    def dump(self) -> bytes:
        made = b"OSWP\x01" + bytes([len(self.areas)])
        for area in self.areas:
            lsas = area.lsas()
            made += struct.pack(">IBH", area.ident, 0, len(lsas)) + b"".join(lsas)
        return made + struct.pack(">H", len(self.externals)) + b"".join(made for _, _, made in self.externals)

    def routers(self) -> list[int]:
        return sorted({router for area in self.areas for router in area.links})


def network_at_random(chance: random.Random) -> Network:
    """A network of one to four areas, with area border routers, summaries of any metrics, and external LSAs."""
    size = chance.choice([4, 8, 20, 40])
    backbone = [0x01000001 + place for place in range(size)]
    areas = [area_at_random(chance, 0, backbone)]
    for ident in range(1, chance.randint(1, 4)):
        border = chance.sample(backbone, 2)
        inner = [0x01000001 + (ident << 16) + place for place in range(size)]
        areas.append(area_at_random(chance, ident, border + inner))
        for router in border:
            areas[0].flags[router] |= 1
            areas[ident].flags[router] |= 1
            for place in range(size // 2):
                for seen, of in ((0, ident), (ident, 0)):
                    prefix = 0x14000000 + (of << 16) + 256 * place
                    body = struct.pack(">II", mask(24), chance.randint(1, 60))
                    areas[seen].summaries.append(lsa(3, prefix, router, body))
    externals = []
    for area in areas:
        router = chance.choice(list(area.links))
        for other in areas:
            if router in other.links:
                other.flags[router] |= 2
        for place in range(chance.randint(0, 10)):
            prefix = 0x40000000 + (area.ident << 16) + 256 * place
            forward = chance.choice([0, 0, 0, 0x14000001, 0x1E000003])
            metric = chance.choice([20, 20, 50]) | chance.choice([0, 1 << 31])
            body = struct.pack(">IIII", mask(24), metric, forward, 0)
            externals.append((prefix, router, lsa(5, prefix, router, body)))
    return Network(areas, externals)

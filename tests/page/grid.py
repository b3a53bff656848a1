#!/usr/bin/python3
"""Writes the dump of a grid of routers in the backbone, each with a stub network: tests/page/grid.py ROWS COLUMNS OUT"""
import pathlib
import sys

TESTS = pathlib.Path(__file__).resolve().parent.parent
sys.path.append(str(TESTS / "bench"))

from workloads import lsa  # noqa: E402


def body_of(row: int, column: int, rows: int, columns: int) -> bytes:
    """The links of a router: to its neighbors in the grid, each an unnumbered one of cost 10, and a stub network."""
    number = lambda r, c: 0x01000001 + r * columns + c  # noqa: E731
    near = [(row - 1, column), (row + 1, column), (row, column - 1), (row, column + 1)]
    links = [
        number(r, c).to_bytes(4) + (at + 1).to_bytes(4) + bytes([1, 0, 0, 10])
        for at, (r, c) in enumerate(near) if 0 <= r < rows and 0 <= c < columns
    ]
    links.append((0x14000000 + (row * columns + column) * 256).to_bytes(4) + (0xFFFFFF00).to_bytes(4) + bytes([3, 0, 0, 1]))
    return bytes(2) + len(links).to_bytes(2) + b"".join(links)


def main() -> None:
    rows, columns = int(sys.argv[1]), int(sys.argv[2])
    routers = [(row, column) for row in range(rows) for column in range(columns)]
    lsas = [
        lsa(1, 0x01000001 + row * columns + column, 0x01000001 + row * columns + column, body_of(row, column, rows, columns))
        for row, column in routers
    ]
    head = b"OSWP" + bytes([1, 1]) + bytes(4) + bytes([0]) + len(lsas).to_bytes(2)
    pathlib.Path(sys.argv[3]).write_bytes(head + b"".join(lsas) + (0).to_bytes(2))


main()

"""The networks of the examples."""
import pathlib
import sys

import pytest

ROOT = pathlib.Path(__file__).resolve().parent.parent.parent
sys.path.insert(0, str(ROOT / "python"))

from ospf_plan import Database  # noqa: E402


@pytest.fixture
def two_areas() -> Database:
    """Five routers, r1 to r5, in the backbone and in area 0.0.0.1."""
    return Database.load(ROOT / "examples" / "two-areas.oswp", names=ROOT / "examples" / "hosts")


@pytest.fixture
def square() -> Database:
    """Four routers in a square."""
    return Database.load(ROOT / "examples" / "square.oswp")

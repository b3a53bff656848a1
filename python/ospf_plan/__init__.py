"""A what-if planner for OSPF Version 2 (RFC 2328): what failures and changes do, before anybody touches the network.

    from ospf_plan import Database, Study

    database = Database.load("examples/two-areas.oswp", names="examples/hosts")
    with Study(database) as study:
        study.fail_link("0.0.0.0", "r1", "r2")
        for pair in study.lost():
            print(pair.router, pair.prefix)

Each answer is that of the program `ospf-study`: the calculation is the same proved code, in a shared library. `capture` makes
a database of what a network gives, as `ospf-capture` does.
"""
from . import errors, results
from .captures import Captured, CapturedFile, CaptureFinding, capture
from .database import Database
from .errors import (
    DumpRefused,
    FileRefused,
    FilesRefused,
    LineRefused,
    NamesRefused,
    OutOfMemory,
    PlanError,
    TooLarge,
)
from .results import Rows
from .study import Study

__all__ = [
    "CaptureFinding", "Captured", "CapturedFile", "Database", "DumpRefused", "FileRefused", "FilesRefused", "LineRefused",
    "NamesRefused", "OutOfMemory", "PlanError", "Rows", "Study", "TooLarge", "capture", "errors", "results",
]

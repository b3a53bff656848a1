"""What a database contains: by README.md and examples/README.md, which have these networks."""
import pathlib

import pytest
from conftest import ROOT
from ospf_plan import Database, DumpRefused, LineRefused, NamesRefused, TooLarge
from ospf_plan.results import Network, TableRoute


def test_routers(two_areas):
    routers = two_areas.routers()
    assert [router.router for router in routers] == ["1.1.1.1", "2.2.2.2", "3.3.3.3", "4.4.4.4", "5.5.5.5"]
    assert [router.name for router in routers] == ["r1", "r2", "r3", "r4", "r5"]
    assert routers[0].roles == ("asbr",) and routers[1].roles == routers[2].roles == ("abr",)
    assert routers[2].areas == ("0.0.0.0", "0.0.0.1")


def test_routers_have_no_names_without_a_names_file(square):
    assert [router.name for router in square.routers()] == [None] * 4


def test_links(two_areas):
    first = two_areas.links("r1")[0]
    assert (first.type, first.to, first.cost, first.back, first.peers) == ("point-to-point", "2.2.2.2", 10, (10,), ("10.0.12.2",))
    assert first.stub is not None and first.stub.prefix == "10.0.12.0/30"
    assert {link.type for link in two_areas.links()} == {"point-to-point", "transit", "stub"}


def test_networks(two_areas):
    members = ("3.3.3.3", "4.4.4.4", "5.5.5.5")
    assert list(two_areas.networks()) == [Network("0.0.0.1", "10.1.0.0/24", "10.1.0.5", "5.5.5.5", members, ())]


def test_table(square):
    assert list(square.table("1.1.1.1")) == [
        TableRoute("10.1.0.0/16", "intra", 1, 0, "0.0.0.0", ("connected",)),
        TableRoute("10.3.0.0/16", "intra", 11, 0, "0.0.0.0", ("link:10.0.13.1",)),
        TableRoute("10.4.0.0/16", "intra", 21, 0, "0.0.0.0", ("link:10.0.12.1",)),
    ]


def test_path(two_areas):
    path = two_areas.path("r1", "10.1.5.9")
    assert path.ends == ("delivered",) and path.routers == ("1.1.1.1", "3.3.3.3", "5.5.5.5") and path.loops == ()
    assert [step.to for step in path.steps] == ["3.3.3.3", "5.5.5.5", None]
    assert path.steps[0].route is not None and path.steps[0].route.cost == 21


def test_routes(two_areas):
    match, = two_areas.routes("r1", "10.1.5.9")
    assert (match.prefix, match.kind, match.cost) == ("10.1.5.0/24", "inter", 21)
    assert [(way.kind, way.router, way.addresses, way.out) for way in match.ways] == [
        ("via", "3.3.3.3", ("10.0.13.2",), "10.0.13.1")
    ]
    assert two_areas.routes("r1")[0].kind == "own"


def test_audit_and_info(two_areas):
    assert [finding.kind for finding in two_areas.audit() if finding.class_ == "wrong"] == []
    info = two_areas.info()
    assert (info.areas, info.external, info.done, info.undone) == (2, 1, 0, 0)


def test_run_is_that_of_the_program(square):
    assert square.run("table 1.1.1.1\n") == (
        "@0 table 1.1.1.1 3\n10.1.0.0/16 intra 1 0 0.0.0.0 connected\n"
        "10.3.0.0/16 intra 11 0 0.0.0.0 link:10.0.13.1\n10.4.0.0/16 intra 21 0 0.0.0.0 link:10.0.12.1\n"
    )


def test_the_dump_is_as_it_was(square):
    path = ROOT / "examples" / "square.oswp"
    assert Database.load(str(path)).dump == path.read_bytes() == square.study().save()


def test_dumps_are_refused():
    with pytest.raises(DumpRefused) as caught:
        Database(b"OSWQ")
    assert (caught.value.what, caught.value.code, caught.value.name, caught.value.offset) == ("dump", "L1", "BadMagic", 0)
    with pytest.raises(DumpRefused, match="L3 Truncated at 0"):
        Database(b"")


def test_names_are_refused(square):
    with pytest.raises(NamesRefused) as caught:
        Database(square.dump, b"1.1.1.1 r1\n2.2.2.2 r1\n")
    assert (caught.value.line, caught.value.code, caught.value.name, caught.value.word) == (2, "H5", "NameTaken", "r1")
    with pytest.raises(TooLarge):
        Database(square.dump, b"#" * 1048577)


def test_routers_that_are_not_there(square):
    with pytest.raises(LineRefused) as caught:
        square.table("9.9.9.9")
    assert (caught.value.code, caught.value.at) == ("N1", "9.9.9.9")
    with pytest.raises(ValueError, match="not one word"):
        square.table("1.1.1.1 2.2.2.2")


def test_a_file_that_is_not_there():
    with pytest.raises(FileNotFoundError):
        Database.load(pathlib.Path("/nowhere.oswp"))


def test_networkx(two_areas):
    graph = two_areas.to_networkx()
    assert graph.number_of_nodes() == 6 and graph.nodes["10.1.0.0/24"]["kind"] == "network"
    costs = {(one, other): data["cost"] for one, other, data in graph.edges(data=True)}
    assert costs["1.1.1.1", "2.2.2.2"] == 10 and costs["10.1.0.0/24", "5.5.5.5"] == 0
    import networkx

    assert networkx.shortest_path_length(graph, "1.1.1.1", "5.5.5.5", weight="cost") == 20

"""Studies: by README.md and docs/STUDY.md, which have these answers."""
import pytest
from ospf_plan import LineRefused, Study


def test_a_link_fails_and_comes_back(square):
    with Study(square) as study:
        study.fail_link("0.0.0.0", "1.1.1.1", "2.2.2.2")
        dearer = study.changes("1.1.1.1").of("dearer")
        assert [(change.prefix, change.was.cost, change.now.cost) for change in dearer] == [("10.4.0.0/16", 21, 31)]
        assert study.info().done == 1
    assert study.text() == "fail-link 0.0.0.0 1.1.1.1 2.2.2.2\nundo 1\n"
    assert list(study.changes()) == [] and study.save() == square.dump


def test_edits_are_taken_back_after_an_exception(square):
    study = square.study()
    with pytest.raises(KeyError), study:
        study.fail_router("4.4.4.4")
        raise KeyError
    assert study.lines == ("fail-router 4.4.4.4", "undo 1") and study.info().done == 0


def test_blocks_in_blocks(square):
    study = square.study()
    with study:
        study.cost("0.0.0.0", "1.1.1.1", "2.2.2.2", 50)
        with study:
            study.fail_router("4.4.4.4")
        assert study.log() == ("cost 0.0.0.0 1.1.1.1 1 50",)
    assert study.log() == ()


def test_the_maintenance_of_the_examples(two_areas):
    study = two_areas.study()
    study.cost("0.0.0.1", "r3", "10.1.0.3", 65535).refresh()
    changes = study.changes("r1")
    assert changes.counts["dearer"] == 2 and changes.counts["unchanged"] == 5 and len(changes) == 2
    assert [pair for pair in study.lost()] == [] and study.loops().loops == () and len(study.microloops(2)) == 0
    assert study.expect("route r1 10.1.5.0/24 inter via r2 cost <= 31").holds
    study.drop_link("0.0.0.1", "r3", "10.1.0.3").refresh()
    failed = study.expect("hops r4 0.0.0.0/0 >= 2")
    assert (failed.expected, failed.holds, failed.found) == ("hops", False, "hops 1")
    with pytest.raises(LineRefused, match="hops 1"):
        study.save()
    study.undo(4)
    assert study.expect("same").holds and study.changes().counts["unchanged"] > 0


def test_each_edit(two_areas):
    study = two_areas.study()
    study.cost("0.0.0.0", "r1", 1, 11).drop_link("0.0.0.0", "r1", "10.0.1.0/24")
    study.fail_link("0.0.0.1", "r2", "r4").fail_net("0.0.0.1", "10.1.0.5").fail_router("r5")
    study.add_stub("0.0.0.0", "r1", "10.9.0.0/16", 5).summary("0.0.0.0", "r3", "10.1.5.0/24", 99)
    study.add_summary("0.0.0.0", "r2", "10.77.0.0/16", 7).add_external("r1", "10.99.0.0/16", 2, 20, tag=5)
    study.drop_external("r1", "0.0.0.0/0").refresh()
    assert study.info().done == len(study.lines) == 11 == len(study.log())
    assert study.undo(11).info().undone == 11
    assert study.redo(2).info().done == 2


def test_lost_gone_and_blackholes(two_areas):
    study = two_areas.study()
    study.fail_link("0.0.0.0", "r1", "r2")
    assert {(pair.router, pair.prefix) for pair in study.lost()} == {
        ("2.2.2.2", "0.0.0.0/0"), ("2.2.2.2", "10.0.1.0/24"), ("2.2.2.2", "10.0.13.0/30")
    }
    assert all(pair.announced for pair in study.lost()) and len(study.gone()) == 0
    assert {found.router for found in study.loops().blackholes} == {"2.2.2.2"}
    assert study.changes().of("lost")[0].now is None


def test_refused_edits_change_nothing(two_areas):
    study = two_areas.study()
    with pytest.raises(LineRefused) as caught:
        study.cost("0.0.0.9", "r1", 1, 1)
    assert (caught.value.code, caught.value.name, caught.value.at) == ("E1", "NoArea", "0.0.0.9")
    assert caught.value.hint == "the database has 0.0.0.0" and study.lines == ()
    with pytest.raises(LineRefused) as caught:
        study.fail_link("0.0.0.0", "r1", "nobody")
    assert caught.value.code == "S6" and study.text() == ""
    with pytest.raises(LineRefused, match="NothingToUndo"):
        study.undo()


def test_explain_and_differences(two_areas):
    why = two_areas.study().explain("r1", "10.1.5.0/24")
    assert why.rule == "16.2 inter-area" and [one.state for one in why.candidates] == ["lost", "used"]
    assert (why.steps[0].router, why.steps[0].to, why.steps[0].sum) == ("1.1.1.1", "3.3.3.3", 10)
    assert [lsa.type for lsa in why.rests] == [1, 1, 3]
    study = two_areas.study().cost("0.0.0.0", "r1", 1, 11)
    assert [difference.what for difference in study.differences()] == ["#1 point-to-point to 2.2.2.2, 10.0.12.1: cost 10 -> 11"]


def test_tables(square):
    assert [table.router for table in square.study().tables()] == ["1.1.1.1", "2.2.2.2", "3.3.3.3", "4.4.4.4"]
    assert square.study().tables()[0].routes == tuple(square.table("1.1.1.1"))


def test_events(two_areas):
    study = two_areas.study().cut("r1", "r2").set_cost("r1", "r3", 15, both=True).set_cost("r5", "10.1.0.5", 12).drain("r4")
    assert study.log() == (
        "cut 1.1.1.1 2.2.2.2", "set-cost 1.1.1.1 3.3.3.3 15 both", "set-cost 5.5.5.5 10.1.0.5 12", "drain 4.4.4.4",
    )
    assert [(link.router, link.to or link.prefix, link.cost) for link in study.links() if link.area == "0.0.0.0"] == [
        ("1.1.1.1", "3.3.3.3", 15), ("1.1.1.1", "10.0.13.0/30", 15), ("1.1.1.1", "10.0.1.0/24", 1),
        ("3.3.3.3", "1.1.1.1", 15), ("3.3.3.3", "10.0.13.0/30", 15),
    ]
    assert [(link.type, link.cost) for link in study.links() if link.router == "4.4.4.4"] == [
        ("point-to-point", 65535), ("stub", 10), ("transit", 65535),
    ]
    assert [link.cost for link in study.links() if link.router == "5.5.5.5"] == [12, 1]
    assert study.undo(4).save() == two_areas.dump
    with pytest.raises(LineRefused, match="1.1.1.1 and 5.5.5.5 are not neighbors; 1.1.1.1 has 2.2.2.2, 3.3.3.3") as refused:
        study.cut("r1", "r5")
    assert (refused.value.code, refused.value.name) == ("E3", "NotNeighbors")
    assert study.cut("r1", "r3", "10.0.13.2").undo(1).save() == two_areas.dump


def test_routers_that_go(two_areas):
    study = two_areas.study().fail("r5")
    assert [(network.prefix, network.address, network.router, network.members) for network in study.networks()] == [
        ("10.1.0.0/24", "10.1.0.4", "4.4.4.4", ("3.3.3.3", "4.4.4.4")),
    ]
    assert [router.router for router in study.routers()] == ["1.1.1.1", "2.2.2.2", "3.3.3.3", "4.4.4.4"]
    assert study.cut("r4", "10.1.0.0/24").log() == ("fail 5.5.5.5", "cut 4.4.4.4 10.1.0.0/24")
    assert len(study.networks()) == 0
    assert [(link.type, link.prefix, link.cost) for link in study.links("r3") if link.area == "0.0.0.1"] == [
        ("stub", "10.1.0.0/24", 10),
    ]
    assert study.undo(2).save() == two_areas.dump


def test_events_that_are_refused(two_areas):
    study = two_areas.study()
    with pytest.raises(LineRefused, match="1.1.1.1 is on no transit network") as refused:
        study.cut("r1", "10.1.0.0/24")
    assert (refused.value.code, refused.value.name, refused.value.at) == ("E3", "NotOnNetwork", "10.1.0.0/24")
    with pytest.raises(LineRefused, match="3.3.3.3 is on 10.1.0.0/24") as refused:
        study.cut("r3", "10.2.0.0/24")
    assert (refused.value.code, refused.value.name, refused.value.at) == ("E3", "NotOnNetwork", "10.2.0.0/24")
    with pytest.raises(LineRefused, match="without host bits 10.1.0.0/24") as refused:
        study.cut("r3", "10.1.0.3/24")
    assert (refused.value.code, refused.value.name) == ("S7", "BadPrefix")
    with pytest.raises(LineRefused) as refused:
        study.fail("9.9.9.9")
    assert (refused.value.code, refused.value.name) == ("E2", "NoRouter")


def test_another_baseline(square):
    left = square.study().fail_link("0.0.0.0", "1.1.1.1", "2.2.2.2").save()
    after = type(square)(left)
    assert len(after.study().changes()) == 0
    assert after.study(baseline=square).changes().counts["dearer"] > 0


def test_sweep(square):
    outages = square.study().sweep()
    assert [outage.line for outage in outages][:4] == [
        "fail-link 0.0.0.0 1.1.1.1 2.2.2.2", "fail-link 0.0.0.0 1.1.1.1 3.3.3.3", "fail-link 0.0.0.0 2.2.2.2 4.4.4.4",
        "fail-link 0.0.0.0 3.3.3.3 4.4.4.4",
    ]
    # 2.2.2.2 is the router without a stub network.
    assert [outage.lost > 0 for outage in outages] == [False] * 4 + [True, False, True, True]
    with pytest.raises(LineRefused):
        square.study().sweep(["expect same"])


def test_dicts(two_areas):
    row = two_areas.study().fail_link("0.0.0.0", "r1", "r2").lost().to_dicts()[0]
    assert row["router"] == "2.2.2.2" and row["was_kind"] == "ext2" and row["announced"] == ["1.1.1.1"]
    assert row["was_ways"][0]["router"] == "1.1.1.1"
    assert two_areas.routers().to_dicts()[0]["areas"] == ["0.0.0.0"]


def test_rows(two_areas):
    routers = two_areas.routers()
    assert routers == two_areas.routers() and len(routers[1:3]) == 2 and routers[-1].router == "5.5.5.5"
    assert hash(routers) == hash(two_areas.routers()) and "Router" in repr(routers)

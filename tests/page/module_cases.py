#!/usr/bin/python3
"""Writes the cases of tests/cases as calls of the module, a JSON text on each line: tests/page/module_cases.py

The runs of tests/generated/capture are calls too, where tests/library has the script that makes calls of them.
Bytes are in base64. `given` is what the module is handed, and `wanted` what it must write, by the case.
"""
import base64
import importlib
import importlib.util
import json
import pathlib
import sys
from collections.abc import Iterable

TESTS = pathlib.Path(__file__).resolve().parent.parent
sys.path.append(str(TESTS / "library"))

from called_cases import FILES, StudyCase, read_case  # noqa: E402


def encoded(values: dict[str, object]) -> dict[str, object]:
    """These values, bytes in base64."""
    return {name: base64.b64encode(value).decode() if isinstance(value, bytes) else value for name, value in values.items()}


def run_of(path: pathlib.Path) -> dict:
    case = read_case(path)
    ended = case.status != 0
    wanted = {
        "status": case.status, "fault": case.error, "replies": case.replies,
        "dump": b"" if ended else case.out, "session": b"" if ended else case.save or b"",
    }
    return {"given": encoded({"dump": case.dump, "script": case.script, "session": case.saves}), "wanted": encoded(wanted)}


def study_of(case: StudyCase) -> dict:
    read = {option: case.files[case.options[option]] for option in FILES if option in case.options}
    given = {
        "dump": read["--dump"], "baseline": read.get("--baseline"), "names": read.get("--names", b""),
        "study": case.files[case.name()] if case.name() in case.files else case.text("stdin"),
        "keepGoing": "--keep-going" in case.options, "verbose": "--verbose" in case.options,
        "json": case.options.get("--format") == "json", "wantsDump": "--out" in case.options,
    }
    wanted = case.wanted()
    names = {"status": "status", "stdout": "replies", "stderr": "errors", "out": "dump"}
    return {"given": encoded(given), "wanted": encoded({names[name]: value for name, value in wanted.items()})}


def captures() -> Iterable[dict]:
    """The runs of captures as calls, if there is a script that makes calls of them."""
    if importlib.util.find_spec("called_captures") is None:
        return
    module = importlib.import_module("called_captures")
    for call in map(module.Call, module.runs_module().RUNS):
        if not call.is_call():
            continue
        files, lists = (
            [(name.decode(), base64.b64encode(data).decode()) for name, data in call.given(names)]
            for names in (call.names, call.lists)
        )
        wanted = call.wanted()
        names = {"status": "status", "stdout": "output", "stderr": "warnings", "out": "dump"}
        yield {
            "name": f"capture: {call.run.name}", "call": "runCapture",
            "given": {"files": files, "lists": lists, "keepFlushed": call.keeps},
            "wanted": encoded({names[name]: value for name, value in wanted.items()}),
        }


def main() -> None:
    for path in sorted((TESTS / "cases").glob("*/*.case")):
        print(json.dumps({"name": f"{path.parent.name}/{path.stem}", "call": "runScript", **run_of(path)}))
    for path in sorted((TESTS / "cases" / "study").glob("*/*.case")):
        case = StudyCase(path)
        if case.is_call():
            print(json.dumps({"name": f"study/{path.parent.name}/{path.stem}", "call": "runStudy", **study_of(case)}))
    for call in captures():
        print(json.dumps(call))


main()

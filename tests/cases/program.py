"""The program that is run where none is named, what it prints about itself, and how checks of it are counted."""
import importlib.machinery
import importlib.util
import pathlib
import subprocess
import sys
import types
from collections.abc import Iterable

ROOT = pathlib.Path(__file__).resolve().parent.parent.parent
LAUNCH = ROOT / "tools" / "launch"


def program_of_clone(name: str) -> str:
    """The path of `ospf-plan`, `ospf-capture` or `ospf-study` that the launcher of this clone runs, built or unpacked first if need be."""
    return subprocess.run([LAUNCH, "--path", name], check=True, stdout=subprocess.PIPE, text=True).stdout.strip()


def program_named(words: list[str], name: str) -> str:
    """The path of the program that the first word names, or else of that of this clone."""
    return str(pathlib.Path(words[0]).resolve()) if words else program_of_clone(name)


def version() -> str:
    """The version that the programs print: the latest of CHANGELOG.md."""
    page = (ROOT / "CHANGELOG.md").read_text()
    return next(line for line in page.splitlines() if line.startswith("## [") and line[4].isdigit())[4:].partition("]")[0]


def shown_for(program: str, option: str) -> str:
    """What the program prints about itself, with status 0 and nothing on standard error; else nothing."""
    ended = subprocess.run([program, option], stdin=subprocess.DEVNULL, capture_output=True, text=True, timeout=120)
    return ended.stdout if (ended.returncode, ended.stderr) == (0, "") else ""


def version_checks(program: str, name: str) -> Iterable[tuple[str, list[str]]]:
    """What `--version` and `-V` print, where they name another version, or another logic than that of the kit here."""
    kit = subprocess.run(["rt", "version"], capture_output=True, text=True, check=True).stdout.strip()
    wanted = f"{name} {version()}, proved in the Rattle {kit[kit.index('logic'):]}\n"
    for option in ("--version", "-V"):
        shown = shown_for(program, option)
        yield option, [] if shown == wanted else [repr(shown)]


def counted(title: str, checks: Iterable[tuple[str, list[str]]]) -> int:
    """Prints what differs in each check, by its name, and as the last line the counts; the answer is the exit status."""
    passed = failed = 0
    for name, found in checks:
        if found:
            failed += 1
            print(f"{name}: {', '.join(found)} differ")
        else:
            passed += 1
    print(f"{title}: {passed} passed, {failed} failed")
    return 1 if failed or not passed else 0


def script_module(path: pathlib.Path) -> types.ModuleType:
    """A script, whose name has no ending, as a module of its name."""
    loader = importlib.machinery.SourceFileLoader(path.name, str(path))
    module = importlib.util.module_from_spec(importlib.util.spec_from_loader(path.name, loader))
    sys.modules[path.name] = module
    loader.exec_module(module)
    return module

"""The package as pip installs it from its folder, without the network."""
import os
import pathlib
import shutil
import subprocess
import sys
import venv

from conftest import ROOT
from ospf_plan import library


def test_pip_installs_it(tmp_path):
    source = tmp_path / "python"
    shutil.copytree(ROOT / "python", source, ignore=shutil.ignore_patterns("__pycache__", "*.so"))
    shutil.copy(library.path_of_library(), source / "ospf_plan" / "libospf_plan.so")
    venv.create(tmp_path / "env", with_pip=True)
    python = tmp_path / "env" / "bin" / "python"
    subprocess.run([python, "-m", "pip", "install", "--quiet", "--no-index", source], check=True)
    shutil.rmtree(source)
    script = ROOT / "examples" / "library" / "outages.py"
    named = {name: value for name, value in os.environ.items() if name != "OSPF_PLAN_LIBRARY"}
    ended = subprocess.run(
        [python, script, ROOT / "examples" / "square.oswp"], check=True, capture_output=True, text=True, env=named, cwd=tmp_path
    )
    assert ended.stdout.splitlines()[0].split() == ["lost", "dearer", "line"]
    assert "fail-link 0.0.0.0 1.1.1.1 2.2.2.2" in ended.stdout
    assert pathlib.Path(sys.executable).exists()

"""The example of README.md, as it stands there, and the version, which is that of CHANGELOG.md."""
import contextlib
import io
import re
import tomllib

from conftest import ROOT


def test_the_example_of_the_readme(monkeypatch):
    example = re.search(r"(?ms)^```python\n(.*?)^```$", (ROOT / "README.md").read_text())[1]
    monkeypatch.chdir(ROOT)
    printed = io.StringIO()
    with contextlib.redirect_stdout(printed):
        exec(compile(example, "README.md", "exec"), {})
    assert "'prefix': '0.0.0.0/0'" in printed.getvalue()
    assert "('1.1.1.1', '3.3.3.3', '5.5.5.5')" in printed.getvalue()


def test_the_version_is_that_of_the_changelog():
    version = re.search(r"(?m)^## \[([0-9.]+)\]", (ROOT / "CHANGELOG.md").read_text())[1]
    assert tomllib.loads((ROOT / "python" / "pyproject.toml").read_text())["project"]["version"] == version

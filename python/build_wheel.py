"""The build backend of this package (PEP 517): a wheel of the Python files and of the shared library.

The library is `ospf_plan/libospf_plan.so` where it lies there already, as tests put it, and else the one that the folder
`release/` beside this one ships. It needs nothing but Python's standard library.
"""
import base64
import gzip
import hashlib
import pathlib
import tomllib
import zipfile

HERE = pathlib.Path(__file__).resolve().parent
TAG = "py3-none-linux_x86_64"
LIBRARY = "ospf_plan/libospf_plan.so"


def library() -> bytes:
    """The bytes of the shared library."""
    built = HERE / LIBRARY
    if built.is_file():
        return built.read_bytes()
    shipped = HERE.parent / "release" / "libospf_plan.so.gz"
    if shipped.is_file():
        return checked(gzip.decompress(shipped.read_bytes()), shipped.parent / "SHA256SUMS")
    raise FileNotFoundError(f"neither {built} nor {shipped} is there: tools/library builds the library")


def checked(content: bytes, sums: pathlib.Path) -> bytes:
    """These bytes of the library, if SHA256SUMS has their sum."""
    line = f"{hashlib.sha256(content).hexdigest()}  libospf_plan.so"
    if line not in sums.read_text().splitlines():
        raise ValueError(f"{sums} has another SHA-256 of libospf_plan.so")
    return content


def metadata(project: dict) -> str:
    """The text of METADATA."""
    lines = [
        "Metadata-Version: 2.1", f"Name: {project['name']}", f"Version: {project['version']}",
        f"Summary: {project['description']}", f"Requires-Python: {project['requires-python']}",
    ]
    for extra, packages in project["optional-dependencies"].items():
        lines.append(f"Provides-Extra: {extra}")
        lines += [f"Requires-Dist: {package}; extra == '{extra}'" for package in packages]
    return "\n".join(lines) + "\n"


def build_wheel(wheel_directory, config_settings=None, metadata_directory=None) -> str:
    """Writes the wheel to a folder, and returns its name."""
    project = tomllib.loads((HERE / "pyproject.toml").read_text())["project"]
    stem = f"{project['name'].replace('-', '_')}-{project['version']}"
    info = f"{stem}.dist-info"
    files = {f"ospf_plan/{path.name}": path.read_bytes() for path in sorted((HERE / "ospf_plan").glob("*.py"))}
    files["ospf_plan/py.typed"] = b""
    files[LIBRARY] = library()
    files[f"{info}/METADATA"] = metadata(project).encode()
    files[f"{info}/WHEEL"] = f"Wheel-Version: 1.0\nGenerator: build_wheel\nRoot-Is-Purelib: false\nTag: {TAG}\n".encode()
    record = []
    name = f"{stem}-{TAG}.whl"
    with zipfile.ZipFile(pathlib.Path(wheel_directory) / name, "w", zipfile.ZIP_DEFLATED) as wheel:
        for path, content in files.items():
            digest = base64.urlsafe_b64encode(hashlib.sha256(content).digest()).decode().rstrip("=")
            record.append(f"{path},sha256={digest},{len(content)}")
            wheel.writestr(zipfile.ZipInfo(path, (2026, 1, 1, 0, 0, 0)), content)
        record.append(f"{info}/RECORD,,")
        wheel.writestr(zipfile.ZipInfo(f"{info}/RECORD", (2026, 1, 1, 0, 0, 0)), "\n".join(record) + "\n")
    return name

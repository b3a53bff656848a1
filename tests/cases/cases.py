"""Case files: one run of ospf-plan each, in a form that a person can read.

The parts of a file stand each after a line `== NAME`: the script, the exact replies on standard output and the exact line on
standard error, each line of them after `|`; the exit status; in hexadecimal the dump, the dump `out` that must be written
and, where the run saves one, the session `save`. In texts, bytes other than printable ASCII are written `\\xNN`, and a last
line without a line feed ends with a backslash. In `out` and `save`, `the dump` stands for the loaded one, and `none` means
that no file may be written.
"""
import dataclasses
import pathlib
import subprocess

SECTIONS = ("script", "replies", "status", "error", "dump", "out", "save")

# How many seconds a run may take.
MOST_SECONDS = 120


def escaped(text: bytes) -> list[str]:
    """The lines of a text; bytes other than printable ASCII are escaped, and a last line without its end
    closes with a single backslash."""
    lines = []
    for line in split_at_lf(text):
        whole = line.endswith(b"\n")
        body = line[:-1] if whole else line
        shown = "".join(
            chr(byte) if 32 <= byte < 127 and byte != 92 else f"\\x{byte:02x}" for byte in body
        )
        lines.append("|" + shown + ("" if whole else "\\"))
    return lines


def split_at_lf(text: bytes) -> list[bytes]:
    parts = text.split(b"\n")
    return [part + b"\n" for part in parts[:-1]] + ([parts[-1]] if parts[-1] else [])


def unescaped(lines: list[str]) -> bytes:
    text = bytearray()
    for line in lines:
        body, end = line[1:], b"\n"
        if body.endswith("\\"):
            body, end = body[:-1], b""
        pieces = body.split("\\x")
        text += pieces[0].encode("ascii")
        for piece in pieces[1:]:
            text += bytes([int(piece[:2], 16)]) + piece[2:].encode("ascii")
        text += end
    return bytes(text)


def hexadecimal(data: bytes) -> list[str]:
    return [data[at : at + 32].hex(" ", 4) for at in range(0, len(data), 32)]


@dataclasses.dataclass
class Case:
    dump: bytes
    script: bytes
    replies: bytes
    status: int
    error: bytes
    out: bytes | None
    # Whether the run has to save its session, and what must be saved.
    saves: bool = False
    save: bytes | None = None

    def written(self, data: bytes | None) -> list[str]:
        """The lines of a file that must be written."""
        return ["none"] if data is None else ["the dump"] if data == self.dump else hexadecimal(data)

    def to_text(self) -> str:
        parts = {
            "script": escaped(self.script),
            "replies": escaped(self.replies),
            "status": [str(self.status)],
            "error": escaped(self.error),
            "dump": hexadecimal(self.dump),
            "out": self.written(self.out),
        }
        if self.saves:
            parts["save"] = self.written(self.save)
        shown = [name for name in SECTIONS if name in parts]
        return "".join(f"== {name}\n" + "".join(line + "\n" for line in parts[name]) for name in shown)


def read_written(lines: list[str], dump: bytes) -> bytes | None:
    """The file that must be written; `None` where there may be none."""
    return None if lines == ["none"] else dump if lines == ["the dump"] else bytes.fromhex("".join(lines))


def read_case(path: pathlib.Path) -> Case:
    parts: dict[str, list[str]] = {}
    for line in path.read_text(encoding="ascii").split("\n"):
        if line.startswith("== "):
            lines = parts.setdefault(line[3:], [])
        elif line:
            lines.append(line)
    dump = bytes.fromhex("".join(parts["dump"]))
    return Case(
        dump=dump,
        script=unescaped(parts["script"]),
        replies=unescaped(parts["replies"]),
        status=int(parts["status"][0]),
        error=unescaped(parts["error"]),
        out=read_written(parts["out"], dump),
        saves="save" in parts,
        save=read_written(parts.get("save", ["none"]), dump),
    )


def differences(case: Case, program: str, folder: pathlib.Path, seconds: int = MOST_SECONDS) -> list[str]:
    """What a run of the program prints, ends with and writes otherwise than the case has it."""
    dump, script, out, save = (folder / name for name in ("dump.oswp", "script.txt", "out.oswp", "save.oswp"))
    dump.write_bytes(case.dump)
    script.write_bytes(case.script)
    out.unlink(missing_ok=True)
    save.unlink(missing_ok=True)
    words = [program, "--dump", str(dump), "--script", str(script), "--out", str(out)]
    if case.saves:
        words += ["--save", str(save)]
    try:
        ended = subprocess.run(words, stdin=subprocess.DEVNULL, capture_output=True, timeout=seconds)
    except subprocess.TimeoutExpired:
        return [f"the time, which is more than {seconds} s,"]
    found = []
    if ended.stdout != case.replies:
        found.append("replies")
    if ended.returncode != case.status:
        found.append(f"status {ended.returncode} for {case.status}")
    if ended.stderr != case.error:
        found.append("standard error")
    if (out.read_bytes() if out.exists() else None) != case.out:
        found.append("the dump written")
    if (save.read_bytes() if save.exists() else None) != case.save:
        found.append("the session saved")
    return found

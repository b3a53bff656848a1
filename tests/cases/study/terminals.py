"""Runs a program whose standard input is a terminal, as somebody types there."""
import dataclasses
import os
import pty
import select
import subprocess
import time

PROMPT = b"ospf-study> "


@dataclasses.dataclass
class Ended:
    """What a run left, as subprocess has it."""

    stdout: bytes
    stderr: bytes
    returncode: int


def read_to_prompt(stream: int, until: float) -> bytes:
    """What a stream has up to the next prompt, or up to its end."""
    got = b""
    while not got.endswith(PROMPT):
        ready, _, _ = select.select([stream], [], [], max(0.0, until - time.monotonic()))
        if not ready:
            raise TimeoutError(f"no prompt after {got!r}")
        more = os.read(stream, 65536)
        if not more:
            break
        got += more
    return got


def type_lines(typed: int, shown: int, lines: bytes, until: float) -> bytes:
    """Types each line once the prompt for it is there, and Ctrl-D for the end; returns what was shown meanwhile."""
    got = read_to_prompt(shown, until)
    for line in lines.splitlines(keepends=True):
        if not got.endswith(PROMPT):
            return got
        # After a line that is begun, Ctrl-D hands it over, and the next one is the end.
        os.write(typed, line if line.endswith(b"\n") else line + b"\x04")
        got += read_to_prompt(shown, until) if line.endswith(b"\n") else b""
    os.write(typed, b"\x04")
    return got


def run_at_terminal(arguments: list[str], folder: str, lines: bytes, seconds: int) -> Ended:
    """Runs a program at a terminal where these lines are typed, one after another, and then the end of the input."""
    typed, terminal = pty.openpty()
    until = time.monotonic() + seconds
    with subprocess.Popen(arguments, cwd=folder, stdin=terminal, stdout=subprocess.PIPE, stderr=subprocess.PIPE) as program:
        os.close(terminal)
        try:
            stdout = type_lines(typed, program.stdout.fileno(), lines, until)
            rest, stderr = program.communicate(timeout=max(1.0, until - time.monotonic()))
        except (TimeoutError, subprocess.TimeoutExpired):
            program.kill()
            raise
        finally:
            os.close(typed)
    return Ended(stdout + rest, stderr, program.returncode)

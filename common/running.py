"""Running commands, and what they cost."""
import os
import signal
import subprocess
import tempfile
import time
from collections.abc import Iterator, Sequence
from contextlib import contextmanager
from dataclasses import dataclass
from pathlib import Path
from typing import Any, NoReturn

OCTETS_OF_MIB = 1 << 20


def call(words: Sequence[str | Path], text: str = "", **more: Any) -> subprocess.CompletedProcess[str]:
    """Runs a command with this text as its input. Returns its output and its standard error as texts."""
    return subprocess.run(words, input=text, capture_output=True, text=True, check=False, **more)


def ending(ran: subprocess.CompletedProcess[str]) -> tuple[str, str, int]:
    """Returns a run's output, the first line of its standard error, and its status. The other lines only explain the first."""
    return ran.stdout, "".join(ran.stderr.splitlines(keepends=True)[:1]), ran.returncode


@dataclass(frozen=True)
class Cost:
    """What a run took. The memory is its peak in octets, and at least what the process that started it takes: keep that small."""

    status: int
    seconds: float
    processor_seconds: float
    memory: int
    said: bytes

    @property
    def mebibytes(self) -> float:
        return self.memory / OCTETS_OF_MIB

    def first_words(self) -> str:
        """Returns the beginning of the message on standard error."""
        return self.said.decode(errors="replace").split("\n")[0][:60]


def measured(words: Sequence[str | Path], **streams: Any) -> Cost:
    """Runs a command and measures it. If its standard error is a pipe, the cost has what was written there."""
    began = time.monotonic()
    child = subprocess.Popen(words, **streams)
    said = child.stderr.read() if child.stderr else b""
    _, status, used = os.wait4(child.pid, 0)
    child.returncode = os.waitstatus_to_exitcode(status)
    return Cost(child.returncode, time.monotonic() - began, used.ru_utime + used.ru_stime, used.ru_maxrss * 1024, said)


def write(path: str | Path, text: str, runs: bool = False) -> None:
    """Writes a file, and makes it a program if it runs."""
    path = Path(path)
    path.parent.mkdir(parents=True, exist_ok=True)
    path.write_text(text, encoding="utf-8")
    path.chmod(0o755 if runs else 0o644)


def end_by(number: int, _: object) -> NoReturn:
    raise SystemExit(128 + number)


@contextmanager
def temporary_folder() -> Iterator[str]:
    """Makes a folder that is removed in the end, also if SIGTERM ends the script, as ./test does with its parts. Only for scripts that do all work
    in the main thread: the others would first end what their threads do."""
    before = signal.signal(signal.SIGTERM, end_by)
    try:
        with tempfile.TemporaryDirectory(prefix="cqf-") as folder:
            yield folder
    finally:
        signal.signal(signal.SIGTERM, before)

"""The stored runs of runs/: the head of tests/runs.py says what files a run has."""
from collections.abc import Iterator
from pathlib import Path

from common import TOP

FOLDER = TOP / "runs"


def stored_runs(names: list[str]) -> Iterator[Path]:
    """Yields the folders of the runs with these names, or of all runs if none is named."""
    yield from (it for it in sorted(FOLDER.iterdir()) if not names or it.name in names)


def read(file: Path) -> bytes:
    """Returns the bytes of a file, none if it is missing."""
    return file.read_bytes() if file.exists() else b""


def lines_of(file: Path) -> bytes:
    """Returns the bytes of a file, with each line '@COUNT STEP TEXT' expanded."""
    lines = []
    for line in read(file).splitlines(keepends=True):
        if line.startswith(b"@"):
            count, step, text = line[1:].split(b" ", 2)
            lines += [text.replace(b"#", b"%d" % (int(step) * k)) for k in range(int(count))]
        else:
            lines.append(line)
    return b"".join(lines)


def words_of(file: Path) -> list[str]:
    """Returns the arguments in a file, one a line."""
    words = file.read_text().split("\n")
    return words[:-1] if words[-1] == "" else words

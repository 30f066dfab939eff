#!/usr/bin/env python3
"""Tests ./cqf, ./prove, ./install, ./test, .ci/run, the completions and ./draw.

    tests/scripts.py PROGRAM

PROGRAM is the program that ./draw runs.

- Builds, installations and tests: each trial has a small repository of its own. Stand-ins replace the toolchain and the build and record each
  call, so nothing is built or proved. The trials check when a program is rebuilt, where it is kept, and what interrupted builds leave.
- Completions: bash completes some lines.
- ./draw: the trials give it bad arguments, streams and programs, and check its messages and its status.

It prints each failure, and a last line `scripts: N passed, M failed`. The exit status is 1 if any trial failed.
"""
import ctypes
import os
import resource
import shutil
import signal
import subprocess
import sys
import tempfile
import time
from collections.abc import Callable, Iterator
from contextlib import suppress
from functools import partial
from pathlib import Path

sys.path.insert(0, str(Path(__file__).resolve().parent.parent))
from common import TOP
from common.counting import Counts, Trial, try_all
from common.running import call, write
from common.words import Reader

SECONDS = 20
LIBC = ctypes.CDLL(None)
# constants of prctl and of capabilities, with their Linux names
PR_CAPBSET_DROP, CAP_DAC_OVERRIDE = 24, 1
STUDIO = [f"examples/studio{it}" for it in ("-plan.toml", "-calls.txt", "-offers.csv", "-background.csv")]
DRAWN = ["--cycles", "5", *STUDIO]
# pairs of a trial's name and the trial, which is given a repository
Trials = Iterator[tuple[str, Callable[..., None]]]

# The stand-ins for `rt` and build/quick.py begin with this. It records the call, and works as long as the file `slow` exists.
BEGINS = """#!/bin/bash
echo "$BASHPID" >>"$NOTES/calls"
cat >/dev/null
touch "$TMPDIR/left-over"
while [ -e "$NOTES/slow" ]; do sleep 0.05; done
[ ! -e "$NOTES/broken" ] || { echo "2 passed, 1 failed"; exit 1; }
"""
RT = BEGINS + """
echo 'rt: cqf proved'
echo '3 passed, 0 failed'
mkdir -p crates/cqf/out
printf '#!/bin/sh\\necho proved "$@"; cat; exit 7\\n' >crates/cqf/out/cqf
chmod +x crates/cqf/out/cqf
"""
QUICK = BEGINS + """
printf '#!/bin/sh\\necho quick "$@"; cat; exit 7\\n' >"$1"
chmod +x "$1"
"""
# the stand-in for a script of tests/
PART = """#!/bin/sh
name=$(basename "$0" .py)
note="$NOTES/$name"
echo "$name: $(cat "$note" 2>/dev/null || echo '2 passed, 0 failed')"
! grep -q '^not run' "$note" 2>/dev/null || exit 77
[ ! -e "$note" ]
"""
# the stand-in for `apt-get`: it records its arguments, and fails if the file `no-packages` exists
APT_GET = """#!/bin/sh
echo "$@" >>"$NOTES/apt-get"
[ ! -e "$NOTES/no-packages" ]
"""
CRATES = """# a program, its library, and a crate that it doesn't use
low: arrayvec
cqf: low
other: low
"""
SOURCES = ["cqf/src/main.rt", "low/src/lib.rt", "low/src/part.rt", "low/proofs/Lib.antt", "other/src/lib.rt", "low/must-fail/edit/lib.rt"]
# the files that ./install writes below a prefix, with their modes
INSTALLED = {
    "bin/cqf": 0o755,
    "share/man/man1/cqf.1": 0o644,
    "share/man/man5/cqf-formats.5": 0o644,
    "share/man/man7/cqf-diagnostics.7": 0o644,
    "share/bash-completion/completions/cqf": 0o644,
    "share/zsh/site-functions/_cqf": 0o644,
    "share/fish/vendor_completions.d/cqf.fish": 0o644,
}
PAGES = ["docs/cqf.1", "docs/cqf-formats.5", "docs/cqf-diagnostics.7", "completions/cqf.bash", "completions/_cqf", "completions/cqf.fish"]
# The stand-ins for `mv` and `cp` act like these commands, but one fails and the other waits at a file that is installed late.
FAILING_MV = """#!/bin/sh
case "$*" in */man7/*.before*) ;; */man7/*) echo 'mv: no' >&2; exit 1 ;; esac
exec "$MV" "$@"
"""
SLOW_CP = """#!/bin/sh
case "$*" in */man7/*) echo "$$" >>"$NOTES/calls"; while [ -e "$NOTES/slow" ]; do sleep 0.05; done ;; esac
exec "$CP" "$@"
"""
# Completes each input line, whose last word may be empty. Writes '[files]' if the completion offers files.
COMPLETES = """
source completions/cqf.bash
compopt() { COMPREPLY=('[files]'); }
while IFS= read -r line; do
    IFS=' ' read -ra COMP_WORDS <<<"$line"
    [[ $line != *' ' ]] || COMP_WORDS+=('')
    COMP_CWORD=$((${#COMP_WORDS[@]} - 1))
    _cqf "${COMP_WORDS[0]}" "${COMP_WORDS[COMP_CWORD]}" "${COMP_WORDS[COMP_CWORD - 1]}"
    echo "${COMPREPLY[*]}"
done
"""
ALL_COMMANDS = "plan load latency compile diff offers check run summary report hops deliveries port line"
COMPLETED = {
    "cqf ": f"{ALL_COMMANDS} help --help --version",
    "cqf de": "deliveries",
    "cqf help l": "load latency line",
    "cqf help run ": "",
    "cqf compile -": "--format --bridge --software --edge-gates --large --help",
    "cqf compile --format tc --": "--bridge --software --edge-gates --large --help",
    "cqf plan --without a --best --": "--table --cycle --tries --without --verbose --large --help",
    "cqf plan --without ": "",
    "cqf diff -": "-q --quiet --large --help",
    "cqf diff -q ": "[files]",
    "cqf compile --format ": "list tc env json",
    "cqf compile --format =": "list tc env json",
    "cqf compile --format = t": "tc",
    "cqf port --rate 25": "2500 25000",
    "cqf run --cycles ": "",
    "cqf run --cycles 5 ": "[files]",
    "cqf load -- -": "[files]",
    "cqf other -": "",
}
# the scripts of tests/ that ./test runs
PARTS = ("runs", "cookbook", "documents", "draws", "scripts", "tc", "refused", "tc-kernel")
# all commands that the scripts and the stand-ins may use; `flock` is left out
COMMANDS = "awk basename bash cat chmod cp date dirname env find grep mkdir mktemp mv nproc python3 readlink rm rmdir sed sh sha256sum sleep sort tail tee"
COMMANDS += " timeout touch wc xargs"


def hear_signals() -> None:
    """Restores the default action of signals, which a shell ignores in its background processes."""
    for it in (signal.SIGINT, signal.SIGHUP, signal.SIGTERM):
        signal.signal(it, signal.SIG_DFL)


def obey_modes() -> None:
    """Makes root, and each process that it starts, obey the modes of folders."""
    hear_signals()
    if os.geteuid() == 0 and LIBC.prctl(PR_CAPBSET_DROP, CAP_DAC_OVERRIDE, 0, 0, 0) != 0:
        raise OSError("root can't be kept from writing")


class Repository:
    """A small repository with the present scripts, and stand-ins for all that takes long."""

    def __init__(self, room: Path) -> None:
        self.room, self.top, self.notes = room, room / "re po", room / "notes"
        for folder in ("tools", "tmp", "home", "notes"):
            (room / folder).mkdir()
        for name in ("cqf", "prove", "test", "install", "build/programs.sh", ".ci/run", *PAGES):
            (self.top / name).parent.mkdir(parents=True, exist_ok=True)
            shutil.copy(TOP / name, self.top / name)
        write(self.top / "build/quick.py", QUICK, True)
        write(self.top / "HANDLES", "Handles allowed: none.\n")
        write(self.top / "crates.txt", CRATES)
        for source in SOURCES:
            write(self.top / "crates" / source, f"// {source}\n")
        for name in PARTS:
            write(self.top / f"tests/{name}.py", PART, True)
        for name in COMMANDS.split():
            (room / "tools" / name).symlink_to(os.path.realpath(sys.executable) if name == "python3" else shutil.which(name) or name)
        write(room / "tools/rt", RT, True)
        write(room / "tools/apt-get", APT_GET, True)
        self.given = {"PATH": str(room / "tools"), "HOME": str(room / "home"), "TMPDIR": str(room / "tmp"), "NOTES": str(self.notes)}

    def start(self, *words: str) -> subprocess.Popen[str]:
        """Starts a script in a session of its own, as a terminal would."""
        streams = {"stdin": subprocess.PIPE, "stdout": subprocess.PIPE, "stderr": subprocess.PIPE, "text": True}
        how = {"env": self.given, "cwd": "/", "start_new_session": True, "preexec_fn": obey_modes}
        return subprocess.Popen([self.top / words[0], *words[1:]], **how, **streams)

    def run(self, *words: str, text: str = "") -> tuple[int, str, str]:
        """Runs a script; returns its status, its output and its standard error."""
        started = self.start(*words)
        said = started.communicate(text, timeout=SECONDS)
        return started.returncode, *said

    def calls(self) -> int:
        """Returns how often the toolchain or the build was called."""
        return len((self.notes / "calls").read_text().splitlines()) if (self.notes / "calls").exists() else 0

    def builds(self) -> int:
        """Calls ./cqf, and returns how many builds that call made."""
        before = self.calls()
        status, said, errors = self.run("cqf", "a word", text="in")
        assert (status, said) in ((7, "quick a word\nin"), (7, "proved a word\nin")), f"./cqf: {status}, {said!r}, {errors!r}"
        return self.calls() - before

    def wait_for_call(self, count: int) -> None:
        wait_for(lambda: self.calls() == count, "no build is begun")

    def left(self) -> list[str]:
        """Returns the files that builds left: temporary files, and files of built/ other than programs, stamps and locks."""
        kept = ("quick", "quick.sources", "quick.lock", "proved", "proved.sources", "proved.lock", "stamp")
        return [it.name for it in [*(self.room / "tmp").glob("*"), *(self.top / "built").glob("*")] if it.name not in kept]

    def under_way(self) -> list[int]:
        """Returns the stand-ins' processes that still run."""
        calls = self.notes / "calls"
        return [it for it in map(int, calls.read_text().split() if calls.exists() else []) if is_there(it)]

    def clear(self) -> None:
        """Removes the repository, and ends the processes that a failed trial left."""
        for it in self.under_way():
            os.kill(it, signal.SIGKILL)
        for path in [self.room, *self.room.rglob("*")]:
            if path.is_dir() and not path.is_symlink():
                path.chmod(0o755)
        shutil.rmtree(self.room, ignore_errors=True)


def is_there(process: int) -> bool:
    """Returns whether a process exists and isn't a zombie."""
    with suppress(OSError):
        return Path(f"/proc/{process}/stat").read_text().rpartition(")")[2].split()[0] != "Z"
    return False


def wait_for(holds: Callable[[], bool], fault: str) -> None:
    end = time.monotonic() + SECONDS
    while not holds():
        assert time.monotonic() < end, fault
        time.sleep(0.02)


def same(found: object, wanted: object, what: str) -> None:
    assert found == wanted, f"{what}: {found!r}, wanted {wanted!r}"


# Rebuilds of a program


def builds_once(it: Repository) -> None:
    status, said, errors = it.run("cqf", "a", "b c", text="in\n")
    same((status, said), (7, "quick a b c\nin\n"), "the first call")
    assert errors.startswith("cqf: building the program unproved") and errors.count("\n") == 1, errors
    same(it.run("cqf", text="x"), (7, "quick\nx", ""), "the second call")
    same(it.calls(), 1, "builds")
    same(it.left(), [], "left")


def change(it: Repository, name: str, how: Callable[[Path], object], wanted: int) -> None:
    """Checks that the call after a change makes this number of builds, and the next call none."""
    it.builds()
    how(it.top / name)
    same(it.builds(), wanted, "builds after the change")
    same(it.builds(), 0, "builds after that")


def write_older(path: Path) -> None:
    """Replaces a file by one of the same size that is older than all others."""
    text = path.read_text()
    path.unlink()
    path.write_text(text.upper())
    os.utime(path, (1, 1))


def write_same_time(path: Path) -> None:
    """Writes another text of the same size, and restores the file's modification time."""
    at = path.stat().st_mtime_ns
    path.write_text(path.read_text().upper())
    os.utime(path, ns=(at, at))


def add_older(path: Path) -> None:
    write(path, "// added\n")
    os.utime(path, (1, 1))


def replace(before: str, now: str) -> Callable[[Path], object]:
    return lambda path: path.write_text(path.read_text().replace(before, now))


def rename(path: Path) -> None:
    path.rename(path.with_name("renamed.rt"))


CHANGES = [
    ("a source replaced by an older one", "crates/low/src/lib.rt", write_older, 1),
    ("a source that has its time from before", "crates/low/src/lib.rt", write_same_time, 1),
    ("an older source added", "crates/low/src/more.rt", add_older, 1),
    ("an older proof added", "crates/low/proofs/More.antt", add_older, 1),
    ("a source removed", "crates/low/src/part.rt", Path.unlink, 1),
    ("a source renamed", "crates/low/src/part.rt", rename, 1),
    ("other handles", "HANDLES", replace("none", "Threads"), 1),
    ("the program's line of crates.txt", "crates.txt", replace("cqf: low", "cqf: low arrayvec"), 1),
    ("another crate's line of crates.txt", "crates.txt", replace("other: low", "other: low arrayvec"), 0),
    ("another crate's source", "crates/other/src/lib.rt", write_older, 0),
    ("an edit that must fail", "crates/low/must-fail/edit/lib.rt", write_older, 0),
    ("what the toolchain leaves", "crates/low/out/left.rt", add_older, 0),
    ("a source written again as it was", "crates/low/src/lib.rt", lambda path: path.write_text(path.read_text()), 0),
]


def changes_under_way(it: Repository) -> None:
    """Checks that the next call builds again if a source changes during a build."""
    (it.notes / "slow").touch()
    started = it.start("cqf")
    it.wait_for_call(1)
    source = it.top / "crates/low/src/lib.rt"
    source.write_text("// changed\n")
    (it.notes / "slow").unlink()
    started.communicate(timeout=SECONDS)
    same(it.builds(), 1, "builds of what changed")
    same(it.builds(), 0, "builds after that")


def fails_to_build(it: Repository) -> None:
    (it.notes / "broken").touch()
    status, said, errors = it.run("cqf")
    same((status, said, errors.splitlines()[-1]), (2, "", "cqf: the build failed"), "a build that fails")
    same(it.left(), [], "left")
    (it.notes / "broken").unlink()
    same(it.builds(), 1, "builds after that")


def lacks_toolchain(it: Repository) -> None:
    (it.room / "tools/rt").unlink()
    status, _, errors = it.run("cqf")
    assert status == 2 and "'rt' is not on the PATH" in errors and errors.count("\n") == 1, f"{status}, {errors!r}"
    assert it.run("test", "--all")[0] == 2, "the gate goes on"


# Proved programs


def proves(it: Repository) -> None:
    status, said, errors = it.run("prove")
    same((status, said), (0, ""), f"./prove, {errors}")
    assert "cqf: proving the 2 crates" in errors and "cqf: proved cqf, crate 1 of 2" in errors, errors
    same(it.left(), [], "left")
    same(it.run("cqf", "a", text="x"), (7, "proved a\nx", ""), "./cqf after it")
    same(it.run("prove"), (0, "", "cqf: the proved program is built\n"), "./prove once more")
    write_older(it.top / "crates/low/src/lib.rt")
    same(it.run("cqf", "a", text="x")[:2], (7, "quick a\nx"), "./cqf after a change")
    same(it.run("prove")[0], 0, "./prove after a change")
    same(it.run("cqf", "a", text="x"), (7, "proved a\nx", ""), "./cqf after that")


def fails_to_prove(it: Repository) -> None:
    (it.notes / "broken").touch()
    status, said, errors = it.run("prove")
    same((status, said, errors.splitlines()[-1]), (2, "", "cqf: the program isn't proved"), "a proof that fails")
    same(it.left(), [], "left")


# Installations


def tree(folder: Path) -> dict[str, str | None]:
    """Returns all that is below a folder: each file with its text, and each folder with None."""
    return {str(path.relative_to(folder)): path.read_text() if path.is_file() else None for path in folder.rglob("*")}


def installs(it: Repository) -> None:
    """Checks that ./install installs the proved program and all other files, also over an earlier version and below DESTDIR."""
    it.run("prove")
    for destination, written in ((None, it.room / "pre fix"), (it.room / "image", it.room / "image/usr")):
        it.given |= {"DESTDIR": str(destination)} if destination else {}
        write(written / "share/man/man1/cqf.1", "earlier\n")
        status, said, errors = it.run("install", "/usr/" if destination else str(written))
        same((status, said, errors), (0, f"install: the proved program, its manual and its completions are in {written}\n", ""), "./install")
        found = {str(path.relative_to(written)): path.stat().st_mode & 0o777 for path in written.rglob("*") if path.is_file()}
        same(found, INSTALLED, "files")
        for name, place in zip(PAGES, [place for place in INSTALLED if place != "bin/cqf"]):
            same((written / place).read_text(), (TOP / name).read_text(), place)
        same(call([written / "bin/cqf", "a"], "x").stdout, "proved a\nx", "the program")


def installs_unproved(it: Repository) -> None:
    """Checks that ./install takes an unproved program only with --unproved, and builds none."""
    prefix = it.room / "prefix"
    for words, wanted in (([], "call ./prove, or take the unproved one by --unproved"), (["--unproved"], "call ./cqf --version")):
        status, said, errors = it.run("install", *words, str(prefix))
        assert (status, said) == (2, "") and errors.endswith(f"{wanted}\n") and errors.count("\n") == 1, f"{words}: {status}, {errors!r}"
    same((it.calls(), prefix.exists()), (0, False), "builds, and a prefix")
    it.builds()
    same(it.run("install", str(prefix))[0], 2, "without the word")
    same(it.run("install", "--unproved", str(prefix))[0], 0, "with it")


def installs_nothing(it: Repository, hinder: Callable[[Repository, Path], object]) -> None:
    """Checks that ./install changes nothing if it can't write one of the files."""
    it.builds()
    prefix = it.room / "prefix"
    write(prefix / "bin/cqf", "earlier\n", True)
    hinder(it, prefix)
    before = tree(prefix)
    status, said, errors = it.run("install", "--unproved", str(prefix))
    assert (status, said) == (1, "") and errors.endswith("nothing is installed\n"), f"{status}, {said!r}, {errors!r}"
    same(tree(prefix), before, "below the prefix")


def fail_moves(it: Repository, prefix: Path) -> None:
    it.given["MV"] = str((it.room / "tools/mv").resolve())
    (it.room / "tools/mv").unlink()
    write(it.room / "tools/mv", FAILING_MV, True)


HINDERED: list[tuple[str, Callable[[Repository, Path], object]]] = [
    ("a folder in place of a file", lambda it, prefix: (prefix / "share/fish/vendor_completions.d/cqf.fish").mkdir(parents=True)),
    ("a file in place of a folder", lambda it, prefix: write(prefix / "share", "")),
    ("a folder that can't be written", lambda it, prefix: (prefix / "bin").chmod(0o555)),
    ("a page that is missing", lambda it, prefix: (it.top / "docs/cqf-diagnostics.7").unlink()),
    ("a file that can't be given its place", fail_moves),
]


def ends_install(it: Repository) -> None:
    """Checks that an installation that gets SIGTERM changes nothing."""
    it.builds()
    it.given["CP"] = str((it.room / "tools/cp").resolve())
    (it.room / "tools/cp").unlink()
    write(it.room / "tools/cp", SLOW_CP, True)
    (it.notes / "slow").touch()
    prefix = it.room / "prefix"
    prefix.mkdir()
    started = it.start("install", "--unproved", str(prefix))
    it.wait_for_call(2)
    started.terminate()
    (it.notes / "slow").unlink()
    started.communicate(timeout=SECONDS)
    same((started.returncode, tree(prefix)), (143, {}), "its status, and below the prefix")


def installs_by_words(it: Repository) -> None:
    status, said, errors = it.run("install", "--help")
    assert (status, errors) == (0, "") and "--unproved PREFIX" in said, f"{status}, {said!r}, {errors!r}"
    for words in ([], ["prefix"], ["--proved", "/prefix"], ["/a", "/b"], [""]):
        status, said, errors = it.run("install", *words)
        assert (status, said) == (2, "") and errors.startswith("install: ") and errors.count("\n") == 1, f"{words}: {status}, {errors!r}"
    it.given["DESTDIR"] = "image"
    same(it.run("install", "/usr")[0], 2, "DESTDIR that isn't from the root on")


def completes() -> None:
    """Checks the completions of lines in bash."""
    errors = call(["bash", "-c", COMPLETES], "".join(f"{line}\n" for line in COMPLETED), cwd=TOP, timeout=SECONDS)
    same((dict(zip(COMPLETED, errors.stdout.split("\n"))), errors.stderr), (COMPLETED, ""), "completions")


# Read-only folders


def lock_up(it: Repository) -> None:
    for path in [it.top, *it.top.rglob("*")]:
        if path.is_dir():
            path.chmod(0o555)


def reads_only(it: Repository, given: dict[str, str], place: str) -> None:
    """Checks that the builds of a read-only repository are kept in another place, and that the same sources are built once."""
    it.given |= {name: value.format(room=it.room) for name, value in given.items()}
    lock_up(it)
    status, said, errors = it.run("cqf", "a", text="x")
    same((status, said), (7, "quick a\nx"), f"the first call, {errors}")
    where = next((it.room / place).glob("*/quick"), None)
    assert where is not None, f"no program in {place}"
    same(errors.splitlines()[0], f"cqf: {it.top}/built can't be written; what is built is kept in {where.parent}", "what it says")
    assert "another build" not in errors and errors.count("\n") == 2, errors
    same(it.run("cqf", "a", text="x"), (7, "quick a\nx", ""), "the second call")
    same(it.calls(), 1, "builds")
    same(where.parent.stat().st_mode & 0o777, 0o700, "the mode of the folder")
    source = it.top / "crates/low/src/lib.rt"
    source.write_text("// changed\n")
    same((it.builds(), it.builds()), (1, 0), "builds after a change")
    same(sorted(path.name for path in where.parent.glob("*")), ["quick", "quick.lock", "quick.sources", "stamp"], "kept")
    same([path.name for path in (it.room / "tmp").glob("cqf-room*")], [], "left")
    same(it.run("prove")[0], 0, "./prove")
    same(it.run("cqf", "a", text="x"), (7, "proved a\nx", ""), "./cqf after it")


def reads_only_what_is_built(it: Repository) -> None:
    it.builds()
    lock_up(it)
    same(it.builds(), 0, "builds")


def writes_nowhere(it: Repository) -> None:
    it.given |= {"HOME": "/proc", "TMPDIR": "/proc"}
    lock_up(it)
    status, said, errors = it.run("cqf")
    assert (status, said) == (2, "") and errors.startswith("cqf: no folder for a build") and errors.count("\n") == 1, f"{status}, {errors!r}"


def shares_no_folder(it: Repository) -> None:
    """Checks that no build is kept in a temporary folder that is a symbolic link."""
    elsewhere = it.room / "elsewhere"
    elsewhere.mkdir()
    (it.room / f"tmp/cqf-{os.getuid()}").symlink_to(elsewhere)
    it.given |= {"HOME": "/proc"}
    lock_up(it)
    same(it.run("cqf")[0], 2, "the status")
    same(list(elsewhere.glob("*/quick")), [], "what is there")


def finds_folder(it: Repository, name: str) -> None:
    """Checks that ./cqf reports a folder in place of a file that a build keeps, and builds nothing."""
    (it.top / "built" / name).mkdir(parents=True)
    status, said, errors = it.run("cqf")
    same((status, said, errors), (2, "", f"cqf: {it.top}/built/{name} is a folder, and a build is kept there: remove it\n"), "it ends with")
    same(it.calls(), 0, "builds")


def meets_end_of_file(it: Repository) -> None:
    """Checks that no signal ends the program at the limit of file sizes, even if the stamp of the sources can't be written."""
    it.builds()
    (it.top / "built/stamp").unlink()

    def limit() -> None:
        obey_modes()
        resource.setrlimit(resource.RLIMIT_FSIZE, (0, 0))

    with open(it.room / "output", "wb") as output:
        ran = subprocess.run([it.top / "cqf", "a word"], env=it.given, cwd="/", stdin=subprocess.DEVNULL, stdout=output, stderr=subprocess.DEVNULL, preexec_fn=limit, timeout=SECONDS)
    same(ran.returncode, 7, "the status")


# Concurrent and interrupted builds


def builds_beside(it: Repository) -> None:
    """Checks that one of two concurrent calls builds and the other waits for it, without the command `flock`."""
    assert not (it.room / "tools/flock").exists()
    (it.notes / "slow").touch()
    first = it.start("cqf", "first")
    it.wait_for_call(1)
    second = it.start("cqf", "second")
    same(second.stderr.readline(), "cqf: another build of the same is under way; waiting for it\n", "the second")
    (it.notes / "slow").unlink()
    same([started.communicate(timeout=SECONDS)[0] for started in (first, second)], ["quick first\n", "quick second\n"], "what they write")
    same(it.calls(), 1, "builds")


def ends_waiting(it: Repository) -> None:
    """Checks that SIGTERM ends a call that waits for another's build, and that this build goes on."""
    (it.notes / "slow").touch()
    first = it.start("cqf", "first")
    it.wait_for_call(1)
    second = it.start("cqf", "second")
    second.stderr.readline()
    second.terminate()
    second.communicate(timeout=SECONDS)
    same(second.returncode, 143, "its status")
    (it.notes / "slow").unlink()
    same(first.communicate(timeout=SECONDS)[0], "quick first\n", "the first")
    same((it.calls(), it.left()), (1, []), "builds, and left")


def ends_when_signalled(it: Repository, script: str, sent: signal.Signals, at_all: bool) -> None:
    """Checks that a signal ends a build and all its processes at once. The build leaves no files, and the next one doesn't wait."""
    (it.notes / "slow").touch()
    started = it.start(script)
    it.wait_for_call(1)
    (os.killpg if at_all else os.kill)(started.pid, sent)
    started.communicate(timeout=SECONDS)
    same(started.returncode, 128 + sent, "the status")
    wait_for(lambda: not it.under_way(), "a process of the build goes on")
    same(it.left(), [], "left")
    (it.notes / "slow").unlink()
    status, _, errors = it.run(script, text="x")
    same((status, "another build" in errors), (0 if script == "prove" else 7, False), f"the next build, {errors}")


def ends_killed(it: Repository, script: str) -> None:
    """Checks the build after a killed one. It doesn't wait, though processes of the killed build go on, and it removes the files left."""
    (it.notes / "slow").touch()
    started = it.start(script)
    it.wait_for_call(1)
    started.kill()
    started.wait(SECONDS)
    assert it.left(), "nothing is left"
    assert it.under_way(), "no process goes on"
    (it.top / f"built/{'quick' if script == 'cqf' else 'proved'}.next").write_text("half of it")
    orphans = it.under_way()
    for orphan in orphans:
        os.kill(orphan, signal.SIGSTOP)
    (it.notes / "slow").unlink()
    try:
        status, _, errors = it.run(script, text="x")
    finally:
        for orphan in orphans:
            with suppress(ProcessLookupError):
                os.kill(orphan, signal.SIGKILL)
    started.communicate(timeout=SECONDS)
    same((status, "another build" in errors), (0 if script == "prove" else 7, False), f"the next build, {errors}")
    same(it.left(), [], "left after that")


# Tests


def adds_up(it: Repository) -> None:
    status, said, _ = it.run("test")
    same((status, said.splitlines()[-1]), (0, "12 passed, 0 failed"), "all passed")
    assert "tc-kernel" not in said, said
    same(it.calls(), 1, "builds")


def tells_failed(it: Repository, line: str, wanted: str) -> None:
    """Checks the result of ./test if one part prints this line and has status 1."""
    (it.notes / "draws").write_text(f"{line}\n")
    status, said, _ = it.run("test")
    same((status, said.splitlines()[-1]), (1, wanted), "one failed")


def passes_gate(it: Repository) -> None:
    """Checks that the last line of the gate is that of the proofs, and that its status is 1 if a test fails."""
    status, said, _ = it.run("test", "--all")
    same((status, said.splitlines()[-1]), (0, "3 passed, 0 failed"), "all passed")
    for part, errors in (("refused", "2 passed, 1 failed"), ("tc", "2 passed, 1 failed"), ("tc-kernel", "2 passed, 1 failed"), ("tc-kernel", "ended")):
        (it.notes / part).write_text(f"{errors}\n")
        status, said, _ = it.run("test", "--all")
        same((status, said.splitlines()[-1]), (1, "3 passed, 0 failed"), f"{part}: {errors}")
        (it.notes / part).unlink()
    (it.notes / "broken").touch()
    status, said, _ = it.run("test", "--all")
    same((status, said.splitlines()[-1]), (1, "2 passed, 1 failed"), "the proofs failed")


def lacks_kernel(it: Repository) -> None:
    """Checks that the gate passes without a kernel for the scripts, and prints a line about it."""
    (it.notes / "tc-kernel").write_text("not run: there is no kernel\n")
    status, said, _ = it.run("test", "--all")
    assert "tc-kernel: not run: there is no kernel" in said.splitlines(), said
    same((status, said.splitlines()[-1]), (0, "3 passed, 0 failed"), "without a kernel")


def installs_packages(it: Repository) -> None:
    """Checks that .ci/run installs packages and passes the gate, and also passes it if the packages can't be installed."""
    status, said, _ = it.run(".ci/run")
    same((status, said.splitlines()[-1]), (0, "3 passed, 0 failed"), "with packages")
    calls = (it.notes / "apt-get").read_text().splitlines()
    assert calls[0] == "update" and calls[1].startswith("install -y --no-install-recommends ") and "be installed" not in said, f"{calls}, {said!r}"
    (it.notes / "no-packages").touch()
    status, said, _ = it.run(".ci/run")
    assert "ci: the packages that tests/tc-kernel.py needs can't be installed" in said.splitlines(), said
    same((status, said.splitlines()[-1]), (0, "3 passed, 0 failed"), "without packages")


def takes_words(it: Repository) -> None:
    status, said, errors = it.run("test", "--help")
    assert (status, errors) == (0, "") and "./test --all" in said, f"{status}, {said!r}, {errors!r}"
    for words in (["--al"], [""], ["--all", "--all"], ["runs"]):
        status, said, errors = it.run("test", *words)
        assert (status, said) == (2, "") and errors.startswith("test: ") and errors.count("\n") == 1, f"{words}: {status}, {errors!r}"
    same(it.calls(), 0, "builds")


def ends_tests(it: Repository) -> None:
    """Checks that SIGTERM ends ./test and all its parts."""
    write(it.top / "tests/runs.py", BEGINS, True)
    it.builds()
    (it.notes / "slow").touch()
    started = it.start("test")
    it.wait_for_call(2)
    started.terminate()
    started.communicate(timeout=SECONDS)
    same(started.returncode, 143, "the status")
    wait_for(lambda: not it.under_way(), "a part goes on")


# Pictures


def draw(words: list[str], redirected: str = "", **more: object) -> tuple[int, str, str]:
    """Runs ./draw in a shell, which can close a stream. The output is empty if it is redirected."""
    called = ["bash", "-c", f'exec ./draw "$@" {redirected}', "bash", *words]
    ran = subprocess.run(called, cwd=TOP, capture_output=True, text=True, timeout=SECONDS, **{"stdin": subprocess.DEVNULL, **more})
    return ran.returncode, ran.stdout, ran.stderr


def draws_to(program: str, words: list[str], redirected: str, wanted: tuple[int, str]) -> None:
    """Checks that ./draw ends with this status and this text on standard error, and writes no output."""
    status, said, errors = draw(["--program", program, *words], redirected)
    same((status, said, errors), (wanted[0], "", wanted[1]), "it ends with")


def draws_refused(program: str) -> None:
    """Checks that ./draw passes on the program's message if the program refuses the input."""
    status, said, errors = draw(["--program", program, "--cycles", "5"], "</dev/null")
    same((status, said, errors.split("\n")[0]), (1, "", "cqf: parts"), "it ends with")


def draws_unheard(program: str) -> None:
    """Checks that lines that can't be written on standard error change no status, and appear nowhere else."""
    for closed in ("2>&-", "2>/dev/full"):
        same(draw(["--program", program, "--cycles", "0"], closed), (2, "", ""), closed)
        status, said, errors = draw(["--program", program, *DRAWN], closed)
        assert status == 0 and said.endswith("</svg>\n") and errors == "", f"{closed}: {status}, {errors!r}"


def draws_without_input(program: str) -> None:
    """Checks that ./draw draws files if standard input is closed."""
    status, said, errors = draw(["--program", program, *DRAWN], "<&-")
    assert (status, errors) == (0, "") and said.endswith("</svg>\n"), f"{status}, {errors!r}"


def draws_short_of_memory(program: str) -> None:
    """Checks an input of 64 MiB that doesn't fit in memory."""
    with tempfile.NamedTemporaryFile() as file:
        file.truncate(67_108_864)
        most = 128 << 20
        limit = {"preexec_fn": lambda: resource.setrlimit(resource.RLIMIT_AS, (most, most))}
        same(draw(["--program", program, "--cycles", "5", file.name], **limit), (3, "", "draw: out of memory\n"), "it ends with")


def draws_by(text: str, wanted: str) -> None:
    """Checks the message of ./draw if --program names a script of this text instead of cqf."""
    with tempfile.TemporaryDirectory() as folder:
        program = f"{folder}/program"
        write(program, text, True)
        status, said, errors = draw(["--program", program, *DRAWN])
        same((status, said, errors), (2, "", f"draw: {program}: {wanted}\n"), "it ends with")


def draws_into_a_pipe(program: str) -> None:
    """Checks the fault if the reader of a pipe ends before the picture is written."""
    reads, writes = os.pipe()
    os.close(reads)
    with os.fdopen(writes, "wb") as pipe:
        ran = subprocess.run(["./draw", "--program", program, *DRAWN], cwd=TOP, stdin=subprocess.DEVNULL, stdout=pipe, stderr=subprocess.PIPE, timeout=SECONDS)
    same((ran.returncode, ran.stderr), (4, b"draw: output fault\n"), "it ends with")


def draws_until_signalled(program: str) -> None:
    """Checks that Ctrl-C ends ./draw without a message."""
    with tempfile.TemporaryDirectory() as folder:
        os.mkfifo(f"{folder}/input")
        words = ["./draw", "--program", program, "--cycles", "5", f"{folder}/input"]
        streams = {"stdin": subprocess.DEVNULL, "stdout": subprocess.PIPE, "stderr": subprocess.PIPE}
        started = subprocess.Popen(words, cwd=TOP, preexec_fn=hear_signals, **streams)
        # open waits until ./draw opens the other end
        with open(f"{folder}/input", "wb"):
            started.send_signal(signal.SIGINT)
            same((started.communicate(timeout=SECONDS), started.returncode), ((b"", b""), -signal.SIGINT), "it ends with")


# The trials


def in_repository(trial: Callable[..., None], *given: object) -> Callable[[], None]:
    def tried() -> None:
        repository = Repository(Path(tempfile.mkdtemp(prefix="cqf-scripts-")))
        try:
            trial(repository, *given)
        finally:
            repository.clear()

    return tried


def trials_of_builds() -> Trials:
    yield "a build and a call after it", builds_once
    for what, name, how, wanted in CHANGES:
        yield what, partial(change, name=name, how=how, wanted=wanted)
    yield "a source that changes while the program is built", changes_under_way
    yield "a build that fails", fails_to_build
    yield "no toolchain", lacks_toolchain
    yield "a proved program", proves
    yield "a proof that fails", fails_to_prove
    cache = {"XDG_CACHE_HOME": "{room}/cache"}
    yield "a repository that can't be written, and a cache", partial(reads_only, given=cache, place="cache/cqf")
    yield "a repository that can't be written", partial(reads_only, given={}, place="home/.cache/cqf")
    yield "nor a cache", partial(reads_only, given={"HOME": "/proc"}, place=f"tmp/cqf-{os.getuid()}")
    yield "nor a home", partial(reads_only, given={"HOME": ""}, place=f"tmp/cqf-{os.getuid()}")
    yield "a program in a repository that can't be written", reads_only_what_is_built
    yield "no folder that can be written", writes_nowhere
    yield "a link in place of a folder", shares_no_folder
    for name in ("quick", "quick.sources", "quick.lock"):
        yield f"a folder in place of built/{name}", partial(finds_folder, name=name)
    yield "a file that may grow no more", meets_end_of_file
    yield "two builds beside each other, without flock", builds_beside
    yield "a wait that is ended", ends_waiting
    for script in ("cqf", "prove"):
        for sent in (signal.SIGTERM, signal.SIGINT, signal.SIGHUP):
            yield f"./{script} with {sent.name}", partial(ends_when_signalled, script=script, sent=sent, at_all=False)
        yield f"./{script} and Ctrl-C", partial(ends_when_signalled, script=script, sent=signal.SIGINT, at_all=True)
        yield f"./{script} that is killed", partial(ends_killed, script=script)


def trials_of_installs() -> Trials:
    yield "./install", installs
    yield "./install without a proved program", installs_unproved
    for what, hinder in HINDERED:
        yield f"./install, and {what}", partial(installs_nothing, hinder=hinder)
    yield "./install that is ended", ends_install
    yield "the words of ./install", installs_by_words


def trials_of_tests() -> Trials:
    yield "./test where all passes", adds_up
    for line, wanted in (("3 passed, 1 failed", "13 passed, 1 failed"), ("3 passed, 0 failed", "13 passed, 1 failed"), ("well", "10 passed, 1 failed")):
        yield f"./test where a part says {line}", partial(tells_failed, line=line, wanted=wanted)
    yield "./test --all", passes_gate
    yield "./test --all without a kernel", lacks_kernel
    yield ".ci/run", installs_packages
    yield "the words of ./test", takes_words
    yield "./test that is ended", ends_tests


def trials_of_draw(program: str) -> Iterator[Trial]:
    yield "closed input", partial(draws_to, program, ["--cycles", "5"], "<&-", (4, "draw: input fault\n"))
    yield "closed input and files", partial(draws_without_input, program)
    yield "input that can't be read", partial(draws_to, program, ["--cycles", "5"], "0>/dev/null", (4, "draw: input fault\n"))
    yield "a folder as a file", partial(draws_to, program, ["--cycles", "5", "examples"], "", (4, "draw: examples: input fault\n"))
    for words, what in ((DRAWN, "a picture"), (["--help"], "help")):
        for redirected in (">&-", ">/dev/full", ">&- <&-"):
            yield f"{what} {redirected}", partial(draws_to, program, words, redirected, (4, "draw: output fault\n"))
    yield "a pipe that nobody reads", partial(draws_into_a_pipe, program)
    yield "closed and full standard error", partial(draws_unheard, program)
    yield "an input that is refused", partial(draws_refused, program)
    yield "a word of two lines", partial(draws_to, program, ["--cycles", "5\n"], "", (2, "draw: argument --cycles: '5\\n' is no number from 1 to 32\n"))
    yield "short of memory", partial(draws_short_of_memory, program)
    yield "Ctrl-C", partial(draws_until_signalled, program)
    for other, fault in (("/bin/true", "this isn't cqf"), ("/bin/cat", "this isn't cqf"), ("/none", "No such file or directory"), ("/", "Permission denied")):
        yield f"--program {other}", partial(draws_to, other, DRAWN, "", (2, f"draw: {other}: {fault}\n"))
    yield "a program of another name", partial(draws_by, "#!/bin/sh\necho other 1.0.0\n", "this isn't cqf")
    yield "a program that says no book", partial(draws_by, "#!/bin/sh\necho cqf 1.0.0\n", "this isn't cqf")
    yield "a program that says no text", partial(draws_by, "#!/bin/sh\necho cqf 1.0.0; printf '\\377%%%%\\n'\n", "this isn't cqf")
    yield "a file that is no program", partial(draws_by, "words\n", "Exec format error")


def trials(program: str) -> Iterator[Trial]:
    for name, trial in (*trials_of_builds(), *trials_of_installs(), *trials_of_tests()):
        yield name, in_repository(trial)
    yield "completions in bash", completes
    for name, trial in trials_of_draw(program):
        yield f"./draw: {name}", trial


def main() -> int:
    reader = Reader(__doc__)
    reader.add_program()
    return try_all(Counts("scripts"), trials(reader.parse_args().program), len(os.sched_getaffinity(0)))


sys.exit(main())

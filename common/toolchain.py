"""The Rattle toolchain: the one place that knows where it is, which one it is, and where its runs keep what they build.

A shell script needs only the command `rt`; `want_toolchain` of build/programs.sh checks that it is there.
"""
import functools
import importlib.machinery
import importlib.util
import shutil
import sys
import tempfile
from pathlib import Path
from types import ModuleType

from common.running import call

# `rt ci NAME ..` works on a copy of the tree, which is such a folder
COPIES = "rt-copy-*/repo"


def rt(*words: str) -> list[str]:
    """Returns a command of the toolchain."""
    found = shutil.which("rt")
    if not found:
        sys.exit("the command 'rt' of the Rattle toolchain is not on the PATH")
    return [found, *words]


def said(word: str) -> str:
    """Returns what `rt` prints."""
    ran = call(rt(word))
    if ran.returncode != 0:
        sys.exit(f"rt {word}: {ran.stderr.strip()}")
    return ran.stdout.strip()


@functools.cache
def folder() -> Path:
    """Returns the folder of the toolchain. The page that `rt doc` names is at its top."""
    return Path(said("doc")).parent


def tool(name: str) -> str:
    """Returns the path of a tool of LLVM that the toolchain has."""
    return str(folder() / "toolchain/bin" / name)


def identity() -> str:
    """Returns the line that names the toolchain and its version."""
    return said("version")


def module(name: str, file: Path) -> ModuleType:
    """Loads a file of the toolchain as a module, and leaves nothing in the toolchain's folder."""
    sys.dont_write_bytecode = True
    loader = importlib.machinery.SourceFileLoader(name, str(file))
    made = importlib.util.module_from_spec(importlib.util.spec_from_loader(name, loader))
    sys.modules[name] = made
    loader.exec_module(made)
    return made


@functools.cache
def library() -> ModuleType:
    """Returns the toolchain's functions about crates."""
    rtlib = module("rtlib", folder() / "bin/rtlib.py")
    remember_stamps(rtlib)
    return rtlib


@functools.cache
def gate() -> ModuleType:
    """Returns the functions of `rt ci`. Those about crates are in its `rtlib`."""
    made = module("rt_ci", folder() / "bin/rt")
    remember_stamps(made)
    return made


@functools.cache
def known_in(top: Path) -> dict[str, object]:
    """Returns a repository's crates that were looked up so far, by folder. Each crate is read once, whichever crates above it are."""
    return {}


def crate_of(name: str, top: str | Path = ".") -> object:
    """Returns a crate of a repository, by default of that in the working folder."""
    top = Path(top).resolve()
    folder = str(top / "crates" / name)
    known = known_in(top)
    if folder not in known:
        known[folder] = library().Crate(folder, str(top), known)
    return known[folder]


def remember_stamps(made: ModuleType) -> None:
    """Has the stamp of each crate computed once, because each crate above it needs that."""
    made.Crate.stamp = functools.cache(made.Crate.stamp)


def copies() -> list[Path]:
    """Returns the copies of trees in which runs of `rt ci NAME ..` work now."""
    return sorted(Path(tempfile.gettempdir()).glob(COPIES))


def kept_libraries() -> Path:
    """Returns the folder of this machine in which build/share-libraries.py keeps libraries that such runs have built."""
    kept = Path(tempfile.gettempdir(), "cqf-libraries")
    kept.mkdir(exist_ok=True)
    return kept

#!/usr/bin/env python3
"""Takes the libraries that runs of `rt ci NAME ..` have built, and links them into clones of this repository with the same text.

    build/share-libraries.py CLONE ..    while such runs go on: their libraries are in their own copies of the tree

`rt check` and `build/over-sources.py` use a library that was built in their clone from its present sources. If the libraries below a high crate
aren't built, one function of that crate takes minutes and up to 6 GB. A library fits a clone if the text of its crate and of all crates below it
is the same. All libraries of a clone must be from such runs, so one that was built in the clone is replaced. The libraries that were found are
kept among the machine's temporary files.
"""
import fcntl
import os
import shutil
import subprocess
import sys
import time
from pathlib import Path

sys.path.insert(0, str(Path(__file__).resolve().parent.parent))
from common import toolchain
from common.words import Reader


def crates_of(top):
    """Yields the crates of a tree, each with the stamp of its text."""
    for name in sorted(os.listdir(f"{top}/crates")):
        if os.path.isdir(f"{top}/crates/{name}/src"):
            crate = toolchain.crate_of(name, top)
            yield crate, crate.stamp()


def is_whole(library):
    """Returns whether a run has laid all of a library: it lays it file by file, in a second or two."""
    return all(os.stat(folder).st_mtime < time.time() - 10 for folder, _, _ in os.walk(library))


def lay(library, place, stamp):
    """Copies a library as hard links, with a stamp that identifies its text."""
    made = f"{place}.new"
    shutil.rmtree(made, ignore_errors=True)
    subprocess.run(["cp", "-al", library, made], check=True)
    with open(f"{made}/stamp.new", "w") as out:
        out.write(stamp)
    os.replace(f"{made}/stamp.new", f"{made}/stamp")
    shutil.rmtree(place, ignore_errors=True)
    os.rename(made, place)


def keep_of(top, folder):
    """Keeps the libraries of a run's copy of the tree; those so far, if the run ends meanwhile and its copy goes."""
    try:
        for crate, stamp in crates_of(top):
            kept = f"{folder}/{crate.name}-{stamp}"
            library = f"{crate.folder}/out/rlib"
            if os.path.exists(f"{library}/{crate.name}.rlib") and not os.path.isdir(kept) and is_whole(library):
                lay(library, kept, stamp)
    except (OSError, subprocess.CalledProcessError, SystemExit):
        if os.path.isdir(f"{top}/crates"):
            raise


def lay_in(clone, folder):
    """Lays the kept libraries that fit a clone there. Returns how many were not laid before."""
    count = 0
    for crate, stamp in crates_of(clone):
        kept, place = f"{folder}/{crate.name}-{stamp}", f"{crate.folder}/out/rlib"
        laid = os.path.exists(f"{place}/stamp") and os.path.exists(f"{kept}/stamp") and os.path.samefile(f"{place}/stamp", f"{kept}/stamp")
        if os.path.isdir(kept) and not laid:
            os.makedirs(f"{crate.folder}/out", exist_ok=True)
            shutil.rmtree(place, ignore_errors=True)
            subprocess.run(["cp", "-al", kept, place], check=True)
            count += 1
    return count


def main():
    reader = Reader(__doc__)
    reader.add_argument("clones", metavar="CLONE", nargs="+")
    given = reader.parse_args()
    folder = toolchain.kept_libraries()
    # one run at a time: two would lay one library in the same place
    lock = open(f"{folder}/lock", "w")
    fcntl.flock(lock, fcntl.LOCK_EX)
    for top in toolchain.copies():
        keep_of(top, folder)
    for clone in map(os.path.abspath, given.clones):
        print(f"{clone}: {lay_in(clone, folder)} libraries laid")


main()

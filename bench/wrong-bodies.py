#!/usr/bin/env python3
"""Tries every wrong body: the edits of crates/NAME/must-fail, which the gate tries too, and those of crates/NAME/wrong, which it doesn't try.

    bench/wrong-bodies.py [CRATE ..]    call it at the top of the repository; all crates by default

Call it for a release, and for a crate whose public clauses have changed. It works on a copy, in which the edits of both folders are in must-fail/.
The toolchain proves the crates of the copy and tries the edits. It uses what it kept of earlier runs on this machine. The script prints each edit
that isn't refused or that no longer applies, and the number of all edits. The status is 1 if there is such an edit.
"""
import os
import re
import shutil
import subprocess
import sys
from pathlib import Path

sys.path.insert(0, str(Path(__file__).resolve().parent.parent))
from common import toolchain
from common.running import temporary_folder
from common.words import Reader


def lay_out(top, room, names):
    """Copies the crates, and moves the edits of wrong/ into must-fail/. Returns how many edits the named crates have."""
    shutil.copytree(f"{top}/crates", f"{room}/crates", ignore=shutil.ignore_patterns("out"))
    for file in ("crates.txt", "HANDLES"):
        shutil.copy(f"{top}/{file}", room)
    count = 0
    for name in sorted(os.listdir(f"{room}/crates")):
        crate = f"{room}/crates/{name}"
        edits = [f"{crate}/{part}/{it}" for part in ("must-fail", "wrong") if os.path.isdir(f"{crate}/{part}") for it in os.listdir(f"{crate}/{part}")]
        if names and name not in names:
            shutil.rmtree(f"{crate}/must-fail", ignore_errors=True)
        else:
            os.makedirs(f"{crate}/must-fail", exist_ok=True)
            for it in edits:
                shutil.move(it, f"{crate}/must-fail/{os.path.basename(it)}")
            count += len(edits)
        shutil.rmtree(f"{crate}/wrong", ignore_errors=True)
    return count


def main():
    reader = Reader(__doc__)
    reader.add_argument("crates", metavar="CRATE", nargs="*", default=[])
    top, names = os.getcwd(), reader.parse_args().crates
    unknown = [it for it in names if not os.path.isdir(f"crates/{it}")]
    if not os.path.isfile("crates.txt") or unknown:
        reader.error(f"there is no crate {', '.join(unknown)}" if unknown else "this is not the top of the repository")
    with temporary_folder() as room:
        count = lay_out(top, room, names)
        os.mkdir(f"{room}/.git")
        ran = subprocess.run(toolchain.rt("ci", *names), cwd=room, stdin=subprocess.DEVNULL, stdout=subprocess.PIPE, stderr=subprocess.STDOUT, text=True, errors="replace")
    lines = [it for it in ran.stdout.splitlines() if re.search(r"NOT REFUSED|BAD EDIT|NOT TRIED|NOT PROVED|^rt: FAILED", it)]
    print("\n".join(lines))
    print(f"{count} wrong bodies; " + (ran.stdout.strip().splitlines() or ["no output"])[-1])
    return 1 if ran.returncode or lines else 0


sys.exit(main())

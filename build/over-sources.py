#!/usr/bin/env python3
"""Checks functions of a crate over the libraries below it, even if these aren't fully proved yet.

    build/over-sources.py CRATE [--test] [PATH..]    at the top of the repository; PATH is a function, a module or a type, as for
                                                     `rt check --only`; with --test those in tests are found too

`rt check` builds the libraries below a crate before it checks the crate, and so proves all of them first. This script uses a library that was
built in this clone from its present sources. For each other library it uses the contracts in the present sources. So a high crate can be worked on
while the crates below it wait. This proves nothing: a last line `only=N holes=0` says that these functions hold if the crates below do.

If no PATH is given, the whole crate is checked. If libraries below aren't built, the functions in them that the crate reaches are checked too, so
name functions in that case. Holes are accepted, and their goals are printed.

Measured: one function takes 10 processor seconds if all libraries below are built, and 20 to 120 if none is. The first function of a high crate
takes 4 to 13 minutes, and so does a whole crate. Results are kept in the crate's `out` for the next run.
"""
import os
import subprocess
import sys
from pathlib import Path

sys.path.insert(0, str(Path(__file__).resolve().parent.parent))
from common import toolchain
from common.words import Reader


def words_of(kit, crate):
    """Returns the words with which `rattle check` finds the libraries that the crate depends on."""
    below = crate.below()
    built = [it for it in below if it.is_built()]
    of_kit = {"core", *crate.of_kit, *[name for it in below for name in it.of_kit]}
    words = ["--crate-name", crate.name, "src/main.rt" if crate.is_program else "src/lib.rt", "-L", f"dependency={kit}/rlibs"]
    words += [word for name in sorted(of_kit) for word in ("--extern", f"{name}={kit}/rlibs/{name}.rlib")]
    for it in below:
        if it in built:
            words += ["--extern", f"{it.name}={it.rlib}", "-L", f"dependency={os.path.dirname(it.rlib)}"]
        else:
            uses = dict.fromkeys(["core", *it.of_kit, *[dep.name for dep in it.deps]])
            words += ["--lib", f"{it.name}:{','.join(uses)}={it.folder}/src/lib.rt"]
    words += ["--antt-project", f"{kit}/rattle/logic/antt-project.json", "--logic-built", f"{kit}/logic_built"]
    return words + ["--links", f"{crate.name}={'c' * crate.has_c}"]


def main():
    reader = Reader(__doc__)
    reader.add_argument("crate", metavar="CRATE")
    reader.add_argument("paths", metavar="PATH", nargs="*", default=[])
    reader.add_argument("--test", action="store_true")
    given = reader.parse_intermixed_args()
    crate = toolchain.crate_of(given.crate)
    os.chdir(crate.folder)
    kept = os.path.join(crate.folder, "out", "over-sources")
    os.makedirs(kept, exist_ok=True)
    words = words_of(toolchain.folder(), crate) + ["--jobs", "1", "--allow-holes", "--progress", "--incremental", kept]
    words += ["--test"] * given.test + [word for path in given.paths for word in ("--only", path)]
    sys.exit(subprocess.run([toolchain.library().RATTLE, "check", *words]).returncode)


main()

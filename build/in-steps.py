#!/usr/bin/env python3
"""Runs the steps of the gate one by one, and skips those that have already passed with their present text.

    build/in-steps.py [--lanes N] [--without-edits] [CRATE ..]    at the top of the repository; with CRATEs these and all below them

`rt ci` proves everything from nothing in an hour or more, and some toolchains keep nothing of a run that found a fault or was cut off. Here the
steps of each crate are its proof, its tests, its edits that must fail and its run. They use the functions of `rt ci` itself, and the libraries
that earlier steps built. N steps run side by side, by default one for each processor. The steps with the longest chain of crates above them come
first. A passed step is kept with a hash of its text, of the text of all crates below it and of the toolchain. The output of a step goes to
.git/in-steps/CRATE.STEP. Sources may be mended during a run. The next run tries the failed steps again. The last line is 'N passed, M failed'.
It is no verdict: only `rt ci` from nothing gives one.
"""
import glob
import hashlib
import json
import os
import subprocess
import sys
import time
from pathlib import Path

sys.path.insert(0, str(Path(__file__).resolve().parent.parent))
from common import toolchain
from common.words import Reader

KEPT = ".git/in-steps"


def set_up():
    """Returns `rt` as a module, set up as in `rt ci`, and the repository's crates by their names, lowest first."""
    rt = toolchain.gate()
    rt.rtlib.stop = rt.stop
    # libraries contain their statements without the proofs
    rt.Crate.cuts_libraries = True
    rt.Crate.allowed = rt.handles_of(os.getcwd())
    rt.rtlib.Crate = rt.Crate
    rt.rtlib.guarded()
    crates = sorted(rt.rtlib.crates_below(os.getcwd()), key=lambda it: len(it.below()))
    return rt, {it.name: it for it in crates}


def prove(rt, crates, crate):
    """Proves a crate, and returns 0 if that succeeds. Writes the stamp of a library, by which crates above it can use it."""
    rt.rtlib.stop_on_links(crate.folder)
    rt.rtlib.stop_on_unread(crate.folder, [*crates.values()])
    rt.rtlib.stop_on_text(crate, "verdict")
    rt.stop_on_words(crate)
    if rt.rtlib.fmt(crate.folder, "--check", crate.out):
        return 1
    stamp = crate.stamp()
    status = crate.ci(["--jobs", "1"], False)
    rt.Crate.stamp.cache_clear()
    if status == 0 and not crate.is_program and stamp == crate.stamp():
        with open(f"{crate.folder}/out/rlib/stamp", "w", encoding="utf-8") as it:
            it.write(stamp)
    return status


def step(name, kind):
    """Runs one step, and returns a false value if it passes."""
    rt, crates = set_up()
    crate = crates[name]
    crate.out = sys.stdout
    os.makedirs(f"{crate.folder}/out", exist_ok=True)
    if kind == "proof":
        return prove(rt, crates, crate)
    if kind == "tests":
        status = crate.ci(["--jobs", "1"], True)
        return status or os.path.isfile(f"{crate.folder}/out/{name}_tests") and not rt.run(crate, True)
    if kind == "run":
        made = [it for it in rt.BACKENDS.values() if os.path.isfile(f"{crate.folder}/out/{name}{it}")]
        return not (made and all([rt.run(crate, False, it) for it in made]))
    good, bad = rt.edits_of(crate)
    tried = rt.must_fail_all(crate, good, ["--jobs", "1"])
    print("\n".join([*bad, *[text for _, text in tried]]))
    return bool(bad) or not all(refused for refused, _ in tried)


def steps_of(crate, edits):
    """Returns the steps of a crate, its proof first."""
    kinds = ["proof"] + ["tests"] * crate.has_tests() + ["run"] * crate.is_program
    return kinds + ["edits"] * (edits and os.path.isdir(f"{crate.folder}/must-fail"))


def hash_of(crate, kind):
    """Returns a hash of a step's input: the text of the crate and of all below it, and for edits and runs also the files beside it."""
    text = hashlib.sha256(crate.stamp().encode())
    beside = {"edits": ["must-fail"], "run": ["data", "stdin", "stdout", "args", "status"]}.get(kind, [])
    for file in sorted(name for part in beside for name in glob.glob(f"{crate.folder}/{part}/**", recursive=True) + [f"{crate.folder}/{part}"]):
        if os.path.isfile(file):
            with open(file, "rb") as it:
                text.update(repr((os.path.relpath(file, crate.folder), it.read())).encode())
    return text.hexdigest()


def weights(rt, crates):
    """Returns for each crate the number of lines of the longest chain of crates from it upward, itself included."""
    lines = {it.name: sum(open(file, "rb").read().count(b"\n") for file in rt.rtlib.files_of(it.folder)) for it in crates.values()}
    weight = dict(lines)
    for it in reversed([*crates.values()]):
        for below in it.deps:
            weight[below.name] = max(weight[below.name], weight[it.name] + lines[below.name])
    return weight


class Passed:
    """The steps that have passed, each with the hash of its input then. They are kept for the next run."""

    def __init__(self):
        os.makedirs(KEPT, exist_ok=True)
        self.file = f"{KEPT}/passed.json"
        self.hashes = json.loads(Path(self.file).read_text()) if os.path.isfile(self.file) else {}

    def add(self, crate, kind, text):
        self.hashes[f"{crate.name}.{kind}"] = text
        Path(self.file).write_text(json.dumps(self.hashes))

    def has(self, crate, kind):
        """Returns whether a step has passed with its present text; a library must be there too."""
        is_there = kind != "proof" or crate.is_program or crate.is_built()
        return is_there and self.hashes.get(f"{crate.name}.{kind}") == hash_of(crate, kind)

    def is_ready(self, crate, kind):
        """Returns whether the steps have passed that a step needs."""
        return all(self.has(it, "proof") for it in crate.below()) and (kind == "proof" or self.has(crate, "proof"))


def steps_left(passed, rt, crates, given):
    """Returns the steps that haven't passed: first the proofs, those with the longest chain above them first; then the others, in the same order."""
    wanted = {low.name for name in given.crates or crates for low in [*crates[name].below(), crates[name]]}
    weight = weights(rt, crates)
    left = [(crates[name], kind) for name in wanted for kind in steps_of(crates[name], not given.without_edits)]
    return sorted((it for it in left if not passed.has(*it)), key=lambda it: (it[1] != "proof", -weight[it[0].name]))


def start(crate, kind):
    """Starts a step in a process of its own."""
    with open(f"{KEPT}/{crate.name}.{kind}", "w") as out:
        return subprocess.Popen([sys.executable, __file__, "--step", crate.name, kind], stdout=out, stderr=subprocess.STDOUT)


def run_all(passed, left, lanes):
    """Runs the steps in `left`, and takes them from there. Returns how many failed. A step stays there if it waits for one that failed."""
    failed, running = 0, {}
    while left or running:
        ready = [it for it in left if passed.is_ready(*it)]
        for it in ready[: lanes - len(running)]:
            left.remove(it)
            running[start(*it)] = *it, hash_of(*it)
        if not running:
            break
        time.sleep(0.5)
        for process in [it for it in running if it.poll() is not None]:
            crate, kind, text = running.pop(process)
            print(f"{crate.name}: {kind} {'FAILED' if process.returncode else 'passed'}", flush=True)
            if process.returncode:
                failed += 1
            else:
                passed.add(crate, kind, text)
    return failed


def main():
    reader = Reader(__doc__)
    reader.add_argument("--lanes", metavar="N", type=int, default=os.cpu_count())
    reader.add_argument("--without-edits", action="store_true")
    reader.add_argument("crates", metavar="CRATE", nargs="*", default=[])
    given = reader.parse_args()
    rt, crates = set_up()
    passed = Passed()
    left = steps_left(passed, rt, crates, given)
    count = len(left)
    failed = run_all(passed, left, given.lanes)
    for crate, kind in left:
        print(f"{crate.name}: {kind} waits for what failed")
    print(f"{count - failed - len(left)} passed, {failed + len(left)} failed")
    return bool(failed or left)


if __name__ == "__main__":
    sys.exit(int(bool(step(*sys.argv[2:])) if sys.argv[1:2] == ["--step"] else main()))

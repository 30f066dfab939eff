#!/usr/bin/env python3
"""Runs the gate, `rt ci`, and prints for each crate how many processor seconds its proof, its tests and its edits took.

    bench/gate.py [LOG]    call it at the top of the repository; the gate's output goes to LOG (by default gate.log, which git ignores)

The table goes to standard output; docs/BENCHMARKS.md has some of its rows. The script looks at the processes about every half second. What a
process takes after the last look is lost. So the sum of the rows is a little less than the time of the whole gate, which is in the last line.
"""
import os
import re
import resource
import subprocess
import sys
import time
from pathlib import Path

sys.path.insert(0, str(Path(__file__).resolve().parent.parent))
from common import toolchain
from common.words import Reader

TICKS = os.sysconf("SC_CLK_TCK")
KINDS = ("proof", "tests", "edits")
TOP = os.getcwd()


def look(seen):
    """Notes the processor time so far of each process of the prover in this clone, or of an edit, by crate and kind."""
    for pid in filter(str.isdigit, os.listdir("/proc")):
        try:
            with open(f"/proc/{pid}/cmdline", errors="replace") as it:
                words = it.read().split("\0")
            if not words[0].endswith("/rattle") or "--crate-name" not in words:
                continue
            with open(f"/proc/{pid}/stat") as it:
                fields = it.read().rpartition(")")[2].split()
            where = os.readlink(f"/proc/{pid}/cwd")
        except OSError:
            continue
        if not where.startswith(f"{TOP}/") and "rt-edit-" not in where:
            continue
        crate = words[words.index("--crate-name") + 1]
        kind = "edits" if "rt-edit-" in where else "tests" if any(it.endswith("_tests.o") for it in words) else "proof"
        seen[pid, fields[19]] = crate, kind, (int(fields[11]) + int(fields[12])) / TICKS


def main():
    reader = Reader(__doc__)
    reader.add_argument("log", metavar="LOG", nargs="?", default="gate.log")
    log = reader.parse_args().log
    seen, start = {}, time.monotonic()
    with open(log, "w") as out:
        os.environ.setdefault("RT_JOBS", str(os.cpu_count()))
        gate = subprocess.Popen(toolchain.rt("ci"), stdin=subprocess.DEVNULL, stdout=out, stderr=subprocess.STDOUT)
        while gate.poll() is None:
            look(seen)
            time.sleep(0.4)
    spent = {}
    for crate, kind, seconds in seen.values():
        spent.setdefault(crate, dict.fromkeys(KINDS, 0.0))[kind] += seconds
    print("| Crate | proof | tests | edits | all, in processor seconds |\n|---|---|---|---|---|")
    for crate, parts in sorted(spent.items(), key=lambda it: -sum(it[1].values())):
        print(f"| {crate} | {' | '.join(f'{parts[it]:.0f}' for it in KINDS)} | {sum(parts.values()):.0f} |")
    took = resource.getrusage(resource.RUSAGE_CHILDREN)
    whole = (took.ru_utime + took.ru_stime) / 60
    with open(log, errors="replace") as out:
        last = re.sub(r"\s+", " ", out.read().strip().rpartition("\n")[2])
    print(f"\n{last}: {(time.monotonic() - start) / 60:.0f} minutes, {whole:.0f} processor minutes, {os.cpu_count()} processors, {toolchain.identity()}")
    return gate.returncode


sys.exit(main())

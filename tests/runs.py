#!/usr/bin/env python3
"""Runs a program on the stored runs of runs/, and compares its output and its exit status with the stored ones.

    tests/runs.py PROGRAM [NAME..]

With a NAME it runs only the folders of these names. Each folder of runs/ is a run with these files. Each file is optional:

    args      the arguments, one a line; each further file args-.. has other arguments that must give the same result
    files/    the files that the arguments name; the program runs in this folder
    stdin     the standard input
    stdout    the standard output; with several files stdout-.. the output must equal one of them
    stderr    the standard error; a file stderr-.. replaces it for the arguments of args-..
    status    the exit status, by default 0
    times     how often the program runs, by default once

In stdin and stdout a line '@COUNT STEP TEXT' is short for COUNT lines TEXT. Each # in line k is replaced by the number STEP * k, with k from 0.
It prints each difference, and a last line 'runs: N passed, M failed'. The exit status is 1 if any run failed, or none was found.
"""
import subprocess
import sys
from pathlib import Path

sys.path.insert(0, str(Path(__file__).resolve().parent.parent))
from common.counting import Counts
from common.stored_runs import lines_of, read, stored_runs, words_of
from common.words import Reader

SECONDS = 60


def difference(stream, found, wanted):
    """Returns None if a stream equals one of the wanted texts, else a text with its first difference from the first of them."""
    if found in wanted:
        return None
    ours, theirs = found.split(b"\n"), wanted[0].split(b"\n")
    index = next((k for k, (one, two) in enumerate(zip(ours, theirs)) if one != two), min(len(ours), len(theirs)))
    line = lambda lines: repr(lines[index]) if index < len(lines) else "no line"
    return f"{stream}, line {index + 1}: {line(ours)}, wanted {line(theirs)}"


def fault_of(program, run, args):
    """Returns the first fault of a run with these arguments as a text, or None."""
    folder = run / "files" if (run / "files").is_dir() else None
    try:
        done = subprocess.run([program, *words_of(args)], input=lines_of(run / "stdin"), capture_output=True, timeout=SECONDS, cwd=folder)
    except subprocess.TimeoutExpired:
        return f"not done within {SECONDS} seconds"
    status = int(read(run / "status") or 0)
    if done.returncode != status:
        return f"status: {done.returncode}, wanted {status}; it says {done.stderr[:200]!r}"
    outputs = [lines_of(it) for it in sorted(run.glob("stdout*"))] or [b""]
    faults = run / args.name.replace("args", "stderr", 1)
    errors = read(faults if faults.exists() else run / "stderr")
    return difference("stdout", done.stdout, outputs) or difference("stderr", done.stderr, [errors])


def main():
    reader = Reader(__doc__)
    reader.add_program()
    reader.add_argument("names", metavar="NAME", nargs="*", default=[])
    given = reader.parse_args()
    counts = Counts("runs")
    for run in stored_runs(given.names):
        for args in sorted(run.glob("args*")):
            faults = (fault_of(given.program, run, args) for _ in range(int(read(run / "times") or 1)))
            fault = next((it for it in faults if it), None)
            counts.tell(fault and f"{run.name}, {args.name}: {fault}")
    return counts.end()


sys.exit(main())

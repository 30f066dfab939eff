#!/usr/bin/env python3
"""Runs the commands that documents show, and compares their outputs and statuses with those that the documents show.

    tests/cookbook.py PROGRAM [FILE..]

The default for FILE is README.md, docs/GUIDE.md and docs/COOKBOOK.md. It reads the fenced blocks that are marked `console` or begin with a line
'$ ..'. In them the output of a command follows its line '$ COMMAND':

    $ ./cqf latency --strict examples/studio-plan.toml
    cqf: latency: camera-1 at recorder: may-be-late, most 365988, deadline 365000
    $ echo $?
    1

- bash runs each command at the top of the repository, with PROGRAM in place of ./cqf. A command that ends with a backslash continues on the
  next line.
- The output is standard output and standard error together. A line '..' matches any number of lines, also none.
- If '$ echo $?' follows, the status must be the number below it, else 0.

It prints each failure, and a last line 'cookbook: N passed, M failed'. The exit status is 1 if any command failed or none was found.
"""
import re
import shlex
import subprocess
import sys
from pathlib import Path

sys.path.insert(0, str(Path(__file__).resolve().parent.parent))
from common import TOP
from common.counting import Counts
from common.words import Reader

SECONDS = 60
# the documents that show commands
SHOWING = ("README.md", "docs/GUIDE.md", "docs/COOKBOOK.md")
STATUS = "echo $?"


def blocks_of(text):
    """Yields each console block as a list of its lines, each with its number."""
    block = mark = None
    for number, line in enumerate(text.splitlines(), 1):
        if not line.startswith("```"):
            if block is not None:
                block.append((number, line))
        elif block is None:
            block, mark = [], line[3:].strip()
        else:
            if mark == "console" or block and block[0][1].startswith("$ "):
                yield block
            block = None
    if block is not None:
        sys.exit(f"line {block[0][0] if block else number}: a block without an end")


def commands_of(block):
    """Returns the commands of a block, each with the number of its line and the lines of its output."""
    commands = []
    for number, line in block:
        if commands and commands[-1][1].endswith("\\"):
            commands[-1][1] = commands[-1][1][:-1] + line
        elif line.startswith("$ "):
            commands.append([number, line[2:], []])
        elif commands:
            commands[-1][2].append(line)
        else:
            sys.exit(f"line {number}: an output without a command")
    return commands


def is_as_wanted(found, wanted):
    """Returns whether an output matches these lines."""
    pattern = "".join("(?:.*\n)*?" if line == ".." else re.escape(f"{line}\n") for line in wanted)
    return re.fullmatch(pattern, found) is not None


def run(program, command):
    """Runs a command, and returns its status and all its output."""
    line = re.sub(r"(?<![\w./])\./cqf(?![\w./-])", lambda _: shlex.quote(program), command)
    try:
        ran = subprocess.run(
            ["bash", "-c", line], cwd=TOP, stdin=subprocess.DEVNULL, stdout=subprocess.PIPE, stderr=subprocess.STDOUT, timeout=SECONDS
        )
    except subprocess.TimeoutExpired:
        return None, f"not done within {SECONDS} seconds\n"
    return ran.returncode, ran.stdout.decode(errors="backslashreplace")


def faults_of(program, block):
    """Yields the fault of each command of a block, or None."""
    commands = commands_of(block)
    for index, (number, command, wanted) in enumerate(commands):
        if command == STATUS:
            continue
        status, found = run(program, command)
        follows = commands[index + 1] if index + 1 < len(commands) else None
        due = follows[2] if follows and follows[1] == STATUS else ["0"]
        fault = None
        if not is_as_wanted(found, wanted):
            fault = "it writes\n" + "".join(f"    {line}\n" for line in found.splitlines()[:40])
        elif due != [str(status)]:
            fault = f"status {status}, wanted {' '.join(due)}\n"
        yield fault and f"{number}: {command}\n  {fault}"


def main():
    reader = Reader(__doc__)
    reader.add_program()
    reader.add_argument("files", metavar="FILE", nargs="*", default=[str(TOP / name) for name in SHOWING])
    given = reader.parse_args()
    counts = Counts("cookbook")
    for name in given.files:
        for block in blocks_of(Path(name).read_text()):
            for fault in faults_of(given.program, block):
                counts.tell(fault and f"{name}, line {fault}")
    return counts.end()


sys.exit(main())

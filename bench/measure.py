#!/usr/bin/env python3
"""Runs a command, and prints its time and its peak memory on standard error.

    bench/measure.py COMMAND [WORD ..]
"""
import argparse
import sys
from pathlib import Path

sys.path.insert(0, str(Path(__file__).resolve().parent.parent))
from common.running import measured
from common.words import Reader


def main():
    reader = Reader(__doc__)
    reader.add_argument("command", metavar="COMMAND", nargs=argparse.REMAINDER)
    command = reader.parse_args().command
    if not command:
        reader.error("a command is wanted")
    cost = measured(command)
    print(f"{cost.seconds:.2f} s, {cost.mebibytes:.1f} MiB at most", file=sys.stderr)
    return cost.status


sys.exit(main())

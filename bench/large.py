#!/usr/bin/env python3
"""Measures commands with --large on two large plans.

    bench/large.py PROGRAM [OFFERS]

Each plan is a ring of bridges with a cycle time of 125 us. Each bridge has a link to the next bridge and links to stations. One plan has
200 bridges, 400 links and 4,000 streams. The other has links both ways round: 1,024 bridges, 4,096 links and 16,384 streams. Each stream
takes some links of the ring to a station of its last bridge, and offers a frame in each cycle. All streams offer OFFERS frames together,
1,000,000 by default. For each command the script prints the seconds by the clock and the peak memory in MiB.
"""
import os
import subprocess
import sys
from pathlib import Path

sys.path.insert(0, str(Path(__file__).resolve().parent.parent))
from common.running import measured, temporary_folder, write
from common.words import Reader

SIZES = {"200 bridges": (200, 1, 1, 4_000), "1,024 bridges": (1_024, 2, 2, 16_384)}
COMMANDS = ["load", "latency", "compile", "compile --format tc", "run --cycles N", "report --cycles N", "check --cycles N"]


def path_of(bridge, directions, count, index):
    """Returns the bridges of a stream. It begins at a bridge of the ring and goes one way round."""
    step = 1 if directions == 1 or index % 2 == 0 else -1
    return [(bridge + step * k) % count for k in range(2 + index * 7 % 10)]


def array(key, values):
    """Returns a key with an array, one value a line."""
    return "\n".join([f"{key} = [", *[f"  {value}," for value in values], "]"])


def network(bridges, directions, stations, streams):
    """Returns the text of a plan, and the name and the first bridge of each stream."""
    every = range(bridges)
    links = [(f"b{b}", f"b{(b + step) % bridges}") for b in every for step in (1, -1)[:directions]]
    links += [(f"b{b}", f"s{b}-{s}") for b in every for s in range(stations)]
    asked, offered = [], []
    for number in range(streams):
        path = path_of(number % bridges, directions, bridges, number // bridges)
        nodes = ", ".join([*[f'"b{b}"' for b in path], f'"s{path[-1]}-{number % stations}"'])
        asked.append(f'{{ name = "x{number}", octets = 64, path = [{nodes}] }}')
        offered.append((f"x{number}", f"b{path[0]}"))
    parts = [
        "cycle = 125000\nguard = 5000",
        array("bridges", [f'"b{b}"' for b in every]),
        array("stations", [f'"s{b}-{s}"' for b in every for s in range(stations)]),
        array("links", [f'{{ from = "{a}", to = "{z}", rate = 1000, delay = 500 }}' for a, z in links]),
        array("streams", asked),
    ]
    return "\n".join([*parts, ""]), offered


def lay(folder, size, offers):
    """Writes a plan, its calls and its offers."""
    text, offered = network(*size)
    rows = [f"{cycle * 125_000},{bridge},{stream},64" for cycle in range(cycles_of(size, offers)) for stream, bridge in offered][:offers]
    write(f"{folder}/network.toml", text)
    write(f"{folder}/calls.txt", "".join(f"0 admit {stream}\n" for stream, _ in offered))
    write(f"{folder}/offers.csv", "\n".join(["at,bridge,stream,octets", *rows, ""]))


def cycles_of(size, offers):
    """Returns in how many cycles all frames are offered."""
    return -(-offers // size[-1])


def apart(work):
    """Does some work in its own process, so that this one stays small: what is measured seems to take at least what this process takes."""
    child = os.fork()
    if child == 0:
        work()
        os._exit(0)
    os.waitpid(child, 0)


def main():
    reader = Reader(__doc__)
    reader.add_program()
    reader.add_argument("offers", metavar="OFFERS", nargs="?", type=int, default=1_000_000)
    given = reader.parse_args()
    for name, size in SIZES.items():
        with temporary_folder() as folder:
            apart(lambda: lay(folder, size, given.offers))
            files = [f"{folder}/{it}" for it in ("network.toml", "calls.txt", "offers.csv")]
            for command in COMMANDS:
                words = command.replace("N", str(cycles_of(size, given.offers) + 11))
                cost = measured([given.program, *words.split(), "--large", *(files if "--cycles" in words else files[:1])], stdout=subprocess.DEVNULL)
                print(f"{name}: {words}: {cost.seconds:.2f} s, {cost.mebibytes:.0f} MiB, status {cost.status}", flush=True)


main()

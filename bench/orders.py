#!/usr/bin/env python3
"""Counts of how many random networks that just fit a program finds a plan, by the number of other orders that it may try.

    bench/orders.py PROGRAM [COUNT [SEED]]

COUNT is the number of networks of each kind, 24 by default. The same SEED (1 by default) draws the same networks. A network is a ring of six
bridges at 100 Mb/s with talkers in step. Streams are drawn, and placed in a random order by bench/reference.py; those that find no
room are left out. So the others fit in some order, but hardly anything else does. In the file they stand in the order in which they were drawn.

It prints a line for each kind: the number of streams drawn and kept, and how many networks are planned with each value of `--tries`.
"""
import sys
from pathlib import Path

sys.path.insert(0, str(Path(__file__).resolve().parent.parent))
from common.running import call
from common.words import draws_of, read_draws
from drawing import draw_fitting, input_of

CYCLE = 125_000
TRIES = (0, 1, 7, 50, 1000)
# streams drawn, intervals in cycles, and frame sizes
KINDS = ((40, (1, 2, 4), (300, 600, 900, 1200)), (50, (2, 4, 8), (300, 600, 900, 1200)), (60, (4, 8), (600, 900, 1200)))


def draw_ring(rng, count, everies, sizes):
    """Draws a ring of bridges, each with a station, and streams from bridges to stations."""
    bridges, stations = [f"b{it}" for it in range(6)], [f"s{it}" for it in range(6)]
    links = [{"from": it, "to": other, "rate": 100, "delay": 500, "duplex": True} for it, other in zip(bridges, bridges[1:] + bridges[:1])]
    links += [{"from": it, "to": station, "rate": 1000, "delay": 500, "duplex": False} for it, station in zip(bridges, stations)]
    streams = []
    for number in range(count):
        talker, listener = rng.sample(range(6), 2)
        ends = {"name": f"x{number}", "from": bridges[talker], "to": stations[listener]}
        streams.append(ends | {"in-step": True, "interval": rng.choice(everies) * CYCLE, "size": rng.choice(sizes)})
    return {"cycle": [CYCLE], "guard": 5000, "bridges": bridges, "stations": stations, "links": links, "streams": streams}


def main():
    given = read_draws(__doc__, 24)
    for kind, (drawn, everies, sizes) in enumerate(KINDS):
        kept, planned = 0, dict.fromkeys(TRIES, 0)
        for number in range(given.count):
            rng = draws_of(given.seed, kind, number)
            network = draw_ring(rng, drawn, everies, sizes)
            draw_fitting(rng, network)
            kept += len(network["streams"])
            for tries in TRIES:
                planned[tries] += call([given.program, "plan", "--tries", str(tries)], input_of(network)).returncode == 0
        found = ", ".join(f"{planned[it]} with {it}" for it in TRIES)
        print(f"{drawn} streams drawn, {kept / given.count:.1f} kept; of {given.count} networks are planned: {found}")


main()

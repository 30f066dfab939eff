#!/usr/bin/env python3
"""Measures the processor time and the peak memory of `cqf run`. It measures each part by itself: reading the input, closing the cycles (the
calls, and a table a cycle), running the network, and writing the history and the book.

    bench/run.py PROGRAM [OFFERS]    OFFERS offers, 100,000 by default; it measures half as many first

The network has eight bridges in a line, and seven streams along all of them. 140, 1,400 or 14,000 frames of 64 octets a cycle go over links of
1, 10 or 100 Gb/s. The script runs the program in the ways below, and takes the least time of three runs of each. The differences between
these times are the times of the parts.

- `report` over one cycle reads all and runs nothing, since no offer comes in cycle 0. Without offers it reads little.
- `report` over all cycles without offers closes the cycles and runs nothing.
- `report` over all cycles with all offers does everything but write a book.
- `run` also writes the book.

At each rate, twice the offers should take twice the time.
"""
import sys
from pathlib import Path

sys.path.insert(0, str(Path(__file__).resolve().parent.parent))
from common.network_files import tables_of, text_of
from common.running import measured, temporary_folder, write
from common.words import Reader

CYCLE, BRIDGES, STREAMS = 125_000, 8, 7
# by rate: the octets that a stream reserves, its frames in a cycle, and how many nanoseconds all frames are apart
RATES = {1_000: (1_500, 20, 800), 10_000: (15_000, 200, 80), 100_000: (130_000, 2_000, 8)}


def domain(rate):
    """Returns the domain with links of a rate, its streams and the calls that admit them."""
    bridges = [f"b{k}" for k in range(BRIDGES)]
    ends = [*bridges, "s"]
    links = [{"from": start, "to": end, "rate": rate, "delay": 500} for start, end in zip(ends, ends[1:])]
    streams = [{"name": f"x{k}", "octets": RATES[rate][0], "path": ends} for k in range(STREAMS)]
    network = text_of({"cycle": CYCLE, "guard": 5000, "bridges": bridges, "stations": ["s"]})
    script = "".join(f"0 admit x{k}\n" for k in range(STREAMS))
    return "%%\n".join([network + tables_of("links", links), tables_of("streams", streams), script, ""])


def offers(rate, count):
    """Yields `count` offers from cycle 1 on."""
    _, frames, apart = RATES[rate]
    for k in range(count):
        at = (1 + k // (STREAMS * frames)) * CYCLE + k % (STREAMS * frames) * apart
        yield f"{at},b0,x{k % STREAMS},64\n"


def least(program, words, input_file, output):
    """Returns the least processor seconds of three runs, their peak memory in MiB, and how many lines each writes."""
    costs = []
    for _ in range(3):
        with open(input_file) as given, open(output, "w") as written:
            costs.append(measured([program, *words], stdin=given, stdout=written))
        if costs[-1].status:
            sys.exit(f"bench/run.py: cqf {' '.join(words)} failed")
    with open(output) as written:
        return min(it.processor_seconds for it in costs), max(it.mebibytes for it in costs), sum(1 for _ in written)


def measure(program, rate, count, work):
    """Prints the parts of a run with `count` offers and links of a rate."""
    whole, empty, output = (f"{work}/{it}" for it in ("whole", "empty", "output"))
    write(empty, domain(rate) + "at,bridge,stream,octets\n")
    write(whole, domain(rate) + "at,bridge,stream,octets\n")
    with open(whole, "a") as it:
        it.writelines(offers(rate, count))
    cycles = 1 + -(-count // (STREAMS * RATES[rate][1])) + BRIDGES
    over = ["--cycles", str(cycles)]
    nothing, _, _ = least(program, ["report", "--cycles", "1"], empty, output)
    read, _, _ = least(program, ["report", "--cycles", "1"], whole, output)
    closed, _, _ = least(program, ["report", *over], empty, output)
    summed, _, _ = least(program, ["report", *over], whole, output)
    run, peak, lines = least(program, ["run", *over], whole, output)
    parts = {
        "reading": read - nothing,
        "closing": closed - nothing,
        "running": summed - read - closed + nothing,
        "writing": run - summed,
        "all": run,
    }
    print(f"== {rate} Mb/s: {count} offers over {cycles} cycles, {lines} lines written, {peak:.1f} MiB at most")
    for part, seconds in parts.items():
        print(f"{part:8} {seconds:.3f} s")


def main():
    reader = Reader(__doc__)
    reader.add_program()
    reader.add_argument("offers", metavar="OFFERS", nargs="?", type=int, default=100_000)
    given = reader.parse_args()
    with temporary_folder() as work:
        for rate in RATES:
            for offered in (given.offers // 2, given.offers):
                measure(given.program, rate, offered, work)


main()

#!/usr/bin/env python3
"""Tries the laws about a talker's access link on random links, and prints how close frames come to the bound.

    bench/access.py [COUNT [SEED]]    COUNT links, 2,000 by default; the same SEED, 1 by default, draws the same links

Links have all nine rates. Their delays and clocks vary from frame to frame. They send in five orders, and frames of no stream get in the way
as much as they may. Half of the ports start frames at whole nanoseconds, as the laws assume. The others start them at any tick of 40 ps. The
script shares no code with `cqf_access`.

For each law the script prints on how many links the law was tried, and on how many it failed. It prints the same for the law without one of
its terms: a term would be superfluous if the law never failed without it. Then it prints the longest wait as a share of what the bound
allows, and the longest busy time of a link as a share of the bound. The last line is `access: N passed, M failed`, counted in links. The
status is 1 if any link failed.
"""
import collections
import random
import sys
from dataclasses import dataclass
from pathlib import Path

sys.path.insert(0, str(Path(__file__).resolve().parent.parent))
from common.counting import Counts
from common.network_files import TICKS, rounded_up, sending_of, slot_of
from common.words import Reader

SIZES = (64, 65, 100, 180, 300, 704, 1522)
ORDERS = ("first come", "last come", "any", "one stream last", "one stream last, and its first frames")
MOST_STEPS = 100_000


@dataclass(frozen=True)
class Link:
    rate: int
    other: int  # octets of the largest frame of no stream, or 0
    delays: tuple  # the least and the greatest
    whole: bool  # whether the port starts frames at whole nanoseconds

    def ticks(self, octets):
        """Returns how many ticks `octets` take on the wire, rounded up to whole nanoseconds if the port starts frames at these."""
        exact = octets * TICKS[self.rate]
        return 25 * rounded_up(exact, 25) if self.whole else exact

    def slot(self, octets):
        """Returns how long a frame takes with preamble and gap, in nanoseconds."""
        return slot_of(octets, self.rate)

    def travel_time(self, octets, delay):
        """Returns how long a frame takes with its preamble, plus the delay, in nanoseconds."""
        return sending_of(octets, self.rate) + delay


@dataclass(frozen=True)
class Stream:
    interval: int
    frames: int
    size: int
    jitter: int
    offset: int
    shortest: int


@dataclass(frozen=True)
class Frame:
    at: int  # when it is handed over
    stream: int
    block: int
    octets: int


# ---- the laws, by their formulas


def demand(link, streams, time, slot, jitters=True):
    """Returns how long the link takes for all that is handed over within `time`, and for one frame of no stream."""
    own = sum(it.frames * rounded_up(time + it.jitter * jitters, it.interval) * slot(it.size) for it in streams)
    return own + (slot(link.other) if link.other else 0)


def least_bound(link, streams, slot=None, jitters=True):
    """Returns the least bound and the number of steps to it. The bound is None if it takes too many steps."""
    slot = slot or link.slot
    time = 1
    for step in range(MOST_STEPS):
        taken = demand(link, streams, time, slot, jitters)
        if taken <= time:
            return time, step
        time = taken
    return None, MOST_STEPS


def edge_jitter(link, stream, bound):
    """Returns the jitter of a stream's promise at the edge bridge."""
    least, most = link.delays
    return stream.jitter + bound - link.slot(stream.size) + link.travel_time(stream.size, most) - link.travel_time(stream.shortest, least)


def closer_jitter(link, stream, bound, octets):
    """Returns the smaller jitter at the edge bridge, for a link that sends one frame of the stream after the other. No frame has fewer octets
    than `octets`."""
    own = stream.frames * rounded_up(bound + stream.jitter, stream.interval)
    return edge_jitter(link, stream, bound) - (own - 1) * link.slot(octets)


def conforms(instants, stream, jitter):
    """Checks whether frames at these instants keep the promise. As the instants are in order, it is enough to compare those whose indexes
    are a multiple of `stream.frames` apart."""
    return all(
        instants[i] + (k - i) // stream.frames * stream.interval <= instants[k] + jitter
        for i in range(len(instants))
        for k in range(i, len(instants), stream.frames)
    )


# ---- drawing


def draw_stream(rng, link, size, count):
    """Draws one of `count` streams; it takes at most its share of the link."""
    frames = rng.choice((1, 1, 2, 3, 7))
    interval = int(frames * link.slot(size) * count * rng.uniform(1.02, 4)) + rng.randrange(2)
    jitter = rng.choice((0, 0, rng.randrange(interval), rng.randrange(3 * interval)))
    shortest = rng.choice((size, size, 64, rng.randint(64, size)))
    return Stream(interval, frames, size, jitter, rng.randrange(2 * interval), shortest)


def draw_in_step(rng, link, size, cycle_time, sync):
    """Draws a stream whose interval is a number of whole cycles. Most times it is early enough in its cycle at the edge bridge."""
    frames, shortest = rng.choice((1, 1, 2)), rng.choice((size, 64))
    jitter = rng.choice((0, rng.randrange(cycle_time // 8 + 1)))
    from_cycle = rng.choice((0, sync, sync, sync)) + rng.choice((0, rng.randrange(cycle_time // 8 + 1)))
    offset = (from_cycle - link.travel_time(shortest, link.delays[0])) % cycle_time + cycle_time * rng.randrange(3)
    return Stream(cycle_time * rng.randint(1, 4), frames, size, jitter, offset, shortest)


def draw_link(rng):
    """Draws a link with its streams, a cycle time or 0, and how far clocks are apart."""
    least = rng.choice((0, 50, 500, 5000))
    delays = (least, least + rng.choice((0, 0, 1, 200, 2000)))
    link = Link(rng.choice(tuple(TICKS)), rng.choice((0, 0, 64, 1522)), delays, rng.random() < 0.5)
    sizes = [rng.choice(SIZES) for _ in range(rng.randint(1, 6))]
    if rng.random() < 0.5:
        return link, [draw_stream(rng, link, it, len(sizes)) for it in sizes], 0, rng.choice((0, 100, 3000))
    taken = sum(2 * link.slot(it) for it in sizes) + (link.slot(link.other) if link.other else 0) + delays[1] - delays[0]
    sync = rng.choice((0, 0, rng.randrange(taken // 8 + 1)))
    cycle_time = int(taken * rng.uniform(1.1, 8)) + 2 * sync
    return link, [draw_in_step(rng, link, it, cycle_time, sync) for it in sizes], cycle_time, sync


def hand_over(rng, streams, until, kind, burst):
    """Returns frames by their streams' grids, in order. `kind` says how late a frame is. "chance": by chance. "ends": not at all or as much as
    it may. "burst": up to the instant `burst`, as far as it may."""
    frames = []
    for number, it in enumerate(streams):
        all_large = rng.random() < 0.6
        for block in range(max(0, until - it.offset) // it.interval + 1):
            grid = it.offset + block * it.interval
            for _ in range(it.frames):
                late = {"chance": rng.randint(0, it.jitter), "ends": rng.choice((0, it.jitter)), "burst": min(max(0, burst - grid), it.jitter)}[kind]
                octets = it.size if all_large or rng.random() < 0.6 else rng.choice((it.shortest, rng.randint(it.shortest, it.size)))
                if kind == "burst" or rng.random() < 0.9:
                    frames.append(Frame(grid + late, number, block, octets))
    return sorted(frames, key=lambda it: it.at)


# ---- the link


def choose(rng, order, victim, waiting):
    """Returns the index of the frame that is sent next."""
    if order in ("first come", "last come"):
        return 0 if order == "first come" else len(waiting) - 1
    if order == "any":
        return rng.randrange(len(waiting))
    others = [index for index, it in enumerate(waiting) if it.stream != victim]
    return rng.choice(others) if others else 0 if order == "one stream last" else len(waiting) - 1


def idle_until(rng, link, now, until):
    """Returns when the link is free for the next hand-over, in ticks. A frame of no stream may start before it or at the same instant."""
    if not link.other or rng.random() < 0.2:
        return until
    octets = link.other if rng.random() < 0.7 else rng.randint(64, link.other)
    start = until if rng.random() < 0.4 else rng.randint(max(now, until - link.ticks(octets + 20)), until)
    start = 25 * rounded_up(start, 25) if link.whole else start
    return max(until, start + link.ticks(octets + 20))


def send(rng, link, frames, order, victim):
    """Returns each frame with its start, in ticks, and the longest time that the link was busy."""
    waiting, starts, index, now, since, longest = [], [], 0, 0, 0, 0
    while waiting or index < len(frames):
        while index < len(frames) and 25 * frames[index].at <= now:
            waiting.append(frames[index])
            index += 1
        if not waiting:
            since = 25 * frames[index].at
            now = idle_until(rng, link, now, since)
            continue
        if link.other and all(25 * it.at == now for it in waiting) and since < now and rng.random() < 0.5:
            since = now
            now += link.ticks(link.other + 20)
            continue
        frame = waiting.pop(choose(rng, order, victim, waiting))
        starts.append((frame, now))
        now += link.ticks(frame.octets + 20)
        longest = max(longest, now - since)
    return starts, longest


def arrive(rng, link, starts):
    """Yields each frame with the instant when it is whole at the edge bridge, rounded up to a nanosecond. Each has its own delay."""
    kind = rng.randrange(3)
    for frame, start in starts:
        delay = rng.randint(*link.delays) if kind == 0 else rng.choice(link.delays) if kind == 1 else link.delays[1]
        yield frame, rounded_up(start + (frame.octets + 8) * TICKS[link.rate], 25) + delay


# ---- trials


def words(link, stream, bound):
    """Returns the jitter at the edge bridge, and the same without each of its terms."""
    least, most = link.delays
    jitter = edge_jitter(link, stream, bound)
    return {
        "word": jitter,
        "word without the wait": jitter - (bound - link.slot(stream.size)),
        "word without own jitter": jitter - stream.jitter,
        "word without short frames": jitter - (link.travel_time(stream.size, 0) - link.travel_time(stream.shortest, 0)),
        "word without the spread of delays": jitter - (most - least),
    }


def closer_words(link, stream, bound):
    """Returns the smaller jitter, and the same without each of its terms. It returns them only for a port that starts frames at whole
    nanoseconds. On other ports a frame may take less than its slot."""
    if not link.whole:
        return {}
    jitter = closer_jitter(link, stream, bound, stream.shortest)
    return {
        "closer word": jitter,
        "closer word without a nanosecond": jitter - 1,
        "closer word without the wait for others": jitter - (bound - demand(link, (stream,), bound, link.slot) + (link.slot(link.other) if link.other else 0)),
        "closer word without short frames": closer_jitter(link, stream, bound, stream.size),
    }


def in_step(link, stream, bound, cycle_time, sync):
    """Checks whether the grid and the promise at the edge bridge keep frames in their cycles, if clocks are up to `sync` apart."""
    from_cycle = (stream.offset + link.travel_time(stream.shortest, link.delays[0])) % cycle_time
    return stream.interval % cycle_time == 0 and sync <= from_cycle and from_cycle + edge_jitter(link, stream, bound) + sync < cycle_time


def try_stream(rng, link, stream, bound, arrived, clocks):
    """Yields each law that is tried on a stream, with whether it held."""
    cycle_time, sync = clocks
    begin = stream.offset + link.travel_time(stream.shortest, link.delays[0])
    jitter = edge_jitter(link, stream, bound)
    yield "grid", all(begin + it.block * stream.interval <= at <= begin + it.block * stream.interval + jitter for it, at in arrived)
    instants = sorted(at for _, at in arrived)
    for name, word in (words(link, stream, bound) | closer_words(link, stream, bound)).items():
        yield name, conforms(instants, stream, word)
    readings = sorted(at + rng.choice((-sync, sync, rng.randint(-sync, sync))) for _, at in arrived)
    yield "word by another clock", conforms(readings, stream, jitter + 2 * sync)
    yield "word by another clock without sync", conforms(readings, stream, jitter)
    if link.whole:
        yield "closer word by another clock", conforms(readings, stream, closer_jitter(link, stream, bound, stream.shortest) + 2 * sync)
    if not cycle_time:
        return
    steps = {"step": sync, "step without sync": 0}
    for name, apart in steps.items():
        if in_step(link, stream, bound, cycle_time, apart):
            yield name, all(
                reading // cycle_time == begin // cycle_time + it.block * (stream.interval // cycle_time)
                for it, at in arrived
                for reading in (max(0, at - sync), at + sync)
            )


def try_bounds(link, streams, starts, bound):
    """Yields whether the law on waits held, with the bound and with others that leave something out."""

    def down(octets):
        return (octets + 20) * TICKS[link.rate] // 25

    bounds = {
        "wait": (bound, link.slot),
        "wait without other frames": (least_bound(Link(link.rate, 0, link.delays, link.whole), streams)[0], link.slot),
        "wait without jitter": (least_bound(link, streams, jitters=False)[0], link.slot),
        "wait by slots rounded down": (least_bound(link, streams, down)[0], down),
    }
    for name, (most, slot) in bounds.items():
        yield name, all(start + 25 * slot(streams[it.stream].size) <= 25 * (it.at + most) for it, start in starts)


def try_link(rng, noted):
    """Draws a link and tries each law on it. Returns whether all held, or None if the link has no bound."""
    link, streams, *clocks = draw_link(rng)
    bound, steps = least_bound(link, streams)
    if bound is None:
        return None
    kind, order = rng.choice(("chance", "ends", "burst")), rng.choice(ORDERS)
    burst = max(it.offset + it.jitter for it in streams)
    if kind == "burst" and not clocks[0]:
        streams = [Stream(it.interval, it.frames, it.size, it.jitter, (burst - it.jitter) % it.interval, it.shortest) for it in streams]
    until = burst + rng.choice((3, 8, 20)) * min(max(it.interval for it in streams), 40 * min(it.interval for it in streams))
    frames = hand_over(rng, streams, until, kind, burst)
    starts, longest = send(rng, link, frames, order, rng.randrange(len(streams)))
    arrived = list(arrive(rng, link, starts))
    tried = collections.defaultdict(list)
    for name, held in try_bounds(link, streams, starts, bound):
        tried[name].append(held)
    for number, it in enumerate(streams):
        tried["hand-over"].append(conforms([f.at for f in frames if f.stream == number], it, it.jitter))
        for name, held in try_stream(rng, link, it, bound, [a for a in arrived if a[0].stream == number], clocks):
            tried[name].append(held)
    note(noted, link, streams, bound, starts, longest, steps)
    for name, held in tried.items():
        noted["tried"][name] += 1
        noted["failed"][name] += not all(held)
    return all(all(held) for name, held in tried.items() if "without" not in name and "rounded" not in name)


def note(noted, link, streams, bound, starts, longest, steps):
    """Notes how close the frames of a link came to the bound."""
    waits = [((start / 25 - it.at), bound - link.slot(streams[it.stream].size)) for it, start in starts]
    share = max((wait / most for wait, most in waits if most), default=1)
    noted["shares"].append(share)
    noted["busy"].append(longest / 25 / bound)
    noted["steps"].append(steps)
    noted["rates"][link.rate] += 1
    noted["whole waits"][link.rate] += share == 1


def tell(noted, none):
    """Prints what was tried."""
    for name, count in sorted(noted["tried"].items()):
        print(f"{name}: on {count} links, failed on {noted['failed'][name]}")
    shares, busy = noted["shares"], noted["busy"]
    print("rates: " + ", ".join(f"{rate}: {noted['rates'][rate]} links, {noted['whole waits'][rate]} with a whole wait" for rate in TICKS))
    tenths = collections.Counter(min(10, int(10 * it)) for it in shares)
    print("longest wait, in tenths of what the bound allows: " + " ".join(str(tenths[it]) for it in range(11)))
    print(f"busy for the whole bound: {sum(it == 1 for it in busy)}; longest {max(busy):.4f} of it")
    print(f"most steps to a bound: {max(noted['steps'])}; links without a bound: {none}")


def main():
    reader = Reader(__doc__)
    reader.add_draws(2000)
    given = reader.parse_args()
    rng = random.Random(given.seed)
    noted = {name: collections.Counter() for name in ("tried", "failed", "rates", "whole waits")} | {name: [] for name in ("shares", "busy", "steps")}
    ends = collections.Counter(try_link(rng, noted) for _ in range(given.count))
    tell(noted, ends[None])
    counts = Counts("access")
    counts.passed, counts.failed = ends[True], ends[False]
    return counts.end()


sys.exit(main())

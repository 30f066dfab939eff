#!/usr/bin/env python3
"""Plans random networks, and follows each frame from its talker's hand-over to its listeners.

    bench/talkers.py PROGRAM [COUNT [SEED]] [--kinds]

COUNT is the number of networks, 200 by default. The same SEED (1 by default) draws the same.

Of each network that is planned: planning the plan changes nothing; every command takes it; and talkers that keep their words are simulated, with
access links that send in four orders and with frames of no stream that get in the way. What arrives at the edge bridges is offered to the plan:
`check` has to be well, and each frame has to be at each listener within what `latency` tells, and within its deadline, from its hand-over. The
last line is `talkers: N passed, M failed`, of networks that were planned, and the status 1 where any failed. --kinds tells how often each outcome
was drawn.
"""
import collections
import csv
import io
import re
import sys
from pathlib import Path

sys.path.insert(0, str(Path(__file__).resolve().parent.parent))
from common.counting import Counts
from common.network_files import delays_of, directions, network_of, paths_of, sending_of, slot_of, tables_of, text_of
from common.running import call, temporary_folder, write
from common.words import draws_of, read_draws

CYCLES = 120
LAST = 8  # cycles at the end in which nothing comes, so that all arrives
COMMANDS = (
    ("latency", "--strict"), ("load",), ("compile",), ("compile", "--format", "json"), ("compile", "--format", "tc"),
    ("report", "--cycles", "60"), ("deliveries", "--cycles", "60"), ("summary", "--cycles", "60"), ("hops", "--cycles", "40"),
    ("run", "--cycles", "40"), ("offers", "--cycles", "40", "--seed", "7"),
)


# ---- drawing


def draw_bridges(rng):
    """Bridges in a row or a ring, with their links."""
    bridges = [f"b{k}" for k in range(rng.randint(1, 5))]
    pairs = list(zip(bridges, bridges[1:]))
    if len(bridges) > 2 and rng.random() < 0.6:
        pairs.append((bridges[-1], bridges[0]))
    links = [{"from": a, "to": b, "rate": rng.choice([100, 1000]), "delay": rng.choice([500, [400, 600]]), "duplex": True} for a, b in pairs]
    return bridges, links


def draw_station(rng, name, bridges, links):
    """The links of a station, and the bridges to which it has access links."""
    bridge, rate, delay = rng.choice(bridges), rng.choice([10, 100, 100, 1000, 2500]), rng.choice([900, [300, 900], 0])
    other = {"other": rng.choice([64, 200, 1522])} if rng.random() < 0.5 else {}
    if rng.random() < 0.7:
        links.append({"from": bridge, "to": name, "rate": rate, "delay": delay, "duplex": True, **other})
    else:
        links.append({"from": name, "to": bridge, "rate": rate, "delay": delay, **other})
        links.append({"from": bridge, "to": name, "rate": rate, "delay": delay})
    second = [it for it in bridges if it != bridge]
    if not second or rng.random() >= 0.25:
        return [bridge]
    links.append({"from": name, "to": rng.choice(second), "rate": rate, "delay": delay})
    return [bridge, links[-1]["to"]]


def draw_traffic(rng):
    """What a talker promises."""
    traffic = {"interval": rng.choice([250_000, 500_000, 1_000_000, 2_000_000, 333_333]), "size": rng.choice([64, 100, 300, 800, 1522])}
    if rng.random() < 0.3:
        traffic["frames"] = rng.randint(1, 4)
    if rng.random() < 0.4:
        traffic["jitter"] = rng.choice([0, 100, 5000, 40_000])
    if rng.random() < 0.4:
        traffic["offset"] = rng.choice([0, 1000, 100_000, 249_999])
    if rng.random() < 0.25:
        traffic["least-size"] = rng.randint(64, traffic["size"])
    if rng.random() < 0.3 and traffic["interval"] % 250_000 == 0:
        traffic["in-step"] = True
    return traffic


def draw_stream(rng, number, access):
    """A stream from a station to others."""
    station = rng.choice(sorted(access))
    others = [it for it in sorted(access) if it != station]
    bridges = access[station]
    talker = f"{station}@{rng.choice(bridges)}" if len(bridges) > 1 or rng.random() < 0.1 else station
    stream = {"name": f"x{number}", "from": talker, "to": rng.sample(others, min(len(others), rng.choice([1, 1, 2])))}
    stream |= {"octets": rng.choice([64, 200, 700])} if rng.random() < 0.12 else draw_traffic(rng)
    if rng.random() < 0.6:
        stream["deadline"] = rng.choice([1_000_000, 2_000_000, 3_000_000, 6_000_000])
    return stream


def draw(rng):
    """The text of a network."""
    bridges, links = draw_bridges(rng)
    access = {f"s{k}": draw_station(rng, f"s{k}", bridges, links) for k in range(rng.randint(2, 6))}
    rng.shuffle(links)
    streams = [draw_stream(rng, k, access) for k in range(rng.randint(1, 7))]
    cycle = rng.choice([250_000, [125_000, 250_000], [250_000, 500_000, 125_000]])
    top = {"cycle": cycle, "guard": 12_000, "bridges": bridges, "stations": sorted(access)}
    return text_of(top) + tables_of("links", links) + tables_of("streams", streams)


# ---- talkers


def access_links(plan):
    """The access links of a plan, by their ends, each with the frames that are handed to it."""
    found = {}
    for link in plan["links"]:
        for ends in directions(link):
            if ends[0] in plan["stations"]:
                found[ends] = {"rate": link["rate"], "delays": delays_of(link), "other": link.get("other"), "handed": []}
    return found


def hand_over(rng, stream, handed, end):
    """Puts the frames of a stream that keeps its word: instant, a number by chance, name and octets."""
    jitter, last = stream.get("jitter", 0), 0
    for start in range(stream.get("offset", 0), end, stream["interval"]):
        last = max(last, start + rng.choice([0, jitter, rng.randint(0, jitter)]))
        for _ in range(stream.get("frames", 1)):
            handed.append((last, rng.random(), stream["name"], rng.randint(stream.get("least-size", stream["size"]), stream["size"])))


def send(rng, edge, link):
    """What arrives at the edge bridge: instant, bridge, stream, octets, and when it was handed over."""
    jobs, waiting, now, order = sorted(link["handed"]), [], 0, rng.choice(["first", "last", "any", "one"])
    arrived, rate = [], link["rate"]
    while jobs or waiting:
        if not waiting:
            now = disturbed(rng, link, now, jobs[0][0])
        while jobs and jobs[0][0] <= now:
            waiting.append(jobs.pop(0))
        names = sorted({it[2] for it in waiting})
        index = {"first": 0, "last": -1, "any": rng.randrange(len(waiting))}.get(order, 0)
        if order == "one":
            index = min(range(len(waiting)), key=lambda k: (waiting[k][2] == names[0], k))
        at, _, stream, octets = waiting.pop(index)
        arrived.append((now + sending_of(octets, rate) + rng.randint(*link["delays"]), edge, stream, octets, at))
        now += slot_of(octets, rate)
    return arrived


def disturbed(rng, link, now, due):
    """When the link is free for a frame that is handed over then: one of no stream may have begun before."""
    if link["other"] and now <= due and rng.random() < 0.8:
        length = slot_of(link["other"], link["rate"])
        return max(max(now, due - rng.choice([0, 1, rng.randint(0, length)])) + length, due)
    return max(now, due)


def arrivals(rng, plan):
    """What arrives at all edge bridges, by instant."""
    links, end = access_links(plan), (CYCLES - LAST) * plan["cycle"]
    for stream in plan["streams"]:
        if "interval" in stream:
            edge = paths_of(stream)[0][0]
            hand_over(rng, stream, links[stream["from"].split("@")[0], edge]["handed"], end)
    arrived = [it for (_, edge), link in links.items() for it in send(rng, edge, link)]
    return sorted((it for it in arrived if it[0] < end), key=lambda it: it[0])


# ---- trying


class Trial:
    """A program, tried in a folder."""

    def __init__(self, program, folder):
        self.program, self.folder = program, folder

    def run(self, *words):
        return call([self.program, *words], timeout=60, cwd=self.folder)

    def put(self, name, text):
        write(f"{self.folder}/{name}", text)

    def plan_fault(self, plan):
        """What is wrong with a plan as a file; none where nothing is."""
        self.put("plan.toml", plan)
        if self.run("plan", "plan.toml").stdout != plan:
            return "its plan is another"
        for words in COMMANDS:
            done = self.run(*words, "plan.toml")
            if done.returncode != 0:
                return f"{' '.join(words)}: {done.stderr}"
        return None

    def talkers_fault(self, rng, plan):
        """What is wrong with what its talkers send; none where nothing is."""
        network = network_of(plan)
        arrived = arrivals(rng, network)
        if not arrived:
            return None
        self.put("offers.csv", "at,bridge,stream,octets\n" + "".join(f"{at},{edge},{name},{octets}\n" for at, edge, name, octets, _ in arrived))
        done = self.run("check", "--cycles", str(CYCLES), "plan.toml", "offers.csv")
        if done.returncode != 0:
            return done.stderr
        bounds = {(it["stream"], it["listener"]): it for it in csv.DictReader(io.StringIO(self.run("latency", "plan.toml").stdout))}
        rows = csv.DictReader(io.StringIO(self.run("deliveries", "--cycles", str(CYCLES), "plan.toml", "offers.csv").stdout))
        return next((it for it in (late(row, arrived, bounds) for row in rows) if it), None)


def late(row, arrived, bounds):
    """What is wrong with a delivery; none where nothing is."""
    took, bound = int(row["whole"]) - arrived[int(row["frame"]) - 1][4], bounds[row["stream"], row["listener"]]
    if not int(bound["least"]) <= took <= int(bound["most"]):
        return f"frame {row['frame']} of {row['stream']} took {took}, {bound['least']} to {bound['most']} are written"
    if bound["deadline"] and took > int(bound["deadline"]):
        return f"frame {row['frame']} of {row['stream']} took {took}, its deadline is {bound['deadline']}"
    return None


def main():
    given = read_draws(__doc__, 200, has_kinds=True)
    kinds, counts = collections.Counter(), Counts("talkers", 3)
    with temporary_folder() as folder:
        trial = Trial(given.program, folder)
        for number in range(given.count):
            rng = draws_of(given.seed, number)
            text = draw(rng)
            trial.put("network.toml", text)
            done = trial.run("plan", "network.toml")
            kinds[re.sub(r"\b[sxb]?\d+\b", "#", done.stderr.split("\n")[0]) or "planned"] += 1
            if done.returncode != 0:
                continue
            fault = trial.plan_fault(done.stdout) or trial.talkers_fault(rng, done.stdout)
            counts.tell(fault and f"seed {given.seed}, network {number}: {fault.strip()}\n{text}")
    if given.kinds:
        print("".join(f"{count:6} {kind}\n" for kind, count in kinds.most_common()), end="")
    return counts.end()


sys.exit(main())

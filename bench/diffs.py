#!/usr/bin/env python3
"""Compares random pairs of network files with a program and with a reference of its own: output, error line and status.

    bench/diffs.py PROGRAM [COUNT [SEED]]

COUNT is the number of pairs, 1,000 by default. The same SEED (1 by default) draws the same pairs. Most pairs are a network file and a changed
copy of it, some are two files of their own. The files are those that bench/networks.py draws with nothing open, and its reference gives latencies
and loads. What differs is worked out here, with no code of the program.

The last line is `diffs: N passed, M failed`, and the status is 1 if any failed. The first three failures are shown.
"""
import collections
import copy
import sys
from pathlib import Path

sys.path.insert(0, str(Path(__file__).resolve().parent.parent))
import reference as rules
from common.counting import Counts
from common.network_files import delays_of, paths_of
from common.running import call, ending
from common.words import draws_of, read_draws
from drawing import draw_closed

LINK = ("rate", "delay", "guard", "other")
DIFFERS = "cqf: diff: differs\n"
STREAM = ("path", "octets", "every", "phase", "deadline", "from", "least-size", "interval", "frames", "size", "jitter", "offset")


def delay_text(least, greatest):
    return f"{greatest}" if least == greatest else f"{least} {greatest}"


def link_values(link):
    """Returns the values of a link that begins at a bridge."""
    return dict(zip(LINK, (link["rate"], delay_text(*delays_of(link)), link.get("guard", ""), "")))


def access_values(link):
    return dict(zip(LINK, (link.rate, delay_text(*link.delays), "", link.other or "")))


def least_size(stream, overhead):
    """Returns the fewest octets of a frame that is handed to an access link, if some frames are longer."""
    longest = stream.get("size", rules.longest_frame(stream["octets"], overhead))
    fewest = min(stream.get("least-size", stream.get("size", 64)), longest)
    return fewest if fewest < longest else ""


def stream_values(stream, access, overhead):
    """Returns the values of a stream, by key."""
    paths = " | ".join(" ".join(path) for path in paths_of(stream))
    values = [paths, stream["octets"], stream.get("every", 1), stream.get("phase", 0), stream.get("deadline", "")]
    values += [f"{access.station}@{access.bridge}", least_size(stream, overhead)] if access else ["", ""]
    usual = {"frames": 1, "jitter": 0, "offset": 0}
    values += [stream.get(key, usual.get(key)) if "interval" in stream else "" for key in STREAM[7:]]
    return dict(zip(STREAM, values))


def figures_of(text, name, figure, left):
    """Returns two columns of a table by the columns of its name."""
    rows = [row.split(",") for row in text.splitlines()]
    column = rows[0].index
    return {tuple(row[column(it)] for it in name): (row[column(figure)], left(dict(zip(rows[0], row)))) for row in rows[1:]}


def slack_of(row):
    return str(int(row["deadline"]) - int(row["most"])) if row["deadline"] else ""


class Described:
    """A network file as it is compared."""

    def __init__(self, network):
        held = rules.Held(network, ("access", "traffic", "budget"))
        domain, streams = held.domain, held.written
        self.elements = [("network", "", dict(cycle=held.cycle, guard=domain.guard, sync=domain.sync) | {"gate-overhead": domain.overhead})]
        self.elements += [(kind, name, {}) for kind in ("bridge", "station") for name in network[f"{kind}s"]]
        self.elements += [("link", f"{start}>{end}", link_values(link)) for start, end, link, _ in domain.links]
        self.elements += [("link", f"{it.station}>{it.bridge}", access_values(it)) for it in domain.access]
        ends = [at[1] if at else None for at in held.edges.entrances]
        self.elements += [("stream", it["name"], stream_values(it, access, domain.overhead)) for it, access in zip(streams, ends)]
        self.latencies = figures_of(rules.latency_of(network), ("stream", "listener"), "most", slack_of)
        loads = figures_of(rules.load_of(network), ("link",), "held", lambda row: row["left"])
        of_bridges = len(domain.links)
        self.loads, self.access_loads = dict(list(loads.items())[:of_bridges]), dict(list(loads.items())[of_bridges:])


def element_rows(before, after):
    """Returns the rows of elements of one group: those before in their order, then those that are new."""
    old, new = ({it[:2]: it[2] for it in some} for some in (before, after))
    rows = []
    for (kind, name), values in old.items():
        if (kind, name) not in new:
            rows.append(f"{kind},{name},removed,,")
        else:
            pairs = [(key, value, new[kind, name][key]) for key, value in values.items()]
            rows += [f"{kind},{name},{key},{value},{other}" for key, value, other in pairs if str(value) != str(other)]
    return rows + [f"{kind},{name},added,," for kind, name in new if (kind, name) not in old]


def figure_rows(old, new):
    rows = []
    for name, (value, left) in old.items():
        if name not in new:
            rows.append(",".join((*name, value, "", "")))
        elif new[name] != (value, left):
            rows.append(",".join((*name, value, *new[name])))
    return rows + [",".join((*name, "", *it)) for name, it in new.items() if name not in old]


def group_of(element, network):
    """Returns the group in which an element is compared: links from stations come after those from bridges."""
    kind, name, _ = element
    return "access" if kind == "link" and name.split(">")[0] in network["stations"] else kind


def differences(before, after, networks):
    """Returns the text of what differs between two described files."""
    rows = []
    for group in ("network", "bridge", "station", "link", "access", "stream"):
        pair = [[it for it in some.elements if group_of(it, network) == group] for some, network in zip((before, after), networks)]
        rows += element_rows(*pair)
    tables = [("kind,name,what,before,after", rows)]
    tables.append(("stream,listener,most-before,most-after,slack-after", figure_rows(before.latencies, after.latencies)))
    loads = figure_rows(before.loads, after.loads) + figure_rows(before.access_loads, after.access_loads)
    tables.append(("link,held-before,held-after,left-after", loads))
    return "\n".join("".join(f"{row}\n" for row in (header, *rows)) for header, rows in tables if rows)


def described(which, network):
    try:
        return Described(network)
    except rules.Refused as fault:
        raise rules.Refused(f"cqf: diff: {which}: {str(fault).removeprefix('cqf: ')}") from None


def change(rng, network):
    """Changes a network file a little."""
    links, streams = network["links"], network["streams"]
    kind = rng.randrange(10)
    if kind == 0:
        network |= rng.choice(({"cycle": 50_000}, {"cycle": 250_000}, {"guard": 3000}, {"guard": 50_000}))
    elif kind == 1:
        network |= rng.choice(({"sync": rng.choice((0, 1, 50))}, {"gate-overhead": rng.choice((0, 18, 22))}))
    elif kind == 2:
        network["stations"] = [*dict.fromkeys((*network["stations"], "s9"))]
    elif kind in (3, 4) and links:
        rng.choice(links).update(rng.choice(({"rate": 1000}, {"rate": 100}, {"delay": [1, 300]}, {"delay": 7}, {"guard": 9700})))
    elif kind == 5 and links:
        links.remove(rng.choice(links))
    elif kind == 6 and streams:
        streams.remove(rng.choice(streams))
    elif kind == 7 and streams:
        streams.append(copy.deepcopy(rng.choice(streams)) | {"name": "y"})
    elif streams:
        stream = rng.choice(streams)
        some = ({"octets": 128}, {"octets": 1000}, {"every": 2, "phase": 1}, {"deadline": 300_000})
        some += ({"size": 80, "least-size": 64}, {"jitter": 9}, {"offset": 5}) if "interval" in stream else ()
        stream.update(rng.choice(some))
    rng.random() < 0.1 and rng.shuffle(streams)


def is_accepted(network):
    try:
        return bool(Described(network))
    except rules.Refused:
        return False


def draw_pair(rng):
    """Draws two network files."""
    before = draw_closed(rng)
    for _ in range(rng.randint(0, 9)):
        if is_accepted(before):
            break
        before = draw_closed(rng)
    after = draw_closed(rng) if rng.random() < 0.2 else copy.deepcopy(before)
    for _ in range(rng.randint(0, 3)):
        change(rng, after)
    return before, after


def wanted(pair, is_quiet):
    """Returns the output, the line and the status for a pair."""
    try:
        text = differences(described("old", pair[0]), described("new", pair[1]), pair)
    except rules.Refused as fault:
        return "", f"{fault}\n", 1
    return ("", DIFFERS if text else "", int(bool(text))) if is_quiet else (text, "", int(bool(text)))


def fault_of(program, pair, is_quiet, want):
    """Returns how what the program writes of a pair differs from what is wanted, or None."""
    text = "%%\n".join(rules.text_of(it) for it in pair)
    got = ending(call([program, "diff", *["-q"] * is_quiet], text))
    return None if got == want else f"{text}wanted: {want}\ngot: {got}"


def main():
    given = read_draws(__doc__, 1000)
    kinds, counts = collections.Counter(), Counts("diffs", 3)
    for number in range(given.count):
        pair, is_quiet = draw_pair(draws_of(given.seed, number)), number % 5 == 4
        want = wanted(pair, is_quiet)
        kinds["same" if not want[2] else "differs" if want[0] or want[1] == DIFFERS else "refused"] += 1
        fault = fault_of(given.program, pair, is_quiet, want)
        counts.tell(fault and f"pair {number}:\n{fault}")
    print(", ".join(f"{times} {kind}" for kind, times in sorted(kinds.items())))
    return counts.end()


sys.exit(main())

#!/usr/bin/env python3
"""Tests ./draw on all examples.

    tests/draws.py [PROGRAM]

PROGRAM is ./cqf by default.

- Runs: it draws a run of each example that has a domain, of each plan with its script and offers, and of a network of 33 bridges. It compares
  each picture with the book that PROGRAM writes. The picture is well-formed, and every mark has a title. Each start of the book is one box
  within an open gate of its link, each offer is one triangle, and each drop is one cross. A plan without calls or offers gives the same
  picture as with those that PROGRAM makes for it.
- Plans: it draws the plans of the examples and networks of other shapes, with --layout own. It compares each link with the output of `load`,
  and checks that no label or node covers another. It compares a stream's hops and bounds with values that were worked out by hand.
- Refusals: it checks the status and the message for bad arguments, files and inputs, and for too many marks.

It prints each failure, and a last line `draws: N passed, M failed`. The exit status is 1 if any failed.
"""
import subprocess
import sys
import tempfile
import xml.etree.ElementTree as xml
from collections import Counter
from collections.abc import Iterator
from functools import partial
from pathlib import Path

sys.path.insert(0, str(Path(__file__).resolve().parent.parent))
from common import TOP
from common.counting import Counts, Trial, try_all
from common.network_files import network_of, parts_of, paths_of, text_of
from common.words import Reader

SPACE = "{http://www.w3.org/2000/svg}"
DRAWN_APART = {"two-cycles.txt"}
ALONE = "examples/stage-traffic.toml"
STUDIO = ["examples/studio.txt", "examples/studio-calls.txt", "examples/studio-offers.csv", "examples/studio-background.csv"]


def read_program() -> str:
    reader = Reader(__doc__)
    reader.add_program(str(TOP / "cqf"))
    return reader.parse_args().program


PROGRAM = read_program()


def run(words: list[str], text: bytes = b"") -> subprocess.CompletedProcess[bytes]:
    return subprocess.run(words, input=text, capture_output=True, cwd=TOP)


def draw(words: list[str], text: bytes = b"") -> subprocess.CompletedProcess[bytes]:
    return run(["./draw", "--program", PROGRAM, *words], text)


def calls_of(streams: list[dict]) -> str:
    """Returns the calls that admit all streams."""
    return "".join(f"0 admit {stream['name']}\n" for stream in streams)


def scenario_of(text: str) -> str:
    """Returns a whole scenario. A domain and streams alone get a script that admits all streams, and a frame of each stream in each cycle."""
    parts, network = parts_of(text), network_of(text)
    if len(parts) > 2:
        return text
    streams = network["streams"]
    offers = ["at,bridge,stream,octets\n"]
    for cycle in range(3):
        for stream in streams:
            offers.append(f"{cycle * network['cycle']},{paths_of(stream)[0][0]},{stream['name']},64\n")
    return "%%\n".join([*parts, calls_of(streams), "".join(offers)])


def titles(group: xml.Element, kind: str) -> Counter[str]:
    return Counter(mark.findtext(f"{SPACE}title") for mark in group.iter(f"{SPACE}rect") if mark.get("class", "").startswith(kind))


def is_within(box: xml.Element, gates: list[xml.Element]) -> bool:
    """Returns whether a box begins and ends within an open gate of one lane. The least width of a box is 20."""
    x, y, width = (int(box.get(name)) for name in ("x", "y", "width"))
    for gate in gates:
        left, top, length = (int(gate.get(name)) for name in ("x", "y", "width"))
        if left <= x and top <= y < top + 300 and x + width <= left + length + (20 if width == 20 else 0):
            return True
    return False


def compare(cycles: int, text: str, picture: bytes, more: tuple[str, ...] = ()) -> None:
    """Compares a picture with the book of the same run."""
    root = xml.fromstring(picture)
    groups = {group.get("id"): group for group in root.iter(f"{SPACE}g") if group.get("id")}
    book = run([PROGRAM, "run", "--cycles", str(cycles), *more], text.encode()).stdout.decode().split("%%\n", 1)[1].splitlines()[1:]
    rows = [row.split(",") for row in book]
    offers = [row.split(",") for row in parts_of(text)[3].splitlines()[1:]]
    end = cycles * network_of(text)["cycle"]
    named = {str(frame): f"frame {frame} of {stream}, {octets} octets" for frame, (_, _, stream, octets) in enumerate(offers, 1)}
    reasons = {row[3]: f": {row[5]}" for row in rows if row[0] == "drop"}
    offered = [f"{named[str(frame)]}, offered at {row[0]}{reasons.get(str(frame), '')}" for frame, row in enumerate(offers, 1) if int(row[0]) < end]
    starts = [f"{named[row[3]]}, at {row[5]}" for row in rows if row[0] == "start"]
    others = [f"background frame {row[3]}, {row[4]} octets, at {row[5]}" for row in rows if row[0] == "background"]
    assert starts, "no start to draw"
    assert titles(groups["frames"], "s") == Counter(starts), "other boxes than starts"
    assert titles(groups["frames"], "other") == Counter(others), "other grey boxes than background starts"
    assert Counter(mark.findtext(f"{SPACE}title") for mark in groups["offers"]) == Counter(offered), "other triangles than offers"
    crosses = [mark for mark in groups["offers"].iter(f"{SPACE}path") if mark.get("class") == "drop"]
    assert len(crosses) == len(reasons), "other crosses than drops"
    assert len(groups["curves"]) == len(starts), "other curves than starts"
    gates = [gate for gate in groups["gates"] if gate.get("class") in ("even", "odd")]
    boxes = list(groups["frames"].iter(f"{SPACE}rect"))
    assert all(is_within(box, gates) for box in boxes), "a box outside the open gates"
    marks = [mark for group in ("gates", "curves") for mark in groups[group]] + boxes
    assert all(mark.findtext(f"{SPACE}title") for mark in marks), "a mark without a title"


def ends(words: list[str], status: int, line: str, text: bytes = b"") -> None:
    """Checks that ./draw ends with this status and without output. Standard error is one line that begins with this text, and perhaps
    indented lines that explain it."""
    ended = draw(words, text)
    errors = ended.stderr.decode()
    others = errors.splitlines()[1:]
    is_one = errors.startswith(line) and errors.endswith("\n") and all(other.startswith("  ") for other in others)
    assert ended.returncode == status and is_one and not ended.stdout, f"{words}: {ended}"


def with_offers(count: int) -> bytes:
    """Returns an input with this number of marks. Its offers belong to no admitted stream, so each is dropped and has no start."""
    first = (TOP / "examples/one-link.txt").read_text()
    return f"{first}%%\n%%\nat,bridge,stream,octets\n".encode() + b"0,a,x,64\n" * count


def plan_of(bridges: list[str], stations: list[str], ends: list[tuple[str, str]], streams: list[dict]) -> str:
    """Returns a plan with links of 1 Gb/s from end to end."""
    links = [{"from": source, "to": target, "rate": 1000, "delay": 500} for source, target in ends]
    network = {"cycle": 125_000, "guard": 5000, "bridges": bridges, "stations": stations, "links": links, "streams": streams}
    return text_of(network)


def large_scenario() -> str:
    """Returns a scenario of 33 bridges, too many without --large. Its calls and offers are those that the program makes for 6 cycles."""
    bridges = ["a", *(f"a{number}" for number in range(32))]
    stream = {"name": "x", "octets": 200, "path": ["a31", "a", "s"], "interval": 250_000, "size": 200}
    plan = plan_of(bridges, ["s"], [("a31", "a"), ("a", "s")], [stream])
    return "%%\n".join([plan, plan, "0 admit x\n", "at,bridge,stream,octets\n0,a31,x,200\n250000,a31,x,200\n"])


def draw_whole(path: Path) -> None:
    """Draws a run of an example, which gets the parts that it lacks."""
    text = scenario_of(path.read_text())
    drawn = draw(["--cycles", "6"], text.encode())
    assert drawn.returncode == 0, drawn.stderr
    compare(6, text, drawn.stdout)


def draw_plan(path: Path) -> None:
    """Draws a run of a plan with its script and its offers, all given as files."""
    files = [path, *(path.with_name(path.name.replace("plan.toml", end)) for end in ("calls.txt", "offers.csv"))]
    drawn = draw(["--cycles", "6", *map(str, files)])
    assert drawn.returncode == 0, drawn.stderr
    compare(6, "%%\n".join(file.read_text() for file in [path, *files]), drawn.stdout)


def studio() -> tuple[str, bytes]:
    """Returns an input with drops and background frames, and its picture."""
    text = "%%\n".join((TOP / name).read_text() for name in STUDIO)
    return text, (TOP / "docs/studio.svg").read_bytes()


def draw_studio() -> None:
    text, picture = studio()
    assert draw([*STUDIO, "--cycles", "5"]).stdout == picture, "docs/studio.svg is another picture"
    compare(5, text, picture)


def draw_by_files() -> None:
    """Checks that domain and streams in one file and in two files give the same picture."""
    text, picture = studio()
    domain, streams, rest = text.split("%%\n", 2)
    with tempfile.TemporaryDirectory() as folder:
        names = [f"{folder}/{name}" for name in ("plan.toml", "domain.toml", "streams.toml", "rest.txt")]
        for name, part in zip(names, (domain + streams, domain, streams, rest)):
            Path(name).write_text(part)
        assert draw(["--cycles", "5", names[0], names[3]]).stdout == picture, "a plan draws otherwise"
        assert draw(["--cycles", "5", *names[1:3], "-"], rest.encode()).stdout == picture, "two files draw otherwise"


def draw_alone() -> None:
    """Draws a plan whose streams have traffic. The picture is the same if the program makes the calls, the offers, or both."""
    plan = (TOP / ALONE).read_bytes()
    # a path of the plan has two bridges at most, so the offers end two cycles before the run
    offers = run([PROGRAM, "offers", "--cycles", "6", ALONE]).stdout
    calls = calls_of(network_of(plan.decode())["streams"]).encode()
    whole = draw(["--cycles", "8"], b"%%\n".join([plan, plan, calls, offers]))
    assert whole.returncode == 0 and whole.stdout, whole.stderr
    assert draw(["--cycles", "8", ALONE]).stdout == whole.stdout, "a plan alone draws otherwise"
    for part in (calls, offers):
        assert draw(["--cycles", "8", ALONE, "-"], part).stdout == whole.stdout, "a plan with one part draws otherwise"


def draw_large() -> None:
    """Draws a scenario of 33 bridges, and its plan alone."""
    text = large_scenario()
    drawn = draw(["--large", "--cycles", "6"], text.encode())
    assert drawn.returncode == 0, drawn.stderr
    compare(6, text, drawn.stdout, ("--large",))
    plan = text.split("%%\n")[0]
    assert draw(["--cycles", "6", "-", "--large"], plan.encode()).stdout == drawn.stdout, "a plan alone draws otherwise"


def draw_most_marks() -> None:
    assert draw(["--cycles", "5"], with_offers(20_000)).returncode == 0, "20,000 marks are refused"


def plan_groups(words: list[str], text: bytes = b"") -> dict[str, xml.Element]:
    """Returns the groups of a plan's picture by their names."""
    drawn = draw(["--plan", "--layout", "own", *words], text)
    assert drawn.returncode == 0 and not drawn.stderr, drawn.stderr
    return {group.get("id"): group for group in xml.fromstring(drawn.stdout).iter(f"{SPACE}g") if group.get("id")}


def texts(element: xml.Element, kind: str = "") -> list[str]:
    """Returns the texts of an element whose class begins with `kind`."""
    return [text.text for text in element.iter(f"{SPACE}text") if text.get("class", "").startswith(kind)]


def rectangles(group: xml.Element) -> list[tuple[float, float, float, float]]:
    """Returns the sides of the first rectangle of each child: left, right, top, bottom."""
    boxes = [[float(next(child.iter(f"{SPACE}rect")).get(name)) for name in ("x", "y", "width", "height")] for child in group]
    return [(x, x + width, y, y + height) for x, y, width, height in boxes]


def check_apart(groups: dict[str, xml.Element]) -> None:
    """Checks that no node or label covers another one."""
    boxes = rectangles(groups["nodes"]) + rectangles(groups["labels"])
    for index, one in enumerate(boxes):
        for other in boxes[:index]:
            covers = one[0] < other[1] and other[0] < one[1] and one[2] < other[3] and other[2] < one[3]
            assert not covers, f"{one} covers {other}"


def compare_plan(words: list[str], text: bytes = b"", more: tuple[str, ...] = ()) -> None:
    """Compares a plan's picture with the output of `load`. It has each link once, with its share and its rate, and each linked node once."""
    groups = plan_groups([*words, *more], text)
    rows = [row.split(",") for row in run([PROGRAM, "load", *words], text).stdout.decode().splitlines()[1:]]
    assert rows, "no link to draw"
    rates = [row[1] for row in rows]
    common = max(rates, key=rates.count)
    wanted = []
    for link, rate, budget, held, _, _, streams, used in rows:
        shown = f"{int(rate) / 1000:g} Gb/s" if int(rate) >= 1000 else f"{rate} Mb/s"
        title = f"{link}: {used} %, {held} of {budget} octets a cycle, {streams} stream{'' if streams == '1' else 's'}, {shown}"
        wanted.append((title, [f"{used} %"], [] if rate == common else [shown]))
    labels = [(label.findtext(f"{SPACE}title"), texts(label, "share"), texts(label, "rate")) for label in groups["labels"]]
    assert labels == wanted, f"other labels than {wanted}: {labels}"
    assert [link.findtext(f"{SPACE}title") for link in groups["links"]] == [title for title, _, _ in wanted], "other links than in load"
    ends = {end for row in rows for end in row[0].split(">")}
    nodes = [texts(node, "name")[0] for node in groups["nodes"]]
    assert len(nodes) == len(set(nodes)) and ends <= set(nodes), f"other nodes than {ends}: {nodes}"
    check_apart(groups)


def check_chosen(words: list[str], hops: dict[str, str], bounds: list[list[str]]) -> dict[str, xml.Element]:
    """Checks that just the chosen stream's links have hop numbers, namely these, and that its table has these rows."""
    groups = plan_groups(words)
    numbered = {label.findtext(f"{SPACE}title").split(":")[0]: texts(label, "count") for label in groups["labels"]}
    assert {link: number for link, (number,) in ((link, number) for link, number in numbered.items() if number)} == hops, numbered
    haloes = [link.findtext(f"{SPACE}title").split(":")[0] for link in groups["links"] if any(path.get("class") == "halo" for path in link)]
    assert sorted(haloes) == sorted(hops), haloes
    cells = texts(groups["bounds"])[1:]
    assert [cells[at : at + 6] for at in range(6, len(cells), 6)] == bounds, cells
    check_apart(groups)
    return groups


def draw_stage_stream() -> None:
    """Draws a microphone's tree through the stage to two listeners, where hop 2 is two links. The bounds of the plan were worked out by hand:
    the access link takes (256 + 8) * 80 + 900; then the least is 125,000 + 1 + 72 * 8 + 900, and the most 2 * 125,000 + 8 * (1,344 - 12) +
    900 to the desk, and with 5,044 for 1,344 to the recorder."""
    hops = {"stage>floor": "1", "floor>desk": "2", "floor>recorder": "2"}
    times = ["2", "148,497 ns"]
    desk = ["desk", *times, "283,576 ns", "500,000 ns", "\u2713 in time"]
    recorder = ["recorder", *times, "313,176 ns", "500,000 ns", "\u2713 in time"]
    groups = check_chosen(["--stream", "mic-l", ALONE], hops, [desk, recorder])
    assert [texts(node, "bound") for node in groups["nodes"] if texts(node, "bound")] == [
        ["at most 283,576 ns", "\u2713 in time"],
        ["at most 313,176 ns", "\u2713 in time"],
    ], "other bounds at listeners"
    offered = [texts(node, "name") for node in groups["nodes"] if any(mark.get("class") == "offer" for mark in node)]
    assert offered == [["stage"]], offered
    drawn = draw(["--plan", "--stream", "mic-l", ALONE]).stdout
    assert drawn == (TOP / "docs/plan.svg").read_bytes(), "docs/plan.svg is another picture"


def draw_other_verdicts() -> None:
    """Draws a stream that may be late, and one without a deadline."""
    hops = {"floor>control": "1", "control>recorder": "2"}
    row = ["recorder", "2", "126,077 ns", "365,988 ns"]
    words = ["examples/studio-plan.toml", "--stream"]
    check_chosen([*words, "camera-1"], hops, [[*row, "365,000 ns", "! may be late"]])
    drawn = plan_groups([*words, "camera-2"])
    assert texts(drawn["bounds"])[-2:] == ["none", None], texts(drawn["bounds"])


def draw_one_link() -> None:
    """Draws one link. 1,500 octets cost 1,500 + 20 * 23 = 1,960 of (125,000 - 5,000) / 8 = 15,000, which is 13.06 percent."""
    compare_plan(["examples/one-link.txt"])
    groups = plan_groups(["examples/one-link.txt"])
    assert texts(groups["labels"]) == ["13.0 %"], texts(groups["labels"])
    assert [path.get("class") for path in groups["links"][0].iter(f"{SPACE}path")] == ["line k1", "head k1"], "another colour"


def draw_over_budget() -> None:
    """Draws two streams of 1,960 octets on a link of 3,062. The picture shows 128 percent on red, and no bounds."""
    compare_plan(["examples/axes-far.toml"])
    groups = plan_groups(["examples/axes-far.toml", "--stream", "axis-5"])
    assert "Not admitted: 1 link exceeds its budget" in texts(groups["heading"]), texts(groups["heading"])
    assert texts(groups["labels"], "share on") == ["128.0 %"], "the link over its budget isn't marked"
    kinds = [path.get("class") for path in groups["links"][1].iter(f"{SPACE}path")]
    assert kinds == ["halo", "line k5", "head k5"], kinds
    assert texts(groups["bounds"], "alarm") == ["No bounds: cqf: stream 2: BudgetShort 1 1102"], texts(groups["bounds"])


def shape_of(count: int, pairs: list[tuple[int, int]], stations: int = 1) -> bytes:
    """Returns a plan of bridges with stations. The links of these pairs go both ways, and each bridge has a stream to its first station."""
    names = [f"s{bridge}-{number}" for bridge in range(count) for number in range(stations)]
    ends = [(f"b{one}", f"b{other}") for pair in pairs for one, other in (pair, pair[::-1])]
    ends += [(f"b{bridge}", f"s{bridge}-{number}") for bridge in range(count) for number in range(stations)]
    streams = [{"name": f"x{bridge}", "octets": 200, "path": [f"b{bridge}", f"s{bridge}-0"]} for bridge in range(count if stations else 0)]
    return plan_of([f"b{bridge}" for bridge in range(count)], names, ends, streams).encode()


def shapes() -> Iterator[tuple[str, bytes]]:
    """Yields a network of each shape that is laid out in its own way."""
    yield "a line of 8", shape_of(8, [(bridge, bridge + 1) for bridge in range(7)])
    yield "a ring of 6", shape_of(6, [(bridge, (bridge + 1) % 6) for bridge in range(6)])
    yield "a star with many stations", shape_of(1, [], 9)
    yield "a tree", shape_of(7, [((bridge - 1) // 2, bridge) for bridge in range(1, 7)], 2)
    yield "a mesh", shape_of(10, [(one, other) for one in range(10) for other in range(one) if (one * other) % 4 == 2 or one == other + 1])
    # one link is faster than the others, so its rate is written beside it
    short = shape_of(3, [(0, 1), (1, 2)], 3).replace(b"rate = 1000", b"rate = 10000", 1)
    yield "long names", short.replace(b'"b', b'"bridge-with-a-rather-long-name-').replace(b'"s', b'"station-with-a-long-name-')
    yield "two parts and a bridge alone", shape_of(5, [(0, 1), (2, 3)])


def draw_ring_round() -> None:
    """Checks that the bridges of a ring are drawn in their order, so that neighbours are nearest."""
    groups = plan_groups(["-"], dict(shapes())["a ring of 6"])
    middles = {texts(node, "name")[0]: complex(x + right, y + bottom) / 2 for node, (x, right, y, bottom) in zip(groups["nodes"], rectangles(groups["nodes"]))}
    ring = [middles[f"b{bridge}"] for bridge in range(6)]
    sides = [abs(ring[k] - ring[k - 1]) for k in range(6)]
    across = [abs(ring[k] - ring[k - 3]) for k in range(6)]
    assert max(sides) < min(across) and max(sides) < 1.3 * min(sides), (sides, across)


def draw_plan_by_files() -> None:
    """Checks that two files, one file, parts in one file, and standard input give the same picture."""
    path = TOP / "examples/studio-plan.toml"
    picture = draw(["--plan", str(path)]).stdout
    domain, first, streams = path.read_text().partition("[[streams]]\n")
    with tempfile.TemporaryDirectory() as folder:
        names = [f"{folder}/{name}" for name in ("domain.toml", "streams.toml")]
        for name, part in zip(names, (domain, first + streams)):
            Path(name).write_text(part)
        assert draw(["--plan", *names]).stdout == picture, "two files draw otherwise"
    for words in (["--plan"], ["--plan", "-"], ["-", "--plan", "--layout", "auto"]):
        assert draw(words, path.read_bytes()).stdout == picture, f"{words} draws otherwise"
    assert draw(["--plan", "examples/studio.txt"]).stdout == picture, "parts in one file draw otherwise"


def trials_of_plans() -> Iterator[Trial]:
    """Yields each trial of a plan's picture with its name."""
    for path in [*sorted((TOP / "examples").glob("*-plan.toml")), TOP / ALONE]:
        yield f"the plan {path.name}", partial(compare_plan, [str(path)])
    for name, text in shapes():
        yield name, partial(compare_plan, ["-"], text)
    yield "a ring's order", draw_ring_round
    yield "a stream of the stage", draw_stage_stream
    yield "other verdicts", draw_other_verdicts
    yield "one link", draw_one_link
    yield "a plan over its budget", draw_over_budget
    yield "a plan by its files", draw_plan_by_files
    large = shape_of(257, [(bridge, bridge + 1) for bridge in range(256)], 0)
    yield "too many nodes", partial(ends, ["--plan", "--large", "-"], 1, "draw: TooMany 257\n", large)
    yield "a plan that is refused", partial(ends, ["--plan", "examples/mic-network.toml"], 1, "cqf: network: OpenCycle\n")
    yield "a stream that isn't there", partial(ends, ["--plan", "--stream", "none", ALONE], 1, "draw: UnknownStream none\n")
    yield "a plan that isn't there", partial(ends, ["--plan", "examples/none.toml"], 4, "draw: examples/none.toml: input fault\n")
    for words in (["--plan", "--cycles", "5"], ["--cycles", "5", "--stream", "x"], ["--cycles", "5", "--layout", "own"], ["--plan", "--layout", "round"]):
        yield f"the words {words}", partial(ends, words, 2, "draw: ")


def trials() -> Iterator[Trial]:
    """Yields each trial with its name."""
    examples = TOP / "examples"
    for path in sorted(examples.glob("*.txt")):
        if path.name not in DRAWN_APART and not path.name.endswith("-calls.txt"):
            yield path.name, partial(draw_whole, path)
    for path in sorted(examples.glob("*-plan.toml")):
        yield path.name, partial(draw_plan, path)
    yield "the studio", draw_studio
    yield "one file and two", draw_by_files
    yield "a plan alone", draw_alone
    yield "a large plan", draw_large
    yield "a large plan without the word", partial(ends, ["--cycles", "6"], 1, "cqf: domain: TooMany\n", large_scenario().encode())
    for words in ([], ["--cycles", "0"], ["--cycles", "33"], ["--cycles", "five"], ["--cycles", "5", "--dark"], ["--cycles", "5", "-", "-"]):
        yield f"the words {words}", partial(ends, words, 2, "draw: ")
    yield "a file that isn't there", partial(ends, ["--cycles", "5", "examples/none.toml"], 4, "draw: examples/none.toml: input fault\n")
    yield "no input", partial(ends, ["--cycles", "5"], 1, "cqf: parts\n")
    yield "too many marks", partial(ends, ["--cycles", "5"], 1, "draw: TooMany 20001\n", with_offers(20_001))
    yield "the most marks", draw_most_marks
    yield from trials_of_plans()


sys.exit(try_all(Counts("draws"), trials()))

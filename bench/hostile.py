#!/usr/bin/env python3
"""Measures the cost of hostile inputs: long inputs with nothing useful in them, and inputs with very many mistakes.

    bench/hostile.py [PROGRAM]    PROGRAM is ./cqf by default

The first inputs are refused. For each, the script prints the seconds, the peak memory in MB, the status, and the start of the message.
cqf reads 67,108,865 octets at most. Each of these octets should take a few octets of memory, and time should grow with their number:

- sixteen files that never end; one limit bounds them together;
- many empty files;
- a first line of blanks alone, and one of a single word, each as long as the input may be;
- one line of a plan as long as that, and one key of very many parts; both are refused before parsing.

The next inputs are texts that are parsed, and refusals that are explained. Each is made in two sizes; the second is twice the first. For
each, the script prints the octets of the second size, the processor seconds of both, and the power by which the seconds grow. The power is
1 if they grow as the text does. It also prints the memory per octet of the second size, beyond what an empty file takes:

- keys of as many parts as are parsed, plain and in inline tables, and nested tables;
- explanations, printed up to 20 lines: a repeated branch, links to unknown ends whose names are close to those of stations, keys that no
  command knows, misspelt names in paths and in calls, duplicate links, missing and bad values;
- networks that take long to compute. One has streams in turns and many cycle times, and its last stream fits none of these. Its power is at
  least 2, since for each cycle time cqf looks at what each stream is placed beside. Another has streams that offer nothing;
- `hops` of offers to 62 listeners, for all frames and for one frame; this input is accepted;
- on threads, repeated calls for one stream: with a path of 64,000 names, and with a tree of 63 links.
"""
import math
import os
import subprocess
import sys
from pathlib import Path

sys.path.insert(0, str(Path(__file__).resolve().parent.parent))
from common import TOP
from common.network_files import toml_of
from common.running import measured, temporary_folder, write
from common.words import Reader

MILLIONS = 67


def written(room, name, first, million, last):
    """Writes a file of `first`, `MILLIONS` million times the octet `million`, and `last`. Returns its path."""
    path = os.path.join(room, name)
    with open(path, "wb") as it:
        it.write(first)
        for _ in range(MILLIONS):
            it.write(million * 1_000_000)
        it.write(last)
    return path


def cases(room):
    """Yields each case's name, words and standard input."""
    empty, parts = os.path.join(room, "empty"), os.path.join(room, "parts.toml")
    open(empty, "wb").close()
    with open(parts, "wb") as it:
        it.write(b"a" + b".a" * 1000 + b" = 1\n")
    yield "sixteen files that never end", ["compile"] + ["/dev/zero"] * 16, empty
    yield "20,000 empty files", ["compile"] + [empty] * 20_000, empty
    yield "a first line of blanks", [], written(room, "blanks", b"", b" ", b"\nx")
    yield "a first line of one word", [], written(room, "word", b"", b"x", b"\nx")
    yield "a line of a plan", ["compile", written(room, "line.toml", b"[", b"x", b"]\n")], empty
    yield "a key of 1,001 parts", ["compile", parts], empty


HEAD = """cycle = 125000
guard = 5000
bridges = ["a", "b"]
stations = ["s"]
"""
LINK = """[[links]]
from = "a"
to = "{to}"
rate = {rate}
delay = 500
"""
STREAM = """[[streams]]
name = "{name}"
octets = 64
path = [{path}]
"""
LINKS = LINK.format(to="b", rate=1000) + LINK.format(to="s", rate=1000).replace('"a"', '"b"')
PATH = '"a", "b", "s"'


def network(top="", links="", streams=""):
    """Returns a plan with more keys at its top, more links and more streams."""
    return top + HEAD + LINKS + links + STREAM.format(name="x", path=PATH) + streams


def listed(texts):
    """Returns an array with each text on its own line."""
    return "x-array = [\n" + "\n".join(f"{text}," for text in texts) + "\n]\n"


def of_many(form, count):
    """Returns `count` texts of a form, each with its number."""
    return "".join(form.format(it) for it in range(count))


def of_nodes(count, links, streams):
    """Returns a plan with `count` stations, and with these links and streams."""
    stations = ",\n".join(f'"station-number-{it:05}"' for it in range(count))
    return HEAD.replace('["s"]', f"[{stations}]") + links + streams


def line_of(value):
    """Returns a value of an array on its own line."""
    return f"{toml_of(value)},"


def domain_of(cycle, guard, bridges, stations, ends):
    """Returns the lines of a domain, with a link from end to end on each line."""
    lines = [f"cycle = {cycle}", f"guard = {guard}", f"bridges = {toml_of(bridges)}", f"stations = {toml_of(stations)}", "links = ["]
    return [*lines, *(line_of({"from": start, "to": end, "rate": 1000, "delay": 500}) for start, end in ends), "]"]


def star(count, cycle):
    """Returns the lines of a domain: one bridge leads to another, and that one to `count` stations. Then streams begin."""
    stations = [f"s{it}" for it in range(count)]
    return [*domain_of(cycle, 4000, ["a", "b"], stations, [("a", "b"), *(("b", it) for it in stations)]), "%%", "streams = ["]


def turns(count):
    """Returns a network file of `count` streams that are offered in turns, and of a last one that fits no cycle time."""
    interval = 720_720_000
    lines = star(count, [it for it in range(100_000, 10_000_000) if interval % it == 0][: count // 10])
    for it in range(count):
        stream = {"name": f"x{it}", "from": "a", "to": f"s{it}"}
        stream |= {"octets": 64, "every": 80, "phase": it % 80} if it % 2 else {"in-step": True, "interval": interval, "size": 64}
        lines.append(line_of(stream))
    return "\n".join(lines + [line_of({"name": "last", "from": "a", "to": "s0", "octets": 60_000}), "]", ""])


def silent(count):
    """Returns a plan of `count` streams without traffic."""
    lines = star(100, 10_000_000)
    lines += [line_of({"name": f"x{it}", "octets": 64, "path": ["a", "b", f"s{it % 100}"]}) for it in range(count)]
    return "\n".join(lines + ["]", ""])


def with_stream(domain, octets, paths):
    """Returns a plan of one stream, with a path on each line."""
    return "\n".join([*domain, "[[streams]]", 'name = "x"', f"octets = {octets}", "paths = [", *map(line_of, paths), "]", ""])


def many_listeners():
    """Returns a plan whose one stream has 62 listeners, 31 at each of its two bridges."""
    stations = [(bridge, f"{bridge}{number}") for bridge in "ab" for number in range(31)]
    domain = domain_of(10_000, 1000, ["a", "b"], [name for _, name in stations], [("a", "b"), *stations])
    return with_stream(domain, 256, [["a", name] if bridge == "a" else ["a", "b", name] for bridge, name in stations])


def to_many(count):
    """Returns `count` offers of the stream of `many_listeners`, four a cycle."""
    return "at,bridge,stream,octets\n" + "".join(f"{number * 2500},a,x,64\n" for number in range(count))


def long_path():
    """Returns a plan whose one stream has a path of 64,000 names."""
    return network().replace(PATH, '"a",\n' * 64_000)


def tree():
    """Returns a plan whose one stream goes through 32 bridges to 32 stations at the last bridge."""
    bridges, stations = [f"b{it}" for it in range(32)], [f"s{it}" for it in range(32)]
    domain = domain_of(125_000, 5000, bridges, stations, [*zip(bridges, bridges[1:]), *((bridges[-1], it) for it in stations)])
    return with_stream(domain, 64, [[*bridges, it] for it in stations])


def growing():
    """Yields each case's name, its size, its words, and a function that returns the texts of its files for a size."""
    compiled = ["compile", "network.toml"]
    branches = "[[streams]]\nname = \"y\"\noctets = 64\npaths = [{}]\n"
    unknown = '[[links]]\nfrom = "a"\nto = "staiton-number-{:05}"\nrate = 1000\ndelay = 500\n'
    near = '[[streams]]\nname = "s{0}"\noctets = 64\npath = ["a", "staiton-number-{0:05}"]\n'
    yield "keys of 4 parts", 40_000, compiled, lambda n: [network(of_many("x-{}.a.b.c = 1\n", n))]
    yield "inline tables of keys of 4 parts", 40_000, compiled, lambda n: [network(listed(["{a.a.a.a=1}"] * n))]
    yield "such tables, 15 in one another", 2_000, compiled, lambda n: [network(listed([("{a.a.a.a=" * 15 + "1" + "}" * 15)] * n))]
    yield "inline tables of a key", 60_000, compiled, lambda n: [network(listed(["{a=1}"] * n))]
    yield "inline tables 60 deep", 2_000, compiled, lambda n: [network(listed(["{a=" * 60 + "1" + "}" * 60] * n))]
    yield "arrays 60 deep", 4_000, compiled, lambda n: [network(listed(["[" * 60 + "]" * 60] * n))]
    yield "one branch over and over", 2_000, compiled, lambda n: [network(streams=branches.format(",\n".join([f"[{PATH}]"] * n)))]
    yield "links to unknown ends", 1_500, compiled, lambda n: [of_nodes(n, of_many(unknown, n), "")]
    yield "links that stand twice", 8_000, compiled, lambda n: [network(links=LINK.format(to="b", rate=1000) * n)]
    yield "links of another rate", 8_000, compiled, lambda n: [network(links=LINK.format(to="b", rate=7) * n)]
    yield "links without a rate", 8_000, compiled, lambda n: [network(links=LINK.format(to="b", rate=1).replace("rate", "x-rate") * n)]
    yield "unknown keys", 40_000, compiled, lambda n: [network(streams=of_many("k{} = 1\n", n))]
    yield "misspelt names in paths", 2_000, ["compile", "--large", "network.toml"], lambda n: [of_nodes(n, LINKS[: len(LINKS) // 2], of_many(near, n))]
    yield "misspelt names in calls", 5_000, ["run", "--cycles", "2", "network.toml", "calls.txt"], lambda n: [
        network(streams="".join(STREAM.format(name=f"stream-{it:05}", path=PATH) for it in range(n))),
        of_many("0 admit straem-{:05}\n", n),
    ]
    yield "streams in turns", 1_000, ["plan", "--large", "net.txt"], lambda n: [turns(n)]
    yield "streams that offer nothing", 16_000, ["offers", "--cycles", "1", "--large", "net.txt"], lambda n: [silent(n)]
    hops = ["hops", "--cycles", "50004", "network.toml", "offers.csv"]
    yield "hops of 62 listeners", 200_000, hops, lambda n: [many_listeners(), to_many(n)]
    yield "hops of one frame of these", 200_000, [*hops, "--frame", "7"], lambda n: [many_listeners(), to_many(n)]
    threads = ["run", "--cycles", "10", "--large", "--threads", "network.toml", "calls.txt", "offers.csv"]
    yield "calls on threads, a path of 64,000 names", 4_000, threads, lambda n: [long_path(), "0 admit x\n" * n, to_many(0)]
    yield "calls on threads, a tree of 63 links", 8_000, threads, lambda n: [tree(), "0 admit x\n0 withdraw x\n" * (n // 2), to_many(0)]
    yield "lines that are no calls", 50_000, ["run", "--cycles", "2", "network.toml", "calls.txt"], lambda n: [network(), "0 admti x\n" * n]


def measured_with(program, room, words, texts):
    """Returns the octets of some texts, and what a run with them costs."""
    for name, text in zip([it for it in words if "." in it], texts):
        write(f"{room}/{name}", text)
    cost = measured([program, *words], cwd=room, stdin=subprocess.DEVNULL, stdout=subprocess.DEVNULL, stderr=subprocess.PIPE)
    return sum(map(len, texts)), cost


def print_growing(program, room):
    """Prints a row for each case that is made in two sizes."""
    print("\n| Input | octets | seconds, of half | of all | power | octets of memory an octet | status | what is said |\n|---|---|---|---|---|---|---|---|")
    _, empty = measured_with(program, room, ["compile", "network.toml"], [""])
    for name, size, words, texts in growing():
        _, half = measured_with(program, room, words, texts(size // 2))
        octets, cost = measured_with(program, room, words, texts(size))
        seconds = half.processor_seconds, cost.processor_seconds
        power = math.log2(max(seconds[1], 0.01) / max(seconds[0], 0.01))
        each = (cost.memory - empty.memory) / octets
        print(f"| {name} | {octets} | {seconds[0]:.2f} | {seconds[1]:.2f} | {power:.1f} | {each:.0f} | {cost.status} | {cost.first_words()} |", flush=True)


def main():
    reader = Reader(__doc__)
    reader.add_program(str(TOP / "cqf"))
    program = reader.parse_args().program
    print("| Input | seconds | MB | status | what is said |\n|---|---|---|---|---|")
    with temporary_folder() as room:
        for name, words, given in cases(room):
            with open(given, "rb") as standard:
                cost = measured([program, *words], stdin=standard, stdout=subprocess.DEVNULL, stderr=subprocess.PIPE)
            print(f"| {name} | {cost.seconds:.2f} | {cost.memory / 1e6:.0f} | {cost.status} | {cost.first_words()} |", flush=True)
        print_growing(program, room)


main()

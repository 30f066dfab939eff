"""A plan as the trials use it: its script, its lists, the interfaces of its bridges, and the frames that are offered."""
import csv
import dataclasses
import io
import re
from collections.abc import Iterator
from pathlib import Path

from common.network_files import LONGEST, SHORTEST, network_of, paths_of, tables_of
from common.running import call

VLANS = (10, 11)
# the first cycle with offers, and the number of cycles after the last one
FIRST, MORE = 4, 12
PORT = re.compile(r'^    port (\w+) "\$\{\1:-\}" (\S+) "interface of \S+ to (.*)"$')
FRAMES = re.compile(r'^    frames \S+ "\$\{(\w+):-\}" "\$\{(\w+):-\}" (\S+)(?: (\d+))?$')

# an entry of a link's list: mask and time in ns; an entry of a gate's list: `open` or `close`, time in ns, class and octets, -1 for none
LinkList = list[tuple[int, int]]
GateList = list[tuple[str, int, int, int]]


class Refused(Exception):
    """The error that `cqf` reports for an input."""


def output_of(program: str, *words: str) -> str:
    done = call([program, *words])
    if done.returncode != 0:
        raise Refused(f"cqf {' '.join(words)}: {done.stderr.strip()}")
    return done.stdout


@dataclasses.dataclass(frozen=True)
class Offer:
    """A frame that reaches its stream's first bridge; `at` is in ns after the beginning of cycle 0."""

    at: int
    stream: int
    octets: int


def frames_of(octets: int) -> Iterator[int]:
    """Yields the sizes of the fewest frames that have this number of octets together."""
    while octets > 0:
        size = min(octets, LONGEST)
        # the rest must be a frame too
        if 0 < octets - size < SHORTEST:
            size -= SHORTEST
        yield size
        octets -= size


class Plan:
    """The plan of a TOML file. The streams' addresses begin at `first_address`, so that two plans can have different ones."""

    def __init__(self, program: str, path: Path, form: tuple[str, ...] = ("--format", "tc"), first_address: int = 1) -> None:
        self.program, self.path, self.first_address = program, path, first_address
        network = network_of(path.read_text(encoding="utf-8"))
        self.cycle, self.bridges, self.stations = network["cycle"], network["bridges"], network["stations"]
        self.nodes = [*self.bridges, *self.stations]
        self.links = {(it["from"], it["to"]): it for it in network["links"]}
        self.streams = network["streams"]
        for stream in self.streams:
            stream["paths"] = paths_of(stream)
        self.numbers = {stream["name"]: number for number, stream in enumerate(self.streams)}
        self.script = output_of(program, "compile", *form, str(path))
        # lists begin at a multiple of this
        self.multiple = self.cycle * (80 if any(it.get("every", 1) > 1 for it in self.streams) else 2)
        self.link_lists, self.gate_lists = self.read_lists(output_of(program, "compile", str(path)))
        self.indexes: dict[tuple[str, int], int] = {}
        self.variables = {bridge: dict(self.variables_of(bridge)) for bridge in self.bridges}

    def read_lists(self, text: str) -> tuple[dict[tuple[str, str], LinkList], dict[tuple[str, int], GateList]]:
        """Returns the lists that `compile` prints: those of links, and those of gates by bridge and stream."""
        links: dict[tuple[str, str], LinkList] = {}
        gates: dict[tuple[str, int], GateList] = {}
        for line in text.splitlines():
            words = line.split()
            if words[0] == "link":
                at = links.setdefault(tuple(words[1].split(">")), [])
            elif words[0] == "stream":
                at = gates.setdefault((words[4], int(words[1])), [])
            elif words[0] == "open":
                at.append(("open", int(words[2]), int(words[1]), -1 if words[3] == "-" else int(words[3])))
            elif words[0] == "closed":
                at.append(("close", int(words[1]), -1, -1))
            else:
                at.append((int(words[0], 16), int(words[1])))
        return links, gates

    # Interfaces

    def interface(self, node: str, other: str) -> str:
        """Returns the interface of a node to its neighbour."""
        return f"n{self.nodes.index(node)}n{self.nodes.index(other)}"

    def talkers(self) -> list[tuple[str, str]]:
        """Returns the talkers, each with its bridge. Streams at one bridge have the same talker if their names are the same up to the first `-`."""
        return sorted({self.talker_of(number) for number in range(len(self.streams))})

    def talker_of(self, number: int) -> tuple[str, str]:
        return self.edge(number), self.streams[number]["name"].split("-")[0]

    def talker(self, number: int) -> int:
        return self.talkers().index(self.talker_of(number))

    def to_talker(self, bridge: str, talker: int) -> str:
        """Returns the interface of a bridge to a talker."""
        return f"n{self.bridges.index(bridge)}t{talker}"

    def edge(self, number: int) -> str:
        """Returns a stream's first bridge."""
        return self.streams[number]["paths"][0][0]

    def way_in(self, bridge: str, number: int) -> str:
        """Returns the interface at which a stream enters a bridge."""
        path = next(it for it in self.streams[number]["paths"] if bridge in it)
        hop = path.index(bridge)
        return self.interface(bridge, path[hop - 1]) if hop else self.to_talker(bridge, self.talker(number))

    def address(self, number: int) -> str:
        return f"03:00:00:00:{(self.first_address + number) // 256:02x}:{(self.first_address + number) % 256:02x}"

    def vlan(self, number: int) -> int:
        return VLANS[number % len(VLANS)]

    # The script

    def function_of(self, bridge: str) -> list[str]:
        """Returns the lines of a bridge's function."""
        name = re.search(rf'^"{re.escape(bridge)}"\) (\w+) ;;$', self.script, re.M).group(1)
        return re.search(rf"^{name}\(\) \{{\n(.*?)^\}}$", self.script, re.M | re.S).group(1).splitlines()

    def variables_of(self, bridge: str) -> Iterator[tuple[str, str]]:
        """Yields the variables of a bridge with their values, by what its function says of them. Notes the indexes of its gates."""
        for line in self.function_of(bridge):
            if port := PORT.match(line):
                name, neighbour, said = port.groups()
                if neighbour == '""':
                    yield name, self.to_talker(bridge, self.talker(self.numbers[said.split()[-1]]))
                else:
                    yield name, self.interface(bridge, neighbour)
            elif frames := FRAMES.match(line):
                number = self.numbers[frames[3]]
                self.indexes[bridge, number] = int(frames[4] or number + 1)
                yield frames[1], self.address(number)
                yield frames[2], str(self.vlan(number))

    def words_of(self, bridge: str) -> str:
        """Returns the variables of a bridge as words for `env`."""
        return " ".join(f"{name}={value}" for name, value in self.variables[bridge].items())

    def ways_in(self, bridge: str) -> list[str]:
        """Returns the interfaces of a bridge that may have gates."""
        return sorted({value for name, value in self.variables[bridge].items() if name.startswith(("IN_", "TALKER_"))})

    def ways_out(self, bridge: str) -> dict[str, tuple[str, str]]:
        """Returns the interfaces of a bridge that have lists, with their links."""
        return {self.interface(*link): link for link in self.links if link[0] == bridge}

    def gates_at(self, bridge: str) -> list[int]:
        """Returns the numbers of the streams that have a gate at a bridge."""
        return [number for at, number in self.gate_lists if at == bridge]

    # What is offered

    def own_cycles(self, number: int, count: int) -> list[int]:
        """Returns the cycles of a stream among the first `count` cycles with offers, or among more if that gives fewer than two."""
        every, phase = self.streams[number].get("every", 1), self.streams[number].get("phase", 0)
        return [it for it in range(FIRST, FIRST + max(count, 2 * every)) if it % every == phase]

    def sizes(self, number: int, number_of_cycle: int, keeps_word: bool) -> list[int]:
        """Returns the sizes of a stream's frames in a cycle of its own. In number_of_cycle, these are: its reservation; 64 octets more; 200 octets less, then
        a frame of 300, which exceeds the reservation, and one of 136, which doesn't; and a single frame. A talker that keeps its word sends only
        its reservation or the single frame."""
        octets = self.streams[number]["octets"]
        whole = list(frames_of(octets))
        if number_of_cycle % 4 == 1 and not keeps_word:
            return [*whole, SHORTEST]
        if number_of_cycle % 4 == 2 and not keeps_word and octets - 200 >= SHORTEST:
            return [*frames_of(octets - 200), 300, 136]
        return [min(octets, LONGEST)] if number_of_cycle % 4 == 3 else whole

    def offers(self, cycles: int, keeps_word: bool = False) -> list[Offer]:
        """Returns the frames of some cycles, by time. A stream that pauses also has a frame in a cycle that isn't its own."""
        found = []
        for number, stream in enumerate(self.streams):
            own = self.own_cycles(number, cycles)
            for number_of_cycle, cycle in enumerate(own):
                begins = cycle * self.cycle + self.cycle // 20 + number * 1000
                sizes = self.sizes(number, number_of_cycle, keeps_word)
                found += [Offer(begins + k * (self.cycle // 40), number, octets) for k, octets in enumerate(sizes)]
            if stream.get("every", 1) > 1:
                found.append(Offer((own[0] + 1) * self.cycle + self.cycle // 2, number, SHORTEST))
        return sorted(found, key=lambda it: it.at)

    def end(self, offers: list[Offer]) -> int:
        """Returns a cycle at which all frames have arrived."""
        return offers[-1].at // self.cycle + MORE

    def hops(self, offers: list[Offer], room: Path) -> tuple[dict[tuple[int, str], int], dict[int, str]]:
        """Returns what `cqf hops` reports of the offers, numbered from 1: each frame's cycle on each of its links, and the bridge that drops it."""
        rows = "".join(f"{it.at},{self.edge(it.stream)},{self.streams[it.stream]['name']},{it.octets}\n" for it in offers)
        (room / "offers.csv").write_text("at,bridge,stream,octets\n" + rows, encoding="utf-8")
        said = output_of(self.program, "hops", "--cycles", str(self.end(offers)), str(self.path), str(room / "offers.csv"))
        rows = list(csv.DictReader(io.StringIO(said)))
        cycles = {(int(it["frame"]), it["where"]): int(it["cycle"]) for it in rows if not it["dropped"]}
        return cycles, {int(it["frame"]): it["where"] for it in rows if it["dropped"]}


def older(path: Path, room: Path) -> Path:
    """Writes an older plan with the same network and talkers: half the octets, another order of streams, and one more stream."""
    text = path.read_text(encoding="utf-8")
    streams = network_of(text)["streams"]
    head = re.split(r"^%%$|^\[\[streams\]\]$|^streams\b", text, maxsplit=1, flags=re.M)[0]
    changed = [{**it, "name": f"{it['name']}-old", "octets": max(SHORTEST, it["octets"] // 2)} for it in reversed(streams)]
    changed.append({**changed[-1], "name": f"{changed[-1]['name']}-more", "octets": SHORTEST})
    keys = ("name", "octets", "every", "phase", "path", "paths")
    tables = tables_of("streams", ({key: it[key] for key in keys if key in it} for it in changed))
    made = room / f"older-{path.name}"
    made.write_text(head + tables, encoding="utf-8")
    return made

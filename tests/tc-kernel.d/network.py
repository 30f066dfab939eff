"""The network of a plan in the machine: a network namespace with a Linux bridge for each bridge, and one for each station, talker and host.
Hosts send frames that belong to no stream. Also what is sent and captured there.
"""
import dataclasses
from collections import defaultdict
from collections.abc import Iterator

from plan import Offer, Plan

# the first number of a frame that belongs to no stream
OTHERS = 100_000
# rate and delay of a talker's or host's cable: a frame reaches the bridge in some microseconds
TALKER = (8000, 0)
PORT = "learning off flood off mcast_flood off"


@dataclasses.dataclass(frozen=True)
class Line:
    """A cable: namespace and interface of its two ends, and the rate in Mb/s and delay in ns from each."""

    ends: tuple[tuple[str, str], tuple[str, str]]
    ways: tuple[tuple[int, int], tuple[int, int]]


def station_address(plan: Plan, station: str) -> str:
    return f"02:00:00:00:01:{plan.stations.index(station) + 1:02x}"


def at_talker(number: int) -> tuple[str, str]:
    """A talker's namespace and interface."""
    return f"talker.{number}", f"t{number}"


def at_host(plan: Plan, bridge: str) -> tuple[str, str]:
    """The namespace and interface of the host at a bridge."""
    return f"host.{plan.bridges.index(bridge)}", f"h{plan.bridges.index(bridge)}"


def hosted_paths(plan: Plan) -> dict[tuple[str, str], list[str]]:
    """The paths of frames that belong to no stream: the path of the first stream from a bridge to a station."""
    ways: dict[tuple[str, str], list[str]] = {}
    for stream in plan.streams:
        path = stream["paths"][0]
        ways.setdefault((path[0], path[-1]), path)
    return ways


def lines_of(plan: Plan) -> Iterator[Line]:
    for (start, end), link in plan.links.items():
        back = plan.links.get((end, start))
        # a cable for links both ways is laid once
        if back is None or (plan.nodes.index(start) < plan.nodes.index(end)):
            ends = ((start, plan.interface(start, end)), (end, plan.interface(end, start)))
            yield Line(ends, tuple((it["rate"], it["delay"]) for it in (link, back or link)))
    for number, (bridge, _) in enumerate(plan.talkers()):
        yield Line((at_talker(number), (bridge, plan.to_talker(bridge, number))), (TALKER, TALKER))
    for bridge in sorted({it for it, _ in hosted_paths(plan)}):
        yield Line((at_host(plan, bridge), (bridge, f"n{plan.bridges.index(bridge)}h")), (TALKER, TALKER))


def batch(program: str, lines: list[str]) -> str:
    return "\n".join([f"{program} -batch - <<'END'", *lines, "END"])


def lay(line: Line, offloads: bool) -> tuple[list[str], list[str]]:
    """The commands for `sh` and those for `ip` that lay a cable."""
    (here, one), (there, other) = line.ends
    if not offloads:
        return [], [f"link add {one} netns {here} numtxqueues 8 numrxqueues 8 type veth peer name {other} netns {there} numtxqueues 8 numrxqueues 8"]
    numbers = " ".join(f"{rate} {delay}" for rate, delay in line.ways)
    return [f'echo "pair {one} {other} {numbers}" >/proc/tsnsim'], [f"link set {one} netns {here}", f"link set {other} netns {there}"]


def forwarding(plan: Plan, bridge: str) -> list[str]:
    """Where a bridge forwards frames: nothing is learned or flooded."""
    lines = []
    for number, stream in enumerate(plan.streams):
        outs = {plan.interface(*hop) for path in stream["paths"] for hop in zip(path, path[1:]) if hop[0] == bridge}
        lines += [f"mdb add dev br0 port {it} grp {plan.address(number)} permanent" for it in sorted(outs)]
    outs_of: dict[str, str] = {}
    for path in hosted_paths(plan).values():
        if bridge in path:
            outs_of.setdefault(path[-1], plan.interface(bridge, path[path.index(bridge) + 1]))
    return lines + [f"fdb replace {station_address(plan, it)} dev {out} master static" for it, out in outs_of.items()]


def network(plan: Plan, offloads: bool) -> str:
    """The script that makes the network. It prints nothing if all is well."""
    lines = list(lines_of(plan))
    ends: dict[str, list[str]] = defaultdict(list)
    for space, interface in (end for line in lines for end in line.ends):
        ends[space].append(interface)
    laid = [lay(line, offloads) for line in lines]
    script = [batch("ip", [f"netns add {it}" for it in ends]), *(it for shell, _ in laid for it in shell), batch("ip", [it for _, ip in laid for it in ip])]
    for space, interfaces in ends.items():
        up = [f"link set {it} up" for it in interfaces]
        if space not in plan.bridges:
            script.append(batch(f"ip -n {space}", up))
            continue
        made = ["link add br0 type bridge stp_state 0 mcast_snooping 1 ageing_time 0", "link set br0 up"]
        script.append(batch(f"ip -n {space}", [*made, *(f"link set {it} master br0" for it in interfaces), *up]))
        script.append(batch(f"bridge -n {space}", [*(f"link set dev {it} {PORT}" for it in interfaces), *forwarding(plan, space)]))
    return "\n".join([*script, ""])


# Frames


@dataclasses.dataclass(frozen=True)
class Other:
    """A frame that belongs to no stream, with its path."""

    at: int
    path: tuple[str, ...]


def others(plan: Plan, cycles: int) -> list[Other]:
    """Frames that belong to no stream: in each cycle a third of what the slowest link of the path carries, and at most 20."""
    found = []
    for path in hosted_paths(plan).values():
        slowest = min(plan.links[hop]["rate"] for hop in zip(path, path[1:]))
        count = min(20, max(1, plan.cycle * slowest // (8000 * 1542 * 3)))
        found += [Other((3 + cycle) * plan.cycle + k * (plan.cycle // count) + 777, tuple(path)) for cycle in range(cycles) for k in range(count)]
    return sorted(found, key=lambda it: it.at)


def sends(plan: Plan, offers: list[Offer], more: list[Other]) -> Iterator[tuple[int, str]]:
    """The lines of all frames, with their instants."""
    for number, it in enumerate(offers, 1):
        where = f"{' '.join(at_talker(plan.talker(it.stream)))} {plan.address(it.stream)} {plan.vlan(it.stream)} 5"
        yield it.at, f"send {it.at} {where} {it.octets} {number}"
    for number, it in enumerate(more, OTHERS):
        where = f"{' '.join(at_host(plan, it.path[0]))} {station_address(plan, it.path[-1])} 0 0"
        yield it.at, f"send {it.at} {where} 1518 {number}"


def frames_file(plan: Plan, offers: list[Offer], more: list[Other], offloads: bool) -> str:
    """What `frames` sends and captures. It captures at the end of a link if there are offloads, else at its beginning."""
    captures = []
    for start, end in plan.links:
        space, interface = (end, plan.interface(end, start)) if offloads else (start, plan.interface(start, end))
        captures.append(f"capture {space} {interface} {start}>{end}")
    return "\n".join([*captures, *(line for _, line in sorted(sends(plan, offers, more))), ""])


def starts(plan: Plan, said: str, offloads: bool) -> dict[int, list[tuple[str, int]]]:
    """The links on which each frame was, and when it started there, in ns after cycle 0."""
    found: dict[int, list[tuple[str, int]]] = defaultdict(list)
    for words in map(str.split, said.splitlines()):
        if len(words) != 5 or words[1] != ("in" if offloads else "out"):
            continue
        link = plan.links[tuple(words[0].split(">"))]
        # with offloads it is captured when it has arrived
        before = (int(words[4]) + 8) * 8000 // link["rate"] + link["delay"] if offloads else 0
        found[int(words[2])].append((words[0], int(words[3]) - before))
    return found

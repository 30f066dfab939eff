"""The kernel's own gates and lists: how they are known to differ from the model, and what becomes of the script that wants offloads.

Each difference is shown in a cell of one talker, one bridge and one station.
"""
import dataclasses
import json

import trial
from plan import Plan
from standing import differences, reading, shown
from network import network
from verdicts import Verdicts

MODULES = [*trial.MODULES, "veth", "act_gact", "act_bpf", "cls_bpf", "act_skbedit", "cls_matchall"]
CYCLE = 10_000_000
# frames are sent from this cycle on, and captured until that one
FIRST, END = 4, 30
ADDRESS, VLAN = "03:00:00:00:00:01", 10
LISTS = "sched-entry S BF 9000000 sched-entry S 00 1000000 sched-entry S 7F 9000000 sched-entry S 00 1000000"
QUEUES = "num_tc 8 map 0 1 2 3 4 5 6 7 0 0 0 0 0 0 0 0 queues 1@0 1@1 1@2 1@3 1@4 1@5 1@6 1@7"
OWN_SECONDS = 20
# `cell NAME COMMANDS` makes a cell of three namespaces; that of the bridge first runs commands; `send NAME` sends its frames
CELLS = f"""cell() {{
    for at in talker bridge station; do
        ip netns add "$1.$at"
    done
    ip netns exec "$1.bridge" dash -c "$2"
    ip link add tt netns "$1.talker" numtxqueues 8 numrxqueues 8 type veth peer name ways netns "$1.bridge" numtxqueues 8 numrxqueues 8
    ip link add outs netns "$1.bridge" numtxqueues 8 numrxqueues 8 type veth peer name ss netns "$1.station" numtxqueues 8 numrxqueues 8
    ip -n "$1.bridge" link add br0 type bridge stp_state 0 mcast_snooping 1 ageing_time 0
    for interface in ways outs; do
        ip -n "$1.bridge" link set $interface master br0
        bridge -n "$1.bridge" link set dev $interface learning off
    done
    tc -n "$1.bridge" qdisc add dev ways clsact
    tc -n "$1.bridge" qdisc replace dev outs parent root handle 100: taprio {QUEUES} base-time 0 {LISTS} clockid CLOCK_TAI
    for it in talker:tt station:ss bridge:ways bridge:outs bridge:br0; do
        ip -n "$1.${{it%:*}}" link set ${{it#*:}} up
    done
    bridge -n "$1.bridge" mdb add dev br0 port outs grp {ADDRESS} permanent
}}
send() {{
    BASE=$((($(frames now) + 3000000000) / {2 * CYCLE} * {2 * CYCLE}))
    frames run $BASE {END * CYCLE} "/cells/$1" >"/out/$1.frames" 2>&1
    ip -all netns delete
}}
"""


@dataclasses.dataclass(frozen=True)
class Difference:
    """Filters of a cell, and frames by cycle and octets, numbered from 1. `known` and `modelled` are the cycles in which frames leave the bridge,
    as Linux 6.1 was seen to do and as in the model."""

    name: str
    filters: list[str]
    frames: list[tuple[int, int]]
    known: dict[int, int]
    modelled: dict[int, int]
    figure: str

    def file(self) -> str:
        """What `frames` sends and captures. Frames of one cycle are 400 us apart."""
        lines = [f"capture {self.name}.bridge outs outs"]
        for number, (cycle, octets) in enumerate(self.frames, 1):
            at = cycle * CYCLE + CYCLE // 20 + number * 400_000 % CYCLE
            lines.append(f"send {at} {self.name}.talker tt {ADDRESS} {VLAN} 5 {octets} {number}")
        return "\n".join([*lines, ""])

    def main(self) -> list[str]:
        adding = f"tc -n {self.name}.bridge filter add dev ways ingress protocol 802.1Q pref 1 handle 1"
        match = f"flower dst_mac {ADDRESS} vlan_id {VLAN} action"
        lines = [f"{adding} {it.replace('MATCH', match)}" for it in self.filters]
        return [f"{{ cell {self.name} :; {'; '.join(lines)}; }} >/out/{self.name}.made 2>&1", f"send {self.name}"]

    def judge(self, files: dict[str, str], verdicts: Verdicts) -> None:
        words = [line.split() for line in files.get(f"{self.name}.frames", "").splitlines()]
        left = {int(it[2]): int(it[3]) // CYCLE for it in words if len(it) == 5 and it[1] == "out" and it[2] != "0"}
        made = files.get(f"{self.name}.made", "it isn't made")
        if made or left not in (self.known, self.modelled):
            verdicts.tell(self.figure, False, f"{made} left: {left}, known {self.known}")
        elif self.known == self.modelled:
            verdicts.tell(self.figure, True)
        else:
            print(f"differs: {self.figure}" if left == self.known else f"differs no longer: {self.name}, {left}")


def both(octets: int) -> str:
    """A gate with a class by the cycle, which passes this number of octets in each cycle, -1 for any."""
    return f"gate index INDEX base-time 0 sched-entry open {CYCLE} 6 {octets} sched-entry open {CYCLE} 7 {octets}"


def any_class(octets: int) -> str:
    return f"gate index INDEX base-time 0 sched-entry open {CYCLE} -1 {octets}"


EACH_CYCLE = range(FIRST, FIRST + 13)
CLOSED = f"gate index INDEX base-time 0 sched-entry close {CYCLE} -1 -1"
DIFFERENCES = [
    Difference(
        "ipv",
        ["chain 0 MATCH " + both(-1)],
        [(cycle, 1000) for cycle in EACH_CYCLE],
        {number: cycle for number, cycle in enumerate(EACH_CYCLE, 1)},
        {number: cycle + 1 for number, cycle in enumerate(EACH_CYCLE, 1)},
        "a gate doesn't give frames its class (IPV): 13 of 13 frames left in the cycle in which they came",
    ),
    Difference(
        "octets",
        ["chain 0 MATCH " + any_class(3000)],
        [(FIRST, 1522), (FIRST, 1478), (FIRST, 64)],
        {1: FIRST, 2: FIRST, 3: FIRST},
        {1: FIRST, 2: FIRST},
        "a gate counts octets without 14 of the header, 4 of the tag and 4 of the FCS: 3,000 + 64 passed a gate of 3,000",
    ),
    Difference(
        "most",
        ["chain 0 MATCH " + any_class(2997)],
        [(FIRST, 1522), (FIRST, 1478), (FIRST, 64)],
        {1: FIRST, 2: FIRST},
        {1: FIRST, 3: FIRST},
        "so it counts 3,064 octets in 3 frames as 2,998: a gate of 2,997 passed 3,000, and then dropped 64",
    ),
    Difference(
        "dropped",
        ["chain 0 MATCH " + any_class(1500)],
        [(FIRST, 1300), (FIRST, 300), (FIRST, 136)],
        {1: FIRST},
        {1: FIRST, 3: FIRST},
        "a gate counts dropped frames: after 1,300 octets that passed and 300 that were dropped, a gate of 1,500 dropped 136",
    ),
    Difference(
        "chain",
        ["chain 5 MATCH " + CLOSED],
        [(FIRST, 1000)],
        {1: FIRST},
        {},
        "a filter in another chain than 0 is reached only by a jump: a frame passed a closed gate in chain 5",
    ),
    Difference(
        "jump",
        ["chain 5 MATCH " + CLOSED, "chain 0 MATCH goto chain 5"],
        [(FIRST, 1000)],
        {},
        {},
        "with a jump to chain 5 the gate drops it",
    ),
]


# The bridge's own frames


WITH_IPV6 = "echo 0 >/proc/sys/net/ipv6/conf/default/disable_ipv6"
WITHOUT_REPORTS = "echo 0 >/proc/sys/net/ipv4/igmp_link_local_mcast_reports"


def own_main() -> list[str]:
    """Makes a cell whose bridge has IPv6 and one whose bridge hasn't, and counts what they send by themselves."""
    lines = []
    for name, commands in (("own", WITH_IPV6), ("quiet", WITHOUT_REPORTS)):
        lines += [f"cell {name} '{commands}' >/out/{name}.made 2>&1", f"sleep {OWN_SECONDS}", f"tc -n {name}.bridge -s -j qdisc show dev outs >/out/{name}.sent", "ip -all netns delete"]
    return lines


def sent_by_class(text: str) -> list[int]:
    """The number of frames of each class that an interface has sent."""
    packets = {it.get("parent"): it.get("packets", 0) for it in json.loads(text or "[]")}
    return [packets.get(f"100:{number + 1:x}", 0) for number in range(8)]


def judge_own(files: dict[str, str], verdicts: Verdicts) -> None:
    own, quiet = (sent_by_class(files.get(f"{name}.sent", "")) for name in ("own", "quiet"))
    # those of neighbour discovery have class 0
    if own[7] and not any(own[1:7]):
        print(f"differs: the bridge's own frames of MLD and IGMP have class 7: {own[7]} in the first {OWN_SECONDS} s at an interface")
    else:
        verdicts.tell("the bridge's own frames have class 0 or 7", False, str(own))
    settings = "net.ipv6.conf.IF.disable_ipv6=1 for itself and its interfaces, and net.ipv4.igmp_link_local_mcast_reports=0"
    verdicts.tell(f"it sends none with {settings}", not any(quiet), str(quiet))


# The script that wants offloads


class Unoffloaded:
    """The script that wants offloads, on interfaces that have none."""

    def __init__(self, plan: Plan) -> None:
        self.plan = plan

    def files(self) -> dict[str, str]:
        return {"bare/network": network(self.plan, False), "bare/plan": self.plan.script, "bare/reading": reading(self.plan)}

    def main(self) -> list[str]:
        runs = [f"run set {it} $D/plan BASE=0 {self.plan.words_of(it)}" for it in self.plan.bridges]
        return ["O=/out/bare D=/bare", "mkdir -p $O", "sh $D/network >$O/network 2>&1", *runs, "state set", "ip -all netns delete"]

    def judge(self, files: dict[str, str], verdicts: Verdicts) -> None:
        said, count = files["bare/set.said"], len(self.plan.bridges)
        is_refused = said.count("Device does not have a PTP clock") == count
        if is_refused:
            print("differs: taprio with flags 0x2 is refused without offloads: Error: Device does not have a PTP clock.")
        left = differences(shown(files["bare/set.shown"]), {})
        says_so = [it.split()[-1] for it in files["bare/set.status"].splitlines()] == ["1"] * count
        verdicts.tell("the script for offloads then ends with status 1, and leaves nothing", is_refused and says_so and not left, f"{said} {left}")


def files() -> dict[str, str]:
    return {f"cells/{it.name}": it.file() for it in DIFFERENCES}


def main() -> list[str]:
    """What the machine does to show the differences."""
    lines = [line.replace("INDEX", str(index)) for index, it in enumerate(DIFFERENCES, 1) for line in it.main()]
    return [CELLS, *lines, *own_main()]

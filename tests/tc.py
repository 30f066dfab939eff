#!/usr/bin/env python3
"""Writes the scripts of plans with `cqf compile --format tc`, and tries each.

    tests/tc.py PROGRAM [PLAN ..]

A PLAN is a TOML file with a domain and its streams, or an input of two parts with a line `%%` between them. If none is given, all such files
of examples/ are taken. The trials of each script are:

- The syntax is checked with `sh -n`, and with `dash -n` and `shellcheck -s sh` if they are installed.
- The script runs for each bridge, with TC=echo and all variables of the bridge. It must end with status 0, and print a taprio line for each link
  of the bridge and a filter line for each gate of its streams.
- The script runs for each bridge, with a BASE between two multiples. The lists must begin at the next multiple, and the script must say so.
- The script runs for each bridge without one of its variables, for each variable, and for a bridge that doesn't exist. Each run must end with
  status 1 and one line that names the fault, and print no command.
- With `--edge-gates`, the same is tried, and the script sets the gates at talkers' interfaces and no others.
- If `tc` and `ip` are installed and a network namespace with interfaces can be made, the script runs for each bridge with them. A command is well
  formed if it succeeds, or if the kernel only lacks what the command needs, such as taprio or a classifier. A wrong word makes tc print a usage
  text. tc parses laxly, so this tries the form of a command and not its values.

The variables of a bridge, and their meanings, are read from the bridge's function in the script. The file that `--format env` writes must have
exactly these variables, after BASE and CHAIN.

The script of a built-in plan is tried with a simulated `tc` and `ip`. The plan has three bridges, links in both directions and a stream that
pauses. The simulated commands keep the state of each interface as iproute2 and Linux do, beside qdiscs and filters of other programs. They print,
to the letter, what iproute2 6.1 and 6.15 printed on Linux 6.1 in the machine of tests/tc-kernel.py. Both versions print filters and gates in the same
way, and neither prints the kind of a gate. The trials are:

- Foreign filters stay, gates of an earlier plan are removed, and a second run changes nothing.
- If any one command of the script is refused, the earlier state is restored, and a line says what was taken back.
- For each wrong value that the script checks, it ends with status 1 and one line, and runs no command that changes anything.
- Interfaces that may be shared are accepted.
- Gates in a chain of their own are set if a filter of chain 0 leads to that chain, and refused if none does.

The script of `--software`, which has a BPF program before each gate, is tried in the same way.

The last line is `tc: N passed, M failed`. The status is 1 if one failed or none passed. Trials that couldn't be done are reported.
"""
import collections
import json
import os
import re
import shutil
import struct
import sys
import threading
from pathlib import Path

sys.path.insert(0, str(Path(__file__).resolve().parent.parent))
from common import TOP
from common.counting import Counts
from common.network_files import parts_of
from common.running import call, temporary_folder, write
from common.words import Reader


# runs the real tc, and notes the result of each command in the file $TRIED; if only the kernel lacks something, the script goes on
WRAPPER = r"""#!/bin/sh
said=$("$REAL_TC" "$@" 2>&1)
status=$?
case "$said" in
*"qdisc kind is unknown"* | *"classifier not found"* | *"Exclusivity flag on"* | *"Failed to load TC action"* | *"Filter with specified priority/protocol not found"*)
    echo "lacks $*" >>"$TRIED"; exit 0 ;;
esac
if [ "$status" -eq 0 ]; then echo "done $*" >>"$TRIED"; else echo "refused $*: $said" >>"$TRIED"; fi
printf '%s\n' "$said"
exit "$status"
"""

# a simulated `tc` or `ip`, which gets the result of each command from this script through two pipes
STAND_IN = r"""#!/bin/sh
printf '%s\n' "${0##*/} $*" >"$ROOM/ask"
{
    read -r status
    if [ "$status" -eq 0 ]; then cat; else cat >&2; fi
} <"$ROOM/answer"
exit "$status"
"""

# links 0 and 1 are the two directions of one line, and so are links 2 and 3; x and y have the same talker; z is offered in one cycle of four
PLAN = """cycle = 250000
guard = 10000
bridges = ["a", "b", "c"]
stations = ["s", "t"]
links = [
    { from = "a", to = "b", rate = 1000, delay = 500 },
    { from = "b", to = "a", rate = 1000, delay = 500 },
    { from = "b", to = "c", rate = 1000, delay = 500 },
    { from = "c", to = "b", rate = 1000, delay = 500 },
    { from = "b", to = "s", rate = 1000, delay = 500 },
    { from = "a", to = "t", rate = 1000, delay = 500 },
]
%%
streams = [
    { name = "x", octets = 1500, path = ["b", "a", "t"] },
    { name = "y", octets = 64, path = ["b", "s"] },
    { name = "z", octets = 700, every = 4, phase = 1, path = ["a", "b", "s"] },
    { name = "w", octets = 100, path = ["c", "b", "a", "t"] },
]
"""

# the variables of the plan's bridge b: its interfaces to nodes and to streams' talkers, and the addresses and VLANs of the streams
GOOD = {
    "OUT a": "eth1", "OUT c": "eth2", "OUT s": "eth3", "IN a": "eth1", "IN c": "eth2", "TALKER x": "eth4", "TALKER y": "eth4",
    "MAC x": "01:00:5e:00:00:01", "MAC y": "01:00:5e:00:00:02", "MAC z": "02:00:5E:AB:cd:03", "MAC w": "01:00:5e:00:00:04",
    "VLAN x": "10", "VLAN y": "4094", "VLAN z": "1", "VLAN w": "10", "BASE": "1700000000000000000",
}
# the entries of the streams' gates at b, by stream number; z has crossed one link before b, so its cycle there is the third of four
GATES = {
    0: [["open", "250000", "6", "1500"], ["open", "250000", "7", "1500"]],
    1: [["open", "250000", "6", "64"], ["open", "250000", "7", "64"]],
    2: [["close", "500000", "-1", "-1"], ["open", "250000", "6", "700"], ["close", "250000", "-1", "-1"]],
    3: [["open", "250000", "6", "100"], ["open", "250000", "7", "100"]],
}
LIST = "sched-entry S BF 240000 sched-entry S 00 10000 sched-entry S 7F 240000 sched-entry S 00 10000"
WAYS = {0: "eth4", 1: "eth4", 2: "eth1", 3: "eth2"}

counts = Counts("tc")
untried = collections.Counter()


def tell(what, passed, said=""):
    """Counts a trial as passed or failed, and prints a failed one."""
    counts.tell(None if passed else f"FAILED {what}" + (f": {said.strip()}" if said.strip() else ""))


def functions_of(script):
    """Returns each bridge's name with the lines of its function."""
    bodies = {name: body.splitlines() for name, body in re.findall(r"^(bridge_\d+)\(\) \{\n(.*?)^\}$", script, re.M | re.S)}
    return [(name, bodies[function]) for name, function in re.findall(r'^"([^"]*)"\) (bridge_\d+) ;;$', script, re.M)]


def variables_of(lines):
    return [found for line in lines for found in re.findall(r'"\$\{(\w+):-\}"', line)]


def meanings_of(lines):
    """Returns the variables of a bridge's function by their meanings: `OUT NODE`, `IN NODE`, `TALKER STREAM`, `MAC STREAM`, `VLAN STREAM`."""
    found = {}
    for line in lines:
        names = variables_of([line])
        if line.startswith("    port "):
            kind, other = names[0].split("_")[0], line.rstrip('"').split()[-1]
            found[f"{kind} {other}"] = names[0]
        elif line.startswith("    frames "):
            stream = line.split('"')[4].split()[0]
            found |= {f"{name.split('_')[0]} {stream}": name for name in names}
    return found


def values_for(names, multiple):
    """Returns an environment: PATH, BASE, and for each name an address, a VLAN or an interface. BASE is four times the multiple."""
    given = {"PATH": os.environ["PATH"], "BASE": str(multiple * 4)}
    # the variables of one link or stream have the same number
    numbers = {word: number for number, word in enumerate(sorted({name.partition("_")[2] for name in names}))}
    for name in names:
        kind, _, word = name.partition("_")
        number = numbers[word]
        if kind == "MAC":
            given[name] = f"01:00:5e:00:{number // 256:02x}:{number % 256:02x}"
        elif kind == "VLAN":
            given[name] = str(number % 4000 + 2)
        else:
            given[name] = f"{kind.lower()}{number}"
    return given


def try_form(path, at):
    for words in (["sh", "-n"], ["dash", "-n"], ["shellcheck", "-s", "sh"]):
        if not shutil.which(words[0]):
            untried[f"{' '.join(words)}, not installed"] += 1
            continue
        done = call([*words, path])
        tell(f"{' '.join(words)} on {at}", done.returncode == 0 and not done.stdout and not done.stderr, done.stdout + done.stderr)


def is_refusal(done, word):
    """Checks whether a script ended with status 1, no output and one error line that contains a word."""
    return done.returncode == 1 and not done.stdout and done.stderr.count("\n") == 1 and word in done.stderr


def ends_untouched(what, path, bridge, given, word):
    done = call(["sh", path, bridge], env={**given, "TC": "echo"})
    tell(what, is_refusal(done, word), done.stdout + done.stderr)


def try_bridges(path, at, script, multiple):
    for bridge, lines in functions_of(script):
        names = variables_of(lines)
        given = values_for(names, multiple)
        done = call(["sh", path, bridge], env={**given, "TC": "echo"})
        links = sum(line.startswith("    link ") for line in lines)
        gates = sum(line.startswith(("    gate ", "    gate_by_list ")) for line in lines)
        shown = done.stdout.splitlines()
        is_whole = sum(" taprio " in it for it in shown) == links and sum(it.startswith("filter add ") for it in shown) == gates
        tell(f"{bridge} of {at} with TC=echo", done.returncode == 0 and not done.stderr and is_whole, done.stdout + done.stderr)
        tell(f"{bridge} of {at} wants each variable once", len(names) == len(set(names)))
        for name in names:
            rest = {it: value for it, value in given.items() if it != name}
            ends_untouched(f"{bridge} of {at} without {name}", path, bridge, rest, f"{name} isn't set: ")
        done = call(["sh", path, bridge], env={**given, "TC": "echo", "BASE": str(multiple + 1)})
        is_next = done.returncode == 0 and not done.stderr and f" base-time {2 * multiple} " in done.stdout and f"BASE is {2 * multiple}\n" in done.stdout
        tell(f"{bridge} of {at} with a BASE between two multiples", is_next, done.stdout + done.stderr)
    ends_untouched(f"a bridge that {at} lacks", path, "no bridge", values_for([], multiple), "there is no bridge no bridge")


def namespace_words():
    """Returns the words that run a command in a new network namespace, or None if none can be made."""
    for words in (["unshare", "-n"], ["unshare", "-r", "-n"]):
        if shutil.which("unshare") and call([*words, "ip", "link", "add", "a0", "type", "veth", "peer", "name", "a1"]).returncode == 0:
            return words
    return None


def interfaces_of(given):
    return sorted({value for name, value in given.items() if name.split("_")[0] in ("OUT", "IN", "TALKER")})


def try_real(path, at, script, multiple, room):
    real = shutil.which("tc", path=os.environ["PATH"] + ":/usr/sbin:/sbin")
    inside = namespace_words() if real else None
    if not inside:
        untried["the real tc: it isn't installed, or no interfaces can be made in a network namespace"] += 1
        return
    wrapper, tried = f"{room}/real-tc", f"{room}/tried"
    write(wrapper, WRAPPER, True)
    for bridge, lines in functions_of(script):
        write(tried, "")
        given = {**values_for(variables_of(lines), multiple), "TC": wrapper, "REAL_TC": real, "TRIED": tried}
        made = "".join(f"ip link add {name} type veth peer name p{k}; " for k, name in enumerate(interfaces_of(given)))
        done = call([*inside, "sh", "-ec", f'{made}exec sh "$@"', "sh", path, bridge], env=given)
        tries = [line.split(" ", 1) for line in Path(tried).read_text(encoding="utf-8").splitlines()]
        # the script goes on if these are refused: they query the present state or a gate that doesn't exist, or add a qdisc that may exist
        wrong = [words for kind, words in tries if kind == "refused" and not words.startswith(("actions get ", "filter show ", "qdisc add "))]
        tell(f"{bridge} of {at} with the real tc", done.returncode == 0 and not wrong, "\n".join(wrong) + done.stdout + done.stderr)


def compiled(program, plan, *form):
    """Runs `compile` for a plan in a format, and returns the finished process."""
    if plan.endswith(".toml"):
        return call([program, "compile", "--format", *form, plan])
    return call([program, "compile", "--format", *form], Path(plan).read_text(encoding="utf-8"))


def try_files(program, plan, at, script, *more):
    """Checks that the file of a bridge's variables has BASE, CHAIN and then those of the bridge's function."""
    for bridge, lines in functions_of(script):
        done = compiled(program, plan, "env", "--bridge", bridge, *more)
        names = re.findall(r"^(\w+)=", done.stdout, re.M)
        tell(f"the variables of {bridge} of {at}", done.returncode == 0 and names == ["BASE", "CHAIN", *variables_of(lines)], done.stdout + done.stderr)


def try_edge(at, script, whole):
    """Checks that a script of `--edge-gates` sets the links of the whole script, and its gates at talkers' interfaces and no others."""
    for (bridge, lines), (_, all_lines) in zip(functions_of(script), functions_of(whole), strict=True):
        calls = [it for it in lines if it.startswith(("    link ", "    gate ", "    gate_by_list "))]
        due = [it for it in all_lines if it.startswith(("    link ", '    gate "$TALKER_', '    gate_by_list "$TALKER_'))]
        tell(f"the gates of {bridge} of {at}", calls == due, "\n".join(calls))


def try_plan(program, plan, room, *more):
    at = " ".join([os.path.relpath(plan), *more])
    done = compiled(program, plan, "tc", *more)
    tell(f"the script of {at}", done.returncode == 0 and not done.stderr, done.stderr)
    if done.returncode != 0:
        return
    path = f"{room}/script"
    write(path, done.stdout)
    multiple = int(re.search(r"multiple of (\d+)", done.stdout).group(1))
    try_form(path, at)
    try_bridges(path, at, done.stdout, multiple)
    try_files(program, plan, at, done.stdout, *more)
    if more:
        try_edge(at, done.stdout, compiled(program, plan, "tc").stdout)
    try_real(path, at, done.stdout, multiple, room)


def gate_filter(pref, index, handle=1, chain="0", kind="flower", protocol="802.1Q", actions=None):
    """Returns a filter with the given actions, or with a gate only."""
    actions = actions or [["gate", index, [["open", "1000", "6", "99"]]]]
    return {"chain": chain, "protocol": protocol, "pref": str(pref), "kind": kind, "handle": handle, "actions": actions}


def with_more(pref, index):
    """Returns a filter with a gate and another action after it."""
    held = gate_filter(pref, index)
    return {**held, "actions": [*held["actions"], ["gact", "pass", 1]]}


def foreign_filters():
    """Returns filters of other programs: no gate, a gate of another index, a gate beside another action, a pref above 1,024, another chain."""
    return [
        gate_filter(1, None, handle=77, actions=[["gact", "drop", 5]]),
        gate_filter(9, None, kind="matchall", protocol="all", actions=[["gact", "drop", 9]]),
        gate_filter(7, 2007),
        with_more(8, 8),
        gate_filter(2000, 2000),
        gate_filter(12, 12, chain="5"),
    ]


def jump_to(chain):
    """Returns a filter that leads to another chain."""
    return gate_filter(3000, None, actions=[["gact", f"goto chain {chain}", 30]])


class Refused(Exception):
    """The error message of a command that fails and changes nothing."""


def word_after(words, word):
    return words[words.index(word) + 1] if word in words else None


def time_text(time):
    """Returns a time in ns as iproute2 prints it."""
    for unit, length in (("s", 1_000_000_000), ("ms", 1_000_000), ("us", 1_000)):
        if time >= length:
            return f"{time / length:.3g}{unit}"
    return f"{time}ns"


# The output of `tc filter show dev .. ingress chain ..` and `tc actions get action gate index ..`, as iproute2 6.1 and 6.15 printed it


def entry_line(number, entry):
    state, time, ipv, most = entry
    ipv = "wildcard" if ipv == "-1" else f"{ipv:10}"
    most = "wildcard" if most == "-1" else f"{most}b"
    return f"\t number {number:4}\tgate-state {state} \tinterval {time_text(int(time))}\t ipv {ipv}\t max-octets {most}"


def gate_lines(order, action, ref, bind):
    """Returns the lines that show a gate. They don't show its kind."""
    _, index, entries = action
    cycle = time_text(sum(int(time) for _, time, _, _ in entries))
    lines = [f"\taction order {order}: ", "\tpriority wildcard\tclockid TAI\tflags 0", f"\tbase-time 0ns\tcycle-time {cycle}\tcycle-time-ext 0ns"]
    lines += ["\tschedule:", *(entry_line(number, entry) for number, entry in enumerate(entries))]
    return [*lines, "\tpipe", f"\t index {index} ref {ref} bind {bind}"]


def program_lines(order, action):
    """Returns the lines that show a BPF program."""
    return [f"\taction order {order}: bpf tmp.1:[tc] id 8 name tc tag 6118c10d26d73d7c jited default-action pipe", f"\t index {action[1]} ref 1 bind 1", " "]


def plain_lines(order, action):
    return [f"\taction order {order}: gact action {action[1]}", "\t random type none pass val 0", f"\t index {action[2]} ref 1 bind 1", ""]


class Standing:
    """The state of a bridge's interfaces, each with its root qdisc, whether it has clsact, and its filters; and the gates of no filter.
    Notes each command that changes something, and refuses the one with the number `refused`."""

    def __init__(self, more):
        # the index of a gate is unique, so the only filter of eth1 has no gate
        self.at = {f"eth{k}": {"root": None, "clsact": False, "filters": []} for k in range(1, 6)}
        foreign = {"eth4": foreign_filters(), "eth1": [gate_filter(3, None, actions=[["gact", "drop", 3]])]}
        for filters in (foreign, more):
            for name, its in filters.items():
                self.at[name]["clsact"] = True
                self.at[name]["filters"] += its
        self.names = {"lan4": "eth4"}
        self.loose, self.changes, self.refused, self.programs = [], [], 0, set()

    def state(self):
        return json.loads(json.dumps(self.at))

    def gates(self):
        return [action for at in self.at.values() for held in at["filters"] for action in held["actions"] if action[0] == "gate"]

    def answer(self, program, *words):
        """Returns the lines that a command prints."""
        if program == "ip":
            return self.ip(words)
        if words[:2] == ("actions", "get"):
            return self.get_gate(int(word_after(words, "index")))
        device = word_after(words, "dev")
        if device not in self.at:
            raise Refused(f'Cannot find device "{device}"')
        if words[:2] == ("filter", "show"):
            return self.show(self.at[device], word_after(words, "chain"))
        # a program's file has another name in each run
        self.changes.append(re.sub(r"object-file \S+", "object-file FILE", " ".join(words)))
        if len(self.changes) == self.refused:
            raise Refused("RTNETLINK answers: refused\nWe have an error talking to the kernel")
        if words[0] == "qdisc":
            self.change_qdisc(self.at[device], words)
        else:
            self.change_filter(self.at[device], words)
        return []

    def ip(self, words):
        name = self.names.get(words[-1], words[-1])
        if words[:3] != ("link", "show", "dev") or name not in self.at:
            raise Refused(f'Device "{words[-1]}" does not exist.')
        head = f"{list(self.at).index(name) + 2}: {name}: <BROADCAST,MULTICAST,UP,LOWER_UP> mtu 1500 qdisc mq state UP mode DEFAULT group default qlen 1000"
        return [head, "    link/ether 02:00:00:00:00:01 brd ff:ff:ff:ff:ff:ff"]

    def get_gate(self, index):
        bound = [action for action in self.gates() if action[1] == index]
        if not bound and index not in self.loose:
            raise Refused('Error: TC action with specified index not found.\nWe have an error talking to the kernel\nCommand "action" is unknown, try "tc actions help".')
        action = bound[0] if bound else ["gate", index, [["open", "1", "6", "1"]]]
        return ["total acts 0", "", *gate_lines(1, action, len(bound) + self.loose.count(index), len(bound)), "\tskip_sw\tnot_in_hw"]

    def action_lines(self, order, action):
        if action[0] == "bpf":
            return program_lines(order, action)
        if action[0] == "gact":
            return plain_lines(order, action)
        count = sum(action[1] == other[1] for other in self.gates())
        return [*gate_lines(order, action, count, count), ""]

    def show(self, at, chain):
        lines, seen = [], set()
        for held in at["filters"]:
            if held["chain"] != chain:
                continue
            head = f"filter protocol {held['protocol']} pref {held['pref']} {held['kind']} "
            if held["pref"] not in seen:
                lines.append(head)
                seen.add(held["pref"])
            keys = ["  vlan_id 10", "  dst_mac 01:00:5e:00:00:01", "  skip_sw", "  in_hw in_hw_count 1"] if held["kind"] == "flower" else ["  not_in_hw"]
            lines += [f"{head}handle {held['handle']:#x} ", *keys]
            for order, action in enumerate(held["actions"], 1):
                lines += self.action_lines(order, action)
        return lines

    def change_qdisc(self, at, words):
        if words[1] == "add" and words[-1] == "clsact" and not at["clsact"]:
            at["clsact"] = True
        elif words[1] == "replace" and words[4:6] == ("parent", "root"):
            at["root"] = " ".join(words[6:])
        elif words[1] == "del" and words[-1] == "root" and at["root"]:
            at["root"] = None
        elif words[1] == "del" and words[-1] == "clsact" and at["clsact"]:
            at["clsact"], at["filters"] = False, []
        else:
            raise Refused("Error: Exclusivity flag on, cannot modify.")

    def change_filter(self, at, words):
        kind = next((word for word in words if word in ("flower", "matchall")), None)
        chain, protocol, pref, handle = (word_after(words, it) for it in ("chain", "protocol", "pref", "handle"))
        like = [held for held in at["filters"] if (held["chain"], held["pref"]) == (chain, pref)]
        same = [held for held in like if handle is None or held["handle"] == int(handle, 0)]
        if not at["clsact"]:
            raise Refused("Error: Parent Qdisc doesn't exists.\nWe have an error talking to the kernel")
        if any(held["protocol"] != protocol or held["kind"] != kind for held in like) or (words[1] == "del" and not like):
            raise Refused("Error: Filter with specified priority/protocol not found.\nWe have an error talking to the kernel")
        if (words[1] == "add") == bool(same):
            raise Refused(f"Error: {'Filter already exists' if same else 'Specified filter handle not found'}.\nWe have an error talking to the kernel")
        if words[1] == "del":
            at["filters"] = [held for held in at["filters"] if held not in same]
            return
        at["filters"].append({"chain": chain, "protocol": protocol, "pref": pref, "kind": kind, "handle": int(handle, 0), "actions": self.actions_of(words)})

    def actions_of(self, words):
        """Returns the actions of a new filter: its gate, and before that its program, if it has one. Reads the program's file as `tc` does."""
        index = int(word_after(words, "index"))
        # a gate that already exists is used as it is, regardless of the given entries
        found = [action for action in self.gates() if action[1] == index]
        entries = [list(words[k + 1 : k + 5]) for k, word in enumerate(words) if word == "sched-entry"]
        gate = found[0] if found else ["gate", index, entries]
        file = word_after(words, "object-file")
        if not file:
            return [gate]
        if words[words.index("object-file") + 2 : words.index("gate")] != ("section", "tc", "pipe", "action"):
            raise Refused("bad action parsing\nIllegal \"action\"")
        with open(file, "rb") as it:
            self.programs.add(it.read())
        return [["bpf", 1], gate]


class Bridge:
    """The bridge b, whose `tc` and `ip` keep the state of its interfaces. If `software` is set, gates have a program before them."""

    def __init__(self, room, path, script, software):
        self.room, self.path, self.software, self.standing = room, path, software, Standing({})
        self.names = meanings_of(dict(functions_of(script))["b"])
        os.makedirs(f"{room}/left", exist_ok=True)
        for name in ("tc", "ip"):
            write(f"{room}/{name}", STAND_IN, True)
        for name in ("ask", "answer"):
            if not os.path.exists(f"{room}/{name}"):
                os.mkfifo(f"{room}/{name}")
        self.server = threading.Thread(target=self.serve, daemon=True)
        self.server.start()

    def serve(self):
        while True:
            with open(f"{self.room}/ask", encoding="utf-8") as it:
                words = tuple(it.read().split())
            if not words:
                return
            try:
                status, lines = 0, self.standing.answer(*words)
            except Refused as refused:
                status, lines = 2, [str(refused)]
            with open(f"{self.room}/answer", "w", encoding="utf-8") as it:
                it.write("".join(f"{line}\n" for line in (status, *lines)))

    def end(self):
        with open(f"{self.room}/ask", "w", encoding="utf-8"):
            pass
        self.server.join()

    def lay(self, more=None, loose=()):
        """Sets and returns the initial state: other programs' filters at eth4 and eth1, more filters by interface, and gates of no filter."""
        self.standing = Standing(more or {})
        self.standing.loose = list(loose)
        return self.standing.state()

    def run(self, changed=None, refused=0, words=("b",)):
        """Runs the script with some variables changed, or unset if they are None. The command with the number `refused` fails."""
        self.standing.changes, self.standing.refused = [], refused
        given = {self.names.get(name, name): value for name, value in {**GOOD, **(changed or {})}.items()}
        given |= {"PATH": f"{self.room}:{os.environ['PATH']}", "ROOM": self.room, "TMPDIR": f"{self.room}/left"}
        return call(["sh", self.path, *words], env={name: value for name, value in given.items() if value is not None}, timeout=60)

    def is_untouched(self, before):
        """Checks whether the script ran no command that changes something, and the state is as before."""
        return self.standing.state() == before and not self.standing.changes

    def tell(self, what, passed, said=""):
        """Counts a trial as passed or failed. It fails if a run left a file."""
        left = os.listdir(f"{self.room}/left")
        tell(f"{'in software: ' if self.software else ''}{what}", passed and not left, said or f"left: {left}")


def is_own(held, chain="0"):
    """Checks whether a filter is one that the script sets."""
    *before, (kind, index, *_) = held["actions"]
    is_gate = kind == "gate" and (not before or [it[0] for it in before] == ["bpf"])
    return is_gate and held["pref"] == str(index) == str(held["handle"]) and held["chain"] == chain


def own_filters(state, chain="0"):
    """Returns the entries of the gates that the script sets, by interface and index."""
    found = [(name, held["actions"][-1]) for name, at in state.items() for held in at["filters"] if is_own(held, chain) and held["actions"][-1][1] <= 1024]
    return {(name, index): entries for name, (_, index, entries) in found}


def programs_set(state):
    """Returns the number of the script's gates that have a program."""
    return sum(len(held["actions"]) == 2 for at in state.values() for held in at["filters"] if is_own(held))


def instruction(code, registers=0, offset=0, value=0):
    return struct.pack("<BBhi", code, registers, offset, value)


def program_due(cycle):
    """Returns the BPF program that gives a frame its class, 6 or 7, by the cycle in which the frame arrives:
    r6 = frame; r0 = bpf_ktime_get_tai_ns(); r0 /= cycle; r0 &= 1; r0 += 6; r6->priority = r0; r0 = -1 (go on); exit."""
    words = [(0xBF, 0x16), (0x85, 0, 0, 208), (0x37, 0, 0, cycle), (0x57, 0, 0, 1), (0x07, 0, 0, 6), (0x63, 6, 32), (0xB7, 0, 0, -1), (0x95,)]
    return b"".join(instruction(*it) for it in words)


def section_of(text, name):
    """Returns a section of a 64-bit ELF file for BPF, or None if the file is another one or lacks that section."""
    if text[:6] != b"\x7fELF\2\1" or text[16:20] != struct.pack("<HH", 1, 247):
        return None
    begins, count, of_names = struct.unpack_from("<Q", text, 40)[0], *struct.unpack_from("<HH", text, 60)
    # the name, offset and length of each section
    sections = [(struct.unpack_from("<I", text, at)[0], *struct.unpack_from("<QQ", text, at + 24)) for at in range(begins, begins + 64 * count, 64)]
    names = sections[of_names][1]
    return next((text[at : at + length] for word, at, length in sections if text[names + word :].startswith(name + b"\0")), None)


def try_setting(bridge):
    """Tries to set a plan, to set it again, and to set it in place of an earlier one. Everything else must stay."""
    before = bridge.lay()
    done = bridge.run()
    after = bridge.standing.state()
    wanted = {(WAYS[s], s + 1): entries for s, entries in GATES.items()}
    bridge.tell("a plan is set", done.returncode == 0 and not done.stderr and own_filters(after) == wanted, done.stdout + done.stderr)
    bridge.tell("it says when the lists begin", done.stdout == f"# BASE is {GOOD['BASE']}\n", done.stdout)
    programs = [section_of(it, b"tc") for it in bridge.standing.programs]
    is_due = programs == [program_due(250_000)] and programs_set(after) == len(GATES) if bridge.software else not programs and not programs_set(after)
    bridge.tell("gates have a program in software alone, which gives frames their class", is_due, str(programs))
    roots = {name for name, at in after.items() if at["root"]}
    bridge.tell("each link has its list", roots == {"eth1", "eth2", "eth3"} and all(LIST in after[it]["root"] for it in roots))
    left = {name: [held for held in at["filters"] if not (is_own(held) and (name, int(held["pref"])) in wanted)] for name, at in after.items()}
    bridge.tell("filters of somebody else's stay", left == {name: at["filters"] for name, at in before.items()}, str(left))
    done = bridge.run()
    bridge.tell("run twice is run once", done.returncode == 0 and bridge.standing.state() == after, done.stderr)
    bridge.lay({"eth4": [gate_filter(2, 2, handle=5), gate_filter(900, 900)], "eth2": [gate_filter(1024, 1024, handle=1024)]})
    done = bridge.run()
    bridge.tell("gates of an earlier plan go", done.returncode == 0 and bridge.standing.state() == after, done.stderr)
    programs = [["bpf", 1]] + gate_filter(900, 900)["actions"]
    bridge.lay({"eth4": [gate_filter(900, 900, actions=programs)]})
    done = bridge.run()
    bridge.tell("so do those that have a program", done.returncode == 0 and bridge.standing.state() == after, done.stderr)


def try_failures(bridge):
    """Refuses each command once. The earlier state must be restored; over an earlier plan, at least no gate of this run may be left."""
    bridge.lay()
    bridge.run()
    # adding a clsact that exists is refused in any case
    commands = [words for words in bridge.standing.changes if words not in ("qdisc add dev eth4 clsact", "qdisc add dev eth1 clsact")]
    bridge.tell("a command for each interface, link and gate", len(commands) == 1 + 3 + 4)
    count = len(bridge.standing.changes)
    for number in range(1, count + 1):
        before = bridge.lay()
        done = bridge.run(refused=number)
        words = bridge.standing.changes[number - 1]
        is_back = done.returncode == 1 and "failed: what this run had set is taken back" in done.stderr and bridge.standing.state() == before
        bridge.tell(f"command {number} refused: {words}", is_back if words in commands else done.returncode == 0, done.stderr)
    earlier = {"eth4": [gate_filter(2, 2, handle=2)], "eth2": [gate_filter(1024, 1024, handle=1024)]}
    for number in range(1, count + 3):
        stood = own_filters(bridge.lay(earlier))
        done = bridge.run(refused=number)
        left = own_filters(bridge.standing.state())
        is_back = done.returncode == 1 and all(stood.get(key) == entries for key, entries in left.items())
        bridge.tell(f"command {number} refused over an earlier plan", done.returncode == 0 or is_back, done.stderr + str(left))


def try_refusals(bridge):
    """Tries wrong values of each variable, and wrong words. The script must report each fault and change nothing."""
    wrong = {
        "OUT a": ("", "eth9", "eth 1", "et/h1", None),
        # the interface of another link, of a link to a station and of a talker, and another name of the last
        "OUT c": ("eth1", "eth3", "eth4", "lan4"),
        "OUT s": ("eth1", "eth2"),
        "IN a": ("", "eth9", "eth2", "eth3", "eth4", None),
        "TALKER x": ("eth1", "eth2"),
        "TALKER y": ("", "eth9", None),
        "MAC x": ("", "01:00:5e:00:00", "01:00:5e:00:00:0g", "01-00-5e-00-00-01", "01:00:5e:00:00:01:02", "1:0:5e:0:0:1", "0100.5e00.0001"),
        "MAC z": ("00:00:00:00:00:00", "01:80:c2:00:00:00", "01:80:C2:00:00:0e", "01:00:5e:00:00:01 ", None),
        # the address of stream x, which has the same VLAN as stream w
        "MAC w": ("01:00:5E:00:00:01",),
        "VLAN w": ("", "0", "4095", "5000", "10000", "010", "-1", "x", "1 2", "4e1", None),
        "BASE": ("", "x", "-20000000", "0x1312d00", "01700000000000000000", "1e18", "20000000 ", "9000000000000000000", "1" + 22 * "0", None),
        # no filter of chain 0 leads to chain 5
        "CHAIN": ("x", "-1", "00", "99999999999", "5"),
        "TC": ("no-such-tc",),
        "IP": ("no-such-ip",),
    }
    for name, value in [(name, value) for name, values in wrong.items() for value in values]:
        before = bridge.lay()
        done = bridge.run({name: value})
        # for a chain, the line says which interface has no filter that leads there
        named = "goto chain 5" if (name, value) == ("CHAIN", "5") else bridge.names.get(name, name)
        bridge.tell(f"{name}={value} is refused", is_refusal(done, named) and bridge.is_untouched(before), done.stdout + done.stderr)
    for words in ((), ("b", "a"), ("d",), ("",)):
        before = bridge.lay()
        done = bridge.run(words=words)
        bridge.tell(f"the words {words} are refused", is_refusal(done, "bridge") and bridge.is_untouched(before), done.stdout + done.stderr)


def try_gates(bridge):
    """Tries gates that other programs have. The script must refuse them before it changes anything."""
    for what, more, loose in (
        ("at another interface", {"eth5": [gate_filter(3, 3)]}, []),
        ("beside another action", {"eth2": [with_more(4, 4)]}, []),
        ("of another pref", {"eth4": [gate_filter(600, 4)]}, []),
        ("of an earlier plan and another filter", {"eth4": [gate_filter(2, 2), gate_filter(700, 2)]}, []),
        ("of no filter", {}, [1]),
    ):
        before = bridge.lay(more, loose)
        done = bridge.run()
        bridge.tell(f"a gate {what} is refused", is_refusal(done, "belongs to another filter") and bridge.is_untouched(before), done.stdout + done.stderr)


def try_chain(bridge):
    """Tries to set gates in a chain of their own, with and without filters that lead there."""
    ways = ("eth1", "eth2", "eth4")
    bridge.lay({name: [jump_to(5)] for name in ways})
    done = bridge.run({"CHAIN": "5"})
    after = bridge.standing.state()
    wanted = {(WAYS[s], s + 1): entries for s, entries in GATES.items()}
    # another program's gate is there too
    found = {key: entries for key, entries in own_filters(after, "5").items() if key != ("eth4", 12)}
    bridge.tell("gates are set in another chain", done.returncode == 0 and found == wanted and not own_filters(after), done.stderr)
    for name in ways:
        before = bridge.lay({it: [jump_to(55 if it == name else 5)] for it in ways})
        done = bridge.run({"CHAIN": "5"})
        bridge.tell(f"a chain to which no filter of {name} leads is refused", is_refusal(done, "goto chain 5") and bridge.is_untouched(before), done.stderr)


def try_sharing(bridge):
    """Tries one interface for one neighbour: a line's two directions, two streams of a talker, or a talker that listens.

    Also tries which interfaces the script looks for with TC=echo.
    """
    for changed in ({"TALKER y": "eth3"}, {"TALKER x": "eth3", "TALKER y": "eth3"}, {"TALKER x": "eth5"}):
        bridge.lay()
        done = bridge.run(changed)
        bridge.tell(f"{changed} is taken", done.returncode == 0 and not done.stderr, done.stderr)
    before = bridge.lay()
    done = bridge.run({"TC": "echo", "OUT a": "no-such", "IN a": "no-such"})
    bridge.tell("TC=echo looks for no interface", done.returncode == 0 and "dev no-such parent root" in done.stdout and bridge.is_untouched(before), done.stderr)
    done = bridge.run({"TC": "echo", "IP": "ip", "TALKER y": "lan4"})
    bridge.tell("another name of an interface is taken", done.returncode == 0 and bridge.is_untouched(before), done.stderr)
    done = bridge.run({"TC": "echo", "IP": "ip", "OUT a": "no-such"})
    named = bridge.names["OUT a"]
    bridge.tell("where IP is set it looks for them", is_refusal(done, named) and bridge.is_untouched(before), done.stdout + done.stderr)


def try_state(program, room, software):
    form = ["--software"] if software else []
    done = call([program, "compile", "--format", "tc", *form], PLAN)
    tell(f"the script of two ways{' in software' if software else ''}", done.returncode == 0 and not done.stderr, done.stderr)
    if done.returncode != 0:
        return
    path = f"{room}/two-ways"
    write(path, done.stdout)
    try_form(path, "a plan of links both ways")
    bridge = Bridge(room, path, done.stdout, software)
    for trial in (try_setting, try_failures, try_refusals, try_gates, try_chain, try_sharing):
        trial(bridge)
    bridge.end()


def is_input(path):
    """Checks whether a file of examples/ is a plan, or an input of two parts."""
    # the inputs of `port` have two parts too: a gate list and arrivals
    text = path.read_text(encoding="utf-8")
    return path.name.endswith("-plan.toml") or path.suffix == ".txt" and len(parts_of(text)) == 2 and "links" in text


def main():
    reader = Reader(__doc__)
    reader.add_program()
    reader.add_argument("plans", metavar="PLAN", nargs="*", default=[str(path) for path in sorted((TOP / "examples").iterdir()) if is_input(path)])
    given = reader.parse_args()
    with temporary_folder() as room:
        for plan in given.plans:
            try_plan(given.program, plan, room)
            try_plan(given.program, plan, room, "--edge-gates")
        for software in (False, True):
            try_state(given.program, room, software)
    for what, number in untried.items():
        print(f"not tried: {what} ({number})")
    return counts.end()


if __name__ == "__main__":
    sys.exit(main())

"""The lists and gates at the interfaces of a plan's bridges: as `cqf compile` has them, as `tc -j` shows them, and as the driver was given them."""
import json
import re

from plan import Plan

# by ("list", interface): base time and entries. By ("gate", interface, index): address and VLAN, base time, entries
Standing = dict[tuple[str, ...], tuple]
QUEUES = [(queue, 1) for queue in range(8)]


def wanted(plan: Plan, base: int) -> Standing:
    """What the plan sets."""
    found: Standing = {}
    for bridge in plan.bridges:
        for interface, link in plan.ways_out(bridge).items():
            found["list", interface] = (base, plan.link_lists[link])
        for number in plan.gates_at(bridge):
            index = str(plan.indexes[bridge, number])
            frames = (plan.address(number), plan.vlan(number))
            found["gate", plan.way_in(bridge, number), index] = (frames, base, plan.gate_lists[bridge, number])
    return found


def reading(plan: Plan) -> str:
    """The script that shows what is set."""
    lines = []
    for bridge in plan.bridges:
        lines.append(f"echo '@ roots'; tc -n {bridge} -j qdisc show; echo")
        lines += [f"echo '@ gates {it}'; tc -n {bridge} -j filter show dev {it} ingress; echo" for it in plan.ways_in(bridge)]
    return "\n".join([*lines, ""])


def parsed(text: str) -> list[dict]:
    """The JSON that `tc` prints. If one list waits to replace another, iproute2 6.1 prints it without a key."""
    return json.loads(re.sub(r',\{("base_time":)', r',"admin":{\1', text) or "[]")


def list_shown(qdisc: dict) -> tuple:
    """A `taprio`; if one list waits to replace another, with the one that waits."""
    options = qdisc["options"] | qdisc["options"].get("admin", {})
    entries = [(int(it["gatemask"], 16), it["interval"]) for it in options.get("schedule", []) if it["cmd"] == "S"]
    is_plain = options["map"][:8] == list(range(8)) and [(it["offset"], it["count"]) for it in options["queues"]] == QUEUES
    is_whole = options["cycle_time"] == sum(time for _, time in entries)
    return (options["base_time"], entries) if is_plain and is_whole else ("another map, or another cycle time", options)


def gate_shown(shown: dict, action: dict) -> tuple:
    """A filter with a gate."""
    keys = shown["options"]["keys"]
    entries = [(it["gate_state"], it["interval"], it["ipv"], it["max_octets"]) for it in action["schedule"]]
    if action["cycle_time"] != sum(it[1] for it in entries) or set(keys) != {"dst_mac", "vlan_id"} or shown["pref"] != action["index"]:
        return ("another cycle time, other keys or another pref", shown)
    return ((keys["dst_mac"], keys["vlan_id"]), action["base_time"], entries)


def shown(text: str) -> Standing:
    """What `tc` shows at all interfaces."""
    found: Standing = {}
    for part in text.split("@ ")[1:]:
        head, _, body = part.partition("\n")
        for it in parsed(body.strip()):
            if head == "roots" and it["kind"] == "taprio":
                found["list", it["dev"]] = list_shown(it)
            for action in it.get("options", {}).get("actions", []) if head != "roots" else []:
                if "schedule" in action:
                    found["gate", head.split()[1], str(action["index"])] = gate_shown(it, action)
    return found


def given(text: str) -> Standing:
    """What the driver was given, as /proc/tsnsim has it."""
    found: Standing = {}
    for kind, interface, *words in map(str.split, text.splitlines()):
        if kind == "list":
            base, cycle, *rest = words
            entries = [(int(mask, 16), int(time)) for _, mask, time in (it.split(":") for it in rest)]
            found[kind, interface] = (int(base), entries)
        else:
            index, address, vlan, base, cycle, *rest = words
            entries = [(state, int(time), int(way), int(most)) for state, time, way, most in (it.split(":") for it in rest)]
            found[kind, interface, index] = ((address, int(vlan)), int(base), entries)
        if int(cycle) != sum(it[1] for it in entries):
            found[kind, interface] = ("another cycle time", cycle)
    return found


def differences(found: Standing, due: Standing) -> list[str]:
    """Says what differs."""
    return [f"{' '.join(key)}: {found.get(key)}, not {due.get(key)}" for key in sorted(found.keys() | due.keys()) if found.get(key) != due.get(key)]

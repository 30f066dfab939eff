"""The trial of a plan: the script sets it, and frames are sent."""
from pathlib import Path

from network import OTHERS, frames_file, network, others, starts
from plan import Plan, older
from standing import Standing, differences, given, reading, shown, wanted
from verdicts import Verdicts

MODULES = "bridge sch_taprio sch_ingress act_gate cls_flower".split()
# the number of cycles with offers
CYCLES = 8
# the number of bridges of a plan on which the driver refuses something, and the script runs again
BRIDGES = 2
# what `tc` says if the driver refuses a gate or a list
REFUSALS = ("Error: tsnsim: no room.", "Error: Device failed to setup taprio offload.")
TAKEN_BACK = "failed: what this run had set is taken back; what it replaced is gone"
# `run STEP BRIDGE SCRIPT VARIABLE=.. ..` runs a script on a bridge and keeps what it prints and its status; `state STEP` keeps what is set
RUN = """run() {
    step=$1 bridge=$2 script=$3
    shift 3
    ip netns exec "$bridge" env "$@" dash "$script" "$bridge" >>"$O/$step.said" 2>&1
    echo "$bridge $?" >>"$O/$step.status"
}
state() {
    sh "$D/reading" >"$O/$1.shown" 2>&1
    [ ! -e /proc/tsnsim ] || cat /proc/tsnsim >"$O/$1.given"
}
"""


class Trial:
    """The trial of one plan, with offloads or with the kernel's own gates: what the machine does, and how the results are judged."""

    def __init__(self, program: str, path: Path, room: Path, offloads: bool) -> None:
        form = ("--format", "tc") if offloads else ("--format", "tc", "--software")
        self.name, self.offloads, self.plan = path.stem, offloads, Plan(program, path, form)
        self.some = self.plan.bridges[:BRIDGES]
        self.older = Plan(program, older(path, room), form, first_address=101)
        # the kernel's own gates count octets differently
        self.offers, self.more = self.plan.offers(CYCLES, keeps_word=not offloads), others(self.plan, CYCLES)
        self.hops, self.drops = self.plan.hops(self.offers, room)

    def files(self) -> dict[str, str]:
        texts = {
            "network": network(self.plan, self.offloads),
            "plan": self.plan.script,
            "older": self.older.script,
            "reading": reading(self.plan),
            "frames": frames_file(self.plan, self.offers, self.more, self.offloads),
        }
        return {f"{self.name}/{name}": text for name, text in texts.items()}

    def refused_at(self, bridge: str) -> int:
        """Which list or gate of a bridge the driver refuses: the last one of the first bridge, and one in the middle of the others."""
        count = len(self.plan.ways_out(bridge)) + len(self.plan.gates_at(bridge))
        return count if bridge == self.plan.bridges[0] else count // 2 + 1

    def runs(self, step: str, plan: Plan, script: str, base: str, bridges: list[str]) -> list[str]:
        return [*(f"run {step} {it} $D/{script} BASE={base} {plan.words_of(it)}" for it in bridges), f"state {step}"]

    def refused_runs(self) -> list[str]:
        """Runs the script while the driver refuses something."""
        lines = self.runs("refused", self.plan, "plan", "0", self.some)
        refusing = [f"echo refuse {self.refused_at(it)} >/proc/tsnsim" for it in self.some]
        return [*(it for pair in zip(refusing, lines) for it in pair), "echo refuse 0 >/proc/tsnsim", lines[-1]]

    def main(self) -> list[str]:
        """What the machine does: a command that fails, the older plan, this one over it, frames, and this one again."""
        plan, end = self.plan, self.plan.end(self.offers) * self.plan.cycle
        return [
            f"O=/out/{self.name} D=/{self.name}",
            "mkdir -p $O",
            "sh $D/network >$O/network 2>&1",
            *(self.refused_runs() if self.offloads else []),
            *self.runs("older", self.older, "older", "0", plan.bridges),
            # all bridges are configured long before this instant
            f"BASE=$((($(frames now) + 3000000000) / {plan.multiple} * {plan.multiple} + {plan.multiple}))",
            "echo $BASE >$O/base",
            *self.runs("set", plan, "plan", "$BASE", plan.bridges),
            f"frames run $BASE {end} $D/frames >$O/frames 2>&1",
            *self.runs("again", plan, "plan", "$BASE", self.some),
            *(["echo clear >/proc/tsnsim"] if self.offloads else []),
            "ip -all netns delete",
        ]

    # What is judged

    def judge(self, files: dict[str, str], verdicts: Verdicts) -> None:
        self.said = {name.removeprefix(f"{self.name}/"): text for name, text in files.items() if name.startswith(f"{self.name}/")}
        self.verdicts = verdicts.of(self.name)
        self.verdicts.tell("the network is built", not self.text("network"), self.text("network"))
        if self.offloads:
            self.judge_failure()
        self.judge_older()
        self.judge_set("set", "over the older plan", self.plan.bridges)
        self.judge_frames()
        self.judge_set("again", "run again", self.some)

    def text(self, name: str) -> str:
        return self.said.get(name, "")

    def statuses(self, step: str) -> list[str]:
        return [line.split()[-1] for line in self.text(f"{step}.status").splitlines()]

    def differences(self, step: str, due: Standing) -> list[str]:
        """How the state after a step differs from what is due, by `tc` and by the driver."""
        try:
            by_driver = differences(given(self.text(f"{step}.given")), due) if self.offloads else []
            return differences(shown(self.text(f"{step}.shown")), due) + [f"driver: {it}" for it in by_driver]
        except (KeyError, ValueError) as fault:
            return [f"it can't be read, {fault!r}: {self.text(f'{step}.shown')}"]

    def judge_failure(self) -> None:
        """Judges whether a command that fails leaves nothing of the run."""
        said, count = self.text("refused.said"), len(self.some)
        refusals = sum(said.count(it) for it in REFUSALS)
        says_so = self.statuses("refused") == ["1"] * count and refusals == said.count(TAKEN_BACK) == count
        self.verdicts.tell("if the driver refuses something, the script ends with status 1 and says so", says_so, said)
        left = self.differences("refused", {})
        self.verdicts.tell("then it leaves nothing of its own", not left, "; ".join(left))

    def judge_older(self) -> None:
        left = self.differences("older", wanted(self.older, 0))
        is_set = self.statuses("older") == ["0"] * len(self.plan.bridges) and not left
        count = len(wanted(self.older, 0))
        self.verdicts.tell(f"an older plan is set: {count} lists and gates", is_set, self.text("older.said") + "; ".join(left))

    def judge_set(self, step: str, what: str, bridges: list[str]) -> None:
        due = wanted(self.plan, int(self.text("base") or 0))
        said = [line for line in self.text(f"{step}.said").splitlines() if not line.startswith("# ")]
        is_done = self.statuses(step) == ["0"] * len(bridges) and not said
        self.verdicts.tell(f"{what}: the script succeeds at each of {len(bridges)} bridges", is_done, f"{'; '.join(said)} {self.statuses(step)}")
        wrong = self.differences(step, due)
        where = "tc and the driver have" if self.offloads else "tc has"
        self.verdicts.tell(f"{what}: {where} the {len(due)} lists and gates of cqf compile and no others", not wrong, "; ".join(wrong))

    def seen(self) -> tuple[dict[tuple[int, str], int], list[int], set[int]]:
        """The cycle of each stream's frames on each link; frames that were on a link twice; and the frames of no stream that arrived."""
        found = starts(self.plan, self.text("frames"), self.offloads)
        streams = {number: its for number, its in found.items() if 0 < number < OTHERS}
        # an instant may be some hundred ns early
        cycles = {(number, link): (at + 1000) // self.plan.cycle for number, its in streams.items() for link, at in its}
        twice = [number for number, its in streams.items() if len({link for link, _ in its}) < len(its)]
        ends = {OTHERS + k: f">{it.path[-1]}" for k, it in enumerate(self.more)}
        came = {number for number, end in ends.items() if any(link.endswith(end) for link, _ in found.get(number, []))}
        return cycles, twice, came

    def frame(self, number: int) -> str:
        offer = self.offers[number - 1]
        return f"frame {number} of {self.plan.streams[offer.stream]['name']}, offered in cycle {offer.at // self.plan.cycle}"

    def judge_frames(self) -> None:
        """Judges whether each frame was on the links and in the cycles that `cqf hops` gives, and on no others."""
        cycles, twice, came = self.seen()
        late = int(([line.split()[1] for line in self.text("frames").splitlines() if line.startswith("late ")] or [self.plan.cycle])[0])
        self.verdicts.tell("frames are sent less than a tenth of a cycle late", late < self.plan.cycle // 10, f"{late} ns late")
        wrong = [f"{self.frame(it[0])}: on {it[1]} in cycle {cycles.get(it)}, not {self.hops[it]}" for it in self.hops if cycles.get(it) != self.hops[it]]
        wrong += [f"{self.frame(it)}: twice on a link" for it in twice]
        what = f"{len(self.offers)} frames: their {len(self.hops)} hops are in the cycles of cqf hops"
        self.verdicts.tell(what, self.hops and not wrong, "; ".join(wrong[:5]))
        more = [f"{self.frame(number)}: on {link}" for number, link in sorted(cycles.keys() - self.hops.keys())]
        self.verdicts.tell(f"there are no other hops, so its {len(self.drops)} drops are dropped", not more, "; ".join(more[:5]))
        self.verdicts.tell(f"{len(self.more)} frames of no stream arrive", len(came) == len(self.more), f"{len(came)} arrived")

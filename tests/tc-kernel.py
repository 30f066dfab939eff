#!/usr/bin/env python3
"""Tries the scripts of `cqf compile --format tc` on a Debian kernel in a virtual machine. It needs no root, no KVM and no network.

    tests/tc-kernel.py [--software] [--kernel DIR] [--iproute DIR] PROGRAM [PLAN ..]
    tests/tc-kernel.py --packages

A PLAN is a TOML file with a domain and its streams. If none is given, those of tests/tc-kernel.d/ are taken: a line; a tree with streams to
two listeners and streams that pause; and a ring with links in both directions, two talkers at one bridge, and a talker with two streams.

The machine has a Linux bridge for each bridge of the plan. The driver of its interfaces takes both offloads, `taprio` and gates. This driver is
a module, tests/tc-kernel.d/tsnsim, that shows what it was given and acts on it. Its behaviour is this project's reading of the standard. The script,
`tc`, the kernel's parts of `taprio`, `flower` and `gate`, and the bridges are real. The trials of each plan are:

- At two bridges the driver refuses one of the lists or gates. The script ends with status 1, says so, and leaves nothing of its own.
- An older plan with other streams is set, and then the plan over it. `tc -j` shows, and the driver has, exactly the lists of `cqf compile`.
- Frames are sent. Some exceed the reservation, and some arrive in cycles that aren't their stream's. Each frame is on the links and in the cycles
  that `cqf hops` reports.
- The script runs again at two bridges, and nothing changes.

With --software the interfaces have no offloads, and the kernel's own gates act. Each known difference from the model is reported with its
figure in a line `differs: ..`, which counts neither as passed nor as failed. An unknown difference fails. The script for offloads must be refused.
The script of `compile --format tc --software` must set each plan, for talkers that keep to their reservations.

--packages prints the Debian packages that are needed. If something is missing, the last line is `tc-kernel: not run: ..` with the packages to
install, and the status is 77. Instead of installing a kernel and its headers, unpack linux-image-V, linux-headers-V, linux-headers-V-common and
linux-kbuild into one folder, with `apt-get download` and `dpkg-deb -x`, and name it with --kernel. Name another iproute2 with --iproute in the
same way. Build results are kept in built/tc-kernel/.

Otherwise the last line is `tc-kernel: N passed, M failed`. The status is 1 if one failed or none passed.
"""
import argparse
import sys
from pathlib import Path

HERE = Path(__file__).resolve().parent
sys.path[:0] = [str(HERE.parent), str(HERE / "tc-kernel.d")]
import machine
import software
import trial
from common.running import temporary_folder
from common.words import Reader
from plan import Plan, Refused
from verdicts import Verdicts

NOT_RUN = 77


def try_offloads(around: machine.Around, program: str, plans: list[Path], room: Path, verdicts: Verdicts) -> None:
    trials = [trial.Trial(program, it, room, True) for it in plans]
    files = {name: text for it in trials for name, text in it.files().items()}
    found = machine.run(around, trial.MODULES, files, [trial.RUN, *(line for it in trials for line in it.main())], False)
    for it in trials:
        it.judge(found, verdicts)


def software_trials(program: str, plans: list[Path], room: Path) -> list[trial.Trial]:
    """The trials of the script for kernels without offloads, if the program writes it."""
    try:
        return [trial.Trial(program, it, room, False) for it in plans]
    except Refused as refused:
        print(f"not tried: the script without offloads. {refused}".splitlines()[0])
        return []


def try_software(around: machine.Around, program: str, plans: list[Path], room: Path, verdicts: Verdicts) -> None:
    bare = software.Unoffloaded(Plan(program, plans[0]))
    trials = software_trials(program, plans, room)
    files = software.files() | bare.files() | {name: text for it in trials for name, text in it.files().items()}
    main = [trial.RUN, *software.main(), *bare.main(), *(line for it in trials for line in it.main())]
    found = machine.run(around, software.MODULES, files, main, True)
    for difference in software.DIFFERENCES:
        difference.judge(found, verdicts)
    software.judge_own(found, verdicts)
    bare.judge(found, verdicts)
    for it in trials:
        it.judge(found, verdicts)


def read_words() -> argparse.Namespace:
    """Returns the words. The options have their help in the description alone."""
    reader = Reader(__doc__)
    reader.add_argument("--software", action="store_true")
    # the folder below which boot/, lib/modules/ and usr/src/ are
    reader.add_argument("--kernel", type=Path, default=Path("/"))
    reader.add_argument("--iproute", type=Path)
    reader.add_argument("--packages", action="version", version=" ".join(machine.packages()))
    reader.add_program()
    reader.add_argument("plans", nargs="*", type=Path, metavar="PLAN", default=sorted((HERE / "tc-kernel.d").glob("*.toml")))
    return reader.parse_args()


def main() -> int:
    words, verdicts = read_words(), Verdicts()
    try:
        around = machine.look_around(words.kernel, words.iproute)
        with temporary_folder() as room:
            (try_software if words.software else try_offloads)(around, words.program, words.plans, Path(room), verdicts)
    except machine.Lacking as lacking:
        print(f"tc-kernel: not run: there is no {lacking}" + (f"; install {' '.join(lacking.packages)}" if lacking.packages else ""))
        return NOT_RUN
    except machine.Ended as ended:
        verdicts.tell("the machine ends", False, str(ended))
    return verdicts.end()


if __name__ == "__main__":
    sys.exit(main())

"""The words of scripts."""
import argparse
import random
from pathlib import Path


class Reader(argparse.ArgumentParser):
    """Reads the words of a script. `--help` prints the description of the script, which lists its words."""

    def __init__(self, description: str) -> None:
        super().__init__(description=description, formatter_class=argparse.RawDescriptionHelpFormatter, allow_abbrev=False)

    def format_help(self) -> str:
        return self.description or ""

    def add_program(self, default: str | None = None) -> None:
        """Adds the program under test, as an absolute path because some scripts run it in other folders."""
        more = {"nargs": "?", "default": default} if default else {}
        self.add_argument("program", metavar="PROGRAM", type=absolute, **more)

    def add_draws(self, count: int) -> None:
        """Adds how many cases are drawn, by default `count`, and the seed."""
        self.add_argument("count", metavar="COUNT", nargs="?", type=int, default=count)
        self.add_argument("seed", metavar="SEED", nargs="?", type=int, default=1)


def absolute(name: str) -> str:
    return str(Path(name).resolve())


def read_draws(description: str, count: int, has_kinds: bool = False) -> argparse.Namespace:
    """Reads the words PROGRAM [COUNT [SEED]] of a script, perhaps with --kinds. `count` is the default of COUNT."""
    reader = Reader(description)
    reader.add_program()
    reader.add_draws(count)
    if has_kinds:
        reader.add_argument("--kinds", action="store_true")
    return reader.parse_args()


def draws_of(seed: int, *numbers: int) -> random.Random:
    """Returns the random numbers of a case. The same seed gives the same ones, whichever cases are drawn before."""
    return random.Random(" ".join(map(str, (seed, *numbers))))

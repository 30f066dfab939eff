"""What passed and what failed."""
from common.counting import Counts


class Verdicts:
    def __init__(self, counts: Counts | None = None, about: str = "") -> None:
        self.counts, self.about = counts or Counts("tc-kernel"), about

    def of(self, about: str) -> "Verdicts":
        """The same verdicts, with a word at the beginning of each line."""
        return Verdicts(self.counts, f"{about}: ")

    def tell(self, what: str, passed: bool, said: str = "") -> None:
        """Reports one trial."""
        more = f": {said.strip()[:700]}" if said.strip() else ""
        self.counts.tell(None if passed else f"FAILED {self.about}{what}{more}")
        if passed:
            print(f"passed {self.about}{what}", flush=True)

    def end(self) -> int:
        """Prints the last line and returns the status."""
        return self.counts.end()

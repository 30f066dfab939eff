"""Trials that pass or fail, and the last line that ./test reads."""
import concurrent.futures
from collections.abc import Callable, Iterable

# a trial's name, and the trial, which raises an exception if it fails
Trial = tuple[str, Callable[[], None]]


class Counts:
    """Counts trials, and prints the faults of those that fail: of all, or of the first few."""

    def __init__(self, name: str, most_shown: int | None = None) -> None:
        self.name, self.most_shown = name, most_shown
        self.passed = self.failed = 0

    def tell(self, fault: str | None) -> None:
        """Counts a trial as failed if it has a fault, and as passed otherwise."""
        if not fault:
            self.passed += 1
            return
        self.failed += 1
        if self.most_shown is None or self.failed <= self.most_shown:
            print(fault.removesuffix("\n"), flush=True)

    def end(self) -> int:
        """Prints the last line. Returns the exit status, 1 if a trial failed or none passed: a script that tried nothing must not pass."""
        print(f"{self.name}: {self.passed} passed, {self.failed} failed")
        return 1 if self.failed or not self.passed else 0


def fault_of(trial: Trial) -> str | None:
    """Runs a trial. Returns its fault, which is the exception that ended it."""
    name, run = trial
    try:
        run()
    except Exception as fault:
        return f"{name}: {type(fault).__name__}: {fault}"
    return None


def try_all(counts: Counts, trials: Iterable[Trial], at_once: int = 1) -> int:
    """Runs trials, several at a time if `at_once` says so. Returns the exit status."""
    with concurrent.futures.ThreadPoolExecutor(at_once) as pool:
        for fault in pool.map(fault_of, trials):
            counts.tell(fault)
    return counts.end()

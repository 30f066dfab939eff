#!/usr/bin/env python3
"""Runs a program many times, refuses another of its requests for memory each time, and reports how the runs end.

    tests/refused.py PROGRAM [--every K] [--most N] [--from] [--free] -- WORDS < INPUT
    tests/refused.py --calls PROGRAM [NAME..]
    tests/refused.py --gate CALLS PROGRAM

The first form is for any run of `cqf`. The first run has its 1st request refused, the next its 2nd, and so on up to the last request (at
most the N-th with --most; each K-th with --every). With --from, each run also has all later requests refused. A run has to end in one of
these ways:

- With status 0, or with status 1 and something on standard output (`diff`), it writes what the program writes if nothing is refused. With
  --free this isn't checked. That is for runs on threads that may have several histories.
- With status 3 it writes that memory is lacking, and nothing on standard output.
- With status 4 it writes that a bridge lacks memory or that a thread couldn't be started, and nothing on standard output. Only a run on
  threads may end so.

The script prints any other end, and its status is then 1. The status is also 1 if a run without a refused request asks for memory after
the first byte of its standard output. A run on threads asks in another order each time. So the script makes three whole runs first, and
takes the greatest number of requests among them.

With --calls it tries the calls of the program `cqf_refused`, or only those named. It refuses the 1st, 2nd, .. request between the two marks
of a call, until a run meets no refusal. Then it starts again, with all later requests refused too. The call has to be refused for want of
memory, and the state after it has to be as promised. If the call is made again, it has to return what it returns if nothing is refused.
`ELSE` has the exceptions. A call whose name begins with `none: ` must not ask for memory. The script prints how many requests each call has.

With --gate it tries all calls of CALLS, then the examples with PROGRAM, both with and without --from. Its last line is
`refused: NAMES calls, RUNS runs, WRONG wrong`.

The script compiles a library with the toolchain of `rt`. That library replaces the C library's functions for memory.
"""
import concurrent.futures
import os
import re
import subprocess
import sys
import tempfile
import time
from pathlib import Path

sys.path.insert(0, str(Path(__file__).resolve().parent.parent))
from common import TOP, toolchain
from common.running import write
from common.stored_runs import lines_of, stored_runs
from common.words import Reader, absolute

SECONDS = 120
PROCESSORS = len(os.sched_getaffinity(0))

REFUSES = r"""
typedef unsigned long size_t;
typedef long ssize_t;
extern void *__libc_malloc(size_t), *__libc_calloc(size_t, size_t), *__libc_realloc(void *, size_t), *__libc_memalign(size_t, size_t);
extern int *__errno_location(void);
extern char *getenv(const char *);
extern long atol(const char *), syscall(long, ...);
extern int creat(const char *, unsigned), close(int), snprintf(char *, size_t, const char *, ...);
#ifdef __x86_64__
enum { WRITE = 1, WRITEV = 20, EXIT_GROUP = 231 };
#else
enum { WRITE = 64, WRITEV = 66, EXIT_GROUP = 94 };
#endif
enum { MARK = 7777777 };
static long which, from, marked, asked, met, late, marks, wrote, ready;
__attribute__((constructor)) static void begin(void) {
    const char *n = getenv("REFUSED");
    which = n ? atol(n) : 0;
    from = getenv("REFUSED_FROM") != 0;
    marked = getenv("REFUSED_MARKED") != 0;
    ready = 1;
}
static void end(void) {
    const char *where = getenv("REFUSED_REPORT");
    char line[128];
    if (!where) return;
    int file = creat(where, 0600), count = snprintf(line, sizeof line, "%ld %ld %ld %ld", asked, met, late, marks);
    syscall(WRITE, (long)file, line, (long)count);
    close(file);
}
__attribute__((destructor)) static void at_exit(void) { end(); }
void _exit(int status) {
    end();
    for (;;) syscall(EXIT_GROUP, (long)status);
}
void _Exit(int status) { _exit(status); }
void quick_exit(int status) { _exit(status); }
ssize_t write(int file, const void *bytes, size_t count) {
    if (file == 1) wrote = 1;
    return syscall(WRITE, (long)file, bytes, count);
}
ssize_t writev(int file, const void *parts, int count) {
    if (file == 1) wrote = 1;
    return syscall(WRITEV, (long)file, parts, (long)count);
}
static int refused(size_t octets) {
    if (!ready) return 0;
    if (marked && octets == MARK) { __atomic_fetch_add(&marks, 1, __ATOMIC_SEQ_CST); return 0; }
    if (marked && __atomic_load_n(&marks, __ATOMIC_SEQ_CST) != 1) return 0;
    if (wrote) late = 1;
    long number = __atomic_fetch_add(&asked, 1, __ATOMIC_SEQ_CST) + 1;
    if (!which || (from ? number < which : number != which)) return 0;
    __atomic_fetch_add(&met, 1, __ATOMIC_SEQ_CST);
    return 1;
}
static void *none(void) { *__errno_location() = 12; return 0; }
void *malloc(size_t n) { return refused(n) ? none() : __libc_malloc(n); }
void *calloc(size_t n, size_t m) { return refused(n * m) ? none() : __libc_calloc(n, m); }
void *realloc(void *p, size_t n) { return refused(n) ? none() : __libc_realloc(p, n); }
void *memalign(size_t a, size_t n) { return refused(n) ? none() : __libc_memalign(a, n); }
void *aligned_alloc(size_t a, size_t n) { return memalign(a, n); }
int posix_memalign(void **p, size_t a, size_t n) { void *q = memalign(a, n); if (!q) return 12; *p = q; return 0; }
"""

ON_THREADS = re.compile(rb"cqf: run: (Bridge \d+ Memory|Spawn)\n")

WELL, MEMORY = "as it is to be", "memory, and then as it is to be"

# how a call may end other than with `MEMORY` if one of its requests is refused. If a thread can't be started for want of memory, the sums by
# link are made without it. A refusal that comes before want of memory in the order of refusals is returned even if memory for a copy was
# refused. If room for the longest input is refused, the input grows by doubling
ELSE = {
    "write_links of many starts": [WELL],
    "CycleBook::post of a page twice": [WELL],
    "Desk::withdraw of a full history": [WELL],
    "read_input of some mebibytes": [WELL],
}


class Met:
    """Reads what the library noted of a run: how many requests there were, how many it refused, whether one came late, and the marks."""

    def __init__(self, file):
        self.asked, self.met, late, self.marks = (int(it) for it in Path(file).read_text().split())
        self.late = late != 0


class Refusing:
    """Compiles the library that refuses memory, and runs programs with it."""

    def __init__(self, room):
        self.room, self.library, self.runs = room, f"{room}/refuses.so", 0
        write(f"{room}/refuses.c", REFUSES)
        clang = toolchain.tool("clang")
        words = ["-O2", "-shared", "-fPIC", "-nostdlib", "-fuse-ld=lld", f"-B{Path(clang).parent}", "-o", self.library, f"{room}/refuses.c"]
        subprocess.run([clang, *words], check=True)

    def run(self, called, text=b"", which=0, is_from=False, is_marked=False):
        """Runs a program with one request refused, or with all from it on. Returns the run and what the library noted of it. Both are None if
        the run hangs. The note is None if a signal ended the run."""
        self.runs += 1
        report = f"{self.room}/report-{self.runs}-{which}-{is_from}-{is_marked}-{time.monotonic_ns()}"
        env = {**os.environ, "LD_PRELOAD": self.library, "REFUSED": str(which), "REFUSED_REPORT": report}
        env.update({"REFUSED_FROM": "1"} if is_from else {})
        env.update({"REFUSED_MARKED": "1"} if is_marked else {})
        try:
            ran = subprocess.run(called, input=text, capture_output=True, env=env, timeout=SECONDS, cwd=TOP)
        except subprocess.TimeoutExpired:
            return None, None
        if not os.path.exists(report):
            return ran, None
        met = Met(report)
        os.remove(report)
        return ran, met


def fault_of_end(ran, met):
    """Returns what is wrong with a run that the library didn't see through to its end, as a text, or None."""
    if ran is None:
        return "it hangs"
    return f"it ended with status {ran.returncode}, and the library saw no end" if met is None else None


def fault_of_call(name, ran, met):
    """Returns what is wrong with a run of a call, as a text, or None."""
    if fault := fault_of_end(ran, met):
        return fault
    if met.marks != 2:
        return f"{met.marks} marks were seen"
    said = ran.stdout.decode().strip()
    wanted = [MEMORY, *ELSE.get(name, [])] if met.met else [WELL]
    if met.asked and name.startswith("none: "):
        return f"it asked for memory {met.asked} times"
    if ran.returncode or said not in [f"{name}: {it}" for it in wanted]:
        return f"status {ran.returncode}: {said} {ran.stderr[:80]}"
    return None


def try_call(refusing, program, name):
    """Makes all runs of a call. Returns how many requests it has, how many runs there were, and what was wrong."""
    whole, noted = refusing.run([program, name], is_marked=True)
    fault = fault_of_call(name, whole, noted)
    runs, wrong = 1, [f"{name}: {fault}"] if fault else []
    if noted is None:
        return 0, runs, wrong
    for is_from in (False, True):
        for which in range(1, 1_000_000):
            ran, met = refusing.run([program, name], which=which, is_from=is_from, is_marked=True)
            runs += 1
            fault = fault_of_call(name, ran, met)
            if fault:
                wrong.append(f"{name}, request {which}{' and all after it' if is_from else ''} refused: {fault}")
            if met is None or not met.met or len(wrong) > 9:
                break
    return noted.asked, runs, wrong


def try_calls(refusing, program, names):
    """Makes all runs of the calls of these names. Returns how many calls and runs there were, and what was wrong."""
    all_names = [line.rsplit(b": ", 1)[0].decode() for line in subprocess.run([program], capture_output=True).stdout.splitlines()]
    chosen = [it for it in all_names if not names or it in names]
    count, faults = 0, [] if chosen else ["there is no call of these names"]
    with concurrent.futures.ThreadPoolExecutor(PROCESSORS) as pool:
        for name, (asked, runs, wrong) in zip(chosen, pool.map(lambda name: try_call(refusing, program, name), chosen)):
            count += runs
            faults += wrong
            print(f"{name}: {asked} requests, {runs} runs, {len(wrong)} wrong", flush=True)
    return len(chosen), count, faults


def is_done(ran):
    """Returns whether a run has written its output: with status 0, or with 1 if it is of `diff` and something differs."""
    return ran.returncode == 0 or ran.returncode == 1 and bool(ran.stdout)


def fault_of_whole(ran, met, right, is_on_threads):
    """Returns what is wrong with the end of a run, or None. `right` is what the run has to write, if that is known."""
    if fault := fault_of_end(ran, met):
        return fault
    if is_done(ran):
        return None if right in (None, (ran.returncode, ran.stdout, ran.stderr)) else f"status {ran.returncode} with another output"
    if ran.stdout:
        return f"status {ran.returncode} with something on standard output"
    if ran.returncode == 3 and ran.stderr == b"cqf: out of memory\n":
        return None
    if is_on_threads and ran.returncode == 4 and ON_THREADS.fullmatch(ran.stderr):
        return None
    return f"status {ran.returncode}: {ran.stderr[:80]!r}"


def try_whole(refusing, called, text, every=1, most=1_000_000, is_free=False, is_from=False):
    """Makes all runs of a program with a request refused. Returns how many ended with each status, how many runs there were, and what was wrong."""
    is_on_threads = b"--threads" in text.split(b"\n", 1)[0] or "--threads" in called
    wholes = [refusing.run(called, text) for _ in range(3 if is_on_threads else 1)]
    ends, faults, runs = {}, [], len(wholes)
    if any(ran is None or met is None or not met.asked or not is_done(ran) for ran, met in wholes):
        return ends, runs, ["a run fails although nothing is refused, or the library doesn't see it"]
    right = None if is_free else (wholes[0][0].returncode, wholes[0][0].stdout, wholes[0][0].stderr)
    faults += ["memory is requested after the first byte"] if any(met.late for _, met in wholes) else []
    last = min(most, max(met.asked for _, met in wholes))
    with concurrent.futures.ThreadPoolExecutor(PROCESSORS) as pool:
        numbers = range(1, last + 1, every)
        for which, (ran, met) in zip(numbers, pool.map(lambda k: refusing.run(called, text, k, is_from), numbers)):
            runs += 1
            fault = fault_of_whole(ran, met, right, is_on_threads)
            if fault is None and not met.met and not is_on_threads:
                fault = "no request was refused"
            if fault:
                faults.append(f"request {which} refused: {fault}")
            elif met.met:
                ends[ran.returncode] = ends.get(ran.returncode, 0) + 1
    return ends, runs, faults


def text_of_ends(ends):
    return ", ".join(f"{count} with status {status}" for status, count in sorted(ends.items()))


# each example: its words, its input, and whether it may have several outputs, since it runs on threads
EXAMPLES = (
    ("port --until 500000", "two-cycles.txt", False),
    ("line --cycles 2", "burst.csv", False),
    ("compile", "one-link.txt", False),
    ("compile", "factory-cell.txt", False),
    ("compile", "vehicle-backbone.txt", False),
    ("compile", "studio.txt", False),
    ("compile --format tc", "one-link.txt", False),
    ("compile --edge-gates", "factory-cell.txt", False),
    ("load studio-plan.toml", None, False),
    ("load --streams studio-plan.toml", None, False),
    ("latency studio-plan.toml", None, False),
    ("diff studio-plan.toml factory-cell-plan.toml", None, False),
    ("deliveries --cycles 6 held-plan.toml held-calls.txt held-offers.csv", None, False),
    ("check --cycles 6 held-plan.toml held-calls.txt held-offers.csv", None, False),
    ("summary --cycles 6 held-plan.toml held-calls.txt held-offers.csv", None, False),
    ("hops --cycles 5 studio-plan.toml studio-calls.txt studio-offers.csv", None, False),
    ("plan mic-network.toml", None, False),
    ("plan --table mic-network.toml", None, False),
    ("plan --without panel>base cell-network.toml", None, False),
    ("run --cycles 5", "three-bridges.txt", False),
    ("run --cycles 6", "withdrawal.txt", False),
    ("run --cycles 2", "background.txt", False),
    ("report --cycles 5", "three-bridges.txt", False),
    ("report --cycles 6", "withdrawal.txt", False),
    ("report --cycles 2", "background.txt", False),
    ("run --cycles 5 --threads", "three-bridges.txt", False),
    ("run --cycles 6 --threads", "withdrawal.txt", True),
    ("run --cycles 2 --threads", "background.txt", False),
) + tuple(
    (f"{words} --cycles {6 if case == 'held' else 5}{flag} {case}-plan.toml {case}-calls.txt {case}-offers.csv", None, bool(flag))
    for case in ("factory-cell", "held", "studio", "vehicle-backbone")
    for words, flag in (("run", ""), ("report", ""), ("run", " --threads"))
)


def whole_runs(program):
    """Yields the whole runs of the gate: each one's name, program with words, input, how many times its requests are refused one by one, and
    whether it may have several outputs. The run along the line, on threads, is tried three times. One example admits after a `seal`, so
    its calls may fall into several cycles."""
    along = lines_of(next(stored_runs(["run-along-the-line"])) / "stdin")
    yield "run --cycles 5 --threads", [program, "run", "--cycles", "5", "--threads"], along, 3, False
    for words, file, is_free in EXAMPLES:
        named = [f"examples/{it}" if "." in it else it for it in words.split()]
        text = b"" if file is None else (TOP / "examples" / file).read_bytes()
        yield f"{words} {file or ''}".strip(), [program, *named], text, 1, is_free


def gate(refusing, calls, program):
    """Tries the calls and some whole runs. Returns the status."""
    begun = time.monotonic()
    names, runs, faults = try_calls(refusing, calls, [])
    for name, called, text, times, is_free in whole_runs(program):
        for is_from in [False] * times + [True]:
            ends, count, wrong = try_whole(refusing, called, text, 1, is_free=is_free, is_from=is_from)
            runs += count
            faults += [f"{name}: {it}" for it in wrong]
            print(f"{name}{', from each on' if is_from else ''}: {count} runs, {text_of_ends(ends)}, {len(wrong)} wrong", flush=True)
    for it in faults:
        print(it)
    print(f"it took {time.monotonic() - begun:.0f} s")
    print(f"refused: {names} calls, {runs} runs, {len(faults)} wrong")
    return 1 if faults else 0


def read_words(words):
    """Returns the words before `--`."""
    reader = Reader(__doc__)
    reader.add_program()
    reader.add_argument("names", nargs="*", default=[])
    kinds = reader.add_mutually_exclusive_group()
    kinds.add_argument("--calls", action="store_true")
    kinds.add_argument("--gate", action="store_true")
    reader.add_argument("--every", type=int, default=1)
    reader.add_argument("--most", type=int, default=1_000_000)
    reader.add_argument("--from", dest="is_from", action="store_true")
    reader.add_argument("--free", action="store_true")
    given = reader.parse_intermixed_args(words)
    if given.gate and len(given.names) != 1:
        reader.error("--gate wants CALLS and PROGRAM")
    return given


def main():
    words = sys.argv[1:]
    cut = words.index("--") if "--" in words else len(words)
    given = read_words(words[:cut])
    with tempfile.TemporaryDirectory() as room:
        refusing = Refusing(room)
        if given.gate:
            return gate(refusing, given.program, absolute(given.names[0]))
        if given.calls:
            names, runs, faults = try_calls(refusing, given.program, given.names)
            summary = f"refused: {names} calls, {runs} runs, {len(faults)} wrong"
        else:
            called = [given.program, *words[cut + 1 :]]
            ends, runs, faults = try_whole(refusing, called, sys.stdin.buffer.read(), given.every, given.most, given.free, given.is_from)
            summary = f"{sum(ends.values())} runs with a request refused: {text_of_ends(ends)}; {len(faults)} ended wrongly"
    for it in faults:
        print(it)
    print(summary)
    return 1 if faults else 0


sys.exit(main())

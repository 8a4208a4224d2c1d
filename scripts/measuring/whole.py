"""Whole programs, each beside Rust programs that write the same: the instructions, the time and the peak of memory."""
import concurrent.futures
import os
import pathlib
import resource
import subprocess
import sys
import tempfile

from building import refusing
from measuring import inputs, instructions, programs

NAMES = list(inputs.MAKERS)
# A program of the benchmark's own is beside the same over each crate of Rust's that grows. It takes long for a line.
OWN, PLAIN, CRATES, SHARE = ("graph", "editor"), ["plain Rust"], ["tinyvec", "smallvec", "vec"], 20
BUILT = [it for it in NAMES if it not in OWN]


def measure(lines, runs, cores):
    """By unit, of each side, by program. The times are of runs that are pinned to the cores."""
    with tempfile.TemporaryDirectory() as folder:
        sources = {name: f"{folder}/{name}" for name in NAMES}
        for name, source in sources.items():
            inputs.write(source, name, lines // (SHARE if name in OWN else 1))
            check_answers(name, source)
        of_each = lambda measured, name: {side: measured(it, sources[name]) for side, it in sides(name).items()}
        with concurrent.futures.ThreadPoolExecutor(os.cpu_count()) as pool:
            count = lambda it, source: instructions.of_run(it, source) / 1000000
            counts = [*pool.map(lambda name: of_each(count, name), sources)]
        os.sched_setaffinity(0, cores)
        times = [least_times(name, source, runs) for name, source in sources.items()]
        peaks = [of_each(lambda it, source: refusing.peak(it, [pathlib.Path(source).read_bytes()]), name) for name in sources]
    units = {"Million instructions": counts, "Milliseconds": times, "KiB at most": peaks}
    of_side = lambda side, of: {name: it[side] for name, it in zip(sources, of) if side in it}
    return {unit: {side: of_side(side, of) for side in ["here", *PLAIN, *CRATES]} for unit, of in units.items()}


def sides(name):
    """By side, how a program is called that writes the same."""
    if name in OWN:
        return {"here": [programs.program(programs.BENCH), name]} | {it: [programs.PEERS, name, it] for it in CRATES}
    return {"here": [programs.program(name)], PLAIN[0]: [programs.PEERS, name]}


def check_answers(name, source):
    """Stops if two of the programs write different lines."""
    given = pathlib.Path(source).read_bytes()
    written = {subprocess.run(it, input=given, stdout=subprocess.PIPE, check=True).stdout for it in sides(name).values()}
    if len(written) > 1:
        sys.exit(f"{name} and a Rust program of that name write different lines")


def least_times(name, source, runs):
    """The least milliseconds of each side, in turns."""
    commands = [*sides(name).items()]
    times = {side: [] for side, _ in commands}
    for turn in (run % len(commands) for run in range(runs)):
        for side, command in commands[turn:] + commands[:turn]:
            times[side].append(milliseconds_of(command, source))
    return {side: min(it) for side, it in times.items()}


def milliseconds_of(command, source):
    """For so long the processor works on a run, whatever else it does meanwhile."""
    before = resource.getrusage(resource.RUSAGE_CHILDREN)
    with open(source, "rb") as lines:
        subprocess.run(command, stdin=lines, stdout=subprocess.DEVNULL, check=True)
    after = resource.getrusage(resource.RUSAGE_CHILDREN)
    return 1000 * (after.ru_utime + after.ru_stime - before.ru_utime - before.ru_stime)


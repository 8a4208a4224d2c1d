"""Instructions, counted by callgrind: they are the same on each run, whatever else the machine does.

Of a row callgrind counts from the function `begin_rounds` to the function `end_rounds`. Each program runs for ROUNDS and
for twice as many, and the difference is that of the further rounds alone: what the first ones cost besides, as a
page of memory, falls out. A whole program is counted from its start to its end.
"""
import concurrent.futures
import os
import shutil
import subprocess
import tempfile

COUNTER = [
    "valgrind", "--tool=callgrind", "--combine-dumps=yes",
    "--zero-before=*::begin_rounds*", "--dump-before=*::end_rounds*",
]

# The whole of it: some copies of the C library take 7 or 14 instructions more or fewer by the alignment of the stack, and that
# depends on the length of the environment and of the program's name. Every call is bound before it starts. The C library copies
# and fills by moves of registers, however long the run: of a `rep movsb` each byte would count as an instruction.
ENVIRONMENT = {
    "LD_BIND_NOW": "1",
    "GLIBC_TUNABLES": "glibc.cpu.x86_rep_movsb_threshold=4000000000:glibc.cpu.x86_rep_stosb_threshold=4000000000",
}


# With another number a few counts differ by what the allocator does, and with one of another length by the stack.
ROUNDS = 48


def count(programs):
    """Of each program, by row and capacity. The runs go side by side, since no time is taken."""
    asked = {(name, it): [*command, "rows", str(it)] for name, command in programs.items() for it in (ROUNDS, 2 * ROUNDS)}
    with concurrent.futures.ThreadPoolExecutor(os.cpu_count()) as pool:
        counts = dict(zip(asked, pool.map(counted, asked.values())))
    return {name: further(counts[name, ROUNDS], counts[name, 2 * ROUNDS]) for name in programs}


def further(once, twice):
    """The instructions of each round that only the longer run has."""
    return {
        key: (count_twice - once[key][1]) / (rounds_twice - once[key][0])
        for key, (rounds_twice, count_twice) in twice.items()
    }


def counted(command):
    """The rounds and instructions of each row."""
    printed, lines = run(command, stdout=subprocess.PIPE)
    rows, totals = [line.split() for line in printed.splitlines()], totals_of(lines)
    if len(rows) != len(totals):
        raise ValueError(f"{command}: {len(rows)} rows, but {len(totals)} counts")
    return {(row[0], int(row[1])): (int(row[2]), total) for row, total in zip(rows, totals)}


def totals_of(lines):
    """The counts of the parts that the end of a row made."""
    totals, is_row = [], False
    for line in lines:
        if line.startswith("desc: Trigger:"):
            is_row = "--dump-before" in line
        elif is_row and line.startswith("totals:"):
            totals.append(int(line.split()[1]))
    return totals


def of_run(command, source):
    """The instructions of a run that reads the file."""
    with open(source, "rb") as given:
        _, lines = run(command, stdin=given, stdout=subprocess.DEVNULL)
    return next(int(line.split()[1]) for line in lines if line.startswith("totals:"))


def run(command, **streams):
    """What the program printed, and the lines of its counts."""
    program, *words = command
    with tempfile.TemporaryDirectory() as folder:
        ran = subprocess.run(
            [shutil.which(COUNTER[0]), *COUNTER[1:], f"--callgrind-out-file={folder}/counts", f"./{program.name}", *words],
            check=True, stderr=subprocess.DEVNULL, text=True, cwd=program.parent, env=ENVIRONMENT, **streams,
        )
        with open(f"{folder}/counts", encoding="utf-8") as file:
            return ran.stdout, file.readlines()

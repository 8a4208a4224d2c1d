"""Whether what docs/reference/costs.txt says of each call is shown, and bench/calls.txt names calls and rows.

A call that never allocates returns no error that says so. If its type has an allocator and it does not only read, a test in a
module `no_memory` makes it, which `tests/refuse` holds to no request.
bench/calls.txt has the row of the benchmarks of each call that users look up, at 64 and 16,384 items; that of a call whose
time is constant, if it has the call's name, counts at most CONSTANT more at 16,384.
"""
import re

from measuring import tables
from pages import reference
from reading import exports

WITH_ALLOCATOR = ("TinyVec", "InlineText")
BENCH = exports.TOP / "bench/calls.txt"
CONSTANT = 2
# By type the beginnings that the names of its rows have at 64, and at 16,384.
PREFIXES = {
    "ArrayVec": ("", ""), "TinyVec": ("tiny_ tiny_long_", "tiny_long_"), "InlineText": ("text_", "text_"),
}


def faults():
    found = [it for crate in exports.LIBRARIES for it in exports.Crate(crate).exports()]
    functions = [(it.holder(), f"{it.holder()}::{one.name}", one.signature()) for it in found for one in it.functions()]
    yield from faults_of_requests({call: signature for _, call, signature in functions})
    yield from faults_of_bench({call for _, call, _ in functions})


def faults_of_requests(signatures):
    tests = "".join(it.read_text(encoding="utf-8") for it in (exports.TOP / "crates").glob("*_tests/src/**/no_memory.rt"))
    for call in (it for it, (_, how) in reference.costs() if how == "never" and it in signatures):
        may_fail = re.search("AllocError|NoMemory", signatures[call])
        yield from [f"costs.txt: {call} never allocates, but may fail for memory"] * bool(may_fail)
        kind, name = call.split("::")
        is_shown = re.search(rf"\b{name}\(", tests) or "(&self" in signatures[call]
        yield from [f"no test shows that {call} makes no request for memory"] * (kind in WITH_ALLOCATOR and not is_shown)


def faults_of_bench(calls):
    counts, costs = tables.counts(tables.read(tables.RESULTS / "rust.md")), dict(reference.costs())
    for kind, _, names, _ in exports.lines_of(BENCH):
        for call, _, row in (it.partition("=") for it in names.split()):
            if f"{kind}::{call}" not in calls:
                yield f"bench/calls.txt: no such call: {kind}::{call}"
            few, many = (counted(counts, its, row or call, size) for its, size in zip(PREFIXES[kind], (64, 16384)))
            if few is None or many is None:
                yield f"no row of the benchmarks is {row or call} at 64 and 16384, which bench/calls.txt names for {kind}"
            elif costs.get(f"{kind}::{call}", ("",))[0] == "constant" and not row and many > few + CONSTANT:
                yield f"costs.txt: {kind}::{call} is constant, but its row counts {few:g} at 64 and {many:g} at 16384"


def counted(counts, prefixes, row, size):
    """The row's count, by the last of the prefixes that has it."""
    names = [row] if row.startswith("borsh_") else [it + row for it in prefixes.split(" ")]
    return next((counts[it, size] for it in reversed(names) if (it, size) in counts), None)

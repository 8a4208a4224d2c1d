"""The examples of docs/reference/examples.txt, and a crate whose tests they are. The pages of the reference show one at its call;
another page quotes one that has the name of no call, whose lines above IN_A_TEST are what the test calls."""
import re
import textwrap

from building import crates
from reading import exports

FILE = exports.TOP / "docs/reference/examples.txt"

# An example has at least so many lines, and at most so many.
LEAST, MOST = 2, 5

# With the tests of this crate they are run.
CRATE = "tinyvec_examples"
HEAD = """//! What the pages of the reference show.
#![tactic(auto)]

use std::alloc::{AllocError, Global};
use std::collections::HashMap;
use std::io::{ErrorKind, Write};
use std::test::Fail;
use tinyvec::{ArrayVec, FromIterRest, NoRoom, SliceVec, TinyVec, array_vec, tiny_vec};
use tinyvec_borsh::{BorshDeserialize, BorshSerialize};
use tinyvec_io::Counted;
use tinyvec_script::{Answer, Call, End, drive_array_splice, drive_splice, drive_tiny_splice, run, run_array, run_slice, run_tiny};
use tinyvec_text::InlineText;
"""
IN_A_TEST = "// In a test:"
TEST = """
#[test]
fn of_{name}(rt: HostRuntime) -> Result<(), Fail> {{
{lines}
    Ok(())
}}
"""


def examples():
    """Each call with the text of its example, in the order of the file."""
    for paragraph in FILE.read_text(encoding="utf-8").split("\n\n"):
        if not paragraph.startswith("#"):
            name, _, lines = paragraph.partition("\n")
            yield name, textwrap.dedent(lines).rstrip()


def quoted():
    """What other pages than those of the reference may quote: the two parts of the examples that are of no call."""
    return [part.strip() for name, text in examples() if " " in name for part in text.split(IN_A_TEST)]


def faults(keys, calls):
    """What shows nothing of these keys, one twice, or in too few or too many lines, what does not make its call, and calls
    without an example."""
    of_calls = [it for it in examples() if " " not in it[0]]
    named = [it for it, _ in of_calls]
    where = FILE.relative_to(exports.TOP)
    yield from (f"{where}: no example of {it}" for it in sorted(calls - set(named)))
    yield from (f"{where}: no such call: {it}" for it in dict.fromkeys(named) if it not in keys)
    yield from (f"{where}: {it} has two examples" for it in dict.fromkeys(named) if named.count(it) > 1)
    for it, text in of_calls:
        yield from [f"{where}: {it} has no {LEAST} to {MOST} lines"] * (not LEAST <= len(text.splitlines()) <= MOST)
        called = it.rpartition("::")[2]
        yield from [f"{where}: the example of {it} does not call it"] * (it in calls and not re.search(rf"\b{called}\(", text))


def crate(beside):
    """The crate whose tests the examples are, each by the name of its call. It uses all libraries."""
    known = crates.read_crates()
    one, tests = crates.Crate("examples", f"examples: {' '.join(exports.LIBRARIES)}", [known[it] for it in exports.LIBRARIES]), []
    for name, text in examples():
        above, _, body = text.rpartition(IN_A_TEST)
        lines = "let alloc = rt.alloc();\n" * bool(re.search(r"\balloc\b", body)) + body.strip()
        name = re.sub(r"\W+", "_", name.replace("!", "_macro")).lower()
        tests.append(f"\n{above}" * bool(above) + TEST.format(name=name, lines=textwrap.indent(lines, "    ")))
    one.out = beside.out
    one.files = one.sources = {"src/lib.rt": (HEAD + "".join(tests)).encode()}
    return one

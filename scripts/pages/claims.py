"""What pages claim, against what they claim it of. `tests/docs` tells what is wrong.

- A lemma that a table "Which lemma to use" names is used by a caller of its row: a folder or a file of proofs, of
  tinyvec_examples if no path says otherwise.
- What DIFFERENCES has below "Beyond the crate" is not the Rust crate's by tests/surface.txt.
- A page that quotes bench/results names no other kit than they were measured with.
- The types that CONTRACTS says are `Send` are those of the test of that.
"""
import re

from building.crates import TOP, text_of
from measuring import tables
from pages import naming

EXAMPLES = TOP / "crates/tinyvec_examples/proofs"
SENT = TOP / "crates/tinyvec_tests/src/values.rt"


def faults():
    yield from (it for page in sorted(TOP.glob("crates/*/CALLING.md")) for it in wrong_lemmas(page))
    yield from wrong_beyond()
    yield from (it for page in tables.DOCUMENTS for it in wrong_kit(page))
    yield from wrong_sent()


def wrong_lemmas(page):
    """Rows whose lemmas the callers do not name."""
    table = text_of(page).partition("## Which lemma to use")[2].partition("\n## ")[0]
    for row in re.findall(r"^\|.*\|$", table, re.M)[2:]:
        cells = [it.strip() for it in row.strip("|").split("|")]
        lemmas = {name for _, name in naming.imports(cells[1])}
        said = " ".join(used for it in re.findall(r"`([\w/.+]+)`", cells[2]) for used in proofs(page, it))
        if cells[2] and lemmas and not said:
            yield f"{page.relative_to(TOP)}: no proofs of a caller: {cells[2]}"
        unused = [it for it in lemmas if not re.search(rf"(?<![\w-]){re.escape(it)}(?![\w-])", said)] if said else []
        yield from (f"{page.relative_to(TOP)}: {cells[2]} does not use {it}" for it in unused)


def proofs(page, name):
    """The texts of a caller's proofs."""
    found = [TOP / name] if name.startswith("crates/") else [home / name for home in (EXAMPLES, page.parent / "proofs")]
    for place in found:
        files = sorted(place.rglob("*.antt")) if place.is_dir() else [place] * place.is_file()
        yield from map(text_of, files)


def wrong_beyond():
    own = text_of(TOP / "docs/DIFFERENCES.md").partition("## Beyond the crate")[2]
    of_rust = text_of(TOP / "tests/surface.txt").partition("# Forms")[0]
    for name in re.findall(r"`(\w+)`", own):
        found = re.search(rf"^TinyVec(?:: |::){name}(?:<\S*>)? .*$", of_rust, re.M)
        yield from [f"docs/DIFFERENCES.md: the Rust crate has {name} too: {found[0]}"] if found else ()


def wrong_kit(page):
    measured = {it for file in tables.RESULTS.glob("*.md") for it in re.findall(r"^ +here +(rattle-kit-\w+)", text_of(file), re.M)}
    named = set(re.findall(r"rattle-kit-\w+", text_of(page))) if page.name != "README.md" else set()
    yield from (f"{page.relative_to(TOP)}: its tables are not of {it}" for it in sorted(named - measured))


def wrong_sent():
    said = re.search(r"that ((?:`\w+`(?:, | and )?)+) are `Send`", text_of(TOP / "docs/CONTRACTS.md"))
    named, tested = set(re.findall(r"\w+", said[1].replace(" and ", " "))) if said else set(), set(re.findall(r"crosses_threads::<(\w+)", text_of(SENT)))
    yield from (f"docs/CONTRACTS.md: of `Send` it names, or lacks, {it}" for it in sorted(named ^ tested))

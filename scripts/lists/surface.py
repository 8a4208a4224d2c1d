"""Holds what a caller can name to tests/surface.txt, which no change shortens unseen.

It has a line for each type, call, impl, derived trait, macro, variant, public field and feature of the Rust crate, and for
each that only these crates have: `NAME in CRATE`, `NAME is OTHER in CRATE` if it is here by another name, or `NAME not
TEXT`, where a line of docs/DIFFERENCES.md begins with the text, or its last column names this call. What `pub use` passes on
is of the crate that does. Below the heading FIXED a line has a whole form: a function with the types of its arguments and of
its result and with each bound that a call of it has to meet, as `ArrayVec::len (&self) -> usize where S: Slots`, a type with
its parameters, a trait with those above it, an impl with its bounds, an associated type, a variant or a public field with its
type, an alias, or what an arm of a macro reads. Nothing here takes a line away or writes below FIXED.
"""
import functools
import re

from building import crates
from pages import reference
from reading import contracts, exports

TOP = exports.TOP
LIST = TOP / "tests/surface.txt"
NAME = LIST.relative_to(TOP)

LINE = re.compile(r"(?P<name>.+?) (?:(?:is (?P<other>.+) )?in (?P<crate>\w+)|not (?P<why>.+))$")
OWN, FIXED = "# Of these crates alone", "# Forms that are fixed"
CLAUSES = re.compile(r" (?:requires|ensures\*?|ghost)\b| //")
ARM = re.compile(r"^    (\((?!@).*\)) => ", re.M)
SELF = re.compile(r"&?(?:'\w+ )?(?:mut )?self$")


def write():
    lines = LIST.read_text(encoding="utf-8").splitlines()
    at = lines.index(OWN) + 1
    LIST.write_text("\n".join([*lines[:at], *sorted({*lines[at:], *lacking(lines)})]) + "\n", encoding="utf-8")


def faults():
    lines = LIST.read_text(encoding="utf-8").splitlines()
    yield from (f"{NAME}: {it}" for it in gone(lines))
    yield from (f"{NAME}: run tests/docs --write: it lacks {it}" for it in lacking(lines))


def gone(lines):
    """Lines that hold no longer."""
    known = here()
    told = [it.removeprefix("| ") for it in crates.text_of(TOP / "docs/DIFFERENCES.md").splitlines()]
    for line in filter(None, lines):
        if line.startswith("#"):
            known = forms() if line == FIXED else here()
        elif not (found := LINE.match(line)):
            yield f"this line says neither where a name is nor why it is not here: {line}"
        elif found["why"]:
            # A feature is named there.
            feature = found["name"].removeprefix("feature ")
            lines_of_it = (it for it in told if feature == found["name"] or f"`{feature}`" in it)
            if not any(it.startswith(found["why"]) for it in lines_of_it) and found["why"] not in reference.notes():
                yield f"docs/DIFFERENCES.md no longer says why {found['name']} is not here: {found['why']}"
        elif (found["crate"], found["other"] or found["name"]) not in known:
            by = f", by which {found['name']} was here" * bool(found["other"])
            yield f"{found['other'] or found['name']} is gone from {found['crate']}{by}"


def lacking(lines):
    """The lines that are to be added."""
    found = [LINE.match(it) for it in lines]
    listed = {(it["crate"], it["other"] or it["name"]) for it in found if it}
    yield from (f"{name} in {crate}" for crate, name in sorted(here() - listed))


@functools.cache
def here():
    """What a caller can name, each with its crate."""
    library = reference.Library()
    found = {(crate.name, f"{name} of {of}") for crate in library.crates for of, name in crate.passed_on}
    for it in (it for page in library.pages.values() for it in page if not it.is_part):
        forms = [it.of, *(re.sub(r"\w+$", alias, it.of) for alias in it.also)] if it.of else [None]
        for of in forms:
            names = [exports.Export(it.source, it.item, it.name, of, it.trait).key(), *inside(it)]
            found |= {(it.source.crate, name) for name in names}
    return found


def inside(export):
    """What a type or a trait has by names of its own, and the traits that it derives."""
    item, name = export.item, export.name
    if export.kind in ("struct", "enum"):
        code = "\n".join(exports.OPAQUE.sub("", it) for it in item.lines)
        fields = re.findall(r"^    pub (\w+):" if export.kind == "struct" else r"^    (\w+)", code, re.M)
        unnamed = re.match(r"pub struct \w+(?:<.*>)?\((.*)\);", code)
        fields += [at for at, it in enumerate(unnamed[1].split(", ")) if it.startswith("pub ")] if unnamed else []
        yield from (f"{name}::{it}" for it in fields)
        derived = " ".join(re.findall(r"#\[derive\((.*?)\)\]", " ".join(item.attributes)))
        yield from (f"{name}: {it}" for it in re.findall(r"\w+", derived))
    if export.kind == "trait":
        yield from (f"{name}::{it.name}" for it in item.members() if it.kind in ("fn", "type", "const"))


@functools.cache
def forms():
    """The forms of what a caller can name, each with its crate."""
    return {(crate.name, form) for crate in map(exports.Crate, exports.LIBRARIES) for it in crate.exports() for form in forms_of(it)}


def forms_of(export):
    item, key = export.item, export.key()
    if item.kind == "fn":
        names = [export.of, *export.also] if export.of else []
        form = form_of(item, export.within)
        yield from (f"{key.replace(export.of or key, name, 1)} {form}" for name in names or [key])
    elif item.kind == "trait":
        above, bounds = head_of(item, f"pub trait {key}")
        yield f"trait {key}{above}{bounds}"
        yield from (f"{key}::{it.name} {form_of(it)}" for it in item.members() if it.kind == "fn")
        yield from types_in(export)
    elif item.kind == "impl":
        yield f"{key}{head_of(item, 'impl')[1]}"
        yield from types_in(export)
    elif item.kind == "type":
        yield item.signature().removeprefix("pub ").rstrip(";")
    elif item.kind == "macro_rules!":
        yield from (f"{key} {it}" for it in ARM.findall("\n".join(item.lines)))
    elif item.kind in ("struct", "enum"):
        if generic := re.match(r"pub \w+ (\w+<.*>)", item.lines[0]):
            yield generic[1]
        inside = re.findall(r"^    (?:pub )?(\w.*),$", "\n".join(item.lines[1:-1]), re.M)
        yield from (f"{key}::{it}" for it in [*inside, *re.findall(r"struct \w+<.*>\(pub (.*)\);", item.lines[0])])


def types_in(export):
    """The types that a trait or an impl has."""
    types = (it.signature() for it in export.item.members() if it.kind == "type")
    yield from (f"{export.key()}::{it.removeprefix('type ').rstrip(';')}" for it in types)


def form_of(function, within=None):
    """The types of its arguments and of its result, and its bounds with those of its impl."""
    name = re.search(r"\bfn \w+", function.signature())[0]
    types, bounds = head_of(function, name)
    end = contracts.end_of(types, 0, "(", ")")
    arguments = filter(None, map(str.strip, contracts.parts_of_types(types[1 : end - 1], ",")))
    types = [*(it if SELF.match(it) else re.sub(r"^(?:mut )?\w+: ", "", it) for it in arguments)], types[end:].strip(" {;")
    above = head_of(within, "impl")[1] if within else ""
    bounds = above + (bounds.replace(" where ", ", ", 1) if above else bounds)
    return f"({', '.join(types[0])}) {types[1]}".rstrip() + bounds


def head_of(item, start):
    """What a declaration says after its parameters, and its bounds, of these and after `where`."""
    text = CLAUSES.split(item.signature())[0]
    parameters, rest = exports.split_angles(text[text.index(start) + len(start) :])
    rest, _, where = rest.partition(" where ")
    bounds = contracts.parts_of_types(parameters, ",") + contracts.parts_of_types(where.strip(" ,;{"), ",")
    bounds = ", ".join(it for it in bounds if ": " in it)
    return rest.rstrip(" {"), f" where {bounds}" if bounds else ""

"""What the library crates export, read off their sources: each function, impl, macro, type and trait, with its contract."""
import functools
import re

from building.crates import TOP, text_of
from reading import contracts

# The crates that others call, each after those that it needs: those with a page, and one that only passes types on.
ALIASES = "tinyvec_slice"
LIBRARIES = [
    it
    for it in re.findall(r"^(\w+):", text_of(TOP / "crates.txt"), re.M)
    if (TOP / "crates" / it / "CALLING.md").is_file() or it == ALIASES
]

# The pages of docs/reference: the crate of each, and the type whose methods are named without it. Of a crate of two pages the
# first has what is of no other's.
PAGES = {
    "ARRAY_VEC": ("tinyvec_array", "ArrayVec"),
    "ARRAY_VEC_BULK": ("tinyvec_array", "ArrayVec"),
    "SLICE_VEC": ("tinyvec_array", "SliceVec"),
    "TINY_VEC": ("tinyvec", "TinyVec"),
    "TINY_VEC_BULK": ("tinyvec", "TinyVec"),
    "INLINE_TEXT": ("tinyvec_text", "InlineText"),
    "BORSH": ("tinyvec_borsh", None),
    "COUNTED": ("tinyvec_io", "Counted"),
    "SCRIPT": ("tinyvec_script", None),
    "SLOTS": ("tinyvec_slots", None),
}

# Text in which a bracket is none: strings, characters and comments.
OPAQUE = re.compile(r'"(?:\\.|[^"\\])*"|\'(?:\\.|[^\'\\])\'|//.*')
DECLARED = re.compile(
    r"(?P<pub>pub(?P<limited>\([^)]*\))? )?(?:const (?=fn))?"
    r"(?P<kind>macro_rules!|(?:fn|struct|enum|trait|type|impl|mod|use|ghost|const|static)\b) ?(?P<name>\w+)?"
)
USED = re.compile(r"pub use ([\w:]+?)(?:::(\{[^}]*\}|\w+|\*))?;", re.S)
NAMED = re.compile(r"(\w+)(?: as (\w+))?")

class Item:
    """A declaration: its comment, and what is no part of that, its attributes, its lines, and the line of the file that it begins
    at."""

    def __init__(self, comment, note, attributes, lines, at):
        self.comment, self.note, self.attributes, self.lines, self.at = comment, note, attributes, lines, at
        found = DECLARED.match(lines[0])
        self.kind = found["kind"] if found else ""
        self.name = found["name"] if found else None
        self.is_public = bool(found and found["pub"] and not found["limited"])
        self.is_public |= self.kind == "macro_rules!" and "#[macro_export]" in attributes

    def head(self):
        """The lines up to a body, by which a function has its contract."""
        if "{" in self.lines:
            return self.lines[: self.lines.index("{")]
        ends = next((at for at, it in enumerate(self.lines) if it.endswith((" {", "{}"))), None)
        if ends is None or self.kind in ("struct", "enum"):
            return self.lines
        return [*self.lines[:ends], re.sub(r" ?\{\}?$", "", self.lines[ends])]

    def members(self):
        """What stands in an impl or a trait."""
        if self.kind not in ("impl", "trait"):
            return []
        head = len(self.head())
        above = head + (self.lines[head : head + 1] == ["{"])
        lines = [it.removeprefix("    ") for it in self.lines[above:]]
        return list(items_in(lines[:-1] if lines[-1:] == ["}"] else lines, self.at + above))

    def signature(self):
        return " ".join(" ".join(self.head()).split())


def items_in(lines, first):
    """The items that lines declare, each of which begins at the left edge. `first` is the number of the first line."""
    comment, note, attributes, body, depth = [], [], [], [], 0
    for at, line in enumerate(lines, first):
        if not body:
            if not line.strip():
                comment, note, attributes = [], [], []
            elif line.startswith("///"):
                comment.append(line.removeprefix("///").strip())
            elif line.startswith("//"):
                note.append(line)
            elif line.startswith("#["):
                attributes.append(line)
            elif not line.startswith("#!"):
                body, begins, depth = [line], at, balance(line)
        else:
            body.append(line)
            depth += balance(line)
        # A declaration in one line ends by a brace, as `pub struct A { .. }`.
        is_end = line.startswith("}") or line.endswith((";", "{}")) or len(body) == 1 and line.endswith("}")
        if body and depth == 0 and is_end:
            yield Item(comment, note, attributes, body, begins)
            comment, note, attributes, body = [], [], [], []


def balance(line):
    bare = OPAQUE.sub("", line)
    return sum(bare.count(it) for it in "({[") - sum(bare.count(it) for it in ")}]")


class Source:
    """A file of a crate, by the path of its module."""

    def __init__(self, crate, file):
        self.crate, self.file = crate, file
        self.path = str(file.relative_to(TOP))
        parts = file.relative_to(TOP / "crates" / crate / "src").with_suffix("").parts
        self.module = () if parts == ("lib",) else parts
        text = file.read_text(encoding="utf-8")
        self.title = re.match(r"//! (.*?)\.?\n", text)[1]
        self.items = list(items_in(text.splitlines(), 1))


class Export:
    """What a caller can name: where it is, what it is called, and what is shown of it. `also` are the aliases of a form of its type
    that has it too, as `SliceVec` has what each `ArrayVec` has; `within` is the impl of a method."""

    def __init__(self, source, item, name, of=None, trait=None, also=(), within=None):
        self.source, self.item, self.name, self.of, self.trait, self.also, self.within = source, item, name, of, trait, also, within
        self.kind = "impl" if trait else "method" if of else item.kind

    def key(self):
        if self.trait:
            return f"{self.of}: {self.trait}"
        return f"{self.of}::{self.name}" if self.of else self.name + "!" * (self.kind == "macro_rules!")

    def holder(self):
        """The type or trait that has it, or its crate if it is a function."""
        if self.trait:
            return head_of(impl_of(self.item)[1])
        return self.of or (self.name if self.kind == "trait" else self.source.crate)

    def functions(self):
        """What can be called of it."""
        return [self.item] if self.item.kind == "fn" else [it for it in self.item.members() if it.kind == "fn"]


@functools.cache
class Crate:
    def __init__(self, name):
        self.name = name
        files = sorted((TOP / "crates" / name / "src").rglob("*.rt"))
        self.sources = {it.module: it for it in (Source(name, file) for file in files)}
        # Each exported name, with its file and declaration, and those that another crate declares.
        self.names, self.passed_on = {}, []
        items = [(source, it) for source in self.sources.values() for it in source.items]
        self.public = {it.name: (source, it) for source, it in items if it.is_public and it.kind in (*TYPES, "fn")}
        self.export(())
        self.names |= {it.name: (source, it) for source, it in items if it.kind == "macro_rules!" and it.is_public}
        self.declared = {it.name: it for _, it in items if it.kind in TYPES}
        named = {it.name: re.search(r"= (.*);", it.signature())[1] for it in self.declared.values() if it.kind == "type"}
        self.aliases = {alias: head_of(of) for alias, of in named.items()}
        # The aliases that name a form of a type of this crate: `ArrayVec<&mut [T]>` is a `SliceVec`.
        self.forms = {plain(of): alias for alias, of in named.items() if head_of(of) in self.declared}

    def export(self, module):
        """Exports what a module makes public. No two public items of a crate have one name."""
        for item in (it for it in self.sources[module].items if it.is_public):
            if item.kind == "use":
                path, names = USED.match("\n".join(item.lines)).groups()
                first = path.split("::")[0]
                for name, _ in NAMED.findall(names or ""):
                    if first != "crate" and (first,) not in self.sources:
                        self.passed_on.append((first, name))
                    elif name in self.public:
                        self.names[name] = self.public[name]
            elif item.kind == "mod":
                self.export((*module, item.name))
            elif item.name in self.public:
                self.names[item.name] = self.public[item.name]

    def exports(self):
        """All that a caller can name, file by file."""
        for source in self.sources.values():
            for item in source.items:
                if item.kind == "impl":
                    yield from self.exports_of_impl(source, item)
                elif self.names.get(item.name) == (source, item):
                    yield Export(source, item, item.name)

    def exports_of_impl(self, source, item):
        trait, of, parameters = impl_of(item)
        names = [it for it in (trait and head_of(trait), head_of(of)) if it in self.declared]
        if all(it in self.names for it in names):
            spoken, also = shortened(of, self.forms), tuple(self.also(of, parameters))
            if trait:
                yield Export(source, item, head_of(trait), spoken, shortened(trait, self.forms), also)
            else:
                calls = (it for it in item.members() if it.kind == "fn" and it.is_public)
                yield from (Export(source, it, it.name, spoken, also=also, within=item) for it in calls)

    def also(self, of, parameters):
        """The aliases whose form has what an impl of a generic type has: its parameter is that of the form, whose traits suffice."""
        bounds = (it.partition(": ") for it in filter(None, contracts.parts_of_types(parameters, ",")))
        bounds = {name: {head_of(it) for it in plain(bound).strip(" +").split(" + ")} for name, _, bound in bounds}
        for form, alias in self.forms.items():
            argument = re.search(r"<(.*)>$", form)[1]
            impls = (impl_of(it) for source in self.sources.values() for it in source.items if it.kind == "impl")
            traits = {"Drop"} | {head_of(trait) for trait, its, _ in impls if trait and plain(its) == argument}
            parameter = re.fullmatch(rf"{head_of(form)}<(\w+)>", plain(of).lstrip("&").removeprefix("mut "))
            if parameter and bounds.get(parameter[1], {""}) <= traits:
                yield alias


TYPES = ("struct", "enum", "trait", "type")


def impl_of(item):
    """The trait of an impl, if it is of one, its type, and its parameters."""
    text = re.sub(r"\bwhere\b.*", "", item.signature())
    parameters, rest = split_angles(text.removeprefix("impl"))
    *trait, of = contracts.parts_of_types(rest.strip(), " for ")
    return (trait[0] if trait else None), of, parameters


def split_angles(text):
    """A text that may begin with parameters in angles: these, and the rest."""
    end = contracts.end_of(text, 0, "<", ">") if text.startswith("<") else 0
    return text[:end][1:-1], text[end:]


def head_of(type_):
    """The name of a type without its path, its parameters and its references."""
    bare = re.sub(r"^(?:&(?:'\w+ )?(?:mut )?)+", "", type_.strip())
    return re.sub(r"<.*", "", bare, flags=re.S).split("::")[-1].strip() if not bare.startswith("[") else bare


SHOWN_ARGUMENTS = ("From", "TryFrom", "PartialEq", "PartialOrd", "Extend", "FromIterator", "Index", "Borrow", "AsRef", "ItemText")


def plain(type_):
    """A type without its lifetimes."""
    return re.sub(r"'\w+(?:, | ?)", "", type_)


def shortened(type_, forms):
    """A type or trait as a heading names it: without lifetimes, and without the parameters of a library's own type."""
    shown = plain(type_)
    reference = re.match(r"(?:&(?:mut )?)*", shown)[0]
    bare = shown.removeprefix(reference)
    if bare.startswith("["):
        return shown
    head = forms.get(bare, head_of(bare))
    arguments = re.search(r"<(.*)>$", bare)
    # The arguments of `From` and the like tell impls of one type apart; those of a type do not.
    shows = arguments and head in SHOWN_ARGUMENTS
    return reference + head + (f"<{arguments[1]}>" if shows else "")


PASSED_ON = re.compile(r"^pub use Rattle\.([\w.]+)$", re.M)
PASSED_WORDS = re.compile(r"^pub use Rattle\.([\w.]+)\.\{([^}]*)\}$", re.M)


@functools.cache
def imported(text):
    """The words that a source or a proof imports, each with its path and the name that it has there."""
    uses = re.findall(r"use Rattle\.([\w.]+)\.\{([^}]*)\}", text)
    found = ((path, *it.strip().partition(" as ")) for path, names in uses for it in names.split(","))
    return {other or name: (home_of(home(path), name), name) for path, name, _, other in found}


@functools.cache
def home(path):
    """The crate and the file that define the words of a path: a crate passes some on that are defined below it."""
    crate, _, rest = path.partition(".specs.")
    lib = TOP / "crates" / crate / "specs/Lib.antt"
    if rest and lib.is_file() and not (lib.parent / f"{rest}.antt").is_file():
        for it in PASSED_ON.findall(lib.read_text(encoding="utf-8")):
            if it.endswith(f".{rest}"):
                return home(it)
    return path


@functools.cache
def home_of(path, name):
    """The path that defines a word: a file passes some on that are defined below it."""
    crate, _, rest = path.partition(".specs.")
    file = TOP / "crates" / crate / f"specs/{rest}.antt"
    passed = PASSED_WORDS.findall(file.read_text(encoding="utf-8")) if rest and file.is_file() else []
    return next((home_of(home(it), name) for it, names in passed if name in re.findall(r"[^\s,]+", names)), path)


def word_anchor(path, name):
    """What a link names a word on the page of words by. std's are named by their name alone."""
    return f"std-{name}" if path.startswith("std.") else path.replace(".specs.", "-") + f"-{name}"


def lines_of(table):
    """The lines of a table of calls, as `TYPE HOW CALLS by TEXT` or `TYPE HOW CALLS since TEXT`, with those joined that go on."""
    text = re.sub(r"\n +", " ", table.read_text(encoding="utf-8"))
    line = re.compile(r"(\S+) (\w+) (.*?)(?: (?:by|since) (.*))?")
    return [line.fullmatch(it).groups() for it in text.splitlines() if it and not it.startswith("#")]


def table_faults(table, named, calls):
    """What a table names that is no public call, or twice, and the calls that it lacks."""
    where = table.relative_to(TOP)
    yield from (f"{where}: no such call: {it}" for it in dict.fromkeys(named) if it not in calls)
    yield from (f"{where}: {it} is there twice" for it in dict.fromkeys(named) if named.count(it) > 1)
    yield from (f"{where}: it lacks {it}" for it in sorted(calls) if it not in named)

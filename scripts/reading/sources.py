"""Finds what was left behind in the sources, and edits that can no longer be applied: a definition of specs/ or proofs/ that
nothing reaches from the contracts, the answers to goals and the documents; a name that a file imports and does not use, or
that an item imports and its file has at its top. Names are compared as words, so one that two things share is told of
neither.
"""
import collections
import functools
import pathlib
import re

from building import crates
from planting import edits

DOCUMENTS = ("*.md", "docs/**/*.md", "crates/*/*.md")

COMMENT = {".antt": re.compile(r"(?:^|(?<=\s))--(?=\s|$)[^\n]*", re.M), ".rt": re.compile(r"//[^\n]*")}
SPACE = re.compile(r"[\s(){}\[\];,.\":`]+")
IMPORT = re.compile(r"^( *)(pub(?:\([a-z]+\))? )?(?:ghost |unfoldable )?use ([^;{\n]*(?:\{[^;]*?\})?[^;{}\n]*);?$", re.M)
HEAD = re.compile(r"^\S.*", re.M)
MODEL = re.compile(r"impl\b.*\bModel for\b")
MEMBER = re.compile(r"(?:\bfn|^ +const) (\w+)", re.M)
TRAIT = re.compile(r"^pub(?:\([a-z]+\))? trait (\w+).*?^}", re.M | re.S)

# The name of a definition behind what declares it, the first line of an answer to a goal, and what has definitions inside.
DEFINITION = re.compile(r"((?:(?:pub|abbrev|unfoldable|opaque|data|record|mutual) )*)([^\s(){}.;,:]+)[^:=]* : ?")
ANSWER = re.compile(r"^.* : (?:goal|[\w.]*Goals|[\w.]*Given)\.")
CONTAINER = re.compile(r"(?:abbrev )?mutual$|(?:pub )?module \S")

# The methods and macros of std's traits that files call.
METHODS = {
    "Write": r"write\w*|flush", "Read": r"read\w*|bytes", "BufRead": r"fill_buf|consume|lines|read\w*",
    "Hash": "hash", "Hasher": r"write\w*|finish", "Borrow": "borrow", "AllocGlobal": "alloc",
}


def faults(asked=()):
    """What was left behind in these crates, or in all."""
    known = crates.read_crates()
    asked = asked or list(known)
    sources = [Source(it.name, path, text.decode()) for it in known.values() for path, text in it.sources.items()]
    texts = (crates.text_of(it) for pattern in DOCUMENTS for it in crates.TOP.glob(pattern))
    documents = {word for text in texts for word in SPACE.split(text)}
    left = Workspace(sources, documents)
    found = (it for it in [*left.unreached(), *left.unused()] if it[0].crate in asked)
    yield from sorted(f"crates/{source.crate}/{source.path}: {what}" for source, what in found)
    yield from sorted(f"tests/mutations: {it}" for it in edits.read_all([it for it in asked if (edits.FOLDER / it).is_dir()])[1])


class Source:
    def __init__(self, crate, path, text):
        self.crate, self.path, self.kind, self.text = crate, path, pathlib.PurePath(path).suffix, text
        self.code = COMMENT[self.kind].sub(lambda it: " " * len(it[0]), text)
        self.imports = [Import(it, self.code) for it in IMPORT.finditer(self.code)]
        self.body = IMPORT.sub("", self.code)
        self.words = words_of(self.body, self.kind)


def words_of(text, kind):
    found = set(SPACE.split(text))
    return found | set(re.findall(r"\w+", text)) if kind == ".rt" else found


class Import:
    """A line `use`, with what each name of it stands for."""

    def __init__(self, found, code):
        self.is_inside, self.is_public = bool(found[1]), bool(found[2])
        # An `impl Model` has imports of its own, so that none goes in a circle.
        self.is_of_model = self.is_inside and bool(MODEL.match(HEAD.findall(code[: found.start()])[-1]))
        self.names = dict(flat(found[3].strip()))


def flat(what):
    path, brace, inside = what.partition("{")
    if not brace:
        path, _, name = what.partition(" as ")
        return [(name or last(path), path)]
    parts = re.findall(r"[^,{}]+(?:\{[^}]*\})?", inside.rpartition("}")[0])
    found = [it for part in parts if part.strip() for it in flat(path + part.strip())]
    return [(last(path.rstrip(":.")) if name == "self" else name, stands) for name, stands in found]


def last(path):
    return re.split(r"::|\.", path)[-1]


def definitions(source):
    """The definitions of a file of proofs or specs, each by its name, with its text up to the next one."""
    names, starts, levels, at, closed = [], [], [0], 0, None
    for line in source.code.splitlines(keepends=True):
        text, indent = line.strip(), len(line) - len(line.lstrip())
        # The lines of a `record` or `data` declare fields.
        if text and (closed is None or indent <= closed):
            closed = None
            while indent < levels[-1]:
                levels.pop()
            named = DEFINITION.match(text + " ") if indent == levels[-1] else None
            if CONTAINER.match(text):
                levels.append(indent + 2)
            elif named and named[2] not in ("use", "open", "module", "_"):
                names.append(named[2])
                starts.append(at)
                closed = indent if re.search(r"record|data", named[1]) else None
        at += len(line)
    return zip(names, (source.code[start:end] for start, end in zip(starts, [*starts[1:], at])))


class Workspace:
    def __init__(self, sources, documents):
        self.sources, self.documents = sources, documents

    def unreached(self):
        known, uses, left = [], collections.defaultdict(set), set(self.documents)
        for source in self.sources:
            if source.kind == ".rt":
                left |= source.words
                continue
            stands = {name: last(path) for it in source.imports for name, path in it.names.items()}
            for name, text in definitions(source):
                words = words_of(IMPORT.sub("", text), source.kind)
                words |= {stands[word] for word in words if word in stands}
                # rt looks for these by their names.
                if source.path.endswith("/Proof.antt") and name.endswith("_spec") or ANSWER.match(text):
                    left |= words
                else:
                    known.append((source, name))
                    uses[name] |= words
        reached = set()
        while left:
            reached |= left
            left = {word for it in left for word in uses.get(it, ())} - reached
        for source, name in known:
            # A document may name the file as a whole, and an operator is no word.
            file = f"crates/{source.crate}/{source.path.removesuffix('.antt')}"
            if name not in reached and "◌" not in name and file not in self.documents:
                yield source, f"nothing names {name}"

    def unused(self):
        for source in self.sources:
            at_top = {name: path for it in source.imports if not it.is_inside for name, path in it.names.items()}
            for it, name, path in ((it, *named) for it in source.imports for named in it.names.items()):
                if it.is_inside and not it.is_of_model and source.kind == ".rt" and at_top.get(name) == path:
                    yield source, f"an item imports {name}, which the file has at its top already"
                elif not it.is_public and not self.is_used(name, path, source):
                    yield source, f"it imports {name} and does not use it"

    def is_used(self, name, path, source):
        if "◌" in name or name == "[]":
            return all(it in source.body for it in name.split("◌"))
        called = METHODS.get(last(path)) or self.traits.get(last(path))
        is_called = bool(called) and re.search(rf"[.:](?:{called})\b|\b(?:{called})!", source.body)
        return name == "*" or name in source.words or bool(is_called)

    @functools.cached_property
    def traits(self):
        """The functions and constants of each trait, as a pattern."""
        return {it[1]: "|".join(MEMBER.findall(it[0])) for source in self.sources if source.kind == ".rt" for it in TRAIT.finditer(source.code)}

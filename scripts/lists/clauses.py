"""Writes tests/clauses.txt, the lock: what each public call states.

A line `CALL: SUM NAMES` has the names of the call's clauses, each also with the relations that it cites, as `room.Grows`,
and a sum of what they state: of the clauses and ghost items, and of the definitions in `specs/` that these reach, without
comments and white space. A line `CRATE.specs.FILE.WORD: NAMES` has the fields of a relation that one of these reaches.

`tests/docs` names what the lock lacks and each sum that differs, which this writes, and each name that the sources lack,
which this keeps, unless a line of the first part of CHANGELOG.md has it and its call or relation in backticks.
"""
import functools
import hashlib
import re

from pages import reference
from reading import contracts, definitions, exports, sources

TOP = exports.TOP
LOCK = TOP / "tests/clauses.txt"

SUM = re.compile(r"([0-9a-f]{8})(?: |$)")
CLAUSE = re.compile(r"ensures\*?(?: (\w+))? \{(.*)\}", re.S)
GHOST = re.compile(r"ghost (\w+)")
WORD = re.compile(r"(?<![\w.'-])[A-Za-z][\w'-]*")


def write():
    names, sums = read()
    current, stated = found()
    for line, its in kept(names, current).items():
        current[line] = sorted({*current.get(line, ()), *its})
    sums |= stated
    lines = {line: " ".join([*([sums[line]] if line in sums else []), *its]) for line, its in current.items()}
    LOCK.write_text("".join(f"{line}: {text}\n" for line, text in sorted(lines.items()) if text), encoding="utf-8")


def faults():
    (locked, sums), (current, stated) = read(), found()
    name = LOCK.relative_to(TOP)
    lacking = {line: [it for it in names if it not in locked.get(line, ())] for line, names in current.items()}
    yield from (f"{name}: run tests/docs --write: {line} lacks {', '.join(its)}" for line, its in lacking.items() if its)
    others = [line for line, it in stated.items() if sums.get(line) != it and not lacking[line]]
    why = "run tests/docs --write: these state something else than it was written for"
    yield from [f"{name}: {why}: {', '.join(others)}"] * bool(others)
    for line, names in kept(locked, current).items():
        yield from (f"{name}: {line}: {it} is gone, and no line of CHANGELOG.md says so" for it in names)


def kept(locked, current):
    """The names that went, and that have no reason for it."""
    # The words in backticks of each line of the first part of the changelog.
    first = (TOP / "CHANGELOG.md").read_text(encoding="utf-8").split("\n## ")[1]
    told = [set(re.findall(r"[\w.]+", " ".join(re.findall(r"`([^`]*)`", line)))) for line in first.splitlines()]
    gone = {line: [it for it in names if it not in current.get(line, ())] for line, names in locked.items()}
    for line, names in gone.items():
        call = re.findall(r"\w+", line.partition(",")[0])[-1]
        needed = {it: {call, *[it.split(".")[-1]] * (line in current)} for it in names}
        gone[line] = [it for it in names if not any(needed[it] <= row for row in told)]
    return {line: names for line, names in gone.items() if names}


def read():
    """The names of each line of the lock, and the sums."""
    names, sums = {}, {}
    for line, _, text in (it.rpartition(": ") for it in LOCK.read_text(encoding="utf-8").splitlines()):
        summed = SUM.match(text)
        names[line] = (text[summed.end() :] if summed else text).split()
        sums.update({line: summed[1]} if summed else {})
    return names, sums


def found():
    """The names by call and by relation, as the sources have them, and the sums of the calls."""
    names, sums = {}, {}
    for key, its, scope, texts in (it for crate in exports.LIBRARIES for it in stated(crate)):
        names[key] = sorted(set(its))
        reached = scope.reached(texts)
        text = "\n".join([*map(squeezed, texts), *sorted({squeezed(word.whole) for word in reached})])
        sums |= {key: hashlib.sha256(text.encode()).hexdigest()[:8]} if text else {}
        for it, home in ((it, home) for it, home in reached.items() if it.fields):
            path = ".".join(home.file.relative_to(TOP / "crates").with_suffix("").parts)
            names[f"{path}.{it.name}"] = [field for field, _ in it.fields]
    return names, sums


def squeezed(text):
    return " ".join(text.split())


def stated(crate):
    """The public calls of a crate, each with the names of its clauses, and what these state in which file."""
    for export in exports.Crate(crate).exports():
        scope, forms = Scope(export.source.file), "".join(f", of {it}" for it in export.also)
        for it in export.functions():
            inside = f"::{it.name}" * (it is not export.item)
            clauses = contracts.function(contracts.without_comments("\n".join(it.head()) + "\n"))[1].values()
            yield export.key() + inside + forms, list(names_of(clauses, scope)), scope, clauses
        # The laws of a trait are promises, and those of an impl proofs.
        is_proof = lambda line: line.startswith("ghost use") or export.kind == "impl" and reference.PROOFS.match(line)
        ghosts = [it for it in export.item.members() if it.kind == "ghost" and not is_proof(it.lines[0])]
        if ghosts:
            texts = [contracts.without_comments("\n".join(it.lines) + "\n") for it in ghosts]
            yield f"{export.key()}::ghost{forms}", [GHOST.match(it.lines[0])[1] for it in ghosts], scope, texts


def names_of(clauses, scope):
    for name, text in (it.groups() for it in map(CLAUSE.match, clauses) if it):
        name = name or "ensures"
        yield name
        yield from (f"{name}.{it.name}" for _, it in scope.cited(WORD.findall(text)) if it.fields)


@functools.cache
class Scope:
    """A file, with the words that it defines and those that it imports from specs/ of this repository."""

    def __init__(self, file):
        self.file = file
        known = exports.imported(file.read_text(encoding="utf-8"))
        sources = {name: (definitions.source_of(path), own) for name, (path, own) in known.items() if ".specs." in path}
        self.imported = {name: it for name, it in sources.items() if it[0].is_file()}
        words = definitions.words_of(file) if file.suffix == ".antt" else []
        # A variant is its type's.
        self.definitions = {name: word for word in words for name in (word.name, *word.variants)}

    def cited(self, names):
        """Which of these names are words: the scope that defines each, and its definition."""
        for name in dict.fromkeys(names):
            if name in self.definitions:
                yield self, self.definitions[name]
            elif name in self.imported:
                source, own = self.imported[name]
                yield from ((Scope(source), it) for it in [Scope(source).definitions.get(own)] if it)

    def reached(self, texts):
        """The words that texts cite, and those that these cite, each with the scope that defines it."""
        reached, left = {}, [(self, text) for text in texts]
        while left:
            scope, text = left.pop()
            new = {it: home for home, it in scope.cited(sources.SPACE.split(text)) if it not in reached}
            reached |= new
            left += [(home, it.whole) for it, home in new.items()]
        return reached

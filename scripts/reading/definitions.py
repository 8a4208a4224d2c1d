"""The words that the `specs/` of the crates define: what each is given, what it says, and its comment."""
import functools
import itertools
import re

from reading import contracts, exports, sources

COMMENT = re.compile(r" *-- (.*)")
WORD = re.compile(r"(?P<indent> *)(?:(?:abbrev|unfoldable) )?pub (?:(?P<kind>record|data) )?(?P<name>[^\s:]+)(?P<rest>.*)")
FIELD = re.compile(r" +(?:pub )?([^\s:]+) : (.*)")
# What a module, a record or a data type is given, without its types.
GIVEN = re.compile(r"\(((?:\w+ )+): ")
# What no argument is named by, and how one is named whose type has no variable.
CONSTANTS = ("zero", "tt", "true", "false")
BY_TYPE = {"List": "xs", "Option": "r", "Result": "r", "TinyVec": "v", "ArrayVec": "v", "Vec": "v"}


def source_of(path):
    crate, _, stem = path.partition(".specs.")
    return exports.TOP / "crates" / crate / f"specs/{stem}.antt"


@functools.cache
def whole(path, name):
    """A word that `specs/` define, of a variant its type."""
    file = source_of(path)
    types = (it.name for it in words_of(file) if name in it.variants) if file.is_file() else ()
    return path, next(iter(types), name)


class Word:
    def __init__(self, found, comment, given, heads, lines):
        """`given` is what its modules are given, `heads` are their first lines, and `lines` are those after the word's first, up to
        the next word."""
        self.name, self.kind = found["name"], found["kind"]
        own = (it for it in lines if not it.lstrip().startswith("module"))
        self.whole = sources.COMMENT[".antt"].sub("", "\n".join([*heads, found[0], *own]))
        self.text = "\n".join([found["rest"], *lines])
        self.comment = comment.strip().rstrip(".")
        is_deeper = lambda it: len(it) - len(it.lstrip()) > len(found["indent"])
        body = [it for it in lines if is_deeper(it)]
        head = found["rest"]
        while self.kind and body and not head.endswith("where"):
            head += body.pop(0)
        # The lines of its type, before its equations.
        type_ = " ".join(" ".join([found["rest"], *itertools.takewhile(is_deeper, lines)]).split())
        lefts = [it.strip().removeprefix(self.name).partition(" =")[0] for it in lines if re.match(rf" *{re.escape(self.name)} .*=( |$)", it)]
        modules = " ".join(given).split()
        # How many arguments it takes, those of its modules, of its head and of its type, and what it is given, by name.
        self.arity = len(modules) + arrows(head if self.kind else type_)
        self.given = named([*modules, *arguments(head if self.kind else type_, lefts)])
        self.shown = code(" ".join([self.name, *self.given]))
        # The fields of a record, or the variants of a data type, each with its statement and its comment.
        parts, said, is_record = [], "", self.kind == "record"
        for line in body if self.kind else ():
            if found := COMMENT.match(line):
                said = f"{said} {found[1]}".strip()
            elif found := FIELD.match(line):
                parts.append([found[1], found[2], said])
                said = ""
            elif parts and not re.match(r" *(?:pub )?open ", line):
                parts[-1][1] += f" {line.strip()}"
        self.fields = [(name, text) for name, text, _ in parts if is_record]
        self.variants = [name for name, _, _ in parts if not is_record]
        told = "; ".join(code(name) + f" ({said})" * bool(said) for name, _, said in parts if not is_record)
        self.meaning = self.comment + f". One of {told}" * bool(told)
        # A line for each field of a record.
        self.parts = [(code(f".{name}"), code(text) + f": {said}" * bool(said)) for name, text, said in parts if is_record]


def code(text):
    return "`" + text.replace("|", "\\|") + "`"


@functools.cache
def words_of(file):
    """The public words of a file, each with what its modules are given, and its comment after theirs. The fields of records are told
    with their record."""
    lines = file.read_text(encoding="utf-8").splitlines()
    depth, comment, modules, starts = None, [], [], []
    for at, line in enumerate(lines):
        if not line.strip():
            comment = []
        elif found := COMMENT.match(line):
            comment.append(found[1])
        else:
            indent = len(line) - len(line.lstrip())
            if depth is not None and indent <= depth:
                depth = None
            # A module is over where a line is no deeper than its own.
            modules = [it for it in modules if it[0] < indent]
            if line.lstrip().startswith("module"):
                modules.append((indent, comment, given_by(line), line))
            found = WORD.match(line)
            if found and depth is None and not re.match(r" *pub (?:mod|use) ", line):
                said = sentences(*(it[1] for it in modules), comment)
                starts.append((at, found, said, [name for it in modules for name in it[2]], [it[3] for it in modules]))
                depth = indent if found["kind"] else None
            comment = []
    ends = [*(at for at, *_ in starts[1:]), len(lines)]
    return [Word(*it, lines[at + 1 : end]) for (at, *it), end in zip(starts, ends)]


def arrows(head):
    """How many arguments a declaration takes that says `(a b : A) : B → {c : C} (d : D) → E`."""
    own, type_ = contracts.parts_of(f" {head} ", " : ")[:2]
    taken = [re.sub(r"(?:\{[^{}]*\} ?)+", "", it) for it in contracts.parts_of(type_, " → ")[:-1]]
    names = lambda text: len(" ".join(given_by(text)).split())
    return names(own) + sum(names(it) or 1 for it in taken if it)


def arguments(head, lefts):
    """A name for each argument that a declaration takes: of its head or its type, of the first equation that has a variable there,
    else one by its type. A word in capitals is a variable if each equation has it."""
    own, type_ = contracts.parts_of(f" {head} ", " : ")[:2]
    found = [(it, "") for it in " ".join(given_by(own)).split()]
    for taken in (re.sub(r"(?:\{[^{}]*\} ?)+", "", it).strip() for it in contracts.parts_of(type_, " → ")[:-1]):
        names = " ".join(given_by(taken)).split()
        found += [(it, "") for it in names] or [("", taken)] * bool(taken)
    places = [[it for it in contracts.parts_of(f" {left.strip()} ", " ") if it and it[0] != "{"] for left in lefts]
    for at, (name, taken) in enumerate(found):
        told = [it[at] for it in places if at < len(it)]
        variables = (it for it in told if re.fullmatch(r"[^\W\d_][\w'-]*", it) and it not in CONSTANTS and (it[0].islower() or {it} == {*told}))
        type_ = re.match(r"\(?(?:\w+\.)*([A-Za-z])(\w*)", taken)
        yield name or next(variables, "") or (BY_TYPE.get(type_[1] + type_[2], type_[1].lower()) if type_ else "n")


def named(found):
    """Names, of which one that precedes is followed by the next letter's."""
    names = []
    for it in found:
        while it in names:
            it = chr(ord(it[0]) + 1) + it[1:]
        names.append(it)
    return names


def given_by(head):
    """What a declaration is given in parentheses, but for what their types are given."""
    found, at = [], 0
    while at < len(head):
        inner = GIVEN.match(head, at)
        found += [inner[1]] if inner else []
        at += contracts.end_of(head[at:]) if head[at] in "({" else 1
    return found


def sentences(*comments):
    """The comments one after another, each ended by a full stop where another follows."""
    return ". ".join(" ".join(it).strip().rstrip(".") for it in comments if it)

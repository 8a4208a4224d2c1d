"""The functions of a crate's sources: where each stands, and how a check names it."""
import dataclasses
import functools
import itertools
import pathlib
import re

from planting import edits
from reading import exports

# A type one of whose parameters has a default.
WITH_DEFAULT = re.compile(r"^(?:pub )?(?:struct|enum) (\w+)<.*=", re.M)


@dataclasses.dataclass(frozen=True)
class Function:
    """A function of a file, from `start` up to `end`, its body from `body` on, in a block for `type` and of `trait` where there
    are such. The type of a function that a trait itself has is the trait. `macros` are where the macros stand that it calls."""

    file: str
    name: str
    type: str
    trait: str
    start: int
    body: int
    end: int
    macros: tuple[tuple[int, int], ...]
    # Whether the type has a parameter with a default, which a block does not write: a check then names those that it does.
    has_default: bool

    def path(self):
        """How a check is asked for this function: the end of its name there, which no other has."""
        if not self.type:
            return "::".join([*modules_of(self.file), self.name])
        if self.is_of_trait():
            return "::".join([*modules_of(self.file), flat(self.type) + flat(self.trait), self.name])
        # A type is taken for all its parameters, and not for some types in the place of these.
        if all(len(it) == 1 for it in words_of(self.type)[1:]) and not self.has_default:
            return f"{plain_name(self.type)}::{self.name}"
        return "::".join([*modules_of(self.file), "+".join(words_of(self.type)), self.name])

    def is_of_trait(self):
        return self.trait not in ("", "Drop")

    def is_meant(self, path):
        """Whether a check means this function by the path, as in `a_crate::a_module::ATypeATrait::a_name`, or a closure in it,
        as in `a_crate::a_module::fn::AType::a_name::..`."""
        _, *modules, name = path.split("::")
        if "fn" in modules:
            own = [plain_name(self.type), self.name] if self.type else [self.name]
            return [*modules, name][modules.index("fn") + 1 :][: len(own)] == own
        if self.type and not self.is_of_trait():
            return name == self.name and modules[-1].split("+")[0] == plain_name(self.type)
        return [*modules, name] == self.path().split("::")


def owned(found):
    """Each edit, crate by crate, with the functions that it changes, and what reads the texts of its crate."""
    for crate in dict.fromkeys(it.crate for it in found):
        folder = exports.TOP / "crates" / crate
        texts = edits.reader(folder)
        for edit in (it for it in found if it.crate == crate):
            places = edits.applied(edit, texts)[0]
            is_at = lambda it, file, at: file == it.file and any(start <= at < end for start, end in ((it.start, it.end), *it.macros))
            yield edit, [it for it in of_crate(folder) if any(is_at(it, *place) for place in places)], texts


@functools.cache
def of_crate(folder):
    """The functions of a formatted crate."""
    texts = {str(it.relative_to(folder)): it.read_text(encoding="utf-8") for it in sorted((folder / "src").rglob("*.rt"))}
    defaults = {name for text in texts.values() for name in WITH_DEFAULT.findall(text)}
    return [it for file, text in texts.items() for it in of_file(file, text, defaults)]


def of_file(file, text, defaults):
    starts = [0, *itertools.accumulate(map(len, text.splitlines(keepends=True)))]
    items = list(exports.items_in(text.splitlines(), 1))
    macros = {it.name: span(it, starts) for it in items if it.kind == "macro_rules!"}
    found = []
    for block in items:
        # A trait is the type of its own functions.
        trait, type_, _ = exports.impl_of(block) if block.kind == "impl" else ("", block.name * (block.kind == "trait"), "")
        for it in [block] if block.kind == "fn" else block.members():
            if it.kind == "fn" and not it.lines[-1].endswith(";"):
                start, end = span(it, starts)
                head = len(it.head())
                at = it.at - 1 + head - (it.lines[head:][:1] != ["{"])
                body = text.rindex("{", starts[at], starts[at + 1])
                called = tuple(place for name, place in macros.items() if re.search(rf"\b{name}!", text[body:end]))
                has_default = bool(type_) and plain_name(type_) in defaults
                found.append(Function(file, it.name, type_, trait or "", start, body, end, called, has_default))
    return found


def span(item, starts):
    """From the first letter of an item up to the end of its last line."""
    return starts[item.at - 1], starts[item.at - 1 + len(item.lines)] - 1


def modules_of(file):
    """The modules that a file of src/ stands for."""
    parts = pathlib.PurePosixPath(file).with_suffix("").parts[1:]
    return [] if parts in (("lib",), ("main",)) else list(parts)


def plain_name(text):
    """The name of a type alone."""
    found = re.search(r"\b([A-Z]\w+)", text)
    return found[1] if found else flat(text)


def words_of(text):
    """The words by which a check tells the types of one name apart, as in `ArrayVec+mut+slice+T`."""
    return re.findall(r"\w+", re.sub(r"'\w+", "", text).replace("[", "slice "))


def flat(text):
    """The letters by which a check names a type or trait: no paths, lifetimes or parameters, words for `&`, `mut`, brackets. A
    type that is a parameter alone is `Any`."""
    text = re.sub(r"'\w+|\b\w+::", "", text)
    text = text.replace("&", " Ref ").replace(" mut ", " Mut ")
    text = re.sub(r"\[[^\[\];]*;[^\]]*\]", " Array ", text)
    text = re.sub(r"\[[^\[\]]*\]", " Slice ", text)
    words = [it for it in re.findall(r"\w+", text) if not re.fullmatch(r"[A-Z]|_", it)]
    return "".join(it[0].upper() + it[1:] for it in words) or "Any"

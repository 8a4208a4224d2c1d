"""Resolves the words of contracts that pages write in code: each is imported on its page, or linked there to the page of
words, and takes as many arguments as it is given. `tests/docs` tells which are not.
"""
import functools
import re

from building.crates import TOP
from reading import definitions, exports

CODE = re.compile(r"`([^`\n]+)`")
# A path of specs or proofs, whole or from a file on, with names.
IMPORT = re.compile(r"(?:Rattle\.)?([\w.-]+)\.\{([\w., -]*)\}")
LINK = re.compile(r"\(\S*WORDS\.md#([\w-]+)\)")
# A name with its fields, a number or `..`; a bracket; what stands between two applications. A function of Rust is no word.
TOKEN = re.compile(r"((?<![-.])[^\W\d][\w'-]*(?:\.[\w'-]+)*(?![\w(!:<])|\b\d+\b|\.\.)|([(\[{])|([)\]}])|[^\s()\[\]{}]+")
# What stands for any arguments, or begins a partial application in generic code.
ANY = re.compile(r"\.\.$|[A-Z]{2,}$")
GENERIC = re.compile(r"[A-Z]\.Slots$")


@functools.cache
def words():
    """The words of the libraries by name, each with the path of its file."""
    found = {}
    for file in (it for crate in exports.LIBRARIES for it in sorted(TOP.glob(f"crates/{crate}/specs/*.antt"))):
        path = ".".join(file.relative_to(TOP / "crates").with_suffix("").parts)
        for it in definitions.words_of(file):
            found.setdefault(it.name, []).append((path, it))
    return found


def imports(text):
    """What a text imports: paths, each with a name."""
    return [(it[1], name.split(" as ")[0].strip()) for it in IMPORT.finditer(text) for name in it[2].split(",")]


def known(page):
    """Which words a page imports or links, by name: the ends of their paths."""
    found = {}
    for path, name in imports(page):
        found.setdefault(name, []).append(exports.home(path))
    links = LINK.findall(page)
    for name, path in ((name, path) for name, its in words().items() for path, _ in its):
        found.setdefault(name, []).extend([path] * (exports.word_anchor(path, name) in links))
    return found


def faults(text, page=None):
    """What is not resolved in the sentences of a page; without one, what takes other arguments by each definition of its name."""
    ends = known(page or "")
    for code in CODE.findall(text):
        for name, given, is_part in applied(list(TOKEN.finditer(IMPORT.sub("", code.replace("\\|", "|"))))):
            its = [it for path, it in words().get(name, ()) if not page or any(f".{path}".endswith(f".{end}") for end in ends.get(name, ()))]
            arities = {it.arity for it in its}
            if given and name in words() and not its:
                yield f"`{code}`: the page neither imports {name} nor links it"
            elif given and its and given not in arities and not (is_part and given < max(arities)):
                yield f"`{code}`: {name} takes {' or '.join(map(str, sorted(arities)))}, and is given {given}"


def applied(tokens):
    """Each name at the front of an application, with how many arguments it is given, 0 if one stands for any, and whether it may be
    given less than it takes."""
    for at, it in enumerate(tokens):
        if not it[1] or at and (tokens[at - 1][1] or tokens[at - 1][3]):
            continue
        given, depth, is_any, is_part = 0, 0, False, False
        for other in tokens[at + 1 :]:
            depth -= bool(other[3])
            if depth < 0 or not depth and not any(other[at] for at in (1, 2, 3)):
                break
            given += not depth and not other[3]
            is_any |= not depth and bool(ANY.match(other[0]))
            is_part |= bool(GENERIC.match(other[0]))
            depth += bool(other[2])
        yield it[1], given * (not is_any), is_part

"""Writes docs/reference/WORDS.md: each word that a contract of the reference cites, what it means, and an example. A word
that the definition of such a word cites, or a page imports or links, is told too, if it has an example.

A meaning is the comment above the definition in crates/*/specs, after that of its module. An example is the statement of a
lemma `example-WORD` in crates/*/proofs/words, in a file that imports the word. What precedes the line MARK of the
page is written by hand, and stays: there std's words have a line each. `tests/docs` names the words that lack one of these.
"""
import re

from building.crates import text_of
from pages import naming, reference
from reading import contracts, exports
from reading.definitions import code, source_of, words_of

TOP = exports.TOP
PAGE = TOP / "docs/reference/WORDS.md"
MARK = "<!-- scripts/pages/words.py writes what follows -->"
EXAMPLES = "crates/*/proofs/words"
# The pages whose words are told.
NAMING = ("docs/*.md", "docs/reference/*.md", "crates/*/CALLING.md")

# A comment above a lemma is shown before it: of what is lent, say, whose word is no part of a fact. It may begin with
# `of PATH:`, the file of a word that the statement itself does not have.
EXAMPLE = re.compile(r"^(?: *-- (?:of (\S+): )?(.*)\n)?( *)pub example-(\S+) : (.*(?:\n\3 +.*)*)$", re.M)


def write():
    PAGE.write_text(Words().page(), encoding="utf-8")


def faults():
    words, page = Words(), PAGE.relative_to(TOP)
    yield from [f"{page}: not as scripts/pages/words.py writes it: run tests/docs --write"] * (text_of(PAGE) != words.page())
    for path, name in words.cited:
        if path.startswith("std."):
            yield from [f"{page}: std's `{name}` has no line"] * (f'<a id="std-{name}">' not in words.above)
        elif (path, name) not in words.defined:
            yield f"{path}: no definition of `{name}` was found"
        else:
            yield from [f"{path}: `{name}` has no comment"] * (not words.defined[path, name].comment)
            wrong = re.search(r" (?:_|zero|tt)(?![\w-])", words.defined[path, name].shown)
            yield from [f"{path}: a head without names: {words.defined[path, name].shown}"] * bool(wrong)
            example = words.example((path, name))
            yield from [f"{EXAMPLES}: no `example-{name}` of {path}, or an empty one"] * (not example)
            is_named = re.search(rf"(?<![\w.-]){re.escape(name)}(?![\w-])", example)
            yield from [f"{EXAMPLES}: `example-{name}` of {path} does not show {name}"] * bool(example and not is_named)
    uncited = (it for it in words.examples if it not in words.cited)
    yield from (f"{EXAMPLES}: no contract of the reference cites `{name}` of {path}" for path, name in uncited)


class Words:
    """The words that contracts cite, with their definitions and examples."""

    def __init__(self):
        library = reference.Library()
        found = [it for entries in library.pages.values() for it in entries if not it.is_part]
        self.cited = dict.fromkeys(word for it in found for word in it.words())
        self.examples = {}
        for file in sorted(TOP.glob(f"{EXAMPLES}/*.antt")):
            known = exports.imported(text_of(file))
            of = lambda path, name: (path, name) if path else known.get(name, (file.stem, name))
            for path, said, _, name, shown in EXAMPLE.findall(text_of(file)):
                self.examples[of(path, name)] = (file, said and f"{said}: ", plain(" ".join(shown.split())))
        pages = (text_of(it).partition("<!-- scripts/pages/")[0] for pattern in NAMING for it in TOP.glob(pattern) if it != PAGE)
        told = [naming.known(it) for it in pages]
        self.add(word for word in self.examples if any(word[0].endswith(end) for it in told for end in it.get(word[1], ())))
        for path, name in [it for it in self.cited if it in self.defined]:
            known = exports.imported(text_of(source_of(path)))
            self.add(known.get(it, (path, it)) for it in re.findall(r"\w+", self.defined[path, name].text))
        self.above = text_of(PAGE).partition(MARK)[0]

    def add(self, found):
        """Cites those of these words that have an example."""
        self.cited |= dict.fromkeys(it for it in found if it in self.examples)
        order = lambda path: (exports.LIBRARIES.index(path.split(".")[0]), path)
        self.files = sorted({path for path, _ in self.cited if not path.startswith("std.")}, key=order)
        self.defined = {(path, it.name): it for path in self.files for it in words_of(source_of(path))}

    def page(self):
        return self.above + MARK + "".join(self.section(it) for it in self.files) + "\n"

    def section(self, path):
        crate, _, stem = path.partition(".specs.")
        file = source_of(path)
        title = re.match(r"(?:-- .*\n)*", text_of(file))[0].replace("-- ", "").replace("\n", " ").strip()
        rows = [it for it in self.defined if it[0] == path and it in self.cited]
        shown = sorted({self.examples[it][0] for it in rows if it in self.examples})
        links = " and ".join(f"[`{it.relative_to(TOP)}`](../../{it.relative_to(TOP)})" for it in shown)
        place = f"In [`{file.name}`](../../{file.relative_to(TOP)})" + f", examples in {links}" * bool(shown)
        head = f"\n\n## `{stem}` of `{crate}`\n\n{title} {place}.\n"
        return f"{head}\n| Word | Means | For example |\n|---|---|---|\n" + "\n".join(map(self.row, rows))

    def example(self, word):
        """The example of a word as it is shown."""
        _, said, statement = self.examples.get(word, ("", "", ""))
        return said + code(statement) if statement else ""

    def row(self, word):
        found = self.defined[word]
        rows = [(f'<a id="{exports.word_anchor(*word)}"></a>{found.shown}', found.meaning, self.example(word))]
        return "\n".join(f"| {' | '.join(it)} |" for it in [*rows, *((name, said, "") for name, said in found.parts)])


def plain(statement):
    """A statement as it is read: lists in brackets, without the types of variables and what only helps the prover."""
    while bound := re.match(r"[({]\w[\w ]* : ", statement):
        end = contracts.end_of(statement)
        statement = re.sub(r"^ *→ ", "", statement[end:]).lstrip()
    statement = re.sub(r" \{\w+ = [^}]*\}", "", statement)
    statement = re.sub(r"(?:(?:Some )?[\w.]+ ∷ )+\[\]", lambda it: f"[{', '.join(it[0].split(' ∷ ')[:-1])}]", statement)
    statement = re.sub(r"\((\[[^]]*\])\)", r"\1", statement)
    statement = re.sub(r"\(nums (\[[^]]*\])\)|\bnums (\[[^]]*\])", lambda it: it[1] or it[2], statement)
    return re.sub(r"\(over (\[[^]]*\]) (\[[^]]*\])\)|\bover (\[[^]]*\]) (\[[^]]*\])", lambda it: f"({it[1] or it[3]} {it[2] or it[4]})", statement)

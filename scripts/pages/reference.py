"""Writes the reference, docs/reference/*.md: all that the libraries export, with comments, examples, contracts and what
differs in Rust.

`tests/docs` names the pages that differ from what this would write or have more than MOST lines, comments and examples that
are missing, and costs and errors that are not those of the sources. What precedes the line MARK of a page is written by
hand.
"""
import functools
import re
import textwrap

from building.crates import text_of
from pages import examples
from reading import contracts, definitions, exports
from reading.exports import PAGES

TOP = exports.TOP
FOLDER = TOP / "docs/reference"
COSTS = FOLDER / "costs.txt"
MARK = "<!-- scripts/pages/reference.py writes what follows -->"

# A page has at most so many lines.
MOST = 2000
# The page of the table of calls, and the types that it has.
INDEX = "README"
COLUMNS = ("ARRAY_VEC", "SLICE_VEC", "TINY_VEC", "INLINE_TEXT")
# The sections that a type with two pages has on the second, whose name ends so.
SECOND = "_BULK"
BULK = ("extending", "drain", "splice", "filters", "clones", "into_iter")
# A note is shown on the first of its pages in this order.
ORDER = ("TINY_VEC", "TINY_VEC_BULK", *(it for it in PAGES if not it.startswith("TINY_VEC")))
# The sections of all pages, each with its title, if it has one of its own.
LINES = text_of(FOLDER / "sections.txt").splitlines()
SECTIONS = {it.split(" | ")[0]: it.partition(" | ")[2] for it in LINES if it and not it.startswith("#")}
# The modules whose section is another's.
TOGETHER = {"array": "slots", "bound": "slots", "takes_clones": "slots"}

# Ghost items that are proofs. A reader needs the definitions beside them.
PROOFS = re.compile(
    r"ghost (?:use\b|(?:coded|inverse|inverse_ok|laws|total|matches_\w+|respects_eq|kept_\w+|grown_\w+|cut_grown|moved|written"
    r"|part_written|slots_written|rewritten|name_kept|count_of|counted|same|code|spelled|apart)\b)"
)
# What precedes the clauses of a declaration, or the functions of an impl.
CONTRACT = re.compile(r"(?:\n +(?:requires|ensures\*?|ghost|fn)\b| (?=(?:requires|ensures\*?) (?:\w+ )?\{))")
SELF = re.compile(r"\(\s*(?:&(?:'\w+ )?)?(?:mut )?self\b")
NO_WORDS = re.compile(r"\.declared\.|\.proofs\.|^std\.specs\.Prelude$")
NAMES = re.compile(r"(\w+)(::|: )(\{[^}]*\}|\w+!?)")


def write():
    for file, above, _, text in pages():
        file.write_text(above + MARK + text, encoding="utf-8")


def faults():
    written = {}
    for file, _, below, text in pages():
        written[file.stem] = text_of(file)
        if below != text:
            yield f"{file.relative_to(TOP)}: not as scripts/pages/reference.py writes it: run tests/docs --write"
    library = Library()
    for page, it in library.entries():
        where, key = it.source.path, it.key()
        unended = (said[-60:] for said in it.prose() if not said.endswith((".", ":")))
        yield from (f"{where}: {key}: a sentence without its end: {said}" for said in unended)
        yield from [f"{where}: {key} has no `///`"] * (it.kind != "impl" and not it.item.comment)
    yield from exports.table_faults(COSTS, [it for it, _ in costs()], library.calls)
    yield from examples.faults(library.keys, library.calls)
    sections = {it.section() for _, it in library.entries()}
    yield from (f"docs/reference/sections.txt: {it} is only there, or only on a page" for it in sorted(sections ^ set(SECTIONS)))
    for page, text in written.items():
        if text.count("\n") > MOST:
            yield f"docs/reference/{page}.md: more than {MOST} lines: give a section to its second page"
    yield from wrong_errors(library)
    yield from (f"docs/DIFFERENCES.md: no such call: {it}" for it in library.notes if it not in library.keys)
    for cells in differences():
        bare = [it for it in re.findall(r"`([^`]*)`", cells[2]) if not NAMES.fullmatch(it)]
        yield from (f"docs/DIFFERENCES.md: a call without its type: {it}" for it in bare)


def wrong_errors(library):
    """Where the table of errors names other calls than those whose signature has the error."""
    above = text_of(FOLDER / f"{INDEX}.md").partition(MARK)[0]
    entries = [it for _, it in library.entries()]
    types = {it.name for it in entries if it.kind in ("struct", "enum")}
    for error, cell in re.findall(r"^\| `(\w+)(?:<[^`]*)?` \| (.*?) \|", above, re.M):
        made = [it.item for it in entries if it.kind in ("fn", "method") and not it.is_part]
        # What an impl of a std trait returns, as `try_from`.
        made += [one for it in entries if it.kind == "impl" and not it.is_part for one in it.item.members() if one.kind == "fn"]
        returning = {it.name for it in made if re.search(rf"-> .*\b{error}\b", it.signature())}
        wrong = returning ^ set(re.findall(r"`(?:\w+::)?([a-z]\w+)`", cell)) if error in types else ()
        yield from (f"docs/reference/{INDEX}.md: {error}: {it}" for it in sorted(wrong))


def main_of(page):
    return PAGES[page][1] if page in PAGES else None


def pages():
    """Each page: its file, what precedes MARK there and what follows it, and what should."""
    library = Library()
    for name, text in {**{name: Page(library, name).text() for name in ORDER}, INDEX: library.table()}.items():
        above, _, below = text_of(FOLDER / f"{name}.md").partition(MARK)
        yield FOLDER / f"{name}.md", above, below, text


@functools.cache
class Library:
    """All exports by page, who calls them, and what is said of them beside Rust's crate."""

    def __init__(self):
        self.crates = [exports.Crate(it) for it in exports.LIBRARIES]
        # What a vector's crate passes on is for its users, all else of `tinyvec_slots` for those who write vectors.
        self.passed_on = {it for crate in self.crates for it in crate.passed_on}
        self.passed_on |= {(self.crates[0].name, it) for crate in self.crates for it in crate.aliases.values()}
        made = [Entry(export, self) for crate in self.crates for export in crate.exports()]
        self.pages = {page: [it for it in made if it.page == page] for page in PAGES}
        self.keys = {it.key() for _, it in self.entries()}
        is_call = lambda key: ": " not in key and ("::" in key or key.endswith("!") or key.islower())
        self.calls = {it.key() for _, it in self.entries() if is_call(it.key()) and not it.is_part}
        self.costs, self.examples = dict(costs()), dict(examples.examples())
        # Where a note is shown.
        self.notes, self.noted = notes(), {}

    def entries(self):
        return [(page, it) for page, found in self.pages.items() for it in found]

    def table(self):
        """Which of the four types has a call, by name, and which implements a trait."""
        calls, traits = {}, {}
        for page in COLUMNS:
            main = main_of(page)
            for home, it in self.entries():
                if not it.is_part and (main == it.of or main in it.also and not it.of.startswith("&")):
                    rows, name = (traits, it.trait) if it.trait else (calls, it.name)
                    rows.setdefault(name, {})[page] = f"[✓]({home}.md#{it.anchor()})"
        heads = " | ".join(f"[`{main_of(it)}`]({it}.md)" for it in COLUMNS)
        lines = []
        for title, rows in (("Call", calls), ("Trait", traits)):
            lines.append(f"\n\n| {title} | {heads} |\n|{'---|' * (len(COLUMNS) + 1)}")
            lines += [f"\n| `{name}` | {' | '.join(rows[name].get(it, '') for it in COLUMNS)} |" for name in sorted(rows)]
        lines.append("\n\n| Also on | Calls, types and traits |\n|---|---|")
        types = [main_of(it) for it in COLUMNS]
        # What each page has that is no call and no trait of the four types.
        for page, found in self.pages.items():
            main = main_of(page)
            is_listed = lambda it: it.is_part or it.kind == "impl" or it.name == main or it.of in types and it.of == main
            others = (it for it in found if not is_listed(it))
            links = [it.link(page) for it in others]
            title = text_of(FOLDER / f"{page}.md").partition("\n")[0].removeprefix("# ")
            lines += [f"\n| [{title}]({page}.md) | {', '.join(links)} |"] * bool(links)
        return "".join(lines) + "\n"


def costs():
    """Each call, as `TinyVec::push`, `tiny_vec!` or `run`, with its line of COSTS: what takes its time, and what it allocates."""
    of = ""
    for line in (it for it in text_of(COSTS).splitlines() if it and not it.startswith("#")):
        *cost, names = (it.strip() for it in line.split("|"))
        of = of if cost else names
        for name in names.split() if cost else ():
            # A macro is of no type, nor are the functions of a page, whose name is in capitals.
            yield name if name.endswith("!") or of.isupper() else f"{of}::{name}", tuple(cost)


def notes():
    """What the last column of the table of differences ties to a type and a call: `TinyVec::{extend, fill}`, `ArrayVec: Clone`."""
    found = {}
    for rust, here, calls in differences():
        named = NAMES.findall(calls.replace("`", ""))
        for of, mark, name in ((of, mark, it) for of, mark, names in named for it in re.findall(r"\w+!?", names)):
            # A macro is of no type.
            key = name if name.endswith("!") else of + mark + name
            said = f"In Rust: {rust}. Here: {here}."
            # A link is from the folder of the pages.
            found.setdefault(key, []).append(re.sub(r"\]\((?=[\w.-]+\.md)", "](../", said))
    return found


def differences():
    """The rows of the table of differences."""
    rows = (row for row in text_of(TOP / "docs/DIFFERENCES.md").splitlines() if row.startswith("| "))
    return [it for it in (list(map(str.strip, row.strip("|").split(" | "))) for row in rows) if len(it) == 3]


class Entry(exports.Export):
    """An export as a page shows it."""

    def __init__(self, export, library):
        self.__dict__.update(export.__dict__)
        slots = library.crates[0]
        named = set(re.findall(r"\w+", f"{self.trait or self.of or self.name} {self.of or ''}")) & slots.names.keys()
        is_passed_on = any((slots.name, it) in library.passed_on for it in named)
        # Whether it is what vectors are written with, and nothing for their users.
        self.is_part = bool(named) and not is_passed_on and (self.source.crate == slots.name or self.kind == "impl")
        # That of its type or, if its section is there, the second one, or the first of the crate.
        found = [page for page, (of, _) in PAGES.items() if of == self.source.crate]
        of = (self.of or self.name).lstrip("&").removeprefix("mut ")
        page = next((page for page in found if main_of(page) and of.startswith(main_of(page))), found[0])
        self.main = main_of(page)
        self.page = page + SECOND if page + SECOND in found and self.section() in BULK else page

    def heading(self):
        if self.trait:
            article = "a " * self.of.startswith("&")
            return f"`{self.trait}` for {article}`{self.of}`"
        return f"`{self.name}`" if self.of == self.main and self.of else f"`{self.key()}`"

    def anchor(self):
        return anchor(self.heading())

    def link(self, page="", text=""):
        """A link to it on a page, or on the one that has the link."""
        return f"[`{text or self.heading().strip('`')}`]({page and f'{page}.md'}#{self.anchor()})"

    def is_row(self):
        """Whether a line of a table says all of an impl: no function of it has a contract."""
        return self.kind == "impl" and not any(it.kind == "fn" and has_contract(it) for it in self.item.members())

    def row(self, said):
        """An impl as a line of a table."""
        shown = (re.sub(r"^ghost (.*?) = \{ (.*) \};$", r"\1 = \2", " ".join(" ".join(it.lines).split())) for it in self.ghosts())
        codes = "; ".join("`" + it.replace("|", "\\|") + "`" for it in shown)
        cell = ". ".join(it for it in (codes, " ".join(said)) if it)
        return f'| <a id="{self.anchor()}"></a>`{self.item.signature().rstrip(",")}` | {cell} |\n'

    def ghosts(self):
        """What an impl defines, without its proofs."""
        return [it for it in self.item.members() if it.kind == "ghost" and not PROOFS.match(it.lines[0])]

    def section(self):
        main, stem = self.main, TOGETHER.get("/".join(self.source.module), self.source.file.stem)
        of = re.sub(r"^&(?:mut )?", "", self.of or self.name)
        if self.is_part:
            return "parts"
        if self.kind == "macro_rules!" or self.kind == "method" and of == main and not SELF.search(self.item.signature()):
            return "making"
        if self.kind == "method" and of == main and stem == snake(main):
            signature = self.item.signature()
            return "reading" if "&self" in signature else "writing" if "&mut self" in signature else "taking"
        # An impl for a type of std is of the type that its trait names.
        is_own = self.kind != "method" and main and (of == main or main in (self.trait or ""))
        return "traits" if is_own else stem

    def conditions(self):
        """What a caller proves, as the source has it."""
        clauses = contracts.function(contracts.without_comments("\n".join(self.item.head())))[1] if self.item.kind == "fn" else {}
        return [f"    {it}" for it in clauses.values() if it.startswith("requires")]

    def clauses(self, head):
        """What its code has behind the head: of a function without the conditions, which precede."""
        said = self.code().removeprefix(head).strip("\n")
        for it in self.conditions() if self.item.kind == "fn" else ():
            said = said.replace(f"{it}\n", "", 1).removesuffix(it)
        return textwrap.dedent(re.sub(r"^ (?! )", "", said)).strip("\n")

    def words(self):
        """The words that its contract cites."""
        return cited(self.source.file, self.code())

    def prose(self):
        yield from paragraphs(self.item.comment)
        for it in self.item.members():
            if it.kind in ("fn", "type", "const") and it.comment:
                yield from (f"`{it.name}`: {said}" for said in paragraphs(it.comment))

    def code(self):
        """The declaration, without bodies, private fields and proofs."""
        item = self.item
        if item.kind in ("impl", "trait"):
            lines = [*item.head()]
            for it in item.members():
                if it.kind == "ghost" and (item.kind == "trait" or not PROOFS.match(it.lines[0])):
                    lines += [f"    {line}" for line in (*it.note, *it.lines)]
                elif it.kind in ("type", "const") and item.kind == "trait" or it.kind == "fn" and has_contract(it):
                    lines += [f"    {line}" for line in it.head()]
            return "\n".join(it for it in lines if it.strip())
        lines = [*(it for it in item.attributes if "derive" in it and item.kind != "fn"), *item.head()]
        if item.kind == "macro_rules!":
            arms = [it.strip() for it in item.lines if it.startswith("    (") and "(@" not in it]
            lines = [f"macro_rules! {item.name}", *(f"    {it.partition(' =>')[0] if ' => {' not in it else it.rpartition(' => ')[0]}" for it in arms)]
        if item.kind == "struct" and "{" in item.lines[0]:
            fields = [it for it in item.lines[1:-1] if it.strip().startswith(("pub ", "///"))]
            inside = [*item.lines[:1], *fields, "}"] if fields else [item.lines[0] + " .. }"]
            lines = [*(it for it in item.attributes if "derive" in it), *inside]
        return "\n".join(it for it in lines if it.strip())


def cited(file, text):
    """The words that a text of a file cites, with the path that defines each, but for operators, variants, proofs and std's prelude.
    Of a variant that `specs/` define it is the type."""
    known = exports.imported(text_of(file))
    found = dict.fromkeys(definitions.whole(*known[it]) for it in re.findall(r"[^\s(){}.,;:\[\]]+", text) if it in known)
    return [it for it in found if re.fullmatch(r"[\w-]+", it[1]) and not NO_WORDS.search(it[0])]


def has_contract(item):
    return bool(re.search(r"^\s*(?:requires|ensures)", "\n".join(item.head()), re.M)) or item.lines[-1].endswith(";")


def paragraphs(comment):
    """The paragraphs of a comment, each as one line."""
    return [" ".join(it.split()) for it in "\n".join(comment).split("\n\n") if it.strip()]


def snake(name):
    return re.sub(r"(?<=[a-z])(?=[A-Z])", "_", name).lower()


def anchor(heading):
    """What a link names a heading by."""
    return re.sub(r"[^\w\- ]", "", heading.lower()).strip().replace(" ", "-")


class Page:
    """What a page has: a table of its sections, and each section with its entries."""

    def __init__(self, library, name):
        self.library, self.name, self.entries = library, name, library.pages[name]
        self.codes, self.told = {}, set()
        self.main, self.sections = main_of(name), {}
        for it in self.entries:
            self.sections.setdefault(it.section(), []).append(it)
        for found in self.sections.values():
            # The calls of the page's type, then what they return.
            found.sort(key=self.place)
        self.order = [*(it for it in SECTIONS if it in self.sections), *(it for it in self.sections if it not in SECTIONS)]

    def place(self, it):
        is_own = it.kind == "method" and it.of == self.main
        is_elsewhere = is_own and it.source.file.stem != snake(self.main)
        return (not is_own, it.name != "new", is_elsewhere, it.kind in ("impl", "method"), self.entries.index(it)) if self.main else ()

    def title(self, section):
        title = SECTIONS.get(section) or self.sections[section][0].source.title.replace("`", "")
        return title.partition(". ")[0]

    def contents(self, page=""):
        """A row for each section, for this page or another."""
        for section in self.order:
            title, found = self.title(section), [it for it in self.sections[section] if not it.is_part]
            links = ", ".join(it.link(page, it.trait) for it in found) or "traits and functions, by name"
            yield f"| [{title}]({page and f'{page}.md'}#{anchor(title)}) | {links} |\n"

    def text(self):
        below, rows = [], [*self.contents()]
        if self.name + SECOND in PAGES:
            rows += Page(self.library, self.name + SECOND).contents(self.name + SECOND)
        for section in self.order:
            found = self.sections[section]
            below.append(f"\n## {self.title(section)}\n")
            below += self.parts(found) if section == "parts" else self.section(found)
        return f"\n\n{self.costs()}| | |\n|---|---|\n" + "".join(rows + below)

    def costs(self):
        """A table of what the calls cost, those of the page's type first."""
        calls, rows = {it.key(): it for it in self.entries}, {}
        for key, cost in self.library.costs.items():
            if key in calls:
                rows.setdefault(cost, []).append(calls[key].link())
        lines = ["| Calls | Time for | Allocate |\n|---|---|---|\n"]
        for (time, allocates), links in rows.items():
            lines.append(f"| {', '.join(links)} | {time} | {allocates} |\n")
        return "".join([*lines, "\n## Contents\n\n"]) if rows else ""

    def parts(self, found):
        yield "\nVectors are written with these; their contracts are in the sources.\n\n"
        for source in dict.fromkeys(it.source for it in found):
            yield f"- {', '.join(f'[`{it.key()}`](../../{source.path})' for it in found if it.source == source)}\n"

    def section(self, found):
        for it in found:
            yield from self.entry(it) if not it.is_row() else ()
        rows = [it.row([*it.prose(), *self.notes(it)]) for it in found if it.is_row()]
        yield from ["\n| Impl | Defines |\n|---|---|\n", *rows] if rows else ()

    def entry(self, it):
        """What it is called as and on which conditions, what it does, an example, and its contract, which is folded."""
        yield f"\n### {it.heading()}\n"
        code, twin = it.code(), self.twin(it)
        # A comment at its end is of what follows.
        head = re.sub(r"(?:\n +//[^\n]*)+$", "", CONTRACT.split(code, maxsplit=1)[0])
        yield "\n```\n" + "\n".join([head, *it.conditions()]) + "\n```\n"
        for said in it.prose():
            # One that begins with the label of a clause is told once.
            yield f"\n{said}\n" * (said not in self.told or not said.startswith("`"))
            self.told.add(said)
        yield from self.aliased(it) if it.kind == "type" else ()
        notes = self.notes(it) if twin is it or it.kind == "impl" else ()
        yield from (f"\n{note}\n" for note in notes)
        if it.key() in self.library.examples:
            yield f"\n```\n{self.library.examples[it.key()]}\n```\n"
        if twin is not it:
            yield f"\nIts contract is that of {twin.link('', twin.trait or twin.name)}.\n"
        elif clauses := it.clauses(head):
            yield f"\n<details><summary>Contract</summary>\n\n```\n{clauses}\n```\n\n</details>\n"

    def aliased(self, it):
        """A link to the type that an alias names."""
        of = exports.head_of(re.search(r"= (.*);", it.item.signature())[1])
        links = [one.link(page * (page != self.name)) for page, one in self.library.entries() if one.key() == of]
        yield from (f"\nIts type is {link}.\n" for link in links)

    def twin(self, it):
        """The entry above that has the same contract but for its name, as a call and its `try_` form, or itself."""
        return self.codes.setdefault(re.sub(rf"\b{it.name}\b", "", it.code()), it) if it.kind in ("method", "fn", "impl") else it

    def notes(self, it):
        for note in self.library.notes.get(it.key(), []):
            first = self.library.noted.setdefault(note, it)
            is_here = first.page == self.name
            link = first.link("", first.trait or first.name) if is_here else first.link(first.page, first.key())
            yield note if first is it else f"In Rust: see {link}."

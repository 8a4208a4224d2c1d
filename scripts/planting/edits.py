"""Edits that plant a bug: read from tests/mutations/CRATE, applied to the texts of a crate's files."""
import collections
import contextlib
import dataclasses
import re

from building.crates import TOP

FOLDER = TOP / "tests/mutations"

# A text of a file, and what stands in its place. Where `after` is given, it is the first after that one, which is once there.
Change = collections.namedtuple("Change", "file old new after")
PAIR = re.compile(r"(?:file: ?(.*)\n)?(?:in: ?(.*)\n)?old: ?(.*)\nnew: ?(.*)\n")
EDIT = re.compile(rf"(edit|named): (.*)\n((?:{PAIR.pattern})+)")


class BadEdit(Exception):
    """An edit that cannot be applied, with the reason."""


@dataclasses.dataclass(frozen=True)
class Edit:
    crate: str
    name: str
    changes: tuple[Change, ...]
    # Whether it is one of the wrong bodies that a reader would think of first, which the gate tries.
    is_named: bool = False

    def __str__(self):
        return f"{self.crate}/{self.name}"


def read_all(crates):
    """The edits of the crates, file by file, and why others cannot be read or applied."""
    edits, broken = [], []
    for crate in crates:
        texts = reader(TOP / "crates" / crate)
        for path in sorted(it for it in (FOLDER / crate).rglob("*") if it.is_file()):
            try:
                found = read(crate, path)
            except BadEdit as why:
                broken.append(f"{path.relative_to(FOLDER)}: {why}")
                continue
            for it in found:
                try:
                    applied(it, texts)
                    edits.append(it)
                except BadEdit as why:
                    broken.append(f"{it}: {why}")
    return edits, broken


def read(crate, path):
    """The edits of a file, in the form that CONTRIBUTING.md describes. A line `# TEXT` says why an edit is as it is."""
    if path.suffix != ".edits":
        raise BadEdit("its name does not end in .edits")
    found = []
    for block in re.sub(r"^# .*\n", "", path.read_text(encoding="utf-8"), flags=re.M).split("\n\n"):
        edit = EDIT.fullmatch(block.strip("\n") + "\n")
        if not edit:
            raise BadEdit(f"this is no kind and name, and pairs of old and new: {block.strip().partition(chr(10))[0]}")
        file, changes = f"src/{path.relative_to(FOLDER / crate).with_suffix('.rt')}", []
        for other, after, old, new in PAIR.findall(edit[3]):
            file = other or file
            changes.append(Change(file, old, new, after))
        found.append(Edit(crate, edit[2], tuple(changes), edit[1] == "named"))
    return found


def applied(edit, texts):
    """Where the edit changes which file, and the texts that it makes, where `texts` gives a file's text by its path. Later
    pairs of one file apply to what earlier ones made."""
    places, changed = [], {}
    for file, old, new, after in edit.changes:
        text = changed.get(file) or texts(file)
        first = after or old
        if text.count(first) != 1:
            word = f"`in: {after}`" if after else "its old text"
            raise BadEdit(f"{word} is in {file} {text.count(first)} times, and not once")
        at = text.find(old, text.find(first))
        if at < 0:
            raise BadEdit(f"its old text is not in {file} after {after}")
        places.append((file, at))
        changed[file] = text[:at] + new + text[at + len(old) :]
    return places, changed


def merged(edits, texts):
    """The texts of the files that some edits change, with the changes of all but those for which others leave no place."""
    changed = {}
    # From the end of a file on, so that what precedes an edit is as it was.
    for edit in sorted(edits, key=lambda it: applied(it, texts)[0], reverse=True):
        with contextlib.suppress(BadEdit):
            changed |= applied(edit, lambda file: changed.get(file) or texts(file))[1]
    return changed


def reader(folder):
    """A function from a path below the folder to the file's text."""

    def texts(path):
        if not re.match(r"(?:src|specs|proofs)/(?!.*\.\.)", path) or not (folder / path).is_file():
            raise BadEdit(f"there is no file {path} below src/, specs/ or proofs/")
        return (folder / path).read_text(encoding="utf-8")

    return texts

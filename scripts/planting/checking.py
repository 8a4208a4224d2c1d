"""A copy of a crate, checked with edits over the libraries that it uses and work that earlier checks kept."""
import pathlib
import re
import subprocess
import tempfile

from building import crates, running

VERDICT = re.compile(r"^fn (\S+): (.*)$", re.M)
# The last line of a check of a whole crate, and of some functions.
PROVED = re.compile(r"^(?:logic=proved\b|only=(\d+) proved=\1$)", re.M)
# What a check says of the written proof of a function: its folder, file and line, and the error, which goes on in indented
# lines. Some errors only follow from others. Of a body that is refused for no other errors, nothing is known but that the proof
# was written for another: it has a name of the code that is gone, or shows what is not to be shown any more.
ERROR = re.compile(r"^(?:\./)?proofs/(\S+)/(\w+)\.antt:(\d+):\d+: error: (.*(?:\n  .*)*)$", re.M)
FOLLOWS = re.compile(r"which (?:was|were) rejected, (?:was|were) not checked")
STALE = re.compile(
    r"has no field|is not in scope|has no `|was not admitted|the two types|but this has type|one side reads|≟"
)
# What is said of a function where another edit of the round took the proof from one that it calls.
HIDDEN = re.compile(r"no proof: (?:it calls |the borrow checker's part .* a call of `\S+`, which has no proof)")
# How an edit is refused, from what shows most to what shows least.
KINDS = ("refused", "refused by a written proof alone")
JUDGED = re.compile(r"^(?:logic=(?:not-)?proved\b|only=\d+ proved=\d+$)", re.M)


class Said:
    """What a check said of each function."""

    def __init__(self, text):
        self.text = text
        self.verdicts = dict(VERDICT.findall(text))
        self.is_proved = bool(PROVED.search(text))
        self.is_judged = bool(JUDGED.search(text))
        self.errors, self.places = {}, {}
        for folder, file, line, error in ERROR.findall(text):
            self.errors.setdefault(folder, []).append(" ".join(error.split()))
            if file == "Answers":
                self.places.setdefault(folder, {})[int(line)] = error

    def refusal(self, path):
        """Of which kind the refusal of a function is, or None where it is not refused, or only for another that it calls."""
        verdict, errors = self.verdicts[path], self.errors.get(folder_of(path), [])
        told = [it for it in errors if not FOLLOWS.search(it)]
        if not verdict.startswith(("not proved", "no proof")) or HIDDEN.match(verdict) or errors and not told:
            return None
        is_stale = told and all(STALE.search(it) for it in told) and not verdict.startswith("no proof")
        return KINDS[1] if is_stale else KINDS[0]

    def without(self, path, texts):
        """The file of the written answers of a function, and its text without those of which the check tells an error, and
        without the imports that it does not find."""
        file, places = f"proofs/{folder_of(path)}/Answers.antt", self.places.get(folder_of(path), {})
        answers, line, left = texts(file), 1, []
        for part in answers.split("\n\n"):
            lines = part.split("\n")
            end = line + len(lines)
            if part.startswith("use "):
                left.append("\n".join(filter(None, (found_of(it, places.get(at, "")) for at, it in enumerate(lines, line)))))
            elif not any(line <= it <= end for it in places):
                left.append(part)
            line = end + 1
        return file, "\n\n".join(left)

    def first_error(self):
        lines = self.text.splitlines()
        found = [it for it in lines if re.match(r"\S+:\d+:\d+: error|error|rt: ", it)]
        return (found or lines[-1:] or ["nothing"])[0][:200]


class Desk:
    """Where a crate's edits are tried, each check in a copy of its own over the libraries as they are now and the work that
    was kept, so that other commands may build them anew."""

    def __init__(self, crate, room):
        # It goes with the room, and puts nothing in place of what the crate has.
        self.room, self.base = room, running.Copy(crate, room / crate.name).__enter__()

    def check(self, texts, paths, jobs, keeps=False):
        """Checks the functions of these paths, or the whole crate where there are none, with these texts in place of its own.
        Later checks begin with what this one kept where they are to."""
        with tempfile.TemporaryDirectory(prefix="check-", dir=self.room) as room:
            running.link(self.base.top, pathlib.Path(room, "top"))
            copy = pathlib.Path(room, "top") / self.base.folder.relative_to(self.base.top)
            for path, text in texts.items():
                # Not through the link.
                (copy / path).unlink()
                (copy / path).write_text(text, encoding="utf-8")
            said = Said(run(["rt", "check", f"--jobs={jobs}", *(f"--only={it}" for it in paths)], copy)[1])
            if keeps and said.is_proved:
                running.replace(copy / "out" / crates.KEPT, self.base.out / crates.KEPT)
        return said


def found_of(line, error):
    """An import without the names that an error of it tells of."""
    head, brace, names = line.rstrip("}").partition(".{")
    left = [it for it in names.split(", ") if f"`{it}`" not in error]
    return f"{head}.{{{', '.join(left)}}}" if brace and left else line * (not brace)


def folder_of(path):
    """Where the proof of a function stands, below proofs/."""
    return "/".join(path.split("::")[1:])


def run(words, folder, env=None):
    """The status of a command, and what it says."""
    status, said, _ = running.ask(words, limit=None, cwd=folder, env=env, stderr=subprocess.STDOUT)
    return status, said.decode(errors="replace")

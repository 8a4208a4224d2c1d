"""The crates of this repository: their files, what they use, and whether what was built of one is up to date."""
import functools
import hashlib
import os
import pathlib
import re
import shutil
import subprocess
import sys

TOP = pathlib.Path(__file__).resolve().parent.parent.parent

# What a library or program is made from. A crate's other files only judge it.
PARTS = ("src", "specs", "proofs")

# What earlier checks kept, in a crate's out/.
KEPT = "incremental"

# As `nproc` counts them.
CORES = len(os.sched_getaffinity(0))

# The lines that say what is wrong: of the prover, of rt, and of a test with what it printed.
TELLING = re.compile(
    r"^.*\berror(?:\[[\w-]+\])?: .*$|^note: \S+: it is not proved.*$|^fn \S+: (?:not proved|no proof).*$"
    r"|^test \S+ \.\.\. FAILED\n(?:    .*\n?)*|^call=.*$|^checked: .*$",
    re.M,
)
MOST_LINES = 30

# By this an edit of a body has `./check` leave the crates above alone, which saves minutes each time. What a built library has
# that no proof above can cite: its code, the proofs of single functions, sums over all of it, and
# what differs between a library of `rt ci` and one of `rt lib`.
UNCITED = re.compile(r"toolchain/|lang/antt/made\.json$|lang/antt/proofs/.*/(?:Answers|Invariants|Proof)\.antt$")
SUMS = re.compile(rb"^(?:(?:checked|sum|carries|needs|over|free|free-alone) .*|lists-free|incremental)\n", re.M)

# The build of a library over which one of `rt ci` was proved: the sum of its file `format`.
OVER = re.compile(r"^over (\w+) (\w+)$", re.M)


class Crate:
    def __init__(self, name, row, uses):
        self.name, self.row, self.uses, self.is_used = name, row, uses, False
        self.of_kit = [it for it in row.partition("#")[0].partition(":")[2].split() if it not in [one.name for one in uses]]
        self.folder = TOP / "crates" / name
        self.out = self.folder / "out"
        self.is_program = (self.folder / "src/main.rt").is_file()
        # rt's own mark, which it leaves beside what it made of unchanged sources.
        self.mark = f"{name}.stamp" if self.is_program else "rlib/stamp"
        self.format = self.out / f"rlib/{name}.rlib/format"
        self.made = [name, self.mark] if self.is_program else ["rlib"]
        # The program that lists its tests, and runs one of them.
        self.tests = self.out / f"{name}_tests"

    @functools.cached_property
    def below(self):
        """The crates that this one needs, each after those that it needs itself."""
        return list(dict.fromkeys(it for used in self.uses for it in [*used.below, used]))

    @functools.cached_property
    def files(self):
        """The contents of the crate's files but documents by their paths, as they are when this is first asked."""
        inside = (it for it in self.folder.iterdir() if it.name != "out")
        paths = (path for it in inside for path in [it, *it.rglob("*")] if path.is_file() and path.suffix != ".md")
        return dict(sorted((str(it.relative_to(self.folder)), it.read_bytes()) for it in paths))

    @functools.cached_property
    def sources(self):
        return {path: text for path, text in self.files.items() if path.startswith(tuple(f"{it}/" for it in PARTS))}

    @functools.cached_property
    def sum(self):
        """Differs where anything differs that the library or program is made from."""
        return sum_of(kit(), self.row, self.sources, [it.sum for it in self.uses])

    def has_tests(self):
        return any(path.endswith(".rt") and b"#[test]" in text for path, text in self.sources.items())

    def record(self):
        """What out/built holds where the crate was built from these very sources, and nobody built it anew since."""
        return f"{self.sum}\n{text_of(self.out / self.mark)}"

    def is_built(self):
        is_made = all((self.out / it).exists() for it in self.made) and self.fits()
        return is_made and text_of(self.out / "built") == self.record()

    def fits(self):
        """Whether the library can be used beside those below as they are built now: one of `rt ci` holds only statements,
        and is refused beside other builds than those that it was proved over, which it names by these sums."""
        over = dict(OVER.findall(text_of(self.format)))
        return all(over[it.name] == sum_of_file(it.format) for it in self.below if it.name in over)

    def has_library(self):
        """Whether there is a library to begin with. One that does not fit loses its mark, by which rt would take it."""
        if not self.fits():
            (self.out / self.mark).unlink(missing_ok=True)
        return self.fits() and (self.out / "rlib").is_dir()

    def has_only_tests(self):
        """Whether nothing is made of the crate but tests, with which it is proved."""
        return self.has_tests() and not self.is_program and not self.is_used

    def verdict(self):
        """What out/good holds where the crate was found good with these very files, over what stands below it."""
        is_tests = any(self.name == f"{it.name}_tests" for it in self.uses)
        tested = [it.files for it in self.uses if is_tests]
        # These differ where anything differs that a proof above can cite, but neither by a body nor by the proof of one.
        stated = [text_of(it.out / "statements") for it in self.below]
        return sum_of(kit(), self.row, self.files, tested, stated)

    def is_good(self):
        is_made = self.has_only_tests() or all((self.out / it).exists() for it in self.made)
        is_made &= self.tests.exists() or not self.has_tests()
        return is_made and text_of(self.out / "good") == self.verdict()

    def is_found_good(self):
        (self.out / "good").write_text(self.verdict(), encoding="utf-8")

    def whole_sum(self):
        """Differs where anything differs that the program, or that of the tests, is made from or judged by."""
        return sum_of(kit(), self.row, self.files, [it.sum for it in self.uses])

    def is_run_by_ci(self):
        """Notes that `rt ci` has just built and run what it runs, and removed what `./check` noted."""
        self.out.mkdir(exist_ok=True)
        (self.out / "run").write_text(self.whole_sum(), encoding="utf-8")

    def is_run(self):
        """Whether its program, or that of its tests, is of these very files, and ran well."""
        return self.is_good() or text_of(self.out / "run") == self.whole_sum()

    def is_now_built(self):
        """Notes of what rt has just made that it was made from these sources, and what it states."""
        if not self.is_program:
            (self.out / "statements").write_text(statements_of(self.format.parent), encoding="utf-8")
        (self.out / "built").write_text(self.record(), encoding="utf-8")


def read_crates():
    """The crates of crates.txt by name, each after those that it uses."""
    lines = (TOP / "crates.txt").read_text(encoding="utf-8").splitlines()
    rows = [row for row in (line.partition("#")[0].strip() for line in lines) if row]
    rows = {re.match(r"\w+", row)[0]: row for row in rows}
    crates = {}

    def add(name):
        if name not in crates:
            used = rows[name].partition(":")[2].split()
            crates[name] = Crate(name, rows[name], [add(it) for it in used if it in rows])
            for it in crates[name].uses:
                it.is_used = True
        return crates[name]

    for name in rows:
        add(name)
    return crates


def with_below(crates):
    """The crates and all that they need, lowest first."""
    return list(dict.fromkeys(it for crate in crates for it in [*crate.below, crate]))


def sum_of(*parts):
    return hashlib.sha256(repr(parts).encode()).hexdigest()


def sum_of_file(file):
    return hashlib.sha256(file.read_bytes()).hexdigest() if file.is_file() else None


def text_of(file):
    return file.read_text(encoding="utf-8", errors="replace") if file.is_file() else ""


def telling(said):
    """The lines that say what is wrong, or the last ones."""
    lines = "\n".join(it[0].rstrip() for it in TELLING.finditer(said)).splitlines()
    return lines[:MOST_LINES] or said.splitlines()[-MOST_LINES:]


def statements_of(library):
    digest = hashlib.sha256()
    for path in sorted(it for it in library.rglob("*") if it.is_file()):
        name = str(path.relative_to(library))
        if not UNCITED.match(name):
            text = SUMS.sub(b"", path.read_bytes()) if name == "format" else path.read_bytes()
            digest.update(sum_of(name, text).encode())
    return digest.hexdigest()


def require_rt():
    if not shutil.which("rt"):
        sys.exit("The command `rt` is not on the path: take the version that README.md names, and add its folder to PATH.")


@functools.cache
def kit():
    return subprocess.run(["rt", "version"], check=True, stdin=subprocess.DEVNULL, stdout=subprocess.PIPE).stdout


def write_files(folder, files):
    for path, text in files.items():
        (folder / path).parent.mkdir(parents=True, exist_ok=True)
        (folder / path).write_bytes(text)


def lay(top, crates, files_of):
    """Makes a repository of these crates, each of these files."""
    for it in crates:
        write_files(top / "crates" / it.name, files_of(it))
    write_files(top, {"crates.txt": "".join(f"{it.row}\n" for it in crates).encode()})

"""Names what stands in the kit too: ten words or more of a comment or a page, sixty tokens or more of code, in a row. Imports, heads
of impls and what scripts write do not count, and what cannot be otherwise has a line `FILE | why` in tests/own_words.txt.
"""
import os
import pathlib
import re
import subprocess

from building.crates import TOP, text_of

LIST, MOST = TOP / "tests/own_words.txt", 15
# How many in a row, and of how many are the pieces that are looked up: one begins at each of so many places less these.
KINDS = {"words": (10, 6, re.compile(r"[\w']+")), "tokens": (60, 20, re.compile(r"[^\W\d][\w+-]*|\d+|[^\s\w]"))}
COMMENT = re.compile(r"\s*(?:///?|//!|--|#(?!\[))")
PASSED = re.compile(r"\s*(?:pub )?(?:ghost )?(?:use|mod|impl)\b")
WRITTEN = ("LICENSE", "docs/reference/", "bench/results/", "tests/surface.txt", "tests/clauses.txt")
FENCED = re.compile(r"^ *```.*?^ *```$", re.M | re.S)


def parts(file, text):
    """What a file says: of what kind, the words, and the line of each."""
    lines, said, is_page = list(enumerate(text.splitlines(), 1)), [[]], file.suffix in (".md", ".txt")
    for at, line in lines:
        comment = COMMENT.match(line)
        if is_page or comment:
            said[-1].append((at, line[0 if is_page else comment.end() :].lower()))
        elif said[-1]:
            said.append([])
    bare = [it for it in lines if not (COMMENT.match(it[1]) or PASSED.match(it[1]))]
    for kind, its in [*(("words", it) for it in said), ("tokens", bare * (file.suffix in (".rt", ".antt", ".rs")))]:
        found = [(word, at) for at, line in its for word in KINDS[kind][2].findall(line)]
        yield kind, [it for it, _ in found], [at for _, at in found]


def faults():
    run = lambda *words: subprocess.run(words, cwd=TOP, check=True, capture_output=True, encoding="utf-8").stdout.splitlines()
    kit, ours, index, found = pathlib.Path(run("rt", "doc")[0]).parent, [], {}, {}
    for name in (it for it in run("git", "ls-files") if not it.startswith(WRITTEN) and not it.endswith((".svg", ".lock"))):
        # Code on a page is of a source.
        for kind, words, lines in parts(TOP / name, FENCED.sub(lambda it: "\n" * it[0].count("\n"), text_of(TOP / name))):
            for at in range(len(words) - KINDS[kind][1] + 1):
                index.setdefault(hash((kind, *words[at : at + KINDS[kind][1]])), []).append((len(ours), at))
            ours.append((name, words, lines))
    for folder, folders, files in os.walk(kit):
        folders[:] = [it for it in folders if it not in ("rlibs", "logic_built", "toolchain", "out")]
        for file in (pathlib.Path(folder, it) for it in files if it.endswith((".md", ".txt", ".rt", ".antt"))):
            for kind, theirs, _ in parts(file, text_of(file)):
                least, size, _ = KINDS[kind]
                for at in range(0, len(theirs) - size + 1, least - size + 1):
                    for one, first in index.get(hash((kind, *theirs[at : at + size])), ()):
                        mine, before = ours[one][1], os.path.commonprefix([ours[one][1][:first][::-1], theirs[:at][::-1]])
                        run_of = len(before) + len(os.path.commonprefix([mine[first:], theirs[at:]]))
                        if run_of >= max(least, found.get((one, first - len(before)), (0,))[0]):
                            found[one, first - len(before)] = run_of, kind, file.relative_to(kit)
    known, named = re.findall(r"^(\S+) \| .+$", text_of(LIST), re.M), {ours[one][0] for one, _ in found}
    for (one, start), (length, kind, file) in sorted(found.items()):
        said = f"{ours[one][0]}:{ours[one][2][start]}: {length} {kind} of {file}: {' '.join(ours[one][1][start : start + length])[:100]}"
        yield from [said] * (ours[one][0] not in known)
    yield from (f"{LIST.relative_to(TOP)}: the kit has nothing of {it}" for it in sorted({*known} - named))
    yield from [f"{LIST.relative_to(TOP)}: {len(known)} lines, and {MOST} at most"] * (len(known) > MOST)

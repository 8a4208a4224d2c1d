"""Tables in Markdown of what is measured: a number here, and its ratio to each peer's.

Documents quote them. `<!-- programs -->` stands before the first table of bench/results/programs.md, `<!-- means -->` before one
of the least and the most means of each vector over each peer. A number stands before a comment that names its cell: a row, its
capacity and the peer, as 3.7<!-- rust tiny_long_push 64 tinyvec -->, or a line of means and a capacity, as 0.6<!-- rust ArrayVec
over tinyvec 4 -->, where `least` and `most` are those over all capacities.
"""
import functools
import re
import statistics

from building.crates import TOP

RESULTS = TOP / "bench/results"
DOCUMENTS = [TOP / "README.md", TOP / "docs/PERFORMANCE.md"]

# A row belongs to the group with the longest prefix that its name has.
GROUPS = {
    "`ArrayVec`": "",
    "`TinyVec` in its array": "tiny_",
    "`TinyVec` on the heap": "tiny_heap_",
    "`TinyVec` out of four slots": "tiny_long_",
    "`ArrayVec` of items with a drop": "nodes_",
    "`TinyVec` of items with a drop": "tiny_nodes_",
    "`SliceVec`": "slice_",
    "`InlineText`": "text_",
    "`InlineText` on the heap": "heap_text_",
    "Borsh form": "borsh_",
}

CAPACITIES = [4, 16, 64, 16384]

# So much of a peer's is slow.
LIMIT = 1.2

# A ratio to a peer that lacks the row.
NOTHING = "–"

OVER = "instructions a round, and that over "
TABLE = re.compile(rf"^\*\*.*\*\*: {OVER}(.*)\n\n(.*)\n.*\n((?:\|.*\n)+)", re.M)
MEANS = re.compile(r"^\| Instructions of (.*)\n.*\n((?:\|.*\n)+)", re.M)

# What documents quote.
PLACE = re.compile(r"^<!-- (programs|rust|means) -->\n(?:\|.*\n)*", re.M)
# Groups of few users, and the columns of `means`: a crate, with its other types and std's.
FEW = ("`TinyVec` out of four slots", "Borsh form")
PEERS = {"`tinyvec`": ["tinyvec"], "`arrayvec`": ["arrayvec", "ArrayString"], "`smallvec`": ["smallvec"], "`Vec`, `String`": ["Vec", "String"]}
QUOTED = re.compile(r"(?:\d+(?:\.(\d+))?|\?)<!-- rust (.+?) -->")


def read(file):
    return file.read_text(encoding="utf-8")


def group_of(row):
    return max((it for it, prefix in GROUPS.items() if row.startswith(prefix)), key=lambda it: len(GROUPS[it]))


def name_of(peer, group):
    is_text = group.startswith("`InlineText`")
    return {"vec": "String" if is_text else "Vec", "arrayvec": "ArrayString" if is_text else "arrayvec"}.get(peer, peer)


def groups(measured):
    """Each group of rows that a peer has, with its rows, and these peers."""
    for group in GROUPS:
        keys = [key for key in measured["here"] if group_of(key[0]) == group]
        if peers := [it for it in measured if it != "here" and any(key in measured[it] for key in keys)]:
            yield group, keys, peers


def print_table(first, columns, rows):
    for name, cells in [(first, columns), ("---", ["---"] * len(columns)), *rows]:
        print(f"| {name} | {' | '.join(map(str, cells))} |".replace(" --- ", "---"))
    print(flush=True)


def print_programs(measured, peers):
    """A line for each program that the peers have, by unit: what it takes, and how much of theirs that is."""
    names = next(iter(measured.values()))[peers[0]]
    cells = ((f"`{name}`", [cell(it, peers, name) for it in measured.values()]) for name in names)
    print_table(f"Program, over {', '.join(name_of(it, '') for it in peers)}", [*measured], cells)


def print_groups(counted):
    for group, keys, peers in groups(counted):
        print(f"**{group}**: {OVER}{', '.join(name_of(it, group) for it in peers)}\n")
        capacities = sorted({capacity for _, capacity in keys})
        rows = {row: [cell(counted, peers, (row, it)) for it in capacities] for row, _ in keys}
        print_table("Row", capacities, rows.items())


def print_means(measured):
    """A line for each vector and peer: the geometric mean at each capacity, and the cells above the limit."""
    rows = []
    for group, keys, peer in ((group, keys, peer) for group, keys, peers in groups(measured) for peer in peers):
        ratios = {key: ratio(measured, peer, key) for key in keys if key in measured[peer]}
        known = ([it for key, it in ratios.items() if key[1] == capacity] for capacity in CAPACITIES)
        means = [text_of(statistics.geometric_mean(it) if it else None) for it in known]
        above = sum(it > LIMIT for it in ratios.values())
        rows.append((f"{group} over `{name_of(peer, group)}`", [*means, f"{above} of {len(ratios)}"]))
    print_table("Instructions of", [*CAPACITIES, f"cells above {LIMIT}"], rows)


def cell(measured, peers, key):
    here = measured["here"].get(key)
    if here is None:
        return ""
    return f"{here:.{1 if here < 1000 else 0}f}: " + " ".join(text_of(ratio(measured, it, key)) for it in peers)


def ratio(measured, peer, key):
    theirs = measured[peer].get(key)
    return measured["here"][key] / theirs if theirs else None


def text_of(ratio):
    return NOTHING if ratio is None else f"{ratio:.2f}"


def rows_of(text):
    """Each cell of the tables of instructions that is not empty: its row, its capacity, the peers of its table, and itself."""
    for peers, head, lines in TABLE.findall(text):
        for row, *cells in map(cells_of, lines.splitlines()):
            known = ((capacity, it) for capacity, it in zip(cells_of(head)[1:], cells) if it and capacity.isdigit())
            yield from ((row, int(capacity), peers.split(", "), it) for capacity, it in known)


def cells_of(line):
    return [it.strip() for it in line[1:-1].split("|")]


def counts(text):
    """The instructions of each row, by name and capacity."""
    return {(row, capacity): float(it.partition(":")[0]) for row, capacity, _, it in rows_of(text)}


@functools.cache
def quotable():
    """The ratios that documents quote, by the words of a comment."""
    text, found = read(RESULTS / "rust.md"), {}
    for head, lines in MEANS.findall(text):
        for label, *means, _ in map(cells_of, lines.replace("`", "").splitlines()):
            known = {capacity: it for capacity, it in zip(cells_of(head), means) if it != NOTHING}
            known |= {"least": min(known.values()), "most": max(known.values())}
            found |= {f"{label} {capacity}": float(it) for capacity, it in known.items()}
    for row, capacity, peers, ratios in rows_of(text):
        known = {f"{row} {capacity} {peer}": it for peer, it in zip(peers, ratios.split()[1:]) if it != NOTHING}
        found |= {name: float(it) for name, it in known.items()}
    return found


def means():
    """A table of a line for each vector: between which means over its rows it lies, for each peer."""
    rows = []
    for group in (it for it in GROUPS if it not in FEW):
        label = group.replace("`", "")
        bounds = lambda it, end: quotable().get(f"{label} over {it} {end}")
        cells = [next((it for it in peers if bounds(it, "least")), None) for peers in PEERS.values()]
        ends = [[f"{bounds(it, end):.2f}" for end in ("least", "most")] if it else [] for it in cells]
        rows += [f"| {group} | {' | '.join(' to '.join(dict.fromkeys(it)) for it in ends)} |\n"] * any(ends)
    return f"| | {' | '.join(PEERS)} |\n|{'---|' * (len(PEERS) + 1)}\n{''.join(rows)}"


def filled(text):
    """The text of a document with what it quotes of the results as they are. What they do not have is a question mark."""

    def number(quote):
        known, digits = quotable().get(quote[2]), 2 if quote[0][0] == "?" else len(quote[1] or "")
        return f"{'?' if known is None else f'{known:.{digits}f}'}<!-- rust {quote[2]} -->"

    first = lambda it: means() if it == "means" else re.search(r"(?:^\|.*\n)+", read(RESULTS / f"{it}.md"), re.M)[0]
    return QUOTED.sub(number, PLACE.sub(lambda it: f"<!-- {it[1]} -->\n{first(it[1])}", text))


def write():
    for file in DOCUMENTS:
        file.write_text(filled(read(file)), encoding="utf-8")


def faults():
    for file in DOCUMENTS:
        wanted = filled(read(file))
        if wanted != read(file) or "?<!-- rust" in wanted:
            yield f"{file.relative_to(TOP)}: what it quotes of bench/results is not there, or has changed: run tests/docs --write"


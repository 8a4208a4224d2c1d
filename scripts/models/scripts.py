"""Scripts of `tv` as their description has them, with lines of each kind, one in ten spoiled.

Memory is granted, but for sizes that no allocator grants. If one request is refused, one line may say so: `memory`, and
nothing is changed, or of a splice the items that found no room. Each line after it is answered by what it left, and each
block is freed.
"""
import copy
import math
import re

from models.vectors import Text, Vector, listed

SLOTS = 4
LONGEST_LINE = 128
# Room that is asked for is for fewer items, or for as many, which no allocator grants.
REFUSED = 2**62

# The vectors that have each, or the text, and what its words are: an index, a number, ends, or numbers up to the end.
COMMANDS = {
    "push": ("AST", "I32"), "pop": ("AST", ""), "insert": ("AST", "INDEX I32"), "remove": ("AST", "INDEX"),
    "swap": ("AST", "INDEX"), "truncate": ("AST", "INDEX"), "drain": ("AST", "INDEX INDEX"),
    "splice": ("AT", "INDEX INDEX ENDS I32*"), "setlen": ("AS", "INDEX"), "reserve": ("T", "INDEX"), "heap": ("T", ""),
    "shrink": ("T", ""), "cut": ("X", "INDEX"), "add": ("X", "TEXT"),
}
FORMS = {"INDEX": r"0|[1-9][0-9]*", "I32": r"0|-?[1-9][0-9]*", "ENDS": r"-|[fb]+"}
RANGES = {"INDEX": range(2**64), "I32": range(-(2**31), 2**31)}


def compared(draw, count, lines, run, is_refused):
    """Runs so many scripts of up to so many lines, also with each request refused. What is said, and how many are wrong."""
    wrong = runs = told = 0
    for _ in range(count):
        script = drawn_script(draw, lines)
        granted = run(script, 0)
        for number in range(1 + granted.requests * is_refused):
            fault, is_told = tried(script, run(script, number) if number else granted, number)
            wrong, runs, told = wrong + bool(fault), runs + 1, told + is_told
            print(f"request {number} refused: {fault}\n" if fault else "", end="")
    refused = f", {runs - count} runs with a request refused, {told} of them told" if is_refused else ""
    return f"{count} scripts of up to {lines} lines{refused}", wrong


def tried(script, ran, number):
    """What is wrong with a run in which the request of that number was refused, and whether an answer told so."""
    lines, given = split_lines(script), split_lines(ran.out)
    model, is_told = Model(), False
    for line, answer in zip(lines, given):
        before = copy.deepcopy(model) if number and not is_told else None
        wanted = model.answer(line)
        if answer != wanted:
            left = [it for it, refused in before.refused(line) if refused == answer] if before else []
            if not left:
                return f"{line} is answered {answer}, and not {wanted}", is_told
            model, is_told = left[0], True
    if ran.status != 0 or len(given) != len(lines) or ran.error or ran.blocks:
        return f"status {ran.status}, {len(given)} of {len(lines)} lines, {ran.error}, {ran.blocks} blocks kept", is_told
    return None, is_told


def split_lines(text):
    lines = text.split(b"\n")
    return lines if lines[-1] else lines[:-1]


class Model:
    """The vectors of a script, and its text."""

    def __init__(self):
        self.held = {name: Vector(kind, SLOTS) for name, kind in zip("AST", ("ArrayVec", "SliceVec", "TinyVec"))}
        self.held["X"] = Text(SLOTS)

    def answer(self, line):
        name, _, text = line.decode("latin-1").partition(" ")
        given = read(name, text) if len(line) <= LONGEST_LINE else None
        if given is None:
            return b"bad"
        return f"{CALLS[text.split(' ')[0]](self.held[name], *given)} {self.state(name)}".encode()

    def state(self, name):
        v = self.held[name]
        place = listed(v.spare) if name in "AS" else "inline" if v.is_inline else "heap"
        return f"{f'[{bytes(v.list).decode()}]' if name == 'X' else listed(v.list)} {place}"

    def refused(self, line):
        """What may be answered where memory is refused: `memory`, and nothing is changed, or what a splice has no room for. With
        each answer how it leaves the vectors."""
        name, _, text = line.decode("latin-1").partition(" ")
        if name in self.held and text.startswith(("drain", "splice")):
            yield self, f"memory {self.state(name)}".encode()
        for granted in range(6 if name in self.held else 0):
            left = copy.deepcopy(self)
            left.held[name].asked, left.held[name].granted = 0, granted
            answer = left.answer(line)
            left.held[name].granted = math.inf
            yield left, answer


def read(name, text):
    """What a call is given, or None if the line with this name, which goes on so, is no command."""
    word, *words = text.split(" ")
    names, form = COMMANDS.get(word, ("", ""))
    kinds = form.replace("I32*", "I32 " * (len(words) - 3)).split()
    if name not in list(names):
        return None
    if kinds == ["TEXT"]:
        try:
            return [text[4:].encode("latin-1").decode()] if text[4:] else None
        except UnicodeDecodeError:
            return None
    if len(kinds) != len(words) or not all(re.fullmatch(FORMS[kind], it) for kind, it in zip(kinds, words)):
        return None
    given = [int(it) if kind in RANGES else it for kind, it in zip(kinds, words)]
    return given if all(it in RANGES.get(kind, (it,)) for kind, it in zip(kinds, given)) else None


def insert(v, i, x):
    if i > len(v.list):
        return "range"
    full = "memory" if v.kind == "TinyVec" else "full"
    return full if v.put(i, x) is None else "ok"


def remove(v, i):
    return f"some {v.cut_out(i, i + 1)[0]}" if i < len(v.list) else "range"


def swap_remove(v, i):
    if i >= len(v.list):
        return "range"
    x, last = v.list[i], v.list[-1]
    v.becomes([*v.list[:i], last, *v.list[i + 1 :]][:-1])
    return f"some {x}"


def drain(v, start, end):
    return f"items {listed(v.cut_out(start, end))}" if start <= end <= len(v.list) else "range"


def splice(v, start, end, letters, *new):
    if not start <= end <= len(v.list):
        return "range"
    front, left, back, new, taken = v.list[:start], v.list[start:end], v.list[end:], list(new), []
    # From either end, while an item of the range is left, one of the replacement goes into its place.
    for it in letters.strip("-")[: len(left)]:
        taken.append(left.pop(0 if it == "f" else -1))
        placed = [new.pop(0 if it == "f" else -1)] if new else []
        front, back = (front + placed, back) if it == "f" else (front, placed + back)
    gap = len(v.list) - len(front) - len(back)
    v.becomes(front + new[:gap])
    rest = v.pushes(new[gap:], back)
    return f"items {listed(taken)}{f' rest {listed(rest)}' if rest else ''}"


def reserve(v, more):
    return "memory" if more >= REFUSED or not v.makes_room(len(v.list) + more) else "ok"


CALLS = {
    "push": lambda v, x: insert(v, len(v.list), x),
    "pop": lambda v: remove(v, len(v.list) - 1) if v.list else "none",
    "insert": insert,
    "remove": remove,
    "swap": swap_remove,
    "truncate": lambda v, n: v.becomes(v.list[:n]) or "ok",
    "drain": drain,
    "splice": splice,
    "setlen": lambda v, n: "range" if v.with_len(n) is None else "ok",
    "reserve": reserve,
    "heap": lambda v: "memory" if v.move_to_the_heap() is None else "ok",
    "shrink": lambda v: v.shrink() or "ok",
    "cut": lambda t, i: t.becomes(t.list[:i]) or "ok" if i in t.boundaries() else "range",
    "add": lambda t, text: "memory" if t.adds(text) is None else "ok",
}


def drawn_script(draw, count):
    lines = [drawn_line(draw) for _ in range(draw.randrange(count + 1))]
    return b"\n".join(lines) + draw.choice([b"", b"\n", b"\n\n"])


def drawn_line(draw):
    name = draw.choice("AASTTX")
    line = f"{name} {drawn_call(draw, name)}".encode()
    # A part of a great number may be one that an allocator grants.
    is_great = line.startswith(b"T reserve") and len(line) > 20
    return spoiled(draw, line) if draw.random() < 0.1 and not is_great else line


def drawn_call(draw, name):
    if name == "X" and draw.random() < 0.5:
        return f"cut {draw.choice([0, 1, 2, 3, 4, 5, 7, draw.randrange(150), 2**64 - 1, 2**64])}"
    if name == "X":
        characters = "a b!é\u0080\u07ff\u0800\ud7ff\ue000\uffff\U00010000\U0010ffff\r\0"
        return "add " + "".join(draw.choices(characters, k=draw.choice([0, 1, 1, 2, 3, 4, 30])))
    word = draw.choice([it for it, (names, _) in COMMANDS.items() if name in names] + ["push", "push", "insert"])
    start = draw.choice([0, 0, 1, 2])
    if word == "splice":
        letters = "".join(draw.choices("fb", k=draw.randrange(7))) or "-"
        numbers = "".join(f" {drawn_number(draw)}" for _ in range(draw.choice([0, 1, 2, 3, 5, 9])))
        return f"splice {start} {start + drawn_index(draw)} {letters}{numbers}"
    if word == "drain":
        return f"drain {start} {start + draw.randrange(4)}"
    if word == "reserve":
        return f"reserve {draw.choice([0, 1, 2, 3, 5, 50, REFUSED, 2**64 - 1, 2**64])}"
    operands = {"INDEX": str(drawn_index(draw)), "I32": str(drawn_number(draw))}
    return " ".join([word, *(operands[it] for it in COMMANDS[word][1].split())])


def drawn_index(draw):
    return draw.choice([0, 0, 1, 1, 2, 3, 4, 5, 9, 2**64 - 1, 2**64])


def drawn_number(draw):
    """Mostly of a few digits, also one with all nines or zeros behind the first, or out of range."""
    most = 10 ** draw.randrange(1, 10)
    near = [0, 7, most, -most, most - 1, 1 - most, draw.randrange(-most, most)]
    return draw.choice([*near, 2**31 - 1, -(2**31), 2**31, -(2**31) - 1])


def spoiled(draw, line):
    at = draw.randrange(len(line) + 1)
    return draw.choice([
        line[:at],
        line[:at] + line[at + 1 :],
        line[:at] + draw.choice([b" ", b"0", b"-", b"+", b"\r", b"\x80", b"\xff"]) + line[at:],
        b"X add " + draw.choice([b"\xc3", b"\xed\xa0\x80", b"\xc0\xaf", b"\xf4\x90\x80\x80", b"\xe0\x80\xaf"]),
        line[:6] + b"1" * (draw.choice([LONGEST_LINE, LONGEST_LINE + 1]) - len(line[:6])),
    ])

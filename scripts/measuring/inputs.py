"""The lines that whole programs read: the same in each run, and a few of them refused."""
import random
import string

TYPES = ["A", "NS", "CNAME", "SOA", "PTR", "MX", "TXT", "AAAA"]
WORDS = ["the", "The", "the", "cat", "CAT", "sat", "on", "a", "mat", "again", "AGAIN", "normalisation"]


def write(path, name, count):
    """Writes so many lines for the program."""
    chance = random.Random(1)
    with open(path, "w", encoding="ascii") as file:
        file.writelines(f"{MAKERS[name](chance)}\n" for _ in range(count))


def command(chance):
    """A call of a vector: of each kind but splices."""
    number, index = chance.randint(-1000000, 1000000), chance.randint(0, 4)
    end = chance.randint(index, 4)
    name = chance.choice("AST")
    calls = [f"push {number}"] * 3 + [f"insert {index} {number}"] * 2
    calls += ["pop", f"remove {index}", f"swap {index}", f"truncate {index}", f"drain {index} {end}"]
    calls += ["heap", "shrink", f"reserve {index}"] if name == "T" else [f"setlen {index}"]
    return chance.choice([*(f"{name} {it}" for it in calls), "nonsense"])


def text(chance):
    """Words, of which some repeat the one before. One line in seven has more than 80 bytes."""
    count = chance.choice([0, 1, 3, 8, 8, 12, 30])
    return "".join(chance.choice(["", " ", " ", " \t"]) + chance.choice(WORDS) + " " for _ in range(count))


def question(chance):
    """A DNS query's number, name and type. A number in eleven is too large, a type in nine unknown."""
    labels = ["".join(chance.choices(string.ascii_lowercase, k=chance.randint(1, 12))) for _ in range(chance.randint(1, 5))]
    return f"{chance.randrange(72000)} {'.'.join(labels)} {chance.choice([*TYPES, 'ANY'])}"


def nodes(chance):
    """Nested lists of numbers. One line in four is a sum, a few have a bracket too many or too few, or a byte of no meaning."""
    line = " ".join(node(chance, 3) for _ in range(chance.randint(1, 8)))
    return line + chance.choice(["", "", "", "", "", "", "", "", "", "", "", "", ")", "(", "x", *["+"] * 5])


def node(chance, depth):
    if depth == 0 or chance.random() < 0.6:
        return str(chance.randrange(10 ** chance.randint(1, 9)))
    return f"({' '.join(node(chance, depth - 1) for _ in range(chance.randint(0, 5)))})"


def record(chance):
    """A command of a stream of records, which is often cut so that it stays short. Some are refused."""
    samples = ",".join(str(chance.randrange(66000)) for _ in range(chance.randint(1, 8))) if chance.random() < 0.9 else "-"
    note = " ".join(chance.choice(WORDS) for _ in range(chance.choice([0, 1, 2, 3, 8])))
    add = f"add {chance.randrange(1 << 32)} {samples} {note}"
    return chance.choice([*[add] * 6, "read", "read", "copy", "hex 520700", f"cut {chance.randint(0, 60)}", "cut 0", "nonsense"])


def number(chance):
    """How many items a list has, or a third of the edges of a graph."""
    return chance.randint(1, 1000)


# By the program that reads them.
MAKERS = {
    "tv": command, "example_tidy": text, "example_dns_query": question, "example_nodes": nodes, "example_records": record,
    "graph": number, "editor": number,
}

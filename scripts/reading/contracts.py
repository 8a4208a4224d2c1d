"""Functions with their contracts, read off sources and off what documents quote, and compared; and texts with brackets."""
import re

COMMENT = re.compile(r"^ *//.*\n", re.M)
LEFT_OUT = re.compile(r"^ *// \.\.\n", re.M)
FUNCTION = re.compile(r"^ *(?:pub(?:\(crate\))? )?fn \w", re.M)
SIGNATURE_END = re.compile(r"\s(?:requires|ensures)\b|\s\{|;$|\Z", re.M)
CLAUSE = re.compile(r"\s*((?:requires|ensures\*?)(?: \w+)? \{)")


def without_comments(text):
    return COMMENT.sub("", text)


def functions_in(text):
    """The functions that a text declares, each as `function` gives it."""
    starts = [it.start() for it in FUNCTION.finditer(text)]
    return [function(text[start:end]) for start, end in zip(starts, [*starts[1:], len(text)])]


def function(text):
    """A function's signature, its clauses by what of them counts, what follows these, and whether some are left out."""
    is_short = bool(LEFT_OUT.search(text))
    text = LEFT_OUT.sub("", text)
    at = SIGNATURE_END.search(text).start()
    signature, clauses = text[:at], {}
    while found := CLAUSE.match(text, at):
        at = end_of(text, found.end() - 1)
        clauses[squeezed(text[found.start(1) : at])] = " ".join(text[found.start(1) : at].split())
    return signature, clauses, text[at:].strip(), is_short


def depths(text, at=0, opens="([{⟦", closes=")]}⟧"):
    """Each place of a text, with the number of brackets that are open after its letter. The `>` of an arrow closes none."""
    depth = 0
    for at in range(at, len(text)):
        depth += (text[at] in opens) - (text[at] in closes and text[at - 1 : at + 1] != "->")
        yield at, depth


def end_of(text, at=0, *brackets):
    """Where the bracket ends that is there in a text."""
    return next((end + 1 for end, depth in depths(text, at, *brackets) if depth == 0), len(text))


def parts_of(text, separator, *brackets):
    """A text split at each separator that is in no brackets."""
    parts, start = [], 0
    for at, depth in depths(text, 0, *brackets):
        if depth == 0 and at >= start and text.startswith(separator, at):
            parts.append(text[start:at].strip())
            start = at + len(separator)
    return [*parts, text[start:].strip()]


def parts_of_types(text, separator):
    """The same of a text with types, where angles are brackets."""
    return parts_of(text, separator, "<([", ">)]")


def squeezed(text):
    return re.sub(r"\s", "", text).replace(",)", ")").rstrip(",")


def differences(quote, functions):
    """What a quoted contract has otherwise than the function of its signature that is most like it."""
    signature, clauses, rest, is_short = quote
    name = " ".join(signature.split())
    if rest:
        return [f"{name}: this is no clause: {rest.splitlines()[0]}"]
    found = []
    for own in (it[1] for it in functions if squeezed(it[0]) == squeezed(signature)):
        lacking = [it for it in own if it not in clauses]
        faults = [f"not in the source: {clauses[it]}" for it in clauses if it not in own]
        faults += [f"left out: {own[it]}" for it in lacking if it.startswith("requires") or not is_short]
        found.append(faults + ["`// ..` stands for nothing"] * (is_short and not lacking))
    return [f"{name}: {it}" for it in min(found, key=len, default=["no function of the crate has this signature"])]

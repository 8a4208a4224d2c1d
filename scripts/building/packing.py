"""What was proved of some crates as one file, which another repository of the same sources takes in place of proving them.

It is a tar compressed by zstd: HEAD first, a JSON of the kit and of each crate's line and sources, then the files of each
library and rt's stamp. Files are sorted by their path inside a library, so that what one repeats of another is within zstd's
window.
"""
import contextlib
import hashlib
import io
import json
import pathlib
import subprocess
import tarfile
import tempfile

from building import crates

HEAD = "PACK.json"
ZSTD = ("zstd", "-q", "--long=27")


class Unfit(Exception):
    """A pack that is none of these crates, with the reason."""


def head_of(chosen):
    """By what a pack is known to fit: rt's stamps depend on the kit, on a crate's line and on its sources."""
    page = subprocess.run(["rt", "doc"], check=True, capture_output=True, encoding="utf-8").stdout.strip()
    what = crates.sum_of_file(pathlib.Path(page).parent / "WHAT")
    sums = {it.name: {"row": it.row, "sources": crates.sum_of(sorted(it.sources.items()))} for it in chosen}
    return {"kit": crates.kit().decode().strip(), "what": what, "crates": sums}


def pack(file, chosen):
    """Writes the libraries of the crates into the file, and returns its sum."""
    with open(file, "wb") as out, zstd([*ZSTD, "-9", "--threads=0"], stdin=subprocess.PIPE, stdout=out) as pipe:
        with tarfile.open(fileobj=pipe.stdin, mode="w|", format=tarfile.PAX_FORMAT) as tar:
            add(tar, HEAD, json.dumps(head_of(chosen), indent=1).encode())
            found = [(path.relative_to(it.format.parent), it.name, path) for it in chosen for path in it.format.parent.rglob("*")]
            for inside, name, path in sorted(it for it in found if it[2].is_file()):
                add(tar, f"{name}/out/rlib/{name}.rlib/{inside}", path.read_bytes())
            for it in chosen:
                add(tar, f"{it.name}/out/{it.mark}", (it.out / it.mark).read_bytes())
    return crates.sum_of_file(pathlib.Path(file))


def add(tar, path, text):
    entry = tarfile.TarInfo(path)
    entry.size = len(text)
    tar.addfile(entry, io.BytesIO(text))


def check(file, wanted, sum_wanted=None):
    """Whether the file has what was proved of these very crates, by this kit."""
    if not pathlib.Path(file).is_file():
        raise Unfit(f"there is no file {file}")
    with open(file, "rb") as pack:
        found = hashlib.file_digest(pack, "sha256").hexdigest()
    if sum_wanted not in (None, found):
        raise Unfit(f"{file} has the sum {found}, and not the one that was given")
    if subprocess.run([*ZSTD, "-t", str(file)], stderr=subprocess.DEVNULL).returncode:
        raise Unfit(f"{file} is no whole pack")
    with opened(file) as tar:
        head, here = json.load(tar.extractfile(tar.next())), head_of(wanted)
    if head["what"] != here["what"]:
        raise Unfit(f"{file} is of {head['kit']}, and not of the kit here")
    others = [name for name, it in here["crates"].items() if head["crates"].get(name) != it]
    if others:
        raise Unfit(f"{file} has not what was proved of these sources and lines of {', '.join(others)}")


def fit(folder, chosen):
    """Whether each library there that names those that it was proved over is beside these."""
    formats = {it.name: folder / it.name / it.format.relative_to(it.folder) for it in chosen}
    over = (it for path in formats.values() for it in crates.OVER.findall(crates.text_of(path)))
    return all(crates.sum_of_file(formats[name]) == total for name, total in over if name in formats)


@contextlib.contextmanager
def laid(file, beside):
    """A folder with what the pack holds, which is made in another one and goes at the end. What stands there is moved only once all
    is written."""
    with tempfile.TemporaryDirectory(dir=beside, prefix=".pack-") as folder:
        with opened(file) as tar:
            tar.extractall(folder, filter="data")
        yield pathlib.Path(folder)


@contextlib.contextmanager
def opened(file):
    with zstd([*ZSTD, "-dc", str(file)], stdout=subprocess.PIPE, stderr=subprocess.DEVNULL) as pipe:
        try:
            with tarfile.open(fileobj=pipe.stdout, mode="r|") as tar:
                yield tar
        except (tarfile.TarError, ValueError, EOFError, AttributeError):
            raise Unfit(f"{file} is no pack") from None
        # What is left is not read.
        pipe.kill()


@contextlib.contextmanager
def zstd(words, **how):
    with subprocess.Popen(words, **how) as pipe:
        yield pipe
        if pipe.stdin:
            pipe.stdin.close()
            if pipe.wait():
                raise Unfit(f"{words[0]} failed")

"""Has `rt try` compile programs with checks, before any proof, and keeps them as long as the sources are the same.

`rt try` itself keeps none. A program that is kept answers at once: `./tv` in place of 20 seconds, the random scripts in place of
a minute."""
import contextlib
import os
import pathlib
import shutil
import tempfile
import time

from building import crates, running

# It is linked to the program, and copies it where the program is run with no environment, as `rt try` does. It needs no header
# of the C library, so the compiler of the kit is enough.
KEEPER = """extern char **environ;
int open(const char *, int), creat(const char *, unsigned);
long read(int, void *, unsigned long), write(int, const void *, unsigned long);
void _exit(int);

__attribute__((constructor)) static void keep(int count, char **words)
{
    static char piece[65536];
    if (*environ)
        return;
    int from = open(*words, 0), to = creat(KEPT, 0755);
    for (long size; (size = read(from, piece, sizeof piece)) > 0;)
        write(to, piece, size);
    _exit(0);
}
"""


class NotCompiled(SystemExit):
    """Ends the command, with what `rt try` says, where nothing else is done about it."""


def program_of(crate, *words):
    """The program that `rt try` with these words compiles from the sources."""
    if not is_kept(crate, *words):
        with laid(crate) as folder:
            program = folder / "program"
            crates.write_files(folder, {"c/keeper.c": KEEPER.encode()})
            said = tried(folder, ["--steps", "1", *words], CFLAGS=f"""'-DKEPT="{program}"'""")
            if not program.exists():
                raise NotCompiled(f"{said[-5000:]}{crate.name}: `rt try` does not compile it")
            kept(crate, *words).parent.mkdir(exist_ok=True)
            program.replace(kept(crate, *words))
        kept(crate, *words).with_suffix(".sum").write_text(crate.sum, encoding="utf-8")
    return kept(crate, *words)


def told(crate, words=(), given=b""):
    """What `rt try` says of a program or its tests: only there a check that stops it names its place."""
    with laid(crate) as folder:
        return tried(folder, words, given)


def tried(folder, words, given=b"", **environment):
    clang = pathlib.Path(shutil.which("rt")).resolve().parent.parent / "toolchain/bin/clang"
    env = {**os.environ, "RT_ALLOW_C": "1", "CC": f"'{clang}'", **environment}
    _, wrote, said = running.ask(["rt", "try", *words], given, limit=None, cwd=folder, env=env)
    return (wrote + said).decode(errors="replace")


@contextlib.contextmanager
def laid(crate):
    """The folder of the crate in a repository of it and those below it."""
    crate.out.mkdir(exist_ok=True)
    room = pathlib.Path(tempfile.mkdtemp(prefix=f"{crate.name}-", dir=crate.out))
    try:
        compiled = lambda it: {path: text for path, text in it.files.items() if path.startswith(("src/", "c/"))}
        crates.lay(room, crates.with_below([crate]), compiled)
        yield room / "crates" / crate.name
    finally:
        # What rt has only just ended may still write here.
        for _ in range(100):
            shutil.rmtree(room, ignore_errors=True)
            if not room.exists():
                break
            time.sleep(0.05)


def kept(crate, *words):
    """The file of a program that is kept."""
    return crate.out / "tried" / (crate.tests.name if "--test" in words else crate.name)


def is_kept(crate, *words):
    program = kept(crate, *words)
    return crates.text_of(program.with_suffix(".sum")) == crate.sum and program.exists()

"""Runs a program with one of its requests for memory refused, and counts the requests and the blocks that it gives back, by
a small library that `cc` makes and that is loaded before the C library."""
import os
import pathlib
import re
import subprocess
import time

SOURCE = pathlib.Path(__file__).resolve().parent / "refusing.c"

# What the library says at the program's end.
TOLD = re.compile(rb"^requests (\d+), blocks (-?\d+)\n", re.M)

# Seconds that a run may take.
LIMIT = 120


class Refusing:
    def __init__(self, folder):
        """The library goes into the folder."""
        self.library = f"{folder}/refusing.so"
        made = ["cc", "-O2", "-shared", "-fPIC", "-o", self.library, SOURCE]
        subprocess.run(made, check=True)

    def run(self, words, number, given=b""):
        """Refuses the request of that number, none where it is 0."""
        ran = run(words, given, LD_PRELOAD=self.library, REFUSED=str(number))
        if ran.status is not None and ran.status >= 0 and not ran.is_counted:
            ran.status, ran.error = None, ran.error + b"the library that refuses memory was not loaded\n"
        return ran


class Ran:
    """How a program ended, what it wrote, how many requests it made, and how many blocks it kept to its end."""

    def __init__(self, status, out, error):
        told = TOLD.search(error)
        self.status, self.out, self.error, self.is_counted = status, out, TOLD.sub(b"", error), bool(told)
        self.requests, self.blocks = (int(told[1]), int(told[2])) if told else (0, 0)


def peak(command, pieces):
    """The most memory of a run in KiB, seen from outside once the program has read its input and waits for more. It is 0 where
    the run fails."""
    with subprocess.Popen(command, stdin=subprocess.PIPE, stdout=subprocess.DEVNULL) as ran:
        for it in pieces:
            ran.stdin.write(it)
        ran.stdin.flush()
        time.sleep(0.1)
        status = pathlib.Path(f"/proc/{ran.pid}/status").read_text(encoding="utf-8")
        ran.stdin.close()
    return int(re.search(r"^VmHWM:\s+(\d+) kB$", status, re.M)[1]) if ran.returncode == 0 else 0


def run(words, given=b"", **environment):
    """Runs a program with so much more in its environment."""
    try:
        ran = subprocess.run(words, input=given, env={**os.environ, **environment}, capture_output=True, timeout=LIMIT)
    except subprocess.TimeoutExpired:
        return Ran(None, b"", b"it had not ended after %d seconds\n" % LIMIT)
    return Ran(ran.returncode, ran.stdout, ran.stderr)

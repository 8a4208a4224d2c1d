"""Runs commands side by side, all of which end where this process does, and has `rt` prove crates in copies.

`rt` keeps every other `rt` out of a crate's folder and of those below, so that two crates over one library would be proved
in turn. Here each is proved in a copy inside its out/, a repository of the crate and those below it, while this process
keeps others out of the folders themselves. An edit made meanwhile is seen by the next run, and a run that is cut off leaves
nothing half-made.
"""
import argparse
import concurrent.futures
import contextlib
import fcntl
import os
import shutil
import signal
import subprocess
import sys
import threading
import time

from building import crates

# Seconds that a program or a test may run, also on a busy machine.
LIMIT = 300

# What was started, and whether this process is told to end, or a step failed.
GUARD, STARTED, STOPPED = threading.RLock(), [], threading.Event()


class Words(argparse.ArgumentParser):
    """What a command is given: `--help` prints the head of its script, and a wrong word is told in one line."""

    def __init__(self, head):
        super().__init__(add_help=False, allow_abbrev=False)
        self.head = head.strip()

    def error(self, message):
        say(f"{self.prog}: {message}")
        sys.exit(2)

    def read(self):
        if {"-h", "--help"} & {*sys.argv[1:]}:
            print(self.head)
            sys.exit()
        return self.parse_args()

    def names(self, what, known):
        """The words that are no options, each of which is one of those known."""
        self.add_argument("names", nargs="*")
        asked = self.read()
        for it in asked.names:
            if it not in known:
                self.error(f"there is no {what} {it}, but {', '.join(known)}")
        return asked


class NotProved(Exception):
    pass


class Stopped(Exception):
    """Nothing more is to be done."""


def start(words, cwd=crates.TOP, **how):
    """Starts a command that ends where this process is told to end."""
    with GUARD:
        if STOPPED.is_set():
            raise Stopped
        STARTED.append(subprocess.Popen(words, cwd=cwd, **how))
        return STARTED[-1]


def stop():
    """Ends all that was started. rt sees to it that what it started ends with it."""
    with GUARD:
        STOPPED.set()
        for it in STARTED:
            it.terminate()


def ask(words, given=b"", limit=LIMIT, cwd=crates.TOP, **how):
    """The status of a command, None if it has not ended in so many seconds, what it wrote, and what it said of itself."""
    pipes = {"stdin": subprocess.PIPE, "stdout": subprocess.PIPE, "stderr": subprocess.PIPE, **how}
    # Ctrl-C is for this process alone, which ends the command once, so that rt removes its files.
    with start(words, cwd, start_new_session=True, **pipes) as ran:
        try:
            wrote, said = ran.communicate(given, limit)
        except subprocess.TimeoutExpired:
            # Also what the command has started.
            os.killpg(ran.pid, signal.SIGKILL)
            return None, *ran.communicate()
        except BaseException:
            ran.terminate()
            raise
    if STOPPED.is_set():
        raise Stopped
    return ran.returncode, wrote, said


def run_main(main):
    """Calls main so that it can put things in order where it is told to end. A second signal would cut that off."""

    def interrupt(number, _):
        for it in signals:
            signal.signal(it, signal.SIG_IGN)
        sys.exit(128 + number)

    signals = [it for it in (signal.SIGINT, signal.SIGTERM, signal.SIGHUP) if signal.getsignal(it) != signal.SIG_IGN]
    for it in signals:
        signal.signal(it, interrupt)
    try:
        sys.exit(main())
    except OSError as error:
        # A file or a folder that is not there, or may not be written, is the caller's to mend.
        sys.exit(f"{os.path.basename(sys.argv[0])}: {error}")


def say(text):
    # Where standard error is closed, nobody is told.
    with contextlib.suppress(AttributeError, OSError):
        sys.stderr.write(f"{text}\n")


def tell(line):
    """Writes a line of its own to standard output."""
    with GUARD:
        print(line, flush=True)


def duration(began):
    """How long it is since then."""
    minutes, seconds = divmod(round(time.monotonic() - began), 60)
    return f"{minutes} min {seconds} s" if minutes else f"{seconds} s"


def lock(locked):
    """Keeps other runs of these scripts, and of rt, out of the crates' folders, until what is returned is closed."""
    held = contextlib.ExitStack()
    # In the order in which rt takes them, so that no two runs wait for each other.
    for crate in sorted(locked, key=lambda it: str(it.folder)):
        folder = os.open(crate.folder, os.O_RDONLY)
        held.callback(os.close, folder)
        try:
            fcntl.flock(folder, fcntl.LOCK_EX | fcntl.LOCK_NB)
        except BlockingIOError:
            say(f"waiting for another run, which works on {crate.name}, to end")
            fcntl.flock(folder, fcntl.LOCK_EX)
    return held


class Step:
    """Something to do once other steps are over. What is last begins only where a core is left, and nothing waits for it."""

    def __init__(self, do, after=(), is_last=False):
        self.do, self.after, self.is_last = do, after, is_last


def steps_of(chosen, do):
    """By each crate the step that does this of it and a number of jobs, after those of the crates that it uses."""
    steps = {}
    for it in chosen:
        # One state of all sources is proved, and not of each crate when its turn comes.
        _ = it.files
        steps[it] = Step(lambda jobs, it=it: do(it, jobs), [steps[used] for used in it.uses if used in steps])
    return steps


def do_all(steps, most=crates.CORES):
    """Does the steps, each after those that it waits for and else so many side by side, until one raises an error."""
    waiting, running, ended = list(steps), {}, set()
    with concurrent.futures.ThreadPoolExecutor(most) as pool:
        try:
            while waiting or running:
                ready = [it for it in waiting if ended.issuperset(it.after)]
                ready = sorted(ready, key=lambda it: it.is_last)[: most - len(running)]
                beside = [*ready, *running.values()]
                for step in ready:
                    waiting.remove(step)
                    running[pool.submit(step.do, jobs_of(step, beside))] = step
                over, _ = concurrent.futures.wait(running, return_when=concurrent.futures.FIRST_COMPLETED)
                for it in over:
                    ended.add(running.pop(it))
                    it.result()
        except BaseException:
            stop()
            raise


def jobs_of(step, beside):
    """How many processes a step gets, where these steps, itself among them, go side by side."""
    if step.is_last:
        return max(1, crates.CORES // len(beside))
    rivals = sum(not it.is_last for it in beside)
    # One more than its share, since each step has times of one process, and they do not end at once.
    return max(1, crates.CORES // rivals + (rivals > 1))


class Copy:
    """A crate and those below it as a repository of their own, over links to their libraries and to what earlier checks kept:
    rt removes such files and writes them anew, and never writes into them."""

    def __init__(self, crate, top=None):
        self.crate, self.top = crate, top or crate.out / "copy"
        self.folder = self.top / "crates" / crate.name
        self.out = self.folder / "out"

    def __enter__(self):
        # A run that was killed may have left one.
        shutil.rmtree(self.top, ignore_errors=True)
        needed = [*self.crate.below, self.crate]
        crates.lay(self.top, needed, lambda it: it.files if it is self.crate else it.sources)
        for it in needed:
            if it.has_library():
                link(it.out / "rlib", self.top / "crates" / it.name / "out/rlib")
        self.out.mkdir(exist_ok=True)
        if (self.crate.out / crates.KEPT).is_dir():
            link(self.crate.out / crates.KEPT, self.out / crates.KEPT)
        return self

    def rt(self, words, log):
        """Runs rt, with what it says in a file of the crate's out/. Returns its status."""
        with open(self.crate.out / log, "wb") as said:
            return ask(["rt", *words], limit=None, cwd=self.folder, stdout=said, stderr=subprocess.STDOUT)[0]

    def publish(self, *names):
        """Puts what rt made in place of what the crate had."""
        for name in names:
            replace(self.out / name, self.crate.out / name)

    def __exit__(self, *_):
        if (self.out / crates.KEPT).is_dir():
            self.publish(crates.KEPT)
        # What rt has only just ended may still write here. The next copy removes that.
        shutil.rmtree(self.top, ignore_errors=True)


def replace(new, old):
    """Puts a file or a folder in the place of another."""
    if old.is_dir():
        old.rename(new.with_suffix(".old"))
    new.replace(old)
    shutil.rmtree(new.with_suffix(".old"), ignore_errors=True)


def link(source, target):
    """Copies a folder by links to its files."""
    shutil.copytree(source, target, copy_function=os.link)


def build(crate, jobs):
    """Proves and builds a crate over those below it. Returns whether it is proved."""
    with Copy(crate) as copy:
        # The program is run too, on no input. Its status tells nothing, but rt's mark does.
        copy.rt(["run" if crate.is_program else "lib", "--jobs", str(jobs)], "build.log")
        is_proved = all((copy.out / it).exists() for it in [*crate.made, crate.mark])
        if is_proved:
            (crate.out / "built").unlink(missing_ok=True)
            copy.publish(*crate.made)
            crate.is_now_built()
    return is_proved


def build_all(lacking):
    """Proves and builds the crates, each after those that it uses, up to the first that is not proved."""

    def build_one(crate, jobs):
        began = time.monotonic()
        if not build(crate, jobs):
            raise NotProved(crate)
        say(f"{crate.name}: proved and built in {duration(began)}")

    try:
        do_all(steps_of(lacking, build_one).values())
    except NotProved as error:
        refused = error.args[0]
        sys.stderr.write(crates.text_of(refused.out / "build.log"))
        sys.exit(f"{refused.name} is not proved, so nothing is answered; the lines above are rt's")


def output_faults(crate, words):
    """What a program does otherwise, on its file stdin, than its file stdout has it."""
    status, wrote, _ = ask(words, crate.files.get("stdin", b""))
    faults = [f"error: {crate.name} ends with status {status}, and not 0"] if status != 0 else []
    is_right = wrote == crate.files.get("stdout", b"")
    return faults if is_right else [*faults, f"error: {crate.name} writes something else than its file stdout has"]

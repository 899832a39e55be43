"""What the commands of bench/ share: programs that are measured in turn, their time, the load of servers, and medians."""
import os
import pathlib
import resource
import shutil
import signal
import statistics
import subprocess
import sys
import time

HERE = pathlib.Path(__file__).resolve().parent
TOP = HERE.parent
sys.path.append(str(TOP / "tools"))

from scanvolt_tools.command import status  # noqa: E402

# Scripts: what bench/scripts takes, and the ticks that are counted; without these, all lines are.
SCRIPTS = {
    "writes and reads": (("pairs", 20000), None),
    "ticks": (("ticks", 1000000), 1000000),
    "writes and reads in single bytes": (("pairs", 2000, "singly"), None),
    "scans of 32 channels, fetched": (("scans", 100, 32, "fetched"), None),
    "scans of 128 channels, fetched": (("scans", 100, 128, "fetched"), None),
    "scans of 32 channels": (("scans", 1000, 32, "last"), 512000),
    "scans of 128 channels": (("scans", 1000, 128, "last"), 2048000),
    "ticks while 16 calls wait": (("locks", 1000000, "ticks"), 1000000),
    "the lock round 16 links": (("locks", 1000), None),
}


def end_at_signals():
    """Lets a signal end this process as an exception does, so that no server and no folder is left."""
    for number in (signal.SIGHUP, signal.SIGINT, signal.SIGTERM):
        signal.signal(number, lambda *_: sys.exit(1))


def run(main, text):
    """Runs a command's `main` with the words of the command line, and ends with its status. `--help` prints the text."""
    end_at_signals()
    sys.exit(status(main, text))


class Failure(Exception):
    """A program failed, printed something else than expected, or can't be built."""


def median(values):
    """The middle one; of two, the lower."""
    return statistics.median_low(values)


def interval(values):
    """The confidence interval of the median, of 95 % or more, as two of the values: of nine values the second and the eighth.
    Of five values or fewer, the least and the greatest.
    """
    # As many heads or fewer in as many tosses of a coin: the chance that the median lies below `left` + 1 values.
    ordered, count, left, ways, below = sorted(values), len(values), 0, 1, 1
    while True:
        ways = ways * (count - left) // (left + 1)
        below += ways
        if below > 0.025 * 2**count:
            return ordered[left], ordered[-1 - left]
        left += 1


def in_turn(count, first, second):
    """What two functions return in each of `count` rounds, as two lists. In every other round the second comes first."""
    found = [], []
    for number in range(count):
        for place in (0, 1) if number % 2 == 0 else (1, 0):
            found[place].append((first, second)[place]())
    return found


def ratios(first, second):
    """For each round, the second over the first."""
    return [after / before for before, after in zip(first, second)]


def runnable(program):
    """The path of a program that can be run. Raises Failure with nothing to say if it can't: tools/runnable has said why."""
    if subprocess.run([TOP / "tools/runnable", program], check=False).returncode:
        raise Failure
    return os.path.abspath(program)


def make_script(folder, name, kind, *counts):
    """Writes NAME.script, and NAME.expected, what its replay has to print (bench/scripts)."""
    words = [HERE / "scripts", kind, name, *map(str, counts)]
    if subprocess.run(words, cwd=folder, check=False).returncode:
        raise Failure(f"the script of {kind} isn't made")
    return pathlib.Path(folder, name + ".script")


def printed_by(program, word, script, printed):
    """Lets `PROGRAM WORD` read a script and print into a file. Returns the seconds by the clock, and those of processor time."""
    with open(script, "rb") as read, open(printed, "wb") as written:
        used = resource.getrusage(resource.RUSAGE_CHILDREN)
        begun = time.monotonic()
        done = subprocess.run([program, word], stdin=read, stdout=written, check=False)
        took = time.monotonic() - begun
    if done.returncode:
        raise Failure(f"on the script {script.stem} `{program} {word}` failed: {done.returncode}")
    after = resource.getrusage(resource.RUSAGE_CHILDREN)
    return took, after.ru_utime - used.ru_utime + after.ru_stime - used.ru_stime


def compiled(folder, name, sources, *words):
    """Compiles a program of C in a folder, and returns its path."""
    if shutil.which("cc") is None:
        raise Failure("a C compiler is missing (Debian's gcc)")
    done = subprocess.run(
        ["cc", "-O2", "-Wall", "-o", name, *sources, *words],
        cwd=folder,
        check=False,
        stdout=subprocess.PIPE,
        stderr=subprocess.STDOUT,
        text=True,
    )
    if done.returncode:
        raise Failure(f"{name} isn't built:\n{done.stdout}")
    return str(pathlib.Path(folder, name))


def first_core():
    """The core that server and load share: CORE, or else the first that this process may use."""
    return os.environ.get("CORE") or str(min(os.sched_getaffinity(0)))


def pinned(core):
    """The words before a command that runs it on this core; none if `core` is None."""
    return [] if core is None else ["taskset", "-c", core]


def load_name(kind, connections, core):
    """How a load is named in a measure. Any core is used if `core` is None."""
    return f"{kind} on {connections}{'' if core is None else ', on one core'}"


def load(built, kind, port, connections, seconds, core=None):
    """What bench/load.c finds: queries a second, replies, and replies that are lost."""
    words = pinned(core) + [built, kind, str(port), str(connections), str(seconds)]
    done = subprocess.run(words, stdout=subprocess.PIPE, text=True, check=False)
    try:
        rate, replies, lost = map(int, done.stdout.split())
    except ValueError:
        raise Failure(f"no load of {kind} on {connections} connections") from None
    return rate, replies, lost

"""Runs of a program: how long they take, how much memory they take, and the moments at which they write."""
import functools
import os
import resource
import subprocess
import sys
import tempfile
import time

from speed_of.case import Missing

FOLDER = tempfile.TemporaryDirectory()

# Whether the processor's time is counted and not the clock's: on a busy machine a program of one thread is then not charged for others.
COUNTS_PROCESSOR = False


def count_processor():
    """From now on the processor's time is counted."""
    global COUNTS_PROCESSOR
    COUNTS_PROCESSOR = True


# Linux counts what a process had before it became another program, so a small one starts it.
LAUNCH = """import os, resource, sys
status = os.spawnv(os.P_WAIT, sys.argv[1], sys.argv[1:])
print(resource.getrusage(resource.RUSAGE_CHILDREN).ru_maxrss * 1024, file=sys.stderr)
sys.exit(status)"""


def spent():
    """The moment by the clock, or the processor's time of all runs that have ended."""
    if not COUNTS_PROCESSOR:
        return time.perf_counter()
    times = resource.getrusage(resource.RUSAGE_CHILDREN)
    return times.ru_utime + times.ru_stime


def ended(words, text, environment=None):
    """The seconds of a run on this input, what it wrote, and what it wrote to standard error."""
    with tempfile.TemporaryFile() as file:
        file.write(text.encode())
        file.seek(0)
        begun = spent()
        run = subprocess.run(words, stdin=file, capture_output=True, env=environment)
        taken = spent() - begun
    if run.returncode != 0:
        raise Missing(f"{os.path.basename(words[0])} {' '.join(words[1:])} ended with status {run.returncode}")
    return taken, run.stdout, run.stderr


def timed(words, text=""):
    """The seconds of a run on this input, and what it wrote."""
    return ended(words, text)[:2]


def peak_of(words, text):
    """The most memory in bytes that a run on this input takes."""
    return int(ended([sys.executable, "-E", "-S", "-c", LAUNCH, *words], text)[2].split()[-1])


@functools.cache
def stamps():
    """The library that notes the moment of each write (stamp_writes.c)."""
    out = os.path.join(FOLDER.name, "stamp_writes.so")
    source = os.path.join(os.path.dirname(os.path.realpath(__file__)), "stamp_writes.c")
    clock = "CLOCK_PROCESS_CPUTIME_ID" if COUNTS_PROCESSOR else "CLOCK_MONOTONIC"
    try:
        words = ["gcc", "-O2", "-shared", "-fPIC", f"-DCLOCK={clock}", "-o", out, source]
        run = subprocess.run(words, capture_output=True, text=True)
    except OSError as error:
        raise Missing(str(error)) from error
    if run.returncode != 0:
        raise Missing(run.stderr.strip().splitlines()[0])
    return out


def moments_of(words, text):
    """The moments in seconds at which a run on this input writes."""
    said = ended(words, text, {**os.environ, "LD_PRELOAD": stamps()})[2].splitlines()
    return [float(line.split()[1]) for line in said if line.startswith(b"at ")]

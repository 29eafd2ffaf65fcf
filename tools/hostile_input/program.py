"""Running the program, and what a run came to."""
import os
import re
import signal
import sys
import time

ROOT = os.path.dirname(os.path.dirname(os.path.dirname(os.path.abspath(__file__))))
PROGRAM = os.path.abspath(sys.argv[1]) if len(sys.argv) > 1 else os.path.join(ROOT, "crates/shell/out/shell")
# A run that takes longer is stopped, and one that writes more too: its case fails. A million bad lines, each of which is reported, take a minute on a
# slow machine. Random input is short.
SECONDS = 240
SHORT_SECONDS = 10
BYTES = 64 * 1_024 * 1_024
# What the processor's time may be above the bounds on its growth.
CONSTANT = 0.1
MAX_LINE = 65_536
MAX_SCRIPT = 16_777_216

running = None


def stop(_signal, _frame):
    if running is not None:
        os.kill(running, signal.SIGKILL)


# what `run` writes on standard error of a line that is bad or refused
REPORT = re.compile(rb"(?m)^line ([0-9]+): .*\n")


class Ended:
    """How a run ended: its status (below 0 the signal), what it wrote, and its seconds by the clock and of the processor.

    `reports` are the numbers of the lines that were reported as bad or refused, and `err` is the other errors."""

    def __init__(self, status, out, err, clock, processor):
        self.status, self.out, self.clock, self.processor = status, out, clock, processor
        self.reports = [int(number) for number in REPORT.findall(err)]
        self.err = REPORT.sub(b"", err)

    def __str__(self):
        if self.status < 0:
            how = f"signal {-self.status}" + (f", stopped after {self.clock:.0f} s" if self.clock >= SECONDS else "")
        else:
            how = f"status {self.status}"
        return f"{how}, output {short(self.out)}, errors {short(self.err)}"


def short(data, most=160):
    text = repr(data)[1:]
    return text if len(text) <= most else f"{text[:most // 2]} .. {text[-most // 2:]} ({len(data):,} bytes)"


files = {}


def file_of(name, data=b""):
    """A file in memory with these bytes, one for each name, at its begin."""
    if name not in files:
        files[name] = os.memfd_create(name)
    handle = files[name]
    os.ftruncate(handle, 0)
    os.lseek(handle, 0, os.SEEK_SET)
    while data:
        data = data[os.write(handle, data):]
    os.lseek(handle, 0, os.SEEK_SET)
    return handle


def held(handle):
    return os.pread(handle, os.fstat(handle).st_size, 0)


def run(words=("run",), data=b"", stdin=None, stdout=None, program=None, defaults=(signal.SIGPIPE, signal.SIGXFSZ), meanwhile=None):
    """Runs the program on the data, or on other files (-1: closed), and `meanwhile` beside it."""
    global running
    given = file_of("in", data) if stdin is None else stdin
    taken = file_of("out") if stdout is None else stdout
    errors = file_of("err")
    program = program or PROGRAM
    how = []
    for place, handle in ((0, given), (1, taken), (2, errors)):
        how.append((os.POSIX_SPAWN_CLOSE, place) if handle == -1 else (os.POSIX_SPAWN_DUP2, handle, place))
    begun = time.monotonic()
    running = os.posix_spawn(program, [os.path.basename(program), *words], os.environ, file_actions=how, setsigdef=defaults)
    signal.setitimer(signal.ITIMER_REAL, SECONDS)
    try:
        if meanwhile:
            meanwhile()
    finally:
        _, status, used = os.wait4(running, 0)
        signal.setitimer(signal.ITIMER_REAL, 0)
        running = None
    clock = time.monotonic() - begun
    out = held(taken) if stdout is None else b""
    return Ended(os.waitstatus_to_exitcode(status), out, held(errors), clock, used.ru_utime + used.ru_stime)

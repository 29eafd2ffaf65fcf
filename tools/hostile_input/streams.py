"""Readers and writers that fail."""
import os
import shutil
import signal
import time

from program import PROGRAM, file_of, held, run, short
from sizes import FRONT, FRONT_REPLIES

def reads(opened, status, out, err):
    """A run whose input is what `opened` gives, which is closed behind it."""
    handle = opened()
    try:
        ended = run(stdin=handle)
    finally:
        if handle != -1:
            os.close(handle)
    if (ended.status, ended.out, ended.err) != (status, out, err):
        return f"expected status {status}, output {short(out)}, errors {short(err)}, got {ended}", 1
    return None, 1


def writes(opened, status, err, words=("run",), data=FRONT, defaults=(signal.SIGPIPE, signal.SIGXFSZ)):
    """A run whose output is what `opened` gives, which is closed behind it."""
    handle = opened()
    try:
        ended = run(words, data, stdout=handle, defaults=defaults)
    finally:
        if handle != -1:
            os.close(handle)
    if (ended.status, ended.err) != (status, err):
        return f"expected status {status}, errors {short(err)}, got {ended}", 1
    return None, 1


def full():
    return os.open("/dev/full", os.O_WRONLY)


def closed():
    return -1


def unwritable():
    return os.open("/dev/null", os.O_RDONLY)


def unreadable():
    return os.open("/dev/null", os.O_WRONLY)


def folder():
    return os.open("/", os.O_RDONLY | os.O_DIRECTORY)


def without_reader():
    ours, theirs = os.pipe()
    os.close(ours)
    return theirs


def without_writer():
    ours, theirs = os.pipe()
    os.close(theirs)
    return ours


def goes_away(size, words, defaults):
    """The reader of the output closes it after so many bytes."""
    # More than a pipe holds and the reader takes; what is read has to be a front of it.
    lines = (size + 400_000) // len(b"bad line\n")
    wanted = b"bad line\n" * lines
    ours, theirs = os.pipe()
    got = b""

    def read():
        nonlocal got, theirs
        os.close(theirs)
        theirs = -1
        while len(got) < size and (part := os.read(ours, size - len(got))):
            got += part
        os.close(ours)

    ended = run(words, b"x\n" * lines, stdout=theirs, defaults=defaults, meanwhile=read)
    if (ended.status, ended.err) != (4, b"fault: write\n") or got != wanted[:size]:
        return f"expected status 4, errors 'fault: write' and {size} bytes read, got {ended} and {len(got)} bytes", 1
    return None, 1


def in_dribs(script, replies):
    """The script through a pipe, byte by byte."""
    ours, theirs = os.pipe()

    def write():
        nonlocal ours
        os.close(ours)
        ours = -1
        for place in range(len(script)):
            os.write(theirs, script[place:place + 1])
            time.sleep(0.0002)
        os.close(theirs)

    ended = run(stdin=ours, meanwhile=write)
    if (ended.status, ended.out, ended.err) != (0, replies, b""):
        return f"expected status 0, output {short(replies)}, got {ended}", 1
    return None, 1


def bounded(blocks):
    """Output to a file that may have so many blocks of 1,024 bytes; writing behind them fails. No line is bad: reports are held to the same size."""
    lines = blocks * 200 + 100
    taken = file_of("bounded")
    command = f'ulimit -f {blocks}; trap "" XFSZ; exec "$0" run'
    ended = run(("-c", command, PROGRAM), FRONT + b"log\n" * lines, stdout=taken, program=shutil.which("bash"))
    wanted = (FRONT_REPLIES + b"ok log 1\n" * lines)[:blocks * 1_024]
    got = held(taken)
    if (ended.status, ended.err) != (4, b"fault: write\n") or got != wanted:
        return f"expected status 4, errors 'fault: write' and {len(wanted)} bytes, got {ended} and {len(got)} bytes", 1
    return None, 1


def pipe_cases():
    unread = b"fault: read\n"
    yield "input that is closed", reads, (closed, 3, b"", unread)
    yield "input that is a folder", reads, (folder, 3, b"", unread)
    yield "input that is open for writing alone", reads, (unreadable, 3, b"", unread)
    yield "input without end", reads, (lambda: os.open("/dev/zero", os.O_RDONLY), 3, b"", b"fault: too long\n")
    yield "input that is /dev/null", reads, (lambda: os.open("/dev/null", os.O_RDONLY), 0, b"", b"")
    yield "input from a pipe without a writer", reads, (without_writer, 0, b"", b"")
    yield "input byte by byte", in_dribs, (FRONT + b"txn s at 0: insert t (1) set b = '\xc3\xa9\xf0\x9f\x98\x80'\nlog\n",
                                           FRONT_REPLIES + b"ok done 2\nok log 2\n")
    unwritten = b"fault: write\n"
    yield "output to /dev/full", writes, (full, 4, unwritten)
    yield "output to /dev/full of a script without replies", writes, (full, 0, b"", ("run",), b"# a remark\n\n")
    yield "output that is closed", writes, (closed, 4, unwritten)
    yield "output that is closed, of a script without replies", writes, (closed, 0, b"", ("run",), b"# a remark\n\n")
    yield "output that is open for reading alone", writes, (unwritable, 4, unwritten)
    for how, defaults in (("usual", (signal.SIGPIPE, signal.SIGXFSZ)), ("ignored", ())):
        yield f"output without a reader, SIGPIPE {how}", writes, (without_reader, 4, unwritten, ("run",), FRONT, defaults)
        yield f"load without a reader, SIGPIPE {how}", writes, (without_reader, 4, unwritten, ("load", "--rows", "5"), b"", defaults)
        for size in (0, 1, 8, 9, 10, 100, 4_095, 4_096, 4_097, 65_535, 65_536, 65_537, 200_000):
            yield f"a reader that goes away after {size} bytes, SIGPIPE {how}", goes_away, (size, ("run",), defaults)
    for blocks in (1, 4, 7, 64):
        yield f"output to a file of {blocks * 1_024} bytes at most", bounded, (blocks,)
    words = ("load", "--rows", "5")
    yield "load with output to /dev/full", writes, (full, 4, unwritten, words, b"")
    yield "load with output that is closed", writes, (closed, 4, unwritten, words, b"")
    yield "load with output that is open for reading alone", writes, (unwritable, 4, unwritten, words, b"")

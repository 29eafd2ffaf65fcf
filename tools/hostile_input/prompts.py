"""Random input to the prompt, from fixed seeds."""
import random

from language import is_silent, lines_of, replies_in
from noise import random_ascii, random_bytes, random_changes, random_lines, random_text, random_tokens
from program import SHORT_SECONDS, run


def without_remarks(out):
    return b"".join(line for line in out.splitlines(keepends=True) if not line.startswith(b"# "))


def ends_fault(ended):
    """A prompt ends at the end of its input: with status 1 if it answered `bad line`, and it writes no errors."""
    wanted = 1 if b"bad line\n" in ended.out.splitlines(keepends=True) else 0
    if (ended.status, ended.err, ended.reports) != (wanted, b"", []):
        return f"expected status {wanted} and no errors, got {ended}"
    if ended.out and not ended.out.endswith(b"\n"):
        return f"its last line has no end: {ended}"
    return f"it took {ended.clock:.0f} s" if ended.clock > SHORT_SECONDS else None


def answered(make, first, count):
    """Each line of any bytes is answered, whatever it is."""
    for seed in range(first, first + count):
        wrong = ends_fault(run(("prompt",), make(random.Random(seed))))
        if wrong:
            return f"seed {seed}: {wrong}", seed - first + 1
    return None, count


def as_run(make, first, count):
    """Lines that are none of the prompt's own and bad nowhere get the replies of `run`."""
    for seed in range(first, first + count):
        lines = [line for line in lines_of(make(random.Random(seed))) if not is_silent(line)]
        replies, _ = replies_in(run(data=b"\n".join(lines)).out)
        good = b"\n".join(line for line, reply in zip(lines, replies) if reply != b"bad line\n")
        ran, prompted = run(data=good), run(("prompt",), good)
        wrong = ends_fault(prompted)
        if wrong is None and (b"bad line\n" in ran.out or without_remarks(prompted.out) != ran.out):
            wrong = f"run gives {ran}, and prompt {prompted}"
        if wrong:
            return f"seed {seed}: {wrong}", (seed - first + 1) * 3
    return None, count * 3


def prompt_cases():
    for make, count in ((random_bytes, 100), (random_text, 100), (random_ascii, 100), (random_tokens, 200), (random_changes, 200)):
        for first in range(0, count, 100):
            yield f"prompt, {make.__name__}, seeds {first} to {first + 99}", answered, (make, first, 100)
    for make, count in ((random_lines, 100), (random_changes, 200)):
        for first in range(0, count, 50):
            yield f"prompt as run, {make.__name__}, seeds {first} to {first + 49}", as_run, (make, first, 50)

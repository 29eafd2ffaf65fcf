"""Many loads."""
import os
import shutil

from program import PROGRAM, run, short

def load(sizes, processor=None):
    for runs, size in enumerate(sizes):
        words = ["load"]
        for option, number in size.items():
            words += [f"--{option}", str(number)]
        if processor is None:
            ended = run(words)
        else:
            ended = run(["-c", str(processor), PROGRAM, *words], program=shutil.which("taskset"))
        wanted = f"rows {size['rows']}\nmissing 0\nextra 0\ncounts equal\nreceipts ok\n".encode()
        if (ended.status, ended.out, ended.err) != (0, wanted, b""):
            return f"{' '.join(words)}: expected status 0 and {short(wanted)}, got {ended}", runs + 1
    return None, len(sizes)


def load_cases():
    small = [{"servers": 16, "workers": 16, "rows": 16 + n % 33, "pieces": 1 + n % 9, "limit": 1 + n % 3} for n in range(200)]
    large = [{"servers": 16, "workers": 16, "rows": 5_000, "pieces": 1 + 7 * n % 64, "limit": (1, 7, 50, 1_000)[n % 4]} for n in range(20)]
    lone = [{"servers": 1 + 5 * n % 16, "workers": 1 + 3 * n % 16, "rows": 16 + 97 * n, "pieces": 1 + n, "limit": 1 + n} for n in range(10)]
    for first in range(0, 200, 20):
        yield f"small loads {first} to {first + 19}", load, (small[first:first + 20],)
    for first in range(0, 20, 5):
        yield f"large loads {first} to {first + 4}", load, (large[first:first + 5],)
    if shutil.which("taskset"):
        yield "loads on one processor", load, (lone, min(os.sched_getaffinity(0)))
    else:
        print("loads on one processor: skipped, there is no taskset")

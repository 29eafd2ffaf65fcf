"""Scripts that are cut short."""
import glob
import os

from program import ROOT, run, short
from language import Reader, is_silent, lines_of, replies_in, status_fault, unread, unread_fault

def cuts_of(script):
    """Each length of a front of the script; of one above 4,096 bytes some 800 of them."""
    size = len(script)
    if size <= 4_096:
        return range(size + 1)
    ends = [place for place, byte in enumerate(script) if byte == 10]
    some = set(range(257)) | set(range(0, size + 1, size // 500)) | {size - 1, size}
    for end in ends[:: len(ends) // 80 + 1]:
        some |= {end - 1, end, end + 1}
    return sorted(some)


def cut_short(path):
    with open(f"{path}.script", "rb") as file:
        script = file.read()
    with open(f"{path}.replies", "rb") as file:
        replies, left = replies_in(file.read())
    lines = [line for line in lines_of(script) if not is_silent(line)]
    if left or len(lines) != len(replies):
        return f"{len(lines)} lines with a reply, and {len(replies)} replies", 0
    # What is known before each line, and behind the last.
    readers = [Reader()]
    for line, reply in zip(lines, replies):
        readers.append(readers[-1].copy())
        if wrong := readers[-1].fault_of(line, reply):
            return f"the replies, line {short(line)}: {wrong}, and is {short(reply)}", 0
    cuts = cuts_of(script)
    for runs, size in enumerate(cuts):
        front = script[:size]
        whole = front[:front.rfind(b"\n") + 1]
        # A last line that is whole but for its LF has its known reply.
        if script[size:size + 1] == b"\n" and not front.endswith(b"\r"):
            whole = front
        known = sum(not is_silent(line) for line in lines_of(whole))
        rest = [line for line in lines_of(front[len(whole):]) if not is_silent(line)]
        if wrong := cut_fault(front, run(data=front), replies[:known], rest, readers[known].copy()):
            return f"cut after {size} bytes: {wrong}", runs + 1
    return None, len(cuts)


def cut_fault(front, ended, replies, rest, reader):
    """What is wrong with a run of the front of a script: the replies to its whole lines are known, and `rest` is a line that is cut, or none."""
    if fault := unread(front):
        return unread_fault(ended, fault)
    known = b"".join(replies)
    if not ended.out.startswith(known):
        return f"expected a front {short(known)}, got {ended}"
    found, left = replies_in(ended.out[len(known):])
    if left or len(found) != len(rest):
        return f"expected {len(rest)} replies behind {short(known)}, got {ended}"
    for line, reply in zip(rest, found):
        if wrong := reader.fault_of(line, reply):
            return f"line {short(line)}: {wrong}, got {short(reply)}"
    return status_fault(ended, replies + found)


def cut_cases():
    for name in sorted(glob.glob("scripts/*/*.script", root_dir=ROOT)) + sorted(glob.glob("examples/*.script", root_dir=ROOT)):
        path = name.removesuffix(".script")
        yield f"{path} cut short", cut_short, (os.path.join(ROOT, path),)

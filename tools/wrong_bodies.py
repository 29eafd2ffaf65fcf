"""Wrong bodies that the prover must refuse, and which of them are tried: the work of .ci/must_fail, whose head explains it."""
import concurrent.futures
import glob
import os
import re
import subprocess
import tempfile
import time

from checks import ROOT, Crates, copy_crate, logic
from verdicts import Checksums, read_rows, sample, write_rows

KEPT = f"{ROOT}/must-fail/verdicts.tsv"
# what a proof cites and the edit took away
TAKEN = re.compile(r"has no field|is not in scope|has no `|was not admitted")


class Edit:
    """A wrong body: its crate, its name, its text and the function that it spoils."""

    def __init__(self, path):
        self.crate, self.name = os.path.dirname(path).rpartition("/")[2], os.path.basename(path)[: -len(".edit")]
        with open(path, encoding="utf-8") as file:
            self.text = file.read()
        self.function = next((line[len("function: ") :].strip() for line in self.text.split("\n") if line.startswith("function: ")), "")

    def key(self):
        return f"{self.crate}/{self.name}"


def edited(folder, edits):
    """The files of a crate that these edits change, with their new texts; and why they cannot be made, if so."""
    texts, path, old = {}, None, None
    for line in "\n".join(edit.text for edit in edits).split("\n"):
        word, colon, text = line.partition(":")
        text = text.removeprefix(" ")
        if word == "file" and colon:
            path = text.strip()
            if path not in texts:
                if not os.path.isfile(f"{folder}/{path}"):
                    return {}, f"there is no file {path}"
                with open(f"{folder}/{path}", encoding="utf-8") as file:
                    texts[path] = file.read()
        elif word == "old" and colon:
            old = text
        elif word == "new" and colon and path and old:
            if texts[path].count(old) != 1:
                return {}, f"an old text is in {path} {texts[path].count(old)} times, and not once: {old.strip()}"
            texts[path] = texts[path].replace(old, text)
    return (texts, None) if texts else ({}, "it changes nothing")


def goals_of(edit, why, said):
    """The goals of the function that are refused. In a cycle of calls, which has one proof, a goal begins with its function's name."""
    place, _, name = f"proofs/{edit.function.replace('::', '/')}".rpartition("/")
    errors = [line for line in said.split("\n") if re.search(r": error: `", line) and not TAKEN.search(line)]
    of_cycle = f"{place}/+" in why or any(f"{place}/+" in line for line in errors)
    found = re.findall(r"`([^`]*)`", why.partition("`search` did not prove ")[2])
    for line in errors:
        if f"{place}/+" in line or f"{place}/{name}/" in line:
            found += re.findall(r": error: `([^`]*)`", line)
    return [goal for goal in dict.fromkeys(found) if not of_cycle or goal.startswith(f"{name}-")]


def verdict(edit, said):
    """Whether the function is refused for its own body (None: that is not known), and the goals, or why."""
    told = re.search(rf"(?m)^fn {edit.crate}::{re.escape(edit.function)}: (.*)$", said)
    if not told:
        return None, said.rstrip("\n").rpartition("\n")[2]
    why = told[1]
    if why == "proved":
        return False, why
    if re.search("it calls |does not cover|could not tell", why):
        return None, why
    goals = goals_of(edit, why, said)
    return (True, ", ".join(goals)) if goals else (None, why)


def together(folder, edits):
    """As many of these edits as one copy of the crate can have, each of another function, the first among them."""
    taken = edits[:1]
    for edit in edits[1:]:
        is_new = edit.function not in [it.function for it in taken]
        if is_new and not edited(folder, [*taken, edit])[1]:
            taken.append(edit)
    return taken


def try_together(crates, name, edits, kept):
    """The verdict on each of these edits, all made in one copy of the crate."""
    texts, why = edited(crates.folder(name), edits)
    if why:
        return [(None, why) for _ in edits]
    with tempfile.TemporaryDirectory(prefix="wrong-body-") as room:
        copy_crate(crates.folder(name), room)
        for path, text in texts.items():
            with open(f"{room}/{path}", "w", encoding="utf-8") as file:
                file.write(text)
        functions = [word for edit in edits for word in ("--only", edit.function)]
        said = crates.check(name, room, [*functions, "--incremental", kept])
    return [verdict(edit, said) for edit in edits]


def try_crate(crates, name, edits):
    """Tries the edits of a crate until each has its verdict, or was tried alone, and gives the goals of those that the prover refused."""
    lacking = crates.not_built(name)
    if lacking:
        print(f"must-fail {name}: there is no library of {' '.join(lacking)} that is as new as its files: run `rt ci` first", flush=True)
        return {}
    left, refused, alone = edits, {}, False
    with tempfile.TemporaryDirectory() as kept:
        while left:
            batch = left[:1] if alone else together(crates.folder(name), left)
            begun = time.monotonic()
            said = try_together(crates, name, batch, kept)
            ended = [edit for edit, (is_refused, _) in zip(batch, said) if is_refused is not None or len(batch) == 1]
            for edit, (is_refused, why) in zip(batch, said):
                if edit in ended:
                    print(f"must-fail {edit.key()}: {'refused' if is_refused else 'NOT REFUSED'}: {edit.function}: {why}"[:240], flush=True)
                    refused |= {edit.key(): why} if is_refused else {}
            print(f"must-fail {name}: {len(ended)} of {len(batch)} in {time.monotonic() - begun:.0f} s", flush=True)
            left, alone = [edit for edit in left if edit not in ended], not ended
    return refused


def try_all(crates, edits):
    """The goals that refused each of these edits, crate by crate, several at once."""
    names = sorted({edit.crate for edit in edits} & {*crates.deps})
    # the largest first, so that none is tried alone at the end
    names.sort(key=lambda name: sum(os.path.getsize(it) for it in glob.glob(f"{crates.folder(name)}/src/*.rt")), reverse=True)
    refused = {}
    with concurrent.futures.ThreadPoolExecutor(jobs()) as pool:
        for found in pool.map(lambda name: try_crate(crates, name, [edit for edit in edits if edit.crate == name]), names):
            refused |= found
    return refused


def jobs():
    """RT_JOBS, or as many as there are processors and 3 GB of free memory."""
    with open("/proc/meminfo", encoding="ascii") as file:
        free = next(int(line.split()[1]) for line in file if line.startswith("MemAvailable"))
    return int(os.environ.get("RT_JOBS") or max(1, min(len(os.sched_getaffinity(0)), free // 3_000_000)))


def commit():
    said = subprocess.run(["git", "rev-parse", "HEAD"], cwd=ROOT, capture_output=True, text=True, check=False)
    return said.stdout.strip()


def to_try(edits, rows, sums, words):
    """The edits that are tried: new and changed ones, named ones, all with --all, and a tenth of those whose verdict is kept."""
    if [it for it in words if it != "--keep"]:
        return edits
    new = [it for it in edits if rows.get(it.key(), ("", ""))[0] != sums[it.key()]]
    kept = [it for it in edits if it not in new]
    return [*new, *sample(kept, commit())]


def main(words):
    crates, rows = Crates(), read_rows(KEPT)
    names = {it for it in words if not it.startswith("--")}
    every = [Edit(path) for path in sorted(glob.glob(f"{ROOT}/must-fail/*/*.edit"))]
    edits = [edit for edit in every if not names or {edit.crate, edit.key()} & names]
    checksums = Checksums(crates, logic())
    sums = {edit.key(): checksums.of(edit.crate, edit.text) if edit.crate in crates.deps else None for edit in edits}
    tried = to_try(edits, rows, sums, words)
    refused = try_all(crates, tried)
    failed = [edit.key() for edit in tried if edit.key() not in refused]
    for edit in edits:
        if edit.crate not in crates.deps:
            print(f"must-fail {edit.key()}: there is no such crate")
    if "--keep" in words:
        rows = {key: row for key, row in rows.items() if key in {it.key() for it in every} and key not in failed}
        write_rows(KEPT, rows | {key: (sums[key], goals) for key, goals in refused.items()})
    print(f"must-fail: tried {len(tried)}, kept {len(edits) - len(tried)}")
    print(f"{len(edits) - len(failed)} passed, {len(failed) or int(not edits)} failed")
    return 1 if failed or not edits else 0

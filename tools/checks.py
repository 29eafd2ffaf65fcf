"""The repository's crates, and checks of one of them by the kit's documented command `rattle`, for the tools here.

A crate is checked over the libraries that `rt ci` leaves in crates/*/out/rlib. Nothing here looks inside `rt`.
"""
import os
import re
import shutil
import subprocess
import sys

ROOT = os.path.dirname(os.path.dirname(os.path.realpath(__file__)))
PARTS = ("src", "specs", "proofs")


class Crates:
    """The crates of a checkout, by its crates.txt."""

    def __init__(self, root=ROOT):
        self.root, self.deps, self.static = root, {}, set()
        with open(f"{root}/crates.txt", encoding="utf-8") as file:
            for line in file:
                words, colon, deps = line.partition("#")[0].partition(":")
                if colon:
                    name, *kind = words.split()
                    self.deps[name] = deps.split()
                    self.static |= {name} if "staticlib" in kind else set()

    def folder(self, name):
        return f"{self.root}/crates/{name}"

    def below(self, name):
        """The repository's crates below one, the lowest first."""
        found = []

        def visit(one):
            for it in self.deps[one]:
                if it in self.deps and it not in found:
                    visit(it)
                    found.append(it)

        visit(name)
        return found

    def library(self, name):
        return f"{self.folder(name)}/out/rlib/{name}.rlib"

    def is_built(self, name):
        """Whether the crate's library is there, and no file of the crate was written after it."""
        if not os.path.isfile(f"{self.library(name)}/format"):
            return False
        return max(map(os.path.getmtime, files_of(self.folder(name))), default=0) <= os.path.getmtime(self.library(name))

    def not_built(self, name):
        """The crates below one whose library is not there, or is older than the crate."""
        return [it for it in self.below(name) if not self.is_built(it)]

    def words(self, name):
        """The words of a check of a crate, after `rattle check` or `rattle build`, to be run in a folder with the crate's files."""
        libraries = f"{kit()}/rlibs"
        is_program = os.path.isfile(f"{self.folder(name)}/src/main.rt")
        words = ["--crate-name", name, "src/main.rt" if is_program else "src/lib.rt"]
        for it in ["std", *self.deps[name]]:
            words += ["--extern", f"{it}={self.library(it) if it in self.deps else f'{libraries}/{it}.rlib'}"]
        words += ["-L", f"dependency={libraries}"]
        for it in self.below(name):
            words += ["-L", f"dependency={self.folder(it)}/out/rlib"]
        words += ["--crate-type", "staticlib"] if name in self.static else []
        return [*words, "--antt-project", f"{kit()}/rattle/logic/antt-project.json", "--logic-built", f"{kit()}/logic_built"]

    def check(self, name, folder, flags):
        """What a check of the crate says, its files being those in the folder."""
        words = [f"{kit()}/bin/rattle", "check", *self.words(name), "--jobs", "1", *flags]
        how = {"stdin": subprocess.DEVNULL, "stdout": subprocess.PIPE, "stderr": subprocess.STDOUT, "text": True, "errors": "replace"}
        return subprocess.run(words, cwd=folder, check=False, **how).stdout


def kit():
    """The kit's folder: that of the command rt."""
    return os.path.dirname(os.path.dirname(os.path.realpath(shutil.which("rt") or sys.exit("rt is not on the path"))))


def logic():
    """The identity of this kit's logic."""
    return logic_of(subprocess.run(["rt", "version"], capture_output=True, text=True, check=True).stdout)


def logic_of(version):
    """The identity of the logic in what `rt version` says: kits of several names can share it."""
    return re.search(r"logic ([0-9a-f]+)", version)[1]


def files_of(folder):
    """The files of a crate that a check reads."""
    return sorted(f"{at}/{name}" for part in PARTS for at, _, names in os.walk(f"{folder}/{part}") for name in names)


def copy_crate(folder, room):
    """Copies what a check of a crate reads."""
    for part in PARTS:
        if os.path.isdir(f"{folder}/{part}"):
            shutil.copytree(f"{folder}/{part}", f"{room}/{part}")

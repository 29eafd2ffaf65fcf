"""Kept verdicts on wrong bodies: must-fail/verdicts.tsv, and the checksum that tells whether a row still holds.

A verdict rests on the crate's own files, on the edit, on which of the crates that both name are listed for it, on what the crates below
promise, and on the logic. What a crate promises is its public signatures with their contracts, those of its lemma files that a crate above cites,
and of its definitions (specs/) those that all this names, by way of others, too. Comments, layout, the bodies of its functions and its private
functions are no part of it, since a check of a crate above does not read them (they are not in the interface of a built library); nor is what is
always so of a private type, since no crate above has one in its hands, nor the list of crates on which it stands.
"""
import hashlib
import os
import re

from checks import files_of

COLUMNS = ("edit", "checksum", "goals")
# a comment, a text, or a character; a lifetime is none of them
RUST = re.compile(r"""//[^\n]*|/\*.*?\*/|b?"(?:\\.|[^"\\])*"|b?'(?:\\(?:u\{[^}]*\}|x..|.)|[^'\\\n])'""", re.S)
ANTT = re.compile(r'"(?:\\.|[^"\\])*"|--[^\n]*')
CLAUSE = re.compile(r"\b(requires|ensures|ghost)\b[^{};]*$")
WORDS = r'(?:(?:const|unsafe)\s+|extern\s+"[^"]*"\s+)*$'
PUBLIC = re.compile(rf"\bpub\s+{WORDS}")
# what stands before a function that is not public
BEFORE = re.compile(rf"(?:#\[[^\[\]]*\]\s*)*(?:pub\s*\([^()]*\)\s*)?{WORDS}")
OF_TRAIT = re.compile(r"\btrait\b|\bimpl\b.*\bfor\b", re.S)
# an import and a constant that are not public, and a module
USE = re.compile(r"(?<!pub )(?<!\) )\b((?:ghost )?use )([^;{]*)(?:\{([^;]*)\})?;")
CONST = re.compile(r"(?<!pub )\bconst (\w+): [^;{]*;")
MOD = re.compile(r"(?<!pub )\bmod \w+;")
# a type that is not public, and what is always so of a type
PRIVATE_TYPE = re.compile(r"(?:(?<!pub )(?<!\) )|\bpub\s*\([^()]*\)\s*)\b(?:struct|enum)\s+(\w+)")
MODEL = re.compile(r"\bimpl\b[^{};]*\bModel\s+for\s+(\w+)[^{};]*\{")
INVARIANT = re.compile(r"\bghost\s+invariant\s*=\s*\{")
# what a text names of another file: a module, with names in it or alone
IMPORT = re.compile(r"\bRattle\.(\w+(?:\.\w+)*)(?:\.\{([^}]*)\})?")
# the first line of a definition, and the names that one gives
FIRST = re.compile(r"(?:abbrev|unfoldable|record|data|pub|infix[lr]?|use|module|mutual)\b")
GIVEN = re.compile(r"^\s*(?:abbrev\s+|unfoldable\s+)*(?:pub\s+)?(?:record\s+|data\s+)?([^\s:{(]+)(?=[^=\n]*:)", re.M)


def plain(text, tokens, comments):
    """The text without its comments."""
    return tokens.sub(lambda found: " " if found[0].startswith(comments) else found[0], text)


def antt_text(text):
    """An antt file without its comments and blank lines; its indentation means something."""
    lines = (line.rstrip() for line in plain(text, ANTT, ("--",)).split("\n"))
    return "\n".join(line for line in lines if line)


def closing(text, hidden, start):
    """Where the brace that opens at start is closed; what is hidden, as a text is, holds no brace."""
    depth = 0
    for at in range(start, len(text)):
        if text[at] in "{}" and at not in hidden:
            depth += 1 if text[at] == "{" else -1
            if depth == 0:
                return at + 1
    return len(text)


def heads(text, hidden):
    """For the start of each function the words before the brace of the block that it stands in."""
    found, open_blocks, since = {}, [], 0
    for token in re.finditer(r"[{};]|\bfn\s+\w", text):
        at = token.start()
        if at in hidden:
            continue
        if token[0][0] == "f":
            found[at] = open_blocks[-1] if open_blocks else ""
            continue
        if token[0] == "{":
            open_blocks.append(text[since:at])
        elif token[0] == "}" and open_blocks:
            open_blocks.pop()
        since = at + 1
    return found


def signature_from(text, hidden, at):
    """A signature with its contract from its name on, without a body, and where the function ends."""
    kept = []
    while at < len(text):
        stop = next((it for it in range(at, len(text)) if text[it] in "{;" and it not in hidden), len(text))
        kept.append(text[at:stop])
        if text[stop : stop + 1] == "{" and CLAUSE.search(text[at:stop]):
            end = closing(text, hidden, stop)
            kept.append(text[stop:end])
            at = end
            continue
        return kept, closing(text, hidden, stop) if text[stop : stop + 1] == "{" else stop + 1
    return kept, at


def without_private_invariants(text):
    """The text without what is always so of its private types."""
    private, kept, at = {it[1] for it in PRIVATE_TYPE.finditer(text)}, [], 0
    for found in MODEL.finditer(text):
        end = closing(text, set(), found.end() - 1)
        law = INVARIANT.search(text, found.end(), end)
        if found[1] in private and law:
            kept.append(text[at : law.start()])
            at = closing(text, set(), law.end() - 1)
    return "".join(kept) + text[at:]


def definitions(text):
    """The definitions of an antt file, each with the names that it gives; a name with other signs than a word's is always met."""
    blocks = []
    for line in text.split("\n"):
        if FIRST.match(line) or not blocks:
            blocks.append([])
        blocks[-1].append(line)
    for block in blocks:
        words = "\n".join(block)
        if not words.startswith("pub mod "):
            yield {None} if words.startswith(("infix", "use ", "pub use ", "module")) else names_given(words), words


def names_given(block):
    """The names that a definition gives, None among them if one is no word."""
    return {it if re.fullmatch(r"\w+", it) else None for it in GIVEN.findall(block)} or {None}


def signatures(text):
    """What a Rattle file shows the crates above, or nothing: no comment, no body, and of what is private only what the rest names."""
    text = without_private_invariants(plain(text, RUST, ("//", "/*")))
    hidden = {at for found in RUST.finditer(text) for at in range(*found.span())}
    blocks, kept, at = heads(text, hidden), [], 0
    for found in re.finditer(r"\bfn\s+\w+", text):
        if found.start() < at or found.start() in hidden:
            continue
        before = text[at : found.start()]
        signature, end = signature_from(text, hidden, found.end())
        if PUBLIC.search(before) or OF_TRAIT.search(blocks[found.start()]):
            kept += [before, found[0], *signature]
        else:
            kept.append(BEFORE.sub("", before, count=1))
        at = end
    kept.append(text[at:])
    return named_alone(" ".join("".join(kept).split()))


def named_alone(text):
    """The text without its modules, and without the private constants and imports that nothing else in it names."""
    text = MOD.sub("", text)
    text = CONST.sub(lambda found: found[0] if len(re.findall(rf"\b{found[1]}\b", text)) > 1 else "", text)
    rest = USE.sub("", text)
    words = set(re.findall(r"\w+", rest))

    def is_named(name):
        local = name.split(" as ")[-1].strip().rpartition("::")[2].rpartition(".")[2]
        return local in words or local == "self" or any(part and part in rest for part in local.split("◌") if not re.fullmatch(r"\w*", part))

    def imports(found):
        if found[3] is None:
            return found[0] if is_named(found[2]) else ""
        names = [name.strip() for name in found[3].split(",") if name.strip() and is_named(name)]
        return f"{found[1]}{found[2]}{{{', '.join(names)}}};" if names else ""

    return " ".join(USE.sub(imports, text).split())


def read(path):
    with open(path, encoding="utf-8") as file:
        return file.read()


def words_in(texts):
    """The words in texts."""
    return set().union(*(re.findall(r"\w+", it) for it in texts))


def imports_in(text):
    """What a text names of other files: pairs of a module and a name in it, or None for whatever is in it."""
    for module, names in IMPORT.findall(text):
        # the variants of a type are in a module below that of the type
        module, variants, _ = module.partition(".TheVariants")
        if variants:
            yield module, None
        elif names:
            yield from ((module, it.split(" as ")[0].strip()) for it in names.split(","))
        else:
            yield from ((module, None), module.rpartition(".")[::2])


class Definition:
    """A definition of a crate: its module, the names that it gives, its text, the words in that and what it names of other files."""

    def __init__(self, module, names, text):
        self.module, self.names, self.text, self.words, self.imports = module, names, text, words_in([text]), {*imports_in(text)}

    def is_met(self, imports, words):
        """Whether one of these imports is of it, or, if a name of its module is met, one of the words of that module; or it has no word for a name."""
        if self.module not in words:
            return False
        return None in self.names or (self.module, None) in imports or any((self.module, it) in imports or it in words[self.module] for it in self.names)


def met(defined, texts):
    """Those of the definitions that these texts name, by way of others, too; and the rest."""
    found, rest, imports, words = [], defined, {it for text in texts for it in imports_in(text)}, {}
    while True:
        for module, _ in imports:
            words.setdefault(module, set())
        parted = [], []
        for it in rest:
            parted[0 if it.is_met(imports, words) else 1].append(it)
        if not parted[0]:
            return sorted(found, key=lambda it: (it.module, it.text)), rest
        found, rest = found + parted[0], parted[1]
        for it in parted[0]:
            words[it.module] |= it.words
            imports |= it.imports


class Checksums:
    """Checksums of the edits of a checkout. What several of them rest on is read once."""

    def __init__(self, crates, logic):
        self.crates, self.logic, self.promises, self.own, self.words, self.shared = crates, logic, {}, {}, {}, {}

    def promised(self, name):
        """What a crate promises those above it, but for its lemmas: what its files show, and its definitions."""
        if name not in self.promises:
            folder, shown, defined = self.crates.folder(name), [], []
            for path in files_of(folder):
                place = os.path.relpath(path, folder)
                if place.startswith("specs/"):
                    module = ".".join([name, *place.removesuffix(".antt").split("/")])
                    defined += [Definition(module, *it) for it in definitions(antt_text(read(path)))]
                elif place.endswith(".rt") and (text := signatures(read(path))):
                    shown.append((f"{name}/{place}", text))
            self.promises[name] = shown, defined
        return self.promises[name]

    def cited(self, name):
        """The lemma files of crates below that a crate's proofs cite."""
        found = set()
        for path in files_of(self.crates.folder(name)):
            for crate, lemmas in re.findall(r"Rattle\.(\w+)\.proofs\.([\w.]*\w)", read(path) if path.endswith(".antt") else ""):
                place = lemmas.replace(".", "/")
                while place and not os.path.isfile(f"{self.crates.folder(crate)}/proofs/{place}.antt"):
                    place = place.rpartition("/")[0]
                if crate != name and place:
                    found.add((crate, place))
        return [(crate, place, antt_text(read(f"{self.crates.folder(crate)}/proofs/{place}.antt"))) for crate, place in sorted(found)]

    def own_files(self, name):
        """All that a check reads of the crate itself."""
        if name not in self.own:
            folder = self.crates.folder(name)
            self.own[name] = [(os.path.relpath(path, folder), read(path)) for path in files_of(folder)]
        return self.own[name]

    def words_of(self, name):
        """The words in a crate's own files."""
        if name not in self.words:
            self.words[name] = words_in(text for _, text in self.own_files(name))
        return self.words[name]

    def named(self, name, text):
        """The crates that are listed for a crate, and that its files or this text name."""
        words = self.words_of(name) | words_in([text])
        return sorted(it for it in self.crates.deps[name] if it in words)

    def rests(self, name):
        """A checksum of what all edits of a crate rest on, and the definitions below that nothing in it names."""
        if name not in self.shared:
            below = sorted(self.crates.below(name))
            parts = [*self.own_files(name), *(it for crate in below for it in self.promised(crate)[0]), *self.cited(name)]
            found, others = met([it for crate in below for it in self.promised(crate)[1]], [it[-1] for it in parts])
            rests = self.logic, name, below, parts, [(it.module, it.text) for it in found]
            self.shared[name] = hashlib.sha256(repr(rests).encode()).hexdigest(), others
        return self.shared[name]

    def of(self, name, text):
        """The checksum of all that the verdict on an edit of the crate rests on."""
        shared, others = self.rests(name)
        more = [(it.module, it.text) for it in met(others, [text])[0]]
        return hashlib.sha256(repr((shared, self.named(name, text), more, text)).encode()).hexdigest()[:32]


def read_rows(path):
    """The kept verdicts: for each edit its checksum and the goals that refused it."""
    if not os.path.isfile(path):
        return {}
    rows = (line.split("\t") for line in read(path).split("\n")[2:] if line)
    return {edit: (checksum, goals) for edit, checksum, goals in rows}


def write_rows(path, rows):
    head = "# written by `.ci/must_fail --keep` alone: each wrong body, what its verdict rests on, and the goals that refused it"
    lines = [head, "\t".join(COLUMNS), *("\t".join([edit, *rows[edit]]) for edit in sorted(rows))]
    with open(path, "w", encoding="utf-8") as file:
        file.write("".join(f"{line}\n" for line in lines))


def sample(edits, commit):
    """A tenth of these edits at least, by the hash of the commit: those of some crates, since the first of a crate costs most."""
    crates = sorted({it.crate for it in edits}, key=lambda it: hashlib.sha256(f"{commit} {it}".encode()).hexdigest())
    chosen = []
    for crate in crates:
        if 10 * len(chosen) >= len(edits):
            break
        chosen += [it for it in edits if it.crate == crate]
    return chosen

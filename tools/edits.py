#!/usr/bin/env python3
"""Reads the edits, and looks whether they apply to the sources, and whether they and docs/claims.tsv name one another.

  tools/edits.py                     checks; each fault has a line, and then this ends with status 1
  tools/edits.py --claims [WORD ..]  prints the edits of each claim, or of those whose names hold one of the words

CONTRIBUTING.md says how an edit is written. It applies where each old text stands exactly once in its file, or behind
the line of 'within:', and where the edit changes something. An edit that names what there is not can't compile, and
judges nothing. So each function and method that a new text calls stands in a source, in the edit itself, or in OF_STD.

A row of docs/claims.tsv has the names of claims, with commas between. A claim has an edit, or its row says why there is
none. Each clause of a row is one, or what a clause cites (a ghost member, a definition, a trait, a function).
"""
import pathlib
import re
import sys
from typing import NamedTuple

TOP = pathlib.Path(__file__).resolve().parent.parent


class Misplaced(Exception):
    """An edit does not apply, and this says why."""


class Change(NamedTuple):
    """One pair of texts: the file, the old text, the new one, and that of the impl or function that it stands in."""

    file: str
    old: str
    new: str
    within: str | None

    def at(self, text):
        """Returns where the old text stands."""
        what, sought = ("text of 'within:'", self.within) if self.within else ("old text", self.old)
        if text.count(sought) != 1:
            raise Misplaced(f"its {what} stands {text.count(sought)} times in {self.file}: {sought.strip()}")
        begin, end = 0, len(text)
        if self.within:
            # (up to the bracket that stands as far in as the line of `within`)
            head = text.partition(self.within)[0]
            line, begin = head.rpartition("\n")[2] + self.within, text.index("\n", len(head))
            end = text.find(f"\n{line[:indent_of(line)]}}}\n", begin)
        at = text.find(self.old, begin, end)
        if at < 0:
            raise Misplaced(f"its old text does not stand within {self.within.strip()} in {self.file}")
        return at


class Edit:
    """One edit of a crate: the file of edits that it stands in, its name, its claims, and its changes."""

    def __init__(self, home, name, lines, file):
        self.home, self.name, self.claims, self.changes, self.at_landing = home, name, [], [], False
        self.crate, self.kind = home.relative_to(TOP / "crates").parts[:2]
        self.module = str(home.relative_to(TOP / "crates" / self.crate / self.kind).with_suffix(""))
        self.path, self.unread = f"{self.module}/{name}", []
        within = old = None
        for line in lines:
            key, _, text = line.partition(":")
            text = text.removeprefix(" ")
            if key == "claim":
                self.claims = [claim.strip() for claim in text.split(",")]
            elif line == "landing: yes":
                self.at_landing = True
            elif key == "file":
                file = text.strip()
            elif key == "within" and old is None:
                within = text
            elif key == "old" and text and old is None:
                old = text
            elif key == "new" and file and old is not None:
                self.changes.append(Change(file, old, text, within))
                within = old = None
            elif key != "for" and line != lines[0]:
                self.unread.append(line)
        self.unread += ["the last pair"] if within or old is not None or not self.changes else []
        self.unread += [] if lines[0].startswith("edit: ") else [lines[0]]

    def __str__(self):
        return f"{self.crate}/{self.path}"

    def is_at_home(self):
        """Whether it stands in the file of the module that it changes first, or of one above it where it is of a word."""
        of = self.changes[0].file.removesuffix(".rt").partition("/")[2].removesuffix("/mod")
        return self.module == of or self.name.endswith("]") and of.startswith(self.module)

    def steps(self, texts):
        """Yields each change, the number of its line, and the edited text of its file, of the texts of the crate's files.
        No line moves, as each text is one line."""
        made = dict(texts)
        for change in self.changes:
            if change.file not in made:
                raise Misplaced(f"there is no file {change.file}")
            text = made[change.file]
            at = change.at(text)
            made[change.file] = text[:at] + change.new + text[at + len(change.old):]
            yield change, text.count("\n", 0, at), made[change.file]

    def texts_in(self, texts):
        """Returns the files that it changes and their edited texts."""
        made = {change.file: text for change, _, text in self.steps(texts)}
        if all(texts[file] == text for file, text in made.items()):
            raise Misplaced("it changes nothing")
        return made


def edits_in(home):
    """Yields the edits of a file of edits. A block with a line 'for: ..' is one for each of its words."""
    head, *blocks = re.split(r"\n\n+", home.read_text(encoding="utf-8").rstrip("\n"))
    file = head.removeprefix("file: ") if head.startswith("file: ") else None
    for block in blocks if file else [head, *blocks]:
        lines = block.split("\n")
        name = lines[0].removeprefix("edit: ")
        words = next((line[len("for: "):].split() for line in lines if line.startswith("for: ")), None)
        for word in words or [None]:
            if word is None:
                yield Edit(home, name, lines, file)
            else:
                its = [line.replace("$", word) for line in lines]
                yield Edit(home, f"{name}[{word}]", its, file and file.replace("$", word))


def edits(crate="*", kind="mutants"):
    """Returns the edits of one kind, of a crate or of all."""
    return [edit for home in sorted(TOP.glob(f"crates/{crate}/{kind}/**/*.edits")) for edit in edits_in(home)]


def sources_of(crate):
    """Returns the texts of the sources of a crate, by their paths below its folder."""
    folder = TOP / "crates" / crate
    return {str(it.relative_to(folder)): it.read_text(encoding="utf-8") for it in folder.glob("src/**/*.rt")}


class Function(NamedTuple):
    """A function of a source: the line of its impl or trait, its name, its lines, and the first line of the impl."""

    block: str | None
    name: str
    first: int
    last: int
    block_first: int | None


FUNCTION = re.compile(r"(?:pub(?:\(\w+\))? )?(?:const |unsafe )*fn (\w+)")
BLOCK = re.compile(r"impl\b|(?:pub(?:\(\w+\))? )?trait (\w+)")


def indent_of(line):
    return len(line) - len(line.lstrip())


def functions_in(text):
    """Yields the functions of a source, as rt fmt lays them out."""
    lines, block, block_first = text.split("\n"), None, None
    for number, line in enumerate(lines):
        words = line.strip()
        if block and line.startswith(">"):
            # (the first line of a long impl goes on behind the arguments of its trait)
            block += words
        elif words and indent_of(line) == 0 and not words.startswith(("//", "#", "}", "{", ")", "where")):
            block, block_first = (words, number) if BLOCK.match(words) else (None, None)
        found = FUNCTION.match(words)
        if found and indent_of(line) == (4 if block else 0):
            yield Function(block, found[1], number, last_line(lines, number), block_first)


def last_line(lines, first):
    """Returns the number of the last line of the function that begins there: that of its last bracket, or of the
    semicolon of a signature without a body."""
    indent, has_body = indent_of(lines[first]), lines[first].endswith("{")
    for number in range(first, len(lines)):
        words, is_level = lines[number].strip(), indent_of(lines[number]) == indent
        if is_level and (words == "}" or words.endswith("{}")) or not has_body and words.endswith(";"):
            return number
        has_body = has_body or is_level and words == "{"
    return first


def functions_at(text, line):
    """Returns the function that has this line, and whether there is one; else those of its impl, else those of all."""
    found = list(functions_in(text))
    around = [it for it in found if it.first <= line <= it.last]
    if around:
        return around, True
    behind = [it for it in found if it.block_first is not None and it.block_first <= line <= it.last]
    return [it for it in found if behind and it.block_first == behind[0].block_first] or found, False


# A word with a bracket behind it, perhaps with type arguments between: a call.
CALL = re.compile(r"\b([A-Za-z_]\w*)(?:::<[^()]*>)?\(")
DEFINED = re.compile(r"\bfn ([A-Za-z_]\w*)")
WORD = re.compile(r"\b[A-Za-z_]\w*")
# Functions of std that edits call and no source does.
OF_STD = {"error_len", "filter", "is_err", "pop", "rev", "reverse", "sort", "to_ascii_lowercase", "truncate"}
# What the column of clauses may name: clauses and ghost members, functions and traits, and definitions.
NAMED = {
    "src/**/*.rt": r"(?:ensures|requires|ghost|fn|trait|struct|enum)\*? ([\w-]+)",
    "specs/**/*.antt": r"^(?:abbrev pub|unfoldable pub|pub record|pub data|pub) ([\w-]+)",
}
CLAIM = re.compile(r"[a-z0-9]+(?:-[a-z0-9]+)*")


class Claim(NamedTuple):
    """One claim of docs/claims.tsv."""

    place: str
    name: str
    clauses: list
    may_have_none: bool


def claims():
    """Returns the claims of docs/claims.tsv, whose first line has the names of the columns."""
    found, rows = [], (TOP / "docs/claims.tsv").read_text(encoding="utf-8").splitlines()
    for number, row in enumerate(rows[1:], 2):
        _, names, why_none, clauses, _, _ = row.split("\t")
        for name in filter(None, names.split(", ")):
            found.append(Claim(f"docs/claims.tsv:{number}", name, [it for it in clauses.split(", ") if it], bool(why_none)))
    return found


def faults_of(edit, texts, names, words):
    """Yields what is wrong with an edit, given the texts of its crate, the names of claims and the words of sources."""
    if edit.unread:
        yield f"nothing reads: {'; '.join(edit.unread)}"
        return
    try:
        edit.texts_in(texts)
    except Misplaced as why:
        yield f"does not apply: {why}"
    if bool(edit.claims) != (edit.kind == "mutants"):
        yield "an edit of mutants/ has a line 'claim: ..', and no other has"
    if edit.kind == "mutants" and not edit.is_at_home():
        yield f"it stands in another file than that of the module of {edit.changes[0].file}"
    for name in set(edit.claims) - names:
        yield f"docs/claims.tsv has no claim {name}"
    olds, news = " ".join(it.old for it in edit.changes), " ".join(it.new for it in edit.changes)
    for name in sorted(set(CALL.findall(news)) - words - OF_STD - set(WORD.findall(olds)) - set(DEFINED.findall(news))):
        yield f"it calls {name}, which no source has"


def faults_of_claims(found, of):
    """Yields what is wrong with the claims, given the edits of each."""
    texts = ((file, words) for folder, words in NAMED.items() for file in TOP.glob(f"crates/*/{folder}"))
    known = {name for file, words in texts for name in re.findall(words, file.read_text(encoding="utf-8"), re.M)}
    names = [claim.name for claim in found]
    for claim in found:
        if not CLAIM.fullmatch(claim.name) or names.count(claim.name) > 1:
            yield f"{claim.place}: {claim.name} is no name of a claim, or that of two"
        if not of[claim.name] and not claim.may_have_none:
            yield f"{claim.place}: no edit turns {claim.name}, and it does not say that there is no code to turn"
        for name in claim.clauses:
            if name.split("::")[-1] not in known:
                yield f"{claim.place}: there is no clause {name}"


def main(*words):
    all_edits, found = [*edits(), *edits(kind="must-not-compile")], claims()
    of = {claim.name: [edit for edit in all_edits if claim.name in edit.claims] for claim in found}
    if words:
        if words[0] != "--claims":
            sys.exit(__doc__)
        for claim in found:
            if not words[1:] or any(word in claim.name for word in words[1:]):
                print("\n  ".join([claim.name, *(f"{it}{', at each landing' * it.at_landing}" for it in of[claim.name])]))
        return 0
    texts = {folder.name: sources_of(folder.name) for folder in TOP.glob("crates/*")}
    code = " ".join(re.sub(r"//.*", "", text) for its in texts.values() for text in its.values())
    known, paths = set(WORD.findall(code)), [str(edit) for edit in all_edits]
    wrong = [f"{edit}: {fault}" for edit in all_edits for fault in faults_of(edit, texts[edit.crate], set(of), known)]
    wrong += [f"{path}: two edits have this name" for path in sorted(set(paths)) if paths.count(path) > 1]
    wrong += faults_of_claims(found, of)
    print("\n".join([*wrong, f"{len(all_edits)} edits, {len(wrong)} faults"]))
    return 1 if wrong else 0


if __name__ == "__main__":
    sys.exit(main(*sys.argv[1:]))

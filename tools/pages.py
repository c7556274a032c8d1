#!/usr/bin/env python3
"""Prints what the files of the crates say of themselves, so that no page has to say it again, and counts the pages' words.

tools/pages.py modules [CRATE]         each crate, and in it each module with its `//!` lines, and each file of
                                       definitions with its first comment; a module stands behind those it uses
tools/pages.py definitions [WORD ..]   each definition in specs/ (outside specs/Laws) whose name or comment holds
                                       one of the words: its file, its comment, the calls and ghost members whose
                                       contracts name it, and the definitions that do
tools/pages.py claims [WORD ..]        the rows of docs/claims.tsv that hold one of the words: what is claimed, by which
                                       clauses of which calls
tools/pages.py functions [CRATE ..]    each public function outside impls and traits, with the names of its clauses and
                                       its comment
tools/pages.py lines [CRATE ..]        the lines of definitions, of lemmas in specs/Laws and of proofs of each crate,
                                       without imports, comments and empty lines
tools/pages.py names                   the public names that two definitions or lemmas in specs/ have, with their files;
                                       status 1 where there is one
tools/pages.py words                   the words of each page beside its budget, and its sentences of more than 25
                                       words; status 1 where a page is above its budget, more than one sentence in
                                       twenty is too long, or a page links to a file that is not there

A word is looked for anywhere, in either case; `=Exactly` is that name alone. A name counts where its file has it by
`use` or `ghost use`. Functions that are not `pub`, and tests, are left out.

Words are counted as `wc -w` counts them, with code and tables. A sentence ends at `.`, `?` or `!` before a space, and
where a paragraph, an item of a list or a cell of a table ends. In a sentence what stands between backticks is one word,
and so is a link. Blocks of code have no sentences, and four words or fewer are none.
"""
import functools
import pathlib
import re
import signal
import sys

TOP = pathlib.Path(__file__).resolve().parent.parent
read = functools.partial(pathlib.Path.read_text, encoding="utf-8")
CRATES = dict(line.split(":") for line in read(TOP / "crates.txt").splitlines() if not line.startswith("#"))
HEAD = re.compile(r"^(?:(?:abbrev|unfoldable|pub|record|data) )+([\w'◌]+)(?: [^=\n]*)? : ", re.M)
USE = re.compile(r"^(?:ghost )?use Rattle\.([\w.]+?)\.\{([^}]*)\}", re.M)
CLAUSE = re.compile(r"\s*(?:ensures|requires|ghost (?!use )(\w+))\b")
CALL = re.compile(r"\s*(pub )?(?:pub\(crate\) )?(?:const |unsafe )*fn (\w+)")
OWNER = re.compile(r"(pub )?(?:pub\(crate\) )?(impl|trait)\b(.*)")


def bottom_up(texts):
    """The modules, each behind those that it uses, as far as these do not use it."""
    order = []

    def visit(name, above):
        if name in texts and name not in above and name not in order:
            for used in re.findall(r"^use crate::([\w:]+)", texts[name], re.M):
                parts = used.split("::")
                fronts = ("/".join(parts[:n]) for n in range(len(parts), 0, -1))
                visit(next((m for m in fronts if m in texts), ""), above | {name})
            order.append(name)

    for name in sorted(texts, key=lambda m: (m == "lib", m)):
        visit(name, set())
    return order


def spec_files(crate):
    """The files of definitions, each with its path as `use` has it."""
    folder = TOP / "crates" / crate / "specs"
    for path in sorted(folder.rglob("*.antt")):
        parts = path.relative_to(folder).with_suffix("").parts
        if "Laws" not in parts and parts[0] != "Lib":
            yield path, ".".join([crate, "specs", *parts])


def modules(names):
    for crate in (crate for crate in CRATES if not names or crate in names):
        source = TOP / "crates" / crate / "src"
        paths = source.rglob("*.rt")
        texts = {re.sub(r"(/mod)?\.rt$", "", str(path.relative_to(source))): read(path) for path in paths}
        print(f"{crate}, on{CRATES[crate] or ' std alone'}")
        for name in bottom_up(texts):
            said = [line[3:].strip() for line in texts[name].splitlines() if line.startswith("//!")]
            print(f"  {name}: {' '.join(filter(None, said))}")
        for path in (path for path, _ in spec_files(crate) if read(path).startswith("-- ")):
            first = re.match(r"(?:-- .*\n)+", read(path))[0]
            print(f"  {path.relative_to(source.parent)}: {first.replace('-- ', '').replace(chr(10), ' ').strip()}")


def names_from(text):
    """What the names of a text stand for: the file that each is from, and its name there."""
    pairs = [(path, item.split(" as ")) for path, items in USE.findall(text) for item in items.split(",")]
    return {item[-1].strip(" \n◌"): (path, item[0].strip()) for path, item in pairs}


def contracts(text):
    """The clauses of a source file, and its ghost members, each with what it belongs to."""
    owner, public, call, lines = "", False, "", text.splitlines()
    for i, line in enumerate(lines):
        head, function, clause = OWNER.match(line), CALL.match(line), CLAUSE.match(line)
        if head:
            public = " for " in line or line.startswith("pub ")
            owner = re.sub(r"<[^<>]*>", "", re.sub(r"<[^<>]*>", "", head[3]))
            owner = re.split(r" where| \{|:", owner.replace("::", "."))[0].strip() + " "
        elif line == "}":
            owner, public = "", False
        call = call if not function else function[2] if function[1] or public else ""
        if clause and (clause[1] or call):
            ends = (j for j in range(i + 1, len(lines)) if lines[j].strip() in ("", "{") or CLAUSE.match(lines[j]))
            yield owner + (clause[1] or call), " ".join(lines[i:next(ends, len(lines))])


def definitions(words):
    found, callers, citers = [], {}, {}
    for crate in (crate for crate in CRATES if not crate.startswith("test")):
        for path, place in spec_files(crate):
            text = read(path)
            heads = list(HEAD.finditer(text))
            known = {**names_from(text), **{head[1].strip("◌"): (place, head[1]) for head in heads}}
            for head, after in zip(heads, [*[h.start() for h in heads[1:]], len(text)]):
                comment = re.search(r"(?:^-- .*\n)*\Z", text[:head.start()], re.M)[0]
                said = comment.replace("-- ", "").replace("\n", " ").strip() or "(no comment)"
                found.append((path, place, head[1], said))
                for name in known.keys() & set(re.findall(r"[\w']+", text[head.end():after])) - {head[1]}:
                    citers.setdefault(known[name], []).append(head[1])
        for path in sorted((TOP / "crates" / crate / "src").rglob("*.rt")):
            known = names_from(read(path))
            for call, clause in contracts(read(path)):
                for name in known.keys() & set(re.findall(r"[\w']+", clause)):
                    callers.setdefault(known[name], []).append(f"{crate} {call}")
    for path, place, name, comment in found:
        if not words or any(w[1:] == name if w[0] == "=" else w.lower() in f"{name} {comment}".lower() for w in words):
            print(f"{path.relative_to(TOP)}: {name}\n  {comment}")
            for title, names in (("in contracts of", callers), ("in", citers)):
                if (place, name) in names:
                    print(f"  {title} {', '.join(dict.fromkeys(names[place, name]))}")


PUBLIC = re.compile(r"(?:  )?(?:abbrev |unfoldable )?pub (?:record |data )?(?!mod |use )([\w'◌]+)(?= |$)")


def public_names(text):
    """The public names of a file of definitions, those in a block `module` too. Fields have none."""
    block = ""
    for line in text.splitlines():
        block = line if line[:1].strip() and not line.startswith("--") else block
        head = PUBLIC.match(line)
        if head and (block is line or block.startswith("module ")):
            yield head[1]


def names(_):
    found = {}
    for path in sorted(TOP.glob("crates/*/specs/**/*.antt")):
        for name in public_names(read(path)):
            found.setdefault(name, []).append(str(path.relative_to(TOP)))
    double = {name: places for name, places in sorted(found.items()) if len(places) > 1}
    for name, places in double.items():
        print(f"{name}: {', '.join(places)}")
    print(f"{len(found)} public names of specs/, {len(double)} of two definitions")
    sys.exit(1 if double else 0)


FUNCTION = re.compile(r"((?:^/// ?.*\n)*)(?:^(?://|#\[).*\n)*^pub (?:const )?fn (\w+)((?:.*\n)+?)(?:.*\{\}|\{)$", re.M)


def functions(names):
    for crate in (crate for crate in CRATES if not names or crate in names):
        source = TOP / "crates" / crate / "src"
        for path in sorted(source.rglob("*.rt")):
            for said, name, head in FUNCTION.findall(read(path)):
                clauses = re.findall(r"^    ensures (\w+) \{", head, re.M)
                place = path.relative_to(source).with_suffix("")
                print(f"{crate}/{place}: {name} ({', '.join(clauses) or 'one clause'})")
                print(f"  {' '.join(said.replace('///', '').split())}")


def claims(sought):
    section = ""
    for row in read(TOP / "docs/claims.tsv").splitlines()[1:]:
        if not sought or any(word in row for word in sought):
            under, name, why_none, clauses, calls, says = row.split("\t")
            if under != section:
                section = under
                print(section)
            named = name + f" ({why_none})" * bool(why_none) + f" by {clauses}" * bool(clauses)
            print(f"  {' '.join(filter(None, [named, f'of {calls}' * bool(calls)]))}{':' * bool(name and says)} {says}".rstrip())


def counted(paths):
    """How many lines of files neither import nor comment."""
    texts = (re.sub(r"^(?:pub )?use .*?(?:\}|$)", "", re.sub(r"\s*--.*", "", read(path)), flags=re.M | re.S) for path in paths)
    return sum(bool(line.strip()) for text in texts for line in text.splitlines())


def lines(names):
    for crate in (crate for crate in CRATES if not names or crate in names):
        folder, own = TOP / "crates" / crate, [path for path, _ in spec_files(crate)]
        laws = [path for path in folder.glob("specs/**/*.antt") if path not in own]
        print(f"{crate}: {counted(own)} of definitions, {counted(laws)} of lemmas,", end=" ")
        print(f"{counted(folder.glob('proofs/**/*.antt'))} of proofs")


# The most words of each page.
BUDGETS = {
    "README.md": 1200,
    "docs/GUIDE.md": 3200,
    "docs/EXTENDING.md": 1800,
    "docs/STANDARD.md": 1300,
    "docs/TRUST.md": 1000,
    "docs/DEFINITIONS.md": 1600,
    "docs/ARCHITECTURE.md": 1300,
    "docs/DECISIONS.md": 1500,
    "docs/TYPES_AS_VALUES.md": 1500,
    "docs/DIFFERENCES.md": 1700,
    "docs/SPEED.md": 900,
    "CONTRIBUTING.md": 1500,
    "crates/asn1_json/README.md": 1000,
    "crates/asn1_typed/README.md": 850,
    "crates/x690/src/lib.rt": 300,
    "crates/asn1_headers/src/lib.rt": 300,
    "crates/asn1_rs/src/lib.rt": 300,
}
# The page of a crate, and all other pages together.
OF_A_CRATE, OF_THE_REST = 700, 1500
LONGEST = 25


def page(path):
    """The text of a page, which of a source is in its `//!` lines."""
    return read(path) if path.suffix == ".md" else "\n".join(re.findall(r"^//! ?(.*)$", read(path), re.M))


def sentences(text):
    """The sentences of a page."""
    text = re.sub(r"^```.*?^```$|<!--.*?-->", "", text, flags=re.M | re.S)
    text = re.sub(r"^(?: {4,}\S|#|\|[-|: ]+$).*$", "", text, flags=re.M)
    text = re.sub(r"`[^`\n]+`", "code", text)
    text = re.sub(r"\[([^\]\n]*)\]\([^)\n]*\)", "link", text)
    for part in re.split(r"\n\s*\n|\n *(?:[-*]|\d+\.) |\|", text):
        yield from (it for it in re.split(r"(?<=[.?!])[)\"*]*\s", part.strip()) if len(it.split()) > 4)


def words(_):
    paths = [*TOP.glob("*.md"), *sorted((TOP / "docs").glob("*.md")), *sorted((TOP / "crates").glob("*/*.md"))]
    paths += [TOP / name for name in BUDGETS if name.endswith(".rt")]
    names = [str(path.relative_to(TOP)) for path in paths]
    faults, rest = [f"{name}: there is no such page" for name in BUDGETS.keys() - set(names)], 0
    for path, name in zip(paths, names):
        count, said = len(page(path).split()), list(sentences(page(path)))
        long = [it for it in said if len(it.split()) > LONGEST]
        most = BUDGETS.get(name, OF_A_CRATE if name.startswith("crates/") else None)
        rest += count if most is None else 0
        print(f"{name}: {count} words of {most or OF_THE_REST}, {len(long)} of {len(said)} sentences are too long")
        if most and count > most:
            faults.append(f"{name}: {count - most} words above its budget")
        if len(long) * 20 > len(said):
            faults += [f"{name}: {len(it.split())} words: {' '.join(it.split())}" for it in long]
        targets = re.findall(r"\]\((?!\w+:)([^)#\s]+)", page(path))
        faults += [f"{name}: there is no {it}, to which it links" for it in targets if not (path.parent / it).exists()]
    if rest > OF_THE_REST:
        faults.append(f"all other pages: {rest - OF_THE_REST} words above their budget")
    print("\n".join(faults) or "each page is within its budget")
    sys.exit(1 if faults else 0)


if __name__ == "__main__":
    signal.signal(signal.SIGPIPE, signal.SIG_DFL)
    if sys.argv[1:2] not in (["modules"], ["definitions"], ["functions"], ["claims"], ["lines"], ["names"], ["words"]):
        sys.exit(__doc__)
    globals()[sys.argv[1]](sys.argv[2:])

#!/usr/bin/env python3
"""Lists the functions that reading an element by BER calls, and ends with status 1 where docs/ARCHITECTURE.md has
another list, or names one there before a function that it calls. A function that calls itself, directly or through
others, has no such place: so no octets make a reader recurse.

It goes by names: a function calls each one whose name stands before a bracket in its body, in the sources below, or is
handed on there, as in `map(read)`. Two functions of one name count as one, so a cycle that it tells may be none; one
that is there is told. Closures stand in the body that makes them. The names in OF_STD are those of calls of std there,
though a method of ours has them too.
"""
import pathlib
import re
import sys

TOP = pathlib.Path(__file__).resolve().parent.parent
SOURCES = ("crates/x690/src", "crates/asn1_headers/src", "crates/asn1_rs/src/ber.rt")
# The reading of `Any::from_ber` and of all types by BER, that with a count, and the two calls for contents octets.
ROOTS = ("element_by_ber", "any_from_ber_counted", "parse_ber_content", "get_object_content")
OF_STD = {"len", "new", "from"}
COMMENT = re.compile(r"//[^\n]*")
CLAUSE = re.compile(r"\b(?:requires|ensures|invariant|decreases)\b[\w\s]*$")
CALL = re.compile(r"(?<!fn )\b(\w+)(?:::<[^;(){}]*>)?\(")
# An argument that is a name alone, which is a function's where the function does not bind it: by `let`, as a parameter,
# in an arm, in a closure or by `for`.
ALONE = re.compile(r"(?<=[(,])\s*(?:\w+::)*(\w+)(?:::<[^;(){}]*>)?\s*(?=[,)])")
BOUND = re.compile(r"\blet\b([^=;]*)[=;]|(\w+)\s*:(?!:)|([^{};]*)=>|\|([^|]*)\||\bfor\b(.*?)\bin\b")
# The lines of the page's list.
LISTED = re.compile(r"`tools/calls.py`[^\n]*\n\n((?:\d\. [^\n]*\n)+)")


def end_of_block(text, at):
    """Returns where the block ends that begins at this bracket."""
    depth = 0
    for at in range(at, len(text)):
        depth += {"{": 1, "}": -1}.get(text[at], 0)
        if depth == 0:
            return at + 1
    return len(text)


def calls(text):
    """Yields the name of each function of a source that has a body, and the names that are called there."""
    text = COMMENT.sub("", text)
    for found in re.finditer(r"\bfn (\w+)", text):
        at = begin = found.end()
        while text[at] not in "{;" or CLAUSE.search(text[begin:at]) or text[begin:at].count("[") > text[begin:at].count("]"):
            at = end_of_block(text, at) if text[at] == "{" else at + 1
        end = end_of_block(text, at)
        bound = re.findall(r"\w+", " ".join(word for it in BOUND.findall(text[begin:end]) for word in it))
        handed = set(ALONE.findall(text[at:end])).difference(bound)
        yield found[1], [*CALL.findall(text[at:end]), *handed] if text[at] == "{" else []


def main():
    graph = {}
    for source in SOURCES:
        for file in sorted(TOP.glob(f"{source}/**/*.rt")) or [TOP / source]:
            for name, called in calls(file.read_text(encoding="utf-8")):
                graph.setdefault(name, set()).update(set(called) - OF_STD)
    reached = list(ROOTS)
    for name in reached:
        reached += sorted((graph[name] & graph.keys()).difference(reached))
    page = (TOP / "docs/ARCHITECTURE.md").read_text(encoding="utf-8")
    listed = re.findall(r"`(\w+)`", LISTED.search(page)[1])
    if sorted(listed) != sorted(reached):
        odd = sorted(set(listed) ^ set(reached)) or "one twice"
        sys.exit(f"docs/ARCHITECTURE.md lists other functions than reading by BER calls: {odd}")
    for place, name in enumerate(listed):
        if early := sorted(graph[name] & set(listed[place:])):
            sys.exit(f"{name} calls {early[0]}, and docs/ARCHITECTURE.md lists that behind it: a reader may recurse")
    print(f"{len(listed)} functions read an element by BER, and none calls itself: {', '.join(listed)}")


if __name__ == "__main__":
    main()

#!/usr/bin/env python3
"""Writes what no macro may write in `asn1_rs`: the impls of `ReadsType` and `WritesType` of leaf types, and flat calls.

tools/leaves.py           writes them between the marker lines of `structs/leaves_*.rt` and `structs/flat.rt`; then
                          call `rt fmt`
tools/leaves.py --check   status 1 where what stands there is not what it would write

The leaf types are those without a parameter that have `LawfulType` in `structs/types.rt`.
"""
import pathlib
import re
import sys

STRUCTS = pathlib.Path(__file__).resolve().parent.parent / "crates" / "asn1_rs" / "src" / "structs"
BEGIN, END = "// written by tools/leaves.py: from here\n", "// written by tools/leaves.py: to here\n"
IMPL = """\
impl<'a> ReadsType<'a, {parser}> for {leaf} {{
    ghost numbered = {{ numbered_of ⟦<{leaf} as LawfulType>⟧.type_laws }};

    ghost type_gives = {{ ⟦<{leaf} as From{rules}<'a, Error>>⟧.{low}_gives }};

    ghost lawful_type = {{ lawful_numbered ⟦<{leaf} as LawfulType>⟧.type_laws refl }};

    #[inline(always)]
    fn is_left_out(octets: &'a [u8]) -> bool {{
        left_out_by_{low}::<{leaf}>(octets)
    }}

    #[inline(always)]
    fn read_type(alloc: Global, octets: &'a [u8]) -> ParseResult<'a, {leaf}, Error> {{
        type_by_{low}(alloc, octets)
    }}
}}
"""


PUT = """\
impl<'a> WritesType for {leaf} {{
    ghost type_writing = {{ ⟦<{leaf} as LawfulType>⟧.type_laws.writing }};

    ghost has_its_value = {{ HasItsValue ⟦<{leaf} as LawfulType>⟧.type_laws.grammar }};

    #[inline(always)]
    fn put_type(&self, fields: &mut Fields) -> SerializeResult<()> {{
        fields.put(self)
    }}

    fn assert_type_valid(&self) {{
        self.has_value();
    }}
}}
"""


def leaves():
    """The leaf types, each with the lifetime of the octets that it is read from."""
    text = (STRUCTS / "types.rt").read_text(encoding="utf-8")
    for name in re.findall(r"^impl LawfulType for (.+) \{$", text, re.M):
        yield re.sub(r"^&(?=\S)", "&'a ", name.replace("'_", "'a"))


def read(rules, leaf):
    """The impl by which a leaf type is read by the rules."""
    return IMPL.format(parser=f"{rules}Parser", rules=rules, low=rules.lower(), leaf=leaf)


def put(leaf):
    """The impl by which it is written."""
    text = PUT.format(leaf=leaf)
    return text if "'a" in leaf else text.replace("impl<'a>", "impl")


def written(name, parts):
    """The file of this name, with the parts between its marker lines."""
    path = STRUCTS / f"{name}.rt"
    head, rest = path.read_text(encoding="utf-8").split(BEGIN)
    return path, head + BEGIN + "\n".join(parts) + END + rest.split(END)[1]


LETTERS = "ABCDEFGHIJKLMNOP"


def clause(word, parts, end):
    """A clause of at most 100 columns a line, in braces."""
    lines = [f"    {word} {{"]
    for part in [*parts, end]:
        if len(lines[-1]) + len(part) > 96:
            lines.append("       ")
        lines[-1] += f" {part}"
    return "\n".join(lines) + " }"


def of_fields(count, trait):
    """The type parameters and the parameters of so many fields."""
    names = LETTERS[:count]
    return ", ".join(f"{it}: {trait}" for it in names), ", ".join(f"{it.lower()}: &{it}" for it in names)


def puts(count):
    """The function that puts so many fields."""
    bounds, values = of_fields(count, "WritesField")
    others = f"put{count - 1}({''.join(f'{it.lower()}, ' for it in LETTERS[1:count])}fields)"
    parts = ["PutsRow", *(f"(put_then {it}.field_writing {it.lower()}.now" for it in LETTERS[:count])]
    end = "none_put" + ")" * count
    said = clause("ensures", [*parts, end, "(taken_in fields.old)", "(taken_in fields.new)"], "result")
    return f"""\
/// Puts the fields: in their order, or from the last to the first where they are put before the octets of a buffer.
#[inline(always)]
#[tactic(auto, using(crate::specs::Laws::Structs::Puts::both_ways))]
pub fn put{count}<{bounds}>({values}, fields: &mut Fields) -> SerializeResult<()>
{said}
{{
    if fields.goes_back() {{
        return match {others} {{
            Ok(()) => a.put_field(fields),
            Err(e) => Err(e),
        }};
    }}
    match a.put_field(fields) {{
        Ok(()) => {others},
        Err(e) => Err(e),
    }}
}}
"""


def states(count, name, trait, call, word, what):
    """The function that states something of each of so many fields."""
    bounds, values = of_fields(count, trait)
    said = clause("ensures", [f"{it}.{word} {it.lower()}.now ×" for it in LETTERS[:count]], "Unit {0}")
    calls = "".join(f"    {it.lower()}.{call}();\n" for it in LETTERS[:count])
    head = f"/// States of the fields in hand that {what}.\npub fn {name}{count}<{bounds}>({values})"
    return f"{head}\n{said}\n{{\n{calls}}}\n"


def asks(count):
    """The function that asks each of so many fields whether it is in DER form."""
    bounds, values = of_fields(count, "FieldTellsDer")
    parts = [f"{it}.in_der_form {it.lower()}.now ×" for it in LETTERS[:count]]
    said = clause("ensures", ["IsTrue result ↔", *parts], "Unit {0}")
    others = f" && are_der_fields{count - 1}({', '.join(LETTERS[1:count].lower())})" if count > 1 else ""
    return f"""\
/// Whether the fields in hand are in DER form. They are asked in turn, up to the first one that is not.
pub fn are_der_fields{count}<{bounds}>({values}) -> bool
{said}
{{
    a.is_der_field(){others}
}}
"""


def rows(count):
    """The type of a row of so many fields."""
    nested = "()"
    for it in reversed(LETTERS[:count]):
        nested = f"({it}, {nested})"
    fields = "one field" if count == 1 else f"{count} fields"
    return f"/// A row of {fields}.\npub type Row{count}<{', '.join(LETTERS[:count])}> = {nested};\n"


FILES = {
    "leaves_by_der": lambda: [read("Der", leaf) for leaf in leaves()],
    "leaves_by_ber": lambda: [read("Ber", leaf) for leaf in leaves()],
    "leaves_put": lambda: [put(leaf) for leaf in leaves()],
    "flat/puts": lambda: [puts(count) for count in range(1, 17)],
    "flat/assert_valid": lambda: [
        states(count, "assert_valid", "WritesField", "assert_field_valid", "has_a_value", "their values are those of their types")
        for count in range(1, 17)
    ],
    "flat/rows": lambda: [rows(count) for count in range(1, 17)],
    "flat/der_form": lambda: [asks(count) for count in range(1, 17)],
    "flat/in_der": lambda: [
        states(count, "in_der", "FieldIsDer", "field_is_der", "is_in_der", "their values are in DER form")
        for count in range(1, 17)
    ],
}


def squeezed(text):
    """The text without what `rt fmt` changes."""
    return re.sub(r",(?=[)}>])", "", re.sub(r"\s+", "", text))


def main():
    stale = 0
    for name, parts in FILES.items():
        path, text = written(name, parts())
        if squeezed(text) == squeezed(path.read_text(encoding="utf-8")):
            continue
        stale += 1
        if "--check" in sys.argv:
            print(f"{path.name}: is not what tools/leaves.py writes")
        else:
            path.write_text(text, encoding="utf-8")
    sys.exit(1 if stale and "--check" in sys.argv else 0)


main()

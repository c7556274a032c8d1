#!/usr/bin/env python3
"""Compares the trees in the tests from outside with those that `openssl asn1parse` prints of the same octets.

tools/outside.py                   asks openssl again for the tree of each input of tests/tests_outside
tools/outside.py tree FILE         prints the tree of a file of octets, as the tests have it
tools/outside.py held FILE         prints, in hexadecimal, what stands in the octet strings and bit strings of a file,
                                   one behind another, of those that openssl walks through as elements
tools/outside.py indefinite FILE   prints, in hexadecimal, the octets of a file with each constructed element in
                                   indefinite length, and each octet string of more than 200 octets in parts

A line of a tree is of one element: its depth, the number of its class, `c` for constructed or `p` for primitive, and
its tag number, as `3 0.p.2`; its count of contents octets, behind `inf` where the length is indefinite; and the name
that openssl has for its type, or `-` where it stands under another tag or is a string in parts. `contents` is behind
the name where its length octets are not the shortest, so that its contents octets alone are written as they were read.
The last line counts the elements, and those with a name.
"""
import pathlib
import re
import subprocess
import sys

SOURCES = pathlib.Path(__file__).resolve().parent.parent / "tests" / "tests_outside" / "trees"
NAMES = {
    "BOOLEAN": 1, "INTEGER": 2, "BIT STRING": 3, "OCTET STRING": 4, "NULL": 5, "OBJECT": 6, "ENUMERATED": 10,
    "UTF8STRING": 12, "SEQUENCE": 16, "SET": 17, "NUMERICSTRING": 18, "PRINTABLESTRING": 19, "T61STRING": 20,
    "IA5STRING": 22, "UTCTIME": 23, "GENERALIZEDTIME": 24, "VISIBLESTRING": 26, "GENERALSTRING": 27,
    "UNIVERSALSTRING": 28, "BMPSTRING": 30,
}
CLASSES = {"appl": 1, "cont": 2, "priv": 3}
LINE = re.compile(
    r" *(\d+):d=(\d+) +hl=(\d+) +l= *(\d+|inf) +(prim|cons): "
    r"(?:(\w+) \[ (\d+) \]|([A-Z0-9 ]+?) *(?:[:[].*)?$)"
)
CONSTANTS = re.compile(r'const (\w*)OCTETS: &str = "(.*?)";.*?const \1TREE: &str = "(.*?)";', re.S)


def shortest(number, length):
    """How many octets the shortest header has."""
    tag = 1 if number < 31 else 1 + -(-number.bit_length() // 7)
    return tag + (1 if length < 128 else 1 + -(-length.bit_length() // 8))


def lines_of(octets):
    """The lines of `openssl asn1parse`, as matches; None where it refuses the octets, or prints another line."""
    run = subprocess.run(["openssl", "asn1parse", "-inform", "der"], input=octets, capture_output=True)
    lines = [LINE.match(line) for line in run.stdout.decode("latin-1").splitlines()]
    return None if run.returncode or None in lines else lines


def elements_of(octets):
    """Of each line the place, depth, octets of the header, length, form, class, number and name."""
    for line in lines_of(octets) or sys.exit("openssl does not walk through the octets"):
        place, depth, header, length, form, kind, number, name = line.groups()
        number = int(number) if kind else NAMES.get(name, 0)
        yield int(place), int(depth), int(header), length, form[0], CLASSES.get(kind, 0), number, name


def tree(octets):
    """The tree of the octets, by openssl."""
    lines, text, named = list(elements_of(octets)), [], 0
    for at, (place, depth, header, length, form, kind, number, name) in enumerate(lines):
        if name == "EOC":
            continue
        shown = length
        if length == "inf":
            end = next(line for line in lines[at + 1 :] if line[1] == depth + 1 and line[7] == "EOC")
            shown = f"inf {end[0] - place - header}"
        if kind or (form == "c") != (name in ("SEQUENCE", "SET")):
            name = "-"
        elif length == "inf" or header != shortest(number, int(length)):
            name += " contents"
        named += name != "-"
        text.append(f"{depth} {kind}.{form}.{number} {shown} {name}\n")
    return f"{''.join(text)}{len(text)} elements, {named} with a name\n"


def held(octets):
    """What stands in the strings, of those that openssl walks through."""
    joined = b""
    for place, _, header, length, form, _, _, name in elements_of(octets):
        if form == "p" and name in ("OCTET STRING", "BIT STRING"):
            # (the first octet of a bit string counts its unused bits)
            content = octets[place + header + (name == "BIT STRING") : place + header + int(length)]
            joined += content if lines_of(content) else b""
    return joined


def header_of(octets):
    """The identifier octets of the element at the front, its contents octets, and what follows it."""
    at = 1
    if octets[0] & 31 == 31:
        while octets[at] & 128:
            at += 1
        at += 1
    tag, length, at = octets[:at], octets[at], at + 1
    if length > 127:
        at, length = at + length - 128, int.from_bytes(octets[at : at + length - 128], "big")
    return tag, octets[at : at + length], octets[at + length :]


def indefinite(octets):
    """The elements with each constructed one in indefinite length, and long octet strings in parts."""
    made = b""
    while octets:
        tag, content, rest = header_of(octets)
        if tag[0] & 32:
            made += tag + b"\x80" + indefinite(content) + b"\0\0"
        elif tag == b"\x04" and len(content) > 200:
            parts = (content[at : at + 200] for at in range(0, len(content), 200))
            made += b"\x24\x80" + b"".join(b"\x04\x81" + bytes([len(part)]) + part for part in parts) + b"\0\0"
        else:
            made += octets[: len(octets) - len(rest)]
        octets = rest
    return made


def check():
    """Prints of each input whether its tree is the one that openssl gives, and whether what is held stands in it."""
    faults = 0
    for path in sorted(SOURCES.glob("*.rt.txt")):
        inputs = {}
        for name, digits, text in CONSTANTS.findall(path.read_text(encoding="utf-8")):
            octets = inputs[name] = bytes.fromhex(re.sub(r"\\\n\s*", "", digits))
            same = tree(octets) == text.removeprefix("\\\n")
            if name.endswith("HELD_"):
                same = same and octets == held(inputs[name.removesuffix("HELD_")])
            print(f"{path.stem} {name}OCTETS: {'as openssl says' if same else 'NOT AS OPENSSL SAYS'}")
            faults += not same
    return 1 if faults else 0


def main():
    match sys.argv[1:]:
        case ["tree", path]:
            print(tree(pathlib.Path(path).read_bytes()), end="")
        case ["held", path]:
            print(held(pathlib.Path(path).read_bytes()).hex())
        case ["indefinite", path]:
            print(indefinite(pathlib.Path(path).read_bytes()).hex())
        case []:
            sys.exit(check())
        case _:
            sys.exit(__doc__)


main()

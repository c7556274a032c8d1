#!/usr/bin/env python3
"""Runs the program `asn1` beside `openssl asn1parse` and beside a model of strict DER that shares no code with it.

    tools/asn1_program.py PROGRAM

The program is what `rt run` leaves in `crates/asn1/out/asn1`. Each certificate of /etc/ssl/certs must have the offsets, depths and
lengths that `openssl asn1parse` prints; each of some thousand changed certificates the verdict of the model, with the
offset and the section of X.690; odd files and modules their statuses and lines; values of types their JSON. What does otherwise has a line, and then this ends
with status 1. The last line counts the rows.
"""
import json
import os
import pathlib
import random
import re
import subprocess
import sys
import tempfile

FOLDER = pathlib.Path(__file__).resolve().parent.parent / "crates/asn1"
CERTIFICATES = pathlib.Path("/etc/ssl/certs")
CONSTRUCTED = {8, 11, 16, 17, 29}
PRINTABLE = set(b"ABCDEFGHIJKLMNOPQRSTUVWXYZabcdefghijklmnopqrstuvwxyz0123456789 '()+,-./:=?")
MOMENT = rb"(0[1-9]|1[0-2])(0[1-9]|[12]\d|3[01])([01]\d|2[0-3])[0-5]\d[0-5]\d"
UTC = re.compile(rb"\d\d" + MOMENT + rb"Z")
GENERALIZED = re.compile(rb"\d{4}" + MOMENT + rb"(\.\d*[1-9])?Z")


class Departs(Exception):
    """The octets are not strict DER: the offset and the section."""


class Follows(Departs):
    """Octets follow the element."""


def element(octets, at, end):
    """Returns class, form, number, the offset of the contents and that of their end, by DER."""
    def octet(place, section):
        if place >= end:
            raise Departs(at, section)
        return octets[place]

    first, place = octet(at, "8.1.1"), at + 1
    number = first & 31
    if number == 31:
        number, begins = 0, place
        while True:
            digit = octet(place, "8.1.2")
            number, place = number * 128 + (digit & 127), place + 1
            if number >= 2 ** 32:
                raise Departs(at, "8.1.2")
            if digit < 128:
                break
        if number < 31 or octets[begins] == 128:
            raise Departs(at, "8.1.2.4")
    count, place = octet(place, "8.1.1"), place + 1
    if count == 255:
        raise Departs(at, "8.1.3.5")
    if count == 128:
        raise Departs(at, "10.1")
    if count > 128:
        some = count - 128
        if place + some > end:
            raise Departs(at, "8.1.1")
        count = int.from_bytes(octets[place:place + some], "big")
        if count >= 2 ** 64:
            raise Departs(at, "8.1.3.5")
        if count < 128 or octets[place] == 0:
            raise Departs(at, "10.1")
        place += some
    if place + count > end:
        raise Departs(at, "8.1.1")
    return first >> 6, bool(first & 32), number, place, place + count


def ascends(content):
    """Tells whether the components of a set stand in an order of DER."""
    words, tags, at = [], [], 0
    while at < len(content):
        try:
            class_, _, number, _, end = element(content, at, len(content))
        except Departs:
            return False
        words.append(content[at:end])
        tags.append((class_, number))
        at = end
    return words == sorted(words) or all(one < other for one, other in zip(tags, tags[1:]))


def has_text(content, coding):
    """Tells whether the octets are text."""
    try:
        content.decode(coding)
    except UnicodeDecodeError:
        return False
    return True


def are_arcs(content):
    """Tells whether subidentifiers are whole and shortest."""
    starts = [0] + [place + 1 for place, it in enumerate(content[:-1]) if it < 128]
    return bool(content) and content[-1] < 128 and all(content[place] != 128 for place in starts)


def are_bits(content):
    """Tells whether a BIT STRING's octets are strict."""
    if len(content) < 2:
        return content == b"\0"
    return content[0] < 8 and content[-1] % 2 ** content[0] == 0


def is_integer(content):
    """Tells whether an INTEGER has its fewest octets."""
    return bool(content) and (len(content) == 1 or not (content[0] in (0, 255) and (content[0] ^ content[1]) < 128))


RULES = {
    0: ("8.1.5", lambda it: False), 1: ("11.1", lambda it: it in (b"\0", b"\xff")),
    2: ("8.3.2", is_integer), 10: ("8.3.2", is_integer), 3: ("8.6.2, 11.2", are_bits),
    5: ("8.8.2", lambda it: not it), 6: ("8.19.2", are_arcs), 13: ("8.19.2", are_arcs),
    12: ("8.23", lambda it: has_text(it, "utf-8")), 17: ("10.3, 11.6", ascends),
    18: ("8.23", lambda it: set(it) <= set(b"0123456789 ")), 19: ("8.23", lambda it: set(it) <= PRINTABLE),
    22: ("8.23", lambda it: has_text(it, "ascii")), 26: ("8.23", lambda it: all(32 <= it <= 126 for it in it)),
    23: ("11.8", UTC.fullmatch), 24: ("11.7", GENERALIZED.fullmatch),
    28: ("8.23", lambda it: len(it) % 4 == 0), 30: ("8.23", lambda it: len(it) % 2 == 0),
}


def judge(octets):
    """Raises where the octets are not one element of strict DER."""
    end = element(octets, 0, len(octets))[4]
    around, at = [end], 0
    while around:
        if at == around[-1]:
            around.pop()
            continue
        class_, constructed, number, begins, ends = element(octets, at, around[-1])
        if class_ == 0:
            if constructed != (number in CONSTRUCTED):
                raise Departs(at, "8.9.1, 8.11.1, 10.2")
            section, holds = RULES.get(number, (None, lambda it: True))
            if not holds(octets[begins:ends]):
                raise Departs(at, section)
        at = ends
        if constructed:
            at = begins
            around.append(ends)
    if end < len(octets):
        raise Follows(end, "8.1.1")


def model(octets):
    """Returns the offset and the section of the first departure, the counts, and what stands there; or nothing."""
    try:
        judge(octets)
    except Departs as departs:
        at, section = departs.args
        is_cut = section == "8.1.1" and not isinstance(departs, Follows)
        return at, section, counts(octets[at:]) if is_cut else None, standing(octets, at)
    return None


def counts(word):
    """Returns how many octets the length at the front counts, and how many follow it, where these are fewer."""
    try:
        _, _, _, begins, ends = element(word + bytes(200), 0, 2 ** 65)
    except Departs:
        return None
    return (ends - begins, len(word) - begins) if begins <= len(word) < ends else None


def told(line):
    """Returns the same of a line of `check`."""
    found = re.search(rb": octet (\d+): .*?(?:: of (\d+) octets, (\d+) are there)? \(X\.690 ([0-9., ]+)\); "
                      rb"there stands: ([^;]*); right is: ", line)
    if not found:
        return None
    cut = (int(found[2]), int(found[3])) if found[2] else None
    return int(found[1]), found[4].decode(), cut, found[5].decode()


def standing(octets, at):
    """Returns the first octets of the element at an offset, or of all behind where none is whole."""
    word = octets[at:]
    try:
        word = word[:element(word, 0, len(word))[4]]
    except Departs:
        pass
    return word[:24].hex(" ") + (" .." if len(word) > 24 else "") if word else "nothing"


def changed(octets, chance):
    """Returns the octets with a few changes, or as they are where none would be left."""
    made = bytearray(octets)
    for _ in range(chance.choice((1, 1, 2, 3))):
        place = chance.randrange(len(made))
        how = chance.randrange(6)
        if how == 0:
            made[place] ^= 1 << chance.randrange(8)
        elif how == 1:
            made[place] = chance.choice((0, 1, 0x30, 0x31, 0x7f, 0x80, 0x81, 0xff))
        elif how == 2:
            made[place:place + 1] = b""
        elif how == 3:
            made[place:place] = bytes([chance.randrange(256)])
        elif how == 4:
            del made[place:]
        else:
            made[place] = chance.randrange(256)
        if not made:
            break
    return bytes(made) or octets


def run(program, *words, **how):
    """Runs the program."""
    return subprocess.run([program, *words], capture_output=True, timeout=600, **how)


def trees(program):
    """Yields the trees of certificates, and those of openssl."""
    for path in sorted([FOLDER / "data/certificate.pem", *CERTIFICATES.glob("*.pem")]):
        seen = [json.loads(it) for it in run(program, "dump", "--no-inner", "--json", path).stdout.splitlines()]
        ours = [tuple(it[key] for key in ("offset", "depth", "header", "length", "constructed")) for it in seen]
        text = subprocess.run(["openssl", "asn1parse", "-i", "-in", path], capture_output=True).stdout
        lines = re.findall(rb"^ *(\d+):d=(\d+) +hl=(\d+) l= *(\d+) (cons|prim):", text, re.M)
        yield str(path), ours, [(*map(int, it[:4]), it[4] == b"cons") for it in lines]


def verdicts(program, room, count):
    """Yields the verdicts on changed certificates, and those of the model."""
    chance = random.Random(690)
    whole = [subprocess.run(["openssl", "x509", "-in", it, "-outform", "DER"], capture_output=True).stdout
             for it in sorted([FOLDER / "data/certificate.pem", *CERTIFICATES.glob("*.pem")])]
    for start in range(0, count, 500):
        paths = []
        for place in range(500):
            path = room / f"{start + place}.der"
            path.write_bytes(changed(chance.choice(whole), chance))
            paths.append(path)
        lines = run(program, "check", "--from", "der", *paths).stdout.splitlines()
        for path, line in zip(paths, lines):
            yield f"{path.name}: {line}", told(line), model(path.read_bytes())
            path.unlink()


def nested(count):
    """Returns so many elements, each in the one before, by BER."""
    return b"\x30\x80" * count + b"\0\0" * count


def odd_files(program, room):
    """Yields how odd files end."""
    pem = (FOLDER / "data/certificate.pem").read_bytes()
    first = b"\n".join(pem.splitlines()[:2]) + b"\n"
    rows = [
        ("empty", "dump", b"", 1, 0), ("empty", "check", b"", 1, 0), ("one octet", "dump", b"0", 1, 1),
        ("nested", "dump", nested(50000), 0, 50000), ("nested, cut", "dump", nested(50000)[:70001], 1, 35001),
        ("NUL octets", "dump", b"\0" * 4, 0, 2), ("text around", "check", b"a\n" + pem + b"b\n", 0, 1),
        ("two blocks", "check", pem + pem, 0, 2), ("CR LF", "check", pem.replace(b"\n", b"\r\n"), 0, 1),
        ("no END", "check", first, 1, 0), ("other END", "check", pem.replace(b"END C", b"END D"), 1, 0),
        ("no base64", "check", pem.replace(b"MII", b"M!I"), 1, 0), ("a long string", "dump", b"\4\x84\0\x98\x96\x80" +
         b"a" * 10000000, 0, 1),
        ("element before others", "dump --at 0", b"\x30\x80\0\0\x1f", 0, 1), ("none", "dump --at 2", b"\5\0\x1f", 1, 1),
        ("element that breaks off", "dump --at 0", b"\x30\3\4\5\0\5\0", 1, 2), ("end", "dump --at 3", b"\5\0", 1, 1),
        ("further ones", "check --all", b"\x30\x09\1\1\5\2\2\0\1\5\0", 1, 2),
        ("a fault behind", "check --all", b"\x30\5\1\1\5\4\x80", 1, 2),
    ]
    for name, task, octets, status, lines in rows:
        path = room / "odd"
        path.write_bytes(octets)
        ended = run(program, *task.split(), path)
        yield f"{task} {name}", (ended.returncode, ended.stdout.count(b"\n")), (status, lines)


def refusals(program, room):
    """Yields what standard error says of files that are refused, with the name of each, and nothing of others."""
    pem = (FOLDER / "data/certificate.pem").read_bytes()
    begin, rest = pem.split(b"\n", 1)
    rows = [
        ("empty", b"", "the file is empty"), ("no BER", b"\x30\x80", ""), ("a certificate", pem, ""),
        ("encrypted", b"\n".join([begin, b"Proc-Type: 4,ENCRYPTED", b"DEK-Info: AES-256-CBC,00", b"", rest]),
         "line 1: the block is encrypted"),
        ("fields", b"\n".join([begin, b"Proc-Type: 4,MIC-CLEAR", b"", rest]), ""),
    ]
    hint = "this seems to be text, not BER; --from hex and --from base64 read text"
    texts = (("JSON", '{"a": "\u00e9"}\n'), ("XML", "<a/>\r\n"), ("words", "no BER"))
    rows += [(name, text.encode(), hint) for name, text in texts]
    for name, octets, words in rows:
        path = room / "refused"
        path.write_bytes(octets)
        for task in ("dump", "check"):
            line = f"asn1: {path}: {words}\n" if words else ""
            yield f"{task}, {name}, standard error", run(program, task, path).stderr.decode(), line


# Forms, what a file holds, the status, and what `check` says of it.
FORMS = [
    ("hex", b"30 03\r\n02 01 05\n", 0, "FILE: strict DER"),
    ("hex", b"3003020105zz", 1, "asn1: FILE: no hexadecimal"),
    ("hex", b"300", 1, "asn1: FILE: no hexadecimal"),
    ("hex", b"", 1, "asn1: FILE: the file is empty"),
    ("hex", b" \n", 1, "FILE: octet 0: octets are missing (X.690 8.1.1); there stands: nothing; "
     "right is: all octets that the length counts"),
    ("hex", b"308204d20500", 1, "FILE: octet 0: octets are missing: of 1234 octets, 2 are there "
     "(X.690 8.1.1); there stands: 30 82 04 d2 05 00; right is: all octets that the length counts"),
    ("hex", b"3082", 1, "FILE: octet 0: octets are missing (X.690 8.1.1); there stands: 30 82; "
     "right is: all octets that the length counts"),
    ("hex", b"3003040500 0000", 1, "FILE: octet 2: octets are missing: of 5 octets, 3 are there "
     "(X.690 8.1.1); there stands: 04 05 00 00 00; right is: all octets that the length counts"),
    ("hex", b"3003040500 0000000000", 1, "FILE: octet 2: octets are missing (X.690 8.1.1); "
     "there stands: 04 05 00 00 00 00 00; right is: all octets that the length counts"),
    ("base64", b"MAMC\n AQU=", 0, "FILE: strict DER"), ("base64", b"MAMCAQU", 1, "asn1: FILE: no base64"),
    ("pem", b"MAMCAQU=\n", 1, "asn1: FILE: no block of PEM"),
    ("pem", b"\n-----BEGIN A B-----\nMAMCAQU=\n-----END A B-----\n", 0, "FILE: A B in line 2: strict DER"),
    ("der", b"0\3\2\1\5", 0, "FILE: strict DER"), ("der", b"", 1, "asn1: FILE: the file is empty"),
]


def forms(program, room):
    """Yields what is told of files by the form that they are read in."""
    path = room / "form"
    for form, octets, status, line in FORMS:
        path.write_bytes(octets)
        ended = run(program, "check", "--from", form, path)
        told = (ended.stdout + ended.stderr).decode().splitlines()[:1]
        yield f"--from {form}, {octets}", (ended.returncode, told), (status, [line.replace("FILE", str(path))])


def failures(program, room):
    """Yields how calls and devices that fail end, each with one line on standard error."""
    data = FOLDER / "data/certificate.pem"
    for name, words in (("a folder", ["dump", room]), ("no such file", ["check", room / "none"]),
                        ("too long", ["dump", "--max-octets", "10", data])):
        ended = run(program, *words)
        yield name, (ended.returncode, ended.stderr.count(b"\n"), ended.stdout), (2, 1, b"")
    yield "a wrong call", run(program, "dump", "--depth", "x", data).returncode, 2
    with open("/dev/full", "wb") as full:
        ended = subprocess.run([program, "dump", data], stdout=full, stderr=subprocess.PIPE)
    yield "a full device", (ended.returncode, ended.stderr), (2, b"asn1: output failed\n")
    reads, writes = os.pipe()
    os.close(reads)
    ended = subprocess.run([program, "dump", data], stdout=writes, stderr=subprocess.PIPE, restore_signals=False)
    os.close(writes)
    yield "a pipe that nobody reads", (ended.returncode, ended.stderr), (2, b"asn1: output failed\n")


MODULES = [
    ("types of each kind", b"""M DEFINITIONS ::= BEGIN
A ::= SEQUENCE { b B OPTIONAL, c [0] IMPLICIT C }
B ::= CHOICE { utcTime UTCTime, number INTEGER { one(1) } }
C ::= SEQUENCE OF A
D ::= [APPLICATION 5] INTEGER (-1..MAX)
E ::= ENUMERATED { red, green(5) }
F ::= SET SIZE (1..2) OF RELATIVE-OID
G ::= [PRIVATE 1] EXPLICIT ANY
END
""", 0, [b"M.A: [UNIVERSAL 16] SEQUENCE { b, c }", b"M.B: [UNIVERSAL 23] [UNIVERSAL 2] CHOICE { utcTime, number }",
         b"M.C: [UNIVERSAL 16] SEQUENCE OF A", b"M.D: [APPLICATION 5] EXPLICIT INTEGER within -1..MAX",
         b"M.E: [UNIVERSAL 10] ENUMERATED { red, green }", b"M.F: [UNIVERSAL 17] SET OF RELATIVE-OID within 1..2",
         b"M.G: [PRIVATE 1] EXPLICIT ANY", b"sound"]),
    ("fields that are not told apart", b"M DEFINITIONS ::= BEGIN\nP ::= SEQUENCE { a BOOLEAN OPTIONAL, b BOOLEAN }\nEND\n", 1,
     [b"M.P: [UNIVERSAL 16] SEQUENCE { a, b }",
      b"not sound: P: the fields a and b have the tag [UNIVERSAL 1] in common"]),
    ("a note", b"M DEFINITIONS ::= BEGIN\nP ::= IA5String (FROM (\"a\"))\nEND\n", 0,
     [b"M.P: [UNIVERSAL 22] IA5String", b"FILE:2:17: a constraint is not judged", b"sound"]),
    ("a mistake", b"M DEFINITIONS ::= BEGIN\nP ::= SEQUENCE { a }\nEND\n", 1, [b"FILE:2:20: expected a type"]),
    ("an octet that is no token", b"\xff", 1, [b"FILE:1:1: no token of ASN.1 begins here"]),
]
BUILT_IN = [
    b"PKIX1Explicit88.Certificate: [UNIVERSAL 16] SEQUENCE { tbsCertificate, signatureAlgorithm, signature }",
    b"KerberosV5Spec2.Ticket: [APPLICATION 1] EXPLICIT SEQUENCE { tkt-vno, realm, sname, enc-part }",
    b"Lightweight-Directory-Access-Protocol-V3.UnbindRequest: [APPLICATION 2] NULL",
]


def modules(program, room):
    """Yields what is told of the types of modules."""
    path = room / "module"
    for name, text, status, lines in MODULES:
        path.write_bytes(text)
        ended = run(program, "types", "--module", path)
        expected = [line.replace(b"FILE", bytes(path)) for line in lines]
        yield f"types, {name}", (ended.returncode, ended.stdout.splitlines()), (status, expected)
    ended = run(program, "types")
    lines = ended.stdout.splitlines()
    yield "types that are built in", (ended.returncode, lines[-1:], set(BUILT_IN) - set(lines)), (0, [b"sound"], set())
    ended = run(program, "types", "--module", room / "none")
    yield "types, no such file", (ended.returncode, ended.stderr.count(b"\n"), ended.stdout), (2, 1, b"")


# Modules with each kind of type and of default value, and their normal form.
WRITTEN = b"""M DEFINITIONS ::= BEGIN
v INTEGER ::= 5
base OBJECT IDENTIFIER ::= { iso member-body(2) 840 }
Alias ::= Leaves
Leaves ::= SEQUENCE { a BOOLEAN DEFAULT TRUE, b [0] INTEGER { one(1), two(2) } DEFAULT two, c INTEGER (0..v) DEFAULT -3,
  d Listed DEFAULT green, e [1] IMPLICIT BIT STRING { x(0), y(9) } DEFAULT { y, x }, f BIT STRING DEFAULT '0101'B,
  g OCTET STRING (SIZE (1..MAX)) DEFAULT '0fA'H, h UTF8String DEFAULT "a""b", i OBJECT IDENTIFIER DEFAULT { base 5 },
  j RELATIVE-OID DEFAULT { 8571 3 }, k NULL DEFAULT NULL, l List DEFAULT {}, m [2] EXPLICIT UTCTime OPTIONAL, ... }
Listed ::= ENUMERATED { red, green(5), ..., blue }
Chosen ::= CHOICE { time GeneralizedTime, text BMPString (SIZE (1..4)) (FROM ("a")), ..., any [5] ANY }
List ::= SEQUENCE SIZE (1..5) OF IA5String (SIZE (3))
Shorter ::= [APPLICATION 2] IMPLICIT List (SIZE (2..3))
Copies ::= SET { a [0] IMPLICIT Leaves, b [1] Chosen OPTIONAL, c [2] IMPLICIT Shorter, d [3] IMPLICIT Copies OPTIONAL,
  e [PRIVATE 4] IMPLICIT Listed, f [5] SET OF Copies, g SEQUENCE {}, h NULL }
END
N DEFINITIONS AUTOMATIC TAGS ::= BEGIN
IMPORTS Leaves FROM M;
Row ::= SEQUENCE { a Leaves, b M.Listed, c CHOICE { x Row, y NULL } }
END
"""
NORMAL = b"""M DEFINITIONS EXPLICIT TAGS ::= BEGIN

Alias ::= Leaves

Leaves ::= SEQUENCE {
    a BOOLEAN DEFAULT TRUE,
    b [0] EXPLICIT INTEGER {
        one(1),
        two(2)
    } DEFAULT two,
    c INTEGER (0..5) DEFAULT -3,
    d Listed DEFAULT green,
    e [1] IMPLICIT BIT STRING {
        x(0),
        y(9)
    } DEFAULT { x, y },
    f BIT STRING DEFAULT '0101'B,
    g OCTET STRING (SIZE (1..MAX)) DEFAULT '0FA0'H,
    h UTF8String DEFAULT "a""b",
    i OBJECT IDENTIFIER DEFAULT { 1 2 840 5 },
    j RELATIVE-OID DEFAULT { 8571 3 },
    k NULL DEFAULT NULL,
    l List DEFAULT { },
    m [2] EXPLICIT UTCTime OPTIONAL,
    ...
}

Listed ::= ENUMERATED {
    red(0),
    green(5),
    blue(1),
    ...
}

Chosen ::= CHOICE {
    time GeneralizedTime,
    text BMPString (SIZE (1..4)),
    any [5] EXPLICIT ANY,
    ...
}

List ::= SEQUENCE SIZE (1..5) OF IA5String (SIZE (3..3))

Shorter ::= [APPLICATION 2] IMPLICIT List (SIZE (2..3))

Copies ::= SET {
    a [0] IMPLICIT Leaves,
    b [1] EXPLICIT Chosen OPTIONAL,
    c [2] IMPLICIT Shorter,
    d [3] IMPLICIT Copies OPTIONAL,
    e [PRIVATE 4] IMPLICIT Listed,
    f [5] EXPLICIT SET OF Copies,
    g SEQUENCE { },
    h NULL
}

END

N DEFINITIONS EXPLICIT TAGS ::= BEGIN

Row ::= SEQUENCE {
    a [0] IMPLICIT M.Leaves,
    b [1] IMPLICIT M.Listed,
    c [2] EXPLICIT CHOICE {
        x [0] IMPLICIT Row,
        y [1] IMPLICIT NULL
    }
}

END
"""


def normal_forms(program, room):
    """Yields the normal forms of modules, and what is told of these when they are read again."""
    module, again = room / "module", room / "again"
    module.write_bytes(WRITTEN)
    built_in = run(program, "types", "--normal")
    for name, words, text in (("each kind", ["--module", module], NORMAL), ("built in", [], built_in.stdout)):
        ended = run(program, "types", "--normal", *words)
        yield f"normal form, {name}", (ended.returncode, ended.stdout), (0, text)
        again.write_bytes(text)
        ended = run(program, "types", "--normal", "--module", again)
        yield f"normal form of a normal form, {name}", (ended.returncode, ended.stdout), (0, text)
        listed = [it for it in run(program, "types", *words).stdout.splitlines() if not it.startswith(bytes(module))]
        yield f"types of a normal form, {name}", run(program, "types", "--module", again).stdout.splitlines(), listed
    certificate = FOLDER / "data/certificate.pem"
    ended = run(program, "decode", "--module", again, certificate)
    yield "decode by a normal form", (ended.returncode, ended.stdout), (0, run(program, "decode", certificate).stdout)
    for name, text, status, told in (
            ("a mistake", b"M DEFINITIONS ::= BEGIN\nP ::= SEQUENCE { a }\nEND\n", 1, bytes(module) + b":2:20: expected a type\n"),
            ("no types", b"M DEFINITIONS ::= BEGIN v INTEGER ::= 5 END", 0, b""),
            ("no notation", b"M DEFINITIONS ::= BEGIN A ::= SEQUENCE { i OBJECT IDENTIFIER DEFAULT { 2 9223372036854775807 } } END", 1,
             b"M DEFINITIONS EXPLICIT TAGS ::= BEGIN\n\nA ::= SEQUENCE {\n    i OBJECT IDENTIFIER DEFAULT ..\n}\n\nEND\n")):
        module.write_bytes(text)
        ended = run(program, "types", "--normal", "--module", module)
        yield f"normal form, {name}", (ended.returncode, ended.stdout), (status, told)


DECODED = b"""M DEFINITIONS ::= BEGIN
A ::= SEQUENCE { a BOOLEAN DEFAULT FALSE, b [0] IMPLICIT INTEGER OPTIONAL, c C, ... }
C ::= CHOICE { n NULL, i INTEGER { one(1) }, e ENUMERATED { red, green(5) }, s SEQUENCE OF INTEGER (-9..9) }
D ::= SET { bits BIT STRING { zero(0), one(1) }, octets OCTET STRING, id OBJECT IDENTIFIER, text UTF8String }
E ::= SEQUENCE { time UTCTime, wide BMPString, any ANY, relative [1] IMPLICIT RELATIVE-OID }
G ::= SET OF INTEGER
H ::= SEQUENCE OF A
I ::= [5] EXPLICIT SEQUENCE { n NULL, x A }
J ::= SEQUENCE { x BOOLEAN DEFAULT FALSE, y [1] EXPLICIT G }
K ::= BIT STRING { zero(0), one(1) }
END
"""
# Types, values of them, what is asked besides, the status, the lines of output (X.697), and what is told.
VALUES = [
    ("A", "30020500", (), 0, ['{"a":false,"c":{"n":null}}'], ""),
    ("A", "30090101ff800102020101", (), 0, ['{"a":true,"b":2,"c":{"i":1}}'], ""),
    ("A", "300405000c00", (), 0, ['{"a":false,"c":{"n":null},"...":["0c00"]}'], ""),
    ("M.C", "0209ff0000000000000000", (), 0, ['{"i":-18446744073709551616}'], ""),
    ("C", "0a0105", (), 0, ['{"e":"green"}'], ""),
    ("C", "30090201f7020100020109", (), 0, ['{"s":[-9,0,9]}'], ""),
    ("D", "3119030206c004020aff06032a86480c0a6122c3a95c0af09f9880", (), 0,
     ['{"bits":{"value":"c0","length":2},"octets":"0aff","id":"1.2.840","text":"a\\"\u00e9\\\\\\n\U0001f600"}'], ""),
    ("E", "301c170d3236313133303039303030305a1e040041041604010081020506", (), 0,
     ['{"time":"261130090000Z","wide":"A\u0416","any":"040100","relative":"5.6"}'], ""),
    ("A", "308005000000", ("--rules", "ber"), 0, ['{"a":false,"c":{"n":null}}'], ""),
    ("A", "30020500" "30050101ff0500", ("--lines",), 0, ['{"a":false,"c":{"n":null}}', '{"a":true,"c":{"n":null}}'], ""),
    ("A", "30020500" "30020400", ("--lines",), 1, ['{"a":false,"c":{"n":null}}'], "FILE: octet 6, c (C): a component is missing"),
    ("A", "", ("--lines",), 1, [], "asn1: FILE: the file is empty"),
    ("A", "308005000000", (), 1, [], "FILE: octet 0 (A): no element begins here, or it is truncated"),
    ("A", "3002050030", (), 1, [], "FILE: octet 4 (A): octets follow where none may"),
    ("C", "300302010a", (), 1, [], "FILE: octet 2, s[0] (INTEGER within -9..9): the number or the size is out of bounds"),
    ("F", "0500", (), 2, [], "asn1: FILE: no type F in the modules"),
    ("N.A", "0500", (), 2, [], "asn1: FILE: no type N.A in the modules"),
]
# Types, octets, the status, and what is told of whether they are the strict encoding of a value.
STRICT = [
    ("A", "30020500", 0, "FILE: strict DER of A"),
    ("A", "30090101ff800102020101", 0, "FILE: strict DER of A"),
    ("A", "30090101008001020500", 1, "FILE: octet 0 (A): no element begins here, or it is truncated"),
    ("A", "30080101008001020500", 1, "FILE: octet 1 (A): the strict encoding of the value differs here; a default stands at octet 2, a"),
    ("H", "300e" "30020500" "30080101008001020500", 1,
     "FILE: octet 1 (H): the strict encoding of the value differs here; a default stands at octet 8, [1].a"),
    ("I", "a50e300c0500" "30080101008001020500", 1,
     "FILE: octet 1 (I): the strict encoding of the value differs here; a default stands at octet 8, x.a"),
    ("I", "a508300605003004" "0500", 1, "FILE: octet 6, x (A): a component is missing"),
    ("H", "300430030500", 1, "FILE: octet 2, [0] (A): no element begins here, or it is truncated"),
    ("H", "30040101ff00", 1, "FILE: octet 2, [0] (A): the tag is not one of the type"),
    ("D", "3119030206c004020aff06032a86480c0a6122c3a95c0af09f9880", 0, "FILE: strict DER of D"),
    ("D", "3119030206c004020aff0c0a6122c3a95c0af09f988006032a8648", 1, "FILE: octet 22, id (D): the elements of a set do not ascend by their tags"),
    ("C", "300302010a", 1, "FILE: octet 2, s[0] (INTEGER within -9..9): the number or the size is out of bounds"),
    ("G", "3106020101020100", 1, "FILE: octet 5, [1] (G): the value has no strict encoding: a SET OF does not ascend"),
    ("J", "3010" "0101ff" "a10b" "3109" "020101" "020103" "020102", 1,
     "FILE: octet 15, y[2] (J): the value has no strict encoding: a SET OF does not ascend"),
    ("K", "030206c0", 0, "FILE: strict DER of K"),
    ("K", "03020640", 0, "FILE: strict DER of K"),
    ("K", "03020540", 1, "FILE: octet 2 (K): the contents octets have no value of the type"),
]


# Types, JSON, and its strict encoding (X.697, X.690).
SAID = [
    ("A", '{"c":{"n":null}}', "30020500"),
    ("A", ' { "...": ["0C00"], "c" : {"n":null}, "a": false } ', "300405000c00"),
    ("A", '{"c":{"i":1},"b":2,"a":true}', "30090101ff800102020101"),
    ("A", '{"c":{"e":0}}', "30030a0100"),
    ("D", '{"octets":"0AFF","text":"\\u00e9","id":"2.999.0","bits":{"length":0,"value":""}}',
     "3110030100" "04020aff" "0603883700" "0c02c3a9"),
    ("C", '{"i":-170141183460469231731687303715884105729}', "0211ff7fffffffffffffffffffffffffffffff"),
    ("C", '{"i":128}', "02020080"),
    ("C", '{"i":-256}', "0202ff00"),
    ("G", "[256,1,0,-1,1]", "3110" "020100" "020101" "020101" "0201ff" "02020100"),
    ("E", '{"time":"261130090000Z","wide":"𝄞","any":"a003020105","relative":"8571.3"}',
     "301f" "170d3236313133303039303030305a" "1e04d834dd1e" "a003020105" "8103c27b03"),
]
# Types, JSON, and what is told of it.
NOT_SAID = [
    ("A", "", "FILE:1:1 (A): the text is no JSON from here on, or it nests deeper than 128"),
    ("A", '{"c":{"n":null}', "FILE:1:16 (A): the text is no JSON from here on, or it nests deeper than 128"),
    ("A", "[" * 129 + "]" * 129, "FILE:1:130 (A): the text is no JSON from here on, or it nests deeper than 128"),
    ("A", "[]", "FILE:1:1 (A): expected an object"),
    ("A", "{}", "FILE:1:1, c (C): a component is missing"),
    ("A", '{"a":1,"c":{"n":null}}', "FILE:1:6, a (BOOLEAN): expected true or false"),
    ("A", '{"c":{"n":null},\n "d":1}', "FILE:2:2 (A): the type has no part with this name"),
    ("A", '{"c":{"n":null},\n "c":1}', "FILE:2:2 (A): the name stands there more than once"),
    ("A", '{"c":{"n":null},"...":[0]}', "FILE:1:24, ...[0] (ANY): expected a string of one element in hexadecimal, with a strict header"),
    ("A", '{"c":{"n":null},"...":["0501"]}', "FILE:1:24, ...[0] (ANY): expected a string of one element in hexadecimal, with a strict header"),
    ("A", '{"c":{"n":null},"...":["0000"]}', "FILE:1:24, ...[0] (ANY): the value is none of the type"),
    ("A", '{"c":{"x":null}}', "FILE:1:7, c (C): the type has no part with this name"),
    ("A", '{"c":{}}', "FILE:1:6, c (C): expected an object with one member"),
    ("A", '{"c":{"n":false}}', "FILE:1:11, c.n (NULL): expected null"),
    ("A", '{"c":{"i":1.0}}', "FILE:1:11, c.i (INTEGER): expected a number without fraction and exponent"),
    ("A", '{"c":{"i":-0}}', "FILE:1:11, c.i (INTEGER): expected a number without fraction and exponent"),
    ("A", '{"c":{"e":"blue"}}', "FILE:1:11, c.e (e): expected a name that the type has, or a number"),
    ("A", '{"c":{"e":6}}', "FILE:1:11, c.e (e): the value is none of the type"),
    ("C", '{"s":[0,\n10]}', "FILE:2:1, s[1] (INTEGER within -9..9): the value is none of the type"),
    ("D", '{"bits":"00"}', "FILE:1:9, bits (BIT STRING): expected an object of value, in hexadecimal, and length, in bits"),
    ("D", '{"bits":{"value":"c0","length":1}}', "FILE:1:9, bits (BIT STRING): expected an object of value, in hexadecimal, and length, in bits"),
    ("D", '{"bits":{"value":"80","length":2}}', "FILE:1:9, bits (BIT STRING): the value is none of the type"),
    ("D", '{"bits":{"value":"","length":0},"octets":"0"}', "FILE:1:42, octets (OCTET STRING): expected a string of hexadecimal digits, two for each octet"),
    ("E", '{"time":"2026"}', "FILE:1:9, time (UTCTime): the value is none of the type"),
    ("E", '{"time":20}', "FILE:1:9, time (UTCTime): expected a string"),
    ("D", '{"bits":{"value":"","length":0},"octets":"","id":"1.40"}', "FILE:1:50, id (OBJECT IDENTIFIER): expected a string of arcs with points between them"),
    ("D", '{"bits":{"value":"","length":0},"octets":"","id":"1.02.3"}', "FILE:1:50, id (OBJECT IDENTIFIER): expected a string of arcs with points between them"),
]


def encoded(program, room):
    """Yields the octets of JSON, by a type of a module, and what is told where there are none."""
    module, file, written = room / "module", room / "json", room / "written"
    module.write_bytes(DECODED)
    there = [(name, lines[0], octets) for name, octets, asked, status, lines, _ in VALUES if status == 0 and not asked]
    for name, text, octets in [*there, *SAID]:
        file.write_text(text, encoding="utf-8")
        ended = run(program, "encode", "--module", module, "--type", name, file)
        yield f"encode, {name} of {text}", (ended.returncode, ended.stdout.hex(), ended.stderr), (0, octets, b"")
    for name, text, told in NOT_SAID:
        file.write_text(text, encoding="utf-8")
        ended = run(program, "encode", "--module", module, "--type", name, "-o", written, file)
        seen = (ended.returncode, ended.stdout, ended.stderr.strip(), written.exists())
        yield f"encode, {name} of {text[:80]}", seen, (1, b"", told.replace("FILE", str(file)).encode(), False)
    file.write_bytes(b'"\xff"')
    ended = run(program, "encode", "--module", module, "--type", "A", file)
    yield "encode, no UTF-8", (ended.returncode, ended.stderr.strip()), (1, f"{file}:1:2 (A): the text is no UTF-8 from here on".encode())
    for words in (["--type", "None", file], ["--type", "Certificate", room / "none"], ["--type", "A", "--pem", "-", file], [file]):
        ended = run(program, "encode", *words)
        yield f"encode, {words[:-1]}", (ended.returncode, ended.stdout), (2, b"")


def element_told(program, file, told):
    """The line of `dump` for the element at the octet of a refusal, if one begins there."""
    place = re.match(r"FILE: octet (\d+)", told)
    if not place:
        return []
    lines = run(program, "dump", "--from", "der", "--no-inner", "--at", place[1], file).stdout.splitlines()
    return [it for it in lines[:1] if b" no element: " not in it]


def values(program, room):
    """Yields what octets say as JSON, by a type of a module."""
    module, file = room / "module", room / "value"
    module.write_bytes(DECODED)
    for name, octets, asked, status, lines, told in VALUES:
        file.write_bytes(bytes.fromhex(octets))
        ended = run(program, "decode", "--from", "der", "--module", module, "--type", name, *asked, file)
        refused = [told.replace("FILE", str(file)).encode()] if told else []
        expected = (status, [it.encode() for it in lines], refused + element_told(program, file, told))
        yield f"decode, {name} of {octets}", (ended.returncode, ended.stdout.splitlines(), ended.stderr.splitlines()), expected
    for name, octets, status, told in STRICT:
        file.write_bytes(bytes.fromhex(octets))
        ended = run(program, "check", "--from", "der", "--module", module, "--type", name, file)
        expected = (status, told.replace("FILE", str(file)).encode())
        yield f"check, {name} of {octets}", (ended.returncode, ended.stdout.strip()), expected


def certificates(program):
    """Yields what certificates say: JSON with the number and the moments that openssl tells, and the names of components."""
    for path in sorted(CERTIFICATES.glob("*.pem"))[:40]:
        ended = run(program, "decode", path)
        said = subprocess.run(["openssl", "x509", "-in", path, "-noout", "-serial"], capture_output=True, text=True, check=True)
        signed = json.loads(ended.stdout)["tbsCertificate"]
        seen = (ended.returncode, signed["serialNumber"], set(signed) >= {"issuer", "validity", "subject", "subjectPublicKeyInfo"})
        yield f"decode, {path.name}", seen, (0, int(said.stdout.partition("=")[2], 16), True)
        back = run(program, "encode", "--type", "Certificate", "--pem", "CERTIFICATE", "-", input=ended.stdout)
        yield f"encode, {path.name}", (back.returncode, back.stdout.split(), back.stderr), (0, path.read_bytes().split(), b"")


def main():
    with tempfile.TemporaryDirectory(prefix="asn1-") as name:
        room, wrong, count = pathlib.Path(name), 0, 0
        program = sys.argv[1]
        for rows in (trees(program), odd_files(program, room), refusals(program, room), forms(program, room),
                     failures(program, room), modules(program, room), normal_forms(program, room), values(program, room),
                     encoded(program, room), certificates(program),
                     verdicts(program, room, 5000)):
            for what, seen, expected in rows:
                count += 1
                if seen != expected:
                    wrong += 1
                    print(f"{what}: {str(seen)[:200]}, and not {str(expected)[:200]}", flush=True)
        print(f"{count - wrong} passed, {wrong} failed")
    return 1 if wrong else 0


if __name__ == "__main__":
    sys.exit(main())

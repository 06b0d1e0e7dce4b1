#!/usr/bin/env python3
"""The characters that aren't shown or drawn as they are, by Unicode's properties, as keymap_core, keymap_names and
keymap_draw have them.

usage: unseen.py [--check]

Prints the ranges of each property from Python's `unicodedata`. With --check it compares them with those of
crates/keymap_core/specs/Unseen.antt and src/unseen.rt (what a terminal doesn't show) and with the tables of
crates/keymap_names/src/characters.rt (what has a number, and which marks have a circle), which the definitions cite, and
the short names of specs/Names.antt and src/tables.rt of keymap_draw with Unicode's aliases of names; and the capitals
and the marks of accents of that src/tables.rt with Unicode's. It tells each difference, and ends with status 1
where there is one.

Python has the categories and classes, but neither Bidi_Control nor Default_Ignorable_Code_Point. The first is the
embeddings, overrides and isolates with their ends, which are the classes of that name, and three marks. The second is
derived as DerivedCoreProperties.txt says: the formatting characters (Cf) and the variation selectors with what
PropList.txt calls Other_Default_Ignorable_Code_Point, without interlinear annotation, the controls of Egyptian hieroglyphs and the
marks that are set in front of numbers. The last three and the other ignorable ones are kept by Unicode's stability
policy but for additions; a version of Python with new ones shows as a difference.

A mark is one that stands on its letter (Mn) or around it (Me); one that stands beside it (Mc) is seen alone. Those of
the blocks below are compared, since the other scripts get their circle from whoever sets the text. What isn't assigned
in Python's version of Unicode may be a mark there: later versions have more of them in these blocks."""

import os
import re
import sys
import unicodedata

CRATES = os.path.join(os.path.dirname(os.path.abspath(__file__)), "..", "crates")

DIRECTION_CLASSES = {"LRE", "RLE", "LRO", "RLO", "PDF", "LRI", "RLI", "FSI", "PDI"}
DIRECTION_MARKS = {0x61C, 0x200E, 0x200F}
VARIATION_SELECTORS = [(0x180B, 0x180D), (0x180F, 0x180F), (0xFE00, 0xFE0F), (0xE0100, 0xE01EF)]
OTHER_IGNORABLE = [
    (0x34F, 0x34F), (0x115F, 0x1160), (0x17B4, 0x17B5), (0x2065, 0x2065), (0x3164, 0x3164), (0xFFA0, 0xFFA0),
    (0xFFF0, 0xFFF8), (0xE0000, 0xE0000), (0xE0002, 0xE001F), (0xE0080, 0xE00FF), (0xE01F0, 0xE0FFF),
]
ANNOTATION = [(0xFFF9, 0xFFFB)]
EGYPTIAN = [(0x13430, 0x13440)]
PREPENDED = [(0x600, 0x605), (0x6DD, 0x6DD), (0x70F, 0x70F), (0x890, 0x891), (0x8E2, 0x8E2), (0x110BD, 0x110BD),
             (0x110CD, 0x110CD)]
UNASSIGNED = [(0x40000, 0xDFFFF), (0xE1000, 0xEFFFF)]
EMPTY_BRAILLE = 0x2800

# The blocks of which the marks are compared.
MARK_BLOCKS = {
    "diacritical marks": [(0x300, 0x36F), (0x1AB0, 0x1AFF), (0x1DC0, 0x1DFF), (0xFE20, 0xFE2F)],
    "Cyrillic": [(0x400, 0x52F), (0x1C80, 0x1C8F), (0x2DE0, 0x2DFF), (0xA640, 0xA69F)],
    "Hebrew": [(0x590, 0x5FF), (0xFB1D, 0xFB4F)],
    "Arabic": [(0x600, 0x6FF), (0x750, 0x77F), (0x870, 0x8FF)],
    "Syriac": [(0x700, 0x74F), (0x860, 0x86F)],
    "Thaana": [(0x780, 0x7BF)],
    "N'Ko": [(0x7C0, 0x7FF)],
    "Thai": [(0xE00, 0xE7F)],
    "Lao": [(0xE80, 0xEFF)],
    "symbols": [(0x20D0, 0x20FF)],
    "ideographs and kana": [(0x3000, 0x309F)],
}

# The definitions that make up each property.
UNSEEN_PARTS = {
    "Cc": ["is_control"],
    "Zl and Zp": ["ends_line"],
    "Bidi_Control": ["turns_direction"],
    "Default_Ignorable_Code_Point": ["is_ignorable_letter", "is_ignorable_sign", "is_ignorable_above"],
    "interlinear annotation": ["annotates"],
}


def numbers(ranges):
    return {n for first, last in ranges for n in range(first, last + 1)}


def ranges_of(found):
    """The numbers as ranges, both ends among them."""
    ranges = []
    for n in sorted(found):
        if ranges and n == ranges[-1][1] + 1:
            ranges[-1] = (ranges[-1][0], n)
        else:
            ranges.append((n, n))
    return ranges


def shown(found):
    return " ".join(f"{a:04X}" if a == b else f"{a:04X}..{b:04X}" for a, b in ranges_of(found))


def unseen_properties(of_category, direction):
    """The characters of each property of what a terminal doesn't show."""
    ignorable = of_category["Cf"] | numbers(VARIATION_SELECTORS) | numbers(OTHER_IGNORABLE)
    ignorable -= numbers(ANNOTATION) | numbers(EGYPTIAN) | numbers(PREPENDED)
    return {
        "Cc": of_category["Cc"],
        "Zl and Zp": of_category["Zl"] | of_category["Zp"],
        "Bidi_Control": direction | DIRECTION_MARKS,
        "Default_Ignorable_Code_Point": ignorable,
        "interlinear annotation": numbers(ANNOTATION),
    }


def drawn_properties(of_category):
    """The characters of each property of what isn't drawn as it is."""
    marks = of_category["Mn"] | of_category["Me"]
    return {
        "Zs and the empty pattern of Braille": of_category["Zs"] | {EMPTY_BRAILLE},
        "Co": of_category["Co"],
        "noncharacters": {n for n in range(0x110000) if 0xFDD0 <= n <= 0xFDEF or n & 0xFFFE == 0xFFFE},
        "Cn": of_category["Cn"] & numbers(UNASSIGNED),
        **{f"Mn and Me: {name}": marks & numbers(blocks) for name, blocks in MARK_BLOCKS.items()},
    }


NUMBER = r"(0x[0-9a-f_]+|\d+)"
TERMS = [
    (re.compile(rf"within {NUMBER} {NUMBER} c"), lambda a, b: numbers([(a, b)])),
    (re.compile(rf"\(?{NUMBER} <= c && c <= {NUMBER}\)?"), lambda a, b: numbers([(a, b)])),
    (re.compile(rf"nat_le {NUMBER} \(c % {NUMBER}\)"), lambda a, b: {n for n in range(0x110000) if a <= n % b}),
    (re.compile(rf"{NUMBER} <= c % {NUMBER}"), lambda a, b: {n for n in range(0x110000) if a <= n % b}),
    (re.compile(rf"c == {NUMBER}"), lambda a: {a}),
    (re.compile(rf"(?:nat_lt c|c <) {NUMBER}"), lambda a: numbers([(0, a - 1)])),
]


def body_numbers(name, body):
    """The numbers that a body names, which has nothing but ranges and numbers joined by `||`."""
    found = set()
    for term, members in TERMS:
        for match in term.finditer(body):
            found |= members(*(int(group.replace("_", ""), 0) for group in match.groups()))
        body = term.sub("", body)
    if body.replace("||", "").strip():
        sys.exit(f"unseen.py: {name} has more than ranges: {body.strip()}")
    return found


def defined(path, pattern, names):
    """The numbers of each of these definitions, by its name, in a file."""
    with open(os.path.join(CRATES, path), encoding="utf-8") as file:
        text = file.read()
    found = {}
    for name in names:
        match = re.search(pattern % name, text, re.S)
        if not match:
            sys.exit(f"unseen.py: {path} has no {name}")
        found[name] = body_numbers(f"{name} of {path}", match.group(1))
    return found


SPEC = r"\n%s c =(.*?)(?:\n\n|\Z)"
CODE = r"fn %s\(c: u32\).*?\n\{(.*?)\n\}"
FILES = [
    ("keymap_core/specs/Unseen.antt", SPEC, UNSEEN_PARTS),
    ("keymap_core/src/unseen.rt", CODE, UNSEEN_PARTS),
]

# The tables of what isn't drawn as it is, and what the definition and the code add to the first of them: the last
# characters of each plane.
TABLES = "keymap_names/src/characters.rt"
PLANES = [
    ("keymap_names/specs/Characters.antt", rf"nat_le {NUMBER} \(c % {NUMBER}\)"),
    (TABLES, rf"{NUMBER} <= number % {NUMBER}"),
]


# The short names of characters: each is an alias of its name, by which Python finds it.
NAMES = [
    ("keymap_draw/specs/Names.antt", r'\((0x[0-9a-f]+), codes "([a-z]+)"\)'),
    ("keymap_draw/src/tables.rt", r'UnseenName\((0x[0-9a-f]+), \*b"([a-z]+) *"\)'),
]


def named(name):
    """The number of the character that has this alias, or None."""
    try:
        return ord(unicodedata.lookup(name.upper()))
    except KeyError:
        return None


def misnamed():
    for path, pattern in NAMES:
        with open(os.path.join(CRATES, path), encoding="utf-8") as file:
            rows = re.findall(pattern, file.read())
        if not rows:
            sys.exit(f"unseen.py: {path} has no names")
        for number, name in rows:
            if named(name) != int(number, 16):
                yield f"{path}: not the name of {number}: {name}"


LETTERS = "keymap_draw/src/tables.rt"
# In these ranges each small letter of Unicode that has a capital of its own is one of the table, but for palochka, which
# looks like its capital.
WHOLE = [(0x61, 0x7A), (0xE0, 0xFE), (0x100, 0x17F), (0x3AC, 0x3CE), (0x430, 0x52F), (0x561, 0x586), (0x1E00, 0x1EFF)]
MARKS = {
    "dgra": "GRAVE ACCENT", "dacu": "ACUTE ACCENT", "dcir": "CIRCUMFLEX ACCENT", "dtil": "TILDE", "dmac": "MACRON",
    "dbre": "BREVE", "ddot": "DOT ABOVE", "duml": "DIAERESIS", "dsla": "LONG SOLIDUS OVERLAY", "drin": "RING ABOVE",
    "dced": "CEDILLA", "dapo": "COMMA ABOVE", "ddac": "DOUBLE ACUTE ACCENT", "dogo": "OGONEK", "dcar": "CARON",
}


def text_of(path):
    with open(os.path.join(CRATES, path), encoding="utf-8") as file:
        return file.read()


def capital(letter):
    """The capital of a small letter, where each of both is the other's; else None."""
    upper = letter.upper()
    return upper if len(upper) == 1 and upper != letter and upper.lower() == letter else None


def wrong_letters():
    """The pairs of the table of letters that aren't Unicode's, and the letters that it lacks."""
    rows = re.findall(r"CaseRow\((0x[0-9a-f]+), (0x[0-9a-f]+), (true|false), (\d+)\)", text_of(LETTERS))
    if not rows:
        sys.exit(f"unseen.py: {LETTERS} has no letters")
    found = {}
    for first, last, other, below in rows:
        for n in range(int(first, 16), int(last, 16) + 1, 2 if other == "true" else 1):
            found[chr(n)] = chr(n - int(below))
    for letter, wanted in found.items():
        if capital(letter) != wanted:
            yield f"{LETTERS}: not the capital of {ord(letter):04X}: {ord(wanted):04X}"
    for n in sorted(numbers(WHOLE) - {0x4CF}):
        if capital(chr(n)) and chr(n) not in found:
            yield f"{LETTERS}: lacks the letter {n:04X}"


def wrong_marks():
    marks = re.search(r"ACCENT_MARKS: \[char; 15\] = \[(.*?)\];", text_of(LETTERS), re.S)
    found = re.findall(r"u\{([0-9a-f]+)\}", marks.group(1)) if marks else []
    if [unicodedata.name(chr(int(mark, 16))) for mark in found] != [f"COMBINING {name}" for name in MARKS.values()]:
        yield f"{LETTERS}: the marks of the accents"


def table(name):
    """The characters of a table of spans."""
    with open(os.path.join(CRATES, TABLES), encoding="utf-8") as file:
        match = re.search(rf"static {name}: \[Span; \d+\] = \[(.*?)\n\];", file.read(), re.S)
    if not match:
        sys.exit(f"unseen.py: {TABLES} has no {name}")
    spans = re.findall(r"Span\((0x[0-9a-f]+), (0x[0-9a-f]+)\)", match.group(1))
    return numbers([(int(first, 16), int(last, 16)) for first, last in spans])


def plane_ends():
    """The last characters of each plane, as each file has them."""
    for path, pattern in PLANES:
        with open(os.path.join(CRATES, path), encoding="utf-8") as file:
            match = re.search(pattern, file.read())
        if not match:
            sys.exit(f"unseen.py: {path} has no last characters of a plane")
        first, size = (int(number.replace("_", ""), 16) for number in match.groups())
        yield path, {n for n in range(0x110000) if first <= n % size}


def compared(path, kind, has, wanted, may=frozenset()):
    """What a file has that isn't of the kind, and what it lacks."""
    if has - wanted - may:
        yield f"{path}: not {kind}: {shown(has - wanted - may)}"
    if wanted - has:
        yield f"{path}: missing of {kind}: {shown(wanted - has)}"


def undrawn(drawn, unassigned):
    """The differences of the tables."""
    marks = {kind for kind in drawn if kind.startswith("Mn and Me: ")}
    numbered = set().union(*(drawn[kind] for kind in drawn.keys() - marks))
    for path, ends in plane_ends():
        yield from compared(path, "what has a number", table("NUMBERED") | ends, numbered)
    blocks = numbers([block for blocks in MARK_BLOCKS.values() for block in blocks])
    wanted = set().union(*(drawn[kind] for kind in marks))
    yield from compared(TABLES, "Mn and Me of these blocks", table("MARKS"), wanted, unassigned & blocks)


def differences(wanted):
    for path, pattern, parts in FILES:
        has_each = defined(path, pattern, [name for names in parts.values() for name in names])
        for kind, names in parts.items():
            yield from compared(path, kind, set().union(*(has_each[name] for name in names)), wanted[kind])


def main():
    if sys.argv[1:] not in ([], ["--check"]):
        sys.exit("usage: unseen.py [--check]")
    of_category = {}
    direction = set()
    for n in range(0x110000):
        of_category.setdefault(unicodedata.category(chr(n)), set()).add(n)
        if unicodedata.bidirectional(chr(n)) in DIRECTION_CLASSES:
            direction.add(n)
    unseen, drawn = unseen_properties(of_category, direction), drawn_properties(of_category)
    if not sys.argv[1:]:
        for name, members in {**unseen, **drawn}.items():
            print(f"{name}: {shown(members)}")
        return
    found = [*differences(unseen), *undrawn(drawn, of_category["Cn"]), *misnamed(), *wrong_letters(), *wrong_marks()]
    for line in found:
        print(line)
    count = sum(len(parts) for _, _, parts in FILES) + len(PLANES) + 1 + len(NAMES) + 2
    print(f"unseen.py: {count} properties, tables and lists compared, {len(found)} differences")
    sys.exit(1 if found else 0)


main()

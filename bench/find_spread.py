#!/usr/bin/env python3
"""Finds the constant by which keymap_text finds a name, and prints it with its table as they stand in src/names.rt.

A name in lower case, filled with blanks to eight bytes, is a number, its key, with the first byte lowest. Of the key
times SPREAD 64 bits are kept, and the highest eight of them are where PLACES has the index of the name. So no two names
may have the same eight. Random odd numbers, the same ones in each run, are tried until one keeps all names apart.

usage: find_spread.py [--check] [FILE]
FILE is src/names.rt of crates/keymap_text if none is given. With --check nothing is printed, and the status is 0 where
FILE has what would be printed, and 1 where it doesn't.
"""

import random
import re
import sys
import textwrap
from pathlib import Path

SOURCE = Path(__file__).resolve().parent.parent / "crates/keymap_text/src/names.rt"
KEPT = (1 << 64) - 1
HIGHEST = 56
MOST_NAMES = 128
TRIES = 20_000_000


def keys_of(source):
    """The keys of the names in the table, in its order."""
    names = re.findall(r'\bName\(\*b"([^"]{8})"', source)
    return [int.from_bytes(name.encode("ascii"), "little") for name in names]


def candidates():
    """Random odd numbers of 64 bits."""
    generator = random.Random(1)
    for _ in range(TRIES):
        yield generator.getrandbits(64) | 1


def places_of(keys, spread):
    """Where each key leads, as a table of indexes, 0 where none does; None where two lead to the same place."""
    places = [None] * 256
    for index, key in enumerate(keys):
        place = (key * spread & KEPT) >> HIGHEST
        if places[place] is not None:
            return None
        places[place] = index
    return [index or 0 for index in places]


def find(keys):
    """The first number that keeps the keys apart, and its table; None where none is found."""
    for spread in candidates():
        places = places_of(keys, spread)
        if places is not None:
            return spread, places
    return None


def rust_lines(spread, places):
    """The two items of the source that the number and its table make."""
    digits = f"{spread:016x}"
    groups = "_".join(digits[i : i + 4] for i in range(0, 16, 4))
    row = ", ".join(str(place) for place in places) + ","
    rows = textwrap.fill(row, width=99, initial_indent="    ", subsequent_indent="    ")
    return f"const SPREAD: u64 = 0x{groups};", f"static PLACES: [u8; 256] = [\n{rows}\n];"


def main(words):
    check = "--check" in words
    files = [word for word in words if word != "--check"]
    source = Path(files[0] if files else SOURCE).read_text(encoding="utf-8")
    keys = keys_of(source)
    if not keys or len(set(keys)) < len(keys) or len(keys) > MOST_NAMES:
        print(f"find_spread.py: {len(keys)} names, of which {len(set(keys))} differ", file=sys.stderr)
        return 1
    found = find(keys)
    if found is None:
        print(f"find_spread.py: none of {TRIES} numbers keeps {len(keys)} names apart", file=sys.stderr)
        return 1
    items = rust_lines(*found)
    if check:
        return 0 if all(item in source for item in items) else 1
    print("\n\n".join(items))
    return 0


if __name__ == "__main__":
    sys.exit(main(sys.argv[1:]))

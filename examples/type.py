#!/usr/bin/env python3
"""Types on a console over the tables of a keymap, as type.c does: python3 type.py TABLES < NUMBERS"""

import sys


def type_numbers(name: str) -> None:
    """Types what the events on standard input, by their numbers, give over the tables in this file."""
    from kmap import Console, Keymap

    with open(name, "rb") as file:
        tables = file.read()
    try:
        console = Console(Keymap(tables))
    except ValueError as error:
        raise ValueError(f"{name}: {error}") from None
    with open(sys.stdout.fileno(), "wb", closefd=False) as out:
        for word in sys.stdin.read().split():
            if not (word.isascii() and word.isdecimal()):
                raise ValueError(f"no number: {word}")
            out.write(str(console.event(int(word))).encode())


def main() -> int:
    if len(sys.argv) != 2:
        print("usage: type.py TABLES < NUMBERS", file=sys.stderr)
        return 2
    try:
        type_numbers(sys.argv[1])
    except (ImportError, OSError, ValueError) as error:
        print(f"type: {error}", file=sys.stderr)
        return 1
    return 0


if __name__ == "__main__":
    sys.exit(main())

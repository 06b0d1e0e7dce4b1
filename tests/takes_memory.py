#!/usr/bin/env python3
"""Prints each exported function of the libraries that takes an allocator, a line each: `name` or `Type::name`.

usage: takes_memory.py"""

import glob
import os
import re

TOP = os.path.dirname(os.path.dirname(os.path.abspath(__file__)))
USE = re.compile(r"^pub use [\w:]+::(\{[^}]*\}|\w+);", re.MULTILINE)
MODULE = re.compile(r"^pub mod (\w+);", re.MULTILINE)
# a function, and what stands before its clauses and its body, as `rt fmt` lays it out
FUNCTION = re.compile(
    r"^( *)(pub )?(?:const )?(?:unsafe )?(?:extern \"C\" )?fn (\w+)"
    r"(.*?)(?=\n? *\b(?:requires|ensures)\b| \{$|^ *\{)",
    re.MULTILINE | re.DOTALL,
)
IMPL = re.compile(r"^(?:unsafe )?impl(?:<.*?>)? (?:(?:\w+::)*(\w+)(?:<(.*)>)? for )?&?(?:\w+::)*(\w+)", re.MULTILINE)


def text_of(path):
    with open(path, encoding="utf-8") as it:
        return it.read()


def exports_of(crate):
    """The names that a crate exports, and the modules whose public items are exported with them."""
    text = re.sub(r"//.*", "", text_of(f"{crate}/src/lib.rt"))
    names = {it for found in USE.findall(text) for it in re.findall(r"\w+", found)}
    return names, {"lib", *MODULE.findall(text)}


def owner_at(text, at):
    """The trait and the type of the impl block in which a place stands, or None."""
    blocks = [it for it in IMPL.finditer(text, 0, at) if "\n}" not in text[it.end() : at]]
    return blocks[-1].groups() if blocks else None


def main():
    crates = {it: exports_of(it) for it in glob.glob(f"{TOP}/crates/*") if os.path.isfile(f"{it}/src/lib.rt")}
    crates = {it: found for it, found in crates.items() if not os.path.basename(it).startswith("test")}
    traits = {name for names, _ in crates.values() for name in names}
    found = set()
    for crate, (names, modules) in crates.items():
        for path in glob.glob(f"{crate}/src/**/*.rt", recursive=True):
            text, module = text_of(path), os.path.relpath(path, f"{crate}/src").removesuffix(".rt")
            for it in FUNCTION.finditer(text):
                indent, is_public, name, head = it.groups()
                if not re.search(r": Global\b", head):
                    continue
                trait, types, owner = (indent and owner_at(text, it.start())) or (None, None, None)
                if (owner or name) not in names and module not in modules:
                    continue
                if not indent and is_public:
                    found.add(name)
                elif owner and (trait in traits if trait else is_public):
                    found.add(f"{owner}{trait or ''}{''.join(re.findall(r'[A-Za-z0-9_]+', types or ''))}::{name}")
    print(*sorted(found), sep="\n")


if __name__ == "__main__":
    main()

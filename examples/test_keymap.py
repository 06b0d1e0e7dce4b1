"""Tests of a keymap, for pytest (KEYMAP=us.kbd python3 -m pytest test_keymap.py) or alone (python3 test_keymap.py)."""

import os

from kmap import Console, Keymap

KEYMAP = Keymap.from_file(os.environ.get("KEYMAP", os.path.join(os.path.dirname(__file__), "us.kbd")))


def test_no_modifier_sticks():
    assert KEYMAP.accepted(), KEYMAP.finding()


def test_shift():
    console = Console(KEYMAP)
    assert str(console.tap(30)) == "a"
    assert str(console.tap(30, 42)) == "A"
    assert console.modifiers == set()


if __name__ == "__main__":
    for name, test in list(globals().items()):
        if name.startswith("test_"):
            test()
            print(f"{name} passed")

"""Gives the wrong consoles of wrong_consoles.py to examples/console_test.py in place of machines: what it finds differs
once it is shortened, and no longer where one more event is left out; and a right console is told to be right. A
keyboard can send each list that it tries, and a right console looks up no action there that it didn't look up before.

usage: wrong_ends.py PROGRAM TEXT SCRIPT [FLOOR]
It prints how many are found, and to how many events they are shortened; the status is 1 where fewer than FLOOR are
found, or where something found is no such list."""

import contextlib
import functools
import io
import os
import sys
import tempfile
from argparse import Namespace
from pathlib import Path

from wrong_consoles import MISTAKES, Console, Keymap, events_of, run, typed

sys.path.insert(0, str(Path(__file__).resolve().parent.parent / "examples"))

import console_test
from console_ends import End


# Lists, and what a keyboard sends of them: with Alt it sends another code for Print Screen, and with Ctrl for Pause,
# which it never holds.
SENT = {
    "up 30\ndown 30\ndown 30\nrepeat 31\nrepeat 30": "down 30\nrepeat 30\nup 30",
    "down 42\ndown 54": "down 42\ndown 54\nup 54\nup 42",
    "down 56\ndown 92\nup 92\nup 56\ndown 92": "down 56\nup 56\ndown 92\nup 92",
    "down 29\ndown 104\nup 29\ndown 104\nrepeat 104\ndown 30": "down 29\nup 29\ndown 104\nup 104\ndown 30\nup 30",
}


class WrongConsole(End):
    """A console that types at once, and keeps what it was given from rest on."""

    def __init__(self, keymap, mistake):
        super().__init__(Namespace(program=["wrong"], restart=None, ready=None))
        self.keymap, self.mistake, self.lists = keymap, mistake, []

    def restart(self):
        self.console, self.bytes = Console(self.keymap, self.mistake), b""
        self.lists.append([])

    def put(self, event):
        self.lists[-1].append(event)
        self.bytes += typed(self.console, [event]).encode()

    def typed(self, due, pause=None):
        bytes, self.bytes = self.bytes, b""
        return bytes


def kept(answers):
    """What right consoles answer, which many wrong ones are compared with, told once."""
    told = functools.lru_cache(maxsize=None)(answers)
    return lambda text, events: told(text, tuple(events))


class Measured:
    """What is found of the consoles under a keymap, by its cases."""

    def __init__(self, tables, text, script):
        self.keymap, self.text, self.lengths = Keymap(tables), text, []
        self.cases = console_test.read_cases(script, "script")

    def due(self):
        """The bytes that the cases type on a right console."""
        said = console_test.answers(self.text, [event for _, events in self.cases for event in events])
        return b"".join(map(console_test.typed_by, said))

    def is_told(self, mistake, events):
        """Whether the events tell the console with a mistake from a right one."""
        return typed(Console(self.keymap), events) != typed(Console(self.keymap, mistake), events)

    def complaints(self, mistake):
        """What is wrong with what is said of the console with a mistake, or of a right one."""
        console = WrongConsole(self.keymap, mistake)
        with contextlib.redirect_stdout(io.StringIO()) as said:
            tester = console_test.Tester(console, self.text)
            status = tester.test(self.cases)
        events = events_of(said.getvalue()) if status else []
        self.lengths += [len(events)] if status else []
        if status and not mistake:
            yield "a right console is told to differ"
        if self.is_told(mistake, events) != bool(status):
            yield f"what is told does not differ: {events}"
        for at in range(len(events)):
            less = console_test.sendable(events[:at] + events[at + 1 :])
            if len(less) < len(events) and not tester.more_actions(less) and self.is_told(mistake, less):
                yield f"fewer events differ: {less}, in place of {events}"
        for events in console.lists[1:]:
            if console_test.sendable(events) != events:
                yield f"no keyboard sends {events}"
            if tester.more_actions(events):
                yield f"other actions are looked up by {events}"


def main():
    program, text, script, *floor = sys.argv[1:]
    failed = False
    for asked, sent in SENT.items():
        if console_test.sendable(events_of(asked)) != events_of(sent):
            failed = True
            print(f"failed: {asked.split(chr(10))} is taken to be sent otherwise")
    with tempfile.TemporaryDirectory() as folder:
        tables = Path(folder, "tables")
        run(program, "compile", text, str(tables))
        os.symlink(os.path.abspath(program), Path(folder, "kmap"))
        os.environ["PATH"] = f"{folder}{os.pathsep}{os.environ['PATH']}"
        console_test.answers = kept(console_test.answers)
        measured = Measured(tables.read_bytes(), text, script)
        if run(program, "play", "--typed", text, script) != measured.due():
            failed = True
            print("failed: something else is due than what play --typed types")
        for mistake in [None, *MISTAKES]:
            for complaint in measured.complaints(mistake):
                failed = True
                print(f"failed: {mistake or 'right'}: {complaint}")
    lengths = measured.lengths
    print(f"{len(lengths)} of {len(MISTAKES)} wrong consoles found, and shortened to at most {max(lengths)} events")
    return 1 if failed or len(lengths) < int(*floor or [0]) else 0


if __name__ == "__main__":
    sys.exit(main())

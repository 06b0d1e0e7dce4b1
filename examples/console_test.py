#!/usr/bin/env python3
"""Tests a console by a keyboard: gives it the cases of a script one by one, and compares what it types with what
`kmap play --typed` types. It stops at the first difference, since a wrong console may look up `boot` next, tells the
case, and shortens it to the fewest events that still differ.

    kmap cover --keyboard us.kbd > us.cases
    console_test.py us.kbd us.cases -- ./console us.kbd                    a program that reads events and types
    console_test.py us.kbd us.cases --qmp FILE --line FILE --ready WORDS   a machine in QEMU
    console_test.py us.kbd us.cases --uinput --line /dev/tty8              this machine

A program is run in a terminal that changes no byte. It gets events in a form of `kmap type --as`, those of evdev as
structs and those of set1 as bytes, and what it writes is what it types. The status is 0 where all is the same, 1 where
the console differs, and 2 where it can't be tested. `kmap` is to be on the path."""

import argparse
import re
import subprocess
import sys
from typing import Callable, Dict, List, NamedTuple, Optional, Sequence, Set, Tuple

sys.dont_write_bytecode = True

from console_ends import SETTLES, Bad, End, Event, Machine, Program, Uinput, kmap, lines_of  # noqa: E402

Case = Tuple[str, List[Event]]
Difference = NamedTuple("Difference", [("number", int), ("typed", bytes), ("due", bytes), ("ended", bool)])

# While one of these keys is down, a keyboard sends another code for the key; and 104 is released as soon as pressed.
SENT_OTHERWISE: Dict[int, Set[int]] = {92: {56, 93}, 104: {29, 90}}
NEVER_HELD = 104


def read_cases(name: str, form: str) -> List[Case]:
    """The cases of a script, each from rest to rest, if a form has their keys; a script without `# case` is one. Those
    with a repeat are left out for x11, which has none."""
    cases: List[Case] = [("the script", [])]
    down: List[int] = []
    with open(name, encoding="utf-8", errors="replace") as file:
        for number, line in enumerate([*file, "# case: the end"], 1):
            try:
                if line.startswith("# case"):
                    if down:
                        raise Bad(f"key {down[0]} is still down")
                    cases.append((line[2:].strip(), []))
                elif words := line.partition("#")[0].split():
                    cases[-1][1].append(read_event(words, down, form))
            except Bad as bad:
                raise Bad(f"{name}:{number}: {bad}: {line.strip()}") from None
    cases = [case for case in cases if case[1] and (form != "x11" or "repeat" not in dict(case[1]))]
    if not cases:
        raise Bad(f"{name}: no case")
    return cases


def read_event(words: Sequence[str], down: List[int], form: str) -> Event:
    """The event of a line, if a keyboard can send it while these keys are down."""
    if len(words) != 2 or words[0] not in ("down", "repeat", "up") or not re.fullmatch("[0-9]+", words[1]):
        raise Bad(f"no keyboard sends {words[0]}" if words[0] in ("reset", "lost", "load") else "no event")
    word, key = words[0], int(words[1])
    if (word == "down") == (key in down):
        raise Bad(f"key {key} is {'down already' if word == 'down' else 'not down'}")
    if word != "repeat":
        (down.append if word == "down" else down.remove)(key)
    lines_of(form, key)
    return word, key


def answers(keymap: str, events: Sequence[Event]) -> List[str]:
    """What a right console answers to each event from rest on."""
    lines = kmap("play", keymap, "/dev/stdin", text="".join(f"{word} {key}\n" for word, key in events))
    return [line.split(": ")[1].split(";")[0] for line in lines]


def typed_by(answer: str) -> bytes:
    """The bytes that `kmap play --typed` types for an answer."""
    if found := re.fullmatch("(meta )?char ([0-9]+)", answer):
        return (b"\033" if found[1] else b"") + chr(int(found[2])).encode()
    return b"\033[Z" if answer == "btab" else b""


def actions(said: Sequence[str]) -> Set[str]:
    """The actions that are looked up: some leave the console or end the machine."""
    return {answer for answer in said if " " not in answer}


def sendable(events: Sequence[Event]) -> List[Event]:
    """The events of a list that a keyboard can send, and behind them the releases of the keys that are down."""
    down: List[int] = []
    sent: List[Event] = []
    for word, key in events:
        if (word == "down") == (key in down) or SENT_OTHERWISE.get(key, set()) & {*down}:
            continue
        sent.append((word, key))
        if word == "down" and key == NEVER_HELD:
            sent.append(("up", key))
        elif word != "repeat":
            (down.append if word == "down" else down.remove)(key)
    return sent + [("up", key) for key in reversed(down)]


def shortened(events: List[Event], differing: Callable[[List[Event], int], Optional[List[Event]]]) -> List[Event]:
    """Leaves out what can be left out so that a list still differs: halves first, then ever shorter runs of events."""
    size = len(events) // 2
    while size:
        at, before = 0, len(events)
        while at < len(events):
            less = differing(events[:at] + events[at + size :], len(events))
            at, events = (at, less) if less else (at + size, events)
        if size > 1 or len(events) == before:
            size //= 2
    return events


class Tester:
    """Gives the cases to a console, and shortens the first one that differs."""

    def __init__(self, end: End, keymap: str):
        self.end, self.keymap, self.tries = end, keymap, 0
        self.looked_up: Set[str] = set()

    def give(self, events: Sequence[Event]) -> Optional[Difference]:
        """Gives events one by one, up to the first behind which something else was typed than by a right console, and
        lets go of the keys that are down there."""
        typed, due, number = b"", b"", 0
        for number, (event, answer) in enumerate(zip(events, answers(self.keymap, events)), 1):
            self.end.send(event)
            due += typed_by(answer)
            typed += self.end.typed(due[len(typed) :])
            if typed != due or self.end.ended:
                break
        typed += self.end.typed(b"", SETTLES)
        if typed == due and not self.end.ended:
            return None
        found = Difference(number, typed, due, self.end.ended)
        self.end.let_go()
        return found

    def test(self, cases: Sequence[Case]) -> int:
        """Gives the cases, one behind the other, until one differs: the status."""
        given: List[Event] = []
        self.end.restart()
        for name, events in cases:
            given += events
            if found := self.give(events):
                events = events[: found.number]
                print(f"# {name}: it differs behind its event {found.number}")
                print("# events:", ", ".join(f"{word} {key}" for word, key in events))
                tell(found)
                self.looked_up = actions(answers(self.keymap, given))
                self.shorten([events, given], found)
                return 1
        print(f"{len(cases)} cases, {len(given)} events, all the same")
        return 0

    def more_actions(self, events: Sequence[Event]) -> Set[str]:
        """The actions that a list looks up and the cases before did not."""
        return actions(answers(self.keymap, events)) - self.looked_up

    def differing(self, events: List[Event], limit: int = sys.maxsize) -> Optional[List[Event]]:
        """The events up to the first difference, and the releases behind them, if a console at rest differs for them.
        They aren't tried where they are no fewer than the limit, or look up more actions."""
        events = sendable(events)
        if not 0 < len(events) < limit or self.more_actions(events):
            return None
        self.tries += 1
        self.end.restart()
        found = self.give(events)
        self.found = found or self.found
        return sendable(events[: found.number]) if found else None

    def shorten(self, lists: Sequence[List[Event]], found: Difference) -> None:
        """Prints the fewest events that were found to differ from rest on: of the case, or of all up to it."""
        options, self.found = self.end.options, found
        can_restart = options.program or not found.ended and (options.ready or options.restart)
        events = next(filter(None, map(self.differing, lists)), None) if can_restart else None
        if not events:
            print("# not shortened:", "it doesn't differ again" if can_restart else "nothing brings it to rest")
            return
        events = shortened(events, self.differing)
        print(f"# fewest events that were found to differ: {len(events)}, in {self.tries} tries")
        tell(self.found)
        print("".join(f"{word} {key}\n" for word, key in events), end="")


def tell(found: Difference) -> None:
    print(f"# typed: {shown(found.typed)}{', and it ended' if found.ended else ''}")
    print(f"# due: {shown(found.due)}", flush=True)


def shown(typed: bytes) -> str:
    return repr(typed.decode("utf-8", "backslashreplace"))


def read_words(words: List[str]) -> argparse.Namespace:
    """The options, and the program behind `--`."""
    at = words.index("--") if "--" in words else len(words)
    ends = "-- PROGRAM WORDS.. | --qmp FILE --line FILE | --uinput --line FILE"
    parser = argparse.ArgumentParser(usage=f"%(prog)s [OPTIONS] KEYMAP SCRIPT ({ends})")
    add = parser.add_argument
    add("keymap", metavar="KEYMAP", help="the keymap text of the console")
    add("script", metavar="SCRIPT", help="what kmap cover --keyboard printed")
    add("--as", dest="form", choices=["script", "evdev", "set1", "x11"], help="what a program gets; script without it")
    add("--qmp", metavar="FILE", help="the socket of QEMU's -qmp unix:FILE,server,nowait")
    add("--uinput", action="store_true", help="a keyboard of this machine's own")
    add("--line", metavar="FILE", help="where the console's bytes come out: a terminal, a FIFO or a socket")
    add("--ready", metavar="WORDS", help="what is printed once keys are taken; QEMU is then reset for each try")
    add("--restart", metavar="COMMAND", help="a command of the shell that brings the console to rest")
    add("--wait", metavar="SECONDS", type=float, default=1.0, help="seconds for what is due; 1 without it")
    add("--pause", metavar="SECONDS", type=float, default=0.005, help="seconds behind each event; 0.005 without it")
    options = parser.parse_args(words[:at])
    options.program = words[at + 1 :]
    if [bool(options.program), bool(options.qmp), options.uinput].count(True) != 1:
        parser.error("one of -- PROGRAM, --qmp and --uinput is wanted")
    if bool(options.program) != (not options.line) or (options.form if options.line else options.restart):
        parser.error("--as belongs to a program, and --line and --restart to --qmp and --uinput")
    options.form = options.form or ("qmp" if options.qmp else "evdev" if options.uinput else "script")
    return options


def main() -> int:
    options, end = read_words(sys.argv[1:]), None
    try:
        cases = read_cases(options.script, options.form)
        keys = {key for _, events in cases for _, key in events}
        end = Program(options) if options.program else Machine(options) if options.qmp else Uinput(options, keys)
        return Tester(end, options.keymap).test(cases)
    except (Bad, OSError, subprocess.CalledProcessError) as error:
        print(f"console_test: {error}", file=sys.stderr)
        return 2
    except KeyboardInterrupt:
        if end:
            end.let_go()
        return 130
    finally:
        if end:
            end.stop()


if __name__ == "__main__":
    sys.exit(main())

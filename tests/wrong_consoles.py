"""A console with a switch for each of many mistakes, to see how many of them the scripts of `kmap cover` find.

    python3 -B tests/wrong_consoles.py PROGRAM [KEYMAP..]

For each keymap text, those of FLOORS where none is given, PROGRAM prints the script (`cover`), its answers (`play`) and
the tables (`compile`), and the script is delivered to each wrong console: a mistake is found if a line differs from the
answers. A console whose mistake is not found gets events drawn at random as well. If these tell it from a right one, it
is missed; if not, nothing here tells the two apart under this keymap. A line for each keymap tells how many are found,
and which are missed. The status is 1 where fewer are found than FLOORS says or fewer than nine of ten of those that are
told apart, where one is missed that MISSED doesn't name, where a keymap of SHORT has a longer script, or where some
mistake is told apart under no keymap. Where no text is given, docs/GUIDE.md has to have the counts of GUIDED, and the
scripts of `cover --keyboard` are tried too: each case is delivered to new consoles, and a mistake is found if what is
typed differs. The status is 1 where fewer are found than TYPED says, or a case doesn't leave a right console like a new
one.

The console is written from docs/TRANSLATION.md and docs/FORMATS.md and shares nothing with the program: with no mistake
it must give each line that `play` gives.
"""

import random
import struct
import subprocess
import sys
import tempfile
from pathlib import Path

MODIFIERS = ("lshift", "rshift", "lctrl", "rctrl", "lalt", "ralt", "ashift", "meta")
LOCKS = ("clock", "nlock", "slock", "alock")
ACCENTS = tuple("dgra dacu dcir dtil dmac dbre ddot duml dsla drin dced dapo ddac dogo dcar".split())
OTHER_SIDE = {"lshift": "rshift", "lctrl": "rctrl", "lalt": "ralt"}
OTHER_SIDE.update({right: left for left, right in OTHER_SIDE.items()})
# What drops a pending accent and gives itself.
DROPPING = frozenset("saver boot susp stby debug nscr pscr panic halt pdwn".split())

ACTIONS = {0x00: "nop", 0x02: "lshift", 0x03: "rshift", 0x04: "clock", 0x05: "nlock", 0x06: "slock", 0x07: "lalt"}
ACTIONS.update({0x08: "btab", 0x09: "lctrl", 0x0A: "nscr", 0x80: "rctrl", 0x81: "ralt", 0x82: "alock", 0x83: "ashift"})
ACTIONS.update({0x84: "meta", 0x85: "boot", 0x86: "debug", 0x87: "susp", 0x88: "saver", 0x98: "stby", 0x99: "pscr"})
ACTIONS.update({0x9A: "panic", 0xA1: "halt", 0xA2: "pdwn", 0xA3: "paste"})
ACTIONS.update({0x0A + number: f"scr{number:02}" for number in range(1, 17)})
ACTIONS.update({0x1A + number: f"fkey{number:02}" for number in range(1, 97)})
ACTIONS.update({0x89 + number: name for number, name in enumerate(ACCENTS)})

# How many mistakes the script of a keymap finds at least.
FLOORS = {
    "examples/us.kbd": 102,
    "examples/de.kbd": 105,
    "examples/trap.kbd": 21,
    "tests/pictures/us-ru.kbd": 85,
    "tests/pictures/fr-dvorak.kbd": 113,
    "tests/consoles/all.kbd": 128,
}

# How many mistakes the script by a keyboard finds at least, by what it types alone: all that were told so by events drawn
# at random of those that a keyboard sends, and a planner's.
TYPED = {"examples/us.kbd": 81, "examples/de.kbd": 82}

# The keymap of which the guide tells what its script finds.
GUIDED = "examples/us.kbd"

# The keymaps whose scripts have at most so many events.
SHORT = {"examples/us.kbd": 4000, "examples/de.kbd": 4000}

# How many events are drawn at random.
DRAWN = 6000

TWO_KEYS = "it presses a modifier that is on by another key only where both keys are it at rest"

# What a script may miss under some keymap, and why.
MISSED = {
    "a repeat drops an accent": "it repeats no key while an accent is pending, but where it looks for cells",
    "a repeat of a dead key does nothing": "it repeats a dead key only where it looks for cells",
    "a modifier is on until its last key is released": TWO_KEYS,
    "a press turns a modifier off that is on": TWO_KEYS,
    "a repeat does not turn a modifier on again": TWO_KEYS,
    "eight keys remember and no more": "it presses many keys at once only if they are other actions at rest",
    "meta is marked on plain characters alone": "it composes no accent while meta is on",
    "meta is not marked on composed characters": "it composes no accent while meta is on",
}

# Each mistake is named by what the console does. `Console` asks for it by this name.
MISTAKES = (
    # which cell is looked up
    "shift is not looked at",
    "control is not looked at",
    "alt is not looked at",
    "the right shift is not looked at",
    "the left shift is not looked at",
    "the right control is not looked at",
    "the left control is not looked at",
    "the right alt is not looked at",
    "the left alt is not looked at",
    "both shifts cancel",
    "both controls cancel",
    "both alts cancel",
    "shift is not looked at with control",
    "shift is not looked at with alt",
    "control is not looked at with alt",
    "alt is not looked at with control",
    "the columns of control and alt are exchanged",
    "no lock flips shift",
    "clock does not flip shift for C",
    "nlock does not flip shift for N",
    "clock does not flip shift for B",
    "nlock does not flip shift for B",
    "both locks flip shift twice for B",
    "clock flips shift for N",
    "nlock flips shift for C",
    "clock flips shift for O",
    "nlock flips shift for O",
    "a lock sets shift and does not flip it",
    "a lock does not flip shift with control",
    "a lock does not flip shift with alt",
    "a lock flips shift only without the upper half",
    "the upper half takes its lock letter from the lower one",
    "the upper half is never looked up",
    "ashift does not select the upper half",
    "alock does not select the upper half",
    "ashift and alock together select the upper half",
    "the upper half is that of characters alone",
    "a slot that is not defined falls back on the lower half",
    "a slot that is not defined gives nothing",
    "slock flips shift",
    "meta counts as alt",
    "a lock of a pressed key does not flip yet",
    # characters
    "a character above 255 loses its upper byte",
    "a character 0 gives nothing",
    "a repeat of a character gives nothing",
    "control takes the upper bits of a character",
    "meta is not marked",
    "meta is marked on plain characters alone",
    "meta is not marked on composed characters",
    "meta sets the bit 128",
    "meta stays for one character alone",
    "a character does not make the key forget",
    # what a key remembers
    "nop is remembered",
    "another action than the remembered one acts",
    "another action than the remembered one takes its place",
    "another action than the remembered one is answered",
    "a repeat of an action gives nothing",
    "a release is that of the cell that is looked up then",
    "a release goes over the upper half that is selected then",
    "a release of a key that remembers nothing is that of its cell",
    "eight keys remember and no more",
    "a press of another key makes the last one forget",
    "a release of another action than a holding one gives nothing",
    "a release of a dead key gives nothing",
    "a release keeps what is remembered",
    # modifiers
    "a modifier counts its presses",
    "a modifier is on until its last key is released",
    "a repeat does not turn a modifier on again",
    "a press turns a modifier off that is on",
    "a release turns the other side off too",
    "a press turns the other side off",
    "a release turns no modifier off",
    "a release turns all modifiers off",
    "a right modifier is on as the left one",
    "a modifier waits for the next key",
    # locks
    "a repeat turns a lock",
    "a lock turns only once until a reset",
    "a lock turns at its release",
    "a lock turns at its release again",
    "a lock is on while its key is pressed",
    "the marks of locks are one",
    "each key of a lock is marked by itself",
    "a lock does not turn with shift",
    "a lock does not turn while another key is pressed",
    "one lock turns the others off",
    "a lock that turns off is not answered",
    # accents
    "an accent is kept after an error",
    "an accent is kept after it composed",
    "a character that is no base is given as it is",
    "a blank gives a blank after a dead key",
    "a blank gives the result of its pair first",
    "a dead key twice gives an error",
    "a dead key twice stays pending",
    "a dead key twice cancels",
    "a repeat of a dead key does nothing",
    "a dead key does not take the place of another",
    "another dead key gives the first one's character",
    "another dead key is an error",
    "a dead key that is not defined gives nothing",
    "a dead key that is not defined keeps the accent",
    "a dead key gives its character at once",
    "nop drops an accent",
    "a modifier drops an accent",
    "a lock drops an accent",
    "a release drops an accent",
    "a repeat drops an accent",
    "an action keeps an accent",
    "btab keeps an accent",
    "btab is an error after a dead key",
    "a function key keeps an accent",
    "a function key is answered after a dead key",
    "a screen keeps an accent",
    "a screen is answered after a dead key",
    "paste keeps an accent",
    "paste is answered after a dead key",
    "the last pair of a base counts",
    "the last pair is not looked at",
    "eight pairs are looked at",
    "all accents compose as the first one",
    # resets
    "a reset turns the locks off",
    "a reset keeps the modifiers",
    "a reset keeps meta",
    "a reset keeps ashift",
    "a reset keeps what is remembered",
    "a reset keeps the marks of locks",
    "a reset keeps an accent",
    "a reset is not answered by modifiers that are off",
    # answers
    "btab is given as an action",
    "a lock is not answered",
    "a modifier is not answered",
    "a screen is given as the next one",
    "a function key above 12 gives nothing",
    "a release gives the action",
)  # fmt: skip


class Keymap:
    """The cells, lock letters and accents of a table file."""

    def __init__(self, tables):
        self.count = struct.unpack_from("<H", tables, 0)[0]
        self.cells, self.letters = [], []
        for slot in range(256):
            numbers = struct.unpack_from("<8I", tables, 4 + 36 * slot)
            marks, letter = tables[36 + 36 * slot], tables[37 + 36 * slot]
            self.cells.append([ACTIONS[n] if marks & 0x80 >> c else n for c, n in enumerate(numbers)])
            self.letters.append("OCNB"[letter])
        self.accents = []
        for accent in range(struct.unpack_from("<H", tables, 9220)[0]):
            own, *numbers = struct.unpack_from("<105I", tables, 9224 + 420 * accent)
            pairs = list(zip(numbers[::2], numbers[1::2]))
            self.accents.append((own, [pair for pair in pairs if pair[0] != 0]))

    def own(self, name):
        """The character of the accent with this dead key, 0 where the keymap doesn't define it."""
        number = ACCENTS.index(name)
        return self.accents[number][0] if number < len(self.accents) else 0

    def pairs(self, name):
        return self.accents[ACCENTS.index(name)][1]


class Console:
    """A console with one mistake, or with none."""

    def __init__(self, keymap, mistake=None):
        self.keymap, self.mistake, self.words = keymap, mistake, mistake or ""
        self.remembered = {}
        self.on, self.locked, self.marked, self.pending = set(), set(), set(), None
        # What only wrong consoles keep.
        self.down, self.counts, self.last = set(), {}, None

    def line(self, event, key=None):
        """Delivers the event, and gives the line of `play`."""
        if event == "reset":
            said, answer = "reset", self.reset()
        elif event == "up":
            said, answer = f"release {key}", self.release(key)
        else:
            said, answer = f"press {key}", self.press(key)
        modifiers = " ".join([name for name in MODIFIERS if name in self.on]) if self.on else ""
        locks = " ".join([name for name in LOCKS if name in self.locked]) if self.locked else ""
        return f"{said}: {answer}; mods {modifiers or 'none'}; locks {locks or 'none'}"

    # which cell is looked up

    def either(self, left, right, name):
        is_left, is_right = left in self.on, right in self.on
        if name not in self.words:
            return is_left or is_right
        if self.mistake == f"{name} is not looked at":
            return False
        if self.mistake == f"the right {name} is not looked at":
            return is_left
        if self.mistake == f"the left {name} is not looked at":
            return is_right
        if self.mistake == f"both {name}s cancel":
            return is_left != is_right
        return is_left or is_right

    def is_upper(self):
        ashift, alock = "ashift" in self.on, "alock" in self.locked
        mistake = self.mistake
        if mistake == "the upper half is never looked up":
            return False
        if mistake == "ashift does not select the upper half":
            return alock
        if mistake == "alock does not select the upper half":
            return ashift
        if mistake == "ashift and alock together select the upper half":
            return ashift or alock
        return ashift != alock

    def is_flipped(self, letter, control, alt, upper):
        clock, nlock, mistake = "clock" in self.locked, "nlock" in self.locked, self.mistake
        if mistake == "a lock of a pressed key does not flip yet":
            clock, nlock = clock and "clock" not in self.marked, nlock and "nlock" not in self.marked
        if mistake == "slock flips shift":
            clock = clock or "slock" in self.locked
        if mistake == "a lock does not flip shift with control" and control:
            return False
        if mistake == "a lock does not flip shift with alt" and alt:
            return False
        if mistake == "a lock flips shift only without the upper half" and upper:
            return False
        if mistake == "no lock flips shift":
            return False
        if letter == "C":
            if mistake == "clock does not flip shift for C":
                return False
            return clock or (nlock and mistake == "nlock flips shift for C")
        if letter == "N":
            if mistake == "nlock does not flip shift for N":
                return False
            return nlock or (clock and mistake == "clock flips shift for N")
        if letter == "B":
            if mistake == "clock does not flip shift for B":
                return nlock
            if mistake == "nlock does not flip shift for B":
                return clock
            if mistake == "both locks flip shift twice for B":
                return clock != nlock
            return clock or nlock
        if mistake == "clock flips shift for O":
            return clock
        return nlock and mistake == "nlock flips shift for O"

    def look(self, key):
        mistake = self.mistake
        upper = self.is_upper()
        slot = key + 128 if upper else key
        if slot >= self.keymap.count:
            if mistake == "a slot that is not defined falls back on the lower half":
                slot = key
            if mistake == "a slot that is not defined gives nothing":
                return "nop"
        shift = self.either("lshift", "rshift", "shift")
        control = self.either("lctrl", "rctrl", "control")
        alt = self.either("lalt", "ralt", "alt") or (mistake == "meta counts as alt" and "meta" in self.on)
        lower_letter = mistake == "the upper half takes its lock letter from the lower one"
        letter = self.keymap.letters[key if lower_letter else slot]
        if self.is_flipped(letter, control, alt, upper):
            shift = mistake == "a lock sets shift and does not flip it" or not shift
        column = self.column(shift, control, alt)
        cell = self.keymap.cells[slot][column]
        if mistake == "the upper half is that of characters alone" and upper and isinstance(cell, str):
            return self.keymap.cells[key][column]
        return cell

    def column(self, shift, control, alt):
        mistake = self.mistake
        if mistake == "shift is not looked at with control" and control:
            shift = False
        if mistake == "shift is not looked at with alt" and alt:
            shift = False
        if mistake == "control is not looked at with alt" and alt:
            control = False
        if mistake == "alt is not looked at with control" and control:
            alt = False
        if mistake == "the columns of control and alt are exchanged":
            control, alt = alt, control
        return shift + 2 * control + 4 * alt

    # presses

    def press(self, key):
        repeated = key in self.down
        self.down.add(key)
        if self.mistake == "a press of another key makes the last one forget" and self.last != key:
            self.remembered.pop(self.last, None)
        self.last = key
        if self.mistake == "a repeat drops an accent" and repeated:
            self.pending = None
        cell = self.look(key)
        if isinstance(cell, str):
            return self.press_action(key, cell, repeated)
        if self.mistake != "a character does not make the key forget":
            self.remembered.pop(key, None)
        if self.mistake == "a repeat of a character gives nothing" and repeated:
            return "none"
        return self.press_character(cell)

    def press_character(self, character):
        mistake = self.mistake
        if mistake == "control takes the upper bits of a character" and self.either("lctrl", "rctrl", "control"):
            character &= 31
        if mistake == "a modifier waits for the next key":
            self.on &= {name for name, key in self.holders().items() if key in self.down}
        if self.pending is None:
            if mistake == "a character 0 gives nothing" and character == 0:
                return "none"
            return self.given(character, mistake != "meta is not marked")
        return self.composed(character)

    def holders(self):
        return {action: key for key, action in self.remembered.items()}

    def given(self, character, is_marked):
        if self.mistake == "a character above 255 loses its upper byte":
            character &= 255
        if self.mistake == "meta is not marked" or "meta" not in self.on:
            is_marked = False
        if is_marked and self.mistake == "meta sets the bit 128":
            return f"char {character | 128}"
        if is_marked and self.mistake == "meta stays for one character alone":
            self.on.discard("meta")
        return f"meta char {character}" if is_marked else f"char {character}"

    def composed(self, character):
        mistake, pending = self.mistake, self.pending
        if mistake == "all accents compose as the first one":
            pending = next(name for name in ACCENTS if self.keymap.own(name))
        own, pairs = self.keymap.own(pending), self.keymap.pairs(pending)
        plain_alone = "meta is marked on plain characters alone"
        is_marked = mistake not in (plain_alone, "meta is not marked on composed characters")
        if mistake != "an accent is kept after it composed":
            self.pending = None
        if character == 32:
            found = [result for base, result in pairs if base == 32]
            if mistake == "a blank gives the result of its pair first" and found:
                return self.given(found[0], is_marked)
            blank = 32 if mistake == "a blank gives a blank after a dead key" else own
            return self.given(blank, is_marked and mistake != "meta is not marked on composed characters")
        if mistake == "the last pair is not looked at":
            pairs = pairs[:-1]
        if mistake == "eight pairs are looked at":
            pairs = pairs[:8]
        if mistake == "the last pair of a base counts":
            pairs = pairs[::-1]
        for base, result in pairs:
            if base == character:
                return self.given(result, is_marked)
        if mistake == "an accent is kept after an error":
            self.pending = pending
        if mistake == "a character that is no base is given as it is":
            return self.given(character, True)
        return "error"

    def press_action(self, key, action, repeated):
        mistake = self.mistake
        if mistake == "a modifier waits for the next key" and action not in MODIFIERS:
            self.on &= {name for name, key in self.holders().items() if key in self.down}
        if action == "nop":
            return self.press_nothing(key)
        before = self.remembered.get(key)
        if before is None:
            if mistake != "eight keys remember and no more" or len(self.remembered) < 8:
                self.remembered[key] = action
        elif before != action:
            if mistake == "another action than the remembered one is answered":
                return action
            if mistake == "another action than the remembered one takes its place":
                self.remembered[key] = action
            elif mistake != "another action than the remembered one acts":
                return self.press_nothing(key)
        if mistake == "a repeat of an action gives nothing" and repeated and before is not None:
            return "none"
        if action in MODIFIERS:
            return self.press_modifier(key, action, before is not None)
        if action in LOCKS:
            return self.press_lock(key, action)
        if action in ACCENTS:
            return self.press_dead_key(action, repeated)
        return self.press_other(action)

    def press_nothing(self, key):
        if self.mistake == "nop drops an accent":
            self.pending = None
        if self.mistake == "nop is remembered":
            self.remembered.setdefault(key, "nop")
        return "none"

    def press_modifier(self, key, action, remembered):
        mistake = self.mistake
        if mistake == "a modifier drops an accent":
            self.pending = None
        if mistake == "a modifier counts its presses":
            self.counts[action] = self.counts.get(action, 0) + 1
        if mistake == "a press turns the other side off":
            self.on.discard(OTHER_SIDE.get(action))
        if mistake == "a press turns a modifier off that is on" and action in self.on and not remembered:
            self.on.discard(action)
        elif mistake == "a right modifier is on as the left one" and action in ("rshift", "rctrl", "ralt"):
            self.on.add(OTHER_SIDE[action])
        elif not (mistake == "a repeat does not turn a modifier on again" and remembered):
            self.on.add(action)
        return "none" if mistake == "a modifier is not answered" else action

    def press_lock(self, key, action):
        mistake = self.mistake
        if mistake == "a lock drops an accent":
            self.pending = None
        mark = (action, key) if mistake == "each key of a lock is marked by itself" else action
        if mistake == "the marks of locks are one":
            mark = "lock"
        turns = mark not in self.marked or mistake == "a repeat turns a lock"
        self.marked.add(mark)
        if mistake == "a lock turns at its release":
            turns = False
        if mistake == "a lock does not turn with shift" and self.either("lshift", "rshift", "shift"):
            turns = False
        if mistake == "a lock does not turn while another key is pressed" and len(self.down) > 1:
            turns = False
        was_on = action in self.locked
        if turns:
            self.turn(action)
        if mistake == "a lock is on while its key is pressed":
            self.locked.add(action)
        if mistake == "a lock that turns off is not answered" and was_on and turns:
            return "none"
        return "none" if mistake == "a lock is not answered" else action

    def turn(self, action):
        if self.mistake == "one lock turns the others off" and action not in self.locked:
            self.locked.clear()
        self.locked ^= {action}

    def press_dead_key(self, action, repeated):
        mistake, own = self.mistake, self.keymap.own(action)
        if mistake == "a repeat of a dead key does nothing" and repeated:
            return "none"
        if own == 0:
            if mistake != "a dead key that is not defined keeps the accent":
                self.pending = None
            return "none" if mistake == "a dead key that is not defined gives nothing" else "error"
        if mistake == "a dead key gives its character at once":
            return self.given(own, True)
        if self.pending == action:
            return self.press_dead_key_twice(own)
        if self.pending is not None:
            if mistake == "a dead key does not take the place of another":
                return "none"
            if mistake == "another dead key is an error":
                self.pending = None
                return "error"
            if mistake == "another dead key gives the first one's character":
                first, self.pending = self.keymap.own(self.pending), None
                return self.given(first, True)
        self.pending = action
        return "none"

    def press_dead_key_twice(self, own):
        mistake = self.mistake
        if mistake == "a dead key twice stays pending":
            return "none"
        self.pending = None
        if mistake == "a dead key twice gives an error":
            return "error"
        if mistake == "a dead key twice cancels":
            return "none"
        return self.given(own, mistake != "meta is marked on plain characters alone")

    def press_other(self, action):
        mistake, was_pending = self.mistake, self.pending is not None
        word = "a function key" if action.startswith("fkey") else "a screen" if action.startswith("scr") else action
        if action in DROPPING:
            if mistake != "an action keeps an accent":
                self.pending = None
            return action
        if mistake != f"{word} keeps an accent":
            self.pending = None
        if action == "btab":
            if mistake == "btab is an error after a dead key" and was_pending:
                return "error"
            return "nop" if mistake == "btab is given as an action" else "btab"
        if was_pending and mistake != f"{word} is answered after a dead key":
            return "error"
        if mistake == "a screen is given as the next one" and word == "a screen":
            return f"scr{int(action[3:]) % 16 + 1:02}"
        if mistake == "a function key above 12 gives nothing" and word == "a function key" and int(action[4:]) > 12:
            return "none"
        return action

    # releases and resets

    def release(self, key):
        mistake = self.mistake
        self.down.discard(key)
        if mistake == "a release drops an accent":
            self.pending = None
        action = self.remembered.get(key)
        if mistake != "a release keeps what is remembered":
            self.remembered.pop(key, None)
        if mistake == "a release is that of the cell that is looked up then":
            action = self.action_now(key)
        if mistake == "a release goes over the upper half that is selected then" and self.is_upper():
            action = self.action_now(key)
        if mistake == "a release of a key that remembers nothing is that of its cell" and action is None:
            action = self.action_now(key)
        if action is None:
            return "none"
        if action in MODIFIERS:
            self.lower(key, action)
        elif action in LOCKS:
            self.unmark(key, action)
        elif mistake == "a release of another action than a holding one gives nothing":
            return "none"
        elif mistake == "a release of a dead key gives nothing" and action in ACCENTS:
            return "none"
        return action if mistake == "a release gives the action" else f"released {action}"

    def action_now(self, key):
        """What a press would remember now."""
        cell = self.look(key)
        return cell if isinstance(cell, str) and cell != "nop" else None

    def lower(self, key, action):
        mistake = self.mistake
        if mistake == "a right modifier is on as the left one" and action in ("rshift", "rctrl", "ralt"):
            action = OTHER_SIDE[action]
        if mistake == "a modifier counts its presses":
            self.counts[action] = self.counts.get(action, 1) - 1
            if self.counts[action] > 0:
                return
        if mistake == "a modifier is on until its last key is released" and action in self.remembered.values():
            return
        if mistake in ("a release turns no modifier off", "a modifier waits for the next key"):
            return
        if mistake == "a release turns the other side off too":
            self.on.discard(OTHER_SIDE.get(action))
        if mistake == "a release turns all modifiers off":
            self.on.clear()
        self.on.discard(action)

    def unmark(self, key, action):
        mistake = self.mistake
        if mistake == "each key of a lock is marked by itself":
            self.marked.discard((action, key))
        elif mistake == "the marks of locks are one":
            self.marked.discard("lock")
        elif mistake != "a lock turns only once until a reset":
            self.marked.discard(action)
        if mistake in ("a lock turns at its release", "a lock turns at its release again"):
            self.turn(action)
        if mistake == "a lock is on while its key is pressed":
            self.locked.discard(action)

    def reset(self):
        mistake = self.mistake
        kept = {
            "a reset keeps the modifiers": set(MODIFIERS),
            "a reset keeps meta": {"meta"},
            "a reset keeps ashift": {"ashift"},
        }.get(mistake, set())
        was_on = bool(self.on)
        self.on &= kept
        self.counts = {}
        if mistake == "a reset turns the locks off":
            self.locked = set()
        if mistake != "a reset keeps what is remembered":
            self.remembered = {}
        if mistake != "a reset keeps the marks of locks":
            self.marked = set()
        if mistake != "a reset keeps an accent":
            self.pending = None
        if mistake == "a reset is not answered by modifiers that are off" and was_on:
            self.on |= {"lshift"}
        return "none"


# ---- what is measured


def events_of(script):
    """The events of a script, without its comments: pairs of a word and a key."""
    events = []
    for line in script.splitlines():
        words = line.split("#")[0].split()
        if words:
            events.append((words[0], int(words[1]) if len(words) > 1 else None))
    return events


def is_found(keymap, mistake, events, lines):
    console = Console(keymap, mistake)
    return any(console.line(*event) != line for event, line in zip(events, lines))


def typed(console, events):
    """The characters that the console's answers to the events type: all that a real one shows."""
    signs = {"btab": "\x1b[Z"}
    answers = [console.line(*event).split(": ", 1)[1].split(";", 1)[0].split() for event in events]
    return "".join(
        "\x1b" * (answer[0] == "meta") + chr(int(answer[-1])) if "char" in answer else signs.get(answer[0], "")
        for answer in answers
    )


def found_by_typing(keymap, events):
    """How many mistakes are found by what the events type alone."""
    wanted = typed(Console(keymap), events)
    return sum(typed(Console(keymap, mistake), events) != wanted for mistake in MISTAKES)


def drawn(keymap):
    """Events drawn at random, always the same, half of them on keys that bear a modifier, a lock or a dead key."""
    draw = random.Random(63)
    wanted = set(MODIFIERS + LOCKS + ACCENTS)
    holding = [key for key in range(128) if wanted & {str(cell) for cell in keymap.cells[key]}]
    events, down = [], set()
    for _ in range(DRAWN):
        if draw.random() < 0.01:
            events.append(("reset", None))
        elif down and draw.random() < 0.45:
            key = draw.choice(sorted(down))
            down.discard(key)
            events.append(("up", key))
        else:
            key = draw.choice(holding) if holding and draw.random() < 0.5 else draw.randrange(128)
            events.append(("repeat" if key in down else "down", key))
            down.add(key)
    return events


def run(program, *words):
    return subprocess.run([program, *words], check=True, capture_output=True).stdout


class Measured:
    """What the script of a keymap finds."""

    def __init__(self, program, text):
        with tempfile.TemporaryDirectory() as folder:
            script, tables = Path(folder, "script"), Path(folder, "tables")
            script.write_bytes(run(program, "cover", text))
            run(program, "compile", text, str(tables))
            lines = run(program, "play", text, str(script)).decode().splitlines()
            keymap = Keymap(tables.read_bytes())
            self.events = events_of(script.read_text())
        self.keymap = keymap
        right = Console(keymap)
        self.is_right = [right.line(*event) for event in self.events] == lines
        self.found = {mistake for mistake in MISTAKES if is_found(keymap, mistake, self.events, lines)}
        more = drawn(keymap)
        right = Console(keymap)
        told = [right.line(*event) for event in more]
        others = [mistake for mistake in MISTAKES if mistake not in self.found]
        self.missed = {mistake for mistake in others if is_found(keymap, mistake, more, told)}

    def complaints(self, name):
        """What is not as it is to be."""
        if not self.is_right:
            yield "the console without a mistake gives other lines"
        if len(self.found) < FLOORS.get(name, 0):
            yield f"fewer than {FLOORS[name]} are found"
        if 10 * len(self.found) < 9 * len(self.found | self.missed):
            yield "fewer than nine of ten are found of those that are told apart"
        if len(self.events) > SHORT.get(name, len(self.events)):
            yield f"the script has more than {SHORT[name]} events"
        for mistake in sorted(self.missed - set(MISSED)):
            yield f"missed without a reason: {mistake}"


def cases_of(script):
    """The events of each case of a script by a keyboard."""
    return [events_of(case.partition("\n")[2]) for case in script.split("\n# case ")[1:]]


def is_new(console):
    """Whether a console is like a new one."""
    return not (console.remembered or console.on or console.locked or console.marked or console.pending)


def by_keyboard(program, name, text):
    """A line on what the script by a keyboard finds, and what is not as it is to be."""
    with tempfile.TemporaryDirectory() as folder:
        tables = Path(folder, "tables")
        run(program, "compile", text, str(tables))
        keymap = Keymap(tables.read_bytes())
    cases, restless, found = cases_of(run(program, "cover", "--keyboard", text).decode()), 0, set()
    for case in cases:
        right = Console(keymap)
        wanted = typed(right, case)
        restless += not is_new(right)
        others = [mistake for mistake in MISTAKES if mistake not in found]
        found |= {mistake for mistake in others if typed(Console(keymap, mistake), case) != wanted}
    counts = len(found), len(cases), sum(map(len, cases))
    print("{}: {} wrong consoles found by what {} cases of {} events type".format(name, *counts))
    if len(found) < TYPED[name]:
        yield f"fewer than {TYPED[name]} are found by what is typed"
    if restless:
        yield f"{restless} cases don't end at rest"


def guided(measured, found, apart, events):
    """The words of the guide on the script of GUIDED and what it finds."""
    typing = found_by_typing(measured.keymap, measured.events)
    without_resets = found_by_typing(measured.keymap, [event for event in measured.events if event[0] != "reset"])
    return (
        f"So the script has {events:,} events",
        f"Such scripts were tried on {len(MISTAKES)} wrong consoles",
        f"Of the {apart} that some events tell from a right one under {Path(GUIDED).name} this script finds {found}.",
        f"by the bytes that it types, which is all that a real console shows, it finds {typing}, and without its resets "
        f"{without_resets}.",
    )


def main():
    program, *texts = sys.argv[1:]
    top = Path(__file__).resolve().parent.parent
    guide = " ".join((top / "docs/GUIDE.md").read_text().split())
    told, failed = set(), False
    for name in texts or FLOORS:
        measured = Measured(program, name if texts else str(top / name))
        told |= measured.found | measured.missed
        counts = len(measured.found), len(measured.found | measured.missed), len(measured.events)
        print("{}: {} of {} wrong consoles found by {} events".format(name, *counts))
        for mistake in sorted(measured.missed):
            print(f"    missed: {mistake}: {MISSED.get(mistake, 'no reason is known')}")
        lacking = [words for words in guided(measured, *counts) if words not in guide] if name == GUIDED else []
        for complaint in (*measured.complaints(name), *(f"docs/GUIDE.md lacks: {words}" for words in lacking)):
            failed = True
            print(f"failed: {name}: {complaint}")
    for name in [] if texts else TYPED:
        for complaint in by_keyboard(program, name, str(top / name)):
            failed = True
            print(f"failed: {name}: {complaint}")
    for mistake in [] if texts else [mistake for mistake in MISTAKES if mistake not in told]:
        failed = True
        print(f"failed: told apart under no keymap: {mistake}")
    return 1 if failed else 0


if __name__ == "__main__":
    sys.exit(main())

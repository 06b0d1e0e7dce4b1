"""Compares the C library with the program on mutated texts, mutated tables and random events: what is read, printed and
checked, every fault and finding by its place, kind and words, who bears what, and each answer with what is on after it.

usage: c_fuzz.py PROGRAM COUNT [SEED]; KMAP_LIBRARY names the shared library
"""

import os
import pathlib
import random
import subprocess
import sys
import tempfile

TOP = pathlib.Path(__file__).resolve().parent.parent
sys.path.insert(0, str(TOP / "python"))
sys.dont_write_bytecode = True

from kmap import ACCENTS, LOAD, LOCKS, MODIFIERS, RESET, Action, Console, Keymap, TablesError, TextError  # noqa: E402

# The numbers of kmap.h, from 1 on, by the names that the program gives.
TEXT_KINDS = (
    "BadByte BadLiteral BadWord Unexpected KeyTooLarge BadChar BadFunction TooManyPairs ZeroBase Combined EndInside"
).split()
TABLE_KINDS = "Short Long BadCount BadPad BadFlag BadAction Combined BadChar NotEmpty".split()
# The codes of sys/kbio.h.
CODES = {0: "nop"} | dict(enumerate("lshift rshift clock nlock slock lalt btab lctrl nscr".split(), 0x02))
CODES |= {0x0A + n: f"scr{n:02}" for n in range(1, 17)} | {0x1A + n: f"fkey{n:02}" for n in range(1, 97)}
CODES |= dict(enumerate("rctrl ralt alock ashift meta boot debug susp saver".split(), 0x80))
CODES |= dict(enumerate(ACCENTS, 0x89)) | dict(enumerate("stby pscr panic".split(), 0x98))
CODES |= dict(enumerate("halt pdwn paste".split(), 0xA1))
# Control characters by their names in a text.
CONTROLS = dict(enumerate(
    "nul soh stx etx eot enq ack bel bs ht nl vt ff cr so si dle dc1 dc2 dc3 dc4 nak syn etb can em sub esc fs gs rs ns"
    .split()
)) | {127: "del"}
WORDS = (
    "nop nul soh del lshift rshift lctrl rctrl lalt ralt ashift meta clock nlock slock alock btab nscr pscr scr01 "
    "scr16 scr17 fkey01 fkey96 fkey97 dgra dcar 'a' '\\'' '' ' 0 1 13 0xd800 0x110000 4294967296 O C N B ( ) # \n "
    "030 255 256 alta ctrla foo \x7f \xff -"
).split(" ")


class Program:
    """The program, run on files of a folder of its own."""

    def __init__(self, path, folder):
        self.path, self.folder = os.path.abspath(path), folder

    def run(self, *words, **files):
        """What it writes on standard output, what on standard error, with files of these bytes beside it."""
        for name, content in files.items():
            pathlib.Path(self.folder, name).write_bytes(content)
        done = subprocess.run([self.path, *words], cwd=self.folder, stdin=subprocess.DEVNULL, capture_output=True)
        return done.stdout, done.stderr.decode()


def same(what, wanted, got):
    """Ends the run where two answers differ."""
    if wanted != got:
        sys.exit(f"{what}: the program says {wanted!r}, the library {got!r}")


def mutated_text(chance, text):
    """The text with a few words or bytes dropped, doubled or exchanged for others, or only its front."""
    if chance.random() < 0.6:
        words = text.decode("latin-1").split(" ")
        for _ in range(chance.randrange(1, 6)):
            at = chance.randrange(len(words))
            words[at : at + 1] = chance.choice(([], words[at : at + 1] * 2, [chance.choice(WORDS)]))
        text = " ".join(words).encode("latin-1")
    else:
        change = bytearray(text)
        for _ in range(chance.randrange(1, 4)):
            at = chance.randrange(len(change))
            change[at : at + chance.randrange(3)] = chance.randbytes(chance.randrange(3))
        text = bytes(change)
    return text[: chance.randrange(len(text))] if chance.random() < 0.1 else text


def mutated_tables(chance, tables):
    """The bytes with a few changed, the counts among them, or of another length."""
    change = bytearray(tables)
    for _ in range(chance.randrange(1, 4)):
        at = chance.choice((chance.randrange(8), 9220 + chance.randrange(8), chance.randrange(len(change))))
        change[at] = chance.choice((0, 1, 4, 0x9B, 255, chance.randrange(256)))
    if chance.random() < 0.05:
        return chance.choice((b"", bytes(change[:-1]), bytes(change) + b"\0"))
    return bytes(change)


def told_cell(cell):
    """A cell as `kmap dump` prints it."""
    if isinstance(cell, Action):
        return str(cell)
    number = ord(cell)
    if number in CONTROLS:
        return CONTROLS[number]
    return f"'{cell}'" if number < 127 else f"{number:#06x}"


def check_cells(keymap, printed):
    """Each cell, as the printed form has it, and the character 0 in slots behind the last one."""
    lines = [line for line in printed.decode().splitlines() if line[0] in "0123456789"]
    for slot, line in enumerate(lines):
        told = [told_cell(cell) for cell in keymap[slot]]
        same(f"slot {slot}", line[4:].replace("' '", "'_'").split()[:-1], [word.replace("' '", "'_'") for word in told])
    for slot in range(len(lines), 256):
        same(f"slot {slot}", ("\0",) * 8, keymap[slot])


def check_keymap(program, keymap, text):
    """The report of the check, the printed form, and each cell of it."""
    report = program.run("check", "text", text=text)[0].decode().splitlines()
    finding = keymap.finding()
    same("the verdict", report[0], "accepted" if finding is None else "refused")
    if finding is not None:
        same("the first finding", report[1], str(finding))
    for line, (name, bearer) in zip(report[-12:], keymap.bearers().items()):
        told = {None: "nobody", "several": "several"}.get(bearer)
        if told is None:
            told = f"{'throughout' if bearer[1] else 'sole'} {bearer[0]}"
        same("a bearer", line.replace(" steady", ""), f"{name} {told}")
    printed = program.run("dump", "tables", tables=keymap.tables)[0]
    same("the printed form", printed, keymap.text().encode())
    check_cells(keymap, printed)


def check_text(program, text):
    """The tables of a text, or its fault: the keymap, None where it has one."""
    pathlib.Path(program.folder, "tables").unlink(missing_ok=True)
    said = program.run("compile", "text", "tables", text=text)[1]
    try:
        keymap = Keymap.from_text(text)
    except TextError as fault:
        told = f"kmap: text line {fault.line} offset {fault.offset}: {TEXT_KINDS[fault.kind - 1]}\n"
        same("the fault of a text", said, told)
        return None
    same("a text", said, "")
    same("the tables of a text", pathlib.Path(program.folder, "tables").read_bytes(), keymap.tables)
    return keymap


def check_tables(program, tables):
    """The fault of tables, or the printed form of their keymap."""
    printed, said = program.run("dump", "tables", tables=tables)
    try:
        keymap = Keymap(tables)
    except TablesError as fault:
        same("a fault of tables", said, f"kmap: tables offset {fault.offset}: {TABLE_KINDS[fault.kind - 1]}\n")
        return
    same("tables", said, "")
    same("the printed form of tables", printed, keymap.text().encode())


def told_answer(answer):
    """An answer as `kmap play` tells it."""
    if answer.is_nothing:
        return "none"
    if answer.is_error:
        return "error"
    if answer.character is not None:
        return f"{'meta ' * answer.with_meta}char {int(answer) & 0x1FFFFF}"
    return f"{'released ' * answer.is_release}{answer.action}"


def told_line(number, answer, console):
    """A line of `kmap play` for an event that was delivered."""
    if number < 128:
        event = f"press {number}"
    elif number < 256:
        event = f"release {number - 128}"
    else:
        event = {RESET: "reset", LOAD: "load"}[number]
    mods = " ".join(name for name in MODIFIERS if name in console.modifiers) or "none"
    locks = " ".join(name for name in LOCKS if name in console.locks) or "none"
    return f"{event}: {told_answer(answer)}; mods {mods}; locks {locks}"


def script_line(number):
    """An event as a line of a script."""
    if number < 128:
        return f"down {number}\n"
    return f"up {number - 128}\n" if number < 256 else {RESET: "reset\n", LOAD: "load\n"}[number]


def check_events(program, chance, keymap, text, other, other_text):
    """Each answer to random events between two keymaps, and what they type."""
    keys = [chance.randrange(128) for _ in range(chance.randrange(1, 20))] + [29, 42, 56, 58, 69, 97]
    numbers = [
        chance.choice((RESET, LOAD)) if chance.random() < 0.02 else chance.choice(keys) + 128 * chance.randrange(2)
        for _ in range(chance.randrange(1, 400))
    ]
    script = "".join(map(script_line, numbers)).encode()
    words = ("play", "--next", "other", "text", "script")
    lines = program.run(*words, text=text, other=other_text, script=script)[0].decode().splitlines()
    console = Console(keymap, other)
    same("how many lines", len(lines), len(numbers))
    for number, line in zip(numbers, lines):
        same("the line of an event", line, told_line(number, console.event(number), console))
    if keymap.accepted() and other.accepted():
        for key in range(128):
            console.release(key)
        same("modifiers once every key is up", set(), console.modifiers)
    typed = program.run("play", "--typed", *words[1:], text=text, other=other_text, script=script)[0]
    same("what is typed", typed, Console(keymap, other).typed(numbers))


def check_names():
    """The name of each action, and none for any other code."""
    for code in [*range(300), 0x80000000]:
        same(f"the name of code {code}", CODES.get(code, ""), str(Action(code)))


def main():
    program_path, count = sys.argv[1], int(sys.argv[2])
    seed = int(sys.argv[3]) if len(sys.argv) > 3 else 1
    chance = random.Random(seed)
    texts = [(TOP / "examples" / name).read_bytes() for name in ("us.kbd", "de.kbd", "trap.kbd")]
    check_names()
    counts = {"texts": 0, "faults": 0, "refused": 0, "tables": 0}
    with tempfile.TemporaryDirectory() as folder:
        program = Program(program_path, folder)
        good = [(check_text(program, text), text) for text in texts + [b""]]
        for keymap, text in good:
            check_keymap(program, keymap, text)
        for _ in range(count):
            keymap, text = chance.choice(good[:3])
            text = mutated_text(chance, text)
            keymap = check_text(program, text)
            counts["texts"] += 1
            if keymap is None:
                counts["faults"] += 1
            else:
                check_keymap(program, keymap, text)
                counts["refused"] += not keymap.accepted()
                check_events(program, chance, keymap, text, *chance.choice(good))
            check_tables(program, mutated_tables(chance, chance.choice(good[:3])[0].tables))
            counts["tables"] += 1
    print(", ".join(f"{number} {name}" for name, number in counts.items()), "agree")


main()

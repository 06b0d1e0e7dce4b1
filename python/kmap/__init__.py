"""The proved keyboard of FreeBSD's console for Python, over libkmap: try and test keymaps without a console.

    keymap = Keymap.from_file("us.kbd")
    assert keymap.accepted()
    console = Console(keymap)
    console.press(42)
    assert str(console.press(30)) == "A"
    assert keymap[30][0] == "a" and str(keymap[42][0]) == "lshift"

It stands on ctypes alone. The library is that of the environment's KMAP_LIBRARY; without one, libkmap.so.0 or
libkmap.so beside this file, or in lib of the installation that this file is part of; else the one that the system finds
as libkmap.so.0. kmap(3) says what each call promises.
"""

import ctypes
import os
from typing import Dict, Iterable, List, Optional, Set, Tuple, Union

PRESS, RELEASE, RESET, LOAD = 0, 128, 256, 257
KEYS, SLOTS, COLUMNS = 128, 256, 8

MODIFIERS = ("lshift", "rshift", "lctrl", "rctrl", "lalt", "ralt", "ashift", "meta")
LOCKS = ("clock", "nlock", "slock", "alock")
ACCENTS = tuple("dgra dacu dcir dtil dmac dbre ddot duml dsla drin dced dapo ddac dogo dcar".split())

_NOKEY, _MKEY, _ERRKEY, _SPCLKEY, _BACK_TAB = 0x01000000, 0x04000000, 0x20000000, 0x80000000, 0x88000000
_RELKEY, _CODES = 0x40000000, 0xFF
_OK = 0
_TABLES_SIZE, _WORDS_SIZE = 15524, 128


class _Tables(ctypes.Structure):
    _fields_ = [("bytes", ctypes.c_uint8 * _TABLES_SIZE)]


class _Console(ctypes.Structure):
    _fields_ = [("word", ctypes.c_uint32), ("codes", ctypes.c_uint8 * KEYS)]


class _TableFault(ctypes.Structure):
    _fields_ = [("offset", ctypes.c_uint64), ("kind", ctypes.c_uint32)]


class _TextFault(ctypes.Structure):
    _fields_ = [("offset", ctypes.c_uint64), ("line", ctypes.c_uint64), ("kind", ctypes.c_uint32)]


class _Finding(ctypes.Structure):
    _fields_ = [
        ("character", ctypes.c_uint32),
        ("key", ctypes.c_uint8),
        ("holding", ctypes.c_uint8),
        ("holding_slot", ctypes.c_uint8),
        ("holding_column", ctypes.c_uint8),
        ("character_slot", ctypes.c_uint8),
        ("character_column", ctypes.c_uint8),
    ]


class _Bearer(ctypes.Structure):
    _fields_ = [("kind", ctypes.c_uint8), ("key", ctypes.c_uint8)]


def _opened() -> ctypes.CDLL:
    """Opens the library, which may lie beside this file, or be installed with it."""
    here = os.path.dirname(os.path.abspath(__file__))
    near = [os.path.join(here, name) for name in ("libkmap.so.0", "libkmap.so", "../../../../lib/libkmap.so.0")]
    found = [path for path in near if os.path.exists(path)]
    name = os.environ.get("KMAP_LIBRARY") or (found + ["libkmap.so.0"])[0]
    try:
        return ctypes.CDLL(name)
    except OSError as error:
        raise ImportError(f"{error}; name the library by KMAP_LIBRARY or its folder by LD_LIBRARY_PATH") from None


def _library() -> ctypes.CDLL:
    """Opens the library and declares its calls."""
    library = _opened()
    size, status, number, byte = ctypes.c_size_t, ctypes.c_int32, ctypes.c_uint32, ctypes.c_uint8
    # Any object with bytes is good as a pointer to const bytes; a buffer is written.
    given, written, console = ctypes.c_char_p, ctypes.c_void_p, ctypes.POINTER(_Console)
    calls = {
        "kmap_check": (status, given, size, ctypes.POINTER(_TableFault)),
        "kmap_read_text": (status, given, size, ctypes.POINTER(_Tables), ctypes.POINTER(_TextFault)),
        "kmap_print_text": (status, given, size, written, size, ctypes.POINTER(size)),
        "kmap_accepts": (status, given, size, ctypes.POINTER(_Finding)),
        "kmap_bearer": (status, given, size, byte, ctypes.POINTER(_Bearer)),
        "kmap_cell": (status, given, size, number, number, ctypes.POINTER(number)),
        "kmap_action_name": (status, number, written, size),
        "kmap_fault_words": (status, number, written, size),
        "kmap_text_fault_words": (status, number, written, size),
        "kmap_finding_words": (status, ctypes.POINTER(_Finding), written, size),
        "kmap_key_of_evdev": (status, number),
        "kmap_start": (None, console),
        "kmap_step_between": (
            status, given, size, given, size, console, ctypes.c_uint16, ctypes.POINTER(number),
        ),
        "kmap_modifiers": (byte, console),
        "kmap_locks": (byte, console),
        "kmap_pending": (status, console),
    }  # fmt: skip
    for name, (result, *arguments) in calls.items():
        call = getattr(library, name)
        call.restype, call.argtypes = result, arguments
    return library


_kmap = _library()


def _words(call, told) -> str:
    """The sentence or the name that a call of the library puts into a buffer."""
    words = ctypes.create_string_buffer(_WORDS_SIZE)
    call(told, words, len(words))
    return words.value.decode()


class KeymapError(ValueError):
    """A text that spells no keymap, or bytes that are no tables of one."""


class TextError(KeymapError):
    """A text that spells no keymap: the `line` and the `offset` of its first fault, and the number of its `kind`."""

    def __init__(self, fault: _TextFault):
        self.line, self.offset, self.kind = fault.line, fault.offset, fault.kind
        said = _words(_kmap.kmap_text_fault_words, fault.kind)
        super().__init__(f"line {fault.line}, offset {fault.offset}: {said}")


class TablesError(KeymapError):
    """Bytes that are no tables of a keymap: the `offset` of the first fault, and the number of its `kind`."""

    def __init__(self, fault: _TableFault):
        self.offset, self.kind = fault.offset, fault.kind
        super().__init__(f"offset {fault.offset}: {_words(_kmap.kmap_fault_words, fault.kind)}")


class Finding:
    """A key for which a keymap is refused: its first modifier or lock (`holding`) and its first `character`, each with
    its slot and column. Its str says so."""

    def __init__(self, found: _Finding):
        self.key: int = found.key
        self.holding: str = (MODIFIERS + LOCKS)[found.holding]
        self.holding_slot: int = found.holding_slot
        self.holding_column: int = found.holding_column
        self.character: str = chr(found.character)
        self.character_slot: int = found.character_slot
        self.character_column: int = found.character_column
        self._said = _words(_kmap.kmap_finding_words, ctypes.byref(found))

    def __str__(self) -> str:
        return self._said

    def __repr__(self) -> str:
        return f"<Finding {self._said}: {self.character!r}>"


class Keymap:
    """A keymap, as the bytes of its `tables`. Two are equal where they are the same keymap."""

    def __init__(self, tables: bytes):
        """The keymap of a table file; a TablesError tells the first fault."""
        self.tables = bytes(tables)
        fault = _TableFault()
        if _kmap.kmap_check(self.tables, len(self.tables), fault) != _OK:
            raise TablesError(fault)

    @classmethod
    def from_text(cls, text: Union[bytes, str]) -> "Keymap":
        """The keymap that a text spells; a TextError tells its first fault. A str is taken in UTF-8."""
        if isinstance(text, str):
            text = text.encode()
        tables, fault = _Tables(), _TextFault()
        if _kmap.kmap_read_text(text, len(text), tables, fault) != _OK:
            raise TextError(fault)
        return cls(bytes(tables.bytes))

    @classmethod
    def from_file(cls, path: Union[str, "os.PathLike[str]"]) -> "Keymap":
        """The keymap of a text file, as kmap(5) describes it."""
        with open(path, "rb") as file:
            return cls.from_text(file.read())

    def text(self) -> str:
        """The keymap as `kmap dump` prints it."""
        size = ctypes.c_size_t()
        _kmap.kmap_print_text(self.tables, len(self.tables), ctypes.create_string_buffer(1), 0, size)
        text = ctypes.create_string_buffer(size.value + 1)
        _kmap.kmap_print_text(self.tables, len(self.tables), text, size.value, size)
        return text.raw[: size.value].decode()

    def __getitem__(self, slot: int) -> Tuple[Union[str, "Action"], ...]:
        """The eight cells of a slot, 0 to 255: each is a character or an Action."""
        if not 0 <= slot < SLOTS:
            raise IndexError(f"no slot: {slot}")
        return tuple(self._cell(slot, column) for column in range(COLUMNS))

    def _cell(self, slot: int, column: int) -> Union[str, "Action"]:
        number = ctypes.c_uint32()
        _kmap.kmap_cell(self.tables, len(self.tables), slot, column, number)
        cell = Answer(number.value)
        return cell.character if cell.action is None else cell.action

    def finding(self) -> Optional[Finding]:
        """The first key for which the keymap is refused; None where the keymap is safe."""
        found = _Finding()
        status = _kmap.kmap_accepts(self.tables, len(self.tables), found)
        return None if status == _OK else Finding(found)

    def accepted(self) -> bool:
        """Whether the keymap is safe: then a modifier is on only while a key is down that has it."""
        return self.finding() is None

    def bearers(self) -> Dict[str, Union[None, str, Tuple[int, bool]]]:
        """Which key bears each modifier and lock: a key with whether all its cells are that, None, or "several"."""
        borne: Dict[str, Union[None, str, Tuple[int, bool]]] = {}
        for number, name in enumerate(MODIFIERS + LOCKS):
            bearer = _Bearer()
            _kmap.kmap_bearer(self.tables, len(self.tables), number, bearer)
            borne[name] = (None, (bearer.key, True), (bearer.key, False), "several")[bearer.kind]
        return borne

    def __eq__(self, other: object) -> bool:
        return isinstance(other, Keymap) and self.tables == other.tables

    def __hash__(self) -> int:
        return hash(self.tables)


class Action(int):
    """What a key does other than to give a character: its code of sys/kbio.h. Its str is its name."""

    def __str__(self) -> str:
        return _words(_kmap.kmap_action_name, int(self))

    def __repr__(self) -> str:
        return f"<Action {int(self)} {self}>"


class Answer(int):
    """What a console answers to an event: the number of genkbd_keyaction. Its str is what it types."""

    @property
    def character(self) -> Optional[str]:
        """The character, None where the answer is none."""
        plain = self & ~_MKEY
        return chr(plain) if plain < 0x110000 else None

    @property
    def with_meta(self) -> bool:
        """Whether it is a character while meta is on."""
        return self.character is not None and bool(self & _MKEY)

    @property
    def action(self) -> Optional[Action]:
        """The action that was pressed or released, None where the answer is none."""
        return Action(self & _CODES) if self & _SPCLKEY else None

    @property
    def is_release(self) -> bool:
        """Whether it is an action that was released."""
        return self.action is not None and bool(self & _RELKEY)

    @property
    def is_error(self) -> bool:
        """Whether an accent can't be used so."""
        return self == _ERRKEY

    @property
    def is_nothing(self) -> bool:
        """Whether the event gives nothing."""
        return self == _NOKEY

    def __str__(self) -> str:
        if self.character is not None:
            return "\x1b" * self.with_meta + self.character
        return "\x1b[Z" if self & _BACK_TAB == _BACK_TAB else ""

    def __repr__(self) -> str:
        return f"<Answer {int(self):#x} {str(self)!r}>"


class Console:
    """A console of one keymap; with a second one, `load` exchanges them."""

    def __init__(self, keymap: Keymap, other: Optional[Keymap] = None):
        self._first, self._second = keymap.tables, (other or keymap).tables
        self._state = _Console()
        _kmap.kmap_start(self._state)

    def event(self, number: int) -> Answer:
        """Delivers the event of a number: 0 to 127 a press, 128 to 255 a release, 256 a reset, 257 a load."""
        if not 0 <= number <= LOAD:
            raise ValueError(f"no event: {number}")
        answer = ctypes.c_uint32()
        _kmap.kmap_step_between(
            self._first, len(self._first), self._second, len(self._second), self._state, number, answer
        )
        return Answer(answer.value)

    def press(self, key: int) -> Answer:
        """Presses the key of a code below 128, or repeats it where it is down."""
        return self.event(PRESS + _key(key))

    def release(self, key: int) -> Answer:
        """Lets go of the key of a code below 128."""
        return self.event(RELEASE + _key(key))

    def tap(self, key: int, *held: int) -> Answer:
        """What a key gives while others are held: presses these and the key, and lets go of all."""
        for other in held:
            self.press(other)
        answer = self.press(key)
        self.release(key)
        for other in reversed(held):
            self.release(other)
        return answer

    def reset(self) -> Answer:
        """Turns modifiers off and forgets what is remembered or pending; locks stay."""
        return self.event(RESET)

    def load(self) -> Answer:
        """Puts the other keymap in force, with a reset."""
        return self.event(LOAD)

    def typed(self, numbers: Iterable[int]) -> bytes:
        """What events type, by their numbers, in UTF-8."""
        return "".join(str(self.event(number)) for number in numbers).encode()

    @property
    def modifiers(self) -> Set[str]:
        """The modifiers that are on."""
        return set(_named(_kmap.kmap_modifiers(self._state), MODIFIERS))

    @property
    def locks(self) -> Set[str]:
        """The locks that are on."""
        return set(_named(_kmap.kmap_locks(self._state), LOCKS))

    @property
    def pending(self) -> Optional[str]:
        """The accent that waits for its character, if one does."""
        index = _kmap.kmap_pending(self._state)
        return None if index < 0 else ACCENTS[index]


def key_of_evdev(number: int) -> Optional[int]:
    """The code of the key that has this number in evdev; None where a board of 105 keys has no such key."""
    key = _kmap.kmap_key_of_evdev(number)
    return None if key < 0 else key


def _key(code: int) -> int:
    if not 0 <= code < KEYS:
        raise ValueError(f"no key: {code}")
    return code


def _named(bits: int, names: Tuple[str, ...]) -> List[str]:
    return [name for bit, name in enumerate(names) if bits >> bit & 1]

"""The ends at which console_test.py tests a console: a program, a machine in QEMU, and a keyboard of uinput. Each is
sent events, tells what its console has typed, and is brought to rest, if there is a way."""

import argparse
import fcntl
import functools
import json
import os
import pty
import select
import signal
import socket
import stat
import struct
import subprocess
import sys
import time
import tty
from typing import List, Optional, Set, Tuple

Event = Tuple[str, int]  # `down`, `repeat` or `up`, and the key

# What still comes behind a case is waited for so many seconds, and a machine that begins anew so many.
SETTLES, BEGINS = 0.05, 120.0


class Bad(Exception):
    """Words, a script or a tool that can't be used."""


def kmap(*words: str, text: str) -> List[str]:
    """The lines that a command of kmap prints, with this text as its standard input."""
    told = subprocess.run(["kmap", *words], input=text, capture_output=True, encoding="utf-8")
    if told.returncode:
        raise Bad(told.stderr.strip())
    return told.stdout.splitlines()


@functools.lru_cache(maxsize=None)
def lines_of(form: str, key: int) -> Tuple[List[str], List[str]]:
    """The lines for the press of a key in a form, and for its release, as `kmap type` has them."""
    cells = "'x' " * 8
    try:
        lines = kmap("type", "--as", form, "-", "--text", "x", text=f"{key} {cells}O")
    except Bad:
        raise Bad(f"{form} has no key {key}") from None
    lines = [line for line in lines if not line.startswith("#")]
    return lines[: len(lines) // 2], lines[len(lines) // 2 :]


def bytes_of(form: str, event: Event) -> bytes:
    """An event in a form, as a program or a device takes it."""
    word, key = event
    lines = lines_of(form, key)[word == "up"]
    if form == "set1":
        return bytes(int(line, 16) for line in lines)
    if form == "evdev":
        numbers = [[int(number, 16) for number in line.split()[2:]] for line in lines]
        repeats = 2 if word == "repeat" else 1
        return b"".join(struct.pack("@llHHi", 0, 0, *kinds, value * repeats) for *kinds, value in numbers)
    text = "".join(f"{line}\n" for line in lines)
    return (text.replace("down", word) if form == "script" else text).encode()


class End:
    """A console under test: where its keys go, and the line on which it types."""

    line: int
    ended = False

    def __init__(self, options: argparse.Namespace):
        self.options = options
        self.down: List[int] = []

    def restart(self) -> None:
        """Brings the console to rest, if there is a way, and drops what it typed before."""
        if self.options.restart:
            subprocess.run(self.options.restart, shell=True, check=True)
        self.typed(b"", SETTLES)

    def send(self, event: Event) -> None:
        """Sends an event, unless the console is no longer there."""
        word, key = event
        if word != "repeat":
            (self.down.append if word == "down" else self.down.remove)(key)
        try:
            self.put(event)
        except OSError:
            self.ended = True

    def let_go(self) -> None:
        """Releases the keys that are down, and waits until that is sent on: where a program is ended before, they stay
        down in X."""
        if self.down and not self.ended:
            for key in self.down[::-1]:
                self.send(("up", key))
            self.typed(b"", SETTLES)
        self.down.clear()

    def put(self, event: Event) -> None:
        raise NotImplementedError

    def stop(self) -> None:
        pass

    def typed(self, due: bytes, pause: Optional[float] = None) -> bytes:
        """What is typed: what is due is waited for, unless something else comes, and then what else comes at once."""
        got, end = b"", time.monotonic() + self.options.wait
        while not self.ended and time.monotonic() <= end:
            is_late = len(got) < len(due) and due.startswith(got)
            left = max(end - time.monotonic(), 0) if is_late else pause or self.options.pause
            if not select.select([self.line], [], [], left)[0]:
                break
            try:
                more = os.read(self.line, 65536)
            except OSError:  # as where no program has the terminal any more
                more = b""
            got += more
            self.ended = not more
        return got

    def await_ready(self) -> None:
        """Reads up to the words that tell that the console takes keys, if there are some."""
        ready, got, end = (self.options.ready or "").encode(), b"", time.monotonic() + BEGINS
        while ready not in got:
            is_over = self.is_over() or time.monotonic() > end
            got += self.typed(ready)
            if is_over and ready not in got:
                raise Bad(f"it doesn't say {ready!r}, but {got!r}")

    def is_over(self) -> bool:
        """Whether the console takes no more keys."""
        return self.ended


class Program(End):
    """A program in a terminal of its own, which is begun anew for each try."""

    process: Optional[subprocess.Popen] = None

    def restart(self) -> None:
        self.stop()
        self.line, other = pty.openpty()
        tty.setraw(other)
        self.process = subprocess.Popen(self.options.program, stdin=other, stdout=other, start_new_session=True)
        os.close(other)
        self.ended = False
        self.await_ready()

    def put(self, event: Event) -> None:
        os.write(self.line, bytes_of(self.options.form, event))

    def is_over(self) -> bool:
        # What it began may still have the terminal.
        return self.ended or self.process is not None and self.process.poll() is not None

    def stop(self) -> None:
        if self.process:
            if self.process.poll() is None:
                os.killpg(self.process.pid, signal.SIGKILL)
            self.process.wait()
            os.close(self.line)


class Machine(End):
    """A machine in QEMU, reset for each try. Its keys go by QMP, and it sends what its console types to a line."""

    def __init__(self, options: argparse.Namespace):
        super().__init__(options)
        qmp = socket.socket(socket.AF_UNIX)
        qmp.connect(options.qmp)
        self.qmp = qmp.makefile("rw", encoding="utf-8")
        self.ask('{"execute": "qmp_capabilities"}\n')
        self.line = opened(options.line)

    def ask(self, line: str) -> None:
        self.qmp.write(line)
        self.qmp.flush()
        told = next((told for told in map(json.loads, self.qmp) if "return" in told or "error" in told), None)
        if told is None:
            raise OSError("QEMU ended")
        if "error" in told:
            raise Bad(f"QEMU: {told['error']['desc']}")

    def restart(self) -> None:
        super().restart()
        if self.options.ready and not self.options.restart:
            self.ask('{"execute": "system_reset"}\n')
        self.await_ready()

    def put(self, event: Event) -> None:
        self.ask(bytes_of("qmp", event).decode())


class Uinput(End):
    """A keyboard by uinput, and a terminal of this machine's console. It is tried by hand only, and on Linux alone."""

    def __init__(self, options: argparse.Namespace, keys: Set[int]):
        super().__init__(options)
        self.line = opened(options.line)
        self.device = os.open("/dev/uinput", os.O_WRONLY)
        self.call(0x5564, 4, 1)  # UI_SET_EVBIT, EV_KEY
        for key in keys:
            self.call(0x5565, 4, int(lines_of("evdev", key)[0][0].split()[3], 16))  # UI_SET_KEYBIT
        self.call(0x5503, 92, struct.pack("@HHHH80sI", 6, 1, 1, 1, b"console_test", 0))  # UI_DEV_SETUP, BUS_VIRTUAL
        self.call(0x5501, 0, 0)  # UI_DEV_CREATE
        time.sleep(1)  # until the console has found it

    def call(self, number: int, size: int, given) -> None:
        none, some = (0x20000000, 0x80000000) if "bsd" in sys.platform else (0, 0x40000000)
        fcntl.ioctl(self.device, (some if size else none) | size << 16 | number, given)

    def put(self, event: Event) -> None:
        os.write(self.device, bytes_of("evdev", event))


def opened(path: str) -> int:
    """The line on which a console types: a terminal, which is made raw, a FIFO, or a socket of Unix."""
    if stat.S_ISSOCK(os.stat(path).st_mode):
        line = socket.socket(socket.AF_UNIX)
        line.connect(path)
        return line.detach()
    number = os.open(path, os.O_RDWR | os.O_NOCTTY)
    if os.isatty(number):
        tty.setraw(number)
    return number

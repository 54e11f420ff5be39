#!/usr/bin/env python3
"""Runs the program with --progress on a terminal, where each read takes a second by the clock: then each writes the
line, and its numbers are known. tests/program/progress runs it with the time that passes.
usage: tests/program/clock.py PROGRAM
"""

import os
import pty
import re
import subprocess
import sys

sys.path.append(os.path.join(os.path.dirname(os.path.realpath(__file__)), ".."))

import harness
from harness import judge, same

ERASED = b"\r\x1b[K"
FIRST, SECOND = (b"first", 200_000), (b"second", 300_000)
# The words, and each reading that shows its line: the name, and how many bytes are read where that is known. A device
# has no size.
RUNS = [
    ("hash -a sha256 --progress first second", b"", [FIRST, SECOND]),
    ("hash -a blake3 --parts 16 --progress second first", b"", [SECOND, FIRST]),
    ("hash -a sha256 --progress -", bytes(150_000), [(b"-", None)]),
    ("mac -a hmac-sha256 --key 00 --progress second", b"", [SECOND]),
    ("part -a blake3 --first 64 --chunks 64 --progress first", b"", [(b"first", 65_536)]),
    ("part -a blake3 --first 128 --progress first", b"", [(b"first", 68_928)]),
    ("part -a blake3 --chunks 256 --progress /dev/zero", bytes(262_144), [(b"/dev/zero", None)]),
]


def line(name, count, size, seconds):
    """The line of so many bytes of a file, read in so many seconds."""
    told = b"%d" % count
    if size:
        told += b" of %d bytes, %d %%, %d s left: " % (size, 100 * count // size, (size - count) * seconds // count)
    else:
        told += b" bytes: "
    return ERASED + b"\x1b[?7l" + told + name + b"\x1b[?7h"


def on_terminal(words, given, **variables):
    """What a run prints, and the text of the terminal that its standard error is."""
    master, terminal = pty.openpty()
    environment = {**os.environ, "LD_PRELOAD": clock, "TERM": "xterm", **variables}
    environment = {name: value for name, value in environment.items() if value is not None}
    write(b"given", given)
    streams = {"stdin": os.open("given", os.O_RDONLY), "stdout": subprocess.PIPE, "stderr": terminal}
    with subprocess.Popen([program, *words.split()], env=environment, **streams) as running:
        os.close(streams["stdin"])
        os.close(terminal)
        shown = []
        try:
            while piece := os.read(master, 65_536):
                shown.append(piece)
        except OSError:
            # the terminal has no end, but an error once the run is over
            pass
        out = running.stdout.read()
    os.close(master)
    return out, b"".join(shown)


def write(name, content):
    with open(name, "wb") as file:
        file.write(content)


def shows(words, given, readings):
    """Each reading has its lines, one a second from its beginning on, and behind the last the line is erased."""
    out, shown = on_terminal(words, given)
    one = re.compile(re.escape(ERASED) + rb"\x1b\[\?7l(\d+) [^\x1b]*\x1b\[\?7h")
    left, wanted = shown, b""
    for name, size in readings:
        counts = []
        while found := one.match(left):
            counts.append(int(found[1]))
            left = left[found.end() :]
        left = left.removeprefix(ERASED)
        is_whole = counts == sorted(counts) and counts[-1:] == [size or len(given)]
        judge(f"{words}: what was read of {name.decode()}", is_whole, counts)
        wanted += b"".join(line(name, count, size, i) for i, count in enumerate(counts, 1)) + ERASED
    same(f"{words}: the lines", shown, wanted)
    same(f"{words}: what is printed", out, harness.run(program, words.split(), given).out)


def shows_nothing():
    """There is nothing to show unasked, on a terminal that takes no commands, and where there is none."""
    words = "hash -a sha256 --progress first"
    for kind in ("dumb", "", None):
        same(f"TERM is {kind}", on_terminal(words, b"", TERM=kind)[1], b"")
    same("no progress unasked", on_terminal("hash -a sha256 first", b"")[1], b"")
    got = harness.run(program, words.split(), env={**os.environ, "LD_PRELOAD": clock, "TERM": "xterm"})
    same("standard error is no terminal", (got.status, got.err), (0, b""))


program = harness.program()
with harness.folder():
    clock = harness.preloaded("clock")
    for name, size in (FIRST, SECOND):
        write(name, bytes(size))
    for case in RUNS:
        shows(*case)
    shows_nothing()
harness.finish()

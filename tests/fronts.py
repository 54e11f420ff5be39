"""What the tests of sums-parallel share: how it is run, by itself and by a shell, over programs that fail; files."""

import os
import shlex
import time

import harness
from harness import judge, same

FRONT, SHARES = (os.path.join(os.path.dirname(harness.HERE), "scripts", name) for name in (
    "sums-parallel", "sums-shares"))
MIB = 1 << 20


def fill(name, size):
    with open(name, "wb") as file:
        file.truncate(size)
        for place in range(0, size, 7 * MIB):
            file.seek(place)
            file.write(os.urandom(min(1 << 16, size - place)))


def content(path):
    with open(path, "rb") as file:
        return file.read()


# ---- runs: by `own` words of sums-parallel, or by a number of shares, which also small files are given to


def command(program, own):
    return [FRONT, *own] if isinstance(own, list) else ["/usr/bin/env", "--block-signal=INT", SHARES, program, str(own)]


def front(program, own, words, given=b"", **options):
    path, *first = command(program, own)
    return harness.run(path, [*first, *words], given, timeout=100, env={**os.environ, "SUMS": program}, **options)


def by_shell(program, own, text):
    """What a line of a shell answers in which sums is sums-parallel, or where `own` is None sums."""
    begin = shlex.join([program] if own is None else command(program, own))
    return harness.run("sh", ["-c", f'rm -f told; sums() {{ {begin} "$@"; }}; {text}'], timeout=100,
                       env={**os.environ, "SUMS": program})


def in_order(run):
    """A run whose messages are in one order: those of runs that are at work together come as they come."""
    return run.status, run.out, sorted(run.err.splitlines())


def compare(program, ways, cases):
    for name, words, given in cases:
        wanted = in_order(harness.run(program, words, given))
        for own in ways:
            same(f"{own} {name}", in_order(front(program, own, words, given)), wanted)


def faulty(program, how):
    """A program that is sums, but for what lines of sh do first."""
    path = os.path.abspath("faulty/sums")
    os.makedirs("faulty", exist_ok=True)
    if os.path.exists(path):
        os.unlink(path)  # one that a run has just begun cannot be written to
    with open(path, "w") as file:
        file.write(f"#!/bin/sh\nsums={program}\n{how}\nexec \"$sums\" \"$@\"\n")
    os.chmod(path, 0o755)
    return path


def wait_for(holds):
    for _ in range(400):
        if holds():
            return True
        time.sleep(0.025)
    return False


def none_left(how, begun):
    """None of the processes is left that runs have told in a file."""
    left = [f"/proc/{int(process)}" for process in content(begun).split()]
    judge(f"{how}: no run is left", wait_for(lambda: not any(map(os.path.exists, left))), left)

"""What the Python scripts of tests share: their words, the folder they work in, runs of the program, the count of
cases and the last line, and calls of C that are loaded before the program's own. With STOPS=1 in the environment a
script ends at its first case that is wrong."""

import contextlib
import itertools
import os
import shutil
import subprocess
import sys
import tempfile
from typing import NamedTuple

HERE = os.path.dirname(os.path.abspath(__file__))
SHOWN = 600
TOLD = 100

passed = failed = 0


class Run(NamedTuple):
    """What a run answers."""

    status: int
    out: bytes
    err: bytes


def arguments(least):
    """The script's words; where there are fewer it stops, and tells its usage, with which its first text ends."""
    if len(sys.argv) <= least:
        text = sys.modules["__main__"].__doc__
        print(text[text.index("usage: "):].rstrip(), file=sys.stderr)
        sys.exit(2)
    return sys.argv[1:]


def program(access=os.X_OK):
    """The path of the program that the first word names, or with os.R_OK of another file."""
    path = os.path.abspath(arguments(1)[0])
    if not os.access(path, access):
        print(f"there is no {path}\n0 passed, 1 failed")
        sys.exit(1)
    return path


@contextlib.contextmanager
def folder():
    """A new folder to work in, which goes at the end."""
    with tempfile.TemporaryDirectory() as work:
        os.chdir(work)
        try:
            yield
        finally:
            os.chdir("/")


def called(path):
    """What a program is called by, which its usage repeats: `sums`, too, if tools/try has left it."""
    return path.removesuffix("-unproved") if os.path.basename(path) == "sums-unproved" else path


def run(path, words, given=b"", **options):
    """One run of a program. The options are those of subprocess.run."""
    done = subprocess.run([called(path), *words], executable=path, input=given, capture_output=True, **options)
    return Run(done.returncode, done.stdout, done.stderr)


def judge(name, is_right, *shown):
    """Counts a case, and tells what is wrong with it. Of those that are wrong the first are told."""
    global passed, failed
    if is_right:
        passed += 1
        return True
    failed += 1
    if failed <= TOLD:
        print(f"{name}: wrong")
        for line in shown:
            print(f"    {line}"[:SHOWN])
    if os.environ.get("STOPS"):
        finish()
    return False


def same(name, got, wanted):
    """Counts a case that has to give this."""
    return judge(name, got == wanted, f"got    {got}", f"wanted {wanted}")


def in_turn(outputs):
    """The lines of these, one of each in turn."""
    rows = itertools.zip_longest(*(each.splitlines(keepends=True) for each in outputs), fillvalue=b"")
    return b"".join(line for row in rows for line in row)


def finish():
    """The last line, and the status that goes with it."""
    print(f"{passed} passed, {failed} failed")
    sys.exit(1 if failed else 0)


def preloaded(name):
    """A C file of tests/program as a library that LD_PRELOAD takes, built by the kit's compiler, or by the system's where
    there is no kit."""
    library, compiler = os.path.abspath(f"{name}.so"), ["cc"]
    kit = shutil.which("rt")
    if kit:
        tools = os.path.join(os.path.dirname(os.path.dirname(os.path.realpath(kit))), "toolchain/bin")
        compiler = [f"{tools}/clang", f"-fuse-ld={tools}/ld.lld"]
    flags = ["-O1", "-shared", "-fPIC", "-nostdlib"]
    subprocess.run([*compiler, *flags, "-o", library, f"{HERE}/program/{name}.c"], check=True)
    return library

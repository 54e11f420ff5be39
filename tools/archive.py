#!/usr/bin/env python3
"""Builds the archive of the C library over the libraries that `rt ci` has left in this tree, so that none of them is
proved twice: it is crates/hash_c/out/libhash_c.a then. `rt lib` builds its own libraries, since it keeps what it has
proved for the next time; where such stand in this tree, they are other ones than those of `rt ci`, and this ends with
status 1 and builds nothing.
usage: tools/archive.py RT LEVEL      RT is the path of the kit's rt
"""

import importlib.util
import os
import subprocess
import sys

TOP = os.path.dirname(os.path.dirname(os.path.realpath(__file__)))
ARCHIVE = "out/libhash_c.a"


def kit_of(rt):
    """The kit's own module, which knows how rattle is called."""
    path = os.path.join(os.path.dirname(os.path.realpath(rt)), "rtlib.py")
    spec = importlib.util.spec_from_file_location("rtlib", path)
    kit = importlib.util.module_from_spec(spec)
    sys.modules["rtlib"] = kit
    spec.loader.exec_module(kit)
    return kit


def main(rt, level):
    sys.dont_write_bytecode = True
    kit = kit_of(rt)
    os.chdir(TOP)
    crate = next(it for it in kit.crates_below(TOP) if it.name == "hash_c")
    for below in crate.below():
        if not os.path.isdir(below.rlib):
            return f"rt ci has left no library {below.name} here"
        if os.path.exists(f"{os.path.dirname(below.rlib)}/stamp"):
            return f"the library {below.name} here is that of rt lib, and not of rt ci"
    os.chdir(crate.folder)
    os.makedirs("out", exist_ok=True)
    words = crate.words([f"--cpu={level}", "--jobs", "2"], keeps=False)
    command = [kit.RATTLE, "build", *words, "--toolchain", f"{kit.KIT}/toolchain", "--backend", "llvm", "-o", ARCHIVE]
    return subprocess.run([*kit.guarded(), *command], check=False).returncode


if __name__ == "__main__":
    if len(sys.argv) != 3:
        sys.exit(__doc__)
    sys.exit(main(*sys.argv[1:]))

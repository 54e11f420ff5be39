#!/usr/bin/env python3
"""Writes what the package of npm has for require() alone: its modules as one script of CommonJS, and its types a second
time, as those of CommonJS.
usage: tools/commonjs.py FOLDER
"""

import os
import sys

sys.dont_write_bytecode = True
import page  # noqa: E402

NAMES = "bind, getHashes, MalformedLine, Refused, toHex"
TYPES = ("index", "library")


def write(folder, name, text):
    with open(os.path.join(folder, name), "w", encoding="utf-8", newline="\n") as file:
        file.write(text)


def main(words):
    if len(words) != 1:
        sys.exit(__doc__.splitlines()[2])
    script = page.script_of([f"bindings/js/{name}.js" for name in page.PACKAGE])
    write(words[0], "modules.cjs", f"{script}\nmodule.exports = {{ {NAMES} }};\n")
    for name in TYPES:
        write(words[0], f"{name}.d.cts", page.read(f"bindings/js/{name}.d.ts").replace(".js'", ".cjs'"))


if __name__ == "__main__":
    main(sys.argv[1:])

#!/usr/bin/env python3
"""Lists the functions of the crates that decide something without a clause: their body has a branch, and they have no
`ensures`, or ask the system too, of whose answer no clause can speak. Methods of a trait have its clauses, unless they
ask the system, and tests have none. docs/PROOFS.md has to name exactly these functions.
usage: tests/documents/without_clause.py           compares them with docs/PROOFS.md
       tests/documents/without_clause.py --list    prints them with their files
"""

import glob
import os
import re
import sys

sys.path.append(os.path.join(os.path.dirname(os.path.realpath(__file__)), ".."))

import harness

ROOT = os.path.dirname(harness.HERE)
# the crates of tests, whose functions are tests or what these call
TESTS = ("library_tests", "memory_tests")
FUNCTION = re.compile(r"^( *)(?:pub(?:\(\w+\))? )?(?:const |unsafe |extern \"C\" )*fn (\w+)")
# a branch, a loop, an early return, a comparison, or a choice made by a closure
BRANCH = re.compile(r"\b(?:if|match|while|for)\b|matches!|\.(?:filter|unwrap_or|or|and|then|min|max|map_err|is_ok_and)\w*\("
                    r"|\?(?=[;.,)\s]|$)|&&|\|\||[=!]=| [<>]=? ")
# what only the system knows: its files and streams, by the runtime that is handed on
ASKS = re.compile(r"\brt\b[.,)]|\bSeekFrom::|\.is_terminal\(")
LITERAL = re.compile(r"\"(?:\\.|[^\"\\])*\"|'(?:\\.[^']*|[^'\\])'|//.*")
NAMED = "These decide without a clause: "


def functions(lines):
    """Yields each function of a source in the layout of `rt fmt`: its name, the block around it, its head and its body."""
    block = ""
    for at, line in enumerate(lines):
        if re.match(r"(?:unsafe )?(?:impl|trait|pub trait)\b", line):
            last = next(i for i in range(at, len(lines)) if lines[i].endswith("{"))
            block = " ".join(lines[at : last + 1])
        elif line == "}":
            block = ""
        found = FUNCTION.match(line)
        if found:
            indent, name = found.groups()
            end = next((i for i in range(at, len(lines)) if lines[i] == f"{indent}}}" or lines[i].endswith(";\n")), at)
            whole = lines[at : end + 1]
            body = next((i for i, part in enumerate(whole) if part == f"{indent}{{" or part.endswith(" {")), len(whole))
            yield name, block, whole[: body + 1], whole[body + 1 :]


def without_clause():
    """Yields the file and the name of each function that decides without a clause."""
    for path in sorted(glob.glob("crates/*/src/**/*.rt", root_dir=ROOT, recursive=True)):
        if path.split("/")[1] in TESTS:
            continue
        with open(os.path.join(ROOT, path), encoding="utf-8") as file:
            lines = file.read().splitlines()
        for name, block, head, body in functions(lines):
            of_trait = re.search(r"\btrait\b|\bfor\b", block)
            code = [LITERAL.sub("", line) for line in body]
            decides, asks = (any(pattern.search(line) for line in code) for pattern in (BRANCH, ASKS))
            if decides and (asks or not of_trait and not any("ensures" in line for line in head)):
                yield path, name


def named():
    """Returns the functions that docs/PROOFS.md names."""
    with open(os.path.join(ROOT, "docs/PROOFS.md"), encoding="utf-8") as file:
        found = re.search(re.escape(NAMED) + r"([^.]*)\.", file.read())
    return re.findall(r"`(\w+)`", found[1]) if found else []


def main(words):
    found = list(without_clause())
    if words == ["--list"]:
        for path, name in found:
            print(f"{path}: {name}")
        return
    harness.judge("there are such functions, and contracts", 0 < len(found) < 100)
    for path, name in found:
        harness.judge(f"{path}: docs/PROOFS.md names {name}", name in named())
    for name in named():
        harness.judge(f"docs/PROOFS.md: {name} decides without a clause", name in [it for _, it in found])
    harness.finish()


if __name__ == "__main__":
    sys.exit(main(sys.argv[1:]))

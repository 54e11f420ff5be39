#!/usr/bin/env python3
"""Asks that the names of functions, types and definitions in the parts *What is proved* and *Refusals* of docs/PROOFS.md
are links to the line where each stands with its contract, and that the lines are right. A name with `::` or `_` that is
a function has to be a link; any other may be one.
usage: tests/documents/names_linked.py            asks that
       tests/documents/names_linked.py --write    writes the line of each link, and a link for each name that stands in
                                                  one file alone; of the others it prints the files to choose from
"""

import collections
import glob
import os
import re
import sys

sys.path.append(os.path.join(os.path.dirname(os.path.realpath(__file__)), ".."))

import harness

ROOT = os.path.dirname(harness.HERE)
PAGE = os.path.join(ROOT, "docs/PROOFS.md")
# the part of the page whose names are links
BEGIN, END = "\n## What is proved\n", "\n## What is only tested\n"
# crates of tests, whose functions no claim is about
TESTS = ("library_tests", "memory_tests")
# a name that is a link, and one that is none
LINKED = re.compile(r"\[`([\w:]+)`\]\(\.\./(crates/[^)#]+)(?:#L(\d+))?\)")
PLAIN = re.compile(r"(?<!\[)`([A-Za-z]\w*(?:::\w+)?)`")
BLOCK = re.compile(r"(?:pub )?(?:unsafe )?(impl|trait)\b(?:<[^{]*?>)? *(.*)")
FUNCTION = re.compile(r'(?: {4})?(?:pub(?:\(\w+\))? )?(?:const |unsafe |extern "C" )*fn (\w+)')
TYPE = re.compile(r"(?:pub(?:\(\w+\))? )?(?:struct|enum|trait) (\w+)")
DEFINITION = re.compile(r"(?:(?:abbrev|unfoldable|opaque) pub|pub (?:record|data)) ([^\s:{(]+)")


def read(path):
    with open(path, encoding="utf-8") as file:
        return file.read()


def owner(block):
    """The type or trait of a block of functions: of `impl Absorb for Blake3` that is Blake3."""
    found = BLOCK.match(block)
    return found and re.match(r"\w*", found[2].split(" for ")[-1])[0]


def names_of(path):
    """Each name that a file defines, with its number of line; a function of a type also as `Type::function`."""
    block = None
    for number, line in enumerate(read(os.path.join(ROOT, path)).split("\n"), 1):
        if path.endswith(".antt"):
            if found := DEFINITION.match(line):
                yield found[1], number
            continue
        if BLOCK.match(line):
            block = line
        elif line == "}":
            block = None
        if found := TYPE.match(line):
            yield found[1], number
        if found := FUNCTION.match(line):
            yield found[1], number
            if block and line.startswith(" "):
                yield f"{owner(block)}::{found[1]}", number


def index():
    """The files of each name, each with the number of its first line there."""
    places = collections.defaultdict(dict)
    for path in sorted(glob.glob("crates/*/src/**/*.rt", root_dir=ROOT, recursive=True)
                       + glob.glob("crates/*/specs/*.antt", root_dir=ROOT)):
        if path.split("/")[1] not in TESTS:
            for name, number in names_of(path):
                places[name].setdefault(path, number)
    return places


def part_of(page):
    """The page before the part whose names are links, that part, and what comes after it."""
    begin, end = page.index(BEGIN), page.index(END)
    return page[:begin], page[begin:end], page[end:]


def has_to_be_link(name, places):
    return ("::" in name or "_" in name) and any(path.endswith(".rt") for path in places[name])


def with_lines(page, places):
    """The page with the line of each link, and with a link for each name of one file; the names of several files."""
    before, text, after = part_of(page)
    left = set()

    def line(found):
        number = places[found[1]].get(found[2])
        return f"[`{found[1]}`](../{found[2]}#L{number})" if number else found[0]

    def link(found):
        name = found[1]
        if not has_to_be_link(name, places):
            return found[0]
        if len(places[name]) > 1:
            left.add(name)
            return found[0]
        path, number = next(iter(places[name].items()))
        return f"[`{name}`](../{path}#L{number})"

    return before + PLAIN.sub(link, LINKED.sub(line, text)) + after, sorted(left)


def check(page, places):
    _, text, _ = part_of(page)
    found = LINKED.findall(text)
    harness.judge("docs/PROOFS.md has links to functions", len(found) > 80)
    for name, path, number in found:
        there = places[name].get(path)
        harness.judge(f"docs/PROOFS.md: {name} in line {number} of {path}", number == str(there),
                      f"it stands in line {there}" if there else "it does not stand there",
                      "tests/documents/names_linked.py --write writes the lines")
    for name in PLAIN.findall(text):
        harness.judge(f"docs/PROOFS.md: {name} is a link", not has_to_be_link(name, places), *places[name])
    harness.finish()


def main(words):
    page, places = read(PAGE), index()
    if words != ["--write"]:
        check(page, places)
        return
    written, left = with_lines(page, places)
    with open(PAGE, "w", encoding="utf-8") as file:
        file.write(written)
    for name in left:
        print(f"{name}: {' '.join(places[name])}")


if __name__ == "__main__":
    main(sys.argv[1:])

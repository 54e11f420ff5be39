#!/usr/bin/env python3
"""Asks of the definitions in crates/*/specs, those of inside/ apart, that each public one has a comment directly above
it, that docs/PROOFS.md links each folder of them, and that a file says at its head what it is to be compared with:
those of the hashes the section of a standard, and those of lists a heading of docs/FORMAT.md.
usage: tests/documents/definitions_listed.py            asks all that
       tests/documents/definitions_listed.py --table    prints each definition with its comment, file by file
"""

import glob
import os
import re
import sys

sys.path.append(os.path.join(os.path.dirname(os.path.realpath(__file__)), ".."))

import harness

ROOT = os.path.dirname(harness.HERE)
DEFINITION = re.compile(r"^(?:(?:abbrev|unfoldable|opaque) pub|pub (?:record|data)) ([^\s{]+)")
OF_STANDARDS = ("words", "blake2", "b3", "mac", "kdf", "states")
OF_LISTS = ("sumlist", "partlist")
# files that speak of what the code does, and not of a standard or of the format of lists
OF_CODE = ("b3/Begun", "blake2/Begun", "states/Begun", "partlist/Laws", "sumlist/Checked", "sumlist/Named", "sumlist/Opening",
           "sumlist/Parsed", "sumlist/Settled", "sumlist/TaggedFaults", "sumlist/Tally")
STANDARD = re.compile(r"RFC (?:7693|2104|5869)|the BLAKE[23] paper")
# the section after a standard, and one that stands alone in a comment
SECTION = re.compile(STANDARD.pattern.join(["(?:", r")(?:, (?:section )?| \()[1-9]\b"]))
ALONE = re.compile(r"\([^()]*\b[1-9]\.[1-9]\b[^()]*\)")
HEADING = re.compile(r"docs/FORMAT\.md, ([A-Z][^:.)]*)")


def lines_of(path):
    with open(os.path.join(ROOT, path), encoding="utf-8") as file:
        return file.read().splitlines()


def comment_above(lines, at):
    """The comment that ends in the line above this one, as one text."""
    begin = at
    while begin > 0 and lines[begin - 1].startswith("--"):
        begin -= 1
    return " ".join(line.lstrip("- ") for line in lines[begin:at])


def head(lines):
    return comment_above(lines, next((at for at, line in enumerate(lines) if not line.startswith("--")), len(lines)))


def definitions(lines):
    """Each definition of a file: its name and its comment."""
    for at, line in enumerate(lines):
        found = DEFINITION.match(line)
        if found:
            yield found[1], comment_above(lines, at)


def check_standard(path, about, defined):
    """A file names a standard and its section, or each definition that section."""
    harness.judge(f"{path}: a standard", STANDARD.search(about), about)
    without = [name for name, comment in defined if not ALONE.search(comment)]
    harness.judge(f"{path}: a section of it", SECTION.search(about) or not without, about, *without)


def check_format(path, about, headings):
    named = HEADING.search(about)
    harness.judge(f"{path}: a heading of docs/FORMAT.md", named and named[1] in headings, about)


def check(files):
    headings = [line.lstrip("# ") for line in lines_of("docs/FORMAT.md") if line.startswith("#")]
    linked = re.findall(r"\]\(\.\./(crates/\S+)\)", "\n".join(lines_of("docs/PROOFS.md")))
    for folder in sorted({os.path.dirname(path) for path, _, _ in files}):
        harness.judge(f"{folder}: a link of docs/PROOFS.md", folder in linked)
    for path, about, defined in files:
        _, crate, _, name = path.split("/")
        for definition, comment in defined:
            harness.judge(f"{path}: {definition} has a comment", comment)
        if f"{crate}/{name.removesuffix('.antt')}" in OF_CODE:
            continue
        if crate in OF_STANDARDS:
            check_standard(path, about, defined)
        elif crate in OF_LISTS:
            check_format(path, about, headings)
    harness.finish()


def show(files):
    for path, about, defined in files:
        print(f"{path}\n    {about}")
        for name, comment in defined:
            print(f"  {name}\n    {comment}")


def main():
    paths = sorted(os.path.relpath(path, ROOT) for path in glob.glob(f"{ROOT}/crates/*/specs/*.antt"))
    files = [(path, head(lines_of(path)), list(definitions(lines_of(path)))) for path in paths]
    files = [file for file in files if file[2]]
    if sys.argv[1:] == ["--table"]:
        show(files)
    else:
        check(files)


main()

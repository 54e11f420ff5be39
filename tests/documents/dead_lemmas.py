#!/usr/bin/env python3
"""Finds lemmas of crates/*/proofs and definitions of crates/*/specs/inside that nothing uses: no other file that
imports the name has it, or has it in a path, and in its own file only unused ones have it. Answers and invariants are
the checker's own, and values that it computes are tests.
usage: tests/documents/dead_lemmas.py            asks that there is none
       tests/documents/dead_lemmas.py --lines    prints each with its file and its number of lines
"""

import collections
import glob
import os
import re
import sys

sys.path.append(os.path.join(os.path.dirname(os.path.realpath(__file__)), ".."))

import harness

ROOT = os.path.dirname(harness.HERE)
OURS = re.compile(r"crates/\w+/(?:proofs|specs/inside)/(?!.*(?:Answers|Invariants|Proof|Vectors|Ties|ExampleWords)\.)")
STATED = re.compile(r"(?:(?:abbrev|unfoldable|opaque) )?(?:pub )?(?:record |data )?([^\s:{(]+) *(?::|[({].*[:=])")
NO_LEMMA = re.compile(r"(?:pub |unfoldable )*(?:use|mod) |infix|unfolding |module ")
IMPORT = re.compile(r"(\bpub |\bghost |)use Rattle\.[\w.+]+(?:\.\{([^}]*)\}| as \w+)?;?$", re.M)
MODULE = re.compile(r"use (Rattle\.[\w.+]+?)(?: as (\w+))?;?$", re.M)
TOKEN = re.compile(r"[^\s(){},;]+")


class File:
    """A file: what it imports by name, the words of its other lines, and its lemmas by line."""

    def __init__(self, path):
        with open(path, encoding="utf-8") as file:
            text = re.sub(r"[ \t]*(?:--|//).*", "", file.read())
        self.path = os.path.relpath(path, ROOT)
        self.imports = {name.split(" as ")[0] for public, names in IMPORT.findall(text) if public != "pub "
                        for name in re.split(r",\s*", names)}
        lines = IMPORT.sub("", text).splitlines()
        self.words = list(map(parts, lines))
        # a module that is imported whole, and the paths of an attribute in code
        modules = {alias or path.split(".")[-1] for path, alias in MODULE.findall(text)}
        paths = [token for token in TOKEN.findall("\n".join(lines)) if re.search("::(?:proofs|specs)::", token)
                 or token.split(".")[0] in modules]
        self.all, self.in_paths = set().union(*self.words), set().union(*map(parts, paths))
        self.owners = list(owners(lines)) if OURS.match(self.path) else [None] * len(lines)

    def has(self, name, unused):
        """Whether a line that belongs neither to this lemma nor to an unused one has its name."""
        lines = zip(self.words, self.owners)
        return any(parts(name) <= words for words, owner in lines if owner != name and owner not in unused)

    def takes(self, name):
        """Whether this file uses a lemma of another."""
        return parts(name) <= self.all and (name in self.imports or parts(name) <= self.in_paths)


def owners(lines):
    """For each line the lemma that it belongs to. What a module has is indented more than the module."""
    name, depth = None, 0
    for line in lines:
        text = line.strip()
        indent = len(line) - len(line.lstrip())
        if text and text != "where" and indent <= depth:
            depth = indent + 2 * text.startswith("module ")
            found = None if NO_LEMMA.match(text) else STATED.match(text)
            name = None if text.startswith("module ") else found[1] if found else name
        yield name


def parts(text):
    """The words of a text: of paths and operators each part."""
    return {part for word in TOKEN.findall(text) for part in re.split(r"[.:◌]+", word) if part}


def unused(files):
    """The lemmas that nothing uses, each with its file. What only unused ones use is unused too."""
    having = collections.defaultdict(list)
    for file in files:
        for word in file.all:
            having[word].append(file)
    for file in files:
        left = {name for name in set(file.owners) - {None}
                if not any(other.takes(name) for other in having[min(parts(name))] if other is not file)}
        while used := {name for name in left if file.has(name, left)}:
            left -= used
        yield from ((file, name) for name in sorted(left))


def main():
    paths = sorted(glob.glob(f"{ROOT}/crates/*/[ps]*/**/*.*t", recursive=True))
    files = [File(path) for path in paths if path.endswith((".antt", ".rt"))]
    found = [f"{file.path}: {name}, {file.owners.count(name)} lines" for file, name in unused(files)]
    if sys.argv[1:] == ["--lines"]:
        print(*found, sep="\n")
    else:
        count = len({(file.path, name) for file in files for name in file.owners if name})
        harness.judge(f"{count} lemmas are used", count > 1000 and not found, *found)
        harness.finish()


if __name__ == "__main__":
    main()

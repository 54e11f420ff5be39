#!/usr/bin/env python3
"""Counts the lines of definitions that a theorem reaches, which are the lines to believe, and checks that
docs/PROOFS.md has these numbers. A theorem is a contract. It reaches each word of crates/*/specs that it cites, and
what the definition of that word cites. There are four kinds: the contracts of the public functions of `program`, of the
calls of the C library, of the functions of `sums`, which show the line of --progress, and of laws. Words of
specs/inside/ are not followed, since nothing of them has to be believed, so no definition that the first two kinds
reach may cite one. A word is found by its text, so too much is reached rather than too little.
usage: tests/documents/definitions_reached.py            checks the numbers of docs/PROOFS.md
       tests/documents/definitions_reached.py --write    writes them there
       tests/documents/definitions_reached.py --files    prints how many lines of each file are reached, and the
                                                         definitions that no theorem reaches
"""

import collections
import functools
import glob
import os
import re
import shutil
import sys

sys.path.append(os.path.join(os.path.dirname(os.path.realpath(__file__)), ".."))

import harness

ROOT = os.path.dirname(harness.HERE)
PROOFS = os.path.join(ROOT, "docs/PROOFS.md")
# the crate with the theorems of a kind, and which of its contracts are theorems, by what stands before and in the name
KINDS = {
    "program": ("program", lambda public, call, name: public),
    "library": ("hash_c", lambda public, call, name: call),
    "progress": ("sums", lambda public, call, name: True),
    "laws": ("*", lambda public, call, name: name.endswith("_laws")),
}
# the rows of docs/PROOFS.md: the crates whose lines each adds up, and the standards that they are to be compared with
ROWS = {
    "hashes": (("words", "blake2", "b3", "pieces"), "RFC 7693, BLAKE2 paper, BLAKE3 paper"),
    "tags and keys": (("mac", "kdf", "states"), "RFC 2104, RFC 5869"),
    "reading, lists and parts": (("hashes", "source", "sumlist", "listing", "partlist"), "[FORMAT](FORMAT.md), BLAKE3 paper"),
    "the command line": (("request", "task"), ""),
    "commands and runs": (("command", "program"), "RFC 2104, 5869 and 7693, BLAKE3 paper, UAX #9 and #14"),
    "calls of C": (("hash_c",), "RFC 7693"),
}
# the sentence that counts the lines beside those: of the line of --progress, of laws, and of other contracts
OTHERS = re.compile(r"^Other lines of `specs/`: \d+ of .*; \d+ of .*; \d+ of .*$", re.M)
# a definition begins in the first column, or within a module, with what it is
BEGINS = re.compile(r"(?:  )?(?:(?:abbrev|unfoldable|opaque) pub|pub (record|data)) ([^\s:{(]+)")
# the line above a definition that belongs to it
ABOVE = re.compile(r"infix|module ")
MEMBER = re.compile(r"\s+(?:pub |\| )?([^\s:]+) :|\s*\| (\S+)")
NO_DEFINITION = re.compile(r"(?:pub )?(?:use|mod) |\s*(?:--|$)")
USE = re.compile(r"(?:pub |ghost )?use Rattle\.(\w+)\.specs\.([\w.]+?)(?:\.\{([^}]*)\}|(?: as (\w+))?)[;\s]*$", re.M)
STRING = re.compile(r'"(?:[^"\\]|\\.)*"')
CLAUSE = re.compile(r"\s+(?:ensures|requires)\b")
FUNCTION = re.compile(r'( *)(pub )?(?:pub\(\w+\) )?(?:const )?(extern "C" )?fn (\w+)')


def read(path):
    with open(path, encoding="utf-8") as file:
        return file.read()


@functools.cache
def crates():
    """The crates in the order of crates.txt, without those of tests."""
    names = re.findall(r"^(\w+)[^:\n]*:", read(os.path.join(ROOT, "crates.txt")), re.M)
    return [name for name in names if not name.endswith("_tests")]


@functools.cache
def sha2():
    """The folder of the kit's definitions of SHA-2, or none if there is no kit."""
    rt = shutil.which("rt")
    return rt and os.path.join(os.path.dirname(os.path.dirname(os.path.realpath(rt))), "rattle/sha2/specs")


# ---- what stands in a file


class Texts:
    """The texts of a file: of definitions, or of contracts. `names` has for each word of the file what it may stand
    for: definitions, each with its file."""

    def __init__(self, path, text):
        self.path = path
        self.definitions = {}
        self.names = collections.defaultdict(set)
        self.modules = {}
        for crate, place, words, alias in USE.findall(text):
            file = place_of(crate, place)
            self.modules[alias or place.split(".")[-1]] = file
            for word in filter(None, map(str.strip, words.split(","))):
                name, _, here = word.partition(" as ")
                for part in parts(here or name):
                    self.names[part].add((file, name))


def parts(name):
    """The words that a name consists of in use: those of an operator stand about its operands."""
    return [part for part in name.split("◌") if part]


def place_of(crate, place):
    """The path of a file of definitions, or none for types of code and for the kit's other crates."""
    top = sha2() if crate == "sha2" else f"{ROOT}/crates/{crate}/specs" if crate in crates() else None
    return os.path.join(top, *place.split(".")) + ".antt" if top and not place.startswith("declared") else None


@functools.cache
def definitions_of(path):
    """The definitions of a file, each with its lines: no import, no comment, and no line that is empty."""
    text = read(path)
    file, name, has_members, above = Texts(path, text), None, None, []
    for line in text.splitlines():
        if NO_DEFINITION.match(line):
            continue
        if ABOVE.match(line):
            above = [line]
            continue
        if found := BEGINS.match(line):
            has_members, name = found.groups()
            for part in parts(name):
                file.names[part].add((path, name))
            file.definitions[name], above = above, []
        elif has_members and (member := MEMBER.match(line)):
            file.names[member[1] or member[2]].add((path, name))
        file.definitions[name].append(line)
    return file


def contracts(path):
    """The contracts of a source file: what stands before a function's name, its name, and what it ensures."""
    lines = read(path).splitlines()
    for at, line in enumerate(lines):
        found = FUNCTION.match(line)
        if not found:
            continue
        while not lines[at].endswith(("{", "}", ";")) and not CLAUSE.match(lines[at + 1]):
            at += 1
        begin = at = at + 1
        if CLAUSE.match(lines[begin]):
            while lines[at] not in (found[1] + "{", found[1] + "{}") and not lines[at - 1].endswith("};"):
                at += 1
            yield found[2], found[3], found[4], "\n".join(lines[begin:at])


# ---- what a theorem reaches


def cited(file, text):
    """What a text of this file cites: definitions, each with its file, of our crates and of SHA-2."""
    for token in set(re.findall(r"[^\s(){},;⟦⟧]+", STRING.sub("", text))):
        token = token.strip(".λ→")
        for word in {token, *token.split(".")}:
            yield from file.names.get(word, ())
        module, _, word = token.partition(".")
        if module in file.modules and word:
            yield file.modules[module], word.split(".")[0]


def is_inside(path):
    return "/specs/inside/" in path


def resolved(names):
    """The definitions that these names stand for: a member, such as a field, stands for its type."""
    for path, name in names:
        if path and not is_inside(path):
            file = definitions_of(path)
            yield from [(path, name)] if name in file.definitions else file.names.get(name, ())
        elif path:
            yield path, name


def cited_by(path, name):
    file = definitions_of(path)
    return resolved(cited(file, "\n".join(file.definitions[name])))


@functools.cache
def theorems(kind):
    """The contracts of a kind: of each file that has some, its texts and theirs."""
    crate, is_one = KINDS[kind]
    paths = sorted(glob.glob(f"{ROOT}/crates/{crate}/src/**/*.rt", recursive=True))
    paths = [path for path in paths if crate_of(path) in crates()]
    found = [(path, [text for *which, text in contracts(path) if is_one(*which)]) for path in paths]
    return [(Texts(path, read(path)), "\n".join(texts)) for path, texts in found if texts]


@functools.cache
def reached(kind):
    """The definitions that the theorems of a kind reach, each with its file."""
    todo = [name for file, text in theorems(kind) for name in resolved(cited(file, text))]
    seen = set()
    while todo:
        definition = todo.pop()
        if definition not in seen and definition[0] and not is_inside(definition[0]):
            seen.add(definition)
            todo += cited_by(*definition)
    return seen


def defined():
    """All definitions that stand outside inside/."""
    paths = [path for crate in crates() for path in sorted(glob.glob(f"{ROOT}/crates/{crate}/specs/*.antt"))]
    return {(path, name) for path in paths for name in definitions_of(path).definitions}


def crate_of(path):
    return path.removeprefix(f"{ROOT}/crates/").split("/")[0]


def lines_of(definitions):
    return sum(len(definitions_of(path).definitions[name]) for path, name in definitions)


# ---- docs/PROOFS.md


def row(name, *numbers, after=()):
    cells = [f"{number:,}" if number else "" for number in numbers]
    return f"| {name} | {' | '.join([*cells, *after])} |"


def counted(name, believed, count, after=""):
    """A row of the program, the C library, and what one of them reaches, and of what this is after."""
    return row(name, *map(count, believed), count(set.union(*believed)), after=[after])


def linked(title, names):
    """The crates of a row, each with a link to its definitions."""
    return f"{title}: " + ", ".join(f"[`{name}`](../crates/{name}/specs)" for name in names)


def rows_to_believe():
    """The lines to believe, by rows of crates. Those of the kit's SHA-2 have a row of their own."""
    believed = [reached("program"), reached("library")]
    of_kit = [{one for one in found if one[0].startswith(f"{sha2()}/")} for found in believed]
    ours = [found - there for found, there in zip(believed, of_kit)]
    for title, (names, after) in ROWS.items():
        of_row = [{one for one in found if crate_of(one[0]) in names} for found in ours]
        yield counted(linked(title, names), of_row, lines_of, after)
    yield counted("together", ours, lines_of)
    yield counted("number of definitions", ours, len)
    if sha2():
        yield counted("of the kit's `sha2`", of_kit, lines_of, "FIPS 180-4")


def with_others(page):
    """The page with the numbers of the lines that stand beside those, by what reaches them."""
    left = defined() - reached("program") - reached("library")
    progress, laws = left & reached("progress"), left & reached("laws") - reached("progress")
    counts = map(str, map(lines_of, [progress, laws, left - progress - laws]))
    return OTHERS.sub(lambda told: re.sub(r"(?<=[:;] )\d+(?= of )", lambda number: next(counts), told[0]), page)


def with_table(page, head, rows):
    """The page with these rows in the table of this head. A row that begins with `**` stays, since it is not counted
    here, and so does the row of SHA-2 if there is no kit."""
    begin = page.index(head)
    end = page.index("\n\n", begin)
    titles, line, *told = page[begin:end].split("\n")
    kept = [row for row in told if row.startswith("| **") or not sha2() and "`sha2`" in row]
    return page[:begin] + "\n".join([titles, line, *rows, *kept]) + page[end:]


def with_tables(page):
    return with_others(with_table(page, "| lines of definitions in |", rows_to_believe()))


def check_words():
    """Each word that a contract or a definition imports from our crates is found there, so none is passed over."""
    files = [file for kind in KINDS for file, _ in theorems(kind)] + [definitions_of(path) for path, _ in defined()]
    for path, names in {file.path: file.names for file in files}.items():
        lost = [one for ones in names.values() for one in ones if one[0] and not list(resolved([one]))]
        harness.judge(f"{path}: the words that it imports", not lost, *lost)


def check():
    for kind in KINDS:
        harness.judge(f"theorems of the kind {kind}", reached(kind))
    check_words()
    believed = reached("program") | reached("library")
    theirs = {crate_of(path) for path, _ in believed if not path.startswith(f"{sha2()}/")}
    harness.same("the crates of the rows", sorted(theirs), sorted(sum((names for names, _ in ROWS.values()), ())))
    for definition in sorted(believed):
        inside = [one for one in cited_by(*definition) if one[0] and is_inside(one[0])]
        harness.judge(" cites nothing of inside/: ".join(definition), not inside, *inside)
    told, wanted = read(PROOFS), with_tables(read(PROOFS))
    harness.judge("docs/PROOFS.md counts the other lines", OTHERS.search(told))
    others = [line for line in wanted.splitlines() if line not in told.splitlines()]
    harness.judge("docs/PROOFS.md has the lines that are reached", told == wanted, *others)
    harness.finish()


def show():
    theirs = {kind: reached(kind) for kind in KINDS}
    for path in sorted({path for path, _ in defined()}):
        names = {(path, name) for name in definitions_of(path).definitions}
        counts = ", ".join(f"{kind} {lines_of(names & found)}" for kind, found in theirs.items() if names & found)
        print(f"{lines_of(names):4} {os.path.relpath(path, ROOT)}: {counts}")
        for name in sorted(names.difference(*theirs.values())):
            print(f"       {lines_of({name})} {name[1]} is not reached")


def main():
    if sys.argv[1:] == ["--write"]:
        page = with_tables(read(PROOFS))
        with open(PROOFS, "w", encoding="utf-8") as file:
            file.write(page)
    elif sys.argv[1:] == ["--files"]:
        show()
    else:
        check()


main()

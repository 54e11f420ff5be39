#!/usr/bin/env python3
r"""Reads the tables of tests/tables: rows/*.tsv (runs of the program and what they answer), usages.tsv (calls for help and a
line of what they print), failed.tsv (runs where a call fails), places.tsv (each place of a file in the words and in a
list), runs.tsv (runs whose calls and allocations are failed), files.tsv (the files that all find), hashes.tsv (the
hashes), messages.tsv (what is said of a list), faults.tsv (what a run reports), orders.tsv (in which order) and values.tsv
(texts with names).

A table has a line of headings, and then a row a line, with a tab between two cells. Lines that begin with # are
comments. In a cell `-` alone stands for nothing, `\n`, `\t`, `\\` and `\xHH` for bytes, and braces for

    {NAME}          a text of values.tsv or of messages.tsv, or the digest of "abc" of hashes.tsv
    {algorithms}    the names of the hashes, with commas between them
    {hash}          in rows/, where the words have it: each hash, in a row of its own; {{hash}} is then its digest
    {other}         the same of each hash but BLAKE3, which alone has parts
    {FOLDER/NAME}   the content of a file below tests
    {TEXT*COUNT}    a text so many times
    {hex DIGITS}    the bytes of these digits, or of the digits that have a name
    {COUNT bytes}   bytes that count from 0 to 250 and begin again

Words are then cut as a shell cuts them.
usage: tests/tables.py files        makes the files here
       tests/tables.py hashes       prints the names of the hashes
       tests/tables.py text CELL    prints what a cell stands for
"""

import glob
import os
import re
import shlex
import sys
from typing import NamedTuple

from harness import HERE, Run, arguments

TABLES = os.path.join(HERE, "tables")
ESCAPES = {"n": b"\n", "t": b"\t", "\\": b"\\"}


class Row(NamedTuple):
    """A run of the program, and what it has to answer."""

    place: str
    name: str
    words: list
    given: bytes
    answer: Run


class Failure(NamedTuple):
    """The call of this name and number fails with one of these errors, and each read gives at most so many bytes."""

    call: str
    number: int
    errors: list
    reads: str


def table(path):
    """The rows of a file of tests/tables, each its place and its cells by their headings."""
    with open(os.path.join(TABLES, path), encoding="latin-1", newline="\n") as file:
        lines = [(number, line.rstrip("\n")) for number, line in enumerate(file, 1)]
    lines = [(number, line.split("\t")) for number, line in lines if line and not line.startswith("#")]
    (_, headings), *rows = lines
    for number, cells in rows:
        if len(cells) != len(headings):
            raise SystemExit(f"{path}:{number}: {len(cells)} cells, and {len(headings)} headings")
        yield f"{path}:{number}", dict(zip(headings, cells))


def text(cell):
    """The bytes that a cell stands for."""
    return b"" if cell == "-" else spelled(cell)


def spelled(cell):
    def part(found):
        if found["byte"]:
            return bytes([int(found["byte"], 16)]).decode("latin-1")
        if found["escape"]:
            return ESCAPES[found["escape"]].decode("latin-1")
        return named(found["name"]).decode("latin-1")

    pattern = r"\\x(?P<byte>[0-9a-f]{2})|\\(?P<escape>[nt\\])|\{(?P<name>[^{}]+)\}|(?P<wrong>[\\{}])"
    for found in re.finditer(pattern, cell):
        if found["wrong"]:
            raise SystemExit(f"{found['wrong']} stands alone in the cell {cell}")
    return re.sub(pattern, part, cell).encode("latin-1")


def named(name):
    """What stands for a name in braces."""
    repeated, star, count = name.rpartition("*")
    if star:
        return spelled(repeated) * int(count)
    if name.startswith("hex "):
        digits = name.removeprefix("hex ")
        return bytes.fromhex(VALUES.get(digits, digits.encode()).decode())
    if name.endswith(" bytes"):
        return bytes(i % 251 for i in range(int(name.removesuffix(" bytes"))))
    if "/" in name:
        with open(os.path.join(HERE, name), "rb") as file:
            return file.read()
    return VALUES[name]


HASHES = {cells["name"]: cells for _, cells in table("hashes.tsv")}
# each but BLAKE3: hashlib has these too
OTHERS = [name for name in HASHES if name != "blake3"]

VALUES = {name: each["abc"].encode() for name, each in HASHES.items()}
VALUES["algorithms"] = ", ".join(HASHES).encode()
VALUES.update((cells["name"], re.split(r"\bN\b", cells["text"])[0].encode()) for _, cells in table("messages.tsv"))
for _, cells in table("values.tsv"):
    VALUES[cells["name"]] = text(cells["value"])


def words_of(cell):
    """The words behind the program's name."""
    return [word.encode("latin-1") for word in shlex.split(text(cell).decode("latin-1"))]


def row(place, cells):
    answer = Run(int(cells["status"]), text(cells["output"]), text(cells["error"]))
    return Row(place, cells["name"], words_of(cells["words"]), text(cells["input"]), answer)


def of_each(cells):
    """The cells for each hash that they stand for, or as they are."""
    for word, names in (("{hash}", HASHES), ("{other}", OTHERS)):
        if word in cells["words"]:
            return [{heading: cell.replace(word, name) for heading, cell in cells.items()} for name in names]
    return [cells]


def names():
    """The names of the tables of rows, in their order."""
    return [os.path.basename(path).removesuffix(".tsv") for path in sorted(glob.glob(f"{TABLES}/rows/*.tsv"))]


def rows(*chosen):
    """The rows of the tables of these names, or of all, in their order."""
    for name in chosen or names():
        for place, cells in table(f"rows/{name}.tsv"):
            yield from (row(place, each) for each in of_each(cells))


def usages():
    """The calls for help: the place of each, its words, and the line of its usage."""
    for place, cells in table("usages.tsv"):
        yield place, words_of(cells["words"]), text(cells["usage"])


def failed_rows():
    """The rows in which a call fails, each with its failure."""
    for place, cells in table("failed.tsv"):
        reads = "" if cells["reads"] == "-" else cells["reads"]
        yield row(place, cells), Failure(cells["call"], int(cells["number"]), cells["errors"].split(), reads)


def places():
    """The runs over the file `this`: the content of that, and the run where it can be read."""
    for place, cells in table("places.tsv"):
        answer = Run(0, text(cells["output"]), b"")
        yield text(cells["this"]), Row(place, cells["name"], words_of(cells["words"]), text(cells["input"]), answer)


def options_of(command, *words):
    """The options among the words of a run, each with the command."""
    words = words[:words.index(b"--")] if b"--" in words else words
    for word in words:
        if word.startswith(b"--"):
            yield command, word.partition(b"=")[0]
        elif len(word) > 1 and word.startswith(b"-"):
            yield command, word[:2]


def runs():
    """The runs whose calls and allocations are failed: name, words and input. They are those of runs.tsv, and for an
    option that none of them has the first row of rows/ that has it and ends with status 0."""
    tried = set()
    for _, cells in table("runs.tsv"):
        words = words_of(cells["words"])
        tried.update(options_of(*words))
        yield cells["name"], words, text(cells["input"])
    for row in rows():
        options = set(options_of(*row.words)) if row.words and row.answer.status == 0 else set()
        if options - tried:
            tried |= options
            yield row.name, row.words, row.given


def make_files():
    """The files that rows and runs find, in this folder; a name that ends with a slash is a folder's."""
    for _, cells in table("files.tsv"):
        name = text(cells["name"])
        if name.endswith(b"/"):
            os.mkdir(name)
            continue
        with open(name, "wb") as file:
            file.write(text(cells["content"]))


def main():
    command, *cells = arguments(1)
    if command == "files":
        make_files()
    if command == "hashes":
        print(*HASHES, sep="\n")
    for cell in cells:
        sys.stdout.buffer.write(text(cell))


if __name__ == "__main__":
    main()

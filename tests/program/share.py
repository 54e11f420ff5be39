#!/usr/bin/env python3
"""Checks random lists, of digests and of tags under random keys, by one run and by the runs of all shares: the lines of
these, one of each in turn, have to be the report of the one run, and `check --report` of that report what the run told.
The same report with a line added, doubled, left out or cut has to be refused at that line.
usage: tests/program/share.py PROGRAM [RUNS] [SEED]    RUNS is 1,000 where it is not named
"""

import itertools
import os
import random
import re
import sys

sys.path.append(os.path.join(os.path.dirname(os.path.realpath(__file__)), ".."))

import harness
import random_lists
from harness import same

VERDICT = re.compile(rb": (OK|FAILED|MISSING|UNREADABLE|TOO LONG)\n\Z")
MOST_SHARES = 5
LINES_A_LIST = 12


def random_lists_of(source, kind, files):
    """The names of one list or several: `-`, and one that is not there, may be among them."""
    names = [f"list {number}" for number in range(source.choice([1, 1, 2, 3]))]
    if source.random() < 0.2:
        names[source.randrange(len(names))] = "-"
    for name in names:
        count = source.randrange(LINES_A_LIST + 1)
        lines = [random_lists.random_line(source, kind or "sha256", files) for _ in range(count)]
        with open("input" if name == "-" else name, "wb") as file:
            file.write(b"".join(line + b"\n" for line in lines))
    if source.random() < 0.1:
        names.insert(source.randrange(len(names) + 1), "none")
    return names


def is_like(line, wanted):
    """Whether a line of a report may stand for another: they differ in the verdict alone."""
    return line == wanted or (VERDICT.search(line) and VERDICT.search(wanted)
        and VERDICT.split(line)[0] == VERDICT.split(wanted)[0])


def changed(source, report):
    """A report with a fault, and the number of the line where it shows, or None if it shows nowhere."""
    lines = report.splitlines(keepends=True)
    place = source.randrange(len(lines) + 1)
    kind = source.randrange(4)
    if kind == 0:
        other = lines[:place] + [source.choice([b"\n", b"x: OK\n", b"line 1: MALFORMED\n", b"x"])] + lines[place:]
    elif kind == 1:
        other = lines[:place] + lines[place + 1:]
    elif kind == 2:
        other = lines[:place] + lines[place:place + 1] * 2 + lines[place + 1:]
    else:
        whole = b"".join(lines)
        other = whole[:source.randrange(len(whole) + 1)].splitlines(keepends=True)
    # a text without LF ends the lines that are after it
    other = b"".join(other).splitlines(keepends=True)
    for number, (line, wanted) in enumerate(itertools.zip_longest(other, lines, fillvalue=b""), 1):
        if not is_like(line, wanted):
            return b"".join(other), number
    return b"".join(other), None


def check(program, words, names):
    """A run over these lists, which has a standard input of its own."""
    if "-" not in names:
        return harness.run(program, ["check", *words, "--", *names])
    with open("input", "rb") as given:  # no pipe, which a share refuses
        return harness.run(program, ["check", *words, "--", *names], None, stdin=given)


def one_run(program, source, about, files):
    is_keyed = source.random() < 0.3
    kind = random_lists.random_key(source) if is_keyed else source.choice([*random_lists.LENGTHS, None])
    words = kind.words() if is_keyed else ["-a", kind] if kind else []
    names = random_lists_of(source, kind, files)
    whole = check(program, [*words, "--summary"], names)
    count = source.randrange(1, MOST_SHARES + 1)
    shares = [check(program, [*words, "--share", f"{k}/{count}"], names) for k in range(count)]
    same(f"{about}, {count} shares in turn", harness.in_turn([share.out for share in shares]), whole.out)
    same(f"{about}, the greatest status", max(share.status for share in shares), whole.status)
    refused = b"sums: none: cannot read\n" if "none" in names else b""
    if count > 1:
        same(f"{about}, what shares tell", [share.err for share in shares], [refused] * count)
    with open("report", "wb") as file:
        file.write(whole.out)
    told = check(program, [*words, "--summary", "--report", "report"], names)
    if refused:
        # it ends at the first list that cannot be read
        end = whole.err.index(refused) + len(refused)
        same(f"{about}, told to a list", told, (1, b"", whole.err[:end]))
        return
    same(f"{about}, told", told, (whole.status, b"", whole.err))
    report, number = changed(source, whole.out)
    if number:
        with open("report", "wb") as file:
            file.write(report)
        told = check(program, [*words, "--report", "report"], names)
        last = told.err.splitlines(keepends=True)[-1:]
        same(f"{about}, a report with a fault {report}", (told.status, told.out, last),
            (1, b"", [b"sums: report: line %d: not of this list\n" % number]))


def main():
    program = harness.program()
    count = int(sys.argv[2]) if len(sys.argv) > 2 else 1000
    seed = int(sys.argv[3]) if len(sys.argv) > 3 else random.randrange(10**6)
    print(f"tests/program/share.py: {count} runs, seed {seed}")
    source = random.Random(seed)
    with harness.folder():
        files = random_lists.make_files(source)
        for number in range(count):
            one_run(program, source, f"run {number}", files)
    harness.finish()


main()

#!/usr/bin/env python3
"""Runs the program on each row of rows/*.tsv, over the files of files.tsv: status, standard output and standard error
have to be those of the row, byte for byte. A call for help of usages.tsv has to print its line of usage, and nothing on
standard error. Each command has a row of each hash. tables.py tells how a table is written.
usage: tests/program/rows.py PROGRAM            all tables
       tests/program/rows.py PROGRAM NAME..     the tables of these names alone, as hash for rows/hash.tsv
"""

import os
import sys

sys.path.append(os.path.join(os.path.dirname(os.path.realpath(__file__)), ".."))

import harness
import tables


def differences(got, wanted):
    """What is another, in lines."""
    for what, is_got, is_wanted in zip(("status", "output", "error"), got, wanted):
        if is_got != is_wanted:
            yield f"{what}: got    {is_got}"
            yield f"{what}: wanted {is_wanted}"


def once(rows):
    """No row stands twice, and no name."""
    places = {}
    for row in rows:
        for what in (row.name, (tuple(row.words), row.given)):
            if what in places:
                harness.judge(f"{row.place}: {row.name}", False, f"stands in {places[what]} too")
            places[what] = row.place


def of_each_hash(rows):
    """Each command has a row of each hash."""
    begun = {b" ".join(row.words[:3]).replace(b"hmac-", b"").decode("latin-1") for row in rows}
    for name in tables.HASHES:
        for command in ("hash", "mac", "kdf", "check", "part", "join"):
            harness.judge(f"{command} has a row of {name}", f"{command} -a {name}" in begun)


def run_table(program, name):
    """Runs the rows of a table, and says how many cases are done."""
    for row in tables.rows(name):
        got = harness.run(program, row.words, row.given)
        harness.judge(f"{row.place}: {row.name}", got == row.answer, row.words, *differences(got, row.answer))
    print(f"{name}: {harness.passed + harness.failed} cases are done", flush=True)


def run_usages(program):
    for place, words, usage in tables.usages():
        got = harness.run(program, words)
        is_right = (got.status, got.err) == (0, b"") and usage in got.out.splitlines()
        harness.judge(f"{place}: {usage.decode()}", is_right, words, got)


def main():
    program, chosen = harness.program(), harness.arguments(1)[1:]
    unknown = [name for name in chosen if name not in tables.names()]
    if unknown:
        print(f"there is no table {unknown[0]}; there are {' '.join(tables.names())}", file=sys.stderr)
        sys.exit(2)
    with harness.folder():
        tables.make_files()
        for name in chosen or tables.names():
            run_table(program, name)
        if not chosen:
            rows = list(tables.rows())
            once(rows)
            of_each_hash(rows)
            run_usages(program)
    harness.finish()


main()

#!/usr/bin/env python3
"""Prints lists of digests with the reports on them, for tests of packages: the rows of tests/program/lists.py, and
random lists of tests/program/random_lists.py, whose reports are those of a program or else of the second reading there.
Each line is a group in JSON, all its bytes in base64: `files`, by their names; `lists`, each with its algorithm and its
report; and `lines`, each with the algorithm, the digest, the name and whether it is tagged.
usage: tests/list_cases.py LISTS SEED [PROGRAM]    how many random lists, of 500 lines
"""

import base64
import json
import os
import random
import sys

sys.path.append(os.path.join(os.path.dirname(os.path.realpath(__file__)), "program"))

import harness
import lists
import random_lists


def text(content):
    return base64.b64encode(content).decode()


def files_here():
    found = {}
    for name in os.listdir(b"."):
        with open(name, "rb") as file:
            found[text(name)] = text(file.read())
    return found


def rows():
    """The rows and the written lines of tests/program/lists.py."""
    found, lines = [], []

    def keep(name, algorithm, given, report, *_, **__):
        found.append({"about": name, "algorithm": algorithm, "list": text(given), "report": text(report)})

    lists.check, lists.settings = keep, {}
    with harness.folder():
        lists.files()
        for table in (lists.sizes, lists.lines, lists.longest_lines, lists.lists, lists.both_forms, lists.ends):
            table()
        for size in (65_537, 1_048_576):
            lists.too_long_lines(size)
        for algorithm, words, digits, written, report in lists.forms():
            keep(" ".join([algorithm, *words]), algorithm, b"".join(written), report)
            for (name, _, _), line in zip(lists.NAMES, written):
                lines.append({"algorithm": algorithm, "digest": text(bytes.fromhex(digits.decode())),
                              "name": text(name), "tag": "--tag" in words, "line": text(line)})
        return {"files": files_here(), "lists": found, "lines": lines}


def random_rows(count, seed, program):
    source, found = random.Random(seed), []
    with harness.folder():
        files = random_lists.make_files(source)
        for at in range(count):
            kind = source.choice(list(random_lists.LENGTHS))
            lines = [random_lists.random_line(source, kind, files) for _ in range(random_lists.LINES_A_LIST)]
            given = b"\n".join(lines) + source.choice([b"", b"\n"])
            if program:
                report = harness.run(program, ["check", "-a", kind, "-"], given).out
            else:
                _, report, _ = random_lists.report(given.removesuffix(b"\n").split(b"\n"), kind)
            found.append({"about": f"random list {at} of seed {seed}", "algorithm": kind, "list": text(given),
                          "report": text(report)})
        return {"files": files_here(), "lists": found, "lines": []}


def main():
    count, seed, *words = harness.arguments(2)
    program = os.path.abspath(words[0]) if words else None
    print(json.dumps(rows()))
    print(json.dumps(random_rows(int(count), int(seed), program)))


if __name__ == "__main__":
    main()

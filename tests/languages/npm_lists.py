#!/usr/bin/env python3
"""Lists by the package of npm: tests/program/lists.py and random_lists.py, with the package in the place of the
program. Where they make the program's reads short, the package gets lists in pieces of that size. The program itself
has to print the same.
usage: tests/languages/npm_lists.py PROGRAM PACKAGE [LINES]    PACKAGE is the folder of the package, with its module;
                                                  LINES, of random lists, is 5,000 where it is not named
"""

import base64
import json
import os
import re
import runpy
import shutil
import subprocess
import sys

sys.path.append(os.path.join(os.path.dirname(os.path.realpath(__file__)), ".."))
sys.path.append(os.path.join(os.path.dirname(os.path.realpath(__file__)), "../program"))

import harness
import tables

STANDS_IN = f"{harness.HERE}/languages/npm_lists.mjs"


# what is said of malformed lines, of which the package tells only whether they are untagged
LOOKING = ("MD5", "SHA-1", "mark", "signed", "no name", "other -a", "no entry")
LOOKS = b"|".join(re.escape(tables.text(f"{{{name}}}")) for name in LOOKING)


def seen(run):
    """A run without what is said of malformed lines."""
    return run._replace(err=re.sub(rb"(?m)^sums: -: (?:%b)\n" % LOOKS, b"", run.err))


class Package:
    """A Node for each folder, which answers as the program would, and the program beside it."""

    def __init__(self, program, package):
        self.program = program
        self.package = os.path.abspath(package)
        self.run_program = harness.run
        self.nodes = {}

    def node(self):
        """The Node that works in the folder."""
        folder = os.getcwd()
        if folder not in self.nodes:
            words = ["node", STANDS_IN, self.package]
            self.nodes[folder] = subprocess.Popen(words, stdin=subprocess.PIPE, stdout=subprocess.PIPE, cwd=folder)
        return self.nodes[folder]

    def run(self, _, words, given=b"", env=None):
        """In place of harness.run."""
        node = self.node()
        asked = {
            "words": [word.decode() if isinstance(word, bytes) else word for word in words],
            "given": base64.b64encode(given).decode(),
            "short": int((env or {}).get("SHORT", 0)),
        }
        node.stdin.write(json.dumps(asked).encode() + b"\n")
        node.stdin.flush()
        answer = json.loads(node.stdout.readline())
        run = harness.Run(answer["status"], answer["out"].encode(), answer["err"].encode())
        program = self.run_program(self.program, words, given)
        harness.same("beside the program", seen(run), seen(program))
        return run

    def end(self):
        """Ends each Node."""
        for node in self.nodes.values():
            node.communicate()


def ran(script, *words):
    """Runs a script of tests/program with the package in the place of the program, and returns its status."""
    sys.argv = [script, shutil.which("node"), *words]
    try:
        runpy.run_path(f"{harness.HERE}/program/{script}", run_name="__main__")
    except SystemExit as end:
        return end.code
    return 0


def main():
    package, *lines = harness.arguments(2)[1:]
    stand_in = Package(harness.program(), package)
    harness.run = stand_in.run
    try:
        statuses = [ran("random_lists.py", "digests", *(lines or ["5000"])), ran("lists.py", "digests")]
    finally:
        stand_in.end()
    return 1 if any(statuses) else 0


sys.exit(main())

#!/usr/bin/env python3
"""Runs the program with each of its calls of read, write, open, lseek and close failed in turn, under several
errors, and with reads and writes of one byte, of 7, of 4,096 and about a block. A digest or an OK that is wrong, a line
that the usual run does not print, a status that is not documented, or a fault that is not told is a failure. The runs
are those of runs.tsv, and one with each other option; the rows of failed.tsv say the very answer where one call fails,
and those of rows/ answer as they say with short reads and writes too.
usage: tests/program/calls.py PROGRAM
"""

import errno
import os
import re
import sys

sys.path.append(os.path.join(os.path.dirname(os.path.realpath(__file__)), ".."))

import harness
import tables

ERRORS = {
    "read": [errno.EIO, errno.EINTR, errno.EISDIR],
    "write": [errno.ENOSPC, errno.EIO, errno.EPIPE],
    "open": [errno.ENOENT, errno.EACCES, errno.ENOTDIR, errno.ELOOP, errno.EMFILE, errno.ENOMEM],
    "close": [errno.EIO, errno.EINTR],
    "lseek": [errno.ESPIPE, errno.EINVAL],
}
SIZES = (1, 7, 4096)
ABOUT_A_BLOCK = (63, 64, 65)
SUMMARY = rb"sums: (.+: )?\d+ OK, \d+ failed, \d+ missing, \d+ unreadable, \d+ too long, \d+ malformed, \d+ skipped"
# what is said of a list of one file that is not there
ALL_MISSING = rb"sums: .+: " + re.escape(tables.text("{all missing}"))


def fault(call, error):
    """The whole text of a fault that is told of such a failure."""
    if call == "write":
        return rb"sums: cannot write"
    if (call, error) == ("open", errno.ENOMEM):
        return rb"sums: out of memory"
    return rb"sums: .+: no bytes there" if (call, error) == ("lseek", errno.EINVAL) else rb"sums: .+: cannot read"


def verdict(call, error):
    """What a report says of a file of which a call failed so."""
    return b": MISSING" if (call, error) == ("open", errno.ENOENT) else b": UNREADABLE"


def is_line_of(line, wanted, verdict):
    """A report's line may have this for its verdict."""
    name = wanted.rpartition(b": ")[0]
    return line == wanted or (name and line == name + verdict)


def follows(lines, wanted, verdict, is_share):
    """Each line is one of those wanted, in their order, and at most one is left out between. In a share an empty line
    stands for the one of a file that has none."""
    left = list(wanted)
    for line in lines:
        while left and not is_line_of(line, left[0], verdict) and not (is_share and line == b""):
            left.pop(0)
        if not left:
            return False
        left.pop(0)
    return True


def complaint(usual, got, call, error, is_share):
    """What is wrong with a run in which one call failed so, or None."""
    if got.status not in (0, 1, 2, 3):
        return f"status {got.status}"
    *lines, rest = got.out.split(b"\n")
    *wanted, _ = usual.out.split(b"\n")
    if not follows(lines, wanted, verdict(call, error), is_share):
        return "a line that the usual run does not print"
    if rest and got.out != usual.out and not (got.status == 3 and usual.out.startswith(got.out)):
        return "a line that is cut, and no status 3"
    # by this error the system says that nothing stands at a place, and there a share of parts ends
    if is_share and (call, error) == ("lseek", errno.EINVAL) and got.err == usual.err:
        is_beginning = got.status == usual.status and usual.out.startswith(got.out)
        return None if is_beginning else "other lines before the end"
    if got.out != usual.out and got.status in (0, usual.status) and b": UNREADABLE\n" not in got.out:
        if got.err == usual.err and b": MISSING\n" not in got.out:
            return "another output, and no fault told"
    if got.status == 3 and not got.err.endswith((b"sums: cannot write\n", b"sums: out of memory\n")):
        return "status 3 without its fault"
    told = set(got.err.split(b"\n")) - set(usual.err.split(b"\n")) - {b""}
    kinds = [fault(call, error), SUMMARY, *([ALL_MISSING] if b": MISSING\n" in got.out else [])]
    if not all(re.fullmatch(rb"|".join(kinds), line) for line in told):
        return "a fault that is another's"
    untold = set(usual.err.split(b"\n")) - set(got.err.split(b"\n"))
    # where the usual run tells a fault, the failed call's may come in its place
    if got.out == usual.out and got.status == usual.status and len(told) > len(untold):
        # the read that would tell a list's end may fail after all of its lines were reported
        if call != "read" or not all(line.endswith(b": cannot read") for line in told):
            return "a fault told, and nothing wrong with the run"
    if got.status == 0 and got.out != usual.out:
        return "status 0 with another output"
    return None


class Failing:
    """The program with calls that fail."""

    def __init__(self, program):
        self.program, self.library = program, harness.preloaded("fail_call")
        self.failed = dict.fromkeys(ERRORS, 0)

    def run(self, words, given, **settings):
        loaded = {"LD_PRELOAD": self.library, **settings} if settings else {}
        return harness.run(self.program, words, given, env={**os.environ, **loaded})

    def each(self, name, words, given):
        """Each call fails in turn, under each of its errors."""
        usual = self.run(words, given)
        complaints, runs = [], 0
        for call, error in [(call, error) for call, errors in ERRORS.items() for error in errors]:
            number = 1
            while True:
                settings = {"CALL": call, "CALL_NUMBER": str(number), "CALL_ERROR": str(error)}
                got = self.run(words, given, CALL_COUNT="count", **settings)
                with open("count") as file:
                    if int(file.read()) < number:
                        break
                text = complaint(usual, got, call, error, b"--share" in words)
                if text:
                    complaints.append(f"{call} {number} with {errno.errorcode[error]}: {text}")
                self.failed[call] += 1
                runs, number = runs + 1, number + 1
        print(f"{name}: {runs} runs, {len(complaints)} wrong")
        harness.judge(name, runs > 0 and not complaints, *complaints[:5])

    def short(self, name, words, given, wanted, sizes=SIZES):
        """Each read and each write is of so many bytes at most."""
        for size in sizes:
            harness.same(f"{name}, {size} bytes at a time", self.run(words, given, SHORT=str(size)), wanted)

    def one(self, row, failure):
        """One call fails, under each of the errors of the row."""
        settings = {"CALL": failure.call, "CALL_NUMBER": str(failure.number)}
        if failure.reads:
            settings["SHORT"] = failure.reads
        for name in failure.errors:
            got = self.run(row.words, row.given, CALL_ERROR=str(getattr(errno, name)), **settings)
            harness.same(f"{row.place}: {row.name}, {name}", got, row.answer)


def main():
    program = harness.program()
    with harness.folder():
        failing = Failing(program)
        tables.make_files()
        for name, words, given in tables.runs():
            failing.each(name, words, given)
            failing.short(name, words, given, failing.run(words, given), SIZES + ABOUT_A_BLOCK)
        harness.judge("each call is made, and failed", all(failing.failed.values()), failing.failed)
        for row, failure in tables.failed_rows():
            failing.one(row, failure)
        for row in tables.rows():
            failing.short(row.name, row.words, row.given, row.answer)
    harness.finish()


main()

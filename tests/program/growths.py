#!/usr/bin/env python3
"""Refuses the allocations of the program, and of the calls of crates/memory_tests, each in turn, until a run meets
none that is refused. A run has to end as out of memory, with a beginning of its usual output and faults; where one
allocation alone is refused, it may also end just as it does with ample memory. A call that takes no memory ends so
where each allocation is refused. Where strace is installed, the system's calls for memory, brk and mmap, are failed
in the same way. The program's runs are those of runs.tsv, and one with each other option.
usage: tests/program/growths.py PROGRAM [CALLS]
"""

import os
import shutil
import subprocess
import sys
from functools import partial

sys.path.append(os.path.join(os.path.dirname(os.path.realpath(__file__)), ".."))

import harness
import tables

TOLD = b"sums: out of memory\n"
# A buffer by its size, and a run that reads nothing where that one is refused.
BUFFERS = [
    ("the buffers of the streams, hash", 131200, "hash -a sha256"),
    ("the buffers of the streams, check", 131200, "check -a sha256 -"),
    ("the buffer of the list's line", 65536, "check -a sha256 -"),
]

# How the system's calls for memory fail: brk has no error, and answers an end below the one asked for.
NO_MEMORY = {"brk": "retval=0", "mmap": "error=ENOMEM"}

# What the calls print with ample memory. The tag is that of RFC 4231, case 1, the key that of RFC 5869,
# case 1, the others are those of hashes.tsv.
ENTRY = tables.text(r"\\{sha256}  a\\\\b\\n\n")
REPORT = tables.text("{report}")
DIGESTS = b"".join(bytes.fromhex(each["abc"]) for each in tables.HASHES.values())
BLAKE2S = tables.text(r"{blake2s}  -\n")
TAG = b"b0344c61d8db38535ca8afceaf0bf12b881dc200c9833da726e9376c2e32cff7  -\n"
KEY = b"3cb25f25faacd57a90434f64d0362f2a2d2d0a90cf1a5a4c5db02d56ecc4c5bf34007208d5b887185865\n"
# The statuses of crates/memory_tests where memory is refused: in the call, in the list that grows with
# what it writes, and for the files, before the call.
IN_CALL, IN_OUTPUT, BEFORE_CALL = 3, 4, 5
# A call, what it prints, and how many of its allocations end it by which status: a line takes memory for
# its name, a check for the buffer of a line and for three names, and its list grows four times.
CALLS = [
    ("parse_line", ENTRY, {IN_CALL: 1}),
    ("check", REPORT, {IN_CALL: 4}),
    ("check, VecSink", REPORT, {IN_CALL: 4, IN_OUTPUT: 4}),
]
# A run of the program over memory, what it prints, and its status.
WHOLE_RUNS = [
    ("run hash", BLAKE2S, 0),
    ("run check", REPORT, 1),
    ("run check, one line", b"abc.txt: OK\n", 0),
    ("run mac", TAG, 0),
    ("run kdf", KEY, 0),
]
WITHOUT_MEMORY = [
    ("parse_line, skipped", b"skipped\n"),
    ("parse_line, malformed", b"malformed\n"),
    ("parse_line, LF in a comment", b"malformed\n"),
    ("parse_line, LF in a name", b"malformed\n"),
    ("pump", DIGESTS),
    ("digest_of", DIGESTS),
    ("pieces", DIGESTS),
]


class Run(harness.Run):
    """A run, which knows how often it allocated, where that was counted."""

    allocations = None


def run(program, words, given, under=(), **settings):
    """A run whose allocations are counted, and refused as the settings say, or one under another program."""
    env = {} if under else {"LD_PRELOAD": "./refuse_growth.so", "REFUSE_COUNT": "count", **settings}
    stream = {"given": given} if isinstance(given, bytes) else {"given": None, "stdin": given}
    first, *rest = [*under, program, *words]
    got = Run(*harness.run(first, rest, env=env, **stream))
    if not under:
        with open("count") as file:
            got.allocations = int(file.read())
    return got


def is_out_of_memory(usual, got):
    """A run of the program that tells that memory ran out, after a beginning of what it does else."""
    if got.status != 3 or not got.err.endswith(TOLD) or not usual.out.startswith(got.out):
        return False
    return usual.err.startswith(got.err[: -len(TOLD)])


def is_refused_call(usual, got):
    """A call that says what was wanting, after a beginning of what it prints else."""
    if got.status == BEFORE_CALL:
        return not got.out and not got.err
    return got.status in (IN_CALL, IN_OUTPUT) and usual.out.startswith(got.out) and not got.err


def is_refused_run(usual, got):
    return is_out_of_memory(usual, got) or (got.status == BEFORE_CALL and is_refused_call(usual, got))


def ended(make_run, is_refused, **settings):
    """The statuses of the runs with one refusal after another, up to a run that meets none, and what is
    wrong with them."""
    usual, statuses, complaints = make_run(), [], []
    if is_refused(usual, usual):
        complaints.append(f"with ample memory: {usual}")
    while True:
        number = len(statuses) + 1
        got = make_run(REFUSE=str(number), **settings)
        if got.allocations < number:
            if got != usual:
                complaints.append(f"none refused: {got}")
            return statuses, complaints
        # behind the last one no other is refused, as where the settings refuse one alone
        is_alone = not settings or got.allocations == number
        if not is_refused(usual, got) and not (is_alone and got == usual):
            complaints.append(f"allocation {number} refused: {got}")
        statuses.append(got.status)


def judged(name, complaints, text):
    print(f"{name}: {text}, {len(complaints)} wrong")
    harness.judge(name, not complaints, *complaints[:5])


def refused(name, make_run, is_refused, wanted=None):
    """Each allocation is refused, alone and with all that come after it."""
    statuses, complaints = ended(make_run, is_refused)
    rest, others = ended(make_run, is_refused, REFUSE_REST="1")
    complaints += [f"and all after it: {text}" for text in others]
    if IN_CALL not in statuses or IN_CALL not in rest:
        complaints.append("no refusal was told")
    for status, number in (wanted or {}).items():
        if statuses.count(status) != number:
            complaints.append(f"{statuses.count(status)} runs with status {status}, wanted {number}")
    judged(name, complaints, f"{len(statuses)} and {len(rest)} refusals")


def gives(name, make_run, status, out):
    harness.same(f"{name}, with ample memory", make_run(), (status, out, b""))


def takes_none(name, make_run, out):
    got = make_run(REFUSE="1", REFUSE_REST="1")
    harness.same(f"{name}, without memory", (*got, got.allocations), (0, out, b"", 0))


def unread(name, program, size, words):
    """Without an allocation of so many bytes, all of the input is left to read."""
    with open("list", "rb") as given:
        got = run(program, words.split(), given, REFUSE_SIZE=str(size))
        place = os.lseek(given.fileno(), 0, os.SEEK_CUR)
    harness.same(name, (*got, place), (3, b"", TOLD, 0))


def traced(*failing):
    """strace, which writes the calls for memory into a file, and the program's first call of its own."""
    faults = [word for fault in failing for word in ("-e", f"inject={fault}")]
    return [shutil.which("strace"), "-qq", "-o", "trace", "-e", "trace=brk,mmap,rt_sigaction", *faults]


def calls_for_memory(program, words, given):
    """The calls for memory by their names, and how many of them the loader makes."""
    run(program, words, given, under=traced())
    with open("trace") as file:
        names = [line.partition("(")[0] for line in file]
    first = names.index("rt_sigaction")
    return [name for name in names if name in NO_MEMORY], first


def without_system(name, program, words, given):
    """The system gives no memory, at one of the program's own calls or from there on."""
    usual = run(program, words, given, under=traced())
    calls, first = calls_for_memory(program, words, given)
    complaints = []
    for place in range(first, len(calls)):
        before = {call: calls[:place].count(call) for call in NO_MEMORY}
        call = calls[place]
        one = run(program, words, given, under=traced(f"{call}:{NO_MEMORY[call]}:when={before[call] + 1}"))
        if one != usual and not is_out_of_memory(usual, one):
            complaints.append(f"{call} {before[call] + 1} failed: {one}")
        faults = [f"{call}:{NO_MEMORY[call]}:when={before[call] + 1}+" for call in NO_MEMORY]
        rest = run(program, words, given, under=traced(*faults))
        if not is_out_of_memory(usual, rest):
            complaints.append(f"{faults} failed: {rest}")
    if first == len(calls):
        complaints.append("no call for memory")
    judged(f"{name}, by the system", complaints, f"{2 * (len(calls) - first)} runs")


def can_trace():
    """Whether strace is installed and may trace."""
    strace = shutil.which("strace")
    return strace and subprocess.run([strace, "-qq", "-o", "trace", "true"], capture_output=True).returncode == 0


def of_program(program):
    runs = list(tables.runs())
    for name, words, given in runs:
        refused(name, partial(run, program, words, given), is_out_of_memory)
    for name, size, words in BUFFERS:
        unread(name, program, size, words)
    if not can_trace():
        print("strace is not there to fail the system's calls for memory")
        return
    for name, words, given in runs:
        without_system(name, program, words, given)


def of_calls(calls):
    def named(name):
        return partial(run, calls, [], name.encode())

    for name, out, wanted in CALLS:
        gives(name, named(name), 0, out)
        refused(name, named(name), is_refused_call, wanted)
    for name, out, status in WHOLE_RUNS:
        gives(name, named(name), status, out)
        refused(name, named(name), is_refused_run)
    for name, out in WITHOUT_MEMORY:
        takes_none(name, named(name), out)


def main():
    program = harness.program()
    _, *others = harness.arguments(1)
    calls = os.path.abspath(others[0] if others else f"{harness.HERE}/../crates/memory_tests/out/memory_tests")
    if not os.access(calls, os.X_OK):
        print(f"there is no {calls}\n0 passed, 1 failed")
        return 1
    with harness.folder():
        harness.preloaded("refuse_growth")
        tables.make_files()
        of_program(program)
        of_calls(calls)
    return harness.finish()


sys.exit(main())

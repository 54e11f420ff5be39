#!/usr/bin/env python3
"""Compares sums-parallel with sums: lines, messages in any order and the status, for names, lists and faults of every
kind, by few shares and many. Then what it leaves to one run, its own words, and what it was begun with: streams that
are closed or take nothing, other files as standard input, few descriptors and processes, and little memory.
usage: tests/program/parallel.py PROGRAM
"""

import contextlib
import os
import resource
import shutil
import signal
import subprocess
import sys

sys.path.append(os.path.join(os.path.dirname(os.path.realpath(__file__)), ".."))

import harness
import tables
from fronts import FRONT, MIB, SHARES, by_shell, compare, content, faulty, fill, front, in_order
from harness import judge, same

NAMES = ["plain", "a b", " a  b ", 'it\'s "so"', "$(touch PWNED)", "`touch PWNED`", "x;touch PWNED;", "a{}b", "{}",
         "-dash", "--help", "--name=x", "a\nb", "a\rb", "a\\b", "\\n", "*", "~", "#x", "%s", "größe", "\x1b[31m",
         "\u202eright", "-a", "x\nline 3: MALFORMED", "line 3", "sums: 1 OK, ", "x (y) = z", "name 3: bad name"]
FEW = [f"f{number}" for number in range(40)]
# the name of a list, with what standard error escapes
ODD = "list\r\n\x1b[1m\\\x9b\u202e"
LISTS = ("good", "tagged", "mixed", "none", "comments", "no-end", "one", "endless", ODD, "missing", "folder", "",
         "/dev/null")
KEYED = ["-a", "hmac-sha256", "--key-file", "the key"]
WAYS = (2, 13)
# Lines of a shell with files that are open already, and with pipes that words name.
SHARED = (
    "cat more | sums hash -a blake3 f1 stdin f2 stdin more",
    "sums hash -a blake3 f1 /dev/fd/7 more 7< f2",
    "cat more > pipe & sums hash -a blake3 f1 pipe more f2",
    "sums hash -a sha256 --files0-from names-stdin < more",
    "sums hash -a sha256 --files0-from /dev/stdin < names-stdin",
    "sums check -a sha256 --summary good list-stdin good list-stdin < f1",
    "sums check -a sha256 /dev/stdin < good",
    "cat 'the key' | sums check -a hmac-sha256 --key-file /dev/stdin tags",
    "sums check -a hmac-sha256 --key-file /dev/stdin --summary tags tags-mixed < 'the key'",
    "{ head -c 10 > told; sums check -a sha256 --summary; cat; } < mixed",
    "while read -r line; do sums check -a sha256 one; echo $line; done < f1",
    "cp mixed told; sums check -a sha256 0>> told",
    "cat f1 | sums check -a sha256 list-stdin /dev/stdin",
    "sums hash -a sha256 --files0-from /dev/stdin < /dev/null",
    "sums check -a sha256 < /dev/null; sums check -a sha256 < list-stdin",
    "sums hash -a sha256 /dev/null more f1",
    "cat key > pipe & sums mac -a blake2b --key-file=pipe f1 f2 more")
# Pipes and devices that a line of a list names: who shares the list opens none.
REFUSED = (
    "cat f1 | sums check -a sha256 --summary list-stdin",
    "sums check -a sha256 list-out > told; status=$?; cat told; exit $status",
    "sums check -a sha256 list-pipe",
    "sums check -a sha256 --summary list-null",
    "cat more | sums hash -a sha256 --files0-from names-stdin")


def files():
    for number, name in enumerate(NAMES):
        fill(name, number * 100)
    for name in FEW:
        with open(name, "w", encoding="utf-8") as file:
            file.write(name)
    for name, size in (("just", 32 * MIB), ("less", 31 * MIB), ("more", 32 * MIB + 1), ("large", 70 * MIB + 12345),
                       ("large\n\\{}", 33 * MIB), ("-large", 48 * MIB), ("-", 5000), ("key", 32)):
        fill(name, size)
    os.mkdir("folder")
    os.symlink("large", "link")
    os.symlink("nothing", "dangling")
    os.symlink("/dev/stdin", "stdin")
    os.mkfifo("pipe")


def mixed_with(lines, others, each):
    """Lines, and before every so many of them one of the others."""
    for at in range(0, len(lines), each):
        yield from (others[at // each % len(others)], *lines[at:at + each])


def lists(program):
    good = harness.run(program, ["hash", "-a", "sha256", "--", *NAMES, *FEW, "just"]).out
    tagged = harness.run(program, ["hash", "-a", "blake3", "--tag", "--", *NAMES, *FEW]).out
    with open("the key", "wb") as file:
        file.write(b"secret\n")
    tags = harness.run(program, ["mac", *KEYED, "--", *NAMES, *FEW]).out
    lines, line = good.splitlines(keepends=True), good.split(b"  ")[0]
    mixed = b"".join(mixed_with(lines, [
        b"\n", b"# a comment\n", b"no line\n", b"0" * 64 + b"  f1\n", b"1" * 64 + b"  missing\n",
        b"2" * 64 + b"  folder\n", lines[7][:-1] + b"\r\n", b"x" * 70000 + b"\n", b"#" * 70000 + b"\n", b"a\0b\n",
        b"3" * 64 + b"  a\xff\n", b"\\" + b"4" * 64 + b"  a\\x\n"], 5))
    keyed = b"".join(mixed_with(tags.splitlines(keepends=True), [
        b"\n", lines[0], b"no tag\n", b"SHA256 (f1) = " + b"5" * 64 + b"\n", b"6" * 64 + b"  missing\n"], 5))
    names = [*map(os.fsencode, NAMES), b"", b"-", b"a\xff", b"x" * 65537, b"missing", b"folder", b"large",
             *map(os.fsencode, FEW), b"", b"-", b"b\xff", b"y" * 200000, b"more", b"missing"]
    one = lines[0]
    for name, data in (("good", good), ("tagged", tagged), ("mixed", mixed), ("none", b""), ("comments", b"#\n\n"),
                       ("no-end", good[:-1]), ("one", one), ("endless", b"y" * 300000), (ODD, mixed[:5000]),
                       ("tags", tags), ("tags-mixed", keyed), ("tags-tagged", tags + tagged),
                       ("nearly", good + tagged[:tagged.index(b"\n") + 1]),
                       ("names", b"\0".join(names) + b"\0"), ("names-no-end", b"\0".join(names)),
                       ("names-stdin", b"f1\0stdin\0f2\0more\0f3\0"),
                       ("list-stdin", one + line + b"  stdin\n\nx\nSHA256 (stdin) = " + line + b"\n" + one),
                       ("list-pipe", one + line + b"  pipe\r\n" + one),
                       ("list-out", one + line + b"  /dev/stdout\n" + one),
                       ("list-null", one + line + b"  /dev/null\n" + one)):
        with open(name, "wb") as file:
            file.write(data)


# ---- the cases: a name, the words, and standard input


def of_files():
    for alg in tables.HASHES:
        yield f"every name by {alg}", ["hash", "-a", alg, "--", *NAMES], b""
    yield "every name by a mac", ["mac", *KEYED, "--", *NAMES], b""
    yield "the names before the options", ["hash", *[n for n in NAMES if n[0] != "-"], "-ablake2b", "-l20"], b""
    yield "large ones among them", ["hash", "-a", "blake3", "f1", "large", *FEW, "more", "link", "--", "-large",
                                    "large\n\\{}"], b""
    yield "the same file often", ["hash", "-a", "blake3", *["more"] * 3, *["f1"] * 40], b""
    yield "long lines", ["hash", "-a", "blake3", "-l", "3000000", "f1", "missing", "f2"], b""
    yield "what is no file", ["hash", "-a", "blake3", "f1", "missing", "folder", "dangling", "f2", "f1/x", *FEW,
                              "gone"], b""
    yield "files that are all gone", ["hash", "-a", "sha256", *[f"gone{number}" for number in range(60)]], b""
    yield "bad names", ["hash", "-a", "blake3", "f1", "", "x" * 65537, "f2", os.fsdecode(b"a\xff"), "large"], b""
    yield "standard input among them", ["hash", "-a", "blake3", "f1", "-", "f2", "-"], b"given"
    for words in ([], ["--tag"], ["-l", "99", "--seek=1000"], ["--parts", "64"], ["--progress"], ["-l", "0"],
                  ["--none"], ["--verify", "00"], ["--raw"], ["--help"], ["-l"]):
        yield f"{words}", ["hash", "-a", "blake3", "f1", "more", *words], b""


def of_names():
    for name in ("names", "names-no-end", "none", "missing", "folder", "", "endless", "f1", "-x", "--tag", "--"):
        yield f"--files0-from {name}", ["hash", "-a", "blake3", "--files0-from", name], b""
    for name in ("names", "names-no-end", "none"):
        yield f"--files0-from - < {name}", ["hash", "-a", "sha256", "--files0-from=-"], content(name)
    yield "--files0-from and names", ["hash", "-a", "sha256", "--files0-from", "names", "f1"], b""
    gone = b"".join(b"gone%d\0" % number for number in range(5000))
    yield "5,000 messages", ["hash", "-a", "sha256", "--files0-from=-"], gone
    yield "names from themselves", ["hash", "-a", "sha256", "--files0-from", "-"], b"f1\0stdin\0f2\0f3"


def of_lists():
    for path in LISTS:
        for words in ([], ["-a", "sha256", "--summary"]):
            yield f"check {path} {words}", ["check", *words, "--", path], b""
    yield "check several", ["check", "-a", "sha256", "--summary", "good", "missing", ODD, "none", "mixed"], b""
    yield "check good ones", ["check", "-a", "sha256", "--summary", "good", ODD, "none", "mixed", *["one"] * 20], b""
    yield "check by another hash", ["check", "-a", "blake3", "nearly", "good"], b""
    for path in ("tags", "tags-mixed", "tags-tagged", "good", "none", "missing"):
        yield f"check {path} under a key", ["check", *KEYED, "--summary", path], b""
    for words in (["--key", "736563726574"], [], ["--key-file", "missing"], ["--key-file=the key", "-l", "16"],
                  ["--key-file", "folder"], ["--key-file", "/dev/stdin"]):
        yield f"check under a key, {words}", ["check", "-a", "hmac-sha256", *words, "tags"], b"secret\n"
    for name in ("mixed", "none", "good"):
        yield f"check standard input, {name}", ["check", "-a", "sha256", "--summary"], content(name)
    yield "check - and more", ["check", "-a", "sha256", "one", "-", "good"], content("mixed")
    yield "a list from itself", ["check", "-a", "sha256"], content("one") + b"0" * 64 + b"  stdin\n" + content("one")
    for words in (["-a", "md5"], ["-l", "5"], ["--report", "good"], ["--share", "1/3"]):
        yield f"check with {words}", ["check", *words, "good"], b""


def shared(program):
    """Pipes and open files are read as by one run, or refused."""
    for text in SHARED:
        same(text, in_order(by_shell(program, ["-j3"], text)), in_order(by_shell(program, None, text)))
    for text in REFUSED:
        run = by_shell(program, 3, text)
        judge(f"{text}: refused", run.status == 1 and (b": UNREADABLE\n" in run.out or b": cannot read\n" in run.err)
              and b"FAILED" not in run.out and run.out.count(b"\n") > 1, run)


# ---- which runs there are


def one_runs(program):
    """Words that are left to one run, and the number of runs of others."""
    path = faulty(program, f'echo $1 >> "{os.path.abspath("begun")}"')
    check, parts = ["check", "-a", "sha256", "good"], ["join", *["part"] * 4]
    for own, words, wanted in ((["-j1"], check, ["check"]), (["-j3"], check, ["check"] * 5),
                               ([], ["hash", "-a", "sha256", *FEW], ["hash"]),
                               ([], ["hash", "-a", "sha256", "f1", "less"], ["hash"]),
                               (["-j", "3"], ["hash", "-a", "sha256", "f1", "just"], ["hash"] * 4),
                               (["-j9"], ["hash", "-a", "sha256", "f1", "just"], ["hash"] * 10),
                               (["-j3"], ["hash", "-a", "sha256", "--files0-from", "names"], ["hash"] * 4),
                               (["-j3"], ["hash", "-a", "sha256", *["just"] * 3, *FEW * 30], ["hash"]),
                               (["-j3"], ["hash", "-a", "sha256", *FEW * 30, "just"], ["hash"] * 4),
                               (["-j3"], ["hash", "-a", "blake3", "just"], parts),
                               (["-j3"], ["hash", "-a", "blake3", "--", "link"], parts),
                               (["-j3"], ["hash", "-a", "blake3", "less"], ["hash"]),
                               (["-j3"], ["hash", "-a", "blake3", "--tag", "just"], ["hash"] * 4),
                               (["-j3"], ["part", "-a", "blake3", "--each", "8192", "large"], ["part"])):
        open("begun", "wb").close()
        run = front(path, own, words)
        same(f"the runs of {own} {words[:5]}", sorted(content("begun").decode().split()), wanted)
        same(f"the answer of {own} {words[:5]}", in_order(run), in_order(harness.run(program, words)))
    begun = f'echo >> "{os.path.abspath("begun")}"; exec true'
    for own in [], ["-j", "2"]:
        open("begun", "wb").close()
        front(faulty(program, begun), own, check)
        same(f"the runs of {own}", len(content("begun")), 4 if own else 2 * len(os.sched_getaffinity(0)) + 3)
    for words in (["none"], ["join", "-a", "blake3", "f1"], ["hash"], ["hash", "-a", "blake3"], ["hash", "--help"]):
        same(f"{words}", front(program, [], words), harness.run(program, words))


def own_words(program):
    """The front's own words, right and wrong."""
    for own, text in ((["-j", "0"], b"-j: out of range"), (["-j", "1" * 5], b"-j: out of range"),
                      (["-jx"], b"-j: out of range"), (["-j="], b"-j: out of range"), (["-j", ""], b"-j: out of range"),
                      (["-j\u0663"], b"-j: out of range"), (["-j"], b"-j: needed"), ([], b"COMMAND: needed"),
                      (["-x"], b"-x: no option"), (["--\x1b\x9b\u202e=1"], b"--??????=1: no option"),
                      (["-S", "4/host"], b"-S: no option any more; docs/SCALE.md"),
                      (["--by=srun"], b"--by=srun: no option any more; docs/SCALE.md"),
                      (["--block", "1"], b"--block: no option any more; docs/SCALE.md")):
        run = front(program, own, ["hash", "f1"] if len(own) and own != ["-j"] else [])
        judge(f"{own}: refused", run.status == 2 and not run.out and run.err.startswith(b"sums-parallel: " + text), run)
    text = front(program, ["--help"], [])
    judge("the help", text.status == 0 and not text.err and max(map(len, text.out.splitlines())) <= 80
          and b"Usage: " in text.out, text)
    same("-h", front(program, ["-h"], []), text)
    for word in ("-V", "--version"):
        same(word, front(program, [word], []), harness.run(program, ["--version"]))
    for words in ["check", "good"], ["hash", "f1"]:
        run = front("/nothing/there", [], words)
        judge(f"no sums, {words}", run.status == 127 and run.err.endswith(b": /nothing/there: not found\n"), run)


def which_program():
    """Where SUMS names none, the program beside sums-parallel is run, and where none stands there, that on the path;
    also if a link names sums-parallel, or no folder."""
    for place in ("beside", "path", "named", "links"):
        os.mkdir(place)
        with open(f"{place}/sums", "w", opener=lambda name, flags: os.open(name, flags, 0o755)) as file:
            file.write(f"#!/bin/sh\necho {place}\n")
    shutil.copy(FRONT, "beside")
    shutil.copy(FRONT, ".")
    os.symlink("../beside/sums-parallel", "links/sums-parallel")
    path = {"PATH": os.path.abspath("path") + ":" + os.environ["PATH"]}
    for words, named, wanted in ((["beside/sums-parallel"], True, "named"), (["beside/sums-parallel"], False, "beside"),
                                 (["./sums-parallel"], False, "path"), (["links/sums-parallel"], False, "beside"),
                                 (["sh", "sums-parallel"], False, "path")):
        run = subprocess.run([*words, "hash", "-a", "sha256", "f1"], capture_output=True, check=False,
                             env={**path, **({"SUMS": os.path.abspath("named/sums")} if named else {})})
        same(f"the program of {words} is {wanted}", (run.returncode, run.stdout), (0, wanted.encode() + b"\n"))


# ---- what it was begun with


def streams(program):
    """Streams that are closed, that take nothing, or that are a folder."""
    for text in ("sums hash -a sha256 f1 missing f2", "sums check -a sha256 --summary mixed",
                 "sums hash -a sha256 --files0-from -"):
        for closing in ("<&-", ">&-", "2>&-", "<&- >&-", "<&- 2>&-", ">&- 2>&-", "<&- >&- 2>&-", "< /", "< folder"):
            same(f"{text} {closing}", by_shell(program, [], f"{text} {closing}"),
                 by_shell(program, None, f"{text} {closing}"))
    for text in ("sums hash -a sha256 f1 f2 just", "sums hash -a blake3 more", "sums check -a sha256 mixed"):
        run = by_shell(program, ["-j3"], f"{text} > /dev/full")
        judge(f"{text} > /dev/full", run.status == 3
              and run.err.endswith(b": No space left on device; lines are missing\n"), run)
        run = by_shell(program, ["-j3"], f"{{ {text}; echo $? >&2; }} | true")
        judge(f"{text} | true", run.err.endswith(b"3\n") and b": Broken pipe; lines are missing\n" in run.err, run)
    run = by_shell(program, ["-j3"], "sums check -a sha256 --summary mixed 2> /dev/full")
    same("messages that nobody takes", run.out, by_shell(program, None, "sums check -a sha256 mixed").out)
    same("messages that nobody takes: the status", run.status, 3)


def limited(limit, least):
    return lambda: resource.setrlimit(limit, (least, least))


def begun_with(program):
    """Ignored signals, few descriptors, little memory, no folder for temporary files, and a folder that is gone."""
    for words in (["check", "-a", "sha256", "--summary", "mixed"], ["hash", "-a", "sha256", "--files0-from", "names"]):
        wanted = in_order(harness.run(program, words))
        run = harness.run("bash", [FRONT, "-j4", *words], env={**os.environ, "SUMS": program},  # dash resets SIGCHLD
                          preexec_fn=lambda: signal.signal(signal.SIGCHLD, signal.SIG_IGN))
        same(f"SIGCHLD ignored: {words}", in_order(run), wanted)
        for number in (11, 12, 13, 14, 16, 20, 24, 30, 40):  # sh takes 11
            run = front(program, ["-j9"], words, preexec_fn=limited(resource.RLIMIT_NOFILE, number))
            said = run.status == 3 and b"sums-parallel: Too many open files; lines are missing\n" in run.err
            judge(f"{number} descriptors: {words}", in_order(run) == wanted or said, run)
        for mib in (8, 12, 20, 40, 150):
            run = front(program, ["-j9"], words, preexec_fn=limited(resource.RLIMIT_AS, mib * MIB))
            one = harness.run(program, words, preexec_fn=limited(resource.RLIMIT_AS, mib * MIB))
            judge(f"{mib} MiB of memory: {words}", in_order(run) in (wanted, in_order(one)) or run.status not in (0, 1)
                  and run.err, run)
    words = ["hash", "-a", "sha256", "--files0-from", "-"]
    for folder in ("/nothing", "folder"):
        run = harness.run(FRONT, ["-j3", *words], content("names"),
                          env={**os.environ, "SUMS": program, "TMPDIR": folder})
        same(f"TMPDIR={folder}", in_order(run), in_order(harness.run(program, words, content("names"))))
    run = by_shell(program, 3, "ulimit -f 1; cat names | sums hash -a sha256 --files0-from -")
    judge("a copy of names that is too large", run.status == 3 and not run.out
          and run.err == b"sums-parallel: File too large; lines are missing\n", run)
    script = "mkdir lost; cd lost; rmdir ../lost; sums hash -a sha256 \"$OLDPWD/f1\" \"$OLDPWD/just\""
    same("a folder that is gone", by_shell(program, ["-j3"], script)[:2], by_shell(program, None, script)[:2])
    os.mkdir("modules")
    for module in ("os", "signal", "itertools", "subprocess", "tempfile"):
        with open(f"modules/{module}.py", "w", encoding="utf-8") as file:
            file.write("raise SystemExit(99)\n")
    run = harness.run(SHARES, [program, "3", *words], content("names"), env={**os.environ, "PYTHONPATH": "modules"})
    same("modules of the user's", in_order(run), in_order(harness.run(program, words, content("names"))))


def few_processes(program):
    """Another user may begin so many processes: there is one run, or it is said that lines are missing."""
    words = ["check", "-a", "sha256", "--summary", "good"]
    os.mkdir("few")
    for script in FRONT, SHARES:
        shutil.copy(script, "few")

    def other():
        os.setgroups([])
        os.setgid(64321)
        os.setuid(64321)

    def limited_other():
        resource.setrlimit(resource.RLIMIT_NPROC, (number, number))
        other()
    try:
        wanted = in_order(harness.run(program, words, preexec_fn=other))
    except (subprocess.SubprocessError, OSError):
        print("few processes were not tried: only root begins the program for another user, who has to reach it")
        return
    for number in range(15, 0, -1):
        with contextlib.suppress(BlockingIOError):  # then sums-parallel itself is one too many
            run = harness.run(os.path.abspath("few/sums-parallel"), ["-j9", *words], timeout=100,
                              preexec_fn=limited_other, env={**os.environ, "SUMS": program})
            judge(f"{number} processes", in_order(run) == wanted or run.status not in (0, 1) and run.err, run)


def main():
    program = harness.program()
    # what began the tests may ignore signals, as a shell does behind `&`, and runs have that from it
    for number in (signal.SIGINT, signal.SIGHUP, signal.SIGQUIT):
        signal.signal(number, signal.SIG_DFL)
    with harness.folder():
        os.chmod(".", 0o755)
        files()
        lists(program)
        own_words(program)
        which_program()
        one_runs(program)
        for cases in (of_lists(), of_names(), of_files()):
            compare(program, WAYS, cases)
        for name in ("more", "large", "link", "large\n\\{}", "-large", "missing", "folder"):
            compare(program, [["-j3"]], [(f"a large file, {name!r}", ["hash", "-a", "blake3", "--", name], b"")])
        compare(program, [["-j3"]], [("an option that is a file", ["hash", "-a", "blake3", "-large"], b"")])
        shared(program)
        streams(program)
        begun_with(program)
        few_processes(program)
        judge("nothing that a name spells was run", not os.path.exists("PWNED"))
    harness.finish()


main()

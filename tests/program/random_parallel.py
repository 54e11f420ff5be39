#!/usr/bin/env python3
"""Compares random command lines of sums-parallel with one run of sums: lines, messages in any order, and the status.
Words, names, lists, files of names and standard input are random, and many are wrong. A release tries 10,000.
usage: tests/program/random_parallel.py PROGRAM [COUNT] [SEED]    COUNT is 300 where it is not named
"""

import os
import random
import subprocess
import sys

sys.path.append(os.path.join(os.path.dirname(os.path.realpath(__file__)), ".."))

import harness
import tables
from fronts import command, in_order

FILES = ["f0", "f1", "f2", "f3", "f4", "empty", "a b", " a", "größe", "a\\b", "a\nb", "-dash", "large", "-large",
         "x (y) = z"]
NONE = ["missing", "folder", "f0/x", "", "x" * 300, "dangling"]
OWN = ([], ["-j2"], ["-j", "3"], 2, 3, 5)  # words of sums-parallel, or a number of shares
WRONG = (["-x"], ["--tag=1"], ["-l"], ["--share", "0/1"], ["--help"], ["--raw"], ["--seek", "1"], ["--verify", "00"],
         ["--name", "x"], ["-"], ["--none"], ["-l", "99999"], ["--report", "names"])


def chosen(among, most):
    return [random.choice(among) for _ in range(random.randint(0, most))]


def names(most=8):
    return [name for name in chosen(FILES * 2 + NONE, most) if not name.endswith("large") or random.random() < 0.2]


def lines(program, digests):
    """A list of some lines, some of which are wrong."""
    text = b""
    for name in names(12):
        kind = random.random()
        if kind < 0.5 and name in digests:
            text += random.choice(digests[name])
        elif kind < 0.6:
            text += random.choice((b"\n", b"# comment\n", b"#\r\n", b"\r\n"))
        elif kind < 0.7:
            text += random.choice((b"no line\n", b"00  f0\n", b"x" * 70000 + b"\n", b"a\0b\n", b"\xff  f\n",
                                   b"\\" * 9 + b"\n"))
        else:
            text += b"%064x  %s\n" % (random.getrandbits(256), os.fsencode(name.replace("\n", "")))
    return text if random.random() < 0.8 else text[:-1]


def files(program):
    """The files, each with its lines by several hashes."""
    os.mkdir("folder")
    os.symlink("nothing", "dangling")
    for at, name in enumerate(FILES):
        with open(name, "wb") as file:
            file.write(os.urandom(0 if name == "empty" else 9000 if name.endswith("large") else 37 * at))
    digests = {name: [] for name in FILES}
    for words in (["hash", "-a", "sha256"], ["hash", "-a", "blake3"], ["hash", "-a", "sha256", "--tag"],
                  ["hash", "-a", "blake2b", "--tag"], ["mac", "-a", "hmac-sha256", "--key-file", "key"]):
        text = harness.run(program, [*words, "--", *FILES]).out.splitlines(keepends=True)
        for name, line in zip(FILES, text):
            digests[name].append(line)
    return digests


def check_words():
    """What check is asked, with a key or without one."""
    words = random.choice(([], ["-a", "sha256"], ["-a", "sha256"], ["-a", "blake3"], ["-a=sha256"],
                           ["-a", "hmac-sha256", "--key-file", "key"], ["-ahmac-sha256", "--key=0b", "-l", "16"]))
    lists = chosen(["list", "list", "list2", "other", "missing", "-", "folder"], 3)
    return ["check", *words, *random.choice(([], ["--summary"], ["--"])), *lists]


def one_large():
    """A file that is hashed in parts."""
    words = random.sample([["-a", "blake3"], ["-l", "99"], ["--seek=7"], ["--tag"], ["--progress"]], 3)
    return ["hash", *sum(words, []), *random.choice(([], ["--"])), random.choice(["large", "large", "-large", "f1"])]


def hash_words():
    words = ["-a", random.choice(sorted(tables.HASHES))]
    words += random.choice(([], [], ["--tag"], ["-l", "20"], ["--progress"], ["-l20", "--seek", "3"], ["--parts", "4"]))
    return ["hash", *words]


def mac_words():
    return ["mac", "-a", random.choice(("hmac-sha256", "blake2b", "blake3")),
            *random.choice((["--key", "0b" * 32], ["--key-file", "key"], ["--key=00"], ["--key-file=missing"]))]


def of_names(words, given):
    """Words with names, or with a file of names, which may be standard input."""
    kind = random.random()
    if kind < 0.5:
        return [*words, "--", *names()] if random.random() < 0.5 else [
            *words, *(name for name in names() if not name.startswith("-"))], given
    text = b"\0".join(map(os.fsencode, names(12) + chosen(["-", "\udcff"], 1)))
    if kind < 0.75:
        with open("names", "wb") as file:
            file.write(text)
        return [*words, "--files0-from", random.choice(("names", "names", "names", "missing", "folder"))], given
    return [*words, *random.choice((["--files0-from=-"], ["--files0-from", "-"]))], text


def case(program, digests):
    """The words, and what standard input has."""
    given = lines(program, digests)
    for place in "list", "list2", "other":
        with open(place, "wb") as file:
            file.write(lines(program, digests))
    kind = random.random()
    if kind < 0.3:
        words, given = of_names(hash_words(), given)
    elif kind < 0.4:
        words, given = of_names(mac_words(), given)
    elif kind < 0.5:
        words = one_large()
    elif kind < 0.9:
        words = check_words()
    else:
        words = ["part", "-a", "blake3", *random.choice((["--each", "1"], ["--each", "4"], ["--each", "3"], ["--list"],
                                                         ["--verify", "parts"], ["--verify", "list"], [])),
                 *random.choice((["large"], ["large"], ["f1"], ["empty"], ["missing"], ["-"], []))]
    for wrong in chosen(WRONG, 1) if random.random() < 0.1 else []:
        place = random.randint(1, len(words))
        words[place:place] = wrong
    return words, given


def run(words, program, given, is_file):
    """What a run answers, whose standard input is a pipe or a file."""
    options = {"env": {**os.environ, "SUMS": program}, "timeout": 100}
    if not is_file:
        return in_order(harness.run(words[0], words[1:], given, **options))
    with open("given", "wb+") as file:
        file.write(given)
        file.seek(0)
        done = subprocess.run([harness.called(words[0]), *words[1:]], executable=words[0], stdin=file,
                              capture_output=True, check=False, **options)
    return in_order(harness.Run(done.returncode, done.stdout, done.stderr))


def main():
    program = harness.program()
    words = harness.arguments(1)[1:]
    count, seed = int(words[0]) if words else 300, int(words[1]) if words[1:] else random.getrandbits(32)
    random.seed(seed)
    print(f"seed {seed}", flush=True)
    with harness.folder():
        with open("key", "wb") as file:
            file.write(b"\x0b" * 32)
        digests = files(program)
        with open("parts", "wb") as file:
            file.write(harness.run(program, ["part", "-a", "blake3", "--each", "1", "large"]).out)
        for number in range(count):
            words, given = case(program, digests)
            is_file, own = random.random() < 0.3, random.choice(OWN if words[0] != "part" else OWN[:3])
            wanted = run([program, *words], program, given, is_file)
            got = run([*command(program, own), *words], program, given, is_file)
            harness.same(f"{number}: {own} {words} < {'file' if is_file else 'pipe'} {given[:300]}", got, wanted)
    harness.finish()


main()

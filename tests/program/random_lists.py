#!/usr/bin/env python3
"""Checks random lists by the program and by a second, plain reading of docs/FORMAT.md in this file,
and compares reports, statuses and what is said of a list. No part of tools/test.
usage: tests/program/random_lists.py PROGRAM [LINES] [SEED]    LINES is 200,000 where it is not named
       tests/program/random_lists.py PROGRAM digests [LINES] [SEED]    what stands in the place of the program
       tests/program/random_lists.py PROGRAM keys [LISTS] [SEED]    lists of tags, each under a random key: the tags are
           those of Python's hmac and hashlib, and of tests/standards.py; LISTS is 10,000 where it is not named
"""

import hashlib
import hmac
import os
import random
import re
import sys
from typing import NamedTuple

sys.path.append(os.path.join(os.path.dirname(os.path.realpath(__file__)), ".."))

import harness
import standards
import tables

LONGEST_LINE = 65536
LINES_A_LIST = 500
TAGS_A_LIST = 20
CONTENTS = [b"", b"abc", bytes(i % 251 for i in range(1025))]
# BLAKE3 of these contents, by b3sum
BLAKE3 = {
    b"": "af1349b9f5f9a1a6a0404dea36dcc9499bcb25c9adc112b7cc9a93cae41f3262",
    b"abc": tables.HASHES["blake3"]["abc"],
    CONTENTS[2]: "d00278ae47eb27b34faecf67b4fe263f82d5412916c1ffd97c8cb7fb814b8444",
}
NAMES = [
    b"abc.txt", b"a b", b" blank", b"*star", b"#hash", b"a\\b", b"a\nb", b"a\rb", b"\\", b"\n", b"\r",
    b"\\n", b"a) = b", b"x (y) = z", "größe".encode(), b"end ", b"(", b"-", b"x" * 200, b"-- x",
]
# the algorithm and the digest's bytes of a label without bits
LABELS = {each["label"]: (name, int(each["most"])) for name, each in tables.HASHES.items()}
LENGTHS = {name: range(int(each["least"]), int(each["most"]) + 1) for name, each in tables.HASHES.items()}
# What is said of a list beside its report.
EMPTY, OTHER, FAILED, MISSING = map(tables.text, ("{no entries}", "{other -a}", "{all failed}", "{all missing}"))
TAGGED, OTHER_KEY, NO_ENTRY = map(tables.text, ("{tagged}", "{other key}", "{no entry}"))
MD5, SHA_1, MARK, SIGNED = map(tables.text, ("{MD5}", "{SHA-1}", "{mark}", "{signed}"))
NO_NAME, UNTAGGED = map(tables.text, ("{no name}", "{need -a}"))
ARMOUR = b"-----BEGIN PGP SIGNED MESSAGE-----"
# What is said of a malformed line, by how it begins, and by the digits of a digest that is none of its list.
LOOKS = [(rb"MD5 \(.*", MD5), (rb"SHA1 \(.*", SHA_1), (rb"\xef\xbb\xbf.*", MARK), (ARMOUR + b".*", SIGNED),
         (rb"[0-9a-fA-F]{16,}[ \t\r\f]*", NO_NAME)]
DIGESTS = {32: MD5, 40: SHA_1}
# the fewest and the most bytes of a tag in a list, and those without -l
TAGS = {
    "hmac-sha256": (16, 32, 32), "hmac-sha512": (32, 64, 64), "hmac-blake2b": (32, 64, 64),
    "hmac-blake2s": (16, 32, 32), "blake2b": (1, 64, 64), "blake2s": (1, 32, 32), "blake3": (1, 64, 32),
}
ESCAPES = {b"\\": b"\\\\", b"\n": b"\\n", b"\r": b"\\r"}


class Keyed(NamedTuple):
    """What the entries of a list are under a key: tags of this function, of so many bytes."""

    function: str
    key: bytes
    size: int

    def words(self, is_file=False):
        """The words of `check` and `mac`; the key stands in a file or among them."""
        key = ["--key-file", "the key"] if is_file else ["--key", self.key.hex()]
        length = [] if self.size == TAGS[self.function][2] else ["-l", str(self.size)]
        return ["-a", self.function, *key, *length]

    def tag(self, content):
        """The digits of the tag of a content."""
        if self.function == "blake3":
            made = standards.output(standards.tree(standards.mode_of(self.key), 0, content), 0, self.size)
        elif self.function.startswith("hmac-"):
            made = hmac.new(self.key, content, self.function.removeprefix("hmac-")).digest()[:self.size]
        else:
            made = hashlib.new(self.function, content, key=self.key, digest_size=self.size).digest()
        return made.hex()


def digest(algorithm, size, content):
    if isinstance(algorithm, Keyed):
        return algorithm.tag(content)
    if algorithm == "blake3":
        return BLAKE3[content]
    settings = {"digest_size": size} if "blake2" in algorithm else {}
    return hashlib.new(algorithm, content, **settings).hexdigest()


def escaped(name):
    return b"".join(ESCAPES.get(bytes([byte]), bytes([byte])) for byte in name)


def opened(body):
    """The name that an escaped body spells, or None."""
    if b"\\" in re.sub(rb"\\[\\nr]", b"", body):
        return None
    return re.sub(rb"\\([\\nr])", lambda found: {b"\\": b"\\", b"n": b"\n", b"r": b"\r"}[found[1]], body)


def of_label(label):
    """The algorithm and the digest's bytes of a label, or None."""
    if label in LABELS:
        return LABELS[label]
    found = re.fullmatch(r"(BLAKE2[bs])-([1-9][0-9]*)", label)
    if found and int(found[2]) % 8 == 0 and int(found[2]) // 8 <= LABELS[found[1]][1]:
        return LABELS[found[1]][0], int(found[2]) // 8
    return None


def is_name(name):
    """A name has 1 byte or more, is UTF-8, and has no NUL."""
    try:
        return name and "\0" not in name.decode()
    except UnicodeDecodeError:
        return False


def sizes_of(kind):
    """How many bytes the digits of an untagged line may spell; where there is no kind it is malformed."""
    return (kind.size,) if isinstance(kind, Keyed) else LENGTHS.get(kind, ())


def parsed(line, kind):
    """("skipped",), ("malformed",) or ("entry", name, algorithm, digits) of a line without its LF. Under a key a tagged
    line is malformed."""
    if len(line) > LONGEST_LINE:
        return ("malformed",)
    if line.endswith(b"\r"):
        line = line[:-1]
    if line == b"" or line.startswith(b"#"):
        return ("skipped",)
    is_escaped = line.startswith(b"\\")
    text = line[1:] if is_escaped else line
    untagged = re.fullmatch(rb"([0-9a-fA-F]+) [ *](.+)", text, re.DOTALL)
    tagged = re.fullmatch(rb"([A-Za-z0-9-]+) \((.*)\) = ([0-9a-fA-F]+)", text, re.DOTALL)
    if untagged:
        digits, name = untagged[1], untagged[2]
        if len(digits) % 2 or len(digits) // 2 not in sizes_of(kind):
            return ("malformed",)
        algorithm = kind
    elif tagged and not isinstance(kind, Keyed):
        name, digits = tagged[2], tagged[3]
        meant = of_label(tagged[1].decode())
        if not meant or len(digits) != 2 * meant[1]:
            return ("malformed",)
        algorithm = meant[0]
    else:
        return ("malformed",)
    if is_escaped:
        name = opened(name)
    if name is None or not is_name(name):
        return ("malformed",)
    written = escaped(name)
    if len(digits) + 2 + len(written) + (written != name) > LONGEST_LINE:
        return ("malformed",)
    return ("entry", name, algorithm, digits.decode().lower())


def verdict_of(name, algorithm, digits):
    try:
        with open(name, "rb") as file:
            content = file.read()
    except FileNotFoundError:
        return b"MISSING"
    except OSError:
        return b"UNREADABLE"
    return b"OK" if digest(algorithm, len(digits) // 2, content) == digits else b"FAILED"


def report(lines, kind, has_looks=True):
    """What a check of a list answers: its status, its report, and what is said of the list. What stands in the place of
    the program can tell of a malformed line only whether it is untagged."""
    out, verdicts, others = [], set(), []
    for number, line in enumerate(lines, 1):
        answer = parsed(line, kind)
        if answer[0] == "skipped":
            continue
        if answer[0] == "malformed":
            told, verdict = b"line %d" % number, b"MALFORMED"
            others += look(line, kind) if has_looks else untagged(line)
        else:
            _, name, algorithm, digits = answer
            told, verdict = escaped(name), verdict_of(name, algorithm, digits)
        verdicts.add(verdict)
        out.append(told + b": " + verdict + b"\n")
    return int(verdicts - {b"OK"} != set()), b"".join(out), said(verdicts, others, kind)


def untagged(line):
    """The same of a line of another length."""
    return [OTHER] if parsed(line, "blake2b")[0] == "entry" else []


def look(line, kind):
    """What is said of a malformed line, in a list of one text or of none. Under a key other entries are tagged ones. And
    BLAKE2b has digests as long as those of each other hash."""
    if isinstance(kind, Keyed):
        return [TAGGED] if parsed(line, None)[0] == "entry" else []
    for pattern, text in LOOKS:
        if len(line) <= LONGEST_LINE and re.fullmatch(pattern, line, re.DOTALL):
            return [text]
    meant = parsed(line, "blake2b")
    if meant[0] != "entry":
        return []
    count = len(meant[3])
    return [DIGESTS.get(count) or (OTHER if kind else UNTAGGED + b"%d digits fit %b" % (count, fitting(count)))]


def fitting(count):
    """The hashes with digests of so many digits, as a sentence names them."""
    names = [name for name, lengths in LENGTHS.items() if count // 2 in lengths]
    return b" or ".join(", ".join(each).encode() for each in (names[:-1], names[-1:]) if each)


def said(verdicts, others, kind):
    """What is said of a list, the first that fits."""
    if others:
        text = TAGGED + b"%d" % len(others) if isinstance(kind, Keyed) else others[0]
    elif not verdicts:
        text = EMPTY
    elif verdicts == {b"MALFORMED"}:
        text = NO_ENTRY
    elif verdicts == {b"FAILED"} and kind:
        text = OTHER_KEY if isinstance(kind, Keyed) else FAILED
    elif verdicts == {b"MISSING"}:
        text = MISSING
    else:
        return b""
    return b"sums: -: " + text + b"\n"


def good_line(source, kind, files):
    name = source.choice(NAMES)
    content = files.get(name, b"abc") if source.random() < 0.8 else source.choice(CONTENTS)
    body, front = escaped(name), b""
    if body != name:
        front = b"\\"
    if source.random() < 0.1:
        body, front = name, b""
    if source.random() < (0.9 if isinstance(kind, Keyed) else 0.5):
        size = source.choice(list(sizes_of(kind)))
        digits = digest(kind, size, content)
        line = digits.encode() + source.choice([b"  ", b" *"]) + body
    else:
        label = source.choice(list(LABELS))
        algorithm, size = of_label(label)
        if "2" in label[-2:] and source.random() < 0.6:
            size = source.randrange(1, size + 1)
            label += f"-{8 * size}"
        digits = digest(algorithm, size, content)
        line = label.encode() + b" (" + body + b") = " + digits.encode()
    if source.random() < 0.1:
        line = line.replace(digits.encode(), digits.upper().encode())
    return front + line


def mutated(source, line):
    place = source.randrange(len(line) + 1)
    kind = source.randrange(9)
    if kind == 0:
        return line[:place]
    if kind == 1:
        return line[:place] + bytes([source.randrange(256)]) + line[place:]
    if kind == 2:
        return line[:place] + line[place + 1:]
    if kind == 3:
        return line[:place] + source.choice([b" ", b"\\", b"*", b"\r", b"\0", b"\xff", b")", b"="]) + line[place:]
    if kind == 4:
        return line + b"\r"
    if kind == 5:
        return source.choice([b"#", b" ", b"\\", b"\t"]) + line
    if kind == 6:
        return line.swapcase()
    if kind == 7:
        return line[:place] + line[place:place + 8] * 2 + line[place + 8:]
    return line + b"n" * source.choice([1, LONGEST_LINE - len(line), LONGEST_LINE - len(line) + 1])


def random_line(source, kind, files):
    line = good_line(source, kind, files)
    chance = source.random()
    if chance < 0.03:
        return source.choice([b"", b"# a comment", b"\r", b"#"])
    if chance < 0.06:
        line = source.choice([b"MD5 (" + line, b"SHA1 (" + line, b"\xef\xbb\xbf" + line, ARMOUR, line.split(b" ")[0]])
    while source.random() < 0.5:
        line = mutated(source, line) if line else b"x"
    return line.replace(b"\n", b"")[: LONGEST_LINE + 2]


def make_files(source):
    """Files of some of the names, here, and what each has."""
    files = {name: source.choice(CONTENTS) for name in NAMES if source.random() < 0.8}
    for name, content in files.items():
        with open(name, "wb") as file:
            file.write(content)
    return files


def random_key(source):
    """A function, a key that it takes, and the length of its tags, which is often that without -l."""
    function = source.choice(list(TAGS))
    least, most, default = TAGS[function]
    longest = {"blake2b": 64, "blake2s": 32}.get(function, 200)
    key = source.randbytes(32 if function == "blake3" else source.randrange("hmac" not in function, longest + 1))
    if key and source.random() < 0.2:
        key = key[:-1] + b"\n"
    return Keyed(function, key, default if source.random() < 0.5 else source.randrange(least, most + 1))


def keyed_runs(program, count, source):
    """Checks so many random lists of tags, and yields what each is, its run, and what that has to be."""
    files = make_files(source)
    for number in range(count):
        kind, is_file = random_key(source), source.random() < 0.5
        with open("the key", "wb") as file:
            file.write(kind.key)
        # some lines are of another key
        kinds = [kind] * 9 + [random_key(source)]
        size = source.choice([1, 2, TAGS_A_LIST])
        lines = [random_line(source, source.choice(kinds), files) for _ in range(size)]
        run = harness.run(program, ["check", *kind.words(is_file), "-"], b"".join(line + b"\n" for line in lines))
        yield f"list {number}, {kind}", run, report(lines, kind)


def of_keys(program, count, seed):
    """Random lists under keys."""
    print(f"tests/program/random_lists.py: {count} lists under keys, seed {seed}")
    with harness.folder():
        for about, run, wanted in keyed_runs(program, count, random.Random(seed)):
            harness.same(about, run, wanted)
    harness.finish()


def main():
    program, *numbers = harness.arguments(1)
    program = os.path.abspath(program)
    if numbers[:1] == ["keys"]:
        count, seed, *_ = [*map(int, numbers[1:]), *[10_000, random.randrange(2**32)][len(numbers) - 1:]]
        return of_keys(program, count, seed)
    has_looks = numbers[:1] != ["digests"]
    numbers = numbers[not has_looks:]
    wanted = int(numbers[0]) if numbers else 200_000
    seed = int(numbers[1]) if len(numbers) > 1 else random.randrange(2**32)
    print(f"tests/program/random_lists.py: {wanted} lines, seed {seed}")
    source, done = random.Random(seed), 0
    with harness.folder():
        files = make_files(source)
        while done < wanted:
            kind = source.choice([*LENGTHS, *([None] if has_looks else [])])
            count = source.choice([1, 2, LINES_A_LIST])
            lines = [random_line(source, kind or "blake2b", files) for _ in range(count)]
            words = ["check", *(["-a", kind] if kind else []), "-"]
            run = harness.run(program, words, b"".join(line + b"\n" for line in lines))
            wanted_run = report(lines, kind, has_looks)
            pairs = zip((run.out + run.err).split(b"\n"), (wanted_run[1] + wanted_run[2]).split(b"\n"))
            first = next((pair for pair in pairs if pair[0] != pair[1]), None)
            harness.judge(f"the list after {done} lines, {kind}", run == wanted_run, first)
            done += len(lines)
    harness.finish()


if __name__ == "__main__":
    sys.exit(main())

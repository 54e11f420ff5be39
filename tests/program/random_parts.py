#!/usr/bin/env python3
"""Cuts random files into random parts, by `sums part`, and joins them, by `sums join`, and compares each line,
each digest and each refusal with a second, plain implementation: the hash of tests/standards.py, and the lines of this
file. Each case is also joined with its lines changed: out of order, doubled, left out, cut short, of another file, or
with other words. No part of tools/test.
usage: tests/program/random_parts.py PROGRAM [CASES] [SEED]    CASES is 10,000 where it is not named
"""

import os
import random
import re
import sys

sys.path.append(os.path.join(os.path.dirname(os.path.realpath(__file__)), ".."))

import harness
from standards import (CHUNK, NARROW, chaining_value, left_chunks, mode_of, output, parent, subtree, to_bytes, to_words,
    tree)

LIMIT = 2**64 - 1
HASH = mode_of()
CONTENT = random.Random(1).randbytes(48 * CHUNK)


# ---- parts in a row, two at least, each as its number of bytes and its chaining value


def row_node(row):
    left = CHUNK * left_chunks(-(-sum(size for size, _ in row) // CHUNK))
    at = 0
    for i, (size, _) in enumerate(row):
        at += size
        if at == left:
            return parent(HASH, row_value(row[: i + 1]), row_value(row[i + 1 :]))
    raise AssertionError("no part ends there")


def row_value(row):
    return row[0][1] if len(row) == 1 else chaining_value(row_node(row))


# ---- the lines, and what is told of them


def is_placed(first, size):
    """Whether so many bytes can be one subtree of a message, from this chunk on."""
    count = max(1, -(-size // CHUNK))
    return (size > 0 or first == 0) and CHUNK * first + size <= LIMIT and first % (1 << (count - 1).bit_length()) == 0


def line_of(first, data):
    value = to_bytes(NARROW, subtree(HASH, first, data))
    return b"sums-part-1 blake3 %d %d %s\n" % (first, len(data), value.hex().encode())


def parsed(line):
    """The first chunk, the size and the value that a line without its LF tells, or None."""
    found = re.fullmatch(rb"sums-part-1 blake3 (0|[1-9][0-9]*) (0|[1-9][0-9]*) ([0-9a-f]{64})", line)
    if not found or not is_placed(int(found[1]), int(found[2])):
        return None
    return int(found[1]), int(found[2]), to_words(NARROW, bytes.fromhex(found[3].decode()))


def is_whole(size):
    count = size // CHUNK
    return size % CHUNK == 0 and count > 0 and count & (count - 1) == 0


def wrong(row, line):
    """What is wrong with a line behind these parts, or None, and then it joins the row."""
    part = parsed(line)
    if part is None:
        return b"not a part"
    first, size, value = part
    end = sum(size for size, _ in row)
    if CHUNK * first > end:
        return b"bytes are missing before it"
    if CHUNK * first < end:
        return b"begins before the part before it ends"
    if row and not is_whole(row[-1][0]):
        return b"the part before it is not whole"
    row.append((size, value))
    return None


def joined(lists, wanted, length, position, name):
    """The status, standard output and standard error of `join` of these lists, each a name and a text."""
    row = []
    for listed, text in lists:
        lines = text.split(b"\n")
        for number, line in enumerate(lines[:-1] if lines[-1] == b"" else lines, 1):
            fault = wrong(row, line)
            if fault:
                return 1, b"", b"sums: %s: line %d: %s\n" % (listed, number, fault)
    count = sum(size for size, _ in row)
    if not row:
        return 1, b"", b"sums: no parts\n"
    if len(row) == 1:
        return 1, b"", b"sums: one part alone: hash the file itself\n"
    if wanted not in (None, count):
        return 1, b"", b"sums: the parts end after %d bytes\n" % count
    return 0, output(row_node(row), position, length).hex().encode() + b"  " + name + b"\n", b""


# ---- random cases


def random_size(source):
    size = source.choice([CHUNK * source.randrange(0, 40), source.randrange(0, 40 * CHUNK), source.randrange(0, 3000)])
    return max(0, size + source.choice([0, 0, -1, 1]))


def random_cuts(source, size):
    """Places of parts that can be joined: each its first chunk and its number of chunks."""
    cuts, at, count = [], 0, max(1, -(-size // CHUNK))
    most = source.choice([1, 2, 4, 64])
    while at < count:
        powers = [1 << e for e in range(7) if at % (1 << e) == 0 and 1 << e <= most]
        cuts.append((at, source.choice(powers)))
        at += cuts[-1][1]
    return cuts


def parts_of(source, run, data, cuts):
    """What the program tells of each part, by one of the ways to give it the part's bytes."""
    lines, wanted = [], []
    for first, chunks in cuts:
        piece = data[CHUNK * first :][: CHUNK * chunks]
        words = ["part", "-a", "blake3"] + (["--first", str(first)] if first or source.random() < 0.5 else [])
        way = source.randrange(4)
        if way == 0:
            given = run(words, piece)
        elif way == 1:
            given = run(words + ["--chunks", str(chunks)], data[CHUNK * first :])
        elif way == 2:
            fewer = -(-len(piece) // CHUNK) if piece else 1
            given = run(words + ["--chunks", str(fewer), "file"])
        else:
            given = run(words + ["--chunks", str(chunks), "file"])
        lines.append(given)
        wanted.append((0, line_of(first, piece), b""))
    return lines, wanted


def changed(source, lines):
    """The lines with one thing changed."""
    lines, kind, at = list(lines), source.randrange(10), source.randrange(len(lines))
    line = lines[at]
    if kind == 0:
        source.shuffle(lines)
    elif kind == 1:
        lines.insert(at, line)
    elif kind == 2:
        del lines[at]
    elif kind == 3:
        lines[at] = line[: source.randrange(len(line))] + b"\n"
    elif kind == 4:
        size = random_size(source)
        lines.insert(at, line_of(0, CONTENT[1 : 1 + size]))
    elif kind == 5:
        place = source.randrange(len(line) - 1)
        lines[at] = line[:place] + source.choice([b" ", b"0", b"f", b"F", b"\r", b"\0", b"\xff"]) + line[place + 1 :]
    elif kind == 6:
        lines[at] = source.choice([line.upper(), b" " + line, line[:-1] + b" \n", line[:-1] + b"\r\n", b"\n" + line])
    elif kind == 7:
        words = line.split(b" ")
        words[source.choice([2, 3])] = b"%d" % source.choice([0, 1, 1023, 1024, 2048, 2**54 - 1, 2**54, LIMIT, 2**64])
        lines[at] = b" ".join(words)
    elif kind == 8:
        lines[at] = b"a" * source.choice([255, 256, 257, 5000]) + b"\n"
    else:
        lines[-1] = lines[-1][:-1]
    return lines


def case(source, run):
    """One file, cut and joined: the number of runs that differ."""
    size = random_size(source)
    data = CONTENT[:size]
    with open("file", "wb") as file:
        file.write(data)
    told, wanted = parts_of(source, run, data, random_cuts(source, size))
    pairs = list(zip(told, wanted))
    lines = [told_line for _, told_line, _ in told]
    for some in (lines, changed(source, lines)):
        words, length, position = ["join", "-a", "blake3"], 32, 0
        bytes_wanted = source.choice([None, size, size + 1])
        name = source.choice(["-", "file", "größe"])
        if name != "-":
            words += ["--name", name]
        if bytes_wanted is not None:
            words += ["--bytes", str(bytes_wanted)]
        if source.random() < 0.2:
            length, position = source.choice([1, 64, 200]), source.choice([0, 31, 2**40])
            words += ["-l", str(length), "--seek", str(position)]
        split = source.randrange(len(some) + 1) if some else 0
        if source.random() < 0.3:
            lists = [(b"one", b"".join(some[:split])), (b"two", b"".join(some[split:]))]
            for listed, text in lists:
                with open(listed, "wb") as file:
                    file.write(text)
            answer = run(words + ["one", "two"])
        else:
            lists = [(b"-", b"".join(some))]
            answer = run(words, lists[0][1])
        pairs.append((answer, joined(lists, bytes_wanted, length, position, name.encode())))
    if len(lines) == 1:
        pairs.append((run(["hash", "-a", "blake3", "file"]), (0, hashed(data), b"")))
    else:
        pairs.append((run(["join", "-a", "blake3", "--name", "file"], b"".join(lines)), (0, hashed(data), b"")))
    differing = [pair for pair in pairs if pair[0] != pair[1]]
    for got, want in differing[:1]:
        print(f"{size} bytes: got {got}, wanted {want}")
    return len(differing)


def hashed(data):
    return output(tree(HASH, 0, data), 0, 32).hex().encode() + b"  file\n"


def main():
    program, *numbers = harness.arguments(1)
    program = os.path.abspath(program)
    cases = int(numbers[0]) if numbers else 10_000
    seed = int(numbers[1]) if len(numbers) > 1 else random.randrange(2**32)
    print(f"tests/program/random_parts.py: {cases} cases, seed {seed}")
    source = random.Random(seed)

    def run(words, given=b""):
        return harness.run(program, words, given)

    with harness.folder():
        for _ in range(cases):
            harness.passed += case(source, run) == 0
        harness.failed = cases - harness.passed
    harness.finish()


if __name__ == "__main__":
    main()

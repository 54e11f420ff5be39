"""The entries of a list by sums_hash beside a parser in Python: python3 speed.py ROUNDS LIST"""

import re
import sys
import time

import sums_hash

UNTAGGED = re.compile(rb"([0-9a-fA-F]{64}) [ *](.+)", re.DOTALL)
TAGGED = re.compile(rb"SHA256 \((.+)\) = ([0-9a-fA-F]{64})", re.DOTALL)
ESCAPES = {b"\\\\": b"\\", b"\\n": b"\n", b"\\r": b"\r"}


def entry_of(line):
    """The name and the digest of a line of a list of SHA-256, or None for one that is skipped."""
    line = line.removesuffix(b"\r")
    if not line or line.startswith(b"#"):
        return None
    text = line.removeprefix(b"\\")
    if found := UNTAGGED.fullmatch(text):
        digits, name = found.groups()
    elif found := TAGGED.fullmatch(text):
        name, digits = found.groups()
    else:
        raise ValueError(line)
    if len(text) < len(line):
        name = re.sub(rb"\\.?", lambda escape: ESCAPES[escape[0]], name, flags=re.DOTALL)
    if b"\0" in name:
        raise ValueError(line)
    return name.decode(), bytes.fromhex(digits.decode())


def ours(data):
    return [(entry.name, entry.digest) for entry in sums_hash.read_list(data, "sha256")]


def theirs(data):
    return [entry for line in data.split(b"\n") if (entry := entry_of(line))]


def seconds(call, data):
    start = time.process_time()
    call(data)
    return time.process_time() - start


def main():
    with open(sys.argv[2], "rb") as file:
        data = file.read()
    assert ours(data) == theirs(data)
    pairs = [(seconds(ours, data), seconds(theirs, data)) for _ in range(int(sys.argv[1]))]
    count = len(ours(data))
    print("Python", *(f"{count / min(each):.0f}" for each in zip(*pairs)), sep="|")


main()

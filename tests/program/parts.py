#!/usr/bin/env python3
"""Cuts files into parts of each size, joins their lines, and compares with the digest of the whole file, by the
program and by b3sum where it is installed; lists where parts begin, and hashes files in parts of each size, with each
option; the shares of these runs print them too. Then parts at each of many chunks and of each power of two, names of
each length, parts that are far behind the first, the lines that `join` refuses, the parts that `part` refuses, and
parts that come out of one pipe.
usage: tests/program/parts.py PROGRAM
"""

import os
import shutil
import subprocess
import sys

sys.path.append(os.path.join(os.path.dirname(os.path.realpath(__file__)), ".."))

import harness
import standards
import tables
from harness import judge, same

CHUNK = 1024
CHUNKS = [1 << e for e in range(11)]
SIZES = [0, 1, 1023, 1024, 1025, 8192, 8193, 17_000, 150_000, 1_000_000]
SIZES_OF_HASH = [0, 1, 1024, 1025, 4096, 8193, 17_000, 102_400]
OPTIONS_OF_HASH = ([], ["-l", "100"], ["--seek", "33", "-l", "70"], ["--tag"])
# The numbers of shares into which runs are cut, and the most bytes of a file whose parts of each size are compared so.
SHARES = [1, 2, 5]
MOST_SHARED = 8193
VALUE = b"91333b6a7a918b2ebfcb11c419754631802f5790f4fc714bfce637157e9b1d88"
MODE = standards.mode_of()


def run(*words, given=b""):
    return harness.run(program, words, given)


def part(*words, given=b""):
    return run("part", "-a", "blake3", *words, given=given)


def join(*words, given=b""):
    return run("join", "-a", "blake3", *words, given=given)


def expect(name, answer, status, out, err):
    same(name, answer, (status, out, err))


def content(size):
    return bytes(i % 251 for i in range(size))


# ---- files at every size of their parts

def lines_of(size, chunks):
    """The lines of a file's parts, each cut out of the file."""
    starts = range(0, max(1, -(-size // CHUNK)), chunks)
    return [part("--first", str(first), "--chunks", str(chunks), str(size))[1] for first in starts]


def whole(size, *words):
    return run("hash", "-a", "blake3", *words, str(size))


def files():
    for size in sorted({*SIZES, *SIZES_OF_HASH}):
        with open(str(size), "wb") as file:
            file.write(content(size))


def sizes():
    for size in SIZES:
        want = whole(size)
        if shutil.which("b3sum"):
            by_peer = subprocess.run(["b3sum", str(size)], capture_output=True).stdout
            same(f"b3sum of {size} bytes", want, (0, by_peer, b""))
        for chunks in CHUNKS:
            lines = lines_of(size, chunks)
            each = (0, b"".join(lines), b"")
            same(f"each part of {chunks} chunks of {size} bytes", part("--each", str(chunks), str(size)), each)
            given = part("--each", str(chunks), given=content(size))
            same(f"each part of {chunks} chunks of {size} bytes of standard input", given, each)
            in_shares(f"each part of {chunks} chunks of {size} bytes", ["--each", str(chunks), str(size)], each)
            verified(size, chunks, lines)
            for words in ([], ["-l", "100", "--seek", "33"]):
                answer = join("--name", str(size), "--bytes", str(size), *words, given=b"".join(lines))
                if len(lines) == 1:
                    want = (1, b"", b"sums: one part alone: hash the file itself\n")
                else:
                    want = whole(size, *words)
                    compared(words, lines, want)
                same(" ".join([f"{size} bytes in parts of {chunks} chunks, joined", *words]), answer, want)


def verified(size, chunks, lines):
    """Which parts another file has, by their lines and by the bytes of both."""
    whole = content(size)
    with open("parts", "wb") as file:
        file.writelines(lines)
    for what, other in (("it", whole), ("its first bit flipped", flip(whole, 0)), ("its last", flip(whole, size - 1)),
                        ("it without its last byte", whole[:-1]), ("its first half", whole[:size // 2]),
                        ("it and one byte more", whole + b"x"), ("nothing", b"")):
        out, told = b"", b"sums: -: bytes behind the last part\n" if len(other) > size else b""
        for line in lines:
            first, length = map(int, line.split()[2:4])
            end = CHUNK * first + length
            is_same = other[CHUNK * first : end] == whole[CHUNK * first : end]
            verdict = "MISSING" if len(other) < end else "OK" if is_same else "FAILED"
            out += f"{first} {length}: {verdict}\n".encode()
        status = int(bool(told) or out.count(b": OK\n") < len(lines))
        answer = part("--verify", "parts", given=other)
        name = f"{what}, by the parts of {chunks} chunks of {size} bytes"
        same(name, answer, (status, out, told))
        if size <= MOST_SHARED or chunks == CHUNKS[-1]:
            with open("other", "wb") as file:
                file.write(other)
            in_shares(name, ["--verify", "parts", "other"], (status, out, told.replace(b"-", b"other")))


def in_shares(name, words, want):
    """The runs of all shares print the lines of the one run in turn, and the highest status is that of it."""
    status, out, told = want
    for count in SHARES:
        shares = [part("--share", f"{k}/{count}", *words) for k in range(count)]
        same(f"{name}, {count} shares in turn", harness.in_turn([share.out for share in shares]), out)
        same(f"{name}, the highest status of {count} shares", max(share.status for share in shares), status)
        same(f"{name}, what {count} shares tell", [share.err for share in shares], [told] * count)


def flip(data, place):
    """The bytes with a bit flipped at a place, where there is one."""
    if not 0 <= place < len(data):
        return data
    return data[:place] + bytes([data[place] ^ 1]) + data[place + 1 :]


def compared(words, lines, want):
    """Joined parts have the digest of the whole, and no other."""
    digits = want.out.split(b" ")[0]
    other = digits[:-1] + (b"0" if digits.endswith(b"1") else b"1")
    for verify, answer in ((digits, (0, b"-: OK\n", b"")), (other, (1, b"-: FAILED\n", b""))):
        got = join("--verify", verify.decode(), *words, given=b"".join(lines))
        same(f"{len(lines)} parts, compared with {verify.decode()}", got, answer)


def listed():
    """The first chunk of each part, without a look at the size."""
    for size in SIZES:
        for chunks in CHUNKS:
            starts = range(0, max(1, -(-size // CHUNK)), chunks)
            want = (0, "".join(f"{first}\n" for first in starts).encode(), b"")
            answer = part("--list", "--chunks", str(chunks), str(size))
            same(f"the parts of {chunks} chunks of {size} bytes", answer, want)


def hash_in_parts():
    """The line of a file, and of standard input, is that without parts."""
    for size in SIZES_OF_HASH:
        for words in OPTIONS_OF_HASH:
            want = whole(size, *words)
            of_input = run("hash", "-a", "blake3", *words, given=content(size))
            judge(" ".join([f"hash of {size} bytes", *words]), want.status == of_input.status == 0, want, of_input)
            for chunks in CHUNKS:
                name = " ".join([f"hash of {size} bytes in parts of {chunks} chunks", *words])
                same(name, whole(size, *words, "--parts", str(chunks)), want)
                answer = run("hash", "-a", "blake3", *words, "--parts", str(chunks), given=content(size))
                same(f"{name}, standard input", answer, of_input)


def stretches():
    lines = b"".join(lines_of(8193, 2))
    for words in (["-l", "1"], ["-l", "64"], ["--seek", "31", "-l", "64"], ["--seek", "18446744073709551583"]):
        want = whole(8193, *words)
        same(f"join {' '.join(words)}", join(*words, "--name", "8193", given=lines), want)


def ways():
    """The bytes of a part come from a file, from standard input to its end, or from its front."""
    data = content(8193)
    for first, chunks in ((0, 1), (0, 8), (4, 4), (6, 2), (7, 1), (8, 1), (8, 8), (0, 3), (4, 3)):
        want = part("--first", str(first), "--chunks", str(chunks), "8193")
        piece = data[CHUNK * first :][: CHUNK * chunks]
        name = f"chunk {first}, {chunks} of them"
        judge(f"{name}: a line", want.status == 0 and want.out.count(b"\n") == 1 and not want.err, want)
        same(f"{name}: standard input", part("--first", str(first), given=piece), want)
        more = part("--first", str(first), "--chunks", str(chunks), "-", given=piece + b"more")
        judge(f"{name}: its front", len(piece) < CHUNK * chunks or more == want, more)
    expect("the line of a part", part("--first", "256", given=data[:1]), 0, *LINE_OF_ONE_BYTE)


def each_number():
    """No number of a chunk, of chunks or of the bytes of a name is refused for want of memory."""
    for first in range(256):
        value = standards.to_bytes(standards.NARROW, standards.chaining_value(standards.chunk(MODE, first, b"x")))
        line = f"sums-part-1 blake3 {first} 1 {value.hex()}\n".encode()
        expect(f"a byte of chunk {first}", part("--first", str(first), given=b"x"), 0, line, b"")
    want = part("1024")
    for chunks in (1 << e for e in range(55)):
        for words in (["--chunks"], ["--first", "0", "--chunks"], ["--each"]):
            words = [*words, str(chunks)]
            same(" ".join(words), part(*words, given=content(1024)), want)
            same(" ".join([*words, "of a file"]), part(*words, "1024"), want)
    lines, digits = b"".join(lines_of(8193, 4)), whole(8193).out.split(b" ")[0]
    for name in ("n" * length for length in range(1, 256)):
        expect(f"a joined line of a name of {len(name)} bytes", join("--name", name, given=lines), 0,
               digits + f"  {name}\n".encode(), b"")


def far_positions():
    """A part is read from its place in a file, however far that is: most of these are holes."""
    for first in (2**21, 2**22 - 1, 2**23, 2**23 + 1, 2**30, 2**31 + 5, 2**32 - 1, 2**33 + 2**20):
        far_position("far", first)
    # as far as the system of the files goes, and that in memory, whose files may be longer
    far_position("far", last_chunk("far"))
    in_memory = f"/dev/shm/far{os.getpid()}"
    if os.access("/dev/shm", os.W_OK):
        for first in (2**34, 2**44 + 3, 2**45, 2**52 + 1, last_chunk(in_memory)):
            far_position(in_memory, first)
    else:
        print("there is no /dev/shm: the farthest positions were not tried")
    with open("far", "wb") as file:
        file.truncate(2**40 + 1)
    answer = part("--list", "--chunks", str(2**30), "far")
    same("the parts of a file with a hole", answer, (0, b"0\n1073741824\n", b""))
    os.remove("far")


def far_position(name, first):
    """The bytes of a chunk, and those before it, which are a hole."""
    try:
        with open(name, "wb") as file:
            file.seek(CHUNK * first)
            file.write(content(CHUNK))
        for at, given in ((first, content(CHUNK)), (first - 1, bytes(CHUNK))):
            answer = part("--first", str(at), "--chunks", "1", name)
            same(f"chunk {at} of {name}", answer, part("--first", str(at), given=given))
    finally:
        os.remove(name)


def last_chunk(name):
    """The last whole chunk of the longest file that there can be of this name."""
    least, most = 0, 2**53
    with open(name, "wb") as file:
        while least < most - 1:
            middle = (least + most) // 2
            try:
                file.truncate(CHUNK * middle)
                least = middle
            except OSError:
                most = middle
    return least - 1


# BLAKE3's chaining value of the byte 0 as chunk 256
LINE_OF_ONE_BYTE = (b"sums-part-1 blake3 256 1 "
    b"8f33c5ec49da37db0de7b9a1ec897eb0133fcfc9b02bec77f954b7a9952f43d6\n", b"")


def pipe():
    """Runs that share a pipe: each reads its part and no more."""
    script = """{ "$0" part -a blake3 --chunks 4 && "$0" part -a blake3 --first 4 --chunks 4 \\
        && "$0" part -a blake3 --first 8; } < pipe"""
    os.mkfifo("pipe")
    feeder = subprocess.Popen(["sh", "-c", "cat 8193 > pipe"])
    done = subprocess.run(["sh", "-c", script, program], capture_output=True)
    feeder.wait()
    answer = join("--name", "8193", "--bytes", "8193", given=done.stdout)
    same("three parts out of one pipe", answer, whole(8193))
    answer = part("--chunks", "4", "/dev/stdin", given=content(8193))
    same("the first part of a pipe by its name", answer, part("--chunks", "4", "8193"))


# ---- what is refused

def refused_lines():
    a, b, c, d = lines_of(1_000_000, 256)
    of_one = lines_of(8193, 1)
    three = part("--chunks", "3", "8193")[1]
    fourth = of_one[3]
    head, value = a.rsplit(b" ", 1)
    missing, early = "bytes are missing before it", "begins before the part before it ends"
    table = [
        ("out of order", [a, c, b, d], 2, missing),
        ("back to front", [d, c, b, a], 1, missing),
        ("doubled", [a, b, b, c, d], 3, early),
        ("the first again", [a, b, a, c, d], 3, early),
        ("one left out", [a, b, d], 3, missing),
        ("the first left out", [b, c, d], 1, missing),
        ("three chunks before one", [three, fourth], 2, "the part before it is not whole"),
        ("behind the last one", [a, b, c, d, part("--first", "976", given=b"x")[1]], 5, early),
        ("cut short", [a, b[:-2] + b"\n", c, d], 2, "not a part"),
        ("a digest's line", [a, whole(8193)[1], c, d], 2, "not a part"),
        ("an empty line", [a, b"\n", b, c, d], 2, "not a part"),
        ("upper case", [head + b" " + value.upper(), b, c, d], 1, "not a part"),
        ("a CR", [a[:-1] + b"\r\n", b, c, d], 1, "not a part"),
        ("two blanks", [a.replace(b" ", b"  ", 1), b, c, d], 1, "not a part"),
        ("a blank at the end", [a[:-1] + b" \n", b, c, d], 1, "not a part"),
        ("a zero in front", [a, b.replace(b" 256 ", b" 0256 "), c, d], 2, "not a part"),
        ("another version", [a.replace(b"part-1", b"part-2"), b, c, d], 1, "not a part"),
        ("another tree", [a.replace(b"blake3", b"blake2"), b, c, d], 1, "not a part"),
        ("a place of no such part", [a, b.replace(b" 256 ", b" 255 "), c, d], 2, "not a part"),
        ("no bytes at a later place", [a, b"sums-part-1 blake3 256 0 " + VALUE + b"\n"], 2, "not a part"),
        ("past the limit", [a, b"sums-part-1 blake3 18014398509481983 1024 " + VALUE + b"\n"], 2, "not a part"),
        ("256 bytes", [a, b"a" * 256 + b"\n"], 2, "not a part"),
        ("257 bytes", [a, b"a" * 257 + b"\n"], 2, "not a part"),
        ("a megabyte", [a, b"a" * 1_000_000], 2, "not a part"),
    ]
    for name, lines, number, fault in table:
        told = f"sums: -: line {number}: {fault}\n".encode()
        expect(name, join(given=b"".join(lines)), 1, b"", told)
    told = b"sums: the parts end after 786432 bytes\n"
    expect("the last left out", join("--bytes", "1000000", given=a + b + c), 1, b"", told)
    expect("too few asked for", join("--bytes", "786432", given=a + b + c + d), 1, b"",
        b"sums: the parts end after 1000000 bytes\n")
    expect("no lines", join(), 1, b"", b"sums: no parts\n")
    expect("no LF at the end", join("--name", "1000000", given=(a + b + c + d)[:-1]), *whole(1_000_000))
    lists(a, b, c, d)


def lists(a, b, c, d):
    for name, text in (("one", a + b), ("two", c + d), ("again", b), ("none", b"")):
        with open(name, "wb") as file:
            file.write(text)
    want = whole(1_000_000)
    expect("two lists", join("--name", "1000000", "one", "none", "two"), *want)
    expect("standard input between", join("--name", "1000000", "one", "-", given=c + d), *want)
    expect("lists out of order", join("two", "one"), 1, b"",
        b"sums: two: line 1: bytes are missing before it\n")
    expect("a list again", join("one", "again", "two"), 1, b"",
        b"sums: again: line 1: begins before the part before it ends\n")
    expect("a list that is not there", join("one", "gone"), 1, b"", b"sums: gone: cannot read\n")
    expect("a list that is a folder", join("one", "."), 1, b"", b"sums: .: cannot read\n")


def refused_parts():
    at_limit = str(2**54 - 1)
    table = [
        ("behind the end", ["--first", "9", "8193"], 1, "8193: no bytes there"),
        ("far behind the end", ["--first", str(2**30), "8193"], 1, "8193: no bytes there"),
        ("no bytes at a later chunk", ["--first", "4"], 1, "-: no bytes there"),
        ("no file", ["gone"], 1, "gone: cannot read"),
        ("a folder", ["."], 1, ".: cannot read"),
        ("a pipe that is no file", ["--first", "1", "/dev/stdin"], 1, "/dev/stdin: cannot read"),
        ("more than fits from an odd chunk", ["--first", "7", "8193"], 1,
            "8193: more than a part there: give --chunks"),
        ("more than fits from chunk 4", ["--first", "4", "8193"], 1,
            "8193: more than a part there: give --chunks"),
        ("no chunks", ["--chunks", "0", "8193"], 2, "--chunks: out of range"),
        ("too many chunks", ["--chunks", str(2**54 + 1), "8193"], 2, "--chunks: out of range"),
        ("a chunk behind the last", ["--first", str(2**54), "8193"], 2, "--first: out of range"),
        ("an odd place for two", ["--first", "3", "--chunks", "2", "8193"], 2, "--first: out of range"),
        ("a place for two, for three", ["--first", "2", "--chunks", "3", "8193"], 2, "--first: out of range"),
    ]
    for name, words, status, told in table:
        expect(name, part(*words), status, b"", f"sums: {told}\n".encode())
    end = content(1024)
    expect("a byte past the limit", part("--first", at_limit, given=end), 1, b"", b"sums: -: too long\n")
    judge("a part at the limit", part("--first", at_limit, given=end[:1023]).status == 0)
    same("room for all chunks", part("--chunks", str(2**54), "8193"), part("8193"))
    for command in ("part", "join"):
        for alg in tables.OTHERS:
            expect(f"{command} -a {alg}", run(command, "-a", alg), 2, b"", b"sums: -a: not for this command\n")


# ---- lines from outside

# Parts of the bytes 0, 1, .. 250, 0, .., from a second implementation in Python that was compared with b3sum,
# and the digests of 5,120 of them (an official vector of BLAKE3) and of 5,000 (b3sum).
FOUR = b"sums-part-1 blake3 0 4096 7de819387cc4a00a473ed9b0f7802fa8d3b38d18a5e49ff3f034dd77be59af62\n"
TWO = b"sums-part-1 blake3 0 2048 811f7d4f1735258e27c68b9214ff7c4aac866d47f73deef1fd8908b5e38f804f\n"
NEXT_TWO = b"sums-part-1 blake3 2 2048 0442fb717e48cfb822322404f01bed7f13e2ed168408f1b5e6307b3c1b7a1ab7\n"
THREE = b"sums-part-1 blake3 0 3072 698f9cc9ccfa509592406f4b994a62f42265cdd9ad64153c5adae2a4fb6b28c1\n"
FOURTH = b"sums-part-1 blake3 3 1024 2384956f6c5c4cd565731e113eda8c592474646eb299b5d90b7b6899689b726e\n"
FIFTH = b"sums-part-1 blake3 4 1024 624e997225e3343b77bab44ad9279bf92488c8e1b6b4a862fa9e5b28f9cbb75e\n"
SHORT_FIFTH = b"sums-part-1 blake3 4 904 6c1edbfd84ef1809fd89ec063343e44f1e8ca49f941ef06d511d457fc5626cfc\n"
SHORT = b"sums-part-1 blake3 0 3 8e2451ec9f2ae6282e10a52c09d3bf7856236cfa990b5f1aaf0b3943d5b72d18\n"
EMPTY = b"sums-part-1 blake3 0 0 b4686b3c8d953f4d185d51bc9cd7bce6d9782d7659f8c06068d4c3ffa6e56841\n"
ROOT_5120 = b"9cadc15fed8b5d854562b26a9536d9707cadeda9b143978f319ab34230535833"
ROOT_5000 = b"ee78d92070de3df1c57c37002abf0a6b1a6589acdeef4d8ffac7cf3d9e8f2836"


def from_outside():
    data = content(5120)
    for line, first, size in ((FOUR, 0, 4096), (TWO, 0, 2048), (NEXT_TWO, 2, 2048), (THREE, 0, 3072), (FOURTH, 3, 1024),
            (FIFTH, 4, 1024), (SHORT_FIFTH, 4, 904), (SHORT, 0, 3), (EMPTY, 0, 0)):
        piece = data[CHUNK * first :][:size]
        expect(f"the line of {size} bytes at chunk {first}", part("--first", str(first), given=piece), 0, line, b"")
    for lines, size, root in (([FOUR, FIFTH], 5120, ROOT_5120), ([TWO, NEXT_TWO, FIFTH], 5120, ROOT_5120),
            ([FOUR, SHORT_FIFTH], 5000, ROOT_5000), ([TWO, NEXT_TWO, SHORT_FIFTH], 5000, ROOT_5000)):
        for words in ([], ["--bytes", str(size)]):
            answer = join("--name", "f", *words, given=b"".join(lines))
            expect(f"{len(lines)} lines of {size} bytes, {words}", answer, 0, root + b"  f\n", b"")


def refused_from_outside():
    missing, early = "bytes are missing before it", "begins before the part before it ends"
    not_whole = "the part before it is not whole"
    upper = FIFTH.replace(b"blake3", b"BLAKE3")
    for lines, fault in (([FIFTH], missing), ([TWO, FIFTH], missing), ([SHORT, FIFTH], missing), ([FOUR, FOUR], early),
            ([FOUR, NEXT_TWO], early), ([FOUR, FIFTH, FIFTH], early), ([THREE, FOURTH], not_whole),
            ([EMPTY, EMPTY], not_whole), ([FOUR, upper], "not a part"), ([FOUR, b"\n"], "not a part"),
            ([FOUR, b"\r\n"], "not a part")):
        told = f"sums: -: line {len(lines)}: {fault}\n".encode()
        expect(f"{lines}", join(given=b"".join(lines)), 1, b"", told)
    alone = b"sums: one part alone: hash the file itself\n"
    for lines, words, told in (([], [], b"sums: no parts\n"), ([], ["--bytes", "0"], b"sums: no parts\n"),
            ([EMPTY], [], alone), ([FOUR], ["--bytes", "5"], alone),
            ([FOUR, FIFTH], ["--bytes", "5119"], b"sums: the parts end after 5120 bytes\n"),
            ([FOUR, FIFTH], ["--bytes", "5121"], b"sums: the parts end after 5120 bytes\n")):
        expect(f"{lines} {words}", join(*words, given=b"".join(lines)), 1, b"", told)
    value = b"8e2451ec9f2ae6282e10a52c09d3bf7856236cfa990b5f1aaf0b3943d5b72d18"
    for line in (b"sums-part-1 blake3 0 3", b"sums-part-2 blake3 0 3 " + value, b"sums-part-1 blake3  0 3 " + value,
            b"sums-part-1 blake3 00 3 " + value, b"sums-part-1 blake3 0 +3 " + value,
            b"sums-part-1 blake3 0 3 " + value.replace(b"e", b"E", 1), b"sums-part-1 blake3 0 3 " + value[:-1],
            SHORT[:-1] + b"\r", SHORT[:-1] + b" ", b"sums-part-1 blake3 1 1025 " + value,
            b"sums-part-1 blake3 1 0 " + value, b"sums-part-1 blake3 0 18446744073709551616 " + value,
            b"ba7816bf8f01cfea414140de5dae2223b00361a396177a9cb410ff61f20015ad  abc.txt"):
        expect(f"{line}", join(given=line + b"\n"), 1, b"", b"sums: -: line 1: not a part\n")


program = harness.program()
with harness.folder():
    files()
    sizes()
    listed()
    hash_in_parts()
    stretches()
    ways()
    each_number()
    far_positions()
    pipe()
    refused_lines()
    refused_parts()
    from_outside()
    refused_from_outside()
harness.finish()

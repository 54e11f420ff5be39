#!/usr/bin/env python3
"""What the lines of a list mean, row by row, without a key and under one, and how names stand in written lines: the
built program on rows of data, with reads as they come and with reads and writes of at most 1, 7 and 4,096 bytes.
Digests are hashlib's, and for BLAKE3 those of its official vectors and of b3sum; tags are hmac's and hashlib's, and for
BLAKE3 those of tests/standards.py. Random lists under keys come last (tests/program/random_lists.py).
usage: tests/program/lists.py PROGRAM
       tests/program/lists.py PROGRAM digests    without keys: what stands in the place of the program takes none, and
           tells of a malformed line only whether it is untagged
"""

import hashlib
import os
import random
import sys

sys.path.append(os.path.join(os.path.dirname(os.path.realpath(__file__)), ".."))

import harness
import random_lists
import tables
from harness import same
from random_lists import TAGS, Keyed


# The most bytes that a read gives; runs without such a limit come besides.
SIZES = (1, 7, 4096)

settings = {}
takes_keys = True


def run(*words, given=b""):
    return harness.run(program, words, given, env={**os.environ, **settings})


def sized(name):
    """The name of a case, with the size of its reads."""
    return f"{name}, {settings['SHORT']} bytes at a time" if settings else name


# The numbers of a summary, in its order.
OUTCOMES = ("OK", "failed", "missing", "unreadable", "too long", "malformed", "skipped")


def check(name, alg, given, report, numbers=None):
    """Checks a list of digests by this hash, or of tags; with --summary where its numbers are named. What is said of it
    then is what tests/program/random_lists.py finds."""
    told = b""
    words = ["check", *(alg.words() if isinstance(alg, Keyed) else ["-a", alg]), "-"]
    if numbers is not None:
        words.insert(-1, "--summary")
        told = ("sums: " + ", ".join(f"{n} {what}" for n, what in zip(numbers, OUTCOMES)) + "\n").encode()
    told += random_lists.report(given.removesuffix(b"\n").split(b"\n") if given else [], alg, takes_keys)[2]
    status = 0 if all(line.endswith(b": OK") for line in report.split(b"\n")[:-1]) else 1
    same(sized(name), run(*words, given=given), (status, report, told))


# `printf '' | b2sum -l 8`, SHA-256 of no bytes, and BLAKE3's official vector of 1,025 bytes.
SHA256_ABC, BLAKE2S_ABC, BLAKE3_ABC = map(tables.text, ("{sha256}", "{blake2s}", "{blake3}"))
SHA256_EMPTY = b"e3b0c44298fc1c149afbf4c8996fb92427ae41e4649b934ca495991b7852b855"
BLAKE2B_8_EMPTY = b"2e"
BLAKE3_1025 = b"d00278ae47eb27b34faecf67b4fe263f82d5412916c1ffd97c8cb7fb814b8444"

# A name, and the text before and after the digits of its line. These are the forms that
# coreutils' `sha256sum` and `b2sum` write; the name with a CR is b3sum's from 1.8 on.
NAMES = [
    (b"abc.txt", b"", b"  abc.txt\n"),
    (b"a b", b"", b"  a b\n"),
    (b" x", b"", b"   x\n"),
    (b"*x", b"", b"  *x\n"),
    (b"#x", b"", b"  #x\n"),
    (b"\xc3\xa9", b"", b"  \xc3\xa9\n"),
    (b"a\\b\n", b"\\", b"  a\\\\b\\n\n"),
    (b"\\", b"\\", b"  \\\\\n"),
    (b"\n", b"\\", b"  \\n\n"),
    (b"\r", b"\\", b"  \\r\n"),
    (b"\n\nn", b"\\", b"  \\n\\nn\n"),
    (b"a\rb", b"\\", b"  a\\rb\n"),
    (b"a) = b", b"", b"  a) = b\n"),
    (b" (a", b"", b"   (a\n"),
]

MALFORMED, SKIPPED = "malformed", "skipped"

# The text before and after the digits of SHA-256 of "abc", and the name that the line means.
LINES = [
    ("two spaces", b"", b"  abc.txt", b"abc.txt"),
    ("a space and a star", b"", b" *abc.txt", b"abc.txt"),
    ("a CR at the end", b"", b"  abc.txt\r", b"abc.txt"),
    ("two CR at the end: one is the name's", b"", b"  a\r\r", b"a\r"),
    ("a CR inside the name", b"", b"  a\rb", b"a\rb"),
    ("a name that begins with a space", b"", b"   a", b" a"),
    ("a name that begins with a star", b"", b"  *a", b"*a"),
    ("of two stars the first is the mark", b"", b" **a", b"*a"),
    ("a name with the mark of a comment", b"", b"  #a", b"#a"),
    ("a name with blanks at its end", b"", b"  a  ", b"a  "),
    ("a name of a backslash and b, not escaped", b"", b"  a\\b", b"a\\b"),
    ("a name of a backslash and n, not escaped", b"", b"  a\\n", b"a\\n"),
    ("a name beyond ASCII", b"", b"  \xc3\xa9", b"\xc3\xa9"),
    ("escapes", b"\\", b"  a\\\\b\\n\\r", b"a\\b\n\r"),
    ("an escaped line without escapes", b"\\", b"  abc", b"abc"),
    ("an escaped line with a star", b"\\", b" *a\\n", b"a\n"),
    ("a CR that spells itself on an escaped line", b"\\", b"  a\rb", b"a\rb"),
    ("an unknown escape", b"\\", b"  a\\x", MALFORMED),
    ("a backslash at the end of an escaped line", b"\\", b"  a\\", MALFORMED),
    ("two backslashes before the digits", b"\\\\", b"  a", MALFORMED),
    ("one space", b"", b" abc.txt", MALFORMED),
    ("a tab", b"", b"\tabc.txt", MALFORMED),
    ("a space and a tab", b"", b" \tabc.txt", MALFORMED),
    ("no name", b"", b"  ", MALFORMED),
    ("no name but a CR", b"", b"  \r", MALFORMED),
    ("no mark", b"", b" ", MALFORMED),
    ("nothing after the digits", b"", b"", MALFORMED),
    ("a leading blank", b" ", b"  abc.txt", MALFORMED),
    ("NUL in the name", b"", b"  a\0b", MALFORMED),
    ("NUL alone for a name", b"", b"  \0", MALFORMED),
    ("NUL among the digits", b"", b"\0  a", MALFORMED),
    ("a byte that is no UTF-8", b"", b"  a\xff", MALFORMED),
    ("that byte alone", b"", b"  \xff", MALFORMED),
    ("a torn character", b"", b"  \xc3", MALFORMED),
    ("one digit more", b"0", b"  abc.txt", MALFORMED),
    ("a letter that is no digit", b"g", b"  abc.txt", MALFORMED),
    ("a tagged line", b"SHA256 (abc.txt) = ", b"", b"abc.txt"),
]

LINES_WITHOUT_DIGITS = [
    (b"", SKIPPED),
    (b"\r", SKIPPED),
    (b"#", SKIPPED),
    (b"# a comment\r", SKIPPED),
    (b"#\xff", SKIPPED),
    (b"\r\r", MALFORMED),
    (b" # a comment after a blank", MALFORMED),
    (b"\\", MALFORMED),
    (b"\\# a comment after a backslash", MALFORMED),
    (b"  a", MALFORMED),
]

# The text before the digits, the digits, and the name; the list's own algorithm may be any.
TAGGED = [
    (b"SHA256 (abc.txt) = ", SHA256_ABC, b"abc.txt"),
    (b"BLAKE2s (abc.txt) = ", BLAKE2S_ABC, b"abc.txt"),
    (b"BLAKE2s-256 (abc.txt) = ", BLAKE2S_ABC, b"abc.txt"),
    (b"BLAKE3 (abc.txt) = ", BLAKE3_ABC, b"abc.txt"),
    (b"BLAKE2b-8 (empty) = ", BLAKE2B_8_EMPTY, b"empty"),
    (b"BLAKE2b-08 (empty) = ", BLAKE2B_8_EMPTY, MALFORMED),
    (b"BLAKE2b-12 (empty) = ", BLAKE2B_8_EMPTY, MALFORMED),
    (b"BLAKE2b-12 (empty) = ", b"000", MALFORMED),
    (b"BLAKE2b-520 (empty) = ", BLAKE2B_8_EMPTY, MALFORMED),
    (b"sha256 (x) = ", SHA256_ABC, MALFORMED),
    (b"SHA256 () = ", SHA256_ABC, MALFORMED),
    (b"SHA256 (x) =", SHA256_ABC, MALFORMED),
    (b"SHA256 (a) = b) = ", SHA256_ABC, b"a) = b"),
    (b"\\SHA256 (a\\\\b\\n) = ", SHA256_ABC, b"a\\b\n"),
    (b"\\SHA256 (a\\x) = ", SHA256_ABC, MALFORMED),
    (b"SHA256(x) = ", SHA256_ABC, MALFORMED),
    (b"SHA256  (x) = ", SHA256_ABC, MALFORMED),
    (b"SHA256 (x) = ", SHA256_ABC[:2], MALFORMED),
    (b"MD5 (x) = ", SHA256_ABC, MALFORMED),
    (b" SHA256 (x) = ", SHA256_ABC, MALFORMED),
    (b"SHA256 (x)  =  ", SHA256_ABC, MALFORMED),
    (b"SHA2-256(x)= ", SHA256_ABC, MALFORMED),
    (b"BLAKE2b (x) = ", BLAKE2B_8_EMPTY, MALFORMED),
]


def escaped(name):
    return name.replace(b"\\", b"\\\\").replace(b"\n", b"\\n").replace(b"\r", b"\\r")


def reported(meaning):
    """The report on a list of one line."""
    if meaning == SKIPPED:
        return b""
    return b"line 1: MALFORMED\n" if meaning == MALFORMED else escaped(meaning) + b": OK\n"


def digest_of_abc(alg, size):
    """The digits of a digest of so many bytes, or none where there is no such digest."""
    if alg in ("blake2b", "blake2s"):
        made = getattr(hashlib, alg)
        return made(b"abc", digest_size=size).hexdigest().encode() if 0 < size <= made.MAX_DIGEST_SIZE else None
    digits = BLAKE3_ABC if alg == "blake3" else hashlib.new(alg, b"abc").hexdigest().encode()
    return digits if len(digits) == 2 * size else None


def files():
    meant = [row[-1] for row in LINES + TAGGED] + [name for name, _, _ in NAMES]
    for name in meant:
        if isinstance(name, bytes):
            with open(name, "wb") as file:
                file.write(b"abc")
    for name, content in (("empty", b""), ("1025", bytes(i % 251 for i in range(1025)))):
        with open(name, "wb") as file:
            file.write(content)


# ---- lines

def lines():
    for about, before, after, meaning in LINES:
        line = before + SHA256_ABC + after
        for ending, end in (("", b""), (" and an LF", b"\n")):
            check(about + ending, "sha256", line + end, reported(meaning))
    check("two digits more", "sha256", b"00" + SHA256_ABC + b"  abc.txt\n", reported(MALFORMED))
    upper = SHA256_ABC.upper() + b"  abc.txt\n"
    check("digits in upper case", "sha256", upper, b"abc.txt: OK\n", (1, 0, 0, 0, 0, 0, 0))
    for line, meaning in LINES_WITHOUT_DIGITS:
        check(f"{line!r}", "sha256", line + b"\n", reported(meaning))
    for before, digits, meaning in TAGGED:
        for alg in tables.HASHES:
            check(f"{before!r} in a list of {alg}", alg, before + digits, reported(meaning))


def sizes():
    """The number of digits names the algorithm: of each size, of both cases, and with one digit more."""
    for alg in tables.HASHES:
        for size in range(67):
            digits = digest_of_abc(alg, size)
            right = b"line 1: MALFORMED\n" if digits is None else b"abc.txt: OK\n"
            digits = digits or b"aF" * size
            digits = digits[:size].upper() + digits[size:]
            check(f"{alg} of {size} bytes", alg, digits + b"  abc.txt\n", right)
            check(f"{alg} of {size} bytes and a digit", alg, digits + b"0  abc.txt\n", b"line 1: MALFORMED\n")
    check("a shorter digest is another function's", "blake2s", b"50  abc.txt\n", b"abc.txt: FAILED\n")


def longest_lines():
    """A line has at most 65,536 bytes with its CR, and its name as it would be written."""
    table = [
        ("65,536 bytes", b"", b"n" * 65_470, b"", True),
        ("one byte more", b"", b"n" * 65_471, b"", False),
        ("a CR counts", b"", b"n" * 65_470, b"\r", False),
        ("65,536 bytes with a CR", b"", b"n" * 65_469, b"\r", True),
        ("65,536 bytes with a backslash", b"\\", b"n" * 65_469, b"", True),
        ("65 + 2 + 2 * n bytes as it is written", b"", b"\\" * 32_734, b"", True),
        ("one backslash more", b"", b"\\" * 32_735, b"", False),
    ]
    for about, lead, name, end, is_read in table:
        # no file has so long a name, and the line behind it is read in each case
        line = lead + SHA256_ABC + b"  " + name + end + b"\n" + SHA256_ABC + b"  abc.txt\n"
        first = escaped(name) + b": UNREADABLE\n" if is_read else b"line 1: MALFORMED\n"
        numbers = (1, 0, 0, 1, 0, 0, 0) if is_read else (1, 0, 0, 0, 0, 1, 0)
        check(about, "sha256", line, first + b"abc.txt: OK\n", numbers)
    check("a comment of 65,536 bytes", "sha256", b"#" * 65_536, b"", (0, 0, 0, 0, 0, 0, 1))
    too_long_lines(65_537)


def too_long_lines(size):
    """A line of so many bytes, as the whole list without an LF, and with a line behind it."""
    for byte in (b"#", b"a"):
        line = byte * size
        check(f"{size} bytes of {byte!r} without an LF", "sha256", line, b"line 1: MALFORMED\n")
        line += b"\n" + SHA256_ABC + b"  abc.txt\n"
        check(f"{size} bytes of {byte!r}", "sha256", line, b"line 1: MALFORMED\nabc.txt: OK\n")


# ---- lists

def lists():
    good, other = SHA256_ABC, SHA256_ABC[:-1] + b"e"
    each = (good + b"  abc.txt\n" + other + b"  abc.txt\n" + good + b"  none.txt\n" + good[1:] + b"  abc.txt\n"
        + b"# end\n")
    report = b"abc.txt: OK\nabc.txt: FAILED\nnone.txt: MISSING\nline 4: MALFORMED\n"
    check("each outcome", "sha256", each, report, (1, 1, 1, 0, 0, 1, 1))
    for given, count in ((b"", 0), (b"\n", 1), (b"\n\n", 2), (b"\r\n\r\n", 2), (b"# a\n\n#", 3)):
        check(f"{given!r}", "sha256", given, b"", (0, 0, 0, 0, 0, 0, count))
    report = b"".join(b"line %d: MALFORMED\n" % at for at in (1, 4, 10, 11))
    check("malformed lines", "sha256", b"x\n\n#\nx\n\n\n\n\n\nx\nx", report, (0, 0, 0, 0, 0, 4, 7))
    check("a malformed line far down", "sha256", b"\n" * 12_344 + b"x\n", b"line 12345: MALFORMED\n")
    for alg, digits, name in (
        ("sha256", SHA256_EMPTY, b"empty"),
        ("blake2s", BLAKE2S_ABC, b"abc.txt"),
        ("blake2b", BLAKE2B_8_EMPTY, b"empty"),
        ("blake3", BLAKE3_ABC, b"abc.txt"),
        ("blake3", BLAKE3_1025, b"1025"),
    ):
        check(f"{alg} twice", alg, 2 * (digits + b"  " + name + b"\n"), 2 * (name + b": OK\n"))


def both_forms():
    given = (b"SHA256 (abc.txt) = " + SHA256_ABC + b"\n" + BLAKE3_ABC + b"  abc.txt\n"
        + b"BLAKE2s (abc.txt) = " + BLAKE2S_ABC + b"\r\n" + b"BLAKE2s-256 (abc.txt) = " + BLAKE2S_ABC + b"\n"
        + b"\\SHA256 (a\\\\b\\n) = " + SHA256_ABC.upper() + b"\n" + b"BLAKE2b-8 (empty) = " + BLAKE2B_8_EMPTY + b"\n"
        + b"BLAKE3 (abc.txt) = " + SHA256_ABC + b"\n" + b"BLAKE2b-12 (abc.txt) = 000\n"
        + b"SHA256 (1025) = " + BLAKE3_1025 + b"\n" + b"BLAKE3 (1025) = " + BLAKE3_1025)
    report = (b"abc.txt: OK\n" * 4 + b"a\\\\b\\n: OK\nempty: OK\nabc.txt: FAILED\nline 8: MALFORMED\n"
        + b"1025: FAILED\n1025: OK\n")
    check("both forms", "blake3", given, report, (7, 2, 0, 0, 0, 1, 0))


def ends():
    """A list of one line that ends at each of its bytes."""
    line = SHA256_ABC + b"  abc.txt\n"
    for end in range(len(line) + 1):
        name = line[66:end].rstrip(b"\n")
        if name == b"abc.txt":
            report = b"abc.txt: OK\n"
        elif name:
            report = name + b": OK\n" if os.path.exists(name) else name + b": MISSING\n"
        else:
            report = b"line 1: MALFORMED\n" if end else b""
        check(f"a list that ends after {end} bytes", "sha256", line[:end], report)


# ---- written lines

def forms():
    """The lines of all names with a digest, plain and tagged: of which hash, its words, the digits and the report."""
    kinds = [(alg, int(each["most"]), each["label"].encode(), []) for alg, each in tables.HASHES.items()]
    kinds += [("blake2b", size, b"BLAKE2b-%d" % (8 * size), ["-l", str(size)]) for size in (1, 32)]
    for alg, size, label, words in kinds:
        digits = digest_of_abc(alg, size)
        plain = [lead + digits + end for _, lead, end in NAMES]
        tagged = [lead + label + b" (" + end[2:-1] + b") = " + digits + b"\n" for _, lead, end in NAMES]
        report = b"".join(end[2:-1] + b": OK\n" for _, _, end in NAMES)
        yield alg, words, digits, plain, report
        yield alg, [*words, "--tag"], digits, tagged, report


def written():
    """Lines of both forms, as `hash` writes them and `check` reads them back."""
    names = [name for name, _, _ in NAMES]
    for alg, words, _, lines_of_names, report in forms():
        about, want = " ".join(["lines of", alg, *words]), b"".join(lines_of_names)
        answer = run("hash", "-a", alg, *words, "--", *names)
        same(sized(about), answer, (0, want, b""))
        check(f"{about}, checked", alg, want, report, (len(NAMES), 0, 0, 0, 0, 0, 0))


# ---- lists under a key

KEY = bytes(range(32))
ABC_UNDER = Keyed("hmac-sha256", KEY, 32)
# Random lists here; random_lists.py goes through more.
RANDOM_LISTS = 300


def whole(function):
    return Keyed(function, KEY, TAGS[function][2])


def digits_under(kind, content=b"abc"):
    return kind.tag(content).encode()


def keyed_lines():
    """The lines of a list of digests with a tag in the place of each: the tagged ones are malformed."""
    digits = digits_under(ABC_UNDER)
    for about, before, after, meaning in LINES:
        report = reported(MALFORMED if before.endswith(b" = ") else meaning)
        for ending, end in (("", b""), (" and an LF", b"\n"), (" and a CR LF", b"\r\n")):
            if end != b"\r\n" or not after.endswith((b"\r", b"\\")):
                check(f"{about}{ending}, under a key", ABC_UNDER, before + digits + after + end, report)
    upper = digits.upper() + b"  abc.txt\n"
    check("digits in upper case, under a key", ABC_UNDER, upper, b"abc.txt: OK\n", (1, 0, 0, 0, 0, 0, 0))
    for line, meaning in LINES_WITHOUT_DIGITS:
        check(f"{line!r}, under a key", ABC_UNDER, line + b"\n", reported(meaning))
    for before, digits, _ in TAGGED:
        check(f"{before!r} under a key", ABC_UNDER, before + digits, reported(MALFORMED))


def keyed_sizes():
    """Without -l a tag is whole; with it, it has so many bytes. Any other number of digits is malformed."""
    for function, (least, most, _) in TAGS.items():
        kind = whole(function)
        for size in range(67):
            # the tag of the whole length cut short, or with more digits
            digits = (digits_under(kind) + b"aF" * 67)[:2 * size]
            if least <= size <= most:
                digits = digits_under(kind._replace(size=size))
            report = b"abc.txt: OK\n" if size == kind.size else b"line 1: MALFORMED\n"
            check(f"{function} of {size} bytes", kind, digits + b"  abc.txt\n", report)
        for size in range(least, most + 1):
            kind = kind._replace(size=size)
            digits, other = digits_under(kind), digits_under(whole(function))
            lines = (digits[:-2], digits, digits + b"0", digits + b"00", other)
            reports = (b"abc.txt: OK\n" if line == digits else b"line %d: MALFORMED\n" % at
                for at, line in enumerate(lines, 1))
            given = b"".join(line + b"  abc.txt\n" for line in lines)
            check(f"{function} with -l {size}", kind, given, b"".join(reports))


def keyed_lists():
    """Each outcome, in one list and in several."""
    good, other = digits_under(ABC_UNDER), digits_under(ABC_UNDER, b"")
    each = (good + b"  abc.txt\n" + other + b"  abc.txt\n" + good + b"  none.txt\n" + good[2:] + b"  abc.txt\n"
        + b"SHA256 (abc.txt) = " + SHA256_ABC + b"\n# end\n" + other + b"  empty\r\n" + SHA256_ABC + b" *abc.txt")
    report = (b"abc.txt: OK\nabc.txt: FAILED\nnone.txt: MISSING\nline 4: MALFORMED\nline 5: MALFORMED\nempty: OK\n"
        + b"abc.txt: FAILED\n")
    check("each outcome under a key", ABC_UNDER, each, report, (2, 2, 1, 0, 0, 2, 1))
    check("digests under a key", ABC_UNDER, SHA256_ABC + b"  abc.txt\n", b"abc.txt: FAILED\n")
    check("a list of comments under a key", ABC_UNDER, b"\n# a\n#", b"", (0, 0, 0, 0, 0, 0, 3))
    for name, content in (("first list", each), ("second list", good + b"  abc.txt\n"), ("the key", KEY)):
        with open(name, "wb") as file:
            file.write(content)
    answer = run("check", "-a", "hmac-sha256", "--key-file", "the key", "second list", "first list", "-", given=each)
    wanted = b"abc.txt: OK\n" + b"".join(report.replace(b"line ", list + b": line ") for list in (b"first list", b"-"))
    told = b"".join(b"sums: %b: %b1\n" % (list, random_lists.TAGGED) for list in (b"first list", b"-"))
    same(sized("several lists under a key"), answer, (1, wanted, told))


def keyed_written():
    """Lines as `mac` writes them and `check` reads them back, with the key as digits and in a file."""
    with open("the key", "wb") as file:
        file.write(KEY)
    names = [name for name, _, _ in NAMES]
    report = b"".join(end[2:-1] + b": OK\n" for _, _, end in NAMES)
    for kind in (*map(whole, TAGS), Keyed("blake3", KEY, 64), Keyed("blake2b", KEY, 1), Keyed("hmac-sha256", KEY, 16)):
        want = b"".join(lead + digits_under(kind) + end for _, lead, end in NAMES)
        for is_file in (False, True):
            about, words = f"lines of {kind.function} of {kind.size} bytes", kind.words(is_file)
            same(sized(about), run("mac", *words, "--", *names), (0, want, b""))
            same(sized(f"{about}, checked"), run("check", *words, given=want), (0, report, b""))


def random_tags():
    """Random lists under random keys, by a second reading of FORMAT. The seed stays, so that each run has the same."""
    with harness.folder():
        for about, answer, wanted in random_lists.keyed_runs(program, RANDOM_LISTS, random.Random(1)):
            same(about, answer, wanted)


def main():
    global program, settings, takes_keys
    program, takes_keys = harness.program(), harness.arguments(1)[1:] != ["digests"]
    rows = [lines, longest_lines, lists, both_forms, ends, written]
    if takes_keys:
        rows += [keyed_lines, keyed_lists, keyed_written]
    with harness.folder():
        files()
        sizes()
        too_long_lines(1_048_576)
        if takes_keys:
            keyed_sizes()
        library = harness.preloaded("fail_call")
        for settings in ({}, *({"LD_PRELOAD": library, "SHORT": str(size)} for size in SIZES)):
            for table in rows:
                table()
        settings = {}
    if takes_keys:
        random_tags()
    harness.finish()


if __name__ == "__main__":
    main()

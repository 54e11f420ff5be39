#!/usr/bin/env python3
"""Compares the C library with a second writing of the standards, that of standards.py; and both with hashlib, hmac and
b3sum, where that is installed, and with the outside values of tests/tables/vectors.
usage: tests/library/definitions.py ARCHIVE    ARCHIVE is a libsums_hash.a beside its header, which bindings/python is built with
"""

import hashlib
import hmac
import os
import shutil
import subprocess
import sys
import tempfile

sys.path.append(os.path.join(os.path.dirname(os.path.realpath(__file__)), ".."))

import harness
from standards import BLAKE2, CHUNK, KEYED, blake2, expand, extract, mode_of, output, tag, tree


def same(name, got, wanted):
    """Counts a case that has to give this."""
    harness.judge(name, got == wanted, f"got    {told(got)}", f"wanted {told(wanted)}")


def told(value):
    return value[:80].hex() if isinstance(value, bytes) else repr(value)


# ---- the library

PIECES = (1, 63, 64, 65, 1024)


def cut(data, size):
    return [data[at : at + size] for at in range(0, len(data), size)]


def each_way(name, make, data, want, read=lambda hasher: hasher.digest(), sizes=PIECES):
    """The library's answer for the data in pieces of each size, and whole."""
    for size in sizes:
        hasher = make()
        for piece in cut(data, size):
            hasher.update(piece)
        same(f"{name} in pieces of {size}", read(hasher), want)
    same(f"{name} whole", read(make(data)), want)


def cycle(length):
    """The bytes 0 to 250 over and over, as in the official vectors of BLAKE3."""
    return (bytes(range(251)) * (length // 251 + 1))[:length]


def counting(length, first=0):
    return bytes((first + i) % 256 for i in range(length))


# ---- BLAKE2 at each length

def blake2_lengths():
    """Past two blocks of either function, and past four of the shorter; under the longest key these are the official
    vectors under a key."""
    for name, kind in BLAKE2.items():
        long_key = counting(kind.longest)
        for settings in (
            {"digest_size": kind.longest},
            {"digest_size": kind.longest, "key": long_key},
            {"digest_size": 20, "key": b"a key"},
            {"digest_size": 1, "key": b"k", "salt": counting(kind.salt, 100), "person": counting(kind.salt, 200)},
        ):
            for length in range(261):
                blake2_case(f"{name} of {length} bytes", name, counting(length), settings)


def blake2_case(about, name, data, settings):
    size, *rest = (settings.get(word, b"") for word in ("digest_size", "key", "salt", "person"))
    want = blake2(name, data, size, *rest)
    same(f"{about} by hashlib", getattr(hashlib, name)(data, **settings).digest(), want)
    each_way(about, lambda given=b"": getattr(sums_hash, name)(given, **settings), data, want)


def blake2_empty_pieces():
    """Pieces of no bytes before, between and behind others."""
    for name in BLAKE2:
        hasher = getattr(sums_hash, name)()
        for piece in (b"", b"ab", b"", b"c", b""):
            hasher.update(piece)
        same(f"{name} of abc with empty pieces", hasher.digest(), getattr(hashlib, name)(b"abc").digest())


def sha2_lengths():
    for name in ("sha256", "sha512"):
        for length in range(261):
            want = hashlib.new(name, counting(length)).digest()
            each_way(f"{name} of {length} bytes", getattr(sums_hash, name), counting(length), want)


# of each: the bytes of a block, those of the length in its padding, and blocks past some runs that are taken at once
SHA2 = {"sha256": (64, 8, 17), "sha512": (128, 16, 25)}


def sha2_edges():
    """About the edges of a block, of its padding and of runs of blocks, the last of them behind other runs."""
    for name, (block, count, blocks) in SHA2.items():
        for edge in range(block, block * blocks + 1, block):
            for length in (edge - count - 1, edge - count, edge - 1, edge, edge + 1):
                want = hashlib.new(name, counting(length)).digest()
                each_way(f"{name} of {length} bytes", getattr(sums_hash, name), counting(length), want,
                         sizes=range(1, 131))


def sha2_cuts():
    """About the edges of the first two blocks and of their padding, cut in two at each byte."""
    for name, (block, count, _) in SHA2.items():
        for edge in (block - count, block, 2 * block - count, 2 * block):
            for length in range(edge - 2, edge + 2):
                data = counting(length)
                want, keyed_want = hashlib.new(name, data).digest(), hmac.digest(b"key", data, name)
                for first in range(length + 1):
                    hasher = getattr(sums_hash, name)(data[:first])
                    hasher.update(data[first:])
                    same(f"{name} of {length} bytes, cut at {first}", hasher.digest(), want)
                    keyed = getattr(sums_hash, "hmac_" + name)(b"key", data[:first])
                    keyed.update(data[first:])
                    same(f"hmac {name} of {length} bytes, cut at {first}", keyed.digest(), keyed_want)


def sequence(length):
    """RFC 7693, appendix E: bytes of a sequence that begins at its own length."""
    a, b, out = 0xDEAD4BAD * length % 2**32, 1, bytearray()
    for _ in range(length):
        a, b = b, (a + b) % 2**32
        out.append(b >> 24)
    return bytes(out)


def self_test(name, digest_lengths, input_lengths, want):
    """RFC 7693, appendix E: the hash of digests without and with a key."""
    by_library, by_definition = getattr(sums_hash, name)(digest_size=32), b""
    for size in digest_lengths:
        for length in input_lengths:
            for key in (b"", sequence(size)):
                data = sequence(length)
                by_library.update(getattr(sums_hash, name)(data, digest_size=size, key=key).digest())
                by_definition += blake2(name, data, size, key)
    same(f"{name}, the self-test", by_library.hexdigest(), want)
    same(f"{name}, the self-test by the definition", blake2(name, by_definition, 32).hex(), want)


# ---- BLAKE3 in three modes

KEY = b"whats the Elvish word for friend"
CONTEXT = "BLAKE3 2019-12-27 16:29:52 test vectors context"
# the words of the library, those of b3sum, and what that reads
MODES = [({}, [], b""), ({"key": KEY}, ["--keyed"], KEY),
         ({"derive_key_context": CONTEXT}, ["--derive-key", CONTEXT], b"")]


def mode_under(words):
    return mode_of(words.get("key"), words.get("derive_key_context"))


# two blocks of output and three bytes, as the official vectors have
LONG = 131
# each number of chunks up to one above a power of two: a byte short of whole, whole, and a byte over
TREES = sorted({length + more for length in range(CHUNK, 18 * CHUNK, CHUNK) for more in (-1, 0, 1)})


def blake3_trees():
    for words, _, _ in MODES:
        mode = mode_under(words)
        for length in [0, 1, 63, 64, 65] + TREES:
            data = cycle(length)
            want = output(tree(mode, 0, data), 0, LONG)
            each_way(f"blake3 of {length} bytes, {words}", lambda given=b"": sums_hash.blake3(given, **words), data,
                     want, lambda hasher: hasher.digest(LONG))


def blake3_contexts():
    """Contexts about a block and a chunk, and of some chunks."""
    for length in (0, 1, 63, 64, 65, 1023, 1024, 1025, 3000):
        context = "c" * length
        want = output(tree(mode_of(context=context), 0, b"material"), 0, LONG)
        got = sums_hash.blake3(b"material", derive_key_context=context).digest(LONG)
        same(f"a context of {length} bytes", got, want)


# where groups of eight chunks, and runs of such groups, begin and end: a length, and where it is cut in two
CUTS = [(1025, 1), (1025, 1024), (8192, 8192), (8193, 8193), (8193, 8192), (8193, 1), (16384, 16384), (16384, 8191),
        (16385, 16385), (16385, 1), (16385, 16384), (2048, 2048), (3072, 3072), (4096, 4096), (5120, 5120),
        (7168, 7168), (17408, 1024), (16384, 3072), (32768, 32768), (32768, 24576), (65536, 65536), (65537, 65537),
        (65536, 32768)]


def blake3_cuts():
    for words, _, _ in MODES:
        mode = mode_under(words)
        for length, first in CUTS:
            data = cycle(length)
            hasher = sums_hash.blake3(data[:first], **words)
            hasher.update(data[first:])
            want = output(tree(mode, 0, data), 0, LONG)
            same(f"blake3 of {length} bytes, cut at {first}, {words}", hasher.digest(LONG), want)


def blake3_positions():
    """Stretches of output: about the first blocks, about block 2^32, and up to the last byte."""
    for length in (0, 1025):
        hasher, root = sums_hash.blake3(cycle(length)), tree(mode_of(), 0, cycle(length))
        whole = output(root, 0, 270)
        for position in range(131):
            for count in range(131):
                got, want = hasher.digest(count, seek=position), whole[position : position + count]
                same(f"{count} bytes of output of {length} at {position}", got, want)
    for position in (2**38 - 32, 2**38, 2**38 + 1, 2**63 - 1, 2**63, 2**64 - 1 - LONG):
        got, want = hasher.digest(LONG, seek=position), output(root, position, LONG)
        same(f"output at {position}", got, want)


def digest_of_digests(lengths, sizes, want):
    """Digests of many lengths, in pieces, in one digest: by b3sum when this was written, and by the definition."""
    data = cycle(max(lengths))
    digests = b"".join(output(tree(mode_of(), 0, data[:length]), 0, 32) for length in lengths)
    same("digests by the definition", output(tree(mode_of(), 0, digests), 0, 32).hex(), want)
    for size in sizes:
        together = sums_hash.blake3()
        for length in lengths:
            hasher = sums_hash.blake3()
            for piece in cut(data[:length], size):
                hasher.update(piece)
            together.update(hasher.digest())
        same(f"digests in pieces of {size}", together.hexdigest(), want)


def blake3_digests():
    short = [min(CHUNK * i + more, 20_000) for i in range(20) for more in (0, 1, 64, 1023)]
    digest_of_digests(short, (1, 63, 64, 1023, 1024, 1025, 4096, 8192, 8193, 65_536),
                      "4fddeaf0b5761dbe8ec427a8ee31e6ae57c3b3594e82e9a65344fe75742a360b")
    long = [32_768, 65_537, 102_400, 131_072, 200_000, 262_145, 524_288, 1_048_576, 1_048_577, 1_100_000]
    digest_of_digests(long, (4096, 16_384, 65_536, 131_072, 262_144, 1_100_000),
                      "dcd0b36a350b2f93302fba7abe1aeb758e51857d11718a723a06aeb31005047e")


def b3sum():
    """The same lengths by b3sum."""
    if not shutil.which("b3sum"):
        print("b3sum is not installed: nothing was compared with it")
        return
    with tempfile.TemporaryDirectory() as work:
        lengths = [0, 1, 63, 64, 65] + TREES + [102_400]
        for length in lengths:
            with open(os.path.join(work, str(length)), "wb") as file:
                file.write(cycle(length))
        for words, flags, given in MODES:
            command = ["b3sum", "--no-names", "-l", str(LONG), *flags, *map(str, lengths)]
            told = subprocess.run(command, cwd=work, input=given, capture_output=True, check=True).stdout.split()
            for length, digits in zip(lengths, told, strict=True):
                got = sums_hash.blake3(cycle(length), **words).digest(LONG)
                same(f"blake3 of {length} bytes by b3sum, {words}", got.hex(), digits.decode())


# ---- the pieces of a buffer

def pieces():
    """About blocks, chunks and groups of eight chunks, of each function: whole pieces, and a short one behind them."""
    shorter = (1, 63, 64, 65, 127, 128, 129, 1023, 1024, 1025)
    alone = {
        "sha256": (shorter, lambda piece: hashlib.sha256(piece).digest()),
        "sha512": ((*shorter, 111, 112), lambda piece: hashlib.sha512(piece).digest()),
        "blake2b": (shorter, lambda piece: blake2("blake2b", piece, 64)),
        "blake2s": (shorter, lambda piece: blake2("blake2s", piece, 32)),
        "blake3": ((*shorter, 8191, 8192, 8193), lambda piece: output(tree(mode_of(), 0, piece), 0, 32)),
    }
    for name, (lengths, digest) in alone.items():
        for length in lengths:
            for rest in {0, 1, length - 1}:
                data = cycle(9 * length + rest)
                got, want = getattr(sums_hash, name + "_pieces")(data, length), b"".join(map(digest, cut(data, length)))
                same(f"{name} of {len(data)} bytes in pieces of {length}, each alone", got, want)


# ---- HMAC and HKDF

def keyed_lengths():
    for name, (block, size) in KEYED.items():
        # empty, one byte, and about a block, where the key begins to be hashed
        for key in map(counting, (0, 1, block - 1, block, block + 1, 200)):
            for text in map(counting, (0, 1, block - 1, block, block + 1)):
                want = tag(name, key, text)
                about = f"hmac {name} of {len(text)} bytes under {len(key)}"
                same(f"{about} by hmac", hmac.new(key, text, name).digest(), want)
                each_way(about, lambda given=b"": getattr(sums_hash, "hmac_" + name)(key, given), text, want)
        shortened(name, size)
        expanded(name, size)


def refused(call):
    """The status of a call that is refused, or what it gave."""
    try:
        return call()
    except sums_hash.Refused as fault:
        return fault.status


def shortened(name, size):
    """Half a digest at least and a whole one at most, from the left."""
    hasher, want = getattr(sums_hash, "hmac_" + name)(b"key", b"text"), tag(name, b"key", b"text")
    for count in range(size + 2):
        wanted = want[:count] if size // 2 <= count <= size else 1
        same(f"hmac {name} of {count} bytes", refused(lambda: hasher.digest(count)), wanted)


def expanded(name, size):
    prk, info = counting(size, 23), b"info"
    for length in (0, 1, size - 1, size, size + 1, 2 * size, 255 * size):
        got, want = sums_hash.hkdf_expand(name, prk, length, info=info), expand(name, prk, info, length)
        same(f"{length} bytes of hkdf {name}", got, want)
        for salt in (b"", bytes(size), b"salt"):
            want = expand(name, extract(name, salt, b"material"), info, length)
            got = sums_hash.hkdf(name, b"material", length, salt=salt, info=info)
            same(f"{length} bytes of hkdf {name}, salt {salt}", got, want)
    # an absent salt is a digest of zeros, which HMAC pads as it pads nothing
    same(f"no salt, {name}", sums_hash.hkdf_extract(name, b"m"), sums_hash.hkdf_extract(name, b"m", salt=bytes(size)))
    for key, length, status in ((prk, 255 * size + 1, 5), (prk[1:], 1, 2), (prk[1:], 255 * size + 1, 2), (b"", 0, 2)):
        got = refused(lambda: sums_hash.hkdf_expand(name, key, length, info=info))
        same(f"{length} bytes of hkdf {name} under {len(key)}", got, status)


# ---- the values of tests/tables/vectors

# the columns of a table that stand for bytes
SPELLED = {"key", "salt", "personal", "context", "message", "text", "material", "info"}


def spelled(text):
    """- for none, text:TEXT, hex:DIGITS, count:FIRST:LENGTH, repeat:BYTE:LENGTH, cycle:LENGTH"""
    form, _, value = text.partition(":")
    if form == "text":
        return value.encode()
    first, _, length = value.partition(":")
    return {
        "-": lambda: b"",
        "hex": lambda: bytes.fromhex(value),
        "count": lambda: counting(int(length), int(first)),
        "repeat": lambda: bytes.fromhex(first) * int(length),
        "cycle": lambda: cycle(int(value)),
    }[form]()


def rows(name):
    """The rows of a table, under the names of its first line."""
    with open(os.path.join(harness.HERE, "tables", "vectors", name + ".tsv")) as file:
        columns, *lines = [line.rstrip("\n").split("\t") for line in file if not line.startswith("#")]
    for line in lines:
        yield {name: spelled(value) if name in SPELLED else value for name, value in zip(columns, line, strict=True)}


def vectors():
    for row in rows("sha2"):
        want = bytes.fromhex(row["digest"])
        make = getattr(sums_hash, row["hash"])
        each_way(f"a vector of {row['hash']}", lambda given=b"": make(given), row["message"], want)
    for row in rows("blake2"):
        want = bytes.fromhex(row["digest"])
        name, message, parameters = row["hash"], row["message"], [row["key"], row["salt"], row["personal"]]
        settings = dict(zip(("digest_size", "key", "salt", "person"), [len(want), *parameters]))
        same(f"a vector of {name}", blake2(name, message, len(want), *parameters), want)
        blake2_case(f"a vector of {name}", name, message, settings)
    for row in rows("blake3"):
        want, position = bytes.fromhex(row["output"]), int(row["position"])
        words = {"key": row["key"]} if row["key"] else {}
        words |= {"derive_key_context": row["context"].decode()} if row["context"] else {}
        about, message = f"a vector of blake3 at {position}", row["message"]
        each_way(about, lambda given=b"": sums_hash.blake3(given, **words), message, want,
                 lambda hasher: hasher.digest(len(want), seek=position))
        same(about, output(tree(mode_under(words), 0, message), position, len(want)), want)
    for row in rows("hmac"):
        want, key, text = bytes.fromhex(row["tag"]), row["key"], row["text"]
        about, make = f"a vector of hmac {row['hash']}", getattr(sums_hash, "hmac_" + row["hash"])
        each_way(about, lambda given=b"": make(key, given), text, want, lambda hasher: hasher.digest(len(want)))
        same(about, tag(row["hash"], key, text)[: len(want)], want)
    for row in rows("hkdf"):
        hkdf_vector(row, bytes.fromhex(row["prk"]), bytes.fromhex(row["okm"]))


def hkdf_vector(row, prk, key):
    name, salt, material, info = row["hash"], row["salt"], row["material"], row["info"]
    about = f"a vector of hkdf {name}"
    same(about, extract(name, salt, material), prk)
    same(about, expand(name, prk, info, len(key)), key)
    same(about, sums_hash.hkdf_extract(name, material, salt=salt), prk)
    same(about, sums_hash.hkdf_expand(name, prk, len(key), info=info), key)
    same(about, sums_hash.hkdf(name, material, len(key), salt=salt, info=info), key)


def main():
    vectors()
    self_test("blake2b", (20, 32, 48, 64), (0, 3, 128, 129, 255, 1024),
              "c23a7800d98123bd10f506c61e29da5603d763b8bbad2e737f5e765a7bccd475")
    self_test("blake2s", (16, 20, 28, 32), (0, 3, 64, 65, 255, 1024),
              "6a411f08ce25adcdfb02aba641451cec53c598b24f4fc787fbdc88797f4c1dfe")
    blake2_lengths()
    blake2_empty_pieces()
    sha2_lengths()
    sha2_edges()
    sha2_cuts()
    blake3_trees()
    blake3_contexts()
    blake3_cuts()
    blake3_positions()
    blake3_digests()
    b3sum()
    pieces()
    keyed_lengths()
    harness.finish()


if __name__ == "__main__":
    archive = harness.program(os.R_OK)
    sys.dont_write_bytecode = True
    with tempfile.TemporaryDirectory() as work:
        package = shutil.copytree(os.path.join(harness.HERE, "..", "bindings", "python"), os.path.join(work, "python"))
        subprocess.run([sys.executable, "setup.py", "-q", "build_ext", "-f", "--inplace"], cwd=package, check=True,
                       env={**os.environ, "SUMS_HASH_LIB_DIR": os.path.dirname(archive)})
        sys.path.insert(0, package)
        import sums_hash

        main()

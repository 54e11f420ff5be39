#!/usr/bin/env python3
"""Compares the module of Python with hashlib and hmac on random messages.
usage: tests/library/library_python.py [TOLD]    with sums_hash on the path; TOLD is what tests/library/library_rust.rs printed
"""

import hashlib
import hmac
import itertools
import os
import random
import sys

import sums_hash

sys.path.append(os.path.join(os.path.dirname(os.path.realpath(__file__)), ".."))

import harness
from harness import same


def in_pieces(hasher, data):
    while data:
        count = random.randrange(1, 400)
        hasher.update(data[:count])
        hasher = hasher.copy() if random.random() < 0.2 else hasher
        data = data[count:]
    return hasher


def hkdf(name, material, length, salt, info):
    prk = hmac.new(salt, material, name).digest()
    out, block = b"", b""
    for count in range(1, 256):
        block = hmac.new(prk, block + info + bytes([count]), name).digest()
        out += block
    return prk, out[:length]


def random_message():
    data, key = os.urandom(random.randrange(3000)), os.urandom(random.randrange(150))
    for name, most, salt in (("blake2b", 64, 16), ("blake2s", 32, 8)):
        settings = {
            "digest_size": random.randrange(1, most + 1), "key": key[:most],
            "salt": os.urandom(random.randrange(salt + 1)), "person": os.urandom(salt),
        }
        want = getattr(hashlib, name)(data, **settings).digest()
        same(name, getattr(sums_hash, name)(data, **settings).digest(), want)
        same(name, in_pieces(getattr(sums_hash, name)(**settings), data).digest(), want)
    for name in ("sha256", "sha512"):
        want = hashlib.new(name, data).digest()
        same(name, getattr(sums_hash, name)(bytearray(data)).digest(), want)
        same(name, in_pieces(getattr(sums_hash, name)(), data).digest(), want)
    for name, size in sums_hash.DIGEST_SIZES.items():
        count = random.randrange(size // 2, size + 1)
        want = hmac.new(key, data, name).digest()[:count]
        hasher = in_pieces(getattr(sums_hash, "hmac_" + name)(key), bytearray(data))
        same("hmac " + name, hasher.digest(count), want)
        same("hmac_digest " + name, sums_hash.hmac_digest(key, data, name)[:count], want)
        length, info = random.randrange(1, 255 * size + 1), os.urandom(random.randrange(50))
        prk, want = hkdf(name, data, length, key, info)
        same("hkdf " + name, sums_hash.hkdf(name, data, length, salt=key, info=info), want)
        same("extract " + name, sums_hash.hkdf_extract(name, data, salt=key), prk)
        same("expand " + name, sums_hash.hkdf_expand(name, prk, length, info=info), want)
    output = in_pieces(sums_hash.blake3(), data)
    same("blake3", output.digest(100, seek=7), output.digest(200)[7:107])
    length, size = random.randrange(1, 400), random.randrange(1, 33)
    for name, want in of_pieces(data, length, size):
        settings = {"digest_size": size} if "blake2" in name else {}
        same(name, getattr(sums_hash, name)(data, length, **settings), want)


def of_pieces(data, length, size):
    """For each call on the pieces of a buffer the digests of the pieces, of BLAKE2 with so many bytes, by hashlib, and
    BLAKE3 by an object for each."""
    pieces = [data[at : at + length] for at in range(0, len(data), length)]
    yield "sha256_pieces", b"".join(hashlib.sha256(piece).digest() for piece in pieces)
    yield "sha512_pieces", b"".join(hashlib.sha512(piece).digest() for piece in pieces)
    yield "blake3_pieces", b"".join(sums_hash.blake3(piece).digest() for piece in pieces)
    yield "blake2b_pieces", b"".join(hashlib.blake2b(piece, digest_size=size).digest() for piece in pieces)
    yield "blake2s_pieces", b"".join(hashlib.blake2s(piece, digest_size=size).digest() for piece in pieces)


def refusals():
    for what, call in (
        ("digest", lambda: sums_hash.blake2b(digest_size=65)),
        ("half a tag", lambda: sums_hash.hmac_blake2b(b"").digest(31)),
        ("half a tag of SHA-2", lambda: sums_hash.hmac_sha512(b"", b"").digest(31)),
    ):
        try:
            call()
            same(what, "taken", "refused")
        except sums_hash.Refused as refused:
            same(what, refused.status, 1)
    for call in (lambda: sums_hash.blake2b(key=bytes(65)), lambda: sums_hash.hkdf_expand("sha256", bytes(31), 1)):
        try:
            call()
            same("key", "taken", "refused")
        except sums_hash.Refused as refused:
            same("key", refused.status, 2)
    for call in (lambda: sums_hash.blake3().digest(1, seek=2**64 - 1), lambda: sums_hash.hkdf("sha256", b"", 8161)):
        try:
            call()
            same("output", "taken", "refused")
        except sums_hash.Refused as refused:
            same("output", refused.status, 5)
    try:
        sums_hash.sha256_pieces(b"abc", 0)
        same("pieces of no bytes", "taken", "refused")
    except sums_hash.Refused as refused:
        same("pieces of no bytes", refused.status, 6)
    for call in (
        lambda: sums_hash.blake3(key=b"short"), lambda: sums_hash.blake2b(salt=bytes(17)),
        lambda: sums_hash.blake3().digest(-1), lambda: sums_hash.hkdf("md5", b"", 1),
        lambda: sums_hash.blake3(key=bytes(32), derive_key_context="x"),
    ):
        try:
            call()
            same("a wrong value", "taken", "refused")
        except ValueError as error:
            same("a wrong value", isinstance(error, sums_hash.Refused), False)
    try:
        sums_hash.sha256("text")
        same("a text", "taken", "refused")
    except TypeError:
        same("a text", True, True)


def told_by_rust():
    """What tests/library/library_rust.rs prints, by hashlib and hmac, and BLAKE3 by the module of Python."""
    data = bytes(i % 251 for i in range(1000))
    key, salt, person = data[:32], data[40:56], data[60:76]
    settings = {"digest_size": 20, "key": key}
    whole = [
        ("blake2b", hashlib.blake2b(data, **settings).digest()),
        ("blake2b_salted", hashlib.blake2b(data, **settings, salt=salt, person=person).digest()),
        ("blake2s", hashlib.blake2s(data, **settings).digest()),
        ("blake2s_salted", hashlib.blake2s(data, **settings, salt=salt[:8], person=person[:8]).digest()),
    ]
    lines = whole + whole
    settings = {"length": 100, "seek": 2**40 + 7}
    whole = [
        ("blake3", sums_hash.blake3(data).digest(**settings)),
        ("blake3_keyed", sums_hash.blake3(data, key=key).digest(**settings)),
        ("blake3_derive", sums_hash.blake3(data, derive_key_context="c" * 100).digest(**settings)),
    ]
    lines += whole + [line for line in whole for _ in range(2)]
    whole = [("sha256", hashlib.sha256(data).digest()), ("sha512", hashlib.sha512(data).digest())]
    lines += [("blake3_hash", sums_hash.blake3(data).digest()), *whole, *whole]
    for name in ("sha256", "sha512", "blake2b", "blake2s"):
        prk, key_of = hkdf(name, data, 100, salt, person)
        lines += [("hmac " + name, hmac.new(key, data, name).digest())]
        lines += [("hkdf " + name, key_of), ("extract " + name, prk), ("hkdf " + name, key_of)]
    lines += [("hmac " + name, hmac.new(key, data, name).digest()) for name in sums_hash.DIGEST_SIZES]
    lines += of_pieces(data, 77, 20)
    names = ["", "DigestLength", "KeyLength", "InputTooLong", "", "EndOfOutput", "PieceLength", "OutputLength"]
    statuses = [1, 2, 5, 2, 6, 7, 1, 7, 1, 1, 1, 1, 1, 3]
    refusals = [f"refused {names[status]}: {sums_hash.Refused(status)}" for status in statuses]
    return [f"{name} {value.hex()}" for name, value in lines] + refusals


def main():
    for _ in range(300):
        random_message()
    refusals()
    for path in harness.arguments(0):
        with open(path) as file:
            told, wanted = file.read().splitlines(), told_by_rust()
            # after the text of a refusal come the lengths that there are
            told = [text if line.startswith(f"{text}: ") and text.startswith("refused ") else line
                    for line, text in itertools.zip_longest(told, wanted, fillvalue="")]
            same("the module of Rust", told, wanted)
    harness.finish()


main()

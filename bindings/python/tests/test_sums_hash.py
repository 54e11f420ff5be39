# SPDX-License-Identifier: MIT OR Apache-2.0
"""What a user of hashlib and hmac expects of sums_hash.
python3 -m unittest discover bindings/python/tests    with sums_hash on the path"""

import array
import copy
import hashlib
import hmac
import io
import os
import pickle
import random
import re
import subprocess
import sys
import tempfile
import threading
import unittest

import sums_hash

FIXED = ("sha256", "sha512", "blake2b", "blake2s")
DATA = bytes(range(256)) * 5


def every_object():
    """One object of each kind, each of the same message."""
    for name in sums_hash.algorithms_guaranteed:
        yield sums_hash.new(name, DATA)
    for name in FIXED:
        yield sums_hash.new(f"hmac-{name}", DATA, key=b"key")


class AsHashlib(unittest.TestCase):
    def test_names(self):
        self.assertEqual(sums_hash.algorithms_guaranteed, {"sha256", "sha512", "blake2b", "blake2s", "blake3"})
        self.assertLessEqual(sums_hash.algorithms_guaranteed, sums_hash.algorithms_available)
        for name in FIXED:
            theirs, ours = hashlib.new(name, DATA), sums_hash.new(name.upper(), DATA)
            for word in ("name", "digest_size", "block_size"):
                self.assertEqual(getattr(ours, word), getattr(theirs, word))
            self.assertEqual(ours.hexdigest(), theirs.hexdigest())
        for name in ("md5", "sha-256", "", "bla\u212ae2b"):
            text = f"^unsupported hash type {name}: the hashes are sha256, sha512, blake2b, blake2s, blake3$"
            with self.assertRaisesRegex(ValueError, text):
                sums_hash.new(name)
        self.assertRaises(TypeError, sums_hash.new, 1)
        self.assertRaises(TypeError, sums_hash.new, "hmac-sha256")

    def test_limits_of_blake2(self):
        for name in ("blake2b", "blake2s"):
            ours, theirs = getattr(sums_hash, name), getattr(hashlib, name)
            for word in ("MAX_DIGEST_SIZE", "MAX_KEY_SIZE", "SALT_SIZE", "PERSON_SIZE"):
                self.assertEqual(getattr(ours, word), getattr(theirs, word))
            for wrong in ({"digest_size": 0}, {"digest_size": -1}, {"digest_size": ours.MAX_DIGEST_SIZE + 1},
                          {"key": bytes(ours.MAX_KEY_SIZE + 1)}, {"salt": bytes(ours.SALT_SIZE + 1)},
                          {"person": bytes(ours.PERSON_SIZE + 1)}, {"fanout": 2}, {"last_node": True}):
                self.assertRaises(ValueError, ours, **wrong)
            self.assertRaises(TypeError, ours, digest_size=1.0)

    def test_bounds(self):
        """A refusal names the bounds, of the type whatever a class of one's own says."""
        own = type("Own", (sums_hash.blake2b,), {"MAX_DIGEST_SIZE": 99, "digest_size": 99, "MAX_KEY_SIZE": 99})
        sizes, lengths = "digest_size must be between 1 and {} bytes", "length must be between {} and {} bytes"
        for text, status, call in (
            (sizes.format(64), 1, lambda: sums_hash.blake2b(digest_size=0)),
            (sizes.format(64), 1, lambda: own(digest_size=65)),
            (sizes.format(64), 1, lambda: sums_hash.blake2b(digest_size=-1)),
            (sizes.format(32), 1, lambda: sums_hash.blake2s(digest_size=2**63)),
            (sizes.format(32), 1, lambda: sums_hash.blake2s_pieces(b"abc", 1, -2**70)),
            (sizes.format(32), 1, lambda: sums_hash.blake2s(b"abc", digest_size=33)),
            (sizes.format(64), 1, lambda: sums_hash.blake2b_pieces(b"abc", 1, 65)),
            (sizes.format(32), 1, lambda: sums_hash.blake2s_pieces(b"abc", 1, digest_size=0)),
            (lengths.format(16, 32), 1, lambda: sums_hash.hmac_sha256(b"").digest(15)),
            (lengths.format(32, 64), 1, lambda: sums_hash.hmac_blake2b(b"").hexdigest(2**60)),
            (lengths.format(16, 32), 1, lambda: sums_hash.hmac_sha256(b"").digest(-1)),
            (lengths.format(0, 8160), 5, lambda: sums_hash.hkdf("sha256", b"", 8161)),
            (lengths.format(0, 8160), 5, lambda: sums_hash.hkdf("sha256", b"", -1)),
            (lengths.format(0, 16320), 5, lambda: sums_hash.hkdf_expand("sha512", bytes(64), 2**64)),
            (lengths.format(0, 16320), 5, lambda: sums_hash.hkdf_expand("BLAKE2B", bytes(64), 2**60)),
            ("prk must be at least 32 bytes", 2, lambda: sums_hash.hkdf_expand("blake2s", bytes(31), 1)),
            ("key must be between 0 and 64 bytes", 2, lambda: sums_hash.blake2b(key=bytes(65))),
            ("key must be between 0 and 32 bytes", 2, lambda: sums_hash.blake2s(key=bytes(33))),
            ("piece_len must be at least 1", 6, lambda: sums_hash.sha512_pieces(b"", 0)),
        ):
            with self.assertRaises(sums_hash.Refused) as caught:
                call()
            refused = caught.exception
            self.assertEqual((str(refused), refused.args, refused.status), (text, (text,), status))

    def test_usedforsecurity(self):
        for name in sums_hash.algorithms_guaranteed:
            want = getattr(sums_hash, name)(b"abc").digest()
            self.assertEqual(getattr(sums_hash, name)(b"abc", usedforsecurity=False).digest(), want)
            self.assertEqual(sums_hash.new(name, b"abc", usedforsecurity=False).digest(), want)

    def test_copies(self):
        for copied in (lambda hasher: hasher.copy(), copy.copy, copy.deepcopy):
            for hasher in every_object():
                before, other = hasher.digest(), copied(hasher)
                self.assertIs(type(other), type(hasher))
                self.assertEqual((other.name, other.digest()), (hasher.name, before))
                other.update(b"more")
                self.assertEqual(hasher.digest(), before)
                self.assertNotEqual(other.digest(), before)
                hasher.update(b"more")
                self.assertEqual(hasher.digest(), other.digest())

    def test_no_pickle(self):
        for hasher in every_object():
            for protocol in range(pickle.HIGHEST_PROTOCOL + 1):
                self.assertRaises(TypeError, pickle.dumps, hasher, protocol)

    def test_no_key_is_shown(self):
        for hasher in every_object():
            self.assertTrue(re.fullmatch(r"<sums_hash\.\w+ object at 0x[0-9a-f]+>", repr(hasher)), repr(hasher))

    def test_file_digest(self):
        with tempfile.TemporaryFile() as file:
            file.write(DATA * 1000)
            for name in sums_hash.algorithms_guaranteed:
                want = sums_hash.new(name, DATA * 1000).digest()
                file.seek(0)
                self.assertEqual(sums_hash.file_digest(file, name).digest(), want)
                file.seek(0)
                self.assertEqual(sums_hash.file_digest(file, getattr(sums_hash, name)).digest(), want)
                self.assertEqual(sums_hash.file_digest(io.BytesIO(DATA * 1000), name).digest(), want)
        self.assertRaises(ValueError, sums_hash.file_digest, io.StringIO("text"), "sha256")
        self.assertRaises(ValueError, sums_hash.file_digest, None, "sha256")


class Buffers(unittest.TestCase):
    def test_kinds(self):
        for name in sums_hash.algorithms_guaranteed:
            want = sums_hash.new(name, DATA).digest()
            for data in (bytearray(DATA), memoryview(DATA), memoryview(DATA + DATA)[:len(DATA)], array.array("B", DATA),
                         array.array("Q", DATA), memoryview(DATA).cast("B", (5, 256))):
                self.assertEqual(sums_hash.new(name, data).digest(), want)
            for data in (b"", bytearray(), memoryview(b""), array.array("Q")):
                self.assertEqual(sums_hash.new(name, data).digest(), sums_hash.new(name).digest())

    def test_not_in_one_piece(self):
        for hasher in every_object():
            before = hasher.digest()
            for data in (memoryview(DATA)[::2], memoryview(DATA)[::-1]):
                self.assertRaises(BufferError, hasher.update, data)
            self.assertEqual(hasher.digest(), before)

    def test_two_places(self):
        for kind in (sums_hash.sha256, sums_hash.sha512, sums_hash.blake2b, sums_hash.blake2s, sums_hash.blake3):
            # called here, and not by assertRaises, which hands in words too
            with self.assertRaises(TypeError):
                kind(b"a", b"b")

    def test_no_bytes(self):
        for hasher in every_object():
            with self.assertRaisesRegex(TypeError, "^Strings must be encoded before hashing$"):
                hasher.update("text")
            for data in (None, 1, [1], object()):
                with self.assertRaisesRegex(TypeError, "^object supporting the buffer API required$"):
                    hasher.update(data)

    def test_let_go(self):
        """After the call the object may change its size again."""
        data = bytearray(DATA)
        for hasher in every_object():
            hasher.update(data)
            data.append(0)
        sums_hash.blake2b(key=data[:9], salt=data[:9], person=data[:9])
        sums_hash.hkdf("sha256", data, 9, salt=data, info=data)
        data.append(0)

    @unittest.skipIf("QEMU_CPU" in os.environ, "qemu does not hold a program to its limit of memory")
    def test_no_second_copy(self):
        """A mapping of 1 GiB is hashed where there is room for no copy of it."""
        program = """
import mmap, resource, sys, sums_hash
size, piece = 2**30, 2**20
with mmap.mmap(-1, size, flags=mmap.MAP_PRIVATE | mmap.MAP_ANONYMOUS, prot=mmap.PROT_READ) as data:
    resource.setrlimit(resource.RLIMIT_DATA, (size // 2, size // 2))
    try:
        bytes(data)
        sys.exit("a copy has room")
    except MemoryError:
        pass
    whole, pieces = sums_hash.blake3(data), sums_hash.blake3()
    for _ in range(size // piece):
        pieces.update(bytes(piece))
    print(whole.hexdigest() == pieces.hexdigest())
"""
        done = subprocess.run([sys.executable, "-c", program], capture_output=True, text=True)
        self.assertEqual((done.returncode, done.stdout, done.stderr), (0, "True\n", ""))


class Threads(unittest.TestCase):
    def test_others_run(self):
        """While two threads hash, this one goes on: a call holds no lock of the interpreter."""
        data, digests = bytes(2**26), []
        threads = [threading.Thread(target=lambda: digests.append(sums_hash.sha512(data).digest())) for _ in range(2)]
        for thread in threads:
            thread.start()
        steps = 0
        while not digests:
            steps += 1
        for thread in threads:
            thread.join()
        self.assertGreater(steps, 1000)
        self.assertEqual(digests, [hashlib.sha512(data).digest()] * 2)

    def test_one_object(self):
        """Pieces of many threads are each taken whole."""
        for hasher in (sums_hash.sha256(), sums_hash.blake3(), sums_hash.hmac_blake2b(b"key")):
            want = hasher.copy()
            want.update(b"x" * 10000 * 8 * 20)
            threads = [
                threading.Thread(target=lambda: [hasher.update(b"x" * 10000) for _ in range(20)]) for _ in range(8)
            ]
            for thread in threads:
                thread.start()
            for thread in threads:
                thread.join()
            self.assertEqual(hasher.digest(), want.digest())


class Keys(unittest.TestCase):
    def test_as_hmac(self):
        for name in FIXED:
            for key in (b"", b"key", bytes(200), bytearray(b"key")):
                theirs, ours = hmac.new(key, DATA, name), getattr(sums_hash, f"hmac_{name}")(key, DATA)
                for word in ("name", "digest_size", "block_size"):
                    self.assertEqual(getattr(ours, word), getattr(theirs, word))
                self.assertEqual(ours.hexdigest(), theirs.hexdigest())
                self.assertEqual(hmac.new(key, DATA, getattr(sums_hash, name)).digest(), theirs.digest())
                self.assertTrue(hmac.compare_digest(ours.digest(), theirs.digest()))
                self.assertEqual(ours.digest(ours.digest_size // 2), theirs.digest()[:ours.digest_size // 2])
            empty = getattr(sums_hash, f"hmac_{name}")(b"key")
            self.assertEqual(empty.digest(), hmac.new(b"key", None, name).digest())
            self.assertRaises(sums_hash.Refused, empty.digest, empty.digest_size // 2 - 1)
            for length in (empty.digest_size + 1, 2**60):
                self.assertRaises(sums_hash.Refused, empty.digest, length)
            self.assertRaises(TypeError, getattr(sums_hash, f"hmac_{name}"), "key")

    def test_output_of_blake3(self):
        for settings in ({}, {"key": bytes(range(32))}, {"derive_key_context": "a context"}):
            hasher = sums_hash.blake3(DATA, **settings)
            whole = hasher.digest(300)
            self.assertEqual(hasher.digest(), whole[:32])
            self.assertEqual(hasher.hexdigest(99, seek=100), whole[100:199].hex())
            self.assertEqual(hasher.digest(0, seek=2**64 - 1), b"")
            self.assertEqual(len(hasher.digest(1, seek=2**64 - 2)), 1)
        with self.assertRaisesRegex(sums_hash.Refused, "^the output ends after 18446744073709551615 bytes$") as caught:
            sums_hash.blake3().digest(1, seek=2**64 - 1)
        self.assertEqual(caught.exception.status, 5)
        for wrong in ({"length": -1}, {"seek": -1}, {"seek": 2**64}):
            self.assertRaises(ValueError, sums_hash.blake3().digest, **wrong)
        for wrong in ({"key": bytes(31)}, {"key": bytes(32), "derive_key_context": ""}):
            self.assertRaises(ValueError, sums_hash.blake3, **wrong)

    def test_hkdf(self):
        for name in FIXED:
            prk = hmac.new(b"salt", b"material", name).digest()
            self.assertEqual(sums_hash.hkdf_extract(name, b"material", salt=b"salt"), prk)
            first = hmac.new(prk, b"info\1", name).digest()
            self.assertEqual(sums_hash.hkdf_expand(name, prk, 32, info=b"info"), first[:32])
            self.assertEqual(sums_hash.hkdf(name, b"material", 32, salt=b"salt", info=b"info"), first[:32])
            self.assertEqual(sums_hash.hkdf(name, bytearray(b"material"), 0), b"")
            for length in (255 * len(prk) + 1, 2**60):
                self.assertRaises(sums_hash.Refused, sums_hash.hkdf, name, b"", length)
            self.assertRaises(sums_hash.Refused, sums_hash.hkdf_expand, name, prk[1:], 1)
        self.assertRaises(ValueError, sums_hash.hkdf, "blake3", b"", 1)


# for each call on pieces: the call, and the digest of a piece alone, of so many bytes where that is a choice
OF_PIECES = {
    "sha256": (lambda data, length, _: sums_hash.sha256_pieces(data, length),
               lambda piece, _: hashlib.sha256(piece).digest()),
    "sha512": (lambda data, length, _: sums_hash.sha512_pieces(data, length),
               lambda piece, _: hashlib.sha512(piece).digest()),
    "blake2b": (sums_hash.blake2b_pieces, lambda piece, size: hashlib.blake2b(piece, digest_size=size).digest()),
    "blake2s": (sums_hash.blake2s_pieces, lambda piece, size: hashlib.blake2s(piece, digest_size=size).digest()),
    "blake3": (lambda data, length, _: sums_hash.blake3_pieces(data, length),
               lambda piece, _: sums_hash.blake3(piece).digest()),
}


class Pieces(unittest.TestCase):
    def test_each_length(self):
        """From 1 to 300 bytes, and about 1,024, 4,096 and 65,536: up to 20 pieces, and a short one behind them."""
        data = memoryview(random.Random(1).randbytes(21 * 65537))
        about = [middle + step for middle in (1024, 4096, 65536) for step in (-1, 0, 1)]
        for length in (*range(1, 301), *about):
            size = 1 + length % 32
            for name, (pieces, alone) in OF_PIECES.items():
                whole = [alone(data[i * length:(i + 1) * length], size) for i in range(20)]
                for count in range(21):
                    end = count * length
                    for rest in {0, 1, length // 2, length - 1} - {length}:
                        want = whole[:count] + [alone(data[end:end + rest], size)] * (rest > 0)
                        if pieces(data[:end + rest], length, size) != b"".join(want):
                            self.fail(f"{name}: {count} pieces of {length} bytes, and {rest}")

    def test_each_size(self):
        for size in range(1, 65):
            want = [hashlib.blake2b(DATA[i:i + 100], digest_size=size).digest() for i in range(0, len(DATA), 100)]
            self.assertEqual(sums_hash.blake2b_pieces(DATA, 100, size), b"".join(want))
        self.assertEqual(sums_hash.blake2b_pieces(DATA, 640), sums_hash.blake2b_pieces(DATA, 640, digest_size=64))
        self.assertEqual(sums_hash.blake2s_pieces(DATA, 640), sums_hash.blake2s_pieces(DATA, 640, digest_size=32))

    def test_longer_than_the_data(self):
        for pieces, alone in OF_PIECES.values():
            for length in (len(DATA), len(DATA) + 1, 2**31, 2**32 + 1, 2**63 - 1):
                self.assertEqual(pieces(DATA, length, 32), alone(DATA, 32))
                self.assertEqual(pieces(b"", length, 32), b"")

    def test_refusals(self):
        for name, (pieces, _) in OF_PIECES.items():
            for data in (b"", DATA):
                with self.assertRaises(sums_hash.Refused) as caught:
                    pieces(data, 0, 20)
                self.assertEqual(str(caught.exception), "piece_len must be at least 1")
                self.assertEqual(caught.exception.status, 6)
                for length in (-1, -2**70, 2**63):
                    self.assertRaises(ValueError, pieces, data, length, 20)
                for length in (None, 1.0, "1", b"1"):
                    self.assertRaises(TypeError, pieces, data, length, 20)
                if name.startswith("blake2"):
                    for size in (0, 33 if name == "blake2s" else 65, 2**62):
                        for length in (0, 1):
                            with self.assertRaises(sums_hash.Refused) as caught:
                                pieces(data, length, size)
                            self.assertEqual(caught.exception.status, 1)
                    self.assertRaises(ValueError, pieces, data, 1, -1)

    def test_buffers(self):
        for pieces, alone in OF_PIECES.values():
            want = alone(DATA[:1000], 20) + alone(DATA[1000:], 20)
            data = bytearray(DATA)
            for given in (data, memoryview(DATA), array.array("B", DATA), memoryview(DATA).cast("B", (5, 256))):
                self.assertEqual(pieces(given, 1000, 20), want)
            data.append(0)
            self.assertRaises(BufferError, pieces, memoryview(DATA)[::2], 9, 20)
            self.assertRaises(TypeError, pieces, "text", 9, 20)


if __name__ == "__main__":
    unittest.main()

# SPDX-License-Identifier: MIT OR Apache-2.0
"""What an extension in C may get wrong: lengths, words, buffers, references, signals, threads, forks, interpreters.
python3 -m unittest discover bindings/python/tests    with sums_hash on the path; a debug build counts references"""

import ast
import copy
import ctypes
import gc
import importlib.machinery
import importlib.util
import inspect
import mmap
import multiprocessing
import os
import pickle
import shutil
import signal
import subprocess
import sys
import tempfile
import threading
import tracemalloc
import unittest
import warnings
import weakref

import sums_hash
from sums_hash import _native

from test_sums_hash import DATA, FIXED, every_object

KINDS = [type(hasher) for hasher in every_object()]
LONG = 2**16  # bytes of a piece that lets other threads run
LIST = b"0" * 64 + b"  none\n# a comment\nSHA256 (none) = " + b"0" * 64 + b"\nx"


def fresh(kind, data=b""):
    """An object of the message, under an empty key where the kind needs one."""
    return kind(b"", data) if "hmac" in kind.__mro__[-2].__name__ else kind(data)


def in_process(program, *options):
    """What a program of Python prints that runs beside, and has to end well before long."""
    done = subprocess.run([sys.executable, *options, "-c", program], capture_output=True, text=True, timeout=100,
                          env={**os.environ, "PYTHONPATH": os.pathsep.join(sys.path)})
    if done.returncode or done.stderr:
        raise AssertionError(f"status {done.returncode}, {done.stderr}")
    return done.stdout


class Lengths(unittest.TestCase):
    """No attribute changes how much memory the library reads or writes."""

    def test_of_a_subclass(self):
        for kind in KINDS:
            for size in (0, 1, 16, 2**40, -1, None, "text"):
                words = dict.fromkeys(("digest_size", "block_size", "key_size", "MAX_DIGEST_SIZE", "MAX_KEY_SIZE",
                                       "SALT_SIZE", "PERSON_SIZE", "name", "DIGEST_SIZES", "state_size"), size)
                other = fresh(type("Other", (kind,), words), DATA)
                self.assertEqual(other.digest(), fresh(kind, DATA).digest())
                self.assertEqual(other.copy().hexdigest(), fresh(kind, DATA).hexdigest())

    def test_of_a_subclass_of_blake2(self):
        class Short(sums_hash.blake2b):
            MAX_DIGEST_SIZE = MAX_KEY_SIZE = SALT_SIZE = PERSON_SIZE = 100

        for wrong in ({"digest_size": 65}, {"key": bytes(65)}, {"salt": bytes(17)}, {"person": bytes(17)}):
            self.assertRaises(ValueError, Short, **wrong)

    def test_of_an_object(self):
        for hasher in every_object():
            for word in ("digest_size", "block_size", "key_size", "name", "update", "other"):
                self.assertRaises(AttributeError, setattr, hasher, word, 3)
        for kind in KINDS:
            other = fresh(type("Other", (kind,), {"digest_size": 32}), DATA)
            other.digest_size = 3
            self.assertEqual(other.digest(), fresh(kind, DATA).digest())

    def test_of_a_type(self):
        for kind in KINDS:
            for word in ("digest_size", "block_size", "key_size", "MAX_DIGEST_SIZE", "MAX_KEY_SIZE", "SALT_SIZE"):
                before, want = kind.__dict__.get(word), fresh(kind, DATA).digest()
                try:
                    setattr(kind, word, 1)
                    self.assertEqual(fresh(kind, DATA).digest(), want)
                finally:
                    delattr(kind, word) if before is None else setattr(kind, word, before)

    def test_of_the_table(self):
        before = dict(sums_hash.DIGEST_SIZES)
        want = sums_hash.hkdf_extract("sha512", DATA), sums_hash.hmac_sha512(b"", DATA).digest()
        try:
            sums_hash.DIGEST_SIZES.update(sha512=1, md5=16, blake3=2**40)
            self.assertEqual((sums_hash.hkdf_extract("sha512", DATA), sums_hash.hmac_sha512(b"", DATA).digest()), want)
            self.assertRaises(sums_hash.Refused, sums_hash.hkdf, "sha512", DATA, 255 * 64 + 1)
            for name in ("md5", "blake3"):
                self.assertRaises(ValueError, sums_hash.hkdf_extract, name, DATA)
        finally:
            sums_hash.DIGEST_SIZES.clear()
            sums_hash.DIGEST_SIZES.update(before)

    def test_of_a_key(self):
        class Short(sums_hash.blake3):
            key_size = 1

        for wrong in (b"", b"k", bytes(31), bytes(33)):
            self.assertRaises(ValueError, Short, key=wrong)
        try:
            sums_hash.blake3.key_size = 1
            self.assertRaises(ValueError, sums_hash.blake3, key=b"k")
        finally:
            sums_hash.blake3.key_size = 32

    def test_of_a_name(self):
        """The name of a hash is its letters, whatever the methods of its class return."""
        for answer in (None, 5, b"sha512", "sha512"):
            methods = {"isascii": lambda _: True, "lower": lambda _, answer=answer: answer}
            name = type("Name", (str,), methods)("SHA256")
            self.assertEqual(sums_hash.hmac_digest(b"key", DATA, name), sums_hash.hmac_sha256(b"key", DATA).digest())
            self.assertEqual(sums_hash.hkdf_extract(name, DATA), sums_hash.hkdf_extract("sha256", DATA))

    def test_of_many_pieces(self):
        """Digests for which there is no room are refused, and so are those whose bytes no number counts."""
        with mmap.mmap(-1, 2**40, flags=mmap.MAP_PRIVATE | mmap.MAP_ANONYMOUS, prot=mmap.PROT_READ) as data:
            self.assertRaises(MemoryError, sums_hash.sha256_pieces, data, 1)
            self.assertRaises(MemoryError, sums_hash.blake2b_pieces, data, 2)
        # memory that is not there, and is never read
        for power in (57, 58, 59, 60, 62):
            data = (ctypes.c_ubyte * 2**power).from_address(id(None))
            for pieces in (sums_hash.sha256_pieces, sums_hash.sha512_pieces, sums_hash.blake2b_pieces,
                           sums_hash.blake3_pieces):
                self.assertRaises((MemoryError, OverflowError), pieces, data, 1)

    def test_of_another_class(self):
        for hasher in every_object():
            for kind in KINDS:
                if kind is not type(hasher):
                    self.assertRaises(TypeError, setattr, hasher, "__class__", kind)
                    self.assertRaises(TypeError, kind.update, hasher, b"")
                    self.assertRaises(TypeError, type, "Both", (kind, type(hasher)), {})


class Faulty:
    """A number that fails, as does what compares it."""

    def __index__(self):
        raise ZeroDivisionError

    def __eq__(self, _other):
        raise ZeroDivisionError

    def __bool__(self):
        raise ZeroDivisionError


class Words(unittest.TestCase):
    def test_signatures(self):
        want = {
            "sha256": "(data=b'', *, usedforsecurity=True, string=b'')",
            "blake3": "(data=b'', /, *, key=None, derive_key_context=None, max_threads=1, usedforsecurity=True)",
            "hmac_sha256": "(key, msg=None, *, usedforsecurity=True)",
            "hkdf": "(name, material, length, *, salt=b'', info=b'')",
            "sha256_pieces": "(data, piece_len)",
            "sha512_pieces": "(data, piece_len)",
            "blake2b_pieces": "(data, piece_len, digest_size=64)",
            "blake2s_pieces": "(data, piece_len, digest_size=32)",
        }
        for name, text in want.items():
            self.assertEqual(str(inspect.signature(getattr(sums_hash, name))), text)
        for kind in KINDS:
            self.assertEqual((kind.__module__, kind.__qualname__), ("sums_hash", kind.__name__))
            self.assertTrue(kind.__doc__ and "--" not in kind.__doc__)
            for method in ("update", "digest", "hexdigest", "copy", "reset"):
                self.assertTrue(getattr(kind, method).__doc__)
                inspect.signature(getattr(kind, method))

    def test_wrong_words(self):
        for kind in KINDS:
            for words, named in (((b"", b"", b""), {}), ((), {"none": 1}), ((b"",), {"key": Faulty()})):
                self.assertRaises(TypeError, kind, *words, **named)
            with self.assertRaisesRegex(TypeError, rf"\b{kind.__name__}\(\)"):
                kind(b"", b"", b"")
        for kind in (sums_hash.blake3, sums_hash.hmac_sha256):
            for name in ("digest", "hexdigest"):
                with self.assertRaisesRegex(TypeError, rf"\b{name}\(\)"):
                    getattr(fresh(kind), name)(1, 2, 3)
        for name in ("hmac_digest", "hkdf", "hkdf_extract", "hkdf_expand", "sha256_pieces", "sha512_pieces",
                     "blake2b_pieces", "blake2s_pieces", "blake3_pieces"):
            with self.assertRaisesRegex(TypeError, rf"\b{name}\(\)"):
                getattr(sums_hash, name)()
        for name in ("fanout", "depth", "leaf_size", "node_offset", "node_depth", "inner_size", "last_node",
                     "digest_size"):
            self.assertRaises(ZeroDivisionError, sums_hash.blake2b, **{name: Faulty()})
        for name in ("length", "seek"):
            self.assertRaises(ZeroDivisionError, sums_hash.blake3().digest, **{name: Faulty()})
        for wrong in (-1, 2**63, 2**64, -2**70):
            with self.assertRaisesRegex(ValueError, f"^{wrong} is not from 0 to {2**63 - 1}$"):
                sums_hash.blake3().digest(wrong)
        for length in (4095, 4096, 4097, 70000):
            self.assertEqual(sums_hash.blake3().digest(length)[-1:], sums_hash.blake3().digest(1, seek=length - 1))
        for length in (2**62, 2**63 - 1):
            self.assertRaises((MemoryError, OverflowError), sums_hash.blake3().digest, length)
            self.assertRaises((MemoryError, OverflowError), sums_hash.blake3().hexdigest, length)

    def test_named_words(self):
        """Each word by its name, and those that have no other place."""
        hash_, tag = sums_hash, sums_hash.hmac_sha256(b"k", DATA)
        self.assertEqual(hash_.hmac_sha256(key=b"k", msg=DATA, usedforsecurity=False).digest(), tag.digest())
        self.assertEqual(hash_.hmac_sha256(b"k", None).digest(), hash_.hmac_sha256(b"k").digest())
        self.assertEqual(tag.digest(None), tag.digest())
        self.assertEqual((tag.digest(length=16), tag.hexdigest(length=16)), (tag.digest()[:16], tag.hexdigest()[:32]))
        prk = hash_.hkdf_extract("sha256", b"m", salt=b"s")
        self.assertEqual(hash_.hkdf_extract(name="sha256", material=b"m", salt=b"s"), prk)
        key = hash_.hkdf_expand("sha256", prk, 40, info=b"i")
        self.assertEqual(hash_.hkdf_expand(name="sha256", prk=prk, length=40, info=b"i"), key)
        self.assertEqual(hash_.hkdf(name="sha256", material=b"m", length=40, salt=b"s", info=b"i"), key)
        for name in ("sha256", "sha512", "blake2b", "blake2s", "blake3"):
            pieces = getattr(hash_, f"{name}_pieces")
            self.assertEqual(pieces(data=DATA, piece_len=100), pieces(DATA, 100))
        self.assertEqual(hash_.blake2b_pieces(data=DATA, piece_len=100, digest_size=20),
                         hash_.blake2b_pieces(DATA, 100, 20))
        for call in (lambda: hash_.hkdf("sha256", b"m", 40, b"s"), lambda: hash_.hkdf_extract("sha256", b"m", b"s"),
                     lambda: hash_.hkdf_expand("sha256", prk, 40, b"i"), lambda: hash_.blake2b(b"", 32),
                     lambda: hash_.blake2s(b"", 16), lambda: hash_.blake3().digest(5, 3),
                     lambda: hash_.blake3().hexdigest(5, 3), lambda: hash_.sha256(b"", True)):
            self.assertRaises(TypeError, call)

    def test_trees(self):
        for name in ("fanout", "depth", "leaf_size", "node_offset", "node_depth", "inner_size"):
            sequential = int(name in ("fanout", "depth"))
            self.assertEqual(sums_hash.blake2b(DATA, **{name: sequential}).digest(), sums_hash.blake2b(DATA).digest())
            self.assertEqual(sums_hash.blake2s(**{name: bool(sequential)}).digest(), sums_hash.blake2s().digest())
            for wrong in ("1", b"1", 1.0, None, []):
                self.assertRaises(TypeError, sums_hash.blake2b, **{name: wrong})
            for wrong in (1 - sequential, 2, -1, 2**63, 2**70, -2**70):
                with self.assertRaisesRegex(ValueError, "^trees of BLAKE2 are not offered$"):
                    sums_hash.blake2s(**{name: wrong})

    def test_no_warnings_of_bytes(self):
        """Under -bb bytes in the place of a text or a number are the faults that they are without it."""
        self.assertEqual(in_process("""
import sums_hash
for call in (lambda: sums_hash.hkdf(b"sha256", b"", 1), lambda: sums_hash.hmac_digest(b"", b"", b"md5"),
             lambda: sums_hash.blake2b(fanout=b"1"), lambda: sums_hash.blake3().digest(b"1")):
    try:
        call()
    except (TypeError, ValueError) as fault:
        print(fault)
""", "-bb"), """\
b'sha256' is none of sha256, sha512, blake2b, blake2s
b'md5' is none of sha256, sha512, blake2b, blake2s
'bytes' object cannot be interpreted as an integer
'bytes' object cannot be interpreted as an integer
""")

    def test_words_of_the_package_blake3(self):
        for threads in (1, 8, sums_hash.blake3.AUTO):
            self.assertEqual(sums_hash.blake3(DATA, max_threads=threads).digest(), sums_hash.blake3(DATA).digest())
        self.assertFalse(hasattr(sums_hash.sha256, "AUTO"))

    def test_data_or_string(self):
        for kind in (sums_hash.sha256, sums_hash.sha512):
            for words in ({"data": DATA}, {"string": DATA}):
                self.assertEqual(kind(**words).digest(), kind(DATA).digest())
            self.assertRaises(TypeError, kind, DATA, string=DATA)
            self.assertRaises(TypeError, kind, string="text")

    def test_contexts(self):
        with self.assertRaisesRegex(TypeError, "^derive_key_context must be a str$"):
            sums_hash.blake3(derive_key_context=b"bytes")
        self.assertRaises(UnicodeEncodeError, sums_hash.blake3, derive_key_context="\ud800")
        for context in ("", "ä\0ö"):
            self.assertNotEqual(sums_hash.blake3(derive_key_context=context).digest(), sums_hash.blake3().digest())
        by_key = sums_hash.blake3(DATA, key=b"c" * 32).digest()
        self.assertNotEqual(sums_hash.blake3(DATA, derive_key_context="c" * 32).digest(), by_key)

    def test_not_begun(self):
        """An object whose __init__ has not run, or has failed, is refused."""
        for kind in KINDS:
            hasher = kind.__new__(kind)
            for call in (lambda: hasher.update(b"a"), hasher.digest, hasher.copy().hexdigest):
                with self.assertRaisesRegex(sums_hash.Refused, "^the state was never begun$"):
                    call()
            hasher.reset()
            self.assertRaises(sums_hash.Refused, hasher.digest)

    def test_begun_again(self):
        for hasher in every_object():
            want = fresh(type(hasher), DATA).digest()
            hasher.__init__(*((b"", DATA) if hasher.name.startswith("hmac") else (DATA,)))
            self.assertEqual(hasher.digest(), want)
            self.assertRaises(TypeError, hasher.__init__, none=1)
            self.assertEqual(hasher.digest(), want)
        hasher = sums_hash.blake2b(b"abc", digest_size=20)
        self.assertRaises(sums_hash.Refused, hasher.__init__, digest_size=65)
        self.assertEqual(hasher.digest(), sums_hash.blake2b(b"abc", digest_size=20).digest())
        self.assertRaises(TypeError, hasher.__init__, "text", digest_size=30)
        self.assertEqual(hasher.digest(), sums_hash.blake2b(digest_size=30).digest())

    def test_reset(self):
        key = bytes(range(32))
        for hasher in (*(sums_hash.new(name) for name in FIXED), sums_hash.blake3(), sums_hash.blake3(key=key),
                       sums_hash.blake3(derive_key_context="a context"), sums_hash.hmac_sha512(key),
                       sums_hash.blake2s(digest_size=9, key=key, salt=b"salt", person=b"person")):
            empty = hasher.digest()
            hasher.update(DATA)
            other = hasher.copy()
            want = hasher.digest()
            for each in (hasher, other):
                each.reset()
                self.assertEqual(each.digest(), empty)
                each.update(DATA)
                self.assertEqual(each.digest(), want)

    def test_subclasses(self):
        class Own(sums_hash.blake2b):
            def __init__(self, word):
                super().__init__(b"abc", digest_size=9)
                self.word = word

        for copied in (lambda hasher: hasher.copy(), copy.copy, copy.deepcopy):
            other = copied(Own("kept"))
            self.assertEqual((type(other), other.word, other.digest_size), (Own, "kept", 9))
            self.assertEqual(other.digest(), sums_hash.blake2b(b"abc", digest_size=9).digest())
        kept = Own("cycle")
        kept.word = kept
        count = sum(type(each) is Own for each in gc.get_objects())
        del kept
        gc.collect()
        self.assertEqual(sum(type(each) is Own for each in gc.get_objects()), count - 1)

    def test_copied_slots(self):
        class Slotted(sums_hash.sha256):
            __slots__ = ("word", "__hidden", "unset")

            def hide(self, word):
                self.__hidden = word

            def hidden(self):
                return self.__hidden

        class Both(Slotted):
            __slots__ = ("more", "__dict__")

        for kind in (Slotted, Both):
            for copied in (lambda hasher: hasher.copy(), copy.copy, copy.deepcopy):
                hasher = kind(b"abc")
                other = copied(hasher)
                self.assertFalse(hasattr(other, "word"))
                hasher.word = ["kept"]
                hasher.hide(other)
                if kind is Both:
                    hasher.more, hasher.other = "more", [1]
                other = copied(hasher)
                self.assertEqual((type(other), other.word), (kind, ["kept"]))
                self.assertEqual(other.hidden().digest(), other.digest())
                self.assertFalse(hasattr(other, "unset"))
                if kind is Both:
                    self.assertEqual((other.more, other.other), ("more", [1]))
                    self.assertEqual(other.other is hasher.other, copied is not copy.deepcopy)
                self.assertEqual(other.word is hasher.word, copied is not copy.deepcopy)
                self.assertEqual(other.hidden() is hasher.hidden(), copied is not copy.deepcopy)

    def test_deep_copies(self):
        """What an object has is copied too, once; what cannot be is the fault that it is elsewhere."""
        class Own(sums_hash.blake3):
            pass

        hasher = Own(DATA)
        hasher.self, hasher.words = hasher, ["a"]
        hasher.pair = [hasher.words, hasher]
        other, = copy.deepcopy([hasher])
        self.assertIs(other.self, other)
        self.assertEqual(other.words, ["a"])
        self.assertIsNot(other.words, hasher.words)
        self.assertIs(other.pair[0], other.words)
        self.assertIs(other.pair[1], other)
        self.assertEqual(other.digest(), hasher.digest())
        self.assertIs(copy.copy(hasher).self, hasher)
        hasher.words = Faulty()
        Faulty.__deepcopy__ = lambda self, memo: 1 // 0
        try:
            self.assertRaises(ZeroDivisionError, copy.deepcopy, hasher)
        finally:
            del Faulty.__deepcopy__
        self.assertRaises(TypeError, hasher.__deepcopy__, None)

    def test_refusals(self):
        for status, text in ((1, "the function has no output of that length"), (8, "no hash has that number"),
                             (11, "status 11"), (0, "status 0"), (-1, "status -1"), (2**70, f"status {2**70}"),
                             ("x", "status x")):
            refused = sums_hash.Refused(status)
            self.assertEqual((str(refused), refused.args, refused.status), (text, (text,), status))
        self.assertRaises(TypeError, sums_hash.Refused)
        self.assertEqual(str(inspect.signature(sums_hash.Refused)), "(status)")
        self.assertEqual(sums_hash.Refused.__mro__[1], ValueError)

        class Own(sums_hash.blake2b):
            pass

        class Further(Own):
            __slots__ = ("word",)

        for kind in (Own, Further):
            self.assertRaises(sums_hash.Refused, kind, digest_size=0)
            self.assertRaises(sums_hash.Refused, kind.__new__(kind).digest)

    def test_texts_of_the_stub(self):
        """An editor shows what help() does."""
        path = os.path.join(os.path.dirname(sums_hash.__file__), "_native.pyi")
        with open(path, encoding="utf-8") as file:
            stub = {node.name: node for node in ast.parse(file.read()).body if hasattr(node, "name")}

        def methods(kind):
            bases = [methods(stub[base.id]) for base in kind.bases if base.id in stub]
            own = {node.name: node for node in kind.body if isinstance(node, ast.FunctionDef)}
            return {name: node for known in (*bases, own) for name, node in known.items()}

        things = {name: thing for name, thing in vars(_native).items() if not name.startswith("_")}
        self.assertEqual(set(things), {name for name in stub if not name.startswith("_")})
        for name, thing in things.items():
            self.assertEqual(ast.get_docstring(stub[name]), inspect.cleandoc(thing.__doc__), name)
            known = methods(stub[name]) if inspect.isclass(thing) else {}
            for method, node in known.items():
                if method != "__init__":
                    told = inspect.cleandoc(getattr(thing, method).__doc__)
                    self.assertEqual(ast.get_docstring(node), told, f"{name}.{method}")

    def test_refusals_of_another_name(self):
        """A package that stands in another one, and one that is loaded anew, know their own refusals."""
        with tempfile.TemporaryDirectory() as folder:
            package = os.path.join(folder, "vendor", "hashes")
            shutil.copytree(os.path.dirname(sums_hash.__file__), package)
            self.assertEqual(in_process(f"""
import sys
sys.path[:] = [{folder!r}] + [place for place in sys.path if "sums_hash" not in place]
sys.modules["sums_hash"] = None
import importlib, pickle
import vendor.hashes as hashes
first = hashes.Refused
def is_caught():
    for call in (lambda: hashes.blake2b(digest_size=0), lambda: hashes.hkdf("sha256", b"", 2**40),
                 lambda: hashes.hmac_sha256(b"").digest(1)):
        try:
            call()
        except first as refused:
            again = pickle.loads(pickle.dumps(refused))
            yield type(again) is type(refused) is first and again.status == refused.status
print(first.__module__, *is_caught())
importlib.reload(hashes)
print(hashes.Refused is first, *is_caught())
"""), "vendor.hashes True True True\nTrue True True True\n")

    def test_refusals_of_a_second_module(self):
        """A module that was loaded twice raises the refusals of the one whose types were called."""
        self.assertEqual(in_process("""
import sys
import sums_hash as first
for name in [name for name in sys.modules if name.partition(".")[0] == "sums_hash"]:
    del sys.modules[name]
import sums_hash as second
for own, other in (first, second), (second, first):
    for call in (lambda: own.blake2b(digest_size=0), lambda: own.hkdf("sha256", b"", 2**40),
                 lambda: type("Own", (own.blake2b,), {})(digest_size=0)):
        try:
            call()
        except other.Refused:
            print("other")
        except own.Refused:
            print("own")
"""), "own\n" * 6)

    def test_pickled_refusals(self):
        with self.assertRaises(sums_hash.Refused) as caught:
            sums_hash.blake2b(digest_size=0)
        caught.exception.note = "kept"
        for again in (copy.copy(caught.exception), copy.deepcopy(caught.exception),
                      *(pickle.loads(pickle.dumps(caught.exception, protocol))
                        for protocol in range(pickle.HIGHEST_PROTOCOL + 1))):
            self.assertEqual((type(again), str(again), again.status, again.note),
                             (sums_hash.Refused, "digest_size must be between 1 and 64 bytes", 1, "kept"))
        self.assertEqual(sums_hash.Refused.__module__, "sums_hash")
        # as it was written when the class was one of Python
        again = pickle.loads(b"csums_hash\nRefused\np0\n(I1\ntp1\nRp2\n(dp3\nVstatus\np4\nI1\nsb.")
        self.assertEqual((type(again), again.status), (sums_hash.Refused, 1))
        self.assertRaises(AttributeError, pickle.dumps, sums_hash.Refused.__new__(sums_hash.Refused))

    def test_of_whole_messages(self):
        for name in FIXED:
            tag = sums_hash.new(f"hmac-{name}", DATA, key=b"key").digest()
            self.assertEqual(sums_hash.hmac_digest(b"key", DATA, name), tag)
            self.assertEqual(sums_hash.hmac_digest(key=b"key", msg=DATA * 9, digest=name),
                             sums_hash.new(f"hmac-{name}", DATA * 9, key=b"key").digest())
            self.assertEqual(sums_hash.hmac_digest(b"key", DATA, name.upper()), tag)
            for call in (sums_hash.hkdf, sums_hash.hkdf_expand):
                self.assertEqual(call(name.upper(), DATA, 9), call(name, DATA, 9))
            self.assertEqual(sums_hash.hkdf_extract(name.upper(), DATA), sums_hash.hkdf_extract(name, DATA))
            self.assertEqual(sums_hash.hkdf(name, DATA, 9, salt=None, info=None), sums_hash.hkdf(name, DATA, 9))
            self.assertEqual(sums_hash.hkdf_extract(name, DATA, salt=None), sums_hash.hkdf_extract(name, DATA))
            self.assertEqual(sums_hash.hkdf_expand(name, DATA, 9, info=None), sums_hash.hkdf_expand(name, DATA, 9))
        self.assertRaises(TypeError, sums_hash.hkdf, "sha256", None, 9)
        for wrong in ("blake3", "SHA-256", "", None, "bla\u212ae2b"):
            with self.assertRaisesRegex(ValueError, f"^{wrong} is none of sha256, sha512, blake2b, blake2s$"):
                sums_hash.hmac_digest(b"key", b"", wrong)
        self.assertRaises(TypeError, sums_hash.hmac_digest, "key", b"", "sha256")
        self.assertRaises(TypeError, sums_hash.hmac_digest, b"key", None, "sha256")

    def test_other_pythons(self):
        """PyPy and a free-threaded CPython, which this one claims to be, are refused."""
        for claim, text in (("sys.implementation.name = 'pypy'", "is an extension of CPython, and this is pypy"),
                            ("sys.abiflags += 't'", "has no build for a free-threaded CPython")):
            told = in_process(f"""
import sys
{claim}
try:
    import sums_hash
except ImportError as fault:
    print(fault)
""")
            self.assertEqual(told, f"sums_hash {text}\n")

    def test_without_its_extension(self):
        """A package whose extension does not fit tells what was tried and where."""
        with tempfile.TemporaryDirectory() as folder:
            package = os.path.join(folder, "sums_hash")
            shutil.copytree(os.path.dirname(sums_hash.__file__), package, ignore=shutil.ignore_patterns("_native*.so"))
            text = in_process(f"""
import sys
sys.path.insert(0, {folder!r})
try:
    import sums_hash
except ImportError as fault:
    print(fault)
""")
        self.assertIn("needs its extension for CPython 3.11 or later", text)
        for suffix in importlib.machinery.EXTENSION_SUFFIXES:
            self.assertIn(f"_native{suffix}", text)
        self.assertIn(package, text)


class Lists(unittest.TestCase):
    """The object under read_list, whose calls give what the library says."""

    def test_a_line(self):
        state = _native.ListState(1)
        self.assertEqual(state.read(b"", 0), (0, 0, 0, None, None, None))
        self.assertEqual(state.read(LIST, 0), (71, 4, 1, 1, bytes(32), "none"))
        self.assertEqual(state.read(memoryview(LIST), 71), (12, 1, 2, None, None, None))
        self.assertEqual(state.read(bytearray(b"x"), 0)[:2], (1, 0))
        self.assertEqual(state.end()[1:3], (2, 3))
        self.assertEqual(state.end()[1], 0)

    def test_refused(self):
        state = _native.ListState(1)
        state.read(b"x", 0)
        for wrong in (6, 2**32 - 1):
            with self.assertRaises(sums_hash.Refused) as caught:
                state.__init__(wrong)
            self.assertEqual((caught.exception.status, str(caught.exception)), (8, "no hash has that number"))
        for wrong in (-1, 2**32, 2**70):
            self.assertRaises(ValueError, _native.ListState, wrong)
        for start in (2, -1, 2**63, 2**64):
            self.assertRaises(ValueError, state.read, b"x", start)
        self.assertEqual(state.end()[1], 2)
        state.read(b"x", 0)
        state.__init__(1)
        self.assertEqual(state.end()[1], 0)
        with self.assertRaises(sums_hash.Refused) as caught:
            _native.ListState.__new__(_native.ListState).read(b"\n", 0)
        self.assertEqual(caught.exception.status, 4)
        with self.assertRaises(sums_hash.Refused) as caught:
            _native.list_report(6, "x")
        self.assertEqual((caught.exception.status, str(caught.exception)), (10, "no verdict has that number"))

    def test_classes(self):
        self.assertRaises(TypeError, type, "Own", (_native.ListState,), {})
        for duplicate in (copy.copy, copy.deepcopy, pickle.dumps):
            self.assertRaises(TypeError, duplicate, _native.ListState(1))

    def test_two_threads(self):
        """A call beside another one at work is an exception, and a later one goes on."""
        state, faults = _native.ListState(1), set()
        thread = threading.Thread(target=state.read, args=(b"#" * 2**26 + b"\n", 0))
        thread.start()
        while thread.is_alive():
            try:
                state.read(b"", 0)
            except RuntimeError as fault:
                faults.add(str(fault))
        thread.join()
        self.assertEqual(faults, {"another thread is at work on the list"})
        self.assertEqual(state.read(b"\n", 0)[1:3], (1, 2))

    def test_a_map_that_changes(self):
        """While a line is read another process makes it malformed and an entry again, and it is read as one of them."""
        told = in_process("""
import mmap, os, signal
from sums_hash import _native
line, parent = b"\\\\" + b"0" * 64 + b"  " + b"\\\\n" * 30000 + b"a\\n", os.getpid()
shared = mmap.mmap(-1, len(line))
shared[:] = line
child = os.fork()
while child == 0 and os.getppid() == parent:
    for end in b"\\\\a" * 1000:
        shared[len(line) - 2] = end
kinds = {_native.ListState(1).read(shared, 0)[1] for _ in range(5000)}
os.kill(child, signal.SIGKILL)
os.waitpid(child, 0)
print(kinds <= {2, 4})
""")
        self.assertEqual(told, "True\n")


class Buffers(unittest.TestCase):
    def test_held_for_the_call(self):
        """What is hashed cannot be resized meanwhile, when this thread runs too, and can be afterwards."""
        for work in (sums_hash.sha256().update, lambda data: sums_hash.sha256_pieces(data, 64)):
            data, faults = bytearray(2**25), []
            thread = threading.Thread(target=work, args=(data,))
            thread.start()
            while thread.is_alive():
                try:
                    data.append(0)
                    data.pop()
                except BufferError:
                    faults.append(1)
            thread.join()
            self.assertTrue(faults)
            data.append(0)

    def test_released_view(self):
        view = memoryview(bytearray(DATA))
        view.release()
        for hasher in every_object():
            self.assertRaises(ValueError, hasher.update, view)

    @unittest.skipIf(sys.version_info < (3, 12), "no buffers of Python's own")
    def test_own_buffers(self):
        class Own:
            def __init__(self, give):
                self.give = give

            def __buffer__(self, _flags):
                return self.give()

        hasher = sums_hash.sha256()

        def nested():
            hasher.update(b"inner")
            return memoryview(b"outer")

        hasher.update(Own(nested))
        self.assertEqual(hasher.digest(), sums_hash.sha256(b"innerouter").digest())
        for wrong in (lambda: 1, lambda: 1 // 0):
            self.assertRaises((TypeError, ZeroDivisionError), hasher.update, Own(wrong))

        def own_fault():
            raise TypeError("a text of its own")

        for call in (hasher.update, sums_hash.sha512, lambda data: sums_hash.hkdf("sha256", data, 9),
                     lambda data: sums_hash.sha256_pieces(data, 9)):
            with self.assertRaisesRegex(TypeError, "^a text of its own$"):
                call(Own(own_fault))

    def test_failed_calls_let_go(self):
        data = bytearray(DATA)
        for call in (
            lambda: sums_hash.blake2b(key=data), lambda: sums_hash.blake2b(salt=data),
            lambda: sums_hash.blake3(key=data),
            lambda: sums_hash.hkdf("sha256", data, 9, salt=data, info="text"),
            lambda: sums_hash.hkdf("sha256", data, 2**20, salt=data, info=data),
            lambda: sums_hash.hmac_sha256(data, "text"), lambda: sums_hash.hmac_digest(data, data, "md5"),
            lambda: sums_hash.sha256_pieces(data, 0), lambda: sums_hash.blake2s_pieces(data, 9, 33),
            lambda: sums_hash.sha256.__new__(sums_hash.sha256).update(data),
        ):
            self.assertRaises((ValueError, TypeError), call)
            data.append(0)


class Signals(unittest.TestCase):
    def test_a_handler_reads_the_object_in_work(self):
        """For two seconds the main thread and another one feed an object, and a handler reads its digest."""
        told = in_process(f"""
import signal, threading, time, sums_hash
hasher, read, end = sums_hash.sha256(), [], time.monotonic() + 2
signal.signal(signal.SIGALRM, lambda *_: read.append(hasher.hexdigest()))
pieces = bytearray(9), bytearray({LONG}), bytes(500)
def feed():
    while time.monotonic() < end:
        for piece in pieces:
            hasher.update(piece)
thread = threading.Thread(target=feed)
thread.start()
signal.setitimer(signal.ITIMER_REAL, 0.001, 0.001)
feed()
signal.setitimer(signal.ITIMER_REAL, 0)
thread.join()
pieces[0].append(0)
pieces[1].append(0)
print(len(read) > 20)
""")
        self.assertEqual(told, "True\n")

    def test_an_interrupted_update_lets_go(self):
        """Ten thousand updates end by an exception out of a handler, and each bytearray can be resized then."""
        class Interrupted(Exception):
            pass

        def interrupt(*_):
            raise Interrupted

        count, data = 0, bytearray(LONG)
        before = signal.signal(signal.SIGALRM, interrupt)
        try:
            while count < 10000:
                hasher = sums_hash.blake3()
                try:
                    signal.setitimer(signal.ITIMER_REAL, 0.00001)
                    while True:
                        hasher.update(data)
                except Interrupted:
                    count += 1
                data.append(0)
                data.pop()
                self.assertEqual(len(hasher.digest()), 32)
        finally:
            signal.setitimer(signal.ITIMER_REAL, 0)
            signal.signal(signal.SIGALRM, before)


FORKED = """
import os, signal, threading, time, warnings, sums_hash
warnings.simplefilter("ignore")
hasher, other, data = sums_hash.sha256(), sums_hash.sha256(b"abc"), bytearray(2**26)
def is_lent():
    try:
        data.append(0)
        data.pop()
        return False
    except BufferError:
        return True
def faults():
    for call in (hasher.digest, hasher.copy, hasher.reset, hasher.__init__,
                 lambda: hasher.update(b"a"), lambda: hasher.update(bytes({LONG}))):
        try:
            call()
        except RuntimeError as fault:
            yield str(fault) == "another thread was at work on the object when the process was forked"
def status(child):
    for _ in range(600):
        ended, status = os.waitpid(child, os.WNOHANG)
        if ended:
            return status
        time.sleep(0.1)
    os.kill(child, signal.SIGKILL)
    os.waitpid(child, 0)
    return "it waits"
{first}
thread = threading.Thread(target=hasher.update, args=(data,))
thread.start()
while not is_lent():
    pass
{next}
child = os.fork()
if child == 0:
    other.update(bytes({LONG}))
    wrong = list(faults()) != [True] * 6 or other.digest() != sums_hash.sha256(b"abc" + bytes({LONG})).digest()
    os._exit(wrong)
print(status(child))
thread.join()
print(hasher.digest() == sums_hash.sha256(data).digest())
"""

# goes on in the first process of a namespace of processes, for which a user that is not root needs one of users too
IN_NAMESPACE = """
import ctypes, sys
NEW_USERS, NEW_PROCESSES = 0x10000000, 0x20000000
unshare = ctypes.CDLL(None).unshare
if unshare(NEW_PROCESSES) != 0 and unshare(NEW_USERS | NEW_PROCESSES) != 0:
    print("refused")
    sys.exit()
first = os.fork()
if first > 0:
    sys.exit(os.waitstatus_to_exitcode(os.waitpid(first, 0)[1]))
assert os.getpid() == 1
"""


AFTERWARDS = """
import os, threading, warnings, sums_hash
warnings.simplefilter("ignore")
hasher, data, faults = sums_hash.sha256(bytes({LONG})), bytes({LONG}), []
def feed():
    try:
        for _ in range(200):
            hasher.update(data)
    except RuntimeError as fault:
        faults.append(fault)
child = os.fork()
if child == 0:
    threads = [threading.Thread(target=feed) for _ in range(4)]
    for thread in threads:
        thread.start()
    for thread in threads:
        thread.join()
    os._exit(faults != [] or hasher.digest() != sums_hash.sha256(bytes(801 * {LONG})).digest())
print(os.waitpid(child, 0)[1])
"""


def lets_others_run(call):
    """Whether one of many such calls lets go of the interpreter, so that a thread goes on that waits for it."""
    ran, turn = [], threading.Lock()
    turn.acquire()

    def other():
        with turn:
            ran.append(True)

    thread = threading.Thread(target=other)
    thread.start()
    before = sys.getswitchinterval()
    sys.setswitchinterval(1000)
    try:
        turn.release()
        for _ in range(20000):
            call()
            if ran:
                break
        return bool(ran)
    finally:
        sys.setswitchinterval(before)
        thread.join()


class Threads(unittest.TestCase):
    def test_from_which_length_on_others_run(self):
        """A call lets go of the interpreter where an input or its output has 2,048 bytes, and not where all are
        shorter."""
        for size, runs in ((2048, True), (2047, False)):
            data, hasher, output = bytes(size), sums_hash.sha256(), sums_hash.blake3()
            lines = _native.ListState(1)
            for name, call in {
                "update": lambda: hasher.update(data), "a message": lambda: sums_hash.blake2s(data),
                "output": lambda: output.digest(size), "a key": lambda: sums_hash.hmac_sha256(data),
                "hmac_digest": lambda: sums_hash.hmac_digest(b"", data, "sha256"),
                "a derived key": lambda: sums_hash.hkdf("sha256", b"", size),
                "material": lambda: sums_hash.hkdf("sha256", data, 1),
                "salt": lambda: sums_hash.hkdf("sha256", b"", 1, salt=data),
                "info": lambda: sums_hash.hkdf("sha256", b"", 1, info=data),
                "pieces": lambda: sums_hash.sha256_pieces(data, 64 if runs else size),
                "a line of a list": lambda: lines.read(data, 0),
            }.items():
                with self.subTest(call=name, size=size):
                    self.assertEqual(lets_others_run(call), runs)

    def test_all_at_once(self):
        """Pieces, copies and digests of one object by eight threads, short and long; each piece is taken whole."""
        pieces = [b"x" * (1 + i * 997 % (2 * LONG)) for i in range(100)]
        for hasher in (sums_hash.sha256(), sums_hash.blake2b(), sums_hash.blake3(), sums_hash.hmac_sha512(b"key")):
            want, faults = hasher.copy(), []

            def work(step):
                try:
                    for piece in pieces:
                        step(piece)
                except Exception as fault:
                    faults.append(fault)

            steps = (hasher.update, lambda _: hasher.digest(), lambda piece: hasher.copy().update(piece),
                     lambda _: hasher.hexdigest())
            threads = [threading.Thread(target=work, args=(step,)) for step in steps * 2]
            for thread in threads:
                thread.start()
            for thread in threads:
                thread.join()
            for piece in pieces * 2:
                want.update(piece)
            self.assertEqual((faults, hasher.digest()), ([], want.digest()))

    def test_forked_in_the_middle(self):
        """In a process that was forked while another thread was at work on an object each call on it is an exception,
        and none waits. Other objects work."""
        self.assertEqual(in_process(FORKED.format(LONG=LONG, first="", next="")), "0\nTrue\n")

    def test_forked_into_a_namespace(self):
        """The same where the system numbers both processes 1, the first of a namespace and the first of one in it."""
        told = in_process(FORKED.format(LONG=LONG, first=IN_NAMESPACE, next="unshare(NEW_PROCESSES)"))
        if told == "refused\n":
            self.skipTest("the system refuses a namespace of processes")
        self.assertEqual(told, "0\nTrue\n")

    def test_forked_afterwards(self):
        """An object that was used before the process was forked works in each, by several threads too."""
        self.assertEqual(in_process(AFTERWARDS.format(LONG=LONG)), "0\n")

    def test_forked_pools(self):
        with warnings.catch_warnings():
            warnings.simplefilter("ignore")
            with multiprocessing.get_context("fork").Pool(2) as pool:
                self.assertEqual(pool.map(hashed, [DATA] * 4), [sums_hash.sha256(DATA).hexdigest()] * 4)

    def test_the_end_with_a_thread_at_work(self):
        """A process ends while a thread of its own is in a call, and what runs last waits for no lock."""
        told = in_process("""
import os, sys, threading, sums_hash
hasher, data = sums_hash.sha256(), bytes(2**24)
class Last:
    def __del__(self, hasher=hasher, write=os.write):
        hasher.update(b"a")
        write(1, b"%d" % len(hasher.digest()))
sys.last = Last()
def feed():
    while True:
        hasher.update(data)
threading.Thread(target=feed, daemon=True).start()
""")
        self.assertEqual(told, "32")


def hashed(data):
    return sums_hash.sha256(data).hexdigest()


def own_interpreters():
    """The calls that make an interpreter, run a program in it and end it."""
    if sys.version_info >= (3, 13):
        import _interpreters as module

        return lambda: module.create("isolated"), lambda *words: module.exec(*words), module.destroy
    import _xxsubinterpreters as module

    return lambda: module.create(isolated=True), module.run_string, module.destroy


class Interpreters(unittest.TestCase):
    def test_of_its_own(self):
        """Twenty interpreters, from 3.12 on with locks of their own, hash side by side."""
        create, run, destroy = own_interpreters()
        program = f"""
import sys
sys.path[:] = {sys.path!r}
import sums_hash
for size in (3, {LONG}):
    assert sums_hash.sha256(bytes(size)).copy().digest() == sums_hash.new("sha256", bytes(size)).digest()
try:
    sums_hash.blake2b(digest_size=0)
    assert False
except sums_hash.Refused:
    pass
"""
        made, faults = [create() for _ in range(20)], []

        def work(interpreter):
            try:
                fault = run(interpreter, program)
                if fault is not None:
                    faults.append(fault)
            except Exception as fault:
                faults.append(fault)

        threads = [threading.Thread(target=work, args=(interpreter,)) for interpreter in made]
        for thread in threads:
            thread.start()
        for thread in threads:
            thread.join()
        for interpreter in made:
            destroy(interpreter)
        self.assertEqual(faults, [])


def slotted(kind):
    hasher = type("Own", (kind,), {"__slots__": ("word", "__dict__")})(b"")
    hasher.word, hasher.other = [hasher], hasher
    return hasher


def every_call():
    """Calls of each kind, those that fail among them."""
    for hasher in every_object():
        kind = type(hasher)
        yield from (
            lambda: hasher.update(bytes(5000)), hasher.digest, hasher.hexdigest, hasher.copy, hasher.reset,
            lambda: hasher.update("text"), lambda: hasher.update(1), lambda: hasher.digest(7),
            lambda: hasher.digest(length=2**70), lambda: kind(b"", none=1), lambda: copy.deepcopy(hasher),
            lambda: pickle.dumps(hasher), lambda: hasher.update(memoryview(DATA)[::2]),
            lambda: kind.__new__(kind).update(b""), lambda: type("Own", (kind,), {})(b"").copy(),
            lambda: copy.copy(slotted(kind)), lambda: copy.deepcopy(slotted(kind)),
            lambda: slotted(kind).__deepcopy__(None),
        )
    yield from (
        lambda: sums_hash.blake2b(b"a", digest_size=9, key=b"k", salt=bytearray(3), person=b"p"),
        lambda: sums_hash.blake2b(digest_size=0), lambda: sums_hash.blake2s(salt=bytes(9)),
        lambda: sums_hash.blake2b(fanout=2), lambda: sums_hash.blake2b(digest_size=2**70),
        lambda: sums_hash.blake3(key=b""), lambda: sums_hash.blake3(key=bytes(32)).digest(5000, seek=9),
        lambda: sums_hash.blake3(derive_key_context="a"), lambda: sums_hash.blake3(derive_key_context="\ud800"),
        lambda: sums_hash.blake3(key=bytes(32), derive_key_context="a"), lambda: sums_hash.sha256(b"", string=b""),
        lambda: sums_hash.blake3().digest(9, seek=2**64 - 3), lambda: sums_hash.hmac_digest(b"key", DATA, "sha256"),
        lambda: sums_hash.hkdf("sha256", b"m", 50, salt=b"s", info=bytearray(4)),
        lambda: sums_hash.hkdf("sha256", b"m", 2**40), lambda: sums_hash.hkdf("sha256", b"m", 5, info="text"),
        lambda: sums_hash.hkdf("md5", b"m", 5), lambda: sums_hash.hkdf_extract("blake2b", bytes(9000)),
        lambda: sums_hash.hkdf_expand("sha512", b"m", 3), lambda: sums_hash.new("sha256", b"a"),
        lambda: sums_hash.new("md5"), lambda: sums_hash.sha256_pieces(DATA, 9), lambda: sums_hash.blake3_pieces(b"", 9),
        lambda: sums_hash.blake2b_pieces(bytearray(5000), 700, digest_size=9), lambda: sums_hash.sha256_pieces("", 9),
        lambda: sums_hash.sha256_pieces(DATA, 0), lambda: sums_hash.sha256_pieces(DATA, "9"),
        lambda: sums_hash.blake2s_pieces(DATA, 9, 33), lambda: sums_hash.blake2s_pieces(DATA, 9, -1),
        lambda: sums_hash.hkdf("SHA256", b"m", 5, salt=None, info=None), lambda: sums_hash.hkdf(b"sha256", b"m", 5),
        lambda: sums_hash.blake2b(fanout="1"), lambda: sums_hash.blake2b(depth=2**70),
        lambda: sums_hash.blake2b(salt="text"), lambda: sums_hash.blake2b(person=1), lambda: sums_hash.blake2b(key=""),
        lambda: sums_hash.hkdf("sha256", b"m", -1), lambda: sums_hash.hkdf("sha256", b"m", "5"),
        lambda: sums_hash.hkdf_expand("sha256", bytes(32), -1), lambda: sums_hash.hkdf_expand("md5", bytes(32), 5),
        lambda: list(sums_hash.read_list(LIST, "sha256")),
        lambda: list(sums_hash.read_list([LIST[:9], LIST[9:], LIST])),
        lambda: list(sums_hash.read_list(memoryview(LIST)[::2])), lambda: sums_hash.check(LIST, "sha256").lines,
        lambda: sums_hash.check(LIST, "md5"), lambda: _native.ListState(6), lambda: _native.ListState("1"),
        lambda: _native.ListState.__new__(_native.ListState).read(LIST, 0), lambda: _native.ListState(1).end(),
        lambda: _native.ListState(1).read(LIST, 999), lambda: _native.ListState(1).read("text", 0),
        lambda: _native.ListState(1).read(bytes(5000), 0), lambda: pickle.dumps(_native.ListState(1)),
        lambda: sums_hash.format_line("a\n", bytes(32), "sha256", True),
        lambda: sums_hash.format_line("", b"", "blake3"), lambda: sums_hash.format_line("a", "text", "sha256"),
        lambda: sums_hash.format_line("a", bytearray(9), "sha256"),
        lambda: sums_hash.format_verdict("a\n", "OK"), lambda: sums_hash.format_verdict("\ud800", "OK"),
        lambda: pickle.loads(pickle.dumps(sums_hash.Refused(9))), lambda: sums_hash.Refused(),
        lambda: sums_hash.Refused(None).__reduce__(),
    )


WITHOUT_MEMORY = """
import importlib.util, pickle, sys, _testcapi, sums_hash
from test_native import every_call

def fails(call, number):
    # whether the allocation of this number was refused, where the call says so
    _testcapi.set_nomemory(number, number + 1)
    try:
        call()
    except MemoryError:
        return True
    except (TypeError, ValueError, BufferError, AttributeError, ImportError, pickle.PicklingError):
        pass
    except SystemError as fault:
        # the interpreter's own, where it has no memory for the frame of a traceback or for the name of a type
        assert str(fault) in ("error return without exception set",
                              "execution of module sums_hash._native failed without setting an exception"), fault
    finally:
        _testcapi.remove_mem_hooks()
    return False

spec = importlib.util.spec_from_file_location("sums_hash._native", sums_hash._native.__file__)

def load():
    spec.loader.exec_module(spec.loader.create_module(spec))

told = [fails(call, number) for call in every_call() for number in range(40)]
assert sum(told) > 1000, sum(told)
assert sum(fails(load, number) for number in range(300)) > 50
assert sums_hash.sha256(b"abc").hexdigest().startswith("ba7816bf")
print("ended")
"""


class Memory(unittest.TestCase):
    def test_refused(self):
        """Where memory is refused a call is a MemoryError, or one that it is in any case, or does without."""
        if sys.version_info[:2] != (3, 11) or hasattr(sys, "gettotalrefcount"):
            self.skipTest("the interpreter's own calls fail there in other ways without memory")
        if importlib.util.find_spec("_testcapi") is None:
            self.skipTest("this Python has no module that refuses memory")
        self.assertEqual(in_process(WITHOUT_MEMORY), "ended\n")


class References(unittest.TestCase):
    def test_no_lock_is_kept(self):
        """An object whose calls let others run has a lock, which goes with it."""
        tracemalloc.start()
        try:
            sums_hash.sha256(bytes(LONG))
            before = tracemalloc.get_traced_memory()[0]
            for _ in range(1000):
                sums_hash.sha256(bytes(LONG))
            self.assertLess(tracemalloc.get_traced_memory()[0] - before, 10000)
        finally:
            tracemalloc.stop()

    def test_none_is_kept(self):
        counts = [sys.getallocatedblocks]
        if hasattr(sys, "gettotalrefcount"):
            counts.append(sys.gettotalrefcount)
        grown = []
        for _ in range(5):
            gc.collect()
            before = [count() for count in counts]
            for _ in range(100):
                for call in every_call():
                    try:
                        call()
                    except (TypeError, ValueError, BufferError, pickle.PicklingError):
                        pass
            gc.collect()
            grown.append(max(count() - past for count, past in zip(counts, before)))
        # the interpreter's own caches grow now and then; what one call keeps is kept in each of a hundred
        self.assertLess(min(grown), 50, grown)

    def test_no_class_is_kept(self):
        """A module that nobody uses any more goes with its classes."""
        name = "sums_hash._native"
        loader = importlib.machinery.ExtensionFileLoader(name, _native.__file__)
        module = importlib.util.module_from_spec(importlib.util.spec_from_loader(name, loader))
        loader.exec_module(module)
        classes = [weakref.ref(kind) for kind in vars(module).values() if isinstance(kind, type)]
        self.assertEqual((module is _native, len(classes)), (False, 11))
        del module
        gc.collect()
        self.assertEqual([kind() for kind in classes], [None] * 11)

    def test_none_is_kept_of_what_is_shared(self):
        """The number of a refusal and the name of a class, of which no more are made."""
        with self.assertRaises(sums_hash.Refused) as caught:
            sums_hash.blake2b(digest_size=0)
        hasher = sums_hash.sha256()
        for shared, call, fault in (
            (caught.exception.status, lambda: sums_hash.blake2b(digest_size=0), sums_hash.Refused),
            (type(hasher).__name__, lambda: pickle.dumps(hasher), TypeError),
        ):
            before = sys.getrefcount(shared)
            for _ in range(1000):
                self.assertRaises(fault, call)
            self.assertLess(sys.getrefcount(shared) - before, 500)


if __name__ == "__main__":
    unittest.main()

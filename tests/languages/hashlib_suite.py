#!/usr/bin/env python3
"""Runs CPython's own tests of hashlib and hmac over sums_hash, as far as they are of its hashes.
usage: tests/languages/hashlib_suite.py [-v]    with sums_hash and the tests on the path (Debian: libpython3.11-testsuite)
"""

import hashlib
import hmac
import os
import sys
import types
import unittest

import sums_hash
from test import test_hashlib, test_hmac

sys.path.append(os.path.join(os.path.dirname(os.path.realpath(__file__)), ".."))

import harness

NAMES = ("sha256", "SHA256", "sha512", "SHA512", "blake2b", "blake2s")
# Tests of other hashes, of CPython's own modules and types, or of the network.
OTHERS = ("md5", "sha1", "sha224", "sha384", "sha3", "shake", "builtin", "readonly_types", "disallow_instantiation",
          "fips", "openssl", "vectors", "internal_types", "sha256_module", "realcopy_hmac", "compare_digest",
          "with_fallback")
# Tests that come to trees of BLAKE2 at some point: each is tried up to that point.
WITH_TREES = ("test_blake2b", "test_blake2s", "test_case_blake2b_all_parameters", "test_case_blake2s_all_parameters")


def stand_in():
    """A module that gives the tests sums_hash in place of hashlib. Tests of threads and of faulty names use md5 or sha1
    as any hash; they get SHA-256. Tables of tests have hashes that sums_hash has not."""
    module = types.ModuleType("hashlib")
    for name in ("sha256", "sha512", "blake2b", "blake2s", "file_digest"):
        setattr(module, name, getattr(sums_hash, name))
    module.md5 = module.sha1 = sums_hash.sha256
    module.sha224, module.sha384 = hashlib.sha224, hashlib.sha384
    module.new = lambda name, *data, **words: sums_hash.new("sha256" if name == "md5" else name, *data, **words)
    module.algorithms_available = module.algorithms_guaranteed = frozenset(name for name in NAMES if name.islower())
    return module


def if_there(method):
    """The check of one hash, of those that there are."""
    return lambda self, name, *rest: name in self.constructors_to_test and method(self, name, *rest)


def up_to_trees(method):
    def test(self):
        try:
            method(self)
        except ValueError as fault:
            if str(fault) != "trees of BLAKE2 are not offered":
                raise
            self.skipTest("the rest asks for trees of BLAKE2")

    return test


def of_hashlib():
    """CPython's tests of hashlib, over sums_hash."""
    test_hashlib.hashlib = stand_in()
    test_hashlib._blake2 = types.ModuleType("_blake2")  # else those of BLAKE2 are skipped
    kind = test_hashlib.HashLibTestCase
    kind.supported_hash_names = NAMES
    kind._conditional_import_module = lambda *_: None
    for name in ("check_blocksize_name", "check_no_unicode"):
        setattr(kind, name, if_there(getattr(kind, name)))
    for name in WITH_TREES:
        setattr(kind, name, up_to_trees(getattr(kind, name)))
    return [kind]


def with_own_objects(method):
    """The check of a tag by the module hmac, and then by the objects of HMAC that sums_hash has."""
    def assert_hmac(self, key, data, digest, hashfunc, hashname, digest_size, block_size):
        method(self, key, data, digest, hashfunc, hashname, digest_size, block_size)
        whole = getattr(sums_hash, f"hmac_{hashname}")(key, data)
        pieces = sums_hash.new(f"hmac-{hashname}", key=key)
        pieces.update(data)
        for hasher in (whole, pieces, whole.copy()):
            self.assert_hmac_internals(hasher, digest, hashname, digest_size, block_size)
        self.assertEqual(sums_hash.hmac_digest(key, data, hashname), whole.digest())

    return assert_hmac


def of_hmac():
    """CPython's tests of hmac, with HMAC as Python has it over sums_hash, and no other."""
    test_hmac.hashlib = hmac._hashlib = stand_in()
    hmac._hashopenssl = hmac._functype = test_hmac.c_hmac_new = None
    kind = test_hmac.TestVectorsTestCase
    kind.assert_hmac = with_own_objects(kind.assert_hmac)
    kinds = (getattr(test_hmac, name) for name in dir(test_hmac))
    return [each for each in kinds if isinstance(each, type) and issubclass(each, unittest.TestCase)]


def main():
    load = unittest.defaultTestLoader.loadTestsFromTestCase
    tests = unittest.TestSuite(
        test for kind in of_hashlib() + of_hmac() for test in load(kind)
        if not any(word in test.id().rpartition(".")[2] for word in OTHERS)
    )
    result = unittest.TextTestRunner(verbosity=2 if "-v" in sys.argv else 1).run(tests)
    wrong = len(result.errors) + len(result.failures)
    # a test that stops at the trees has passed up to there; any other that is skipped shows nothing
    skipped = [test.id() for test, why in result.skipped if "trees" not in why]
    for name in skipped:
        print(f"{name}: skipped")
    print(f"Python {sys.version.split()[0]}: {result.testsRun - wrong - len(result.skipped)} whole, "
          f"{len(result.skipped) - len(skipped)} up to the trees of BLAKE2")
    harness.failed = wrong + len(skipped)
    harness.passed = result.testsRun - harness.failed
    harness.judge("there are tests", result.testsRun)
    harness.finish()


main()

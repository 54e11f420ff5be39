# SPDX-License-Identifier: MIT OR Apache-2.0
"""Prints digests of "abc" and a tag: PYTHONPATH=bindings/python python3 bindings/python/examples/digests.py"""

import sums_hash

print("blake2s", sums_hash.blake2s(b"abc").hexdigest())

hasher = sums_hash.blake3()
for piece in (b"a", b"b", b"c"):
    hasher.update(piece)
print("blake3 ", hasher.hexdigest())

print("tag    ", sums_hash.hmac_sha256(b"key", b"abc").hexdigest())

try:
    sums_hash.blake2b(b"abc", digest_size=65)
except sums_hash.Refused as refused:
    print("refused:", refused)

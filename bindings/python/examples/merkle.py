# SPDX-License-Identifier: MIT OR Apache-2.0
"""Prints the root of a file's Merkle tree as BitTorrent v2 has it (BEP 52, "pieces root"). The leaves are the SHA-256
digests of blocks of 16 KiB, and each node above is that of its two: python3 bindings/python/examples/merkle.py FILE"""

import mmap
import os
import sys

import sums_hash

BLOCK = 16384
DIGEST = 32


def merkle_root(data):
    layer = sums_hash.sha256_pieces(data, BLOCK)
    # leaves of zeros fill the layer up to a power of two
    leaves = len(layer) // DIGEST
    layer += bytes(DIGEST * (2 ** (leaves - 1).bit_length() - leaves))
    while len(layer) > DIGEST:
        layer = sums_hash.sha256_pieces(layer, 2 * DIGEST)
    return layer


with open(sys.argv[1], "rb") as file:
    if os.fstat(file.fileno()).st_size == 0:
        sys.exit("a file without a byte has no root")
    with mmap.mmap(file.fileno(), 0, access=mmap.ACCESS_READ) as data:
        print(merkle_root(data).hex())

#!/usr/bin/env python3
"""Prints the root of each file's Merkle tree as BitTorrent v2 has it (BEP 52, "pieces root"), by hashlib alone.
usage: tests/merkle.py FILE..
"""

import hashlib
import sys

BLOCK = 16384


def sha256(data):
    return hashlib.sha256(data).digest()


def depth(leaves):
    """How many layers stand above so many leaves."""
    return 0 if leaves <= 1 else 1 + depth((leaves + 1) // 2)


def node(leaves, height):
    """The node above the leaves, so many layers up; leaves that are wanting are zeros."""
    if height == 0:
        return leaves[0] if leaves else bytes(32)
    half = 2 ** (height - 1)
    return sha256(node(leaves[:half], height - 1) + node(leaves[half:], height - 1))


def root(data):
    leaves = [sha256(data[at : at + BLOCK]) for at in range(0, len(data), BLOCK)]
    return node(leaves, depth(len(leaves)))


for name in sys.argv[1:]:
    with open(name, "rb") as file:
        print(root(file.read()).hex())

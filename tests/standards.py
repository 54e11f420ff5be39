"""A second writing of the standards: BLAKE2 (RFC 7693), BLAKE3 (its paper), HMAC (RFC 2104) and HKDF (RFC 5869), each a
plain recursion over the whole input."""

import hashlib
from functools import lru_cache
from typing import NamedTuple


# ---- the mixing of BLAKE2 and BLAKE3: RFC 7693, section 3.1; the BLAKE3 paper, section 2.2

class Words(NamedTuple):
    """What the functions over words of one width have in common."""

    bits: int
    rotations: tuple
    iv: tuple


WIDE = Words(64, (32, 24, 16, 63), (
    0x6A09E667F3BCC908, 0xBB67AE8584CAA73B, 0x3C6EF372FE94F82B, 0xA54FF53A5F1D36F1,
    0x510E527FADE682D1, 0x9B05688C2B3E6C1F, 0x1F83D9ABFB41BD6B, 0x5BE0CD19137E2179))
NARROW = Words(32, (16, 12, 8, 7), (
    0x6A09E667, 0xBB67AE85, 0x3C6EF372, 0xA54FF53A, 0x510E527F, 0x9B05688C, 0x1F83D9AB, 0x5BE0CD19))

# the places of the working vector that a round mixes: its columns, then its diagonals
PLACES = ((0, 4, 8, 12), (1, 5, 9, 13), (2, 6, 10, 14), (3, 7, 11, 15),
          (0, 5, 10, 15), (1, 6, 11, 12), (2, 7, 8, 13), (3, 4, 9, 14))


def mix(words, v, places, x, y):
    a, b, c, d = places
    bits, mask = words.bits, (1 << words.bits) - 1
    for word, turn_d, turn_b in ((x, *words.rotations[:2]), (y, *words.rotations[2:])):
        v[a] = (v[a] + v[b] + word) & mask
        turned = v[d] ^ v[a]
        v[d] = (turned >> turn_d | turned << bits - turn_d) & mask
        v[c] = (v[c] + v[d]) & mask
        turned = v[b] ^ v[c]
        v[b] = (turned >> turn_b | turned << bits - turn_b) & mask


def mixed(words, v, rounds):
    """The working vector after rounds, each told by the words of the block in its order."""
    v = list(v)
    for m in rounds:
        for i, places in enumerate(PLACES):
            mix(words, v, places, m[2 * i], m[2 * i + 1])
    return v


def to_words(words, data):
    size = words.bits // 8
    return tuple(int.from_bytes(data[at : at + size], "little") for at in range(0, len(data), size))


def to_bytes(words, values):
    return b"".join(value.to_bytes(words.bits // 8, "little") for value in values)


def before_last(data, block):
    """How many bytes stand before the last block, which is empty only where the data are."""
    return max(len(data) - 1, 0) // block * block


# ---- BLAKE2: RFC 7693, sections 2.5 to 3.3

class Blake2(NamedTuple):
    words: Words
    rounds: int
    block: int
    longest: int
    salt: int


BLAKE2 = {"blake2b": Blake2(WIDE, 12, 128, 64, 16), "blake2s": Blake2(NARROW, 10, 64, 32, 8)}

SIGMA = [[int(place, 16) for place in row] for row in (
    "0123456789abcdef", "ea489fd61c02b753", "b8c052fdae367194", "7931dcbe265a40f8", "905724afe1bc683d",
    "2c6a0b834d75fe19", "c51fed4a0763928b", "db7ec13950f4862a", "6fe9b308c2d714a5", "a2847615fb9e3cd0")]


def compress(kind, h, block, count, is_last):
    words, m = kind.words, to_words(kind.words, block)
    mask = (1 << words.bits) - 1
    v = list(h + words.iv)
    v[12] ^= count & mask
    v[13] ^= count >> words.bits
    v[14] ^= mask if is_last else 0
    v = mixed(words, v, ([m[place] for place in SIGMA[i % 10]] for i in range(kind.rounds)))
    return tuple(h[i] ^ v[i] ^ v[i + 8] for i in range(8))


@lru_cache(maxsize=None)
def after(kind, start, blocks):
    """The chaining value after whole blocks, none of them the last."""
    if not blocks:
        return start
    before = after(kind, start, blocks[: -kind.block])
    return compress(kind, before, blocks[-kind.block :], len(blocks), False)


def blake2(name, data, size, key=b"", salt=b"", person=b""):
    kind = BLAKE2[name]
    words, block = kind.words, kind.block
    # section 2.5: the digest's length, the key's, fanout and depth; salt and personalization fill the second half
    head = bytes([size, len(key), 1, 1]).ljust(2 * kind.salt, b"\0")
    parameters = head + salt.ljust(kind.salt, b"\0") + person.ljust(kind.salt, b"\0")
    start = tuple(a ^ b for a, b in zip(words.iv, to_words(words, parameters)))
    data = (key.ljust(block, b"\0") if key else b"") + data
    cut = before_last(data, block)
    last = data[cut:].ljust(block, b"\0")
    return to_bytes(words, compress(kind, after(kind, start, data[:cut]), last, len(data), True))[:size]


# ---- BLAKE3: the BLAKE3 paper, sections 2.1 to 2.6

CHUNK, BLOCK = 1024, 64
CHUNK_START, CHUNK_END, PARENT, ROOT, KEYED_HASH, DERIVE_KEY_CONTEXT, DERIVE_KEY_MATERIAL = (1 << i for i in range(7))
PERMUTATION = (2, 6, 3, 10, 7, 0, 4, 13, 1, 11, 12, 5, 9, 14, 15, 8)


class Mode(NamedTuple):
    key: tuple
    flag: int


class Node(NamedTuple):
    """The last compression of a chunk, or that of a parent, before it is known whether it is the root."""

    h: tuple
    block: bytes
    counter: int
    length: int
    flags: int


def compress_node(node):
    m = to_words(NARROW, node.block)
    rounds = [m]
    for _ in range(6):
        m = tuple(m[place] for place in PERMUTATION)
        rounds.append(m)
    halves = node.counter & 0xFFFFFFFF, node.counter >> 32
    v = mixed(NARROW, (*node.h, *NARROW.iv[:4], *halves, node.length, node.flags), rounds)
    return tuple(v[i] ^ v[i + 8] for i in range(8)) + tuple(v[i + 8] ^ node.h[i] for i in range(8))


def chaining_value(node):
    return compress_node(node)[:8]


@lru_cache(maxsize=None)
def after_blocks(mode, number, blocks):
    """The chaining value of a chunk after whole blocks, none of them its last."""
    if not blocks:
        return mode.key
    flags = mode.flag | (CHUNK_START if len(blocks) == BLOCK else 0)
    before = after_blocks(mode, number, blocks[:-BLOCK])
    return chaining_value(Node(before, blocks[-BLOCK:], number, BLOCK, flags))


def chunk(mode, number, data):
    cut = before_last(data, BLOCK)
    last = data[cut:]
    flags = mode.flag | CHUNK_END | (CHUNK_START if cut == 0 else 0)
    return Node(after_blocks(mode, number, data[:cut]), last.ljust(BLOCK, b"\0"), number, len(last), flags)


def left_chunks(chunks):
    """The greatest power of two below a number of chunks: those of the left subtree."""
    return 1 << (chunks - 1).bit_length() - 1


def parent(mode, left, right):
    """The node over two subtrees, of which each is told by its chaining value."""
    return Node(mode.key, to_bytes(NARROW, left + right), 0, BLOCK, mode.flag | PARENT)


def tree(mode, number, data):
    """The top node of the data from the chunk of that number on."""
    chunks = -(-len(data) // CHUNK)
    if chunks <= 1:
        return chunk(mode, number, data)
    left = left_chunks(chunks)
    return parent(mode, subtree(mode, number, data[: left * CHUNK]), subtree(mode, number + left, data[left * CHUNK :]))


@lru_cache(maxsize=None)
def subtree(mode, number, data):
    return chaining_value(tree(mode, number, data))


def output(root, position, count):
    """So many bytes of output from a position on: the root again with each counter gives the next 64."""
    first, end = position // BLOCK, (position + count) // BLOCK + 1
    blocks = (compress_node(root._replace(counter=t, flags=root.flags | ROOT)) for t in range(first, end))
    return b"".join(to_bytes(NARROW, block) for block in blocks)[position % BLOCK :][:count]


def mode_of(key=None, context=None):
    """The hash, the hash under a key of 32 bytes, or of key material under a context."""
    if key is not None:
        return Mode(to_words(NARROW, key), KEYED_HASH)
    if context is not None:
        first_pass = tree(Mode(NARROW.iv, DERIVE_KEY_CONTEXT), 0, context.encode())
        return Mode(to_words(NARROW, output(first_pass, 0, 32)), DERIVE_KEY_MATERIAL)
    return Mode(NARROW.iv, 0)


# ---- HMAC: RFC 2104, section 2; HKDF: RFC 5869, sections 2.2 and 2.3

# the bytes of a block and of a digest; SHA-2 itself is hashlib's
KEYED = {"sha256": (64, 32), "sha512": (128, 64), "blake2b": (128, 64), "blake2s": (64, 32)}


def hashed(name, data):
    return blake2(name, data, KEYED[name][1]) if name in BLAKE2 else hashlib.new(name, data).digest()


def tag(name, key, text):
    block = KEYED[name][0]
    key = (hashed(name, key) if len(key) > block else key).ljust(block, b"\0")
    inner = hashed(name, bytes(byte ^ 0x36 for byte in key) + text)
    return hashed(name, bytes(byte ^ 0x5C for byte in key) + inner)


def extract(name, salt, material):
    return tag(name, salt, material)


@lru_cache(maxsize=None)
def expand_block(name, prk, info, count):
    """T(count), of which T(0) is empty."""
    return tag(name, prk, expand_block(name, prk, info, count - 1) + info + bytes([count])) if count else b""


def expand(name, prk, info, length):
    blocks = -(-length // KEYED[name][1])
    return b"".join(expand_block(name, prk, info, count) for count in range(1, blocks + 1))[:length]

"""One call of sums_hash beside hashlib: python3 speed.py ROUNDS    a row for each function and size."""

import hashlib
import hmac
import sys
import time

import sums_hash

LEAST = 0.001  # seconds of one measurement


def seconds(call, times):
    start = time.perf_counter()
    for _ in range(times):
        call()
    return (time.perf_counter() - start) / times


def row(name, size, peer, ours, theirs):
    assert ours() == theirs()
    times = max(1, int(LEAST / seconds(theirs, 3)))
    pairs = [(seconds(ours, times), seconds(theirs, times)) for _ in range(int(sys.argv[1]))]
    best = [min(each) * 1e9 for each in zip(*pairs)]
    print(f"Python|{name}|{size}|{peer}|{best[0]:.0f}|{best[1]:.0f}")


def main():
    for size in (64, 2**20):
        data = bytes(i % 251 for i in range(size))
        for name in ("sha256", "sha512", "blake2b", "blake2s"):
            mine, other = getattr(sums_hash, name), getattr(hashlib, name)
            row(name, size, "hashlib", lambda: mine(data).digest(), lambda: other(data).digest())
        row("hmac-sha256", size, "hmac.new", lambda: sums_hash.hmac_sha256(b"key", data).digest(),
            lambda: hmac.new(b"key", data, "sha256").digest())
        row("hmac-sha256 in one call", size, "hmac.digest", lambda: sums_hash.hmac_digest(b"key", data, "sha256"),
            lambda: hmac.digest(b"key", data, "sha256"))


main()

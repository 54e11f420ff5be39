# SPDX-License-Identifier: MIT OR Apache-2.0
"""The hashes of libsums_hash, in the manner of hashlib.

    import sums_hash
    sums_hash.blake2b(b"abc", digest_size=32).hexdigest()

Data are whatever offers its bytes in one piece: bytes, bytearray, memoryview, array, mmap. They are hashed where they
are, and from 2,048 bytes on other threads run meanwhile; an object is for any number of threads. A call that the
library refuses raises Refused, which is a ValueError.
"""

from __future__ import annotations

import sys
from importlib.machinery import EXTENSION_SUFFIXES
from typing import Any, Callable

if sys.implementation.name != "cpython":
    raise ImportError(f"sums_hash is an extension of CPython, and this is {sys.implementation.name}")
if "t" in getattr(sys, "abiflags", ""):
    raise ImportError("sums_hash has no build for a free-threaded CPython")
try:
    from ._native import (
        Refused, blake2b, blake2b_pieces, blake2s, blake2s_pieces, blake3, blake3_pieces, hkdf, hkdf_expand,
        hkdf_extract, hmac_blake2b, hmac_blake2s, hmac_digest, hmac_sha256, hmac_sha512, sha256, sha256_pieces, sha512,
        sha512_pieces,
    )
except ImportError as _fault:
    _tried = ", ".join(f"_native{suffix}" for suffix in EXTENSION_SUFFIXES)
    raise ImportError(
        "sums_hash needs its extension for CPython 3.11 or later, on Linux on x86-64 or arm64 with glibc: "
        f"{_fault} (tried {_tried} in {__path__[0]})", name="sums_hash._native", path=__path__[0],
    ) from _fault

if sys.version_info >= (3, 12):
    from collections.abc import Buffer
else:
    Buffer = Any  # what has the buffer protocol has no name there

__version__ = "1.4.0"
__all__ = [
    "Refused", "algorithms_available", "algorithms_guaranteed", "new", "file_digest",
    "blake2b", "blake2s", "blake3", "sha256", "sha512",
    "hmac_sha256", "hmac_sha512", "hmac_blake2b", "hmac_blake2s", "hmac_digest",
    "hkdf", "hkdf_extract", "hkdf_expand",
    "sha256_pieces", "sha512_pieces", "blake2b_pieces", "blake2s_pieces", "blake3_pieces",
    "Entry", "MalformedLine", "Report", "Result", "check", "format_line", "format_verdict", "read_list",
]

# The bytes of a digest under HMAC and HKDF.
DIGEST_SIZES = {
    kind.name.removeprefix("hmac-"): kind.digest_size
    for kind in (hmac_sha256, hmac_sha512, hmac_blake2b, hmac_blake2s)
}

# ---- hashes by their names

_HASHES: dict[str, Callable[..., Any]] = {
    "sha256": sha256, "sha512": sha512, "blake2b": blake2b, "blake2s": blake2s, "blake3": blake3,
}
_TAGS: dict[str, Callable[..., Any]] = {
    kind.name: kind for kind in (hmac_sha256, hmac_sha512, hmac_blake2b, hmac_blake2s)
}

algorithms_guaranteed = frozenset(_HASHES)
algorithms_available = algorithms_guaranteed


def _unsupported(name: str) -> ValueError:
    return ValueError(f"unsupported hash type {name}: the hashes are {', '.join(_HASHES)}")


def new(name: str, data: Buffer = b"", **settings: Any) -> Any:
    """An object of the hash of this name, as hashlib.new; of "hmac-sha256" and its like with key=."""
    if not isinstance(name, str):
        raise TypeError("name must be a string")
    lower = name.lower() if name.isascii() else name  # some other letters have small ones of ASCII
    if lower in _HASHES:
        return _HASHES[lower](data, **settings)
    if lower in _TAGS:
        return _TAGS[lower](msg=data, **settings)
    raise _unsupported(name)


def file_digest(fileobj: Any, digest: str | Callable[[], Any], /, *, _bufsize: int = 2**18) -> Any:
    """An object that has taken the rest of a file that is open for bytes, or all of a BytesIO, as hashlib.file_digest."""
    hasher = new(digest) if isinstance(digest, str) else digest()
    if hasattr(fileobj, "getbuffer"):
        hasher.update(fileobj.getbuffer())
        return hasher
    if not (hasattr(fileobj, "readinto") and hasattr(fileobj, "readable") and fileobj.readable()):
        raise ValueError(f"'{fileobj!r}' is not a file-like object in binary reading mode.")
    room = bytearray(_bufsize)
    with memoryview(room) as view:
        while True:
            count = fileobj.readinto(room)
            if count is None:
                raise BlockingIOError("I/O operation would block.")
            if count == 0:
                return hasher
            hasher.update(view[:count])


# ---- lists of digests, over what stands above

from .lists import (  # noqa: E402
    Entry, MalformedLine, Report, Result, check, format_line, format_verdict, read_list,
)

# SPDX-License-Identifier: MIT OR Apache-2.0
"""Lists of digests, as sha256sum, b2sum and b3sum write them, tagged or not: what reads, checks and writes them.

    import sums_hash
    report = sums_hash.check("SHA256SUMS", "sha256")

The library reads and writes the lines. Algorithms are named as in new(), such as "sha256".
"""

from __future__ import annotations

import dataclasses
import os
import typing
from collections import abc
from typing import Any

from . import Buffer, Refused, _native, _unsupported, file_digest

__all__ = [
    "Entry", "MalformedLine", "Report", "Result", "check", "format_line", "format_verdict", "read_list",
]

_HASHES = {
    "sha256": _native.sha256, "sha512": _native.sha512, "blake2b": _native.blake2b, "blake2s": _native.blake2s,
    "blake3": _native.blake3,
}
# The names by the numbers of the library, in which 0 is for any hash.
_NAMES = (None, *_HASHES)
_VERDICTS = (None, "OK", "FAILED", "MISSING", "UNREADABLE", "TOO LONG")
# What a line is: SUMS_LINE_..
_NONE, _SKIPPED, _MALFORMED, _UNTAGGED, _ENTRY = range(5)
_BLOCK = 2**16


class MalformedLine(ValueError):
    """A line of a list that is no entry, no comment and not empty. `line` is its number, from 1. `untagged` says
    whether it would be an entry if its algorithm were named.
    """

    def __init__(self, line: int, untagged: bool = False) -> None:
        super().__init__(line, untagged)
        self.line = line
        self.untagged = untagged

    def __str__(self) -> str:
        because = ": it has no tag, and its algorithm has to be named" if self.untagged else ""
        return f"line {self.line} is malformed{because}"


class Entry(typing.NamedTuple):
    """The digest of the file of a name, and the number of its line, from 1. Of a malformed line the first three are
    None; `untagged` says whether it would be an entry if its algorithm were named.
    """

    name: str | Any
    digest: bytes | Any
    algorithm: str | Any
    line: int
    untagged: bool = False


class Result(typing.NamedTuple):
    """What became of a line: "OK", "FAILED", "MISSING", "UNREADABLE", "TOO LONG", or of a line without a name
    "MALFORMED".
    """

    line: int
    name: str | None
    verdict: str


@dataclasses.dataclass
class Report:
    """What became of the lines of a list. It is true if there are entries, each is OK, and no line is malformed.
    `untagged` is how many of the malformed lines would be entries if their algorithm were named.
    """

    ok: int = 0
    failed: int = 0
    missing: int = 0
    unreadable: int = 0
    too_long: int = 0
    malformed: int = 0
    skipped: int = 0
    untagged: int = 0
    results: list[Result] = dataclasses.field(default_factory=list, repr=False)

    def __bool__(self) -> bool:
        wrong = self.failed + self.missing + self.unreadable + self.too_long + self.malformed
        return self.ok > 0 and wrong == 0

    def __str__(self) -> str:
        return (
            f"{self.ok} OK, {self.failed} failed, {self.missing} missing, {self.unreadable} unreadable, "
            f"{self.too_long} too long, {self.malformed} malformed ({self.untagged} untagged), {self.skipped} skipped"
        )

    @property
    def lines(self) -> list[bytes]:
        """The lines of the report, as `sums check` prints them, each with its LF."""
        return [
            b"line %d: MALFORMED\n" % line if name is None else format_verdict(name, verdict)
            for line, name, verdict in self.results
        ]

    def _add(self, result: Result) -> None:
        self.results.append(result)
        count = result.verdict.lower().replace(" ", "_")
        setattr(self, count, getattr(self, count) + 1)


def _number(algorithm: str | None) -> int:
    if algorithm is None:
        return 0
    if not isinstance(algorithm, str):
        raise TypeError("algorithm must be a string")
    lower = algorithm.lower() if algorithm.isascii() else algorithm  # some other letters have small ones of ASCII
    if lower not in _HASHES:
        raise _unsupported(algorithm)
    return _NAMES.index(lower)


# ---- reading


def _view(data: Buffer) -> memoryview:
    if isinstance(data, str):
        raise TypeError("a list is bytes, not str: open its file with mode 'rb'")
    return memoryview(data)


def _blocks(file: typing.BinaryIO) -> abc.Iterator[Buffer]:
    while True:
        block = file.read(_BLOCK)
        if block is None:
            raise BlockingIOError("I/O operation would block.")
        if _view(block).nbytes == 0:
            return
        yield block


def _pieces(source: typing.BinaryIO | Buffer | abc.Iterable[Buffer]) -> abc.Iterator[Buffer]:
    if isinstance(source, str):
        raise TypeError("read_list takes a file that is open with mode 'rb', bytes, or an iterable of bytes, not str")
    try:
        return iter((memoryview(source),))  # type: ignore[arg-type]
    except TypeError:
        return _blocks(source) if hasattr(source, "read") else iter(source)  # type: ignore[arg-type]


def _lines(state: _native.ListState, pieces: abc.Iterator[Buffer]) -> abc.Iterator[tuple[int, Entry]]:
    """What each line is, and the entry, which has no name if the line has none."""
    for piece in pieces:
        with _view(piece) as view:
            at, size = 0, view.nbytes
            while at < size:
                taken, kind, *line = state.read(view, at)
                at += taken
                if kind != _NONE:
                    yield _told(kind, *line)
    _, kind, *line = state.end()
    if kind != _NONE:
        yield _told(kind, *line)


def _told(kind: int, line: int, algorithm: Any, digest: Any, name: Any) -> tuple[int, Entry]:
    if kind == _ENTRY and algorithm < len(_NAMES):
        return kind, Entry(name, digest, _NAMES[algorithm], line)
    # a later library may have hashes that are not known here
    return _MALFORMED if kind == _ENTRY else kind, Entry(None, None, None, line, kind == _UNTAGGED)


def _entries(lines: abc.Iterator[tuple[int, Entry]], keeps_malformed: bool) -> abc.Iterator[Entry]:
    for kind, entry in lines:
        if kind == _ENTRY or (keeps_malformed and kind != _SKIPPED):
            yield entry
        elif kind != _SKIPPED:
            raise MalformedLine(entry.line, entry.untagged)


def read_list(
    file: typing.BinaryIO | Buffer | abc.Iterable[Buffer], /, algorithm: str | None = None, *,
    malformed: typing.Literal["raise", "yield"] = "raise",
) -> abc.Iterator[Entry]:
    """The entries of a list, one after another, as they are read. The list is a file that is open for bytes, bytes, or
    any iterable of bytes, which may be cut anywhere: pieces that are lines keep their LF. Untagged lines are of the
    algorithm; if it is None, each line needs a tag. A malformed line raises MalformedLine, or with "yield" is an Entry
    whose name is None. Empty lines and comments are skipped.
    """
    if malformed not in ("raise", "yield"):
        raise ValueError("malformed must be 'raise' or 'yield'")
    return _entries(_lines(_native.ListState(_number(algorithm)), _pieces(file)), malformed == "yield")


# ---- checking


def _raise_unless_of_system(fault: OSError) -> None:
    """Raises a fault that is not the system's: one without a number, as a handler of a signal raises it. That a file
    has no bytes yet has no number either.
    """
    if fault.errno is None and not isinstance(fault, BlockingIOError):
        raise fault


def _hashed(path: bytes, entry: Entry) -> str:
    """The verdict on a file."""
    kind = _HASHES[entry.algorithm]
    sized = {"digest_size": len(entry.digest)} if kind in (_native.blake2b, _native.blake2s) else {}
    try:
        file = open(path, "rb", buffering=0)
    except OSError as fault:
        _raise_unless_of_system(fault)
        return "MISSING" if isinstance(fault, FileNotFoundError) else "UNREADABLE"
    with file:
        try:
            hasher = file_digest(file, lambda: kind(**sized))
        except OSError as fault:
            _raise_unless_of_system(fault)
            return "UNREADABLE"
        except Refused:
            return "TOO LONG"
    return "OK" if hasher.digest() == entry.digest else "FAILED"


def _leaves(name: str) -> bool:
    """Whether a name may lead out of the folder, if no link does."""
    return name.startswith("/") or ".." in name.split("/")


def _checked(lines: abc.Iterator[tuple[int, Entry]], folder: bytes, inside: bool) -> Report:
    report = Report()
    for kind, entry in lines:
        if kind == _SKIPPED:
            report.skipped += 1
        elif kind != _ENTRY:
            report.untagged += entry.untagged
            report._add(Result(entry.line, None, "MALFORMED"))
        elif inside and _leaves(entry.name):
            report._add(Result(entry.line, entry.name, "UNREADABLE"))
        else:
            verdict = _hashed(os.path.join(folder, entry.name.encode()), entry)
            report._add(Result(entry.line, entry.name, verdict))
    return report


def check(
    source: str | os.PathLike[Any] | typing.BinaryIO | Buffer | abc.Iterable[Buffer], /, algorithm: str | None = None,
    folder: str | os.PathLike[Any] = ".", *, inside: bool = False,
) -> Report:
    """Hashes the files of a list, and compares. The list is the path of a file, or what read_list() takes; names are
    looked up from the folder on. With `inside`, which is for lists that are not trusted, no name that is absolute or
    holds `..` is opened: it is UNREADABLE. Links are followed. A list that can't be read is an OSError. What a handler
    of a signal raises ends the check, as TimeoutError() does; an OSError with an errno counts as a fault of the file.
    """
    state, folder_name = _native.ListState(_number(algorithm)), os.fsencode(folder)
    if isinstance(source, (str, os.PathLike)):
        with open(source, "rb", buffering=0) as file:
            return _checked(_lines(state, _blocks(file)), folder_name, inside)
    return _checked(_lines(state, _pieces(source)), folder_name, inside)


# ---- writing


def _text(name: str | os.PathLike[str]) -> str:
    text = os.fspath(name)
    if not isinstance(text, str):
        raise TypeError(f"name must be a str, not {type(text).__name__}")
    return text


def format_line(name: str | os.PathLike[str], digest: Buffer, algorithm: str, tag: bool = False) -> bytes:
    """The line of a list, with its LF: that of sha256sum, or with `tag` that of sha256sum --tag. The digest is bytes,
    as digest() gives them. It is a ValueError if the algorithm has no such digest, or if the name has no line: it is
    empty, not UTF-8, holds NUL, or is too long.
    """
    if isinstance(digest, str):
        raise TypeError("digest must be bytes, as digest() gives them, not str")
    return _native.list_line(_number(algorithm), tag, digest, _text(name))


def format_verdict(name: str | os.PathLike[str], verdict: str) -> bytes:
    """The line of a report, such as b"disk.iso: OK\\n". The verdicts are those of Result that have a name."""
    if verdict not in _VERDICTS[1:]:
        raise ValueError(f"no verdict {verdict!r}: the verdicts are {', '.join(_VERDICTS[1:])}")
    return _native.list_report(_VERDICTS.index(verdict), _text(name))

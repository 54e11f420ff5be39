# SPDX-License-Identifier: MIT OR Apache-2.0
"""Lists of digests: the rows of tests/program/lists.py and random lists, and what the words of the calls may be.
python3 -m unittest discover bindings/python/tests    with sums_hash on the path. LIST_CASES names what
tests/list_cases.py has printed, which is run where it is not set."""

import base64
import copy
import errno
import hashlib
import io
import itertools
import json
import mmap
import os
import pickle
import signal
import subprocess
import sys
import tempfile
import unittest
import unittest.mock

import sums_hash

CASES = os.path.join(os.path.dirname(os.path.realpath(__file__)), "../../../tests/list_cases.py")
ABC = hashlib.sha256(b"abc")
LINE = ABC.hexdigest().encode() + b"  abc.txt\n"


def groups():
    path = os.environ.get("LIST_CASES")
    if path:
        with open(path, encoding="ascii") as file:
            return [json.loads(line) for line in file]
    done = subprocess.run([sys.executable, CASES, "2", "1"], check=True, stdout=subprocess.PIPE)
    return [json.loads(line) for line in done.stdout.splitlines()]


def pieces(data, size):
    return (data[at : at + size] for at in range(0, len(data), size))


class InFolder(unittest.TestCase):
    """A test in a folder of its own, with a file of "abc"."""

    def setUp(self):
        folder, before = tempfile.TemporaryDirectory(), os.getcwd()
        self.addCleanup(folder.cleanup)
        self.addCleanup(os.chdir, before)
        os.chdir(folder.name)
        self.write("abc.txt", b"abc")

    def write(self, name, content):
        with open(name, "wb") as file:
            file.write(content)


class Cases(InFolder):
    def test_reports(self):
        """What the program reports of each list, and what it means by each line, however the list is cut."""
        count = 0
        for place, group in enumerate(groups()):
            os.mkdir(f"group {place}")
            os.chdir(f"group {place}")
            for name, content in group["files"].items():
                self.write(base64.b64decode(name), base64.b64decode(content))
            for case in group["lists"]:
                data, want = base64.b64decode(case["list"]), base64.b64decode(case["report"])
                report = sums_hash.check(data, case["algorithm"])
                self.assertEqual(b"".join(report.lines), want, case["about"])
                is_right = want != b"" and want.count(b": OK\n") == want.count(b"\n")
                self.assertEqual(bool(report), is_right, case["about"])
                lines = data.removesuffix(b"\n").count(b"\n") + (data != b"")
                self.assertEqual(len(report.results) + report.skipped, lines, case["about"])
                self.cut(data, case)
                count += 1
            os.chdir("..")
        self.assertGreater(count, 900)

    def cut(self, data, case):
        entries = list(sums_hash.read_list(data, case["algorithm"], malformed="yield"))
        sources = [io.BytesIO(data), data.splitlines(keepends=True), pieces(data, 4096)]
        if len(data) < 10_000:
            sources += [pieces(data, 1), pieces(memoryview(data), 7)]
        for source in sources:
            again = list(sums_hash.read_list(source, case["algorithm"], malformed="yield"))
            self.assertEqual(again, entries, case["about"])

    def test_lines(self):
        for case in itertools.chain.from_iterable(group["lines"] for group in groups()):
            name, digest = base64.b64decode(case["name"]).decode(), base64.b64decode(case["digest"])
            line = sums_hash.format_line(name, digest, case["algorithm"], case["tag"])
            self.assertEqual(line, base64.b64decode(case["line"]))
            algorithm = None if case["tag"] else case["algorithm"]
            again = list(sums_hash.read_list(line, algorithm))
            self.assertEqual(again, [(name, digest, case["algorithm"], 1, False)])


class Reading(unittest.TestCase):
    def test_entries(self):
        given = LINE + b"# a comment\n\nSHA512 (b) = " + hashlib.sha512(b"").hexdigest().encode()
        first, second = sums_hash.read_list(given, "SHA256")
        self.assertEqual(first, ("abc.txt", ABC.digest(), "sha256", 1, False))
        self.assertEqual((second.name, second.algorithm, second.line), ("b", "sha512", 4))
        self.assertEqual(pickle.loads(pickle.dumps(second)), second)

    def test_malformed(self):
        for algorithm, lines, number, untagged in (
            ("sha256", LINE + b"x\n" + LINE, 2, False), (None, b"\n" + LINE, 2, True), ("sha512", LINE, 1, True),
            ("blake3", b"00  x", 1, True),
        ):
            source = sums_hash.read_list(lines, algorithm)
            with self.assertRaises(sums_hash.MalformedLine) as caught:
                list(source)
            fault = caught.exception
            for again in fault, copy.copy(fault), pickle.loads(pickle.dumps(fault)):
                self.assertIsInstance(again, ValueError)
                self.assertEqual((again.line, again.untagged), (number, untagged))
                because = ": it has no tag, and its algorithm has to be named" * untagged
                self.assertEqual(str(again), f"line {number} is malformed{because}")
            self.assertEqual(list(source), [])
            entries = sums_hash.read_list(lines, algorithm, malformed="yield")
            self.assertEqual([entry for entry in entries if entry.name is None], [(None, None, None, number, untagged)])
        self.assertRaises(ValueError, sums_hash.read_list, LINE, malformed="skip")

    def test_a_later_library(self):
        """A line of a hash that is not known here is malformed, and so is one of a kind that is not."""
        lines = iter([(4, 1, 6, b"digest", "name"), (5, 2, None, None, None), (4, 3, 5, b"digest", "name")])

        class Later:
            def read(self, _data, _start):
                return 1, *next(lines)

            def end(self):
                return 0, 0, 0, None, None, None

        told = sums_hash.lists._entries(sums_hash.lists._lines(Later(), iter([b"abc"])), True)
        self.assertEqual(list(told), [(None, None, None, 1, False), (None, None, None, 2, False),
                                      ("name", b"digest", "blake3", 3, False)])

    def test_as_it_comes(self):
        """A line is told before what is behind it is read, and the first piece is read when the first line is wanted."""
        asked = []

        def source():
            for piece in (LINE[:9], LINE[9:] + LINE[:3], LINE[3:]):
                asked.append(piece)
                yield piece

        entries = sums_hash.read_list(source(), "sha256")
        self.assertEqual(asked, [])
        self.assertEqual((next(entries).line, len(asked)), (1, 2))
        self.assertEqual((next(entries).line, len(asked)), (2, 3))
        self.assertEqual(list(entries), [])

    def test_sources(self):
        with tempfile.TemporaryFile() as file:
            file.write(b"x" + LINE)
            file.flush()
            with mmap.mmap(file.fileno(), 0, access=mmap.ACCESS_READ) as mapped:
                self.assertRaises(sums_hash.MalformedLine, list, sums_hash.read_list(mapped, "sha256"))
            file.seek(1)
            self.assertEqual(len(list(sums_hash.read_list(file, "sha256"))), 1)
        for source in (bytearray(LINE), memoryview(LINE), [bytearray(LINE)], (LINE[:1], b"", memoryview(LINE)[1:])):
            self.assertEqual([entry.name for entry in sums_hash.read_list(source, "sha256")], ["abc.txt"])
        for source in (b"", [], [b""], io.BytesIO(), iter(())):
            self.assertEqual(list(sums_hash.read_list(source)), [])

    def test_wrong_sources(self):
        class Closed:
            def read(self, _):
                return None

        for source in ("SHA256SUMS", None, 5, 0.5, object()):
            self.assertRaises(TypeError, sums_hash.read_list, source)
        for source in (io.StringIO(""), io.StringIO("#"), ["#"], [5], [None], {"#": b"#"}):
            self.assertRaises(TypeError, list, sums_hash.read_list(source))
        self.assertRaises(BlockingIOError, list, sums_hash.read_list(Closed()))
        self.assertRaises(BufferError, list, sums_hash.read_list(memoryview(LINE)[::2]))
        for wrong in ("md5", "", "hmac-sha256", "\u212asha256", "sha-256"):
            self.assertRaises(ValueError, sums_hash.read_list, LINE, wrong)
            self.assertRaises(ValueError, sums_hash.check, LINE, wrong)
        self.assertRaises(TypeError, sums_hash.read_list, LINE, 1)

    def test_sources_that_interfere(self):
        """One that reads its own list, that fails, that changes its pieces, and that ends early."""
        def itself():
            yield LINE
            next(entries)

        entries = sums_hash.read_list(itself(), "sha256")
        self.assertEqual(next(entries).line, 1)
        self.assertRaisesRegex(ValueError, "already executing", next, entries)

        def failing():
            yield LINE
            raise ZeroDivisionError

        entries = sums_hash.read_list(failing(), "sha256")
        self.assertEqual(next(entries).line, 1)
        self.assertRaises(ZeroDivisionError, next, entries)

        piece = bytearray(LINE + LINE)
        entries = sums_hash.read_list([piece], "sha256")
        self.assertEqual(next(entries).line, 1)
        self.assertRaises(BufferError, piece.clear)
        piece[len(LINE) :] = b"\n" * len(LINE)
        self.assertEqual(list(entries), [])
        entries = sums_hash.read_list([piece], "sha256")
        next(entries)
        entries.close()
        piece.clear()


class Checking(InFolder):
    def test_verdicts(self):
        os.mkdir("folder")
        os.symlink("round", "round")
        digest, other = ABC.digest(), bytes(32)
        names = {"abc.txt": "OK", "none": "MISSING", "none/x": "MISSING", "folder": "UNREADABLE", "round": "UNREADABLE",
                 "abc.txt/x": "UNREADABLE", "x" * 300: "UNREADABLE", "./abc.txt": "OK", "folder/../abc.txt": "OK",
                 os.path.abspath("abc.txt"): "OK"}
        lines = b"".join(sums_hash.format_line(name, digest, "sha256") for name in names)
        lines += sums_hash.format_line("abc.txt", other, "sha256") + b"x\n#\n" + b"0" * 128 + b"  x\n"
        self.write("SUMS", lines)
        report = sums_hash.check("SUMS", "sha256")
        want = [(line, name, verdict) for line, (name, verdict) in enumerate(names.items(), 1)]
        want += [(11, "abc.txt", "FAILED"), (12, None, "MALFORMED"), (14, None, "MALFORMED")]
        self.assertEqual(report.results, want)
        self.assertEqual((report.ok, report.failed, report.missing, report.unreadable, report.too_long,
                          report.malformed, report.skipped, report.untagged), (4, 1, 2, 4, 0, 2, 1, 1))
        self.assertEqual(str(report), "4 OK, 1 failed, 2 missing, 4 unreadable, 0 too long, 2 malformed (1 untagged), "
                                      "1 skipped")
        self.assertEqual(report.lines[-3:], [b"abc.txt: FAILED\n", b"line 12: MALFORMED\n", b"line 14: MALFORMED\n"])

    def test_handlers(self):
        """What a handler of a signal raises goes on, whether a file is opened or read then."""
        os.mkfifo("pipe")
        line = sums_hash.format_line("pipe", ABC.digest(), "sha256")
        for fault in TimeoutError(), TimeoutError("late"), OSError("late"), FileNotFoundError(), ZeroDivisionError():
            def handler(_number, _frame):
                raise fault

            self.addCleanup(signal.signal, signal.SIGALRM, signal.signal(signal.SIGALRM, handler))
            with self.assertRaises(type(fault)):
                signal.setitimer(signal.ITIMER_REAL, 0.1)
                sums_hash.check(line, "sha256")
            with self.assertRaises(type(fault)), open("pipe", "r+b", buffering=0):
                signal.setitimer(signal.ITIMER_REAL, 0.1)
                sums_hash.check(line, "sha256")

    def test_faults(self):
        """What the system says of a file while it is read is of that file alone, and so is that it has no bytes yet."""
        class Opened(io.RawIOBase):
            def __init__(self, *answers):
                self.answers = iter(answers)

            def readable(self):
                return True

            def readinto(self, room):
                answer = next(self.answers)
                if isinstance(answer, OSError):
                    raise answer
                return answer

        faults = [OSError(number, "fault") for number in (errno.EIO, errno.ENOENT, errno.ETIMEDOUT)]
        for fault in *faults, None:
            with unittest.mock.patch.object(sums_hash.lists, "open", lambda *_, **__: Opened(5, fault), create=True):
                self.assertEqual(sums_hash.check([LINE], "sha256").results, [(1, "abc.txt", "UNREADABLE")])

    def test_truth(self):
        """A list that checks nothing is not true."""
        self.assertTrue(sums_hash.check(LINE, "sha256"))
        self.assertTrue(sums_hash.check(b"# comment\n" + LINE, "sha256"))
        for lines in (b"", b"# comment\n", LINE + b"x", LINE + LINE.replace(b"abc.txt", b"none"), LINE[:-3]):
            self.assertFalse(sums_hash.check(lines, "sha256"))
        self.assertFalse(sums_hash.check(LINE))

    def test_inside(self):
        os.mkdir("folder")
        names = {"../abc.txt": False, os.path.abspath("abc.txt"): False, "x/../../abc.txt": False, "..": False,
                 "in..side": True, "./in..side": True, "..x": True, "x..": True}
        for name, is_inside in names.items():
            if is_inside:
                self.write(os.path.join("folder", name), b"abc")
        lines = b"".join(sums_hash.format_line(name, ABC.digest(), "sha256") for name in names)
        report = sums_hash.check(lines, "sha256", folder="folder", inside=True)
        self.assertEqual([result.verdict == "OK" for result in report.results], list(names.values()))
        self.assertEqual(report.unreadable, 4)
        self.assertEqual(sums_hash.check(lines, "sha256", "folder").ok, 6)

    def test_where_the_list_is(self):
        os.mkdir("folder")
        self.write("folder/x", b"abc")
        self.write("SUMS", ABC.hexdigest().encode() + b"  x\n")
        with open("SUMS", "rb") as file:
            for source in ("SUMS", os.path.abspath("SUMS"), file, [ABC.hexdigest().encode(), b"  x"]):
                self.assertEqual(sums_hash.check(source, "sha256", folder="folder").ok, 1)
        self.assertRaises(FileNotFoundError, sums_hash.check, "none", "sha256")
        self.assertRaises(IsADirectoryError, sums_hash.check, "folder", "sha256")
        self.assertRaises(TypeError, sums_hash.check, LINE, "sha256", folder=1)
        self.assertRaises(TypeError, sums_hash.check, None, "sha256")

    def test_bytes_of_a_name(self):
        """A name is its bytes in UTF-8, whatever the encoding of the system."""
        name = "größe".encode()
        self.write(name, b"abc")
        program = f"import sums_hash; print(sums_hash.check({LINE.replace(b'abc.txt', name)!r}, 'sha256').ok)"
        done = subprocess.run([sys.executable, "-X", "utf8=0", "-c", program], capture_output=True,
                              env={**os.environ, "LC_ALL": "C", "PYTHONCOERCECLOCALE": "0",
                                   "PYTHONPATH": os.pathsep.join(sys.path)})
        self.assertEqual((done.stdout, done.stderr), (b"1\n", b""))


class Writing(unittest.TestCase):
    def test_no_lines(self):
        for name in ("", "a\0", "\ud800", "x" * 65_471, "\\" * 40_000, "x" * 10**7):
            self.assertRaises(ValueError, sums_hash.format_line, name, ABC.digest(), "sha256")
            self.assertRaises(ValueError, sums_hash.format_line, name, ABC.digest(), "sha256", True)
        self.assertEqual(len(sums_hash.format_line("x" * 65_470, ABC.digest(), "sha256")), 65_537)
        for digest, algorithm, text in (
            (bytes(31), "sha256", "digest must be 32 bytes"), (bytes(32), "sha512", "digest must be 64 bytes"),
            (b"", "blake2b", "digest must be between 1 and 64 bytes"), (bytes(65), "blake2b", "between 1 and 64 bytes"),
            (bytes(33), "blake2s", "between 1 and 32 bytes"), (bytes(64), "blake3", "must be 32 bytes"),
            (bytes(32), "md5", "the hashes are sha256, "), (bytes(32), None, "no hash has that number"),
        ):
            self.assertRaisesRegex(ValueError, text, sums_hash.format_line, "x", digest, algorithm)
        for name, digest, algorithm in ((b"x", bytes(32), "sha256"), (None, bytes(32), "sha256"),
                                        ("x", ABC.hexdigest(), "sha256"), ("x", bytes(32), 1)):
            self.assertRaises(TypeError, sums_hash.format_line, name, digest, algorithm)
        self.assertRaisesRegex(TypeError, r"^digest must be bytes, as digest\(\) gives them, not str$",
                               sums_hash.format_line, "x", ABC.hexdigest(), "sha256")

    def test_reports(self):
        for verdict in ("OK", "FAILED", "MISSING", "UNREADABLE", "TOO LONG"):
            self.assertEqual(sums_hash.format_verdict("a\nb", verdict), b"a\\nb: " + verdict.encode() + b"\n")
        for verdict in ("ok", "", None, 1, "MALFORMED"):
            self.assertRaises(ValueError, sums_hash.format_verdict, "x", verdict)
        for name in ("x" * 65_537, "x" * 10**7, "\ud800"):
            self.assertRaises(ValueError, sums_hash.format_verdict, name, "OK")


if __name__ == "__main__":
    unittest.main()

#!/usr/bin/env python3
"""Runs the program where its streams and files are more than a text: devices that take nothing, inputs and outputs
that are longer than a buffer, a pipe that comes in two pieces, the names that `find` prints, files that are pipes,
files of another user, files with names that are nearly another's or with the number of a pipe, streams that are closed,
and many files of which few may be open at a time.
usage: tests/program/streams.py PROGRAM
"""

import contextlib
import functools
import hashlib
import hmac
import itertools
import os
import pty
import resource
import shutil
import subprocess
import sys
import threading
import time

sys.path.append(os.path.join(os.path.dirname(os.path.realpath(__file__)), ".."))

import harness
import tables
from harness import same

ABC = tables.text("{sha256}")
# The tag of an empty file under the key of the official vectors of BLAKE3.
EMPTY_TAG = b"92b2b75604ed3c761f9d6f62392c8a9227ad0ea3f09573e783f1498a4ed60d26  empty\n"
# What is not written to a full device: each command, and each way to write of it.
FULL = [
    ("hash", "hash -a blake2s"),
    ("a long output", "hash -a blake3 -l 100000"),
    ("a report", "check -a sha256 good-list"),
    ("a report with a summary", "check -a sha256 --summary good-list"),
    ("two reports", "check -a sha256 good-list good-list"),
    ("help", "--help"),
    ("a tagged line", "hash -a blake2s --tag"),
    ("a tag", "mac -a hmac-sha256 --key 00"),
    ("a key", "kdf -a sha256 --ikm-file abc.txt -l 1"),
    ("a verdict", "mac -a blake2s --key 00 -l 1 --verify 00"),
    ("a raw key", "kdf -a sha256 --ikm-file abc.txt -l 1 --raw"),
    ("raw bytes", "hash -a blake3 -l 200000 --raw"),
    ("a raw digest", "hash -a sha256 --raw"),
    ("a raw tag", "mac -a blake2b --key 00 --raw"),
    ("a part", "part -a blake3"),
    ("each part", "part -a blake3 --each 1 zeros"),
    ("first chunks", "part -a blake3 --list --chunks 1 zeros"),
    ("a joined line", "join -a blake3 chunk.0 chunk.1"),
    ("a joined digest, compared", "join -a blake3 --verify " + 64 * "0" + " chunk.0 chunk.1"),
    ("names from a file", "hash -a blake3 --files0-from mixed-names"),
    ("tags of two files", "mac -a hmac-sha256 --key-file key20 abc.txt empty"),
    ("tags of names from a file", "mac -a blake2s --key 00 --files0-from mixed-names"),
    ("an empty line of a share", "hash -a sha256 --share 0/2 none"),
]
# What a full standard error has no effect on: the words, the status and standard output.
UNTOLD = [
    ("a full standard error", "hash -a sha256 abc.txt", 0, ABC + b"  abc.txt\n"),
    ("a summary told to a full standard error", "check -a sha256 --summary good-list", 0, b"abc.txt: OK\n"),
    ("a fault told to a full standard error", "hash -a sha256 none abc.txt", 1, ABC + b"  abc.txt\n"),
    ("a fault of a tag told to a full standard error", "mac -a blake3 --key-file key32 none empty", 1, EMPTY_TAG),
]
# How many files a run needs open at a time, the three streams among them: a list stays open over the files that it
# names.
FEW = [
    ("files", 4, "hash -a sha256" + 50 * " abc.txt"),
    ("files in parts", 4, "hash -a blake3 --parts 1" + 50 * " abc.txt"),
    ("files of a list of names", 5, "hash -a sha256 --files0-from many-names"),
    ("files of lists", 5, "check -a sha256 many-lines many-lines"),
    ("a file under a key", 4, "mac -a hmac-sha256 --key-file key20 abc.txt"),
    ("files under a key", 4, "mac -a hmac-sha256 --key-file key20" + 50 * " abc.txt"),
    ("files of a list of names under a key", 5, "mac -a blake2s --key-file key20 --files0-from many-names"),
    ("the parts of a file", 4, "part -a blake3 --list --chunks 1 zeros"),
    ("each part of a file", 4, "part -a blake3 --each 1 zeros"),
    ("lists of parts", 4, "join -a blake3 --name zeros part.1 part.2 part.3"),
]
# What is answered where standard input is closed: the words, the status, standard output, and what is told behind
# `sums: `. self-names and self-list name /dev/stdin.
UNREAD = [
    ("hash -a sha256", 1, b"", b"-: cannot read\n"),
    ("hash -a sha256 abc.txt -", 1, ABC + b"  abc.txt\n", b"-: cannot read\n"),
    ("hash -a sha256 /dev/stdin", 1, b"", b"/dev/stdin: cannot read\n"),
    ("hash -a sha256 --files0-from -", 1, b"", b"-: cannot read\n"),
    ("hash -a sha256 --files0-from self-names", 1, b"", b"/dev/stdin: cannot read\n"),
    ("mac -a blake2s --key 00", 1, b"", b"-: cannot read\n"),
    ("mac -a blake3 --key-file key32 --name n", 1, b"", b"-: cannot read\n"),
    ("mac -a blake2s --key-file key20 --files0-from self-names", 1, b"", b"/dev/stdin: cannot read\n"),
    ("mac -a blake2s --key-file /dev/stdin", 1, b"", b"/dev/stdin: cannot read\n"),
    ("kdf -a sha256 -l 1 --ikm-file /dev/stdin", 1, b"", b"/dev/stdin: cannot read\n"),
    ("check -a sha256", 1, b"", b"-: cannot read\n"),
    ("check -a sha256 good-list -", 1, b"abc.txt: OK\n", b"-: cannot read\n"),
    ("check -a sha256 self-list", 1, b"/dev/stdin: UNREADABLE\n", b""),
    ("part -a blake3", 1, b"", b"-: cannot read\n"),
    ("part -a blake3 --each 1", 1, b"", b"-: cannot read\n"),
    ("part -a blake3 --verify parts", 1, b"", b"-: cannot read\n"),
    ("part -a blake3 --verify /dev/stdin", 1, b"", b"/dev/stdin: cannot read\n"),
    ("part -a blake3 --verify empty", 1, b"", b"-: cannot read\n"),
    ("join -a blake3", 1, b"", b"-: cannot read\n"),
    ("join -a blake3 chunk.0 -", 1, b"", b"-: cannot read\n"),
]
# What a share answers where `this` is a pipe with a name: the words, the status and standard output.
SHARED = [
    ("hash -a sha256 --share 0/2 this abc.txt", 1, b"\n"),
    ("hash -a sha256 --share 1/2 abc.txt this", 1, b"\n"),
    ("hash -a sha256 --share 0/2 --files0-from this", 1, b""),
    ("mac -a blake2s --share 0/2 --key-file this abc.txt", 1, b""),
    ("part -a blake3 --each 1 --share 0/2 this", 1, b""),
    ("part -a blake3 --verify this --share 0/2 empty", 1, b""),
    ("part -a blake3 --verify parts --share 1/2 this", 1, b""),
]
LONG = b"x" * 300_000
# How many seconds a run has whose files are pipes, and the number of the user that has no files.
PATIENCE = 60
NOBODY = 65534
# The numbers of the pipes.
PIPES = itertools.count()
# How many files are made at most for one with a given number.
MOST_FILES = 1_000_000
CANNOT_READ = b"sums: this: cannot read\n"
CANNOT_WRITE = b"sums: cannot write\n"


def run(words, given=b""):
    return harness.run(program, words.split(), given)


def full_devices():
    with open("/dev/full", "wb") as full:
        for name, words in FULL:
            done = subprocess.run([program, *words.split()], input=b"abc", stdout=full, stderr=subprocess.PIPE)
            same(f"{name} to a full device", (done.returncode, done.stderr), (3, b"sums: cannot write\n"))
        for name, words, status, out in UNTOLD:
            done = subprocess.run([program, *words.split()], stdout=subprocess.PIPE, stderr=full)
            same(name, (done.returncode, done.stdout), (status, out))


def long_inputs():
    """Inputs that are longer than a read."""
    with open("300000", "wb") as file:
        file.write(LONG)
    for name in tables.OTHERS:
        wanted = hashlib.new(name, LONG).hexdigest().encode()
        same(f"{name} of a long file", run(f"hash -a {name} 300000"), (0, wanted + b"  300000\n", b""))
    wanted = hashlib.blake2b(LONG).hexdigest().encode()
    same("blake2b of a long pipe", slow_pipe("hash -a blake2b"), (0, wanted + b"  -\n"))
    line = hashlib.blake2b(LONG, digest_size=20).hexdigest().encode() + b"  300000\n"
    same("a list over a long file", run("check -a blake2b -", line), (0, b"300000: OK\n", b""))


def slow_pipe(words):
    """A run whose input pauses behind a third of it."""
    pipes = {"stdin": subprocess.PIPE, "stdout": subprocess.PIPE}
    with subprocess.Popen([program, *words.split()], **pipes) as running:
        running.stdin.write(LONG[:100_000])
        running.stdin.flush()
        time.sleep(0.1)
        out, _ = running.communicate(LONG[100_000:])
    return running.returncode, out


def long_outputs():
    """100,000 bytes of BLAKE3's output, raw and in digits, and the longest key of HKDF over each hash."""
    digits = run("hash -a blake3 -l 100000 abc.txt").out.removesuffix(b"  abc.txt\n").decode()
    same("100000 raw bytes", run("hash -a blake3 -l 100000 --raw abc.txt"), (0, bytes.fromhex(digits), b""))
    same("100000 raw bytes, their number", len(digits), 200_000)
    for name in tables.OTHERS:
        key = longest_key(name, b"")
        words = f"kdf -a {name} --ikm-file empty -l {len(key)}"
        same(f"the longest key over {name}", run(words), (0, key.hex().encode() + b"\n", b""))
        same(f"the longest key over {name}, raw", run(f"{words} --raw"), (0, key, b""))


def longest_key(name, material):
    """HKDF (RFC 5869) without salt and info: 255 blocks."""
    extracted = hmac.new(b"", material, name).digest()
    key, block = b"", b""
    for number in range(1, 256):
        block = hmac.new(extracted, block + bytes([number]), name).digest()
        key += block
    return key


def names_of_find():
    os.mkdir("many")
    for i in range(200):
        with open(f"many/a file {i}", "w") as file:
            file.write(str(i))
    names = subprocess.run(["find", "many", "-type", "f", "-print0"], capture_output=True, check=True).stdout
    for command in ("hash -a blake3", "mac -a blake3 --key-file key32"):
        wanted = harness.run(program, [*command.encode().split(), *names.split(b"\0")[:-1]])
        same(f"names that find prints: {command}", run(f"{command} --files0-from -", names), wanted)
        same(f"names that find prints, their number: {command}", wanted.out.count(b"\n"), 200)


def rest_of_input():
    """Behind a part nothing is read of standard input: the next command has it."""
    for chunks, size in (("1", 1024), ("2", 2048), ("4", 3000)):
        with open("zeros", "rb") as given:
            words = [program, "part", "-a", "blake3", "--chunks", chunks]
            done = subprocess.run(words, stdin=given, capture_output=True)
            place = os.lseek(given.fileno(), 0, os.SEEK_CUR)
        same(f"the bytes read for {chunks} chunks", (done.returncode, place), (0, size))


def named_pipes():
    """Each file is a pipe that is filled once, so that a run that opens it twice waits for ever."""
    for content, row in tables.places():
        same(f"{row.place}: {row.name}, a pipe", of_pipe(content, row.words, row.given), row.answer)
    behind = of_pipe(LONG, ["part", "-a", "blake3", "--first", "2", "this"])
    same("a pipe has no positions", behind, (1, b"", CANNOT_READ))
    listed = of_pipe(LONG, ["part", "-a", "blake3", "--list", "--chunks", "1", "this"])
    same("a pipe has no parts to list", listed, (1, b"", CANNOT_READ))


def pipes_of_shares():
    """A share opens no pipe, of which other shares would miss what it reads. Where there is one share alone, it does."""
    for words, status, out in SHARED:
        same(f"{words}, a pipe", of_pipe(b"abc.txt\0", words.split()), (status, out, CANNOT_READ))
    passed_over = "hash -a sha256 --share 1/2 this abc.txt"
    same(f"{passed_over}, a pipe", of_pipe(LONG, passed_over.split()), (0, ABC + b"  abc.txt\n", b""))
    alone = "hash -a sha256 --share 0/1 --files0-from this"
    same(f"{alone}, a pipe", of_pipe(b"abc.txt\0", alone.split()), (0, ABC + b"  abc.txt\n", b""))


def of_pipe(content, words, given=b""):
    """A run over a pipe of this content. It is filled by a name of its own, so that who comes late, to a run that has
    not opened it, does not fill the next pipe."""
    own = os.path.abspath(f"pipe {next(PIPES)}")
    os.mkfifo(own)
    os.link(own, "this")
    threading.Thread(target=fill, args=(own, content), daemon=True).start()
    try:
        return harness.run(program, words, given, timeout=PATIENCE)
    except subprocess.TimeoutExpired:
        return f"no end after {PATIENCE} seconds"
    finally:
        os.remove("this")
        os.remove(own)


def fill(pipe, content):
    with contextlib.suppress(BrokenPipeError, FileNotFoundError), open(os.open(pipe, os.O_WRONLY), "wb") as file:
        file.write(content)


def files_of_another_user():
    """Each file may be read and not written, and then not be read either; root, who may do all, gives its rights up."""
    user = {"user": NOBODY, "group": NOBODY, "extra_groups": []} if os.geteuid() == 0 else {}
    os.chmod(".", 0o755)
    copy = shutil.copy(program, os.path.abspath("program"))
    for content, row in tables.places():
        write("this", content)
        os.chmod("this", 0o444)
        same(f"{row.place}: {row.name}, read-only", harness.run(copy, row.words, row.given, **user), row.answer)
        os.chmod("this", 0)
        refused = (1, b"this: UNREADABLE\n", b"") if row.name.startswith("a listed file") else (1, b"", CANNOT_READ)
        same(f"{row.place}: {row.name}, unreadable", harness.run(copy, row.words, row.given, **user), refused)
        os.remove("this")


def near_names():
    """Each file is that of its very name, beside files of other content whose names differ from it in a byte, in case,
    in the last of 255 bytes, or in being relative."""
    absolute = f"{os.getcwd()}/evil"
    os.makedirs(os.path.dirname(absolute[1:]))
    names = ["evil.iso", "evil.isp", "Evil.iso", "evil.iso.", 255 * "e", 254 * "e" + "f", absolute, absolute[1:]]
    for name in names:
        write(name, b"another")
    for name in map(os.fsencode, names):
        for content, row in tables.places():
            write(name, content)
            words = [name if word == b"this" else word for word in row.words]
            wanted = row.answer._replace(out=row.answer.out.replace(b"this", name))
            got = harness.run(program, words, row.given.replace(b"this", name))
            same(f"{row.place}: {row.name}, by the name {os.fsdecode(name)}", got, wanted)
        write(name, b"another")


def write(name, content):
    with open(name, "wb") as file:
        file.write(content)


def terminals():
    """A terminal from which a list or a message comes is no file beside it: that would take what comes."""
    # each 4 is an end of the input, for a list and for a file of it
    same("a terminal in its own list", of_terminal("check -a sha256 -", ABC + b"  /dev/stdin\n\4\4\4"),
         (1, b"/dev/stdin: UNREADABLE\n", b""))
    same("a terminal as the key of its message", of_terminal("mac -a hmac-sha256 --key-file /dev/stdin", b"k\4\4m\4\4"),
         (1, b"", b"sums: /dev/stdin: cannot read\n"))


def of_terminal(words, typed):
    """A run whose standard input is a terminal at which this is typed."""
    master, terminal = pty.openpty()
    os.write(master, typed)
    try:
        return harness.run(program, words.split(), None, stdin=terminal, timeout=PATIENCE)
    finally:
        os.close(terminal)
        os.close(master)


def closed_streams():
    """What is closed stays closed, whatever is opened, even if `/` cannot be: no file is taken for standard input or for
    an output."""
    settings = {"LD_PRELOAD": harness.preloaded("fail_call"), "NO_ROOT": "1"}
    write("self-names", b"/dev/stdin\0")
    write("self-list", ABC + b"  /dev/stdin\n")
    for words, status, out, told in UNREAD:
        wanted = (status, out, b"sums: " + told if told else b"")
        same(f"{words}, standard input closed", without((0,), words), wanted)
        same(f"{words}, standard input closed, and no root", without((0,), words, **settings), wanted)
        same(f"{words}, 0 and 2 closed", without((0, 2), words), (status, out, b""))
        unwritten = (3, b"", CANNOT_WRITE) if out else wanted
        same(f"{words}, 0 and 1 closed", without((0, 1), words), unwritten)
    write("error-names", b"/dev/stderr\0")
    for streams in ((2,), (0, 2), (0, 1, 2)):
        same(f"standard error among the names of a file, {streams} closed",
             without(streams, "hash -a sha256 --files0-from error-names"), (1, b"", b""))
    for name, words in FULL:
        same(f"{name}, standard output closed", without((1,), words), (3, b"", CANNOT_WRITE))
        same(f"{name}, 1 and 2 closed", without((1, 2), words), (3, b"", b""))
    for name, words, status, out in UNTOLD:
        same(f"{name}, closed", without((2,), words), (status, out, b""))


def without(streams, words, **settings):
    """A run that is begun with these streams closed, and with these variables."""
    return harness.run(program, words.split(), b"abc", env={**os.environ, **settings},
                       preexec_fn=lambda: [os.close(stream) for stream in streams])


def own_files():
    """A file gives its bytes as often as they are read: a list in it may name it, and it may be its own key and parts."""
    write("own-names", b"own-names\0/dev/stdin\0")
    digest = hashlib.sha256(b"own-names\0/dev/stdin\0").hexdigest().encode()
    wanted = digest + b"  own-names\n" + digest + b"  /dev/stdin\n"
    same("a list of names in a file that names itself", over("own-names", "hash -a sha256 --files0-from -"),
         (0, wanted, b""))
    tag = hmac.new(20 * b"\x0b", 20 * b"\x0b", "sha256").hexdigest().encode()
    for key in ("/dev/stdin", "key20"):
        same(f"a file under itself as a key, by {key}", over("key20", f"mac -a hmac-sha256 --key-file {key}"),
             (0, tag + b"  -\n", b""))
    same("no parts in a file, beside itself", over("empty", "part -a blake3 --verify /dev/stdin"), (0, b"", b""))


def over(name, words):
    """A run whose standard input is this file."""
    with open(name, "rb") as given:
        return harness.run(program, words.split(), None, stdin=given)


def equal_numbers():
    """A file with the number that the pipe of a list has, on another device, is not that pipe."""
    name = f"/dev/shm/numbered{os.getpid()}"
    given, filling = (os.fdopen(end, mode) for end, mode in zip(os.pipe(), ("rb", "wb")))
    with given, filling:
        if not has_number(name, os.fstat(given.fileno()).st_ino):
            print("there was no file with the number of a pipe: such a file was not tried")
            return
        filling.write(ABC + b"  " + name.encode() + b"\n")
        filling.close()
        got = harness.run(program, ["check", "-a", "sha256"], None, stdin=given)
        same("a file with the number of the pipe of its list", got, (0, name.encode() + b": OK\n", b""))
        os.remove(name)


def has_number(name, number):
    """Makes the file anew until it has this number, if its system gives one number after another up to that."""
    for _ in range(MOST_FILES):
        try:
            write(name, b"abc")
            found = os.stat(name).st_ino
            if found == number:
                return True
            os.remove(name)
        except OSError:
            return False
        if not 0 < number - found < MOST_FILES:
            return False
    return False


def few_open_files():
    """Each file is closed before the next one is opened."""
    with open("many-names", "wb") as file:
        file.write(50 * b"abc.txt\0")
    with open("many-lines", "wb") as file:
        file.write(50 * (ABC + b"  abc.txt\n"))
    for name, most, words in FEW:
        few = functools.partial(resource.setrlimit, resource.RLIMIT_NOFILE, (most, most))
        got = harness.run(program, words.split(), preexec_fn=few)
        same(f"{name}, of which few are open at a time", (got, got.status), (run(words), 0))


program = harness.program()
os.umask(0o022)
with harness.folder():
    tables.make_files()
    full_devices()
    long_inputs()
    long_outputs()
    names_of_find()
    rest_of_input()
    named_pipes()
    pipes_of_shares()
    files_of_another_user()
    near_names()
    terminals()
    closed_streams()
    own_files()
    equal_numbers()
    few_open_files()
harness.finish()

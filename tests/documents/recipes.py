#!/usr/bin/env python3
"""Runs each recipe of the documents as it stands there: in README.md and docs/*.md the blocks that are fenced with
a language and a name, in man/*.1 those after a comment `recipe NAME`. A block of the language `console` is a session:
what stands below a command has to be what it prints. If a recipe has a name of a file to choose, it is run with each
of NAMES too. A recipe has to print what is wanted, end with the status that is wanted, report nothing on
standard error, and run nothing that a name spells. What is not installed is said, and not run. No part of tools/test.
Builds, packages and measurements take long and are run if they are named alone: in a clone of what is committed,
as root, with the packages of this commit in dist/ if a recipe takes packages.
usage: tests/documents/recipes.py PROGRAM [NAME..]    the recipes of these names; all but the long ones if none is named
       tests/documents/recipes.py PROGRAM long        the long ones
"""

import glob
import os
import re
import shlex
import shutil
import subprocess
import sys
import tempfile

from recipe_builds import LONG
from recipe_machines import scale_hosts, scale_slurm, scale_spark
from recipe_runner import (CHUNK, HERE, NAMES, Bench, Wrong, behind_file, ends, fenced, fill, named, of_work, paged,
                           same, write)


# ---- The recipes of one file in parts


def in_parts(bench, title, runs, first="big"):
    """A recipe of a file in parts, which `runs` with a name and a size of parts in a folder: as it stands, of the file
    `first`, and with each name, in parts of one chunk. A file of one part is refused by `join`."""

    def case(name, size, chunks, is_one=False):
        folder = bench.folder()
        path = os.path.join(folder, name)
        fill(path, size)
        got = runs(folder, name, chunks)
        if is_one:
            told = got[2] if got[2] in [b"sums: one part alone: hash the file itself\n", b"sums: no parts\n"] else b"one"
            ends(got, 1, b"", told)
        else:
            ends(got, 0, bench.sums(folder, "hash", "-a", "blake3", "--", name))
        os.remove(path)

    bench.judge(title, lambda: case(first, 200000001, None))
    for name in NAMES:
        bench.judge(f"{title}, {name!r}", lambda: case(name, 4321, 1))
    for size in [0, 1, CHUNK]:
        bench.judge(f"{title}, {size} bytes", lambda: case("x", size, 1, True))
    for size in [CHUNK + 1, 2 * CHUNK, 64 * CHUNK]:
        bench.judge(f"{title}, {size} bytes", lambda: case("x", size, 1))

    def linked():
        folder = bench.folder()
        fill(os.path.join(folder, "far"), 5000)
        os.symlink("far", os.path.join(folder, "link"))
        ends(runs(folder, "link", 1), 0, bench.sums(folder, "hash", "-a", "blake3", "link"))

    bench.judge(title + ", a symbolic link", linked)


def of_page(bench, page, name):
    """What runs the recipe of a page with a name and a size of parts, and the file that it names itself."""
    text = bench.text(page, name)
    runs = lambda folder, file, chunks: bench.run(text if chunks is None else named(text, file, chunks), folder)
    return runs, re.match(r"f=(\S+) n=", text).group(1)


def join_page(bench):
    in_parts(bench, "sums-join(1) parts", *of_page(bench, "man/sums-join.1", "parts"))


def part_page(bench):
    in_parts(bench, "sums-part(1) list", *of_page(bench, "man/sums-part.1", "list"))


def part_damage(bench):
    """The parts of a file, and a copy that differs in each."""

    def case():
        folder = bench.folder()
        disk, copy = os.path.join(folder, "disk.img"), os.path.join(folder, "copy.img")
        fill(disk, 100000000)
        shutil.copy(disk, copy)
        flipped(copy)
        ends(bench.run(bench.text("man/sums-part.1", "damage"), folder), 1, b"0 67108864: FAILED\n65536 32891136: FAILED\n")

    bench.judge("sums-part(1) damage", case)


def scale_parts(bench):
    def runs(folder, name, chunks):
        of_work(bench, folder, "part", name, chunks)
        return bench.run(bench.text("docs/SCALE.md", "on-cores"), folder)

    in_parts(bench, "docs/SCALE.md share-part", runs)
    device(bench)


def device(bench):
    """The recipe for a device, of a file that is one for a while."""
    for command in ["blockdev", "losetup"]:
        if not bench.there(command, "the recipe for a device was not run"):
            return
    folder = bench.folder()
    image = os.path.join(folder, "image")
    fill(image, 512 * 99)
    made = bench.run("losetup --find --show --read-only image", folder)
    if made[0]:
        bench.missing("no loop device can be made: the recipe for a device was not run")
        return
    place = made[1].decode().strip()
    of_work(bench, folder, "part", place, 4)
    with open(os.path.join(folder, "after.sh"), encoding="utf-8") as file:
        begin, size, join = re.split(r"^(size=.*\n)", file.read(), flags=re.M)
    write(folder, "after.sh", begin + size + bench.text("docs/SCALE.md", "device") + join)
    wanted = bench.sums(folder, "hash", "-a", "blake3", place)
    start = bench.text("docs/SCALE.md", "on-cores")
    bench.judge("docs/SCALE.md device", lambda: ends(bench.run(start, folder), 0, wanted))
    bench.run(f"losetup --detach {place}", folder)


def flipped(path):
    """Three bits of a file are other ones."""
    with open(path, "r+b") as file:
        for place in (0, 70000000, 99999999):
            file.seek(place)
            byte = file.read(1)[0] ^ 1
            file.seek(place)
            file.write(bytes([byte]))


def scale_damage(bench):
    """The parts of a file, and a copy that is found to be damaged, or sound, and mended."""

    def case(name, damage, report):
        folder = bench.folder()
        path, copy = os.path.join(folder, name), os.path.join(folder, "copy")
        fill(path, 100000000)
        shutil.copy(path, copy)
        damage(copy)
        digest = bench.sums(folder, "hash", "-a", "blake3", "--raw", "--", name).hex()
        ok = b"0 67108864: OK\n65536 32891136: OK\n"

        def step(block):
            return bench.run(named(behind_file(bench, block), name, 65536), folder, digest=digest)

        ends(step("damage-list"), 0, b"")
        ends(step("damage-trust"), 0, b"-: OK\n")
        got = step("damage-find")
        is_longer = os.path.getsize(copy) > os.path.getsize(path)
        ends(got, 1 if is_longer or report != ok else 0, b"", b"sums: copy: bytes behind the last part\n" if is_longer else b"")
        with open(os.path.join(folder, "report"), "rb") as file:
            same(file.read(), report, "the report")
        ends(step("damage-mend"), 0, ok)
        ends(bench.run("cmp -- copy " + shlex.quote("./" + name), folder), 0)
        shutil.rmtree(folder)

    ok = b"0 67108864: OK\n65536 32891136: OK\n"
    for name in NAMES:
        bench.judge(f"docs/SCALE.md damage, {name!r}", lambda: case(name, flipped, ok.replace(b"OK", b"FAILED")))
    for title, damage, report in (
            ("none", lambda copy: None, ok),
            ("a truncated end", lambda copy: os.truncate(copy, 90000000), ok.replace(b"6: OK", b"6: MISSING")),
            ("the end of the first part", lambda copy: os.truncate(copy, 67108864), ok.replace(b"6: OK", b"6: MISSING")),
            ("nothing left", lambda copy: os.truncate(copy, 0), ok.replace(b"OK", b"MISSING")),
            ("one byte too many", lambda copy: os.truncate(copy, 100000001), ok)):
        bench.judge(f"docs/SCALE.md damage, {title}", lambda: case("big", damage, report))


def scale_own(bench):
    """The part of a file that a machine has, and the lines of parts that many have."""
    folder = bench.folder()
    whole, second = os.path.join(folder, "whole"), os.path.join(folder, "second")
    fill(whole, 100000000)
    part = ["part", "-a", "blake3", "--first", "65536", "whole"]
    with open(whole, "rb") as file, open(second, "wb") as end:
        file.seek(65536 * CHUNK)
        shutil.copyfileobj(file, end)
    bench.judge("docs/SCALE.md own",
                lambda: ends(bench.run(bench.text("docs/SCALE.md", "own"), folder), 0, bench.sums(folder, *part)))

    def joined(name):
        folder = bench.folder()
        fill(os.path.join(folder, name), 12 * CHUNK)
        for number in range(12):
            line = bench.sums(folder, "part", "-a", "blake3", "--first", str(number), "--chunks", "1", "--", name)
            with open(os.path.join(folder, f"out.{number}"), "wb") as file:
                file.write(line)
        ends(bench.run(named(behind_file(bench, "after-part"), name, 1), folder), 0,
             bench.sums(folder, "hash", "-a", "blake3", "--", name))

    for name in NAMES:
        bench.judge(f"docs/SCALE.md after-part, {name!r}", lambda: joined(name))


# ---- Lists


def pictures(folder):
    """Files of each name with .iso after it, and the other files that lines to copy name."""
    for number, name in enumerate(NAMES + ["one", "two"]):
        fill(os.path.join(folder, name + ".iso"), 100 + number)
    for name, size in [("backup.tar", 300000), ("seed.bin", 77), ("message", 9), ("key", 64), ("key32", 32),
                       ("secret", 20), ("disk.img", 100000000), ("empty", 0)]:
        fill(os.path.join(folder, name), size)
    return folder


def lists_of(bench, folder):
    names = sorted(name for name in os.listdir(folder) if name.endswith(".iso"))
    listed = bench.sums(folder, "hash", "-a", "sha256", "--", *names)
    with open(os.path.join(folder, "SHA256SUMS"), "wb") as file:
        file.write(listed)
    with open(os.path.join(folder, "B2SUMS"), "wb") as file:
        file.write(bench.sums(folder, "hash", "-a", "blake2b", "message"))
        file.write(bench.sums(folder, "hash", "-a", "blake2b", "-l", "32", "--", *names))
    with open(os.path.join(folder, "TAGS"), "wb") as file:
        file.write(bench.sums(folder, "mac", "-a", "hmac-sha256", "--key-file", "key", "--", *names))
    return listed


def lines_of(bench, page):
    """Lines to copy: each is run by itself, in the page's order, in a folder with the files that they name."""
    folder = pictures(bench.folder())
    listed = lists_of(bench, folder)
    outputs = {}
    for line in bench.text(page, "lines").splitlines():
        def case():
            got = bench.run(line, folder)
            told = got[2] if "--summary" in line else b""
            ends(got, 0, None, told)
            if "--summary" in line and not re.fullmatch(rb"sums: \d+ OK, 0 failed, .*\n", got[2]):
                raise Wrong(f"the summary says {got[2]!r}")
            if b": FAILED" in got[1] or (not got[1] and ">" not in line):
                raise Wrong(f"it prints {got[1]!r}")
            outputs[re.sub(r" +#.*", "", line)] = got[1]
        bench.judge(f"{page} lines: {line}", case)
    if any("SHA256SUMS" in line and ">" in line for line in outputs):
        with open(os.path.join(folder, "SHA256SUMS"), "rb") as file:
            written = file.read()
        bench.judge(f"{page} lines: the list", lambda: same(sorted(written.splitlines()), sorted(listed.splitlines()), "list"))
    return folder, outputs


def session(bench, page, name):
    """A session of a shell: what is printed between two prompts is what stands there."""
    folder = bench.folder()
    for piece in ("\n" + bench.text(page, name)).split("\n$ ")[1:]:
        command, _, printed = piece.partition("\n")
        wanted = (printed.rstrip("\n") + "\n" if printed.strip() else "").encode()
        bench.judge(f"{page} {name}: {command}", lambda: ends(bench.run(command, folder), 0, wanted))


def readme_first(bench):
    session(bench, "README.md", "first")


def readme_use(bench):
    session(bench, "README.md", "use")


def readme_checks(bench):
    """The run of all checks, which a release has before this: here it is only looked whether it is there."""
    words = bench.text("README.md", "checks").split()
    bench.judge("README.md checks", lambda: same((words, os.access(os.path.join(HERE, words[0]), os.X_OK)),
                                                 (["tools/test"], True), "the command, and whether it can be run"))


def readme_download(bench):
    """A list of right files, and then of a wrong one; one file of it, or none; a digest alone."""
    page = "README.md download"
    every, one, _, _, alone = bench.text("README.md", "download").splitlines()
    folder = pictures(bench.folder())
    listed = lists_of(bench, folder)
    count = listed.count(b"\n")
    alone = alone.replace("DIGITS", bench.sums(folder, "hash", "-a", "sha256", "two.iso")[:64].decode())
    bench.judge(page, lambda: same(
        (bench.run(every, folder)[0], bench.run(every, folder)[1].count(b": OK\n")), (0, count), "status and files"))
    bench.judge(f"{page}, one file", lambda: ends(bench.run(one, folder), 0, b"two.iso: OK\n"))
    bench.judge(f"{page}, a digest", lambda: ends(bench.run(alone, folder), 0, b"two.iso: OK\n"))
    fill(os.path.join(folder, "two.iso"), 7)
    got = bench.run(every, folder)
    bench.judge(f"{page}, a wrong file",
                lambda: same((got[0], b"two.iso: FAILED\n" in got[1]), (1, True), "status and report"))
    bench.judge(f"{page}, a digest, a wrong file",
                lambda: ends(bench.run(alone, folder), 1, b"two.iso: FAILED\n"))
    with open(os.path.join(folder, "SHA256SUMS"), "wb") as file:
        file.write(b"".join(line for line in listed.splitlines(keepends=True) if b"two" not in line))
    bench.judge(f"{page}, one file that no line has", lambda: ends(bench.run(one, folder), 1, b""))


def folder_later(bench):
    """A list of a folder with files of each name, and what is not OK of it later: nothing, or what was changed."""
    page = "docs/FORMAT.md"
    make, check = bench.text(page, "folder").splitlines()

    def case(changed, report):
        folder = bench.folder()
        os.mkdir(os.path.join(folder, "backup"))
        names = ["backup/" + name for name in tree(os.path.join(folder, "backup"))]
        ends(bench.run(make, folder), 0, b"")
        with open(os.path.join(folder, "LIST"), "rb") as file:
            same(sorted(file.read().splitlines()),
                 sorted(bench.sums(folder, "hash", "-a", "blake3", "--", *names).splitlines()), "the list")
        for name in changed:
            fill(os.path.join(folder, "backup", name), 1)
            os.remove(os.path.join(folder, "backup/sub dir", name))
        got = bench.run(check, folder)
        same((got[0], sorted(got[1].splitlines()), got[2]), (0, sorted(report), b""), "what is not OK")

    def new(names):
        """What is new in a folder: these names, none of them on the list."""
        folder = bench.folder()
        os.mkdir(os.path.join(folder, "backup"))
        for name in ["old", "a b"]:
            fill(os.path.join(folder, "backup", name), 1)
        ends(bench.run(make, folder), 0, b"")
        for name in names:
            fill(os.path.join(folder, "backup", name), 2)
        os.remove(os.path.join(folder, "backup/old"))
        ends(bench.run(bench.text(page, "new"), folder), 0, "".join(f"backup/{name}\n" for name in names).encode())

    bench.judge(f"{page} new, nothing", lambda: new([]))
    bench.judge(f"{page} new", lambda: new(["a c", "new", "with  two blanks"]))
    bench.judge(f"{page} folder", lambda: case([], []))
    bench.judge(f"{page} folder, changed", lambda: case(["a b", "a\nb"], [
        b"backup/a b: FAILED", b"backup/sub dir/a b: MISSING", b"backup/a\\nb: FAILED",
        b"backup/sub dir/a\\nb: MISSING"]))


def hash_page(bench):
    page = "man/sums-hash.1"
    folder, outputs = lines_of(bench, page)
    if bench.there("sha256sum", "it was not asked whether it takes the list"):
        bench.judge(f"{page} lines: sha256sum -c",
                    lambda: ends(bench.run("sha256sum --quiet -c SHA256SUMS", folder), 0, b""))
    if bench.there("b2sum", "its digest was not compared"):
        bench.judge(f"{page} lines: b2sum -l 256",
                    lambda: same(outputs.get("sums hash -a blake2b -l 32 backup.tar"),
                                 bench.run("b2sum -l 256 backup.tar", folder)[1], "line"))


def tags(bench):
    """A tag that is written and checked, of each name; and one that is wrong."""
    text = bench.text("man/sums-mac.1", "tag")

    def case(name):
        folder = bench.folder()
        fill(os.path.join(folder, name), 99)
        fill(os.path.join(folder, "key"), 32)
        ends(bench.run(text, folder, f=name), 0, shown_name(name) + b": OK\n")
        wrong = re.sub("message.tag\n", "message.tag; printf x >> \"./$f\"\n", text, count=1)
        ends(bench.run(wrong, folder, f=name), 1, shown_name(name) + b": FAILED\n")

    for name in NAMES:
        bench.judge(f"sums-mac(1) tag, {name!r}", lambda: case(name))


def shown_name(name):
    return name.replace("\\", "\\\\").replace("\n", "\\n").replace("\r", "\\r").encode()


def one_of(bench):
    """One file of a long list: its line, or status 1."""
    page = "man/sums-check.1"
    text = bench.text(page, "one")

    def case(name):
        folder = bench.folder()
        for number, other in enumerate(NAMES):
            fill(os.path.join(folder, other), 50 + number)
        listed = bench.sums(folder, "hash", "-a", "sha256", "--", *NAMES)
        with open(os.path.join(folder, "SHA256SUMS"), "wb") as file:
            file.write(listed)
        ends(bench.run(text, folder, f=name), 0, bench.sums(folder, "hash", "-a", "sha256", "--", name))
        with open(os.path.join(folder, "SHA256SUMS"), "wb") as file:
            file.write(bench.sums(folder, "hash", "-a", "sha256", "--", name).replace(b"\n", b"x\n"))
        ends(bench.run(text, folder, f=name), 1, b"")
        with open(os.path.join(folder, "SHA256SUMS"), "wb") as file:
            file.write(listed)
        fill(os.path.join(folder, name), 7)
        ends(bench.run(text, folder, f=name), 1, b"")

    for name in NAMES:
        bench.judge(f"{page} one, {name!r}", lambda: case(name))


def check_page(bench):
    page = "man/sums-check.1"
    folder, _ = lines_of(bench, page)
    some, faults = bench.text(page, "some"), bench.text(page, "faults")
    bench.judge(f"{page} some", lambda: ends(bench.run(some, folder), 0, b"two.iso: OK\n"))
    shell = bench.language(page, "faults")
    if bench.there(shell, "the recipe with pipefail was not run"):
        bench.judge(f"{page} faults, none", lambda: ends(bench.run(faults, folder, shell), 0, b""))
        fill(os.path.join(folder, "two.iso"), 7)
        fill(os.path.join(folder, "a\nb.iso"), 7)
        bench.judge(f"{page} faults, two", lambda: same(
            (bench.run(faults, folder, shell)[0], sorted(bench.run(faults, folder, shell)[1].splitlines())),
            (1, [b"a\\nb.iso: FAILED", b"two.iso: FAILED"]), "status and report"))
        bench.judge(f"{page} some, wrong", lambda: ends(
            bench.run(some, folder), 1, b"two.iso: FAILED\n",
            b"sums: LIST: all FAILED, untagged lines may need another -a\n"))
    write(folder, "SHA256SUMS", "")
    bench.judge(f"{page} some, none", lambda: ends(bench.run(some, folder), 1, b""))


def signed_lists(bench):
    """A list with a good signature, with a bad one, and with none."""
    if not bench.there("gpg", "the recipes for signed lists were not run"):
        return
    keys = os.path.join(bench.work, "gpg")
    os.mkdir(keys, mode=0o700)
    bench.environment["GNUPGHOME"] = keys
    make = "gpg --batch --quiet --passphrase '' --quick-generate-key 'A <a@example.com>' ed25519 sign"
    if bench.run(make, bench.work)[0]:
        bench.missing("gpg made no key: the recipes for signed lists were not run")
        return
    bench.judge("sums-check(1) signed", lambda: signed(bench, bench.text("man/sums-check.1", "signed")))
    _, _, beside, inside, _ = bench.text("README.md", "download").splitlines()
    bench.judge("README.md download, a signature in the list", lambda: signed(bench, inside))
    bench.judge("README.md download, a signature beside the list", lambda: signed_beside(bench, beside))
    bench.run("gpgconf --kill all", bench.work)


def signed_folder(bench, how):
    """A folder with a file, and a list that is signed in this way."""
    folder = bench.folder()
    fill(os.path.join(folder, "-a"), 5)
    listed = bench.sums(folder, "hash", "-a", "sha256", "--", "-a").decode()
    write(folder, "SHA256SUMS", "# a list\n" + listed)
    same(bench.run(f"gpg --batch --quiet {how} SHA256SUMS", folder)[0], 0, "status of signing")
    return folder, listed


def signed(bench, text):
    folder, listed = signed_folder(bench, "--clearsign")
    os.remove(os.path.join(folder, "SHA256SUMS"))
    got = bench.run(text, folder)
    same((got[0], got[1]), (0, b"-a: OK\n"), "a good signature")
    with open(os.path.join(folder, "SHA256SUMS.asc"), encoding="utf-8") as file:
        good = file.read()
    write(folder, "text", listed)
    unsigned = bench.run("gpg --batch --quiet --armor --output - --store text", folder)[1].decode()
    for name, other in [("a bad signature", good.replace("# a list", "# another")), ("no signature", unsigned),
                        ("no PGP", listed), ("no bytes", "")]:
        write(folder, "SHA256SUMS.asc", other)
        got = bench.run(text, folder)
        same((got[0] > 0, got[1]), (True, b""), name)
    # a signature of another file writes no list: one from before must not be checked
    write(folder, "SHA256SUMS", "# a list\n")
    same(bench.run("gpg --batch --quiet --yes --armor --detach-sign SHA256SUMS", folder)[0], 0, "status of signing")
    write(folder, "LIST", listed)
    got = bench.run(text, folder)
    same((got[0] > 0, got[1]), (True, b""), "a signature beside another list")


def signed_beside(bench, text):
    folder, listed = signed_folder(bench, "--armor --detach-sign")
    same(bench.run(text, folder)[:2], (0, b"-a: OK\n"), "a good signature")
    write(folder, "SHA256SUMS", listed)
    got = bench.run(text, folder)
    same((got[0] > 0, got[1]), (True, b""), "another list")


# ---- Folders


def keyed_list(bench):
    """A list of a folder under a key: nothing is changed; then a file, a file and its line, by one who has no key, and a
    line that has become a tagged one."""
    key, make, check = bench.text("docs/FORMAT.md", "keyed").splitlines()
    changed = "backup/sub dir/two"

    def case(forge, report, told=b""):
        folder = bench.folder()
        os.mkdir(os.path.join(folder, "backup"))
        tree(os.path.join(folder, "backup"))
        fill(os.path.join(folder, changed), 40)
        ends(bench.run(f"{key}\n{make}", folder), 0, b"")
        with open(os.path.join(folder, "LIST"), "rb") as file:
            lines = file.read().splitlines(keepends=True)
        at = next(at for at, line in enumerate(lines) if line[66:] == changed.encode() + b"\n")
        if forge is not None:
            fill(os.path.join(folder, changed), 41)
            lines[at] = bench.sums(folder, "hash", "-a", "blake3", *forge, changed) if forge else lines[at]
        with open(os.path.join(folder, "LIST"), "wb") as file:
            file.write(b"".join(lines))
        ends(bench.run(check, folder), 0, report.replace(b"AT", b"%d" % (at + 1)), told)

    failed = changed.encode() + b": FAILED\n"
    bench.judge("docs/FORMAT.md keyed", lambda: case(None, b""))
    bench.judge("docs/FORMAT.md keyed, a file changed", lambda: case([], failed))
    bench.judge("docs/FORMAT.md keyed, a file and its line", lambda: case(["-l", "32"], failed))
    bench.judge("docs/FORMAT.md keyed, a tagged line", lambda: case(
        ["--tag"], b"line AT: MALFORMED\n", b"sums: LIST: tagged lines, which anyone can make: 1\n"))


def tree(folder):
    """Files of each name, in two folders."""
    names = []
    for below in ["", "sub dir/"]:
        os.makedirs(os.path.join(folder, below), exist_ok=True)
        for number, name in enumerate(NAMES):
            fill(os.path.join(folder, below + name), 10 + number)
            names.append(below + name)
    return names


def folders(bench):
    """The lists of a folder's files, of each name; an empty folder has none."""
    text = bench.text("man/sums.1", "folder")

    def case(fills):
        above = bench.folder()
        here = os.path.join(above, "here")
        os.mkdir(here)
        names = ["./" + name for name in tree(here)] if fills else []
        wanted = bench.sums(here, "hash", "-a", "blake3", "--", *names) if fills else b""
        ends(bench.run(text, here))
        with open(os.path.join(above, "LIST"), "rb") as file:
            same(sorted(file.read().splitlines()), sorted(wanted.splitlines()), "the list")

    bench.judge("sums(1) folder", lambda: case(True))
    bench.judge("sums(1) folder, an empty one", lambda: case(False))


def scale_cores(bench):
    """A file of each name and a folder, hashed and checked."""
    text = bench.text("docs/SCALE.md", "cores")

    def case(name, size):
        folder = bench.folder()
        below = os.path.join(folder, "folder")
        os.mkdir(below)
        names = ["folder/" + each for each in tree(below)]
        fill(os.path.join(folder, name), size)
        listed = bench.sums(folder, "hash", "-a", "blake3", "--", name, *names)
        report = [shown_name(each) + b": OK" for each in [name, *names]]
        got = bench.run(text, folder, f=name)
        same((got[0], sorted(got[1].splitlines()), got[2]), (0, sorted(report), b""), "the report")
        with open(os.path.join(folder, "LIST"), "rb") as file:
            same(sorted(file.read().splitlines()), sorted(listed.splitlines()), "the list")

    bench.judge("docs/SCALE.md cores", lambda: case("big", 200000001))
    for name in NAMES:
        bench.judge(f"docs/SCALE.md cores, {name!r}", lambda: case(name, 4321))


def checked(bench, folder, count):
    """A list of files of each name, one of which is another meanwhile; and its report."""
    names = tree(folder)
    for number in range(count):
        fill(os.path.join(folder, f"more{number}"), number)
    listed = bench.sums(folder, "hash", "-a", "blake3", "--", *names, *(f"more{number}" for number in range(count)))
    with open(os.path.join(folder, "LIST"), "wb") as file:
        file.write(b"# a list\n\n" + listed + b"no line\n")
    fill(os.path.join(folder, "more1"), 5)
    done = subprocess.run([bench.program, "check", "-a", "blake3", "LIST"], cwd=folder, capture_output=True)
    return done.returncode, done.stdout, done.stderr


def scale_shares(bench):
    """A list that is checked in shares: the report and the status of one run, and what is said of a lost output."""
    text = bench.text("docs/SCALE.md", "on-cores")

    def case(loses):
        folder = bench.folder()
        wanted = checked(bench, folder, 40)
        of_work(bench, folder, "check")
        got = bench.run(text.replace("sh after.sh", "rm out.05; sh after.sh") if loses else text, folder)
        if loses:
            same((got[0], got[1]), (1, b""), "the status and the output")
            same(re.fullmatch(rb"sums: report: line \d+: not of this list\n", got[2]) is not None, True, "what is told")
            return
        with open(os.path.join(folder, "report"), "rb") as file:
            same((got[0], file.read()), wanted[:2], "the status and the report")

    bench.judge("docs/SCALE.md share-check", lambda: case(False))
    bench.judge("docs/SCALE.md share-check, an output is lost", lambda: case(True))


def scale_shares_hash(bench):
    """The files of a folder that are hashed in shares, and outputs that are lost or of another job."""
    text = bench.text("docs/SCALE.md", "on-cores")

    def case(does):
        folder = bench.folder()
        os.mkdir(os.path.join(folder, "folder"))
        names = ["folder/" + each for each in tree(os.path.join(folder, "folder"))]
        with open(os.path.join(folder, "out.00.old"), "wb") as file:
            file.write(b"a line of an earlier job\n")
        bench.run("find folder -type f -print0 > names", folder)
        of_work(bench, folder, "hash")
        got = bench.run(text.replace("sh after.sh", f"{does}\nsh after.sh"), folder)
        if does:
            same((got[0], got[1].startswith((b"- wanted differ", b"cmp: EOF"))), (1, True), "the status, and what cmp tells")
            return
        ends(got)
        with open(os.path.join(folder, "LIST"), "rb") as file:
            listed = bench.sums(folder, "hash", "-a", "blake3", "--", *names)
            same(sorted(file.read().splitlines()), sorted(listed.splitlines()), "the list")

    bench.judge("docs/SCALE.md share-hash", lambda: case(""))
    for does in "rm out.05", "sed -i 2d out.03", "cp out.01 out.02":
        bench.judge(f"docs/SCALE.md share-hash, {does}", lambda: case(does))


# ---- All of them

# each recipe of each page, and what runs it
RUNS = {
    "README.md": {"first": readme_first, "download": readme_download, "use": readme_use, "checks": readme_checks},
    "docs/SCALE.md": {"cores": scale_cores, "file": scale_parts, "on-cores": scale_shares, "on-hosts": scale_hosts,
                      "on-slurm": scale_slurm, "on-spark": scale_spark,
                      "share-check": scale_shares, "after-check": scale_shares,
                      "share-hash": scale_shares_hash, "after-hash": scale_shares_hash,
                      "share-part": scale_parts, "after-part": scale_own, "own": scale_own, "device": scale_parts,
                      "damage-list": scale_damage, "damage-trust": scale_damage, "damage-find": scale_damage,
                      "damage-mend": scale_damage},
    "docs/FORMAT.md": {"folder": folder_later, "new": folder_later, "keyed": keyed_list},
    "man/sums.1": {"lines": lambda bench: lines_of(bench, "man/sums.1"), "folder": folders},
    "man/sums-hash.1": {"lines": hash_page},
    "man/sums-mac.1": {"lines": lambda bench: lines_of(bench, "man/sums-mac.1"), "tag": tags},
    "man/sums-kdf.1": {"lines": lambda bench: lines_of(bench, "man/sums-kdf.1")},
    "man/sums-check.1": {"lines": check_page, "faults": check_page, "one": one_of, "some": check_page,
                         "signed": signed_lists},
    "man/sums-part.1": {"lines": lambda bench: lines_of(bench, "man/sums-part.1"), "list": part_page, "damage": part_damage},
    "man/sums-join.1": {"parts": join_page},
    "man/sums-parallel.1": {"lines": lambda bench: lines_of(bench, "man/sums-parallel.1")},
}


def read_pages(bench):
    pages = ["README.md", *sorted(glob.glob("docs/*.md", root_dir=HERE)), *sorted(glob.glob("man/*.1", root_dir=HERE))]
    for page in pages:
        def case():
            bench.pages[page] = fenced(page) if page.endswith(".md") else paged(page)
            same(sorted(bench.pages[page]), sorted({**RUNS.get(page, {}), **LONG.get(page, {})}), "its recipes")
        bench.judge(page, case)


def main():
    if len(sys.argv) < 2:
        sys.exit(__doc__[__doc__.index("usage:") :].strip())
    with tempfile.TemporaryDirectory(prefix="recipes.") as work:
        os.chmod(work, 0o755)
        bench = Bench(os.path.abspath(sys.argv[1]), work)
        read_pages(bench)
        if bench.failed == 0:
            wanted = sys.argv[2:]
            short = [(name, run) for page in RUNS.values() for name, run in page.items()]
            long = [(name, run) for page in LONG.values() for name, run in page.items()]
            if wanted == ["long"]:
                short, wanted = [], [name for name, _ in long]
            runs = dict.fromkeys([run for name, run in short if not wanted or name in wanted]
                                 + [run for name, run in long if name in wanted])
            for run in runs:
                run(bench)
    for text in bench.absent:
        print(text)
    print(f"{bench.passed} passed, {bench.failed} failed")
    sys.exit(bench.failed > 0)


if __name__ == "__main__":
    main()

"""Everyday lists and digests, in the forms that makers publish and people paste, and what makers use the page for."""

import base64
import pathlib
import subprocess
import sys
import time
import urllib.parse

import harness
from driven import Page, TITLES, made, sha256

TOP = pathlib.Path(harness.HERE).parent
# names of lists, whether their lines decide that they are lists, and the hash of their lines
LISTS = {
    "SHA256SUMS": "sha256", "SHA256SUMS.txt": "sha256", "SHASUMS256.txt": "sha256", "SHA256": "sha256",
    "SHA256SUMS (1)": "sha256", "SHA256SUMS.asc": "sha256", "checksums-sha256.txt": "sha256",
    "CHECKSUM.SHA256-FreeBSD-14.0-RELEASE-amd64": "sha256", "prog.sha256": "sha256", "prog.tar.gz.sha256sum": "sha256",
    "CHECKSUM": "sha256", "checksums.txt": "sha256", "prog_1.0_checksums.txt": "blake3", "HASHES": "blake2b",
    "SHA512SUMS": "sha512", "B2SUMS": "blake2b", "BLAKE2SUMS": "blake2b", "blake2sum.txt": "blake2b",
    "b2-linux.b3": "blake3", "sha256-simd-1.0.tar.gz.b3": "blake3", "sha512-tool.blake3": "blake3", "prog.b3": "blake3",
    "BLAKE2SSUMS": "blake2s", "b3sum-1.0.tar.gz.b2": "blake2b", "DIGESTS": "sha512",
}
# files that are called as lists are, without a line of one
OTHERS = {
    "weekly-digest.txt": b"Dear reader,\nall is well\n", "invoice-sum": b"12 and 30 is 42\n", "sum.txt": b"42\n",
    "checksum": b"\x7fELF\0\0", "song.b2": b"\0\1\2\3", "app-1.0-b2": b"\x7fELF\2\1\1\0",
    "README.sha256.txt": b"SHA-256 is a hash.\nIt has 64 digits.\n", "model.blake3": bytes(range(256)) * 400,
}


def quoted(text):
    return f"“\u2068{text}\u2069”"


def digest_of(program, work, hash_name, path):
    run = harness.run(program, ["hash", "-a", hash_name, "--", path], cwd=work)
    return run.out.decode().split()[0]


def try_list_names(page, work, program):
    """Names that makers use are taken as lists, of the hash that their ends or their lines tell."""
    made(work, "prog", b"hello")
    for name, hash_name in LISTS.items():
        listed = made(work, name, f"{digest_of(program, work, hash_name, 'prog')}  prog\n".encode())
        page.anew()
        page.files(listed, work / "prog")
        shown = page.done()
        harness.same(f"the list {name}", (shown["state"], shown["rows"]), ("ok", ["prog: OK"]))
    for name, data in OTHERS.items():
        page.anew()
        page.files(made(work, name, data))
        shown = page.done()
        is_told = f"no list: {name}." in shown["added"]
        harness.same(f"the file {name}", (shown["rows"], is_told), ([f"{name}: DIGEST"], True))
        page.paste(f"SHA256 ({name}) = {sha256(data)}")
        harness.same(f"the file {name}, which is listed", page.done()["rows"], [f"{name}: OK"])
        page.paste(sha256(data))
        harness.same(f"the file {name}, and its digest", page.done()["rows"], [f"{name}: OK"])
    listed = made(work, "list.txt", f"{digest_of(program, work, 'sha256', 'prog')}  prog\n".encode())
    page.anew()
    page.files(listed, work / "prog")
    harness.same("a list by another name is offered", page.done()["offers"], ["list.txt"])
    page.press("Use list.txt as a list")
    harness.same("and taken", page.done()["rows"], ["prog: OK"])


def try_one_of_many(page, work):
    """One file of a long list is green, and a list without files asks for them."""
    lines = [f"{sha256(b'%d' % at)}  file {at}\n" for at in range(99)]
    lines.insert(50, f"{sha256(b'two')}  two.iso\n")
    listed = made(work, "many/SHA256SUMS", "".join(lines).encode())
    page.anew()
    page.files(listed)
    shown = page.done()
    harness.same("a list alone", (shown["state"], shown["verdict"]), ("", "Now add the files. The list names 100."))
    page.files(made(work, "many/two.iso", b"two"))
    shown = page.done()
    harness.same("one of its files", (shown["state"], shown["verdict"], shown["seen"]), ("ok", "two.iso: OK", 1))
    harness.same("the others are folded", shown["folded"], "Show 99 more on the list, which were not added")
    page.browser.script("document.getElementById('missing').click()")
    harness.same("and shown when asked for", page.read()["seen"], 100)
    made(work, "many/two.iso", b"other")
    page.anew()
    page.files(listed, work / "many/two.iso")
    shown = page.done()
    harness.same("another content", (shown["state"], shown["verdict"]), ("wrong", "two.iso: FAILED"))
    harness.judge("what that means", any("Do not use it" in it for it in shown["notes"]), shown["notes"])
    page.anew()
    page.files(made(work, "many/odd.sha256", f"no entry\n{sha256(b'x')}  x\n".encode()))
    shown = page.done()
    harness.same("a list alone with a malformed line", (shown["state"], shown["verdict"]),
        ("", "Now add the files. The list names one."))


SIGNATURE = """-----BEGIN PGP SIGNATURE-----

iQIzBAEBCAAdFiEE6PI5lvIyGGQMtEy+dc8tlrC4
=abcd
-----END PGP SIGNATURE-----
"""


def signed(text, signature=SIGNATURE):
    return f"-----BEGIN PGP SIGNED MESSAGE-----\nHash: SHA256\n\n{text}{signature}"


def try_texts(page, work):
    """Lists with a signature around them, and of UTF-16."""
    file = made(work, "Fedora.iso", b"iso")
    line = f"SHA256 (Fedora.iso) = {sha256(b'iso')}\n"
    wrong = f"SHA256 (Fedora.iso) = {sha256(b'other')}\n"
    hidden = SIGNATURE.replace("=abcd", wrong.strip())
    for what, text, state, rows in (
        ("a clear-signed list", signed(f"# Fedora.iso: 3 bytes\n{line}"), "ok", ["Fedora.iso: OK"]),
        ("one with a malformed line", signed(f"{line}no entry\n"), "wrong", ["Fedora.iso: OK", "line 5: MALFORMED"]),
        ("one with an entry in its signature", signed(line, hidden), "wrong", None),
        ("one without an end", signed(line, SIGNATURE[:60]), "wrong", None),
    ):
        page.anew()
        page.files(made(work, "Fedora-39-CHECKSUM", text.encode()), file)
        shown = page.done()
        harness.same(what, (shown["state"], rows and shown["rows"]), (state, rows))
        is_told = any("No signature is checked" in it for it in shown["notes"])
        harness.judge(f"{what}: that no signature is checked", is_told or rows is None, shown["notes"])
    page.anew()
    page.files(made(work, "Fedora-39-CHECKSUM", (signed("# nothing\n") + line).encode()), file)
    shown = page.done()
    is_told = any("outside of the signed text" in it for it in shown["notes"])
    harness.same("one with an entry behind its signature", (shown["state"], shown["rows"], is_told),
        ("", ["Fedora.iso: OK"], True))
    harness.judge("which its row says", "outside of the signed text" in shown["details"][0], shown["details"])
    page.anew()
    page.files(made(work, "u.sha256", ("\ufeff" + f"{sha256(b'iso')}  Fedora.iso\r\n").encode("utf-16-le")), file)
    shown = page.done()
    is_told = any("UTF-16" in it for it in shown["notes"])
    harness.judge("a list of UTF-16", shown["state"] == "wrong" and is_told, shown["notes"])
    page.anew()
    page.files(made(work, "m.sha256", b"\xef\xbb\xbf" + f"{sha256(b'iso')}  Fedora.iso\n".encode()), file)
    harness.judge("a byte order mark", any("byte order mark" in it for it in page.done()["notes"]))


def try_mixed(page, work, program):
    """Lists whose lines do not say their hash: each length has its own, and a line that has none is not FAILED."""
    made(work, "prog", b"hello")
    made(work, "other", b"other")
    lines = [f"{digest_of(program, work, name, 'prog')}  prog\n" for name in ("sha256", "sha512")]
    wrong = "".join(f"{'5a' * size}  other\n" for size in (32, 64))
    for what, text, state, results in (
        ("lines of SHA-256 and SHA-512", "".join(lines), "ok", ["OK", "OK"]),
        ("wrong ones beside right ones", "".join(lines) + wrong, "wrong", ["OK", "OK", "FAILED", "FAILED"]),
        ("wrong ones alone", wrong, "wrong", ["NO MATCH", "NO MATCH"]),
        ("a line that may be of another hash", lines[0] + lines[0].replace(sha256(b"hello"), "5a" * 32), "wrong",
            ["OK", "NO MATCH"]),
    ):
        page.anew()
        page.files(made(work, "checksums.txt", text.encode()), work / "prog", work / "other")
        shown = page.done()
        got = [it.split(": ")[1] for it in shown["rows"] if "NOT LISTED" not in it]
        harness.same(f"a list of any hash: {what}", got, results)
        isDamaged = any("damaged" in it and it.startswith("FAILED") for it in shown["notes"])
        harness.same(f"{what}: what is said", isDamaged, "FAILED" in results)
        if state == "wrong":
            harness.same(f"{what}: the verdict", shown["state"], state)


def try_alone(page, work):
    """A digest alone is of one file, which may be a list, or a file whose name or content makes it look like one."""
    listed = made(work, "SHA256SUMS", f"{sha256(b'two')}  two.iso\n".encode())
    file, own = made(work, "two.iso", b"two"), sha256((work / "SHA256SUMS").read_bytes())
    cases = (
        ("a right digest of the list", own, [listed], "ok", ["two.iso: MISSING", "SHA256SUMS: OK"]),
        ("the same, with its file", own, [listed, file], "ok", ["two.iso: OK", "SHA256SUMS: OK"]),
        ("a wrong digest of the list", "1" * 64, [listed], "", ["two.iso: MISSING", "the pasted text: NO MATCH"]),
        ("the same, with its file", "1" * 64, [listed, file], "wrong", ["two.iso: OK", "the pasted text: NO MATCH"]),
        ("a digest of the file", sha256(b"two"), [listed, file], "ok", ["two.iso: OK", "two.iso: OK"]),
    )
    for what, text, paths, state, rows in cases:
        page.anew()
        page.paste(text)
        page.files(*paths)
        shown = page.judged(len(paths))
        harness.same(f"a digest alone: {what}", (shown["state"], shown["rows"]), (state, rows))
    page.anew()
    page.paste(sha256(b"two"))
    page.files(file, made(work, "three.iso", b"three"))
    shown = page.judged(2)
    harness.same("a digest alone, of one of two files", (shown["state"], shown["rows"]),
        ("", ["two.iso: OK", "three.iso: NOT LISTED"]))
    page.anew()
    page.files(file, made(work, "two.iso.sha256", f"{sha256(b'two')}\n".encode()))
    shown = page.judged(2)
    harness.same("a file with a digest alone", (shown["state"], shown["verdict"]), ("ok", "two.iso: OK"))
    page.anew()
    page.files(file, made(work, "two.iso.sha256", f"{sha256(b'other')}\n".encode()))
    harness.same("with a wrong one", page.judged(2)["verdict"], "two.iso: FAILED")
    page.anew()
    page.paste("900150983cd24fb0d6963f7d28e17f72")
    harness.same("a digest of no hash, and no file", page.done()["verdict"], "No digest can be read.")
    page.anew()
    page.files(listed)
    page.folder(made(work, "folder/two.iso", b"two").parent)
    harness.same("a list, and a folder with its file", page.judged(2)["state"], "ok")
    page.anew()
    page.files(made(work, "SHA256SUMS", f"{sha256(b'two')}  two.iso\n{sha256(b'x')}  x\n".encode()))
    page.folder(work / "folder")
    shown = page.judged(2)
    harness.same("a list, and a folder with one of its files", (shown["state"], shown["verdict"], shown["folded"]),
        ("", "two.iso: OK. Also 1 MISSING", ""))


def grouped(digits, size):
    return " ".join(digits[at : at + size] for at in range(0, len(digits), size))


def try_forms(page, work, program):
    """Digests in the forms that people have, and of hashes that are not here."""
    made(work, "abc", b"abc")
    digest = {name: digest_of(program, work, name, "abc") for name in TITLES}
    own = digest["sha256"]
    upper = own.upper()
    in_base64 = base64.b64encode(bytes.fromhex(own)).decode()
    right = (
        own, f"  {own} \r\n", f"sha256:{own}", f"SHA-256: {upper}", f"sha256 {own}", f"SHA2-256(abc)= {own}",
        f"SHA256(abc)= {own}", f"SHA512(abc)= {digest['sha512']}", f"SHA256 (abc) = {own}", f"{own} *abc",
        f"{own}  abc", f"SHA256  {upper}  C:\\abc", f"0x{own}", f"“{own}”", f"abc: {own}", grouped(own, 8),
        f"abc: {grouped(upper, 8)}", grouped(own, 2), ":".join(own[at : at + 2] for at in range(0, 64, 2)),
        f"Algorithm       Hash       Path\n---------       ----       ----\nSHA256          {upper}       C:\\abc\n",
        f"Algorithm : SHA256\nHash      : {upper}\nPath      : C:\\abc\n",
        f"SHA256 hash of abc:\n{own}\nCertUtil: -hashfile command completed successfully.\n",
        f"SHA256 checksum: {own}", f"blake2b:{digest['blake2b']}", f"BLAKE3 {digest['blake3']}", f"sha256-{in_base64}",
        f"{own[:40]}\u200b{own[40:]}", f"\ufeff{own}", digest["blake2s"], f"{own}\n{own}",
        f"{own[:40]}\n{own[40:]}", f"blake3-1.0.tgz: {grouped(upper, 8)}", f"Hash : {upper}\nPath : C:\\sha512.zip",
    )
    page.anew()
    page.files(work / "abc")
    page.done()
    for text in right:
        page.paste(text)
        shown = page.done()
        harness.same(f"pasted: {text[:60]!r}", (shown["state"], shown["rows"]), ("ok", ["abc: OK"]))
    for text, told in (
        ("900150983cd24fb0d6963f7d28e17f72", "MD5"), ("md5: 900150983cd24fb0d6963f7d28e17f72", "MD5"),
        ("a9993e364706816aba3e25717850c26c9cd0d89d", "SHA-1"), ("cb" * 48, "SHA-384"),
        ("sha384:" + "cb" * 48, "SHA-384"),
        ("SHA3-256: " + "3a" * 32, "SHA3-256"), (own[:63], "copied whole"), (own + "0", "copied whole"),
        (f"{own} {digest['blake3']}", "several digests"), ("hello", "neither"),
        (f"sha256-{in_base64} {digest['blake3']}", "several digests"), (f"sha256-{in_base64}=", "neither"),
    ):
        page.paste(text)
        shown = page.done()
        harness.same(f"pasted: {text[:60]!r}", (shown["state"], shown["rows"]),
            ("wrong", ["the pasted text: MALFORMED", "abc: DIGEST"]))
        harness.judge(f"what is told of {text[:60]!r}", told in shown["details"][0], shown["details"])
    wrong = own[:-1] + ("0" if own[-1] != "0" else "1")
    page.paste(f"SHA256: {wrong}")
    harness.same("pasted: a wrong digest", page.done()["verdict"], "abc: FAILED")
    page.paste(wrong)
    shown = page.done()
    harness.same("pasted: a wrong digest of any hash", (shown["state"], shown["verdict"]), ("wrong", "abc: NO MATCH"))
    for what, second in (("of one file", digest["sha512"]), ("of two files, one of which is here", "1" * 128)):
        page.paste(f"SHA-256: {own}\nSHA-512: {second}\n")
        shown = page.done()
        wanted = ["abc: OK", "abc: OK" if second == digest["sha512"] else "the pasted text: NO MATCH"]
        harness.same(f"pasted: two digests {what}", shown["rows"], wanted)
    page.paste(f"SHA-256: {own}\nSHA-512: {'1' * 30}\n")
    shown = page.done()
    harness.same("pasted: a digest, and a part of one", (shown["state"], shown["rows"]),
        ("wrong", ["abc: OK", "the pasted text: MALFORMED"]))
    page.anew()
    page.files(made(work, "MD5SUMS", b"900150983cd24fb0d6963f7d28e17f72  abc\n"), work / "abc", by="lists")
    harness.judge("a list of MD5", any("MD5" in it for it in page.done()["notes"]))


def try_chosen_hash(page, work):
    """What is chosen goes away at Start over, and is told where a name says something else."""
    made(work, "prog", b"hello")
    listed = made(work, "SHA256SUMS", f"{sha256(b'hello')}  prog\n".encode())
    page.anew()
    page.choose("blake2b")
    page.files(listed, work / "prog")
    shown = page.done()
    is_told = any("its name says SHA-256, and BLAKE2b was chosen" in it for it in shown["notes"])
    harness.judge("another hash is chosen than a name says", is_told and shown["state"] == "wrong", shown["notes"])
    page.anew()
    page.files(listed, work / "prog")
    harness.same("after Start over", page.done()["rows"], ["prog: OK"])
    harness.same("nothing is chosen", page.browser.script("return document.getElementById('hash').value"), "")
    mixed = made(work, "checksums.txt", f"{sha256(b'hello')}  prog\n{'0' * 64}  none\n".encode())
    page.anew()
    page.files(mixed, work / "prog")
    harness.same("a list whose name tells no hash", page.done()["rows"], ["prog: OK", "none: MISSING"])


# ---- for makers


def try_address(page, work):
    """A digest and a list in the address of the page."""
    home = page.browser.script("return location.href").split("#")[0]
    made(work, "two.iso", b"two")
    page.browser.open("about:blank")
    page.browser.open(f"{home}#sha256={sha256(b'two')}&name=two.iso")
    shown = page.done()
    harness.same("an address with a digest", shown["verdict"], "Now add the file.")
    harness.judge("what it asks for, and who can write it", "two.iso" in shown["asked"] and "Anybody" in shown["asked"])
    page.files(work / "two.iso")
    harness.same("its file", page.done()["verdict"], "two.iso: OK")
    page.anew()
    page.files(made(work, "two (1).iso", b"two"))
    shown = page.done()
    is_told = f"called {quoted('two.iso')}" in shown["details"][0]
    harness.judge("by another name", shown["state"] == "ok" and is_told, shown)
    text = urllib.parse.quote(f"{sha256(b'two')}  two.iso\n{sha256(b'x')}  none\n")
    page.browser.open("about:blank")
    page.browser.open(f"{home}#list={text}")
    page.files(work / "two.iso")
    wanted = [f"{quoted('two.iso')}: OK", f"{quoted('none')}: MISSING"]
    harness.same("an address with a list", page.done()["rows"], wanted)
    page.browser.open("about:blank")
    page.browser.open(f"{home}#sha256=<img src=x onerror=alert(1)>&name=<b>")
    harness.same("an address with markup", page.browser.script("return document.querySelectorAll('img, b').length"), 0)
    page.files(work / "two.iso")
    harness.same("and no digest", page.done()["state"], "wrong")
    try_words(page, work, home)
    page.browser.open("about:blank")
    page.browser.open(home)


def try_words(page, work, home):
    """Words of a link are quoted and bounded, and each part of it is judged or named."""
    digest = sha256(b"two")
    long = "two.iso. This link is signed by the maker. " + "x" * 200
    for what, words, asked in (
        ("a name", f"sha256={digest}&name={urllib.parse.quote(long)}", quoted(long[:100] + "..")),
        ("a name that turns the text", f"sha256={digest}&name=%E2%80%AEosi.owt", quoted("\\u{202e}osi.owt")),
        ("a name with a plus", f"sha256={digest}&name=a+b", quoted("a+b")),
        ("a digest of words", "sha256=This%20is%20right:%20trust%20it", quoted("This is righ..")),
    ):
        page.browser.open("about:blank")
        page.browser.open(f"{home}#{words}")
        asked_now = page.done()["asked"]
        harness.judge(f"an address with {what}", asked in asked_now, asked_now)
    for words, state, rows in (
        (f"SHA256={digest}", "ok", ["two.iso: OK"]), (f"Sha256={digest}&NAME=two.iso", "ok", ["two.iso: OK"]),
        ("sha1=da39a3ee5e6b4b0d3255bfef95601890afd80709", "wrong", ["the link: MALFORMED", "two.iso: DIGEST"]),
        (f"sha256={digest}&sha1=da39", "wrong", ["two.iso: OK", "the link: MALFORMED"]),
        (digest, "wrong", ["the link: MALFORMED", "two.iso: DIGEST"]),
        (f"sha256={digest}&list=%", "wrong", ["two.iso: OK", "the link: MALFORMED"]),
        (f"sha256={digest}&name=two.iso&name=x", "wrong", ["two.iso: OK", "the link: MALFORMED"]),
        (f"sha256={'1' * 64}&name=two.iso", "wrong", ["two.iso: FAILED", "other: NOT LISTED"]),
        (f"sha256={digest}&sha512={'1' * 128}", "wrong", ["two.iso: OK", "the digest in the address: NO MATCH"]),
    ):
        page.browser.open("about:blank")
        page.browser.open(f"{home}#{words}")
        page.done()
        page.files(work / "two.iso", *([made(work, "other", b"other")] if "other: NOT LISTED" in rows else []))
        shown = page.done()
        harness.same(f"an address: {words[:40]}", (shown["state"], shown["rows"]), (state, rows))


def try_baked(browser, work, original):
    """A page with a list in it. The address counts for nothing there."""
    made(work, "two.iso", b"two")
    listed = made(work, "baked/SHA256SUMS", f"{sha256(b'two')}  two.iso\n{sha256(b'x')}  none\n".encode())
    out = work / "baked.html"
    words = [sys.executable, TOP / "tools/page.py", "--list", listed, "--into", original, out]
    subprocess.run(words, check=True)
    page = Page(browser, f"{out.as_uri()}#sha256={'0' * 64}&name=two.iso")
    shown = page.done()
    harness.same("a page with a list", (shown["verdict"], "SHA256SUMS" in shown["asked"]),
        ("Now add the files. The list names 2.", True))
    page.files(work / "two.iso")
    harness.same("one of its files", page.done()["verdict"], "two.iso: OK")
    page.anew()
    page.files(work / "two.iso")
    harness.same("Start over keeps its list", page.done()["verdict"], "two.iso: OK")
    harness.same("faults in the console of it", browser.faults(), [])


KEEP_SAVED = """
    window.saved = [];
    const made = URL.createObjectURL.bind(URL);
    URL.createObjectURL = (blob) => { blob.text().then((text) => window.saved.push(text)); return made(blob); };
    HTMLAnchorElement.prototype.click = function () { window.savedAs = this.download; };
"""


def saved(page):
    page.browser.script("document.getElementById('write').click()")
    end = time.monotonic() + 20
    while time.monotonic() < end:
        text = page.browser.script("return window.saved.pop() ?? null")
        if text is not None:
            return page.browser.script("return window.savedAs"), text
        time.sleep(0.1)
    return None


def try_saving(page, work, program):
    """The list that the page makes is the one of `sums hash`, and `sums check` finds it right."""
    files = {"one": b"1", "sub/two": b"2", "sub/b c": b"", "back\\slash": b"3", "\u00fc": b"4"}
    folder = work / "release"
    for name, data in files.items():
        made(folder, name, data)
    page.browser.script(KEEP_SAVED)
    for hash_name, list_name in (
        ("", "SHA256SUMS"), ("sha512", "SHA512SUMS"), ("blake2b", "B2SUMS"), ("blake3", "B3SUMS"),
        ("blake2s", "BLAKE2SSUMS"),
    ):
        page.anew(hash_name)
        page.folder(folder)
        harness.judge(f"{list_name} can be saved", page.done()["canSave"])
        words = ["hash", "-a", hash_name or "sha256", "--", *sorted(files)]
        wanted = harness.run(program, words, cwd=folder).out.decode()
        harness.same(f"{list_name}, saved", saved(page), (list_name, wanted))
    page.press("Copy BLAKE2SSUMS")
    label = "return document.querySelector('#copy button').textContent"
    end = time.monotonic() + 10
    while page.browser.script(label) == "Copy" and time.monotonic() < end:
        time.sleep(0.1)
    told = page.browser.script(label)
    harness.judge("it can be copied", told in ("Copied", "Not copied"), told)


def try_removal(page, work):
    """What was added is named, and can be removed one by one."""
    made(work, "one", b"1")
    made(work, "two", b"2")
    listed = made(work, "x.sha256", f"{sha256(b'1')}  one\n{sha256(b'2')}  two\n".encode())
    page.anew()
    page.files(work / "one", work / "two", listed)
    shown = page.done()
    harness.same("what was added", sorted(shown["things"]), ["one", "two", "x.sha256"])
    page.press("Remove two")
    shown = page.done()
    harness.same("without a file", (shown["things"], shown["rows"]), (["one", "x.sha256"], ["one: OK", "two: MISSING"]))
    page.press("Remove x.sha256")
    harness.same("without the list", page.done()["rows"], ["one: DIGEST"])


def try_everyday(page, work, program):
    """All of these, in one browser."""
    try_list_names(page, work, program)
    try_one_of_many(page, work)
    try_texts(page, work)
    try_mixed(page, work, program)
    try_alone(page, work)
    try_forms(page, work, program)
    try_chosen_hash(page, work)
    try_removal(page, work)
    try_address(page, work)
    try_saving(page, work, program)

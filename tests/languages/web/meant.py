"""Which file a name in a list means, and what a verdict is of: files of one name, folders that are added again, files
that change. No verdict is OK where `sums check` in that folder says something else."""

import os
import time

import harness
from driven import made, sha256

TWICE = "two files of this name were added at once, so neither is judged"
SEVERAL = "several files of this name were added: remove all but one"


def list_of(*entries):
    """A list of SHA-256, of names and what their files should hold."""
    return "".join(f"{sha256(data)}  {name}\n" for name, data in entries).encode()


def later(path, data):
    """Writes a file anew, at another time than before."""
    time.sleep(0.02)
    path.write_bytes(data)
    stamp = path.stat().st_mtime + 2
    os.utime(path, (stamp, stamp))


def kept(path, data):
    """Writes a file anew, with the time that it had."""
    stamp = path.stat().st_mtime_ns
    path.write_bytes(data)
    os.utime(path, ns=(stamp, stamp))


def rows_of(page):
    return page.done()["rows"]


def try_same_names(page, work):
    """Two files of one name: the one that came with the list counts, and where none did, neither."""
    good, bad = made(work, "one/app.tgz", b"good"), made(work, "two/app.tgz", b"bad!!")
    listed = made(work, "SHA256SUMS", list_of(("app.tgz", b"good")))
    page.anew()
    page.files(listed, bad)
    page.judged(2)
    page.files(good)
    shown = page.judged(3)
    harness.same("a list with a wrong file, and then a right one of its name", (shown["state"], shown["rows"]),
        ("wrong", ["app.tgz: FAILED", "app.tgz (2): NOT LISTED"]))
    harness.judge("that there are two is told", "Another file app.tgz is there" in shown["added"], shown["added"])
    page.anew()
    page.files(bad)
    page.files(good)
    page.files(listed)
    shown = page.judged(3)
    harness.same("the list behind both", (shown["state"], shown["rows"][0], shown["details"][0]),
        ("wrong", "app.tgz: UNREADABLE", SEVERAL))
    page.press("Remove app.tgz")
    harness.same("one of both is removed", page.judged(2)["rows"], ["app.tgz: OK"])
    for first, second, result in ((bad, good, "FAILED"), (good, bad, "OK")):
        page.anew()
        page.drop(first, second, listed)
        if page.browser.name == "chromium":
            # which gives the second a name of its own
            wanted = [f"app.tgz: {result}", "app (1).tgz: NOT LISTED"]
            harness.same("dropped at once", page.judged(3)["rows"], wanted)
        else:
            shown = page.judged(2)
            harness.same("dropped at once", (shown["state"], shown["rows"], shown["details"]),
                ("wrong", ["app.tgz: UNREADABLE"], [TWICE]))


def try_same_folders(page, work):
    """A second folder of one name stands beside the first, and neither has files of the other."""
    made(work, "x/dist/a", b"evil")
    made(work, "x/dist/SHA256SUMS", list_of(("a", b"good")))
    made(work, "y/dist/a", b"good")
    orders = {"": ("x/dist", "y/dist"), "the other first": ("y/dist", "x/dist")}
    for what, (first, second) in orders.items():
        page.anew()
        page.folder(work / first)
        page.done()
        page.folder(work / second)
        shown = page.judged(3)
        harness.same(f"two folders of a name {what}", (shown["state"], min(shown["rows"])), ("wrong", "a: FAILED"))
        harness.same(f"their names {what}", shown["things"], ["dist", "dist (2)"])
        harness.judge(f"that there are two is told {what}", "Another folder dist" in shown["added"], shown["added"])
    made(work, "other/dist/c", b"c")
    made(work, "other/dist/SHA256SUMS", list_of(("c", b"c"), ("a", b"good")))
    page.folder(work / "other/dist")
    shown = page.judged(5)
    named = [f"{row} by {by}" for row, by in zip(shown["rows"], shown["by"])]
    harness.judge("a list that names what another folder has", "a: MISSING by dist (3)/SHA256SUMS" in named, named)
    page.press("Remove dist (2)")
    harness.same("a folder is removed", page.judged(3)["things"], ["dist", "dist (3)"])


def try_two_again(page, work):
    """Of two folders of one name the one that is added again is replaced, after the other one has changed."""
    first, second = made(work, "first/twin/a", b"evil"), made(work, "second/twin/a", b"good")
    for path in (first, second):
        made(path.parent, "SHA256SUMS", list_of(("a", b"good")))
    for path in (second, second.parent / "SHA256SUMS"):
        later(path, path.read_bytes())
    page.anew()
    page.folder(first.parent)
    page.done()
    page.folder(second.parent)
    page.judged(4)
    later(first, b"evil and more")
    later(first.parent / "SHA256SUMS", list_of(("a", b"evil and more"), ("a", b"good")))
    page.folder(second.parent)
    shown = page.judged(4)
    named = [f"{row} by {by}" for row, by in zip(shown["rows"], shown["by"])]
    harness.same("two folders of a name, and the second again", named,
        ["a: UNREADABLE by twin/SHA256SUMS", "a: OK by twin (2)/SHA256SUMS"])


def try_leading(page, work):
    """A folder whose name begins with a backslash, which Chromium gives as one that begins with a slash."""
    made(work, "\\lead/SHA256SUMS", list_of(("app.tgz", b"good"), ("b", b"b")))
    made(work, "\\lead/b", b"b")
    made(work, "beside/app.tgz", b"good")
    page.anew()
    page.folder(work / "beside")
    page.folder(work / "\\lead")
    harness.same("a list in such a folder", page.judged(3)["rows"][:2], ["app.tgz: MISSING", "b: OK"])


def try_again(page, work):
    """A folder that is added again replaces all that it had, and a file too."""
    folder = work / "again"
    made(folder, "a", b"a")
    made(folder, "b", b"b")
    made(folder, "SHA256SUMS", list_of(("a", b"a"), ("b", b"b")))
    page.anew()
    page.folder(folder)
    harness.same("a folder", page.judged(3)["verdict"], "2 files: OK")
    (folder / "b").unlink()
    page.folder(folder)
    shown = page.judged(2)
    harness.same("the same without a file", (shown["state"], shown["rows"]), ("", ["a: OK", "b: MISSING"]))
    is_told = "replaces what it was before: again." in shown["added"]
    harness.judge("what is replaced is told", is_told, shown["added"])
    harness.same("what a folder lacks is not folded", (shown["seen"], shown["folded"]), (2, ""))
    (folder / "SHA256SUMS").unlink()
    later(folder / "a", b"changed")
    page.folder(folder)
    harness.same("the same without its list", page.judged(1)["rows"], ["again/a: DIGEST"])
    changing = made(work, "changing", b"before")
    page.anew()
    page.paste("sha256:" + sha256(b"before"))
    page.files(changing)
    harness.same("a file", page.judged(1)["rows"], ["changing: OK"])
    later(changing, b"behind")
    page.files(changing)
    shown = page.done()
    is_told = "Added again" in shown["added"]
    harness.same("the same after a change", (shown["rows"], is_told), (["changing: FAILED"], True))
    page.files(changing)
    harness.same("and once more", page.done()["rows"], ["changing: FAILED"])


def try_copies(page, work):
    """Two copies, of one size and one time, that differ in a byte: each is judged by itself."""
    right = b"x" * (3 << 20)
    wrong = right[: 3 << 19] + b"y" + right[(3 << 19) + 1 :]
    for disk, data in (("disk1", wrong), ("disk2", right)):
        for name, held in (("a", data), ("SHA256SUMS", list_of(("a", right)))):
            os.utime(made(work, f"{disk}/photos/{name}", held), (10**9, 10**9))
    page.anew()
    page.folder(work / "disk1/photos")
    harness.same("a wrong copy", page.judged(2)["verdict"], "a: FAILED")
    page.folder(work / "disk2/photos")
    shown = page.judged(4)
    named = [f"{row} by {by}" for row, by in zip(shown["rows"], shown["by"])]
    harness.same("and a right one of the same size and time", (shown["state"], named),
        ("wrong", ["a: FAILED by photos/SHA256SUMS", "a: OK by photos (2)/SHA256SUMS"]))
    page.folder(work / "disk2/photos")
    harness.same("and the right one again", page.judged(4)["things"], ["photos", "photos (2)"])
    page.anew()
    page.files(work / "disk1/photos/a", work / "disk1/photos/SHA256SUMS")
    page.judged(2)
    page.files(work / "disk2/photos/a")
    harness.same("two copies of a file", page.judged(3)["rows"], ["a: FAILED", "a (2): NOT LISTED"])


def try_readings(page, work):
    """A new list is never judged by an older reading, and what is gone is told."""
    path = made(work, "f.bin", b"good")
    first, second = (made(work, name, list_of(("f.bin", b"good"))) for name in ("SHA256SUMS", "sha256sum.txt"))
    page.anew()
    page.files(first, path)
    harness.same("before a change", page.judged(2)["rows"], ["f.bin: OK"])
    later(path, b"evil")
    page.files(second)
    shown = page.judged(3)
    results = {row.split(": ")[1] for row in shown["rows"]}
    # Firefox reads what is there by now
    harness.judge("a list that is added after the file has changed", len(results) == 1 and "OK" not in results, shown)
    path.unlink()
    page.files(made(work, "x.sha512", b"%s  f.bin\n" % (b"0" * 128)))
    shown = page.judged(4)
    harness.same("a list behind a file that is gone", {row.split(": ")[1] for row in shown["rows"]}, {"UNREADABLE"})
    harness.judge("and what to do", all("add it again" in it for it in shown["details"]), shown["details"])
    try_empty(page, work)
    try_gone(page, work)


def try_empty(page, work):
    """Files of no bytes are read too."""
    path = made(work, "empty one", b"")
    page.anew()
    page.paste(sha256(b""))
    page.files(path)
    harness.same("a file of no bytes", page.judged(1)["rows"], ["empty one: OK"])
    later(path, b"now more")
    page.paste(f"SHA256 (empty one) = {sha256(b'')}")
    harness.same("that is longer by now", page.judged(1)["rows"], ["empty one: UNREADABLE"])
    path.unlink()
    page.paste(sha256(b""))
    harness.same("that is gone", page.judged(1)["rows"], ["empty one: UNREADABLE"])


def try_gone(page, work):
    """What was read is looked at again whenever something is added."""
    path, other = made(work, "gone", b"gone"), made(work, "some", b"some")
    listed = made(work, "gone.sha256", list_of(("gone", b"gone")))
    page.anew()
    page.files(path, listed)
    harness.same("a file that is there", page.judged(2)["rows"], ["gone: OK"])
    path.unlink()
    page.files(other)
    harness.same("gone when another is added", page.judged(3)["rows"], ["gone: UNREADABLE", "some: NOT LISTED"])
    grown = made(work, "grown", b"grown")
    page.anew()
    page.files(grown)
    page.judged(1)
    later(grown, b"grown more")
    page.paste(sha256(b"grown"))
    harness.same("a file that has grown", page.judged(1)["rows"], ["grown: UNREADABLE"])


def try_unreported(page, work):
    """Changes that leave the time, which browsers do not report: a short file is read anew whatever is added."""
    path, other = made(work, "unreported/f", b"good"), made(work, "some", b"some")
    listed = made(work, "unreported/SHA256SUMS", list_of(("f", b"good")))
    for what, data, result in (("of one size", b"evil", "FAILED"), ("that is longer", b"good again", "UNREADABLE")):
        kept(path, b"good")
        page.anew()
        page.folder(path.parent)
        page.judged(2)
        kept(path, data)
        page.files(other)
        harness.same(f"a file by then {what}", page.judged(3)["rows"], [f"f: {result}", "some: NOT LISTED"])
    kept(path, b"good")
    page.anew()
    page.folder(path.parent)
    harness.same("a list", page.judged(2)["state"], "ok")
    kept(listed, list_of(("f", b"evil")))
    page.paste(list_of(("unreported/f", b"good")).decode())
    shown = page.done()
    is_told = any("SHA256SUMS: it has changed since it was added" in it for it in shown["notes"])
    harness.same("a list that is another one by then", (shown["verdict"], shown["state"], is_told),
        ("f: OK", "", True))


def try_below(page, work):
    """Each list counts from one folder, and rows say which list they are of."""
    for version, data in (("v1", b"good"), ("v2", b"bad!")):
        made(work, f"rel/{version}/app.tgz", data)
        made(work, f"rel/{version}/SHA256SUMS", list_of(("app.tgz", b"good")))
    page.anew()
    page.folder(work / "rel")
    shown = page.judged(4)
    got = sorted(f"{row} by {by}" for row, by in zip(shown["rows"], shown["by"]))
    harness.same("two lists with one name", got,
        ["app.tgz: FAILED by rel/v2/SHA256SUMS", "app.tgz: OK by rel/v1/SHA256SUMS"])
    harness.judge("which failed", "FAILED: app.tgz (rel/v2/SHA256SUMS)." in shown["notes"], shown["notes"])
    made(work, "mixed/v1/a", b"a")
    made(work, "mixed/b", b"b")
    made(work, "mixed/v1/SHA256SUMS", list_of(("a", b"a"), ("b", b"b")))
    page.anew()
    page.folder(work / "mixed")
    harness.same("names from two folders", page.judged(3)["rows"], ["a: OK", "b: MISSING", "mixed/b: NOT LISTED"])
    made(work, "above/v1/SHA256SUMS", list_of(("app.tgz", b"good")))
    made(work, "above/app.tgz", b"good")
    page.anew()
    page.folder(work / "above")
    shown = page.judged(2)
    remark = shown["details"][0].rpartition(" ")[0]
    harness.same("names from the folder above", (shown["rows"], remark),
        (["app.tgz: OK"], "SHA-256, of the file above/app.tgz"))
    try_loose_list(page, work)


def try_loose_list(page, work):
    """A list beside two folders that both have its file means neither."""
    listed = made(work, "loose/SHA256SUMS", list_of(("app.tgz", b"good")))
    page.anew()
    page.files(listed)
    page.folder(work / "rel/v1")
    shown = page.judged(3)
    harness.judge("a list and a folder with its file", "app.tgz: OK" in shown["rows"], shown["rows"])
    page.folder(work / "rel/v2")
    shown = page.judged(5)
    harness.judge("a list and two folders with its file", "app.tgz: UNREADABLE" in shown["rows"], shown["rows"])


def pairs(work):
    """Folders with names that could be taken for one another: which files each has, its list, and its report."""
    good, evil = b"good", b"evil"
    cases = {
        "a backslash and a slash": {"p/sub/y": evil, "p\\sub/y": good},
        "a backslash in a file": {"back\\slash": good},
        "a file and one in a folder": {"back\\slash": good, "back/slash": evil},
        "upper case": {"Name": good, "name": evil},
        "normal forms": {"\u00e9": evil, "e\u0301": good},
        "signs that are alike": {"\u212b": good, "\u00c5": evil},
        "dots": {"a.": good, "a": evil, "a..": evil},
        "blanks": {" a": good, "a ": evil, "a": evil},
        "width": {"\uff41": good, "a": evil},
        "a folder's name": {"d/x": good, "d ": evil, "D/x": evil},
    }
    for number, (what, files) in enumerate(cases.items()):
        for name in files:
            folder = work / f"pair{number}"
            for path, data in files.items():
                made(folder, path, data)
            escaped = name.replace("\\", "\\\\")
            line = f"{chr(92) * (escaped != name)}{sha256(good)}  {escaped}\n"
            (folder / "SHA256SUMS").write_bytes(line.encode())
            yield what, folder, name


def try_pairs(page, work, program, is_dropped=False):
    """Beside `sums check`: names that could be taken for one another. Nothing is OK that it does not call OK."""
    for what, folder, name in pairs(work):
        run = harness.run(program, ["check", "-a", "sha256", "SHA256SUMS"], cwd=folder)
        theirs = run.out.decode().rsplit(": ", 1)[1].strip()
        page.anew()
        (page.drop if is_dropped else page.folder)(folder)
        ours = page.done()["rows"][0].rsplit(": ", 1)[1]
        # Chromium's input takes a backslash of a folder for a slash: of two files of one path then neither is judged
        is_lost = page.browser.name == "chromium" and not is_dropped and "backslash and" in what
        is_right = ours == theirs or (is_lost and ours in ("UNREADABLE", "MISSING"))
        harness.judge(f"{what}, by the name {name!r}", is_right, f"sums check {theirs}, the page {ours}")


def try_order(page, work):
    """Two lists of one name count in the order in which they are added, however long the first takes."""
    long = list_of(("f", b"other")) + b"# a comment\n" * 100000
    first, second = made(work, "order/one/x.sha256", long), made(work, "order/two/x.sha256", list_of(("f", b"f")))
    page.anew()
    page.files(first)
    page.files(second)
    page.files(made(work, "order/f", b"f"))
    shown = page.judged(3)
    harness.same("two lists of a name", (shown["rows"], shown["by"]),
        (["f: FAILED", "f: OK"], ["x.sha256", "x.sha256 (2)"]))


# A drop of files by their names and texts, of folders, a part of one that cannot be read, and one that comes late.
DROP = """
    const file = ([name, text]) => ({ isFile: true, name, file: (give) => give(new File([text], name)) });
    const entries = (all, wait) => ({ readEntries: (give) => setTimeout(() => give(all.splice(0)), wait) });
    const failing = { readEntries: (_, fail) => fail('no') };
    const closed = (name) => ({ isDirectory: true, name, createReader: () => failing });
    const folder = ({ name, files, unread, wait }) => ({ isDirectory: true, name,
        createReader: () => entries([...files.map(file), ...unread.map(closed)], wait ?? 0) });
    const item = (entry, file) => ({ kind: 'file', webkitGetAsEntry: () => entry, getAsFile: () => file });
    const event = new Event('drop', { cancelable: true });
    const [loose, folders, refused] = arguments;
    event.dataTransfer = { items: [
        ...folders.map((it) => item(folder(it), null)), ...refused.map((it) => item(closed(it), null)),
        ...loose.map((it) => item(file(it), new File([it[1]], it[0])))] };
    dispatchEvent(event);
"""


def try_unread(page):
    """A folder of which a part cannot be read: the rest is added, and the part is UNREADABLE."""
    listed = list_of(("a", b"a"), ("sub/x", b"x")).decode()
    page.anew()
    folder = {"name": "partly", "files": [["a", "a"], ["SHA256SUMS", listed]], "unread": ["sub"]}
    page.given(lambda: page.browser.script(DROP, [], [folder], []))
    shown = page.judged(2)
    harness.same("dropped: a folder of which a part cannot be read", shown["rows"], ["a: OK", "sub/x: UNREADABLE"])
    harness.judge("what cannot be read is told", "could not read: sub" in shown["added"], shown["added"])


def try_refused(page, work):
    """A folder that the browser refuses is named beside what was dropped with it, and nothing is green."""
    page.anew()
    page.paste(f"SHA256 (two.iso) = {sha256(b'two')}")
    page.files(made(work, "two.iso", b"two"))
    harness.same("before a drop", page.judged(1)["state"], "ok")
    page.given(lambda: page.browser.script(DROP, [["three.iso", "three"]], [], ["photos"]))
    shown = page.judged(2)
    harness.same("dropped: a file, and a folder that is refused", (shown["state"], shown["rows"], shown["things"]),
        ("wrong", ["two.iso: OK", "three.iso: NOT LISTED", "photos: UNREADABLE"], ["two.iso", "photos", "three.iso"]))
    is_told = "Not added: photos" in shown["added"] and "choose it as" in shown["details"][2]
    harness.judge("which is told", is_told, shown)
    page.folder(made(work, "photos/two.iso", b"two").parent)
    shown = page.judged(3)
    harness.same("the folder is chosen", (shown["rows"][1:], shown["things"]),
        (["three.iso: NOT LISTED", "photos/two.iso: NOT LISTED"], ["two.iso", "three.iso", "photos"]))
    try_late(page)
    try_dropped_text(page, work)
    try_broken_drop(page, work)


def try_dropped_text(page, work):
    """A text that is dropped is pasted, and what is neither a file nor a text is named."""
    drop = """
        const event = new Event('drop', { cancelable: true });
        const [text] = arguments;
        event.dataTransfer = { items: [{ kind: 'string' }], getData: () => text };
        dispatchEvent(event);
    """
    page.anew()
    page.files(made(work, "two.iso", b"two"))
    page.given(lambda: page.browser.script(drop, sha256(b"two")))
    harness.same("a digest is dropped", page.judged(1)["verdict"], "two.iso: OK")
    page.given(lambda: page.browser.script(drop, ""))
    shown = page.judged(1)
    harness.same("what is no file is dropped", (shown["state"], shown["rows"]),
        ("wrong", ["two.iso: OK", "what was dropped: UNREADABLE"]))


def try_broken_drop(page, work):
    """A drop that the browser fails to give is named, and the next one is added."""
    page.anew()
    page.given(lambda: page.browser.script("""
        const event = new Event('drop', { cancelable: true });
        const item = { kind: 'file', webkitGetAsEntry() { throw new Error('no'); }, getAsFile: () => null };
        event.dataTransfer = { items: [item] };
        dispatchEvent(event);
    """))
    harness.same("a drop that fails", page.done()["rows"], ["what was dropped: UNREADABLE"])
    page.drop(made(work, "three.iso", b"three"))
    harness.same("and another one", page.judged(1)["rows"], ["three.iso: DIGEST", "what was dropped: UNREADABLE"])


def try_late(page):
    """The verdict goes when something is dropped or typed, and comes back when all is known."""
    page.anew()
    listed = list_of(("a", b"a")).decode()
    page.given(lambda: page.browser.script(DROP, [["a", "a"], ["SHA256SUMS", listed]], [], []))
    harness.same("before a long drop", page.judged(2)["verdict"], "a: OK")
    late = {"name": "late", "files": [["b", "b"]], "unread": [], "wait": 2000}
    page.browser.script(DROP, [], [late], [])
    shown = page.read()
    harness.same("a drop whose files are looked for", (shown["state"], shown["verdict"], shown["seen"]),
        ("", "Looking for the files of what was dropped ..", 0))
    page.paste(listed)
    shown = page.wait(lambda it: it["rows"] or not it["isWorking"], "answer")
    harness.judge("no verdict meanwhile", shown["state"] == "" and shown["isWorking"], shown)
    shown = page.judged(3)
    harness.same("all is there", (shown["state"], shown["rows"][-1]), ("", "late/b: NOT LISTED"))
    page.browser.script("document.getElementById('text').dispatchEvent(new Event('input'))")
    harness.same("while a text is typed", page.read()["verdict"], "")
    page.done()


def try_meant(page, work, program):
    """All of these, in one browser."""
    try_same_names(page, work)
    try_same_folders(page, work)
    try_two_again(page, work)
    try_leading(page, work)
    try_again(page, work)
    try_copies(page, work)
    try_readings(page, work)
    try_unreported(page, work)
    try_below(page, work)
    try_pairs(page, work, program)
    try_order(page, work)
    try_unread(page)
    try_refused(page, work)

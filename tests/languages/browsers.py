#!/usr/bin/env python3
"""Drives the page that checks downloads in browsers without a screen, from a file and from a server: files, folders,
what is dropped and what is pasted, lists in each form, wrong and missing files, odd names, a file of 3 GB, Stop. What
it shows is compared with `sums check`, and no request may leave. What is not installed is told at the end, and not
tried.
usage: tests/languages/browsers.py PROGRAM PAGE [chromium|firefox]..     SHOTS names a folder for pictures of the page,
       ROUNDS says how many random folders with copies are tried
"""

import base64
import contextlib
import http.server
import os
import pathlib
import re
import shutil
import subprocess
import sys
import tempfile
import threading
import time
import zlib

sys.path.append(os.path.join(os.path.dirname(os.path.realpath(__file__)), ".."))

import harness

sys.path.insert(0, os.path.join(harness.HERE, "languages/web"))
sys.dont_write_bytecode = True
from copies import try_random_copies  # noqa: E402
from drivers import BROWSERS  # noqa: E402
from driven import Page, TITLES, made, sha256  # noqa: E402
from everyday import try_baked, try_everyday  # noqa: E402
from meant import try_meant, try_pairs  # noqa: E402

PROGRAM = harness.program()
PAGE = os.path.abspath(harness.arguments(2)[1])
WANTED = sys.argv[3:] or list(BROWSERS)
HASHES = ("sha256", "sha512", "blake2b", "blake2s", "blake3")
HUGE = 3 * 10**9
HUGE_MEMORY = 600 << 10  # KiB that a process of the browser may have of its own
TAB, SPACE = "\ue004", " "
EVIL = "<img src=x onerror=alert(1)>\u202etxt.exe"
LINES = 400000
LIST_BYTES = 2**26
ANSWER = 3  # seconds
ROUNDS = int(os.environ.get("ROUNDS", "100"))
SIZES = {"a.iso": 9000001, "empty": 0, "b c.txt": 5, "step": 4 << 20, "ü.dat": 70000, "back\\slash": 3}


def sums(work, *words):
    return subprocess.run([PROGRAM, *words], cwd=work, capture_output=True, check=False)


# ---- what is checked


def make_files(work):
    """Files of several sizes and names, and lists of them by each hash, with lines of every kind."""
    for name, size in SIZES.items():
        block = bytes((at * 7 + size) & 255 for at in range(65536))
        (work / name).write_bytes(block * (size // 65536) + bytes(size % 65536))
    (work / EVIL.replace("/", "")).write_bytes(b"evil")
    names = sorted(it.name for it in work.iterdir())
    for name in HASHES:
        listed = sums(work, "hash", "-a", name, "--", *names).stdout
        digits = len(listed.split()[0].lstrip(b"\\"))
        wrong = b"%s  b c.txt\n" % (b"0" * digits)
        odd = b"no entry\n%s *gone\n%s  gone too\r\n" % (b"0" * digits, b"1" * digits)
        (work / f"{name}sums").write_bytes(b"# a comment\n" + listed.replace(b"  b c", b" *./b c") + odd + wrong)
    tagged = [sums(work, "hash", "-a", name, "--tag", "--", *names).stdout for name in HASHES]
    tagged.append(sums(work, "hash", "-a", "blake2b", "-l", "20", "--tag", "--", *names).stdout)
    tagged.append(b"BLAKE2b-12 (a.iso) = 00\n\\SHA256 (a\\nb) = %s" % (b"0" * 64))
    (work / "tagged.sums").write_bytes(b"".join(tagged))
    return [work / name for name in names]


def visible(name):
    """A name of a report as the page shows it."""
    plain = re.sub(r"\\(.)", lambda it: {"\\": "\\", "n": "\n", "r": "\r"}[it[1]], name)
    shown = "".join({"\\": "\\\\", "\n": "\\n", "\r": "\\r"}.get(it, it) for it in plain)
    return re.sub("[\u202a-\u202e]", lambda it: f"\\u{{{ord(it[0]):x}}}", shown)


def report_of(work, *words):
    """The lines of a report, as the page shows them."""
    lines = sums(work, "check", *words).stdout.decode().split("\n")[:-1]
    return [re.sub(r"^(.*)(?=: [A-Z]+$)", lambda it: visible(it[1]), line) for line in lines]


def try_lists(page, work, files):
    for name in HASHES:
        page.anew()
        page.files(work / f"{name}sums", *files)
        shown = page.judged(1 + len(files))
        harness.same(f"a list by {name}", shown["rows"], report_of(work, "-a", name, f"{name}sums"))
        harness.same(f"the verdict on it by {name}", (shown["state"], shown["verdict"]),
            ("wrong", f"Something is wrong: {len(files)} OK, 1 FAILED, 2 MISSING, 1 MALFORMED"))
    page.anew()
    page.files(work / "tagged.sums", *files)
    harness.same("a tagged list", page.judged(1 + len(files))["rows"], report_of(work, "tagged.sums"))
    page.anew()
    page.files(work / "sha256sums", work / "blake3sums", *files)
    shown = page.judged(2 + len(files))
    wanted = report_of(work, "-a", "sha256", "sha256sums") + report_of(work, "-a", "blake3", "blake3sums")
    harness.same("two lists, in their order", shown["rows"], wanted)
    of_each = len(wanted) // 2
    harness.same("which list a row is of", shown["by"], ["sha256sums"] * of_each + ["blake3sums"] * of_each)


def try_chosen(page, work):
    """The hash of untagged lines: by the name of a list, by their digits, or chosen."""
    (work / "any name").write_bytes(sums(work, "hash", "-a", "blake2b", "-l", "20", "a.iso").stdout)
    page.anew()
    page.files(work / "any name", by="lists")
    page.files(work / "a.iso")
    shown = page.judged(2)
    harness.same("digests of a length that no hash has", shown["rows"], ["line 1: MALFORMED", "a.iso: NOT LISTED"])
    page.choose("blake2b")
    harness.same("the same when it is chosen", page.done()["rows"], ["a.iso: OK"])
    (work / "any name").write_bytes(sums(work, "hash", "-a", "blake2b", "-l", "32", "a.iso").stdout)
    page.anew()
    page.files(work / "any name", by="lists")
    page.files(work / "a.iso")
    harness.same("a list whose name says no hash", page.judged(2)["details"][0].split()[0], "BLAKE2b-256")
    (work / "none.sha256").write_bytes(b"# nothing\n")
    page.anew()
    page.files(work / "none.sha256", by="lists")
    page.files(work / "a.iso")
    shown = page.judged(2)
    harness.same("a list of no entries", (shown["rows"], shown["notes"][-1], shown["state"]),
        (["a.iso: NOT LISTED"], "none.sha256: no entries.", ""))


def digest_of(work, name, *words):
    """The digest of the image."""
    return sums(work, "hash", "-a", name, *words, "a.iso").stdout.decode().split()[0]


def try_pasted(page, work):
    digest = {name: digest_of(work, name) for name in HASHES}
    unusual = digest_of(work, "blake2b", "-l", "48")
    wrong = digest["sha256"][:-1] + ("1" if digest["sha256"][-1] == "0" else "0")
    for what, text, state, detail in (
        *((f"a digest by {name}", digest[name], "ok", TITLES[name]) for name in HASHES),
        ("one with its hash before it, in upper case", "sha256:" + digest["sha256"].upper(), "ok", "SHA-256"),
        ("a tagged line", f"SHA256 (a.iso) = {digest['sha256']}", "ok", "SHA-256"),
        ("a wrong digest", wrong, "wrong", None),
        ("the first digits of a digest", digest["sha256"][:16], "wrong", None),
        ("an untagged line without a hash", digest["sha256"] + "  a.iso", "ok", "SHA-256"),
        ("a digest under another hash", "blake3:" + digest["sha256"], "wrong", None),
        ("one of an unusual length", unusual, "wrong", None),
        ("the same under its hash", "blake2b:" + unusual, "ok", "BLAKE2b-384"),
    ):
        page.anew()
        page.paste(text)
        page.files(work / "a.iso")
        shown = page.judged(1)
        got = detail and shown["details"][0].split()[0]
        harness.same(f"pasted: {what}", (shown["state"], got), (state, detail))
    page.anew("sha256")
    page.paste(digest["sha256"] + "  a.iso\n")
    page.files(work / "a.iso")
    harness.same("pasted: an untagged line, and its hash is chosen", page.judged(1)["rows"], ["a.iso: OK"])
    page.anew()
    page.files(work / "a.iso")
    shown = page.judged(1)
    harness.same("no list: a digest", (shown["rows"], shown["details"]),
        (["a.iso: DIGEST"], ["SHA-256 " + digest["sha256"]]))


def try_names(page, work):
    digest = digest_of(work, "sha256")
    page.anew()
    page.paste(f"SHA256 ({EVIL}) = {digest}\nSHA256 (\u2066x\u2069) = {digest}\n\\SHA256 (a\\nb) = {digest}")
    page.files(work / "a.iso")
    shown = page.judged(1)
    wanted = ["<img src=x onerror=alert(1)>\\u{202e}txt.exe", "\\u{2066}x\\u{2069}", "a\\nb"]
    harness.same("names of markup, and that turn the text", shown["rows"],
        [*(f"{name}: MISSING" for name in wanted), "a.iso: NOT LISTED"])
    made = page.browser.script("return document.querySelectorAll('img, #rows script').length")
    harness.same("no element is made of a name", made, 0)
    page.anew()
    page.paste(f"SHA256 (pool/main/a.iso) = {digest}")
    page.files(work / "a.iso")
    shown = page.judged(1)
    harness.same("a name with a folder that is not here", (shown["rows"], shown["details"]),
        (["pool/main/a.iso: OK"], [f"SHA-256, of the file a.iso {digest}"]))
    page.anew()
    page.paste(f"SHA256 (one/a.iso) = {digest}\nSHA256 (two/a.iso) = {digest}")
    page.files(work / "a.iso")
    harness.same("two such names", page.judged(1)["rows"],
        ["one/a.iso: MISSING", "two/a.iso: MISSING", "a.iso: NOT LISTED"])


def folder_of(work):
    """A folder with a list at its top and one below, and the reports of both."""
    top = work / "a folder"
    (top / "sub" / "deep").mkdir(parents=True, exist_ok=True)
    (top / "a.iso").write_bytes(b"one")
    (top / "sub" / "a.iso").write_bytes(b"two")
    (top / "sub" / "deep" / "b").write_bytes(b"three")
    names = ["a.iso", "sub/a.iso", "./sub/deep/b", "sub/../a.iso"]
    listed = sums(top, "hash", "-a", "blake3", *names).stdout + b"%s  deep/b\n%s  ../none\n" % (b"0" * 64, b"0" * 64)
    (top / "B3SUMS").write_bytes(listed)
    (top / "sub" / "x.sha256").write_bytes(sums(top / "sub", "hash", "-a", "sha256", "a.iso", "../a.iso").stdout)
    return top, report_of(top, "-a", "blake3", "B3SUMS") + report_of(top / "sub", "-a", "sha256", "x.sha256")


def try_folders(page, work):
    top, wanted = folder_of(work)
    page.anew()
    page.folder(top)
    harness.same("a folder with lists", sorted(page.judged(5)["rows"]), sorted(wanted))
    page.anew()
    page.drop(work / "a.iso", work / "sha256sums")
    got = page.judged(2)["rows"]
    harness.judge("dropped: a file and its list", "a.iso: OK" in got and "empty: MISSING" in got, got)
    if page.browser.name == "chromium":
        try_dropped_folder(page, top, wanted)


def try_dropped_folder(page, top, wanted):
    """A page that is a file itself is not given the files of a folder, and says so."""
    page.anew()
    page.drop(top)
    if page.browser.script("return location.protocol") == "file:":
        shown = page.done()
        harness.judge("dropped on a file: a folder", "choose it as" in shown["added"], shown["added"])
        harness.same("and nothing of it is judged", shown["rows"], [f"{top.name}: UNREADABLE"])
    else:
        harness.same("dropped: a folder", sorted(page.judged(5)["rows"]), sorted(wanted))


def try_many_lines(page, work):
    """A long list: the page stays small and answers, and a wrong file is shown wherever its line stands."""
    lines = [b"%064x  file %d\n" % (at, at) for at in range(LINES)]
    lines[LINES - 10] = b"%s  a.iso\n" % (b"0" * 64)
    (work / "many.sha256").write_bytes(b"".join(lines))
    page.anew()
    page.files(work / "many.sha256", work / "a.iso")
    slowest = 0
    while page.read()["isWorking"]:
        begun = time.monotonic()
        page.browser.script("return 1")
        slowest = max(slowest, time.monotonic() - begun)
        time.sleep(0.2)
    harness.judge("the page answers while it reads a long list", slowest < ANSWER, f"{slowest:.1f} s")
    shown = page.judged(2)
    harness.same("a list of many lines", (shown["state"], shown["verdict"]), ("wrong", "a.iso: FAILED"))
    harness.judge("its wrong line", "a.iso: FAILED" in shown["rows"])
    harness.same("how many lines are shown", (len(shown["rows"]), shown["more"]),
        (1001, f"{LINES - 1001} more rows of the kinds above, which are counted, and not shown."))
    (work / "many.sha256").write_bytes(lines[0] + b"#\n" * ((LIST_BYTES - len(lines[0])) // 2))
    page.anew()
    page.files(work / "many.sha256")
    shown = page.done()
    harness.judge("skipped lines count", "more than 500000 lines" in shown["details"][0], shown)


# ---- a long file


def private_memory(pid):
    """What a process has of its own, in KiB."""
    with contextlib.suppress(OSError):
        for line in pathlib.Path(f"/proc/{pid}/smaps_rollup").read_text(encoding="ascii").splitlines():
            if line.startswith("Private_Dirty:"):
                return int(line.split()[1])
    return 0


def processes_below(top):
    """The processes that a process has begun, and those that these have."""
    above = {}
    for path in pathlib.Path("/proc").glob("[0-9]*/stat"):
        with contextlib.suppress(OSError, IndexError):
            above[int(path.parent.name)] = int(path.read_text(errors="replace").rpartition(")")[2].split()[1])
    found, wave = set(), {top}
    while wave:
        found |= wave
        wave = {pid for pid, its in above.items() if its in wave} - found
    return found


class Watch:
    """The most memory that a process of the browser has of its own, meanwhile."""

    def __init__(self, pid):
        self.pid, self.most, self.stop = pid, 0, threading.Event()
        self.thread = threading.Thread(target=self.look)

    def look(self):
        while not self.stop.wait(0.5):
            self.most = max([self.most, *map(private_memory, processes_below(self.pid))])

    def __enter__(self):
        self.thread.start()
        return self

    def __exit__(self, *_):
        self.stop.set()
        self.thread.join()


def try_huge(page, work):
    path = work / "huge.iso"
    with open(path, "wb") as file:
        file.truncate(HUGE)
    line = sums(work, "hash", "-a", "blake3", "--tag", "huge.iso").stdout.decode()
    page.anew()
    page.paste(line)
    with Watch(page.browser.process.pid) as watch:
        page.files(path)
        shown = page.judged(1, 600)
    harness.same("a file of 3 GB", shown["rows"], ["huge.iso: OK"])
    harness.judge("its memory", watch.most < HUGE_MEMORY, f"{watch.most >> 10} MiB")
    print(f"{page.browser.name}: {shown['speed']}; at most {watch.most >> 10} MiB in a process")
    page.anew()
    page.paste(line.replace("BLAKE3", "SHA256"))
    page.files(path, work / "a.iso")
    page.wait(lambda it: re.search(r"^huge.iso: [1-9]", it["rows"][0]), "progress")
    # by keyboard, as it can be by a mouse
    page.browser.script("document.getElementById('stop').focus()")
    page.browser.press(SPACE)
    shown = page.wait(lambda it: it["verdict"].startswith("Stopped"), "end")
    harness.same("Stop", (shown["verdict"], shown["rows"][0]),
        ("Stopped: 1 NOT LISTED, 1 file not read", "huge.iso: stopped"))
    time.sleep(1)
    harness.same("nothing goes on", page.read()["speed"], shown["speed"])
    page.browser.press(SPACE)
    page.wait(lambda it: re.search(r"^huge.iso: [1-9]", it["rows"][0]), "progress behind Go on")
    page.anew()
    harness.same("Start over ends it", page.done()["rows"], [])
    path.unlink()


def try_broken(browser, work):
    """A browser that does not take the module says so, and nothing is OK."""
    text = pathlib.Path(PAGE).read_text(encoding="utf-8")
    other = base64.b64encode(zlib.compress(b"no module")).decode()
    broken = re.sub(r'(id="module">)[^<]*', lambda it: it[1] + other, text)
    (work / "broken.html").write_text(broken, encoding="utf-8")
    page = Page(browser, (work / "broken.html").as_uri())
    steps = {"a module that the browser refuses": lambda: None, "a file is added": lambda: page.files(work / "a.iso"),
             "Start over": page.anew}
    for what, step in steps.items():
        step()
        shown = page.wait(lambda it: it["verdict"].startswith("This browser cannot run the hashes: "), "verdict")
        harness.judge(what, shown["state"] == "wrong" and not shown["isWorking"], shown["verdict"])
        harness.same(f"{what}: nothing is judged", shown["rows"], [])


# ---- what the browser shows and lets through


def try_keyboard(page):
    page.anew()
    reached = [page.browser.script("return document.activeElement.id")]
    for _ in range(5):
        page.browser.press(TAB)
        reached.append(page.browser.script("return document.activeElement.id"))
    harness.same("the Tab key", reached, ["files", "folder", "lists", "text", "hash", "anew"])
    nameless = page.browser.script("""
        return [...document.querySelectorAll('input, textarea, select, button, progress')]
            .filter((it) => !it.labels?.[0]?.textContent.trim() && !it.textContent.trim()).map((it) => it.id);
    """)
    harness.same("controls without a name", nameless, [])
    live = page.browser.script("""
        return document.querySelectorAll('[role=status] #verdict, [role=status] #notes, #added[role=status]').length;
    """)
    harness.same("what is told aloud", live, 3)


def try_small(page, work):
    """On a small screen the verdict is in view when it comes, and lines end where they should."""
    page.browser.resize(375, 667)
    page.anew()
    page.browser.script("scrollTo(0, 0)")
    page.paste(f"SHA256 (a.iso) = {'0' * 64}\nSHA256 (empty) = {digest_of(work, 'sha256', 'empty')}")
    state = page.done()["state"]
    harness.same("what asks for files does not scroll", (state, page.browser.script("return scrollY")), ("", 0))
    page.files(work / "a.iso", work / "empty")
    shown = page.judged(2)
    is_seen = page.browser.script("""
        const { top, bottom } = document.getElementById('verdict').getBoundingClientRect();
        return top >= 0 && bottom + 50 <= innerHeight;
    """)
    harness.judge("the verdict is in view", is_seen and shown["state"] == "wrong", shown["verdict"])
    harness.judge("what FAILED means comes first", re.match("FAILED: a.iso", shown["notes"][0]), shown["notes"])
    harness.judge("and OK after it", shown["notes"][1].startswith("FAILED: the file has"), shown["notes"])
    lines, font, text = page.browser.script("""
        const code = document.querySelector('#rows code');
        return [[...code.childNodes].map((it) => it.textContent.length).filter((it) => it),
            [...document.querySelectorAll('input')].map((it) => getComputedStyle(it).fontSize),
            document.getElementById('verdict').textContent];
    """)
    harness.same("a digest is cut in halves", lines, [32, 32])
    harness.same("the type of the inputs", set(font[:3]), {"16px"})
    harness.judge("no count is cut", "1\xa0OK" in text and "1\xa0FAILED" in text, text)
    page.browser.resize(1000, 1000)


class Server(http.server.ThreadingHTTPServer):
    """A server of the page, which keeps what it is asked for."""

    def __init__(self, folder):
        self.asked = []
        asked = self.asked

        class Handler(http.server.SimpleHTTPRequestHandler):
            def __init__(self, *words, **named):
                super().__init__(*words, directory=folder, **named)

            def parse_request(self):
                is_fine = super().parse_request()
                asked.append(getattr(self, "path", "?"))
                return is_fine

            def log_message(self, format, *words):  # pylint: disable=redefined-builtin
                pass

        super().__init__(("127.0.0.1", 0), Handler)
        threading.Thread(target=self.serve_forever, daemon=True).start()
        self.address = f"http://127.0.0.1:{self.server_address[1]}"


# Each way to ask a server, by a script in the page.
ATTEMPTS = """
    const address = arguments[0] + '/asked-by-';
    const made = (name, properties, parent = document.head) => {
        const element = Object.assign(document.createElement(name), properties);
        parent.append(element);
        return element;
    };
    const attempts = [
        () => fetch(address + 'fetch').catch(() => {}),
        () => fetch(address + 'nocors', { mode: 'no-cors' }).catch(() => {}),
        () => navigator.sendBeacon(address + 'beacon', 'x'),
        () => {
            const request = new XMLHttpRequest();
            request.open('GET', address + 'xhr');
            request.send();
        },
        () => made('img', { src: address + 'image' }, document.body),
        () => made('link', { rel: 'stylesheet', href: address + 'style' }),
        () => made('link', { rel: 'prefetch', href: address + 'prefetch' }),
        () => made('script', { src: address + 'script' }),
        () => made('iframe', { src: address + 'frame' }, document.body),
        () => made('video', { src: address + 'media' }, document.body),
        () => made('form', { action: address + 'form' }, document.body).submit(),
        () => new WebSocket(address.replace('http', 'ws') + 'socket'),
        () => new EventSource(address + 'events'),
        () => new Worker(address + 'worker'),
        () => import(address + 'import').catch(() => {}),
        () => new FontFace('x', `url(${address}font)`).load().catch(() => {}),
        () => made('link', { rel: 'preload', as: 'fetch', href: address + 'preload' }),
        () => made('link', { rel: 'modulepreload', href: address + 'modulepreload' }),
        () => made('link', { rel: 'manifest', href: address + 'manifest' }),
        () => made('object', { data: address + 'object' }, document.body),
        () => made('embed', { src: address + 'embed' }, document.body),
        () => made('iframe', { srcdoc: `<img src="${address}srcdoc">` }, document.body),
        () => made('a', { href: '#', ping: address + 'ping' }, document.body).click(),
        () => { document.body.style.backgroundImage = `url(${address}background)`; },
        () => {
            const sheet = new CSSStyleSheet();
            sheet.replaceSync(`body { background: url(${address}sheet) }`);
            document.adoptedStyleSheets = [sheet];
        },
        () => {
            const prefetch = [{ source: 'list', urls: [address + 'speculation'] }];
            made('script', { type: 'speculationrules', textContent: JSON.stringify({ prefetch }) });
        },
        () => navigator.serviceWorker.register(address + 'service').catch(() => {}),
        () => new SharedWorker(address + 'shared'),
        () => fetch(address + 'kept', { method: 'POST', body: 'x', mode: 'no-cors', keepalive: true }).catch(() => {}),
        () => fetchLater(address + 'later', { activateAfter: 0 }),
        () => {
            const text = `fetch('${address}of-worker').catch(() => {}); importScripts('${address}import-of-worker')`;
            new Worker(URL.createObjectURL(new Blob([text], { type: 'text/javascript' })));
        },
    ];
    for (const attempt of attempts) try { attempt(); } catch {}
"""


def try_requests(browser, work, files):
    """From a server: it is asked for the page alone, whatever is done there."""
    server = Server(os.path.dirname(PAGE))
    browser.requests()
    page = Page(browser, f"{server.address}/{os.path.basename(PAGE)}")
    page.files(work / "sha256sums", *files)
    harness.same("from a server", page.judged(1 + len(files))["rows"], report_of(work, "-a", "sha256", "sha256sums"))
    if browser.name == "chromium":
        try_dropped_folder(page, *folder_of(work))
        try_pairs(page, folder_in(work, "dropped"), PROGRAM, is_dropped=True)
    told = [it for it in browser.requests() if not it.endswith(os.path.basename(PAGE))]
    harness.same("what the browser tells of requests", told, [])
    harness.same("what the server was asked for", server.asked, [f"/{os.path.basename(PAGE)}"])
    harness.same("faults in the console", browser.faults(), [])
    browser.script(ATTEMPTS, server.address)
    time.sleep(2)
    harness.same("what a script of the page could ask for", server.asked[1:], [])
    server.shutdown()


# ---- pictures, to be looked at, and those of web/README.md


def added_one_of_many(page, work):
    lines = [f"{'%064x' % at}  file-{at}.iso\n" for at in range(99)]
    lines.insert(50, f"{sha256(b'two')}  two.iso\n")
    page.files(made(work, "SHA256SUMS", "".join(lines).encode()))
    page.files(made(work, "two.iso", b"two"))


def added_wrong(page, work):
    listed = made(work, "app.tgz.sha256", f"{sha256(b'right')}  app.tgz\n".encode())
    page.files(made(work, "app.tgz", b"wrong"), listed)


def added_folder(page, work):
    for name in ("app-1.0.zip", "README", "app-1.0.tar.gz"):
        made(work, f"release/{name}", name.encode())
    page.folder(work / "release")


# what is added, the size of the page, whether it is dark, and whether all of it is shown from its top
PICTURES = {
    "wide": (added_one_of_many, (960, 900), False, True), "narrow": (added_wrong, (375, 1290), False, True),
    "dark": (added_folder, (700, 1150), True, True), "phone": (added_wrong, (375, 667), False, False),
}


def take_pictures(kind, work):
    folder = os.environ.get("SHOTS")
    if not folder:
        return
    os.makedirs(folder, exist_ok=True)
    for name, (add, size, is_dark, is_from_top) in PICTURES.items():
        browser = kind(dark=is_dark)
        try:
            page = Page(browser, pathlib.Path(PAGE).as_uri())
            browser.resize(*size)
            add(page, folder_in(work, f"picture-{name}"))
            page.done()
            if is_from_top:
                browser.script("scrollTo(0, 0)")
            pathlib.Path(folder, f"{kind.name}-{name}.png").write_bytes(browser.screenshot())
        finally:
            browser.quit()


def folder_in(work, name):
    (work / name).mkdir()
    return work / name


def try_browser(kind, work, files):
    browser = kind()
    try:
        print(f"{kind.name} {browser.version}")
        page = Page(browser, pathlib.Path(PAGE).as_uri())
        try_lists(page, work, files)
        try_chosen(page, work)
        try_pasted(page, work)
        try_names(page, work)
        try_folders(page, work)
        try_meant(page, folder_in(work, "meant"), PROGRAM)
        try_everyday(page, folder_in(work, "everyday"), PROGRAM)
        try_random_copies(page, folder_in(work, "copies"), PROGRAM, ROUNDS)
        try_many_lines(page, work)
        try_keyboard(page)
        try_small(page, work)
        try_huge(page, work)
        harness.same("faults in the console, from a file", browser.faults(), [])
        try_baked(browser, folder_in(work, "baked"), PAGE)
        try_broken(browser, work)
        browser.faults()
        try_requests(browser, work, files)
    finally:
        browser.quit()
    take_pictures(kind, work)


def main():
    harness.judge("a page of less than 250 KB", os.path.getsize(PAGE) < 250000, os.path.getsize(PAGE))
    missing = []
    for name in WANTED:
        kind = BROWSERS[name]
        lacking = [it for it in kind.commands if not shutil.which(it)]
        if lacking:
            missing.append(f"{lacking[0]} is not installed: the page was not tried in {name}")
            continue
        with tempfile.TemporaryDirectory() as folder:
            work = pathlib.Path(folder)
            files = make_files(work)
            try:
                try_browser(kind, work, files)
            except RuntimeError as fault:
                harness.judge(name, False, fault)
    for text in missing:
        print(text)
    harness.finish()


if __name__ == "__main__":
    main()

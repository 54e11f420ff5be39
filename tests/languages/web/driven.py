"""The page that checks downloads in a browser, as a person uses it, and what it shows then."""

import hashlib
import json
import re
import time

SECONDS = 120
TITLES = {"sha256": "SHA-256", "sha512": "SHA-512", "blake2b": "BLAKE2b", "blake2s": "BLAKE2s", "blake3": "BLAKE3"}

READ = """
    const texts = (selector) => [...document.querySelectorAll(selector)].map((it) => it.textContent);
    const id = (name) => document.getElementById(name);
    const results = texts('#rows td:nth-child(2)');
    const lines = [...document.querySelectorAll('#rows tr')];
    return {
        verdict: id('verdict').textContent, state: id('results').className,
        notes: texts('#notes li'), added: id('added').textContent, asked: id('ask').textContent,
        rows: texts('#rows th > bdi').map((name, at) => `${name}: ${results[at]}`),
        by: lines.map((it) => it.querySelector('.from bdi')?.textContent ?? ''),
        seen: lines.filter((it) => it.getClientRects().length).length,
        details: texts('#rows td:nth-child(3)').map((it) => it.replace(/ Copy$/, '')),
        things: [...document.querySelectorAll('#things > li')].map((it) => it.querySelector('bdi').textContent),
        offers: texts('#things .offer bdi'), folded: id('fold').hidden ? '' : id('foldtext').textContent,
        isWorking: id('results').getAttribute('aria-busy') === 'true',
        commands: id('results').dataset.commands, speed: id('speed').textContent, more: id('more').textContent,
        canSave: !id('save').hidden,
    };
"""


def sha256(data):
    return hashlib.sha256(data).hexdigest()


def made(folder, name, data):
    """A file with this content, in a folder that is made if it is not there."""
    path = folder / name
    path.parent.mkdir(parents=True, exist_ok=True)
    path.write_bytes(data)
    return path


class Page:
    """The page in a browser, and what it shows."""

    def __init__(self, browser, address):
        self.browser = browser
        browser.open(address)

    def anew(self, chosen=""):
        self.browser.script("document.getElementById('anew').click()")
        if chosen:
            self.choose(chosen)

    def choose(self, chosen):
        """Chooses a hash by its name."""
        self.browser.script("""
            const select = document.getElementById('hash');
            select.value = arguments[0];
            select.dispatchEvent(new Event('change'));
        """, chosen)

    def given(self, give):
        """Gives something to the page, and waits until it has taken it."""
        before = self.read()["commands"]
        give()
        self.wait(lambda it: it["commands"] != before, "command")

    def files(self, *paths, by="files"):
        self.given(lambda: self.browser.keys(by, "\n".join(map(str, paths))))

    def folder(self, path):
        self.given(lambda: self.browser.folder("folder", str(path)))

    def drop(self, *paths):
        self.given(lambda: self.browser.drop([str(it) for it in paths]))

    def paste(self, text):
        self.given(lambda: self.browser.script("""
            const area = document.getElementById('text');
            area.value = arguments[0];
            area.dispatchEvent(new Event('input'));
        """, text))

    def press(self, label):
        """Presses the button of this label."""
        self.browser.script("""
            const buttons = [...document.querySelectorAll('button')];
            buttons.find((it) => it.getAttribute('aria-label') === arguments[0]).click();
        """, label)

    def read(self):
        """What is shown, with blanks for those at which no line ends."""
        shown = self.browser.script(READ)
        return {**shown, "verdict": shown["verdict"].replace("\xa0", " ")}

    def wait(self, is_done, what, seconds=SECONDS):
        end = time.monotonic() + seconds
        while True:
            shown = self.read()
            if is_done(shown):
                return shown
            if time.monotonic() > end:
                raise RuntimeError(f"no {what}: {json.dumps(shown)[:2000]}")
            time.sleep(0.1)

    def done(self, seconds=SECONDS):
        """What is shown as soon as all that was given is read."""
        return self.wait(lambda it: not it["isWorking"], "end", seconds)

    def judged(self, files, seconds=SECONDS):
        """What is shown as soon as so many files and lists are added, and all of it is read."""
        def is_done(shown):
            added = re.search(r"Added: [^.]*", shown["added"])
            numbers = re.findall(r"\d+", added[0] if added else "0")
            return sum(map(int, numbers)) == files and shown["verdict"] and not shown["isWorking"]
        return self.wait(is_done, "verdict", seconds)

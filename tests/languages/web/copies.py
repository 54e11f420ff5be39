"""Random folders and copies of them, which may differ in a byte, drops that the browser refuses, and digests alone, all
beside `sums check` in each folder: no OK that it would not report, no FAILED of a file that a line is right of, and no
green while something was not judged."""

import os
import random

import harness
from driven import READ, sha256

HASHES = ("sha256", "sha512", "blake2b", "blake2s", "blake3")
# the hash of its lines, or none that the name says
LISTS = {"SHA256SUMS": "sha256", "B3SUMS": "blake3", "photos.sha512": "sha512", "checksums.txt": None}
NAMES = ("a", "b", "sub/c", "sub/deep/d", "long")
LONG = 200000  # bytes, of which the ends do not show a change

# Does steps one after another, as a person does, and gives what is shown as soon as all of it is read.
STEPS = f"const read = () => {{ {READ} }};" + """
    const [steps] = arguments;
    const results = document.getElementById('results');
    const idle = async () => {
        do await new Promise((done) => setTimeout(done, 4)); while (results.getAttribute('aria-busy') === 'true');
    };
    const textOf = ([text, count, at]) => {
        const bytes = new TextEncoder().encode(text.repeat(count));
        if (at !== null) bytes[at] ^= 1;
        return bytes;
    };
    const fileOf = (name, held) => new File([textOf(held)], name, { lastModified: 10 ** 12 });
    const reader = (all) => ({ readEntries: (give) => give(all.splice(0, 2)) });
    const failing = { readEntries: (_, fail) => fail('no') };
    const entriesOf = (files) => {
        const folders = new Map();
        const entries = [];
        for (const [path, held] of files) {
            const [name, ...rest] = path.split('/');
            if (!rest.length) entries.push({ isFile: true, name, file: (give) => give(fileOf(name, held)) });
            else folders.set(name, [...(folders.get(name) ?? []), [rest.join('/'), held]]);
        }
        const made = [...folders].map(([name, all]) => folderOf(name, () => reader(entriesOf(all))));
        return [...entries, ...made];
    };
    const folderOf = (name, createReader) => ({ isDirectory: true, name, createReader });
    const item = (entry, file) => ({ kind: 'file', webkitGetAsEntry: () => entry, getAsFile: () => file });
    const drop = ({ loose, folders, refused }) => {
        const event = new Event('drop', { cancelable: true });
        event.dataTransfer = { items: [
            ...folders.map(([name, files]) => item(folderOf(name, () => reader(entriesOf(files))), null)),
            ...refused.map((name) => item(folderOf(name, () => failing), null)),
            ...loose.map(([name, held]) => item({ isFile: true, name }, fileOf(name, held)))] };
        dispatchEvent(event);
    };
    const paste = (text) => {
        const area = document.getElementById('text');
        area.value = text;
        area.dispatchEvent(new Event('input'));
    };
    return (async () => {
        document.getElementById('anew').click();
        await idle();
        let green = 0;
        for (const step of steps) {
            if (step.text === undefined) drop(step); else paste(step.text);
            if (results.className === 'ok') green++;
            await idle();
        }
        return { ...read(), green };
    })();
"""


def bytes_of(held):
    text, count, at = held
    data = bytearray((text * count).encode())
    if at is not None:
        data[at] ^= 1
    return bytes(data)


class Disk:
    """A folder on the disk with a list, and what `sums check` reports of its lines by each hash."""

    def __init__(self, folder, files, list_name, listed):
        self.files, self.list_name = files, list_name
        for name, held in files.items():
            path = folder / name
            path.parent.mkdir(parents=True, exist_ok=True)
            path.write_bytes(bytes_of(held))
        self.listed = listed
        self.folder = folder

    def check(self, program):
        """Of each line the result by each hash that it may be of."""
        own = LISTS[self.list_name]
        reports = []
        for name in [own] if own else HASHES:
            run = harness.run(program, ["check", "-a", name, self.list_name], cwd=self.folder)
            reports.append([it.rpartition(": ")[2] for it in run.out.decode().splitlines()])
        return [[it for it in line if it != "MALFORMED"] for line in zip(*reports)]


def changed(draw, files):
    """A copy of files, in which now and then a byte is another one, or a file is not there."""
    copy = dict(files)
    if draw.random() < 0.5:
        name = draw.choice(sorted(copy))
        text, count, _ = copy[name]
        copy[name] = (text, count, len(text) * count // 2)
    if draw.random() < 0.1 and len(copy) > 1:
        del copy[draw.choice(sorted(copy))]
    return copy


def lines_of(draw, program, folder, names, list_name):
    """A list of these files as they should be. Its lines may be of several hashes if its name says none."""
    own = LISTS[list_name] or draw.choice(HASHES)
    text = ""
    for name in names:
        kinds = [own]
        if LISTS[list_name] is None and draw.random() < 0.3:
            kinds = draw.choice((["sha256", "sha512"], [draw.choice(HASHES)]))
        for kind in kinds:
            text += harness.run(program, ["hash", "-a", kind, "--", name], cwd=folder).out.decode()
    return text


def disks_of(draw, program, work):
    """Three copies of a folder, with their list."""
    names = draw.sample(NAMES, draw.randint(1, 4))
    right = {name: (name[0], LONG if name == "long" else draw.randint(1, 9), None) for name in names}
    list_name = draw.choice(sorted(LISTS))
    listed = [name for name in names if draw.random() < 0.95] or names
    Disk(work / "right", right, list_name, listed)
    text = lines_of(draw, program, work / "right", listed, list_name)
    copies = [changed(draw, right), changed(draw, right)]
    copies.append(dict(copies[0]))
    held = {list_name: (text, 1, None)}
    return [Disk(work / f"disk{at}", {**it, **held}, list_name, listed) for at, it in enumerate(copies)]


class Wanted:
    """Which folders are there in the end, by the rule of what is added again, and whether something else is no green."""

    def __init__(self):
        self.places, self.has_rest = {}, False

    def drop(self, disk):
        for label, old in list(self.places.items()):
            if all(disk.files.get(name) == held for name, held in old.files.items()):
                del self.places[label]
        labels = ["photos", *(f"photos ({at})" for at in range(2, 9))]
        self.places[next(it for it in labels if it not in self.places)] = disk


def steps_of(draw, disks):
    """What a person does, and what is there then."""
    steps, wanted = [], Wanted()
    for disk in draw.choices(disks, k=draw.randint(1, 3)):
        loose = [["loose.bin", ["l", 3, None]]] if draw.random() < 0.15 else []
        refused = ["other"] if draw.random() < 0.15 else []
        steps.append({"loose": loose, "folders": [["photos", list(disk.files.items())]], "refused": refused})
        wanted.drop(disk)
        wanted.has_rest = wanted.has_rest or bool(loose or refused)
    if draw.random() < 0.15:
        is_right = draw.random() < 0.5
        list_bytes = bytes_of(disks[0].files[disks[0].list_name])
        steps.append({"text": f"SHA-256: {sha256(list_bytes) if is_right else '5a' * 32}"})
        wanted.has_rest = wanted.has_rest or not is_right
    return steps, wanted


def wrongs(shown, wanted, program):
    """What is wrong in what is shown."""
    is_right = True
    for label, disk in wanted.places.items():
        results = disk.check(program)
        by = {its for its in shown["by"] if its}
        rows = [row for row, its in zip(shown["rows"], shown["by"]) if its == f"{label}/{disk.list_name}" or not by]
        for row, own in zip(rows, results):
            result = row.rpartition(": ")[2]
            if result == "OK" and "OK" not in own:
                yield f"{row} of {label}, where sums check reports {own}"
            if result == "FAILED" and "OK" in own:
                yield f"{row} of {label}, which is right"
            if LISTS[disk.list_name] and result != own[0]:
                yield f"{row} of {label}, where sums check reports {own[0]}"
        if len(rows) < len(results):
            yield f"{len(rows)} rows of {len(results)} lines of {label}"
        is_named = set(disk.files) <= {*disk.listed, disk.list_name}
        is_right = is_right and is_named and all("OK" in it for it in results)
    if shown["state"] == "ok" and (wanted.has_rest or not is_right):
        yield "green, and something was not judged"
    if shown["green"]:
        yield "an old green stands after a drop"


def try_random_copies(page, work, program, rounds):
    """So many random folders, and what is wrong of them."""
    seed = int(os.environ.get("SEED", random.randrange(2**31)))
    draw = random.Random(seed)
    counts = {}
    for at in range(rounds):
        disks = disks_of(draw, program, work / f"round{at}")
        steps, wanted = steps_of(draw, disks)
        shown = page.browser.script(STEPS, steps)
        counts[shown["state"] or "neither"] = counts.get(shown["state"] or "neither", 0) + 1
        for what in wrongs(shown, wanted, program):
            print(f"SEED={seed}, round {at}: {what}\n  {steps}\n  {shown['rows']}\n  {shown['by']}"[:3000])
            harness.judge("random copies of folders", False, what)
    told = ", ".join(f"{count} {state}" for state, count in sorted(counts.items()))
    print(f"{page.browser.name}: SEED={seed}, {rounds} folders with copies, {told}")
    harness.judge(f"{rounds} random folders with copies", sum(counts.values()) == rounds)

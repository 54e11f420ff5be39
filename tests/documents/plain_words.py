#!/usr/bin/env python3
"""Counts words in comments that a native reader stumbles over, as docs/CONTRIBUTING.md says: `tell` and its forms for
*report* or *say*, `behind` for *after*, and `where` for *if*. Each use of them in a comment or in a text of a script is
counted, other than in code between backticks; not all of them are wrong, but they may only become fewer.
usage: tests/documents/plain_words.py            asks that no folder has more than MOST says
       tests/documents/plain_words.py --write    lowers the numbers of MOST to what there is
       tests/documents/plain_words.py --list     prints the lines
"""

import os
import re
import subprocess
import sys

sys.path.append(os.path.join(os.path.dirname(os.path.realpath(__file__)), ".."))

import harness

ROOT = os.path.dirname(harness.HERE)
WORDS = re.compile(r"\b(?:tell|tells|telling|told|behind|where)\b", re.I)
CODE = re.compile(r"`[^`]*`")
# how many there are at most, by what a path begins with
MOST = {
    "crates, src": 98,
    "crates, specs": 172,
    "crates, proofs": 204,
    "tests": 203,
    "tools, packaging, scripts, bench": 68,
    "bindings, web": 93,
}
# a comment that ends with its line, by the ending of a file's name; a script without one is a shell's or Python's
LINE = {".rt": r"//.*", ".antt": r"--.*", ".c": r"//.*", ".h": r"//.*", ".go": r"//.*", ".rs": r"//.*", ".js": r"//.*",
        ".ts": r"//.*", ".mjs": r"//.*", ".edit": r"^#.*"}
SCRIPT = r"(?:^|\s)#.*"
# a comment or text over several lines
BLOCK = {".c": r"/\*.*?\*/", ".h": r"/\*.*?\*/", ".js": r"/\*.*?\*/", ".ts": r"/\*.*?\*/"}
TEXT = r'"""(.*?)"""'
# what has no comments of ours
OTHER = (".md", ".tsv", ".svg", ".png", ".json", ".abi", ".html", ".css", ".csv", ".txt", ".toml", ".lock", ".1", ".3", ".7")


def comments(path, text):
    """The comments of a file, each with the number of the line that it begins in."""
    ending = os.path.splitext(path)[1]
    patterns = [LINE.get(ending, SCRIPT)] + ([BLOCK[ending]] if ending in BLOCK else [])
    patterns += [TEXT] if ending not in LINE else []
    for pattern in patterns:
        for found in re.finditer(pattern, text, re.M | (re.S if pattern != patterns[0] else 0)):
            yield text.count("\n", 0, found.start()) + 1, found[0]


def group(path):
    """The group of MOST that a path belongs to, if any."""
    first, *rest = path.split("/")
    if first == "crates" and len(rest) > 2:
        return {"src": "crates, src", "specs": "crates, specs", "proofs": "crates, proofs"}.get(rest[1])
    return next((name for name in MOST if first in name.split(", ") and first != "crates"), None)


def uses():
    """Each use: its group, its file, the number of its line, and the comment's line."""
    listed = subprocess.run(["git", "ls-files", "-z"], cwd=ROOT, check=True, capture_output=True, text=True).stdout
    for path in listed.split("\0"):
        if path and group(path) and not path.endswith(OTHER) and os.path.isfile(os.path.join(ROOT, path)):
            with open(os.path.join(ROOT, path), encoding="utf-8", errors="replace") as file:
                text = file.read()
            for number, comment in comments(path, text):
                for at, line in enumerate(comment.split("\n")):
                    for _ in WORDS.findall(CODE.sub("", line)):
                        yield group(path), path, number + at, line.strip()


def main(words):
    found = list(uses())
    counts = {name: sum(one[0] == name for one in found) for name in MOST}
    if words == ["--list"]:
        for _, path, number, line in found:
            print(f"{path}:{number}: {line}")
    elif words == ["--write"]:
        with open(__file__, encoding="utf-8") as file:
            text = file.read()
        for name, count in counts.items():
            text = re.sub(rf'(^    "{name}": )\d+', lambda it: f"{it[1]}{min(count, MOST[name])}", text, flags=re.M)
        with open(__file__, "w", encoding="utf-8") as file:
            file.write(text)
    else:
        for name, most in MOST.items():
            harness.judge(f"{name}: {counts[name]} uses of these words, and {most} at most", counts[name] <= most,
                          "tests/documents/plain_words.py --list prints them")
        harness.finish()


if __name__ == "__main__":
    main(sys.argv[1:])

#!/usr/bin/env python3
"""Finds runs of twelve words that stand in two documents, since each fact has one place. The documents are the pages of
Markdown, without CHANGELOG.md, and the manual pages. Not read are blocks of code, tables of statuses, texts of faults,
and what tools/pages writes into both. A run ends with its paragraph, item or row.
usage: tests/documents/said_twice.py            asks that there are none
       tests/documents/said_twice.py FILE..     prints those of these files
"""

import collections
import os
import re
import subprocess
import sys

sys.path.append(os.path.join(os.path.dirname(os.path.realpath(__file__)), ".."))

import harness
import links

ROOT = os.path.dirname(harness.HERE)
LEAST = 12
WORD = re.compile(r"\w+(?:[-'’]\w+)*")
# what tools/pages writes, in a page of Markdown and in a manual page
WRITTEN = re.compile(r"^<!-- from .*?^<!-- by hand -->$", re.M | re.S)
WRITTEN_PAGE = re.compile(r'^\.\\" from .*?^\.\\" by hand$', re.M | re.S)
# what a page says of an option beside what is written, to the next option
MORE = re.compile(r'^\.\\" more\n(.*?)^(?=\.TP$|\.\\" by hand$)', re.M | re.S)
STATUS_ROW = re.compile(r"^\| *\d+ *\|.*$", re.M)
STATUSES = re.compile(r"^\.SH EXIT STATUS$.*?^(?=\.PP$|\.SH )", re.M | re.S)
# what the program prints or reports, such as `-a: not for this command`, as the heading of its meaning
FAULT = re.compile(r"^\.(?:B|BR|IB) .*: .*$", re.M)
CODE_OF_PAGE = re.compile(r"^\.ft CW$.*?^\.ft$", re.M | re.S)
# what ends a paragraph: an empty line, a heading, an item, a row
ENDS = re.compile(r"\n\s*\n|^#.*$|^\s*(?:[-*]|\d+\.) |^\||\|$", re.M)
ENDS_OF_PAGE = re.compile(r"^\.(?:SH|SS|TP|PP|IP|RS|RE|TH|nf|fi|br)\b.*$|^\.\\\".*$", re.M)
ESCAPES = {r"\-": "-", r"\(aq": "'", r"\(ha": "^", r"\e": "\\"}


def of_markdown(text):
    """The paragraphs of a page of Markdown."""
    text = STATUS_ROW.sub("", WRITTEN.sub("", links.without_code(text)))
    return ENDS.split(re.sub(r"\[([^\]]*)\]\([^)]*\)", r"\1", text))


def of_page(text):
    """The paragraphs of a manual page."""
    text = FAULT.sub(".PP", CODE_OF_PAGE.sub(".PP\n", STATUSES.sub("", text)))
    text = WRITTEN_PAGE.sub(lambda written: ".PP\n" + ".PP\n".join(MORE.findall(written[0])), text)
    text = re.sub(r"\\f[BIR]", "", text)
    for escape, shown in ESCAPES.items():
        text = text.replace(escape, shown)
    return re.split(ENDS_OF_PAGE, re.sub(r"^\.[BIR]{1,2} ", "", text, flags=re.M))


def paragraphs(path, text):
    """The words of each paragraph of a document."""
    split = of_markdown if path.endswith(".md") else of_page
    return [words for part in split(text) if len(words := WORD.findall(part.lower())) >= LEAST]


def starts(words):
    return range(len(words) - LEAST + 1)


def twice(texts):
    """The longest runs that stand in two of these documents: of each its documents and its words."""
    parts = [(path, words) for path, text in texts.items() for words in paragraphs(path, text)]
    places = collections.defaultdict(list)
    for part, (_, words) in enumerate(parts):
        for at in starts(words):
            places[tuple(words[at:at + LEAST])].append((part, at))
    found = {}
    for number, (path, words) in enumerate(parts):
        end = 0
        for at in starts(words):
            others = [place for place in places[tuple(words[at:at + LEAST])] if parts[place[0]][0] > path]
            if at >= end and others:
                runs = [(common(words[at:], parts[part][1][place:]), parts[part][0]) for part, place in others]
                length, other = max(runs)
                found.setdefault((path, other), []).append(" ".join(words[at:at + length]))
                end = at + length
    return found


def common(one, other):
    """How many words two texts have in common at their beginnings."""
    length = 0
    while length < min(len(one), len(other)) and one[length] == other[length]:
        length += 1
    return length


def documents():
    """The documents of the repository."""
    listed = ["git", "ls-files", "--cached", "--others", "--exclude-standard", "*.md", "man/*"]
    told = subprocess.run(listed, cwd=ROOT, check=True, capture_output=True, text=True).stdout.split("\n")
    return [path for path in told if path and path != "CHANGELOG.md" and os.path.exists(os.path.join(ROOT, path))]


def check_itself():
    """A run is found wherever it stands, and nothing else is."""
    run = "each of these twelve words stands here, and in another document as well"
    said = {"a.md": f"# A\n\nWell: {run}.\n", "b.1": f'.SH B\nOf it\n.B {run.replace(" and", chr(10) + "and")}\n'}
    harness.same("a run of twelve words in two documents", twice(said), {("a.md", "b.1"): [run.replace(",", "")]})
    for name, page in {
        "eleven words": "each of these twelve words stands here, and in another document",
        "a run over two paragraphs": run.replace("here,", "here,\n\n"),
        "code": f"```sh\n{run}\n```\n\n    {run}",
        "a table of statuses": f"| 1 | {run} |",
        "what tools/pages writes": f"<!-- from the help, by tools/pages -->\n{run}\n<!-- by hand -->",
    }.items():
        harness.same(f"no run: {name}", twice({"a.md": page, "b.md": run}), {})
    for name, page in {
        "code of a manual page": f".ft CW\n{run}\n.ft\n",
        "a fault": f".B {run}: {run}\n",
        "statuses of a manual page": f".SH EXIT STATUS\n.TP\n.B 1\n{run}\n.SH NEXT\n",
        "an option": f'.\\" from the help, by tools/pages\n.TP\n.B x\n{run}\n.\\" more\nWell.\n.\\" by hand\n',
    }.items():
        harness.same(f"no run: {name}", twice({"a.1": page, "b.md": run}), {})
    more = f'.\\" from the help, by tools/pages\n.TP\n.B x\nX.\n.\\" more\n{run}\n.TP\n.B y\n.\\" by hand\n'
    harness.judge("a run in what a page says more", twice({"a.1": more, "b.md": run}))


def check():
    check_itself()
    paths = documents()
    harness.judge("there are documents of both kinds", len(paths) > 20 and {"README.md", "man/sums.1"} <= set(paths))
    found = twice({path: links.read(os.path.join(ROOT, path)) for path in paths})
    for path in paths:
        runs = [f"{other}: {run}" for (one, other), them in found.items() if one == path for run in them]
        harness.judge(f"{path}: what another document says too", not runs, *runs)
    harness.finish()


def main():
    if sys.argv[1:]:
        for (one, other), runs in twice({path: links.read(path) for path in sys.argv[1:]}).items():
            print(*(f"{one} | {other}: {run}" for run in runs), sep="\n")
    else:
        check()


main()

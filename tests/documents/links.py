#!/usr/bin/env python3
"""Names each link of the pages below a folder, such as the documents in an installation, that leads to no file in that
folder, or to a heading or a line that is not there. Links of the web are not tried.
usage: tests/documents/links.py FOLDER    status 1 if a link leads nowhere, or if there is no README.md
"""

import glob
import os
import re
import sys


def read(path):
    with open(path, encoding="utf-8") as file:
        return file.read()


def without_code(text):
    """A page without its fenced and indented blocks."""
    return re.sub(r"^    .*$", "", re.sub(r"^```.*?^```$", "", text, flags=re.M | re.S), flags=re.M)


def anchors(text):
    """What links can name of a page: its headings, as they are shown on the web."""
    for heading in re.findall(r"^#+ (.*)$", without_code(text), re.M):
        yield re.sub(r"[^\w -]", "", heading.lower()).replace(" ", "-")


def links(text):
    """The links of a page that lead to files."""
    return [link for link in re.findall(r"\]\(([^)\s]+)\)", without_code(text)) if ":" not in link.partition("#")[0]]


def target(page, link):
    """The path that a link of a page leads to."""
    path = link.partition("#")[0]
    return os.path.normpath(os.path.join(os.path.dirname(page), path)) if path else page


def leads(root, page, link):
    """Whether a link leads to a file or folder below the root, and to a heading of a page, or a line of a source, if it
    names one."""
    path, anchor = target(page, link), link.partition("#")[2]
    if path.startswith("..") or not os.path.exists(os.path.join(root, path)):
        return False
    if not anchor:
        return True
    text = read(os.path.join(root, path))
    if path.endswith(".md"):
        return anchor in anchors(text)
    line = re.fullmatch(r"L([1-9]\d*)", anchor)
    return line is not None and int(line[1]) <= text.count("\n")


def lost(root, page):
    """The links of a page that lead nowhere."""
    return [link for link in links(read(os.path.join(root, page))) if not leads(root, page, link)]


def main():
    if len(sys.argv) != 2:
        sys.exit(__doc__[__doc__.index("usage:") :].strip())
    root = sys.argv[1]
    pages = sorted(glob.glob("**/*.md", root_dir=root, recursive=True))
    wrong = [f"{page}: {link} leads nowhere" for page in pages for link in lost(root, page)]
    if "README.md" not in pages:
        wrong.append(f"{root} has no README.md")
    print(*wrong, sep="\n", end="\n" if wrong else "")
    sys.exit(1 if wrong else 0)


if __name__ == "__main__":
    main()

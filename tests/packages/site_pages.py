#!/usr/bin/env python3
"""Reads the pages of a folder that tools/package site has made.
usage: tests/packages/site_pages.py blocks PAGE         the names of the blocks of commands in a page
       tests/packages/site_pages.py block PAGE NAME     the lines of one of them
       tests/packages/site_pages.py links FOLDER        each link of a page below FOLDER that leads to no place in it
       tests/packages/site_pages.py hosts FOLDER        each host that a link, a command or a file for a client names
"""

import glob
import html.parser
import os
import re
import sys
import urllib.parse


class Page(html.parser.HTMLParser):
    """The blocks, the links and the places of a page."""

    def __init__(self, path):
        super().__init__()
        self.blocks, self.links, self.places, self.inside = {}, [], set(), None
        with open(path, encoding="utf-8") as file:
            self.feed(file.read())

    def handle_starttag(self, tag, attributes):
        named = dict(attributes)
        self.places.update(named[name] for name in ("id", "name") if named.get(name))
        self.links += [named[name] for name in ("href", "src") if named.get(name)]
        if tag == "pre" and "id" in named:
            self.inside = named["id"]
            self.blocks[self.inside] = ""

    def handle_endtag(self, tag):
        if tag == "pre":
            self.inside = None

    def handle_data(self, text):
        if self.inside:
            self.blocks[self.inside] += text


def pages(folder):
    paths = sorted(glob.glob("**/*.html", root_dir=folder, recursive=True))
    # the page that checks downloads has links that its script makes
    return {path: Page(os.path.join(folder, path)) for path in paths if "check" not in os.path.basename(path)}


def lost(folder):
    """The links that lead nowhere."""
    read = pages(folder)
    for path, page in read.items():
        for link in page.links:
            if link.startswith("mailto:"):
                continue
            to, _, place = link.partition("#")
            target = os.path.normpath(os.path.join(os.path.dirname(path), urllib.parse.unquote(to))) if to else path
            if to.endswith("/"):
                target += "/index.html"
            is_there = os.path.isfile(os.path.join(folder, target)) and not target.startswith("..")
            is_whole = not place or target not in read or urllib.parse.unquote(place) in read[target].places
            if not is_there or not (is_whole or to.endswith(".whl")):
                yield f"{path}: {link}"


def hosts(folder):
    """What stands behind :// in a link, a command, or a file that a client reads."""
    texts = [text for page in pages(folder).values() for text in [*page.links, *page.blocks.values()]]
    for path in [*glob.glob(f"{folder}/cargo/**", recursive=True), *glob.glob(f"{folder}/dists/**", recursive=True)]:
        if os.path.isfile(path):
            with open(path, encoding="utf-8") as file:
                texts.append(file.read())
    return sorted({host for text in texts for host in re.findall(r"://([^/\s\"']+)", text)})


def main(words):
    match words:
        case ["blocks", page]:
            print(*Page(page).blocks)
        case ["block", page, name]:
            print(Page(page).blocks[name].strip())
        case ["links", folder]:
            print("".join(f"{line}\n" for line in lost(folder)), end="")
        case ["hosts", folder]:
            print(*hosts(folder))
        case _:
            sys.exit(__doc__[__doc__.index("usage:"):].rstrip())


main(sys.argv[1:])

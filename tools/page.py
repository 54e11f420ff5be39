#!/usr/bin/env python3
"""Makes the page that checks downloads, one file: web/ with the package of npm in it, and the module.
usage: tools/page.py [--list LIST] MODULE VERSION OUT
       tools/page.py --list LIST --into PAGE OUT           LIST is put into the page, which then asks for files alone
"""

import base64
import hashlib
import html
import os
import re
import sys
import zlib

TOP = os.path.dirname(os.path.dirname(os.path.realpath(__file__)))
# What is in the page beside this repository's own code, by the parts of THIRD-PARTY, and the texts of their licences.
NOTICES = ("1. ", "2. ", "==== MIT ", "==== UNICODE ")
ONLY_IN_PROGRAM = re.compile(r"^   \w+ +program {3,}.*\n(?: {10,}Copyright.*\n)*", re.M)
# What a script has in it, each file after those that it imports.
PACKAGE = ["hashes", "bytes", "machine", "message", "sources", "lines", "checking", "library"]
READING = ["functions", "groups", "listnames", "texts", "lists", "pasted", "names", "reading", "places",
           "meaning", "plan", "judging"]
ENGINE = ["verdict", "added", "view", "written", "engine", "worker"]
WORKER = [*(f"bindings/js/{name}.js" for name in PACKAGE), *(f"web/{name}.js" for name in READING + ENGINE)]
SHOWING = ["functions", "groups", "names", "gather", "given", "table", "page"]
SCRIPT = ["bindings/js/hashes.js", *(f"web/{name}.js" for name in SHOWING)]
LIST = re.compile(r'(<script type="text/plain" id="list")[^>]*>[^<]*<')
COMMENT = re.compile(r"^ *(?://.*|/\*\*(?:.|\n)*?\*/)\n", re.M)
IMPORT = re.compile(r"^import \{([^}]*)\} from '(?:[^']*/)?([a-z]+)\.js';\n", re.M)


def read(path):
    with open(os.path.join(TOP, path), encoding="utf-8") as file:
        return file.read()


def stem(path):
    return os.path.splitext(os.path.basename(path))[0]


def script_of(paths):
    """Modules as one script: their names have to differ, and each import is of a file before it."""
    parts, seen, names = ["'use strict';\n"], set(), set()
    for path in paths:
        text = read(path)
        imported = IMPORT.findall(text)
        assert seen.issuperset(name for _, name in imported), f"{path} imports what is not before it"
        assert not any(" as " in what for what, _ in imported), f"{path} imports under another name"
        body = re.sub(r"^export ", "", IMPORT.sub("", text), flags=re.M)
        assert not re.search(r"^(import|export)\b", body, re.M), f"{path} has another form of import or export"
        defined = re.findall(r"^(?:async )?(?:const|let|class|function\*?) ([\w$]+)", body, re.M)
        assert names.isdisjoint(defined), f"{path} has a name of another file: {names.intersection(defined)}"
        seen.add(stem(path))
        names.update(defined)
        parts.append(body)
    return "".join(parts)


def source_of_policy(text):
    digest = hashlib.sha256(text.encode()).digest()
    return f"'sha256-{base64.b64encode(digest).decode()}'"


def policy(script, style):
    """What the browser lets the page do: its own script and style, the module, a worker, and no request."""
    return "; ".join([
        "default-src 'none'",
        f"script-src {source_of_policy(script)} 'wasm-unsafe-eval'",
        f"style-src {source_of_policy(style)}",
        "worker-src blob:",
        "base-uri 'none'",
        "form-action 'none'",
    ])


def notices():
    """What may stand in no copy without its notice."""
    own = re.search(r"^Copyright .*$", read("LICENSE-MIT"), re.M)[0]
    parts = re.split(r"\n\n(?=\d\. |==== )", read("THIRD-PARTY").strip())
    begin = f"{own}; MIT licence, or Apache License 2.0, at your choice. In it are:"
    text = "\n\n".join([begin, *(part for part in parts if part.startswith(NOTICES))])
    return html.escape(ONLY_IN_PROGRAM.sub("", text), quote=False)


def with_list(text, path):
    """The page with a list in it, which it knows by the name of its file."""
    with open(path, "rb") as file:
        data = base64.b64encode(file.read()).decode()
    name = html.escape(os.path.basename(path))
    assert LIST.search(text), "no page that takes a list"
    return LIST.sub(lambda it: f'{it[1]} data-name="{name}">{data}<', text, count=1)


def page(module, version):
    # the sources have the comments
    script, style, worker = COMMENT.sub("", script_of(SCRIPT)), read("web/page.css"), COMMENT.sub("", script_of(WORKER))
    for text in (script, style, worker):
        assert not re.search(r"</(script|style)|<!--", text, re.I), "what ends its element early"
    parts = {
        "POLICY": policy(script, style), "STYLE": style, "SCRIPT": script, "WORKER": worker,
        "VERSION": html.escape(version), "NOTICES": notices(),
        "MODULE": base64.b64encode(zlib.compress(module, 9)).decode(), "LISTNAME": "", "LIST": "",
    }
    return re.sub(r"@([A-Z]+)@", lambda it: parts[it[1]], read("web/page.html"))


def made(words):
    """The page that the words ask for."""
    if len(words) == 2 and words[0] == "--into":
        with open(words[1], encoding="utf-8") as file:
            return file.read()
    with open(words[0], "rb") as file:
        return page(file.read(), words[1])


def main(words):
    given = words[1] if words[:1] == ["--list"] and len(words) > 1 else None
    rest = words[2:] if given else words
    if len(rest) != 3 or rest[0].startswith("--") and not (given and rest[0] == "--into"):
        sys.exit("\n".join(__doc__.splitlines()[1:3]))
    text = made(rest[:2])
    with open(rest[2], "w", encoding="utf-8", newline="\n") as file:
        file.write(with_list(text, given) if given else text)


if __name__ == "__main__":
    main(sys.argv[1:])

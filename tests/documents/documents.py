#!/usr/bin/env python3
"""Checks the documents: each link leads somewhere, here and where they are installed, sentences and pages are short,
nothing is dated but the versions in CHANGELOG, each of which begins with lines for users, quoted code is there,
pictures show what they are made of, README begins with what its readers ask first, soon has two commands for those with
the kit, and has the options and statuses of the program's help and manual pages; those have what tools/pages writes, with the
faults that the program reports in their order, and list the same terminals as code and tests do.
usage: tests/documents/documents.py PROGRAM
"""

import glob
import os
import re
import subprocess
import sys

sys.path.append(os.path.join(os.path.dirname(os.path.realpath(__file__)), ".."))

import harness
import links
import tables

ROOT = os.path.dirname(harness.HERE)
# how many words these have at most in all, and each of them, as `wc -w` counts them
MOST_IN_ALL = 16500
MOST_WORDS = {
    "README.md": 1500,
    "docs/ARCHITECTURE.md": 1420,
    "docs/BENCHMARKS.md": 735,
    "docs/CONTRIBUTING.md": 2350,
    "docs/DECISIONS.md": 1150,
    "docs/FORMAT.md": 2680,
    "docs/PROOFS.md": 3550,
    "docs/READING.md": 1200,
    "docs/SCALE.md": 1230,
    "docs/SECURITY.md": 850,
}
# of CHANGELOG.md: the heading of a version, how many lines for users it begins with, its parts, and how many words
RELEASED = re.compile(r"## (\d+\.\d+\.\d+) - (?:20\d\d-\d\d-\d\d|not yet released)")
MOST_LINES = 5
PARTS_OF_VERSION = ["Added", "Changed", "Fixed", "Security"]
MOST_OF_VERSION = 1250
# what stands in how many first lines of README.md
FIRST_TEXTS = {24: ["sums check -a ", "sums hash -a ", " --verify ", ": OK\n", "apt install", "tar -xf", "pip install",
                    "(#packages)", "(#what-is-proved)"],
               60: ["**With the kit**", "tools/try", "tools/test", "grep -F", "gpg ", "`OK`", "`MALFORMED`"]}
SENTENCE_WORDS = 40
DIARY = re.compile(r"20[0-9]{2}-|November|was seen|beside other")
# the one line that says when and on what was measured
DATED = re.compile(r"Machine: ")
# the kinds of terminal that show no progress; the place of each list of them, and how a kind stands there
KINDS = ["dumb", "unknown", "ansi", "vt52"]
TERMINALS = {
    "crates/sums/specs/Progress.antt": (r"^is_simple kind = .*?\n\n", r'codes "(\w+)"'),
    "crates/sums/src/progress.rt": (r'None \| Some\("" [^)]*\) => false', r'"(\w+)"'),
    "man/sums-hash.1": (r"\\fBTERM\\fR is unset, empty,.*?^nothing is shown", r"\\fB(?!TERM)(\w+)\\fR"),
    "tests/program/progress": (r"for kind in TERM=dumb [^;]*", r"TERM=(\w+)"),
}
COMMANDS = ["hash", "mac", "kdf", "check", "part", "join"]
# how many words the manual pages have at most, as `wc -w` counts them
MOST_OF_PAGES = 13000
PROGRAM = harness.program()


def read(path):
    return links.read(os.path.join(ROOT, path))


def found(*patterns):
    """The files of these patterns."""
    return sorted(path for pattern in patterns for path in glob.glob(pattern, root_dir=ROOT))


PAGES = found("README.md", "docs/*.md")
LEADING = PAGES + found("CHANGELOG.md", "bindings/*/README.md", "web/README.md", "crates/*/CALLING.md")


# ---- the text of a page


def sentences(text):
    """The sentences of a page, but for headings and tables. A piece of code counts as a word."""
    text = re.sub(r"^[|#].*$", "", links.without_code(text), flags=re.M)
    text = re.sub(r"`+[^`]+`+", "code", text)
    text = re.sub(r"\[([^\]]*)\]\([^)]*\)", r"\1", text)
    for block in re.split(r"\n\s*\n|^\s*(?:-|[0-9]+\.) ", text, flags=re.M):
        yield from re.split(r"(?<=[.?!])[)*\"]*\s+", block.strip())


def installed():
    """The files that an installation has in share/doc/sums."""
    script = '. tools/installed.sh; place() { echo "$3"; }; documents place'
    told = subprocess.run(["sh", "-c", script], cwd=ROOT, check=True, capture_output=True, text=True).stdout
    return [path.removeprefix("share/doc/sums/") for path in told.splitlines()]


def none(name, wrong):
    """Counts a case, in which nothing is wrong."""
    harness.judge(name, not wrong, *wrong)


def check_page(page):
    text = read(page)
    none(f"{page}: long sentences", [part for part in sentences(text) if len(part.split()) > SENTENCE_WORDS])
    none(f"{page}: links to nothing", links.lost(ROOT, page))


def folders_of(path):
    """The folders above a path."""
    while path := os.path.dirname(path):
        yield path


def check_installed():
    """An installation has each page whose links are tried, and what they lead to."""
    files = installed()
    none("pages that are not installed", sorted(set(LEADING) - set(files)))
    folders = {folder for path in files for folder in folders_of(path)}
    for page in LEADING:
        targets = {links.target(page, link) for link in links.links(read(page))}
        none(f"{page}: links to what is not installed", sorted(targets - set(files) - folders))


def check_words():
    """Each page of these has a limit, and keeps it."""
    harness.same("pages with a limit of words", sorted(MOST_WORDS), PAGES)
    counts = {page: len(read(page).split()) for page in PAGES}
    for page, count in counts.items():
        harness.judge(f"{page} has {count} words, and {MOST_WORDS.get(page)} at most", count <= MOST_WORDS.get(page, 0))
    count = sum(counts.values())
    harness.judge(f"the pages have {count} words, and {MOST_IN_ALL} at most", count <= MOST_IN_ALL)


def check_diary(page):
    lines = [line for line in read(page).splitlines() if DIARY.search(line)]
    may_date = page == "docs/BENCHMARKS.md"
    none(f"{page}: lines that say when", [line for line in lines if not (may_date and DATED.match(line))])


def check_changelog():
    """Each version has its date, a few lines for users, and then its parts in their order; the newest is the first."""
    _, *versions = re.split(r"^(?=## )", read("CHANGELOG.md"), flags=re.M)
    numbers = [found[1] for version in versions if (found := RELEASED.fullmatch(version.partition("\n")[0]))]
    harness.judge("each version of CHANGELOG.md has a number and a date", len(numbers) == len(versions), *numbers)
    harness.same("the versions of CHANGELOG.md", numbers,
                 sorted(numbers, key=lambda number: [int(part) for part in number.split(".")], reverse=True))
    for version in versions:
        heading, *parts = re.split(r"^### ", version, flags=re.M)
        name = heading.partition("\n")[0]
        lines = heading.split("\n\n", 1)[1].strip().split("\n")
        harness.judge(f"{name}: at most {MOST_LINES} lines for users",
                      len(lines) <= MOST_LINES and all(line.startswith("- ") for line in lines), *lines)
        titles = [part.partition("\n")[0] for part in parts]
        harness.same(f"{name}: its parts", titles, [title for title in PARTS_OF_VERSION if title in titles])
        count = len(version.split())
        harness.judge(f"{name} has {count} words, and {MOST_OF_VERSION} at most", count <= MOST_OF_VERSION)


# ---- what README says beside help, manual pages and code


def help_of(*words):
    """What the program prints of itself, or of a command."""
    return harness.run(PROGRAM, [*words, "--help"]).out.decode()


def options(command):
    """The options of a command's help."""
    return re.findall(r"(?:^ +|, )(--?[a-z0-9-]+)", help_of(command).split("\nOptions:\n")[1], re.M)


def statuses(told):
    """The statuses of a help, each with its words."""
    told = told.split("\nStatus:\n")[1]
    return {number: " ".join(text.split()) for number, text in re.findall(r"^  (\d+)  (.*(?:\n     .*)*)", told, re.M)}


def page_statuses(page):
    """The same of a manual page."""
    section = read(page).split(".SH EXIT STATUS\n")[1].split("\n.SH")[0]
    section = re.sub(r'\n\.\\".*', "", section).split("\n.PP")[0].replace("\\-", "-")
    told = re.findall(r"^\.TP\n\.B (\d+)\n((?:(?!\.TP).*\n?)*)", section, re.M)
    marks = r"^\.[BI]\S* |\"| (?=,$)|\\f[BIR]"
    return {number: " ".join(re.sub(marks, "", text, flags=re.M).split()) for number, text in told}


def check_commands():
    readme = read("README.md")
    for command in COMMANDS:
        uses = re.findall(rf"\b{command} (-[^|;`\n]*)", readme)
        harness.judge(f"README.md has sums {command}", uses)
        named = {option for use in uses for option in re.findall(r"(?:^|\s)(--?[a-z][a-z0-9-]*)", use)}
        none(f"README.md: options that sums {command} has not", sorted(named - set(options(command))))
        check_synopsis(command)
        of_page = page_statuses(f"man/sums-{command}.1")
        harness.same(f"statuses of sums-{command}(1)", of_page, statuses(help_of(command)))


def check_statuses():
    told = dict(re.findall(r"^\| (\d+) \| (.*) \|$", read("README.md"), re.M))
    of_page = page_statuses("man/sums.1")
    harness.same("statuses of README.md", sorted(told), sorted(statuses(help_of())))
    for number, text in statuses(help_of()).items():
        harness.same(f"status {number} in README.md", told.get(number), text)
        harness.same(f"status {number} in sums(1)", of_page.get(number), text)


def check_synopsis(command):
    """The synopsis of a command's page has each option of its help."""
    synopsis = read(f"man/sums-{command}.1").split(".SH SYNOPSIS\n")[1].split("\n.SH")[0].replace("\\-", "-")
    named = set(re.findall(r"\\fB(--?[a-z][a-z0-9-]*)", synopsis))
    harness.same(f"options in the synopsis of sums-{command}(1)", named, set(options(command)) - {"-h", "--help"})


def check_pages():
    """What tools/pages writes stands in the manual pages."""
    done = harness.run(os.path.join(ROOT, "tools/pages"), ["check", PROGRAM])
    harness.judge("what tools/pages writes", done.status == 0, *(done.out + done.err).decode().splitlines())


def first_fault(fault):
    """The first text of a row of tests/tables/orders.tsv, as it is reported of a file that is not there."""
    options = re.match(r"((?:-\S+, )*-\S+): (.*)", fault)
    if options:
        return f"{options[1].split(', ')[0]}: {options[2].split(', ')[0]}"
    return re.sub(r"^[A-Z]+(?=: )", "none", fault.split(", ")[0])


def check_faults():
    """Each command has faults in its page, and reports the first of a row before later ones, with its status."""
    rows = [row for _, row in tables.table("orders.tsv")]
    faults = [row for _, row in tables.table("faults.tsv")]
    statuses = {text: row["status"] for row in faults for text in row["text"].split(": ")[-1].split(", ")}
    for command in COMMANDS:
        of_command = [row for row in rows if row["command"] == command]
        harness.judge(f"there are faults of sums {command}", len(of_command) > 3)
        for row in of_command:
            if row["words"] != "-":
                wanted = first_fault(row["fault"])
                with harness.folder():
                    done = harness.run(PROGRAM, [command, *row["words"].split()])
                harness.same(f"sums {command} {row['words']}", done.err.decode(), f"sums: {wanted}\n")
                status = statuses.get(wanted.split(": ")[-1], statuses.get(wanted))
                harness.same(f"status of sums {command} {row['words']}", str(done.status), status)


def check_words_of_pages():
    count = sum(len(read(page).split()) for page in found("man/*"))
    harness.judge(f"the manual pages have {count} words, and {MOST_OF_PAGES} at most", count <= MOST_OF_PAGES)


def check_terminals():
    """The kinds of terminal that show no progress are the same wherever they stand."""
    for path, (place, kind) in TERMINALS.items():
        found = re.search(place, read(path), re.M | re.S)
        harness.same(f"terminals in {path}", found and re.findall(kind, found[0], re.M), KINDS)


def check_first_screen():
    """The first lines show what is printed and how to get it, and then the two commands for those with the kit, and how
    a download is checked, which is the first heading. No other command needs the kit."""
    readme = read("README.md")
    for most, texts in FIRST_TEXTS.items():
        first = "".join(readme.splitlines(keepends=True)[:most])
        for text in texts:
            harness.judge(f"README.md has '{text.strip()}' in its first {most} lines", text in first)
    commands = re.findall(r"^(?:\$ .*\btools/|tools/|make).*", readme, re.M)
    harness.judge("README.md: two commands for those with the kit", len(commands) == 2, *commands)
    headings = re.findall(r"^## (.*)$", readme, re.M)
    harness.same("the first heading of README.md", headings[0], "Check a download")


def one_line(text):
    """A text with one blank for all that stands between its words."""
    return " ".join(text.split())


def check_quotes():
    """Code is quoted as it stands in the sources, and definitions line by line."""
    sources = " ".join(one_line(read(path)) for path in found("crates/*/src/*.rt"))
    definitions = {one_line(line) for path in found("crates/*/specs/*.antt") for line in read(path).splitlines()}
    for page in PAGES:
        for quote in re.findall(r"^```rust\n(.*?)^```$", read(page), re.M | re.S):
            harness.judge(f"{page} quotes code that is there", one_line(quote) in sources, quote)
        for quote in re.findall(r"^```antt\n(.*?)^```$", read(page), re.M | re.S):
            lines = {one_line(line) for line in quote.splitlines()}
            none(f"{page}: definitions that are not there", sorted(lines - definitions))


def check_pictures():
    """The bars are what the table of BENCHMARKS.md makes them, and the picture of the crates has them in their rows."""
    drawn = subprocess.run([os.path.join(ROOT, "bench/picture.py")], check=True, capture_output=True, text=True).stdout
    harness.judge("docs/speed.svg is what bench/picture.py draws", read("docs/speed.svg") == drawn)
    block = re.search(r"^## The crates\n\n((?: {4}.*\n)+)", read("docs/ARCHITECTURE.md"), re.M)[1]
    rows = [re.split(" {2,}", line.strip()) for line in block.splitlines()]
    crates = sorted(name for _, *parts in rows for part in parts for name in part.split(", "))
    listed = re.findall(r"^(\w+)(?: staticlib)?:", read("crates.txt"), re.M)
    harness.same("crates in the rows of docs/ARCHITECTURE.md", crates,
                 sorted(name for name in listed if not name.endswith("_tests")))
    picture = read("docs/crates.svg")
    harness.same("crates in docs/crates.svg", sorted(re.findall(r'text-anchor="middle">(\w+)<', picture)), crates)
    harness.same("rows of docs/crates.svg", re.findall(r'class="small" x="20" y="\d+">(.+)<', picture),
                 [label for label, *_ in rows])


def main():
    for page in LEADING:
        check_page(page)
    check_installed()
    for page in PAGES:
        check_diary(page)
    check_words()
    check_changelog()
    check_first_screen()
    check_commands()
    check_statuses()
    check_pages()
    check_faults()
    check_words_of_pages()
    check_terminals()
    check_quotes()
    check_pictures()
    harness.finish()


main()

"""The commands of sums and their options, read from its help, for completions.py and pages."""

import os
import re
import subprocess

# the program over sums, and which commands it has
PARALLEL = os.path.join(os.path.dirname(os.path.realpath(__file__)), "../scripts/sums-parallel")
PARALLEL_COMMANDS = "hash mac check"


class Command:
    """A command: what it does, its options, what its other words are, as `files`, one `file`, `commands` or none, and
    what its statuses mean, each a pair of the number and the text."""

    def __init__(self, name, about, text):
        self.name, self.about, self.options, self.statuses = name, about, list(options(text)), statuses(text)
        self.takes = "commands" if name == "help" else takes(text)


class Option:
    """An option by its names, with its value as the help writes it, and the text; and whether it has to be given."""

    def __init__(self, names, value, text, is_required):
        self.names, self.value, self.text, self.is_required = names, value, text, is_required

    def about(self):
        """The beginning of its text, which says what it is."""
        return re.split(r"\. |; | \[|: (?=[a-z0-9])", self.text)[0]

    def words(self):
        """What it takes one of, if its text lists that word by word, in one list or several."""
        lists = re.findall(r": ([a-z0-9-]+(?:(?:, | or )[a-z0-9-]+)*)(?:\. |$)", self.text) if self.value else []
        return list(dict.fromkeys(word for listed in lists for word in re.split(", | or ", listed)))


def help_of(program, *words):
    return subprocess.run([program, *words, "--help"], stdout=subprocess.PIPE, check=True).stdout.decode()


def entries(text, title):
    """The entries of a section of a help, the lines of each as one. An option without a short name is indented more."""
    lines, begin = re.search(rf"^{title}:\n((?: .*\n)*)", text, re.M), r"\n(?= {2}\S| {6}--)"
    return [" ".join(entry.split()) for entry in re.split(begin, lines[1])] if lines else []


def usage(text):
    return re.search(r"^Usage: (.*(?:\n .*)*)", text, re.M)[1]


def options(text):
    needed = re.sub(r"\[[^]]*\]", "", usage(text)).split() if text else []
    for entry in entries(text, "Options"):
        short, long, value, told = re.match(r"(-\w)?(?:, )?(--\S+)?(?: <(\S+)>)? ?(.*)", entry).groups()
        names = [name for name in (short, long) if name]
        yield Option(names, value, told, any(name in needed for name in names))


def statuses(text):
    return [re.match(r"(\d+(?:, \d+)*) (.*)", entry).groups() for entry in entries(text, "Status")]


def takes(text):
    """What the other words of a command are, by its usage."""
    line = usage(text) if text else ""
    if re.search(r" \[[A-Z]+\]\.\.\.$", line):
        return "files"
    return "file" if re.search(r" \[[A-Z]+\]$", line) else ""


def read_program(program):
    """The program as a command, and its commands; `help` has no help of its own."""
    whole, commands = help_of(program), []
    for entry in entries(whole, "Commands"):
        name, _, about = entry.partition(" ")
        commands.append(Command(name, about, "" if name == "help" else help_of(program, name)))
    return Command("sums", "", whole), commands


def read_parallel():
    """The program over sums as a command."""
    return Command("sums-parallel", "", help_of(PARALLEL))

"""What the recipes of the documents are run by: they are read from pages of Markdown and from manual pages, and a bench
runs them and counts what is wrong. The script is tests/documents/recipes.py."""

import glob
import os
import pwd
import re
import shlex
import shutil
import subprocess

HERE = os.path.dirname(os.path.dirname(os.path.dirname(os.path.abspath(__file__))))
# A shell, xargs, GNU parallel, sums-parallel or sums that takes one of these for anything but a name makes a file PWNED, or fails.
NAMES = ["big", "a b", " a  b ", 'it\'s "so"', "$(touch PWNED)", "`touch PWNED`", "x;touch PWNED;", "x&touch PWNED|c>d",
         "a{}b", "{}", "{3}{#}{.}", '{= system("touch PWNED") =}', "-dash", "--help", "--name=x", "a\nb", "a\rb", "a\\b",
         "\\n", "*", "~", "#x", "%s", "!x", "größe"]
CHUNK = 1024
PIECE = os.urandom(1 << 20)
IS_COMMAND = re.compile(r"(?<![/\w])(sums (hash|mac|kdf|check|part|join)|sums-parallel -|rt (try|check)|sudo |tools/\w+|bench/\w+)")


# ---- The documents


class Wrong(Exception):
    """Why a recipe is not right."""


def fenced(path):
    """The recipes of a page of Markdown, by name: language and text."""
    recipes, inside = {}, None
    for line in open(os.path.join(HERE, path), encoding="utf-8"):
        fence = re.fullmatch(r"```(\S*) ?(\S*)\n", line)
        if fence and inside is None:
            inside = (*fence.groups(), [])
        elif fence:
            language, name, lines = inside
            inside = None
            take(recipes, path, language, name, "".join(lines))
        elif inside:
            inside[2].append(line)
        elif line.startswith("    ") and IS_COMMAND.search(line) and not re.search(r"-a (ALG|MAC|blake3 \[)", line):
            raise Wrong(f"{path}: a command that no recipe has: {line}")
    return recipes


def paged(path):
    """The recipes of a manual page, as a reader sees them."""
    recipes, name, inside = {}, None, None
    for line in open(os.path.join(HERE, path), encoding="utf-8"):
        if line.startswith('.\\" recipe '):
            name = line.split()[2:]
        elif line == ".ft CW\n":
            inside = []
        elif line == ".ft\n":
            if name or IS_COMMAND.search("".join(inside)):
                take(recipes, path, (name or [""])[1:] == ["bash"] and "bash" or "sh", (name or [""])[0], "".join(inside))
            name = inside = None
        elif inside is not None:
            inside.append(shown(path, line))
    return recipes


def shown(path, line):
    """A line of a manual page, as it is shown in the fount of a terminal."""
    rest = re.sub(r"\\(-|\(aq|e)", "", line)
    if re.search(r"[-'`^~\\]", rest):
        raise Wrong(f"{path}: a sign that is shown as another one: {line}")
    return line.replace("\\-", "-").replace("\\(aq", "'").replace("\\e", "\\")


def take(recipes, path, language, name, text):
    if not name and IS_COMMAND.search(text):
        raise Wrong(f"{path}: a block that has no name: {text}")
    if name in recipes:
        raise Wrong(f"{path}: two recipes {name}")
    if name:
        recipes[name] = (language, text)


# ---- Running one


class Bench:
    """A folder with the program on the path, and what was counted so far."""

    def __init__(self, program, work):
        self.program, self.work = program, work
        self.passed, self.failed, self.absent = 0, 0, []
        self.number = 0
        self.pages = {}
        bin_ = os.path.join(work, "bin")
        os.mkdir(bin_)
        shutil.copy(program, os.path.join(bin_, "sums"))
        for script in "sums-parallel", "sums-shares":
            shutil.copy(os.path.join(HERE, "scripts", script), bin_)
        # a cargo of rustup finds its toolchain in the home of whoever runs this
        rustup = os.environ.get("RUSTUP_HOME", os.path.expanduser("~/.rustup"))
        self.environment = {"PATH": bin_ + ":" + os.environ["PATH"] + ":/usr/sbin:/sbin", "HOME": work,
                            "LC_ALL": "C.UTF-8", "PARALLEL_HOME": os.path.join(work, "parallel"), "RUSTUP_HOME": rustup}
        os.mkdir(self.environment["PARALLEL_HOME"])
        self.marks = [os.path.join(pwd.getpwuid(os.getuid()).pw_dir, "PWNED"), "/PWNED"]

    def text(self, page, name):
        """The recipe's text, which is its page's."""
        return self.pages[page][name][1]

    def language(self, page, name):
        return self.pages[page][name][0]

    def folder(self):
        """An empty folder."""
        self.number += 1
        path = os.path.join(self.work, "run", str(self.number))
        os.makedirs(path)
        return path

    def there(self, command, what):
        """Whether a command is installed; else says that `what` was not run."""
        if shutil.which(command, path=self.environment["PATH"]):
            return True
        self.missing(f"{command} is not installed: {what}")
        return False

    def missing(self, text):
        self.absent.append(text)
        print(text, flush=True)

    def run(self, text, folder, shell="sh", seconds=900, **variables):
        """What a shell does with a text: status, output, and what it reports. The variables are of its environment."""
        environment = {**self.environment, **variables}
        done = subprocess.run([shell, "-c", text], cwd=folder, env=environment, stdin=subprocess.DEVNULL,
                              capture_output=True, timeout=seconds)
        return done.returncode, done.stdout, done.stderr

    def sums(self, folder, *words):
        """What the program prints, which is not handed to a shell."""
        return subprocess.run([self.program, *words], cwd=folder, check=True, capture_output=True).stdout

    def judge(self, title, test):
        """Counts a case: the test raises Wrong if it is not right."""
        try:
            test()
            for mark in self.marks + glob.glob(os.path.join(self.work, "**", "PWNED*"), recursive=True):
                if os.path.exists(mark):
                    os.remove(mark)
                    raise Wrong("a name was run")
            self.passed += 1
        except (Wrong, subprocess.SubprocessError, OSError) as fault:
            self.failed += 1
            print(f"{title}: {fault}", flush=True)


def same(got, wanted, what):
    if got != wanted:
        raise Wrong(f"{what}: {got!r}, wanted {wanted!r}"[:2000])


def ends(got, status=0, output=None, told=b""):
    """The status, what was reported, and the output if it is given are these."""
    same((got[0], got[2]), (status, told), "status and standard error")
    if output is not None:
        same(got[1], output, "standard output")


def fill(path, size):
    with open(path, "wb") as file:
        for place in range(0, size, len(PIECE)):
            file.write((place.to_bytes(8, "little") + PIECE)[: min(len(PIECE), size - place)])


def named(text, name, chunks):
    """The recipe with another file and another size of parts, in its first line, which is `f=FILE n=CHUNKS`."""
    first, rest = text.split("\n", 1)
    if not re.fullmatch(r"f=\S+ n=\d+", first):
        raise Wrong(f"the first line names no file: {first}")
    return f"f={shlex.quote(name)} n={chunks}\n{rest}"


def behind_file(bench, name):
    """A recipe of docs/SCALE.md after the one that names the file."""
    return bench.text("docs/SCALE.md", "file") + bench.text("docs/SCALE.md", name)


def of_work(bench, folder, work, name=None, chunks=None):
    """Leaves the two scripts of docs/SCALE.md for a kind of work in a folder, for parts those of a file and a size."""
    for script in ["share", "after"]:
        text = bench.text("docs/SCALE.md", f"{script}-{work}")
        if work == "part":
            text = bench.text("docs/SCALE.md", "file") + text
            text = text if chunks is None else named(text, name, chunks)
        write(folder, f"{script}.sh", "#!/bin/sh\n" + text)


def write(folder, name, text, mode=0o644):
    path = os.path.join(folder, name)
    with open(path, "w", encoding="utf-8") as file:
        file.write(text)
    os.chmod(path, mode)
    return path

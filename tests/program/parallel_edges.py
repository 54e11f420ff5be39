#!/usr/bin/env python3
"""What sums-parallel does if something goes wrong meanwhile: lists, names, keys and files that are replaced, runs that
are killed, stopped, late, or print what they should not, and signals at random moments. No run is left, nothing hangs,
and what is printed is the beginning of what one run prints, unless a file is told to have changed. A release tries
1,000 signals and 100 files.
usage: tests/program/parallel_edges.py PROGRAM [SIGNALS] [FILES]    by default 60 and 8
"""

import contextlib
import os
import random
import resource
import select
import signal
import subprocess
import sys
import threading
import time

sys.path.append(os.path.join(os.path.dirname(os.path.realpath(__file__)), ".."))

import harness
from fronts import MIB, by_shell, command, content, faulty, fill, front, in_order, none_left, wait_for
from harness import judge, same

FEW = [f"f{number}" for number in range(20)]
HASH, CHECK = ["hash", "-a", "sha256", "--files0-from", "names"], ["check", "-a", "sha256", "--summary", "list"]
MAC = ["mac", "-a", "blake2s", "--key-file=key", "--files0-from", "names"]
SIGNALS = (signal.SIGINT, signal.SIGTERM, signal.SIGHUP, signal.SIGQUIT, signal.SIGKILL)


def write(name, data):
    with open(name, "wb") as file:
        file.write(data)


def files(program):
    for name in FEW:
        write(name, name.encode())
    for at in "12":
        names = FEW if at == "1" else FEW[::-1] * 2
        write(f"names{at}", b"".join(os.fsencode(name) + b"\0" for name in names))
        write(f"list{at}", harness.run(program, ["hash", "-a", "sha256", *names]).out)
        write(f"key{at}", at.encode() * 32)
    for name in ("names", "list", "key"):
        write(name, content(f"{name}1"))
    fill("large", 33 * MIB)
    fill("other", 33 * MIB)


# ---- what is replaced or changed


def replaced(program):
    """A list, the names or the key that one share sees and the other does not."""
    for name, words in (("list", CHECK), ("names", HASH), ("key", MAC), ("list", [*CHECK, "list2", "list"]),
                        ("names", ["hash", "-a", "sha256", "--files0-from=names"]),
                        ("key", [*MAC[:3], "--key-file", "key", *MAC[4:]])):
        for how in (f"cp {name}2 new; mv new {name}", f"cp {name}2 {name}", f"rm {name}", f"echo >> {name}"):
            write(name, content(f"{name}1"))
            path = faulty(program, f'case "$*" in *"--share 1/"*) sleep 0.3; {how} ;; esac')
            run = front(path, 2, words)
            told = f"sums-parallel: '{name}' has changed; lines are missing\n".encode()
            judge(f"{words}: {how}", run.status == 3 and run.err.endswith(told), run)
        write(name, content(f"{name}1"))
    path = faulty(program, 'case "$*" in *"--share 1/"*) sleep 0.3; cp list2 given ;; esac')
    text = "cp list1 given; sums check -a sha256 < given"
    same("the list of standard input", by_shell(path, 2, text), by_shell(program, None, text))


def at_random(program, rounds):
    """A file that is replaced again and again has one of its contents, or that it has changed is told."""
    for name, words in (("list", CHECK), ("names", HASH), ("key", MAC)):
        answers, seen = [], set()
        for at in "12":
            write(name, content(f"{name}{at}"))
            answers.append(in_order(harness.run(program, words)))
        for _ in range(rounds):
            ends = threading.Event()

            def replaces():
                while not ends.wait(random.random() * 0.02):
                    write("new", content(f"{name}{random.choice('12')}"))
                    os.replace("new", name)
            thread = threading.Thread(target=replaces)
            thread.start()
            run = front(program, 9, words)
            ends.set()
            thread.join()
            judge(f"{name} is replaced at random", in_order(run) in answers
                  or run.status == 3 and f"'{name}' has changed".encode() in run.err, run)
            seen.add(run.status)
        judge(f"{name} is replaced at random: seen", 3 in seen, seen)
        write(name, content(f"{name}1"))


def changed(program):
    """A large file that changes while its parts are hashed is hashed anew, however little of it tells the change."""
    words = ["hash", "-a", "blake3", "changes"]
    for does in ("printf x | dd of=changes conv=notrunc 2> told", "cp other new; touch -r changes new; mv new changes",
                 "touch -r changes kept; printf x | dd of=changes conv=notrunc 2> told; touch -r kept changes",
                 "printf x >> changes", "truncate -s 30000 changes", "rm changes"):
        write("changes", content("large"))
        run = front(faulty(program, f'case "$*" in *"--share 1/"*) "$sums" "$@"; sleep 0.02; {does}; exit 0 ;; esac'),
                    ["-j3"], words)
        same(f"large: {does}", run, harness.run(program, words))


# ---- runs that fail


def failed(program):
    """Runs that are killed, fail, or print what they should not: the beginning of the lines, and status 3."""
    share, told = 'case "$*" in *"--share 1/"*', 'case "$*" in *--report*'
    for words in HASH, CHECK:
        whole = harness.run(program, words)
        for how, text in ((f'{share}) printf "half a line"; kill -9 $$ ;; esac', b"was killed by signal 9"),
                          (f"{share}) kill -9 $$ ;; esac", b"was killed by signal 9"),
                          (f'{share}) "$sums" "$@" | head -n 3; kill -9 $$ ;; esac', b"was killed by signal 9"),
                          (f'{share}) "$sums" "$@"; exit 3 ;; esac', b"ended with status 3"),
                          (f'{share}) exec "$sums" ;; esac', b"ended with status 2"),
                          (f"{share}) exec /nothing ;; esac", b"ended with status 127"),
                          (f'{share}) "$sums" "$@" | head -n 3; exit 0 ;; esac', b"different lines"),
                          (f'{share}) "$sums" "$@" | head -c 30; exit 0 ;; esac', b"different lines"),
                          (f'{share}) "$sums" "$@"; "$sums" "$@" ;; esac', b"different lines"),
                          (f"{share}) exit 1 ;; esac", b"different lines")):
            run = front(faulty(program, how), 3, words)
            judge(f"{words[0]}: {how}", run.status == 3 and whole.out.startswith(run.out) and text in run.err
                  and run.err.endswith(b"; lines are missing\n"), run)
    whole = harness.run(program, CHECK)
    for how in (f"{told}) kill -9 $$ ;; esac", f"{told}) exit 3 ;; esac", f"{told}) exit 0 ;; esac",
                f"{told}) exec 1< names ;; esac", f"{told}) sleep 1; kill -9 $$ ;; esac",
                f'{share}) "$sums" "$@" | sed "2s/OK/OKAY/"; exit 0 ;; esac',
                f'{share}) "$sums" "$@" | tac; exit 0 ;; esac',
                f'{share}) set -- check --share 2/3 -a sha256 list ;; *"--share 2/"*) '
                'set -- check --share 1/3 -a sha256 list ;; esac'):
        run = front(faulty(program, how), 3, CHECK)
        judge(f"check: {how}", run.status == 3 or how.endswith("--report*) exit 0 ;; esac"), run)
    run = front(faulty(program, f"{told}) sleep 1 ;; esac"), 3, CHECK)
    same("the run that compares is late", run, whole)
    os.mkdir("cats")
    for how, words, name in [(how, words, name) for how in ("head -c 9; kill -9 $$", "head -c 9; exit 1", "exit 1")
                             for words, name in (([*HASH[:-1], "-"], "names"), (CHECK[:-1], "list"))]:
        write("cats/cat", f"#!/bin/sh\n{how}\n".encode())
        os.chmod("cats/cat", 0o755)
        path, *own = command(program, 3)
        run = harness.run(path, [*own, *words], content(name), timeout=100,
                          env={**os.environ, "PATH": os.path.abspath("cats") + ":" + os.environ["PATH"]})
        judge(f"{words[0]}: a copy that is cut, {how}", run.status == 3
              and run.err.endswith(b"; lines are missing\n"), run)


def asked(program):
    """A share without an entry that prints something, or has a status, leaves all to one run."""
    for words in HASH, CHECK:
        for how in ("echo x; exit 0", "echo; exit 0", "exit 1", "exit 2", "exit 3", "kill -9 $$"):
            path = faulty(program, f'case "$*" in *"--share 18446744073709551614/"*) {how} ;; *--share*) exit 9 ;; '
                          'esac')
            same(f"{words[0]}, asked: {how}", front(path, 3, words), harness.run(program, words))


def wrong_parts(program):
    """A large file of which a part is lost or wrong is hashed by one run."""
    words = ["hash", "-a", "blake3", "large"]
    wanted = harness.run(program, words)
    other = '"$sums" part -a blake3 --each 4096 --share 1/3 -- other'
    for how in ("exit 0", "exit 1", "kill -9 $$", "echo x; exit 0", 'printf "half a line"', f"{other}; exit 1",
                f"{other}; kill -9 $$", '"$sums" "$@" | head -n 1; exit 0', '"$sums" "$@"; exit 1',
                "exec >&-; sleep 0.3"):
        path = faulty(program, f'case "$*" in *"--share 1/"*) {how} ;; esac')
        same(f"parts: {how}", front(path, ["-j3"], words), wanted)
    path = faulty(program, 'case "$*" in *"--share 2/3"*) "$sums" "$@" | head -n 2; exit 0 ;; esac')
    same("parts: the last one is missing", front(path, ["-j3"], words), wanted)
    for how in ('echo "00  large"; exit 1', "exit 3", "kill -9 $$", "sleep 0.3; exit 0"):
        run = front(faulty(program, f"case $1 in join) {how} ;; esac"), ["-j3"], words)
        judge(f"parts: join {how}", run == wanted or "exit 0" in how and not run.out, run)


def late(program):
    """What stands before the line of a run that is late is shown at once; a run that is stopped goes on."""
    for words, shown in ((HASH, 0), (HASH, 1), (CHECK, 0), (CHECK, 1)):
        whole = harness.run(program, words)
        path = faulty(program, f'case "$*" in *"--share 1/2"*) "$sums" "$@" > lines; head -n {shown} lines; '
                      f'echo $$ > begun; kill -STOP $$; tail -n +{shown + 1} lines; exit 0 ;; esac')
        write("begun", b"")
        with subprocess.Popen([*command(path, 2), *words], stdout=subprocess.PIPE, stderr=subprocess.PIPE) as run:
            wait_for(lambda: content("begun"))
            time.sleep(0.3)
            first = os.read(run.stdout.fileno(), MIB) if select.select([run.stdout], [], [], 0)[0] else b""
            os.kill(int(content("begun")), signal.SIGCONT)
            out, err = run.communicate(timeout=60)
            same(f"{words[0]}: before a stopped run", first, b"".join(whole.out.splitlines(True)[:1 + 2 * shown]))
            same(f"{words[0]}: behind it", (run.returncode, first + out, err), whole)


def side_by_side(program):
    """Lines of two processes that write into one pipe stay whole."""
    reading, writing = os.pipe()
    write("many", content("names2") * 500)
    runs = [subprocess.Popen([*command(program, 3), *HASH[:-1], "many"], stdout=writing) for _ in range(4)]
    os.close(writing)
    with open(reading, "rb") as pipe:
        lines = pipe.read().splitlines()
    same("side by side: statuses", [run.wait() for run in runs], [0] * 4)
    judge("side by side", sorted(lines) == sorted(content("list2").splitlines() * 2000), set(lines))


# ---- signals


def left(mark):
    """The processes that have a mark in their environment."""
    for process in filter(str.isdigit, os.listdir("/proc")):
        with contextlib.suppress(OSError):
            if mark in content(f"/proc/{process}/environ"):
                yield process


def signals(program, count):
    """A signal at any moment, to sums-parallel alone or to its group, ends all."""
    slow = faulty(program, 'case "$*" in *"--share 1/"*) "$sums" "$@" | { sleep 0.05; cat; }; exit 0 ;; esac')
    os.mkdir("temporary")
    for number in range(count):
        words, given = random.choice(((HASH, b""), (CHECK, b""), (MAC, b""), (CHECK[:-1], content("list")),
                                      ([*HASH[:-1], "-"], content("names")), (["hash", "-a", "blake3", "large"], b"")))
        number = f"mark={random.getrandbits(64):x}"
        path, own = random.choice(((program, ["-j3"]), (program, []), (slow, 3)))
        whole, sent = harness.run(program, words, given), random.choice(SIGNALS)
        write("given", given)
        with open("given", "rb") as file, subprocess.Popen(
                [*command(path, own), *words], stdin=file if random.random() < 0.5 else subprocess.PIPE,
                stdout=subprocess.PIPE, stderr=subprocess.PIPE, start_new_session=True,
                env={**os.environ, "SUMS": path, "TMPDIR": os.path.abspath("temporary"), "mark": number[5:]}) as run:
            if run.stdin:
                with contextlib.suppress(OSError):
                    run.stdin.write(given)
                    run.stdin.close()
                run.stdin = None
            time.sleep(random.random() * random.choice((0.02, 0.1, 0.2)))
            with contextlib.suppress(ProcessLookupError):
                (os.killpg if random.random() < 0.4 else os.kill)(run.pid, sent)
            begin = time.monotonic()
            out, err = run.communicate(timeout=60)
        how = f"signal {sent} to {own} {words}"
        judge(how, run.returncode == -sent and whole.out.startswith(out)
              or in_order(harness.Run(run.returncode, out, err)) == in_order(whole), run.returncode, out, err)
        judge(f"{how}: the time", time.monotonic() - begin < 20, time.monotonic() - begin)
        judge(f"{how}: none is left", wait_for(lambda: not [*left(number.encode())]), [*left(number.encode())])
    same("signals leave no file", os.listdir("temporary"), [])


def ignored(program):
    """A signal that is ignored, as SIGHUP is by nohup, ends no run."""
    for number in SIGNALS[:4]:
        path = faulty(program, 'case "$*" in *"--share 1/"*) echo $$ > begun; sleep 0.5 ;; esac')
        write("begun", b"")
        with subprocess.Popen([*command(path, 2), *HASH], stdout=subprocess.PIPE, start_new_session=True,
                              preexec_fn=lambda: signal.signal(number, signal.SIG_IGN)) as run:
            wait_for(lambda: content("begun"))
            os.killpg(run.pid, number)
            out = run.communicate(timeout=60)[0]
        same(f"signal {number} is ignored", (run.returncode, out), (0, content("list1")))


def stubborn(program):
    """A run that passes over signals is ended, too, and so is one at work whose line nobody takes."""
    path = faulty(program, 'case "$*" in *"--share 1/"*) trap "" INT TERM HUP; echo $$ > begun; for _ in $(seq 99); do '
                  'sleep 1; done ;; *"--share 0/"*) until [ -s begun ]; do sleep 0.1; done ;; esac')
    for number in SIGNALS:
        write("begun", b"")
        with subprocess.Popen([*command(path, 2), *HASH], stdout=subprocess.DEVNULL) as run:
            wait_for(lambda: content("begun"))
            run.send_signal(number)
            same(f"signal {number} and a run that ignores it", run.wait(timeout=60), -number)
        none_left(f"signal {number} and a run that ignores it", "begun")
    write("begun", b"")
    run = by_shell(path, 2, f"sums {' '.join(HASH)} > /dev/full")
    judge("a full device and a run at work", run.status == 3 and b"No space left on device" in run.err, run)
    none_left("a full device and a run at work", "begun")


def main():
    program = harness.program()
    words = harness.arguments(1)[1:]
    for number in SIGNALS[:4]:  # which what began the tests may ignore
        signal.signal(number, signal.SIG_DFL)
    resource.setrlimit(resource.RLIMIT_CORE, (0, 0))
    with harness.folder():
        files(program)
        for tried in (replaced, changed, failed, asked, wrong_parts, late, side_by_side, ignored, stubborn):
            tried(program)
        signals(program, int(words[0]) if words else 60)
        at_random(program, int(words[1]) if words[1:] else 8)
    harness.finish()


main()

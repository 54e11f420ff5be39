#!/usr/bin/env python3
"""Proves and builds the libraries below a crate, those that stand on nothing of each other side by side, as many as the
machine has cores and memory for, and says what it is doing.
usage: tools/prove.py CRATE
"""

import os
import subprocess
import sys
import time
from concurrent.futures import FIRST_COMPLETED, ThreadPoolExecutor, wait

TOP = os.path.dirname(os.path.dirname(os.path.realpath(__file__)))
# What the proof of one crate takes at most, in KiB.
MEMORY = 3 << 20


def crates():
    """Returns the crates of the repository, each with those of them that it uses."""
    uses = {}
    with open(f"{TOP}/crates.txt", encoding="utf-8") as lines:
        for line in lines:
            named, colon, used = line.split("#")[0].partition(":")
            if colon:
                uses[named.split()[0]] = used.split()
    return {crate: [it for it in used if it in uses] for crate, used in uses.items()}


def below(crate, uses):
    """Returns the libraries that a crate stands on, the lowest first."""
    found = []
    for library in uses[crate]:
        found += [it for it in [*below(library, uses), library] if it not in found]
    return found


def at_once():
    """Returns how many crates may be proved side by side."""
    with open("/proc/meminfo", encoding="ascii") as lines:
        available = next(int(line.split()[1]) for line in lines if line.startswith("MemAvailable:"))
    return max(1, min(len(os.sched_getaffinity(0)), available // MEMORY))


def prove(library):
    """Proves and builds a library, and returns its name, whether it is there now, and what was said."""
    run = subprocess.run(
        ["rt", "lib"], cwd=f"{TOP}/crates/{library}", stdout=subprocess.PIPE, stderr=subprocess.STDOUT, check=False
    )
    return library, run.returncode == 0, run.stdout.decode(errors="replace")


def main(crate):
    uses = crates()
    if crate not in uses:
        return f"tools/prove.py: crates.txt has no crate {crate}"
    waiting = below(crate, uses)
    count, places, start = len(waiting), at_once(), time.monotonic()
    proved, running = set(), {}
    print(f"proving {count} libraries, at most {places} side by side", flush=True)
    with ThreadPoolExecutor(places) as pool:
        while waiting or running:
            for library in [it for it in waiting if proved.issuperset(uses[it])][: places - len(running)]:
                waiting.remove(library)
                running[pool.submit(prove, library)] = library
            for done in wait(running, return_when=FIRST_COMPLETED).done:
                library, is_well, said = done.result()
                if not is_well:
                    return f"{said}\ntools/prove.py: {library} is not proved"
                del running[done]
                proved.add(library)
                beside = f"; at work on {', '.join(running.values())}" if running else ""
                seconds = round(time.monotonic() - start)
                print(f"{library} is proved, {len(proved)} of {count}, after {seconds} seconds{beside}", flush=True)
    return None


if __name__ == "__main__":
    if len(sys.argv) != 2:
        sys.exit(__doc__)
    sys.exit(main(sys.argv[1]))

#!/usr/bin/env python3
"""Draws docs/speed.svg: bars of the speeds in the first table of docs/BENCHMARKS.md, of a file by the program, for both
levels of the processor, and by each peer as it was beside the higher level. A browser shows it light or dark.
usage: bench/picture.py          prints the picture; tests/documents/documents.py compares it with the file
       bench/picture.py write    writes docs/speed.svg
"""

import os
import re
import sys

DOCS = os.path.join(os.path.dirname(os.path.dirname(os.path.realpath(__file__))), "docs")
ROW = re.compile(r"\| (\S+) \| (\S+) \| ([\d,]+) MB/s \| [\d,]+ MB/s \| [\d.]+ \| ([\d,]+) MB/s \| ([\d,]+) MB/s \| ")
HEAD = "| what | peer | x86-64-v2 | peer | times as fast | x86-64-v3 | peer | times as fast |"
WIDTH, TOP, LEFT, LONGEST, STEP, THICK, GAP = 760, 70, 260, 400, 21, 15, 16
STYLE = """\
<style>
text { font: 14px system-ui, sans-serif; fill: #1f2328 }
.head { font-weight: 600 }
.small { font-size: 12.5px; fill: #59636e }
.page { fill: #ffffff }
.ours { fill: #0969da }
.lower { fill: #74b3f5 }
.peer { fill: #afb8c1 }
@media (prefers-color-scheme: dark) {
text { fill: #e6edf3 }
.small { fill: #9198a1 }
.page { fill: #0d1117 }
.ours { fill: #4493f8 }
.lower { fill: #1f5fae }
.peer { fill: #59636e }
}
</style>"""


def hashes(page):
    """The bars of each hash, in the page's order: a class of the style, a name, and MB/s."""
    table = page.split(HEAD)[1].split("\n\n")[0]
    bars = {}
    for name, peer, lower, ours, theirs in ROW.findall(table):
        bars.setdefault(name, [("ours", "sums (x86-64-v3)", ours), ("lower", "sums (x86-64-v2)", lower)])
        bars[name].append(("peer", peer, theirs))
    return bars


def number(speed):
    return int(speed.replace(",", ""))


def text(x, y, words, kind="", anchor="start"):
    kind = f' class="{kind}"' if kind else ""
    anchor = f' text-anchor="{anchor}"' if anchor != "start" else ""
    return f'<text x="{x}" y="{y}"{kind}{anchor}>{words}</text>'


def drawn(bars):
    """The bars below each other, and the height that they take."""
    most = max(number(speed) for group in bars.values() for _, _, speed in group)
    y = TOP
    lines = []
    for name, group in bars.items():
        lines.append(text(20, y + 12, name, "head"))
        for kind, whose, speed in group:
            length = round(LONGEST * number(speed) / most)
            lines.append(text(LEFT - 10, y + 12, whose, "", "end"))
            lines.append(f'<rect class="{kind}" x="{LEFT}" y="{y}" width="{length}" height="{THICK}" rx="2"/>')
            lines.append(text(LEFT + length + 8, y + 12, speed, "head" if kind == "ours" else ""))
            y += STEP
        y += GAP
    return lines, y


def picture(page):
    bars = hashes(page)
    lines, height = drawn(bars)
    told = ";\n".join(f"{name}: " + ", ".join(f"{whose} {speed}" for _, whose, speed in group)
                      for name, group in bars.items())
    return "\n".join([
        f'<svg xmlns="http://www.w3.org/2000/svg" width="{WIDTH}" height="{height}" viewBox="0 0 {WIDTH} {height}"',
        'role="img" aria-labelledby="title told">',
        '<title id="title">Speed of sums and other programs on one core</title>',
        f'<desc id="told">MB/s.\n{told}.</desc>',
        STYLE,
        f'<rect class="page" width="{WIDTH}" height="{height}" rx="6"/>',
        text(20, 30, "MB/s on one core, of a file of 256 MiB", "head"),
        text(20, 50, "measured as docs/BENCHMARKS.md says; longer is faster", "small"),
        *lines, "</svg>", ""])


def main():
    if sys.argv[1:] not in ([], ["write"]):
        sys.exit(__doc__[__doc__.index("usage:"):].strip())
    with open(os.path.join(DOCS, "BENCHMARKS.md"), encoding="utf-8") as file:
        made = picture(file.read())
    if sys.argv[1:]:
        with open(os.path.join(DOCS, "speed.svg"), "w", encoding="utf-8") as file:
            file.write(made)
    else:
        sys.stdout.write(made)


if __name__ == "__main__":
    main()

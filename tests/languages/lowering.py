#!/usr/bin/env python3
"""Tries tools/lower.py: each load, store, copy and fill does in the lowered module what it does in the first one, on
random places, and whatever the script does not know is refused. What is not installed is told at the end.
usage: tests/languages/lowering.py
"""

import os
import random
import shutil
import subprocess
import sys
import tempfile

sys.path.append(os.path.join(os.path.dirname(os.path.realpath(__file__)), ".."))

import harness

TOOLS = os.path.join(os.path.dirname(harness.HERE), "tools")
sys.path.insert(0, TOOLS)
sys.dont_write_bytecode = True
import lower  # noqa: E402

WORD, WIDE, SINGLE, DOUBLE, VECTOR = 0x7F, 0x7E, 0x7D, 0x7C, 0x7B
# What is behind an instruction: the places are random below this, and what was loaded is kept there.
PLACES, KEPT = 4096, 8192
RESULT_STORE = {WORD: b"\x36", WIDE: b"\x37", SINGLE: b"\x38", DOUBLE: b"\x39", VECTOR: b"\xfd\x0b"}
# A value of each type, of the second parameter.
VALUE = {WORD: b"\xa7", WIDE: b"", SINGLE: b"\xb4", DOUBLE: b"\xb9", VECTOR: b"\xfd\x12"}
SCALAR_LOADS = [WORD, WIDE, SINGLE, DOUBLE] + [WORD] * 4 + [WIDE] * 6
SCALAR_STORES = [WORD, WIDE, SINGLE, DOUBLE, WORD, WORD, WIDE, WIDE, WIDE]
OFFSETS = (0, 3, 200)


# ---- modules


def constant(value):
    """i64.const of a number that is not negative."""
    return b"\x42" + lower.signed_number(value)


def section(kind, parts):
    return bytes([kind]) + lower.sized(lower.number(len(parts)) + b"".join(parts))


def get(place):
    return b"\x20" + lower.number(place)


def load(code, kind, offset, lane=b""):
    """Keeps what is loaded from the first parameter."""
    before = get(1) + VALUE[VECTOR] if lane else b""
    return constant(KEPT) + get(0) + before + code + b"\0" + lower.number(offset) + lane + RESULT_STORE[kind] + b"\0\0"


def store(code, kind, offset, lane=b""):
    """Stores a value of the second parameter where the first one says."""
    return get(0) + get(1) + VALUE[kind] + code + b"\0" + lower.number(offset) + lane


def instructions():
    """A body for each instruction that has an address."""
    for offset in OFFSETS:
        for at, kind in enumerate(SCALAR_LOADS):
            yield load(bytes([0x28 + at]), kind, offset)
        for at, kind in enumerate(SCALAR_STORES):
            yield store(bytes([0x36 + at]), kind, offset)
        for code in (*range(0, 11), 92, 93):
            yield load(b"\xfd" + lower.number(code), VECTOR, offset)
        yield store(b"\xfd\x0b", VECTOR, offset)
        for code in range(84, 88):
            yield load(b"\xfd" + lower.number(code), VECTOR, offset, lane=b"\1")
        for code in range(88, 92):
            yield store(b"\xfd" + lower.number(code), VECTOR, offset, lane=b"\1")
    yield get(0) + constant(700) + constant(300) + b"\xfc\x0a\0\0"
    yield constant(700) + get(0) + constant(300) + b"\xfc\x0a\0\0"
    yield get(0) + get(1) + b"\xa7" + constant(77) + b"\xfc\x0b\0"
    # two fills in a row, and a store inside of a block and behind a branch
    yield (get(0) + get(1) + b"\xa7" + constant(7) + b"\xfc\x0b\0") * 2
    yield b"\x02\x40" + get(1) + b"\x50\x0d\0" + store(b"\x37", WIDE, 0) + b"\x0b"


def module(bodies=(b"",), memory=b"\x04\x01", more=(), data=(), locals_=b"\0"):
    """A module of functions of two addresses, which it exports by their numbers, with a memory that it exports."""
    names = [str(at).encode() for at in range(len(bodies))]
    exports = [lower.sized(name) + b"\0" + lower.number(at) for at, name in enumerate(names)]
    sections = {
        1: [b"\x60\x02\x7e\x7e\0"],
        3: [b"\0" for _ in bodies],
        5: [memory],
        7: [*exports, lower.sized(b"memory") + b"\x02\0"],
        10: [lower.sized(locals_ + body + b"\x0b") for body in bodies],
        11: list(data),
    }
    for kind, parts in more:
        sections[kind] = parts
    return lower.MAGIC + b"".join(section(kind, sections[kind]) for kind in sorted(sections) if sections[kind])


DATA = [b"\0" + constant(70) + b"\x0b" + lower.sized(bytes(range(90)))]
GOOD = module(list(instructions()), data=DATA)


# ---- what is refused


REFUSED = {
    "nothing": b"",
    "a text": b"hello",
    "another version": b"\0asm\2\0\0\0",
    "an import": module(more=[(2, [b"\1m\1f\0\0"])]),
    "a table": module(more=[(4, [b"\x70\0\1"])]),
    "elements": module(more=[(9, [b"\0\x41\0\x0b\0"])]),
    "a start": module() + b"\x08\1\0",
    "a section that nobody knows": module() + b"\x0e\1\0",
    "a tag": module() + b"\x0d\3\1\0\0",
    "a memory of 32 bits": module(memory=b"\0\1"),
    "a shared memory": module(memory=b"\7\1\1"),
    "a memory of more than 4 GiB": module(memory=b"\4" + lower.number(65537)),
    "several memories": module(more=[(5, [b"\4\1", b"\4\1"])]),
    "no type of a function": module(more=[(1, [b"\x5f\0"])]),
    "a reference as a parameter": module(more=[(1, [b"\x60\2\x70\x7e\0"])]),
    "a local that is a reference": module(locals_=b"\1\1\x70"),
    "a number of a type that is not there": module(more=[(3, [b"\1"])]),
    "more functions than bodies": module(more=[(3, [b"\0", b"\0"])]),
    "memory.size": module([b"\x3f\0\x1a"]),
    "memory.grow": module([get(0) + b"\x40\0\x1a"]),
    "call_indirect": module([b"\x41\0\x11\0\0"]),
    "a block with parameters": module([b"\x02\0\x0b"]),
    "a tail call": module([b"\x12\0"]),
    "an exception": module([b"\x06\x40\x0b"]),
    "select with a type": module([b"\x41\0\x41\0\x41\0\x1c\1\x7f\x1a"]),
    "a reference": module([b"\xd0\x70\x1a"]),
    "table.size": module([b"\xfc\x10\0\x1a"]),
    "memory.init": module([b"\x42\0\x41\0\x41\0\xfc\x08\0\0"]),
    "an atomic load": module([get(0) + b"\xfe\x10\2\0\x1a"]),
    "a relaxed vector": module([get(0) + b"\xfd\x12" + get(0) + b"\xfd\x12\xfd\x80\2\x1a"]),
    "a load of another memory": module([get(0) + b"\x28\x42\1\0\x1a"]),
    "a copy to another memory": module([get(0) * 3 + b"\xfc\x0a\1\0"]),
    "an offset above 4 GiB": module([get(0) + b"\x28\0" + lower.number(2**32) + b"\x1a"]),
    "a passive segment": module(data=[b"\1\1x"]),
    "a segment of another memory": module(data=[b"\2\1" + constant(0) + b"\x0b\1x"]),
    "a segment at a negative place": module(data=[b"\0\x42\x7f\x0b\1x"]),
    "a segment whose place is a global": module(data=[b"\0\x23\0\x0b\1x"]),
    "a segment behind 2 GiB": module(data=[b"\0" + constant(2**31) + b"\x0b\1x"]),
    "a number without an end": module([b"\x41" + b"\x80" * 11]),
    "a section that is longer": module()[:-1] + b"\x0b\x0b",
}


def refused(data):
    """Whether it is refused, in words."""
    try:
        lower.Module(data).lowered()
    except lower.Unknown:
        return True
    return False


def lowers_or_refuses(data):
    """Whether nothing but a refusal is thrown."""
    try:
        refused(data)
    except Exception as fault:  # pylint: disable=broad-except
        return f"{type(fault).__name__}: {fault}"
    return None


def try_refusals():
    for name, data in REFUSED.items():
        harness.judge(f"refused: {name}", refused(data))
    harness.judge("a module that is known", not refused(GOOD))
    whole = [at for at in range(len(GOOD)) if not refused(GOOD[:at])]
    # a module may end behind any of its sections
    harness.judge("each beginning of a module", len(whole) <= 6, *whole)
    draw = random.Random(1)
    for _ in range(3000):
        data = bytearray(GOOD)
        for _ in range(draw.randrange(1, 4)):
            data[draw.randrange(len(data))] = draw.randrange(256)
        if fault := lowers_or_refuses(bytes(data)):
            harness.judge("a module with wrong bytes", False, fault, bytes(data).hex())
            return
    harness.judge("3,000 modules with wrong bytes", True)


def try_command(work):
    """The script itself: a refusal has status 1, one line, and leaves no file."""
    wrong, made = os.path.join(work, "wrong"), os.path.join(work, "made")
    with open(wrong, "wb") as file:
        file.write(REFUSED["a table"])
    run = subprocess.run([os.path.join(TOOLS, "lower.py"), wrong, made], capture_output=True, text=True, check=False)
    told = (run.returncode, run.stderr, os.path.exists(made))
    wanted = (1, f"tools/lower.py: {wrong}: not known: the section 4\n", False)
    harness.same("what the script says", told, wanted)


# ---- what the lowered module does

BESIDE = """
const fs = require('fs');
const make = (file) => new WebAssembly.Instance(new WebAssembly.Module(fs.readFileSync(file))).exports;
const [first, lowered] = process.argv.slice(1).map(make);
const endOf = (call) => {
    try { call(); } catch (error) { return error.constructor.name; }
    return '';
};
let state = 12345;
const next = (bound) => { state = (Math.imul(state, 1103515245) + 12345) >>> 0; return (state >>> 8) % bound; };
const names = Object.keys(first).filter((name) => name !== 'memory');
const bytes = [first, lowered].map((it) => new Uint8Array(it.memory.buffer));
let differences = bytes[0].length === bytes[1].length && bytes[0].every((byte, at) => byte === bytes[1][at]) ? 0 : 1;
for (let round = 0; round < 20; round++) for (const name of names) {
    for (let at = 0; at < 9000; at += 1 + next(5)) bytes[0][at] = bytes[1][at] = next(256);
    const words = [BigInt(next(PLACES)), BigInt(next(2 ** 24)) << BigInt(next(40))];
    for (const it of [first, lowered]) it[name](...words);
    if (Buffer.compare(bytes[0], bytes[1])) { differences++; console.log(`function ${name} of ${words}`); }
}
// both end at the end of the memory, and behind it
for (const place of [65536n, 65535n, 2n ** 32n - 1n, 2n ** 64n - 1n]) for (const name of names) {
    const ends = [first, lowered].map((it) => endOf(() => it[name](place, 1n)));
    if (ends[0] !== ends[1]) { differences++; console.log(`function ${name} at ${place}: ${ends}`); }
}
console.log(`${names.length} functions, ${differences} differences`);
""".replace("PLACES", str(PLACES))


def try_functions(work):
    if not shutil.which("node"):
        print("node is not installed: the lowered functions were not run")
        return
    files = [os.path.join(work, name) for name in ("first.wasm", "lowered.wasm")]
    for path, data in zip(files, (GOOD, lower.Module(GOOD).lowered())):
        with open(path, "wb") as file:
            file.write(data)
    # later versions have no such flag, since they need none
    for flags in (["--experimental-wasm-memory64"], []):
        run = subprocess.run(["node", *flags, "-e", BESIDE, *files], capture_output=True, text=True, check=False)
        if run.returncode == 0:
            break
    bodies = len(list(instructions()))
    harness.judge("each function, beside that of the first module",
        run.stdout == f"{bodies} functions, 0 differences\n", run.stdout[-2000:], run.stderr[-2000:])


def main():
    try_refusals()
    with tempfile.TemporaryDirectory() as work:
        try_command(work)
        try_functions(work)
    harness.finish()


if __name__ == "__main__":
    main()

#!/usr/bin/env python3
"""Compares with the header of C: the calls and states that the crate of Rust declares, the calls of the library itself
with the order of their arguments and what their clauses name, the refusals of the packages of Rust and Python, the
sizes that the states and a line of a list have for the C compiler and in the sources of the crates, and the fields of
such a line. The packages of Python and Go compile the header itself.
usage: tests/library/declarations.py HEADER SOURCES CRATES    with sums_hash on the path; SOURCES is src/ of the crate of Rust
"""

import glob
import os
import re
import subprocess
import sys
import tempfile

import sums_hash

sys.path.append(os.path.join(os.path.dirname(os.path.realpath(__file__)), ".."))

import harness
from harness import same

KINDS_OF_RUST = {
    "uint8_t": "u8", "uint32_t": "u32", "uint64_t": "u64", "size_t": "usize", "sums_list_entry": "ListLine",
}
# The words in a call's clauses that stand for a word in its name.
WORDS_OF_CLAUSES = {
    "sha256": r"sha256|(StateHolds|IsMac)256",
    "sha512": r"sha512|(StateHolds|IsMac)512",
    "blake2b": r"blake2b(_512)?|(StateHolds|IsMac)2b",
    "blake2s": r"blake2s(_256)?|(StateHolds|IsMac)2s",
    "blake3": r"(hash|keyed|derive)_root|StateHolds",
    "hmac": r"hmac|IsMac\w+",
    "extract": r"extract",
    "expand": r"expand",
    "salted": r"salted",
    "keyed": r"keyed_(root|parameters)",
    "derive": r"derive_(root|parameters)",
    "pieces": r"digests",
    "read": r"ReadsPiece",
    "end": r"EndsLine",
    "line": r"line_text|WritesLine",
    "report": r"verdict_text|WritesReport",
}


def words(text):
    return " ".join(text.split())


def of_header(path):
    """For each call the type of its answer, or none, and of each argument whether it is constant, its type, whether it
    is memory, its name, and how many bytes it has where that is fixed."""
    with open(path) as file:
        text = re.sub(r"/\*.*?\*/", "", file.read(), flags=re.S)
    argument = re.compile(r"(const )?(\w+) (\*?)(\w+)(?:\[(\d+)\])?")
    return {
        name: (
            KINDS_OF_RUST.get(answer, ""), [argument.fullmatch(words(each)).groups() for each in arguments.split(",")]
        )
        for answer, name, arguments in re.findall(r"^(\w+) (sums_\w+)\(([^;]*)\)(?: SUMS_CHECKED)?;", text, flags=re.M)
    }


def kind_in_rust(kind):
    """A type of the header as Rust names it."""
    if kind.endswith("_state"):
        return "".join(part.capitalize() for part in kind.split("_")[1:])
    return KINDS_OF_RUST[kind]


def in_rust(argument):
    """An argument as native.rs has it."""
    constant, kind, pointer, name, bytes_of = argument
    kind = kind_in_rust(kind)
    kind = f"[{kind}; {bytes_of}]" if bytes_of else kind
    is_memory = pointer or bytes_of
    return f"{name}: " + (f"*{'const' if constant else 'mut'} " if is_memory else "") + kind


def in_library(arguments):
    """Arguments as the library has them: memory and the length behind it are one slice."""
    left = list(arguments)
    while left:
        constant, kind, pointer, name, bytes_of = left.pop(0)
        kind = kind_in_rust(kind)
        if bytes_of:
            kind = f"[{kind}; {bytes_of}]"
        elif kind == "u8":
            kind = "[u8]"
            if left and left[0][1:4] == ("size_t", "", f"{name}_len"):
                left.pop(0)
        lent = f"&{'' if constant else 'mut '}" if pointer or bytes_of else ""
        yield f"{name}: {lent}{kind}"


def compare_calls(where, text, header, spelled):
    """The calls that a text in Rust or Rattle declares, with their arguments in their order, as `spelled` writes them."""
    found = re.findall(r"fn (sums_\w+)\(([^)]*)\)(?: -> (u32|usize))?", text)
    same(f"calls in {where}", sorted(name for name, _, _ in found), sorted(header))
    for name, arguments, answer in found:
        got = [each.strip() for each in arguments.split(",") if each.strip()]
        answers, wanted = header.get(name, (None, []))
        same(f"{name} in {where}", (answer, got), (answers, list(spelled(wanted))))


def words_named(name):
    """The words that the clauses of a call of this name have to stand for: HKDF is both of its steps."""
    parts, steps = set(name.split("_")), {"extract", "expand"}
    if "hkdf" in parts and not parts & steps:
        parts |= steps
    return sorted(parts & set(WORDS_OF_CLAUSES))


def words_of(clauses):
    """The words that clauses stand for."""
    found = set(re.findall(r"\w+", clauses))
    return sorted(word for word, form in WORDS_OF_CLAUSES.items() if any(re.fullmatch(form, each) for each in found))


def compare_library(header, crates):
    texts = []
    for path in glob.glob(f"{crates}/hash_c/src/*.rt"):
        with open(path) as file:
            texts.append(file.read())
    text = "\n".join(texts)
    compare_calls("the library", text, header, in_library)
    calls = re.findall(r"fn (sums_\w+)\([^)]*\)(?: -> \w+)?\n((?:    .*\n)+)\{", text)
    same("calls with clauses", sorted(name for name, _ in calls), sorted(header))
    for name, clauses in calls:
        same(f"what the clauses of {name} name", words_of(clauses), words_named(name))


def compare_rust(header, sizes, path):
    with open(path) as file:
        text = file.read()
    compare_calls("Rust", text, header, lambda arguments: map(in_rust, arguments))
    wanted = {kind_in_rust(f"sums_{name}"): size for name, size in sizes.items() if name.endswith("_state")}
    same("states in Rust", {name: int(size) for name, size in re.findall(r"(\w+State): (\d+),", text)}, wanted)


def refusals(path):
    """The number of each refusal, with its name as an enum has it and what the header says of it."""
    with open(path) as file:
        statuses = re.search(r"^ *SUMS_OK = 0,.*?^};", file.read(), flags=re.M | re.S)[0]
    found = re.findall(r"^ *SUMS_(\w+) = (\d+),? +/\* (.*) \*/$", statuses, flags=re.M)
    return {int(number): (name.title().replace("_", ""), text) for name, number, text in found if number != "0"}


def compare_refusals(header, path):
    same("refusals in the header", sorted(header), list(range(1, 11)))
    with open(path) as file:
        found = re.findall(r"^ *(\d+) => Err\(Refusal::(\w+)\)", file.read(), flags=re.M)
    # the states of the crate are always begun
    wanted = {number: name for number, (name, _) in header.items() if name != "NotBegun"}
    same("refusals in Rust", {int(number): name for number, name in found}, wanted)
    texts = {number: str(sums_hash.Refused(number)) for number in header}
    # one of the two may say more: the header's of a state, and Python's of a name
    lengths = {number: min(len(text), len(texts[number])) for number, (_, text) in header.items()}
    wanted = {number: text[: lengths[number]] for number, (_, text) in header.items()}
    same("refusals in Python", {number: text[: lengths[number]] for number, text in texts.items()}, wanted)


def sizes_in_header(path):
    """The size of each state, and of a line of a list, as the header tells it."""
    with open(path) as file:
        found = re.findall(r"sums_(\w+); /\* ([0-9,]+) bytes \*/", file.read())
    return {name: int(size.replace(",", "")) for name, size in found}


def sizes_in_c(header, names):
    """The size of each of them by the C compiler."""
    lines = "".join(f'printf("{name} %zu\\n", sizeof(sums_{name}));' for name in names)
    with tempfile.TemporaryDirectory() as work:
        source, program = os.path.join(work, "sizes.c"), os.path.join(work, "sizes")
        with open(source, "w") as file:
            file.write(f'#include <stdio.h>\n#include "{os.path.abspath(header)}"\nint main(void) {{ {lines} }}\n')
        subprocess.run(["cc", "-o", program, source], check=True)
        out = subprocess.run([program], check=True, capture_output=True, text=True).stdout
    return {name: int(size) for name, size in (line.split() for line in out.splitlines())}


def structs_in(text):
    """The fields of each #[repr(C)] struct of a text in Rust or Rattle, as their names and types."""
    text = re.sub(r"//[^\n]*", "", text)
    found = re.findall(r"#\[repr\(C\)\]\s*(?:#\[[^\]]*\]\s*)*pub struct (\w+) *\{([^}]*)\}", text)
    each = re.compile(r"(\w+): ([^,\n]+)")
    return {name: each.findall(fields) for name, fields in found}


def structs_of(folder):
    """Those of the sources of all crates."""
    structs = {}
    for path in glob.glob(f"{folder}/*/src/**/*.rt", recursive=True):
        with open(path) as file:
            structs.update(structs_in(file.read()))
    return structs


def sizes_in_crates(structs, names):
    """The size of each struct of the crates' sources, by the layout of C. Blake2bState is blake2b_state."""
    plain = {"u8": (1, 1), "u32": (4, 4), "u64": (8, 8), "usize": (8, 8)}

    def layout(kind):
        found = re.fullmatch(r"\[(.*); *(\d+)\]", kind)
        if found:
            size, align = layout(found[1])
            return size * int(found[2]), align
        return plain.get(kind) or of_fields(structs[kind])

    def of_fields(fields):
        end, most = 0, 1
        for _, kind in fields:
            size, align = layout(kind)
            end, most = (end + align - 1) // align * align + size, max(most, align)
        return (end + most - 1) // most * most, most

    sizes = {name: of_fields(fields)[0] for name, fields in structs.items()}
    return {name: sizes.get(kind_in_rust(f"sums_{name}")) for name in names}


def compare_sizes(header, crates):
    told = sizes_in_header(header)
    same("states and lines in the header", len(told), 11)
    same("sizes in C", sizes_in_c(header, told), told)
    same("sizes in the crates", sizes_in_crates(structs_of(crates), told), told)


def compare_lines(header, crates, native):
    """The fields of a line of a list, which callers read, in the header, the library and the crate of Rust."""
    with open(header) as file:
        text = re.sub(r"/\*.*?\*/", "", file.read(), flags=re.S)
    fields = re.search(r"typedef struct \{([^}]*)\} sums_list_entry;", text)[1]
    wanted = []
    for kind, names in re.findall(r"(\w+) ([^;]*);", fields):
        for name, count in re.findall(r"(\w+)(?:\[(\d+)\])?", names):
            kind_of_one = KINDS_OF_RUST[kind]
            wanted.append((name, f"[{kind_of_one}; {count}]" if count else kind_of_one))
    same("a line in the library", structs_of(crates)["ListLine"], wanted)
    with open(native) as file:
        same("a line in Rust", structs_in(file.read())["ListLine"], wanted)


def main():
    header_path, sources, crates = harness.arguments(3)
    header = of_header(header_path)
    same("calls in the header", len(header) > 50, True)
    compare_library(header, crates)
    compare_rust(header, sizes_in_header(header_path), f"{sources}/native.rs")
    compare_refusals(refusals(header_path), f"{sources}/refusal.rs")
    compare_sizes(header_path, crates)
    compare_lines(header_path, crates, f"{sources}/native.rs")
    harness.finish()


main()

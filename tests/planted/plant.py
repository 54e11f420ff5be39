#!/usr/bin/env python3
r"""Plants wrong bodies in what no proof covers, one at a time and in a copy of the tree, and runs on each the tests of
its layer, up to the first case that is wrong. A row of planted/LAYER.tsv is a body: what it means for a user, the file,
the text that stands there once, the text in its place, and the reason why no test refuses it, or `-`, for one that has
to be refused. In a text `\n`, `\t` and `\\` stand for bytes. A body that does not compile is wrong. A body of the
layer `program` is built anew, proved, over what the libraries below have in out/; a proof may refuse it too. No part of
tools/test.
usage: tests/planted/plant.py LAYER BUILT [WORDS]    the bodies of a layer, or those whose meaning has these words; BUILT has the
                                           program sums and the C library libhash_c.a, for the layer `program` memory_tests
"""

import os
import re
import shutil
import subprocess
import sys
import tempfile

sys.path.append(os.path.join(os.path.dirname(os.path.realpath(__file__)), ".."))

import harness
import tables

TOP = os.path.dirname(harness.HERE)
LEFT = [".git", "bin", "lib", "target", "__pycache__"]
PYTHON = "cc -std=gnu11 -O2 -Wall -Wextra -Wno-missing-field-initializers -Werror -fsyntax-only -Ibindings/c " \
    "-I$(python3 -c 'import sysconfig; print(sysconfig.get_path(\"include\"))') bindings/python/native/*.c && " \
    "python3 -m py_compile bindings/python/sums_hash/*.py"
# the tests of the package alone, over an extension that is made where it stands
PACKAGE = ". tools/installed.sh && rm -rf $OUT && library $LIB $OUT && cd bindings/python && cc -std=gnu11 -O2 -fPIC " \
    "-fvisibility=hidden -I$OUT -I$(python3 -c 'import sysconfig; print(sysconfig.get_path(\"include\"))') -shared native/*.c " \
    "$OUT/libsums_hash.a -Wl,--exclude-libs,ALL -o sums_hash/_native.abi3.so && " \
    "PYTHONPATH=. python3 -m unittest discover -f tests; done=$?; rm -f sums_hash/_native.abi3.so; exit $done"
# of each layer a command that compiles it, and those that test it, the quickest first
LAYERS = {
    "python": (PYTHON, PACKAGE, "LANGUAGES=python tests/library/library $LIB", "LANGUAGES=python tests/languages/bindings $LIB"),
    "go": (". tools/installed.sh && library $LIB $OUT && cd bindings/go && PKG_CONFIG_PATH=$OUT go vet -tags sums_system .",
           "LANGUAGES=go tests/languages/bindings $LIB"),
    "rust": ("rustc --edition 2021 -D warnings --crate-type lib --cfg 'feature=\"std\"' --emit metadata "
             "-o $OUT bindings/rust/src/lib.rs",
             "LANGUAGES='rust python' tests/library/library $LIB", "LANGUAGES=rust tests/languages/bindings $LIB"),
    "parallel": ("sh -n scripts/sums-parallel && python3 -m py_compile scripts/sums-shares",
                 "tests/program/parallel.py $SUMS", "tests/program/parallel_edges.py $SUMS"),
    "launcher": ("cc -std=gnu11 -O2 -Wall -Wextra -Werror -o $OUT packaging/launcher.c", "tests/packages/release $SUMS"),
    "fat": ("sh -n packaging/fat", "tests/packages/release $SUMS", "LANGUAGES=rust tests/languages/bindings $LIB"),
    "install": ("for file in tools/install tools/uninstall tools/*.sh; do sh -n $file || exit; done",
                "tests/packages/installation $SUMS", "tests/packages/release $SUMS"),
    # its usage has the name by which it is called
    "program": ("true", "cd crates/sums && rt run -- --version && mkdir -p $OUT && cp out/sums $OUT",
                *(f"tests/program/{script} $OUT/sums" for script in (
                    "rows.py", "streams.py", "progress", "clock.py", "calls.py", "lines", "growths.py"))),
}


def bodies(layer):
    """The rows of a layer."""
    for place, cells in tables.table(f"../planted/{layer}.tsv"):
        old, new = (re.sub(r"\\([nt\\])", lambda found: {"n": "\n", "t": "\t", "\\": "\\"}[found[1]],
                           cells[name].encode("latin-1").decode()) for name in ("old", "new"))
        yield place, cells["meaning"].encode("latin-1").decode(), cells["file"], old, new, cells["reason"]


def ends_well(command, tree, settings, log):
    """Whether a command ends with status 0 in the tree."""
    done = subprocess.run(["sh", "-c", command], cwd=tree, env={**os.environ, **settings}, stdin=subprocess.DEVNULL,
                          stdout=log, stderr=log, check=False)
    return done.returncode == 0


def first_wrong(log):
    """What was said of the first case that is wrong."""
    log.seek(0)
    lines = log.read().decode(errors="replace").splitlines() or ["nothing"]
    return next((line for line in lines if line.endswith(": wrong")), lines[-1])


def tried(tree, settings, layer, path, old, new):
    """What becomes of a body: `refused`, `stands` or `no body`, and what was said of it."""
    compiles, *tests = LAYERS[layer]
    place = os.path.join(tree, path)
    with open(os.path.join(TOP, path), encoding="utf-8") as file:
        text = file.read()
    if text.count(old) != 1 or old == new:
        return "no body", f"{text.count(old)} times in {path}"
    with open(place, "w", encoding="utf-8") as file:
        file.write(text.replace(old, new))
    try:
        with tempfile.TemporaryFile() as log:
            if not ends_well(compiles, tree, settings, log):
                return "no body", first_wrong(log)
            for test in tests:
                if not ends_well(test, tree, settings, log):
                    return "refused", first_wrong(log)
        return "stands", "by all its tests"
    finally:
        shutil.copy(os.path.join(TOP, path), place)


def main():
    layer, built, *words = harness.arguments(2)
    built = os.path.abspath(built)
    with tempfile.TemporaryDirectory(prefix="planted.") as work:
        tree = os.path.join(work, "tree")
        left = LEFT if layer == "program" else [*LEFT, "out"]
        shutil.copytree(TOP, tree, symlinks=True, ignore=shutil.ignore_patterns(*left))
        kept = [("libhash_c.a", "hash_c")] + [("memory_tests", "memory_tests")] * (layer == "program")
        for name, crate in kept:
            os.makedirs(os.path.join(tree, f"crates/{crate}/out"), exist_ok=True)
            shutil.copy(os.path.join(built, name), os.path.join(tree, f"crates/{crate}/out"))
        settings = {"STOPS": "1", "SUMS": os.path.join(built, "sums"), "OUT": os.path.join(work, "made"),
                    "LIB": os.path.join(built, "libhash_c.a"), "PYTHONDONTWRITEBYTECODE": "1"}
        for place, meaning, path, old, new, reason in bodies(layer):
            if words and " ".join(words) not in meaning:
                continue
            how, said = tried(tree, settings, layer, path, old, new)
            is_right = how == "refused" or how == "stands" and reason != "-"
            print(f"{how}: {meaning} ({said})", flush=True)
            harness.judge(place, is_right, meaning)
    harness.finish()


main()

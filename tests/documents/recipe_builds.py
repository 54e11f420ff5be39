"""The recipes that take long: builds, packages and measurements, in a clone of what is committed."""

import os
import re
import subprocess

from recipe_runner import HERE, Wrong, same, write

REGISTRY = "/usr/share/cargo/registry"


def clone(bench):
    """The clone of what is committed that builds and measurements are run in."""
    path = os.path.join(bench.work, "clone")
    if not os.path.isdir(path):
        subprocess.run(["git", "clone", "--quiet", HERE, path], check=True)
    return path


def works(bench, page, name, folder, text=None, **variables):
    """A recipe each command of which ends with status 0, whatever it prints."""

    def case():
        got = bench.run("set -e\n" + (text or bench.text(page, name)), folder, "bash", seconds=7200, **variables)
        if got[0]:
            raise Wrong(f"status {got[0]}: {(got[1] + got[2]).decode(errors='replace')[-1500:]}")
        print(got[1].decode(errors="replace"), end="")

    bench.judge(f"{page} {name}", case)


def in_clone(page, name):
    return lambda bench: works(bench, page, name, clone(bench))


def languages(bench):
    """The examples of the languages. Cargo takes the crates of Debian if they are installed, and else the network."""
    home = os.path.join(bench.work, "cargo")
    os.makedirs(home, exist_ok=True)
    if os.path.isdir(REGISTRY):
        write(home, "config.toml", '[source.crates-io]\nreplace-with = "debian"\n'
              f'[source.debian]\ndirectory = "{REGISTRY}"\n[net]\noffline = true\n')
    works(bench, "docs/CONTRIBUTING.md", "languages", clone(bench), CARGO_HOME=home)


def readme_try(bench):
    """The session of the program that is not proved; what the toolchain says is its own."""
    command, _, printed = bench.text("README.md", "try").removeprefix("$ ").partition("\n")
    bench.judge("README.md try", lambda: same(bench.run(command, clone(bench), "bash")[:2], (0, printed.encode()), "output"))


def source_build(bench):
    """A build that is installed, here and in another folder, and removed."""
    if not bench.there("sudo", "nothing was built and installed"):
        return
    page = "docs/CONTRIBUTING.md"
    works(bench, page, "build", clone(bench))
    works(bench, page, "build, installed", bench.folder(), "printf abc | /usr/local/bin/sums hash -a blake2s -")
    works(bench, page, "staged", clone(bench))
    works(bench, page, "build, undone", clone(bench), "sudo tools/uninstall && rm -r /tmp/staged")


def packages():
    return os.path.join(HERE, "dist")


def readme_package(bench):
    """The packages of this commit, installed and taken away again."""
    if not bench.there("sudo", "no package was installed"):
        return
    if not os.path.isdir(packages()):
        bench.missing("there is no folder dist: no package was installed")
        return
    works(bench, "README.md", "package", packages())
    script = os.path.join(HERE, "bindings/python/examples/digests.py")
    works(bench, "README.md", "package, used", bench.folder(),
          f"printf abc | /usr/bin/sums hash -a blake2s - && {packages()}/env/bin/python {script}")
    works(bench, "README.md", "package, taken away", packages(), "sudo apt-get remove -qq -y sums && rm -r env sums-*-x86_64")


def second_builder(bench):
    """The packages of a second builder, who takes the tag, are those in dist."""
    if not os.path.isdir(packages()):
        bench.missing("there is no folder dist: it was not compared with a second builder's")
        return
    origin = os.path.join(bench.folder(), "origin")
    subprocess.run(["git", "clone", "--quiet", "--bare", HERE, origin], check=True)
    page = "docs/CONTRIBUTING.md"
    text = bench.text(page, "second")
    tag = re.search(r"--branch (\S+) URL ", text).group(1)
    subprocess.run(["git", "-C", origin, "tag", "--force", tag], check=True)
    text = text.replace(" URL ", f" {origin} ").replace("/path/to/the/first/", packages() + "/")
    works(bench, page, "second", bench.folder(), text)


LONG = {
    "README.md": {"try": readme_try, "package": readme_package},
    "docs/CONTRIBUTING.md": {"build": source_build, "staged": source_build, "second": second_builder,
                             "languages": languages, **{name: in_clone("docs/CONTRIBUTING.md", name) for name in ["minute", "crate"]}},
    "docs/BENCHMARKS.md": {name: in_clone("docs/BENCHMARKS.md", name)
                           for name in ["speed", "speed-parts", "speed-hashers", "speed-library", "speed-provider",
                                        "speed-languages", "speed-lists", "speed-javascript"]},
}

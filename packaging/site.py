#!/usr/bin/env python3
"""Makes a folder for any web server of plain files out of the packages of a release: a page that installs them, the
documents, and what apt, pip, Cargo and Go take packages from. tools/package site calls it.
usage: packaging/site.py PACKAGES OUT [EARLIER]..     PACKAGES is a folder that tools/package has made, and each EARLIER
                                               one of a release before it; OUT is a folder that is not there yet
SITE is the address that OUT will have, and SITE_CONTACT one of mail or of a page that takes reports of faults; no other
name of a host is written, and none of example.org, unless SITE is this machine. SITE_KEY names the key by which gpg
signs the lists that have no signature yet, and the Debian repository; those of PACKAGES have none of another key. Each
signature is of the time SOURCE_DATE_EPOCH, so that the key has to be older; the bytes of OUT depend on these, the
packages and the key alone.
"""

import email.utils
import hashlib
import html
import json
import os
import re
import shutil
import subprocess
import sys
import tarfile
import tempfile
import tomllib
import zipfile

HERE = os.path.dirname(os.path.realpath(__file__))
TOP = os.path.dirname(HERE)
LISTS = "SHA256SUMS", "B3SUMS"
# what the first page calls each architecture of Debian
ARCHITECTURES = {"amd64": "x86-64", "arm64": "arm64"}
# the names of the packages of each kind, as tools/package calls it
KINDS = {"deb": r".*\.deb", "tar": r"sums-.*-linux-.*\.tar\.xz", "wheel": r".*\.whl", "crate": r".*\.crate",
         "go": r".*-go-.*\.zip", "npm": r".*\.tgz", "page": r"sums-check-.*\.html"}
# the version in the name of a package
VERSION = re.compile(r"[-_]([0-9]+\.[0-9]+\.[0-9]+)[-_.]")
ADDRESS = re.compile(r"https?://[\w.:~/-]*[\w~]")
MAIL = re.compile(r"[\w.+-]+@[\w.-]*\w")
# a site that nobody else reaches, in which names may stand that are nobody's
OWN = re.compile(r"https?://(?:localhost|127\.0\.0\.1)(?:[:/]|$)")
NOBODY = re.compile(r"(?<![\w.])example\.(?:org|com|net)\b")
# the registry that a crate's own dependencies are from, as the protocol of Cargo names it
CRATES_IO = "https://github.com/rust-lang/crates.io-index"
# what README and SECURITY say as long as the packages have no address, and what they say in a site, which is one
IN_SITE = {
    "The packages have no public address yet: ask whoever showed you this page.":
        'The <a href="../index.html">first page</a> of this site installs the packages.',
    "Tell whoever gave you this repository or a package, by an issue if it has a tracker.":
        'The <a href="../../index.html#report-a-fault">first page</a> says whom to tell.',
}
# what a page shows as it is; any other file gets a page with its text
SHOWN = ".svg", ".png"
HEAD = """<!doctype html>
<html lang="en">
<meta charset="utf-8">
<meta name="viewport" content="width=device-width">
<title>{title}</title>
<link rel="stylesheet" href="{up}style.css">
<nav><a href="{up}index.html">sums {version}</a></nav>
"""


class Refused(Exception):
    """What is wrong with the words, the packages or the tools."""


def run(*words, folder=None, given=""):
    """What a command prints, of what it is given; what it says of itself is shown if it fails."""
    done = subprocess.run(words, cwd=folder, input=given.encode(), capture_output=True)
    if done.returncode:
        raise Refused(f"{words[0]} failed: {done.stderr.decode(errors='replace').strip()}")
    return done.stdout.decode()


def read(*path):
    with open(os.path.join(*path), encoding="utf-8") as file:
        return file.read()


def write(text, *path):
    path = os.path.join(*path)
    os.makedirs(os.path.dirname(path), exist_ok=True)
    with open(path, "w", encoding="utf-8", newline="\n") as file:
        file.write(text)


def digest(path):
    with open(path, "rb") as file:
        return hashlib.file_digest(file, "sha256").hexdigest()


# ---- the releases


class Release:
    """A folder of packages, by its list of them."""

    def __init__(self, folder):
        self.folder = folder
        lines = (line.split("  ", 1) for line in read(folder, "SHA256SUMS").splitlines())
        self.digests = {name: digest for digest, name in lines}
        versions = {found[1] for name in self.digests if (found := VERSION.search(name))}
        if len(versions) != 1:
            raise Refused(f"{folder} has packages of {len(versions)} versions")
        self.version = versions.pop()

    def named(self, kind):
        """The packages of this kind."""
        return [name for name in sorted(self.digests) if re.fullmatch(KINDS[kind], name)]

    def processors(self):
        """What the packages are for, as the first page calls it."""
        return [called for architecture, called in ARCHITECTURES.items()
                if any(name.endswith(f"_{architecture}.deb") for name in self.named("deb"))]

    def copy(self, out, key):
        """Copies the packages and their lists, signed, into a folder of the version's name, which is then theirs."""
        folder = os.path.join(out, self.version)
        os.mkdir(folder)
        for name, wanted in self.digests.items():
            shutil.copyfile(os.path.join(self.folder, name), os.path.join(folder, name))
            if digest(os.path.join(folder, name)) != wanted:
                raise Refused(f"{self.folder}/{name} is not what SHA256SUMS says")
        for name in LISTS:
            signature = os.path.join(self.folder, f"{name}.asc")
            shutil.copyfile(os.path.join(self.folder, name), os.path.join(folder, name))
            if os.path.exists(signature):
                shutil.copyfile(signature, os.path.join(folder, f"{name}.asc"))
            else:
                key.sign(os.path.join(folder, name), os.path.join(folder, f"{name}.asc"), "--armor", "--detach-sign")
        self.folder = folder


class Key:
    """The key that signs, at one time."""

    def __init__(self, name, time):
        self.name, self.time = name, time
        told = run("gpg", "--batch", "--with-colons", "--list-secret-keys", "--", name)
        prints = re.findall(r"^sec:.*\n(?:(?!sec:).*\n)*?fpr:+([0-9A-F]+):", told, re.M)
        if len(prints) != 1:
            raise Refused(f"gpg has {len(prints)} keys {name}")
        self.fingerprint = prints[0]

    def sign(self, path, made, *how):
        run("gpg", "--batch", "--local-user", self.fingerprint, "--faked-system-time", f"{self.time}!", *how,
            "--output", made, "--", path)

    def verify(self, path):
        """Refuses a list whose signature is not this key's."""
        told = run("gpg", "--batch", "--status-fd", "1", "--verify", "--", f"{path}.asc", path)
        if not re.search(rf"^\[GNUPG:\] VALIDSIG .* {self.fingerprint}$", told, re.M):
            raise Refused(f"{path} has the signature of another key")

    def export(self):
        return run("gpg", "--batch", "--armor", "--export-options", "export-minimal", "--export", self.fingerprint)


# ---- what apt, pip, Cargo and Go take packages from


def debian(out, releases, key):
    """A Debian repository, whose packages stand in the folders of their versions."""
    suite = os.path.join(out, "dists/stable")
    for architecture in ARCHITECTURES:
        parts = [run("apt-ftparchive", "--arch", architecture, "packages", release.version, folder=out)
                 for release in releases]
        write("".join(parts), suite, f"main/binary-{architecture}/Packages")
    says = {"Origin": "sums", "Label": "sums", "Suite": "stable", "Codename": "stable", "Components": "main",
            "Architectures": " ".join(ARCHITECTURES), "Date": email.utils.formatdate(key.time, usegmt=True)}
    words = [f"APT::FTPArchive::Release::{name}={text}" for name, text in says.items()]
    words += [f"APT::FTPArchive::{digest}=false" for digest in ("MD5", "SHA1")]
    text = run("apt-ftparchive", *(f"-o={word}" for word in words), "release", suite)
    write(text, suite, "Release")
    path = os.path.join(suite, "Release")
    key.sign(path, os.path.join(suite, "InRelease"), "--clear-sign")
    key.sign(path, os.path.join(suite, "Release.gpg"), "--armor", "--detach-sign")


def pip(out, releases):
    """A simple index, as PEP 503 has it."""
    links = [f'<a href="../../{release.version}/{name}#sha256={release.digests[name]}">{name}</a><br>\n'
             for release in releases for name in release.named("wheel")]
    begin = "<!doctype html>\n<title>sums</title>\n"
    write(begin + '<a href="sums-hash/">sums-hash</a>\n', out, "pip/index.html")
    write(begin + "".join(links), out, "pip/sums-hash/index.html")


def cargo(out, releases, site):
    """A sparse registry of one crate."""
    entries = [entry(release, name) for release in releases for name in release.named("crate")]
    write(json.dumps({"dl": site + "/{version}/{crate}-{version}.crate"}) + "\n", out, "cargo/config.json")
    write("".join(json.dumps(each) + "\n" for each in entries), out, "cargo/su/ms/sums-hash")


def entry(release, name):
    """What the registry says of a crate, which its manifest says."""
    with tarfile.open(os.path.join(release.folder, name)) as archive:
        manifest = tomllib.load(archive.extractfile(f"{name.removesuffix('.crate')}/Cargo.toml"))
    package = manifest["package"]
    dependencies = [dependency(*each) for each in sorted(manifest.get("dependencies", {}).items())]
    return {"name": package["name"], "vers": package["version"], "deps": dependencies, "cksum": release.digests[name],
            "features": {}, "features2": manifest.get("features", {}), "yanked": False, "links": package["links"],
            "rust_version": package["rust-version"], "v": 2}


def dependency(name, says):
    return {"name": name, "req": says["version"], "features": says.get("features", []),
            "optional": says.get("optional", False), "default_features": says.get("default-features", True),
            "target": None, "kind": "normal", "registry": CRATES_IO}


def go(out, releases):
    """What a proxy of modules serves; the path of the newest module."""
    listed = {}
    for release in releases:
        for name in release.named("go"):
            path = module(out, os.path.join(release.folder, name), f"v{release.version}")
            listed.setdefault(path, []).append(release)
    for path, with_it in listed.items():
        write("".join(f"v{release.version}\n" for release in with_it), out, folder_of(path), "list")
    return next(iter(listed))


def module(out, zipped, version):
    """What it serves of one version, whose zip has the path."""
    with zipfile.ZipFile(zipped) as archive:
        path = archive.namelist()[0].partition("@")[0]
        manifest = archive.read(f"{path}@{version}/go.mod").decode()
    write(manifest, out, folder_of(path), f"{version}.mod")
    write(json.dumps({"Version": version}) + "\n", out, folder_of(path), f"{version}.info")
    shutil.copyfile(zipped, os.path.join(out, folder_of(path), f"{version}.zip"))
    return path


def folder_of(path):
    """The folder in which a proxy has a module: an upper case letter of its path has a sign before it."""
    return "go/" + re.sub("([A-Z])", lambda it: "!" + it[1].lower(), path) + "/@v"


# ---- the pages


def page(out, place, title, body, version):
    """A page at this place of the site."""
    up = "../" * place.count("/")
    write(HEAD.format(title=html.escape(title), up=up, version=version) + body, out, place)


def body_of(text, form="gfm"):
    """Markdown as HTML."""
    return run("pandoc", "--from", form, "--to", "html", "--no-highlight", "--wrap", "preserve", given=text)


def text_of(text):
    """A text as HTML, in which a link may name a line."""
    lines = html.escape(text, quote=False).split("\n")
    return "<pre>" + "\n".join(f'<a id="L{number}"></a>{line}' for number, line in enumerate(lines, 1)) + "</pre>\n"


def page_of(path):
    """The page that shows a document of this path."""
    stem, kind = os.path.splitext(path)
    return path if kind in SHOWN else f"{stem if kind == '.md' else path}.html"


def linked(body, folder, below=""):
    """HTML whose links to documents, which count from this folder of them, lead to their pages, which are `below`."""

    def to_page(found):
        path, mark, anchor = found[2].partition("#")
        if not path or ":" in path:
            return found[0]
        is_folder = os.path.isdir(os.path.join(folder, path))
        path = path.rstrip("/") + "/index.html" if is_folder else page_of(path)
        return f'{found[1]}="{below}{path}{mark}{anchor}"'

    return re.sub(r'(href|src)="([^"]*)"', to_page, body)


def documents(out, folder, version):
    """Each document below a folder as a page, and a page of the files of each folder."""
    for above, folders, names in os.walk(folder):
        folders.sort()
        names.sort()
        place = os.path.normpath(os.path.join("doc", os.path.relpath(above, folder)))
        os.makedirs(os.path.join(out, place), exist_ok=True)
        for name in names:
            document(out, os.path.join(above, name), f"{place}/{page_of(name)}", version)
        links = [(f"{name}/index.html", name) for name in folders] + [(page_of(name), name) for name in names]
        body = "".join(f'<li><a href="{link}">{name}</a>\n' for link, name in links)
        page(out, f"{place}/index.html", place, f"<h1>{place}</h1>\n<ul>\n{body}</ul>\n", version)


def document(out, path, place, version):
    """A document at this place: as it is if a page shows it so, and else as a page."""
    if path.endswith(SHOWN):
        shutil.copyfile(path, os.path.join(out, place))
        return
    text = read(path)
    body = linked(body_of(text), os.path.dirname(path)) if path.endswith(".md") else text_of(text)
    for said, says in IN_SITE.items():
        body = body.replace(said, says)
    page(out, place, place.removeprefix("doc/").removesuffix(".html"), body, version)


def manual(out, folder, version):
    """Each manual page, with links to the others; the names of them."""
    paths = sorted(os.path.join(above, name) for above, _, names in os.walk(folder) for name in names
                   if not os.path.islink(os.path.join(above, name)))
    names = [os.path.basename(path) for path in paths]

    def to_page(found):
        name = f"{found[1]}.{found[2]}"
        return f'<a href="{name}.html">{found[0]}</a>' if name in names else found[0]

    for path, name in zip(paths, names):
        body = run("mandoc", "-T", "html", "-O", "fragment", path)
        page(out, f"man/{name}.html", name, re.sub(r"<b>([\w-]+)</b>\((\d)\)", to_page, body), version)
    return names


def index(out, tree, release, words):
    """The page that a user sees first: what README begins with, and how each package is installed."""
    readme = read(tree, "share/doc/sums/README.md")
    first = readme[:readme.index("**Install it**")].replace("](#", "](README.md#")
    rows = [f"| [{name}]({release.version}/{name}) | `{digest}` |" for name, digest in sorted(release.digests.items())]
    words = {**words, "VERSION": release.version, "PACKAGES": "\n".join(rows)}
    rest = re.sub(r"@([A-Z]+)@", lambda it: words[it[1]], read(HERE, "site.md"))
    first = linked(body_of(first), os.path.join(tree, "share/doc/sums"), "doc/")
    page(out, "index.html", "sums", first + body_of(rest, "gfm+attributes"), release.version)


# ---- all of it


def check(release, program):
    """Refuses a B3SUMS that is not of the packages, by the program in them."""
    done = subprocess.run([program, "check", "-a", "blake3", "B3SUMS"], cwd=release.folder, capture_output=True)
    if done.returncode or done.stdout.count(b": OK\n") != len(release.digests):
        raise Refused(f"{release.folder}/B3SUMS is not of the packages")


def refuse_nobody(out, release, *names):
    """Refuses names that are nobody's, which stand in the repository until a release has its own: these, and those of
    whoever makes Debian's packages."""
    listed = read(out, "dists/stable/main/binary-amd64/Packages").split("\n\n")
    own = [text for text in listed if f"\nVersion: {release.version}\n" in text]
    makers = re.findall(r"^Maintainer: (.*)$", "\n".join(own), re.M)
    found = [name for name in dict.fromkeys((*names, *makers)) if NOBODY.search(name)]
    if found:
        raise Refused(f"names that are nobody's: {', '.join(found)}")


def make(out, releases, key, site, contact):
    """The site of these releases, the newest first."""
    release = releases[0]
    for kind in KINDS:
        if not release.named(kind):
            raise Refused(f"{release.folder} has no package of the kind {kind}")
    for each in releases:
        each.copy(out, key)
    for name in LISTS:
        key.verify(os.path.join(release.folder, name))
    debian(out, releases, key)
    pip(out, releases)
    cargo(out, releases, site)
    words = {"SITE": site, "CONTACT": contact, "FINGERPRINT": key.fingerprint, "MODULE": go(out, releases),
             "PROCESSORS": " and ".join(release.processors())}
    if not OWN.match(site):
        refuse_nobody(out, release, site, contact, words["MODULE"])
    write(key.export(), out, "key.asc")
    shutil.copyfile(os.path.join(HERE, "site.css"), os.path.join(out, "style.css"))
    run(os.path.join(TOP, "tools/page.py"), "--list", os.path.join(release.folder, "SHA256SUMS"), "--into",
        os.path.join(release.folder, release.named("page")[0]), os.path.join(out, "check.html"))
    tars = release.named("tar")
    # what this machine runs
    own = [name for name in tars if name.endswith(f"-{os.uname().machine}.tar.xz")]
    with tempfile.TemporaryDirectory() as tree:
        run("tar", "-C", tree, "--strip-components=1", "-xf", os.path.join(release.folder, (own or tars)[0]))
        if own:
            check(release, os.path.join(tree, "bin/sums"))
        documents(out, os.path.join(tree, "share/doc/sums"), release.version)
        names = manual(out, os.path.join(tree, "share/man"), release.version)
        words["MANUAL"] = ", ".join(f"[{name}](man/{name}.html)" for name in names)
        index(out, tree, release, words)


def setting(name):
    if not os.environ.get(name):
        raise Refused(f"{name} is not set")
    return os.environ[name]


def main(words):
    if len(words) < 2:
        sys.exit("\n".join(__doc__.splitlines()[2:5]))
    try:
        site, key = setting("SITE").rstrip("/"), Key(setting("SITE_KEY"), int(setting("SOURCE_DATE_EPOCH")))
        if not ADDRESS.fullmatch(site):
            raise Refused(f"SITE is no address of a web server: {site}")
        contact = setting("SITE_CONTACT")
        if not ADDRESS.fullmatch(contact) and not MAIL.fullmatch(contact):
            raise Refused(f"SITE_CONTACT is no address of mail or of a page: {contact}")
        releases = [Release(folder) for folder in (words[0], *words[2:])]
        numbers = [tuple(map(int, release.version.split("."))) for release in releases]
        if len(set(numbers)) < len(numbers):
            raise Refused("two folders have packages of one version")
        if max(numbers) != numbers[0]:
            raise Refused(f"{words[0]} has not the newest packages")
        os.mkdir(words[1])
        make(words[1], releases, key, site, contact)
    except (OSError, Refused) as fault:
        sys.exit(f"packaging/site.py: {fault}")


if __name__ == "__main__":
    os.umask(0o022)
    main(sys.argv[1:])

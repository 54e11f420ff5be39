# SPDX-License-Identifier: MIT OR Apache-2.0
"""The extension is linked with libsums_hash.a of the folder SUMS_HASH_LIB_DIR, which has sums_hash.h too, or else with
the library that pkg-config finds, of this version or a later one. One wheel is for each CPython from 3.11 on."""

import glob
import os
import platform
import re
import shlex
import subprocess
import sys
import sysconfig

from setuptools import Extension, setup

FLAGS = ["-std=gnu11", "-O2", "-fvisibility=hidden", "-Wall", "-Wextra", "-Wno-missing-field-initializers",
         "-Werror=implicit-function-declaration"]
# the calls of the library stay inside, and no path of the builder's is kept
LINKED = ["-Wl,--exclude-libs,ALL", "-Wl,-s"]
ARCHIVE = "libsums_hash.a"
# what the extension is built for: this machine, unless a cross build names another
PLATFORM = sysconfig.get_platform()


def refuse(text):
    sys.exit(f"sums_hash: {text}")


def check_python():
    if sys.implementation.name != "cpython":
        refuse(f"it is an extension of CPython, and this is {sys.implementation.name}")
    if sys.version_info < (3, 11):
        refuse(f"it needs Python 3.11 or later, and this is {platform.python_version()}")
    if sysconfig.get_config_var("Py_GIL_DISABLED"):
        refuse("it has no build for a free-threaded CPython, which has no limited API")
    # a Python of 32 bits names the processor that it runs on, too
    is_known = PLATFORM in ("linux-x86_64", "linux-aarch64") and sys.maxsize > 2**32
    if platform.libc_ver()[0] != "glibc" or not is_known:
        refuse("it is for Linux on x86-64 or arm64, of 64 bits, with glibc")


def version():
    with open(os.path.join("sums_hash", "__init__.py"), encoding="utf-8") as file:
        return re.search('^__version__ = "(.*)"$', file.read(), re.MULTILINE)[1]


def library():
    """What the compiler and the linker are told of the C library."""
    folder = os.environ.get("SUMS_HASH_LIB_DIR")
    if folder:
        archive = os.path.join(folder, ARCHIVE)
        if not os.path.exists(archive):
            refuse(f"SUMS_HASH_LIB_DIR: there is no {os.path.abspath(archive)}")
        return {"include_dirs": [folder], "extra_objects": [archive], "depends": [archive]}
    command = [os.environ.get("PKG_CONFIG", "pkg-config"), "--cflags", "--libs", f"sums_hash >= {version()}"]
    try:
        words = shlex.split(subprocess.run(command, check=True, stdout=subprocess.PIPE, text=True).stdout)
    except (OSError, subprocess.CalledProcessError) as fault:
        refuse(f"name the folder of the C library in SUMS_HASH_LIB_DIR, or let pkg-config find it: {fault}")
    return {"extra_compile_args": [word for word in words if word.startswith("-I")],
            "extra_link_args": [word for word in words if not word.startswith("-I")]}


def platform_tag(linked):
    """A wheel with the archive in it needs of glibc what 2.14 has, on arm64 2.17, so that it runs where 2.17 is. One
    that is linked with a shared library is for a system that has it."""
    has_archive = any(os.path.basename(word) == ARCHIVE for word in linked)
    return PLATFORM.replace("linux-", "manylinux2014_" if has_archive else "linux_")


check_python()
told = library()
plat_name = platform_tag(told.get("extra_objects", []) + told.get("extra_link_args", []))
native = Extension(
    "sums_hash._native", sorted(glob.glob("native/*.c")), py_limited_api=True,
    depends=["native/native.h", *told.pop("depends", [])],
    extra_compile_args=FLAGS + told.pop("extra_compile_args", []),
    extra_link_args=LINKED + told.pop("extra_link_args", []), **told,
)
setup(ext_modules=[native], options={"bdist_wheel": {"plat_name": plat_name, "py_limited_api": "cp311"}})

#!/usr/bin/env python3
"""Runs a command in a root of arm64, whose programs run by qemu-aarch64-static as others do. Nothing of the machine
changes: the command has a name space of users and of mounts, in which binfmt_misc is its own. For root, on Linux 6.7
or later.
usage: tests/packages/in_arm64.py ROOT COMMAND..     ROOT is a folder, as debootstrap makes it
"""

import ctypes
import os
import sys

LIBC = ctypes.CDLL(None, use_errno=True)
EMULATOR = "/usr/bin/qemu-aarch64-static"
# of <linux/sched.h> and <sys/mount.h>
CLONE_NEWNS, CLONE_NEWUSER = 0x20000, 0x10000000
MS_BIND, MS_REC, MS_PRIVATE = 0x1000, 0x4000, 0x40000
# an ELF file of 64 bits, little-endian, that is run or loaded, for the processor 183
MAGIC = b"\x7fELF\x02\x01\x01" + 9 * b"\0" + b"\x02\0\xb7\0"
MASK = b"\xff\xff\xff\xff\xff\xff\xff\0" + 8 * b"\xff" + b"\xfe\xff\xff\xff"
# the processor is the oldest that has these instructions, as in a Raspberry Pi 3
ENVIRONMENT = {"PATH": "/usr/sbin:/usr/bin:/sbin:/bin", "HOME": "/root", "LC_ALL": "C.UTF-8", "QEMU_CPU": "cortex-a53"}


def must(result, *words):
    if result:
        fault = ctypes.get_errno()
        raise OSError(fault, os.strerror(fault), " ".join(words))


def mount(source, target, kind=None, flags=0):
    words = [word and word.encode() for word in (source, target, kind)]
    must(LIBC.mount(*words, ctypes.c_ulong(flags), None), "mount", target)


def emulate():
    """Lets programs of arm64 run. The emulator is opened now (F), so that the root need not have it."""
    mount("none", "/proc/sys/fs/binfmt_misc", "binfmt_misc")
    magic, mask = ("".join(f"\\x{byte:02x}" for byte in text) for text in (MAGIC, MASK))
    with open("/proc/sys/fs/binfmt_misc/register", "w", encoding="ascii") as file:
        file.write(f":aarch64:M::{magic}:{mask}:{EMULATOR}:FP")


def enter(root):
    mount("none", "/", flags=MS_REC | MS_PRIVATE)
    emulate()
    for folder in ("/proc", "/dev"):
        mount(folder, root + folder, flags=MS_BIND | MS_REC)
    os.chroot(root)
    os.chdir("/")


def child(root, command, ready, mapped):
    must(LIBC.unshare(CLONE_NEWUSER | CLONE_NEWNS), "unshare")
    os.close(ready)
    os.read(mapped, 1)
    os.setgid(0)
    os.setuid(0)
    enter(root)
    os.execvpe(command[0], command, ENVIRONMENT)


def main(root, command):
    # the user and the groups of a name space are written from outside it, before anything is done in it
    waited, ready = os.pipe()
    mapped, done = os.pipe()
    pid = os.fork()
    if pid == 0:
        os.close(waited)
        os.close(done)
        child(root, command, ready, mapped)
    os.close(ready)
    os.read(waited, 1)
    for ids in ("uid_map", "gid_map"):
        with open(f"/proc/{pid}/{ids}", "w", encoding="ascii") as file:
            file.write("0 0 65536\n")
    os.close(done)
    return os.waitstatus_to_exitcode(os.waitpid(pid, 0)[1])


if len(sys.argv) < 3:
    sys.exit(__doc__[__doc__.index("usage:") :].strip())
sys.exit(main(os.path.realpath(sys.argv[1]), sys.argv[2:]))

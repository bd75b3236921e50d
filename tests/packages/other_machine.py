"""Tries the C library for another machine than this one: links examples/show.c to its shared object, and runs that by qemu-user.

If MKSTRIKE_ARM_ROOT names a folder into which Debian's packages of Python for arm64 were unpacked, that Python tries the wheel too.
The folder `root` is such a one after these commands in an empty folder:

    APT="-o APT::Architecture=arm64 -o Dir::State::lists=$PWD/lists -o Dir::State::status=/dev/null"
    APT="$APT -o Dir::Cache::pkgcache= -o Dir::Cache::srcpkgcache="
    mkdir -p lists/partial && apt-get $APT update
    apt-get $APT download python3.11-minimal libpython3.11-minimal libpython3.11-stdlib libc6 zlib1g libexpat1 libffi8 libgcc-s1
    for it in *.deb; do dpkg-deb -x $it root; done
"""
import glob
import os
import shutil
import subprocess

import pytest
from needs import tool
from prebuilt import TOP

COMPILER, RUNNER, LIBRARIES = "aarch64-linux-gnu-gcc", "qemu-aarch64", "/usr/aarch64-linux-gnu"  # Debian's names


def strike(shared, font, folder):
    """The strike of a font's file that the shared object makes, of the characters 20 to 42 at 16 pixels."""
    tool(COMPILER)
    named = os.path.join(folder, "libmkstrike.so.1")
    shutil.copyfile(shared, named)
    subprocess.run([COMPILER, "-I" + os.path.join(TOP, "include"), os.path.join(TOP, "examples/show.c"), named, "-o",
                    os.path.join(folder, "show")],
                   check=True)
    words = [tool(RUNNER), "-L", LIBRARIES, "-E", "LD_LIBRARY_PATH=%s" % folder, os.path.join(folder, "show"), font, "16", "20-42"]
    return subprocess.run(words, stdin=subprocess.DEVNULL, capture_output=True, check=True).stdout


def python():
    """The words that run Python for it."""
    root = os.environ.get("MKSTRIKE_ARM_ROOT", "")
    found = glob.glob(os.path.join(glob.escape(root), "usr/bin/python3.*[0-9]")) if root else []
    if not found:
        pytest.skip("no Python for arm64: MKSTRIKE_ARM_ROOT names none")
    return [tool(RUNNER), "-L", root, found[0]]

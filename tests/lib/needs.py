"""What a test needs of the machine: without it the test is left out, and the reason names Debian's package."""
import os
import shutil
import subprocess

import prebuilt
import pytest
from debian import lacking

FOLDER = "/usr/share/fonts/truetype/"
REAL = {"DejaVuSans": FOLDER + "dejavu/DejaVuSans.ttf", "LiberationSans-Regular": FOLDER + "liberation/LiberationSans-Regular.ttf"}


def left_out(what):
    """Leaves a test out, since this is not installed."""
    pytest.skip(lacking(what))


def tool(name):
    """The path of a tool, or of the same tool linked statically, as qemu-user-static has it."""
    return shutil.which(name) or shutil.which(name + "-static") or left_out(name)


def dist():
    """Leaves a test out if the program or the library of dist/ is of other sources."""
    try:
        prebuilt.program_of_dist()
        prebuilt.library_of_dist()
    except prebuilt.Fault as fault:
        pytest.skip(str(fault))


def real_font(name):
    """The bytes of a real font."""
    if not os.path.exists(REAL[name]):
        left_out(name)
    with open(REAL[name], "rb") as file:
        return file.read()


def compiled(source, path, *words):
    """Compiles a program or a library in C to a path, and returns it."""
    subprocess.run([tool("cc"), "-O2", *words, "-o", path, source], check=True)
    return str(path)

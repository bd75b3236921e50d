"""Puts the C library and what the package reads of the repository into the package: `pip install ./python` needs a C compiler.

The environment can name other things than those of the repository: MKSTRIKE_TOP its top, MKSTRIKE_VERSION, MKSTRIKE_SHARED a shared
object that is linked already, and MKSTRIKE_MACHINE its machine. A source distribution has what it needs of the repository in the
folder `top`.
"""
import glob
import os
import shutil
import subprocess
import tempfile

from setuptools import Distribution, setup
from setuptools.command.build_py import build_py
from setuptools.command.sdist import sdist
from wheel.bdist_wheel import bdist_wheel

HERE = os.path.dirname(os.path.abspath(__file__))
PLACES = (os.path.join(HERE, "top"), os.path.dirname(HERE))
TOP = os.environ.get("MKSTRIKE_TOP") or next(it for it in PLACES if os.path.exists(os.path.join(it, "VERSION")))
MACHINE = os.environ.get("MKSTRIKE_MACHINE") or os.uname().machine
ARCHIVES = {"x86_64": "dist/libmkstrike_c.a", "aarch64": "dist/libmkstrike_c-aarch64.a"}
USED = ("VERSION", "docs/PYTHON.md", "docs/REFUSALS.md", "THIRD-PARTY.md", "packaging/link", "include/mkstrike.h", "c/calls.c",
        "c/heap.c", "c/mkstrike.map", *ARCHIVES.values())


def text(name):
    """A text of the repository."""
    with open(os.path.join(TOP, name), encoding="utf-8") as file:
        return file.read()


class WithLibrary(build_py):
    """Adds the shared object, the page that says what to do after a refusal, and the notices of others."""

    def run(self):
        super().run()
        folder = os.path.join(self.build_lib, "mkstrike")
        for name in ("docs/REFUSALS.md", "THIRD-PARTY.md"):
            shutil.copyfile(os.path.join(TOP, name), os.path.join(folder, os.path.basename(name)))
        with tempfile.TemporaryDirectory() as made:
            shared = os.environ.get("MKSTRIKE_SHARED")
            if not shared:
                subprocess.run(["sh", os.path.join(TOP, "packaging/link"), made, os.path.join(TOP, ARCHIVES[MACHINE])], check=True)
                shared = glob.glob(os.path.join(made, "*.so.*"))[0]
            shutil.copyfile(shared, os.path.join(folder, "libmkstrike.so"))


class ForAnyPython(bdist_wheel):
    """The library is called by ctypes: one wheel of a machine is for each Python. It needs no younger glibc than 2.17."""

    def get_tag(self):
        return "py3", "none", "manylinux_2_17_" + MACHINE


class WithTop(sdist):
    """Adds what is used of the repository."""

    def make_release_tree(self, base_dir, files):
        super().make_release_tree(base_dir, files)
        for name in USED:
            if os.path.exists(os.path.join(TOP, name)):
                os.makedirs(os.path.join(base_dir, "top", os.path.dirname(name)), exist_ok=True)
                shutil.copy(os.path.join(TOP, name), os.path.join(base_dir, "top", name))


class OfMachine(Distribution):
    """It has a library of the machine, though no module in C."""

    def has_ext_modules(self):
        return True


# what follows `+` must not look like a number, which could begin with zeros
setup(version=(os.environ.get("MKSTRIKE_VERSION") or text("VERSION").strip()).replace("+", "+s"),
      long_description=text("docs/PYTHON.md"), long_description_content_type="text/markdown", distclass=OfMachine,
      options={"egg_info": {"egg_base": "."}}, cmdclass={"build_py": WithLibrary, "bdist_wheel": ForAnyPython, "sdist": WithTop})

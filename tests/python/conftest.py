"""The tests run on the Python package of this checkout, and need no installed one: tests/packages installs the wheel.

The C library is the file that MKSTRIKE_LIBRARY names, else that of dist/, which is linked here in a second."""
import atexit
import os
import shutil
import subprocess
import sys
import tempfile

import prebuilt
import pytest

FOLDER, PACKAGE = os.path.dirname(os.path.realpath(__file__)), os.path.join(prebuilt.TOP, "python")
sys.path.insert(0, PACKAGE)
os.environ["PYTHONPATH"] = PACKAGE  # for what the tests start


def linked():
    """Links the library of dist/, and returns why that is not possible, or None."""
    try:
        prebuilt.library_of_dist()
    except prebuilt.Fault as fault:
        return str(fault)
    folder = tempfile.mkdtemp()
    atexit.register(shutil.rmtree, folder)
    words = ["sh", os.path.join(prebuilt.TOP, "packaging/link"), folder, os.path.join(prebuilt.DIST, "libmkstrike_c.a")]
    os.environ["MKSTRIKE_LIBRARY"] = os.path.join(folder, "libmkstrike.so.1")
    failed = subprocess.run(words, capture_output=True, check=False).returncode
    return "no C compiler with headers (Debian: gcc, libc6-dev)" if failed else None


MISSING = None if "MKSTRIKE_LIBRARY" in os.environ else linked()


def pytest_collection_modifyitems(items):
    """Leaves the tests of this folder out if there is no library."""
    for it in items if MISSING else ():
        if str(it.path).startswith(FOLDER):
            it.add_marker(pytest.mark.skip(reason=MISSING))

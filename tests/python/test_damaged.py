"""Damaged files of other kinds than TrueType: damaged_files.py in a process of its own."""
import os
import subprocess
import sys

from shared import LIBERATION, SANS, TOP, needs, needs_font, needs_fonttools

COUNT = os.environ.get("MKSTRIKE_DAMAGED", "1200")  # files


@needs_fonttools
@needs("brotli", "python3-brotli")
@needs_font(SANS, LIBERATION)
def test_damaged_files():
    """No error without a reason, none of another type than the documented ones, at most 300 MB of memory."""
    script = os.path.join(TOP, "tests/python/damaged_files.py")
    ran = subprocess.run([sys.executable, script, COUNT], capture_output=True, text=True)
    assert ran.returncode == 0, ran.stderr[-3000:]
    *answers, memory = ran.stdout.split("\n")[:-1]
    print(ran.stdout)
    assert sum(int(it.split()[0]) for it in answers) == int(COUNT) and len(answers) >= 7, ran.stdout
    assert all(int(it) < 300e6 for it in memory.split()[1:]), memory

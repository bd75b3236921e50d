"""Each refusal that docs/REFUSALS.md lists is due of a case of this folder, and each that is due is listed.

This file comes last: it looks at the cases that ran."""
import os
import re

import cases
import pytest
from prebuilt import TOP

OF_C = {(b"64", b"BadMode"), (b"65", b"BadBlock")}  # which only calls from C give


def differ(page, lines):
    """The refusals that are on the page alone, or alone in lines that are due, of a request or of one of its characters."""
    listed = set(re.findall(rb"^\| (\d+) \| (\w+)", page, re.M)) - OF_C
    return listed ^ set(re.findall(rb"^mkstrike: (?:\w[\w ]* U\+\w+: )?(\d+) (\w+)", b"".join(lines), re.M))


def test_each_is_due():
    """Those of all cases are those of the page."""
    if not cases.ALL or cases.RAN != cases.ALL:
        pytest.skip("only some cases ran here")
    with open(os.path.join(TOP, "docs/REFUSALS.md"), "rb") as file:
        assert not differ(file.read(), cases.DUE)


def test_differences_are_found():
    """One that is on the page alone is found, and one that is due alone."""
    page = b"| 10 | NotTrueType | x |\n| 70 | WriteFailed n | x |\n| 64 | BadMode | x |\n"
    assert not differ(page, [b"mkstrike: 10 NotTrueType\n", b"mkstrike: 70 WriteFailed 9\n", b"mkstrike: usage\n"])
    assert differ(page, [b"mkstrike: 10 NotTrueType\n"]) and differ(page,
                                                                    [b"mkstrike: 10 NotTrueType\n", b"mkstrike: 70 WriteFailed 9\n",
                                                                     b"mkstrike: 90 OutOfMemory\n"])

"""The command as people type it; and each planted fault is found."""
import os
import shutil

import pytest
from front import CHECKS, NEED_FONT, Check
from needs import real_font
from prebuilt import TOP

# Each planted fault: the check that must find it, and a program in place of the right one, which is $REAL; or a file, and what is
# replaced there by what.
PLANTED = [
    ("mistakes", '"$REAL" "$@"; at=$?; echo "mkstrike: more" >&2; exit $at'),
    ("mistakes", '"$REAL" "$@" 2>&1 >&3 | head -n 1 >&2; exit ${PIPESTATUS[0]}'),
    ("fonts_by", '"$REAL" "$@"; exit 0'),
    ("fonts_by", '"$REAL" "$@" </dev/null'),
    ("outputs_by", 'o=$("$REAL" "$@"; echo .); printf "%s" "${o%.}" | tr 8 9'),
    ("outputs_by", '"$REAL" "$@"; at=$?; [ $at = 0 ] || rm -f "a strike.bdf"; exit $at'),
    ("outputs_by", '"$REAL" "$@"; at=$?; : >.mkstrike-1; exit $at'),
    ("outputs_that", '"$REAL" "$@"; at=$?; [ ! -e old.bdf ] || chmod 600 old.bdf; exit $at'),
    ("traces", '"$REAL" "$@"; at=$?; [ $at = 0 ] || rm -f trace.txt; exit $at'),
    ("signals", 'trap "" INT; "$REAL" "$@"'),
    ("streams", '"$REAL" "$@" 2>&1'),
    ("missing", '"$REAL" "$@" 2>&1 >&3 | sed s/4e00-4e02/4e00/ >&2; exit ${PIPESTATUS[0]}'),
    ("explained", '[ "$1" = explain ] && exit 0; "$REAL" "$@"'),
    ("refusals_explained", '"$REAL" "$@" | sed "s/  *$//;s/^What to do: raise/What to do: lower/"; exit ${PIPESTATUS[0]}'),
    ("help_and", '"$REAL" "$@" | sed s/--dropout/--drop-out/'),
    ("pages_as", "docs/mkstrike-show.1", ".\\\" help: the glyph of a character, one", ".\\\" help: a glyph of a character, one"),
    ("pages_as", "docs/mkstrike-dump.1", "the first by default.", "the first one without it."),
    ("names_of", "VERSION", "0.", "1."),
    ("files_of", "docs/REFUSALS.md", "looks like a PDF |", "looks like a text |"),
]


@pytest.mark.parametrize("check", CHECKS)
def test_front(check, program, tmp_path):
    """Looks at one thing."""
    if check in NEED_FONT:
        real_font("DejaVuSans")
    it = Check(program, str(tmp_path), TOP)
    check(it)
    assert not it.wrong, "\n".join(it.wrong)


@pytest.mark.parametrize("number", range(len(PLANTED)))
def test_planted(number, program, tmp_path):
    """A planted fault is found, in a copy of what is looked at if it is one of a file."""
    (name, *fault), top = PLANTED[number], tmp_path / "top"
    if any(name in it.__name__ for it in NEED_FONT):
        real_font("DejaVuSans")
    if len(fault) == 3:
        for part in ("tools", "docs", "include", "dist", "crates/fx_front/src", "crates/fx_words/src", "python/mkstrike"):
            shutil.copytree(os.path.join(TOP, part), top / part)
        for part in ("VERSION", "CHANGELOG.md"):
            shutil.copy(os.path.join(TOP, part), top)
        path, text = top / fault[0], (top / fault[0]).read_text(encoding="utf-8")
        assert text.count(fault[1]) == 1
        path.write_text(text.replace(fault[1], fault[2]), encoding="utf-8")
    else:
        (tmp_path / "program").write_text("#!/bin/bash\nexec 3>&1\nREAL=%s\n%s\n" % (program, fault[0]))
        (tmp_path / "program").chmod(0o755)
    (tmp_path / "folder").mkdir()
    it = Check(program if len(fault) == 3 else str(tmp_path / "program"), str(tmp_path / "folder"),
               str(top if len(fault) == 3 else TOP))
    for check in CHECKS:
        if name in check.__name__:
            try:
                check(it)
            except Exception as fault:  # pylint: disable=broad-except
                it.check(name, repr(fault))
    assert it.wrong, "not found by %s" % name

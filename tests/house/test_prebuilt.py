"""What tools/prebuilt.py reads and writes for the other tools, in a made repository."""
import os
import subprocess

import prebuilt
import pytest

HEADER = """/* struct mkstrike_no {
 */
struct mkstrike_drawn {
    size_t bytes;     /* of the
                         pixels; int more; */
    uint32_t glyphs, missing;
    struct mkstrike_box box;
};
struct mkstrike_box {
    int32_t left;
};
uint32_t mkstrike_draw(void *font, uint32_t size);
size_t mkstrike_room(
    uint32_t size);
  int mkstrike_inside(void);
"""
SETS = r"""//! Sets.
const SETS: [(&str, &str); 2] = [
    ("one", "a-b"),
    (
        "two", "c\
        d",
    ),
];
const OTHERS: [(&str, &str); 1] = [("first", "one")];
"""
REFUSALS = """| Number | Name | What | To do |
| 13 | BadHead | a | do `x` |
| 17 | BadLoca g | b | the same |
| 18 | Other tag | c | else |

| `00 01` | `a b` | does | do `it` |
| none | empty | says | none |
| only hexadecimal digits | digits | waits | `xxd` |
"""


@pytest.fixture(name="top")
def made_top(tmp_path, monkeypatch):
    """A made repository."""
    files = {"crates.txt": "# Each crate.\na: thiserror b  # the first\n\nb:\nc: a d\nd: b a\n", "crates/a/src/x.rt": "1",
             "crates/a/src/in/w.rt": "2", "crates/a/specs/y.antt": "3", "crates/b/proofs/z.antt": "4", "crates/c/src/x.rt": "5",
             "crates/a/out/x": "6", "crates/fx_words/src/sets.rt": SETS, "include/mkstrike.h": HEADER, "docs/REFUSALS.md": REFUSALS,
             "crates/a/stdin": "a\n", "crates/a/stdout": "a\nb\n"}
    for path, text in files.items():
        (tmp_path / path).parent.mkdir(parents=True, exist_ok=True)
        (tmp_path / path).write_text(text)
    monkeypatch.setattr(prebuilt, "TOP", str(tmp_path))
    monkeypatch.setattr(prebuilt, "BUILT", str(tmp_path / "crates/a/out/x"))
    return tmp_path


def fault_of(function, *arguments):
    """The line of the fault that a call ends with."""
    with pytest.raises(prebuilt.Fault) as found:
        function(*arguments)
    return str(found.value)


def test_hash_of_sources(top):
    """The hash is that of what sha256sum prints of the files of a crate and of those below it, in the order of their paths."""
    paths = "crates.txt crates/a/specs/y.antt crates/a/src/in/w.rt crates/a/src/x.rt crates/b/proofs/z.antt"
    said = subprocess.check_output("sha256sum %s | sha256sum" % paths, shell=True, cwd=top, text=True)
    assert prebuilt.hash_of_sources("a") == said.split()[0]
    assert prebuilt.libraries_of_crates("# x: y\na: b c # d\n\n e :\n") == {"a": ["b", "c"], "e": []}
    assert [prebuilt.crates_below(it) for it in "abcd"] == [["a", "b"], ["b"], ["c", "a", "d", "b"], ["d", "b", "a"]]


def test_tables(top):
    """The tables of the sources, of the header and of the documents."""
    assert prebuilt.sets("SETS") == [("one", "a-b"), ("two", "cd")] and prebuilt.sets("OTHERS") == [("first", "one")]
    assert prebuilt.calls_of_header() == {"mkstrike_draw": "void *font, uint32_t size", "mkstrike_room": "\n    uint32_t size"}
    assert list(prebuilt.structs_of_header(HEADER)) == [
        ("mkstrike_drawn", [("size_t", "bytes"), ("uint32_t", "glyphs"), ("uint32_t", "missing"), ("struct mkstrike_box", "box")]),
        ("mkstrike_box", [("int32_t", "left")])]
    assert prebuilt.refusals() == [(13, "BadHead", "", "do x"), (17, "BadLoca", "g", "do x"), (18, "Other", "tag", "else")]
    kinds = [(b"\0\1", "a b", "does", "do it"), (b"", "empty", "says", "none"), (None, "digits", "waits", "xxd")]
    assert list(prebuilt.kinds_of_files(str(top))) == kinds


def test_files(top):
    """Files are read, written whole, and named as at the top; none is left beside them."""
    path, other = str(top / "made"), os.path.dirname(top)
    for data, mode in ((b"one", ()), (b"two", (0o755,)), (b"", (0o600,))):
        prebuilt.write(path, data, *mode)
        assert prebuilt.read(path) == data and os.stat(path).st_mode & 0o777 == (mode or (0o644,))[0]
    assert not os.listdir(top / "out")
    assert [prebuilt.shown(it) for it in (path, str(top) + "s/a", other)] == ["made", str(top) + "s/a", other]
    assert fault_of(prebuilt.read, str(top / "none")) == "none: No such file or directory"


def test_commands():
    """What a command prints, or one line of why it does not."""
    assert prebuilt.command(["echo", "a\nb"]) == "a\nb" and prebuilt.command(["cat"]) == ""
    assert fault_of(prebuilt.command, ["/no/tool", "x"]) == "/no/tool: No such file or directory"
    assert fault_of(prebuilt.command, ["sh", "-c", "echo why >&2; exit 3"]) == "sh failed: why"
    assert fault_of(prebuilt.command, ["sh", "-c", "printf %0400d 7 >&2; exit 1"]) == "sh failed: " + "0" * 299 + "7"


def test_kit(tmp_path, monkeypatch):
    """The kit names itself."""
    (tmp_path / "rt").write_text("#!/bin/sh\necho kit of $*\n")
    (tmp_path / "rt").chmod(0o755)
    monkeypatch.setenv("PATH", "%s:%s" % (tmp_path, os.environ["PATH"]))
    assert prebuilt.kit() == "kit of version"


def raised(fault):
    """Raises a fault."""
    raise fault


def test_ended():
    """A process ends with the status of its work, with the line of a fault, or as by an interrupt."""
    fault = prebuilt.Fault("why")
    for main, due in ((lambda: 3, 3), (lambda: raised(fault), "made: why"), (lambda: raised(KeyboardInterrupt), 130)):
        with pytest.raises(SystemExit) as ended:
            prebuilt.ended_by_faults("made", main)
        assert ended.value.code == due


def test_stored_request(top):
    """What is wrong with an answer to the request that is kept."""
    ask = prebuilt.run_stored_request
    assert ask(["sh", "-c", "cat; echo b"]) is None and ask(["sh", "-c", "cat; echo $IT"], {"env": {"IT": "b"}}) is None
    assert ask(["cat"]) == "its answer to the stored request is another"
    assert ask(["sh", "-c", "echo one >&2; echo two >&2; exit 3"]) == "status 3 on the stored request: two"
    assert ask(["/no/tool"]) == "[Errno 2] No such file or directory: '/no/tool'" and top


ROWS = ["sources " + "0" * 64, "kit a b", "mkstrike " + "1" * 64, "library-sources " + "2" * 64, "libmkstrike_c.a " + "3" * 64]
ARM = "libmkstrike_c-aarch64.a " + "4" * 64
WEB = ["module-sources " + "5" * 64, "mkstrike.wasm " + "6" * 64, "program.wasm " + "7" * 64]


def test_manifest(tmp_path, monkeypatch):
    """A manifest has five lines, then that of the library for ARM, then those of the modules; other lines are a fault."""
    monkeypatch.setattr(prebuilt, "DIST", str(tmp_path))
    all_of = ("0" * 64, "a b", *(str(k) * 64 for k in range(1, 8)))
    for rows, due in ((ROWS, all_of[:5] + (None,) * 4), (ROWS + [ARM], all_of[:6] + (None,) * 3), (ROWS + [ARM, *WEB], all_of),
                      (ROWS + WEB, all_of[:5] + (None,) + all_of[6:])):
        text = "".join(it + "\n" for it in rows)
        (tmp_path / "manifest").write_text(text)
        assert tuple(prebuilt.read_manifest()) == due
        assert prebuilt.manifest_of(prebuilt.Manifest(*due)) == text.encode()
    for rows in (ROWS[:4], ROWS + [ARM, ARM], ROWS + WEB[:1], ROWS + WEB[1:], ROWS + ["more"], ROWS[::-1]):
        (tmp_path / "manifest").write_text("".join(it + "\n" for it in rows))
        assert fault_of(prebuilt.read_manifest).endswith("have the lines sources kit mkstrike library-sources libmkstrike_c.a")

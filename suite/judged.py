"""Worked examples of what the runner judges, says and draws, each with what is due, found by hand. check_runner tries them."""
import contextlib
import importlib.machinery
import importlib.util
import io
import json
import os
import shlex
import signal
import subprocess
import sys
import tempfile

import compare
import listing
import machine_readable
import paths
import report
import tool
from making import fonts

HERE = os.path.dirname(os.path.realpath(__file__))
TRIANGLE = [[0, 0, 1], [0, 64, 1], [64, 0, 1]]
GLYPH = {"advance": 640, "outline": [TRIANGLE], "bits": {"box": [1, 1, 0, 0], "rows": ["80"]}}
HALT = {"refusal": {"name": "StackUnder", "address": 2}}
BITS, OUTLINE, PATH = ("%s that %s not of the protocol" % it for it in (("bits", "are"), ("an outline", "is"), ("a path", "is")))


def moved(dx, dy, on=1):
    """The glyph with its last point elsewhere."""
    return {**GLYPH, "outline": [TRIANGLE[:2] + [[64 + dx, dy, on]]]}


def path(dx=0, dy=0, *more):
    """The glyph as a path, with its last point elsewhere."""
    return {"advance": 640, "path": [["move", 0, 0], ["line", 0, 64], ["line", 64 + dx, dy], *more]}


def bits(box, rows):
    """An answer of pixels."""
    return {"bits": {"box": box, "rows": rows}}


# An answer to the case "one", and what is wrong with its form.
FORMS = [
    ({}, None), ({**GLYPH, "id": "one"}, None), ({"id": "two"}, "an answer to two"),
    ({"refusal": "text"}, "a refusal that is no object"),
    ({"bits": ["80"]}, BITS), (bits([1, 1, 0], ["80"]), BITS), (bits([1, 1, 0, 0.5], ["80"]), BITS),
    (bits([1, 2, 0, 0], ["80"]), BITS),
    (bits([1, 1, 0, 0], "8"), BITS), (bits([1, 1, 0, 0], ["8"]), BITS), (bits([1, 1, 0, 0], ["8g"]), BITS),
    (bits([1, 1, 0, 0], [80]), BITS),
    (bits([64, 1, 0, 0], ["0123456789ABCDEF"]), None), (bits([9, 1, 0, 0], ["8000"]), None), (bits([8, 1, 0, 0], ["80"]), None),
    (bits([0, 0, 0, 0], []), None),
    ({"outline": {}}, OUTLINE), ({"outline": [{}]}, OUTLINE), ({"outline": [[[0, 0]]]}, OUTLINE),
    ({"outline": [[[0, 0.5, 1]]]}, OUTLINE),
    ({"path": [["line", 0, 0]]}, PATH), ({"path": [["move", 0]]}, PATH), ({"path": [["move", 0, "0"]]}, PATH),
    ({"path": "move"}, PATH),
    ({"path": [["curve", 0, 0]]}, PATH), ({"path": [["move", 0, 0], ["quad", 1, 2, 3.5, 4]]}, None),
    ({"advance": 1.5}, "an advance that is no whole number"),
]
# What is expected, the answer, and what is wrong with it.
ANSWERS = [
    (GLYPH, GLYPH, None), ({"advance": 640, "outline": [TRIANGLE]}, GLYPH, None), (GLYPH, path(), None), (GLYPH, {}, "no answer"),
    (GLYPH, {"advance": 640}, None),
    (HALT, GLYPH, "not refused: StackUnder"), (HALT, {"refusal": {"text": "words"}}, None), (HALT, HALT, None),
    (HALT, {"refusal": {"name": "BadOpcode"}}, "name BadOpcode in place of StackUnder"),
    (HALT, {"refusal": {"address": 3}}, "address 3 in place of 2"),
    ({"missing": True}, {"missing": True}, None), ({"missing": True}, GLYPH, "a glyph, and the map has none"),
    (GLYPH, {"missing": True}, "missing, and the map has a glyph"), (GLYPH, HALT, "refused: StackUnder"),
    (GLYPH, {"refusal": {"text": "words"}}, "refused: words"), (GLYPH, {"refusal": {}}, "refused: no name"),
    (GLYPH, {**GLYPH, "advance": 639}, "advance 639 in place of 640"), (GLYPH, bits([1, 1, 1, 0], ["80"]), "bits"),
    (GLYPH, {**GLYPH, "advance": 0, **bits([0, 0, 0, 0], [])}, "advance 0 in place of 640, bits"),
    (GLYPH, {"outline": [TRIANGLE[:2]]}, "another number of points"), (GLYPH, {"outline": []}, "another number of points"),
    (GLYPH, moved(0, 0, 0), "on or off the curve at 1 points"), (GLYPH, moved(2, -3), "1 points, by up to 3/64 pixel"),
    (GLYPH, moved(-5, 1), "1 points, by up to 5/64 pixel"), (GLYPH, moved(4, 0, 0), "1 points, by up to 4/64 pixel"),
    (GLYPH, {"outline": [[[x + 1, y + 2, on] for x, y, on in TRIANGLE]]}, "3 points, by up to 2/64 pixel"),
    (GLYPH, path(0.9), None), (GLYPH, path(1.234), "1 contours, by up to 1.23/64 pixel"),
    (GLYPH, path(0, -2), "1 contours, by up to 2/64 pixel"),
    (GLYPH, path(0, 0, ["line", 0, 0]), None), (GLYPH, path(0, 0, ["line", 9, 9]), "another number of segments"),
    (GLYPH, path(0, 0, ["quad", 9, 9, 0, 0]), "lines and arcs in another order"), (GLYPH, path(0, 0, ["move", 5, 5]), None),
    (GLYPH, {"advance": 640, "path": [["move", 64, 0], ["line", 0, 0], ["line", 0, 64]]}, None),
]
# The same if each answer must be whole.
WHOLE = [(GLYPH, GLYPH, None), ({"advance": 640, "outline": [TRIANGLE]},) * 2 + (None,),
(GLYPH, {"advance": 640}, "a part of the answer is missing"), (HALT, HALT, None),
         (HALT, {"refusal": {"name": "StackUnder"}}, "address None in place of 2")]
# What a case adds, the answer, whether each must be the written one, and its kind.
OWN, NEAR = {"own": "a choice"}, {"own": "a choice", "within": 2}
KINDS = [
    ({}, GLYPH, False, "passed"), ({}, moved(1, 0), False, "wrong"), (OWN, moved(9, 0), False, "own"),
    (OWN, moved(9, 0), True, "wrong"),
    (OWN, HALT, False, "own"), (OWN, {"broken": "it ended"}, False, "wrong"), (OWN, {"advance": 1.5}, False, "wrong"),
    ({}, {"unsupported": "this"}, False, "skipped"), ({}, {"unsupported": "this"}, True, "wrong"),
    (NEAR, moved(2, 0), False, "own"), (NEAR, moved(0, -2), False, "own"), (NEAR, moved(3, 0), False, "wrong"),
    (NEAR, moved(0, -3), False, "wrong"), (NEAR, moved(1, 0, 0), False, "wrong"), (NEAR, {"outline": []}, False, "wrong"),
    (NEAR, {**moved(1, 0), "advance": 642}, False, "own"), (NEAR, {**moved(1, 0), "advance": 643}, False, "wrong"),
    (NEAR, {**GLYPH, **bits([0, 0, 0, 0], [])}, False, "wrong"), (NEAR, HALT, False, "own"),
    (NEAR, path(2), False, "own"), (NEAR, path(3), False, "wrong"), (NEAR, {**path(1), "advance": 638}, False, "own"),
    (NEAR, {**path(1), "advance": 637}, False, "wrong"), (NEAR, {**path(1), **moved(2, 0)}, False, "own"),
    (NEAR, {**path(3), **moved(2, 0)}, False, "wrong"), (NEAR, {**path(1), **moved(3, 0)}, False, "wrong"),
]
# A program, and its listing.
LISTINGS = [("", []), ("B0 05 2F", [(0, "PUSHB 5"), (2, "MDAP:1")]), ("01 28", [(0, "SVTCA:1"), (1, "#28")]),
            ("00 5C 21 FF", [(0, "SVTCA:0"), (1, "NOT"), (2, "POP"), (3, "MIRP:1F")]),
            ("20 B8 FF", [(0, "DUP"), (1, "#B8FF")]), ("41 01 FF FE C4", [(0, "NPUSHW -2"), (4, "MDRP:4")])]
# A glyph of one pixel in column 1 and row 2, and another one of the pixel beside it.
SQUARE = {"advance": 128, "outline": [[[64, 128, 1], [64, 192, 1], [128, 192, 0], [128, 128, 1]]], **bits([1, 1, 1, 2], ["80"])}
BESIDE = {**SQUARE, "outline": [[[64, 128, 1], [64, 192, 1], [129, 192, 0], [128, 128, 1]]], **bits([1, 1, 2, 2], ["80"])}
FRAME = "<figure><svg width=%d height=%d viewBox='-32 -224 %d 256' role=img aria-label='%s'>"
PICTURES = {
    "expected": [FRAME % (262, 262, 256, "expected"), "<rect x=66 y=-190 width=60 height=60 fill='#b9c7d6'/>",
                 "<rect x=66 y=-190 width=60 height=60 fill='#d9534f'/>", "d='M64 -128 L64 -192 Q128 -192 128 -128 L64 -128'",
                 "<circle cx=64 cy=-128 r='2.8' fill='#345' stroke='#345' stroke-width='1.0'/>",
                 "<circle cx=128 cy=-192 r='2.8' fill='#fff' stroke='#c00' stroke-width='1.0'/>", ">expected, advance 128<"],
    "given": [FRAME % (262, 262, 256, "given"), "<rect x=130 y=-190 width=60 height=60 fill='#d9534f'/>",
    "<circle cx=129 cy=-192 "],
    "difference": [FRAME % (262, 262, 256, "difference"), "<rect x=66 y=-190 width=60 height=60 fill='#3b7dd8'/>",
                   "<rect x=130 y=-190 width=60 height=60 fill='#d9534f'/>", "1 missing (blue), 1 too many (red)"],
}


def runner():
    """The runner as a module."""
    loader = importlib.machinery.SourceFileLoader("runner", os.path.join(HERE, "run"))
    module = importlib.util.module_from_spec(importlib.util.spec_from_loader("runner", loader))
    loader.exec_module(module)
    return module


def compared():
    """What the runner judges, beside what is due."""
    yield from ((answer, compare.not_of_the_protocol("one", answer), due) for answer, due in FORMS)
    yield from ((answer, compare.wrong(expected, answer), due) for expected, answer, due in ANSWERS)
    yield from ((answer, compare.wrong(expected, answer, True), due) for expected, answer, due in WHOLE)
    yield from ((answer, compare.only_pixels(answer, "bits"), due) for answer,
        due in ((GLYPH, True), (path(), True), (bits([0] * 4, []), False)))
    result = runner().Result
    for more, answer, every, due in KINDS:
        yield (more, answer), result({"id": "one", "expect": GLYPH, **more}, answer, every).kind, due
    ring = [[0, 0, 0], [4, 0, 0], [4, 4, 0], [0, 4, 0]]
    yield "implied points", paths.of_outline([ring]), [[(2,
        0, 4, 0, 4, 2), (4, 2, 4, 4, 2, 4), (2, 4, 0, 4, 0, 2), (0, 2, 0, 0, 2, 0)]]
    yield "off the curve first", paths.of_outline([[[9, 9, 0], [0, 0, 1], [6, 0, 1]]]), [[(0, 0, 6, 0), (6, 0, 9, 9, 0, 0)]]
    yield "lines of no length", paths.of_outline([[[1, 2, 1], [1, 2, 1], [5, 5, 1]], [[7, 8, 1]]]), [[(1, 2, 5, 5), (5, 5, 1, 2)]]
    yield "a closed path", paths.of_path(path(0, 0, ["line", 0, 0])["path"]), paths.of_path(path()["path"])
    asked = {"id": "one", "ppem": 9, "face": 1, "glyph": 3, "char": 65, "hinted": True, "dropout": "left", "want": ["bits"]}
    seen = {**asked, "font": os.path.join(HERE, "fonts", "em-16.ttf")}
    for version, due in ((2, seen), (1, {**seen, "dropout": True})):
        yield "a request", tool.request_of({**asked, "font": "em-16.ttf", "group": "two", "expect": GLYPH}, version), due
    for more, due in (({"face": 1}, "faces of collections"), ({"dropout": "near"}, "drop-out control: near"),
                      ({"dropout": "left"}, None), ({}, None)):
        yield "what version 1 lacks", tool.needs_two({"dropout": False, **more}), due
    yield "a tool that takes nothing", list(Deaf("deaf").answers([{"id": "one", "dropout": False}])), [
        ({"id": "one", "dropout": False}, {"broken": "the tool ended or did not answer"})]
    yield from ((code, list(listing.listed(bytes.fromhex(code))), due) for code, due in LISTINGS)


class Deaf(tool.Tool):
    """A tool that starts, and takes no request."""

    def start(self):
        self.version = 2
        return True

    def send(self, case, version):
        return False

    def next_line(self):
        raise AssertionError("nothing waits for an answer")


# A tool that gives each request its id again, and ends at its fourth, which is the third case.
ENDS = """import json, sys
for number, line in enumerate(sys.stdin):
    print(json.dumps({"id": json.loads(line)["id"]}), flush=True) if number < 3 else sys.exit()
"""


def talked():
    """What a tool's processes answer, beside what is due: a request at which one ends has no answer, and the others have theirs."""
    cases = [{"id": name, "font": "scan.ttf", "dropout": False} for name in "abcdefg"]
    silent = tool.Tool(shlex.join([sys.executable, "-c", "input()"]))
    process = silent.process = subprocess.Popen(silent.command, stdin=subprocess.PIPE)
    silent.stop()
    process.stdin.close()
    yield "a tool that is stopped", process.returncode, -signal.SIGKILL
    mute = tool.Tool(shlex.join([sys.executable, "-c", "pass"]))
    with contextlib.suppress(tool.NeverStarted):
        list(mute.answers([{"dropout": False}]))
    yield "a tool that never starts", mute.process, None
    it, broken = tool.Tool(shlex.join([sys.executable, "-c", ENDS])), {"broken": "the tool ended or did not answer"}
    yield "a tool that ends", list(it.answers(cases)), [(it, broken if it["id"] in "cf" else {"id": it["id"]}) for it in cases]
    yield "the process of a tool", it.process, None
    cases = [{"id": str(k), "font": "scan.ttf", "dropout": False, "expect": GLYPH} for k in range(53)]
    for quiet, due in ((False, "\r[%-30s] 50 of 53\r[%s] 53 of 53\n" % ("#" * 28, "#" * 30)), (True, "")):
        with contextlib.redirect_stderr(io.StringIO()) as said:
            results = runner().run_all(shlex.join([*it.command[:-1], ENDS.replace("3", "99")]), cases, 2, quiet, False)
        yield "the bar of a run", said.getvalue(), due
        yield "the order of results", [result.case["id"] for result in results], [case["id"] for case in cases]


def drawn():
    """What pictures have, beside what is due."""
    made = {"expected": report.figure("expected", SQUARE, SQUARE, BESIDE), "given": report.figure("given", BESIDE, SQUARE, BESIDE),
            "difference": report.difference(SQUARE, BESIDE)}
    for name, parts in PICTURES.items():
        yield from (("a picture: " + part, part in made[name], True) for part in parts)
        yield "squares of " + name, made[name].count("<rect"), 2
    bars = [(-62, -126, 188), (450, -126, 60), (-62, -62, 60)]
    yield "runs of pixels", report.pixels(bits([9, 2, -1, 0], ["E080", "8000"])), "".join(
        "<rect x=%d y=%d width=%d height=60 fill='#b9c7d6'/>" % it for it in bars)
    case = {"id": "one", "about": "a rule", "expect": SQUARE, "font": "scan.ttf", "hinted": False}
    for answer, due in ((BESIDE, False), ({**SQUARE, **bits([1, 1, 2, 2], ["80"])}, True)):
        yield "a hint in a page", compare.HINT in report.section(runner().Result(case, answer, False)), due
    yield "pixels of rows", report.pixel_set(bits([9, 2, -1, 0], ["E080", "8000"])), {(-1, 1), (0, 1), (1, 1), (7, 1), (-1, 0)}
    alone, low, none = bits([1, 1, 1, 2], ["80"]), bits([1, 1, -3, -2], ["80"]), bits([0, 0, 0, 0], [])
    for answer, due in ((alone, "width=197 height=262 viewBox='-32 -224 192 256'"),
                        (low, "width=262 height=197 viewBox='-224 -32 256 192'")):
        picture = report.figure("given", answer, {"outline": []}, answer)
        yield "a picture of pixels alone", (due in picture, picture.count("<rect")), (True, 1)
    for one, other, due in ((SQUARE, bits([1, 1, 9, 2], ["80"]), "width=262 height=96 viewBox='-32 -224 704 256'"),
                            (SQUARE, none, "1 missing (blue), 0 too many (red)"),
                            (none, SQUARE, "0 missing (blue), 1 too many (red)"),
                            (SQUARE, low, "1 missing (blue), 1 too many (red)")):
        yield "a difference", due in report.difference(one, other), True
    yield "no difference", [report.difference(SQUARE, {"outline": []}), report.difference(none, none)], ["", ""]
    wide = report.figure("expected", {**SQUARE, "outline": [[[0, 0, 1], [640, 0, 1]]]}, SQUARE, {"outline": [[[640, 0, 1]]]})
    yield "a wide picture", wide.startswith("<figure><svg width=262 height=96 viewBox='-32 -224 704 256'"), True
    yield "no pixels", report.difference({"outline": []}, {"outline": []}), ""
    yield "a dot", report.dots([[(3, 4, 1)]], 900, ({}, {})), (
        "<circle cx=3 cy=-4 r='10.0' fill='#345' stroke='#345' stroke-width='3.6'/>")
    yield "lines", report.lines([TRIANGLE], 600), "<path d='M0 0 L0 -64 L64 0 L0 0' fill=none stroke='#345' stroke-width='2.00'/>"
    yield "a way", report.way_of([[8, 4, 1], [64, 0, 1], [0, 64, 0]]), "M8 -4 L64 0 Q0 -64 8 -4"
    yield "a refusal", report.figure("given", HALT, GLYPH, HALT), "<figure><figcaption>given</figcaption><pre>%s</pre></figure>" % (
        "{&#x27;refusal&#x27;: {&#x27;name&#x27;: &#x27;StackUnder&#x27;, &#x27;address&#x27;: 2}}")


def results_of(run):
    """Five results of two groups: two are wrong, one of them by its pixels."""
    case = {"about": "a rule", "expect": GLYPH, "font": "scan.ttf", "hinted": False}
    rows = [("one/a", {}, GLYPH), ("one/b", {}, moved(1, 0)), ("two/c", OWN, moved(2, 0)),
        ("two/d", {}, {**GLYPH, **bits([0, 0, 0, 0], [])}),
            ("two/e", {}, {"unsupported": "this"})]
    return [run.Result({**case, "id": name, "group": name[:3], **more}, answer, False) for name, more, answer in rows]


def pages():
    """What a report has, beside what is due."""
    results, found = results_of(runner()), {}
    yield "how many differences are drawn", report.MOST, 400
    for most in (400, 1):
        with tempfile.TemporaryDirectory() as folder:
            report.MOST = most
            for _ in range(2):
                report.write(os.path.join(folder, "new"), "a & b", results)
            for name in ("index", "one", "two"):
                with open(os.path.join(folder, "new", name + ".html"), encoding="utf-8") as file:
                    found[name, most] = file.read()
    report.MOST = 400
    due = {"index": ["<title>TrueType suite: a &amp; b</title>", "Tool: <code>a &amp; b</code>",
                     "<tr><td><a href='one.html'>one</a><td>2<td>1<td>1<td>0<td>0\n"
                     "<tr><td><a href='two.html'>two</a><td>3<td>0<td>1<td>1<td>1"
                     "<tr><th>all<td>5<td>1<td>2<td>1<td>1</table>"],
           "one": ["<title>one</title>", "<p>2 cases, 1 with a difference.</p>", "<ul class=all><li><a href='#one/b'>b</a></ul>",
                   "<h2 id='one/b'>one/b</h2><p>a rule. "
                   "<code>{&quot;font&quot;: &quot;scan.ttf&quot;, &quot;hinted&quot;: false}</code></p>"],
           "two": ["<p>3 cases, 2 with a difference.</p>", "<li><a href='#two/d'>d</a><li><a href='#two/c'>c</a></ul>",
                   "<p>Unsupported: this (1)</p>", "<p class=own>Own choice: a choice</p>"]}
    yield from (("a page: " + part, part in found[name, 400], True) for name, parts in due.items() for part in parts)
    cut = (", of which the first 1 are drawn.</p>", "<li><a href='#two/d'>d</a></ul>")
    yield "a cut page", [it in found["two", 1] for it in cut], [True] * 2
    drawn_there = ("1 missing (blue), 0 too many (red)", ">expected, advance 640<", ">given, advance 640<")
    yield "what a page draws", [it in found["two", 1] for it in drawn_there], [True] * 3
    yield "reasons", [found[name, 400].count("Unsupported: ") for name in ("one", "two")], [0, 1]
    yield "sections", [found["two", most].count("<h2 ") for most in (400, 1)], [2, 1]
    yield "a path in a page", report.points_of([["move", 0, 0], ["line", 0, 64], ["quad", 9, 8, 7, 6]]), [
        [[0, 0, 1], [0, 64, 1], [9, 8, 0], [7, 6, 1]]]
    yield "a section of a path", report.section(runner().Result(results[0].case, path(9), False)).count("<circle cx=73 cy=0 "), 1


def for_machines():
    """The results as JSON and as JUnit's XML, beside what is due."""
    results, pixel = results_of(runner()), "1 points, by up to %d/64 pixel"
    with tempfile.TemporaryDirectory() as folder:
        names = [os.path.join(folder, name) for name in ("all.json", "junit.xml")]
        machine_readable.write_json(names[0], "tool", results, {"wrong": 2})
        machine_readable.write_junit(names[1], results)
        texts = []
        for name in names:
            with open(name, encoding="utf-8") as file:
                texts.append(file.read())
    yield "the first and the last line of JSON", (texts[0].split("\n")[:2], texts[0][-3:]), (["{", ' "tool": "tool",'], "\n}\n")
    yield "JSON", json.loads(texts[0]), {
        "tool": "tool", "cases": 5, "wrong": 2,
        "groups": {"one": {"passed": 1, "wrong": 1}, "two": {"own choice": 1, "wrong": 1, "unsupported": 1}},
        "results": [{"id": "one/a", "result": "passed"}, {"id": "one/b", "result": "wrong", "fault": pixel % 1},
                    {"id": "two/c", "result": "own choice", "fault": pixel % 2, "own": "a choice"},
                    {"id": "two/d", "result": "wrong", "fault": "bits"},
                    {"id": "two/e", "result": "unsupported", "unsupported": "this"}]}
    yield "JUnit", texts[1].splitlines(), [
        '<?xml version="1.0" encoding="UTF-8"?>', "<testsuites>", '<testsuite name="one" tests="2" failures="1" skipped="0">',
        '<testcase classname="one" name="one/a"/>',
        '<testcase classname="one" name="one/b"><failure message="%s">a rule</failure></testcase>' % (pixel % 1), "</testsuite>",
        '<testsuite name="two" tests="3" failures="1" skipped="2">',
        '<testcase classname="two" name="two/c"><skipped message="own choice: a choice: %s"/></testcase>' % (pixel % 2),
        '<testcase classname="two" name="two/d"><failure message="bits">a rule</failure></testcase>',
        '<testcase classname="two" name="two/e"><skipped message="this"/></testcase>', "</testsuite>", "</testsuites>"]


class Chain:
    """A font in which each glyph is made of the next one, and has a program."""
    tables = {}

    def __init__(self, *_):
        pass

    @staticmethod
    def glyph_bytes(number):
        return fonts.composite([(number + 1, 0, 0)], b"\x00")


def programs():
    """The listings of programs that cases run, beside what is due."""
    with open(os.path.join(HERE, "cases.jsonl"), encoding="utf-8") as lines:
        cases = {case["id"]: case for case in map(json.loads, lines) if case["group"] in ("halts", "composites", "functions",
        "maps", "faces")}
    case = cases["composites/program-0-moved-hinted"]
    yield "programs of a composite", listing.programs(case), [
        ("glyph %d" % case["glyph"], [(0, "SVTCA:1"), (1, "PUSHB 0"), (3, "MDAP:1")]),
        ("glyph 4",
         [(0, "SVTCA:1"), (1, "PUSHB 0"), (3, "MDAP:1"), (4, "PUSHB 2"), (6, "MDRP:1"), (7, "IUP:1"), (8, "PUSHB 5 70"),
          (11, "SHPIX"),
                     (12, "PUSHW 4 -64"), (17, "SHPIX")])]
    yield "without hinting", listing.programs(cases["composites/program-0-moved-unhinted"]), []
    yield "of a font", [name for name, _ in listing.programs(cases["functions/cvt-of-prep"])], [
        "glyph %d" % cases["functions/cvt-of-prep"]["glyph"], "prep", "fpgm"]
    halt = report.programs(cases["halts/opcode-in-function"])
    yield "a halt", "   22  FDEF\n   23  #28    &lt;- halts: BadOpcode\n   24  ENDF\n" in halt, True
    yield "halts and what is open", [halt.count(it) for it in ("halts:",
        "<details open><summary>glyph", "<details><summary>fpgm")], [1, 1, 1]
    for name, due in (("maps/delta-20", 2), ("maps/delta-23", 0), ("maps/broken-falling-41", 0)):
        with open(os.path.join(HERE, "fonts", cases[name]["font"]), "rb") as file:
            yield name, listing.glyph_of(listing.Font(file.read()), cases[name]), due
    yield "components of components", [name for name, _ in listing.of_glyph(Chain, 0, 0)], ["glyph %d" % k for k in range(9)]
    font, listing.Font = listing.Font, Chain
    yield "as deep as components may be", len(listing.programs({"font": "em-16.ttf", "hinted": True, "glyph": 0})), 9
    listing.Font = font
    yield "a face that is not there", listing.programs({**cases["faces/alone-1-glyph-2"], "hinted": True}), []


def said():
    """What the runner says of results and of causes, beside what is due."""
    run = runner()
    results = results_of(run)
    table = ["group          cases  passed   wrong  own choice  unsupported",
    "one                2       1       1           0            0",
             "two                3       0       1           1            1",
             "all                5       1       2           1            1"]
    yield "the table", text_of(run.summary, results), table
    yield "the differences", text_of(run.show, results, 9), [
        "one/b: 1 points, by up to 1/64 pixel (a rule)", "two/d: bits (a rule)",
        "In 1 of 2 wrong answers the outline is right: look at drop-out control, the fill rule and the frame "
        "(--report draws them)."]
    yield "one difference", text_of(run.show, results, 1)[0], "one/b: 1 points, by up to 1/64 pixel (a rule)"
    yield "no difference", text_of(run.show, results[:1], 9), []
    yield from called(run, results)
    head = ["", "  wrong     own  cause, and the first case"]
    for lines, due in (([], ["      0       1  own choice: a choice (two/c)", "      2       0  unknown (one/b)",
                             "  unknown: one/b: 1 points, by up to 1/64 pixel", "  unknown: two/d: bits"]),
                       ([{"cause": "A", "cases": "one/"}, {"cause": "B", "cases": "(one|two)/", "faults": "^bits$"},
                        {"cause": "C", "cases": "three"}],
                        ["      1       0  A (one/b)", "      1       0  B (two/d)",
                         "      0       1  own choice: a choice (two/c)",
                         "      0       0  unknown"]),
                       ([{"cause": "A", "cases": ""}], ["      2       1  A (one/b)", "      0       0  unknown"])):
        with tempfile.NamedTemporaryFile("w", suffix=".causes") as file:
            file.write("".join(json.dumps(it) + "\n" for it in lines))
            file.flush()
            yield "causes", text_of(run.by_cause, file.name, results), head + due


def called(run, results):
    """What the runner does if only a tool is named, beside what is due: of twelve wrong answers ten are shown."""
    wrong, arguments, asked = [results[1]] * 12, sys.argv, []
    run.cases_of = lambda only: asked.append(only) or ["a case"] * len(given)
    run.run_all = lambda *words: asked.extend(words) or given
    sys.argv = ["run", "--with", "a tool"]
    for given, due in ((wrong, 10), (wrong[:9], 9), (results[:1], 0)):
        lines = text_of(lambda: asked.append(run.main()))
        yield "how many are shown", sum(line.startswith("one/b: ") for line in lines), due
        jobs, quiet = min(os.cpu_count() or 1, len(given)), not sys.stderr.isatty()
        yield "what was asked for", asked[:], ["", "a tool", ["a case"] * len(given), jobs, quiet, False, 1 if due else 0]
        yield "the last line", lines[-1], "%d cases, %d wrong, 0 own choice, 0 unsupported" % (len(given), len(given) if due else 0)
        asked.clear()
    sys.argv = arguments


def text_of(function, *arguments):
    """The lines that a function prints."""
    with contextlib.redirect_stdout(io.StringIO()) as out:
        function(*arguments)
    return out.getvalue().splitlines()


def faults():
    """What is not as it must be, and the count of examples."""
    tried = [*compared(), *talked(), *drawn(), *pages(), *for_machines(), *programs(), *said()]
    return ["%s: %s in place of %s" % it for it in tried if it[1] != it[2]], len(tried)

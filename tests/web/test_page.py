"""The page in Chromium: each test begins with a page that was just opened, and leaves no complaint in its console.

MKSTRIKE_PICTURES=FOLDER keeps pictures of the page there. Times are processor times, so that other work on the machine fails
nothing."""
import atexit
import functools
import http.server
import itertools
import json
import os
import random
import re
import struct
import subprocess
import sys
import threading
import urllib.parse

import engine
import hands
import png
import prebuilt
import pytest
import sample_font
import web_page
from engine import AT_FIRST, DROPOUT, DROPOUT_FONT, DROPOUT_NEAR, DROPOUTS, HINTED, MODES, SAMPLE, SANS, SEED, SQUARE
from engine import installed_fonts
from making import fonts
from needs import tool
from prebuilt import TOP

sys.path.append(os.path.join(TOP, "python"))
from mkstrike import Strike  # noqa: E402

IN_BROWSER = 20  # fonts
CONTRAST = 4.5  # of text, as WCAG 2.2 has it for level AA
PATIENCE = 100  # milliseconds of the page's and its worker's processor time for a change of size
LETTERS = "30-39,41-5a,61-7a"  # of which the ladder counts those that fall apart
LONGEST = 500  # milliseconds of processor time in which the page does not look at keys and clicks
MOST_PICTURE = 60000000  # pixels of a text's picture at the zoom
NAMES = 200  # of fonts' files, for the comment of a header
# What may end a comment of C or hide its end: lines that are joined, trigraphs, ends of lines.
ENDS = ["*/", "**//", "*\\\n/", "*\\\r/", "*??/\n/", "*??/\r/", "\\", "??/", "/*", "//", "\u2028", "\r", "\n", "*\0/", "\x1b",
        "\u00e9", " x"]


@pytest.fixture(name="page", scope="module")
def opened_browser(tmp_path_factory):
    """The page in a browser, which ends with the tests."""
    page = hands.Page(engine.modules(), tmp_path_factory.mktemp("page"), os.environ.get("MKSTRIKE_PICTURES"))
    atexit.register(page.browser.close)
    return page


# Of one font the English name counts, of the other those for an old Macintosh, family and style.
NAMED = fonts.name_table((1, 0, 0, 4, b"Wrong"), (3, 1, 0x407, 4, "Falsch".encode("utf-16-be")),
                         (3, 1, 0x409, 4, "Mine \u00c4 Bold".encode("utf-16-be")))
NAMED_OF_OLD = fonts.name_table((1, 0, 0, 1, b"Old"), (1, 0, 0, 2, b"One\7"), (2, 0, 0, 4, b"Wrong"))


def pixels_of(glyph):
    """The pixels of a glyph from its origin, rows upwards."""
    return {(glyph.left + x, glyph.top - 1 - y) for y, row in enumerate(glyph) for x, it in enumerate(row) if it}


def first(page):
    """The page asks the network for nothing, can send nothing, draws at once, and offers to save without scrolling."""
    page.picture("first", True)
    for width, height in ((400, 700), (1200, 700)):
        page.browser.call("Emulation.setDeviceMetricsOverride", width=width, height=height, deviceScaleFactor=1, mobile=False)
        ends = page.browser.evaluate(
            "[...document.querySelectorAll('#save [data-save]')].map((it) => it.getBoundingClientRect().bottom)")
        assert len(ends) == 4 and max(ends) < height, "a button that saves is below what is in sight: %s of %d" % (ends, height)
    page.browser.call("Emulation.clearDeviceMetricsOverride")
    kept = page.browser.evaluate(
        "[...document.querySelectorAll('meta[property], link[rel=icon]')].map((it) => it.content ?? it.href.slice(0, 19))")
    assert len(kept) == 4 and kept[-1] == "data:image/svg+xml," and all(kept), "tags for icon and preview: %s" % kept
    asked = [it for it in page.browser.requests() if not it.startswith(("file://" + page.path, "blob:"))]
    assert not asked, "the page asked for %s" % asked[:3]
    assert page.browser.evaluate(SENDING_SCRIPT) == "connect-src", "the page's policy lets it send"
    page.browser.events.clear()
    if page.pictures:
        # the picture that README shows
        page.browser.call("Emulation.setDeviceMetricsOverride", width=1000, height=1000, deviceScaleFactor=1, mobile=False)
        page.browser.call("Emulation.setScrollbarsHidden", hidden=True)
        page.set("ppem", "16")
        page.picture("page")
        page.browser.call("Emulation.setScrollbarsHidden", hidden=False)
        page.browser.call("Emulation.clearDeviceMetricsOverride")
    took = min(sum(map(sum, page.browser.tasks(functools.partial(page.set, "ppem", size)).values()))
               for size in ("17", "18", "19", "16"))
    assert took <= PATIENCE, "a change of size takes %.0f ms of processor time" % took


def controls(page):
    """Each control changes what it is for, and changed back it is as before."""
    for control, value, old, canvas in (
            ("ppem", "9", "16", "main"), ("ppem-slider", "30", "16", "main"), ("hinted", False, True, "main"),
            ("dropout", "off", "font", "other"), ("dropout", "near", "font", "other"), ("text", "Other", None, "main"),
            ("beside", "larger", "hinted", "other"), ("beside", "smaller", "hinted", "other")):
        old = page.value_of(control) if old is None else old
        before = page.seen(canvas)
        page.set(control, value)
        between = page.seen(canvas)
        page.set(control, old)
        assert between != before and page.seen(canvas) == before, "the control %s does not do what it is for" % control
    page.set("beside", "none")
    hidden = page.browser.evaluate("document.getElementById('other-figure').hidden")
    page.set("beside", "hinted")
    for control, value, old in (("zoom", "9", "4"), ("differences", True, False)):
        before = page.seen()
        page.change(control, value)
        between, said = page.seen(), page.text_of("#other-caption")
        if control == "differences":
            page.picture("differences")
        page.change(control, old)
        assert between != before and page.seen() == before and (control == "differences") == ("differ" in said), control
    page.set("chars", "41-43,20")
    four = page.text_of("#sheet-count"), page.text_of("#told")
    page.set("set", "box", "change")
    more = page.text_of("#sheet-count"), page.text_of("#told")
    due = ("4 glyphs", ""), ("4 glyphs", "The font lacks 128 characters: 2500-257f.")
    assert hidden and (four, more) == due, "characters: %r, %r" % (four, more)
    page.set("text", "na\u00efve")
    assert "U+00EF" in page.text_of("#text-missing"), "a missing character is not named"


def address(page):
    """The address keeps the text and the settings, and another address sets them; what a control can't have leaves it as it is."""
    due = {"ppem": "23", "hinted": "false", "dropout": "near", "zoom": "7", "text": "\u00e4 & b\nc=#", "beside": "larger",
           "differences": "true", "chars": "41-43", "rule": "stop", "bytes": "pages", "bits": "msb", "align": "right",
           "flash": "true"}
    values = VALUES_SCRIPT % json.dumps(list(due))
    plain = page.browser.evaluate(values)
    for control, value in due.items():
        page.change(control, {"true": True, "false": False}.get(value, value))
    fragment = urllib.parse.urlencode(due)
    page.browser.until("location.hash.slice(1) === %s" % json.dumps(fragment), "writing the address")
    page.open("#" + fragment)
    assert page.browser.evaluate(values) == due, "another address than %s" % due
    page.drawn_after(lambda: page.browser.evaluate("location.hash = 'ppem=9&dropout=x&zoom=999&beside=x&nothing=x'"),
                     "another address")
    left = {"dropout": "near", "beside": "larger"}  # these two have no x
    assert page.browser.evaluate(values) == {**plain, **left, "ppem": "9", "zoom": "24"}
    page.browser.evaluate("location.hash = 'ppem=x'")
    page.browser.until("document.getElementById('ppem-wrong').innerText", "saying that a size of an address is wrong")


def ladder(page):
    """The first line of the text at each size from 8 to 24: the strike's pixels; a click chooses a size."""
    path, text = page.dropped("sample.ttf", sample_font.sample()), "Sg"
    page.set("text", text + "\nmore")
    page.set("hinted", False)
    assert page.browser.evaluate("!document.body.dataset.ladder"), "the ladder is drawn before it is in sight"
    page.change("zoom", "1")
    page.browser.evaluate("document.getElementById('ladder').scrollIntoView()")
    page.browser.until("document.body.dataset.ladder === `${document.body.dataset.drawn} 17`", "a ladder of 17 sizes")
    rungs = page.browser.evaluate(RUNGS_SCRIPT)
    assert [size for size, _ in rungs] == list(map(str, range(8, 25)))
    for size, rows in rungs:
        strike, pen, due = Strike(engine.answer(path, int(size), DROPOUT_FONT, "53,67")[0]), 0, set()
        for it in text:
            due |= {(pen + x, y) for x, y in pixels_of(strike[it])}
            pen += strike[it].advance
        seen = {(x, -y) for y, row in enumerate(rows) for x, it in enumerate(row) if it == "1"}
        assert moved(seen) == moved(due), "the ladder at %s" % size
    whole = {char: parts(it) for char, it in Strike(engine.answer(path, 80, DROPOUT, LETTERS)[0]).items()}
    for size, said in page.browser.evaluate("[...document.querySelectorAll('#ladder > div')].map((it) => [it.firstChild, "
                                            "it.lastChild].map(({ textContent }) => textContent))"):
        with_control, without = (Strike(engine.answer(path, int(size), mode, LETTERS)[0]) for mode in (DROPOUT_FONT, 0))
        apart = [sum(not 1 <= parts(it) <= whole[char] for char, it in made.items()) for made in (with_control, without)]
        assert said == "%d × %d: %d of 62 fall apart, %d without drop-out control" % (
            max(it.advance for it in with_control.values()), with_control.ascent + with_control.descent, *apart)
    page.set("dropout", "off")
    page.browser.until("document.body.dataset.ladder === `${document.body.dataset.drawn} 17`", "a ladder without drop-out control")
    said = page.text_of("#ladder > div:last-child span")
    assert re.fullmatch(r"\d+ × \d+: %d of 62 fall apart" % apart[1], said)
    page.set("dropout", "font")
    page.drawn_after(lambda: page.browser.evaluate("document.querySelectorAll('#ladder button')[3].click()"), "choosing a size")
    assert (page.value_of("ppem"), page.value_of("ppem-slider")) == ("11", "11")


def parts(glyph):
    """How many parts the pixels of a glyph are in; those that touch at a corner are in one."""
    left, count = pixels_of(glyph), 0
    while left:
        count, found = count + 1, [left.pop()]
        for x, y in found:
            near = {(x + dx, y + dy) for dx in (-1, 0, 1) for dy in (-1, 0, 1)} & left
            left -= near
            found += near
    return count


def moved(pixels):
    """Pixels, counted from the least column and row of them."""
    left, bottom = (min(it[k] for it in pixels) for k in (0, 1))
    return {(x - left, y - bottom) for x, y in pixels}


def captions(page):
    """The captions say what is drawn: the size, the mode, the pixels of the text, and how many differ."""
    # a glyph whose program makes its advance a pixel wider
    wide = fonts.simple([[(100, 0, 1), (100, 500, 1), (400, 500, 1), (400, 0, 1)]], bytes.fromhex("01 B1 05 40 38"))
    path, text = page.dropped("sample.ttf", sample_font.sample([(0x100, wide, 600, 100)])), "Sph\u0100nx 12 jg"
    page.set("text", text)
    page.change("differences", True)
    for mode in MODES:
        page.set_mode(mode)
        dropout = 0 if mode & ~HINTED else DROPOUT_FONT
        looks = (("hinted", (16, mode ^ HINTED)), ("dropout", (16, mode & HINTED | dropout)), ("larger", (17, mode)),
                 ("smaller", (15, mode)))
        for beside, other in looks if mode in (HINTED, DROPOUT_NEAR) else looks[:1]:
            page.set("beside", beside)
            made = {look: engine.answer(path, *look, "20-7e,100")[0] for look in ((16, mode), other)}
            due = [caption(text, (16, mode), made[16, mode], made[16, mode]),
                   caption(text, other, made[other], made[16, mode] if other[0] == 16 else made[other])]
            if other[0] == 16:
                one, two = map(Strike, made.values())
                differ = sum(len(pixels_of(one[it]) ^ pixels_of(two[it])) for it in text)
                due[1] += "; {:,} pixels differ, at the advances of the first".format(differ)
            seen = [page.text_of("#%s-caption" % it) for it in ("main", "other")]
            assert seen == due, "the captions say %r, and %r is due" % (seen, due)


def caption(text, look, strike, advances):
    """What is due for a line of text, whose glyphs are placed by the advances of another strike."""
    ppem, mode = look
    strike, placed = Strike(strike), Strike(advances)
    pen, left, right, top, bottom = 0, [0], [], [strike.ascent], [-strike.descent]
    for it in text:
        left.append(pen + strike[it].left)
        top.append(strike[it].top)
        bottom.append(strike[it].bottom)
        right += [pen + strike[it].left + strike[it].width, pen + placed[it].advance]
        pen += placed[it].advance
    words = "%d pixels per em, %s" % (ppem, "hinted" if mode & HINTED else "unhinted")
    words += ", drop-out control %s" % DROPOUTS[mode & ~HINTED] if mode & ~HINTED else ""
    return "%s: %d \u00d7 %d pixels" % (words, max(right) - min(left), max(top) - min(bottom))


def strikes(page):
    """Saved strikes of fonts that were dropped are the program's, and so are refusals."""
    # a thin stroke that turns its drop-out control off: the four kinds give four strikes
    thin = fonts.simple([[(100, 100, 1), (110, 700, 1), (120, 700, 1), (110, 100, 1)]], bytes.fromhex("B0 00 85"))
    made = [("kinds.ttf", sample_font.sample([(0x100, thin, 600, 100)]), "20-7e,100"), ("fixture.ttf", fonts.FIXTURE, "20-42"),
            ("empty.ttf", b"", "41"), ("other.otf", b"OTTO" + bytes(60), "41")]
    paths = [(page.put(name, data), chars) for name, data, chars in made]
    paths += [(it, "20-5f") for k, it in enumerate(engine.damaged(page.folder)) if k in (1, 2, 5)]
    paths += [(it, "20-17f,2010-2030") for it in engine.spread(installed_fonts(), IN_BROWSER - len(paths))]
    assert len({engine.answer(paths[0][0], 16, HINTED | it, paths[0][1])[0] for it in DROPOUTS}) == len(
        DROPOUTS), "no font tells the kinds apart"
    for k, (path, chars) in enumerate(paths):
        ppem = (16, 12, 23)[k % 3]
        page.drop(path)
        page.set("chars", chars)
        page.set("ppem", str(ppem))
        for mode in MODES if k == 0 else (HINTED, 0, HINTED | (DROPOUT, DROPOUT_NEAR, DROPOUT_FONT)[k % 3]):
            page.set_mode(mode)
            page.compare(path, ppem, mode, chars)


def files(page):
    """A WOFF font gives the strike of its font. What can't be read is said, and the font before it stays."""
    font = sample_font.sample()
    for base in [SAMPLE] + [SANS] * os.path.exists(SANS):
        page.dropped("web.woff", engine.woff_of(prebuilt.read(base)))
        page.compare(base, 16, AT_FIRST, "20-7e")
    huge, gone = os.path.join(page.folder, "large.ttf"), page.put("gone.ttf", font)
    with open(huge, "wb") as file:
        file.truncate((64 << 20) + 1)
    os.remove(gone)
    size, = struct.unpack_from(">L", font, 12 + 16 * (font[5] - 1) + 12)  # of the last table
    not_read = [(page.folder, "it is a folder"), (gone, "is gone"), (huge, "it has more than 67,108,864 bytes"),
                ("cut.woff", engine.woff_of(font)[:-200], "a table of the WOFF is truncated"),
                ("head.woff", engine.woff_of(font)[:80], "the directory of the WOFF is truncated"),
                ("large.woff", engine.woff_of(font, length=64 << 20), "it unpacks to more than 67,108,864 bytes"),
                ("bomb.woff", engine.woff_of(font, bytes(100 << 20), size), "does not unpack as its directory says"),
                ("short.woff", engine.woff_of(font, bytes(size - 1), size), "does not unpack as its directory says")]
    for path, *data, why in not_read:
        path = page.put(path, *data) if data else path
        page.browser.drop(path)
        shown = "%s can\u2019t be read: " % os.path.basename(path)
        page.browser.until("{ const it = document.getElementById('file-wrong').innerText; it.startsWith(%s) && it.includes(%s); }"
                           % (json.dumps(shown), json.dumps(why)), "saying of %s that %s" % (os.path.basename(path), why))
    os.remove(huge)
    page.picture("folder")
    assert page.text_of("#font").startswith("web.woff"), "a file that can't be read takes the font away"
    page.drawn_after(lambda: page.browser.choose("#file", page.put("a\u202e\x07b.ttf", font)), "drawing a font that was chosen")
    assert page.text_of("#font").startswith("a\\u{202e}\\u{7}b.ttf") and not page.text_of("#file-wrong")


def kinds(page):
    """Of a file of another kind the page says what it is, as docs/REFUSALS.md has it."""
    rows = [it for it in web_page.kinds() if it[0] != b"wOFF".hex()]
    for begins, seems, todo in rows:
        page.dropped("other.ttf", bytes.fromhex(begins) + (b"\0\5" if begins else b""))
        line, said = page.text_of("#refused-line"), page.text_of("#refused-text")
        assert (line, said) == ("10 NotTrueType", "other.ttf: the file %s: %s." % (seems, todo))
    assert len(rows) >= 10, "docs/REFUSALS.md names %d kinds of files" % len(rows)
    page.dropped("cff.woff", engine.woff_of(b"OTTO" + sample_font.sample()[4:]))
    due, = ("cff.woff: the file %s: %s." % (seems, todo) for begins, seems, todo in rows if bytes.fromhex(begins) == b"OTTO")
    assert page.text_of("#refused-text") == due


def fields(page):
    """A field that is wrong is said there, an empty strike too, and nothing is saved then."""
    page.dropped("sample.ttf", sample_font.sample())
    said = []
    for field, value, due in (
            ("ppem", "0", "a whole number from 1 to 1,024"), ("ppem", "5000", "a whole number from 1 to 1,024"),
            ("ppem", "12.5", "a whole number"), ("ppem", "", "a whole number"), ("chars", "41-", '"41-"'),
            ("chars", "0-10000", "more than 65,536 characters"), ("chars", "110000", "above 10FFFF"),
            ("chars", "A", "the letter A is 41"), ("chars", "", "the list of characters is empty")):
        before = page.value_of(field)
        page.change(field, value)
        page.browser.until("document.getElementById('%s-wrong').innerText.includes(%s)" % (field, json.dumps(due)),
                           "saying at %s that %r is wrong" % (field, value))
        said += [page.save(what) for what in ("bdf", "png", "c", "gfx")]
        if field == "ppem" and value == "0":
            page.picture("wrong")
        assert not any(data for _, data in said), "%s %r: it is saved" % (field, value)
        assert page.browser.evaluate("document.getElementById('%s').getAttribute('aria-invalid')" % field) == "true"
        page.set(field, before)
        assert not page.text_of("#%s-wrong" % field) and page.save("bdf")[1] is not None, "%s: what was wrong stays" % field
    page.set("text", "\n")
    assert page.save("text") == ("There is no text.", None)


def others(page):
    """Refused characters are named, and left out, drawn without hinting or the end of the strike, as by the program. A program of
    the font that halts refuses all."""
    short = fonts.font_of([b"", SQUARE, SQUARE[:-5]], fonts.map_of([(0x41, 1), (0x42, 2)]))
    refused(page, page.put("short.ttf", short), "40-43", ["42"], (1, 1))
    page.set("chars", "42")
    assert "has no glyph" in page.save("bdf")[0], "an empty strike is saved, without the refused characters"
    if os.path.exists(SANS):
        refused(page, SANS, "180-250", ["19c", "250"], (2, 0))
        page.picture("refused", True)
        page.set("rule", "unhinted")
        page.set("chars", "19c")
        page.browser.until("document.body.dataset.outline === document.body.dataset.drawn + ' %d'" % 0x19c, "an outline")
        points = re.findall(r"^\d+ \d+ on (-?\d+) (-?\d+)$", engine.outline(SANS, 16, 0, 0x19c).decode(), re.M)
        seen = page.browser.evaluate(POINTS_SCRIPT % json.dumps([[int(x), int(y)] for x, y in points]))
        name = "U+019C \u019c: without hinting, since it is refused, " + engine.answer(SANS, 16, AT_FIRST, "19c")[1]
        assert (seen, page.text_of("#glyph-name")) == (len(points), name), "a glyph without hinting"
        page.set("rule", "leave-out")
    page.dropped("many.ttf", fonts.font_of([b"", SQUARE[:-5]], fonts.map_of([(0x100 + k, 1) for k in range(230)])))
    page.set("chars", "100-1e5")
    assert (page.text_of("#refused-line"), page.text_of("#refused-more")) == ("100-1e5", "and 30 more")
    halting = fonts.font_of([b"", SQUARE], fonts.map_of([(0x41, 1)]), stack=9, prep=bytes.fromhex("28"))
    path = page.dropped("halting.ttf", halting)
    line = engine.answer(path, 16, AT_FIRST, "41")[1]
    seen = page.text_of("#refused-line"), page.browser.evaluate("document.getElementById('refused-table').hidden")
    assert "during prep" in line and seen == (line, True), "a halt of prep: %r, and %r is due" % (seen, line)


def refused(page, path, chars, codes, lefts):
    """Of a font that is chosen these characters are refused, and named in the words of docs/REFUSALS.md. `lefts` says how many are
    left out, and how many still are if those whose programs halt are drawn without hinting."""
    page.drawn_after(lambda: page.browser.choose("#file", path), "drawing a font that was chosen")
    page.set("chars", chars)
    rows = page.browser.evaluate(
        "[...document.querySelectorAll('#refused-table tbody tr')].map((it) => [...it.cells].map((cell) => cell.innerText))")
    advice = {str(number): todo for number, _, _, todo in prebuilt.refusals()}
    for row, code in zip(rows, codes):
        line = engine.answer(path, 16, AT_FIRST, code)[1]
        assert (row[0].split()[0], row[1], row[2]) == ("U+%s" % code.upper().zfill(4), line, advice[line.split()[0]])
    assert len(rows) == len(codes) and page.text_of("#refused-line") == ", ".join(codes), "%d are named" % len(rows)
    for rule, left in zip(("leave-out", "unhinted"), lefts):
        if page.value_of("rule") != rule:
            page.set("rule", rule)
        for what in ("png", "c", "gfx"):
            assert page.save(what)[1] is not None, "%s is not saved by the rule %s" % (what, rule)
        assert not page.compare(path, 16, AT_FIRST, chars)
        counted = page.text_of("#sheet-count")
        shown = re.search(r"(?:, (\d+) of them without hinting)?(?:; (\d+) refused)?$", counted).groups(default="0")
        assert shown == (str(len(codes) - left), str(left)), "by the rule %s the sheet has %s" % (rule, counted)
        told, counts = page.text_of("#saved"), ((left, "refused left out"), (len(codes) - left, "drawn without hinting"))
        assert all(("%d %s" % it in told) == (it[0] > 0) for it in counts), "by the rule %s the page says %r" % (rule, told)
        drawn = re.findall(rb"^ENCODING (\d+)$", page.save("bdf")[1], re.M)
        assert sum(b"%d" % int(it, 16) in drawn for it in codes) == len(codes) - left
    page.set("rule", "stop")
    assert page.compare(path, 16, AT_FIRST, chars), "a strike with refused characters is saved"
    page.browser.evaluate("document.getElementById('to-rule').click()")
    in_sight = "(({ top, bottom }) => top >= 0 && bottom <= innerHeight)(document.activeElement.getBoundingClientRect())"
    seen = page.browser.evaluate("document.activeElement.id === 'rule' && %s" % in_sight)
    assert seen, "a refusal does not lead to the choice"
    page.set("rule", "leave-out")


def told(page):
    """A strike of which no pixel is set, and a variable font, of a collection too, are told."""
    page.set("chars", "20,2000")
    assert page.text_of("#told") == "The font lacks 1 character: 2000. No pixel of the strike is set: its characters are blank."
    page.set("chars", "20,41")
    assert page.text_of("#told") == "" and "variable" not in page.text_of("#font")
    varies = fonts.with_tables(sample_font.sample(), fvar=bytes(16))
    page.dropped("varies.ttf", varies)
    assert page.text_of("#font").endswith("; a variable font, of which this is the default instance")
    page.dropped("two.ttc", engine.collection_of([fonts.FIXTURE, varies]))
    is_told = ["variable" in page.text_of("#font")]
    page.set("face", "1")
    assert [*is_told, "variable" in page.text_of("#font")] == [False, True]
    page.dropped("cut.ttf", varies[:20])
    assert "variable" not in page.text_of("#font")
    # a record of the table has 48 bytes, the pixels per em across in the 45th and down in the 46th (OpenType, EBLC)
    for tag in ("EBLC", "bloc"):
        sizes = struct.pack(">II", 0x00020000, 2) + b"".join(bytes(44) + bytes((it, 99, 1, 1)) for it in (13, 20))
        page.dropped("bitmaps.ttf", fonts.with_tables(sample_font.sample(), **{tag: sizes}))
        told = []
        for size in ("13", "14", "20"):
            page.set("ppem", size)
            told.append(page.text_of("#told"))
        due = "The font has bitmaps of its own at %d pixels, which are not read: its outlines are drawn."
        assert told == [due % 13, "", due % 20]
    page.dropped("cut-off.ttf", fonts.with_tables(sample_font.sample(), EBLC=sizes[:30]))
    assert page.text_of("#told") == ""
    symbols = [(code, *sample_font.glyph_of(sample_font.PATHS["A"])) for code in (0xF0A1, 0xF0A2)]
    page.dropped("symbols.ttf", sample_font.sample(symbols))
    page.set("chars", "a1")
    page.browser.until("document.getElementById('told').innerText.includes('symbols')", "telling of symbols")
    due = "The font lacks 1 character: a1. It is a font of symbols: its characters begin at U+F0A1"
    assert page.text_of("#told").startswith(due)
    for chars in ("20,a1", "41", "3b1", "f0a1"):
        page.set("chars", chars)
        assert "symbols" not in page.text_of("#told")


def order(page):
    """The page is in the order of work; on a phone the picture is in sight at once, above the buttons that save."""
    ids = json.dumps(["file", "chars", "ppem", "main", "bytes", "name", "sheet", "ladder"])
    places = page.browser.evaluate(
        "((all) => %s.map((id) => all.indexOf(document.getElementById(id))))([...document.querySelectorAll('*')])" % ids)
    assert -1 not in places and places == sorted(places), "another order: %s" % places
    page.browser.call("Emulation.setDeviceMetricsOverride", width=390, height=844, deviceScaleFactor=1, mobile=True)
    page.open()
    if os.path.exists(SANS):
        page.drop(SANS)
    page.browser.call("Emulation.setScrollbarsHidden", hidden=True)
    line, bar = page.browser.evaluate("['main', 'save'].map((id) => document.getElementById(id).getBoundingClientRect().top)")
    assert line + 64 <= bar < 844, "on a phone the picture begins at %d, and the buttons at %d" % (line, bar)
    page.picture("page-phone")  # docs/WEB.md shows it
    page.browser.call("Emulation.setScrollbarsHidden", hidden=False)
    page.browser.call("Emulation.clearDeviceMetricsOverride")


def faces(page):
    """Of a collection each font can be chosen, by its name if it has one."""
    members = [fonts.FIXTURE,
               *(fonts.with_tables(it, name=table)
                 for it, table in zip((sample_font.sample(), fonts.FIXTURE), (NAMED, NAMED_OF_OLD)))]
    path = page.dropped("three.ttc", engine.collection_of(members))
    page.set("chars", "20-42")
    names = page.browser.evaluate("[...document.getElementById('face').options].map((it) => it.textContent)")
    assert names == ["0", "1: Mine \u00c4 Bold", "2: Old One\\u{7}"], "the fonts of a collection: %s" % names
    for face in ("0", "1", "2", "0"):
        page.set("face", face)
        assert not page.compare(path, 16, AT_FIRST, "20-42", face), "font %s of a collection is refused" % face


def sets(page):
    """Each set by name, and each other name of one, is that of the program; of a set that the font lacks wholly the page saves
    nothing."""
    path = SANS if os.path.exists(SANS) else SAMPLE
    page.drop(path)
    names = [name for table in ("SETS", "OTHERS") for name, _ in prebuilt.sets(table)]
    for name in names:
        page.set("chars", name.upper())
        words = ["make", "--ppem", "16", "--set", name, "--name", page.value_of("name"), *engine.flags(AT_FIRST)]
        due = engine.program(words, path)
        told, saved = page.save("bdf")
        is_empty = b"\nCHARS 0\n" in due.stdout and saved is None and told == "The strike has no glyph."
        assert due.returncode == 0 and (is_empty or saved == due.stdout), "the set %s: %s" % (name, told)
    assert len(names) > 15


def whole_font(page):
    """`all` is every character of the font, up to the last there can be."""
    path = page.dropped("wide.ttf",
                        fonts.font_of([b"", SQUARE], fonts.wide_map_of([(0x41, 1), (0xFFFF, 1), (0x1F600, 1), (0x10FFFF, 1)])))
    page.browser.until("document.body.dataset.listed === '4'", "listing four characters")
    page.set("chars", "all")
    assert not page.compare(path, 16, AT_FIRST, "41,ffff,1f600,10ffff") and page.text_of("#sheet-count") == "4 glyphs"


def saves(page):
    """The PNG is what tools/picture draws of the strike, and the arrays for C are those of the Python package."""
    # more glyphs than a part has, and one to the left of its origin
    again = [(0x100 + k, *sample_font.glyph_of(sample_font.PATHS[chr(0x20 + k)])) for k in range(95)]
    wide = (0x200, fonts.simple([[(-160, -120, 1), (-160, 90, 1), (240, 90, 1), (240, -120, 1)]]), 500, -160)
    page.dropped("drawn.ttf", sample_font.sample([*again, wide]))
    # the second list: a box without the origin, a blank glyph, and a character that the font lacks
    for ppem, chars in (("7", "ascii, 100-15e, 200"), ("16", "20, 22, 2fff"), ("41", "ascii, 100-15e, 200")):
        page.set("chars", chars)
        page.set("ppem", ppem)
        strike = page.put("drawn.bdf", page.save("bdf")[1])
        name, data = page.save("png")
        due = subprocess.run([os.path.join(TOP, "tools/picture"), strike], capture_output=True, check=True).stdout
        assert name == "drawn.png" and png.pixels_of(data) == png.pixels_of(
            due), "the sheet at %s is not what tools/picture draws" % ppem
        for what, ending in (("c", ".h"), ("gfx", "-gfx.h")):
            words = [sys.executable, "-c", ENCODE, strike, what, "8x_- %s" % ppem]
            due = engine.run(words, env={**os.environ, "PYTHONPATH": os.path.join(TOP, "python")}).stdout
            page.browser.evaluate("document.getElementById('name').value = '8x_- %s'" % ppem)
            assert page.save("bdf")[1] is not None
            name, data = page.save(what)
            is_same = data.replace(b"8x_- ", b"") == due.replace(b"drawn", ppem.encode())
            page.browser.evaluate("document.getElementById('name').value = 'drawn'")
            assert name == "_8x__%s%s" % (ppem, ending) and is_same, "%s at %s is not what the Python package writes" % (name, ppem)
    for layout in itertools.product(("rows", "columns", "pages"), ("", "msb", "lsb"), ("left", "right"), (False, True)):
        for control, value in zip(("bytes", "bits", "align", "flash"), layout):
            page.change(control, value)
        more = {key: it for key, it in zip(("bytes", "bits", "align", "attribute"), (*layout[:3], "PROGMEM" * layout[3])) if it}
        due = engine.run([sys.executable, "-c", ENCODE, strike, "c", "drawn", json.dumps(more)],
                         env={**os.environ, "PYTHONPATH": os.path.join(TOP, "python")}).stdout
        assert page.save("c") == ("drawn.h", due), "the arrays by %s are not those of the Python package" % (layout,)


def headers(page):
    """No name of a font's file ends the comment of a header: what is in it stays in it."""
    draw = random.Random(SEED)
    names = ["".join(draw.choices(ENDS, k=draw.randint(1, 6))) + " out of the comment " + draw.choice(ENDS) for _ in range(NAMES)]
    made = page.browser.evaluate(
        "%s.flatMap((it, k) => [arraysForC, gfxForC].map((write) => write({ glyphs: [{ code: 0x41, width: 1, height: 1, left: 0, "
        "bottom: 0, dwidth: 1, offset: 0, stride: 1 }], pixels: Uint8Array.of(128) }, `n${k} ${it}`, 16, { ascent: 1, descent: 0 "
        "})))"
        % json.dumps(names))
    about = [re.match(r"/\* 1 glyphs of ([ -~]*)(?= at 16 pixels per em, as )", it) for it in made]
    assert all(about) and not any(it in one.group(1) for one in about for it in "*/\\?")
    tool("cc")
    named = re.findall(r"(\w+)(?=\[\w*\](?:\[[^]]*\])? (?:PROGMEM )?= \{)", "".join(made))
    assert len(named) == 5 * NAMES
    uses = "".join("    n += (int)sizeof %s;\n" % it for it in named)
    source = page.put("headers.c",
                      ("%s%s\nint main(void) {\n    int n = 0;\n%s    return n == 0;\n}\n" % (GFX, "".join(made), uses)).encode())
    for standard in ("c99", "c11", "gnu17"):
        done = subprocess.run(["cc", "-std=" + standard, "-Wall", "-Wextra", "-Werror", "-fsyntax-only", source],
                              capture_output=True, text=True, check=False)
        assert not done.returncode, "with -std=%s: %s" % (standard, next((it for it in done.stderr.splitlines() if "error" in it),
                                                                         done.stderr))


def outlines(page):
    """Over the large glyph the page draws the outline: each point on the curve has its colour."""
    path = page.dropped("sample.ttf", sample_font.sample())
    for mode in (HINTED, 0):
        page.set_mode(mode)
        page.browser.evaluate("document.getElementById('sheet-scroll').focus()")
        for key, code, char in (("Home", 36, 0x20), ("End", 35, 0x7e), ("ArrowLeft", 37, 0x7d)):
            page.browser.key(key, code)
            page.browser.until("document.body.dataset.outline === document.body.dataset.drawn + ' %d'" % char, "an outline")
            points = re.findall(r"^\d+ \d+ on (-?\d+) (-?\d+)$", engine.outline(path, 16, mode, char).decode(), re.M)
            seen = page.browser.evaluate(POINTS_SCRIPT % json.dumps([[int(x), int(y)] for x, y in points]))
            assert seen == len(points), "the outline of U+%04X: %s of %d points" % (char, seen, len(points))
            glyph = Strike(engine.answer(path, 16, mode, "%x" % char)[0])[chr(char)]
            due = ["%d \u00d7 %d" % (glyph.width, glyph.height), str(glyph.left), str(glyph.bottom), "%d pixels" % glyph.advance]
            numbers = page.browser.evaluate("[...document.querySelectorAll('#glyph-numbers dd')].map((it) => it.innerText)")
            assert numbers[:4] == due, "the numbers of U+%04X" % char
    page.picture("outline", True)
    # between two points off the curve is one on it, which has half a unit
    ends = page.browser.evaluate(
        "curvesOf({ points: [[0, 0], [3, 0], [3, 5], [0, 5]].map(([x, y]) => ({ x, y, on: false })), ends: [3] })"
        "[0].pieces.map((it) => [it.end.x, it.end.y])")
    assert sorted(ends) == [[0, 2.5], [1.5, 0], [1.5, 5], [3, 2.5]], "the points between points off the curve: %s" % ends


def sizes(page):
    """Of a text what is in sight is drawn, at each size and zoom and to its end: the strike's pixels, and some ink at once."""
    path, text = page.dropped("sample.ttf", sample_font.sample()), "S\ng\n@"
    page.set("text", text)
    for ppem in (1, 400, 1024):
        page.set("ppem", str(ppem))
        due = rows_of(text, engine.answer(path, ppem, AT_FIRST, "40,53,67")[0])
        for zoom in (1, 24):
            page.change("zoom", str(zoom))
            for place in ("scrollTop += 0", "scrollTo(%d, %d)" % (200 * zoom, 1500 * zoom), "scrollTo(1e9, 1e9)"):
                seen = page.browser.evaluate(SIGHT_SCRIPT % (place, zoom))
                left, top, rows = seen["left"], seen["top"], seen["rows"]
                wrong = [(top + y, row) for y, row in enumerate(rows) if row != due[top + y][left:left + len(row)]]
                assert not wrong, "the text at %d, zoom %d, after %s: %d rows in sight are wrong, as %s" % (
                    ppem, zoom, place, len(wrong), wrong[0])
                if place == "scrollTop += 0":
                    assert "1" in "".join(rows) or "1" not in "".join(due), "the text at %d, zoom %d, has no ink in sight" % (
                        ppem, zoom)
                    page.picture("size%d-zoom%d" % (ppem, zoom))
            assert (left + len(rows[0]), top + len(rows)) == (len(due[0]),
                                                              len(due)), "the end of the text at %d, zoom %d, is not in sight" % (
                                                                  ppem, zoom)
            assert page.text_of("#main-caption").endswith("%d \u00d7 %d pixels" % (len(due[0]), len(due)))
            compare_picture(page.save("text"), due, zoom)
            assert page.browser.evaluate(INK_SCRIPT), "the sheet at %d has no ink in sight" % ppem


def compare_picture(saved, rows, zoom):
    """A picture that was saved has these rows and a margin of 4 pixels; a pixel is a square of the zoom, or of 1 if the picture is
    large."""
    width, height = len(rows[0]) + 8, len(rows) + 8
    side, made = zoom if width * height * zoom * zoom <= MOST_PICTURE else 1, b""
    for row in [""] * 4 + rows + [""] * 4:
        bits = ("0000" + row).ljust(width, "0").translate({0x30: "1" * side, 0x31: "0" * side})  # in PNG a bit of 1 is white
        bits += "0" * (-len(bits) % 8)
        made += (b"\0" + int(bits, 2).to_bytes(len(bits) // 8, "big")) * side
    is_due = png.pixels_of(saved[1]) == (width * side, height * side, made)
    assert saved[0] == "sample-text.png" and is_due, "the picture of a text at zoom %d" % zoom


def rows_of(text, strike):
    """The rows of a text with a character in each line, which stay in their lines, as texts of 0 and 1."""
    strike, rows = Strike(strike), []
    glyphs = [strike[it] for it in text.split()]
    left = min(0, *(it.left for it in glyphs))
    wide = max(max(it.advance, it.left + it.width) for it in glyphs) - left
    for it in glyphs:
        above, below = strike.ascent - it.top, strike.descent + it.bottom
        assert min(above, below) >= 0, "the sample font's %s is higher than a line" % it.char
        inked = ["".join("01"[byte > 0] for byte in row) for row in it]
        rows += ["0" * wide] * above + [("0" * (it.left - left) + row).ljust(wide, "0") for row in inked] + ["0" * wide] * below
    return rows


def keys(page):
    """The page can be used by keys: every control can be reached, and the sheet has a chosen glyph."""
    due = page.browser.evaluate(
        "[...document.querySelectorAll('main button, main input, main select, main textarea, main [tabindex=\"0\"]')]"
        ".filter((it) => it.checkVisibility()).map((it) => it.id || it.dataset.save || it.className)")
    page.browser.evaluate("document.activeElement.blur(); window.scrollTo(0, 0)")
    reached = []
    for _ in range(2 * len(due)):
        page.browser.key("Tab", 9)
        reached.append(
            page.browser.evaluate(
                "(document.activeElement.id || document.activeElement.dataset.save || document.activeElement.className)"))
    assert set(due) <= set(reached), "not reached by the key Tab: %s" % sorted(set(due) - set(reached))
    page.browser.evaluate("document.getElementById('sheet-scroll').focus()")
    names = []
    for key, code in (("Home", 36), ("ArrowRight", 39), ("ArrowDown", 40), ("End", 35), ("ArrowLeft", 37), ("Home", 36),
                      ("PageDown", 34),
                      ("PageUp", 33)):
        page.browser.key(key, code)
        names.append(page.text_of("#glyph-name"))
    assert names[:2] + names[3:6] == ["U+0020", "U+0021 !", "U+007E ~", "U+007D }", "U+0020"] and names[2] not in names[:2], names
    assert names[6] not in names[:2] and names[7] == "U+0020", "pages of the sheet: %s" % names
    page.browser.evaluate("document.getElementById('hinted').focus()")
    page.drawn_after(lambda: page.browser.key(" ", 32), "the space bar on a box")
    page.drawn_after(lambda: page.browser.key(" ", 32), "the space bar on a box")


def contrast(page):
    """Each text has the contrast that WCAG asks for, by day and by night; so has what is said of a wrong field."""
    page.change("chars", "41-")
    page.change("ppem", "0")
    for scheme in ("light", "dark"):
        page.browser.call("Emulation.setEmulatedMedia", features=[{"name": "prefers-color-scheme", "value": scheme}])
        found = page.browser.evaluate(CONTRAST_SCRIPT)
        low = [it for it in found if it[0] < CONTRAST]
        assert not low, "a contrast of %.2f, %s: %r" % (low[0][0], scheme, low[0][1])
        page.picture(scheme, True)
    page.browser.call("Emulation.setEmulatedMedia", features=[])


def small(page):
    """Nothing sticks out on a small screen."""
    for width in (320, 390, 768):
        page.browser.call("Emulation.setDeviceMetricsOverride", width=width, height=780, deviceScaleFactor=2, mobile=True)
        page.browser.evaluate("new Promise((done) => requestAnimationFrame(() => requestAnimationFrame(done)))")
        wide = page.browser.evaluate("Math.max(document.documentElement.scrollWidth, ...[...document.querySelectorAll('body *')]"
                                     ".filter((it) => it.checkVisibility() && !it.closest('.unseen, .scroll, .skip, .sight > *'))"
                                     ".map((it) => it.getBoundingClientRect().right))")
        page.picture("small%d" % width, True)
        assert wide <= width + 0.5, "on a screen of %d pixels the page is %d wide" % (width, wide)
    page.browser.call("Emulation.clearDeviceMetricsOverride")


def large(page):
    """With a font of 20 MB and 20,000 characters the page stays usable, shows progress, and can be stopped."""
    path = page.dropped("large.ttf", engine.squares(20000))
    page.browser.until("document.body.dataset.listed === '20000'", "listing 20,000 characters", 60)
    page.set("ppem", "128")

    def work():
        page.change("chars", "all")
        page.browser.until("!document.getElementById('busy').hidden && document.getElementById('progress').value > 0", "progress",
                           20)
        page.picture("progress")
        page.browser.evaluate("{ window.ended = 0; const end = Worker.prototype.terminate; "
                              "Worker.prototype.terminate = function () { ended++; end.call(this); }; "
                              "document.getElementById('stop').click(); }")
        assert page.text_of("#status") == "Stopped." and page.browser.evaluate(
            "ended") == 1, "the work is not stopped: %s" % page.text_of("#status")
        page.set("ppem", "16", seconds=120)
        page.browser.until("document.getElementById('sheet-count').innerText === '20,000 glyphs'", "20,000 glyphs", 60)
    longest = max(page.browser.tasks(work)["page"])
    page.picture("large")
    assert not page.compare(path, 16, AT_FIRST, "4e00-9c1f"), "a strike of 20,000 characters is refused"
    assert longest <= LONGEST, "the page does not look at keys and clicks for %.0f ms of processor time" % longest
    os.remove(path)


def without_engine(page):
    """Without WebAssembly the page says which browsers have it."""
    script = page.browser.call("Page.addScriptToEvaluateOnNewDocument", source="WebAssembly.validate = () => false")["identifier"]
    page.browser.open("file://" + page.path)
    page.browser.until("document.body.innerText.includes('since 2021')", "saying which browsers have WebAssembly")
    page.picture("without")
    page.browser.call("Page.removeScriptToEvaluateOnNewDocument", identifier=script)


def from_server(page):
    """The parts of web/ from a server, as a site would have them."""
    modules = {"/dist/mkstrike.wasm": page.module}

    class Handler(http.server.SimpleHTTPRequestHandler):
        def translate_path(self, path):
            return modules.get(path) or super().translate_path(path)

        def log_message(self, *_):
            pass
    server = http.server.ThreadingHTTPServer(("127.0.0.1", 0), lambda *given: Handler(*given, directory=TOP))
    threading.Thread(target=server.serve_forever, daemon=True).start()
    try:
        page.browser.open("http://127.0.0.1:%d/web/index.html" % server.server_port)
        page.browser.until("document.body.dataset.drawn", "drawing the sample font from a server")
        page.compare(SAMPLE, 16, AT_FIRST, "20-7e")
    finally:
        server.shutdown()


STEPS = (first, order, controls, address, ladder, captions, strikes, files, kinds, fields, others, told, faces, sets, whole_font,
         saves, headers, outlines, sizes, keys, contrast, small,
         large, without_engine, from_server)


@pytest.mark.parametrize("step", STEPS)
def test_page(step, page):
    """Opens the page, and looks at one side of it."""
    page.open()
    step(page)
    complaints = [it for it in page.browser.complaints() if "favicon" not in it]
    assert not complaints, "in the console: %s" % complaints[0]


# Writes a strike in a format, by the Python package.
ENCODE = ("import json, sys, mkstrike; sys.stdout.buffer.write(mkstrike.Strike.open(sys.argv[1]).encode(sys.argv[2], "
          "name=sys.argv[3], **json.loads((sys.argv + ['{}'])[4])))")
# The types of Adafruit_GFX.h.
GFX = """#include <stdint.h>
typedef struct { uint16_t offset; uint8_t width, height, advance; int8_t left, top; } GFXglyph;
typedef struct { uint8_t *bitmap; GFXglyph *glyph; uint16_t first, last; uint8_t height; } GFXfont;
"""
# The values of controls, by their names.
VALUES_SCRIPT = """Object.fromEntries(%s.map((id) => {
  const it = document.getElementById(id);
  return [id, it.type === 'checkbox' ? String(it.checked) : it.value];
}))"""
# The sizes of the ladder, each with the rows of its canvas.
RUNGS_SCRIPT = """[...document.querySelectorAll('#ladder > div')].map(({ children: [button, canvas] }) => {
  const { width, height } = canvas, { data } = canvas.getContext('2d').getImageData(0, 0, width, height);
  const row = (y) => Array.from({ length: width }, (_, x) => (data[4 * (y * width + x)] < 128 ? 1 : 0)).join('');
  return [button.textContent, Array.from({ length: height }, (_, y) => row(y))];
})"""
# Scrolls the box of the text, and tells the pixels of the strike that are in sight then, each by the colour in its middle.
SIGHT_SCRIPT = """(async () => {
  const canvas = document.getElementById('main'), box = canvas.closest('.sight');
  const frame = () => new Promise(requestAnimationFrame);
  await frame();
  box.%s;
  await frame();
  await frame();
  const side = %d, { width, height } = canvas, { data } = canvas.getContext('2d').getImageData(0, 0, width, height);
  const inSight = (from, size) => Array.from({ length: Math.ceil(size / side) + 1 }, (_, k) => Math.floor(from / side) + k)
    .map((it) => [it, Math.floor((it + 0.5) * side - from)]).filter(([, at]) => at >= 0 && at < size);
  const columns = inSight(box.scrollLeft, width), rows = inSight(box.scrollTop, height);
  const inkOf = (y) => columns.map(([, x]) => (data[4 * (y * width + x)] < 128 ? '1' : '0')).join('');
  return { left: columns[0][0], top: rows[0][0], rows: rows.map(([, y]) => inkOf(y)) };
})()"""
# Whether the sheet has ink in sight.
INK_SCRIPT = """(() => {
  const canvas = document.getElementById('sheet');
  const { data } = canvas.getContext('2d').getImageData(0, 0, canvas.width, canvas.height);
  return data.some((it, at) => at % 4 === 0 && it < 128);
})()"""
# How many of these places, in 1/64 pixels, have the colour of the outline on the canvas of the large glyph.
POINTS_SCRIPT = """(() => {
  const canvas = document.getElementById('glyph'), [left, top, side] = canvas.dataset.place.split(' ').map(Number);
  const colour = getComputedStyle(document.documentElement).getPropertyValue('--curve').trim();
  const due = colour.slice(1).match(/../g).map((it) => parseInt(it, 16));
  return %s.filter(([x, y]) => {
    const [column, row] = [x / 64 - left, top - y / 64].map((it) => Math.round(it * side));
    const seen = canvas.getContext('2d').getImageData(column, row, 1, 1).data;
    return due.every((it, k) => Math.abs(it - seen[k]) < 8);
  }).length;
})()"""
# Tries to send, and tells what of the policy forbids it.
SENDING_SCRIPT = """new Promise((done) => {
  addEventListener('securitypolicyviolation', (event) => done(event.effectiveDirective));
  const end = () => setTimeout(() => done('sent'), 500);
  fetch('http://127.0.0.1:9/').then(end, end);
})"""

# Of each element with a text of its own that can be seen: its contrast to what is behind it, and the text.
CONTRAST_SCRIPT = """[...document.querySelectorAll('body *')].filter((it) => it.checkVisibility()
    && !it.closest('.unseen, .skip, script, style, option')
    && [...it.childNodes].some((node) => node.nodeType === 3 && node.data.trim())).map((it) => {
  const parts = (text) => (text.match(/[\\d.]+/g) ?? []).map(Number);
  const light = ([r, g, b]) => [r, g, b].map((v) => (v /= 255) <= 0.04045 ? v / 12.92 : ((v + 0.055) / 1.055) ** 2.4)
    .reduce((sum, v, k) => sum + v * [0.2126, 0.7152, 0.0722][k], 0);
  let behind = it;
  while (behind && parts(getComputedStyle(behind).backgroundColor)[3] === 0) behind = behind.parentElement;
  const paper = behind ? parts(getComputedStyle(behind).backgroundColor) : [255, 255, 255];
  const [one, other] = [parts(getComputedStyle(it).color), paper].map(light);
  return [(Math.max(one, other) + 0.05) / (Math.min(one, other) + 0.05), it.textContent.trim().slice(0, 40)];
})"""

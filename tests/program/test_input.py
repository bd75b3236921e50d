"""Cases of the program: command lines, lists, names, and inputs."""
import os

import due
import runs
from cases import cases
from due import refused, usage
from made import Empty, Font, Simple, square
from runs import Run
from strikes import A, B
from test_programs import NOTHING

LINE, CHARACTERS, ARGUMENT = 4096, 65536, 131071  # the last is the system's limit of one argument, in bytes
SHORT = Font([Empty(), square(900, NOTHING), Simple([(100, 50, 400, 600)])], {A: 1, B: 2}, stack=9)
LONG = Font([Empty(), square(900), Simple([(k, k, 1000 - k, 2 * k) for k in range(40, 400, 60)])],
            {code: 1 + code % 2 for code in range(0x20, 0x800)})
MAKE = ["make", "--ppem", "16", "--chars", "41"]
FIRST = b"make --ppem 16 --chars 41"


# ---- words ----

def many_words():
    """Command lines of very many words of which only the last is wrong: each word counts."""
    for count in (64, 295, 296, 300, 3000, 60000):
        for last in ("--x", "--ppem=16", "--property"):
            words = MAKE + ["--property=A=1"] * count + [last]
            yield Run("%d words, then %s" % (len(words) - 1, last), words, SHORT.data(), usage())
    many = ["--property=A=1"] * 60000
    yield Run("60,005 words", MAKE + many, SHORT.data(), refused("63 BadProperty 2"))


def words_that_are_no_text():
    """Words that are no UTF-8, as any argument and on the first line; and text that is no ASCII."""
    data = SHORT.data()
    for bad in (b"\xFF", b"\xC3", b"\xED\xA0\x80", b"a\x80", b"\xF4\x90\x80\x80"):
        for words in ([bad], MAKE[:4] + [bad], MAKE + ["--name", bad], MAKE + [b"--name=" + bad], MAKE + [bad],
                      [bad] + MAKE):
            yield Run(repr(words), words, data, usage())
            line = b" ".join(word if isinstance(word, bytes) else word.encode() for word in words)
            yield Run("%r on the first line" % line, [], line + b"\n" + data, usage())
    accent = "\u00E9".encode()
    yield Run("a name that is no ASCII", MAKE + ["--name", accent], data, refused("62 BadName"))
    yield Run("a list that is no ASCII", MAKE[:4] + [accent], data, refused("61 BadChars"))


def words_that_parse():
    """Forms of command lines."""
    data, text = SHORT.data(), SHORT.data().hex().encode()
    made, plain, nothing = SHORT.make([A], 16), SHORT.make([A], 16, False), SHORT.make([], 16)
    listing = due.listed(["0000 B0 PUSHB 1", "0002 21 POP"])
    for words, given, answer in (
            (MAKE, data, made),
            ("make --chars 41 --ppem 16", data, made),
            ("make --ppem=16 --chars=41", data, made),
            ("make --unhinted --chars 0041 --ppem 0016", data, plain),
            ("make --ppem +16 --chars 000041", data, made),
            ("make --name strike --hex --chars 41 --ppem 16", text, made),
            ("make --ppem 16 --chars 41 --name=-misc-x --unhinted --hex", text, SHORT.make([A], 16, False, "-misc-x")),
            (MAKE + ["--name", "F1", "--x11", "--dropout", "--unhinted", "--hex"], text,
             SHORT.make([A], 16, False, "F1", x11=True, closed=True)),
            (MAKE[:4] + [""], data, nothing),
            ("make --ppem 16 --chars=", data, nothing),
            ("show --char 41 --ppem 16", data, SHORT.show(A, 16)),
            ("show --ppem 16 --char 42 --unhinted --hex", text, SHORT.show(B, 16, False)),
            ("show --ppem 16 --char 43", data, SHORT.show(0x43, 16)),
            ("show --ppem 1 --char 42", data, SHORT.show(B, 1)),
            ("show --ppem 16 --char 10FFFF", data, due.listed(["missing"])),
            ("dump --of 1", data, listing),
            ("dump --of=0001 --hex", text, listing),
            ("dump --of fpgm", data, due.listed([])),
            ("dump --of 0", data, due.listed([]))):
        yield Run(repr(words), words, given, answer)


# ---- the first line ----

def first_lines():
    """With no words the first line is the command line: of each form, as long as it may be, and a byte longer."""
    data, text = SHORT.data(), SHORT.data().hex().encode()
    made, no_font = SHORT.make([A], 16), refused("10 NotTrueType")
    whole = FIRST + b" --name F1 --unhinted --hex"
    for given, answer in (
            (FIRST + b"\n" + data, made),
            (FIRST + b" --hex\n" + text, made),
            (b"  " + FIRST.replace(b" ", b"   ") + b" \n" + data, made),
            (FIRST.ljust(LINE) + b"\n" + data, made),
            (FIRST.rjust(LINE) + b"\n" + data, made),
            (FIRST.ljust(LINE + 1) + b"\n" + data, usage()),
            (whole + b"\n" + text, SHORT.make([A], 16, False, "F1")),
            (whole + b" more\n" + text, usage()),
            (whole + b" more words\n" + text, usage()),
            (b"show --ppem 16 --char 41\n" + data, SHORT.show(A, 16)),
            (b"dump --of 0\n" + data, due.listed([])),
            (FIRST, no_font),
            (FIRST.ljust(LINE), no_font),
            (FIRST.ljust(LINE + 1), usage()),
            (FIRST + b"\r\n" + data, refused("61 BadChars")),
            (FIRST.replace(b" ", b"\t") + b"\n" + data, usage()),
            (b"\0" + FIRST + b"\n" + data, usage()),
            (b"\n" + FIRST + b"\n" + data, usage()),
            (FIRST.replace(b"6 ", b"6\n") + b"\n", usage()),
            (FIRST + b" \xff\n", usage()),
            (FIRST + b" --hex\n4 1\t4\r\n2 5", refused("72 BadHex")),
            (FIRST + b" --hex\n4x", refused("72 BadHex")),
            (FIRST.replace(b"16", b"0") + b" --hex\n4 1\t4\r\n2", refused("60 BadSize")),
            (b"  make   --ppem  0 --chars=  \n\n", refused("60 BadSize")),
            (b" " * 100000, usage()),
            (data, usage()),
            (b"\n", usage()),
            (b"   \n", usage()),
            (b"", usage())):
        yield Run("the first line %r" % given[:60], [], given, answer)
        yield Run("the first line %r, byte by byte" % given[:60], [], given, answer, feed=[1] if len(given) < LINE else [999])


def long_lists_on_the_first_line():
    """Lists of characters of some bytes to as many as a line has room for."""
    start, data = b"make --ppem 1 --unhinted --chars ", LONG.data()
    for length in (1, 2, 62, 63, 64, 65, 66, 126, 127, 128, 129, 254, 255, 256, 257, 1000, 2047, 2048, 2049,
                   LINE - len(start)):
        text = ",".join("%x" % (0x100 + k) for k in range(length // 4 + 1))[:length]
        if text.endswith(","):
            text = "0" + text[:-1]
        codes = [int(item, 16) for item in text.split(",")]
        given = start + text.encode() + b"\n" + data
        yield Run("a list of %d bytes on the first line" % len(text), [], given, LONG.make(codes, 1, False))


# ---- lists and names ----

GOOD_LISTS = {"41": [A], "41,41,41-41": [A], "42,41": [B, A], "000041-000043,61": [0x41, 0x42, 0x43, 0x61],
              "aB-Ab,AC-ac": [0xAB, 0xAC], "10FFFF,0,10fffe-10ffff": [0x10FFFF, 0, 0x10FFFE],
              "7ff,7fe,20-22": [0x7FF, 0x7FE, 0x20, 0x21, 0x22], "0-ffff": range(0x10000),
              "100000-10ffff": range(0x100000, 0x110000)}


def lists():
    """Lists of characters. Those that are refused are in tests/front and in crates/cli_tests."""
    data = LONG.data()
    for text in ("0-10000", "0-ffff,0", "ffffff-ffffff,g", "110000"):
        yield Run("the list %r" % text, MAKE[:3] + ["--chars=" + text], data, refused("61 BadChars"))
    for text, codes in GOOD_LISTS.items():
        yield Run("the list %r" % text, MAKE[:4] + [text], data, LONG.make(codes, 16))


def long_lists():
    """Lists as long as an argument may be: 65,536 numbers, and fewer of more digits; a number too many."""
    data, ones = LONG.data(), ",".join(["1"] * CHARACTERS)
    assert len(ones) == ARGUMENT
    yield Run("65,536 times a number", MAKE[:4] + [ones], data, LONG.make([1], 16))
    yield Run("65,536 numbers, a range among them", MAKE[:4] + ["1-2" + ones[3:]], data, LONG.make([1, 2], 16))
    yield Run("65,538 numbers", MAKE[:4] + ["1-4" + ones[3:]], data, refused("61 BadChars"))
    for digits in (2, 3, 4, 5, 6):
        codes = [(k * 7919) % min(16 ** digits, 0x800) for k in range((ARGUMENT + 1) // (digits + 1))]
        text = ",".join("%0*x" % (digits, code) for code in codes)
        yield Run("a list of %d bytes" % len(text), MAKE[:4] + [text], data, LONG.make(codes, 16))


def names():
    """Names of each length, and those that are refused."""
    data = SHORT.data()
    for name in ("x", "F1", "~", "!", "a b", "x" * 32, "x" * 64, "x" * 127, "x" * 128, "!~" * 127 + "!", "-x"):
        yield Run("a name of %d bytes" % len(name), MAKE + ["--name=" + name], data, SHORT.make([A], 16, True, name))
    for name in ("", " ", " x", "x ", "x" * 256, "a\x7Fb", "a\tb", "a\nb", "x" * 100000):
        yield Run("the name %r" % name[:20], MAKE + ["--name=" + name], data, refused("62 BadName"))


def font_of_advances(advances):
    """A font with a square for each code point, each of an advance of its own; 100 units are a pixel at 10 pixels an em."""
    metrics = [(1000, 0)] + [(advance, 0) for advance in advances.values()]
    return Font([Empty()] + [square(500)] * len(advances), {code: 1 + k for k, code in enumerate(advances)}, metrics=metrics)


def x11_by_glyphs():
    """What glyphs settle: one advance or several, their mean, and the character that stands for others."""
    for advances in ({}, {A: 1000}, {0x20: 1000}, {0xFFFD: 1000}, {0x20: 500, 0xFFFD: 700}, {A: 100, B: 200},
                     {A: 100, B: 100, 0x43: 300}, {A: 0, B: 0}, {A: 0, B: 100, 0x43: 100}, {A: 640, B: 649},
                     {k: 100 for k in range(300)},
                     {k: 100 * (k % 4) for k in range(0x20, 0x27)}, {0x20 + k: 100 * k for k in range(8)}):
        font = font_of_advances(advances)
        for ppem in (10, 1, 1024):
            for hinted in (True, False):
                words = ["make", "--ppem", str(ppem), "--chars", "0-12f,fffd", "--x11"] + ([] if hinted else ["--unhinted"])
                due_of = font.make([*range(0x130), 0xFFFD], ppem, hinted, x11=True)
                yield Run("advances of %s at %d" % (sorted(set(advances.values())), ppem), words, font.data(), due_of)
    all_one, words = Font([Empty(), square(900)], 1), ["make", "--ppem", "12", "--chars", "0-ffff", "--x11"]
    yield Run("65,536 characters", words, all_one.data(), all_one.make(range(65536), 12, x11=True))


# ---- inputs ----

def small_inputs_by_pipe():
    """Small inputs by a pipe in pieces of several sizes."""
    data, made, line = SHORT.data(), SHORT.make([A], 16), FIRST + b"\n"
    for sizes in ([1], [2], [7, 1], [len(line) - 1], [len(line)], [len(line) + 1], [100, 3], [4096], [65537]):
        yield Run("a font in pieces of %s" % sizes, MAKE, data, made, feed=sizes)
        yield Run("a first line in pieces of %s" % sizes, [], line + data, made, feed=sizes)
        yield Run("hexadecimal text in pieces of %s" % sizes, MAKE + ["--hex"], data.hex().encode(), made, feed=sizes)
    yield Run("an endless line", [], b"make " * 100000, usage(), feed=[13])


def large_inputs_by_pipe():
    """Inputs of more than 64 KiB by a pipe."""
    font = Font([Empty(), square(500, length=300000), square(900)], {A: 2})
    data, text, made = font.data(), font.data().hex("\n", 40).encode(), font.make([A], 16)
    line = FIRST.ljust(LINE) + b"\n"
    for sizes in ([997], [1, 4096], [4095], [4096], [4097], [32767], [32768], [32769], [65536], [65537, 1]):
        yield Run("a font in pieces of %s" % sizes, MAKE, data, made, feed=sizes)
        yield Run("a long first line in pieces of %s" % sizes, [], line + data, made, feed=sizes)
        yield Run("hexadecimal text in pieces of %s" % sizes, MAKE + ["--hex"], text, made, feed=sizes)


def calls_that_read():
    """The input is read in few calls: each has room for 32 KiB, so that it takes a packet of that size whole."""
    font, packets = Font([Empty(), square(500, length=300000), square(900)], {A: 2}), runs.in_packets(32768)
    data, made = font.data(), font.make([A], 16)
    yield Run("a font in packets", MAKE, data, made, way=packets)
    yield Run("hexadecimal text in packets", MAKE + ["--hex"], data.hex().encode(), made, way=packets)
    yield Run("a listing in packets", "dump --of 0", data, due.listed([]), way=packets)
    for length in (len(FIRST) + 1, LINE):
        line = FIRST.ljust(length - 1) + b"\n"
        yield Run("a first line of %d bytes in packets of 4 KiB" % length, [], line + data, made, way=runs.in_packets(4096))


def hexadecimal():
    """Hexadecimal text of several lengths and forms."""
    for length in (0, 10, 15000, 15001, 30000, 40000, 70000):
        font = Font([Empty(), square(500, length=length), square(900)], {A: 2})
        text, made = font.data().hex(), font.make([A], 16)
        lines = "\r\n".join(text[k:k + 60] for k in range(0, len(text), 60))
        for form in (text, text.upper(), " ".join(text), lines, "\t" + text + "\n"):
            yield Run("hexadecimal text of %d bytes" % len(form), MAKE + ["--hex"], form.encode(), made)
    data, text = SHORT.data(), SHORT.data().hex()
    for form in (text[:-1], text + "0", text + "g", "0x" + text, text.replace("a", "a\0", 1), text + "\f", "x", "0",
                 text[:99] + "-" + text[99:]):
        yield Run("other text of %d bytes" % len(form), MAKE + ["--hex"], form.encode(), refused("72 BadHex"))
    yield Run("a font with --hex", MAKE + ["--hex"], data, refused("72 BadHex"))
    yield Run("no text", MAKE + ["--hex"], b" \n", refused("10 NotTrueType"))


def broken_inputs():
    """Inputs that can't be read, from their start and after some bytes."""
    font, failed = Font([Empty(), square(500, length=100000), square(900)], {A: 2}).data(), refused("71 ReadFailed")
    for words in (MAKE, [], "show --ppem 16 --char 41", "dump --of 2", MAKE + ["--hex"]):
        for name, path, flags in (("a folder", "/", os.O_RDONLY), ("a file to write", "/dev/null", os.O_WRONLY)):
            yield Run("%s: %s" % (name, words), words, b"", failed, way=runs.with_files(given=(path, flags)))
        yield Run("no input: %s" % words, words, b"", failed, way=runs.without(0))
    for count in (0, 1, 100, 4096, 32768, 32769, 65536, len(font)):
        yield Run("a font that fails after %d bytes" % count, MAKE, b"", failed, way=runs.failing_after(font[:count]))
    for given in (b"", FIRST[:9], FIRST, FIRST + b"\n", FIRST + b"\n" + font, b" " * LINE):
        yield Run("a first line, failing after %d bytes" % len(given), [], b"", failed, way=runs.failing_after(given))


test_input = cases(large_inputs_by_pipe, small_inputs_by_pipe, many_words, words_that_are_no_text, calls_that_read,
                   words_that_parse, first_lines, long_lists_on_the_first_line, lists, long_lists, names, x11_by_glyphs,
                   hexadecimal, broken_inputs)

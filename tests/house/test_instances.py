"""The suite's reference of variable fonts, by tables that are made here, and its roots, by numbers worked out by hand."""
import struct
from fractions import Fraction

import pytest
from making import fonts
from reference import dropout, variations
from reference.faults import Refused
from reference.fontfile import OFFSETS, WORDS, Reader

ONE, DELTA = 1 << 42, 1 << 16
WEIGHT, SLANT = [100 << 16, 400 << 16, 900 << 16], [-15 << 16, -5 << 16, -5 << 16]
FVAR = struct.pack(">8H2x", 1, 0, 18, 2, 2, 22, 0, 0) + b"".join(
    struct.pack(">4s3l6x", tag, *axis) for tag, axis in ((b"wght", WEIGHT), (b"slnt", SLANT)))
AXES = {"wght": WEIGHT, "slnt": SLANT}
BAD = "BadVariations", {"glyph": 7}
HALF = {"wght": 650}  # half of the way to the greatest weight


def words(*numbers):
    """Numbers of 16 bits."""
    return struct.pack(">%dH" % len(numbers), *(it & 0xFFFF for it in numbers))


def reader_of(*data):
    """What reads these bytes of glyph 7."""
    return Reader(bytes(data), 0, 7)


def refusal(function, *arguments):
    """The name and the fields of the refusal that a call ends with."""
    with pytest.raises(Refused) as found:
        function(*arguments)
    return found.value.name, found.value.fields


def test_axes():
    """Axes are read where `fvar` says, as signed numbers."""
    assert variations.axes_of(FVAR) == AXES


def test_maps():
    """Each axis has its own pairs in `avar`, and none without it."""
    avar = bytes(8) + words(2, 1, -2, 3, 4, 0, 1, 5, 6)
    assert variations.maps_of(avar, 3) == [[(1, -2), (3, 4)], [], [(5, 6)]]
    assert variations.maps_of(None, 2) == variations.maps_of(b"", 2) == [[], []]


# Values and the coordinates of weight and slant. A coordinate of the heavy side is a 2000th of the distance in 16.16, one of the
# light side a 1200th; both are rounded, halves up.
PLACES = [
    ({}, [0, 0]), ({"wght": 400, "slnt": -5}, [0, 0]), ({"wght": 650}, [8192, 0]), ({"wght": 900}, [16384, 0]),
    ({"wght": 250}, [-8192, 0]), ({"wght": 100, "slnt": -15}, [-16384, -16384]), ({"slnt": -10}, [0, -8192]),
    ({"wght": 400 + Fraction(1000, 65536)}, [1, 0]), ({"wght": 400 + Fraction(999, 65536)}, [0, 0]),
    ({"wght": 400 + Fraction(9995, 655360)}, [1, 0]), ({"wght": 400 + Fraction(9994, 655360)}, [0, 0]),
    ({"wght": 400 - Fraction(600, 65536)}, [0, 0]), ({"wght": 400 - Fraction(601, 65536)}, [-1, 0]),
]
# Pairs of the weight, a value, and its coordinate: each place lies in one run between two pairs, whose ends belong to it.
PAIRS = [(-16384, -12288), (-8192, -4096), (0, 0), (4096, 12288), (16384, 16000)]
MAPPED = [(400, 0), (525, 12288), (900, 16000), (100, -12288), (250, -4096), (462.5, 6144), (712.5, 14144), (175, -8192)]


def test_places():
    """Coordinates of values, also by pairs; what is no axis, or out of range, has none."""
    none = [[], []]
    assert [variations.place_of(AXES, none, values) for values, _ in PLACES] == [due for _, due in PLACES]
    found = [variations.place_of({"wght": WEIGHT}, [PAIRS], {"wght": value}) for value, _ in MAPPED]
    assert found == [[due] for _, due in MAPPED]
    for values, said in (({"wdth": 100}, "no such axis"), ({"wght": 901}, "out of range"), ({"slnt": -4}, "out of range"),
                         ({"wght": 99}, "out of range"), ({"wght": 650, "wdth": 100}, "no such axis")):
        with pytest.raises(ValueError, match=said):
            variations.place_of(AXES, none, values)


# Place, peak, begin and end of one axis, and how much of the deltas counts, in parts of 1.
REGIONS = [
    (8192, 16384, 0, 16384, Fraction(1, 2)), (16384, 16384, 0, 16384, 1), (0, 16384, 0, 16384, 0), (-8192, 16384, 0, 16384, 0),
    (5, 0, 0, 0, 1), (12288, 8192, 4096, 16384, Fraction(1, 2)), (6144, 8192, 4096, 16384, Fraction(1, 2)),
    (4096, 8192, 4096, 16384, 0), (16384, 8192, 4096, 16384, 0), (8192, 8192, 4096, 16384, 1), (9216, 8192, 4096, 16384,
                                                                                             Fraction(7, 8)),
    (-4096, -8192, -16384, 0, Fraction(1, 2)), (-10240, -8192, -16384, 0, Fraction(3, 4)), (12288, 8192, 8192, 16384,
                                                                                         Fraction(1, 2)),
    (4096, 8192, 0, 8192, Fraction(1, 2)),
    # an end on the wrong side, or 0 between begin and end: the axis does not count
    (100, 8192, 9000, 16384, 1), (100, 8192, 0, 8000, 1), (100, 8192, -1, 16384, 1), (100, -8192, -16384, 1, 1),
]


def test_regions():
    """How much of its deltas a region gives: the product of its axes, each rounded to 2^-42."""
    for place, peak, begin, end, due in REGIONS:
        assert variations.scalar_of([place], [peak], [begin], [end]) == due * ONE, (place, peak, begin, end)
    one = [8192, 4096], [16384, 16384], [0, 0], [16384, 16384]
    assert variations.scalar_of(*one) == ONE >> 3 and variations.scalar_of([8192, 0], *one[1:]) == 0
    # 2^42 / 3 is 1466015503701 and a third, two of it 2932031007402 and two thirds; the first is 3 x 488671834567
    assert variations.scalar_of([1], [3], [0], [3]) == 1466015503701 and variations.scalar_of([2], [3], [0], [3]) == 2932031007403
    assert variations.scalar_of([1, 1], [3, 3], [0, 0], [3, 3]) == 488671834567


def test_numbers():
    """Packed numbers of points: runs of bytes and of words, counts of two bytes, all points."""
    many = [0x81, 2] + ([0x7F] + [1] * 128) * 2 + [1, 1, 1]
    for data, due in (([0], None), ([3, 2, 5, 1, 2], [5, 6, 8]), ([2, 0x81, 1, 0, 0, 3], [256, 259]),
                      ([3, 0, 4, 0x81, 0, 1, 1, 2], [4, 5, 263]), (many, list(range(1, 259)))):
        reader = reader_of(*data, 9)
        assert (variations.numbers_of(reader), reader.at) == (due, len(data))
    assert refusal(variations.numbers_of, reader_of(1, 1, 1, 1)) == refusal(variations.deltas, reader_of(1, 1, 1), 1) == BAD


def test_deltas():
    """Packed deltas: bytes, words and zeros."""
    for data, due in (([2, 1, 0xFF, 3], [1, -1, 3]), ([0x41, 1, 0, 0xFF, 0xFE], [256, -2]), ([0x82], [0, 0, 0]), ([], []),
                      ([0x80, 0, 5, 0x40, 0, 9], [0, 5, 9]), ([0x3F] + [1] * 64, [1] * 64)):
        reader = reader_of(*data, 9)
        assert (variations.deltas(reader, len(due)), reader.at) == (due, len(data))


def test_inferred():
    """A delta between two places: that of the nearer end outside, by proportion inside, and of one place that of both or none."""
    low, high = (10, 4), (20, 9)
    for at, due in ((9, 4), (10, 4), (11, Fraction(9, 2)), (15, Fraction(13, 2)), (20, 9), (21, 9)):
        assert variations.inferred(at, low, high) == variations.inferred(at, high, low) == due * DELTA
    assert [variations.inferred(at, (10, 4), (10, 4)) for at in (9, 10, 11)] == [4 * DELTA] * 3
    assert [variations.inferred(at, (10, 4), (10, 5)) for at in (9, 10, 11)] == [0] * 3
    # a third of 65536 is 21845 and a third, two of it 43690 and two thirds
    assert [variations.inferred(at, (0, 0), (3, 1)) for at in (1, 2)] == [21845, 43691]


POINTS = [(0, 0), (4, 3), (10, 10), (0, 10), (7, 7), (8, 8), (1, 1), (2, 2)]


def test_given():
    """The deltas of named points, and those of the other points of their contours; a contour without a named point has none."""
    found = variations.given([0, 2, 7, 99], reader_of(3, 5, 15, 1, 6, 3, 0, 8, 2, 6), POINTS, [3, 5])
    # point 1 lies between 0 and 2: 5 + 10 x 4/10, and 8 x 3/10 = 2.4, or 157286.4; point 3 has the x of 0 and the y of 2
    assert found == {0: [5 * DELTA, 0], 1: [9 * DELTA, 157286], 2: [15 * DELTA, 8 * DELTA], 3: [5 * DELTA, 8 * DELTA],
                     7: [DELTA, 2 * DELTA]}
    both = variations.given([1, 4], reader_of(1, 5, 6, 1, 7, 8), POINTS, [3, 5])
    assert both == {**{k: [5 * DELTA, 7 * DELTA] for k in range(4)}, **{k: [6 * DELTA, 8 * DELTA] for k in (4, 5)}}
    everything = variations.given(None, reader_of(1, 5, 6, 1, 7, 8), POINTS[:2], [1])
    assert everything == {0: [5 * DELTA, 7 * DELTA], 1: [6 * DELTA, 8 * DELTA]}
    assert variations.given([], reader_of(), POINTS, [3, 5]) == {}


def test_sums():
    """The deltas of a tuple are added by its scalar."""
    sums = [[1, 2], [3, 4]]
    variations.add(sums, 10, {1: [5, 6]})
    assert sums == [[1, 2], [53, 64]]


def tuples(data, place, peaks, glyph=7):
    """The tuples at a place: how much counts, the numbers, and the bytes of the deltas."""
    return [(scalar, numbers, reader.data[reader.at:]) for scalar, numbers, reader in variations.tuples(data, place, peaks, glyph)]


def test_tuples():
    """Tuples with shared and own peaks, with own ends, and with own numbers; those that do not count are passed over."""
    heads = [(3, 0x0001), (1, 0xC000, 8192, 4096, 16384), (4, 0x2000), (1, 0x8000, -16384)]
    head = b"".join(words(*it) for it in heads)
    body = bytes([1, 0, 5]) + b"abc" + b"d" + bytes([1, 0, 3]) + b"e" + b"f"
    data = words(0x8004, 4 + len(head)) + head + body
    peaks = [[16384], [8192]]
    assert tuples(data, [12288], peaks) == [(ONE // 2, [5], b"d"), (ONE * 3 // 4, [3], b"e")]
    assert tuples(data, [4096], peaks) == [(ONE // 2, [5], b"abc"), (ONE // 4, [3], b"e")]
    assert tuples(data, [-8192], peaks) == [(ONE // 2, [5], b"f")]
    alone = words(1, 10, 2, 0x8000, 16384) + b"xy"
    assert tuples(alone, [8192], []) == [(ONE // 2, [], b"xy")] and tuples(b"", [8192], []) == []
    assert tuples(b"\0\1\0\0" + words(1, 14, 2, 0x8000, 16384) + b"xy", [8192], None) == [(ONE // 2, [], b"xy")]
    for index, of in ((2, peaks), (0, []), (0xFFF, peaks)):
        assert refusal(tuples, words(1, 8, 0, index), [8192], of) == BAD
    assert refusal(tuples, b"\0\1\0\0" + words(1, 12, 0, 0), [8192], None) == BAD


def gvar_of(datas, is_long):
    """A `gvar` of two axes with the peak of the greatest weight, and this data for each glyph."""
    form, size = (">L", 1) if is_long else (">H", 2)
    ends = [sum(map(len, datas[:k])) for k in range(len(datas) + 1)]
    offsets = b"".join(struct.pack(form, it // size) for it in ends)
    start = 20 + len(offsets)
    return struct.pack(">4H", 1, 0, 2, 1) + struct.pack(">LHHL", start, len(datas), is_long, start + 4) + offsets + words(
        16384, 0) + b"".join(datas)


# Glyph 1: all points move. Glyph 2: both components do, but one is placed by points. Glyph 3: it gets too narrow.
SQUARE = [(10, 0, 1), (110, 0, 1), (110, 100, 0), (10, 100, 1)]
MOVES = bytes([7, 2, 4, 6, 9, 0xFF, 30, 0, 0, 7, 0, 3, 0xFD, 10, 0, 0, 0, 0])
DATAS = [b"", words(1, 8, 19, 0x2000) + b"\0" + MOVES + b"\0", words(0x8001, 8, 6, 0) + bytes([2, 1, 0, 1, 1, 8, 8, 1, 0xFC, 0xFC]),
         words(1, 8, 6, 0x2000) + bytes([1, 0, 1, 0, 0x80, 0x80])]
DATAS = [it + bytes(len(it) % 2) for it in DATAS]
GLYPHS = [b"", fonts.simple([SQUARE]), fonts.components([(WORDS | OFFSETS, 1, (5, 6)), (WORDS, 1, (2, 3))]), b""]
CVT = words(100, -200, 300)


def font(is_long=True, **more):
    """A variable font of these glyphs."""
    tables = {"fvar": FVAR, "gvar": gvar_of(DATAS, is_long), "cvt": CVT, **more}
    glyphs = [it + bytes(-len(it) % 4) for it in GLYPHS]
    metrics = [(500, 0), (200, 7), (300, 0), (60, 0)]
    return fonts.font_of(glyphs, fonts.map_of([(0x41, 1)]), metrics=metrics, **{k: it for k, it in tables.items() if it})


@pytest.mark.parametrize("is_long", [True, False])
def test_glyphs(is_long):
    """Points, components, sides and advances at half of the way, in both forms of offsets."""
    varied = variations.Varied(font(is_long), HALF)
    # half of the moves: 1 2 3 4.5 and 0 1.5 -1.5 5. The left side goes from 3 to 2.5, the right one from 203 to 218
    assert varied.glyph(1).points == [(11, 0, 1), (112, 2, 1), (113, 99, 0), (15, 105, 1)]
    assert (varied.advance(1), varied.bearing(1)) == (216, 8)
    assert [it.args for it in varied.glyph(2).parts] == [(9, 4), (2, 3)] and varied.advance(2) == 300
    # the right side of glyph 3 moves by half of -128, from 60 to -4
    assert varied.glyph(3) is None and (varied.advance(3), varied.bearing(3)) == (0, 0)
    assert varied.glyph(0) is None and varied.advance(0) == 500
    assert varied.moved(1) is varied.moved(1) and varied.moved(1) is not varied.moved(2)


def test_default():
    """Nothing moves at the default, nor without `gvar`."""
    for varied in (variations.Varied(font(), {}), variations.Varied(font(gvar=b""), HALF)):
        assert varied.glyph(1).points == SQUARE and (varied.advance(1), varied.bearing(1)) == (200, 7)
        assert [it.args for it in varied.glyph(2).parts] == [(5, 6), (2, 3)]


def test_control_values():
    """Control values move by `cvar`: some by their numbers, or all; halves go up. Without it, or without any, none does."""
    head = b"\0\1\0\0" + words(2, 24, 5, 0xA000, 16384, 0, 5, 0xA000, 16384, 0)
    cvar = head + bytes([1, 0, 1, 0, 8]) + bytes([0, 2, 1, 2, 0xFF])
    for more, due in (({}, CVT), ({"cvar": cvar}, words(101, -195, 300))):
        varied = variations.Varied(font(**more), HALF)
        assert varied.tables["cvt "] == due
    assert "cvt " not in variations.Varied(font(cvt=None, cvar=cvar), HALF).tables


def test_refused():
    """A font without axes, values that no axis has, and tables that end early."""
    for data, values in ((font(fvar=b""), {}), (font(), {"wdth": 1}), (font(), {"wght": 1000}), (font(fvar=FVAR[:30]), {}),
                         (font(gvar=b"\0" * 9), {})):
        assert refusal(variations.Varied, data, values) == ("BadVariations", {})


def test_roots():
    """Roots as (p + q root(d)) / r, the value of a quadratic there, and the sign of such a number."""
    for factors, due in (((1, -3, 2), [(4, 0, 0, 2), (2, 0, 0, 2)]), ((-1, 0, 2), [(0, -1, 8, 2), (0, 1, 8, 2)]), ((1, 0, 1), []),
                         ((0, 2, -4), [(4, 0, 0, 2)]), ((0, -2, -4), [(-4, 0, 0, 2)]), ((0, 0, 5), [])):
        assert list(dropout.roots(*factors)) == due
    # 2 t^2 + 3 t + 5 at (1 + 2 root(7)) / 3 is (2 (29 + 4 root(7)) + 9 (1 + 2 root(7)) + 45) / 9
    assert dropout.at_root((2, 3, 5), 1, 2, 7, 3) == (112, 26, 7, 9)
    for number, due in (((0, 0, 0), 0), ((5, 0, 0), 1), ((-5, 0, 0), -1), ((3, -1, 8), 1), ((2, -1, 5), -1), ((-2, 1, 5), 1),
                        ((-3, 1, 8), -1), ((1, 1, 2), 1), ((-1, -1, 2), -1), ((0, 1, 2), 1), ((0, -1, 2), -1)):
        assert dropout.sign_of(*number) == due, number

"""Answers a request of the suite: an outline, an advance and bits, or a refusal."""
from . import dropout, scan
from .charmap import CharMap
from .faults import Halt, Refused
from .fontfile import Font
from .outline import Maker

FARTHEST = 1 << 21  # of a coordinate whose pixels are found
_KEPT, _DRAWN = {}, {}
MOST_DRAWN = 64  # drawings that are kept for requests to come


def answer(data, request):
    """The answer to a request about a font's bytes, as the protocol has it."""
    try:
        return made(data, request)
    except Refused as fault:
        return {"refusal": {"name": fault.name, **fault.fields}}
    except Halt as halt:
        return {"refusal": {"name": str(halt), **halt.place}}


def maker_of(data, face, ppem, hinted):
    """The maker of a font at a size; the last one is kept for the next request."""
    key = hash(data), len(data), face, ppem, hinted
    if key not in _KEPT:
        _KEPT.clear()
        try:
            _KEPT[key] = Maker(Font(data, face), ppem, hinted)
        except (Refused, Halt) as fault:
            _KEPT[key] = fault
    if isinstance(_KEPT[key], Exception):
        raise _KEPT[key]
    return _KEPT[key]


def made(data, request):
    """The answer, or a fault."""
    char = request.get("char")
    glyph, face = request.get("glyph"), request.get("face", 0)
    if char is not None:
        glyph = CharMap(Font(data, face)).glyph(char)
    maker = maker_of(data, face, request["ppem"], request["hinted"])
    if glyph == 0 and char is not None:
        return {"missing": True}
    points, on, ends, advance = maker.outline(glyph)
    found = {"advance": advance, "outline": contours_of(points, on, ends)}
    if "bits" in request["want"]:
        if any(abs(v) > FARTHEST for place in points for v in place):
            raise Refused("TooFar", glyph=glyph)
        found["bits"] = drawn(scan.pieces_of(points, on, ends), kind_of(request["dropout"], maker.asked))
    return found


def drawn(pieces, kind):
    """The pixels of pieces with some drop-out control, or without."""
    key = tuple(pieces), kind
    if key not in _DRAWN:
        if len(_DRAWN) >= MOST_DRAWN:
            _DRAWN.clear()
        _DRAWN[key] = packed(dropout.bits(pieces, kind) if kind else scan.bits(pieces))
    return _DRAWN[key]


def kind_of(dropout_asked, by_font):
    """Which drop-out control: False, "left" or "near". `true` is version 1's word for "left"; a font that says nothing has
    "left"."""
    if dropout_asked == "font":
        return "left" if by_font is None else by_font
    return "left" if dropout_asked is True else dropout_asked


def contours_of(points, on, ends):
    """Contours of points [x, y, on]; contours without points are left out."""
    found, first = [], 0
    for end in ends:
        found.append([[x, y, flag] for (x, y), flag in zip(points[first:end + 1], on[first:end + 1])])
        first = end + 1
    return [contour for contour in found if contour]


def packed(pixels):
    """The tight box and its rows from the top, in hexadecimal as in BDF."""
    if not pixels:
        return {"box": [0, 0, 0, 0], "rows": []}
    left, bottom = min(i for i, _ in pixels), min(j for _, j in pixels)
    width, height = max(i for i, _ in pixels) - left + 1, max(j for _, j in pixels) - bottom + 1
    rows = []
    for j in range(bottom + height - 1, bottom - 1, -1):
        bits = "".join("1" if (left + k, j) in pixels else "0" for k in range(-(-width // 8) * 8))
        rows.append("%0*X" % (len(bits) // 4, int(bits, 2)))
    return {"box": [width, height, left, bottom], "rows": rows}

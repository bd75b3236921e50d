"""Writes a folder of pages: an index, and a page for each group with its differences: expected, given, and where they differ."""
import collections
import html
import json
import os
import re

import compare
import listing
import paths

MOST = 400  # differences that are drawn of a group
SIDE = 260  # of a picture, in pixels of the screen
STYLE = """
body { font: 15px/1.45 system-ui, sans-serif; margin: 2rem auto; max-width: 62rem; padding: 0 1rem; color: #1c1c1c }
body { background: #fff }
table { border-collapse: collapse } th, td { padding: .2rem .8rem; text-align: right; border-bottom: 1px solid #ddd }
th:first-child, td:first-child { text-align: left }
h2 { font-size: 1.05rem; margin: 2rem 0 .2rem } p { margin: .2rem 0 } .own { color: #6b4e00 } .wrong { color: #a01010 }
.pair { display: flex; gap: 1.5rem; flex-wrap: wrap } figure { margin: .4rem 0 } figcaption { color: #555; font-size: .85rem }
svg { background: #fafafa; border: 1px solid #ccc }
pre { font-size: .8rem; overflow-x: auto; background: #f4f4f4; padding: .5rem } ul.all { columns: 3; padding-left: 1rem }
"""
HEAD = "<!doctype html><html lang=en><meta charset=utf-8><title>%s</title><style>%s</style>"


def write(folder, command, results):
    """Writes the pages."""
    os.makedirs(folder, exist_ok=True)
    groups = collections.OrderedDict()
    for result in results:
        groups.setdefault(result.case["group"], []).append(result)
    put(folder, "index", [HEAD % ("TrueType suite: " + html.escape(command), STYLE),
                          "<h1>TrueType suite</h1><p>Tool: <code>%s</code></p>" % html.escape(command), table(groups)])
    for name, of in groups.items():
        put(folder, name, page(name, of))


def put(folder, name, parts):
    """Writes one page."""
    with open(os.path.join(folder, name + ".html"), "w", encoding="utf-8") as out:
        out.write("\n".join(parts))


def table(groups):
    """The summary by group; the names are links."""
    lines = ["<table><tr><th>group<th>cases<th>passed<th>wrong<th>own choice<th>unsupported"]
    total = collections.Counter()
    for name, results in groups.items():
        counts = collections.Counter(result.kind for result in results)
        total += counts
        lines.append("<tr><td><a href='%s.html'>%s</a>%s" % (name, html.escape(name), cells(counts)))
    return "\n".join(lines) + "<tr><th>all%s</table>" % cells(total)


def cells(counts):
    """The cells of a row."""
    return "".join("<td>%d" % count
                   for count in (sum(counts.values()), counts["passed"], counts["wrong"], counts["own"], counts["skipped"]))


def page(name, results):
    """The page of a group: a list of the differences, and each of them."""
    different = sorted((result for result in results if result.fault), key=lambda result: result.kind != "wrong")
    parts = [HEAD % (html.escape(name), STYLE), "<h1>%s</h1><p><a href='index.html'>all groups</a></p>" % html.escape(name)]
    parts.append("<p>%d cases, %d with a difference%s.</p>" % (len(results), len(different),
                                                               ", of which the first %d are drawn" % MOST
                                                               if len(different) > MOST else ""))
    names = [html.escape(result.case["id"]) for result in different[:MOST]]
    parts.append("<ul class=all>%s</ul>" % "".join("<li><a href='#%s'>%s</a>" % (it, it.partition("/")[2]) for it in names))
    reasons = collections.Counter(result.skipped for result in results if result.skipped)
    parts += ["<p>Unsupported: %s (%d)</p>" % (html.escape(str(reason)), count) for reason, count in reasons.items()]
    return parts + [section(result) for result in different[:MOST]]


def section(result):
    """One difference: what was asked, what differs, three pictures, and the programs."""
    case = result.case
    asked = {key: case[key] for key in ("font", "face", "glyph", "char", "ppem", "hinted", "dropout") if key in case}
    own = "<p class=own>Own choice: %s</p>" % html.escape(case["own"]) if "own" in case else ""
    given = result.answer if "outline" in result.answer or "path" not in result.answer \
        else {**result.answer, "outline": points_of(result.answer["path"])}
    return "<h2 id='%s'>%s</h2><p>%s. <code>%s</code></p><p class=wrong>%s</p>%s<div class=pair>%s%s%s</div>%s" % (
        html.escape(case["id"]), html.escape(case["id"]), html.escape(case["about"]), html.escape(json.dumps(asked)),
        html.escape(result.fault) + ("; " + compare.HINT if compare.only_pixels(result.answer, result.fault) else ""),
        own, figure("expected", case["expect"], case["expect"], given),
        figure("given", given, case["expect"], given), difference(case["expect"], given), programs(case))


def points_of(path):
    """A path as contours of points, to be drawn."""
    return [[[*piece[2 * k:2 * k + 2], int(k == 0)] for piece in contour for k in range(len(piece) // 2 - 1)]
            for contour in paths.of_path(path)]


def programs(case):
    """The listings of the programs that a case runs; a halt that is expected is marked."""
    halt, found = case["expect"].get("refusal", {}), []
    for title, lines in listing.programs(case):
        here = title == "glyph %s" % halt.get("program") or title == halt.get("program")
        text = "\n".join("%5d  %s%s" % (at, line, "    <- halts: %s" % halt["name"] if here and at == halt.get("address") else "")
                         for at, line in lines)
        is_open = " open" if title.startswith("glyph") else ""
        found.append("<details%s><summary>%s</summary><pre>%s</pre></details>" % (is_open, title, html.escape(text)))
    return "".join(found)


def difference(expected, given):
    """A picture of the pixels of both: those of both grey, those that are missing blue, those that are too many red."""
    if not has_pixels(expected) and not has_pixels(given) or "bits" not in given:
        return ""
    one, other = pixel_set(expected), pixel_set(given)
    places = [place for answer in (expected, given) for place in extent({"bits": answer.get("bits")})]
    left, right = min(x for x, _ in places) - 32, max(x for x, _ in places) + 32
    low, high = min(y for _, y in places) - 32, max(y for _, y in places) + 32
    size = max(right - left, high - low)
    kinds = ((one & other, "#c4c4c4"), (one - other, "#3b7dd8"), (other - one, "#d9534f"))
    body = "".join("<rect x=%d y=%d width=60 height=60 fill='%s'/>" % (64 * i + 2, -64 * (j + 1) + 2, colour)
                   for pixels_of, colour in kinds for i, j in sorted(pixels_of))
    return ("<figure><svg width=%d height=%d viewBox='%d %d %d %d' role=img aria-label='difference'>%s</svg>"
            "<figcaption>difference: %d missing (blue), %d too many (red)</figcaption></figure>"
            % (SIDE * (right - left) / size + 2, SIDE * (high - low) / size + 2, left, -high, right - left, high - low, body,
               len(one - other), len(other - one)))


def figure(title, one, *both):
    """A picture of an answer, or its words; `both` say what has to fit into the picture."""
    if "bits" not in one and "outline" not in one:
        return "<figure><figcaption>%s</figcaption><pre>%s</pre></figure>" % (title, html.escape(str(one)))
    places = [place for answer in both for place in extent(answer)]
    left, right = min(x for x, _ in places) - 32, max(x for x, _ in places) + 32
    low, high = min(y for _, y in places) - 32, max(y for _, y in places) + 32
    size = max(right - left, high - low)
    width, height = SIDE * (right - left) / size, SIDE * (high - low) / size
    body = pixels(one) + only_here(one, both) + lines(one.get("outline", []), size) + dots(one.get("outline", []), size, both)
    return ("<figure><svg width=%d height=%d viewBox='%d %d %d %d' role=img aria-label='%s'>%s</svg>"
            "<figcaption>%s, advance %s</figcaption></figure>"
            % (width + 2, height + 2, left, -high, right - left, high - low, title, body, title, one.get("advance", "not told")))


def extent(answer):
    """The places that a picture of an answer has to show."""
    yield 0, 0
    for contour in answer.get("outline", []):
        yield from ((x, y) for x, y, _ in contour)
    if has_pixels(answer):
        width, height, left, bottom = answer["bits"]["box"]
        yield 64 * left, 64 * bottom
        yield 64 * (left + width), 64 * (bottom + height)


def has_pixels(answer):
    """Whether an answer has bits in the protocol's form."""
    return isinstance(answer.get("bits"), dict) and bool(answer["bits"].get("rows"))


def pixels(answer):
    """Bars of 64 units' height for the runs of set pixels."""
    found, bits = [], answer.get("bits")
    for k, row in enumerate(bits["rows"] if has_pixels(answer) else []):
        width, height, left, bottom = bits["box"]
        value = bin(int(row, 16))[2:].zfill(4 * len(row))[:width]
        for run in re.finditer("1+", value):
            place = 64 * (left + run.start()) + 2, -64 * (bottom + height - k) + 2, 64 * len(run.group()) - 4
            found.append("<rect x=%d y=%d width=%d height=60 fill='#b9c7d6'/>" % place)
    return "".join(found)


def pixel_set(answer):
    """The set pixels of an answer, as pairs of column and row."""
    if not has_pixels(answer):
        return set()
    width, height, left, bottom = answer["bits"]["box"]
    rows = [bin(int(row, 16))[2:].zfill(4 * len(row)) for row in answer["bits"]["rows"]]
    return {(left + i, bottom + height - 1 - k) for k, row in enumerate(rows) for i in range(width) if row[i] == "1"}


def only_here(one, both):
    """Red squares for the pixels that are set in one answer and not in the other."""
    other = both[1] if one is both[0] else both[0]
    found = sorted(pixel_set(one) - pixel_set(other)) if has_pixels(other) else []
    return "".join("<rect x=%d y=%d width=60 height=60 fill='#d9534f'/>" % (64 * i + 2, -64 * (j + 1) + 2) for i, j in found)


def lines(contours, size):
    """The contours as lines and arcs."""
    return "".join("<path d='%s' fill=none stroke='#345' stroke-width='%.2f'/>" % (way_of(contour),
        size / 300) for contour in contours)


def way_of(contour):
    """A contour as the words of an SVG path."""
    pieces = paths.pieces(contour)
    words = ["M%g %g" % (pieces[0][0], -pieces[0][1])]
    for _, _, *numbers in pieces:
        words.append(("L" if len(numbers) == 2 else "Q") + " ".join("%g" % (-v if k % 2 else v) for k, v in enumerate(numbers)))
    return " ".join(words)


def dots(contours, size, both):
    """A dot for each point, filled if it is on the curve; points that differ are red."""
    other = [[place for contour in answer.get("outline", []) for place in contour] for answer in both]
    found, k = [], 0
    for contour in contours:
        for x, y, on in contour:
            same = all(k < len(places) for places in other) and other[0][k] == other[1][k] or not all(other)
            colour = "#345" if same else "#c00"
            found.append("<circle cx=%d cy=%d r='%.1f' fill='%s' stroke='%s' stroke-width='%.1f'/>" % (x, -y, size / 90,
                colour if on else "#fff", colour, size / 250))
            k += 1
    return "".join(found)

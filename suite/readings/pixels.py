"""Wrong readings of scan conversion and of drop-out control: contours, gaps, stubs and the frame."""
from .base import Reading

SCAN, DROPOUT = "scan", "dropout"
FRAME, PICK = "pixel = (min(values) + max(values)) // 256", "found.add((pick if pick in columns else 2 * i + 1 - pick, j))"
GAP, CLOSED = "if here and is_gap(here, so_far, i, j):", "dropout.bits(pieces, kind) if kind"
ROWS = "    so_far |= bridges(pieces, columns, rows, so_far, pixel)\n"
ARC = "            found.append((a, b, place))\n"
# The segments of a row that lie above and below a gap, which must be crossed too.
NO_STUB = GAP.rstrip(":") + " and all(any(meets(it, centre(i, j + s), centre(i + 1, j + s)) for it in pieces) for s in %s):"
MEETS = "any(meets(piece, centre(i, j), centre(i + 1, j)) for piece in pieces)"
COUNTED = "    return i + (sum(covered(pieces, (x + 64 + n, y)) for n in half) > left)"

READINGS = [Reading(*row) for row in (
    ("first_point_on", "scan", "a contour's first point is on the curve", SCAN, "    full = []\n",
     "    full, contour = [], [(contour[0][0], 1), *contour[1:]]\n"),
    ("begins_at_the_last", "scan", "a contour without a point on the curve begins at its last point",
     SCAN, "    full = []\n",
     "    full, contour = [], contour if any(on for _, on in contour) else contour[:-1] + [(contour[-1][0], 1)]\n"),
    ("arcs_in_halves", "scan", "an arc is drawn as two lines", SCAN, ARC,
     "            half = b and tuple((p + 2 * q + r) // 4 for p, q, r in zip(a, b, place))\n"
     "            found += [(a, None, half), (half, None, place)] if b else [(a, b, place)]\n"),
    ("arcs_in_eight", "scan", "an arc is drawn as eight lines", SCAN, ARC,
     "            way = [tuple(((8 - t) ** 2 * p + 2 * t * (8 - t) * q + t * t * r) // 64 for p, q, r in zip(a, b or a, place)) "
     "for t in range(9)]\n"
     "            found += [(p, None, q) for p, q in zip(way, way[1:])] if b else [(a, b, place)]\n"),
    ("one_point_draws", "scan", "a contour of one point sets the pixel on whose centre it lies", SCAN, "if len(contour) >= 2:",
     "if contour:"),
    ("lines_set_nothing", "scan", "a line without width sets no pixel", SCAN, "        return area(a, c, p) == 0 and all(",
     "        return (c, None, a) not in PIECES and area(a, c, p) == 0 and all(",
     SCAN, "def covered(pieces, p):\n", "PIECES = []\n\n\ndef covered(pieces, p):\n    PIECES[:] = pieces\n"),
    ("centres_rounded", "scan", "an edge's crossing with a row is rounded to 1/64 pixel", SCAN,
     "        return int(area(a, c, p) > 0)",
     "        return int(2 * near(c[0] * (p[1] - a[1]) + a[0] * (c[1] - p[1]), 2 * (c[1] - a[1])) > p[0])", SCAN,
     "from .faults import Refused\n", "from .faults import Refused\nfrom .numbers import near\n"),
    ("right_edge_open", "scan", "a centre on a right or an upper edge is not set",
     SCAN, "    return any(is_on(piece, p) for piece in pieces) or is_inside(winding(pieces, p))",
     "    large = [tuple(q and (4096 * q[0], 4096 * q[1]) for q in it) for it in pieces]\n"
     "    return is_inside(winding(large, (4096 * p[0] + 1, 4096 * p[1] + 1)))"),
    ("less_far", "scaling", "a coordinate is at most 2^20/64 pixels", "answer", "FARTHEST = 1 << 21", "FARTHEST = 1 << 20"),
    ("just_less_far", "scaling", "a coordinate is less than 2^21/64 pixels", "answer", "FARTHEST = 1 << 21",
     "FARTHEST = (1 << 21) - 1"),
    ("farther", "scaling", "a coordinate is at most 2^21/64 pixels and a pixel more", "answer", "FARTHEST = 1 << 21",
     "FARTHEST = (1 << 21) + 64"),
    ("one_column_less", "scaling", "a side has at most 8,191 pixels", SCAN, "LARGEST = 8192", "LARGEST = 8191"),
    ("one_column_more", "scaling", "a side has at most 8,193 pixels", SCAN, "LARGEST = 8192", "LARGEST = 8193"),
    # gaps and stubs
    ("stubs_left_out", "dropout", "a gap that does not go on above and below is a stub, and stays (rule 4)", DROPOUT, GAP,
     NO_STUB % "(-1, 1)"),
    ("stubs_above_left_out", "dropout", "a gap that does not go on above it stays", DROPOUT, GAP, NO_STUB % "(1,)"),
    ("stubs_below_left_out", "dropout", "a gap that does not go on below it stays", DROPOUT, GAP, NO_STUB % "(-1,)"),
    ("stubs_by_the_nearer", "nearer", "the nearer pixel of a stub is not set (rule 6)", DROPOUT, GAP, NO_STUB % "(-1, 1)"),
    ("level_lines_pass_by", "dropout", "a level line in a row makes no gap there", DROPOUT, "    if k2 == k1 == k0 == 0:",
     "    if False:"),
    ("columns_by_rule_one", "dropout", "gaps of columns are found before those of rows are closed",
     DROPOUT, ROWS, "    before = set(so_far)\n" + ROWS, DROPOUT, "{(j, i) for i, j in so_far}, pixel)",
     "{(j, i) for i, j in before}, pixel)"),
    ("columns_first_by_the_left", "dropout", "gaps of columns are closed before those of rows",
     "answer", CLOSED, "{(i, j) for j, i in dropout.bits([tuple(map(dropout.turned, it)) for it in pieces], kind)} if kind"),
    ("rows_left_out", "dropout nearer", "drop-out control is of columns alone", DROPOUT, ROWS, ""),
    ("lower_is_upper", "dropout", "of a column's gap the upper pixel is set", DROPOUT, "for i, j in so_far}, pixel)",
     "for i, j in so_far}, lambda *it: it[1] + 1)"),
    # the frame
    ("outside_left_unset", "dropout", "if the pixel to set lies outside the frame, none is", DROPOUT, PICK,
     "found |= {(pick, j)} if pick in columns else set()"),
    ("outside_set", "dropout", "the pixel to set may lie outside the frame", DROPOUT, PICK, "found.add((pick, j))"),
    ("gaps_within_the_frame", "dropout", "a gap at the frame's border stays", DROPOUT,
     "range(columns.start - 1, columns.stop):\n            if here",
     "range(columns.start, columns.stop - 1):\n            if here"),
    ("frame_of_the_lower_pixel", "dropout", "a box without a centre whose middle is on a border has the left or the lower pixel",
     DROPOUT, FRAME, "pixel = -(-(min(values) + max(values)) // 256) - 1"),
    ("frame_of_the_box_start", "dropout", "a box without a centre has the pixel in which it begins", DROPOUT, FRAME,
     "pixel = min(values) // 128"),
    # the nearer pixel
    ("middle_counts", "nearer", "the place in the middle counts for the second pixel", DROPOUT, COUNTED,
     COUNTED.replace("for n in half", "for n in range(64)")),
    ("middle_of_all", "nearer", "the pixel is nearer to the middle of all that is covered between the centres",
     DROPOUT, COUNTED,
     "    here = [n for n in range(1, 128) if covered(pieces, (x + n, y))] or [0]\n    return i + (here[0] + here[-1] > 128)"),
    ("by_most_of_the_first", "nearer", "the first pixel is set if it has any of the stroke", DROPOUT, COUNTED,
     "    return i + (left == 0)"),
)]

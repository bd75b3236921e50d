"""Compares a tool's answer with what a case expects."""
import paths

PARTS = ("advance", "outline", "bits")
HINT = "the outline is right: look at drop-out control, the fill rule and the frame"


def only_pixels(answer, fault):
    """Whether an answer has the outline that is expected, and other pixels."""
    return fault == "bits" and ("outline" in answer or "path" in answer)


def not_of_the_protocol(name, answer):
    """What is wrong with the form of an answer, or None."""
    if answer.get("id", name) != name:
        return "an answer to %s" % answer["id"]
    if not isinstance(answer.get("refusal", {}), dict):
        return "a refusal that is no object"
    bits = answer.get("bits", {"box": [0] * 4, "rows": []})
    if not isinstance(bits, dict) or not are_numbers(bits.get("box"), 4) or not are_rows(bits.get("rows"), bits["box"]):
        return "bits that are not of the protocol"
    contours = answer.get("outline", [])
    if not isinstance(contours, list) or not all(isinstance(c, list) and all(are_numbers(p, 3) for p in c) for c in contours):
        return "an outline that is not of the protocol"
    if not paths.is_path(answer.get("path", [])):
        return "a path that is not of the protocol"
    return None if isinstance(answer.get("advance", 0), int) else "an advance that is no whole number"


def are_numbers(values, count):
    """Whether these are so many whole numbers."""
    return isinstance(values, list) and len(values) == count and all(isinstance(value, int) for value in values)


def are_rows(rows, box):
    """Whether these are the rows of a box, in hexadecimal."""
    if not isinstance(rows, list) or len(rows) != box[1]:
        return False
    return all(isinstance(row, str) and len(row) == 2 * (-(-box[0] // 8)) and set(row) <= set("0123456789ABCDEF") for row in rows)


def is_close(expected, answer, most):
    """Whether an answer's points and advance differ by at most so many 1/64 pixels. Bits are not looked at then."""
    if "outline" not in expected or abs(answer.get("advance", expected["advance"]) - expected["advance"]) > most:
        return False
    if "path" in answer and paths.wrong(expected["outline"], answer["path"], most):
        return False
    return "outline" not in answer or are_near(expected["outline"], answer["outline"], most)


def are_near(one, other, most):
    """Whether contours have the same points, each at most so far off."""
    pairs = [pair for a, b in zip(one, other) for pair in zip(a, b)]
    same = [len(contour) for contour in one] == [len(contour) for contour in other]
    return same and all(a[2] == b[2] and max(abs(a[0] - b[0]), abs(a[1] - b[1])) <= most for a, b in pairs)


def wrong(expected, answer, every=False):
    """What is wrong with an answer, in a few words, or None. With `every` the answer must have all that is expected."""
    if "refusal" in expected:
        return wrong_refusal(expected["refusal"], answer, every)
    if "missing" in expected:
        return None if answer.get("missing") else "a glyph, and the map has none"
    if "refusal" in answer:
        return "refused: %s" % (answer["refusal"].get("name") or answer["refusal"].get("text") or "no name")
    if answer.get("missing"):
        return "missing, and the map has a glyph"
    given = [part for part in PARTS if part in expected and part in answer]
    if every and len(given) < len([part for part in PARTS if part in expected]):
        return "a part of the answer is missing"
    has_path = "path" in answer and "outline" in expected
    if not given and not has_path:
        return "no answer"
    found = [different(part, expected[part], answer[part]) for part in given if answer[part] != expected[part]]
    found += [paths.wrong(expected["outline"], answer["path"]) or ""] if has_path else []
    return ", ".join(filter(None, found)) or None


def wrong_refusal(expected, answer, every):
    """A refusal is compared by the fields that the tool gives, with `every` by all that are expected. `text` is free."""
    if "refusal" not in answer:
        return "not refused: %s" % expected["name"]
    given = answer["refusal"]
    for key, value in expected.items():
        if (every or key in given) and given.get(key) != value:
            return "%s %s in place of %s" % (key, given.get(key), value)
    return None


def different(part, expected, given):
    """How a part differs."""
    if part == "advance":
        return "advance %s in place of %s" % (given, expected)
    if part == "bits":
        return "bits"
    if [len(contour) for contour in expected] != [len(contour) for contour in given]:
        return "another number of points"
    pairs = [(a, b) for one, two in zip(expected, given) for a, b in zip(one, two) if a != b]
    places = [(a, b) for a, b in pairs if a[:2] != b[:2]]
    if not places:
        return "on or off the curve at %d points" % len(pairs)
    most = max(max(abs(a[0] - b[0]), abs(a[1] - b[1])) for a, b in places)
    return "%d points, by up to %d/64 pixel" % (len(places), most)

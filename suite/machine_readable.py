"""Writes results for CI: as JSON, and as JUnit's XML."""
import collections
import json
from xml.sax.saxutils import escape, quoteattr


def write_json(path, command, results, counts):
    """All results: the counts, and for each case its kind and what is wrong."""
    groups = collections.OrderedDict()
    for result in results:
        groups.setdefault(result.case["group"], collections.Counter())[named(result)] += 1
    cases = [{"id": result.case["id"], "result": named(result), **of("fault", result.fault), **of("own", result.case.get("own")),
              **of("unsupported", result.skipped)} for result in results]
    found = {"tool": command, "cases": len(results), **counts, "groups": groups, "results": cases}
    with open(path, "w", encoding="utf-8") as out:
        json.dump(found, out, indent=1)
        out.write("\n")


def named(result):
    """A result's word: passed, wrong, own choice or unsupported."""
    return {"own": "own choice", "skipped": "unsupported"}.get(result.kind, result.kind)


def of(key, value):
    """A field, if it has a value."""
    return {key: value} if value else {}


def write_junit(path, results):
    """A suite of tests for each group. What is wrong is a failure; an own choice and what is unsupported are skipped, with the
    reason."""
    groups = collections.OrderedDict()
    for result in results:
        groups.setdefault(result.case["group"], []).append(result)
    lines = ['<?xml version="1.0" encoding="UTF-8"?>', "<testsuites>"]
    for name, of_group in groups.items():
        kinds = collections.Counter(result.kind for result in of_group)
        lines.append('<testsuite name=%s tests="%d" failures="%d" skipped="%d">' % (
            quoteattr(name), len(of_group), kinds["wrong"], kinds["own"] + kinds["skipped"]))
        lines += [test(result) for result in of_group]
        lines.append("</testsuite>")
    with open(path, "w", encoding="utf-8") as out:
        out.write("\n".join(lines + ["</testsuites>", ""]))


def test(result):
    """One case."""
    case, begin = result.case, "<testcase classname=%s name=%s" % (quoteattr(result.case["group"]), quoteattr(result.case["id"]))
    if result.kind == "passed":
        return begin + "/>"
    if result.kind == "wrong":
        return "%s><failure message=%s>%s</failure></testcase>" % (begin, quoteattr(result.fault), escape(case["about"]))
    reason = str(result.skipped) if result.skipped else "own choice: %s: %s" % (case["own"], result.fault)
    return "%s><skipped message=%s/></testcase>" % (begin, quoteattr(reason))

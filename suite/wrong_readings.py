#!/usr/bin/env python3
"""Wrong readings of the manuals, each an edit of the suite's reference (readings/), and the group that finds each.

    suite/wrong_readings.py [--only WORD] [--cover] [--jobs N]

Without --cover it tells which case finds each reading: one of each group of the reading has to. With --cover it tells which cases
fall under no reading of their group, and which readings no case of their group finds: there has to be none of either. --only takes
the readings whose names have a word, or with --cover the group of that name. --jobs says how many processes run.

A case falls under a reading if the reference, changed so, gives a wrong answer. If the change breaks the reference down, that does
not count: a reading that does nothing else is tried first, and no case may find it. The status is 1 if a reading is not found, or
if a case falls under none.
"""
import argparse
import collections
import functools
import json
import multiprocessing
import os
import sys

sys.dont_write_bytecode = True
HERE = os.path.dirname(os.path.realpath(__file__))
sys.path.insert(0, HERE)
import compare  # noqa: E402
from readings import READINGS, Reading  # noqa: E402


def cases_by_group():
    """All cases, group by group, those of one font and size together."""
    groups = collections.defaultdict(list)
    with open(os.path.join(HERE, "cases.jsonl"), encoding="utf-8") as lines:
        for line in lines:
            case = json.loads(line)
            groups[case["group"]].append(case)
    for cases in groups.values():
        cases.sort(key=lambda case: (case["font"], case["ppem"], case["hinted"]))
    return groups


def found_by(read, cases, all_of_them):
    """The names of cases that are answered otherwise under a reading: the first, or all."""
    reference, draws, found = read.reference(), bool(DRAWING & set(read.groups) or PIXELS & {of for of, _, _ in read.edits}), []
    for case in cases:
        if is_different(reference, case, draws):
            found.append(case["id"])
            if not all_of_them:
                break
    return found


@functools.lru_cache(maxsize=None)
def bytes_of(font):
    """The bytes of a font of the suite."""
    with open(os.path.join(HERE, "fonts", font), "rb") as file:
        return file.read()


def is_different(reference, case, draws):
    """Whether a changed reference answers a case otherwise. `draws` says that pixels may differ for the same outline."""
    request = case if draws or "outline" not in case["expect"] else {**case, "want": ["outline"]}
    try:
        return compare.wrong(case["expect"], reference.answer(bytes_of(case["font"]), request)) is not None
    except Exception:  # noqa: B902, a wrong reading may break anything
        return False


def task(number):
    """Tries one reading on its groups: the first case of each that finds it."""
    read = READINGS[number]
    return number, [name for group in read.groups for name in found_by(read, CASES[group], False)]


def uncovered(group):
    """The cases of a group that fall under none of its readings, and the readings that none of its cases finds."""
    left, useless = CASES[group], []
    some = left[::25]
    # those that change many cases come first, which saves time
    counted = sorted(((len(found_by(read, some, True)), read) for read in readings_of(group)), key=lambda it: -it[0])
    for count, read in counted:
        found = set(found_by(read, left, True))
        left = [case for case in left if case["id"] not in found]
        if not (count or found or found_by(read, CASES[group], False)):
            useless.append(read.name)
    return group, [case["id"] for case in left], useless


def readings_of(group):
    """The readings that a group has to find."""
    return [read for read in READINGS if group in read.groups]


BROKEN = Reading("broken", "stack halts", "the reference breaks down", "answer", '    char = request.get("char")\n',
                 "    raise AssertionError\n")
CASES = cases_by_group()
# The groups of readings, and modules of the reference, whose changes are seen by pixels of the same outline.
DRAWING, PIXELS = {"scan", "dropout", "nearer", "asked"}, {"answer", "scan", "dropout"}


def main():
    parser = argparse.ArgumentParser(description=__doc__, formatter_class=argparse.RawDescriptionHelpFormatter)
    parser.add_argument("--only", default="")
    parser.add_argument("--cover", action="store_true")
    parser.add_argument("--jobs", type=int, default=os.cpu_count() or 1)
    options = parser.parse_args()
    counted = [name for group in BROKEN.groups for name in found_by(BROKEN, CASES[group][:20], True)]
    if counted:
        print("cases count although the reference broke down: %s" % " ".join(counted))
        return 1
    with multiprocessing.Pool(options.jobs) as pool:
        return cover(pool, options.only) if options.cover else find(pool, options.only)


def find(pool, only):
    """Tells which case finds each reading."""
    tried, missed = [k for k, read in enumerate(READINGS) if only in read.name], 0
    for number, found in pool.imap(task, tried):
        read = READINGS[number]
        without = sorted(set(read.groups) - {name.split("/")[0] for name in found})
        missed += len(without)
        where = ", ".join(found) + "".join("; NOT FOUND by %s" % group for group in without)
        print("%-28s %-18s %s: %s" % (read.name, " ".join(read.groups), read.text, where), flush=True)
    print("%d readings, %d not found by a group of theirs" % (len(tried), missed))
    return 1 if missed else 0


def cover(pool, only):
    """Tells which cases fall under no reading and which readings no case finds, with the counts of each group."""
    groups, total, unfound = [group for group in CASES if only in ("", group)], 0, 0
    print("%-12s %7s %9s %10s" % ("group", "cases", "readings", "fall under"))
    for group, left, useless in pool.imap(uncovered, groups):
        total += len(left)
        unfound += len(useless)
        count = len(CASES[group])
        names = "; under none: %s" % " ".join(left) if left else ""
        names += "; not found: %s" % " ".join(useless) if useless else ""
        print("%-12s %7d %9d %10d%s" % (group, count, len(readings_of(group)), count - len(left), names), flush=True)
    print("%d cases, %d fall under no reading; %d readings are not found"
          % (sum(len(CASES[group]) for group in groups), total, unfound))
    return 1 if total or unfound else 0


if __name__ == "__main__":
    sys.exit(main())

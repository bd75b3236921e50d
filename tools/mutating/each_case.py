"""Asks the suite's reference for cases of all groups in turn, until an answer is not the written one."""
import collections
import json
import sys

sys.path.insert(0, "suite")
from reference.answer import answer  # noqa: E402

groups = collections.defaultdict(list)
with open("out/cases.jsonl", encoding="utf-8") as file:
    for case in map(json.loads, file):
        groups[case["group"]].append(case)
# few of each group, then more, then all
for case in (case for step in (97, 11, 1) for it in groups.values() for case in it[step // 3 % len(it)::step]):
    with open("suite/fonts/" + case["font"], "rb") as font:
        if json.loads(json.dumps(answer(font.read(), case))) != case["expect"]:
            sys.exit("FAILED " + case["id"])

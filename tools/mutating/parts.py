"""The parts that tools/mutate knows: of each groups of files, with the commands that look at them, the quickest first."""
import os
import re
import shutil

RUNNER = ["suite/" + it for it in "compare.py run tool.py paths.py report.py machine_readable.py listing.py".split()]
PARTS = {
    "python": [(["python/mkstrike/*.py"], ["pytest tests/python -k 'not damaged and not types'"])],
    "suite": [(RUNNER, ["suite/check_runner --only judged", "suite/check_runner"])],
    "reference": [(["suite/reference/*.py"], ["python3 tools/mutating/each_case.py",
                                              "pytest tests/house/test_instances.py tests/program/test_traces.py"])],
    "judges": [(["tests/lib/due.py"], ["pytest tests/house/test_due.py"]),
               (["tests/house/rules.py"], ["pytest tests/house/test_rules.py"]),
               (["tests/house/forms.py"], ["pytest tests/house/test_forms.py"]),
               (["tests/house/documents.py"], ["pytest tests/house/test_documents.py -k planted"]),
               (["tools/run_checks"], ["pytest tests/house/test_run_checks.py tests/house/test_gate.py"]),
               (["tools/check_dist", "tools/prebuilt.py"], ["pytest tests/house/test_prebuilt.py tests/house/test_gate.py"])],
    "c": [(["c/*.c"], ["pytest tests/c -k 'not sanitizer and not valgrind and not arm and not commands and not damaged'"])],
    "examples": [(["examples/*.c"], ["pytest tests/c -k 'test_examples or console or boxes or words_of or numbers_of'"])],
    "bench": [(["bench/run", "bench/desk"], ["pytest tests/house/test_bench.py"])],
    "web": [(["web/*.js"], ["pytest tests/web -k 'not planted'"])],
}


def fewer_cases(top):
    """Keeps a twentieth of the suite's cases in a copy of the repository, with those that its trials name; all are in out/."""
    path, named = os.path.join(top, "suite/cases.jsonl"), ()
    shutil.copy(path, os.path.join(top, "out"))
    for name in ("check_runner", "judged.py"):
        with open(os.path.join(top, "suite", name), encoding="utf-8") as file:
            named += tuple('{"id":"%s/%s' % it for it in re.findall(r'"(\w+)(?:/([\w-]*))?"', file.read()))
    with open(path, "r+", encoding="utf-8") as file:
        lines = [line for k, line in enumerate(file) if k % 20 == 0 or line.startswith(named)]
        file.seek(0)
        file.writelines(lines)
        file.truncate()

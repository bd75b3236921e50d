"""Cases of the program as tests of pytest: functions that yield runs, each with what is due of it."""
import pytest

ALL, RAN, DUE = set(), set(), set()  # the cases, those that ran to their end, and the lines on standard error that were due


def cases(*functions):
    """A test for each of these functions."""
    ALL.update(functions)

    @pytest.mark.parametrize("case", functions, ids=[it.__name__ for it in functions])
    def look(case, program):
        """Runs the program, and compares each answer."""
        wrong = []
        for run in case():
            DUE.add(run.due.err)
            fault = run.wrong(program)
            wrong += ["%s: %s" % (run.name, fault)] if fault else []
        RAN.add(case)
        if wrong:
            pytest.fail("\n".join(wrong), pytrace=False)
    look.functions = functions
    return look

"""The sources have no form that no contract can ask for, and each planted one is found."""
import collections

import pytest
from forms import Source, faults_in, look
from listed_places import GOOD, PLANTED
from prebuilt import TOP


def test_sources():
    """No source has one but where it is listed."""
    assert not look(TOP)


@pytest.mark.parametrize("number", range(len(PLANTED)))
def test_planted(number):
    """A planted fault is found."""
    path, text = PLANTED[number]
    assert faults_in(path, text, collections.Counter()), text


@pytest.mark.parametrize("number", range(len(GOOD)))
def test_good(number):
    """Nothing is found in good code."""
    path, text = GOOD[number]
    assert not faults_in(path, text, collections.Counter()), text


CODE = [("ensures(a[{1}]) { b } c", "c"), ("a ensures", "a"), ("a #[b([c])] d", "a d"), ("a ghost { b { c } } , d", "a d"),
        ("requires b { c } ; d", "d"), ("a.ensures { b } c", "a.ensures { b } c"),
        ("a /* b */ c // d", "a c"), ("a ghost use b; c { d }", "a c { d }"),
        ("a #[cfg(test)] mod tests { b }", "a"), ("a #[cfg(test)] mod tests { b } c", "a mod tests { b } c")]


@pytest.mark.parametrize("number", range(len(CODE)))
def test_code(number):
    """What is left of a source without comments, ghost code, contracts, attributes, and the tests at its end."""
    text, due = CODE[number]
    source = Source(text)
    assert (source.code.split(), source.is_whole) == (due.split(), True)

"""Looks at the sources for forms that no contract can ask for.

Out of memory is only passed on. No clause can say that there was memory enough, so a body that gives out of memory for no reason
would be proved. So that a reader need not look for one, such a fault is named in each `src/` only where it is a type or an enum's
variant, in an arm of one line whose pattern is that fault and no other, and in the lines of listed_places.py. It has no second
name: no `use` imports the variant, or renames it.

Room is asked for, and a name that nobody reads is bound, in the places of listed_places.py alone. No clause says how much memory is
taken, nor how long a statement works whose value is dropped, so each such place is looked at once and listed there. One that is
gone has to go from the list too.

No tally is made below a scan. A scan's bound on point tests speaks of the tally that it was given, so tests that are counted in
another would not be in it: in the crates of TALLIED only the tally's own file makes one, and all others take it by reference.
"""
import collections
import glob
import os
import re

import listed_places

# The crates that count point tests in the tally that they were given, less the file that defines it.
TALLIED = re.compile(r"crates/(fx_winding|fx_rows|fx_dropout|fx_contour)/src/(?!tally\.rt$)")

FAULTS = re.compile(r"\b(OutOfMemory|AllocError|AllocFailed)\b")
# A variant of an enum, and an arm of one line whose pattern is such a fault alone.
NAMED = re.compile(r"OutOfMemory,$|(Err\()?(\w+::)?(OutOfMemory|AllocError)\)? => [^{}]*,$")
ROOM = re.compile(r"\b(?:(?:with_capacity|reserve|reserve_exact|resize|resize_with|repeat|from_elem|from_slice|to_vec)\b"
                  r"|vec\s*!|Box\s*::\s*new\b)\s*")
UNREAD = re.compile(r"\blet\s+_\w*")

SKIPPED = re.compile(r"""(?P<comment>//[^\n]*|/\*.*?\*/)|b?"(?:[^"\\]|\\.)*"|b?'(?:[^'\\\n]|\\[^\n]{1,6})'""", re.S)
TESTS = re.compile(r"#\s*\[\s*cfg\s*\(\s*test\s*\)\s*\]\s*mod\s+\w+\s*")
GHOST = re.compile(r"(?<!\.)(?<!::)\b(?:ensures|requires|ghost)\b|#!?\[")
IMPORT = re.compile(r"(?:\bghost\s+)?\buse\b[^;]*;")
LONGEST = 99  # characters before a word that are looked at for the mark before it


# ---- a source without comments, texts, ghost code, contracts, attributes, and the tests at its end

def end_of_group(code, at):
    """The place after the brackets that open at a place."""
    depth = 0
    for end in range(at, len(code)):
        depth += (code[end] in "([{") - (code[end] in ")]}")
        if not depth:
            return end + 1
    return len(code)


def end_of_ghost(code, at):
    """The place after an attribute or ghost code: an import ends with a semicolon, all else with its braces, and a mark after
    them."""
    found = IMPORT.match(code, at)
    if found:
        return found.end()
    opener = "[" if code[at] == "#" else "{"
    while at < len(code) and code[at] != opener:
        at = end_of_group(code, at) if code[at] in "([" else at + 1
    at = end_of_group(code, at)
    return re.compile(r"\s*[;,]|").match(code, at).end() if opener == "{" else at


class Source:
    """A source: `code` is as long as it, with spaces in place of what is left out; `imports` are the places of its imports."""

    def __init__(self, text):
        code = SKIPPED.sub(lambda it: (" " if it.group("comment") else '"') * len(it.group()), text)
        tests = next((it.start() for it in TESTS.finditer(code) if end_of_group(code, it.end()) == len(code.rstrip())), len(code))
        self.given, code = text, code[:tests]
        functions, at = len(re.findall(r"\bfn\b", code)), 0
        for found in iter(lambda: GHOST.search(code, at), None):
            at = end_of_ghost(code, found.start())
            code = code[:found.start()] + " " * (at - found.start()) + code[at:]
        self.code, self.imports = code, [it.span() for it in IMPORT.finditer(code)]
        # whether all brackets are closed, and no function was taken for ghost code
        self.is_whole = end_of_group("(%s)" % code, 0) == len(code) + 2 and len(re.findall(r"\bfn\b", code)) == functions

    def is_import(self, at):
        return any(start <= at < end for start, end in self.imports)

    def before(self, at):
        """The code before a place, without spaces at its end."""
        return self.code[max(at - LONGEST, 0):at].rstrip()

    def parent(self, at):
        """The bracket that a place is in."""
        depth = 0
        while at > 0 and depth >= 0:
            at -= 1
            depth += (self.code[at] in ")]}") - (self.code[at] in "([{")
        return self.code[at:at + 1]

    def text(self, start, end):
        """The source from a place up to another, on one line."""
        whole = re.sub(r"\s+", " ", self.given[start:end]).strip()
        return re.sub(r",? ?([)\]])", r"\1", re.sub(r"([(\[]) ", r"\1", whole))

    def lines(self, at):
        """The number of the line of a place, the line and the one above."""
        number, lines = 1 + self.given.count("\n", 0, at), ["", *map(str.strip, self.given.split("\n"))]
        return number, lines[number], lines[number - 1]


# ---- out of memory

def is_type(source, start, end):
    """Whether AllocError stands where a type does: within angle brackets, after `&`, or after the `:` of an argument."""
    before, after = source.before(start), source.code[end:end + 1 + LONGEST].lstrip()[:1]
    if before.endswith(":") and not before.endswith("::"):
        return source.parent(start) == "("
    return before.endswith(("<", "&")) or after == ">" or after == "<" and before.endswith(",")


def out_of_memory(source):
    """The places in which out of memory is made, or gets another name: where they are, and their line."""
    for it in FAULTS.finditer(source.code):
        is_variant, (_, line, above) = it.group() == "OutOfMemory", source.lines(it.start())
        if source.is_import(it.start()):
            is_fault = is_variant or re.match(r"\s+as\b", source.code[it.end():])
        else:
            is_fault = (is_variant or not is_type(source, *it.span())) and (not NAMED.match(line) or above.endswith("|"))
        if is_fault:
            yield it.start(), line


# ---- tallies, room, unread names

def tallies(path, source):
    """The places where a tally is made, or gets another name, in a crate that takes it by reference."""
    for it in re.finditer(r"\bTally\b", source.code) if TALLIED.match(path) else ():
        after = source.code[it.end():].lstrip()
        if (after.startswith("as ") if source.is_import(it.start()) else
                not re.search(r"(\bmut|&)$", source.before(it.start())) or after.startswith(("::", "{"))):
            yield it.start()


def rooms(source):
    """The places where room is asked for: where they begin, and their text with the arguments."""
    for it in ROOM.finditer(source.code):
        has_group = source.code[it.end():it.end() + 1] in ("(", "[")
        end = end_of_group(source.code, it.end()) if has_group else it.end()
        text = source.text(it.start(), end)
        if not source.is_import(it.start()) and not re.search(r"\bfn$", source.before(it.start())) and (
                not text.startswith("from_slice") or "," in text):  # with an allocator
            yield it.start(), text


def unread(source):
    """The statements that bind a name which nobody reads: where they begin, and their text."""
    for it in UNREAD.finditer(source.code):
        end = it.end()
        while end < len(source.code) and source.code[end] != ";":
            end = end_of_group(source.code, end) if source.code[end] in "([{" else end + 1
        yield it.start(), source.text(it.start(), end)


# ---- looking

def faults_in(path, text, listed):
    """What is wrong in a source, as `path:line: text`; `listed` counts the places that may be there, and loses those that are."""
    source = Source(text)
    if not source.is_whole:
        return ["%s: this tool cannot read it: a bracket is open, or a function looks like ghost code" % path]
    found = list(tallies(path, source))
    for at, place in [*out_of_memory(source), *rooms(source), *unread(source)]:
        if listed[path, place]:
            listed[path, place] -= 1
        else:
            found.append(at)
    return ["%s:%d: %s" % (path, *source.lines(at)[:2]) for at in sorted(set(found))]


def places():
    """How often each listed place may be there."""
    return collections.Counter((path, place) for path, all_of in listed_places.PLACES.items() for place in all_of)


def paths_of_sources(top):
    """The sources of the program and the library, below a top; the crates of tests may ask for memory to be refused."""
    found = (os.path.relpath(it, top) for it in glob.glob(os.path.join(top, "crates/*/src/**/*.rt"), recursive=True))
    return [it for it in sorted(found) if not re.match(r"crates/(acceptance|\w+_tests)/", it)]


def look(top):
    """What is wrong in all sources below a top."""
    found, listed = [], places()
    for path in paths_of_sources(top):
        with open(os.path.join(top, path), encoding="utf-8") as file:
            found += faults_in(path, file.read(), listed)
    return found + ["%s: listed in tests/house/listed_places.py, and not there: %s" % it for it, left in listed.items()
                    for _ in range(left)]

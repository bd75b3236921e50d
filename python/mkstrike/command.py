"""The command `strike`: strikes of fonts at several sizes, in several formats."""
from __future__ import annotations

import os
import re
import sys
import time
import warnings
from bisect import bisect_right
from functools import partial
from itertools import accumulate

from . import bdf, formats
from .font import Font
from .jobs import IS_NAME, Job
from .options import FACES, joined, parser
from .refused import Missing, Refused, shown
from .report import Report, Said, failure, said_of
from .sources import read_file
from .spread import results

TYPE_CHECKING = False  # as in glyph.py
if TYPE_CHECKING:
    from collections.abc import Callable, Sequence

    from .jobs import Asked
    from .strike import Strike

FAULTS = (Refused, Missing, bdf.NotBdf, OSError, ValueError, TypeError, RuntimeError, ImportError)
PATIENCE = 1.0  # seconds without a bar
LEAST_COMMON = 8  # characters by which strikes are told apart


class Bar:
    """A progress bar on standard error, from the first second on, if that is a terminal."""

    def __init__(self, sizes: Sequence[int], quiet: bool) -> None:
        """By how many strikes each font has."""
        self.ends, self.done, self.failed, self.start = list(accumulate(sizes)), 0, 0, time.monotonic()
        self.wanted, self.width = sys.stderr.isatty() and not quiet, 0

    def count(self, name: str, is_made: bool) -> None:
        """Counts a strike, and shows which it was."""
        self.done, self.failed = self.done + 1, self.failed + (not is_made)
        if self.wanted and time.monotonic() - self.start > PATIENCE:
            filled, steps = 30 * self.done // self.ends[-1], len(self.ends)
            done = "%d of %d fonts" % (bisect_right(self.ends, self.done), steps) if steps > 1 else "%d of %d sizes" % (
                self.done, self.ends[-1])
            line = "[%s] %s%s: %s" % ("#" * filled + "." * (30 - filled), done, ", %d refused" % self.failed if self.failed else "",
                                      shown(name))
            sys.stderr.write("\r" + line[:100].ljust(self.width))
            self.width = len(line[:100])
            sys.stderr.flush()

    def clear(self) -> None:
        """Takes the bar away, so that a line can be printed."""
        if self.width:
            sys.stderr.write("\r" + " " * self.width + "\r")
            sys.stderr.flush()
            self.width = 0


class Made:
    """What became of a strike: its name, what its first font calls itself, the paths of its formats, the files of each, and what is
    said of it, or why there is nothing, or nothing more. One process hands it to another."""

    def __init__(self, name: str) -> None:
        self.name, self.font, self.said = name, "", Said()
        self.paths: list[str] = []
        self.files: list[dict[str, bytes]] = []
        self.read: list[str] = []  # paths that were read for it
        self.why: list[str] = []


class Run:
    """A run of the command: it makes the strikes of a font, writes their files, and lets the font go."""

    def __init__(self, job: Job) -> None:
        self.job, self.status = job, 0
        self.written: list[str] = []
        self.open: tuple[int, list[Font | Strike]] = (-1, [])  # the fonts of a group
        self.bar = Bar([len(job.sizes(it)[0]) for it in job.groups], job.options.quiet)
        self.report = Report(job, self.bar.clear)

    def fail(self, lines: list[str]) -> None:
        """Says why there is nothing."""
        self.status = 1
        for line in lines:
            self.report.complain(line)

    def all(self) -> int:
        """Makes all strikes and writes their files, or does what else is asked for. Returns the status."""
        if self.job.mode is not None:
            return self.other(self.job.mode)
        tasks = [(at, k) for at, group in enumerate(self.job.groups) for k in range(len(self.job.sizes(group)[0]))]
        try:
            for made, why in results(tasks, self.made, self.write, self.job.jobs):
                self.bar.count(made.name, not (why or made.why))
                if why or made.why:
                    self.fail(why or made.why)
                else:
                    self.report.tell(made.said)
                    self.written += made.said.paths
        finally:
            self.bar.clear()
        if self.job.options.depfile and not self.status:
            self.status = self.write_rule(self.job.options.depfile)
        return self.status

    def write_rule(self, path: str) -> int:
        """Writes the rule of Make that says which files depend on which. Returns the status."""
        try:
            self.job.refuse_to_lose([path])
            rule = "%s: %s\n" % tuple(" ".join(map(_in_make, dict.fromkeys(it))) for it in (self.written, self.job.read))
            formats.write(path, os.fsencode(rule))
        except FAULTS as why:
            self.fail(failure(path, why))
        return self.status

    def other(self, mode: str) -> int:
        """Does what is asked for in place of strikes. Returns the status."""
        from .modes import MODES
        made = Made("")
        fonts = [it for group in self.job.groups for it in self.opened(group, made)] if mode != FACES else []
        self.job.read += made.read
        if made.why:
            self.fail(made.why)
            return self.status
        try:
            return MODES[mode](self.job, self.report, fonts)
        except BrokenPipeError as why:  # the reader has seen enough
            self.fail(failure("standard output", why))
        except FAULTS as why:
            self.fail(failure(self.job.groups[0][0].path, why))
        return self.status

    def opened(self, group: list[Asked], made: Made) -> list[Font | Strike]:
        """The fonts of a strike, if all can be opened."""
        found = []
        for asked in group:
            try:
                found.append(asked.opened(made.read))
            except FAULTS as why:
                made.why += failure(asked.path, why)
        return found

    def made(self, task: tuple[int, int]) -> Made:
        """Makes a strike and its files, in memory. A font stays open for its next size."""
        (number, at), group, job = task, self.job.groups[task[0]], self.job
        made = Made(group[0].path)
        if self.open[0] != number:
            self.open = -1, []  # so that a font is let go before the next is opened
            self.open = number, self.opened(group, made)
        fonts = self.open[1]
        if len(fonts) < len(group):
            made.why = made.why if at == 0 else []
            return made
        made.font = "%s %s" % fonts[0].names[:2] if isinstance(fonts[0], Font) else fonts[0].name
        name = job.options.name or ""
        made.name = stem = name if re.fullmatch(IS_NAME, name) else group[0].stem(fonts[0])
        with warnings.catch_warnings(record=True) as warned:
            warnings.simplefilter("always")
            try:
                strike, told = job.made(group, fonts, at)
            except FAULTS as why:
                size = "" if group[0].is_bdf or group[0].rows or job.fit else " at %d pixels" % job.sizes(group)[0][at]
                made.why = failure((group[0].path if len(group) == 1 else stem) + size, why)
                return made
            made.name = stem if group[0].is_bdf and not name else "%s-%d" % (stem, strike.size)
            try:
                text = "" if job.is_written else strike.blocks(job.drawn(strike))
                if job.is_written:
                    self.encode(strike, made)
            except FAULTS as why:
                made.why = failure(made.name, why)
                return made
        written = [it for path, files in zip(made.paths, made.files) for it in [path, *(it for it in files if it != path)]]
        made.said = said_of(job, strike, told, made.name, written, text, [str(it.message) for it in warned])
        return made

    def encode(self, strike: Strike, made: Made) -> None:
        """Makes the files of a strike."""
        output = self.job.output
        made.paths = [output.replace("%s", str(strike.size))] if output else [
            os.path.join(self.job.options.out or ".", formats.file_name(made.name, name)) for name in self.job.formats]
        for path, name in zip(made.paths, self.job.formats):
            if not output and _is_of_another(path, name, made.font, strike):
                raise ValueError("%s is there, of another font: give another folder by --out, or replace it by -o %s" %
                                 (path, path))
            made.files.append(self.files(strike, name, path, made.name))

    def write(self, made: Made) -> Callable[[], list[str]]:
        """Looks whether the files of a strike may be written. The call that is returned writes them, and returns why it can't."""
        self.job.read += made.read
        try:
            self.job.refuse_to_lose(made.paths)
            self.job.refuse_to_lose([it for files in made.files for it in files if it not in made.paths])
        except FAULTS as why:
            lines = failure(made.name, why)
            return lambda: lines
        return partial(_written, made)

    def files(self, strike: Strike, form: str, path: str, stem: str) -> dict[str, bytes]:
        """The files of a strike in a format, or the picture of the text that is previewed."""
        o, preview = self.job.options, self.job.preview
        if preview is not None:
            return {path: formats.picture(strike.line(self.job.drawn(strike), o.scale or 1), form)}
        more = {it: getattr(o, it) for it in formats.TAKES.get(form, ()) if it != "name" and getattr(o, it) not in (None, False)}
        if form in formats.IN_C and path == "-":
            more["name"] = stem
        return {path: formats.encode(strike, form, more)} if path == "-" else formats.files(strike, path, form, more)


def _written(made: Made) -> list[str]:
    """Writes the files of a strike. Returns why they can't be written."""
    try:
        for path, data in (it for files in made.files for it in files.items()):
            if path == "-":
                sys.stdout.buffer.write(data)
                sys.stdout.buffer.flush()
            else:
                formats.write(path, data, made.font)
    except FAULTS as why:
        return failure(made.name, why)
    return []


def _in_make(path: str) -> str:
    """A path as Make and Ninja read it in a rule."""
    return re.sub(r"([ \t#:])", r"\\\1", path).replace("$", "$$")


def _is_of_another(path: str, form: str, font: str, strike: Strike) -> bool:
    """Whether there is a file of another font at a path. A BDF that does not tell its font is one if strikes of one size have other
    pictures of most of the characters that both have."""
    told = formats.font_of(path)
    if told or form != "bdf" or not os.path.isfile(path):
        return bool(told) and told != font
    one, other = ({it.partition(b"\n")[0]: it.partition(b"\nBBX")[2] for it in text.split(b"\nSTARTCHAR ")[1:]}
                  for text in (read_file(path), strike.text))
    common = one.keys() & other.keys()
    return len(common) >= LEAST_COMMON and 2 * sum(one[it] == other[it] for it in common) < len(common)


def main(words: Sequence[str] | None = None) -> int:
    """Runs the command. Returns its status: 0, 1 if a font or a file failed, 2 if an argument is wrong, 130 after an interrupt."""
    p = parser()
    given = p.parse_intermixed_args(joined(sys.argv[1:] if words is None else words))
    try:
        job = Job(given)
        if given.out:
            os.makedirs(given.out, exist_ok=True)
    except FAULTS as why:
        p.error(why.line + ": " + why.advice if isinstance(why, Refused) else str(why))
    run = Run(job)
    try:
        return run.all()
    except KeyboardInterrupt:
        run.fail(["interrupted"])
        return 130
    except ChildProcessError as why:
        run.fail([str(why)])
        return 1

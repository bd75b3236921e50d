"""What the command `strike` does beside writing strikes: sheets of sizes, lists of what is in a font, strikes compared."""
from __future__ import annotations

import os
import sys

from . import formats, options as table
from .font import LETTERS, TEXT, Font
from .refused import shown
from .strike import Strike

TYPE_CHECKING = False  # as in glyph.py
if TYPE_CHECKING:
    from typing import Callable, Union

    from PIL.Image import Image

    from .jobs import Asked, Job
    from .report import Report

    Source = Union[Font, Strike]


def _sheet(job: Job, report: Report, sources: list[Source]) -> int:
    """A picture of a text at sizes, and what is said of each."""
    from . import looks
    (font,), asked, given = sources, job.groups[0][0], job.options
    assert isinstance(font, Font)
    hinted, dropout = asked.how["hinted"], asked.how["dropout"]
    found = font.looks(job.sheet, job.chars or ("" if job.text else LETTERS), text=job.text, hinted=hinted, dropout=dropout)
    text = TEXT if job.preview is None else job.preview
    lost = "".join(it for it in text if not font.glyph_ids(text=it) and it.isprintable())
    if lost:
        report.complain("left out of the text, since %s lacks it: %s" % (font.name, lost))
    path = given.output or os.path.join(given.out or ".", asked.stem(font) + "-sheet.png")
    _write(job, path, looks.sheet(font, found, text, hinted, dropout, given.scale or 1))
    if not given.quiet:
        print("\n".join([shown("%s: %d sizes" % (path, len(found))), *(looks.told(it, dropout) for it in found)]))
    return 0


def _list(job: Job, report: Report, sources: list[Source]) -> int:
    """A table of what is in a font or a strike, or JSON."""
    from . import listing
    (source,), asked = sources, job.groups[0][0]
    heights: tuple[int, ...] = ()
    if isinstance(source, Strike):
        found, heights = listing.of_strike(source), (source.size, source.ascent, source.descent)
    else:
        found = source.listing(asked.sizes[0] if asked.sizes else None, hinted=asked.how["hinted"], dropout=asked.how["dropout"])
        heights = tuple(height for size in asked.sizes for height in (size, *source.heights(size)[:2]))
    if job.options.json:
        import json
        print(json.dumps({**dict(zip(("size", "ascent", "descent"), heights)), "glyphs": listing.as_data(found)}, indent=1))
    else:
        print("\n".join((["%d pixels per em, ascent %d, descent %d" % heights] if heights else []) + listing.table_of(found)))
    return 0


def _faces(job: Job, _: Report, sources: list[Source]) -> int:
    """A table of the fonts of a file, or JSON."""
    from . import listing
    from .names import faces
    path = job.groups[0][0].path
    found = faces(sys.stdin.buffer if path == "-" else path)
    if job.options.json:
        import json
        print(json.dumps([{"face": face, **it._asdict()} for face, it in enumerate(found)], indent=1))
    else:
        print("\n".join(listing.table_of_faces(found)))
    return 0


def _diff(job: Job, report: Report, sources: list[Source]) -> int:
    """How two strikes differ; the status is 1 if they do."""
    asked = [it for group in job.groups for it in group]
    there = next((it for it in sources if isinstance(it, Strike)), None)
    old, new = (_strike_of(job, it, source, there) for it, source in zip(asked, sources))
    found = old.diff(new)
    if job.options.output is not None:
        _write(job, job.options.output, found.image(job.options.scale or 1))
    if found:
        print("\n".join(found.lines()))
    elif not job.options.quiet:
        print("%d glyphs are the same" % found.same)
    return int(bool(found))


def _strike_of(job: Job, asked: Asked, source: Source, there: Strike | None) -> Strike:
    """A strike to compare. That of a font has the size and the characters of the strike that is there already, if no option says
    others."""
    if there is None or isinstance(source, Strike) or job.chars or job.text:
        chars, text = job.wanted([asked], [source])
    else:
        chars, text = "", "".join(there)
    size = asked.sizes[0] if asked.sizes else 16 if there is None else there.size
    return job.alone(asked, source, size, chars, text)


def _write(job: Job, path: str, image: Image) -> None:
    """Writes a picture, but not over what is read."""
    job.refuse_to_lose([path])
    form = formats.by_ending(path)
    if form not in formats.PICTURES:
        raise ValueError("%s is no name of a picture: give it the ending .png or .pbm" % shown(path))
    formats.write(path, formats.picture(image, form))


MODES: dict[str, Callable[[Job, Report, list[Source]], int]] = {table.SHEET: _sheet, table.LIST: _list, table.FACES: _faces,
                                                                         table.DIFF: _diff}

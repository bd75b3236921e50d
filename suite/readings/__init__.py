"""Wrong readings of the manuals, each an edit of the reference."""
from . import asked, faces, files, outlines, pixels, points, programs, sizes
from .base import Reading  # noqa: F401

READINGS = [it for part in (sizes, programs, points, files, faces, outlines, pixels, asked) for it in part.READINGS]

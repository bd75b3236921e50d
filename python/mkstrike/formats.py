"""Which formats a strike can be written in."""
from __future__ import annotations

import contextlib
import errno
import io
import os
import stat
from collections.abc import Mapping
from functools import partial

from .refused import shown

TYPE_CHECKING = False  # as in glyph.py
if TYPE_CHECKING:
    from typing import Any, Callable

    from PIL.Image import Image

    from .strike import Strike


def _bdf(strike: Strike) -> bytes:
    return strike.text


def _sheet(form: str, strike: Strike, **options: Any) -> bytes:
    return picture(strike.sheet(**options), form)


def picture(image: Image, form: str) -> bytes:
    """A picture of Pillow in a format."""
    out = io.BytesIO()
    image.save(out, {"png": "PNG", "pbm": "PPM"}[form])
    return out.getvalue()


def _c(form: str, strike: Strike, name: str = "strike", **options: Any) -> bytes:
    from . import carray
    text: str = getattr(carray, form)(strike, carray.identifier(name), **options)
    return text.encode()


def _raw(strike: Strike, order: str | None = None, **layout: str) -> bytes:
    from . import carray
    return carray.raw(strike, order, **layout)


def _py(strike: Strike, **options: str) -> bytes:
    from . import micropython
    return micropython.module(strike, **options).encode()


def _fnt(strike: Strike, **_: object) -> bytes:
    raise ValueError("fnt is a text and pictures beside it: save it to a file")


def _by(program: str, strike: Strike) -> bytes:
    from . import others
    data: bytes = getattr(others, program)(strike)
    return data


FORMATS: dict[str, Callable[..., bytes]] = {
    "bdf": _bdf, **{it: partial(_sheet, it) for it in ("png", "pbm")}, "c": partial(_c, "rows"),
    **{it: partial(_c, it) for it in ("gfx", "lvgl")},
    "raw": _raw, "fnt": _fnt, "py": _py, **{it: partial(_by, it) for it in ("psf", "pcf", "otb")}}
OF_ENDING = {".bdf": "bdf", ".png": "png", ".pbm": "pbm", ".h": "c", ".c": "c", ".raw": "raw", ".fnt": "fnt",
             ".py": "py", ".psf": "psf", ".psfu": "psf", ".pcf": "pcf", ".otb": "otb"}
# Of the files that the command writes.
ENDING = {**{name: "." + name for name in FORMATS}, "c": ".h", "gfx": "-gfx.h", "lvgl": ".c"}
IN_C, PICTURES = ("c", "gfx", "lvgl"), ("png", "pbm")
TAKES: dict[str, tuple[str, ...]] = {  # options
    **{name: ("columns", "scale") for name in PICTURES}, "c": ("name", "attribute", "bytes", "bits", "align"),
    "gfx": ("name", "dense"), "lvgl": ("name",), "raw": ("order", "bytes", "bits", "align"), "fnt": ("padding",),
    "py": ("bytes", "bits")}
TRIES = 100  # of a file that others replace meanwhile
FONT = "user.mkstrike.font"  # the extended attribute that tells the font of a file


def encode(strike: Strike, format: str, options: Mapping[str, Any]) -> bytes:
    """The strike in a format, as bytes."""
    _check(strike, format, options)
    return FORMATS[format](strike, **options)


def _check(strike: Strike, format: str, options: Mapping[str, Any]) -> None:
    """Refuses what is no format, or no option of it; warns of glyphs that a format leaves out."""
    if format not in FORMATS:
        raise ValueError("%r is no format: there are %s" % (format, ", ".join(FORMATS)))
    if format in TAKES:
        from .strike import tell_of_unnamed
        tell_of_unnamed(strike.parsed().unnamed)
    for name in options:
        if name not in TAKES.get(format, ()):
            raise TypeError("%s is no option of the format %s%s" %
                            (name, format, ": it has " + ", ".join(TAKES[format]) if format in TAKES else ""))


def save(strike: Strike, path: str, format: str | None, options: Mapping[str, Any]) -> None:
    """Writes each file whole, or leaves what was there."""
    for name, data in files(strike, path, format or by_ending(path), options).items():
        write(name, data)


def files(strike: Strike, path: str, format: str, options: Mapping[str, Any]) -> dict[str, bytes]:
    """The files of a strike in a format, by their paths: beside the one that is named those that it needs, which come first."""
    folder, name = os.path.split(os.path.splitext(path)[0])
    if format == "fnt":
        from . import bmfont
        _check(strike, format, options)
        made = bmfont.files(strike, name, **options)
        return {path if it.endswith(".fnt") else os.path.join(folder, it): data for it, data in made.items()}
    return {path: encode(strike, format, {"name": name, **options} if format in IN_C else options)}


def file_name(stem: str, format: str) -> str:
    """The name of the file of a strike; that of a module is one that Python can import."""
    if format == "py":
        from .carray import identifier
        stem = identifier(stem)
    return stem + ENDING[format]


def by_ending(path: str) -> str:
    """The format that the ending of a file's name says."""
    ending = os.path.splitext(path)[1].lower()
    if ending not in OF_ENDING:
        raise ValueError("%s: the ending says no format: there are %s" % (shown(path), " ".join(OF_ENDING)))
    return OF_ENDING[ending]


def write(path: str, data: bytes, font: str = "") -> None:
    """Writes a file in one step: a reader sees the old one or the new one, which has its permissions, and its owner and group if
    the user may set them. What is no file, as a device or a pipe, is written to; a file that may not be written stays. `font` is
    what `font_of` then returns."""
    for _ in range(TRIES):
        try:
            opened = os.open(path, os.O_WRONLY)  # by the name as it is given: the system may guard a link
        except FileNotFoundError:
            if _replace(path, None, data, font):
                return
            continue
        with open(opened, "wb") as stream:
            old = os.fstat(opened)
            if not stat.S_ISREG(old.st_mode):
                stream.write(data)
                return
            if _replace(path, old, data, font):
                return
    raise OSError(errno.EBUSY, "others replace it all the time", path)


def font_of(path: str) -> str:
    """The font from which `write` made a file, by the file's extended attribute; nothing if it has none, as a copy may."""
    try:
        return os.getxattr(path, FONT).decode(errors="replace")
    except (OSError, AttributeError):
        return ""


def _replace(path: str, old: os.stat_result | None, data: bytes, font: str) -> bool:
    """Writes a new file beside the one that a path leads to, and gives it the name when all is on the disk. Does nothing and
    returns False if that is no longer the file that was opened: by a link that came between, another file would get its owner."""
    folder, name = os.path.split(os.path.realpath(path))  # a link stays one
    if not os.path.isdir(folder):
        raise FileNotFoundError(errno.ENOENT, "there is no folder for it", path)
    at = os.open(folder, os.O_PATH | os.O_DIRECTORY)
    try:
        if not _is_still(at, name, old):
            return False
        _store(at, name, old, data, font)
        return True
    except OSError as fault:
        raise OSError(fault.errno, fault.strerror, path) if fault.errno else fault from fault
    finally:
        os.close(at)


def _is_still(at: int, name: str, old: os.stat_result | None) -> bool:
    """Whether this name in a folder is that file's, or nobody's if there was none."""
    try:
        found = os.stat(name, dir_fd=at, follow_symlinks=False)
    except FileNotFoundError:
        return old is None
    return old is not None and os.path.samestat(found, old)


def _store(at: int, name: str, old: os.stat_result | None, data: bytes, font: str) -> None:
    """Writes a file in a folder, first under a name of its own. A fault leaves none."""
    new, mode = ".mkstrike-" + os.urandom(8).hex(), old.st_mode & 0o700 if old else 0o666
    try:
        with open(new, "xb", opener=lambda name, flags: os.open(name, flags, mode, dir_fd=at)) as file:
            if old:
                _keep(file.fileno(), old)
            if font:
                with contextlib.suppress(OSError, AttributeError):  # not every file system has attributes
                    os.setxattr(file.fileno(), FONT, font.encode(errors="replace"))
            file.write(data)
            file.flush()
            os.fsync(file.fileno())
        os.replace(new, name, src_dir_fd=at, dst_dir_fd=at)
    except BaseException:
        with contextlib.suppress(OSError):
            os.remove(new, dir_fd=at)
        raise


def _keep(file: int, old: os.stat_result) -> None:
    """Gives a new file the permissions of an older one, never setuid or setgid, and its owner and group as far as the user may."""
    for owner, group in ((-1, old.st_gid), (old.st_uid, -1)):
        with contextlib.suppress(OSError):
            os.fchown(file, owner, group)
    os.fchmod(file, old.st_mode & 0o777)

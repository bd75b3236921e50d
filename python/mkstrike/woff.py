"""Fonts in WOFF and WOFF2, unpacked. A small file can claim to be a large font, so what is unpacked is bounded: 64 MiB, as what is
read."""
from __future__ import annotations

import os
import struct
import subprocess
import sys
import zlib

from .refused import NotInstalled, shown
from .sources import MOST, reason_of

MEMORY = 300_000_000  # bytes that unpacking WOFF2 may take, by a process of its own, since brotli has no bound
CHILD = "import sys; sys.path[:] = sys.argv[1:]; from mkstrike import woff; woff.unpack_in_child()"
NOT_INSTALLED = 3  # the child's status


def unpacked(data: bytes) -> bytes:
    """The font of a file in WOFF or WOFF2."""
    kind = "WOFF" if data[:4] == b"wOFF" else "WOFF2"
    try:
        (total,) = struct.unpack_from(">I", data, 16)
        if total > MOST:
            raise ValueError("unpacked it has %s bytes, more than %s" % (format(total, ","), format(MOST, ",")))
        return _of_woff(data) if kind == "WOFF" else _of_woff2(data)
    except (ValueError, struct.error, zlib.error) as fault:
        said = "its directory is truncated" if isinstance(fault, struct.error) else reason_of(fault)
        raise ValueError("the font can't be unpacked from %s: %s" % (kind, said)) from fault


# ---- WOFF: each table by zlib

def _of_woff(data: bytes) -> bytes:
    """The font's file with its tables in the order of the directory."""
    version, _, count = struct.unpack_from(">4sIH", data, 4)
    entries = [struct.unpack_from(">4sIIII", data, 44 + 20 * k) for k in range(count)]
    total = 12 + 16 * count + sum(-(-length // 4) * 4 for _, _, _, length, _ in entries)
    if total > MOST:
        raise ValueError("unpacked its tables have %s bytes, more than %s" % (format(total, ","), format(MOST, ",")))
    search = 16 << max(count.bit_length() - 1, 0)
    head = [struct.pack(">4sHHHH", version, count, search & 0xFFFF, max(count.bit_length() - 1, 0), (16 * count - search) & 0xFFFF)]
    body, at = [], 12 + 16 * count
    for tag, offset, packed, length, checksum in entries:
        head.append(struct.pack(">4sIII", tag, checksum, at, length))
        body.append(_table(tag, data[offset:offset + packed], packed, length).ljust(-(-length // 4) * 4, b"\0"))
        at += len(body[-1])
    return b"".join(head + body)


def _table(tag: bytes, data: bytes, packed: int, length: int) -> bytes:
    """A table of as many bytes as the directory says: it is packed if that made it shorter."""
    name = shown(tag.decode("latin-1"))
    if len(data) < packed:
        raise ValueError("the table '%s' is truncated" % name)
    if packed != length:
        data = zlib.decompressobj().decompress(data, length + 1)
    if len(data) != length:
        raise ValueError("the table '%s' does not have the %d bytes that the directory says" % (name, length))
    return data


# ---- WOFF2: by fontTools

def _of_woff2(data: bytes) -> bytes:
    """The font's file, made by a process that can't take much memory."""
    folder = os.path.dirname(os.path.dirname(os.path.abspath(__file__)))
    words = [sys.executable or "python3", "-I", "-S", "-c", CHILD, *[it for it in sys.path if isinstance(it, str)], folder]
    ran = subprocess.run(words, input=data, capture_output=True)
    if ran.returncode == 0:
        return ran.stdout
    said = shown(ran.stderr.decode(errors="replace").strip().split("\n")[-1])
    if ran.returncode == NOT_INSTALLED:
        raise NotInstalled(said)
    raise ValueError(said if ran.returncode == 1 and said else "it takes more than %s bytes of memory" % format(MEMORY, ","))


def unpack_in_child() -> None:
    """Unpacks WOFF2 from standard input to standard output, or tells on standard error why not."""
    import resource
    resource.setrlimit(resource.RLIMIT_AS, (MEMORY, MEMORY))
    status, said = 1, ""
    try:
        made = _by_fonttools(sys.stdin.buffer.read())
        if len(made) <= MOST:
            sys.stdout.buffer.write(made)
            return
        said = "unpacked it has more than %s bytes" % format(MOST, ",")
    except ImportError as fault:
        lacks_brotli = "brotli" in str(fault).lower()
        status, said = NOT_INSTALLED, "WOFF2 needs %s (Debian: python3-%s; pip install %s)" % (
            ("brotli", "brotli", "brotli") if lacks_brotli else ("fontTools", "fonttools", "fonttools"))
    except MemoryError:
        said = "it takes more than %s bytes of memory" % format(MEMORY, ",")
    except Exception as fault:  # what fontTools raises on a damaged font has no common kind
        said = "fontTools says: " + reason_of(fault)
    print("\n" + said, file=sys.stderr)
    sys.exit(status)


def _by_fonttools(data: bytes) -> bytes:
    """The font's file."""
    import io

    from fontTools.ttLib import TTFont
    font, out = TTFont(io.BytesIO(data), lazy=True, recalcBBoxes=False, recalcTimestamp=False), io.BytesIO()
    font.flavor = None
    font.save(out, reorderTables=None)
    return out.getvalue()

"""Puts faces together into collections (OpenType, "Font Collections")."""
import struct

TAG = b"ttcf"
VERSION = 0x00010000


class Collection:
    """A collection under way: faces that are font makers, or the bytes of a directory.

    Tables with the same bytes are there once, for all faces. The header may have another version or count of faces, and bytes after
    its offsets. `offsets` are the directories that it names, by their numbers, or other offsets as text; a gap goes before the
    directories, and the file may end early."""

    def __init__(self, name, faces, version=VERSION, count=None, more=b"", offsets=None, gap=0, size=None):
        self.name, self.file, self.faces, self.version, self.more = name, name + ".ttc", faces, version, more
        self.count, self.gap, self.size = count, gap, size
        self.offsets = list(range(len(faces))) if offsets is None else offsets

    def bytes(self):
        """The collection's bytes: the header, the directories, and the tables."""
        count = len(self.offsets) if self.count is None else self.count
        header = TAG + struct.pack(">LL", self.version, count)
        at = len(header) + 4 * len(self.offsets) + len(self.more) + self.gap
        sizes = [len(face) if isinstance(face, bytes) else 12 + 16 * len(face.all_tables()) for face in self.faces]
        places = [at + sum(sizes[:k]) for k in range(len(sizes))]
        first = at + sum(sizes)
        tables, directories = self.laid_out(first + -first % 4)
        offsets = [int(it) if isinstance(it, str) else places[it] for it in self.offsets]
        data = header + struct.pack(">%dL" % len(offsets), *offsets) + self.more + bytes(self.gap) + b"".join(directories)
        return (data + bytes(-first % 4) + tables)[:self.size]

    def laid_out(self, at):
        """The tables from an offset on, each once, and the directories."""
        placed, body, directories = {}, b"", []
        for face in self.faces:
            if isinstance(face, bytes):
                directories.append(face)
                continue
            records = b""
            for tag, data in face.all_tables().items():
                if data not in placed:
                    placed[data] = at + len(body)
                    body += data + bytes(-len(data) % 4)
                records += struct.pack(">4sLLL", tag.encode("latin-1"), 0, placed[data], len(data))
            directories.append(struct.pack(">LHHHH", 0x10000, len(records) // 16, 0, 0, 0) + records)
        return body, directories

"""Wrong readings of collections."""
from .base import Reading

COUNT, FIRST, NUMBER = "    if len(data) < 12 or (u16", "    if face >= u32(data, 8):\n", "    return u32(data, 12 + 4 * face)"
VERSION, ROOM = "(u16(data, 4), u16(data, 6)) not in ((1, 0), (2, 0))", " or len(data) < 12 + 4 * u32(data, 8):\n"
NONE = '        raise Refused("NotTrueType")\n'

READINGS = [Reading(name, "faces", text, *(it for edit in zip(edits[::2], edits[1::2]) for it in ("fontfile", *edit)))
            for name, text, *edits in (
    ("first_face_always", "each face is the first one", COUNT, "    face = 0\n" + COUNT),
    ("faces_from_one", "faces are counted from 1", COUNT, "    face = max(face, 1) - 1\n" + COUNT),
    ("last_face_for_others", "a face past the last one is the last one", FIRST,
     "    face = min(face, max(u32(data, 8), 1) - 1)\n" + FIRST),
    ("offsets_ascending", "directories are numbered as they lie in the file",
     NUMBER, "    return sorted(u32(data, 12 + 4 * k) for k in range(u32(data, 8)))[face]"),
    ("collections_not_read", "a collection is no font", COUNT, '    raise Refused("NotTrueType")\n' + COUNT),
    ("version_two_refused", "version 2.0 is not read", VERSION, "(u16(data, 4), u16(data, 6)) != (1, 0)"),
    ("version_not_looked_at", "a header of any version is read", VERSION, "False"),
    ("minor_version_not_looked_at", "a header of version 1.1 is read as 1.0", VERSION, "u16(data, 4) not in (1, 2)"),
    ("header_as_far_as_needed", "the offsets after the face's own may be truncated", ROOM,
     " or len(data) < 12 + 4 * min(u32(data, 8), face + 1):\n"),
    ("header_cut_is_no_face", "a face whose offset is truncated is not there",
     COUNT, '    if len(data) < 12 or len(data) < 12 + 4 * u32(data, 8):\n        raise Refused("NoFace")\n' + COUNT),
    ("signature_required", "a header of version 2.0 has its signature fields",
     NUMBER, "    if u16(data, 4) == 2 and min(u32(data, 12 + 4 * k) for k in range(u32(data, 8))) < 24 + 4 * u32(data, 8):\n"
     + NONE + NUMBER),
    ("signed_refused", "a signed collection is refused, unless the signature is looked at", NUMBER,
     '    if b"DSIG" in data[:64]:\n' + NONE + NUMBER),
    ("odd_offset_refused", "a directory begins at a multiple of four", NUMBER,
     "    if u32(data, 12 + 4 * face) % 4:\n" + NONE + NUMBER),
    ("face_ignored_in_a_font", "a file of one font has it as each face", "        if face:\n", "        if False:\n"),
    ("one_font_is_face_one", "a file of one font has it as face 1", "        if face:\n", "        if face != 1:\n"),
    ("tables_from_the_directory", "offsets of tables count from the face's directory", "own = data[start:]",
     "own = data = data[start:]"),
    ("directory_not_whole", "a truncated directory has the tables of its complete records",
     " or len(own) < 12 + 16 * u16(own, 4)", "", "in range(u16(own, 4))", "in range(min(u16(own, 4), (len(own) - 12) // 16))"),
    ("any_directory_version", "a face is read whatever the version of its directory",
     "u32(own, 0) not in (0x10000, 0x74727565) or ", ""),
)]

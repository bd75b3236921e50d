/* mkstrike 0.20261128 for C: strikes (BDF 2.1) and glyphs of a TrueType font, hinted by the font's own programs, black and white.
 *
 * A call takes all that it needs and keeps nothing: there is no state, no handle, no lock, and nothing to close. Calls may run in
 * several threads at once, as long as no two write to the same bytes. A call gives back all memory that it takes before it returns. It
 * opens no file and prints nothing. docs/LIBRARY.md has the memory, the stack and the time that calls take.
 *
 * Units. A size is in pixels per em. Pixels are counted from the origin on the baseline, columns to the right, rows upwards; row 0 lies
 * above the baseline. A font is the bytes of its file, and `face` says which font of a collection: 0 is the first, and the only one of
 * any other file. A character is a code point of Unicode, a glyph a number of the font.
 *
 * Errors. A call returns 0 when it is done, or a number that never changes its meaning (docs/REFUSALS.md; MKSTRIKE_ below). A refused
 * call writes the fields of the refusal and nothing else. A call that is done writes no refusal, except that mkstrike_glyphs writes the
 * refusal of the first refused character, if there is one.
 *
 * Sizes. A call that makes a text or pixels tells how many bytes these have, even if your buffer is too small. So you can ask for the
 * size with a buffer of 0 bytes, as with snprintf.
 *
 * NULL. A buffer that is NULL has no elements, whatever its count says. A struct or a count that you don't want to be written may be NULL,
 * such as `refused`.
 *
 * What is promised. Numbers keep their meaning. The structs keep their size and their fields, and the calls their parameters, as long as
 * MKSTRIKE_ABI is the same. It is also the number in the shared object's name, libmkstrike.so.1. A release can add calls.
 *
 * What is trusted. The proofs say what each call does for all bytes, sizes and characters (docs/PROVED.md). The calls take this as given,
 * and nothing checks it:
 *   - each pointer that is not NULL has as many elements behind it as its count says, aligned, and nobody changes them during the call;
 *   - what a call writes to overlaps nothing else that the call is handed;
 *   - there is stack enough (docs/LIBRARY.md);
 *   - the processor has the instructions of x86-64-v2 (SSE4.2, POPCNT; from 2009 on): the calls do not look.
 *
 * Linking. libmkstrike.a or the shared object, which take memory by malloc; or libmkstrike_c.a with c/calls.c, and with c/arena.c (a block
 * that you hand over, no C library) or c/heap.c. Beside these the archive needs memcpy, memmove and memset, and __udivti3 of the compiler's
 * own library (libgcc). */
#ifndef MKSTRIKE_H
#define MKSTRIKE_H

#include <stddef.h>
#include <stdint.h>

#ifdef __cplusplus
extern "C" {
#endif

/* The release, by its day; and the number that changes when structs or calls do. */
#define MKSTRIKE_VERSION UINT32_C(20261128)
#define MKSTRIKE_ABI UINT32_C(1)

/* What a call returns. */
enum {
    MKSTRIKE_DONE = 0,
    MKSTRIKE_MISSING = 1, /* mkstrike_glyph, and the entries of mkstrike_glyphs: the font does not have the character; mkstrike_name */

    /* the font */
    MKSTRIKE_NOT_TRUE_TYPE = 10,
    MKSTRIKE_TABLE_MISSING = 11, /* table */
    MKSTRIKE_TABLE_SHORT = 12,   /* table */
    MKSTRIKE_BAD_HEAD = 13,
    MKSTRIKE_BAD_MAXP = 14,
    MKSTRIKE_NO_CHAR_MAP = 15,
    MKSTRIKE_BAD_CHAR_MAP = 16,

    /* a glyph of the font: the field `glyph` */
    MKSTRIKE_BAD_LOCA = 17,
    MKSTRIKE_GLYPH_SHORT = 18,
    MKSTRIKE_BAD_CONTOURS = 19,
    MKSTRIKE_COMPONENT_DEPTH = 20,
    MKSTRIKE_TOO_MANY_COMPONENTS = 21,
    MKSTRIKE_TOO_MANY_POINTS = 22,
    MKSTRIKE_BAD_POINT_MATCH = 23,
    MKSTRIKE_BAD_GLYPH_NUMBER = 24,

    MKSTRIKE_NO_FACE = 25, /* the file has no such font */

    /* a program of the font halted: the fields `during`, `program`, `address`, `opcode` */
    MKSTRIKE_STACK_UNDER = 30,
    MKSTRIKE_STACK_OVER = 31,
    MKSTRIKE_BAD_OPCODE = 32,
    MKSTRIKE_CODE_END = 33,
    MKSTRIKE_BAD_JUMP = 34,
    MKSTRIKE_NO_FUNCTION = 35,
    MKSTRIKE_CALL_DEPTH = 36,
    MKSTRIKE_STEP_LIMIT = 37,
    MKSTRIKE_DIVIDE_BY_ZERO = 38,
    MKSTRIKE_BAD_ARGUMENT = 39,
    MKSTRIKE_NESTED_DEFINITION = 40,
    MKSTRIKE_STRAY_END = 41,

    /* an outline at this size: the field `glyph` */
    MKSTRIKE_TOO_FAR = 51,
    MKSTRIKE_GLYPH_TOO_LARGE = 52,

    MKSTRIKE_TOO_MUCH_WORK = 53, /* only with MKSTRIKE_CAREFUL: of a character, or of `fpgm` and `prep` */

    /* the request */
    MKSTRIKE_BAD_SIZE = 60,
    MKSTRIKE_BAD_CHARS = 61,
    MKSTRIKE_BAD_NAME = 62,
    MKSTRIKE_BAD_PROPERTY = 63, /* no call gives it: a strike made here has no properties of your own */
    MKSTRIKE_BAD_MODE = 64,     /* a bit of the mode that the call does not know, or two that can't be together */
    MKSTRIKE_BAD_BLOCK = 65,    /* the words are not a block of this font, face and size */

    MKSTRIKE_OUT_OF_MEMORY = 90
};

/* A mode: 0, or a sum of these. Hinted, the font's programs run. With drop-out control thin strokes stay whole: if the outline passes
 * between the centres of two neighbours in a row or a column and neither is set, the left one, or the lower one, is; with
 * MKSTRIKE_DROPOUT_NEAR in place of MKSTRIKE_DROPOUT the one to which the outline is nearer is. With MKSTRIKE_DROPOUT_FONT each glyph has
 * the one that its font's programs ask for, or no drop-out control if they turn it off; unhinted, or if they ask for nothing, it is as
 * with MKSTRIKE_DROPOUT. Packed, a pixel is a bit, the leftmost the highest of its byte, and a row takes whole bytes, the last filled up
 * with 0; not packed, a pixel is a byte, 255 if it is set and 0 if not. With MKSTRIKE_X11 a strike has the properties that X11 looks for,
 * as `mkstrike make --x11` writes them. With MKSTRIKE_CAREFUL a character that takes too much work is refused by MKSTRIKE_TOO_MUCH_WORK,
 * for fonts that you don't trust; mkstrike_make bounds the work of all its characters together too (docs/LIMITS.md). All other bits, two
 * bits of drop-out control together, MKSTRIKE_PACKED for mkstrike_make and MKSTRIKE_X11 for any other call are refused by
 * MKSTRIKE_BAD_MODE, before all else. */
#define MKSTRIKE_HINTED UINT32_C(0x001)
#define MKSTRIKE_DROPOUT UINT32_C(0x002)
#define MKSTRIKE_DROPOUT_NEAR UINT32_C(0x004)
#define MKSTRIKE_DROPOUT_FONT UINT32_C(0x008)
#define MKSTRIKE_CAREFUL UINT32_C(0x010)
#define MKSTRIKE_PACKED UINT32_C(0x100)
#define MKSTRIKE_X11 UINT32_C(0x200)

/* In a refusal: no glyph, no program, no character; the font's two programs that belong to no glyph. */
#define MKSTRIKE_NONE UINT32_C(0xFFFFFFFF)
#define MKSTRIKE_FPGM UINT32_C(0x10000)
#define MKSTRIKE_PREP UINT32_C(0x10001)

/* Why a call was refused, and where; or the first of many characters that was. */
struct mkstrike_refused {
    uint32_t number;  /* what the call returned, or the status of the character */
    uint32_t table;   /* the tag of the table that is missing or short, its first byte the highest; else 0 */
    uint32_t glyph;   /* the glyph at fault; else MKSTRIKE_NONE */
    uint32_t during;  /* a program halted: the one that was started, a glyph's number, MKSTRIKE_FPGM or MKSTRIKE_PREP; else MKSTRIKE_NONE */
    uint32_t program; /* and the one whose bytes hold the instruction */
    uint32_t opcode;  /* that instruction, 0 past the program's end; else 0 */
    uint32_t index;   /* of many characters, the first that was refused, counted from 0; else MKSTRIKE_NONE */
    uint32_t code;    /* and its code point, or its glyph's number; else MKSTRIKE_NONE */
    uint64_t address; /* where the instruction is in the program's bytes; else 0 */
};

/* The release of the library that was linked: MKSTRIKE_VERSION of its header. */
uint32_t mkstrike_version(void);

/* Writes the name of a number that a call returned to `text`: as much of it as fits before a 0, and that 0. If `text_len` is 0, it
 * writes nothing. Returns the length of the whole name without the 0, at most 20. Numbers that no call returns are "Unknown". */
size_t mkstrike_reason(uint32_t number, char *text, size_t text_len);

/* Writes what to do after a number that a call returned to `text`, as mkstrike_reason writes its name: one line in English, of at most
 * 90 bytes. It is empty for numbers that are no refusal. It is for people; programs should test the number. */
size_t mkstrike_advice(uint32_t number, char *text, size_t text_len);

/* A font at a size. */
struct mkstrike_font_info {
    int32_t ascent, descent; /* in pixels; the descent is positive below the baseline */
    int32_t line_gap;        /* in pixels: what the font adds between two lines */
    uint32_t glyphs;         /* how many glyphs it has, at most 65,535 */
};

/* Gets a font's metrics at a size of 1 to 1,024. */
uint32_t mkstrike_font(const uint8_t *font, size_t font_len, uint32_t face, uint16_t ppem, struct mkstrike_font_info *info,
    struct mkstrike_refused *refused);

/* Gets how many fonts a file has: those of a collection, else 1. The fonts themselves are not checked. A collection whose header is
 * damaged is refused by MKSTRIKE_NOT_TRUE_TYPE. */
uint32_t mkstrike_faces(const uint8_t *font, size_t font_len, uint32_t *faces, struct mkstrike_refused *refused);

/* Gets a name of a font, in UTF-8. `id` is its number in the table `name`: 1 is the family and 2 the style, as programs know them that list
 * four styles a family. A family of more styles has 16 and 17 too; so ask for these first. 5 is the font's version.
 *
 * If the name and a 0 after it fit, the call writes both to the front of `text`, and what lies after them stays as it was; else it writes
 * nothing there. `count` tells how many bytes the name has without the 0, at most 98,301. So you can ask with a buffer of 0 bytes. A name can
 * have any character, also U+0000. Of several names of a number the English one (United States) of Windows goes first; then one of Unicode,
 * another one of Windows, and one of the Macintosh in ASCII.
 *
 * Returns MKSTRIKE_MISSING and writes nothing if the font has no such name, or only an empty or a damaged one. */
uint32_t mkstrike_name(const uint8_t *font, size_t font_len, uint32_t face, uint32_t id, char *text, size_t text_len, size_t *count,
    struct mkstrike_refused *refused);

/* Tells the characters of a font: the code points to which its character map gives a glyph other than 0, in rising order. As many of them
 * as fit go to the front of `chars`, and what lies after them stays as it was. `count` tells how many there are, at most 1,114,112. So you
 * can ask with a buffer of 0 elements. */
uint32_t mkstrike_characters(const uint8_t *font, size_t font_len, uint32_t face, uint32_t *chars, size_t chars_len, size_t *count,
    struct mkstrike_refused *refused);

/* Tells the glyphs of characters: as many of their numbers as fit go to the front of `glyphs`, in the order given, and what lies after
 * them stays as it was. A character that the font does not have has the number 0. `chars` are at most 65,536 code points. */
uint32_t mkstrike_glyph_ids(const uint8_t *font, size_t font_len, uint32_t face, const uint32_t *chars, size_t chars_len, uint16_t *glyphs,
    size_t glyphs_len, struct mkstrike_refused *refused);

/* The numbers of a glyph. */
struct mkstrike_glyph_info {
    uint32_t width, height; /* of the least box that holds every set pixel; 0 and 0 if no pixel is set */
    int32_t left, bottom;   /* the column and the row of the box's lower left pixel */
    uint32_t stride;        /* the bytes of a row: width, or if packed (width + 7) / 8; stride * height is the size of all pixels */
    int32_t dwidth, swidth; /* the advance in pixels, and in 1/1000 of an em */
};

/* Makes the glyph of one character at a size of 1 to 1,024. It writes its numbers and, if `pixels` has room for all of them, its pixels,
 * row by row from the top, in the form that the mode says.
 *
 * Returns MKSTRIKE_MISSING and writes nothing if the font does not have the character. A call opens the font and, if hinted, runs its
 * `fpgm` and `prep` again: for many characters at once there is mkstrike_glyphs. */
uint32_t mkstrike_glyph(const uint8_t *font, size_t font_len, uint32_t face, uint16_t ppem, uint32_t mode, uint32_t code, uint8_t *pixels,
    size_t pixels_len, struct mkstrike_glyph_info *info, struct mkstrike_refused *refused);

/* The same of a glyph by its number. Glyph 0 is the font's box for characters that it does not have. A number that the font does not have
 * is refused by MKSTRIKE_BAD_GLYPH_NUMBER. */
uint32_t mkstrike_glyph_by_id(const uint8_t *font, size_t font_len, uint32_t face, uint16_t ppem, uint32_t mode, uint32_t glyph,
    uint8_t *pixels, size_t pixels_len, struct mkstrike_glyph_info *info, struct mkstrike_refused *refused);

/* A point of an outline. */
struct mkstrike_outline_point {
    int32_t x, y;      /* in 1/64 pixels, to the right of the glyph's origin and above the baseline */
    uint32_t on_curve; /* 1 on the curve, 0 off it */
};

/* The counts and the advance of an outline. */
struct mkstrike_outlined {
    size_t points, contours; /* how many there are, also of those that did not fit */
    int32_t advance;         /* in 1/64 pixels */
};

/* Makes the outline of a glyph by its number, at a size of 1 to 1,024: the points that its pixels are made of, after hinting if the mode
 * says so. As many points as fit go to the front of `points`, in the order of their numbers, and as many of the numbers of the contours'
 * last points as fit to the front of `ends`; what lies after them stays as it was. A call with no room for either asks for the counts.
 *
 * A number that the font does not have is refused by MKSTRIKE_BAD_GLYPH_NUMBER. An outline that lies too far out or has too many pixels is
 * made all the same. */
uint32_t mkstrike_outline(const uint8_t *font, size_t font_len, uint32_t face, uint16_t ppem, uint32_t mode, uint32_t glyph,
    struct mkstrike_outline_point *points, size_t points_len, uint16_t *ends, size_t ends_len, struct mkstrike_outlined *outlined,
    struct mkstrike_refused *refused);

/* One of many characters. */
struct mkstrike_placed {
    struct mkstrike_glyph_info glyph; /* its numbers; all are 0 unless the status is MKSTRIKE_DONE */
    uint32_t status;                  /* MKSTRIKE_DONE, MKSTRIKE_MISSING, or the number of the refusal */
    size_t offset;                    /* of its first byte in the pixels of all */
};

/* The counts of a call for many characters. */
struct mkstrike_drawn {
    size_t bytes;     /* of the pixels of all, also of those that did not fit */
    uint32_t glyphs;  /* characters that were made, repeats included */
    uint32_t missing; /* characters that the font does not have, repeats included */
    uint32_t refused; /* characters that were refused, repeats included */
};

/* Makes the glyphs of characters at a size of 1 to 1,024, and opens the font once. Calls of mkstrike_glyph, one per character, would give
 * the same; but with MKSTRIKE_CAREFUL these are refused that a strike of all of them would leave out. `chars` are at most 65,536 code
 * points, which are made in the order given, repeats again. There is an entry for each character; the pixels of all lie one glyph after
 * the other in that order.
 *
 * As many entries as fit go to the front of `glyphs`, and as many bytes of pixels as fit to the front of `pixels`; what lies after them
 * stays as it was. So the pixels of an entry are whole if its offset and its stride * height together are at most `pixels_len`. A call
 * with no room for either asks for `drawn->bytes`.
 *
 * A character that is refused has the refusal's number as its status, and the others are made. The call returns 0 then too, and `refused`
 * tells the first such character. The call itself is refused only if no character can be made (the size, the characters, the font, its
 * `fpgm` and `prep`) or if memory runs out. */
uint32_t mkstrike_glyphs(const uint8_t *font, size_t font_len, uint32_t face, uint16_t ppem, uint32_t mode, const uint32_t *chars,
    size_t chars_len, struct mkstrike_placed *glyphs, size_t glyphs_len, uint8_t *pixels, size_t pixels_len, struct mkstrike_drawn *drawn,
    struct mkstrike_refused *refused);

/* ---- blocks
 *
 * A block is a font that was opened at a size, as words. Hinted, a call without one runs the font's `fpgm` and `prep` first, which takes
 * most of the time of a single glyph. A block has what they left; a call by it gives the same result, and runs neither. The words are
 * yours: copy them, share them between threads, keep them in ROM. They hold no pointer, and there is nothing to close.
 *
 * A block is for one font, face and size, and for hinted calls or for unhinted ones; the bits of drop-out control, MKSTRIKE_CAREFUL and
 * MKSTRIKE_PACKED may differ from those of mkstrike_prepare. By a block MKSTRIKE_CAREFUL bounds the work of characters alone, since
 * neither `fpgm` nor `prep` runs; in mkstrike_prepare it bounds the work of these two. Any other words are refused by MKSTRIKE_BAD_BLOCK,
 * as far as words can tell: a block has the face, the size, the length of the file and, hinted, the checksum that the font has in `head`
 * and the lengths of `fpgm` and `prep`. Reading words is safe, whatever they are. Unhinted, a block has 6 words and saves nothing; so one
 * piece of code can serve both. */

/* Writes a block of a font at a size of 1 to 1,024: as many of its words as fit go to the front of `block`, and what lies after them
 * stays as it was. `need` tells how many it has, some 800 in most fonts and at most 3,400 in 326 of them. So you can ask with a buffer of
 * 0 words. A block that did not fit is of no use. A font of more than 1 GiB that defines a function past that is refused by
 * MKSTRIKE_BAD_BLOCK. */
uint32_t mkstrike_prepare(const uint8_t *font, size_t font_len, uint32_t face, uint16_t ppem, uint32_t mode, uint32_t *block,
    size_t block_len, size_t *need, struct mkstrike_refused *refused);

/* The calls without `_prepared`, by a block: the same results. Words may lie after the block. */
uint32_t mkstrike_glyph_prepared(const uint8_t *font, size_t font_len, uint32_t face, uint16_t ppem, uint32_t mode, const uint32_t *block,
    size_t block_len, uint32_t code, uint8_t *pixels, size_t pixels_len, struct mkstrike_glyph_info *info,
    struct mkstrike_refused *refused);

uint32_t mkstrike_glyph_by_id_prepared(const uint8_t *font, size_t font_len, uint32_t face, uint16_t ppem, uint32_t mode,
    const uint32_t *block, size_t block_len, uint32_t glyph, uint8_t *pixels, size_t pixels_len, struct mkstrike_glyph_info *info,
    struct mkstrike_refused *refused);

uint32_t mkstrike_glyphs_prepared(const uint8_t *font, size_t font_len, uint32_t face, uint16_t ppem, uint32_t mode, const uint32_t *block,
    size_t block_len, const uint32_t *chars, size_t chars_len, struct mkstrike_placed *glyphs, size_t glyphs_len, uint8_t *pixels,
    size_t pixels_len, struct mkstrike_drawn *drawn, struct mkstrike_refused *refused);

/* The counts of a strike. */
struct mkstrike_told {
    size_t bytes;           /* of the whole text, also of one that did not fit */
    uint32_t glyphs;        /* one for each requested character that the font has */
    uint32_t missing;       /* requested characters that the font does not have */
    uint64_t strays, steps; /* numbers outside their tables that font programs named; instructions that they executed */
};

/* Makes the text of a strike at a size of 1 to 1,024, in BDF. As much of it as fits goes to the front of `out`; what lies after it stays
 * as it was. There is no 0 at its end. `chars` are code points in any order, at most 65,536, and repeats count once. `name` is 1 to 255
 * printable ASCII characters, no space first or last, and needs no 0 at its end. */
uint32_t mkstrike_make(const uint8_t *font, size_t font_len, uint32_t face, uint16_t ppem, uint32_t mode, const uint32_t *chars,
    size_t chars_len, const char *name, size_t name_len, uint8_t *out, size_t out_len, struct mkstrike_told *told,
    struct mkstrike_refused *refused);

#ifdef __cplusplus
}
#endif

#endif

/* yardstick: the same strike as `mkstrike make`, made by FreeType, with a caller that wastes nothing.

   yardstick PPEM LIST hinted|unhinted [kept|twice] < FONT > STRIKE

   LIST is as mkstrike's --chars. `kept` (the default) keeps the glyphs' text in memory until the header is known; `twice` makes
   each glyph twice, once for the header and once for the text, and keeps none. FreeType's TrueType interpreter is version 35, the
   one for black and white; the autohinter is off; drop-out control is FreeType's, as it does it by itself: what the font's programs
   say when hinted, on when unhinted. */

#include <ft2build.h>
#include FT_FREETYPE_H
#include FT_MODULE_H
#include FT_TRUETYPE_TABLES_H

#include <stdint.h>
#include <stdio.h>
#include <stdlib.h>
#include <string.h>
#include <sys/stat.h>
#include <unistd.h>

#define MOST_CODES 65536
#define MOST_WORDS 128 /* 64 columns each */

struct box { long left, bottom, right, top; }; /* right and top are past the last */

struct picture { /* the bits of a glyph, each row in words of 64 columns, the leftmost the highest bit */
    uint64_t *words;
    size_t room;
    unsigned words_a_row, height;
    unsigned skip, first, width, rows; /* the tight box: columns left out, rows left out, columns, rows */
    long x, y;                         /* its lower left pixel */
};

static char *text;
static size_t text_len, text_room;
static uint16_t pairs[256];

static void fail(const char *what, long number) {
    fprintf(stderr, "yardstick: %s %ld\n", what, number);
    exit(1);
}

static void write_out(const char *bytes, size_t len) {
    while (len != 0) {
        ssize_t done = write(1, bytes, len);
        if (done <= 0) fail("write", 0);
        bytes += done;
        len -= (size_t)done;
    }
}

static void *read_in(size_t *len) {
    struct stat about;
    size_t room = 1 << 16, have = 0;
    if (fstat(0, &about) == 0 && about.st_size > 0) room = (size_t)about.st_size + 1;
    char *bytes = malloc(room);
    for (;;) {
        if (bytes == NULL) fail("memory", 0);
        ssize_t got = read(0, bytes + have, room - have);
        if (got < 0) fail("read", 0);
        if (got == 0) break;
        have += (size_t)got;
        if (have == room) bytes = realloc(bytes, room *= 2);
    }
    *len = have;
    return bytes;
}

/* The codes of the list, each once, in rising order. */
static unsigned read_codes(const char *list, uint32_t *codes) {
    static unsigned char wanted[MOST_CODES];
    unsigned count = 0;
    while (*list != 0) {
        char *end;
        unsigned long low = strtoul(list, &end, 16), high = low;
        if (*end == '-') high = strtoul(end + 1, &end, 16);
        if (end == list || low > high || high >= MOST_CODES || (*end != ',' && *end != 0)) fail("list", 0);
        memset(wanted + low, 1, high - low + 1);
        list = *end == ',' ? end + 1 : end;
    }
    for (uint32_t code = 0; code < MOST_CODES; code++)
        if (wanted[code]) codes[count++] = code;
    return count;
}

/* n / d to the nearest whole number, halves away from zero. */
static long near_to(long n, long d) {
    return n >= 0 ? (2 * n + d) / (2 * d) : -((2 * -n + d) / (2 * d));
}

static char *put_word(char *to, const char *word, size_t len) {
    memcpy(to, word, len);
    return to + len;
}
#define PUT(to, word) put_word(to, word, sizeof(word) - 1)

static char *put_number(char *to, long number) {
    char digits[20];
    unsigned at = sizeof digits;
    unsigned long rest = number < 0 ? -(unsigned long)number : (unsigned long)number;
    do digits[--at] = (char)('0' + rest % 10);
    while ((rest /= 10) != 0);
    if (number < 0) *to++ = '-';
    return put_word(to, digits + at, sizeof digits - at);
}

/* Reads FreeType's bitmap into words, and finds the tight box of its set bits. */
static void take_picture(const FT_GlyphSlot slot, struct picture *picture) {
    const FT_Bitmap *bitmap = &slot->bitmap;
    unsigned height = bitmap->rows, bytes = (bitmap->width + 7) / 8, count = (bytes + 7) / 8;
    uint64_t columns[MOST_WORDS];
    picture->width = picture->rows = 0;
    picture->x = picture->y = 0;
    if (count == 0 || height == 0) return;
    if (count > MOST_WORDS) fail("width", bitmap->width);
    if ((size_t)count * height + 1 > picture->room) {
        picture->room = 2 * ((size_t)count * height + 1);
        free(picture->words);
        picture->words = malloc(picture->room * sizeof *picture->words);
        if (picture->words == NULL) fail("memory", 0);
    }
    uint64_t *to = picture->words;
    const unsigned char *row = bitmap->buffer;
    unsigned first = height, last = 0, rest = bytes - 8 * (count - 1);
    memset(columns, 0, count * sizeof *columns);
    for (unsigned j = 0; j < height; j++, row += bitmap->pitch) {
        uint64_t any = 0, word;
        for (unsigned k = 0; k + 1 < count; k++) {
            memcpy(&word, row + 8 * k, 8);
            word = __builtin_bswap64(word);
            columns[k] |= word;
            any |= word;
            *to++ = word;
        }
        const unsigned char *end = row + 8 * (count - 1);
        if (j + 1 < height && bitmap->pitch >= 8) { /* the bytes of the row below are shifted out */
            memcpy(&word, end, 8);
            word = __builtin_bswap64(word) >> (64 - 8 * rest) << (64 - 8 * rest);
        } else {
            word = 0;
            for (unsigned k = 0; k < rest; k++) word |= (uint64_t)end[k] << (56 - 8 * k);
        }
        columns[count - 1] |= word;
        any |= word;
        *to++ = word;
        if (any != 0) {
            if (first == height) first = j;
            last = j;
        }
    }
    *to = 0;
    if (first == height) return;
    unsigned low = 0, high = count - 1;
    while (columns[low] == 0) low++;
    while (columns[high] == 0) high--;
    unsigned left = 64 * low + (unsigned)__builtin_clzll(columns[low]);
    unsigned right = 64 * high + 64 - (unsigned)__builtin_ctzll(columns[high]);
    picture->words_a_row = count;
    picture->height = height;
    picture->skip = left;
    picture->first = first;
    picture->width = right - left;
    picture->rows = last + 1 - first;
    picture->x = slot->bitmap_left + (long)left;
    picture->y = slot->bitmap_top - (long)last - 1;
}

static inline char *put_byte(char *to, unsigned byte) {
    memcpy(to, &pairs[byte], 2);
    return to + 2;
}

static inline char *put_some(char *to, uint64_t word, unsigned bytes) {
    for (unsigned k = 0; k < bytes; k++, word <<= 8) to = put_byte(to, (unsigned)(word >> 56));
    return to;
}

static inline char *put_eight(char *to, uint64_t word) {
    for (unsigned k = 0; k < 8; k++) memcpy(to + 2 * k, &pairs[(word >> (56 - 8 * k)) & 255], 2);
    return to + 16;
}

/* Puts the rows of the tight box. */
static char *put_rows(char *to, const struct picture *picture) {
    unsigned bytes = (picture->width + 7) / 8, count = picture->words_a_row, shift = picture->skip % 64;
    const uint64_t *row = picture->words + (size_t)picture->first * count + picture->skip / 64;
    for (unsigned j = 0; j < picture->rows; j++, row += count) {
        if (count == 1) {
            to = put_some(to, row[0] << shift, bytes);
        } else {
            /* a word read past the row's end, or past the last row's, is shifted in only where no digit is made of it */
            unsigned rest = bytes;
            for (const uint64_t *at = row; rest != 0; at++) {
                uint64_t word = shift == 0 ? at[0] : at[0] << shift | at[1] >> (64 - shift);
                if (rest >= 8) {
                    to = put_eight(to, word);
                    rest -= 8;
                } else {
                    to = put_some(to, word, rest);
                    rest = 0;
                }
            }
        }
        *to++ = '\n';
    }
    return to;
}

/* Puts a glyph's text; there is room for it. */
static char *put_glyph(char *to, uint32_t code, FT_GlyphSlot slot, long upem, const struct picture *picture) {
    to = PUT(to, "STARTCHAR uni");
    to = put_byte(to, code >> 8);
    to = put_byte(to, code & 255);
    to = PUT(to, "\nENCODING ");
    to = put_number(to, (long)code);
    to = PUT(to, "\nSWIDTH ");
    to = put_number(to, near_to(slot->linearHoriAdvance * 1000, upem));
    to = PUT(to, " 0\nDWIDTH ");
    to = put_number(to, near_to(slot->advance.x, 64));
    to = PUT(to, " 0\nBBX ");
    to = put_number(to, picture->width);
    *to++ = ' ';
    to = put_number(to, picture->rows);
    *to++ = ' ';
    to = put_number(to, picture->x);
    *to++ = ' ';
    to = put_number(to, picture->y);
    to = PUT(to, "\nBITMAP\n");
    to = put_rows(to, picture);
    return PUT(to, "ENDCHAR\n");
}

static size_t glyph_room(const struct picture *picture) {
    return 256 + (size_t)picture->rows * (2 * ((picture->width + 7) / 8) + 1);
}

static void join(struct box *box, const struct picture *picture) {
    if (picture->rows == 0) return;
    long right = picture->x + picture->width, top = picture->y + picture->rows;
    if (box->left == box->right) {
        *box = (struct box){picture->x, picture->y, right, top};
        return;
    }
    if (picture->x < box->left) box->left = picture->x;
    if (picture->y < box->bottom) box->bottom = picture->y;
    if (right > box->right) box->right = right;
    if (top > box->top) box->top = top;
}

static size_t make_header(char *to, long ppem, FT_Face face, struct box box, long glyphs) {
    const TT_HoriHeader *hhea = FT_Get_Sfnt_Table(face, FT_SFNT_HHEA);
    long upem = face->units_per_EM;
    return (size_t)sprintf(to,
        "STARTFONT 2.1\nFONT strike\nSIZE %ld 72 72\nFONTBOUNDINGBOX %ld %ld %ld %ld\nSTARTPROPERTIES 2\nFONT_ASCENT %ld\n"
        "FONT_DESCENT %ld\nENDPROPERTIES\nCHARS %ld\n",
        ppem, box.right - box.left, box.top - box.bottom, box.left, box.bottom, near_to(hhea->Ascender * ppem, upem),
        near_to(-hhea->Descender * ppem, upem), glyphs);
}

/* Draws the glyph, and returns whether the font has one for the code. */
static int draw(FT_Face face, uint32_t code, FT_Int32 flags, struct picture *picture) {
    FT_UInt glyph = FT_Get_Char_Index(face, code);
    if (glyph == 0) return 0;
    FT_Error fault = FT_Load_Glyph(face, glyph, flags);
    if (fault != 0) {
        fprintf(stderr, "yardstick: error %d at character %04X\n", fault, code);
        exit(1);
    }
    take_picture(face->glyph, picture);
    return 1;
}

static void make_room(size_t more) {
    if (text_room - text_len >= more) return;
    while (text_room - text_len < more) text_room *= 2;
    text = realloc(text, text_room);
    if (text == NULL) fail("memory", 0);
}

int main(int argc, char **argv) {
    static uint32_t codes[MOST_CODES];
    FT_Library library;
    FT_Face face;
    FT_UInt version = 35;
    size_t font_len;
    struct picture picture = {0};
    struct box box = {0};
    char header[512];
    if (argc < 4) fail("usage: yardstick PPEM LIST hinted|unhinted [kept|twice]", argc);
    long ppem = atol(argv[1]), glyphs = 0;
    unsigned count = read_codes(argv[2], codes);
    int hinted = strcmp(argv[3], "hinted") == 0, twice = argc > 4 && strcmp(argv[4], "twice") == 0;
    FT_Int32 flags = FT_LOAD_RENDER | FT_LOAD_TARGET_MONO | FT_LOAD_LINEAR_DESIGN | FT_LOAD_NO_BITMAP | FT_LOAD_NO_AUTOHINT;
    if (!hinted) flags |= FT_LOAD_NO_HINTING;
    for (unsigned byte = 0; byte < 256; byte++) {
        char two[2] = {"0123456789ABCDEF"[byte >> 4], "0123456789ABCDEF"[byte & 15]};
        memcpy(&pairs[byte], two, 2);
    }
    void *font = read_in(&font_len);
    if (FT_Init_FreeType(&library) != 0) fail("library", 0);
    if (FT_Property_Set(library, "truetype", "interpreter-version", &version) != 0) fail("interpreter version", 35);
    if (FT_New_Memory_Face(library, font, (FT_Long)font_len, 0, &face) != 0) fail("font", 0);
    if (FT_Set_Pixel_Sizes(face, 0, (FT_UInt)ppem) != 0) fail("size", ppem);
    text_room = twice ? 1 << 16 : 1 << 20;
    text = malloc(text_room);
    if (text == NULL) fail("memory", 0);
    for (unsigned k = 0; k < count; k++) {
        if (!draw(face, codes[k], flags, &picture)) continue;
        join(&box, &picture);
        if (twice) {
            codes[glyphs++] = codes[k];
            continue;
        }
        glyphs++;
        make_room(glyph_room(&picture));
        text_len = (size_t)(put_glyph(text + text_len, codes[k], face->glyph, face->units_per_EM, &picture) - text);
    }
    write_out(header, make_header(header, ppem, face, box, glyphs));
    for (unsigned k = 0; twice && k < glyphs; k++) {
        draw(face, codes[k], flags, &picture);
        if (text_room - text_len < glyph_room(&picture)) {
            write_out(text, text_len);
            text_len = 0;
        }
        make_room(glyph_room(&picture));
        text_len = (size_t)(put_glyph(text + text_len, codes[k], face->glyph, face->units_per_EM, &picture) - text);
    }
    make_room(16);
    text_len = (size_t)(PUT(text + text_len, "ENDFONT\n") - text);
    write_out(text, text_len);
    fprintf(stderr, "yardstick: glyphs %ld missing %ld\n", glyphs, twice ? -1 : (long)count - glyphs);
    return 0;
}

/* glyphs: the glyphs of a font's characters, made by the C library or by FreeType, some times over.

   glyphs WAY PPEM MODE ROUNDS FONT FIRST-LAST[,FIRST-LAST ..]

   WAY is one (mkstrike_glyph for each), many (mkstrike_glyphs, a byte a pixel), packed (the same, packed), line (the same, ten characters
   a call), numbers (the same without room for pixels), prepared (mkstrike_glyph_prepared for each, packed), prepared-lineN
   (mkstrike_glyphs_prepared, packed, N characters a call), strike (mkstrike_make), freetype (FT_Load_Char with FT_LOAD_RENDER and
   FT_LOAD_TARGET_MONO, its interpreter 35, the autohinter off), or open (the same with a face that stays open). Of the characters only
   those that the font has are taken. In each round the font is opened once; by `one` for each glyph, by `line` for each ten, by `open` only
   in the first round, and the block is made only then too. MODE is hinted, unhinted, hinted-dropout or unhinted-dropout. Prints the number
   of glyphs, and microseconds a glyph in the best round. */

#define _POSIX_C_SOURCE 200112L
#include "mkstrike.h"
#include <ft2build.h>
#include FT_FREETYPE_H
#include FT_MODULE_H

#include <stdio.h>
#include <stdlib.h>
#include <string.h>
#include <time.h>

enum { MOST = 65536, LINE = 10, WORDS = 65536 };

static uint8_t *font, *out;
static size_t font_len, out_len;
static uint16_t ppem;
static uint32_t mode;
static uint32_t chars[MOST];
static size_t count;
static uint32_t block[WORDS];
static size_t words;
static struct mkstrike_placed placed[MOST];
static struct mkstrike_drawn drawn;
static struct mkstrike_refused refused;
static FT_Library library;

static void fail(const char *what, long number) {
    fprintf(stderr, "glyphs: %s %ld\n", what, number);
    exit(1);
}

static void read_font(const char *path) {
    FILE *file = fopen(path, "rb");
    if (file == NULL || fseek(file, 0, SEEK_END) != 0) fail("font", 0);
    font_len = (size_t)ftell(file);
    rewind(file);
    font = malloc(font_len);
    if (font == NULL || fread(font, 1, font_len, file) != font_len) fail("font", 1);
    fclose(file);
}

/* The glyphs of `len` characters from the one at `from` on. */
static void make_some(uint32_t packed, size_t room, size_t from, size_t len) {
    uint32_t status = mkstrike_glyphs(font, font_len, 0, ppem, mode | packed, chars + from, len, placed, MOST, out, room, &drawn, &refused);
    if (status != 0) fail("mkstrike_glyphs", (long)status);
}

static void make_many(uint32_t packed, size_t room) { make_some(packed, room, 0, count); }

static void make_lines(void) {
    size_t i;
    for (i = 0; i < count; i += LINE) make_some(MKSTRIKE_PACKED, out_len, i, count - i < LINE ? count - i : LINE);
}

/* The block of the font, made once. */
static void prepare(void) {
    if (words != 0) return;
    if (mkstrike_prepare(font, font_len, 0, ppem, mode, block, WORDS, &words, &refused) != 0 || words > WORDS) fail("mkstrike_prepare", 0);
}

static void make_each_prepared(void) {
    struct mkstrike_glyph_info info;
    size_t i;
    prepare();
    for (i = 0; i < count; i++)
        if (mkstrike_glyph_prepared(font, font_len, 0, ppem, mode | MKSTRIKE_PACKED, block, words, chars[i], out, out_len, &info, &refused) != 0)
            fail("mkstrike_glyph_prepared", (long)chars[i]);
}

static void make_lines_prepared(size_t line) {
    size_t i;
    prepare();
    for (i = 0; i < count; i += line)
        if (mkstrike_glyphs_prepared(font, font_len, 0, ppem, mode | MKSTRIKE_PACKED, block, words, chars + i,
                count - i < line ? count - i : line, placed, MOST, out, out_len, &drawn, &refused) != 0)
            fail("mkstrike_glyphs_prepared", 0);
}

/* The characters of the list that the font has. */
static void read_chars(const char *list) {
    size_t i, kept = 0;
    while (*list != 0) {
        char *end;
        unsigned long low = strtoul(list, &end, 16), high = low;
        if (*end == '-') high = strtoul(end + 1, &end, 16);
        if (end == list || low > high || high - low >= MOST - count || (*end != ',' && *end != 0)) fail("list", 0);
        while (low <= high) chars[count++] = (uint32_t)low++;
        list = *end == ',' ? end + 1 : end;
    }
    make_many(0, 0);
    for (i = 0; i < count; i++)
        if (placed[i].status == MKSTRIKE_DONE) chars[kept++] = chars[i];
    count = kept;
}

static void make_each(void) {
    struct mkstrike_glyph_info info;
    size_t i;
    for (i = 0; i < count; i++)
        if (mkstrike_glyph(font, font_len, 0, ppem, mode, chars[i], out, out_len, &info, &refused) != 0) fail("mkstrike_glyph", 0);
}

static void make_strike(void) {
    struct mkstrike_told told;
    if (mkstrike_make(font, font_len, 0, ppem, mode, chars, count, "bench", 5, out, out_len, &told, &refused) != 0) fail("mkstrike_make", 0);
    if (told.bytes > out_len) fail("room", (long)told.bytes);
}

static FT_Face opened(void) {
    FT_Face face;
    if (FT_New_Memory_Face(library, font, (FT_Long)font_len, 0, &face) != 0 || FT_Set_Pixel_Sizes(face, 0, ppem) != 0) fail("face", 0);
    return face;
}

static void load_each(FT_Face face) {
    FT_Int32 flags = FT_LOAD_RENDER | FT_LOAD_TARGET_MONO | FT_LOAD_NO_BITMAP | FT_LOAD_NO_AUTOHINT;
    size_t i;
    if (!(mode & MKSTRIKE_HINTED)) flags |= FT_LOAD_NO_HINTING;
    for (i = 0; i < count; i++)
        if (FT_Load_Char(face, chars[i], flags) != 0) fail("FT_Load_Char", (long)chars[i]);
}

static void make_freetype(void) {
    FT_Face face = opened();
    load_each(face);
    FT_Done_Face(face);
}

static void make_with_open_face(void) {
    static FT_Face face;
    if (face == NULL) face = opened();
    load_each(face);
}

static void make(const char *way) {
    if (strcmp(way, "one") == 0) make_each();
    else if (strcmp(way, "many") == 0) make_many(0, out_len);
    else if (strcmp(way, "packed") == 0) make_many(MKSTRIKE_PACKED, out_len);
    else if (strcmp(way, "line") == 0) make_lines();
    else if (strcmp(way, "numbers") == 0) make_many(0, 0);
    else if (strcmp(way, "prepared") == 0) make_each_prepared();
    else if (strncmp(way, "prepared-line", 13) == 0 && atoi(way + 13) > 0) make_lines_prepared((size_t)atoi(way + 13));
    else if (strcmp(way, "strike") == 0) make_strike();
    else if (strcmp(way, "freetype") == 0) make_freetype();
    else if (strcmp(way, "open") == 0) make_with_open_face();
    else fail("no such way", 0);
}

static double now(void) {
    struct timespec t;
    clock_gettime(CLOCK_MONOTONIC, &t);
    return (double)t.tv_sec * 1e6 + (double)t.tv_nsec / 1e3;
}

int main(int argc, char **argv) {
    FT_UInt version = 35;
    double best = 1e18;
    int rounds;
    if (argc != 7) fail("usage: glyphs WAY PPEM MODE ROUNDS FONT LIST", argc);
    ppem = (uint16_t)atoi(argv[2]);
    mode = (strncmp(argv[3], "hinted", 6) == 0 ? MKSTRIKE_HINTED : 0) | (strstr(argv[3], "-dropout") != NULL ? MKSTRIKE_DROPOUT : 0);
    if (FT_Init_FreeType(&library) != 0 || FT_Property_Set(library, "truetype", "interpreter-version", &version) != 0) fail("FreeType", 0);
    read_font(argv[5]);
    read_chars(argv[6]);
    out_len = drawn.bytes + count * 1024 + 65536;
    out = malloc(out_len);
    if (out == NULL) fail("memory", 0);
    memset(out, 0, out_len);
    for (rounds = atoi(argv[4]); rounds > 0; rounds--) {
        double start = now();
        make(argv[1]);
        if (now() - start < best) best = now() - start;
    }
    printf("%zu %.3f\n", count, best / (double)count);
    return 0;
}

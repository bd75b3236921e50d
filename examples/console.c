/* console FONT PPEM TEXT > line.pbm
 *
 * Draws a line of UTF-8 into a frame buffer of one bit a pixel, as a text console does, and writes it as a picture in PBM. A character that
 * the font does not have, or that is refused, is a box. The memory is one block: no malloc, so this is also how a boot loader or firmware
 * uses the library.
 *
 * cc -I/usr/share/mkstrike console.c /usr/share/mkstrike/calls.c /usr/share/mkstrike/arena.c -lmkstrike_c -o console
 * In a checkout: cc -Iinclude -Ic examples/console.c c/calls.c c/arena.c dist/libmkstrike_c.a -o console */
#include "arena.h"
#include "mkstrike.h"
#include <stdio.h>
#include <stdlib.h>

enum { WIDTH = 1024, HEIGHT = 128, ROW = WIDTH / 8, MOST = WIDTH };

static uint8_t frame[HEIGHT * ROW], font[8 << 20], pixels[4 * HEIGHT * ROW], block[1 << 20];
static uint32_t codes[MOST];
static struct mkstrike_placed glyphs[MOST];

/* The next code point of a text, and the text after it; U+FFFD for a byte that begins none. */
static uint32_t next_code(const char **text) {
    const unsigned char *s = (const unsigned char *)*text;
    static const uint32_t least[] = {0, 0x80, 0x800, 0x10000}; /* for which so many further bytes are needed */
    unsigned more = *s >= 0xF0 && *s < 0xF5 ? 3 : *s >= 0xE0 ? 2 : 1, i;
    uint32_t code = *s & (0x3Fu >> more);
    *text += 1;
    if (*s < 0x80) return *s;
    if (*s < 0xC2 || *s > 0xF4) return 0xFFFD;
    for (i = 1; i <= more; i++) {
        if ((s[i] & 0xC0) != 0x80) return 0xFFFD;
        code = code << 6 | (s[i] & 0x3F);
    }
    if (code < least[more] || code > 0x10FFFF || (code >= 0xD800 && code < 0xE000)) return 0xFFFD;
    *text += more;
    return code;
}

/* Sets a pixel of the frame, of which rows are counted from the top; one outside is left out. */
static void set(int32_t x, int32_t y) {
    if (x >= 0 && x < WIDTH && y >= 0 && y < HEIGHT) frame[y * ROW + x / 8] |= (uint8_t)(0x80 >> x % 8);
}

/* Sets the pixels of a glyph whose origin is at a column and a row of the frame. */
static void draw(const struct mkstrike_placed *placed, int32_t column, int32_t base) {
    const struct mkstrike_glyph_info *g = &placed->glyph;
    const uint8_t *rows = pixels + placed->offset;
    int32_t top = base - g->bottom - (int32_t)g->height, i, j;
    for (i = 0; i < (int32_t)g->height; i++)
        for (j = 0; j < (int32_t)g->width; j++)
            if (rows[(uint32_t)i * g->stride + (uint32_t)j / 8] >> (7 - j % 8) & 1) set(column + g->left + j, top + i);
}

/* Draws a box above the baseline; returns its advance. */
static int32_t draw_box(int32_t column, int32_t base, int32_t ppem) {
    int32_t width = ppem / 2 + 1, height = ppem * 3 / 4, i;
    for (i = 0; i < width; i++) set(column + 1 + i, base - 1), set(column + 1 + i, base - height);
    for (i = 1; i < height; i++) set(column + 1, base - i), set(column + width, base - i);
    return width + 2;
}

static int refused(const struct mkstrike_refused *why) {
    char name[24];
    mkstrike_reason(why->number, name, sizeof name);
    fprintf(stderr, "refused: %u %s", (unsigned)why->number, name);
    if (why->code != MKSTRIKE_NONE) fprintf(stderr, " U+%04X", (unsigned)why->code);
    fputc('\n', stderr);
    return 1;
}

int main(int argc, char **argv) {
    struct mkstrike_refused why;
    struct mkstrike_font_info info;
    struct mkstrike_drawn drawn;
    uint16_t ppem = (uint16_t)(argc == 4 ? atoi(argv[2]) : 0); /* 0 for what is no number, which is refused */
    FILE *file = argc == 4 ? fopen(argv[1], "rb") : NULL;
    const char *text = argc == 4 ? argv[3] : "";
    size_t len = file != NULL ? fread(font, 1, sizeof font, file) : 0, count = 0, i;
    int32_t column = 0, rows, row;
    uint32_t mode = MKSTRIKE_HINTED | MKSTRIKE_DROPOUT_FONT | MKSTRIKE_PACKED; /* as the font's designer wants it */
    if (argc != 4) {
        fputs("usage: console FONT PPEM TEXT\n", stderr);
        return 2;
    }
    if (file == NULL) {
        fprintf(stderr, "console: can't read the font %s\n", argv[1]);
        return 1;
    }
    fclose(file);
    if (len == sizeof font) {
        fprintf(stderr, "console: the font has more than %lu bytes\n", (unsigned long)sizeof font - 1);
        return 1;
    }
    mkstrike_arena(block, sizeof block);
    while (*text != 0 && count < MOST) codes[count++] = next_code(&text);
    if (mkstrike_font(font, len, 0, ppem, &info, &why) != MKSTRIKE_DONE) return refused(&why);
    if (mkstrike_glyphs(font, len, 0, ppem, mode, codes, count, glyphs, MOST, pixels, sizeof pixels, &drawn, &why) != MKSTRIKE_DONE)
        return refused(&why);
    if (drawn.refused != 0) refused(&why); /* the first of them; the others are drawn */
    for (i = 0; i < count && column < WIDTH; i++) {
        const struct mkstrike_glyph_info *g = &glyphs[i].glyph;
        if (glyphs[i].status != MKSTRIKE_DONE) {
            column += draw_box(column, info.ascent, ppem);
            continue;
        }
        if (glyphs[i].offset + (size_t)g->stride * g->height <= sizeof pixels) draw(glyphs + i, column, info.ascent);
        if (g->dwidth > 0) column += g->dwidth; /* a font may say anything */
    }
    rows = info.ascent + info.descent;
    if (column > WIDTH || i < count || *text != 0 || rows > HEIGHT)
        fprintf(stderr, "console: the line leaves the frame of %d x %d pixels, and is cut\n", (int)WIDTH, (int)HEIGHT);
    if (column > WIDTH) column = WIDTH;
    rows = rows < 0 ? 0 : rows > HEIGHT ? HEIGHT : rows;
    printf("P4\n%d %d\n", (int)column, (int)rows);
    for (row = 0; row < rows; row++) fwrite(frame + row * ROW, 1, (size_t)(column + 7) / 8, stdout);
    fprintf(stderr, "memory %lu bytes\n", (unsigned long)mkstrike_arena_used());
    return 0;
}

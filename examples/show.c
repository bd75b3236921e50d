/* show FONT PPEM HEX          the picture of a character, and its numbers
 * show FONT PPEM FIRST-LAST   a strike of those characters, to standard output
 *
 * cc show.c $(pkg-config --cflags --libs mkstrike) -o show
 * In a checkout: cc -Iinclude examples/show.c c/calls.c c/heap.c dist/libmkstrike_c.a -o show */
#include "mkstrike.h"
#include <stdio.h>
#include <stdlib.h>

/* The font's programs run, and where a stroke would break its own rule closes the gap. The font may be a stranger's: characters that take
 * too much work are refused. */
enum { MODE = MKSTRIKE_HINTED | MKSTRIKE_DROPOUT_FONT | MKSTRIKE_CAREFUL };

static struct mkstrike_refused why;

static uint8_t *read_file(const char *name, size_t *len) {
    FILE *file = fopen(name, "rb");
    uint8_t *all = NULL;
    long size;
    if (file == NULL) return NULL;
    if (fseek(file, 0, SEEK_END) == 0 && (size = ftell(file)) >= 0) {
        rewind(file);
        *len = (size_t)size;
        all = (uint8_t *)malloc(*len + 1);
        if (all != NULL && fread(all, 1, *len, file) != *len) {
            free(all);
            all = NULL;
        }
    }
    fclose(file);
    return all;
}

/* Asks for the size of the text with no room, then for the text. */
static uint32_t strike(const uint8_t *font, size_t len, uint16_t ppem, uint32_t first, uint32_t last) {
    uint32_t count = last - first + 1, i, status;
    uint32_t *chars = (uint32_t *)malloc(count * sizeof *chars);
    struct mkstrike_told told;
    uint8_t *text = NULL;
    size_t room = 0;
    if (chars == NULL) return MKSTRIKE_OUT_OF_MEMORY;
    for (i = 0; i < count; i++) chars[i] = first + i;
    status = mkstrike_make(font, len, 0, ppem, MODE, chars, count, "strike", 6, NULL, 0, &told, &why);
    if (status == MKSTRIKE_DONE) {
        room = told.bytes;
        text = (uint8_t *)malloc(room);
        status = MKSTRIKE_OUT_OF_MEMORY;
        if (text != NULL) status = mkstrike_make(font, len, 0, ppem, MODE, chars, count, "strike", 6, text, room, &told, &why);
    }
    if (status == MKSTRIKE_DONE) {
        fwrite(text, 1, room, stdout);
        fprintf(stderr, "glyphs %u missing %u\n", (unsigned)told.glyphs, (unsigned)told.missing);
    }
    free(text);
    free(chars);
    return status;
}

static uint32_t picture(const uint8_t *font, size_t len, uint16_t ppem, uint32_t code) {
    struct mkstrike_glyph_info g;
    uint8_t *pixels;
    uint32_t i, j, status = mkstrike_glyph(font, len, 0, ppem, MODE, code, NULL, 0, &g, &why);
    if (status != MKSTRIKE_DONE) return status;
    pixels = (uint8_t *)malloc((size_t)g.stride * g.height + 1);
    if (pixels == NULL) return MKSTRIKE_OUT_OF_MEMORY;
    status = mkstrike_glyph(font, len, 0, ppem, MODE, code, pixels, (size_t)g.stride * g.height, &g, &why);
    for (i = 0; status == MKSTRIKE_DONE && i < g.height; i++) {
        for (j = 0; j < g.width; j++) putchar(pixels[i * g.stride + j] ? '#' : '.');
        putchar('\n');
    }
    free(pixels);
    fprintf(stderr, "box %u %u %d %d advance %d\n", (unsigned)g.width, (unsigned)g.height, (int)g.left, (int)g.bottom, (int)g.dwidth);
    return status;
}

/* The number at the front of a text, which ends at `end`, in a base; more than 32 bits are as good as none. */
static uint32_t number(const char *text, char **end, int base) {
    unsigned long n = strtoul(text, end, base);
    return *end != text && n < MKSTRIKE_NONE ? (uint32_t)n : MKSTRIKE_NONE;
}

int main(int argc, char **argv) {
    char *end = NULL, *end_of_size = NULL, name[24];
    uint32_t ppem = argc == 4 ? number(argv[2], &end_of_size, 10) : 0, first = 0, last = 0, status;
    uint8_t *font;
    size_t len = 0;
    int is_range = 0;
    if (argc == 4) {
        first = last = number(argv[3], &end, 16);
        is_range = *end == '-';
        if (is_range) last = number(end + 1, &end, 16);
    }
    if (argc != 4 || *end_of_size != 0 || ppem > UINT16_MAX || *end != 0 || first > last || last > 0x10FFFF) {
        fputs("usage: show FONT PPEM HEX, or show FONT PPEM FIRST-LAST\n", stderr);
        return 2;
    }
    font = read_file(argv[1], &len);
    if (font == NULL) {
        fprintf(stderr, "show: can't read the font %s\n", argv[1]);
        return 1;
    }
    status = is_range ? strike(font, len, (uint16_t)ppem, first, last) : picture(font, len, (uint16_t)ppem, first);
    free(font);
    if (status == MKSTRIKE_DONE) return 0;
    mkstrike_reason(status, name, sizeof name);
    fprintf(stderr, "refused: %u %s\n", (unsigned)status, name);
    return 1;
}

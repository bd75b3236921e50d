/* stb_truetype as a tool under test: characters, advances, and the insides of unhinted glyphs.
 *
 * stb_truetype draws grey and runs no programs. So its bits are taken from a drawing in which a pixel is 1/64 of one: a pixel is set if one of
 * the four little ones around its centre is at least half covered. stb_truetype leaves it to its callers to move a glyph by its left side
 * bearing, which is done here. Its outlines are segments in FUnits, which are scaled here and answered as a path. Drop-out control and hinted
 * requests are unsupported. */
#include "request.h"

#include <math.h>

#define STB_TRUETYPE_IMPLEMENTATION
#include "stb_truetype.h"

static unsigned char *data;
static char opened[1024];
static long opened_face;
static stbtt_fontinfo font;

/* Reads a font's file, with room behind it, since stb_truetype does not look where a table ends. */
static int open_font(const char *path, long face) {
    FILE *file;
    long size;
    int offset;
    if (strcmp(opened, path) == 0 && opened_face == face)
        return 1;
    opened[0] = 0;
    file = fopen(path, "rb");
    if (!file)
        return 0;
    fseek(file, 0, SEEK_END);
    size = ftell(file);
    rewind(file);
    free(data);
    data = calloc((size_t)size + 65536, 1);
    offset = fread(data, 1, (size_t)size, file) == (size_t)size ? stbtt_GetFontOffsetForIndex(data, (int)face) : -1;
    fclose(file);
    if (offset < 0 || !stbtt_InitFont(&font, data, offset))
        return 0;
    strcpy(opened, path), opened_face = face;
    return 1;
}

static int floor_by(int value, int by) {
    return value >= 0 ? value / by : -((by - 1 - value) / by);
}

/* Draws a glyph with 64 little pixels to a side of one, and looks at the centres. */
static void write_drawn(int glyph, float scale, int moved) {
    int x0, y0, x1, y1, left, top, width, height, x, y;
    unsigned char *fine, *pixels;
    stbtt_GetGlyphBitmapBox(&font, glyph, 64 * scale, 64 * scale, &x0, &y0, &x1, &y1);
    x0 += moved, x1 += moved;
    left = floor_by(x0, 64) - 1, top = floor_by(y0, 64) - 1;
    width = floor_by(x1, 64) + 2 - left, height = floor_by(y1, 64) + 2 - top;
    fine = calloc((size_t)width * height, 4096);
    pixels = calloc((size_t)width * height, 1);
    stbtt_MakeGlyphBitmap(&font, fine + (size_t)(y0 - 64 * top) * width * 64 + (x0 - 64 * left), x1 - x0, y1 - y0, 64 * width, 64 * scale, 64 * scale, glyph);
    for (y = 0; y < height; y++)
        for (x = 0; x < width; x++) {
            const unsigned char *at = fine + (size_t)(64 * y + 31) * width * 64 + 64 * x + 31;
            pixels[y * width + x] = at[0] >= 128 || at[1] >= 128 || at[width * 64] >= 128 || at[width * 64 + 1] >= 128;
        }
    write_bits(pixels, width, height, left, -top - 1);
    free(fine);
    free(pixels);
}

/* The segments of a glyph in 1/64 pixel, moved along x. */
static void write_path(int glyph, double scale, double moved) {
    stbtt_vertex *steps;
    int count = stbtt_GetGlyphShape(&font, glyph, &steps), k;
    printf(", \"path\": [");
    for (k = 0; k < count; k++) {
        const char *word = steps[k].type == STBTT_vmove ? "move" : steps[k].type == STBTT_vline ? "line" : "quad";
        printf("%s[\"%s\"", k ? ", " : "", word);
        if (steps[k].type == STBTT_vcurve)
            printf(", %.3f, %.3f", steps[k].cx * scale + moved, steps[k].cy * scale);
        printf(", %.3f, %.3f]", steps[k].x * scale + moved, steps[k].y * scale);
    }
    printf("]");
    stbtt_FreeShape(&font, steps);
}

static void answer(const struct request *r) {
    int glyph = (int)r->glyph, advance, bearing, x0 = 0, y0, x1, y1;
    float scale;
    if (r->hinted || r->dropout) {
        printf("\"unsupported\": \"%s\"", r->hinted ? "hinting" : "drop-out control");
        return;
    }
    if (!open_font(r->font, r->face)) {
        printf("\"refusal\": {\"text\": \"stbtt_InitFont failed\"}");
        return;
    }
    if (r->code >= 0) {
        glyph = stbtt_FindGlyphIndex(&font, (int)r->code);
        if (!glyph) {
            printf("\"missing\": true");
            return;
        }
    }
    scale = stbtt_ScaleForMappingEmToPixels(&font, (float)r->ppem);
    stbtt_GetGlyphHMetrics(&font, glyph, &advance, &bearing);
    stbtt_GetGlyphBox(&font, glyph, &x0, &y0, &x1, &y1);
    printf("\"advance\": %d", (int)(advance * scale * 64 + 0.5f));
    write_path(glyph, scale * 64, (bearing - x0) * scale * 64);
    if (r->bits) {
        printf(", ");
        write_drawn(glyph, scale, (int)floor((bearing - x0) * scale * 64 + 0.5));
    }
}

int main(void) {
    struct request r;
    say_version();
    while (next_request(&r)) {
        printf("{\"id\": \"%s\", ", r.id);
        answer(&r);
        printf("}\n");
        fflush(stdout);
    }
    return 0;
}

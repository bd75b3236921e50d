/* FreeType as a tool under test: its interpreter 35, its outlines, and its monochrome rasterizer.
 *
 * A glyph is loaded twice: with FT_LOAD_PEDANTIC, which tells the errors of programs, and without it, which draws the glyph all the same.
 * What FreeType calls a reference to a point or value that is not there is no refusal here: the outline is answered. All other errors are.
 * Drop-out control by left pixels is FreeType's drop-out mode 0, by nearer ones its mode 4, and as the font asks it is what FreeType makes of
 * what the programs asked for; without drop-out control it is FT_OUTLINE_IGNORE_DROPOUTS. */
#include "request.h"

#include <ft2build.h>
#include FT_FREETYPE_H
#include FT_MODULE_H
#include FT_OUTLINE_H
#include FT_TRUETYPE_TABLES_H

#define INVALID_REFERENCE 0x86

static FT_Library library;
static FT_Face faces[2];
static char opened[1024];
static long opened_face;

/* Opens the request's font, once to load with pedantic checks and once without. */
static FT_Error open_font(const struct request *r) {
    FT_Error error = 0;
    int k;
    if (strcmp(opened, r->font) == 0 && opened_face == r->face)
        return 0;
    for (k = 0; k < 2; k++) {
        if (faces[k])
            FT_Done_Face(faces[k]);
        faces[k] = NULL;
    }
    opened[0] = 0;
    for (k = 0; k < 2 && !error; k++)
        error = FT_New_Face(library, r->font, r->face, &faces[k]);
    if (!error)
        strcpy(opened, r->font), opened_face = r->face;
    return error;
}

static void write_outline(const FT_Outline *o) {
    int contour, first = 0, k;
    const char *between = "";
    printf("\"outline\": [");
    for (contour = 0; contour < o->n_contours; first = o->contours[contour++] + 1) {
        if (o->contours[contour] < first)
            continue;
        printf("%s[", between);
        between = ", ";
        for (k = first; k <= o->contours[contour]; k++)
            printf("%s[%ld, %ld, %d]", k > first ? ", " : "", o->points[k].x, o->points[k].y, o->tags[k] & 1);
        printf("]");
    }
    printf("]");
}

/* Sets the drop-out mode of an outline, unless the font decides. Programs leave a mode in the tags and the flags. */
static void set_mode(FT_Outline *outline, enum dropout dropout) {
    int k;
    if (dropout == DROPOUT_FONT)
        return;
    for (k = 0; k < outline->n_points; k++)
        outline->tags[k] &= 3;
    outline->flags &= ~(FT_OUTLINE_IGNORE_DROPOUTS | FT_OUTLINE_SMART_DROPOUTS | FT_OUTLINE_INCLUDE_STUBS);
    outline->flags |= dropout == DROPOUT_OFF ? FT_OUTLINE_IGNORE_DROPOUTS : FT_OUTLINE_INCLUDE_STUBS;
    if (dropout == DROPOUT_NEAR)
        outline->flags |= FT_OUTLINE_SMART_DROPOUTS;
}

static FT_Error write_rendered(FT_GlyphSlot slot, enum dropout dropout) {
    FT_Error error;
    unsigned char *pixels;
    unsigned x, y;
    set_mode(&slot->outline, dropout);
    error = FT_Render_Glyph(slot, FT_RENDER_MODE_MONO);
    if (error)
        return error;
    pixels = calloc((size_t)slot->bitmap.width * slot->bitmap.rows + 1, 1);
    for (y = 0; y < slot->bitmap.rows; y++)
        for (x = 0; x < slot->bitmap.width; x++)
            pixels[y * slot->bitmap.width + x] = slot->bitmap.buffer[(int)y * slot->bitmap.pitch + (int)(x >> 3)] >> (7 - (x & 7)) & 1;
    printf(", ");
    write_bits(pixels, (int)slot->bitmap.width, (int)slot->bitmap.rows, slot->bitmap_left, slot->bitmap_top - 1);
    free(pixels);
    return 0;
}

/* The errors of fpgm, prep and the glyph's program by a pedantic load; 0 if there is none but references that are not there. */
static FT_Error pedantic_error(const struct request *r, FT_UInt glyph, FT_Int32 flags) {
    FT_Error error = FT_Set_Pixel_Sizes(faces[0], 0, (FT_UInt)r->ppem);
    if (!error)
        error = FT_Load_Glyph(faces[0], glyph, flags | FT_LOAD_PEDANTIC);
    return (error & 0xFF) == INVALID_REFERENCE ? 0 : error;
}

static FT_Error answer(const struct request *r) {
    FT_Int32 flags = FT_LOAD_NO_BITMAP | FT_LOAD_NO_AUTOHINT | (r->hinted ? FT_LOAD_TARGET_MONO : FT_LOAD_NO_HINTING);
    FT_UInt glyph = (FT_UInt)r->glyph;
    FT_Error error = open_font(r);
    if (error)
        return error;
    if (r->code >= 0) {
        glyph = FT_Get_Char_Index(faces[1], (FT_ULong)r->code);
        if (!glyph) {
            printf("\"missing\": true");
            return 0;
        }
    }
    error = r->hinted ? pedantic_error(r, glyph, flags) : 0;
    if (!error)
        error = FT_Set_Pixel_Sizes(faces[1], 0, (FT_UInt)r->ppem);
    if (!error)
        error = FT_Load_Glyph(faces[1], glyph, flags);
    if (error)
        return error;
    printf("\"advance\": %ld, ", faces[1]->glyph->metrics.horiAdvance);
    write_outline(&faces[1]->glyph->outline);
    if (r->bits && (error = write_rendered(faces[1]->glyph, r->dropout)))
        printf(", ");
    return error;
}

int main(void) {
    struct request r;
    FT_UInt version = 35;
    FT_Error error;
    if (FT_Init_FreeType(&library) || FT_Property_Set(library, "truetype", "interpreter-version", &version))
        return 1;
    say_version();
    while (next_request(&r)) {
        printf("{\"id\": \"%s\", ", r.id);
        error = answer(&r);
        if (error)
            printf("\"refusal\": {\"text\": \"FreeType error 0x%02X\"}", error & 0xFF);
        printf("}\n");
        fflush(stdout);
    }
    return 0;
}

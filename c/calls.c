/* The calls of include/mkstrike.h, over those of libmkstrike_c.a, which are proved and want an address for each pointer. A buffer that is
 * NULL has no elements, whatever its count says; a struct that is NULL is not wanted. Link this file with the archive. */
#include "mkstrike.h"

/* A font at a size, in a mode; and with a block. */
struct font_at {
    const uint8_t *font;
    size_t font_len;
    uint32_t face;
    uint16_t ppem;
    uint32_t mode;
};
struct prepared_font {
    struct font_at at;
    const uint32_t *block;
    size_t block_len;
};

/* The proved call of each: its name begins with `proved_`. Those that draw take the font by a struct. */
#define PROVED(call) extern __typeof__(call) proved_##call
#define DRAWS(call, ...) uint32_t proved_##call(__VA_ARGS__, struct mkstrike_refused *)
#ifdef __cplusplus
extern "C" {
#endif
PROVED(mkstrike_version);
PROVED(mkstrike_reason);
PROVED(mkstrike_advice);
PROVED(mkstrike_faces);
PROVED(mkstrike_font);
PROVED(mkstrike_name);
PROVED(mkstrike_characters);
PROVED(mkstrike_glyph_ids);
DRAWS(mkstrike_glyph, const struct font_at *, uint32_t, uint8_t *, size_t, struct mkstrike_glyph_info *);
DRAWS(mkstrike_glyph_by_id, const struct font_at *, uint32_t, uint8_t *, size_t, struct mkstrike_glyph_info *);
DRAWS(mkstrike_outline, const struct font_at *, uint32_t, struct mkstrike_outline_point *, size_t, uint16_t *, size_t, struct mkstrike_outlined *);
DRAWS(mkstrike_glyphs, const struct font_at *, const uint32_t *, size_t, struct mkstrike_placed *, size_t, uint8_t *, size_t,
    struct mkstrike_drawn *);
DRAWS(mkstrike_prepare, const struct font_at *, uint32_t *, size_t, size_t *);
DRAWS(mkstrike_glyph_prepared, const struct prepared_font *, uint32_t, uint8_t *, size_t, struct mkstrike_glyph_info *);
DRAWS(mkstrike_glyph_by_id_prepared, const struct prepared_font *, uint32_t, uint8_t *, size_t, struct mkstrike_glyph_info *);
DRAWS(mkstrike_glyphs_prepared, const struct prepared_font *, const uint32_t *, size_t, struct mkstrike_placed *, size_t, uint8_t *, size_t,
    struct mkstrike_drawn *);
DRAWS(mkstrike_make, const struct font_at *, const uint32_t *, size_t, const char *, size_t, uint8_t *, size_t, struct mkstrike_told *);
#ifdef __cplusplus
}
#endif

static const uint64_t none = 0; /* an address of no elements */

/* A buffer and its count; a struct, or the local one of its name. */
#define BUFFER(it) it != NULL ? it : (__typeof__(it))(void *)&none, it != NULL ? it##_len : 0
#define STRUCT(it) it != NULL ? it : &no_##it

/* The locals of a call that draws, and of one that draws by a block. */
#define AT struct mkstrike_refused no_refused; const struct font_at at = {BUFFER(font), face, ppem, mode}
#define BY AT; const struct prepared_font by = {at, BUFFER(block)}

uint32_t mkstrike_version(void) { return proved_mkstrike_version(); }

size_t mkstrike_reason(uint32_t number, char *text, size_t text_len) { return proved_mkstrike_reason(number, BUFFER(text)); }

size_t mkstrike_advice(uint32_t number, char *text, size_t text_len) { return proved_mkstrike_advice(number, BUFFER(text)); }

uint32_t mkstrike_faces(const uint8_t *font, size_t font_len, uint32_t *faces, struct mkstrike_refused *refused) {
    struct mkstrike_refused no_refused;
    uint32_t no_faces;
    return proved_mkstrike_faces(BUFFER(font), STRUCT(faces), STRUCT(refused));
}

uint32_t mkstrike_font(const uint8_t *font, size_t font_len, uint32_t face, uint16_t ppem, struct mkstrike_font_info *info,
    struct mkstrike_refused *refused) {
    struct mkstrike_refused no_refused;
    struct mkstrike_font_info no_info;
    return proved_mkstrike_font(BUFFER(font), face, ppem, STRUCT(info), STRUCT(refused));
}

uint32_t mkstrike_name(const uint8_t *font, size_t font_len, uint32_t face, uint32_t id, char *text, size_t text_len, size_t *count,
    struct mkstrike_refused *refused) {
    struct mkstrike_refused no_refused;
    size_t no_count;
    return proved_mkstrike_name(BUFFER(font), face, id, BUFFER(text), STRUCT(count), STRUCT(refused));
}

uint32_t mkstrike_characters(const uint8_t *font, size_t font_len, uint32_t face, uint32_t *chars, size_t chars_len, size_t *count,
    struct mkstrike_refused *refused) {
    struct mkstrike_refused no_refused;
    size_t no_count;
    return proved_mkstrike_characters(BUFFER(font), face, BUFFER(chars), STRUCT(count), STRUCT(refused));
}

uint32_t mkstrike_glyph_ids(const uint8_t *font, size_t font_len, uint32_t face, const uint32_t *chars, size_t chars_len, uint16_t *glyphs,
    size_t glyphs_len, struct mkstrike_refused *refused) {
    struct mkstrike_refused no_refused;
    return proved_mkstrike_glyph_ids(BUFFER(font), face, BUFFER(chars), BUFFER(glyphs), STRUCT(refused));
}

uint32_t mkstrike_glyph(const uint8_t *font, size_t font_len, uint32_t face, uint16_t ppem, uint32_t mode, uint32_t code, uint8_t *pixels,
    size_t pixels_len, struct mkstrike_glyph_info *info, struct mkstrike_refused *refused) {
    AT;
    struct mkstrike_glyph_info no_info;
    return proved_mkstrike_glyph(&at, code, BUFFER(pixels), STRUCT(info), STRUCT(refused));
}

uint32_t mkstrike_glyph_by_id(const uint8_t *font, size_t font_len, uint32_t face, uint16_t ppem, uint32_t mode, uint32_t glyph,
    uint8_t *pixels, size_t pixels_len, struct mkstrike_glyph_info *info, struct mkstrike_refused *refused) {
    AT;
    struct mkstrike_glyph_info no_info;
    return proved_mkstrike_glyph_by_id(&at, glyph, BUFFER(pixels), STRUCT(info), STRUCT(refused));
}

uint32_t mkstrike_outline(const uint8_t *font, size_t font_len, uint32_t face, uint16_t ppem, uint32_t mode, uint32_t glyph,
    struct mkstrike_outline_point *points, size_t points_len, uint16_t *ends, size_t ends_len, struct mkstrike_outlined *outlined,
    struct mkstrike_refused *refused) {
    AT;
    struct mkstrike_outlined no_outlined;
    return proved_mkstrike_outline(&at, glyph, BUFFER(points), BUFFER(ends), STRUCT(outlined), STRUCT(refused));
}

uint32_t mkstrike_glyphs(const uint8_t *font, size_t font_len, uint32_t face, uint16_t ppem, uint32_t mode, const uint32_t *chars,
    size_t chars_len, struct mkstrike_placed *glyphs, size_t glyphs_len, uint8_t *pixels, size_t pixels_len, struct mkstrike_drawn *drawn,
    struct mkstrike_refused *refused) {
    AT;
    struct mkstrike_drawn no_drawn;
    return proved_mkstrike_glyphs(&at, BUFFER(chars), BUFFER(glyphs), BUFFER(pixels), STRUCT(drawn), STRUCT(refused));
}

uint32_t mkstrike_prepare(const uint8_t *font, size_t font_len, uint32_t face, uint16_t ppem, uint32_t mode, uint32_t *block,
    size_t block_len, size_t *need, struct mkstrike_refused *refused) {
    AT;
    size_t no_need;
    return proved_mkstrike_prepare(&at, BUFFER(block), STRUCT(need), STRUCT(refused));
}

uint32_t mkstrike_glyph_prepared(const uint8_t *font, size_t font_len, uint32_t face, uint16_t ppem, uint32_t mode, const uint32_t *block,
    size_t block_len, uint32_t code, uint8_t *pixels, size_t pixels_len, struct mkstrike_glyph_info *info,
    struct mkstrike_refused *refused) {
    BY;
    struct mkstrike_glyph_info no_info;
    return proved_mkstrike_glyph_prepared(&by, code, BUFFER(pixels), STRUCT(info), STRUCT(refused));
}

uint32_t mkstrike_glyph_by_id_prepared(const uint8_t *font, size_t font_len, uint32_t face, uint16_t ppem, uint32_t mode,
    const uint32_t *block, size_t block_len, uint32_t glyph, uint8_t *pixels, size_t pixels_len, struct mkstrike_glyph_info *info,
    struct mkstrike_refused *refused) {
    BY;
    struct mkstrike_glyph_info no_info;
    return proved_mkstrike_glyph_by_id_prepared(&by, glyph, BUFFER(pixels), STRUCT(info), STRUCT(refused));
}

uint32_t mkstrike_glyphs_prepared(const uint8_t *font, size_t font_len, uint32_t face, uint16_t ppem, uint32_t mode, const uint32_t *block,
    size_t block_len, const uint32_t *chars, size_t chars_len, struct mkstrike_placed *glyphs, size_t glyphs_len, uint8_t *pixels,
    size_t pixels_len, struct mkstrike_drawn *drawn, struct mkstrike_refused *refused) {
    BY;
    struct mkstrike_drawn no_drawn;
    return proved_mkstrike_glyphs_prepared(&by, BUFFER(chars), BUFFER(glyphs), BUFFER(pixels), STRUCT(drawn), STRUCT(refused));
}

uint32_t mkstrike_make(const uint8_t *font, size_t font_len, uint32_t face, uint16_t ppem, uint32_t mode, const uint32_t *chars,
    size_t chars_len, const char *name, size_t name_len, uint8_t *out, size_t out_len, struct mkstrike_told *told,
    struct mkstrike_refused *refused) {
    AT;
    struct mkstrike_told no_told;
    return proved_mkstrike_make(&at, BUFFER(chars), BUFFER(name), BUFFER(out), STRUCT(told), STRUCT(refused));
}

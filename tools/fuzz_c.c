/* Calls the C library with fonts that libFuzzer makes, and stops at the first thing that is wrong. An input is a font and 24 bytes after it
 * that say what is asked. Each buffer, and each piece of memory that the library asks for, begins or ends at a page that can't be touched;
 * fonts can't be written to. On each input:
 *
 *   - what a strike, its cut text and its numbers are agrees from call to call, and with what is told of the font;
 *   - a name of the font is written whole, with a 0 after it, or not;
 *   - each entry of many characters is what a call for it alone gives; boxes are tight, the bits that fill up a row are 0; by the number of
 *     its glyph a character gives the same;
 *   - the outline of a glyph is whole, fits the glyph's advance, and is refused as the glyph is;
 *   - by a block each character is the same, alone, in one call and by its glyph's number, also when memory is refused; a block of
 *     another font, face, size or mode, and one that is cut, is refused; and whatever words are given as a block, no call goes wrong;
 *   - what a refused call must leave is as it was, and nothing is written beside a buffer;
 *   - one request for memory, another one each time, is refused, or each from there on: the answer is 90, or the same;
 *   - all memory is given back.
 *
 * Each call of the header is made, in all modes. tools/fuzz_c builds and runs it. The archive has no marks of coverage, so statuses,
 * tables, opcodes and counts are the features. With -DALONE it needs no libFuzzer: it looks at the inputs of the files that are named, and
 * refuses each request for memory in turn (tests/c). */
#define _GNU_SOURCE
#include "mkstrike.h"
#include <stdio.h>
#include <stdlib.h>
#include <string.h>
#include <sys/mman.h>

enum { PAGE = 4096, ASKED = 24, MOST = 14, FILL = 0xA5 };

__attribute__((section("__libfuzzer_extra_counters"))) static uint8_t counters[1 << 14];

static void feature(uint32_t it) {
    uint8_t *counter = counters + ((it * 2654435761u) >> 18);
    if (*counter < 255) ++*counter;
}

static void look(int is_right, const char *what) {
    if (is_right) return;
    fprintf(stderr, "fuzz_c: %s\n", what);
    abort();
}

static uint32_t state;

static uint32_t draw(uint32_t below) {
    state ^= state << 13;
    state ^= state >> 17;
    state ^= state << 5;
    return below ? state % below : 0;
}

/* The first and the last request for memory to refuse, of so many. */
static long first_refused, last_refused;

static int some_refused(long count) {
#ifdef ALONE
    first_refused = 1;
    last_refused = count;
#else
    first_refused = last_refused = count > 0 ? 1 + (long)draw((uint32_t)count) : 0;
#endif
    return count > 0;
}

/* ---- blocks between pages that can't be touched */

struct block {
    uint8_t *map, *at;
    size_t pages, len;
};

static uint8_t *kept[16][32];
static int kept_count[16];

/* A block of so many bytes, filled with FILL; it begins at its first page, or ends at the end of its last as far as alignment allows. */
static struct block block_of(size_t len, size_t align, int at_front) {
    struct block b;
    size_t body;
    b.pages = (len + PAGE - 1) / PAGE + (len == 0);
    b.len = len;
    body = b.pages * PAGE;
    if (b.pages < 16 && kept_count[b.pages] > 0) {
        b.map = kept[b.pages][--kept_count[b.pages]];
    } else {
        b.map = (uint8_t *)mmap(NULL, body + 2 * PAGE, PROT_NONE, MAP_PRIVATE | MAP_ANONYMOUS | MAP_NORESERVE, -1, 0);
        look(b.map != MAP_FAILED, "no memory for a block");
        mprotect(b.map + PAGE, body, PROT_READ | PROT_WRITE);
    }
    memset(b.map + PAGE, FILL, body);
    b.at = b.map + PAGE;
    if (!at_front) b.at += (body - len) & ~(align - 1);
    return b;
}

static int is_filled(const uint8_t *from, size_t len) {
    size_t i;
    for (i = 0; i < len; i++)
        if (from[i] != FILL) return 0;
    return 1;
}

/* Gives a block back, once nothing beside it was written. */
static void free_block(struct block *b) {
    uint8_t *body = b->map + PAGE;
    size_t before = (size_t)(b->at - body);
    look(is_filled(body, before) && is_filled(b->at + b->len, b->pages * PAGE - before - b->len), "a byte beside a buffer was changed");
    if (b->pages < 16 && kept_count[b->pages] < 32) kept[b->pages][kept_count[b->pages]++] = b->map;
    else munmap(b->map, (b->pages + 2) * PAGE);
}

/* ---- the memory of the library */

struct given {
    size_t ok;
    void *at;
};

static struct block live[4096];
static int live_count, at_front;
static long requests, refused_at;
static char nothing[16];

/* Whether one request more is refused: the one with this number, and if that is even each one after it too. */
static int is_refused(void) {
    requests++;
    return requests == refused_at || (refused_at != 0 && refused_at % 2 == 0 && requests > refused_at);
}

struct given rattle_alloc(size_t size, size_t align) {
    struct given it = {0, nothing};
    look(align <= 16 && (align & (align - 1)) == 0 && size < (size_t)1 << 32, "an odd request for memory");
    if (is_refused()) return it;
    look(live_count < 4096, "thousands of pieces of memory");
    live[live_count] = block_of(size, 16, at_front);
    it.ok = 1;
    it.at = live[live_count++].at;
    return it;
}

static int find(const void *at) {
    int i = live_count - 1;
    while (i >= 0 && live[i].at != at) i--;
    look(i >= 0, "memory given back that was not given");
    return i;
}

void rattle_dealloc(void *at) {
    int i = find(at);
    free_block(live + i);
    live[i] = live[--live_count];
}

struct given rattle_realloc(void *at, size_t used, size_t size, size_t align) {
    size_t len = live[find(at)].len;
    struct given it = rattle_alloc(size, align);
    look(used <= len, "more bytes to keep than were given");
    if (it.ok) {
        memcpy(it.at, at, used < size ? used : size);
        rattle_dealloc(at);
    }
    return it;
}

/* ---- what is asked */

struct asked {
    const uint8_t *font;
    size_t font_len;
    uint32_t face, mode, packed, x11;
    uint16_t ppem;
    const uint32_t *chars;
    uint32_t chars_len;
};

static struct mkstrike_refused why;

/* Whether a number is a mode: hinted or not, careful or not, and at most one bit of drop-out control. */
static int is_mode(uint32_t mode) {
    uint32_t closed = mode & (MKSTRIKE_DROPOUT | MKSTRIKE_DROPOUT_NEAR | MKSTRIKE_DROPOUT_FONT);
    return (mode & ~(closed | MKSTRIKE_HINTED | MKSTRIKE_CAREFUL)) == 0 && (closed & (closed - 1)) == 0;
}

/* Before a call: nothing was told yet, and request `refused` is refused. */
static void begin(long refused) {
    memset(&why, FILL, sizeof why);
    requests = 0;
    refused_at = refused;
}

/* The number that a call returned has a name. */
static void named(uint32_t status) {
    char name[24], to_do[96];
    size_t len = mkstrike_reason(status, name, sizeof name);
    look(len < 21 && strlen(name) == len && strcmp(name, "Unknown") != 0, "a number without a name");
    len = mkstrike_advice(status, to_do, sizeof to_do);
    look(len < sizeof to_do && strlen(to_do) == len && (len != 0) == (status > 1), "a number without advice, or with too much");
}

/* After it: it gave all back; refused it told its number, else nothing. A call for many that is done may tell of a character. */
static uint32_t ended(uint32_t status, int is_told) {
    look(live_count == 0, "memory was kept");
    refused_at = 0;
    if (is_told && status == 0) look(why.number > 1 && why.index != MKSTRIKE_NONE, "no refusal of a character");
    else if (is_told) look(why.number == status, "two numbers of a refusal");
    else look(is_filled((const uint8_t *)&why, sizeof why), "a call that was done told a refusal");
    feature(status * 977 + why.table * 31 + why.opcode * 17 + why.glyph * 13);
    named(status);
    return status;
}

/* A number that is no mode is refused before all else, and no mode is. */
static void same_mode(const struct asked *a, uint32_t status) {
    look(is_mode(a->mode) == (status != MKSTRIKE_BAD_MODE), "a number that is no mode was taken, or a mode refused");
}

static uint32_t make(const struct asked *a, struct block *out, struct mkstrike_told *told, long refused) {
    uint32_t status;
    begin(refused);
    status = mkstrike_make(a->font, a->font_len, a->face, a->ppem, a->mode | a->x11, a->chars, a->chars_len, "n", 1, out->at, out->len, told,
        &why);
    return ended(status, status != 0);
}

/* A character or, if `is_id`, a glyph by its number; by a block, unless that is NULL. */
static uint32_t one(const struct asked *a, const struct block *words, int is_id, uint32_t number, struct block *pixels,
    struct mkstrike_glyph_info *info, long refused) {
    const uint32_t *block = words != NULL ? (const uint32_t *)(const void *)words->at : NULL;
    uint32_t mode = a->mode | a->packed, status;
    begin(refused);
    if (words != NULL)
        status = (is_id ? mkstrike_glyph_by_id_prepared : mkstrike_glyph_prepared)(a->font, a->font_len, a->face, a->ppem, mode, block,
            words->len / 4, number, pixels->at, pixels->len, info, &why);
    else
        status = (is_id ? mkstrike_glyph_by_id : mkstrike_glyph)(a->font, a->font_len, a->face, a->ppem, mode, number, pixels->at, pixels->len,
            info, &why);
    return ended(status, status > 1);
}

static uint32_t glyph(const struct asked *a, uint32_t code, struct block *pixels, struct mkstrike_glyph_info *info, long refused) {
    return one(a, NULL, 0, code, pixels, info, refused);
}

static uint32_t glyphs(const struct asked *a, struct block *entries, struct block *pixels, struct mkstrike_drawn *drawn, long refused) {
    uint32_t status;
    begin(refused);
    status = mkstrike_glyphs(a->font, a->font_len, a->face, a->ppem, a->mode | a->packed, a->chars, a->chars_len,
        (struct mkstrike_placed *)(void *)entries->at, entries->len / sizeof(struct mkstrike_placed), pixels->at, pixels->len, drawn, &why);
    return ended(status, status != 0 || drawn->refused != 0);
}

/* ---- characters */

/* The characters of a font in a buffer that may be small: they rise, and each has a glyph. A face that opens is one of the file's. */
static void characters(const struct asked *a) {
    struct block some = block_of(draw(64) * sizeof(uint32_t), 4, (int)draw(2));
    const uint32_t *chars = (const uint32_t *)(const void *)some.at;
    size_t room = some.len / sizeof(uint32_t), count = 0, i;
    uint32_t status, of_file, faces = 0;
    uint16_t id;
    begin(0);
    status = mkstrike_characters(a->font, a->font_len, a->face, (uint32_t *)(void *)some.at, room, &count, &why);
    status = ended(status, status != 0);
    look(requests == 0, "the characters of a font take memory");
    if (count < room) look(is_filled(some.at + count * sizeof(uint32_t), (room - count) * sizeof(uint32_t)), "more than the characters");
    for (i = 0; i < room && i < count; i++) {
        look(chars[i] <= 0x10FFFF && (i == 0 || chars[i - 1] < chars[i]), "characters that do not rise");
        look(mkstrike_glyph_ids(a->font, a->font_len, a->face, chars + i, 1, &id, 1, NULL) == 0 && id != 0, "a character without a glyph");
    }
    begin(0);
    of_file = mkstrike_faces(a->font, a->font_len, &faces, &why);
    ended(of_file, of_file != 0);
    look(status != 0 || (of_file == 0 && a->face < faces), "characters of a face that is not there");
    look(requests == 0, "the number of faces takes memory");
    free_block(&some);
}

/* ---- names */

/* A name of a font in a buffer that may be small: whole with a 0 after it, or not written. */
static void name(const struct asked *a) {
    struct block text = block_of(draw(40), 1, (int)draw(2));
    size_t count = 0;
    uint32_t status;
    begin(0);
    status = mkstrike_name(a->font, a->font_len, a->face, draw(20), (char *)text.at, text.len, &count, &why);
    status = ended(status, status > MKSTRIKE_MISSING);
    look(requests == 0, "the name of a font takes memory");
    look((status == 0) == (count != 0) && count <= 98301, "the length of a name");
    if (status != 0 || count >= text.len) look(is_filled(text.at, text.len), "a part of a name");
    else look(text.at[count] == 0 && is_filled(text.at + count + 1, text.len - count - 1), "no 0 after a name, or more");
    free_block(&text);
}

/* ---- strikes */

/* The text in a buffer of this length is the beginning of the whole text. */
static void cut_text(const struct asked *a, const struct block *whole, size_t len, const struct mkstrike_told *due) {
    struct block out = block_of(len, 1, (int)draw(2));
    struct mkstrike_told told;
    look(make(a, &out, &told, 0) == 0 && memcmp(&told, due, sizeof told) == 0, "another strike in another buffer");
    look(memcmp(out.at, whole->at, len < whole->len ? len : whole->len) == 0, "another text in another buffer");
    if (len > whole->len) look(is_filled(out.at + whole->len, len - whole->len), "a byte after the text was changed");
    free_block(&out);
}

static void strike(const struct asked *a, const struct mkstrike_font_info *info, uint32_t font_status) {
    struct block none = block_of(0, 1, at_front), whole;
    struct mkstrike_told told, again;
    uint32_t status, second;
    long n;
    memset(&told, FILL, sizeof told);
    status = make(a, &none, &told, 0);
    n = requests;
    same_mode(a, status);
    if (status != 0) look(is_filled((uint8_t *)&told, sizeof told), "a refusal changed what is told");
    again = told;
    if (status == 0) {
        char heights[64];
        look(font_status == 0, "a strike of a font that is refused");
        whole = block_of(told.bytes, 1, (int)draw(2));
        look(make(a, &whole, &again, 0) == 0 && memcmp(&told, &again, sizeof told) == 0, "another strike the second time");
        sprintf(heights, "\nFONT_ASCENT %d\nFONT_DESCENT %d\n", (int)info->ascent, (int)info->descent);
        look(memmem(whole.at, whole.len, heights, strlen(heights)) != NULL, "other heights in a strike");
        look(memcmp(whole.at + whole.len - 8, "ENDFONT\n", 8) == 0, "a strike without an end");
        cut_text(a, &whole, draw((uint32_t)told.bytes), &told);
        if (draw(3) == 0) cut_text(a, &whole, told.bytes + 1 + draw(99), &told);
        feature(0x10000 + (uint32_t)__builtin_clzll(told.steps + 1) * 64 + (uint32_t)__builtin_clzll(told.bytes));
        free_block(&whole);
    }
    if (some_refused(n))
        for (n = first_refused; n <= last_refused; n++) {
            whole = block_of(99, 1, 0);
            second = make(a, &whole, &again, n);
            look(second == MKSTRIKE_OUT_OF_MEMORY || second == status, "another answer to refused memory");
            look(memcmp(&told, &again, sizeof told) == 0, "refused memory changed what is told");
            look(second == 0 || is_filled(whole.at, whole.len), "refused memory changed a text");
            free_block(&whole);
        }
    free_block(&none);
}

/* ---- glyphs */

static int bit(const struct asked *a, const struct mkstrike_glyph_info *g, const uint8_t *pixels, uint32_t row, uint32_t column) {
    const uint8_t *at = pixels + (size_t)row * g->stride;
    return a->packed ? at[column / 8] >> (7 - column % 8) & 1 : at[column] == 255;
}

/* A glyph's box is tight, and its bytes have no other values than they may. */
static void look_at_box(const struct asked *a, const struct mkstrike_glyph_info *g, const uint8_t *pixels) {
    int top = 0, bottom = 0, left = 0, right = 0;
    uint32_t i;
    look((g->width == 0) == (g->height == 0), "a box of one side");
    look(g->stride == (a->packed ? (g->width + 7) / 8 : g->width), "another stride");
    if (g->height == 0) return;
    for (i = 0; i < g->width; i++) top |= bit(a, g, pixels, 0, i), bottom |= bit(a, g, pixels, g->height - 1, i);
    for (i = 0; i < g->height; i++) left |= bit(a, g, pixels, i, 0), right |= bit(a, g, pixels, i, g->width - 1);
    look(top && bottom && left && right, "a box that is not tight");
    for (i = 0; a->packed && g->width % 8 != 0 && i < g->height; i++)
        look((pixels[(size_t)(i + 1) * g->stride - 1] & (0xFF >> g->width % 8)) == 0, "bits beyond a row");
    for (i = 0; !a->packed && i < g->stride * g->height; i++) look(pixels[i] == 0 || pixels[i] == 255, "a byte that is no pixel");
}

/* A call for the character alone gives what the entry says, also by its glyph's number and when memory is refused. */
static void alone(const struct asked *a, uint32_t code, const struct mkstrike_placed *entry, const uint8_t *pixels) {
    struct mkstrike_glyph_info g;
    size_t size = (size_t)entry->glyph.stride * entry->glyph.height, room = size - (size > 0 && draw(4) == 0);
    struct block out = block_of(room, 1, (int)draw(2));
    uint16_t id = 0;
    long n;
    memset(&g, FILL, sizeof g);
    look(glyph(a, code, &out, &g, 0) == entry->status, "another status alone");
    n = requests;
    if (entry->status == 0) {
        look(memcmp(&g, &entry->glyph, sizeof g) == 0, "other numbers alone");
        if (room == size) look(memcmp(out.at, pixels, size) == 0, "other pixels alone");
        begin(0);
        look(mkstrike_glyph_ids(a->font, a->font_len, a->face, &code, 1, &id, 1, NULL) == 0 && id != 0, "no glyph of a character");
        look(one(a, NULL, 1, id, &out, &g, 0) == 0, "none by id");
        look(memcmp(&g, &entry->glyph, sizeof g) == 0 && (room < size || memcmp(out.at, pixels, size) == 0), "another glyph by id");
    } else {
        look(is_filled((uint8_t *)&g, sizeof g) && is_filled(out.at, room), "a buffer changed, and no glyph");
    }
    if (some_refused(n))
        for (n = first_refused; n <= last_refused; n++) {
            uint32_t status;
            memset(out.at, FILL, room);
            status = glyph(a, code, &out, &g, n);
            look(status == MKSTRIKE_OUT_OF_MEMORY || status == entry->status, "another answer to refused memory");
            look(status == 0 || is_filled(out.at, room), "refused memory changed pixels");
        }
    free_block(&out);
}

/* The entries of many characters, one after the other. */
static void each(const struct asked *a, const struct mkstrike_placed *entries, const uint8_t *pixels, const struct mkstrike_drawn *drawn) {
    static const struct mkstrike_glyph_info no_info;
    uint32_t i, counts[3] = {0, 0, 0};
    size_t at = 0;
    for (i = 0; i < a->chars_len; i++) {
        const struct mkstrike_glyph_info *g = &entries[i].glyph;
        look(entries[i].offset == at, "pixels at another offset");
        at += (size_t)g->stride * g->height;
        counts[entries[i].status < 2 ? entries[i].status : 2]++;
        if (entries[i].status != 0) look(memcmp(g, &no_info, sizeof no_info) == 0, "numbers of no glyph");
        else look_at_box(a, g, pixels + entries[i].offset);
        if (draw(3) == 0) alone(a, a->chars[i], entries + i, pixels + entries[i].offset);
    }
    look(at == drawn->bytes && counts[0] == drawn->glyphs && counts[1] == drawn->missing && counts[2] == drawn->refused, "other counts");
}

static void many(const struct asked *a) {
    struct block none = block_of(0, 8, at_front), entries, pixels;
    struct mkstrike_drawn drawn, again;
    struct mkstrike_glyph_info info;
    struct mkstrike_refused first;
    uint32_t status, second;
    long n;
    memset(&drawn, 0, sizeof drawn);
    status = glyphs(a, &none, &none, &drawn, 0);
    n = requests;
    first = why;
    same_mode(a, status);
    if (status != 0 && status != MKSTRIKE_BAD_CHARS && a->chars_len > 0)
        look(glyph(a, a->chars[0], &none, &info, 0) == status && memcmp(&first, &why, sizeof why) == 0, "many refused for another reason than one");
    if (status == 0) {
        uint32_t few = draw(a->chars_len + 1);
        entries = block_of(a->chars_len * sizeof(struct mkstrike_placed), 8, (int)draw(2));
        pixels = block_of(drawn.bytes, 1, (int)draw(2));
        look(glyphs(a, &entries, &pixels, &again, 0) == 0 && again.bytes == drawn.bytes && again.refused == drawn.refused, "others");
        look(memcmp(&first, &why, sizeof why) == 0, "another first refusal");
        if (drawn.refused != 0)
            look(why.index < a->chars_len && why.code == a->chars[why.index] &&
                     ((struct mkstrike_placed *)(void *)entries.at)[why.index].status == why.number,
                "the first refusal of another character");
        if (drawn.refused != 0) {
            first.index = first.code = MKSTRIKE_NONE;
            look(glyph(a, why.code, &none, &info, 0) == first.number && memcmp(&first, &why, sizeof why) == 0, "other fields of the first refusal");
        }
        each(a, (const struct mkstrike_placed *)(const void *)entries.at, pixels.at, &drawn);
        if (few < a->chars_len) {
            struct block cut = block_of(few * sizeof(struct mkstrike_placed), 8, 0), cut_pixels = block_of(draw((uint32_t)drawn.bytes + 1), 1, 0);
            look(glyphs(a, &cut, &cut_pixels, &again, 0) == 0 && again.bytes == drawn.bytes, "others in small buffers");
            look(memcmp(cut_pixels.at, pixels.at, cut_pixels.len) == 0, "other pixels in a small buffer");
            free_block(&cut);
            free_block(&cut_pixels);
        }
        free_block(&entries);
        free_block(&pixels);
    }
    if (some_refused(n))
        for (n = first_refused; n <= last_refused; n++) {
            entries = block_of(a->chars_len * sizeof(struct mkstrike_placed), 8, 0);
            pixels = block_of(99, 1, 0);
            memset(&again, 0, sizeof again);
            second = glyphs(a, &entries, &pixels, &again, n);
            look(second == MKSTRIKE_OUT_OF_MEMORY || second == status, "another answer to refused memory");
            look(second == 0 || (is_filled(entries.at, entries.len) && is_filled(pixels.at, pixels.len)), "refused memory changed a buffer");
            free_block(&entries);
            free_block(&pixels);
        }
    free_block(&none);
}

/* ---- outlines */

static uint32_t outlined(const struct asked *a, uint32_t id, struct block *points, struct block *ends, struct mkstrike_outlined *told, long refused) {
    uint32_t status;
    begin(refused);
    status = mkstrike_outline(a->font, a->font_len, a->face, a->ppem, a->mode, id, (struct mkstrike_outline_point *)(void *)points->at,
        points->len / sizeof(struct mkstrike_outline_point), (uint16_t *)(void *)ends->at, ends->len / sizeof(uint16_t), told, &why);
    return ended(status, status != 0);
}

/* The points and the contours of an outline, in buffers of just its size and in smaller ones. */
static void look_at_outline(const struct asked *a, uint32_t id, const struct mkstrike_outlined *told) {
    struct block points = block_of(told->points * sizeof(struct mkstrike_outline_point), 4, (int)draw(2));
    struct block ends = block_of(told->contours * sizeof(uint16_t), 2, (int)draw(2));
    struct block few = block_of(draw((uint32_t)told->points + 1) * sizeof(struct mkstrike_outline_point), 4, (int)draw(2));
    struct block some = block_of(draw((uint32_t)told->contours + 1) * sizeof(uint16_t), 2, (int)draw(2));
    const struct mkstrike_outline_point *point = (const struct mkstrike_outline_point *)(const void *)points.at;
    const uint16_t *end = (const uint16_t *)(const void *)ends.at;
    struct mkstrike_outlined again;
    size_t i;
    look(outlined(a, id, &points, &ends, &again, 0) == 0, "no outline with room for it");
    look(again.points == told->points && again.contours == told->contours && again.advance == told->advance, "another outline");
    for (i = 0; i < told->points; i++) look(point[i].on_curve <= 1, "a point neither on the curve nor off it");
    for (i = 1; i < told->contours; i++) look(end[i - 1] <= end[i], "contours that end before those before them");
    look(told->contours == 0 ? told->points == 0 : end[told->contours - 1] + (size_t)1 == told->points, "points of no contour");
    look(outlined(a, id, &few, &some, &again, 0) == 0 && again.points == told->points, "no outline without room for it");
    look(memcmp(few.at, points.at, few.len) == 0 && memcmp(some.at, ends.at, some.len) == 0, "another outline in small buffers");
    feature(0x30000 + (uint32_t)told->contours * 64 + (uint32_t)__builtin_clzll(told->points + 1));
    free_block(&points);
    free_block(&ends);
    free_block(&few);
    free_block(&some);
}

/* A glyph's outline by its number: refused as the glyph is, unless only its pixels are too many or too far. */
static void outline(const struct asked *a, uint32_t id) {
    struct block none = block_of(0, 4, at_front);
    struct mkstrike_outlined told;
    struct mkstrike_glyph_info info;
    struct mkstrike_refused of_outline;
    uint32_t status, drawn;
    long n;
    memset(&told, FILL, sizeof told);
    status = outlined(a, id, &none, &none, &told, 0);
    of_outline = why;
    n = requests;
    same_mode(a, status);
    drawn = one(a, NULL, 1, id, &none, &info, 0);
    if (status != 0) {
        look(is_filled((uint8_t *)&told, sizeof told), "a refused outline changed what is told");
        look(memcmp(&of_outline, &why, sizeof why) == 0, "a glyph that is not refused as its outline");
    } else {
        look(drawn == 0 || drawn == MKSTRIKE_TOO_FAR || drawn == MKSTRIKE_GLYPH_TOO_LARGE, "a glyph refused that has an outline");
        if (drawn == 0) look(llabs(64 * (long long)info.dwidth - told.advance) <= 32, "another advance of an outline");
        look_at_outline(a, id, &told);
    }
    if (some_refused(n))
        for (n = first_refused; n <= last_refused; n++) {
            memset(&told, FILL, sizeof told);
            drawn = outlined(a, id, &none, &none, &told, n);
            look(drawn == MKSTRIKE_OUT_OF_MEMORY || drawn == status, "another answer to refused memory");
            look(drawn == 0 || is_filled((uint8_t *)&told, sizeof told), "refused memory changed what is told");
        }
    free_block(&none);
}

/* ---- blocks */

static uint32_t prepare(const struct asked *a, struct block *words, size_t *need, long refused) {
    uint32_t status;
    begin(refused);
    status = mkstrike_prepare(a->font, a->font_len, a->face, a->ppem, a->mode | a->packed, (uint32_t *)(void *)words->at, words->len / 4, need, &why);
    return ended(status, status != 0);
}

/* A character, or a glyph by its number, by its font's block: the answer is that of a call without it. */
static void same_by_block(const struct asked *a, const struct block *words, int is_id, uint32_t number) {
    struct mkstrike_glyph_info due, found;
    struct block pixels = block_of(4096, 1, (int)draw(2)), others = block_of(4096, 1, (int)draw(2));
    struct mkstrike_refused refused;
    uint32_t status, again;
    long n;
    memset(&due, FILL, sizeof due);
    memset(&found, FILL, sizeof found);
    status = one(a, NULL, is_id, number, &pixels, &due, 0);
    refused = why;
    look(one(a, words, is_id, number, &others, &found, 0) == status, "another status by a block");
    look(memcmp(&why, &refused, sizeof why) == 0, "another refusal by a block");
    look(memcmp(&due, &found, sizeof due) == 0 && memcmp(pixels.at, others.at, 4096) == 0, "another glyph by a block");
    if (some_refused(requests))
        for (n = first_refused; n <= last_refused; n++) {
            again = one(a, words, is_id, number, &others, &found, n);
            look(again == MKSTRIKE_OUT_OF_MEMORY || again == status, "another answer to refused memory by a block");
        }
    free_block(&pixels);
    free_block(&others);
}

/* All characters in one call, with a block and without: what is told, as much of the pixels as fits, and the first refusal. */
static void many_by_block(const struct asked *a, const struct block *words) {
    struct block entries = block_of(a->chars_len * sizeof(struct mkstrike_placed), 8, (int)draw(2)), pixels = block_of(draw(4096), 1, (int)draw(2));
    struct block others = block_of(entries.len, 8, (int)draw(2)), more = block_of(pixels.len, 1, (int)draw(2));
    struct mkstrike_drawn due, found;
    struct mkstrike_refused refused;
    uint32_t status;
    memset(&due, FILL, sizeof due);
    memset(&found, FILL, sizeof found);
    status = glyphs(a, &entries, &pixels, &due, 0);
    refused = why;
    begin(0);
    look(mkstrike_glyphs_prepared(a->font, a->font_len, a->face, a->ppem, a->mode | a->packed, (const uint32_t *)(const void *)words->at,
             words->len / 4, a->chars, a->chars_len, (struct mkstrike_placed *)(void *)others.at, a->chars_len, more.at, more.len, &found,
             &why) == status, "another status of many by a block");
    ended(status, status != 0 || found.refused != 0);
    look(memcmp(&why, &refused, sizeof why) == 0, "another refusal of many by a block");
    look(status != 0 || (due.bytes == found.bytes && due.glyphs == found.glyphs && due.missing == found.missing && due.refused == found.refused),
        "other counts by a block");
    look(memcmp(entries.at, others.at, entries.len) == 0 && memcmp(pixels.at, more.at, pixels.len) == 0, "other glyphs of many by a block");
    free_block(&entries);
    free_block(&pixels);
    free_block(&others);
    free_block(&more);
}

/* Some words of a block are changed, or it is cut: a refused call changes nothing, and each call ends. */
static void changed_block(const struct asked *a, struct block *words, uint32_t code) {
    static const uint32_t values[] = {0, 1, 0xFFFFFFFF, 0x7FFFFFFF, 0x80000000, 256, 0x10000, 3};
    struct mkstrike_glyph_info info;
    struct block pixels = block_of(4096, 1, (int)draw(2));
    uint32_t *at = (uint32_t *)(void *)words->at, count = (uint32_t)(words->len / 4), i, status;
    for (i = 0; i <= draw(5); i++) {
        uint32_t k = 6 + draw(draw(2) ? 30 : count);
        if (k < count) at[k] = draw(2) ? values[draw(8)] : draw(2) ? at[k] ^ 1u << draw(32) : draw(0);
    }
    memset(&info, FILL, sizeof info);
    status = one(a, words, 0, code, &pixels, &info, 0);
    feature(0x20000 + status);
    if (status != 0) look(is_filled((uint8_t *)&info, sizeof info) && is_filled(pixels.at, 4096), "a refused block changed a buffer");
    free_block(&pixels);
}

/* A block is refused by the calls for one character, for many and for a glyph's number, and nothing is changed. */
static void refused_block(const struct asked *a, const struct block *words, size_t count, const char *what) {
    struct mkstrike_glyph_info info;
    struct mkstrike_placed placed;
    struct mkstrike_drawn drawn;
    struct block pixels = block_of(99, 1, (int)draw(2)), cut = *words;
    const uint32_t code = 0x41, *block = (const uint32_t *)(const void *)words->at, mode = a->mode | a->packed;
    memset(&info, FILL, sizeof info);
    cut.len = count * 4;
    look(one(a, &cut, 0, code, &pixels, &info, 0) == MKSTRIKE_BAD_BLOCK, what);
    look(why.glyph == MKSTRIKE_NONE && why.code == MKSTRIKE_NONE, "fields of a refused block");
    look(is_filled((uint8_t *)&info, sizeof info) && is_filled(pixels.at, pixels.len), "a refused block changed a buffer");
    look(mkstrike_glyphs_prepared(a->font, a->font_len, a->face, a->ppem, mode, block, count, &code, 1, &placed, 1, NULL, 0, &drawn, NULL)
            == MKSTRIKE_BAD_BLOCK, what);
    look(one(a, &cut, 1, 3, &pixels, &info, 0) == MKSTRIKE_BAD_BLOCK, what);
    free_block(&pixels);
}

/* Blocks that are not the font's at this size, or not whole: each is refused, and so is one of whose first words one is another. */
static void other_blocks(const struct asked *a, struct block *words) {
    struct asked other = *a;
    size_t count = words->len / 4, told = count < 11 ? count : 11, k;
    uint32_t *at = (uint32_t *)(void *)words->at;
    struct block font = block_of(a->font_len + 1, 1, 1);
    for (k = 0; k < count; k += 1 + draw((uint32_t)count)) refused_block(a, words, k, "a block that is cut was taken");
    other.ppem = (uint16_t)(a->ppem == 1024 ? 7 : a->ppem + 1);
    refused_block(&other, words, count, "a block of another size was taken");
    other = *a;
    other.face = a->face + 1;
    refused_block(&other, words, count, "a block of another face was taken");
    other = *a;
    other.mode ^= MKSTRIKE_HINTED;
    refused_block(&other, words, count, "a block of another mode was taken");
    other = *a;
    memcpy(font.at, a->font, a->font_len);
    font.at[a->font_len] = 0;
    other.font = font.at;
    other.font_len = font.len;
    refused_block(&other, words, count, "a block of a longer font was taken");
    for (k = 0; k < told; k++) {
        uint32_t was = at[k], others[] = {was ^ 1, was + 1, ~was, 0xFFFFFFFF, 0, 0x80000000, was << 8};
        at[k] = others[draw(7)];
        if (at[k] != was) refused_block(a, words, count, "a block with another word was taken");
        at[k] = was;
    }
    free_block(&font);
}

static void blocks(const struct asked *a) {
    struct block none = block_of(0, 4, at_front), words;
    struct mkstrike_glyph_info info;
    size_t need = 1, again = 1, i;
    uint32_t status = prepare(a, &none, &need, 0);
    long n = requests;
    same_mode(a, status);
    look(status == 0 || need == 1, "a refusal changed the size of a block");
    look(status != 0 || need == 6 || (a->mode & MKSTRIKE_HINTED) != 0, "an unhinted block of another length");
    if (some_refused(n))
        for (n = first_refused; n <= last_refused; n++) {
            uint32_t second = prepare(a, &none, &again, n);
            look(second == MKSTRIKE_OUT_OF_MEMORY || second == status, "another answer to refused memory");
        }
    if (status == 0) {
        struct block cut = block_of(draw((uint32_t)need) * 4, 4, 0);
        words = block_of(need * 4, 4, (int)draw(2));
        look(prepare(a, &words, &again, 0) == 0 && again == need, "another block the second time");
        look(prepare(a, &cut, &again, 0) == 0 && again == need && memcmp(cut.at, words.at, cut.len) == 0, "another block in a small buffer");
        free_block(&cut);
        for (i = 0; i < a->chars_len; i++)
            if (draw(2) == 0) same_by_block(a, &words, 0, a->chars[i]);
        same_by_block(a, &words, 1, draw(4) ? draw(12) : draw(70000));
        many_by_block(a, &words);
        other_blocks(a, &words);
        if (a->chars_len > 0)
            for (i = 0; i < 4; i++) changed_block(a, &words, a->chars[draw(a->chars_len)]);
        free_block(&words);
    } else if (a->chars_len > 0 && is_mode(a->mode)) {
        memset(&info, FILL, sizeof info);
        look(one(a, &none, 0, a->chars[0], &none, &info, 0) == MKSTRIKE_BAD_BLOCK, "no words were taken for a block");
    }
    free_block(&none);
}

/* ---- an input */

/* A character by a byte of the input: odd numbers, ASCII, those of parts of real fonts, and those of the fonts of suite/. */
static uint32_t code_of(uint8_t byte) {
    static const uint32_t odd[] = {0x20, 0x41, 0x67, 0xE9, 0x25, 0x1EB4, 0x42, 0x21, 0xFFFFFFFF, 0x110000, 0x10FFFF, 0xFFFF};
    return byte < 12 ? odd[byte] : byte < 128 ? byte : byte < 208 ? odd[byte % 8] : UINT32_C(0xE000) + byte - 208;
}

int LLVMFuzzerTestOneInput(const uint8_t *input, size_t len);

int LLVMFuzzerTestOneInput(const uint8_t *input, size_t len) {
    static const uint16_t sizes[] = {16, 16, 16, 9, 12, 24, 33, 1, 0, 1024, 1025, 65535, 64, 8, 100, 7};
    static const uint32_t closed[] = {0, MKSTRIKE_DROPOUT, MKSTRIKE_DROPOUT_NEAR, MKSTRIKE_DROPOUT_FONT};
    const uint8_t *said = input + len - ASKED;
    struct mkstrike_font_info info;
    struct block font, chars;
    struct asked a;
    uint32_t i, status;
    if (len < ASKED) return 0;
    memcpy(&state, said, 4);
    state |= 1;
    at_front = said[6] & 1;
    a.ppem = said[4] & 1 ? sizes[said[4] >> 1 & 15] : (uint16_t)(1 + said[4] % 40);
    a.mode = closed[said[5] >> 1 & 3] | (said[5] & 1 ? MKSTRIKE_HINTED : 0);
    if (said[5] > 250) a.mode |= (UINT32_C(2) << draw(30)) & ~(MKSTRIKE_CAREFUL | MKSTRIKE_PACKED | MKSTRIKE_X11);
    a.packed = said[6] & 2 ? MKSTRIKE_PACKED : 0;
    a.x11 = said[6] & 16 ? MKSTRIKE_X11 : 0;
    a.face = said[22] % 8 == 0 ? said[22] / 8 : 0;
    a.chars_len = said[7] % MOST;
    chars = block_of(a.chars_len * sizeof(uint32_t), 4, said[6] & 4);
    for (i = 0; i < a.chars_len; i++)
        ((uint32_t *)(void *)chars.at)[i] = code_of(said[8 + i]);
    a.chars = (const uint32_t *)(const void *)chars.at;
    font = block_of(len - ASKED, 1, said[6] & 8);
    memcpy(font.at, input, font.len);
    mprotect(font.map + PAGE, font.pages * PAGE, PROT_READ);
    a.font = font.at;
    a.font_len = font.len;
    look(mkstrike_version() == MKSTRIKE_VERSION, "a library of another release");
    begin(0);
    status = mkstrike_font(a.font, a.font_len, a.face, a.ppem, &info, &why);
    status = ended(status, status != 0);
    look(requests == 0, "a font's heights take memory");
    characters(&a);
    name(&a);
    strike(&a, &info, status);
    many(&a);
    for (i = 0; i < 3; i++) outline(&a, draw(8) ? draw(12) : draw(70000));
    blocks(&a);
    free_block(&chars);
    munmap(font.map, (font.pages + 2) * PAGE);
    return 0;
}

#ifdef ALONE

int main(int argc, char **argv) {
    int i;
    for (i = 1; i < argc; i++) {
        FILE *file = fopen(argv[i], "rb");
        uint8_t *input;
        long len;
        look(file != NULL && fseek(file, 0, SEEK_END) == 0 && (len = ftell(file)) > 0, "no input");
        rewind(file);
        input = (uint8_t *)malloc((size_t)len);
        look(input != NULL && fread(input, 1, (size_t)len, file) == (size_t)len, "no input");
        fclose(file);
        LLVMFuzzerTestOneInput(input, (size_t)len);
        free(input);
    }
    return 0;
}

#else

/* ---- how inputs are changed: mostly within a table */

size_t LLVMFuzzerMutate(uint8_t *data, size_t len, size_t most);
size_t LLVMFuzzerCustomMutator(uint8_t *data, size_t len, size_t most, unsigned seed);

static uint32_t number(const uint8_t *at) { return (uint32_t)at[0] << 24 | (uint32_t)at[1] << 16 | (uint32_t)at[2] << 8 | at[3]; }

static void change_in_table(uint8_t *font, size_t len) {
    static const uint8_t values[] = {0, 0xFF, 0x7F, 0x80, 1, 2, 0x40, 0xFE};
    size_t at = 12 + 16 * (size_t)draw(font[5] < 1 || font[5] > 40 ? 1 : font[5]), start, room;
    if (at + 16 > len) return;
    start = number(font + at + 8);
    room = number(font + at + 12);
    if (start >= len || room == 0) start = 0, room = len;
    if (room > len - start) room = len - start;
    start += draw((uint32_t)room);
    switch (draw(4)) {
    case 0: font[start] = values[draw(8)]; break;
    case 1: font[start] ^= (uint8_t)(1 << draw(8)); break;
    case 2: font[start] = (uint8_t)draw(256); break;
    default: font[start] = (uint8_t)(font[start] + draw(7) - 3);
    }
}

size_t LLVMFuzzerCustomMutator(uint8_t *data, size_t len, size_t most, unsigned seed) {
    uint32_t before = state, i, how;
    state = seed | 1;
    how = draw(10);
    if (len < ASKED + 40 || how < 3) {
        len = LLVMFuzzerMutate(data, len, most);
    } else if (how < 4) {
        LLVMFuzzerMutate(data + len - ASKED, ASKED, ASKED);
    } else {
        for (i = 0; i <= draw(4); i++) change_in_table(data, len - ASKED);
        for (i = 0; i < 4; i++) data[len - ASKED + i] = (uint8_t)draw(256);
    }
    state = before;
    return len;
}

#endif

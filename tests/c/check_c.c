/* Calls the C library as test_library.py asks, in place of a program that uses it, with the heap of c/heap.c. The other calls test_library.py
 * makes itself (calls.py); what agrees from call to call, and what refused calls leave, tools/fuzz_c.c looks at.
 *
 *     check_c strike FONT PPEM MODE FIRST LAST      a strike, as `mkstrike make` writes it, with its line and its status
 *     check_c many FONT PPEM MODE FIRST LAST        these characters in one call, packed and not, against their strike
 *     check_c threads FONT                          eight threads at once
 *     check_c stack FONT KIB                        in a thread with a stack of that many KiB */
#define _POSIX_C_SOURCE 200112L
#include "mkstrike.h"
#include <pthread.h>
#include <stdio.h>
#include <stdlib.h>
#include <string.h>

/* The sizes of the structs where pointers have 64 bits: with another one this does not compile. */
typedef char sizes[sizeof(void *) != 8 || (sizeof(struct mkstrike_refused) == 40 && sizeof(struct mkstrike_font_info) == 16 &&
    sizeof(struct mkstrike_glyph_info) == 28 && sizeof(struct mkstrike_placed) == 40 && sizeof(struct mkstrike_drawn) == 24 &&
    sizeof(struct mkstrike_told) == 32 && sizeof(struct mkstrike_outline_point) == 12 && sizeof(struct mkstrike_outlined) == 24) ? 1 : -1];

/* ---- what is asked for */

struct request {
    const uint8_t *font;
    size_t font_len;
    uint16_t ppem;
    uint32_t mode;
    uint32_t *chars;
    size_t chars_len;
    uint32_t *block;
    size_t block_len;
};

/* A mode by the names of the header. Its letters are h for hinted; d, n or f for drop-out control: by left pixels, by the nearer
   ones, and as the font asks; c for bounded work; and x for the properties of X11. */
static uint32_t mode_of(const char *letters) {
    uint32_t mode = 0;
    for (; *letters != 0; letters++)
        mode |= *letters == 'h'   ? MKSTRIKE_HINTED
                : *letters == 'd' ? MKSTRIKE_DROPOUT
                : *letters == 'n' ? MKSTRIKE_DROPOUT_NEAR
                : *letters == 'c' ? MKSTRIKE_CAREFUL
                : *letters == 'x' ? MKSTRIKE_X11
                                  : MKSTRIKE_DROPOUT_FONT;
    return mode;
}

static void stop(const char *why) {
    printf("check_c: %s\n", why);
    exit(3);
}

static void *bytes(size_t n) {
    void *at = malloc(n ? n : 1);
    if (at == NULL) stop("out of memory");
    return at;
}

static struct request request_of(const char *name, int ppem, uint32_t mode, uint32_t first, uint32_t last) {
    struct request r;
    FILE *file = fopen(name, "rb");
    uint8_t *font;
    uint32_t i;
    if (file == NULL || fseek(file, 0, SEEK_END) != 0) stop("no font");
    r.font_len = (size_t)ftell(file);
    rewind(file);
    font = (uint8_t *)bytes(r.font_len);
    if (fread(font, 1, r.font_len, file) != r.font_len) stop("no font");
    fclose(file);
    r.font = font;
    r.ppem = (uint16_t)ppem;
    r.mode = mode;
    r.chars_len = last - first + 1;
    r.chars = (uint32_t *)bytes(r.chars_len * sizeof *r.chars);
    for (i = 0; i < r.chars_len; i++) r.chars[i] = first + i;
    r.block = NULL;
    r.block_len = 0;
    return r;
}

/* The font's block, for calls by it. */
static void prepare(struct request *r) {
    if (mkstrike_prepare(r->font, r->font_len, 0, r->ppem, r->mode, NULL, 0, &r->block_len, NULL) != 0) stop("no size of a block");
    r->block = (uint32_t *)bytes(r->block_len * sizeof *r->block);
    if (mkstrike_prepare(r->font, r->font_len, 0, r->ppem, r->mode, r->block, r->block_len, &r->block_len, NULL) != 0) stop("no block");
}

static uint32_t make(const struct request *r, uint8_t *out, size_t out_len, struct mkstrike_told *told, struct mkstrike_refused *refused) {
    return mkstrike_make(r->font, r->font_len, 0, r->ppem, r->mode, r->chars, r->chars_len, "mkstrike", 8, out, out_len, told, refused);
}

/* A strike's text in as many bytes as it has. */
static uint8_t *text_of(const struct request *r, size_t *len) {
    struct mkstrike_told told;
    struct mkstrike_refused refused;
    uint8_t none = 7, *text;
    if (make(r, &none, 0, &told, &refused) != 0 || none != 7) stop("no strike");
    *len = told.bytes;
    text = (uint8_t *)bytes(*len);
    if (make(r, text, *len, &told, &refused) != 0 || told.bytes != *len) stop("no strike the second time");
    return text;
}

/* ---- a strike */

static void put_program(uint32_t program) {
    if (program == MKSTRIKE_FPGM) fprintf(stderr, " fpgm");
    else if (program == MKSTRIKE_PREP) fprintf(stderr, " prep");
    else fprintf(stderr, " glyph %u", (unsigned)program);
}

/* The line that mkstrike writes of a refusal. */
static void put_refusal(const struct mkstrike_refused *it) {
    char name[21];
    size_t len = mkstrike_reason(it->number, name, sizeof name);
    int shift;
    if (len != strlen(name)) stop("a name of another length");
    fprintf(stderr, "mkstrike: %u %s", (unsigned)it->number, name);
    if (it->table != 0) {
        fputc(' ', stderr);
        for (shift = 24; shift >= 0; shift -= 8) fputc((int)(it->table >> shift & 255), stderr);
    }
    if (it->glyph != MKSTRIKE_NONE) fprintf(stderr, " %u", (unsigned)it->glyph);
    if (it->during != MKSTRIKE_NONE) {
        fprintf(stderr, " during");
        put_program(it->during);
        fprintf(stderr, " in");
        put_program(it->program);
        fprintf(stderr, " at %llu opcode %02X", (unsigned long long)it->address, (unsigned)it->opcode);
    }
    fputc('\n', stderr);
}

static int strike(const struct request *r) {
    struct mkstrike_told told, before;
    struct mkstrike_refused refused, kept;
    uint8_t none = 7, *text;
    uint32_t status;
    memset(&told, 1, sizeof told);
    memset(&refused, 2, sizeof refused);
    before = told;
    kept = refused;
    status = make(r, &none, 0, &told, &refused);
    if (none != 7) stop("a byte after no room was changed");
    if (status != 0) {
        if (memcmp(&told, &before, sizeof told) != 0) stop("a refusal changed what is told");
        if (refused.number != status) stop("two numbers of a refusal");
        put_refusal(&refused);
        return 1;
    }
    if (memcmp(&refused, &kept, sizeof refused) != 0) stop("a strike changed the refusal");
    text = (uint8_t *)bytes(told.bytes);
    if (make(r, text, told.bytes, &told, &refused) != 0) stop("refused the second time");
    fwrite(text, 1, told.bytes, stdout);
    fprintf(stderr, "mkstrike: glyphs %u missing %u strays %llu steps %llu\n", (unsigned)told.glyphs, (unsigned)told.missing,
        (unsigned long long)told.strays, (unsigned long long)told.steps);
    free(text);
    return 0;
}

/* ---- glyphs */

/* The lines of a glyph in a strike, from its numbers and packed pixels. */
static size_t lines_of(char *to, uint32_t code, const struct mkstrike_glyph_info *g, const uint8_t *pixels) {
    char *at = to;
    size_t i, j;
    at += sprintf(at, "STARTCHAR %s%04lX\nENCODING %lu\nSWIDTH %d 0\nDWIDTH %d 0\nBBX %u %u %d %d\nBITMAP\n", code > 0xFFFF ? "u" : "uni",
        (unsigned long)code, (unsigned long)code, (int)g->swidth, (int)g->dwidth, (unsigned)g->width, (unsigned)g->height, (int)g->left,
        (int)g->bottom);
    for (i = 0; i < g->height; i++) {
        for (j = 0; j < g->stride; j++) at += sprintf(at, "%02X", pixels[i * g->stride + j]);
        *at++ = '\n';
    }
    at += sprintf(at, "ENDCHAR\n");
    return (size_t)(at - to);
}

/* The bytes of pixels are the bits of packed ones. */
static void same_pixels(const struct mkstrike_glyph_info *g, const uint8_t *packed, const uint8_t *pixels) {
    size_t i, j;
    for (i = 0; i < g->height; i++)
        for (j = 0; j < g->width; j++)
            if (pixels[i * g->width + j] != ((packed[i * g->stride + j / 8] >> (7 - j % 8) & 1) ? 255 : 0)) stop("other pixels");
}

/* ---- many characters in one call */

/* What a call of mkstrike_glyphs gave, in buffers of their own sizes. */
struct many {
    const uint32_t *chars;
    size_t len;
    uint32_t packed; /* MKSTRIKE_PACKED or 0 */
    struct mkstrike_placed *glyphs;
    uint8_t *pixels;
    struct mkstrike_drawn drawn;
    struct mkstrike_refused refused;
};

static uint32_t call_many(const struct request *r, struct many *it, size_t glyphs_len, size_t pixels_len) {
    if (r->block != NULL)
        return mkstrike_glyphs_prepared(r->font, r->font_len, 0, r->ppem, r->mode | it->packed, r->block, r->block_len, it->chars, it->len,
            it->glyphs, glyphs_len, it->pixels, pixels_len, &it->drawn, &it->refused);
    return mkstrike_glyphs(r->font, r->font_len, 0, r->ppem, r->mode | it->packed, it->chars, it->len, it->glyphs, glyphs_len,
        it->pixels, pixels_len, &it->drawn, &it->refused);
}

/* These characters in one call; the status. The sizes are asked for first, with no room. */
static uint32_t many_of(const struct request *r, struct many *it) {
    struct mkstrike_placed no_entry;
    uint8_t no_pixel = 7;
    uint32_t status;
    memset(&no_entry, 7, sizeof no_entry);
    memset(&it->drawn, 7, sizeof it->drawn);
    memset(&it->refused, 7, sizeof it->refused);
    it->glyphs = &no_entry;
    it->pixels = &no_pixel;
    status = call_many(r, it, 0, 0);
    if (no_pixel != 7 || no_entry.status != 0x07070707) stop("a buffer without room was changed");
    if (status != 0) {
        if (it->drawn.glyphs != 0x07070707 || it->refused.number != status) stop("another refusal of many");
        it->glyphs = NULL;
        it->pixels = NULL;
        return status;
    }
    it->glyphs = (struct mkstrike_placed *)bytes(it->len * sizeof no_entry);
    it->pixels = (uint8_t *)bytes(it->drawn.bytes);
    memset(it->glyphs, 0, it->len * sizeof no_entry);
    memset(&it->refused, 7, sizeof it->refused);
    if (call_many(r, it, it->len, it->drawn.bytes) != 0) stop("no glyphs the second time");
    return 0;
}

/* In rising order, each once, they are the strike's, or it is refused as the first of them is. */
static void same_strike(const struct request *r, const struct many *it) {
    size_t len, at = 0, n, i;
    uint8_t *text;
    char *lines;
    if (it->drawn.refused != 0) {
        struct mkstrike_refused refused;
        if (make(r, NULL, 0, NULL, &refused) != it->refused.number) stop("another refusal of a strike");
        refused.index = it->refused.index;
        refused.code = it->refused.code;
        if (memcmp(&refused, &it->refused, sizeof refused) != 0) stop("other fields of a strike's refusal");
        return;
    }
    text = text_of(r, &len);
    lines = (char *)bytes(len + 300);
    while (at < len && memcmp(text + at, "STARTCHAR", 9) != 0 && memcmp(text + at, "ENDFONT", 7) != 0) at++;
    for (i = 0; i < it->len; i++) {
        const struct mkstrike_placed *entry = it->glyphs + i;
        if (entry->status != 0) continue;
        n = lines_of(lines, it->chars[i], &entry->glyph, it->pixels + entry->offset);
        if (len - at < n || memcmp(text + at, lines, n) != 0) stop("one of many that is not the strike's");
        at += n;
    }
    if (len - at != 8 || memcmp(text + at, "ENDFONT\n", 8) != 0) stop("many: glyphs of the strike are left");
    free(text);
    free(lines);
}

static void free_many(struct many *it) {
    free(it->glyphs);
    free(it->pixels);
}

static int many(const struct request *r) {
    struct many it, packed;
    struct mkstrike_refused refused;
    uint32_t status;
    size_t i;
    it.chars = r->chars;
    it.len = r->chars_len;
    it.packed = 0;
    packed = it;
    packed.packed = MKSTRIKE_PACKED;
    status = many_of(r, &it);
    if (many_of(r, &packed) != status) stop("another status packed");
    if (status == 0) {
        for (i = 0; i < it.len; i++)
            same_pixels(&packed.glyphs[i].glyph, packed.pixels + packed.glyphs[i].offset, it.pixels + it.glyphs[i].offset);
        same_strike(r, &packed);
    } else if (make(r, NULL, 0, NULL, &refused) != status || memcmp(&refused, &it.refused, sizeof refused) != 0) {
        stop("many refused for another reason than the strike");
    }
    printf("%u %lu %lu\n", (unsigned)status, status == 0 ? (unsigned long)it.drawn.glyphs : 0ul,
        status == 0 ? (unsigned long)it.drawn.refused : 0ul);
    free_many(&it);
    free_many(&packed);
    return 0;
}

/* ---- threads and the stack */

static struct request shared;
static uint8_t *shared_text;
static size_t shared_len;
static struct many shared_many;

static void *work(void *given) {
    uint8_t *mine = (uint8_t *)bytes(shared_len);
    struct mkstrike_told told;
    struct mkstrike_refused refused;
    struct many glyphs = shared_many;
    int i, rounds = *(int *)given;
    for (i = 0; i < rounds; i++) {
        memset(mine, 0, shared_len);
        if (make(&shared, mine, shared_len, &told, &refused) != 0 || told.bytes != shared_len) stop("no strike in a thread");
        if (memcmp(mine, shared_text, shared_len) != 0) stop("another strike in a thread");
        if (many_of(&shared, &glyphs) != 0 || glyphs.drawn.bytes != shared_many.drawn.bytes) stop("no glyphs in a thread");
        if (memcmp(glyphs.glyphs, shared_many.glyphs, glyphs.len * sizeof *glyphs.glyphs) != 0) stop("other entries in a thread");
        if (memcmp(glyphs.pixels, shared_many.pixels, glyphs.drawn.bytes) != 0) stop("other glyphs in a thread");
        free_many(&glyphs);
    }
    free(mine);
    return NULL;
}

static void run_threads(int count, int rounds, size_t stack) {
    pthread_t threads[8];
    pthread_attr_t attributes;
    int i;
    shared_text = text_of(&shared, &shared_len);
    shared_many.chars = shared.chars;
    shared_many.len = shared.chars_len;
    if (many_of(&shared, &shared_many) != 0) stop("no glyphs before the threads");
    prepare(&shared); /* and the threads draw by one block, which they share */
    pthread_attr_init(&attributes);
    if (stack != 0 && pthread_attr_setstacksize(&attributes, stack) != 0) stop("no thread with such a stack");
    for (i = 0; i < count; i++)
        if (pthread_create(&threads[i], &attributes, work, &rounds) != 0) stop("no thread");
    for (i = 0; i < count; i++) pthread_join(threads[i], NULL);
}

int main(int argc, char **argv) {
    const char *mode = argc > 1 ? argv[1] : "";
    if (argc == 7 && (strcmp(mode, "strike") == 0 || strcmp(mode, "many") == 0)) {
        shared = request_of(argv[2], atoi(argv[3]), mode_of(argv[4]), (uint32_t)strtoul(argv[5], NULL, 16),
            (uint32_t)strtoul(argv[6], NULL, 16));
        return strcmp(mode, "strike") == 0 ? strike(&shared) : many(&shared);
    }
    if (argc == 3 && strcmp(mode, "threads") == 0) {
        shared = request_of(argv[2], 16, MKSTRIKE_HINTED, 0x20, 0x7E);
        run_threads(8, 100, 0);
        return 0;
    }
    if (argc == 4 && strcmp(mode, "stack") == 0) {
        shared = request_of(argv[2], 100, MKSTRIKE_HINTED | MKSTRIKE_DROPOUT, 0x20, 0x17F);
        run_threads(1, 1, (size_t)atoi(argv[3]) << 10);
        return 0;
    }
    return 2;
}

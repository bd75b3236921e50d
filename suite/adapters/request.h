/* Reads the suite's requests and writes answers, for the adapters in C. A request is one line of JSON with known keys. */
#ifndef REQUEST_H
#define REQUEST_H
#include <stdio.h>
#include <stdlib.h>
#include <string.h>

enum dropout { DROPOUT_OFF, DROPOUT_LEFT, DROPOUT_NEAR, DROPOUT_FONT };

struct request {
    char id[256], font[1024];
    long ppem, face, glyph, code; /* glyph or code is -1 if the request does not have it */
    int hinted, bits;
    enum dropout dropout;
};

/* Says which version of the protocol the adapter speaks. Called once, before the first request. */
static void say_version(void) {
    printf("{\"protocol\": 2}\n");
    fflush(stdout);
}

/* The text after a key, or NULL. */
static const char *after_key(const char *line, const char *key) {
    char word[64];
    const char *found;
    snprintf(word, sizeof word, "\"%s\": ", key);
    found = strstr(line, word);
    return found ? found + strlen(word) : NULL;
}

static void text_of(const char *line, const char *key, char *out, size_t size) {
    const char *from = after_key(line, key), *end = from ? strchr(from + 1, '"') : NULL;
    size_t length = end ? (size_t)(end - from - 1) : 0;
    if (length >= size)
        length = size - 1;
    if (length)
        memcpy(out, from + 1, length);
    out[length] = 0;
}

static long number_of(const char *line, const char *key) {
    const char *from = after_key(line, key);
    return from ? strtol(from, NULL, 10) : -1;
}

static int is_true(const char *line, const char *key) {
    const char *from = after_key(line, key);
    return from && strncmp(from, "true", 4) == 0;
}

static enum dropout dropout_of(const char *line) {
    char word[16];
    text_of(line, "dropout", word, sizeof word);
    if (strncmp(after_key(line, "dropout"), "\"", 1) != 0)
        return DROPOUT_OFF;
    return strcmp(word, "left") == 0 ? DROPOUT_LEFT : strcmp(word, "near") == 0 ? DROPOUT_NEAR : DROPOUT_FONT;
}

/* Reads the next request; 0 at the end. */
static int next_request(struct request *r) {
    static char line[8192];
    if (!fgets(line, sizeof line, stdin))
        return 0;
    text_of(line, "id", r->id, sizeof r->id);
    text_of(line, "font", r->font, sizeof r->font);
    r->ppem = number_of(line, "ppem");
    r->face = number_of(line, "face");
    if (r->face < 0)
        r->face = 0;
    r->glyph = number_of(line, "glyph");
    r->code = number_of(line, "char");
    r->hinted = is_true(line, "hinted");
    r->dropout = dropout_of(line);
    r->bits = strstr(line, "\"bits\"") != NULL;
    return 1;
}

/* Writes the box and the rows of the set pixels of a bitmap, one byte a pixel, whose upper left pixel is in column `left`, row `top`. */
static void write_bits(const unsigned char *pixels, int width, int height, int left, int top) {
    int x0 = width, x1 = -1, y0 = height, y1 = -1, x, y, k;
    for (y = 0; y < height; y++)
        for (x = 0; x < width; x++)
            if (pixels[(size_t)y * width + x]) {
                x0 = x < x0 ? x : x0, x1 = x > x1 ? x : x1;
                y0 = y < y0 ? y : y0, y1 = y > y1 ? y : y1;
            }
    if (x1 < 0) {
        printf("\"bits\": {\"box\": [0, 0, 0, 0], \"rows\": []}");
        return;
    }
    printf("\"bits\": {\"box\": [%d, %d, %d, %d], \"rows\": [", x1 - x0 + 1, y1 - y0 + 1, left + x0, top - y1);
    for (y = y0; y <= y1; y++) {
        printf(y > y0 ? ", \"" : "\"");
        for (x = x0; x <= x1; x += 8) {
            unsigned byte = 0;
            for (k = 0; k < 8; k++)
                byte = byte << 1 | (x + k <= x1 && pixels[(size_t)y * width + x + k]);
            printf("%02X", byte);
        }
        printf("\"");
    }
    printf("]}");
}
#endif

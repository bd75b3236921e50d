/* check_c_memory FONT PPEM FIRST LAST FROM TO STEP: makes a hinted strike in blocks of FROM to TO bytes. Once a block is large enough each
 * larger one is, and gives the same text. Prints the least that is enough, and how many blocks were tried. test_library.py builds and runs it,
 * with c/arena.c for the memory of the library. */
#include "arena.h"
#include "mkstrike.h"
#include <stdio.h>
#include <stdlib.h>
#include <string.h>

enum { MOST_FONT = 8 << 20, MOST_TEXT = 64 << 20, MOST_CHARS = 65536 };

static size_t number(const char *text, int base) { return (size_t)strtoul(text, NULL, base); }

int main(int argc, char **argv) {
    uint8_t *font = (uint8_t *)malloc(MOST_FONT), *text = (uint8_t *)malloc(MOST_TEXT), *due = (uint8_t *)malloc(MOST_TEXT), *block;
    uint32_t *chars = (uint32_t *)malloc(MOST_CHARS * sizeof *chars);
    FILE *file = argc == 8 ? fopen(argv[1], "rb") : NULL;
    struct mkstrike_told told, first;
    size_t len, count = 0, size, to, step, least = 0, tried = 0;
    if (file == NULL || font == NULL || text == NULL || due == NULL || chars == NULL) return 2;
    len = fread(font, 1, MOST_FONT, file);
    fclose(file);
    for (size = number(argv[3], 16); size <= number(argv[4], 16) && count < MOST_CHARS; size++) chars[count++] = (uint32_t)size;
    to = number(argv[6], 10), step = number(argv[7], 10);
    block = (uint8_t *)malloc(to);
    if (block == NULL || step == 0) return 2;
    for (size = number(argv[5], 10); size <= to; size += step, tried++) {
        uint32_t status;
        mkstrike_arena(block, size);
        status = mkstrike_make(font, len, 0, (uint16_t)number(argv[2], 10), MKSTRIKE_HINTED, chars, count, "strike", 6, text, MOST_TEXT, &told, NULL);
        if (status == MKSTRIKE_DONE && least == 0) {
            least = size;
            first = told;
            memcpy(due, text, told.bytes);
        }
        if (status != (least == 0 ? MKSTRIKE_OUT_OF_MEMORY : MKSTRIKE_DONE)) {
            printf("%lu bytes are enough, and %lu give %u\n", (unsigned long)least, (unsigned long)size, (unsigned)status);
            return 1;
        }
        if (least != 0 && (told.bytes != first.bytes || memcmp(text, due, told.bytes) != 0)) {
            printf("another text in %lu bytes\n", (unsigned long)size);
            return 1;
        }
    }
    printf("%lu %lu\n", (unsigned long)least, (unsigned long)tried);
    return 0;
}

/* A program without a C library, for x86-64 Linux: the font FONT is a part of it, its memory is one block, and the strike of ASCII at 16
 * pixels goes to standard output by bare calls of the system. First it looks at the functions of c/arena.c that stand for those of a C
 * library; if one is wrong, its status is 3, 4 or 5. test_library.py builds and runs it. */
#include "arena.h"
#include "mkstrike.h"

extern const uint8_t font[], font_end[];

__asm__(".section .rodata\n.global font, font_end\nfont: .incbin \"" FONT "\"\nfont_end:\n.text\n"
        ".global _start\n_start: and $-16, %rsp\ncall work\nmov %eax, %edi\nmov $60, %eax\nsyscall\n");

static uint8_t block[192 << 10], text[64 << 10];

int work(void);
void *memcpy(void *to, const void *from, size_t n);
void *memmove(void *to, const void *from, size_t n);
void *memset(void *to, int byte, size_t n);

enum { AREA = 96 };

/* Called by addresses that the compiler can't see through, so that it puts no code of its own in their place. */
static void *(*volatile copy)(void *, const void *, size_t) = memcpy;
static void *(*volatile move)(void *, const void *, size_t) = memmove;
static void *(*volatile set)(void *, int, size_t) = memset;

/* Whether an area is as a call has to leave it that put `n` bytes to `to`: those that were at `from` before, each its place and 128. */
static int is_moved(const uint8_t *area, size_t to, size_t from, size_t n) {
    size_t i;
    for (i = 0; i < AREA; i++)
        if (area[i] != (uint8_t)((i >= to && i < to + n ? from + (i - to) : i) | 128)) return 0;
    return 1;
}

/* Areas that overlap either way, meet, are one, or lie apart. */
static int moves_well(void) {
    uint8_t area[AREA];
    size_t to, from, n, i;
    for (n = 0; n <= 32; n += 1 + n / 4)
        for (to = 0; to <= 64; to++)
            for (from = 0; from <= 64; from++) {
                int apart = from + n <= to || to + n <= from;
                for (i = 0; i < AREA; i++) area[i] = (uint8_t)(i | 128);
                if (move(area + to, area + from, n) != area + to || !is_moved(area, to, from, n)) return 3;
                for (i = 0; i < AREA; i++) area[i] = (uint8_t)(i | 128);
                if (apart && (copy(area + to, area + from, n) != area + to || !is_moved(area, to, from, n))) return 4;
            }
    return 0;
}

/* Every byte, also as a number beyond a byte, of which the lowest eight bits count. */
static int sets_well(void) {
    uint8_t area[AREA];
    size_t at, n, i;
    int byte;
    for (byte = -128; byte < 512; byte++)
        for (n = 0; n < 40; n += 13)
            for (at = 0; at < 3; at++) {
                for (i = 0; i < AREA; i++) area[i] = 77;
                if (set(area + at, byte, n) != area + at) return 5;
                for (i = 0; i < AREA; i++)
                    if (area[i] != (i >= at && i < at + n ? (uint8_t)byte : 77)) return 5;
            }
    return 0;
}

__attribute__((used)) int work(void) {
    uint32_t chars[95], i, status;
    struct mkstrike_told told;
    struct mkstrike_refused refused;
    long done;
    if (moves_well() != 0) return moves_well();
    if (sets_well() != 0) return sets_well();
    for (i = 0; i < 95; i++) chars[i] = 0x20 + i;
    mkstrike_arena(block, sizeof block);
    status = mkstrike_make(font, (size_t)(font_end - font), 0, 16, MKSTRIKE_HINTED, chars, 95, "mkstrike", 8, text, sizeof text, &told, &refused);
    if (status != 0) return (int)status;
    if (told.bytes > sizeof text) return 1;
    __asm__ volatile("syscall" : "=a"(done) : "0"(1L), "D"(1L), "S"(text), "d"(told.bytes) : "rcx", "r11", "memory");
    return done != (long)told.bytes;
}

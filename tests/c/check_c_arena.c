/* Looks at c/arena.c by calls of its own, as the library makes them and in odder ways: each piece of memory lies inside the block, apart
 * from the others and aligned; what surrounds the block is kept; the counts are exact; nothing of an earlier block is handed out; a refusal
 * says so and changes nothing. test_library.py builds and runs it. It names the first thing that is wrong, and ends with status 1. */
#include "arena.h"
#include "direct.h"

enum { ROOM = 1 << 16, MOST = 4096, AROUND = 0xA5 };

static unsigned char *room;

static unsigned char *must(size_t size) {
    struct given it = rattle_alloc(size, 16);
    look(is_given(it), "a request refused that there is room for");
    return (unsigned char *)it.at;
}

static void must_not(size_t size, const char *what) { look(!is_given(rattle_alloc(size, 16)), what); }

static size_t size_of(size_t n) { return (n * 37) % 200; }

/* A new block of this size at this place of the room, around which all bytes are known. */
static unsigned char *block_at(size_t at, size_t size) {
    memset(room, AROUND, ROOM);
    mkstrike_arena(room + at, size);
    look(mkstrike_arena_used() == 0, "bytes in use of a new block");
    return room + at;
}

/* Fills a block with pieces of many sizes, gives all back, and takes them again. */
static void fill(size_t at, size_t size) {
    static unsigned char *got[MOST];
    size_t i, n, used;
    unsigned char *block = block_at(at, size);
    for (n = 0;; n++) {
        struct given answer = rattle_alloc(size_of(n), 16);
        unsigned char *it = (unsigned char *)answer.at;
        if (!is_given(answer)) break;
        look(it >= block && it + size_of(n) <= block + size, "a piece that is not inside the block");
        memset(it, (int)(n & 127), size_of(n));
        got[n] = it;
    }
    used = mkstrike_arena_used();
    look(used <= size && (size < 64 || (n > 0 && used + 512 > size)), "the block is not used to its end");
    for (i = 0; i < n; i++) look(all_are(got[i], size_of(i), (int)(i & 127)), "a piece that another one changed");
    look(all_are(room, at, AROUND) && all_are(block + size, ROOM - at - size, AROUND), "a byte outside the block was changed");
    for (i = 0; i < n; i++) rattle_dealloc(got[i]);
    for (i = 0; i < n; i++) memset(got[i] = must(size_of(i)), (int)(i & 127), size_of(i));
    look(mkstrike_arena_used() == used, "what was given back does not serve again");
    for (i = 0; i < n; i++) look(all_are(got[i], size_of(i), (int)(i & 127)), "a piece that was handed out twice");
}

/* Blocks that a request takes whole, and a byte less; the bytes in use, one by one. */
static void exact(void) {
    (void)block_at(0, 64);
    (void)must(48);
    look(mkstrike_arena_used() == 64, "bytes in use of a whole block");
    must_not(1, "a request beyond the block");
    (void)block_at(0, 63);
    must_not(48, "a request that is a byte too large");
    (void)must(16);
    look(mkstrike_arena_used() == 32, "bytes in use of half a block");
    (void)block_at(0, 32 + 64 + 64 + 128);
    (void)must(16), (void)must(17), (void)must(48), (void)must(49);
    look(mkstrike_arena_used() == 32 + 64 + 64 + 128, "bytes in use of four pieces");
    must_not(0, "a request of nothing beyond the block");
}

/* A second block: the first one is the caller's again. */
static void second_block(void) {
    unsigned char *it;
    mkstrike_arena(room + 1024, 4096);
    it = must(48);
    rattle_dealloc(it);
    (void)must(100);
    memset(room, AROUND, ROOM);
    mkstrike_arena(room + 8192, 4096);
    look(mkstrike_arena_used() == 0, "bytes in use of a second block");
    it = must(48);
    look(it >= room + 8192 && it + 48 <= room + 8192 + 4096, "memory of the first block");
    memset(it, 7, 48);
    look(all_are(room, 8192, AROUND), "a byte of the first block was changed");
}

/* A piece grows byte by byte: what it holds is kept, others are not touched, and no more than its sizes are taken. */
static void grow(void) {
    unsigned char *it = must(16), *other;
    size_t n;
    for (n = 16; n < 5000; n++) {
        struct given more;
        memset(it, (int)(n & 255), n);
        other = must(1);
        *other = 0x77;
        more = rattle_realloc(it, n, n + 1, 16);
        look(more.ok == 1 && more.at != NULL, "a piece that does not grow");
        it = (unsigned char *)more.at;
        it[n] = 0x33;
        look(all_are(it, n, (int)(n & 255)), "growing lost what was there");
        look(*other == 0x77, "growing changed another piece");
        rattle_dealloc(other);
    }
    look(mkstrike_arena_used() <= 32 + 32 + 64 + 128 + 256 + 512 + 1024 + 2048 + 4096 + 8192, "growing took too much");
    rattle_dealloc(it);
}

/* A piece that can't grow stays as it is; one that has room already stays where it is, and so does one that gets smaller. */
static void grow_in_vain(void) {
    unsigned char *it;
    struct given more;
    (void)block_at(0, 128 + 64);
    it = must(100);
    memset(it, 9, 100);
    more = rattle_realloc(it, 100, 113, 16);
    look(more.ok == 0 && more.at != NULL && all_are(it, 100, 9), "a piece that can't grow");
    must_not(100, "a piece that can't grow was handed out again");
    more = rattle_realloc(it, 100, 112, 16);
    look(more.ok == 1 && more.at == it, "a piece that has room to grow");
    more = rattle_realloc(it, 112, 3, 16);
    look(more.ok == 1 && more.at == it && mkstrike_arena_used() == 128, "a piece that gets smaller");
    memset(it, 5, 112);
    (void)must(48);
    look(all_are(it, 112, 5) && all_are(room + 192, ROOM - 192, AROUND), "a piece beside one that could not grow");
    rattle_dealloc(it);
    look(must(112) == it, "a piece that was given back");
}

/* Once all pieces are given back the block is whole again, and serves pieces of other sizes; the most that was in use is remembered. */
static void whole_again(void) {
    unsigned char *block = block_at(16, 4096), *it[128];
    size_t i, round;
    for (round = 0; round < 3; round++) {
        for (i = 0; i < 128; i++) it[i] = must(16);
        must_not(1, "a request beyond a block of small pieces");
        for (i = 0; i < 127; i++) rattle_dealloc(it[i]);
        must_not(17, "a large piece where a small one is in use");
        rattle_dealloc(it[127]);
        it[0] = must(4096 - 16);
        look(it[0] == block + 16, "a block that is whole is not used from its start");
        memset(it[0], 3, 4096 - 16);
        must_not(1, "a request beyond a whole block");
        rattle_dealloc(it[0]);
        look(mkstrike_arena_used() == 4096, "the most bytes that were in use");
    }
    look(all_are(room, 16, AROUND) && all_are(block + 4096, ROOM - 16 - 4096, AROUND), "a byte outside the block was changed");
    (void)must(16);
    look(mkstrike_arena_used() == 4096, "the most bytes are forgotten");
}

static void huge(void) {
    static const int bits[] = {17, 31, 32, 38, 39, 40, 45, 62, 63};
    size_t i, k;
    mkstrike_arena(room, ROOM);
    for (i = 0; i < sizeof bits / sizeof *bits; i++)
        for (k = 0; k < 64; k++) must_not(((size_t)1 << bits[i]) - k, "a huge request");
    for (k = 1; k < 64; k++) must_not((size_t)0 - k, "a request of all bytes that there can be");
    look(mkstrike_arena_used() == 0, "bytes in use after huge requests");
}

/* One piece of 16 MiB, and one of 100 MiB: a strike's text is one piece, and may be as large. */
static void large(void) {
    static const size_t sizes[] = {(size_t)16 << 20, (size_t)100 << 20};
    size_t i;
    for (i = 0; i < sizeof sizes / sizeof *sizes; i++) {
        size_t whole = 2 * sizes[i] + 64;
        unsigned char *own = (unsigned char *)malloc(whole), *it;
        if (own == NULL) continue; /* a machine with little memory */
        mkstrike_arena(own, whole);
        it = must(sizes[i]);
        it[0] = it[sizes[i] - 1] = 1;
        rattle_dealloc(it);
        free(own);
    }
}

int main(void) {
    size_t at, size;
    room = (unsigned char *)malloc(ROOM);
    look(room != NULL, "no room to look at");
    must_not(1, "memory without a block");
    for (at = 32; at < 64; at++)
        for (size = 0; size < 300; size += 1 + (at & 1)) fill(at, size);
    for (at = 32; at < 64; at++) fill(at, 9000 + at);
    exact();
    second_block();
    mkstrike_arena(room, ROOM);
    grow();
    size = mkstrike_arena_used();
    grow();
    look(mkstrike_arena_used() == size, "what a growing piece left does not serve again");
    grow_in_vain();
    whole_again();
    huge();
    large();
    free(room);
    return 0;
}

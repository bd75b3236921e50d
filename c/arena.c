/* The memory of libmkstrike_c.a from one block of the caller's, without a C library. Link calls.c, and one of the two: this file or heap.c.
 *
 * Pieces are powers of two, with a list of free ones for each size, so that each request takes a bounded number of steps. Once the last
 * piece is given back, as at the end of each call, the block is whole again. For one thread at a time. With -DMKSTRIKE_BARE it has memcpy,
 * memmove and memset too, which compilers call and a machine without a C library lacks. */
#include "arena.h"
#include <stdint.h>

/* Whether memory was given, and where it is: a bool and a pointer, each in a register of its own. */
struct given {
    size_t ok;
    void *at;
};

/* The head of a piece: its size as a power of two, and the next free one of that size. */
union head {
    struct {
        size_t log;
        union head *next;
    } is;
    unsigned char room[16];
};

enum { LEAST = 5, SIZES = 40 };

static unsigned char nothing[16];
static unsigned char *block;
static size_t block_size, used, most, live; /* bytes handed out at once, the most so far, and pieces not given back */
static union head *freed[SIZES];

#ifdef __cplusplus
extern "C" {
#endif
struct given rattle_alloc(size_t size, size_t align);
struct given rattle_realloc(void *at, size_t kept, size_t size, size_t align);
void rattle_dealloc(void *at);
#ifdef __cplusplus
}
#endif

/* Makes the block whole: no piece of it is in use. */
static void begin(void) {
    size_t i;
    used = 0;
    for (i = 0; i < SIZES; i++) freed[i] = NULL;
}

void mkstrike_arena(void *at, size_t size) {
    size_t skip = (size_t)(-(uintptr_t)at & 15);
    block = (unsigned char *)at + (skip < size ? skip : size);
    block_size = skip < size ? size - skip : 0;
    most = live = 0;
    begin();
}

size_t mkstrike_arena_used(void) { return most; }

static struct given given(union head *it) {
    struct given answer;
    answer.ok = it != NULL;
    answer.at = it != NULL ? (void *)(it + 1) : (void *)nothing;
    return answer;
}

struct given rattle_alloc(size_t size, size_t align) {
    size_t log = LEAST;
    union head *it;
    (void)align; /* at most 16, as all blocks are aligned */
    if (size > ((size_t)1 << (SIZES - 1)) - sizeof *it) return given(NULL);
    while (((size_t)1 << log) < size + sizeof *it) log++;
    it = freed[log];
    if (it != NULL) {
        freed[log] = it->is.next;
        live++;
        return given(it);
    }
    if (((size_t)1 << log) > block_size - used) return given(NULL);
    it = (union head *)(void *)(block + used);
    used += (size_t)1 << log;
    if (used > most) most = used;
    live++;
    it->is.log = log;
    return given(it);
}

void rattle_dealloc(void *at) {
    union head *it = (union head *)at - 1;
    it->is.next = freed[it->is.log];
    freed[it->is.log] = it;
    if (--live == 0) begin();
}

struct given rattle_realloc(void *at, size_t kept, size_t size, size_t align) {
    union head *it = (union head *)at - 1;
    struct given answer;
    size_t i;
    if (size <= ((size_t)1 << it->is.log) - sizeof *it) return given(it);
    answer = rattle_alloc(size, align);
    if (answer.ok) {
        for (i = 0; i < kept; i++) ((unsigned char *)answer.at)[i] = ((unsigned char *)at)[i];
        rattle_dealloc(at);
    }
    return answer;
}

#ifdef MKSTRIKE_BARE
/* `volatile` keeps the compiler from making a call of the same function of the loop. */
#ifdef __cplusplus
extern "C" {
#endif
void *memcpy(void *to, const void *from, size_t n);
void *memmove(void *to, const void *from, size_t n);
void *memset(void *to, int byte, size_t n);
#ifdef __cplusplus
}
#endif

void *memcpy(void *to, const void *from, size_t n) { return memmove(to, from, n); }

void *memmove(void *to, const void *from, size_t n) {
    volatile unsigned char *t = (volatile unsigned char *)to;
    const unsigned char *f = (const unsigned char *)from;
    size_t i;
    if ((uintptr_t)to < (uintptr_t)from) {
        for (i = 0; i < n; i++) t[i] = f[i];
    } else {
        while (n-- > 0) t[n] = f[n];
    }
    return to;
}

void *memset(void *to, int byte, size_t n) {
    volatile unsigned char *t = (volatile unsigned char *)to;
    size_t i;
    for (i = 0; i < n; i++) t[i] = (unsigned char)byte;
    return to;
}
#endif

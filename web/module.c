/* What a WebAssembly module needs beside the bitcode of mkstrike_c or mkstrike, since it has no C library: memory for that code and for the
 * script, memcpy and its kin, and products and shifts of 128 bits. No proof covers this file. For one thread.
 *
 * Blocks of memory are powers of two, with a list of free ones for each size. The module's memory grows when no free block is large
 * enough, and never shrinks: a page that wants it back makes a new instance. */
#include <stddef.h>
#include <stdint.h>

_Static_assert(sizeof(size_t) == 8, "for WebAssembly with addresses of 64 bits: tools/web_memory32.py makes the memory 32-bit");

/* Whether memory was given, and where it is. */
struct given {
    size_t ok;
    unsigned char *at;
};

/* The head of a block: its size as a power of two, and the next free one of that size. */
struct head {
    size_t log;
    struct head *next;
};

enum { LEAST = 5, MOST = 40, PAGE = 16 };

extern unsigned char __heap_base;
static unsigned char *top;
static struct head *freed[MOST + 1];
static unsigned char nothing[16] __attribute__((aligned(16)));

void *memset(void *to, int byte, size_t n) { return __builtin_memset(to, byte, n); }
void *memcpy(void *to, const void *from, size_t n) { return __builtin_memcpy(to, from, n); }
void *memmove(void *to, const void *from, size_t n) { return __builtin_memmove(to, from, n); }

int memcmp(const void *one, const void *other, size_t n) {
    const unsigned char *a = one, *b = other;
    for (size_t i = 0; i < n; i++)
        if (a[i] != b[i]) return a[i] - b[i];
    return 0;
}

/* A new block at the end of the memory, which grows if it must. */
static struct head *new_block(size_t log) {
    size_t size = (size_t)1 << log;
    if (!top) top = (unsigned char *)(((size_t)&__heap_base + 15) & ~(size_t)15);
    size_t end = (size_t)top + size, have = __builtin_wasm_memory_size(0) << PAGE;
    size_t pages = end > have ? (end - have + ((size_t)1 << PAGE) - 1) >> PAGE : 0;
    if (pages && __builtin_wasm_memory_grow(0, pages) == (size_t)-1) return NULL;
    struct head *made = (struct head *)top;
    top += size;
    made->log = log;
    return made;
}

/* The alignment asked for is at most 16, which each block has. */
struct given rattle_alloc(size_t size, size_t align) {
    (void)align;
    if (size > (size_t)1 << (MOST - 1)) return (struct given){0, nothing};
    size_t log = LEAST;
    while ((size_t)1 << log < size + sizeof(struct head)) log++;
    struct head *it = freed[log];
    if (it) freed[log] = it->next;
    else it = new_block(log);
    if (!it) return (struct given){0, nothing};
    return (struct given){1, (unsigned char *)(it + 1)};
}

void rattle_dealloc(unsigned char *at) {
    struct head *it = (struct head *)at - 1;
    it->next = freed[it->log];
    freed[it->log] = it;
}

struct given rattle_realloc(unsigned char *at, size_t kept, size_t size, size_t align) {
    struct head *it = (struct head *)at - 1;
    if (size <= ((size_t)1 << it->log) - sizeof(struct head)) return (struct given){1, at};
    struct given got = rattle_alloc(size, align);
    if (got.ok) {
        __builtin_memcpy(got.at, at, kept);
        rattle_dealloc(at);
    }
    return got;
}

/* Memory for what the script hands to a call and takes from it: its address, or 0 if there is none. */
__attribute__((export_name("page_alloc"))) unsigned char *page_alloc(size_t size) {
    struct given got = rattle_alloc(size, 16);
    return got.ok ? got.at : NULL;
}

__attribute__((export_name("page_free"))) void page_free(unsigned char *at) { rattle_dealloc(at); }

/* What the program asks about the processor: it has all that there is to have. */
const unsigned char *__x86_get_cpuid_feature_leaf(unsigned leaf);
const unsigned char *__x86_get_cpuid_feature_leaf(unsigned leaf) {
    static unsigned char all[64] __attribute__((aligned(16)));
    (void)leaf;
    __builtin_memset(all, 255, sizeof all);
    return all;
}

/* Numbers of 128 bits, as two halves. */
typedef union {
    __int128 all;
    struct {
        uint64_t low, high;
    } half;
} wide;

__int128 __multi3(__int128 a, __int128 b) {
    wide x = {a}, y = {b}, r;
    uint64_t xl = x.half.low & 0xffffffff, xh = x.half.low >> 32, yl = y.half.low & 0xffffffff, yh = y.half.low >> 32;
    uint64_t ll = xl * yl, lh = xl * yh, hl = xh * yl, middle = (ll >> 32) + (lh & 0xffffffff) + (hl & 0xffffffff);
    r.half.low = (middle << 32) | (ll & 0xffffffff);
    r.half.high = xh * yh + (lh >> 32) + (hl >> 32) + (middle >> 32) + x.half.low * y.half.high + x.half.high * y.half.low;
    return r.all;
}

/* Shifts are by 0 to 127. */
__int128 __ashlti3(__int128 a, int by) {
    wide x = {a}, r = {a};
    if (by >= 64) {
        r.half.low = 0;
        r.half.high = x.half.low << (by - 64);
    } else if (by) {
        r.half.low = x.half.low << by;
        r.half.high = x.half.high << by | x.half.low >> (64 - by);
    }
    return r.all;
}

/* A shift to the right, which fills up with `sign`, 0 or all ones. */
static __int128 shifted(__int128 a, int by, uint64_t sign) {
    wide x = {a}, r = {a};
    if (by >= 64) {
        r.half.high = sign;
        r.half.low = by == 64 ? x.half.high : x.half.high >> (by - 64) | sign << (128 - by);
    } else if (by) {
        r.half.high = x.half.high >> by | sign << (64 - by);
        r.half.low = x.half.low >> by | x.half.high << (64 - by);
    }
    return r.all;
}

__int128 __lshrti3(__int128 a, int by) { return shifted(a, by, 0); }

__int128 __ashrti3(__int128 a, int by) {
    wide x = {a};
    return shifted(a, by, x.half.high >> 63 ? ~(uint64_t)0 : 0);
}

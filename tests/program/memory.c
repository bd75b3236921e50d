/* Preloaded before a program: counts the memory that it takes and its calls that read, and refuses requests for memory. test_work.py and
   test_memory.py build and use this.

   COUNT_TO=FD       at the end a line goes to this open file: the bytes that were not given back, the most bytes at a time, and the
                     number of calls that read
   REFUSE_AT=N       the request that is refused, counted from 1; 0: none
   REFUSE_ON=1       all after it are refused too
   REFUSE_FROM=N     all for N bytes or more are refused, whatever their number; 0: none
   REFUSE_MARK=FD    at the first refusal the byte `R` is written to this open file

   Requests are the calls of malloc, calloc, realloc, reallocarray, memalign and their kin that ask for bytes, and anonymous mappings, which are
   not counted. Bytes are those that the C library sets aside for a request, a few more than were asked for. */

#define _GNU_SOURCE
#include <errno.h>
#include <malloc.h>
#include <stddef.h>
#include <stdint.h>
#include <stdio.h>
#include <sys/mman.h>
#include <sys/syscall.h>
#include <sys/types.h>
#include <unistd.h>

extern void *__libc_malloc(size_t);
extern void *__libc_calloc(size_t, size_t);
extern void *__libc_realloc(void *, size_t);
extern void *__libc_memalign(size_t, size_t);
extern void __libc_free(void *);
extern char **environ;

static long at, count, from, out, most, reads;
static int on, mark, told, ready;

static long number_of(const char *name) {
    for (char **entry = environ; entry != NULL && *entry != NULL; entry++) {
        const char *have = *entry, *want = name;
        while (*want != 0 && *have == *want) have++, want++;
        if (*want != 0 || *have != '=') continue;
        long value = 0;
        for (have++; *have >= '0' && *have <= '9'; have++) value = 10 * value + (*have - '0');
        return value;
    }
    return 0;
}

/* What the C library asks for before the program begins, and at its end, is not the program's. */
__attribute__((constructor)) static void begin(void) {
    at = number_of("REFUSE_AT");
    from = number_of("REFUSE_FROM");
    on = number_of("REFUSE_ON") != 0;
    mark = (int)number_of("REFUSE_MARK");
    told = (int)number_of("COUNT_TO");
    ready = 1;
}

__attribute__((destructor)) static void end(void) {
    char line[120];
    ready = 0;
    if (told > 0) syscall(SYS_write, told, line, snprintf(line, sizeof line, "%ld %ld %ld\n", out, most, reads));
}

static int is_refused(size_t size) {
    if (!ready || (at == 0 && from == 0)) return 0;
    long n = __atomic_add_fetch(&count, 1, __ATOMIC_RELAXED);
    int large = from != 0 && size >= (size_t)from;
    if (n != at && !(on && n > at) && !large) return 0;
    if ((n == at || large) && mark > 0) syscall(SYS_write, mark, "R", 1);
    errno = ENOMEM;
    return 1;
}

static long size_of(void *it) { return it != NULL ? (long)malloc_usable_size(it) : 0; }

/* Counts a piece that was given, in place of one of `before` bytes. */
static void *given(void *it, long before) {
    if (ready) {
        long now = __atomic_add_fetch(&out, size_of(it) - before, __ATOMIC_RELAXED);
        if (now > most) most = now;
    }
    return it;
}

void *malloc(size_t size) { return is_refused(size) ? NULL : given(__libc_malloc(size), 0); }
void *calloc(size_t n, size_t size) { return is_refused(n * size) ? NULL : given(__libc_calloc(n, size), 0); }
void *memalign(size_t align, size_t size) { return is_refused(size) ? NULL : given(__libc_memalign(align, size), 0); }
void *aligned_alloc(size_t align, size_t size) { return memalign(align, size); }

void *realloc(void *old, size_t size) {
    long before = size_of(old);
    void *it = size != 0 && is_refused(size) ? NULL : __libc_realloc(old, size);
    return it != NULL || size == 0 ? given(it, before) : NULL;
}

void *reallocarray(void *old, size_t n, size_t size) {
    size_t bytes;
    if (!__builtin_mul_overflow(n, size, &bytes)) return realloc(old, bytes);
    errno = ENOMEM;
    return NULL;
}

int posix_memalign(void **to, size_t align, size_t size) {
    void *got = memalign(align, size);
    if (got == NULL) return ENOMEM;
    *to = got;
    return 0;
}

void free(void *it) {
    given(NULL, size_of(it));
    __libc_free(it);
}

void *mmap(void *where, size_t size, int protection, int flags, int file, off_t offset) {
    if ((flags & MAP_ANONYMOUS) != 0 && is_refused(size)) return MAP_FAILED;
    return (void *)syscall(SYS_mmap, where, size, protection, flags, file, offset);
}

ssize_t read(int file, void *to, size_t size) {
    reads += ready;
    return syscall(SYS_read, file, to, size);
}

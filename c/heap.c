/* The memory of libmkstrike_c.a from the C library. Link calls.c, and one of the two: this file or arena.c. */
#include <stddef.h>
#include <stdlib.h>

/* Whether memory was given, and where it is: a bool and a pointer, each in a register of its own. */
struct given {
    size_t ok;
    void *at;
};

/* The library asks for alignments up to 16, which malloc keeps. Where nothing was given, `at` is an address all the same. */
static char nothing[16];

static struct given given(void *at) {
    struct given it;
    it.ok = at != NULL;
    it.at = at != NULL ? at : nothing;
    return it;
}

#ifdef __cplusplus
extern "C" {
#endif
struct given rattle_alloc(size_t size, size_t align);
struct given rattle_realloc(void *at, size_t kept, size_t size, size_t align);
void rattle_dealloc(void *at);
#ifdef __cplusplus
}
#endif

struct given rattle_alloc(size_t size, size_t align) { return given(malloc(size ? size : align)); }

struct given rattle_realloc(void *at, size_t kept, size_t size, size_t align) {
    (void)kept;
    return given(realloc(at, size ? size : align));
}

void rattle_dealloc(void *at) { free(at); }

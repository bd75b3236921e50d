/* What check_c_arena.c and check_c_heap.c share: the calls that the library makes for memory, and how a fault is told. */
#include <stdint.h>
#include <stdio.h>
#include <stdlib.h>
#include <string.h>

struct given {
    size_t ok;
    void *at;
};

#ifdef __cplusplus
extern "C" {
#endif
struct given rattle_alloc(size_t size, size_t align);
struct given rattle_realloc(void *at, size_t kept, size_t size, size_t align);
void rattle_dealloc(void *at);
#ifdef __cplusplus
}
#endif

static void look(int is_right, const char *what) {
    if (!is_right) {
        printf("check_c: %s\n", what);
        exit(1);
    }
}

static int all_are(const unsigned char *from, size_t count, int byte) {
    size_t i;
    for (i = 0; i < count; i++)
        if (from[i] != byte) return 0;
    return 1;
}

/* What every answer is: 1 or 0 and nothing else, and an address that is aligned, also if nothing was given. Returns whether it was. */
static int is_given(struct given it) {
    look(it.ok == 0 || it.ok == 1, "an answer that is neither yes nor no");
    look(it.at != NULL && ((uintptr_t)it.at & 15) == 0, "an address that is not aligned");
    return it.ok == 1;
}

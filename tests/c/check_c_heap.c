/* Looks at c/heap.c by calls of its own, as the library makes them: pieces of each size at once, pieces that grow and get smaller, and
 * requests that no machine can meet, which are refused, say so, and leave what was there. test_library.py builds and runs it. It names the
 * first thing that is wrong, and ends with status 1. */
#include "direct.h"

enum { PIECES = 600 };

static unsigned char *answer(struct given it, int due) {
    look(is_given(it) == due, due ? "a request refused that there is room for" : "a huge request given");
    return (unsigned char *)it.at;
}

/* Pieces of many sizes at once, of which none is another's, also of no byte. */
static void pieces(void) {
    static unsigned char *got[PIECES];
    size_t n;
    for (n = 0; n < PIECES; n++) {
        got[n] = answer(rattle_alloc(n * n, 16), 1);
        memset(got[n], (int)(n & 255), n * n);
    }
    for (n = 0; n < PIECES; n++) look(all_are(got[n], n * n, (int)(n & 255)), "a piece that another one changed");
    for (n = 0; n < PIECES; n += 2) {
        got[n] = answer(rattle_realloc(got[n], n * n, 2 * n * n + 1, 16), 1);
        look(all_are(got[n], n * n, (int)(n & 255)), "growing lost what was there");
        memset(got[n], 7, 2 * n * n + 1);
    }
    for (n = 1; n < PIECES; n += 2) {
        got[n] = answer(rattle_realloc(got[n], n * n, n, 16), 1);
        look(all_are(got[n], n, (int)(n & 255)), "getting smaller lost what was there");
    }
    for (n = 0; n < PIECES; n++) rattle_dealloc(got[n]);
}

/* Requests that are refused: a piece that can't grow is as it was, and still the caller's to give back. */
static void refused(void) {
    size_t huge = SIZE_MAX / 2, n;
    (void)answer(rattle_alloc(huge, 16), 0);
    (void)answer(rattle_alloc(SIZE_MAX - 64, 16), 0);
    for (n = 1; n < 2000; n += 37) {
        unsigned char *it = answer(rattle_alloc(n, 16), 1), *other;
        memset(it, 9, n);
        (void)answer(rattle_realloc(it, n, huge, 16), 0);
        other = answer(rattle_alloc(n, 16), 1);
        look(other != it, "a piece that can't grow was handed out again");
        memset(other, 5, n);
        look(all_are(it, n, 9), "a piece that can't grow was changed");
        rattle_dealloc(other);
        rattle_dealloc(it);
    }
}

int main(void) {
    pieces();
    refused();
    return 0;
}

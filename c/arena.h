/* The memory of libmkstrike_c.a from one block of the caller's, without a C library: arena.c. For one thread at a time. */
#ifndef MKSTRIKE_ARENA_H
#define MKSTRIKE_ARENA_H

#include <stddef.h>

#ifdef __cplusplus
extern "C" {
#endif

/* Hands a block over. Call it before the first call of the library, and then whenever no call runs: the block before it is yours again.
 * Each call of the library begins with the whole block, whatever calls came before it. Without a block, calls of the library return
 * MKSTRIKE_OUT_OF_MEMORY. */
void mkstrike_arena(void *block, size_t size);

/* The most bytes of the block that were in use at once since it was handed over: a block of this size would have been enough. */
size_t mkstrike_arena_used(void);

#ifdef __cplusplus
}
#endif

#endif

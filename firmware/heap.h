/* The heap that libmeter.a needs. heap_malloc.c and heap_pool.c implement it; you may write another
 * one.
 *
 * The proofs assume the following, which nothing checks:
 *   - a block is aligned to 16 bytes, has the requested size, and does not overlap another block in
 *     use;
 *   - rattle_realloc keeps the first `kept` bytes of the block, and leaves the block unchanged if
 *     it fails;
 *   - if there is no memory, `ok` is false and `p` points to a byte that is never freed. It is
 *     never null.
 */
#ifndef METER_HEAP_H
#define METER_HEAP_H

#include <stdbool.h>
#include <stddef.h>

struct rattle_tried {
    bool ok;
    void *p;
};

/* A block of `size` bytes (1 if `size` is 0); `align` divides 16. */
struct rattle_tried rattle_alloc(size_t size, size_t align);

/* Resizes the block at `p` to `size` bytes. */
struct rattle_tried rattle_realloc(void *p, size_t kept, size_t size, size_t align);

/* Frees a block. */
void rattle_dealloc(void *p);

#endif

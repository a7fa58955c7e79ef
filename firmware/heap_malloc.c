/* The heap of libmeter.a over malloc, for a system with a C library. */
#include "heap.h"

#include <stdlib.h>

/* malloc aligns every block to this. */
_Static_assert(_Alignof(max_align_t) >= 16, "malloc must align blocks to 16 bytes");

static char nothing;

static struct rattle_tried tried(void *p)
{
    return (struct rattle_tried){ p != NULL, p != NULL ? p : &nothing };
}

struct rattle_tried rattle_alloc(size_t size, size_t align)
{
    (void)align;
    return tried(malloc(size != 0 ? size : 1));
}

struct rattle_tried rattle_realloc(void *p, size_t kept, size_t size, size_t align)
{
    (void)kept;
    (void)align;
    return tried(realloc(p, size != 0 ? size : 1));
}

void rattle_dealloc(void *p)
{
    free(p);
}

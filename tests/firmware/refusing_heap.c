/* A heap over malloc that refuses the call whose number, from 1, is in the variable REFUSE (none if
 * that is 0 or not set). When the program ends, it prints the numbers of calls and of blocks that
 * were not freed to standard error. */
#include "heap.h"

#include <stdio.h>
#include <stdlib.h>

/* The address that a refused call returns. */
static char nothing;
/* The number of calls so far, and of blocks that are not freed. */
static long calls, blocks;

/* Prints the numbers of calls and of blocks that were not freed. */
static void report(void)
{
    fprintf(stderr, "calls %ld, blocks left %ld\n", calls, blocks);
}

/* Counts a call, and returns whether it is the one that is refused. */
static bool is_refused(void)
{
    static long refused;
    if (calls == 0) {
        const char *word = getenv("REFUSE");
        refused = word != NULL ? atol(word) : 0;
        atexit(report);
    }
    return ++calls == refused;
}

/* Allocates a block, unless the call is refused. */
struct rattle_tried rattle_alloc(size_t size, size_t align)
{
    void *p = is_refused() ? NULL : malloc(size != 0 ? size : 1);
    (void)align;
    blocks += p != NULL;
    return (struct rattle_tried){ p != NULL, p != NULL ? p : &nothing };
}

/* Changes the size of a block, unless the call is refused. */
struct rattle_tried rattle_realloc(void *p, size_t kept, size_t size, size_t align)
{
    void *moved = is_refused() ? NULL : realloc(p, size != 0 ? size : 1);
    (void)kept;
    (void)align;
    return (struct rattle_tried){ moved != NULL, moved != NULL ? moved : &nothing };
}

/* Frees a block, which is never refused. */
void rattle_dealloc(void *p)
{
    blocks--;
    free(p);
}

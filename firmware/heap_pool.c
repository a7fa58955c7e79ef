/* A heap for libmeter.a in memory of the caller, without a C library. It is first fit, and joins
 * neighbouring free blocks. It has no lock: use a pool for the meters of one thread only, and not
 * from an interrupt. */
#include "heap_pool.h"

#include "heap.h"

#include <stdint.h>

/* The header of each block. Free blocks are listed by address. */
struct place {
    _Alignas(16) size_t size; /* bytes after this header, a multiple of 16 */
    struct place *next;       /* the next free block, if this one is free */
};

_Static_assert(sizeof(struct place) == 16, "the header must keep the blocks aligned");

static struct place *free_places;
static size_t used, most;
static char nothing;

static size_t rounded(size_t size)
{
    return size == 0 ? 16 : (size + 15) / 16 * 16;
}

static unsigned char *block_of(struct place *place)
{
    return (unsigned char *)place + sizeof(struct place);
}

static struct place *place_of(void *block)
{
    return (struct place *)((unsigned char *)block - sizeof(struct place));
}

static void takes(size_t bytes)
{
    used += bytes;
    if (used > most)
        most = used;
}

void heap_pool_begin(void *memory, size_t bytes)
{
    size_t skipped = (16 - (uintptr_t)memory % 16) % 16;
    free_places = NULL;
    used = most = 0;
    if (bytes < skipped + 2 * sizeof(struct place))
        return;
    free_places = (struct place *)((unsigned char *)memory + skipped);
    free_places->size = (bytes - skipped) / 16 * 16 - sizeof(struct place);
    free_places->next = NULL;
}

size_t heap_pool_used(void)
{
    return used;
}

size_t heap_pool_most(void)
{
    return most;
}

/* Splits off the bytes of a block beyond `size`, if they are enough for a block. Returns that
 * block, or null. */
static struct place *cut(struct place *place, size_t size)
{
    struct place *rest;
    if (place->size < size + sizeof(struct place) + 16)
        return NULL;
    rest = (struct place *)(block_of(place) + size);
    rest->size = place->size - size - sizeof(struct place);
    place->size = size;
    return rest;
}

/* Lists a block as free, and joins it with its neighbours. */
static void release(struct place *place)
{
    struct place *before = NULL, *after = free_places;
    while (after != NULL && after < place) {
        before = after;
        after = after->next;
    }
    place->next = after;
    if (before == NULL)
        free_places = place;
    else
        before->next = place;
    if (after != NULL && block_of(place) + place->size == (unsigned char *)after) {
        place->size += sizeof(struct place) + after->size;
        place->next = after->next;
    }
    if (before != NULL && block_of(before) + before->size == (unsigned char *)place) {
        before->size += sizeof(struct place) + place->size;
        before->next = place->next;
    }
}

struct rattle_tried rattle_alloc(size_t size, size_t align)
{
    struct place **link = &free_places, *found, *rest;
    (void)align;
    if (size > SIZE_MAX / 2)
        return (struct rattle_tried){ false, &nothing };
    size = rounded(size);
    while (*link != NULL && (*link)->size < size)
        link = &(*link)->next;
    found = *link;
    if (found == NULL)
        return (struct rattle_tried){ false, &nothing };
    *link = found->next;
    rest = cut(found, size);
    if (rest != NULL)
        release(rest);
    takes(found->size + sizeof(struct place));
    return (struct rattle_tried){ true, block_of(found) };
}

void rattle_dealloc(void *p)
{
    struct place *place = place_of(p);
    used -= place->size + sizeof(struct place);
    release(place);
}

struct rattle_tried rattle_realloc(void *p, size_t kept, size_t size, size_t align)
{
    struct place *place = place_of(p);
    struct rattle_tried moved;
    if (size <= place->size)
        return (struct rattle_tried){ true, p };
    moved = rattle_alloc(size, align);
    if (!moved.ok)
        return moved;
    for (size_t i = 0; i < kept; i++)
        ((unsigned char *)moved.p)[i] = ((unsigned char *)p)[i];
    rattle_dealloc(p);
    return moved;
}

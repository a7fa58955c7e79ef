/* Tests the pool: allocates, grows and frees blocks of many sizes in random order. Each block must
 * be aligned, be within the pool and keep its bytes; at the end the pool must be one free block.
 * Prints the numbers of calls and of refused ones. On a failure the status is 1, and the last line
 * describes it. */
#include "heap.h"
#include "heap_pool.h"

#include <stdint.h>
#include <stdio.h>
#include <stdlib.h>
#include <string.h>

/* The number of blocks that may be allocated at once, and the number of calls. */
#define BLOCKS 200
#define CALLS 200000

/* The memory of the pool; it begins five bytes later, which is not aligned. */
static _Alignas(16) unsigned char memory[65536 + 5];

/* An allocated block: its address, its size, and the value of each of its bytes. */
struct taken {
    unsigned char *at;
    size_t size;
    unsigned char mark;
};

/* Ends the program with status 1 and this description. */
static _Noreturn void wrong(const char *what)
{
    printf("failed: %s\n", what);
    exit(1);
}

/* Checks that a block is aligned, is within the pool and has kept its bytes. */
static void look(const struct taken *block)
{
    if ((uintptr_t)block->at % 16 != 0)
        wrong("a block is not aligned");
    if (block->at < memory || block->at + block->size > memory + sizeof memory)
        wrong("a block is outside the pool");
    for (size_t i = 0; i < block->size; i++)
        if (block->at[i] != block->mark)
            wrong("the bytes of a block changed");
}

/* A pseudorandom number below a bound; each run has the same sequence. */
static unsigned chance(unsigned below)
{
    static uint64_t state = 20260101;
    state = state * 6364136223846793005u + 1442695040888963407u;
    return (unsigned)(state >> 33) % below;
}

int main(void)
{
    static struct taken blocks[BLOCKS];
    long refused = 0;
    size_t whole = sizeof memory - 5 - 16;
    heap_pool_begin(memory + 5, sizeof memory - 5);
    for (long call = 0; call < CALLS; call++) {
        struct taken *block = &blocks[chance(BLOCKS)];
        size_t size = chance(chance(4) == 0 ? 4000 : 200);
        struct rattle_tried tried;
        if (block->at != NULL)
            look(block);
        if (block->at == NULL) {
            tried = rattle_alloc(size, 8);
        } else if (chance(2) == 0) {
            tried = rattle_realloc(block->at, block->size < size ? block->size : size, size, 8);
            if (tried.ok && size > block->size)
                for (size_t i = 0; i < block->size; i++)
                    if (((unsigned char *)tried.p)[i] != block->mark)
                        wrong("the bytes of a block changed when it moved");
        } else {
            rattle_dealloc(block->at);
            block->at = NULL;
            continue;
        }
        if (!tried.ok) {
            refused++;
            continue;
        }
        block->at = tried.p;
        block->size = size;
        block->mark = (unsigned char)call;
        memset(block->at, block->mark, size);
    }
    for (size_t i = 0; i < BLOCKS; i++)
        if (blocks[i].at != NULL) {
            look(&blocks[i]);
            rattle_dealloc(blocks[i].at);
        }
    if (heap_pool_used() != 0)
        wrong("bytes are in use after all blocks were freed");
    /* (the pool starts at an offset of five bytes: eleven are lost to alignment, the rest is a multiple of 16) */
    if (!rattle_alloc((whole - 11) / 16 * 16, 16).ok)
        wrong("the pool is not one free block after all were freed");
    if (rattle_alloc(1, 1).ok)
        wrong("a block larger than the pool was allocated");
    printf("%d calls, %ld refused\n", CALLS, refused);
    return 0;
}

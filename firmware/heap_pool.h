/* A heap for libmeter.a in memory of the caller, without a C library. */
#ifndef METER_HEAP_POOL_H
#define METER_HEAP_POOL_H

#include <stddef.h>

/* Sets the memory of the pool, before the first call of a meter: `bytes` bytes at `memory`, of any
 * alignment, which belong to the pool from now on. The blocks of an earlier pool are lost, so no
 * meter may be open. */
void heap_pool_begin(void *memory, size_t bytes);

/* The bytes in use now, and their maximum since heap_pool_begin, with 16 bytes of header for each
 * block. */
size_t heap_pool_used(void);
size_t heap_pool_most(void);

#endif

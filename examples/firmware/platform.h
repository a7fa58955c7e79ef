/* The functions that the super-loop needs from its platform. */
#ifndef PLATFORM_H
#define PLATFORM_H

#include <stddef.h>

/* Prints `length` bytes of text. */
void platform_show(const char *text, size_t length);

/* Runs the loop; returns 0 once it has ended. The platform calls it once. */
int super_loop(void);

#endif

/* The super-loop as a program on a system with a C library. */
#include "platform.h"

#include <stdio.h>

void platform_show(const char *text, size_t length)
{
    fwrite(text, 1, length, stdout);
}

int main(void)
{
    return super_loop();
}

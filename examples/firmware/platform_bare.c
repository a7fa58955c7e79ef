/* The super-loop on 64-bit ARM without a C library: the entry point, two system calls (of Linux, so
 * that qemu can run it), and the four memory functions that the compiler needs. Built with
 * -ffreestanding -nostdlib. */
#include "platform.h"

#include <stdint.h>

static long system_call(long number, long first, long second, long third)
{
    register long x8 __asm__("x8") = number;
    register long x0 __asm__("x0") = first;
    register long x1 __asm__("x1") = second;
    register long x2 __asm__("x2") = third;
    __asm__ volatile("svc 0" : "+r"(x0) : "r"(x8), "r"(x1), "r"(x2) : "memory");
    return x0;
}

void platform_show(const char *text, size_t length)
{
    system_call(64, 1, (long)text, (long)length);
}

void *memcpy(void *restrict to, const void *restrict from, size_t count)
{
    unsigned char *out = to;
    const unsigned char *in = from;
    while (count-- > 0)
        *out++ = *in++;
    return to;
}

void *memmove(void *to, const void *from, size_t count)
{
    unsigned char *out = to;
    const unsigned char *in = from;
    if ((uintptr_t)out <= (uintptr_t)in)
        return memcpy(to, from, count);
    while (count-- > 0)
        out[count] = in[count];
    return to;
}

void *memset(void *to, int byte, size_t count)
{
    unsigned char *out = to;
    while (count-- > 0)
        *out++ = (unsigned char)byte;
    return to;
}

int memcmp(const void *one, const void *other, size_t count)
{
    const unsigned char *a = one, *b = other;
    for (; count > 0; count--, a++, b++)
        if (*a != *b)
            return *a < *b ? -1 : 1;
    return 0;
}

__attribute__((used)) static void begin(void)
{
    system_call(94, super_loop(), 0, 0);
    for (;;)
        ;
}

__asm__(".global _start\n_start:\n\tmov x29, xzr\n\tmov x30, xzr\n\tb begin\n");

/* Preloaded between a program and the C library: counts the calls of fdatasync, and writes their
 * number to the file SYNC_REPORT when the program ends. With SLOW_SYNC each takes that number of
 * microseconds, as on a slower disk, and syncs nothing. */
#define _GNU_SOURCE
#include <stdio.h>
#include <stdlib.h>
#include <sys/syscall.h>
#include <time.h>
#include <unistd.h>

static long delay, calls;
static const char *name;

__attribute__((constructor)) static void begin(void) {
    const char *text = getenv("SLOW_SYNC");
    delay = text ? atol(text) : 0;
    name = getenv("SYNC_REPORT");
}

__attribute__((destructor)) static void report(void) {
    FILE *file = name ? fopen(name, "w") : NULL;
    if (!file) return;
    fprintf(file, "%ld\n", calls);
    fclose(file);
}

void _exit(int status) {
    report();
    for (;;) syscall(SYS_exit_group, status);
}

int fdatasync(int file) {
    struct timespec pause = {delay / 1000000, delay % 1000000 * 1000};
    __atomic_add_fetch(&calls, 1, __ATOMIC_SEQ_CST);
    return (int)(delay ? nanosleep(&pause, NULL) : syscall(SYS_fdatasync, file));
}

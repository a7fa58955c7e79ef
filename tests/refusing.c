/* Preloaded between a program and the C library, for tests/refusing.py: refuses one allocation or
 * one thread, fails, shortens or interrupts one read or write, or fails one sync of a file or one
 * accept. These variables have the number of that call, from 1: REFUSE_MEMORY, REFUSE_THREAD,
 * FAIL_STREAM, SHORT_STREAM, INTERRUPT_STREAM, FAIL_SYNC, FAIL_ACCEPT; ACCEPT_ERROR has the error of
 * the accept. When standard input ends or fails, and when the program ends, a line of numbers is
 * written to the file REFUSING_REPORT: allocations, reads and writes, writes to the failed stream or
 * file after its failure, connections, started threads, and syncs. Writes to standard error are not
 * counted and never fail, and neither are the reads and writes of a pair of sockets, the queue of a
 * server's log: FAIL_LOG has the number of the one of these that fails. */

typedef unsigned long size;
typedef long count;

extern void *__libc_malloc(size);
extern void *__libc_calloc(size, size);
extern void *__libc_realloc(void *, size);
extern count syscall(count, ...);
extern int *__errno_location(void);
extern char *getenv(const char *);
extern void *dlsym(void *, const char *);

enum { READ = 0, WRITE = 1, OPEN = 2, CLOSE = 3, WRITEV = 20, CONNECT = 42, SENDTO = 44, RECVFROM = 45, SENDMSG = 46, SOCKETPAIR = 53, FSYNC = 74, FDATASYNC = 75, EXIT_GROUP = 231, ACCEPT4 = 288 };
enum { INTERRUPTED = 4, FAILED = 5, TRY_AGAIN = 11, NO_MEMORY = 12 };
enum { STANDARD_INPUT = 0, STANDARD_ERROR = 2, NONE = -1 };

static size refused, refused_thread, failing, shortened, interrupted, failing_sync, failing_accept, accept_error, failing_log;
static size allocations, streams, logged, late, connections, threads, syncs, accepts;
static int failed = NONE, log_end = NONE, log_start = NONE;

static size number(const char *name) {
    const char *text = getenv(name);
    size value = 0;
    while (text && *text) value = value * 10 + (size)(*text++ - '0');
    return value;
}

__attribute__((constructor)) static void begin(void) {
    refused = number("REFUSE_MEMORY");
    refused_thread = number("REFUSE_THREAD");
    failing = number("FAIL_STREAM");
    shortened = number("SHORT_STREAM");
    interrupted = number("INTERRUPT_STREAM");
    failing_sync = number("FAIL_SYNC");
    failing_accept = number("FAIL_ACCEPT");
    accept_error = number("ACCEPT_ERROR");
    failing_log = number("FAIL_LOG");
}

static char *digits(char *end, size value) {
    do *--end = (char)('0' + value % 10);
    while (value /= 10);
    return end;
}

__attribute__((destructor)) static void report(void) {
    const char *name = getenv("REFUSING_REPORT");
    char text[140], *end = text + sizeof text, *from = end;
    *--from = '\n';
    from = digits(from, syncs);
    *--from = ' ';
    from = digits(from, threads);
    *--from = ' ';
    from = digits(from, connections);
    *--from = ' ';
    from = digits(from, late);
    *--from = ' ';
    from = digits(from, streams);
    *--from = ' ';
    from = digits(from, allocations);
    if (!name) return;
    count file = syscall(OPEN, name, 01 | 0100 | 01000, 0600);
    syscall(WRITE, file, from, (size)(end - from));
    syscall(CLOSE, file);
}

void _exit(int status) {
    report();
    for (;;) syscall(EXIT_GROUP, (count)status);
}

static int is_refused(void) {
    if (__sync_add_and_fetch(&allocations, 1) != refused) return 0;
    *__errno_location() = NO_MEMORY;
    return 1;
}

void *malloc(size bytes) { return is_refused() ? 0 : __libc_malloc(bytes); }

void *calloc(size items, size bytes) { return is_refused() ? 0 : __libc_calloc(items, bytes); }

void *realloc(void *old, size bytes) { return is_refused() ? 0 : __libc_realloc(old, bytes); }

int pthread_create(void *thread, const void *attributes, void *(*work)(void *), void *argument) {
    int (*next)(void *, const void *, void *(*)(void *), void *) = dlsym((void *)-1L, "pthread_create");
    if (__sync_add_and_fetch(&threads, 1) == refused_thread) return TRY_AGAIN;
    return next(thread, attributes, work, argument);
}

/* The number of bytes that this read or write may transfer: 1 if it must be short, -1 if it must
 * fail. */
static count allowed(int file, size bytes, int is_write) {
    if (file == STANDARD_ERROR) return (count)bytes;
    if (file == log_start || file == log_end) {
        if (__sync_add_and_fetch(&logged, 1) != failing_log) return (count)bytes;
        *__errno_location() = FAILED;
        return -1;
    }
    if (is_write && file == failed) __sync_add_and_fetch(&late, 1);
    size turn = __sync_add_and_fetch(&streams, 1);
    if (turn == shortened && bytes > 1) return 1;
    if (turn != failing && turn != interrupted) return (count)bytes;
    if (turn == failing) failed = file;
    *__errno_location() = turn == failing ? FAILED : INTERRUPTED;
    return -1;
}

count read(int file, void *to, size bytes) {
    count most = allowed(file, bytes, 0);
    count transferred = most < 0 ? -1 : syscall(READ, file, to, most);
    if (file == STANDARD_INPUT && transferred <= 0) report();
    return transferred;
}

count write(int file, const void *from, size bytes) {
    count most = allowed(file, bytes, 1);
    return most < 0 ? -1 : syscall(WRITE, file, from, most);
}

count recvfrom(int file, void *to, size bytes, int flags, void *peer, void *length) {
    count most = allowed(file, bytes, 0);
    return most < 0 ? -1 : syscall(RECVFROM, file, to, most, flags, peer, length);
}

count recv(int file, void *to, size bytes, int flags) { return recvfrom(file, to, bytes, flags, 0, 0); }

count sendto(int file, const void *from, size bytes, int flags, const void *peer, unsigned length) {
    count most = allowed(file, bytes, 1);
    return most < 0 ? -1 : syscall(SENDTO, file, from, most, flags, peer, length);
}

count send(int file, const void *from, size bytes, int flags) { return sendto(file, from, bytes, flags, 0, 0); }

struct part {
    void *bytes;
    size length;
};

count writev(int file, const struct part *parts, int number_of_parts) {
    count most = allowed(file, number_of_parts ? parts[0].length : 0, 1);
    if (most < 0) return -1;
    if (number_of_parts && (size)most < parts[0].length) return syscall(WRITE, file, parts[0].bytes, most);
    return syscall(WRITEV, file, parts, number_of_parts);
}

count sendmsg(int file, const void *message, int flags) {
    return allowed(file, 1, 1) < 0 ? -1 : syscall(SENDMSG, file, message, flags);
}

static int sync_by(count call, int file) {
    if (__sync_add_and_fetch(&syncs, 1) != failing_sync) return (int)syscall(call, file);
    failed = file;
    *__errno_location() = FAILED;
    return -1;
}

int fsync(int file) { return sync_by(FSYNC, file); }

int fdatasync(int file) { return sync_by(FDATASYNC, file); }

int accept4(int file, void *peer, unsigned *length, int flags) {
    if (__sync_add_and_fetch(&accepts, 1) != failing_accept) return (int)syscall(ACCEPT4, file, peer, length, flags);
    *__errno_location() = (int)accept_error;
    return -1;
}

int connect(int file, const void *peer, unsigned length) {
    __sync_add_and_fetch(&connections, 1);
    return (int)syscall(CONNECT, file, peer, length);
}

int socketpair(int domain, int type, int protocol, int ends[2]) {
    int made = (int)syscall(SOCKETPAIR, domain, type, protocol, ends);
    if (made < 0) return made;
    log_start = ends[0];
    log_end = ends[1];
    return made;
}

int close(int file) {
    if (file == failed) failed = NONE;
    if (file == log_start) log_start = NONE;
    if (file == log_end) log_end = NONE;
    return (int)syscall(CLOSE, file);
}

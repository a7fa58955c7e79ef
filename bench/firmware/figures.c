/* Heap, stack and time of a meter through its handle: the bytes of the pool in use after each step,
 * the bytes of the stack that each call writes, the time of a GET from its bytes to its response,
 * fed alone and in pieces of 1,024 bytes, and of a save to simulated flash. */
#define _POSIX_C_SOURCE 200809L
#include "flash_simulated.h"
#include "heap_pool.h"
#include "meter.h"
#include "stored_meter.h"

#include <pthread.h>
#include <stdio.h>
#include <stdlib.h>
#include <string.h>
#include <time.h>

#define KEPT_EVENTS 64
#define GETS 200000
#define PIECE 1024
#define SAVES 2000
#define ROUNDS 5
#define STACK_BYTES 262144
#define PAINT 0xA5

static _Alignas(16) uint8_t pool[1048576];
static _Alignas(4096) uint8_t stack[STACK_BYTES];
static struct meter meter;
static struct stored_meter stored;
static uint8_t text[65536];

/* AARQ of the management client with the password 12345678, and a GET of control_state, each after
 * the header of the TCP wrapper. */
static const uint8_t aarq[] = { 0x00, 0x01, 0x00, 0x01, 0x00, 0x01, 0x00, 0x38, 0x60, 0x36, 0xA1, 0x09, 0x06, 0x07, 0x60, 0x85, 0x74, 0x05, 0x08, 0x01, 0x01, 0x8A, 0x02, 0x07, 0x80, 0x8B,
                                0x07, 0x60, 0x85, 0x74, 0x05, 0x08, 0x02, 0x01, 0xAC, 0x0A, 0x80, 0x08, '1', '2', '3', '4', '5', '6', '7', '8', 0xBE, 0x10, 0x04, 0x0E, 0x01, 0x00, 0x00,
                                0x00, 0x06, 0x5F, 0x1F, 0x04, 0x00, 0x00, 0xFE, 0xFF, 0x04, 0x00 };
static const uint8_t get[] = { 0x00, 0x01, 0x00, 0x01, 0x00, 0x01, 0x00, 0x0D, 0xC0, 0x01, 0xC1, 0x00, 0x46, 0x00, 0x00, 0x60, 0x03, 0x0A, 0xFF, 0x03, 0x00 };
/* A SET of control_mode with a Data with arrays of the maximum depth; its type is refused. */
static const uint8_t deep_set[] = { 0x00, 0x01, 0x00, 0x01, 0x00, 0x01, 0x00, 0x1E, 0xC1, 0x01, 0xC1, 0x00, 0x46, 0x00, 0x00, 0x60, 0x03, 0x0A, 0xFF, 0x04, 0x00,
                                    0x01, 0x01, 0x01, 0x01, 0x01, 0x01, 0x01, 0x01, 0x01, 0x01, 0x01, 0x01, 0x01, 0x01, 0x01, 0x01, 0x00 };

static void need(bool is_so, const char *what)
{
    if (!is_so) {
        printf("failed: %s\n", what);
        exit(1);
    }
}

/* Feeds a frame and takes its response. Returns the length of the response. */
static size_t ask(uint8_t session, const uint8_t *bytes, size_t count)
{
    uint8_t frame[1032];
    size_t length, answer;
    need(meter_feed(&meter, session, bytes, count) == METER_OK, "a frame is not taken");
    need(meter_next(&meter, session, frame, sizeof frame, &answer) == METER_OK, "a frame is not answered");
    need(meter_next(&meter, session, frame, sizeof frame, &length) == METER_WAIT, "more than one answer");
    return answer;
}

static void open_session(uint8_t session)
{
    need(meter_open_session(&meter, session) == METER_OK, "a session is not opened");
    need(ask(session, aarq, sizeof aarq) == 51, "an association is refused");
    need(ask(session, get, sizeof get) == 14, "a GET is refused");
}

static double nanoseconds_since(const struct timespec *began)
{
    struct timespec ended;
    clock_gettime(CLOCK_MONOTONIC, &ended);
    return (double)(ended.tv_sec - began->tv_sec) * 1e9 + (double)(ended.tv_nsec - began->tv_nsec);
}

static double nanoseconds_of_a_get(void)
{
    struct timespec began;
    clock_gettime(CLOCK_MONOTONIC, &began);
    for (long i = 0; i < GETS; i++)
        ask(0, get, sizeof get);
    return nanoseconds_since(&began) / GETS;
}

/* The time of a GET when pieces of 1,024 bytes are fed, as bench/session feeds serve_session. */
static double nanoseconds_in_pieces(void)
{
    static uint8_t gets[GETS * sizeof get];
    uint8_t frame[1032];
    size_t length;
    long answers = 0;
    struct timespec began;
    for (long i = 0; i < GETS; i++)
        memcpy(gets + i * sizeof get, get, sizeof get);
    clock_gettime(CLOCK_MONOTONIC, &began);
    for (size_t at = 0; at < sizeof gets; at += PIECE) {
        need(meter_feed(&meter, 0, gets + at, at + PIECE < sizeof gets ? PIECE : sizeof gets - at) == METER_OK, "a piece is not taken");
        while (meter_next(&meter, 0, frame, sizeof frame, &length) == METER_OK)
            answers++;
    }
    need(answers == GETS, "a piece is not answered");
    return nanoseconds_since(&began) / GETS;
}

/* Opens a new meter in empty flash. */
static void open_stored(void)
{
    static const uint8_t name[] = "RELAY1", password[] = "12345678";
    flash_begin();
    need(stored_open(&stored, name, sizeof name - 1, password, sizeof password - 1) == STORED_NEW, "no meter is stored");
}

/* Saves of a state that differs from the stored one by `step` seconds of the clock. */
static double nanoseconds_of_a_save(uint32_t step)
{
    static uint32_t moment = 1000;
    struct timespec began;
    uint8_t code;
    clock_gettime(CLOCK_MONOTONIC, &began);
    for (long i = 0; i < SAVES; i++, moment += step)
        need(meter_moment(&stored.meter, moment, &code) == METER_OK && stored_save(&stored) == STORED_OK, "a state is not saved");
    return nanoseconds_since(&began) / SAVES;
}

/* The heap and the time of a save. Each save of the first kind writes a slot. */
static void tell_saves(void)
{
    size_t before;
    heap_pool_begin(pool, sizeof pool);
    open_stored();
    before = heap_pool_used();
    printf("a save of a changed state, to simulated flash: %.1f us\n", nanoseconds_of_a_save(1) / 1000);
    printf("a save of an unchanged state: %.1f us\n", nanoseconds_of_a_save(0) / 1000);
    printf("heap of a stored meter, in bytes: %zu; during a save: %zu\n", before, heap_pool_most());
    stored_close(&stored);
}

static void *do_nothing(void *unused)
{
    return unused;
}

static void *do_open(void *unused)
{
    static const uint8_t name[] = "RELAY1", password[] = "12345678";
    need(meter_open(&meter, name, sizeof name - 1, password, sizeof password - 1, KEPT_EVENTS) == METER_OK, "a meter is not opened");
    return unused;
}

static void *do_associate(void *unused)
{
    open_session(0);
    return unused;
}

static void *do_set(void *unused)
{
    need(ask(0, deep_set, sizeof deep_set) == 12, "a SET of another type is not refused");
    return unused;
}

static void *do_samples(void *unused)
{
    static const uint32_t watts[256];
    struct meter_fired fired;
    need(meter_samples(&meter, watts, 256, &fired) == METER_OK, "samples are not taken");
    return unused;
}

static void *do_own_calls(void *unused)
{
    uint8_t code;
    need(meter_press(&meter, &code) == METER_OK, "a press is not taken");
    need(meter_moment(&meter, 1000, &code) == METER_OK, "a moment is not taken");
    return unused;
}

static void *do_export(void *unused)
{
    size_t length;
    need(meter_export(&meter, text, sizeof text, &length) == METER_OK, "a trace is not exported");
    return unused;
}

static void *do_save(void *unused)
{
    uint8_t code;
    open_stored();
    need(meter_press(&stored.meter, &code) == METER_OK && stored_save(&stored) == STORED_OK, "a state is not saved");
    stored_close(&stored);
    return unused;
}

/* The number of bytes of a painted stack that a call writes. */
static size_t written_by(void *(*call)(void *))
{
    pthread_attr_t attributes;
    pthread_t thread;
    size_t clean = 0;
    memset(stack, PAINT, sizeof stack);
    need(pthread_attr_init(&attributes) == 0 && pthread_attr_setstack(&attributes, stack, sizeof stack) == 0, "no stack for a thread");
    need(pthread_create(&thread, &attributes, call, NULL) == 0 && pthread_join(thread, NULL) == 0, "no thread");
    while (clean < sizeof stack && stack[clean] == PAINT)
        clean++;
    return sizeof stack - clean;
}

/* The stack of each call, less that of a thread that does nothing. */
static void tell_stacks(void)
{
    static const struct {
        const char *name;
        void *(*call)(void *);
    } calls[] = { { "meter_open", do_open }, { "an association and a GET", do_associate }, { "a SET of a Data nested eight deep", do_set }, { "256 samples", do_samples },
                  { "a press and a moment", do_own_calls }, { "meter_export", do_export }, { "stored_open and stored_save", do_save } };
    size_t idle = written_by(do_nothing);
    for (size_t i = 0; i < sizeof calls / sizeof calls[0]; i++)
        printf("stack of %s, in bytes: %zu\n", calls[i].name, written_by(calls[i].call) - idle);
    meter_close(&meter);
}

int main(void)
{
    static const uint8_t name[] = "RELAY1", password[] = "12345678";
    double best = 1e18, best_in_pieces = 1e18;
    heap_pool_begin(pool, sizeof pool);
    need(meter_open(&meter, name, sizeof name - 1, password, sizeof password - 1, KEPT_EVENTS) == METER_OK, "a meter is not opened");
    printf("heap of a meter that keeps %d events, in bytes: %zu\n", KEPT_EVENTS, heap_pool_used());
    open_session(0);
    printf("with one session: %zu (at most %zu)\n", heap_pool_used(), heap_pool_most());
    for (uint8_t session = 1; session < 8; session++)
        open_session(session);
    printf("with eight: %zu (at most %zu)\n", heap_pool_used(), heap_pool_most());
    for (int round = 0; round < ROUNDS; round++) {
        double taken = nanoseconds_of_a_get();
        best = taken < best ? taken : best;
        taken = nanoseconds_in_pieces();
        best_in_pieces = taken < best_in_pieces ? taken : best_in_pieces;
    }
    printf("a GET, from its bytes to its answer: %.0f ns (best of %d times %d)\n", best, ROUNDS, GETS);
    printf("a GET in pieces of %d bytes: %.0f ns (best of %d times %d)\n", PIECE, best_in_pieces, ROUNDS, GETS);
    meter_close(&meter);
    printf("after meter_close: %zu\n", heap_pool_used());
    tell_stacks();
    tell_saves();
    return 0;
}

/*
 * Serves one session of one client, fed byte by byte.
 *
 *     session PASSWORD [TRACE] < STREAM
 *
 * Standard input is the stream of the client (frames of the TCP wrapper, IEC 62056-4-7) in
 * hexadecimal. Each frame of the meter is printed as a line in hexadecimal, as by `meter_server
 * hex`. At the end the trace of the meter is written to the file TRACE, which trace_player plays.
 */
#include "meter.h"

#include <stdio.h>
#include <stdlib.h>
#include <string.h>

#define KEPT_EVENTS 1024
#define CLIENT 0
#define LONGEST_FRAME 1032
#define LONGEST_TRACE 1048576

/* A call that fails for lack of memory changes nothing, or can be repeated. Firmware would free
 * memory first. */
#define AGAIN_WITH_MEMORY(result, call)                                          \
    do {                                                                         \
        (result) = (call);                                                       \
        for (int tries = 0; (result) == METER_NO_MEMORY && tries < 3; tries++)   \
            (result) = (call);                                                   \
    } while (0)

static _Noreturn void stop(const char *what, meter_result result)
{
    fprintf(stderr, "session: %s: result %u\n", what, (unsigned)result);
    exit(1);
}

static void print_frame(const uint8_t *frame, size_t length)
{
    for (size_t i = 0; i < length; i++)
        printf("%02X", frame[i]);
    putchar('\n');
}

/* Prints all pending frames. Returns whether the session continues. */
static bool answer(struct meter *meter)
{
    uint8_t frame[LONGEST_FRAME];
    size_t length;
    meter_result result;
    for (;;) {
        AGAIN_WITH_MEMORY(result, meter_next(meter, CLIENT, frame, sizeof frame, &length));
        switch (result) {
        case METER_OK:
            print_frame(frame, length);
            break;
        case METER_WAIT:
            return true;
        case METER_CLOSED:
        case METER_CUT:
        case METER_BAD_VERSION:
        case METER_TOO_LONG:
            return false;
        default:
            stop("meter_next", result);
        }
    }
}

/* The next byte of standard input; -1 at its end. */
static int next_byte(void)
{
    unsigned byte;
    return scanf(" %2x", &byte) == 1 ? (int)byte : -1;
}

static void serve(struct meter *meter)
{
    bool goes_on = true;
    meter_result result;
    for (int byte = next_byte(); byte >= 0 && goes_on; byte = next_byte()) {
        uint8_t came = (uint8_t)byte;
        AGAIN_WITH_MEMORY(result, meter_feed(meter, CLIENT, &came, 1));
        if (result != METER_OK)
            stop("meter_feed", result);
        goes_on = answer(meter);
    }
    result = meter_finish(meter, CLIENT);
    if (result != METER_OK)
        stop("meter_finish", result);
    if (goes_on)
        answer(meter);
}

static void export(struct meter *meter, const char *path)
{
    static uint8_t text[LONGEST_TRACE];
    size_t length;
    meter_result result;
    FILE *file;
    AGAIN_WITH_MEMORY(result, meter_export(meter, text, sizeof text, &length));
    if (result != METER_OK)
        stop("meter_export", result);
    file = fopen(path, "wb");
    if (file == NULL || fwrite(text, 1, length, file) != length || fclose(file) != 0)
        stop(path, 0);
}

int main(int count, char **words)
{
    static const uint8_t name[] = { 'R', 'E', 'L', 'A', 'Y', '1' };
    struct meter meter = { 0 };
    meter_result result;
    if (count != 2 && count != 3) {
        fputs("usage: session PASSWORD [TRACE] < STREAM\n", stderr);
        return 2;
    }
    AGAIN_WITH_MEMORY(result, meter_open(&meter, name, sizeof name, (const uint8_t *)words[1], strlen(words[1]), KEPT_EVENTS));
    if (result != METER_OK)
        stop("meter_open", result);
    AGAIN_WITH_MEMORY(result, meter_open_session(&meter, CLIENT));
    if (result != METER_OK)
        stop("meter_open_session", result);
    serve(&meter);
    if (count == 3)
        export(&meter, words[2]);
    meter_close(&meter);
    return 0;
}

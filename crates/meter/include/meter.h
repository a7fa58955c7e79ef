/*
 * The supply switch of one electricity meter, with its limiters, scripts, schedules and up to
 * eight sessions of clients (DLMS/COSEM: IEC 62056-5-3, IEC 62056-6-2, IEC 62056-4-7). Link
 * libmeter.a, and a heap: rattle_alloc, rattle_realloc and rattle_dealloc.
 *
 * The caller must follow these rules, which nothing checks:
 *   - A struct meter is all zero before the first call, and is not copied or moved while it is
 *     open.
 *   - Calls on one meter do not overlap, and all come from one thread. No call comes from an
 *     interrupt or a signal handler.
 *   - No pointer is null, even if its length is 0, and no two arguments of a call overlap in
 *     memory.
 *   - Every meter that was opened is closed with meter_close; otherwise its memory leaks.
 *
 * No call blocks. A call whose result is not METER_OK or METER_STALE leaves the meter unchanged,
 * except meter_next. The comment of each call says what it writes to its output arguments then.
 */
#ifndef METER_H
#define METER_H

#include <stdbool.h>
#include <stddef.h>
#include <stdint.h>

#ifdef __cplusplus
extern "C" {
#endif

/* A meter. Its members are private: zero them before the first call and do not touch them again. */
struct meter {
    void *at;
    bool is_open;
};

/* The result of a call. */
typedef uint32_t meter_result;
enum {
    METER_OK = 0,             /* the call succeeded */
    METER_WAIT = 1,           /* meter_next: nothing to send until more bytes arrive */
    METER_CLOSED = 2,         /* meter_next: session over, the input ended between two frames */
    METER_CUT = 3,            /* meter_next: session over, the input ended within a frame */
    METER_BAD_VERSION = 4,    /* meter_next: session over, a header's version is not 1 */
    METER_TOO_LONG = 5,       /* meter_next: session over, a payload length is above 1,024 */
    METER_STALE = 6,          /* meter_moment: earlier than the last moment; kept as an event only */
    METER_NO_MOMENT = 7,      /* meter_last_moment: there has been no moment yet */
    METER_NO_MEMORY = 8,      /* out of memory; the same call can be repeated */
    METER_NOT_OPEN = 9,       /* the meter is not open */
    METER_IS_OPEN = 10,       /* meter_open, meter_resume: the meter is already open */
    METER_NO_SESSION = 11,    /* no session with this number is open, or the number is above 7 */
    METER_SESSION_TAKEN = 12, /* meter_open_session: a session with this number is already open */
    METER_WRONG_ARGUMENT = 13,/* a length or number is out of range, or a text is not a trace */
    METER_NO_ROOM = 14        /* the buffer is too short: *length is the length needed */
};

/* Attribute 3 of the disconnect control (class 70), control_state. */
enum {
    METER_DISCONNECTED = 0,
    METER_CONNECTED = 1,
    METER_READY_FOR_RECONNECTION = 2
};

/* How many times each side of each limiter fired during a block of samples. */
struct meter_fired {
    uint16_t over;         /* imported power, over its threshold for the set duration */
    uint16_t under;
    uint16_t export_over;  /* exported power; 0 if only imported power was passed */
    uint16_t export_under;
};

/*
 * Opens a new meter: connected, in control mode 0, without limits, scripts, schedules or a
 * moment.
 *   name         the logical device name, 1 to 16 bytes
 *   password     of the management client (low-level security), 1 to 32 bytes
 *   kept_events  the number of last events that meter_export can write, 1 to 1,024; their table
 *                is allocated here
 * METER_OK, METER_IS_OPEN, METER_WRONG_ARGUMENT, METER_NO_MEMORY.
 */
meter_result meter_open(struct meter *meter, const uint8_t *name, size_t name_length, const uint8_t *password, size_t password_length, uint16_t kept_events);

/*
 * Opens a meter that continues from the end of a trace, the text that meter_export wrote, at most
 * 33,554,432 bytes. The meter has no open session.
 * METER_OK, METER_IS_OPEN, METER_WRONG_ARGUMENT, METER_NO_MEMORY.
 */
meter_result meter_resume(struct meter *meter, const uint8_t *trace, size_t trace_length, const uint8_t *password, size_t password_length, uint16_t kept_events);

/*
 * Closes a meter and its sessions, and frees all its memory. A closed meter stays closed. The
 * meter can be opened again.
 */
void meter_close(struct meter *meter);

/*
 * Opens a session of a client, with a number of 0 to 7.
 * METER_OK, METER_NOT_OPEN, METER_NO_SESSION: the number is above 7, METER_SESSION_TAKEN,
 * METER_NO_MEMORY.
 */
meter_result meter_open_session(struct meter *meter, uint8_t session);

/*
 * Passes the next bytes to a session, split at any place. They are copied; meter_next processes
 * them. A session that is over, or whose input has ended, ignores them.
 * METER_OK, METER_NOT_OPEN, METER_NO_SESSION, METER_NO_MEMORY: none of the bytes were copied.
 */
meter_result meter_feed(struct meter *meter, uint8_t session, const uint8_t *bytes, size_t count);

/* Ends the input of a session. METER_OK, METER_NOT_OPEN, METER_NO_SESSION. */
meter_result meter_finish(struct meter *meter, uint8_t session);

/*
 * Applies the requests of the session to the meter, up to the next frame, and writes this frame.
 * Call it until it returns METER_WAIT or an end of the session. A frame has at most 1,032 bytes (8
 * of header, 1,024 of payload), which is proved: METER_NO_ROOM is not returned if room is at least
 * 1,032.
 *   *length      METER_OK: the number of bytes written; METER_NO_ROOM: the length of the frame,
 *                which stays pending; else 0
 * METER_OK, METER_WAIT, METER_CLOSED, METER_CUT, METER_BAD_VERSION, METER_TOO_LONG,
 * METER_NO_ROOM, METER_NOT_OPEN, METER_NO_SESSION, METER_NO_MEMORY: some of the requests may have
 * been applied. If the call is repeated, no event is applied twice and no reply is lost.
 * Of the disconnect control (class 70), a SET of control_mode, an ACTION with its integer and a GET
 * of output_state, control_state or control_mode never end with METER_NO_MEMORY, if room is at
 * least 14 and the request is the first that the session has yet to answer.
 */
meter_result meter_next(struct meter *meter, uint8_t session, uint8_t *frame, size_t room, size_t *length);

/*
 * Closes a session, whatever its state, and frees its number.
 * METER_OK, METER_NOT_OPEN, METER_NO_SESSION.
 */
meter_result meter_close_session(struct meter *meter, uint8_t session);

/*
 * Applies a press of the meter's button. It does not allocate.
 *   *code        the result of the press, numbered as in an APDU: 0 success, 2 temporary-failure
 *                if the state and the mode have no transition for it
 * METER_OK, METER_NOT_OPEN: *code is 0.
 */
meter_result meter_press(struct meter *meter, uint8_t *code);

/*
 * Applies samples of the imported power in watts, ten per second, the oldest first; at most 256
 * per call.
 * METER_OK, METER_NOT_OPEN, METER_WRONG_ARGUMENT, METER_NO_MEMORY. Unless it is METER_OK, all of
 * *fired is 0.
 */
meter_result meter_samples(struct meter *meter, const uint32_t *watts, size_t count, struct meter_fired *fired);

/*
 * Applies samples of the imported and of the exported power, the same number of each. Units,
 * limit and results are those of meter_samples.
 */
meter_result meter_sample_pairs(struct meter *meter, const uint32_t *imported, size_t imported_count, const uint32_t *exported, size_t exported_count, struct meter_fired *fired);

/*
 * Applies a moment of the meter's clock, in seconds since 2000-01-01 00:00:00 of the meter's
 * time, and runs the schedules that are due by it. It does not allocate.
 *   *ran         the number of schedules that were due
 * METER_OK, METER_STALE, METER_NOT_OPEN. Unless it is METER_OK, *ran is 0.
 */
meter_result meter_moment(struct meter *meter, uint32_t moment, uint8_t *ran);

/*
 * Reads attribute 3 of the disconnect control (class 70), control_state: METER_DISCONNECTED,
 * METER_CONNECTED or METER_READY_FOR_RECONNECTION.
 * METER_OK, METER_NOT_OPEN: *state is 0.
 */
meter_result meter_control_state(struct meter *meter, uint8_t *state);

/*
 * Reads attribute 4 of the disconnect control (class 70), control_mode, 0 to 6.
 * METER_OK, METER_NOT_OPEN: *mode is 0.
 */
meter_result meter_control_mode(struct meter *meter, uint8_t *mode);

/*
 * Reads whether the supply is on, the output that drives the breaker.
 * METER_OK, METER_NOT_OPEN: *is_on is false.
 */
meter_result meter_supply(struct meter *meter, bool *is_on);

/*
 * Reads the last moment that meter_moment applied.
 * METER_OK, METER_NO_MOMENT, METER_NOT_OPEN. Unless it is METER_OK, *moment is 0.
 */
meter_result meter_last_moment(struct meter *meter, uint32_t *moment);

/*
 * Writes the trace of the meter as text: the meter before the kept events, followed by these
 * events. trace_player plays it, and meter_resume continues from it.
 *   *length      METER_OK: the number of bytes written; METER_NO_ROOM: the length of the text;
 *                else 0
 * METER_OK, METER_NO_ROOM, METER_NOT_OPEN, METER_NO_MEMORY.
 */
meter_result meter_export(struct meter *meter, uint8_t *text, size_t room, size_t *length);

#ifdef __cplusplus
}
#endif

#endif

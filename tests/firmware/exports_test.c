/* Calls each export of meter.h with worked values, and with each refusal other than out of memory.
 * On a wrong result the status is 1, and the last line names the check. */
#include "meter.h"

#include <stdio.h>
#include <stdlib.h>
#include <string.h>

#define LONGEST_FRAME 1032

static const uint8_t name[] = "RELAY1", password[] = "12345678";

/* AARQ of the management client with the password; SET control_mode 1; ACTION remote_disconnect,
 * each in its frame. */
static const uint8_t requests[] = {
    0x00, 0x01, 0x00, 0x01, 0x00, 0x01, 0x00, 0x38, 0x60, 0x36, 0xA1, 0x09, 0x06, 0x07, 0x60, 0x85, 0x74, 0x05, 0x08, 0x01, 0x01, 0x8A, 0x02, 0x07, 0x80, 0x8B, 0x07, 0x60, 0x85, 0x74,
    0x05, 0x08, 0x02, 0x01, 0xAC, 0x0A, 0x80, 0x08, '1', '2', '3', '4', '5', '6', '7', '8', 0xBE, 0x10, 0x04, 0x0E, 0x01, 0x00, 0x00, 0x00, 0x06, 0x5F, 0x1F, 0x04, 0x00, 0x00, 0xFE,
    0xFF, 0x04, 0x00,
    0x00, 0x01, 0x00, 0x01, 0x00, 0x01, 0x00, 0x0F, 0xC1, 0x01, 0xC1, 0x00, 0x46, 0x00, 0x00, 0x60, 0x03, 0x0A, 0xFF, 0x04, 0x00, 0x16, 0x01,
    0x00, 0x01, 0x00, 0x01, 0x00, 0x01, 0x00, 0x0F, 0xC3, 0x01, 0xC1, 0x00, 0x46, 0x00, 0x00, 0x60, 0x03, 0x0A, 0xFF, 0x01, 0x01, 0x0F, 0x00,
};
static const uint8_t set_answer[] = { 0x00, 0x01, 0x00, 0x01, 0x00, 0x01, 0x00, 0x04, 0xC5, 0x01, 0xC1, 0x00 };
static const uint8_t action_answer[] = { 0x00, 0x01, 0x00, 0x01, 0x00, 0x01, 0x00, 0x05, 0xC7, 0x01, 0xC1, 0x00, 0x00 };

/* A meter in mode 5 whose export limiter executes script 1, which cuts the supply, at ten samples
 * over 5,000 watts. */
static const char exporting[] =
    "RELAYTRACE 2\ndevice 52454C415931\nstate 1\nmode 5\nvalue 0\nnow -\n"
    "normal 4294967295\nemergency 4294967295\nminover 0\nminunder 0\nprofile 0 FFFFFFFFFFFFFFFFFF8000FF 0\ngroups\nactions 0 0\nover 0 0\nunder 0 0\n"
    "xvalue 0\nxnormal 5000\nxemergency 4294967295\nxminover 1\nxminunder 0\nxprofile 0 FFFFFFFFFFFFFFFFFF8000FF 0\nxgroups\nxactions 1 0\nxover 0 0\nxunder 0 0\n"
    "scripts 010102021200010101020516021200460906000060030AFF0F010F00\n"
    "schedule 0 0 5 0100\nschedule 1 0 5 0100\nschedule 2 0 5 0100\nschedule 3 0 5 0100\nevents 0\n";

/* Ends the program with status 1 and this description unless `is_so`. */
static void need(bool is_so, const char *what)
{
    if (!is_so) {
        printf("failed: %s\n", what);
        exit(1);
    }
}

/* Checks control_state, control_mode and output_state of a meter. */
static void check_state(struct meter *meter, uint8_t wanted_state, uint8_t wanted_mode, bool wanted_supply)
{
    uint8_t state, mode;
    bool is_on;
    need(meter_control_state(meter, &state) == METER_OK && state == wanted_state, "meter_control_state");
    need(meter_control_mode(meter, &mode) == METER_OK && mode == wanted_mode, "meter_control_mode");
    need(meter_supply(meter, &is_on) == METER_OK && is_on == wanted_supply, "meter_supply");
}

/* Whether the limiters fired this many times. */
static bool is_fired(struct meter_fired fired, uint16_t over, uint16_t under, uint16_t export_over, uint16_t export_under)
{
    return fired.over == over && fired.under == under && fired.export_over == export_over && fired.export_under == export_under;
}

/* Checks that the next frame of a session is this answer. */
static void answers(struct meter *meter, uint8_t session, const uint8_t *answer, size_t count)
{
    uint8_t frame[LONGEST_FRAME];
    size_t length;
    need(meter_next(meter, session, frame, sizeof frame, &length) == METER_OK && length == count && memcmp(frame, answer, count) == 0, "meter_next");
}

/* On a closed handle each call returns METER_NOT_OPEN and zeros. */
static void nothing_is_open(struct meter *meter)
{
    uint8_t byte = 1, frame[1] = { 7 };
    uint32_t watts[1] = { 1 }, moment = 1;
    size_t length = 1;
    bool is_on = true;
    struct meter_fired fired = { 1, 1, 1, 1 };
    need(meter_open_session(meter, 0) == METER_NOT_OPEN && meter_feed(meter, 0, frame, 1) == METER_NOT_OPEN && meter_finish(meter, 0) == METER_NOT_OPEN, "sessions of a closed handle");
    need(meter_next(meter, 0, frame, 1, &length) == METER_NOT_OPEN && length == 0 && frame[0] == 7 && meter_close_session(meter, 0) == METER_NOT_OPEN, "frames of a closed handle");
    need(meter_press(meter, &byte) == METER_NOT_OPEN && byte == 0, "a press of a closed handle");
    need(meter_samples(meter, watts, 1, &fired) == METER_NOT_OPEN && is_fired(fired, 0, 0, 0, 0), "samples of a closed handle");
    fired.over = 1;
    need(meter_sample_pairs(meter, watts, 1, watts, 1, &fired) == METER_NOT_OPEN && is_fired(fired, 0, 0, 0, 0), "pairs of a closed handle");
    byte = 1;
    need(meter_moment(meter, 5, &byte) == METER_NOT_OPEN && byte == 0, "a moment of a closed handle");
    byte = 1;
    need(meter_control_state(meter, &byte) == METER_NOT_OPEN && byte == 0, "the state of a closed handle");
    byte = 1;
    need(meter_control_mode(meter, &byte) == METER_NOT_OPEN && byte == 0, "the mode of a closed handle");
    need(meter_supply(meter, &is_on) == METER_NOT_OPEN && !is_on, "the supply of a closed handle");
    need(meter_last_moment(meter, &moment) == METER_NOT_OPEN && moment == 0, "the last moment of a closed handle");
    length = 1;
    need(meter_export(meter, frame, 1, &length) == METER_NOT_OPEN && length == 0 && frame[0] == 7, "the trace of a closed handle");
}

/* Only names of 1 to 16 bytes, passwords of 1 to 32 bytes and 1 to 1,024 events open a meter. */
static void arguments_have_ranges(struct meter *meter)
{
    static const uint8_t seventeen[17] = "ABCDEFGHIJKLMNOPQ", thirty_three[33] = { 1 };
    need(meter_open(meter, name, 0, password, 8, 16) == METER_WRONG_ARGUMENT && meter_open(meter, seventeen, 17, password, 8, 16) == METER_WRONG_ARGUMENT, "the length of a name");
    need(meter_open(meter, name, 6, password, 0, 16) == METER_WRONG_ARGUMENT && meter_open(meter, name, 6, thirty_three, 33, 16) == METER_WRONG_ARGUMENT, "the length of a password");
    need(meter_open(meter, name, 6, password, 8, 0) == METER_WRONG_ARGUMENT && meter_open(meter, name, 6, password, 8, 1025) == METER_WRONG_ARGUMENT, "the number of events");
    nothing_is_open(meter);
}

/* A session is opened once, answers each whole frame, and is closed; its client cuts the supply. */
static void sessions_switch_the_supply(struct meter *meter)
{
    uint8_t frame[LONGEST_FRAME], code;
    size_t length;
    need(meter_open_session(meter, 7) == METER_OK && meter_open_session(meter, 7) == METER_SESSION_TAKEN, "a session is open");
    need(meter_open_session(meter, 8) == METER_NO_SESSION && meter_feed(meter, 6, requests, 1) == METER_NO_SESSION, "sessions that are not open");
    need(meter_feed(meter, 7, requests, sizeof requests) == METER_OK, "meter_feed");
    need(meter_next(meter, 7, frame, 50, &length) == METER_NO_ROOM && length == 51, "a frame of 51 bytes does not fit 50");
    need(meter_next(meter, 7, frame, sizeof frame, &length) == METER_OK && length == 51, "the frame is sent later");
    answers(meter, 7, set_answer, sizeof set_answer);
    answers(meter, 7, action_answer, sizeof action_answer);
    need(meter_next(meter, 7, frame, sizeof frame, &length) == METER_WAIT && length == 0, "no fourth answer");
    check_state(meter, METER_DISCONNECTED, 1, false);
    need(meter_press(meter, &code) == METER_OK && code == 2, "a press of a switch that was cut remotely");
    need(meter_feed(meter, 7, requests, 3) == METER_OK && meter_finish(meter, 7) == METER_OK, "meter_finish");
    need(meter_next(meter, 7, frame, sizeof frame, &length) == METER_CUT && length == 0, "an input that ended within a frame");
    need(meter_close_session(meter, 7) == METER_OK && meter_close_session(meter, 7) == METER_NO_SESSION, "meter_close_session");
    need(meter_open_session(meter, 7) == METER_OK && meter_finish(meter, 7) == METER_OK, "the number is free again");
    need(meter_next(meter, 7, frame, sizeof frame, &length) == METER_CLOSED && length == 0, "an input that ended between two frames");
}

/* A moment before the last one is stale and changes nothing. */
static void moments_go_on(struct meter *meter)
{
    uint32_t moment = 1;
    uint8_t ran = 1;
    need(meter_last_moment(meter, &moment) == METER_NO_MOMENT && moment == 0, "a moment before the first");
    need(meter_moment(meter, 5, &ran) == METER_OK && ran == 0 && meter_moment(meter, 4, &ran) == METER_STALE && ran == 0, "meter_moment");
    need(meter_last_moment(meter, &moment) == METER_OK && moment == 5, "meter_last_moment");
}

/* A meter that is resumed from its exported trace has the same state, and no session. */
static void traces_are_gone_on_from(struct meter *meter)
{
    static uint8_t text[65536];
    uint32_t moment;
    size_t length, short_length;
    need(meter_export(meter, text, 3, &short_length) == METER_NO_ROOM && text[0] == 0, "a trace that does not fit");
    need(meter_export(meter, text, sizeof text, &length) == METER_OK && length == short_length && memcmp(text, "RELAYTRACE 2\n", 13) == 0, "meter_export");
    meter_close(meter);
    nothing_is_open(meter);
    need(meter_resume(meter, text, length - 1, password, 8, 16) == METER_WRONG_ARGUMENT, "a trace without its last line end");
    need(meter_resume(meter, text, length, password, 8, 0) == METER_WRONG_ARGUMENT && meter_resume(meter, text, length, password, 0, 16) == METER_WRONG_ARGUMENT, "ranges of meter_resume");
    need(meter_resume(meter, text, length, password, 8, 16) == METER_OK && meter_resume(meter, text, length, password, 8, 16) == METER_IS_OPEN, "meter_resume");
    check_state(meter, METER_DISCONNECTED, 1, false);
    need(meter_last_moment(meter, &moment) == METER_OK && moment == 5, "the last moment");
    need(meter_close_session(meter, 7) == METER_NO_SESSION, "a resumed meter has no session");
    meter_close(meter);
    meter_close(meter);
}

/* Ten pairs of (0, 5001) make the export limiter fire over, and the import limiter under; the
 * supply is cut, and the button restores it. */
static void samples_reach_the_limiters(struct meter *meter)
{
    uint32_t imported[257] = { 0 }, exported[257];
    struct meter_fired fired;
    uint8_t code;
    for (size_t i = 0; i < 257; i++)
        exported[i] = 5001;
    need(meter_resume(meter, (const uint8_t *)exporting, sizeof exporting - 1, password, 8, 16) == METER_OK, "a meter with an export limiter");
    need(meter_sample_pairs(meter, imported, 10, exported, 10, &fired) == METER_OK && is_fired(fired, 0, 1, 1, 0), "ten pairs");
    check_state(meter, METER_READY_FOR_RECONNECTION, 5, false);
    need(meter_press(meter, &code) == METER_OK && code == 0, "meter_press");
    need(meter_sample_pairs(meter, imported, 1, exported, 1, &fired) == METER_OK && is_fired(fired, 0, 1, 0, 0), "one more pair");
    check_state(meter, METER_CONNECTED, 5, true);
    need(meter_sample_pairs(meter, imported, 1, exported, 2, &fired) == METER_WRONG_ARGUMENT && is_fired(fired, 0, 0, 0, 0), "uneven pairs");
    need(meter_sample_pairs(meter, imported, 257, exported, 257, &fired) == METER_WRONG_ARGUMENT && meter_samples(meter, imported, 257, &fired) == METER_WRONG_ARGUMENT, "257 samples");
    meter_close(meter);
    need(meter_open(meter, name, 6, password, 8, 1) == METER_OK, "a new meter");
    need(meter_samples(meter, (const uint32_t[]){ 10, 20 }, 2, &fired) == METER_OK && is_fired(fired, 0, 1, 0, 0), "meter_samples");
    need(meter_samples(meter, imported, 0, &fired) == METER_OK && is_fired(fired, 0, 0, 0, 0), "no samples");
    meter_close(meter);
}

int main(void)
{
    struct meter meter = { 0 };
    nothing_is_open(&meter);
    arguments_have_ranges(&meter);
    need(meter_open(&meter, name, 6, password, 8, 16) == METER_OK && meter_open(&meter, name, 6, password, 8, 16) == METER_IS_OPEN, "meter_open");
    check_state(&meter, METER_CONNECTED, 0, true);
    sessions_switch_the_supply(&meter);
    moments_go_on(&meter);
    traces_are_gone_on_from(&meter);
    samples_reach_the_limiters(&meter);
    puts("all exports passed");
    return 0;
}

/*
 * The super-loop of a meter. Ten times a second it samples the power, feeds the bytes of the modem,
 * sends pending frames, reads the button and sets the breaker; once a second it sets the clock. The
 * tables below simulate modem, power and button. Each change of the breaker is printed.
 *
 * A management client opens a session, writes a script that disconnects, binds the import limiter
 * to it (over 5,000 W for 2 s) and sets control mode 1. Later it disconnects and allows the
 * reconnection.
 */
#include "heap_pool.h"
#include "meter.h"
#include "platform.h"

#define TICKS 200
#define TICKS_A_SECOND 10
#define KEPT_EVENTS 64
#define CLIENT 0
#define LONGEST_FRAME 1032
#define MOST_SAMPLES 256

/* The memory of the meter. Firmware would put it into a section of its own. */
static uint8_t pool[65536];

/* ---- simulated hardware */

struct arrival {
    unsigned tick;
    size_t length;
    uint8_t bytes[80];
};

#define FRAME(length) 0x00, 0x01, 0x00, 0x01, 0x00, 0x01, 0x00, (length)
#define SWITCH 0x00, 0x46, 0x00, 0x00, 0x60, 0x03, 0x0A, 0xFF
#define LIMITER 0x00, 0x47, 0x00, 0x00, 0x11, 0x00, 0x00, 0xFF
#define SCRIPT_TABLE 0x00, 0x09, 0x00, 0x00, 0x0A, 0x00, 0x6A, 0xFF
#define SCRIPT(number) 0x02, 0x02, 0x09, 0x06, 0x00, 0x00, 0x0A, 0x00, 0x6A, 0xFF, 0x12, 0x00, (number)

static const struct arrival arrivals[] = {
    /* AARQ: low-level security with the password 12345678 (IEC 62056-5-3, COSEM-OPEN) */
    { 2, 64, { FRAME(56), 0x60, 0x36, 0xA1, 0x09, 0x06, 0x07, 0x60, 0x85, 0x74, 0x05, 0x08, 0x01, 0x01, 0x8A, 0x02, 0x07, 0x80, 0x8B, 0x07, 0x60, 0x85, 0x74, 0x05, 0x08, 0x02,
               0x01, 0xAC, 0x0A, 0x80, 0x08, '1', '2', '3', '4', '5', '6', '7', '8', 0xBE, 0x10, 0x04, 0x0E, 0x01, 0x00, 0x00, 0x00, 0x06, 0x5F, 0x1F, 0x04, 0x00, 0x00, 0x1C, 0x19,
               0x04, 0x00 } },
    /* SET the scripts: script 1 is remote_disconnect (class 9, attribute 2) */
    { 4, 49, { FRAME(41), 0xC1, 0x01, 0xC1, SCRIPT_TABLE, 0x02, 0x00, 0x01, 0x01, 0x02, 0x02, 0x12, 0x00, 0x01, 0x01, 0x01, 0x02, 0x05, 0x16, 0x02, 0x12, 0x00, 0x46, 0x09, 0x06,
               0x00, 0x00, 0x60, 0x03, 0x0A, 0xFF, 0x0F, 0x01, 0x0F, 0x00 } },
    /* SET threshold_normal 5,000 W (class 71, attribute 4) */
    { 6, 26, { FRAME(18), 0xC1, 0x01, 0xC1, LIMITER, 0x04, 0x00, 0x06, 0x00, 0x00, 0x13, 0x88 } },
    /* SET min_over_threshold_duration 2 s (attribute 6) */
    { 8, 26, { FRAME(18), 0xC1, 0x01, 0xC1, LIMITER, 0x06, 0x00, 0x06, 0x00, 0x00, 0x00, 0x02 } },
    /* SET actions: over the threshold script 1, under it none (attribute 11) */
    { 10, 49, { FRAME(41), 0xC1, 0x01, 0xC1, LIMITER, 0x0B, 0x00, 0x02, 0x02, SCRIPT(1), SCRIPT(0) } },
    /* SET control_mode 1 (class 70, attribute 4) */
    { 12, 23, { FRAME(15), 0xC1, 0x01, 0xC1, SWITCH, 0x04, 0x00, 0x16, 0x01 } },
    /* ACTION remote_disconnect, remote_reconnect (class 70, methods 1 and 2) */
    { 150, 23, { FRAME(15), 0xC3, 0x01, 0xC1, SWITCH, 0x01, 0x01, 0x0F, 0x00 } },
    { 170, 23, { FRAME(15), 0xC3, 0x01, 0xC1, SWITCH, 0x02, 0x01, 0x0F, 0x00 } },
};

static const unsigned presses[] = { 120, 160, 180 };

static uint32_t power_at(unsigned tick)
{
    return 50 <= tick && tick < 100 ? 6000 : 3000;
}

static bool is_pressed_at(unsigned tick)
{
    for (size_t i = 0; i < sizeof presses / sizeof presses[0]; i++)
        if (presses[i] == tick)
            return true;
    return false;
}

/* ---- output */

static void show(const char *text)
{
    size_t length = 0;
    while (text[length] != '\0')
        length++;
    platform_show(text, length);
}

static void show_number(unsigned number)
{
    char digits[10];
    size_t at = sizeof digits;
    do {
        digits[--at] = (char)('0' + number % 10);
        number /= 10;
    } while (number != 0);
    platform_show(digits + at, sizeof digits - at);
}

static void show_time(unsigned tick)
{
    show_number(tick / TICKS_A_SECOND);
    show(".");
    show_number(tick % TICKS_A_SECOND);
    show(" s: ");
}

/* ---- the loop */

static struct meter meter;

/* Samples that the meter has not taken: after out of memory, they are passed again with the next
 * ones. */
static uint32_t samples[MOST_SAMPLES];
static size_t sample_count;

static void take_sample(uint32_t watts)
{
    struct meter_fired fired;
    if (sample_count < MOST_SAMPLES)
        samples[sample_count++] = watts;
    if (meter_samples(&meter, samples, sample_count, &fired) == METER_OK)
        sample_count = 0;
}

/* Feeds the bytes of the modem. After out of memory, the bytes stay and are fed in the next turn of
 * the loop. */
static void feed_arrivals(unsigned tick)
{
    static size_t next;
    while (next < sizeof arrivals / sizeof arrivals[0] && arrivals[next].tick <= tick) {
        if (meter_feed(&meter, CLIENT, arrivals[next].bytes, arrivals[next].length) != METER_OK)
            return;
        next++;
    }
}

/* Sends all pending frames; here it only counts them. */
static unsigned send_frames(void)
{
    uint8_t frame[LONGEST_FRAME];
    size_t length;
    unsigned sent = 0;
    while (meter_next(&meter, CLIENT, frame, sizeof frame, &length) == METER_OK)
        sent++;
    return sent;
}

static void look_at_button(unsigned tick)
{
    uint8_t code;
    if (!is_pressed_at(tick))
        return;
    meter_press(&meter, &code);
    show_time(tick);
    show("button, result ");
    show_number(code);
    show("\n");
}

/* Sets the breaker, and prints each change of state or supply. */
static void set_breaker(unsigned tick)
{
    static uint8_t state_before = METER_CONNECTED;
    uint8_t state;
    bool is_on;
    meter_control_state(&meter, &state);
    meter_supply(&meter, &is_on);
    if (state != state_before) {
        show_time(tick);
        show("state ");
        show_number(state);
        show(is_on ? ", supply on\n" : ", supply off\n");
    }
    state_before = state;
}

int super_loop(void)
{
    static const uint8_t name[] = "RELAY1", password[] = "12345678";
    unsigned frames = 0;
    heap_pool_begin(pool, sizeof pool);
    if (meter_open(&meter, name, sizeof name - 1, password, sizeof password - 1, KEPT_EVENTS) != METER_OK || meter_open_session(&meter, CLIENT) != METER_OK)
        return 1;
    for (unsigned tick = 0; tick < TICKS; tick++) {
        uint8_t due;
        take_sample(power_at(tick));
        feed_arrivals(tick);
        frames += send_frames();
        look_at_button(tick);
        if (tick % TICKS_A_SECOND == 0)
            meter_moment(&meter, tick / TICKS_A_SECOND, &due);
        set_breaker(tick);
    }
    meter_close(&meter);
    show("frames sent: ");
    show_number(frames);
    show("\npool, bytes at most: ");
    show_number((unsigned)heap_pool_most());
    show(", left: ");
    show_number((unsigned)heap_pool_used());
    show("\n");
    return 0;
}

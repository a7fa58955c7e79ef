/* Cuts the power of a meter whose state is in simulated flash, wherever it writes.
 *
 *     power_cuts single [EVERY]    one cut, at every place of a run (or at every EVERYth)
 *     power_cuts double COUNT      two cuts at COUNT random pairs of places
 *     power_cuts unstable COUNT    the same, and the bits that a cut interrupted are unstable
 *     power_cuts damage            slots that are damaged, worn out or hold no trace; calls of the
 *                                  flash that fail; no memory
 *     power_cuts image             a run without a cut: writes the bytes of all slots
 *     power_cuts largest < TRACE   the sizes of this meter's state and of its longest export
 *
 * The run is the table `steps`. Its answers and the state after each step are worked out by hand
 * from the transitions of class 70 and the rules of class 71, as in tests/core_rows.py; none comes
 * from the library. After a cut all that the meter had in RAM is gone. It must be in the state
 * after the step whose save was cut, or before it, and never before a step whose answer was sent;
 * then it must do the rest of the table. On a failure the status is 1, and the last line describes
 * it. */
#include "flash_simulated.h"
#include "heap.h"
#include "heap_pool.h"
#include "stored_meter.h"

#include <setjmp.h>
#include <stdio.h>
#include <stdlib.h>
#include <string.h>

#define LONGEST_FRAME 1032
#define HEADER_BYTES 16
#define NEVER 4294967295u

/* ---- the run */

/* What happens to the meter in a step. */
enum kind { REQUEST, PRESS, SAMPLES, MOMENT };

/* What is checked of the meter: control_state and control_mode of class 70; the last moment, 0 if
 * there was none; the last sample; threshold_normal, min_over_threshold_duration and the script
 * over the threshold of class 71; whether the script table has the script that disconnects. */
struct row {
    uint8_t state, mode;
    uint32_t moment, watts, normal, min_over;
    uint8_t over;
    bool has_script;
};

/* A step of the run: an event, its expected result, and the state of the meter after it. */
struct step {
    const char *name;
    enum kind kind;
    const char *request, *answer;  /* of a REQUEST, without the wrapper */
    unsigned number;               /* SAMPLES: the watts; MOMENT: the moment; PRESS: its result */
    unsigned count;                /* of SAMPLES: how many */
    struct meter_fired fired;      /* of SAMPLES: how often the limiters fire */
    struct row after;
};

/* The class_id and the logical name of each object, and the values that are written, in
 * hexadecimal. */
#define SWITCH "0046 000060030AFF"
#define LIMITER "0047 0000110000FF"
#define REGISTER "0003 0100010700FF"
#define SCRIPT_TABLE "0009 00000A006AFF"
#define SCRIPTS "01 01 0202 12 0001 01 01 0205 16 02 12 0046 09 06 000060030AFF 0F 01 0F 00"
#define ACTION_TO(number) "0202 09 06 00000A006AFF 12 00" number

/* The state of a new meter: connected, mode 0, and a threshold that no sample exceeds. */
static const struct row new_meter = { 1, 0, 0, 0, NEVER, 0, 0, false };

static const struct step steps[] = {
    { "set control_mode 1", REQUEST, "C1 01 C1" SWITCH "04 00 16 01", "C5 01 C1 00", 0, 0, { 0 }, { 1, 1, 0, 0, NEVER, 0, 0, false } },
    { "moment 1000", MOMENT, NULL, NULL, 1000, 0, { 0 }, { 1, 1, 1000, 0, NEVER, 0, 0, false } },
    { "remote disconnect", REQUEST, "C3 01 C1" SWITCH "01 01 0F 00", "C7 01 C1 00 00", 0, 0, { 0 }, { 0, 1, 1000, 0, NEVER, 0, 0, false } },
    { "press, which mode 1 refuses", PRESS, NULL, NULL, 2, 0, { 0 }, { 0, 1, 1000, 0, NEVER, 0, 0, false } },
    { "get control_state", REQUEST, "C0 01 C1" SWITCH "03 00", "C4 01 C1 00 16 00", 0, 0, { 0 }, { 0, 1, 1000, 0, NEVER, 0, 0, false } },
    { "remote reconnect", REQUEST, "C3 01 C1" SWITCH "02 01 0F 00", "C7 01 C1 00 00", 0, 0, { 0 }, { 2, 1, 1000, 0, NEVER, 0, 0, false } },
    { "press", PRESS, NULL, NULL, 0, 0, { 0 }, { 1, 1, 1000, 0, NEVER, 0, 0, false } },
    { "set threshold_normal 5000", REQUEST, "C1 01 C1" LIMITER "04 00 06 00001388", "C5 01 C1 00", 0, 0, { 0 }, { 1, 1, 1000, 0, 5000, 0, 0, false } },
    { "set min_over_threshold_duration 2", REQUEST, "C1 01 C1" LIMITER "06 00 06 00000002", "C5 01 C1 00", 0, 0, { 0 }, { 1, 1, 1000, 0, 5000, 2, 0, false } },
    { "set scripts", REQUEST, "C1 01 C1" SCRIPT_TABLE "02 00" SCRIPTS, "C5 01 C1 00", 0, 0, { 0 }, { 1, 1, 1000, 0, 5000, 2, 0, true } },
    { "set actions", REQUEST, "C1 01 C1" LIMITER "0B 00 0202" ACTION_TO("01") ACTION_TO("00"), "C5 01 C1 00", 0, 0, { 0 }, { 1, 1, 1000, 0, 5000, 2, 1, true } },
    { "19 samples over the threshold", SAMPLES, NULL, NULL, 6000, 19, { 0 }, { 1, 1, 1000, 6000, 5000, 2, 1, true } },
    { "the 20th, which fires", SAMPLES, NULL, NULL, 6000, 1, { 1, 0, 0, 0 }, { 2, 1, 1000, 6000, 5000, 2, 1, true } },
    { "get the register", REQUEST, "C0 01 C1" REGISTER "02 00", "C4 01 C1 00 06 00001770", 0, 0, { 0 }, { 2, 1, 1000, 6000, 5000, 2, 1, true } },
    { "press again", PRESS, NULL, NULL, 0, 0, { 0 }, { 1, 1, 1000, 6000, 5000, 2, 1, true } },
    { "moment 2000", MOMENT, NULL, NULL, 2000, 0, { 0 }, { 1, 1, 2000, 6000, 5000, 2, 1, true } },
    { "set control_state, which is refused", REQUEST, "C1 01 C1" SWITCH "03 00 16 00", "C5 01 C1 03", 0, 0, { 0 }, { 1, 1, 2000, 6000, 5000, 2, 1, true } },
    { "10 samples under it", SAMPLES, NULL, NULL, 3000, 10, { 0, 1, 0, 0 }, { 1, 1, 2000, 3000, 5000, 2, 1, true } },
};

enum { STEPS = sizeof steps / sizeof steps[0] };

/* The state after this number of steps. */
static const struct row *row_after(size_t step_count)
{
    return step_count == 0 ? &new_meter : &steps[step_count - 1].after;
}

/* Whether two states are the same in all that is checked. */
static bool is_same_row(const struct row *one, const struct row *other)
{
    return one->state == other->state && one->mode == other->mode && one->moment == other->moment && one->watts == other->watts && one->normal == other->normal
        && one->min_over == other->min_over && one->over == other->over && one->has_script == other->has_script;
}

/* ---- the world around the meter, which no power cut changes */

/* The cuts of a run, the number of them that happened, and where power_cut continues. */
struct cut {
    unsigned long step;
    unsigned manner;
};

static struct cut cuts[2];
static size_t cut_count, cuts_done;
static bool is_unstable;
static jmp_buf power;

/* The steps whose effect was seen outside, those that were begun, and whether the meter was open
 * before. */
static size_t seen, begun;
static bool was_open;

/* ---- the RAM of the meter, which a power cut erases */

static _Alignas(16) uint8_t pool[1u << 18];
static struct stored_meter stored;

static const uint8_t name[] = "RELAY1", password[] = "12345678";

/* Ends the program with status 1, this description and the cuts so far, unless `is_so`. */
static void need(bool is_so, const char *what)
{
    if (!is_so) {
        printf("failed: %s (%zu steps seen, %zu begun", what, seen, begun);
        for (size_t i = 0; i < cuts_done; i++)
            printf("; cut at step %lu in manner %u", cuts[i].step, cuts[i].manner);
        puts(")");
        exit(1);
    }
}

/* Continues in `run` after a cut: the meter lost its power. */
static void power_cut(void)
{
    longjmp(power, 1);
}

/* Erases the RAM of the meter. */
static void lose_ram(void)
{
    memset(&stored, 0, sizeof stored);
    heap_pool_begin(pool, sizeof pool);
}

/* Opens the meter from the slots, as after a start. */
static enum stored_result open_stored(void)
{
    return stored_open(&stored, name, sizeof name - 1, password, sizeof password - 1);
}

/* ---- exchanges */

/* The value of a digit in hexadecimal. */
static unsigned digit(char letter)
{
    return (unsigned)(letter <= '9' ? letter - '0' : letter - 'A' + 10);
}

/* Writes a frame of the management client or of the meter to `bytes`: the wrapper, and the bytes in
 * `hex`. */
static size_t frame_of(const char *hex, uint8_t *bytes)
{
    static const uint8_t ports[] = { 0x00, 0x01, 0x00, 0x01, 0x00, 0x01 };
    size_t count = 8;
    memcpy(bytes, ports, sizeof ports);
    for (; *hex != '\0'; hex++)
        if (*hex != ' ') {
            bytes[count++] = (uint8_t)(digit(hex[0]) << 4 | digit(hex[1]));
            hex++;
        }
    bytes[6] = (uint8_t)((count - 8) >> 8);
    bytes[7] = (uint8_t)(count - 8);
    return count;
}

/* Feeds a request, and takes the one frame that answers it, after the state was saved. */
static size_t exchange(const char *request, uint8_t *frame)
{
    uint8_t bytes[LONGEST_FRAME];
    size_t length, none;
    need(meter_feed(&stored.meter, 0, bytes, frame_of(request, bytes)) == METER_OK, "meter_feed");
    need(meter_next(&stored.meter, 0, frame, LONGEST_FRAME, &length) == METER_OK, "meter_next");
    need(stored_save(&stored) == STORED_OK, "stored_save before the frame is sent");
    need(meter_next(&stored.meter, 0, bytes, sizeof bytes, &none) == METER_WAIT, "one answer");
    return length;
}

/* Sends a request, and checks its answer. */
static void ask(const char *request, const char *answer)
{
    uint8_t frame[LONGEST_FRAME], wanted[LONGEST_FRAME];
    size_t length = exchange(request, frame), count = frame_of(answer, wanted);
    need(length == count && memcmp(frame, wanted, count) == 0, request);
}

/* Opens a session, and checks that the AARQ of the management client is accepted. */
static void associate(void)
{
    need(meter_open_session(&stored.meter, 0) == METER_OK, "meter_open_session");
    ask("60 36 A1 09 06 07 60857405080101 8A 02 07 80 8B 07 60857405080201 AC 0A 80 08 3132333435363738 BE 10 04 0E 01 00 00 00 06 5F 1F 04 00 001E19 0400",
        "61 29 A1 09 06 07 60857405080101 A2 03 02 01 00 A3 05 A1 03 02 01 00 BE 10 04 0E 08 00 06 5F 1F 04 00 001E19 0400 0007");
}

/* ---- the state, as a client and the breaker see it */

/* Whether the meter is in the state of a row; `values` is its answer to the list below. */
static bool is_at(const struct row *row, const uint8_t *values, size_t count)
{
    uint8_t wanted[LONGEST_FRAME], state = 9, mode = 9;
    char text[400];
    uint32_t moment;
    bool is_on;
    int length = snprintf(text, sizeof text, "C4 03 C1 05 00 06 %08X 00 06 %08X 00 06 %08X 00 0202" ACTION_TO("0%u") ACTION_TO("00") "00 %s", (unsigned)row->watts, (unsigned)row->normal,
                          (unsigned)row->min_over, (unsigned)row->over, row->has_script ? SCRIPTS : "01 00");
    meter_control_state(&stored.meter, &state);
    meter_control_mode(&stored.meter, &mode);
    meter_supply(&stored.meter, &is_on);
    meter_last_moment(&stored.meter, &moment);
    return length > 0 && frame_of(text, wanted) == count && memcmp(values, wanted, count) == 0 && state == row->state && mode == row->mode && is_on == (row->state == METER_CONNECTED)
        && moment == row->moment;
}

/* Reads the list of values that `is_at` compares; returns the length of the answer. */
static size_t read_values(uint8_t *values)
{
    return exchange("C0 03 C1 05" REGISTER "02 00" LIMITER "04 00" LIMITER "06 00" LIMITER "0B 00" SCRIPT_TABLE "02 00", values);
}

/* The meter must be in the state after the steps that were begun, or after those that were seen. */
static void find_place(void)
{
    uint8_t values[LONGEST_FRAME];
    size_t count = read_values(values);
    if (is_at(row_after(begun), values, count))
        seen = begun;
    need(is_at(row_after(seen), values, count), "the meter is not in the state before or after the cut save");
    begun = seen;
}

/* Checks that the meter is in this state. */
static void need_row(const struct row *row, const char *what)
{
    uint8_t values[LONGEST_FRAME];
    size_t count = read_values(values);
    need(is_at(row, values, count), what);
}

/* ---- one run */

/* Applies the samples of a step, and checks how often the limiters fire. */
static void take_samples(const struct step *step)
{
    uint32_t watts[20];
    struct meter_fired fired;
    for (unsigned i = 0; i < step->count; i++)
        watts[i] = step->number;
    need(meter_samples(&stored.meter, watts, step->count, &fired) == METER_OK, step->name);
    need(fired.over == step->fired.over && fired.under == step->fired.under && fired.export_over == 0 && fired.export_under == 0, step->name);
}

/* Does a step, and saves the state before its effect is seen. */
static void do_step(const struct step *step)
{
    uint8_t number = 9;
    switch (step->kind) {
    case REQUEST:
        ask(step->request, step->answer);
        return;
    case PRESS:
        need(meter_press(&stored.meter, &number) == METER_OK && number == step->number, step->name);
        break;
    case SAMPLES:
        take_samples(step);
        break;
    case MOMENT:
        need(meter_moment(&stored.meter, step->number, &number) == METER_OK && number == 0, step->name);
        break;
    }
    need(stored_save(&stored) == STORED_OK, step->name);
}

/* Opens the meter. A cut of its very first write leaves a slot that is not whole: nothing was seen
 * of the meter yet, and the factory begins again. */
static void switch_on(void)
{
    enum stored_result result;
    lose_ram();
    result = open_stored();
    if (result == STORED_DAMAGED && !was_open) {
        need(meter_open_session(&stored.meter, 0) == METER_NOT_OPEN, "no meter is open");
        need(slots_clear(&stored.slots), "slots_clear");
        result = open_stored();
        need(result == STORED_NEW, "a new meter");
    }
    need(result == STORED_OK || (result == STORED_NEW && !was_open), "stored_open");
    was_open = true;
}

/* Does all steps on empty flash, with the cuts in `cuts`; after every second step the next slot is
 * erased in advance. Returns whether all cuts happened. */
static bool run(size_t count)
{
    flash_begin();
    flash_be_unstable(is_unstable);
    cut_count = count;
    cuts_done = seen = begun = 0;
    was_open = false;
    if (setjmp(power) != 0)
        cuts_done++;
    if (cuts_done < cut_count)
        flash_cut_at(cuts[cuts_done].step, cuts[cuts_done].manner, power_cut);
    else
        flash_cut_at(0, 0, NULL);
    flash_power_on();
    switch_on();
    associate();
    find_place();
    while (seen < STEPS) {
        begun = seen + 1;
        do_step(&steps[seen]);
        seen = begun;
        if (seen % 2 == 1)
            need(slots_erase_next(&stored.slots), "an erase in advance");
    }
    need_row(row_after(STEPS), "the state at the end");
    return cuts_done == cut_count;
}

/* ---- the commands */

static uint8_t last_text[SLOTS_TEXT_BYTES];
static size_t last_length;

/* The run without a cut. Each step that changes the state costs one write, and the first start one.
 * */
static unsigned long run_whole(void)
{
    unsigned long writes = 1;
    for (size_t i = 0; i < STEPS; i++)
        writes += !is_same_row(row_after(i), row_after(i + 1));
    run(0);
    need(stored.slots.sequence == writes, "the number of writes");
    need(slots_read(&stored.slots, last_text, sizeof last_text, &last_length), "the last text");
    printf("%zu steps, %lu writes, %lu bytes programmed; the text of the last state has %zu bytes\n", (size_t)STEPS, writes, flash_steps() - flash_erases(), last_length);
    return flash_steps();
}

/* The text of the last state must be that of the run without a cut. */
static void need_last_text(void)
{
    need(slots_hold(&stored.slots, last_text, last_length), "the text of the last state");
}

/* Runs the table with one cut at each place, or at every `every`th, in each manner. */
static void cut_once(unsigned long every)
{
    unsigned long places = run_whole(), runs = 0;
    for (unsigned long place = 1; place <= places; place += every) {
        unsigned manners = CUT_BYTE_MANNERS;
        for (unsigned manner = 0; manner < manners; manner++) {
            cuts[0] = (struct cut){ place, manner };
            need(run(1), "the cut");
            need_last_text();
            runs++;
            manners = flash_manners();
        }
    }
    printf("runs with one cut: %lu\n", runs);
}

/* A pseudorandom number below a bound; each run has the same sequence. */
static unsigned long chance(unsigned long below)
{
    static uint64_t state = 20260101;
    state = state * 6364136223846793005u + 1442695040888963407u;
    return (unsigned long)(state >> 33) % below;
}

/* The second cut is often within the two writes after the first one. */
static void cut_twice(unsigned long count)
{
    unsigned long places = run_whole(), both = 0;
    for (unsigned long i = 0; i < count; i++) {
        cuts[0] = (struct cut){ 1 + chance(places), (unsigned)chance(CUT_PROGRAM_MANNERS) };
        cuts[1] = (struct cut){ 1 + chance(i % 2 == 0 ? places : 2 * last_length), (unsigned)chance(CUT_ERASE_MANNERS) };
        both += run(2);
        need_last_text();
    }
    printf("runs with two cuts: %lu, and with the first alone, after which the run was shorter: %lu\n", both, count - both);
}

/* ---- damage */

/* The bytes of all slots after a run without a cut. */
static uint8_t image[FLASH_SLOTS][FLASH_SLOT_BYTES];

/* Starts again with the flash of `image`, changed by the caller afterwards. */
static void restore(void)
{
    memcpy(flash_bytes, image, sizeof image);
    flash_cut_at(0, 0, NULL);
    lose_ram();
}

/* Checks that the meter is not opened, with this result, and that no memory stays allocated. */
static void need_closed(enum stored_result wanted, const char *what)
{
    bool is_on;
    need(open_stored() == wanted, what);
    need(meter_supply(&stored.meter, &is_on) == METER_NOT_OPEN && heap_pool_used() == 0, what);
}

/* Checks that the meter is opened, in this state. */
static void need_open(const struct row *row, const char *what)
{
    need(open_stored() == STORED_OK, what);
    associate();
    need_row(row, what);
}

/* Each single bit of the newest slot is changed: the meter resumes from the slot before it. A bit
 * outside header and text changes nothing. */
static void flip_bits(unsigned newest)
{
    size_t end = FLASH_UNIT + last_length, changed = 0;
    for (size_t at = 0; at < end; at = at == HEADER_BYTES - 1 ? FLASH_UNIT : at + 1)
        for (unsigned bit = 0; bit < 8; bit++, changed++) {
            restore();
            flash_bytes[newest][at] ^= (uint8_t)(1u << bit);
            need_open(row_after(STEPS - 1), "the slot before a damaged one");
        }
    for (size_t at = FLASH_SLOT_BYTES - 1; at >= end; at -= 97) {
        restore();
        flash_bytes[newest][at] = 0;
        need_open(row_after(STEPS), "a bit outside the text");
    }
    printf("changed bits: %zu, each found\n", changed);
}

/* Erases the mark of a slot. */
static void remove_mark(unsigned slot)
{
    memset(flash_bytes[slot] + FLASH_SLOT_BYTES - FLASH_UNIT, 0xFF, FLASH_UNIT);
}

/* The newest slot has no mark: the meter resumes from the slot before it, and the number of the
 * next write is greater than that of both. No slot has a mark: the meter resumes from the newest
 * one. */
static void remove_marks(unsigned newest)
{
    uint32_t greatest = stored.slots.sequence;
    restore();
    remove_mark(newest);
    need_open(row_after(STEPS - 1), "the slot before one without a mark");
    need(stored.slots.sequence == greatest + 1, "the number after a slot without a mark");
    restore();
    for (unsigned slot = 0; slot < FLASH_SLOTS; slot++)
        remove_mark(slot);
    need_open(row_after(STEPS), "no slot has a mark");
}

/* No slot is whole, in several ways; the newest one is damaged and the next one was erased in
 * advance. */
static void damage_all(unsigned newest)
{
    restore();
    for (unsigned slot = 0; slot < FLASH_SLOTS; slot++)
        flash_bytes[slot][FLASH_UNIT + 100] ^= 1;
    need_closed(STORED_DAMAGED, "a changed bit in each slot");
    restore();
    for (unsigned slot = 0; slot < FLASH_SLOTS; slot++)
        memset(flash_bytes[slot], 0xFF, FLASH_UNIT);
    need_closed(STORED_DAMAGED, "no slot has a header");
    restore();
    for (unsigned slot = 0; slot < FLASH_SLOTS; slot++)
        memset(flash_bytes[slot], 0xFF, FLASH_SLOT_BYTES);
    flash_bytes[newest][FLASH_SLOT_BYTES - 1] = 0x7F;
    need_closed(STORED_DAMAGED, "one bit of all slots is programmed");
    flash_bytes[newest][FLASH_SLOT_BYTES - 1] = 0xFF;
    lose_ram();
    need(open_stored() == STORED_NEW, "empty flash");
    associate();
    need_row(&new_meter, "empty flash");
}

/* A text that is too long, the longest, damaged, or not a trace: each has a defined result. */
static void store_others(void)
{
    static const uint8_t text[] = "RELAYTRACE 3\n";
    static const uint8_t long_text[SLOTS_TEXT_BYTES + 1];
    size_t length;
    restore();
    slots_find(&stored.slots);
    need(!slots_write(&stored.slots, long_text, sizeof long_text) && slots_hold(&stored.slots, last_text, last_length), "a text that does not fit");
    need(slots_write(&stored.slots, long_text, SLOTS_TEXT_BYTES) && slots_hold(&stored.slots, long_text, SLOTS_TEXT_BYTES), "the longest text");
    need(!slots_hold(&stored.slots, long_text, SLOTS_TEXT_BYTES - 1), "the start of a text");
    flash_bytes[stored.slots.newest][FLASH_UNIT + SLOTS_TEXT_BYTES - 1] ^= 1;
    need(!slots_read(&stored.slots, stored.text, sizeof stored.text, &length), "a text that is read otherwise than before");
    need(slots_write(&stored.slots, text, sizeof text - 1), "a text that is not a trace");
    lose_ram();
    need_closed(STORED_REFUSED, "a text that is not a trace");
}

/* A slot can't be programmed any more. With two slots nothing is saved, so nothing may be sent;
 * with more, the slot is passed over. */
static void wear_out(unsigned newest)
{
    uint8_t code;
    restore();
    flash_wear_out((newest + 1) % FLASH_SLOTS);
    need_closed(STORED_FLASH_FAILED, "a start whose write fails");
    restore();
    flash_wear_out(FLASH_SLOTS);
    need_open(row_after(STEPS), "sound slots");
    /* (the start wrote to the slot after the newest one, so with two slots that one is next) */
    flash_wear_out(newest);
    for (unsigned i = 0; i < FLASH_SLOTS; i++) {
        enum stored_result result;
        need(meter_moment(&stored.meter, 3000 + i, &code) == METER_OK, "a moment");
        result = stored_save(&stored);
        if (FLASH_SLOTS > 2 && result == STORED_FLASH_FAILED)
            result = stored_save(&stored);
        need(result == (FLASH_SLOTS > 2 ? STORED_OK : STORED_FLASH_FAILED), "a slot that is worn out");
    }
    flash_wear_out(FLASH_SLOTS);
    need(stored_save(&stored) == STORED_OK, "a sound slot again");
}

/* The number of erases and programs so far. */
static unsigned long changes(void)
{
    return flash_calls(FLASH_ERASE) + flash_calls(FLASH_PROGRAM);
}

/* Each read of a start fails: the meter is not opened and the flash is unchanged. The same call
 * then opens the meter in its last state. */
static void fail_reads(void)
{
    unsigned long before = flash_calls(FLASH_READ), reads;
    restore();
    need(slots_find(&stored.slots) == SLOTS_FOUND, "sound slots");
    reads = flash_calls(FLASH_READ) - before;
    for (unsigned long number = 1; number <= reads; number++) {
        restore();
        before = changes();
        flash_fail(FLASH_READ, number);
        need_closed(STORED_FLASH_FAILED, "a start whose read fails");
        need(changes() == before, "a start whose read fails changes nothing");
        need_open(row_after(STEPS), "the start after a read that failed");
    }
    printf("reads of a start that failed: %lu\n", reads);
}

/* Each erase and each program of a save fails: the next save succeeds, and a start finds it. */
static void fail_changes(void)
{
    uint32_t moment = 6000, found;
    uint8_t code;
    for (unsigned long number = 0; number <= 4; number++) {
        enum stored_result result;
        restore();
        need_open(row_after(STEPS), "sound slots");
        need(meter_moment(&stored.meter, ++moment, &code) == METER_OK, "a moment");
        flash_fail(number == 0 ? FLASH_ERASE : FLASH_PROGRAM, number == 0 ? 1 : number);
        result = stored_save(&stored);
        need(result == STORED_FLASH_FAILED || (result == STORED_OK && number == 4), "a save whose call fails");
        flash_fail(FLASH_PROGRAM, 0);
        need(stored_save(&stored) == STORED_OK, "the save after a call that failed");
        lose_ram();
        need(open_stored() == STORED_OK && meter_last_moment(&stored.meter, &found) == METER_OK && found == moment, "the save after a call that failed is found");
    }
}

/* Allocates the whole pool; returns the number of blocks. */
static size_t take_all(void **blocks, size_t room)
{
    size_t count = 0;
    for (size_t size = sizeof pool; size >= 16 && count < room;) {
        struct rattle_tried tried = rattle_alloc(size, 16);
        if (tried.ok)
            blocks[count++] = tried.p;
        else
            size -= 16;
    }
    return count;
}

/* Out of memory, the state is not saved; later it is. */
static void refuse_memory(void)
{
    void *blocks[64];
    unsigned long erases;
    size_t used, count;
    uint8_t code;
    restore();
    need_open(row_after(STEPS), "ample memory");
    need(meter_moment(&stored.meter, 3500, &code) == METER_OK && stored_save(&stored) == STORED_OK, "a save");
    used = heap_pool_used();
    need(meter_moment(&stored.meter, 3501, &code) == METER_OK && stored_save(&stored) == STORED_OK && heap_pool_used() == used, "a save leaves no block");
    count = take_all(blocks, sizeof blocks / sizeof blocks[0]);
    erases = flash_erases();
    need(meter_moment(&stored.meter, 4000, &code) == METER_OK, "a moment");
    need(stored_save(&stored) == STORED_NO_MEMORY && flash_erases() == erases, "out of memory");
    while (count > 0)
        rattle_dealloc(blocks[--count]);
    need(stored_save(&stored) == STORED_OK && flash_erases() == erases + 1, "memory again");
    lose_ram();
    need(rattle_alloc(sizeof pool - 1024, 16).ok && open_stored() == STORED_NO_MEMORY, "a start out of memory");
}

/* A slot that was erased in advance is not erased again, and is erased again after a start. */
static void erase_ahead(void)
{
    unsigned long erases;
    uint8_t code;
    restore();
    need_open(row_after(STEPS), "sound slots");
    erases = flash_erases();
    need(slots_erase_next(&stored.slots) && slots_erase_next(&stored.slots) && flash_erases() == erases + 1, "one erase in advance");
    need(meter_moment(&stored.meter, 5000, &code) == METER_OK && stored_save(&stored) == STORED_OK && flash_erases() == erases + 1, "a write without an erase");
    need(slots_erase_next(&stored.slots), "an erase in advance");
    lose_ram();
    erases = flash_erases();
    need(open_stored() == STORED_OK && flash_erases() == erases + 1, "an erase after a start");
}

/* Checks the result of each kind of damage, of worn slots and of a full heap. */
static void damage(void)
{
    need(slots_crc(0, (const uint8_t *)"123456789", 9) == 0xCBF43926u, "the check value of the CRC-32");
    run_whole();
    memcpy(image, flash_bytes, sizeof image);
    flip_bits(stored.slots.newest);
    restore();
    slots_find(&stored.slots);
    remove_marks(stored.slots.newest);
    restore();
    slots_find(&stored.slots);
    damage_all(stored.slots.newest);
    store_others();
    restore();
    slots_find(&stored.slots);
    wear_out(stored.slots.newest);
    fail_reads();
    fail_changes();
    refuse_memory();
    erase_ahead();
    puts("all results of damaged slots are as defined");
}

/* ---- sizes */

#define LONGEST_DATA 8192
#define BLOCK 992

/* A SET, in blocks, of an octet-string that is 8,192 bytes with its tag and length; there is no
 * such object. */
static void set_longest(void)
{
    static uint8_t data[LONGEST_DATA] = { 0x09, 0x82, 0x1F, 0xFC };
    for (size_t at = 0, number = 1; at < sizeof data; at += BLOCK, number++) {
        size_t rest = sizeof data - at, count = rest < BLOCK ? rest : BLOCK;
        uint8_t frame[LONGEST_FRAME];
        char text[2 * LONGEST_FRAME];
        int length = number == 1 ? sprintf(text, "C1 02 C1 FFFF FFFFFFFFFFFF FF 00 00 %08zX 82 %04zX", number, count)
                                 : sprintf(text, "C1 03 C1 %02X %08zX 82 %04zX", rest <= BLOCK, number, count);
        for (size_t i = 0; i < count; i++)
            length += sprintf(text + length, "%02X", data[at + i]);
        need(exchange(text, frame) == (rest <= BLOCK ? 16 : 15), "a block of a SET");
        need(rest > BLOCK || frame[11] == 4, "a SET of an object that does not exist");
    }
}

/* The meter whose state standard input has, as the only text of the slots. */
static void largest(void)
{
    static uint8_t text[2 * STORED_EXPORT_BYTES];
    size_t length = fread(text, 1, sizeof text, stdin), exported;
    flash_begin();
    lose_ram();
    slots_find(&stored.slots);
    need(slots_write(&stored.slots, text, length) && open_stored() == STORED_OK && slots_hold(&stored.slots, text, length), "the state is that of the trace");
    associate();
    printf("state %zu, ", length);
    set_longest();
    need(meter_export(&stored.meter, text, sizeof text, &exported) == METER_OK, "meter_export");
    printf("export %zu, heap at most %zu\n", exported, heap_pool_most());
}

int main(int count, char **words)
{
    const char *command = count >= 2 ? words[1] : "";
    unsigned long number = count == 3 ? strtoul(words[2], NULL, 10) : 1;
    if (strcmp(command, "single") == 0 && number != 0)
        cut_once(number);
    else if (strcmp(command, "double") == 0)
        cut_twice(number);
    else if (strcmp(command, "unstable") == 0) {
        is_unstable = true;
        cut_twice(number);
    } else if (strcmp(command, "damage") == 0)
        damage();
    else if (strcmp(command, "image") == 0)
        return !(run(0) && fwrite(flash_bytes, sizeof flash_bytes, 1, stdout) == 1);
    else if (strcmp(command, "largest") == 0)
        largest();
    else
        return 2;
    return 0;
}

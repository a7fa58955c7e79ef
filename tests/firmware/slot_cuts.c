/* Writes texts to slots in simulated flash that has its power cut, or whose calls fail, at random
 * places. It needs neither the library nor a heap.
 *
 *     slot_cuts bytes COUNT       cuts within bytes and erases
 *     slot_cuts units COUNT       also any bits of the unit of a cut are missing
 *     slot_cuts unstable COUNT    also the bits that a cut interrupted are unstable
 *     slot_cuts failing COUNT     cuts as for units; programs and erases fail, or a program leaves
 *                                 out a byte and does not notice it
 *     slot_cuts both COUNT        cuts as for unstable; programs and erases fail
 *     slot_cuts reads COUNT       cuts as for units; at each start one read fails
 *
 * COUNT is the number of runs, each of 20 writes. A write that returned true was answered. As
 * stored_open does, a start finds the newest text and writes it again before anything is answered.
 * What it finds must be the text that was answered last, or one that was begun since. The last line
 * has the number of bad runs by kind; the status is 1 if there is one:
 *
 *     damaged      a start found no whole slot, after a text was answered
 *     lost         a start found a text older than the last answered one
 *     abandoned    a start found a text that was never answered, after a newer one was
 *     touched      a start whose read failed erased or programmed the flash */
#include "flash_simulated.h"
#include "slots.h"

#include <setjmp.h>
#include <stdio.h>
#include <stdlib.h>
#include <string.h>

#define WRITES 20
#define MOST_CUTS 7
#define LONGEST 120
#define HEADER_BYTES 16

/* ---- the model */

struct model {
    const char *name;
    unsigned program_manners;  /* of a cut */
    bool is_unstable, calls_fail, reads_fail;
};

static const struct model models[] = {
    { "bytes", CUT_BYTE_MANNERS, false, false, false },
    { "units", CUT_PROGRAM_MANNERS, false, false, false },
    { "unstable", CUT_PROGRAM_MANNERS, true, false, false },
    { "failing", CUT_PROGRAM_MANNERS, false, true, false },
    { "both", CUT_PROGRAM_MANNERS, true, true, false },
    { "reads", CUT_PROGRAM_MANNERS, false, false, true },
};

static const struct model *model;

/* ---- the world, which no power cut changes */

/* How a run ended: well, in one of the bad manners, or (only within a run) by a cut. */
enum end { GOOD, DAMAGED, LOST, ABANDONED, TOUCHED, ENDS, CUT };

static const char *const end_names[ENDS] = { "good", "damaged", "lost", "abandoned", "touched" };

static jmp_buf outside;
static unsigned long cuts_done, all_cuts, unread_starts;

/* The texts are numbered from 1: the last one that was begun, the last that was answered (0 for
 * none), and the last one that had been begun when that was. */
static uint32_t last, answered, last_then;

/* ---- the RAM, which a power cut erases */

static struct slots slots;

/* A pseudorandom number below a bound. */
static unsigned long chance(unsigned long below)
{
    static uint64_t state = 20260101;
    state = state * 6364136223846793005u + 1442695040888963407u;
    return (unsigned long)(state >> 33) % below;
}

static void power_cut(void)
{
    longjmp(outside, CUT);
}

static void end_run(enum end end)
{
    longjmp(outside, (int)end);
}

/* ---- texts */

/* Makes the text of a number: the number, and bytes that follow from it. */
static size_t make_text(uint32_t number, uint8_t *text)
{
    size_t length = 8 + number * 29 % (LONGEST - 8);
    for (size_t i = 0; i < length; i++)
        text[i] = (uint8_t)(i < 4 ? number >> 8 * i : (number * 2654435761u + i * 40503u) >> 9);
    return length;
}

/* The number of the newest text, which must be whole; 0 if it can't be read. */
static uint32_t read_number(void)
{
    uint8_t text[SLOTS_TEXT_BYTES], wanted[LONGEST];
    uint32_t number;
    size_t length;
    if (!slots_read(&slots, text, sizeof text, &length))
        return 0;
    number = text[0] | (uint32_t)text[1] << 8 | (uint32_t)text[2] << 16 | (uint32_t)text[3] << 24;
    if (length != make_text(number, wanted) || memcmp(text, wanted, length) != 0)
        end_run(DAMAGED);
    return number;
}

/* ---- one run */

/* Cuts the next write of a text, often at the end of its text, header or mark, or in its erase. */
static void prepare_cut(size_t length)
{
    unsigned long text = (length + FLASH_UNIT - 1) / FLASH_UNIT * FLASH_UNIT;
    unsigned long places[] = { 1, 1 + text, 1 + text + FLASH_UNIT, 1 + text + 2 * FLASH_UNIT,
                               1 + chance(1 + text + 2 * FLASH_UNIT) };
    unsigned long place = places[chance(sizeof places / sizeof places[0])];
    unsigned long manners = place == 1 ? CUT_ERASE_MANNERS : model->program_manners;
    if (cuts_done < MOST_CUTS && chance(2) == 0)
        flash_cut_at(place, (unsigned)chance(manners), power_cut);
}

/* Writes the text of a number; returns whether it was written, and so answered. */
static bool write_text(uint32_t number)
{
    uint8_t text[LONGEST];
    size_t length = make_text(number, text);
    bool is_written;
    prepare_cut(length);
    if (model->calls_fail && chance(3) == 0)
        flash_fail(chance(4) == 0 ? FLASH_ERASE : FLASH_PROGRAM, 1 + chance(3));
    if (model->calls_fail && chance(6) == 0)
        flash_wear_out(slots.next);
    is_written = slots_write(&slots, text, length);
    flash_wear_out(FLASH_SLOTS);
    flash_cut_at(0, 0, NULL);
    flash_fail(FLASH_ERASE, 0);
    flash_fail(FLASH_PROGRAM, 0);
    if (is_written) {
        answered = number;
        last_then = last;
    }
    return is_written;
}

/* Finds the slots. A read of a start that fails must leave the flash as it is. */
static enum slots_found find(void)
{
    unsigned long changes = flash_calls(FLASH_ERASE) + flash_calls(FLASH_PROGRAM);
    enum slots_found found = slots_find(&slots);
    if (found != SLOTS_UNREAD)
        return found;
    unread_starts++;
    if (slots_erase_next(&slots) || slots_write(&slots, (const uint8_t *)"", 0)
        || flash_calls(FLASH_ERASE) + flash_calls(FLASH_PROGRAM) != changes)
        end_run(TOUCHED);
    return found;
}

/* One try of a start, as in stored_open: finds the newest text and writes it again. Returns false
 * if the flash failed. */
static bool try_start(void)
{
    enum slots_found found = find();
    uint32_t number;
    if (found == SLOTS_UNREAD)
        return false;
    if (answered == 0 && (found == SLOTS_EMPTY || found == SLOTS_DAMAGED))
        return slots_clear(&slots) && write_text(++last);
    if (found != SLOTS_FOUND)
        end_run(DAMAGED);
    number = read_number();
    if (number == 0)
        return false;
    if (number != answered && number <= last_then)
        end_run(number < answered ? LOST : ABANDONED);
    return write_text(number);
}

static void start(void)
{
    flash_power_on();
    memset(&slots, 0, sizeof slots);
    if (model->reads_fail)
        flash_fail(FLASH_READ, 1 + chance(20));
    while (!try_start())
        ;
    flash_fail(FLASH_READ, 0);
}

/* Starts, and writes the texts that are missing. A write that fails is tried again, with the same
 * text or a newer one. */
static void use(void)
{
    start();
    while (last < WRITES) {
        last++;
        while (!write_text(last))
            last += (uint32_t)chance(2);
        if (chance(3) == 0)
            slots_erase_next(&slots);
    }
    start();
}

/* Does one run on empty flash; returns how it ended. */
static enum end run(void)
{
    int end;
    flash_begin();
    flash_be_unstable(model->is_unstable);
    cuts_done = last = answered = last_then = 0;
    end = setjmp(outside);
    flash_wear_out(FLASH_SLOTS);
    flash_cut_at(0, 0, NULL);
    flash_fail(FLASH_ERASE, 0);
    flash_fail(FLASH_PROGRAM, 0);
    if (end != GOOD && end != CUT)
        return (enum end)end;
    if (end == CUT)
        cuts_done++, all_cuts++;
    use();
    return GOOD;
}

int main(int count, char **words)
{
    unsigned long runs[ENDS] = { 0 }, number = count == 3 ? strtoul(words[2], NULL, 10) : 0;
    for (size_t i = 0; count == 3 && i < sizeof models / sizeof models[0]; i++)
        if (strcmp(words[1], models[i].name) == 0)
            model = &models[i];
    if (model == NULL || number == 0)
        return 2;
    for (unsigned long i = 0; i < number; i++)
        runs[run()]++;
    printf("%d slots, %s: %lu cuts, %lu starts with a read that failed; runs:", FLASH_SLOTS,
           model->name, all_cuts, unread_starts);
    for (size_t i = 0; i < ENDS; i++)
        printf(" %s %lu%s", end_names[i], runs[i], i + 1 < ENDS ? "," : "\n");
    return runs[GOOD] != number;
}

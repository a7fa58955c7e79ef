/* Flash in memory (flash_simulated.h). Ends the program if a byte is programmed twice between two
 * erases, or anything but whole units. */
#include "flash_simulated.h"

#include <stdio.h>
#include <stdlib.h>
#include <string.h>

uint8_t flash_bytes[FLASH_SLOTS][FLASH_SLOT_BYTES];

/* The bits of each byte that are unstable, and their values before the call that was cut. */
static uint8_t unstable[FLASH_SLOTS][FLASH_SLOT_BYTES], old_bits[FLASH_SLOTS][FLASH_SLOT_BYTES];

/* The units that a whole erase left blank, and that were not programmed since. */
static bool is_fresh[FLASH_SLOTS][FLASH_SLOT_BYTES / FLASH_UNIT];

static unsigned long steps, erases, cut_step, calls[FLASH_CALLS], failing[FLASH_CALLS];
static unsigned cut_manner, manners, worn = FLASH_SLOTS;
static bool was_erasing, is_unstable;
static void (*at_cut)(void);

static void need(bool is_so, const char *what)
{
    if (!is_so) {
        printf("failed: flash: %s\n", what);
        exit(1);
    }
}

/* ---- chance */

/* Some of the bits of a byte, others at each place. */
static uint8_t some_bits(size_t at)
{
    return (uint8_t)((at * 2654435761u + steps * 40503u) >> 13);
}

/* A pseudorandom number below a bound. A program always has the same sequence. */
static size_t chance(size_t below)
{
    static uint64_t state = 20261130;
    state = state * 6364136223846793005u + 1442695040888963407u;
    return (size_t)(state >> 33) % below;
}

/* Up to three bits of a unit or of a slot. */
static void choose_bits(uint8_t *bits, size_t count)
{
    memset(bits, 0, count);
    for (size_t i = 1 + chance(3); i > 0; i--)
        bits[chance(count)] |= (uint8_t)(1u << chance(8));
}

/* ---- the state of the flash */

void flash_begin(void)
{
    memset(flash_bytes, 0xFF, sizeof flash_bytes);
    memset(unstable, 0, sizeof unstable);
    memset(is_fresh, 0, sizeof is_fresh);
    memset(calls, 0, sizeof calls);
    memset(failing, 0, sizeof failing);
    worn = FLASH_SLOTS;
    is_unstable = false;
    erases = 0;
    flash_cut_at(0, 0, NULL);
}

void flash_cut_at(unsigned long step, unsigned manner, void (*power_cut)(void))
{
    steps = 0;
    cut_step = step;
    cut_manner = manner;
    at_cut = power_cut;
}

unsigned long flash_steps(void)
{
    return steps;
}

unsigned long flash_erases(void)
{
    return erases;
}

bool flash_was_erasing(void)
{
    return was_erasing;
}

unsigned flash_manners(void)
{
    return manners;
}

void flash_be_unstable(bool is_so)
{
    is_unstable = is_so;
}

void flash_wear_out(unsigned slot)
{
    worn = slot;
}

void flash_fail(enum flash_call call, unsigned long number)
{
    failing[call] = number != 0 ? calls[call] + number : 0;
}

unsigned long flash_calls(enum flash_call call)
{
    return calls[call];
}

/* Counts a call, and returns whether it is the one that fails. */
static bool fails(enum flash_call call)
{
    return ++calls[call] == failing[call];
}

/* Leaves a byte with the value `now` after a cut, which interrupted the change of these bits. */
static void interrupt(unsigned slot, size_t at, uint8_t now, uint8_t bits)
{
    if (is_unstable) {
        unstable[slot][at] |= bits;
        old_bits[slot][at] = flash_bytes[slot][at];
    }
    flash_bytes[slot][at] = now;
}

void flash_power_on(void)
{
    size_t manner = chance(4);
    for (unsigned slot = 0; slot < FLASH_SLOTS; slot++)
        for (size_t at = 0; at < FLASH_SLOT_BYTES; at++) {
            uint8_t mask = unstable[slot][at], read = old_bits[slot][at];
            if (mask == 0)
                continue;
            if (manner == 1)
                read = (uint8_t)~read;
            if (manner >= 2)
                read = (uint8_t)chance(256);
            flash_bytes[slot][at] = (uint8_t)((flash_bytes[slot][at] & ~mask) | (read & mask));
        }
}

/* ---- erase */

/* The byte `at` after an erase that did not end. */
static uint8_t erased_partly(unsigned manner, size_t at, uint8_t byte)
{
    const bool is_first = at < FLASH_SLOT_BYTES / 2;
    switch (manner) {
    case 1:
        return is_first ? 0xFF : byte;
    case 2:
        return is_first ? byte : 0xFF;
    case 3:
        return byte | some_bits(at);
    case 4:
        return byte & some_bits(at);
    case 5:
        return 0xFF;
    default:
        return byte;
    }
}

/* Erases a slot partly. The bits that it changed are unstable if they are some of each byte; in the
 * other manners, up to three bits are. */
static void erase_partly(unsigned slot, unsigned manner)
{
    static uint8_t few[FLASH_SLOT_BYTES];
    choose_bits(few, sizeof few);
    for (size_t at = 0; at < FLASH_SLOT_BYTES; at++) {
        uint8_t byte = flash_bytes[slot][at], now = erased_partly(manner, at, byte);
        bool is_each = manner == 3 || manner == 4;
        interrupt(slot, at, now, is_each ? byte ^ now : few[at] & (uint8_t)~byte);
    }
}

bool flash_erase(unsigned slot)
{
    need(slot < FLASH_SLOTS, "a slot that does not exist");
    memset(is_fresh[slot], 0, sizeof is_fresh[slot]);
    if (++steps == cut_step) {
        was_erasing = true;
        manners = CUT_ERASE_MANNERS;
        erase_partly(slot, cut_manner);
        at_cut();
    }
    erases++;
    if (fails(FLASH_ERASE)) {
        erase_partly(slot, (unsigned)chance(CUT_ERASE_MANNERS));
        return false;
    }
    memset(flash_bytes[slot], 0xFF, FLASH_SLOT_BYTES);
    memset(unstable[slot], 0, FLASH_SLOT_BYTES);
    memset(is_fresh[slot], 1, sizeof is_fresh[slot]);
    return true;
}

/* ---- program */

/* Programs a unit without up to three of its bits, or any of its bits. */
static void program_partly(unsigned slot, size_t at, const uint8_t *bytes, bool is_few)
{
    uint8_t missing[FLASH_UNIT];
    choose_bits(missing, sizeof missing);
    for (size_t i = 0; i < FLASH_UNIT; i++) {
        uint8_t now = flash_bytes[slot][at + i], bits = now & (uint8_t)~bytes[i];
        uint8_t left = is_few ? bits & missing[i] : bits;
        interrupt(slot, at + i, (uint8_t)((now & bytes[i]) | (left & chance(256))), left);
    }
}

/* Programs one byte, unless the slot is worn out. */
static void program_byte(unsigned slot, size_t at, uint8_t byte)
{
    uint8_t now = flash_bytes[slot][at];
    if (++steps == cut_step) {
        uint8_t left = cut_manner == 0 ? byte | some_bits(at) : byte;
        interrupt(slot, at, now & left, now & (uint8_t)~byte);
        at_cut();
    }
    if (slot != worn || at != FLASH_UNIT)
        flash_bytes[slot][at] = now & byte;
}

/* Programs one unit, which is cut if it has the step of the cut. */
static void program_unit(unsigned slot, size_t at, const uint8_t *bytes)
{
    if (steps < cut_step && cut_step <= steps + FLASH_UNIT) {
        was_erasing = false;
        manners = cut_step == steps + FLASH_UNIT ? CUT_PROGRAM_MANNERS : CUT_BYTE_MANNERS;
        if (cut_manner == 2 || cut_manner == 3) {
            program_partly(slot, at, bytes, cut_manner == 2);
            at_cut();
        }
    }
    for (size_t i = 0; i < FLASH_UNIT; i++)
        program_byte(slot, at + i, bytes[i]);
}

bool flash_program(unsigned slot, size_t at, const uint8_t *bytes, size_t count)
{
    bool is_failing = fails(FLASH_PROGRAM);
    need(slot < FLASH_SLOTS && at + count <= FLASH_SLOT_BYTES, "a byte outside the slot");
    need(at % FLASH_UNIT == 0 && count % FLASH_UNIT == 0, "not whole units");
    for (size_t unit = at / FLASH_UNIT; unit < (at + count) / FLASH_UNIT; unit++) {
        need(is_fresh[slot][unit], "a unit that is not erased");
        is_fresh[slot][unit] = false;
    }
    for (size_t done = 0; done < count; done += FLASH_UNIT)
        if (is_failing)
            program_partly(slot, at + done, bytes + done, chance(2) == 0);
        else
            program_unit(slot, at + done, bytes + done);
    return !is_failing;
}

bool flash_read(unsigned slot, size_t at, uint8_t *bytes, size_t count)
{
    need(slot < FLASH_SLOTS && at + count <= FLASH_SLOT_BYTES, "a byte outside the slot");
    if (fails(FLASH_READ))
        return false;
    memcpy(bytes, flash_bytes[slot] + at, count);
    return true;
}

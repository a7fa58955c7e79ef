/* Flash in memory, to test on a PC what a power cut does: an erase sets all bytes to FF,
 * programming only clears bits, the power can fail at each programmed byte and during each erase,
 * bits that a cut interrupted can be read differently at each start, and a call can fail. */
#ifndef FLASH_SIMULATED_H
#define FLASH_SIMULATED_H

#include "flash.h"

/* The bytes as they are read now. */
extern uint8_t flash_bytes[FLASH_SLOTS][FLASH_SLOT_BYTES];

/* What a cut leaves. Of a program: some bits of the byte of the step; all of it; the unit of the
 * step without up to three of its bits; any bits of that unit. In the first two manners the bytes
 * before it are programmed and those after it are not. Of an erase: nothing; its first half; its
 * second half; some bits of each byte set; some cleared (before an erase some chips clear all
 * bits); all of it. */
enum { CUT_BYTE_MANNERS = 2, CUT_PROGRAM_MANNERS = 4, CUT_ERASE_MANNERS = 6 };

/* Makes all bytes FF, all slots sound, and each call succeed. */
void flash_begin(void);

/* Cuts the power at a step, counted from 1: each byte that is programmed is one, and each erase.
 * Then it calls `power_cut`, which must not return. If `step` is 0, there is no cut. */
void flash_cut_at(unsigned long step, unsigned manner, void (*power_cut)(void));

/* The steps since flash_cut_at, the number of all erases, and whether the last cut was during an
 * erase. */
unsigned long flash_steps(void);
unsigned long flash_erases(void);
bool flash_was_erasing(void);

/* The number of manners to try at the step of the last cut: those of an erase, those of a program
 * at the last byte of a unit, else those of a byte. */
unsigned flash_manners(void);

/* Whether the bits that later cuts interrupt are unstable; after flash_begin they are not. */
void flash_be_unstable(bool is_so);

/* The power returns: each unstable bit gets a new value, until its slot is erased. At a start in
 * four, all of them read as before the interrupted call, and at another one as after it. */
void flash_power_on(void);

/* The call of this kind with this number fails, counted from now and from 1; 0 for no call. A read
 * that fails changes nothing; a program leaves each unit, and an erase its slot, in one of the
 * manners of a cut. */
enum flash_call { FLASH_ERASE, FLASH_PROGRAM, FLASH_READ, FLASH_CALLS };
void flash_fail(enum flash_call call, unsigned long number);

/* The number of calls of a kind since flash_begin. */
unsigned long flash_calls(enum flash_call call);

/* From now on a byte of this slot can't be programmed, which flash_program does not notice. */
void flash_wear_out(unsigned slot);

#endif

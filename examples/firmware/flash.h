/* The flash that slots.c needs. A port sets the sizes and implements the functions;
 * flash_simulated.c does so on a PC.
 *
 * slots.c relies on the following, which nothing checks:
 *   - After flash_erase has returned true, each byte of the slot reads as FF until it is
 *     programmed.
 *   - A call changes only its own slot, even if the power fails during it: no two slots share an
 *     erase block.
 *   - A call that returned true is complete: no cache still holds some of it. */
#ifndef FLASH_H
#define FLASH_H

#include <stdbool.h>
#include <stddef.h>
#include <stdint.h>

/* The number of slots, at least 2. With 2, cuts at several starts in a row can lose the text if the
 * bits that they interrupt are unstable (docs/FIRMWARE.md, "Two slots"). */
#ifndef FLASH_SLOTS
#define FLASH_SLOTS 3
#endif

/* The bytes of a slot: whole erase blocks. stored_meter.h says how many a meter needs. */
#ifndef FLASH_SLOT_BYTES
#define FLASH_SLOT_BYTES 16384
#endif

/* The bytes that are programmed at once, at least 16: slots.c programs whole units, and each of
 * them only once between two erases, as flash with error correction demands. */
#ifndef FLASH_UNIT
#define FLASH_UNIT 16
#endif

/* Erases a slot. Returns false if the slot may not be blank. */
bool flash_erase(unsigned slot);

/* Programs `count` bytes of a slot from the byte `at`, both multiples of FLASH_UNIT. Returns false
 * if a byte may not be programmed. */
bool flash_program(unsigned slot, size_t at, const uint8_t *bytes, size_t count);

/* Reads `count` bytes of a slot from the byte `at`. Returns false only if the same call can succeed
 * later, for example if the bus failed. A power cut can leave a unit that error correction finds
 * damaged at each read: then return true, with bytes that are not FF. The checksum rejects them,
 * while false would stop each start. */
bool flash_read(unsigned slot, size_t at, uint8_t *bytes, size_t count);

#endif

/* A text in flash that outlives a power cut. It is written to the slots in turn, so that the slot
 * with the newest text is never erased or programmed; at start the newest slot is found.
 *
 * A slot consists of a header, from the byte FLASH_UNIT the text, and in its last unit the mark.
 * The header has four numbers of four bytes, the low byte first: FORMAT ("MSL1"), the sequence
 * number (one more for each write; flash wears out long before 2^32 writes), the length of the
 * text, and the CRC-32 of the first three numbers and the text. A write programs the text, then the header, reads both back, and only then
 * programs the mark, whose bytes are 0.
 *
 * A slot is whole if its checksum is right. A bit whose programming was cut may be read differently
 * at each start, so a whole slot can become torn, or a torn one whole. A slot that has any bit of a
 * mark was read back before, so its text and header stay as they are: at start the newest whole
 * slot with a mark is the newest text. If no slot has a mark, it is the newest whole one. */
#ifndef SLOTS_H
#define SLOTS_H

#include "flash.h"

/* The longest text of a slot, next to its header and its mark. */
#define SLOTS_TEXT_BYTES (FLASH_SLOT_BYTES - 2 * FLASH_UNIT)

/* The slots as slots_find found them. The members are for reading only. */
struct slots {
    unsigned newest;       /* the slot with the newest text; FLASH_SLOTS if there is none */
    unsigned next;         /* the slot for the next text; FLASH_SLOTS if nothing may be written */
    unsigned whole;        /* the number of whole slots that slots_find found */
    uint32_t sequence;     /* the greatest sequence number: of the whole slots, or the last write */
    bool is_next_erased;   /* whether the next slot was erased since slots_find */
};

enum slots_found {
    SLOTS_FOUND,           /* a slot is whole */
    SLOTS_EMPTY,           /* all bytes of all slots are FF */
    SLOTS_DAMAGED,         /* no slot is whole, and some byte is not FF */
    SLOTS_UNREAD           /* a read failed: the slots may be whole; call slots_find again */
};

/* Finds the newest text. It only reads. Unless it returns SLOTS_FOUND or SLOTS_EMPTY, slots_write
 * and slots_erase_next change nothing and return false. */
enum slots_found slots_find(struct slots *slots);

/* Reads the newest text and compares its checksum again. Returns false if it is longer than `room`,
 * or can't be read. */
bool slots_read(const struct slots *slots, uint8_t *text, size_t room, size_t *length);

/* Whether the newest text is this one; false also if a read fails. */
bool slots_hold(const struct slots *slots, const uint8_t *text, size_t length);

/* Writes a text to the next slot, reads it back, and marks the slot. If it returns false, the
 * newest text is that of before; another call tries the slot after the one that failed. */
bool slots_write(struct slots *slots, const uint8_t *text, size_t length);

/* Erases the next slot, unless this was done since the last write. Call it when there is time:
 * slots_write then only programs. */
bool slots_erase_next(struct slots *slots);

/* Erases all slots: only for a new meter, or in a workshop. */
bool slots_clear(struct slots *slots);

/* Continues a CRC-32 with further bytes; the first `crc` is 0. The polynomial is 0x04C11DB7, that
 * of IEEE 802.3, gzip and zlib: x^32 + x^26 + x^23 + x^22 + x^16 + x^12 + x^11 + x^10 + x^8 + x^7 +
 * x^5 + x^4 + x^2 + x + 1, bits reflected, initial value and final XOR FFFFFFFF. */
uint32_t slots_crc(uint32_t crc, const uint8_t *bytes, size_t count);

#endif

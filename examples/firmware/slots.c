/* A text in flash that outlives a power cut (slots.h). Uses no heap and no C library. */
#include "slots.h"

#define FORMAT 0x314C534Du
#define HEADER_BYTES 16
#define CHUNK 64

_Static_assert(FLASH_SLOTS >= 2, "a text needs two slots");
_Static_assert(FLASH_UNIT >= HEADER_BYTES, "the header is one unit");
_Static_assert(FLASH_SLOT_BYTES % FLASH_UNIT == 0, "a slot is whole units");
_Static_assert(FLASH_SLOT_BYTES > 2 * FLASH_UNIT, "a slot has a header, a text and a mark");

/* Where the mark is: the last unit of a slot. */
#define MARK_AT (FLASH_SLOT_BYTES - FLASH_UNIT)

struct header {
    uint32_t sequence;
    uint32_t length;
    uint32_t crc;
};

/* The answer to a question about a slot: none if a read failed, since the bytes may be right. */
enum answer { NO, YES, UNREAD };

/* What a slot holds. Of two whole slots a marked one is preferred, hence the order. */
enum content { CONTENT_UNREAD, CONTENT_BLANK, CONTENT_TORN, CONTENT_WHOLE, CONTENT_MARKED };

/* ---- bytes */

uint32_t slots_crc(uint32_t crc, const uint8_t *bytes, size_t count)
{
    /* The remainders of the sixteen halves of a byte, for the reflected polynomial 0xEDB88320. */
    static const uint32_t of_half[16] = {
        0x00000000, 0x1DB71064, 0x3B6E20C8, 0x26D930AC, 0x76DC4190, 0x6B6B51F4, 0x4DB26158, 0x5005713C,
        0xEDB88320, 0xF00F9344, 0xD6D6A3E8, 0xCB61B38C, 0x9B64C2B0, 0x86D3D2D4, 0xA00AE278, 0xBDBDF21C,
    };
    crc = ~crc;
    for (; count > 0; count--, bytes++) {
        crc = of_half[(crc ^ *bytes) & 15] ^ (crc >> 4);
        crc = of_half[(crc ^ (*bytes >> 4)) & 15] ^ (crc >> 4);
    }
    return ~crc;
}

static void put_number(uint8_t *bytes, uint32_t number)
{
    for (int i = 0; i < 4; i++)
        bytes[i] = (uint8_t)(number >> 8 * i);
}

static uint32_t number_at(const uint8_t *bytes)
{
    return bytes[0] | (uint32_t)bytes[1] << 8 | (uint32_t)bytes[2] << 16 | (uint32_t)bytes[3] << 24;
}

/* The checksum of the header's first three numbers, with which that of the text continues. */
static uint32_t crc_of_header(const struct header *header)
{
    uint8_t bytes[12];
    put_number(bytes, FORMAT);
    put_number(bytes + 4, header->sequence);
    put_number(bytes + 8, header->length);
    return slots_crc(0, bytes, sizeof bytes);
}

static size_t least(size_t one, size_t other)
{
    return one < other ? one : other;
}

/* ---- one slot */

/* Reads the header of a slot, and answers whether it is one. */
static enum answer read_header(unsigned slot, struct header *header)
{
    uint8_t bytes[HEADER_BYTES];
    if (!flash_read(slot, 0, bytes, sizeof bytes))
        return UNREAD;
    header->sequence = number_at(bytes + 4);
    header->length = number_at(bytes + 8);
    header->crc = number_at(bytes + 12);
    return number_at(bytes) == FORMAT && header->length <= SLOTS_TEXT_BYTES ? YES : NO;
}

/* Whether a slot has a header, and the checksum of the header and of the text is right. */
static enum answer is_whole(unsigned slot, struct header *header)
{
    uint8_t chunk[CHUNK];
    uint32_t crc;
    enum answer answer = read_header(slot, header);
    if (answer != YES)
        return answer;
    crc = crc_of_header(header);
    for (size_t at = 0; at < header->length; at += CHUNK) {
        size_t count = least(CHUNK, header->length - at);
        if (!flash_read(slot, FLASH_UNIT + at, chunk, count))
            return UNREAD;
        crc = slots_crc(crc, chunk, count);
    }
    return crc == header->crc ? YES : NO;
}

/* Whether all bytes of a slot from `at` to its end are `byte`. */
static enum answer is_filled(unsigned slot, size_t at, uint8_t byte)
{
    uint8_t chunk[CHUNK];
    for (; at < FLASH_SLOT_BYTES; at += CHUNK) {
        size_t count = least(CHUNK, FLASH_SLOT_BYTES - at);
        if (!flash_read(slot, at, chunk, count))
            return UNREAD;
        for (size_t i = 0; i < count; i++)
            if (chunk[i] != byte)
                return NO;
    }
    return YES;
}

/* Whether a slot's text is this one, byte by byte. */
static enum answer has_text(unsigned slot, const uint8_t *text, size_t length)
{
    uint8_t chunk[CHUNK];
    for (size_t at = 0; at < length; at += CHUNK) {
        size_t count = least(CHUNK, length - at);
        if (!flash_read(slot, FLASH_UNIT + at, chunk, count))
            return UNREAD;
        for (size_t i = 0; i < count; i++)
            if (chunk[i] != text[at + i])
                return NO;
    }
    return YES;
}

/* What a slot holds; of a whole one also its header. Any programmed bit of a mark is a mark. */
static enum content content_of(unsigned slot, struct header *header)
{
    enum answer whole = is_whole(slot, header);
    enum answer blank = is_filled(slot, whole == YES ? MARK_AT : 0, 0xFF);
    if (whole == UNREAD || blank == UNREAD)
        return CONTENT_UNREAD;
    if (whole == YES)
        return blank == YES ? CONTENT_WHOLE : CONTENT_MARKED;
    return blank == YES ? CONTENT_BLANK : CONTENT_TORN;
}

/* Programs the text, whose last unit is filled up with FF. */
static bool program_text(unsigned slot, const uint8_t *text, size_t length)
{
    uint8_t last[FLASH_UNIT];
    size_t whole = length - length % FLASH_UNIT;
    if (whole != 0 && !flash_program(slot, FLASH_UNIT, text, whole))
        return false;
    if (whole == length)
        return true;
    for (size_t i = 0; i < FLASH_UNIT; i++)
        last[i] = whole + i < length ? text[whole + i] : 0xFF;
    return flash_program(slot, FLASH_UNIT + whole, last, sizeof last);
}

static bool program_header(unsigned slot, const struct header *header)
{
    uint8_t bytes[FLASH_UNIT];
    for (size_t i = HEADER_BYTES; i < FLASH_UNIT; i++)
        bytes[i] = 0xFF;
    put_number(bytes, FORMAT);
    put_number(bytes + 4, header->sequence);
    put_number(bytes + 8, header->length);
    put_number(bytes + 12, header->crc);
    return flash_program(slot, 0, bytes, sizeof bytes);
}

/* Programs the mark. Any program of its bits begins after the text and header were read back. */
static bool program_mark(unsigned slot)
{
    static const uint8_t bytes[FLASH_UNIT];
    return flash_program(slot, MARK_AT, bytes, sizeof bytes) && is_filled(slot, MARK_AT, 0) == YES;
}

/* Programs text and header of an erased slot, reads them back, and marks the slot. */
static bool program_slot(unsigned slot, const struct header *header, const uint8_t *text)
{
    struct header read;
    return program_text(slot, text, header->length) && program_header(slot, header)
        && is_whole(slot, &read) == YES && read.sequence == header->sequence
        && has_text(slot, text, header->length) == YES && program_mark(slot);
}

/* ---- all slots */

/* The slot after this one, but never the newest. */
static unsigned slot_after(const struct slots *slots, unsigned slot)
{
    slot = (slot + 1) % FLASH_SLOTS;
    return slot == slots->newest ? (slot + 1) % FLASH_SLOTS : slot;
}

enum slots_found slots_find(struct slots *slots)
{
    const struct slots none = { .newest = FLASH_SLOTS, .next = FLASH_SLOTS };
    struct slots found = none;
    enum content best = CONTENT_TORN;
    uint32_t newest = 0;
    bool is_empty = true;
    *slots = none;
    for (unsigned slot = 0; slot < FLASH_SLOTS; slot++) {
        struct header header;
        enum content content = content_of(slot, &header);
        if (content == CONTENT_UNREAD)
            return SLOTS_UNREAD;
        is_empty = is_empty && content == CONTENT_BLANK;
        if (content < CONTENT_WHOLE)
            continue;
        found.whole++;
        /* Also the number of a slot without a mark counts: a later start may read a mark there. */
        if (header.sequence > found.sequence)
            found.sequence = header.sequence;
        if (content > best || (content == best && header.sequence > newest)) {
            best = content;
            newest = header.sequence;
            found.newest = slot;
        }
    }
    if (found.whole == 0 && !is_empty)
        return SLOTS_DAMAGED;
    found.next = is_empty ? 0 : slot_after(&found, found.newest);
    *slots = found;
    return is_empty ? SLOTS_EMPTY : SLOTS_FOUND;
}

bool slots_read(const struct slots *slots, uint8_t *text, size_t room, size_t *length)
{
    struct header header;
    if (slots->newest == FLASH_SLOTS || read_header(slots->newest, &header) != YES)
        return false;
    *length = header.length;
    return header.length <= room && flash_read(slots->newest, FLASH_UNIT, text, header.length)
        && slots_crc(crc_of_header(&header), text, header.length) == header.crc;
}

bool slots_hold(const struct slots *slots, const uint8_t *text, size_t length)
{
    struct header header;
    return slots->newest != FLASH_SLOTS && read_header(slots->newest, &header) == YES
        && header.length == length && has_text(slots->newest, text, length) == YES;
}

bool slots_erase_next(struct slots *slots)
{
    /* A slot that reads as FF may have been half erased when the power failed: only an erase since
     * then counts. */
    if (slots->next != FLASH_SLOTS && !slots->is_next_erased)
        slots->is_next_erased = flash_erase(slots->next);
    return slots->is_next_erased;
}

bool slots_write(struct slots *slots, const uint8_t *text, size_t length)
{
    unsigned slot = slots->next;
    struct header header;
    bool is_written;
    if (length > SLOTS_TEXT_BYTES || slot == FLASH_SLOTS)
        return false;
    /* Each try has a number of its own: a slot whose write failed may be read as whole later. */
    header.sequence = ++slots->sequence;
    header.length = (uint32_t)length;
    header.crc = slots_crc(crc_of_header(&header), text, length);
    is_written = slots_erase_next(slots) && program_slot(slot, &header, text);
    if (is_written)
        slots->newest = slot;
    slots->next = slot_after(slots, slot);
    slots->is_next_erased = false;
    return is_written;
}

bool slots_clear(struct slots *slots)
{
    bool is_done = true;
    for (unsigned slot = 0; slot < FLASH_SLOTS; slot++)
        is_done = flash_erase(slot) && is_done;
    return slots_find(slots) == SLOTS_EMPTY && is_done;
}

/* A meter whose state is in flash before anything shows it (stored_meter.h).
 *
 * The export of the meter has its last event; a GET changes it, though not the state. So the text
 * that is stored is the export of a second meter, resumed from that of the first: it has no events,
 * and is the same text for the same state. That the first export can be resumed from is seen before
 * it is relied on, and the second one, without events, is always read back (docs/PROMISES.md, 55).
 * */
#include "stored_meter.h"

/* One event is the least. More make the export longer: STORED_EXPORT_BYTES has space for one. */
#define KEPT_EVENTS 1

_Static_assert(STORED_STATE_BYTES <= SLOTS_TEXT_BYTES, "a slot holds every state");

static enum stored_result result_of(meter_result result)
{
    switch (result) {
    case METER_OK:
        return STORED_OK;
    case METER_NO_MEMORY:
        return STORED_NO_MEMORY;
    default:
        return STORED_REFUSED;
    }
}

/* Writes the state of the meter to `text`. */
static enum stored_result state_of(struct stored_meter *stored, size_t *length)
{
    struct meter second = { 0 };
    meter_result result = meter_export(&stored->meter, stored->text, sizeof stored->text, length);
    if (result == METER_OK)
        result = meter_resume(&second, stored->text, *length, stored->password, stored->password_length, KEPT_EVENTS);
    if (result == METER_OK)
        result = meter_export(&second, stored->text, sizeof stored->text, length);
    meter_close(&second);
    return result_of(result);
}

enum stored_result stored_save(struct stored_meter *stored)
{
    size_t length;
    enum stored_result result = state_of(stored, &length);
    if (result != STORED_OK || slots_hold(&stored->slots, stored->text, length))
        return result;
    return slots_write(&stored->slots, stored->text, length) ? STORED_OK : STORED_FLASH_FAILED;
}

/* Resumes the meter from the newest slot. */
static enum stored_result resume(struct stored_meter *stored)
{
    size_t length;
    if (!slots_read(&stored->slots, stored->text, sizeof stored->text, &length))
        return STORED_FLASH_FAILED;
    return result_of(meter_resume(&stored->meter, stored->text, length, stored->password, stored->password_length, KEPT_EVENTS));
}

/* Writes the state to the next slot, whatever the newest one holds: a mark that was programmed while
 * the power failed may be read now and not later. */
static enum stored_result write_again(struct stored_meter *stored)
{
    size_t length;
    enum stored_result result = state_of(stored, &length);
    if (result == STORED_OK && !slots_write(&stored->slots, stored->text, length))
        result = STORED_FLASH_FAILED;
    return result;
}

enum stored_result stored_open(struct stored_meter *stored, const uint8_t *name, size_t name_length, const uint8_t *password, size_t password_length)
{
    enum slots_found found = slots_find(&stored->slots);
    enum stored_result result;
    if (found == SLOTS_UNREAD)
        return STORED_FLASH_FAILED;
    if (found == SLOTS_DAMAGED)
        return STORED_DAMAGED;
    stored->password = password;
    stored->password_length = password_length;
    if (found == SLOTS_EMPTY)
        result = result_of(meter_open(&stored->meter, name, name_length, password, password_length, KEPT_EVENTS));
    else
        result = resume(stored);
    if (result == STORED_OK)
        result = write_again(stored);
    if (result != STORED_OK) {
        meter_close(&stored->meter);
        return result;
    }
    return found == SLOTS_EMPTY ? STORED_NEW : STORED_OK;
}

void stored_close(struct stored_meter *stored)
{
    meter_close(&stored->meter);
}

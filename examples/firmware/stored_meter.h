/* A meter whose state is in flash before anything shows it, so that it outlives a power cut.
 *
 * Call stored_save before a frame is sent and before the breaker is set. It writes a slot only if
 * the state is not the stored one. If it fails, hold the frame back and call it again later:
 *
 *     while (meter_next(&stored.meter, CLIENT, frame, sizeof frame, &length) == METER_OK) {
 *         while (stored_save(&stored) != STORED_OK)
 *             wait_or_show_fault();
 *         send(frame, length);
 *     }
 *
 * Samples and moments show nothing themselves. Save them now and then, for example once an hour: a
 * power cut takes the meter back to the last save. */
#ifndef STORED_METER_H
#define STORED_METER_H

#include "meter.h"
#include "slots.h"

/* The longest text of a state, and the longest export of a meter that keeps one event, in bytes
 * (docs/FIRMWARE.md has the sum). */
#define STORED_STATE_BYTES 13637
#define STORED_EXPORT_BYTES 30054

/* The result of stored_open, or of stored_save. */
enum stored_result {
    STORED_OK,             /* the state is in flash; stored_open: it is that of the newest slot */
    STORED_NEW,            /* stored_open: all slots were empty, and the meter is new */
    STORED_DAMAGED,        /* stored_open: no slot is whole, but some byte was programmed */
    STORED_REFUSED,        /* not a trace of this library, or the length of a name or password */
    STORED_NO_MEMORY,      /* out of memory; the same call can be repeated */
    STORED_FLASH_FAILED    /* the flash failed; the same call can be repeated */
};

/* A meter and its slots. Zero it before stored_open. Pass `meter` to the calls of meter.h, except
 * meter_open, meter_resume and meter_close. */
struct stored_meter {
    struct meter meter;
    struct slots slots;
    const uint8_t *password;
    size_t password_length;
    uint8_t text[STORED_EXPORT_BYTES];
};

/* Opens the meter that the slots hold, or a new one if they are empty, and writes its state once
 * more. If a read fails while it looks for the newest text, it erases and programs nothing. `name` is that of a new meter; name and password are those of meter_open, and the password
 * stays where it is while the meter is open. Unless it returns STORED_OK or STORED_NEW, no meter is
 * open. */
enum stored_result stored_open(struct stored_meter *stored, const uint8_t *name, size_t name_length, const uint8_t *password, size_t password_length);

/* Writes the state of the meter to flash, unless it is the stored one. */
enum stored_result stored_save(struct stored_meter *stored);

/* Closes the meter. It does not save. */
void stored_close(struct stored_meter *stored);

#endif

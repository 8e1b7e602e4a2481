/* The panel library for the KS0717, the 100-segment chip: what panel.h has for the KS0713, call for call. Only the reader and the writer
 * of the new command set's bytes are not here: the bytes are the same on both chips, and panel_read_added and panel_write_added are for
 * both (libpanel.a).
 *
 * The state is the same 32 bytes with the same offsets (PANEL_STATE, PANEL_AT_..), and refusals, command sets, kinds, instructions by
 * number and power states have the numbers of panel.h. What every call here does is proved (crates/panel0717); what the head of panel.h
 * leaves to the caller, and what it says of refusals, of calls at the same time and of hosts, holds here too. The archive is
 * libpanel0717.a. It can be linked into one program with libpanel.a.
 *
 * What differs:
 *   - a picture, the memory and a frame are 900 bytes: 9 pages of 100 columns, byte 100 * page + column. Any other length, 1,188 too,
 *     is refused with 1;
 *   - the column counter has seven bits. Column and saved column are 0 to 127, and above that a state is refused with 2; the column
 *     stays from 100 up;
 *   - a high column byte has one free bit, bit 3: 18-1F are read as 10-17, and a high part (PANEL_COLUMN_HIGH) of 8 or more is refused
 *     with 6 where it is to be written;
 *   - the glass has rows 0 to 53 and the icon row. Rows 54 to 63 of a frame are 0, with reverse and entire display too;
 *   - the resistor is 4 at power-up, after reset pin low and after E2;
 *   - V0 is a number of twenty-sevenths.
 * A state of the one chip is not one of the other: keep each with its own calls. */
#ifndef PANEL0717_H
#define PANEL0717_H

#include "panel.h"

#ifdef __cplusplus
extern "C" {
#endif

/* Sizes. */
enum {
    PANEL0717_COLUMNS = 100,
    PANEL0717_PICTURE = 900,        /* bytes of a picture, the memory or a frame */
    PANEL0717_UPDATE_MOST = 927,    /* no update is longer */
    PANEL0717_GROUP_MOST = 103,     /* no page's group is longer */
    PANEL0717_REDRAW_LENGTH = 931   /* every redraw is this long */
};

/* ---- the chip */

/* Writes the state at power-up, as panel_power_up does. Always 0. */
uint8_t panel0717_power_up(uint8_t state[PANEL_STATE]);

/* Plays one bus cycle, as panel_cycle does, with *fresh after a data read. Refuses with 1 (memory), 2 (state), 9, 3, 4. */
uint8_t panel0717_cycle(uint8_t state[PANEL_STATE], uint8_t *memory, size_t memory_length, uint8_t kind, uint8_t value,
                        uint8_t *read, uint8_t *byte, uint8_t *fresh);

/* Draws the lit frame, as panel_frame does. Refuses with 1 (memory or frame), 2 (state). */
uint8_t panel0717_frame(const uint8_t state[PANEL_STATE], const uint8_t *memory, size_t memory_length,
                        uint8_t *frame, size_t frame_length);

/* The power state, one of PANEL_POWER_.., into *answer. Refuses with 2. */
uint8_t panel0717_power_state(const uint8_t state[PANEL_STATE], uint8_t *answer);

/* Puts the state into a command set, as panel_switch_set does. Refuses with 2 (state, or a set above 1), 13. */
uint8_t panel0717_switch_set(uint8_t state[PANEL_STATE], uint8_t set);

/* V0 in millivolts is *numerator / 27. Refuses with 2 a resistor above 7 or a contrast above 63. */
uint8_t panel0717_v0(uint8_t resistor, uint8_t contrast, uint32_t *numerator);

/* ---- instruction bytes */

/* Reads one byte of the old set, as panel_read_instruction does. Refuses with 2 (awaited above 2), 4. */
uint8_t panel0717_read_instruction(uint8_t awaited, uint8_t byte, uint8_t *number, uint8_t *value);

/* Writes an instruction of the old set, as panel_write_instruction does. Refuses with 6. */
uint8_t panel0717_write_instruction(uint8_t number, uint8_t value, uint8_t *byte);

/* ---- pictures and streams */

/* The first differing byte, as panel_first_difference tells it. Refuses with 1 (either picture). */
uint8_t panel0717_first_difference(const uint8_t *recorded, size_t recorded_length, const uint8_t *wanted, size_t wanted_length,
                                   uint8_t *found, size_t *page, size_t *column);

/* How many bytes the update has, into *count. Refuses with 1 (either picture). */
uint8_t panel0717_update_length(const uint8_t *recorded, size_t recorded_length, const uint8_t *wanted, size_t wanted_length,
                                size_t *count);

/* The update, put out as panel_update does. PANEL0717_UPDATE_MOST bytes are always enough. Refuses with 1 (either picture), 5 (out or
 * kinds). */
uint8_t panel0717_update(const uint8_t *recorded, size_t recorded_length, const uint8_t *wanted, size_t wanted_length,
                         uint8_t *out, size_t out_length, uint8_t *kinds, size_t kinds_length, size_t *count);

/* One page's group of the update, put out as panel_page_group does. PANEL0717_GROUP_MOST bytes are always enough. Refuses with 1 (either
 * picture), 6 (page above 8), 5 (out or kinds). */
uint8_t panel0717_page_group(const uint8_t *recorded, size_t recorded_length, const uint8_t *wanted, size_t wanted_length, size_t page,
                             uint8_t *out, size_t out_length, uint8_t *kinds, size_t kinds_length, size_t *count);

/* The redraw, put out as panel_redraw does; *count becomes PANEL0717_REDRAW_LENGTH. Refuses with 1 (picture), 6 (contrast above 63),
 * 5 (out or kinds). */
uint8_t panel0717_redraw(const uint8_t *wanted, size_t wanted_length, uint8_t contrast,
                         uint8_t *out, size_t out_length, uint8_t *kinds, size_t kinds_length, size_t *count);

#ifdef __cplusplus
}
#endif

#endif

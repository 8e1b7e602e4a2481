/* The panel library: the KS0713 seen from its bus, its instruction bytes, the lit frame, and the streams that show a picture.
 * panel0717.h has the same for the KS0717.
 *
 * What every call here does is proved (crates/panel): its answer, every output and every byte that it is lent. What no proof can
 * test is left to the caller:
 *   - each pointer is valid for its length, never null (not for a length of 0 either), and aligned for its type;
 *   - what a call writes overlaps nothing else that it is given.
 *
 * A call answers the number of its refusal, 0 for none. Refusals are tested in the order in which they are listed; the first that
 * holds is answered. A refusal writes nothing: the state, every buffer and every output stay as they were. An accepted call writes
 * what is listed and nothing else, and never what is passed as const.
 *
 * No state is kept between calls, no memory is taken and nothing is printed: calls are re-entrant, and calls on different buffers
 * may run at the same time.
 *
 * The archive libpanel.a is for x86-64 hosts (System V calling convention): simulation, service tools, tests on the bench. The
 * toolchain builds for no microcontroller today; firmware can't link it.
 *
 * A slice is two arguments here, a pointer and its length. The state is one pointer to PANEL_STATE bytes. */
#ifndef PANEL_H
#define PANEL_H

#include <stddef.h>
#include <stdint.h>

#ifdef __cplusplus
extern "C" {
#endif

/* Sizes. A picture, the memory and a frame have one layout: 9 pages of 132 columns, byte 132 * page + column. */
enum {
    PANEL_PAGES = 9,
    PANEL_COLUMNS = 132,
    PANEL_PICTURE = 1188,        /* bytes of a picture, the memory or a frame */
    PANEL_STATE = 32,            /* bytes of the state */
    PANEL_UPDATE_MOST = 1215,    /* no update is longer */
    PANEL_GROUP_MOST = 135,      /* no page's group is longer */
    PANEL_REDRAW_LENGTH = 1219   /* every redraw is this long */
};

/* The numbers that a refusal carries. */
enum {
    PANEL_OK = 0,
    PANEL_WRONG_SIZE = 1,        /* a picture, memory or frame buffer is not nine pages: 1,188 bytes here */
    PANEL_OUT_OF_RANGE = 2,      /* a register is outside its range */
    PANEL_PIN_LOW = 3,           /* reset pin low, and the cycle is an instruction, a data write or a data read */
    PANEL_UNASSIGNED = 4,        /* instruction byte that the command set does not have, and nothing awaited */
    PANEL_SHORT_OUTPUT = 5,      /* either output shorter than the stream needs */
    PANEL_OUTSIDE_FIELD = 6,     /* a value to write is outside its field */
    PANEL_WRONG_CYCLE = 9,       /* kind above 5, or value not 0 in kinds 2 to 5 */
    PANEL_AWAITED_AT_SWITCH = 13 /* a byte is awaited at a switch of the command set */
};

/* The command sets: the old one, and the new one, the KS0759's. */
enum { PANEL_SET_OLD = 0, PANEL_SET_NEW = 1 };

/* The state: where each register stands, and what it may be. Bytes 24 to 31 are spare and 0. A byte outside its range, a saved
 * column that is not 0 while modify-read is 0, an awaited byte of the other command set, and a spare byte that is not 0 are refused
 * with 2. So is a state of zeros, since order 13 (duty 0): a state begins with panel_power_up. Whatever a call writes into a state is
 * accepted again. */
enum {
    PANEL_AT_PAGE = 0,               /* 0 to 15 */
    PANEL_AT_COLUMN = 1,             /* 0 to 255 */
    PANEL_AT_START_LINE = 2,         /* 0 to 63 */
    PANEL_AT_CONTRAST = 3,           /* 0 to 63 */
    PANEL_AT_RESISTOR = 4,           /* 0 to 7 */
    PANEL_AT_POWER = 5,              /* 0 to 7 */
    PANEL_AT_BIAS = 6,               /* 0 or 1, and so the next six */
    PANEL_AT_ADC = 7,
    PANEL_AT_SHL = 8,
    PANEL_AT_REVERSE = 9,
    PANEL_AT_ENTIRE = 10,
    PANEL_AT_ON = 11,
    PANEL_AT_INDICATOR = 12,
    PANEL_AT_INDICATOR_VALUE = 13,   /* 0 to 3 */
    PANEL_AT_HOLDER = 14,            /* any byte */
    PANEL_AT_PIN_LOW = 15,           /* 0 or 1 */
    PANEL_AT_MODIFY_READ = 16,       /* 0 or 1 */
    PANEL_AT_SAVED_COLUMN = 17,      /* 0 to 255; 0 while modify-read is 0 */
    PANEL_AT_AWAITED = 18,           /* one of PANEL_AWAITS_.. */
    PANEL_AT_FRESH = 19,             /* 0 or 1: a data read now would be fresh */
    PANEL_AT_SET = 20,               /* one of PANEL_SET_.. */
    PANEL_AT_COM0 = 21,              /* initial COM0: 0 to 79 */
    PANEL_AT_DUTY = 22,              /* 17 to 81 */
    PANEL_AT_INVERSION = 23          /* 0 for frame inversion, or 3 to 33 lines */
};

/* Which second byte is awaited: contrast and indicator in the old set alone, the last three in the new one alone. */
enum {
    PANEL_AWAITS_NOTHING = 0,
    PANEL_AWAITS_CONTRAST = 1,
    PANEL_AWAITS_INDICATOR = 2,
    PANEL_AWAITS_COM0 = 3,
    PANEL_AWAITS_DUTY = 4,
    PANEL_AWAITS_INVERSION = 5
};

/* Kinds of cycles. */
enum {
    PANEL_INSTRUCTION = 0,
    PANEL_DATA_WRITE = 1,
    PANEL_STATUS_READ = 2,
    PANEL_DATA_READ = 3,
    PANEL_RESET_LOW = 4,
    PANEL_RESET_HIGH = 5
};

/* Instructions of the old set by number, in the order of the table, with what their value is. Flags are 0 or 1; where there is no
 * value it is 0. */
enum {
    PANEL_COLUMN_LOW = 0,            /* 0 to 15 */
    PANEL_COLUMN_HIGH = 1,           /* 0 to 15 */
    PANEL_RESISTOR = 2,              /* 0 to 7 */
    PANEL_POWER = 3,                 /* 0 to 7 */
    PANEL_START_LINE = 4,            /* 0 to 63 */
    PANEL_CONTRAST_NEXT = 5,         /* none */
    PANEL_CONTRAST_VALUE = 6,        /* 0 to 63: a second byte */
    PANEL_ADC = 7,                   /* flag */
    PANEL_BIAS = 8,                  /* flag */
    PANEL_ENTIRE = 9,                /* flag */
    PANEL_REVERSE = 10,              /* flag */
    PANEL_INDICATOR_OFF = 11,        /* none */
    PANEL_INDICATOR_ON = 12,         /* none */
    PANEL_INDICATOR_VALUE = 13,      /* 0 to 3: a second byte */
    PANEL_DISPLAY = 14,              /* flag */
    PANEL_PAGE = 15,                 /* 0 to 15 */
    PANEL_SHL = 16,                  /* flag */
    PANEL_MODIFY_READ_ON = 17,       /* none */
    PANEL_MODIFY_READ_OFF = 18,      /* none */
    PANEL_RESET = 19,                /* none */
    PANEL_NOP = 20                   /* none */
};

/* Instructions of the new set by number; where there is no value it is 0. A second byte is spent whatever its value. */
enum {
    PANEL_COM0_NEXT = 0,             /* none */
    PANEL_COM0_VALUE = 1,            /* 0 to 127: a second byte; 0 to 79 set initial COM0, the others nothing */
    PANEL_DUTY_NEXT = 2,             /* none */
    PANEL_DUTY_VALUE = 3,            /* 0 to 127: a second byte; 17 to 81 set the duty, the others nothing */
    PANEL_INVERSION_NEXT = 4,        /* none */
    PANEL_INVERSION_VALUE = 5,       /* 0 to 31: a second byte; 0 sets frame inversion, the others their value + 2 lines */
    PANEL_FRAME_INVERSION = 6        /* none */
};

/* Power states. */
enum { PANEL_POWER_NORMAL = 0, PANEL_POWER_SLEEP = 1, PANEL_POWER_STANDBY = 2 };

/* ---- the chip */

/* Writes the state at power-up: reset pin low, then high, holder 0, the old set. What stood in the state before does not matter.
 * Always 0. */
uint8_t panel_power_up(uint8_t state[PANEL_STATE]);

/* Plays one bus cycle: the state and the memory become what they are after it. Where the cycle is a status read or a data read,
 * *read becomes 1 and *byte the byte that is read; after any other cycle both are as they were, so set *read to 0 before the call.
 * Only a data write changes the memory, at most one byte of it.
 *
 * A data read answers the holder and then loads it, so the first one after an address set answers what was there before: a dummy.
 * *fresh tells: after a data read it becomes 1 where the byte is fresh, 0 where it is stale; after any other cycle it is as it was.
 * Fresh is a byte exactly if the last cycle that was a data read, a data write, a page or column instruction, E0, EE, E2 or reset pin
 * low was a data read; a refused cycle does not count. From power-up on it is then the cell on which that read stood, 0 where there is
 * none.
 *
 * In the new set an instruction byte is one of the new set's, or the second byte that is awaited; every other is refused with 4. The other
 * kinds of cycles are the same in either set. Reset pin low keeps the set, and puts initial COM0, duty and inversion to 0, 81 and 0; E2
 * leaves all four.
 *
 * Who plays many cycles at once takes bus_run (bus.h). Refuses with 1 (memory), 2 (state), 9, 3, 4. */
uint8_t panel_cycle(uint8_t state[PANEL_STATE], uint8_t *memory, size_t memory_length, uint8_t kind, uint8_t value,
                    uint8_t *read, uint8_t *byte, uint8_t *fresh);

/* Draws the lit frame: a picture's layout, with segments for columns and rows for lines; bit 0 of strip 8 is the icon row.
 * It is the same in either set: set, initial COM0, duty and inversion play no part. State and memory are only read. Refuses with 1
 * (memory or frame), 2 (state). */
uint8_t panel_frame(const uint8_t state[PANEL_STATE], const uint8_t *memory, size_t memory_length,
                    uint8_t *frame, size_t frame_length);

/* The power state, one of PANEL_POWER_.., the same in either set, into *answer. The state is only read. Refuses with 2. */
uint8_t panel_power_state(const uint8_t state[PANEL_STATE], uint8_t *answer);

/* Puts the state into a command set, one of PANEL_SET_.., and changes nothing else of it. This is no bus cycle: the reset pin may be
 * low, and whether a data read now would be fresh stays. Refuses with 2 (state, or a set above 1), 13, also at a switch to the set in
 * force. */
uint8_t panel_switch_set(uint8_t state[PANEL_STATE], uint8_t set);

/* V0 in millivolts is *numerator / 15. Refuses with 2 a resistor above 7 or a contrast above 63. */
uint8_t panel_v0(uint8_t resistor, uint8_t contrast, uint32_t *numerator);

/* ---- instruction bytes */

/* Reads one byte of the old set, with what is awaited: its instruction's number into *number and its value into *value (0 where it has
 * none). Refuses with 2 (awaited above 2), 4. */
uint8_t panel_read_instruction(uint8_t awaited, uint8_t byte, uint8_t *number, uint8_t *value);

/* Writes an instruction of the old set by its number and value, free bits 0, into *byte. Refuses with 6 a number above 20, a value
 * outside the instruction's field, a flag above 1, and a value other than 0 where there is none. */
uint8_t panel_write_instruction(uint8_t number, uint8_t value, uint8_t *byte);

/* Reads one byte of the new set, as panel_read_instruction does of the old one. Refuses with 2 (awaited 1, 2 or above 5), 4. */
uint8_t panel_read_added(uint8_t awaited, uint8_t byte, uint8_t *number, uint8_t *value);

/* Writes an instruction of the new set, as panel_write_instruction does of the old one. Refuses with 6 a number above 6, a value outside
 * the instruction's field, and a value other than 0 where there is none. */
uint8_t panel_write_added(uint8_t number, uint8_t value, uint8_t *byte);

/* ---- pictures and streams */

/* The first differing byte, page by page, columns rising; on page 8 only bit 0 counts. *found becomes 1, and *page and *column its
 * place; or *found becomes 0 where the pictures are the same, and *page and *column stay. Refuses with 1 (either picture). */
uint8_t panel_first_difference(const uint8_t *recorded, size_t recorded_length, const uint8_t *wanted, size_t wanted_length,
                               uint8_t *found, size_t *page, size_t *column);

/* How many bytes the update has, into *count. Refuses with 1 (either picture). */
uint8_t panel_update_length(const uint8_t *recorded, size_t recorded_length, const uint8_t *wanted, size_t wanted_length,
                            size_t *count);

/* The update that turns the recorded picture into the wanted one: its bytes to the front of out, their kinds (PANEL_INSTRUCTION or
 * PANEL_DATA_WRITE) to the front of kinds, how many there are into *count. Bytes of out and kinds past the stream stay. The instructions
 * are the old set's. PANEL_UPDATE_MOST bytes are always enough. Refuses with 1 (either picture), 5 (out or kinds). */
uint8_t panel_update(const uint8_t *recorded, size_t recorded_length, const uint8_t *wanted, size_t wanted_length,
                     uint8_t *out, size_t out_length, uint8_t *kinds, size_t kinds_length, size_t *count);

/* One page of that update by itself, so that a page can go ahead of the others: its group, which begins with its page byte, put out as
 * the update is. A page that does not differ has none: *count becomes 0, and no output is needed. The groups of all pages that differ,
 * each sent once in whatever order, leave the memory that the update leaves, with as many bytes; until the last of them is out, the
 * glass shows part of the old picture. PANEL_GROUP_MOST bytes are always enough. This is for panel_update's kind of update. Refuses with
 * 1 (either picture), 6 (page above 8), 5 (out or kinds). */
uint8_t panel_page_group(const uint8_t *recorded, size_t recorded_length, const uint8_t *wanted, size_t wanted_length, size_t page,
                         uint8_t *out, size_t out_length, uint8_t *kinds, size_t kinds_length, size_t *count);

/* The redraw that shows the wanted picture and sets the contrast, whatever the chip held before, put out as the update is; *count
 * becomes PANEL_REDRAW_LENGTH. Refuses with 1 (picture), 6 (contrast above 63), 5 (out or kinds). */
uint8_t panel_redraw(const uint8_t *wanted, size_t wanted_length, uint8_t contrast,
                     uint8_t *out, size_t out_length, uint8_t *kinds, size_t kinds_length, size_t *count);

#ifdef __cplusplus
}
#endif

#endif

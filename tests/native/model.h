/* An independent model of the panel software, written from document 01 and orders 2, 5, 10 and 13 alone and, for the second
   chip, from order 1.
   Plain C, no library calls.
   Two chips, one source: the calls model_... are the KS0713's (model.c as it is), the calls model0717_... the KS0717's
   (model.c compiled with -include ks0717.h). Registers, numbers of instructions and answers have the same form on both.
   Every function answers 0, or the number of the refusal; values go through pointers that a refusal leaves alone. */
#ifndef MODEL_H
#define MODEL_H
#include <stddef.h>
#include <stdint.h>

struct model_registers {
    uint8_t page, column, start_line, contrast, resistor, power;
    uint8_t bias, adc, shl, reverse, entire, on, indicator; /* 0 or 1; anything else is out of range */
    uint8_t indicator_value, holder;
    uint8_t pin_low;      /* 0 or 1 */
    uint8_t modify_read;  /* 0 off, 1 on */
    uint8_t saved_column; /* meaningful while modify_read is 1, else 0 */
    uint8_t awaited;      /* 0 nothing, 1 contrast byte, 2 indicator byte, 3 initial COM0 byte, 4 duty byte,
                             5 inversion byte */
    uint8_t fresh;        /* 1 while the next data read would be fresh, 0 or 1 */
    uint8_t set;          /* the command set: 0 old, 1 new; anything else is out of range */
    uint8_t com0, duty, inversion; /* order 13's three numbers; inversion is a number of lines, 0 for frame inversion */
};

/* Instructions by number, in the order of document 01's table, second bytes after their first:
   0 column low, 1 column high, 2 resistor, 3 power, 4 start line, 5 contrast next (81), 6 contrast value, 7 ADC, 8 bias,
   9 entire display, 10 reverse, 11 indicator off (AC), 12 indicator on (AD), 13 indicator value, 14 display off/on, 15 page,
   16 SHL, 17 modify-read on (E0), 18 modify-read off (EE), 19 reset (E2), 20 nothing (E3).
   value: the field's value, 0 or 1 for a flag, 0 where there is none.
   Instructions of the new set by number, second bytes after their first: 0 initial COM0 next (44-47), 1 initial COM0 value,
   2 duty next (48-4B), 3 duty value, 4 inversion next (4C-4F), 5 inversion value, 6 frame inversion (E4). value: what the
   second byte is after mod, 0 where there is none. */

/* The fifteen calls of a chip. */
#define MODEL_CALLS(chip) \
void chip##_power_up(struct model_registers *r); \
/* *read_flag is 1 and *byte the byte where the cycle is an accepted data or status read, else both are left alone. \
   *fresh is 1 (fresh) or 0 (stale) where the cycle is an accepted data read, else, after a status read too, left alone. */ \
uint8_t chip##_cycle(struct model_registers *r, uint8_t *memory, size_t memory_len, uint8_t kind, uint8_t value, \
                     uint8_t *read_flag, uint8_t *byte, uint8_t *fresh); \
uint8_t chip##_read_instruction(uint8_t awaited, uint8_t byte, uint8_t *number, uint8_t *value); \
/* another number than 0 to 20, or a value outside the field (also a value other than 0 where there is no field), is 6 */ \
uint8_t chip##_write_instruction(uint8_t number, uint8_t value, uint8_t *byte); \
uint8_t chip##_frame(const struct model_registers *r, const uint8_t *memory, size_t memory_len, \
                     uint8_t *frame, size_t frame_len); \
/* *state: 0 normal, 1 sleep, 2 standby */ \
uint8_t chip##_power_state(const struct model_registers *r, uint8_t *state); \
/* *numerator is over 15 on the KS0713 and over 27 on the KS0717 */ \
uint8_t chip##_v0(uint8_t resistor, uint8_t contrast, uint32_t *numerator); \
/* *found is 1 and *page, *column where there is a difference, else *found is 0 and page and column are left alone */ \
uint8_t chip##_first_difference(const uint8_t *recorded, size_t recorded_len, const uint8_t *wanted, size_t wanted_len, \
                                uint8_t *found, size_t *page, size_t *column); \
uint8_t chip##_update_length(const uint8_t *recorded, size_t recorded_len, const uint8_t *wanted, size_t wanted_len, \
                             size_t *count); \
uint8_t chip##_update(const uint8_t *recorded, size_t recorded_len, const uint8_t *wanted, size_t wanted_len, \
                      uint8_t *out, size_t out_len, uint8_t *kinds, size_t kinds_len, size_t *count); \
/* the part of the update that is for one page, with its page byte first. Refusals: 1, 6 (a page above 8), 5. A page that \
   does not differ has no group: *count is 0 and the outputs, which may have length 0, are left alone */ \
uint8_t chip##_page_group(const uint8_t *recorded, size_t recorded_len, const uint8_t *wanted, size_t wanted_len, size_t page, \
                          uint8_t *out, size_t out_len, uint8_t *kinds, size_t kinds_len, size_t *count); \
/* set: 0 old, 1 new. Refusals: 2 (also for a set above 1), 13 */ \
uint8_t chip##_switch_set(struct model_registers *r, uint8_t set); \
/* reader and writer of the new set: 2 (awaited above 5, or a byte of the old set awaited), 4; and 6 (another number than \
   0 to 6, or a value outside the field, also a value other than 0 where there is no field) */ \
uint8_t chip##_read_added(uint8_t awaited, uint8_t byte, uint8_t *number, uint8_t *value); \
uint8_t chip##_write_added(uint8_t number, uint8_t value, uint8_t *byte); \
uint8_t chip##_redraw(const uint8_t *wanted, size_t wanted_len, uint8_t contrast, uint8_t *out, size_t out_len, \
                      uint8_t *kinds, size_t kinds_len, size_t *count);

MODEL_CALLS(model)
MODEL_CALLS(model0717)
#endif

/* The second chip, the KS0717: model.c compiled with -include ks0717.h is its model. First a second set of names for the
   model's calls, so that model.c can be linked twice; then the chip's numbers, in the order of model.c's block for the
   KS0713. Sentences in quotes are order 1's own, but for those marked 01. */
#define model_power_up model0717_power_up
#define model_cycle model0717_cycle
#define model_read_instruction model0717_read_instruction
#define model_write_instruction model0717_write_instruction
#define model_frame model0717_frame
#define model_power_state model0717_power_state
#define model_v0 model0717_v0
#define model_first_difference model0717_first_difference
#define model_update_length model0717_update_length
#define model_update model0717_update
#define model_page_group model0717_page_group
#define model_switch_set model0717_switch_set
#define model_read_added model0717_read_added
#define model_write_added model0717_write_added
#define model_redraw model0717_redraw

/* "Its memory is 65 by 100, so a picture is 900 bytes". Picture and redraw ("the redraw 931") follow in model.c. */
#define COLUMNS 100u
/* "the column counter has seven bits"; "Refusals: [...] number 2 a column, saved or not, above 127." */
#define COUNTER_LAST 127u /* @second_counter */
/* "so bit 3 of a high column byte is free". Three bits are left for the high part. */
#define HIGH_LAST 7u
/* "and it locks from 100" */
#define LOCK 100u /* @second_lock */
/* "rows are 0..53, row k showing line (start + k) mod 64, or (start + 53 − k) mod 64 with SHL 1"
   "Rows 54 to 63 of its frame are 0." */
#define ROWS 54u /* @second_rows */
/* 01: "Start values are 0 and off, except contrast 32 (house)." The order has no sentence on them; by a reading settled
   beforehand the resistor starts at 4 on this chip, and all else as in 01. */
#define RESISTOR_START 4u /* @second_resistor */
/* "Ratios in tenths are 30, 35, 40, 45, 50, 54, 59, 64" */
#define RATIOS 30, 35, 40, 45, 50, 54, 59, 64 /* @second_ratios */
/* "V0 in millivolts is ratio·(99 + contrast)·35/27". The numerator over 27 is not reduced. */
#define V0_BASE 99u /* @second_base */
#define V0_FACTOR 35u /* @second_factor */

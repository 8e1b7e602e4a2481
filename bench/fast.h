/* A second set of names for the model's calls, so that model.c and recording.c can be linked twice: compiled once as they are, and
   once with -include fast.h. */
#define model_power_up fast_power_up
#define model_cycle fast_cycle
#define model_read_instruction fast_read_instruction
#define model_write_instruction fast_write_instruction
#define model_frame fast_frame
#define model_power_state fast_power_state
#define model_v0 fast_v0
#define model_first_difference fast_first_difference
#define model_update_length fast_update_length
#define model_update fast_update
#define model_page_group fast_page_group
#define model_switch_set fast_switch_set
#define model_read_added fast_read_added
#define model_write_added fast_write_added
#define model_redraw fast_redraw
#define model_write_job fast_write_job
#define model_write_text fast_write_text
#define model_read_text fast_read_text
#define model_read_header fast_read_header
#define model_play fast_play

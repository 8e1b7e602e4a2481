/* What fast.h does, for the second chip: model.c compiled with -include fast0717.h and then ks0717.h, which has its numbers. */
#define model0717_power_up fast0717_power_up
#define model0717_cycle fast0717_cycle
#define model0717_read_instruction fast0717_read_instruction
#define model0717_write_instruction fast0717_write_instruction
#define model0717_frame fast0717_frame
#define model0717_power_state fast0717_power_state
#define model0717_v0 fast0717_v0
#define model0717_first_difference fast0717_first_difference
#define model0717_update_length fast0717_update_length
#define model0717_update fast0717_update
#define model0717_page_group fast0717_page_group
#define model0717_switch_set fast0717_switch_set
#define model0717_read_added fast0717_read_added
#define model0717_write_added fast0717_write_added
#define model0717_redraw fast0717_redraw

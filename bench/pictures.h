/* The kinds of changes on a panel of eight zones: page p has zone p's name, its reading and its setpoint; page 8 has the icons. */
#ifndef PICTURES_H
#define PICTURES_H
#include <stddef.h>
#include <stdint.h>

enum change { EQUAL, SETPOINT, READINGS, ICONS, SPARSE, FULL, CHANGES };
extern const char *const change_name[CHANGES];

/* a pair of pictures of 1,188 bytes that differ in this way */
void draw_change(enum change change, uint8_t *recorded, uint8_t *wanted);
/* a pair that differs in `columns` bytes, spread evenly over all 1,188, or side by side from the first on */
void draw_spread(size_t columns, uint8_t *recorded, uint8_t *wanted);
void draw_block(size_t columns, uint8_t *recorded, uint8_t *wanted);
#endif

/* Other ways to send a change, for the count of their bytes alone. Each addresses what it sends as the update does: two column
   bytes ahead of a stretch, and the page byte unless the stretch before was on that page. */
#ifndef WAYS_H
#define WAYS_H
#include <stddef.h>
#include <stdint.h>

enum way { EVERYTHING, FIRST_TO_LAST, TILES, BYTE_BY_BYTE, RUNS_OF_FOUR, WAYS };
extern const char *const way_name[WAYS];

size_t bytes_of(enum way way, const uint8_t *recorded, const uint8_t *wanted);
#endif

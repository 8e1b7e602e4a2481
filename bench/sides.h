/* The four sides that are compared, for each chip: the proved library; the independent model twice, at -O2 and at -O3 with restrict;
   and the driver by hand. Each is the same list of calls on the same buffers, so that a count or a time differs by the call alone. */
#ifndef SIDES_H
#define SIDES_H
#include "bus.h"
#include "model.h"
#include "panel0717.h"
#include "recorder.h"
#include "recording.h"

enum { N = PANEL_PICTURE, N0717 = PANEL0717_PICTURE, ROOM = PANEL_REDRAW_LENGTH, LAPS = 64, MOST = 4096 };

/* what every call is given, and where it puts its answer */
struct desk {
    uint8_t recorded[N], wanted[N], memory[N], frame[N];
    uint8_t out[ROOM], kinds[ROOM];
    uint8_t state[PANEL_STATE];          /* the library's */
    struct model_registers registers;    /* the model's */
    uint8_t kind, value;                 /* one cycle */
    uint8_t cycles[2 * MOST];            /* or a list of them, of which `laps` are played */
    uint8_t numbers[MOST], reads[MOST], bytes[MOST], fresh[MOST]; /* and their answers */
    size_t laps, room;                   /* and the room in a stream's outputs */
    size_t chosen;                       /* the page of a group */
    uint8_t text[5 * MOST], list[2 * MOST], pictures[2 * N], job[8 + 2 * MOST + 2 * N]; /* the list as text, read again, and as a job */
    size_t length, line;                 /* of the text */
    uint8_t number, field, byte, read, mark, found, power;
    size_t count, page, column;
    uint32_t numerator;
};
extern struct desk desk;

enum call { UPDATE, GROUP, LENGTH, FIRST, REDRAW, CYCLE, LIST, FRAME, READ, READS, WRITE, POWER, V0, WRITE_TEXT, READ_TEXT, WRITE_JOB, CALLS };

/* a call that is not there is null: the KS0717 plays no lists and records none, and the driver by hand has the first four alone */
struct side { const char *name; void (*call[CALLS])(void); };
enum { OURS, O2, O3, HAND, SIDES };
enum chip { KS0713, KS0717, CHIPS };
extern const struct side sides[CHIPS][SIDES];
#endif

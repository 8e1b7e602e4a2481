#include "driver.h"
#include "sides.h"

struct desk desk;

/* the model's calls once more, under the names of fast.h and fast0717.h */
MODEL_CALLS(fast)
MODEL_CALLS(fast0717)
uint8_t fast_write_job(uint8_t, const uint8_t *, size_t, size_t, const uint8_t *, size_t, uint8_t *, size_t, size_t *);
uint8_t fast_write_text(const uint8_t *, size_t, uint8_t *, size_t, size_t *);
uint8_t fast_read_text(const uint8_t *, size_t, uint8_t *, size_t, size_t *, size_t *);

/* the four calls over two pictures, which every side has */
#define PAIRS(side, prefix, n) \
    static void side##_update(void) { prefix##_update(desk.recorded, n, desk.wanted, n, desk.out, desk.room, desk.kinds, desk.room, &desk.count); } \
    static void side##_group(void) { prefix##_page_group(desk.recorded, n, desk.wanted, n, desk.chosen, desk.out, desk.room, desk.kinds, desk.room, &desk.count); } \
    static void side##_length(void) { prefix##_update_length(desk.recorded, n, desk.wanted, n, &desk.count); } \
    static void side##_first(void) { prefix##_first_difference(desk.recorded, n, desk.wanted, n, &desk.found, &desk.page, &desk.column); }
#define PAIRS_OF(side) side##_update, side##_group, side##_length, side##_first

#define STREAMS(side, prefix, n) \
    PAIRS(side, prefix, n) \
    static void side##_redraw(void) { prefix##_redraw(desk.wanted, n, 33, desk.out, desk.room, desk.kinds, desk.room, &desk.count); } \
    static void side##_read(void) { prefix##_read_instruction(0, desk.value, &desk.number, &desk.field); } \
    static void side##_reads(void) { for (size_t i = 0; i < desk.laps; i++) prefix##_read_instruction(0, desk.cycles[2 * i + 1], &desk.number, &desk.field); } \
    static void side##_write(void) { prefix##_write_instruction(desk.number, desk.field, &desk.byte); } \
    static void side##_v0(void) { prefix##_v0(5, 33, &desk.numerator); }

#define CHIP(side, prefix, registers, n) \
    static void side##_cycle(void) { prefix##_cycle(registers, desk.memory, n, desk.kind, desk.value, &desk.read, &desk.byte, &desk.mark); } \
    static void side##_frame(void) { prefix##_frame(registers, desk.memory, n, desk.frame, n); } \
    static void side##_power(void) { prefix##_power_state(registers, &desk.power); }

#define CALLS_OF(side, list, ...) { PAIRS_OF(side), side##_redraw, side##_cycle, list, side##_frame, side##_read, side##_reads, \
    side##_write, side##_power, side##_v0, __VA_ARGS__ }

/* a list as text, the text read again, and the list as a job of the old set with two pictures */
#define RECORDING(side, prefix) \
    static void side##_write_text(void) { prefix##_write_text(desk.cycles, 2 * desk.laps, desk.text, sizeof desk.text, &desk.length); } \
    static void side##_read_text(void) { prefix##_read_text(desk.text, desk.length, desk.list, sizeof desk.list, &desk.count, &desk.line); } \
    static void side##_write_job(void) { prefix##_write_job(PANEL_SET_OLD, desk.cycles, 2 * desk.laps, 2, desk.pictures, sizeof desk.pictures, desk.job, sizeof desk.job, &desk.count); }
#define RECORDS(side) side##_write_text, side##_read_text, side##_write_job

/* a list of cycles with each one's answer: the library unpacks its state once, the model's struct is at hand */
static void ours_list(void)
{
    bus_run(desk.state, desk.memory, N, desk.cycles, 2 * desk.laps, desk.numbers, MOST, desk.reads, MOST, desk.bytes, MOST, desk.fresh, MOST);
}

#define LIST_OF(side, prefix) \
    static void side##_list(void) \
    { \
        for (size_t i = 0; i < desk.laps; i++) { \
            desk.reads[i] = desk.bytes[i] = desk.fresh[i] = 0; \
            desk.numbers[i] = prefix##_cycle(&desk.registers, desk.memory, N, desk.cycles[2 * i], desk.cycles[2 * i + 1], &desk.reads[i], &desk.bytes[i], &desk.fresh[i]); \
        } \
    }

STREAMS(ours, panel, N)
CHIP(ours, panel, desk.state, N)
STREAMS(o2, model, N)
CHIP(o2, model, &desk.registers, N)
LIST_OF(o2, model)
STREAMS(o3, fast, N)
CHIP(o3, fast, &desk.registers, N)
LIST_OF(o3, fast)
RECORDING(ours, recorder)
RECORDING(o2, model)
RECORDING(o3, fast)
PAIRS(hand, driver, N)

STREAMS(ours0717, panel0717, N0717)
CHIP(ours0717, panel0717, desk.state, N0717)
STREAMS(o20717, model0717, N0717)
CHIP(o20717, model0717, &desk.registers, N0717)
STREAMS(o30717, fast0717, N0717)
CHIP(o30717, fast0717, &desk.registers, N0717)
PAIRS(hand0717, driver0717, N0717)

const struct side sides[CHIPS][SIDES] = {
    { { "library", CALLS_OF(ours, ours_list, RECORDS(ours)) }, { "C -O2", CALLS_OF(o2, o2_list, RECORDS(o2)) },
      { "C -O3 restrict", CALLS_OF(o3, o3_list, RECORDS(o3)) }, { "C by hand", { PAIRS_OF(hand) } } },
    { { "library", CALLS_OF(ours0717, 0, 0) }, { "C -O2", CALLS_OF(o20717, 0, 0) },
      { "C -O3 restrict", CALLS_OF(o30717, 0, 0) }, { "C by hand", { PAIRS_OF(hand0717) } } },
};

/* The benchmark: the proved library beside the independent model and the driver by hand, on the same input, in one run. It prints the
   tables of docs/BENCHMARKS.md. */
#include "measure.h"
#include "pictures.h"
#include "posix.h"
#include "sides.h"
#include "ways.h"

/* 0 where a side does not have the call */
struct cost { double steps[SIDES], times[SIDES]; };

/* whose calls are measured */
static enum chip chip = KS0713;

/* how many sides have a call: all, or all but the last, the driver by hand */
static int sides_of(enum call call) { return sides[chip][HAND].call[call] ? SIDES : HAND; }

static void count_steps(enum call call, struct cost *cost)
{
    for (int side = 0; side < sides_of(call); side++) cost->steps[side] = steps_of(sides[chip][side].call[call]);
}

static void take_times(enum call call, struct cost *cost)
{
    void (*calls[SIDES])(void);
    for (int side = 0; side < sides_of(call); side++) calls[side] = sides[chip][side].call[call];
    times_of(calls, sides_of(call), cost->times);
}

static struct cost cost_of(enum call call)
{
    struct cost cost = { { 0 }, { 0 } };
    count_steps(call, &cost);
    take_times(call, &cost);
    return cost;
}

/* the desk after a side's call over two pictures. The answers of calls before it are blotted out, so that one that is not given shows */
static void answer(int side, enum call call, struct desk *after)
{
    static struct desk before;
    before = desk;
    memset(desk.out, 0x55, ROOM);
    memset(desk.kinds, 0x55, ROOM);
    desk.count = desk.page = desk.column = desk.found = 0x55;
    sides[chip][side].call[call]();
    *after = desk;
    desk = before;
}

static int same_answer(const struct desk *a, const struct desk *b)
{
    return memcmp(a->out, b->out, ROOM) == 0 && memcmp(a->kinds, b->kinds, ROOM) == 0 && a->count == b->count
        && a->found == b->found && a->page == b->page && a->column == b->column;
}

/* what the driver by hand costs means something only where it gives the library's answer, to the byte */
static void agree(const char *name, const char *input, enum call call)
{
    static struct desk ours, by_hand;
    if (sides_of(call) == HAND) return;
    answer(OURS, call, &ours);
    answer(HAND, call, &by_hand);
    if (same_answer(&ours, &by_hand)) return;
    dprintf(2, "bench: the driver by hand gives another answer: %s, %s\n", name, input);
    exit(2);
}

static void head(const char *title)
{
    const char *times = counting == STEPPING ? " Time / -O2 | Time / -O3 | Time / by hand |" : "";
    printf("\n### %s\n\n| Call | Input | Library | C -O2 | C -O3 restrict | C by hand |", title);
    printf(" Library / -O2 | Library / -O3 | Library / by hand |%s\n", times);
    printf("|---|---|---:|---:|---:|---:|---:|---:|---:|%s\n", counting == STEPPING ? "---:|---:|---:|" : "");
}

/* a dash for a side without the call */
static void cell(const char *form, double number)
{
    if (number == 0) printf(" - |"); else printf(form, number);
}

static void ratios(const double *numbers)
{
    for (int side = O2; side < SIDES; side++) cell(" %.2f |", numbers[side] == 0 ? 0 : numbers[OURS] / numbers[side]);
}

static void row(const char *name, const char *input, struct cost cost)
{
    printf("| %s | %s |", name, input);
    for (int side = 0; side < SIDES; side++) cell(" %.0f |", cost.steps[side]);
    ratios(cost.steps);
    if (counting == STEPPING) ratios(cost.times);
    printf("\n");
}

static void compare(const char *name, const char *input, enum call call)
{
    agree(name, input, call);
    row(name, input, cost_of(call));
}

static void pictures(void)
{
    static const struct { const char *name; enum call call; } calls[] = {
        { "update length", LENGTH }, { "first difference", FIRST }, { "update, any room", UPDATE } };
    head("Pictures and streams");
    desk.room = ROOM;
    for (size_t c = 0; c < sizeof calls / sizeof calls[0]; c++)
        for (int change = EQUAL; change < CHANGES; change++) {
            draw_change(change, desk.recorded, desk.wanted);
            compare(calls[c].name, change_name[change], calls[c].call);
        }
    for (int change = SETPOINT; change < FULL; change++) {
        draw_change(change, desk.recorded, desk.wanted);
        sides[KS0713][OURS].call[LENGTH]();
        desk.room = desk.count;
        compare("update, exact room", change_name[change], UPDATE);
    }
    desk.room = ROOM;
    compare("redraw", "any", REDRAW);
}

/* a page by itself: a setpoint's, the one before it, which is equal, and one of which every byte differs */
static void groups(void)
{
    head("One page by itself");
    draw_change(SETPOINT, desk.recorded, desk.wanted);
    sides[KS0713][OURS].call[FIRST]();
    desk.chosen = desk.page;
    compare("page group, any room", "a setpoint's page", GROUP);
    sides[KS0713][OURS].call[GROUP]();
    desk.room = desk.count;
    compare("page group, exact room", "a setpoint's page", GROUP);
    desk.room = ROOM;
    desk.chosen = desk.page - 1;
    compare("page group, any room", "an equal page", GROUP);
    draw_change(FULL, desk.recorded, desk.wanted);
    compare("page group, any room", "a full page", GROUP);
}

static const struct { const char *name; uint8_t kind, value; } cycles[] = {
    { "instruction B3, page", 0, 0xb3 }, { "instruction 1C, column", 0, 0x1c }, { "instruction 40, start line", 0, 0x40 },
    { "instruction AF, display on", 0, 0xaf }, { "instruction E2, reset", 0, 0xe2 }, { "instruction E3, nothing", 0, 0xe3 },
    { "instruction FF, refused", 0, 0xff }, { "data write", 1, 0x5a }, { "status read", 2, 0 }, { "data read", 3, 0 }, { "pin low", 4, 0 },
    { "pin high", 5, 0 } };
enum { KINDS = sizeof cycles / sizeof cycles[0] };

/* page 3, display on, and the column counter locked, so that each call of a series is the same; the model has the same bytes in the
   same order */
static void set_chip(void)
{
    if (chip == KS0713) panel_power_up(desk.state); else panel0717_power_up(desk.state);
    desk.state[PANEL_AT_PAGE] = 3;
    desk.state[PANEL_AT_COLUMN] = chip == KS0713 ? 200 : 120;
    desk.state[PANEL_AT_ON] = 1;
    memcpy(&desk.registers, desk.state, sizeof desk.registers);
}

/* a byte of each row of the instruction table, by turns and in no order. The list is timed at such a length that a processor does not
   learn it */
static void draw_instructions(void)
{
    static const uint8_t rows[] = { 0x05, 0x1c, 0x25, 0x2f, 0x60, 0x81, 0xa0, 0xa2, 0xa4, 0xa6, 0xac, 0xad, 0xaf, 0xb3, 0xc8, 0xe0, 0xee, 0xe2, 0xe3 };
    uint32_t seed = 713;
    for (int lap = 0; lap < MOST; lap++) {
        seed = seed * 1664525u + 1013904223u;
        desk.cycles[2 * lap] = 0;
        desk.cycles[2 * lap + 1] = rows[(seed >> 16) % sizeof rows];
    }
}

/* a call on a list: one entry is what the list costs more than none, divided by its length */
static struct cost entry_cost(enum call call, size_t timed, struct cost none)
{
    struct cost all = { { 0 }, { 0 } };
    set_chip();
    desk.laps = LAPS;
    count_steps(call, &all);
    set_chip();
    desk.laps = timed;
    take_times(call, &all);
    for (int side = 0; side < SIDES; side++) {
        all.steps[side] = (all.steps[side] - none.steps[side]) / LAPS;
        all.times[side] = (all.times[side] - none.times[side]) / timed;
    }
    return all;
}

/* the same cycle over and over; then instructions by turns */
static void lists(void)
{
    struct cost none;
    head("A list of cycles, with each one's answer");
    set_chip();
    desk.laps = 0;
    none = cost_of(LIST);
    row("an empty list", "the state alone", none);
    for (int c = 0; c < KINDS; c++) {
        for (int lap = 0; lap < LAPS; lap++) desk.cycles[2 * lap] = cycles[c].kind, desk.cycles[2 * lap + 1] = cycles[c].value;
        row("a cycle", cycles[c].name, entry_cost(LIST, LAPS, none));
    }
    draw_instructions();
    row("a cycle", "instructions by turns", entry_cost(LIST, MOST, none));
}

static void through_state(void)
{
    head("The other calls, through the packed state");
    for (int c = 0; c < KINDS; c++) {
        set_chip();
        desk.kind = cycles[c].kind;
        desk.value = cycles[c].value;
        compare("cycle", cycles[c].name, CYCLE);
    }
    set_chip();
    draw_change(SPARSE, desk.memory, desk.frame);
    compare("frame", "a screen", FRAME);
    compare("power state", "normal", POWER);
    compare("V0", "resistor 5, contrast 33", V0);
    desk.value = 0xb3;
    compare("read instruction", "B3", READ);
    desk.laps = 0;
    struct cost none = cost_of(READS);
    draw_instructions();
    row("read instruction", "by turns", entry_cost(READS, MOST, none));
    desk.number = PANEL_PAGE;
    desk.field = 3;
    compare("write instruction", "page 3", WRITE);
}

/* the second chip's calls, on pictures of its own size */
static void second_chip(void)
{
    head("The KS0717, streams and the packed state");
    chip = KS0717;
    for (size_t i = 0; i < N0717; i++) desk.recorded[i] = desk.memory[i] = (uint8_t)(31 * i), desk.wanted[i] = (uint8_t)~desk.recorded[i];
    compare("update length", "full", LENGTH);
    compare("update, any room", "full", UPDATE);
    desk.chosen = 3;
    compare("page group, any room", "a full page", GROUP);
    compare("redraw", "any", REDRAW);
    memcpy(desk.wanted, desk.recorded, N0717);
    compare("first difference", "none", FIRST);
    compare("update, any room", "none", UPDATE);
    set_chip();
    desk.kind = 1, desk.value = 0x5a;
    compare("cycle", "data write", CYCLE);
    compare("frame", "a pattern", FRAME);
    compare("V0", "resistor 5, contrast 33", V0);
    chip = KS0713;
}

/* what a panel was sent: an address, then data, over and over */
static void recording(void)
{
    static const size_t lists[] = { 250, 500, 1000 };
    static const char *const names[] = { "250 cycles", "500 cycles", "1,000 cycles" };
    head("Recording");
    for (size_t i = 0; i < MOST; i++) desk.cycles[2 * i] = i % 8 > 2, desk.cycles[2 * i + 1] = (uint8_t)(31 * i);
    for (int k = 0; k < 3; k++) {
        desk.laps = lists[k];
        compare("write text", names[k], WRITE_TEXT);
        compare("read text", names[k], READ_TEXT);
        compare("write job, two pictures", names[k], WRITE_JOB);
    }
}

static void growth(void)
{
    static const size_t columns[] = { 0, 1, 2, 4, 8, 16, 32, 64, 132, 264, 528, 1188 };
    printf("\n## How an update grows with the differing columns\n\n");
    printf("| Differing columns | Spread: bytes | Library | C -O3 restrict | Ratio | C by hand | Ratio |");
    printf(" Side by side: bytes | Library | C -O3 restrict | Ratio | C by hand | Ratio |\n");
    printf("|---:|---:|---:|---:|---:|---:|---:|---:|---:|---:|---:|---:|---:|\n");
    for (size_t c = 0; c < sizeof columns / sizeof columns[0]; c++) {
        printf("| %zu |", columns[c]);
        for (int block = 0; block < 2; block++) {
            (block ? draw_block : draw_spread)(columns[c], desk.recorded, desk.wanted);
            sides[KS0713][OURS].call[LENGTH]();
            agree("update", block ? "columns side by side" : "columns spread", UPDATE);
            double ours = steps_of(sides[KS0713][OURS].call[UPDATE]), theirs = steps_of(sides[KS0713][O3].call[UPDATE]);
            double by_hand = steps_of(sides[KS0713][HAND].call[UPDATE]);
            printf(" %zu | %.0f | %.0f | %.2f | %.0f | %.2f |", desk.count, ours, theirs, ours / theirs, by_hand, ours / by_hand);
        }
        printf("\n");
    }
}

static void ways(void)
{
    printf("\n## Bytes on the bus\n\n| Change | Update");
    for (int way = 0; way < WAYS; way++) printf(" | %s", way_name[way]);
    printf(" |\n|---|---:");
    for (int way = 0; way < WAYS; way++) printf("|---:");
    printf("|\n");
    for (int change = EQUAL; change < CHANGES; change++) {
        draw_change(change, desk.recorded, desk.wanted);
        sides[KS0713][OURS].call[LENGTH]();
        printf("| %s | %zu", change_name[change], desk.count);
        for (int way = 0; way < WAYS; way++) printf(" | %zu", bytes_of(way, desk.recorded, desk.wanted));
        printf(" |\n");
    }
}

/* usage: bench [marks | counts]; without a word it steps. `marks` first says where `mark` is */
int main(int argc, char **argv)
{
    if (argc > 1) counting = strcmp(argv[1], "marks") ? READING : MARKING;
    if (counting == MARKING) printf("mark %016lx\n", (unsigned long)mark);
    printf("\n## Instructions%s of each call\n", counting == STEPPING ? " and time" : "");
    pictures();
    groups();
    lists();
    through_state();
    second_chip();
    recording();
    growth();
    ways();
    return 0;
}

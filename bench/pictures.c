#include "pictures.h"

enum { WIDTH = 132, PICTURE = 9 * WIDTH };

const char *const change_name[CHANGES] = { "none", "a setpoint", "all readings", "icons", "sparse", "full" };

/* digits of 5 columns, bit 0 on top */
static const uint8_t digit[10][5] = {
    { 0x3e, 0x51, 0x49, 0x45, 0x3e }, { 0x00, 0x42, 0x7f, 0x40, 0x00 }, { 0x42, 0x61, 0x51, 0x49, 0x46 },
    { 0x21, 0x41, 0x45, 0x4b, 0x31 }, { 0x18, 0x14, 0x12, 0x7f, 0x10 }, { 0x27, 0x45, 0x45, 0x45, 0x39 },
    { 0x3c, 0x4a, 0x49, 0x49, 0x30 }, { 0x01, 0x71, 0x09, 0x05, 0x03 }, { 0x36, 0x49, 0x49, 0x49, 0x36 },
    { 0x06, 0x49, 0x49, 0x29, 0x1e },
};

/* a number of three digits, each with an empty column behind it */
static void write_number(uint8_t *picture, unsigned page, unsigned column, unsigned number)
{
    unsigned digits[3] = { number / 100, number / 10 % 10, number % 10 };
    for (unsigned d = 0; d < 3; d++)
        for (unsigned c = 0; c < 5; c++) picture[WIDTH * page + column + 6 * d + c] = digit[digits[d]][c];
}

/* zone p: its name at column 2, its reading at 60, its setpoint at 100 */
static void write_screen(uint8_t *picture, unsigned reading, unsigned setpoint)
{
    for (size_t i = 0; i < PICTURE; i++) picture[i] = 0;
    for (unsigned page = 0; page < 8; page++) {
        write_number(picture, page, 2, page + 1);
        write_number(picture, page, 60, reading + 3 * page);
        write_number(picture, page, 100, setpoint);
    }
}

static uint32_t seed;
static uint32_t some(void)
{
    seed = seed * 1664525u + 1013904223u;
    return seed >> 16;
}

void draw_change(enum change change, uint8_t *recorded, uint8_t *wanted)
{
    seed = 713;
    write_screen(recorded, 208, 215);
    write_screen(wanted, change == READINGS ? 211 : 208, 215);
    for (size_t i = 0; i < PICTURE; i++) {
        unsigned page = i / WIDTH, column = i % WIDTH;
        if (change == ICONS && page == 8 && column % 20 < 10 && column < 80) wanted[i] ^= 1;
        if (change == SPARSE && some() % 10 == 0) wanted[i] ^= 1;
        if (change == FULL) wanted[i] = (uint8_t)~recorded[i];
    }
    if (change == SETPOINT) write_number(wanted, 3, 100, 220);
}

void draw_spread(size_t columns, uint8_t *recorded, uint8_t *wanted)
{
    write_screen(recorded, 208, 215);
    write_screen(wanted, 208, 215);
    for (size_t k = 0; k < columns; k++) wanted[k * PICTURE / columns] ^= 1;
}

void draw_block(size_t columns, uint8_t *recorded, uint8_t *wanted)
{
    write_screen(recorded, 208, 215);
    write_screen(wanted, 208, 215);
    for (size_t k = 0; k < columns; k++) wanted[k] ^= 1;
}

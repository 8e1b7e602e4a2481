#include "ways.h"

enum { WIDTH = 132, PAGES = 9 };

const char *const way_name[WAYS] = { "All pages", "First to last of a page", "Tiles of 8 columns", "Byte by byte", "Runs ended by 4 equal" };

static int differs(const uint8_t *recorded, const uint8_t *wanted, size_t page, size_t column)
{
    uint8_t change = recorded[WIDTH * page + column] ^ wanted[WIDTH * page + column];
    return page == 8 ? change & 1 : change != 0;
}

/* the columns of a page that a way sends */
static void choose(enum way way, const uint8_t *changed, uint8_t *sent)
{
    size_t first = WIDTH, last = 0, gap = 0;
    for (size_t c = 0; c < WIDTH; c++) {
        sent[c] = way == EVERYTHING || changed[c];
        if (changed[c] && first == WIDTH) first = c;
        if (changed[c]) last = c;
    }
    for (size_t c = 0; c < WIDTH; c++) {
        if (way == FIRST_TO_LAST) sent[c] = first <= c && c <= last;
        if (way == TILES && changed[c])
            for (size_t t = c / 8 * 8; t < c / 8 * 8 + 8 && t < WIDTH; t++) sent[t] = 1;
        if (way == RUNS_OF_FOUR && changed[c] && first < c && gap < 4)
            for (size_t g = 1; g <= gap; g++) sent[c - g] = 1;
        gap = changed[c] ? 0 : gap + 1;
    }
}

size_t bytes_of(enum way way, const uint8_t *recorded, const uint8_t *wanted)
{
    size_t bytes = 0;
    for (size_t page = 0; page < PAGES; page++) {
        uint8_t changed[WIDTH], sent[WIDTH];
        int page_byte = 0;
        for (size_t c = 0; c < WIDTH; c++) changed[c] = (uint8_t)differs(recorded, wanted, page, c);
        choose(way, changed, sent);
        for (size_t c = 0; c < WIDTH; c++) {
            int begins = sent[c] && (c == 0 || !sent[c - 1] || way == BYTE_BY_BYTE);
            bytes += sent[c] + (begins ? 2u : 0u) + (begins && !page_byte ? 1u : 0u);
            page_byte |= begins;
        }
    }
    return bytes;
}

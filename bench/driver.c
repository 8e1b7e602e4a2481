/* The planner's calls as a good driver would have them, written by hand for speed and proved by nobody: `memcmp` a page, and walk only
   over one that differs, from run to run of differing columns, over equal ones eight at a time. Compiled for each chip, at -O3. */
#include "driver.h"
#include "posix.h"

enum { W = DRIVER_WIDTH, PAGES = 9, SIZE = W * PAGES, LONGEST = W + 3 };

/* a page of both pictures, and its bits that count: on page 8 only bit 0 */
struct page { const uint8_t *recorded, *wanted; uint8_t mask; };

static struct page page_of(const uint8_t *recorded, const uint8_t *wanted, size_t page)
{
    return (struct page){ recorded + W * page, wanted + W * page, page < 8 ? 0xff : 1 };
}

static int same(struct page p)
{
    uint8_t change = 0;
    if (p.mask == 0xff) return memcmp(p.recorded, p.wanted, W) == 0;
    for (size_t c = 0; c < W; c++) change |= p.recorded[c] ^ p.wanted[c];
    return (change & p.mask) == 0;
}

static int differs(struct page p, size_t c) { return ((p.recorded[c] ^ p.wanted[c]) & p.mask) != 0; }

/* the first column from c on that differs, or W. Eight columns are one number, the first its lowest byte, as x86-64 reads them */
static size_t run_start(struct page p, size_t c)
{
    for (; c + 8 <= W; c += 8) {
        uint64_t a, b, change;
        memcpy(&a, p.recorded + c, 8), memcpy(&b, p.wanted + c, 8);
        change = (a ^ b) & 0x0101010101010101ull * p.mask;
        if (change) return c + (size_t)__builtin_ctzll(change) / 8;
    }
    while (c < W && !differs(p, c)) c++;
    return c;
}

/* the first column from c on that does not differ, or W */
static size_t run_end(struct page p, size_t c)
{
    while (c < W && differs(p, c)) c++;
    return c;
}

/* where a run ended, before there is one: so far below 0 that the first gap is a wide one */
static const size_t none = (size_t)-3;

static size_t page_length(const uint8_t *recorded, const uint8_t *wanted, size_t page)
{
    struct page p = page_of(recorded, wanted, page);
    size_t bytes = 1, end = none;
    if (same(p)) return 0;
    for (size_t c = run_start(p, 0); c < W; c = run_start(p, end)) {
        size_t gap = c - end;
        end = run_end(p, c);
        bytes += (gap > 2 ? 2 : gap) + end - c;
    }
    return bytes;
}

static size_t length_of(const uint8_t *recorded, const uint8_t *wanted)
{
    size_t bytes = 0;
    for (size_t page = 0; page < PAGES; page++) bytes += page_length(recorded, wanted, page);
    return bytes;
}

/* the page's bytes and kinds to out and kinds from `at` on; answers where they end. A gap of one or two columns is sent with the run
   behind it, a wider one is passed over by a new address. With restrict on kinds too the compiler calls memset for each run, most of
   which are short */
static size_t walk(const uint8_t *recorded, const uint8_t *wanted, size_t page, uint8_t *restrict out, uint8_t *kinds, size_t at)
{
    struct page p = page_of(recorded, wanted, page);
    size_t end = none;
    if (same(p)) return at;
    out[at] = (uint8_t)(0xb0 + page), kinds[at++] = 0;
    for (size_t c = run_start(p, 0); c < W; c = run_start(p, end)) {
        size_t from = end;
        if (c - end > 2) {
            out[at] = (uint8_t)(0x10 + c / 16), kinds[at++] = 0;
            out[at] = c % 16, kinds[at++] = 0;
            from = c;
        }
        end = run_end(p, c);
        do out[at] = p.wanted[from] & p.mask, kinds[at++] = 1; while (++from < end);
    }
    return at;
}

uint8_t DRIVER(first_difference)(const uint8_t *recorded, size_t recorded_len, const uint8_t *wanted, size_t wanted_len,
                                 uint8_t *found, size_t *page, size_t *column)
{
    if (recorded_len != SIZE || wanted_len != SIZE) return 1;
    for (size_t n = 0; n < PAGES; n++) {
        struct page p = page_of(recorded, wanted, n);
        if (same(p)) continue;
        *found = 1, *page = n, *column = run_start(p, 0);
        return 0;
    }
    *found = 0;
    return 0;
}

uint8_t DRIVER(update_length)(const uint8_t *recorded, size_t recorded_len, const uint8_t *wanted, size_t wanted_len, size_t *count)
{
    if (recorded_len != SIZE || wanted_len != SIZE) return 1;
    *count = length_of(recorded, wanted);
    return 0;
}

uint8_t DRIVER(update)(const uint8_t *recorded, size_t recorded_len, const uint8_t *wanted, size_t wanted_len,
                       uint8_t *out, size_t out_len, uint8_t *kinds, size_t kinds_len, size_t *count)
{
    size_t room = out_len < kinds_len ? out_len : kinds_len, at = 0;
    if (recorded_len != SIZE || wanted_len != SIZE) return 1;
    if (room < PAGES * LONGEST && room < length_of(recorded, wanted)) return 5;
    for (size_t page = 0; page < PAGES; page++) at = walk(recorded, wanted, page, out, kinds, at);
    *count = at;
    return 0;
}

uint8_t DRIVER(page_group)(const uint8_t *recorded, size_t recorded_len, const uint8_t *wanted, size_t wanted_len, size_t page,
                           uint8_t *out, size_t out_len, uint8_t *kinds, size_t kinds_len, size_t *count)
{
    size_t room = out_len < kinds_len ? out_len : kinds_len;
    if (recorded_len != SIZE || wanted_len != SIZE) return 1;
    if (page > 8) return 6;
    if (room < LONGEST && room < page_length(recorded, wanted, page)) return 5;
    *count = walk(recorded, wanted, page, out, kinds, 0);
    return 0;
}

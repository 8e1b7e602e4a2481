/* Compares every call of the proved libraries with the independent model on seeded input, good and damaged. Compiled as it is for the
   KS0713, with main, and once more with -DKS0717 for the KS0717.
   usage: differ CASES CYCLES; the status is 0, with 1 added where the KS0713 differs and 2 where the KS0717 does. A chip of which
   some refusal number was never seen counts as one that differs. */
#include "bus.h"
#include "model.h"
#include "panel0717.h"

#ifdef KS0717
#define CHIP "KS0717"
#define PANEL(call) panel0717_##call
#define MODEL(call) model0717_##call
#define COMPARE compare0717
enum { COLUMNS = PANEL0717_COLUMNS, N = PANEL0717_PICTURE, REDRAW = PANEL0717_REDRAW_LENGTH, COUNTER = 128, OTHER = PANEL_PICTURE };
#else
#define CHIP "KS0713"
#define PANEL(call) panel_##call
#define MODEL(call) model_##call
#define COMPARE compare0713
enum { COLUMNS = PANEL_COLUMNS, N = PANEL_PICTURE, REDRAW = PANEL_REDRAW_LENGTH, COUNTER = 256, OTHER = PANEL0717_PICTURE };
#endif

int printf(const char *, ...);
int memcmp(const void *, const void *, size_t);
void *memcpy(void *, const void *, size_t);
void *memset(void *, int, size_t);
long atol(const char *);

enum { ROOM = 1400 };

static uint64_t seed = 0x9E3779B97F4A7C15u;
static uint32_t rnd(void)
{
    seed ^= seed << 13;
    seed ^= seed >> 7;
    seed ^= seed << 17;
    return (uint32_t)(seed >> 32);
}
static uint32_t below(uint32_t n) { return rnd() % n; }

static unsigned long cases, differences, numbers[256];

static int same(const char *what, int ok)
{
    cases++;
    if (!ok && differences++ < 5) printf(CHIP " differs: %s (case %lu)\n", what, cases);
    return ok;
}

/* ---- states of either set: in range, or with one byte anywhere */

/* a value of a range, its ends often */
static uint8_t within(uint32_t low, uint32_t high) { return below(4) ? low + below(high - low + 1) : below(2) ? low : high; }

static void good_state(uint8_t s[PANEL_STATE])
{
    memset(s, 0, PANEL_STATE);
    s[0] = below(2) ? below(9) : below(16);
    s[1] = below(2) ? below(COLUMNS + 1) : below(COUNTER);
    s[2] = below(64), s[3] = below(64), s[4] = below(8), s[5] = below(8);
    for (int i = 6; i < 13; i++) s[i] = below(2);
    s[13] = below(4), s[14] = rnd();
    s[15] = below(8) == 0;
    s[16] = below(2), s[17] = s[16] ? below(COUNTER) : 0, s[19] = below(2);
    s[20] = below(3) == 0, s[18] = !s[20] ? below(3) : below(2) ? 3 + below(3) : 0;
    s[21] = within(0, 79), s[22] = within(17, 81), s[23] = below(4) ? within(3, 33) : 0;
}
static void any_state(uint8_t s[PANEL_STATE])
{
    good_state(s);
    switch (below(16)) {
    case 0: case 1: s[below(PANEL_STATE)] = rnd(); break;
    case 2: s[3] = 62 + below(4); break;
    case 3: s[16] = 0, s[17] = below(4); break;
    case 4: case 5: s[6 + below(15)] = below(4); break;
    case 6: s[below(2) ? 1 : 17] = 126 + below(4); break;
    case 7: s[18] = below(8); break; /* at times a byte of the other set */
    case 8: s[21] = (below(2) ? 78 : 126) + below(4); break;
    case 9: s[22] = below(4) ? (below(2) ? 15 : 80) + below(4) : 0; break;
    case 10: s[23] = below(2) ? below(5) : 32 + below(4); break;
    default: break;
    }
}
static void to_model(struct model_registers *r, const uint8_t s[PANEL_STATE]) { memcpy(r, s, sizeof *r); }
/* a spare byte is no register of the model's: it is out of range by the header's own words */
static int spare(const uint8_t s[PANEL_STATE])
{
    for (int i = 24; i < PANEL_STATE; i++) if (s[i]) return 1;
    return 0;
}

/* ---- pictures */

static void pictures(uint8_t *a, uint8_t *b)
{
    int shape = below(8);
    for (int i = 0; i < N; i++) a[i] = rnd();
    memcpy(b, a, N);
    if (shape == 1) for (int i = 0; i < N; i++) b[i] = ~a[i];
    if (shape == 2) for (int i = 0; i < N; i++) if (below(40) == 0) b[i] = rnd();
    if (shape == 3) for (int i = 0; i < N; i++) if (rnd() & 1) b[i] = rnd();
    if (shape == 4) for (int i = 0; i < N;) { int n = below(8), g = below(6); while (n-- && i < N) { b[i] = a[i] + 1; i++; } i += g; }
    if (shape == 5) for (int i = 8 * COLUMNS; i < N; i++) b[i] = rnd();
    if (shape == 6) b[below(N)] = rnd();
    if (shape == 7) { int c = COLUMNS * below(9) + below(COLUMNS - 12); b[c] ^= 1; b[c + 1 + below(6)] ^= 1; }
}
/* now and then one off, the other chip's, or any */
static size_t some_length(void) { return below(50) ? N : below(3) ? N - 1 + 2 * below(2) : below(2) ? OTHER : below(ROOM); }
static size_t room_near(size_t need) { uint32_t d = below(6); return d < 3 ? need + below(3) : d == 3 ? (need ? need - 1 : 0) : below(ROOM); }

/* ---- the calls */

static void streams(void)
{
    static uint8_t a[ROOM], b[ROOM], o1[ROOM], o2[ROOM], k1[ROOM], k2[ROOM];
    pictures(a, b);
    size_t la = some_length(), lb = some_length(), n1 = 77, n2 = 77;
    uint8_t r1 = PANEL(update_length)(a, la, b, lb, &n1), r2 = MODEL(update_length)(a, la, b, lb, &n2);
    numbers[r2]++;
    same("update_length", r1 == r2 && n1 == n2);

    size_t need = r2 ? 0 : n2, lo = room_near(need), lk = room_near(need);
    for (int i = 0; i < ROOM; i++) o1[i] = o2[i] = rnd(), k1[i] = k2[i] = rnd();
    n1 = n2 = 77;
    r1 = PANEL(update)(a, la, b, lb, o1, lo, k1, lk, &n1);
    r2 = MODEL(update)(a, la, b, lb, o2, lo, k2, lk, &n2);
    numbers[r2]++;
    same("update", r1 == r2 && n1 == n2 && !memcmp(o1, o2, ROOM) && !memcmp(k1, k2, ROOM));

    uint8_t contrast = below(8) ? below(64) : 62 + below(4);
    lo = room_near(REDRAW), lk = room_near(REDRAW);
    n1 = n2 = 77;
    r1 = PANEL(redraw)(b, lb, contrast, o1, lo, k1, lk, &n1);
    r2 = MODEL(redraw)(b, lb, contrast, o2, lo, k2, lk, &n2);
    numbers[r2]++;
    same("redraw", r1 == r2 && n1 == n2 && !memcmp(o1, o2, ROOM) && !memcmp(k1, k2, ROOM));

    uint8_t f1 = 9, f2 = 9;
    size_t p1 = 77, p2 = 77, c1 = 77, c2 = 77;
    r1 = PANEL(first_difference)(a, la, b, lb, &f1, &p1, &c1);
    r2 = MODEL(first_difference)(a, la, b, lb, &f2, &p2, &c2);
    numbers[r2]++;
    same("first_difference", r1 == r2 && f1 == f2 && p1 == p2 && c1 == c2);
}

/* one page's group: any page, at times one that there is none of, with room about what the group needs */
static void groups(void)
{
    static uint8_t a[ROOM], b[ROOM], o1[ROOM], o2[ROOM], k1[ROOM], k2[ROOM];
    pictures(a, b);
    size_t la = some_length(), lb = some_length(), n1 = 77, n2 = 77;
    size_t page = below(12) ? below(9) : below(2) ? 9 + below(3) : (size_t)0 - 1 - below(300);
    size_t need = MODEL(page_group)(a, la, b, lb, page, o2, ROOM, k2, ROOM, &n2) ? 0 : n2, lo = room_near(need), lk = room_near(need);
    for (int i = 0; i < ROOM; i++) o1[i] = o2[i] = rnd(), k1[i] = k2[i] = rnd();
    n2 = 77;
    uint8_t r1 = PANEL(page_group)(a, la, b, lb, page, o1, lo, k1, lk, &n1), r2 = MODEL(page_group)(a, la, b, lb, page, o2, lo, k2, lk, &n2);
    numbers[r2]++;
    same("page_group", r1 == r2 && n1 == n2 && !memcmp(o1, o2, ROOM) && !memcmp(k1, k2, ROOM));
}

/* one page on which two columns differ, or one; all else is equal */
static void columns(const uint8_t *a, uint8_t *b, size_t page, size_t c, size_t k)
{
    static uint8_t o1[ROOM], o2[ROOM], k1[ROOM], k2[ROOM];
    size_t n1 = 77, n2 = 77, p1 = 77, p2 = 77, c1 = 77, c2 = 77;
    uint8_t bit = page < 8 ? 1u << below(8) : 1, f1 = 9, f2 = 9;
    b[COLUMNS * page + c] ^= bit;
    if (k != c) b[COLUMNS * page + k] ^= bit;
    PANEL(first_difference)(a, N, b, N, &f1, &p1, &c1), MODEL(first_difference)(a, N, b, N, &f2, &p2, &c2);
    same("first_difference of columns", f1 == f2 && p1 == p2 && c1 == c2);
    PANEL(update_length)(a, N, b, N, &n1), MODEL(update_length)(a, N, b, N, &n2);
    same("update_length of columns", n1 == n2);
    PANEL(update)(a, N, b, N, o1, ROOM, k1, ROOM, &n1), MODEL(update)(a, N, b, N, o2, ROOM, k2, ROOM, &n2);
    same("update of columns", n1 == n2 && !memcmp(o1, o2, n1) && !memcmp(k1, k2, n1));
    PANEL(page_group)(a, N, b, N, page, o1, ROOM, k1, ROOM, &n1), MODEL(page_group)(a, N, b, N, page, o2, ROOM, k2, ROOM, &n2);
    same("page_group of columns", n1 == n2 && !memcmp(o1, o2, n1) && !memcmp(k1, k2, n1));
    memcpy(b, a, N);
}

/* each column of each page by itself, and each two of pages 3 and 8 */
static void places(void)
{
    static uint8_t a[N], b[N];
    for (int i = 0; i < N; i++) a[i] = b[i] = rnd();
    for (size_t page = 0; page < 9; page++)
        for (size_t c = 0; c < COLUMNS; c++)
            for (size_t k = c; k < (page == 3 || page == 8 ? COLUMNS : c + 1) && differences < 5; k++) columns(a, b, page, c, k);
}

/* cycles on the model's chip: whether none was refused */
static int played(struct model_registers *r, uint8_t *memory, const uint8_t *out, const uint8_t *kinds, size_t n)
{
    uint8_t flag, byte, fresh, refused = 0;
    for (size_t i = 0; i < n; i++) refused |= MODEL(cycle)(r, memory, N, kinds[i], out[i], &flag, &byte, &fresh);
    return !refused;
}

/* order 10's own sentence: the library's groups of all pages, in any order, on the model's chip, beside the model's update there. The
   same memory to the byte, page 8's other bits too, and as many bytes; page and column of the last group, or as they were */
static void orders(void)
{
    static uint8_t a[N], b[N], m1[N], m2[N], out[ROOM], kinds[ROOM];
    size_t pages[9], n = 0, total = 0, whole = 0, page, column;
    struct model_registers r1, r2;
    int ok = 1;
    pictures(a, b);
    for (int i = 0; i < N; i++) m1[i] = m2[i] = i < 8 * COLUMNS ? a[i] : (a[i] & 1) | (rnd() & 0xFE);
    MODEL(power_up)(&r1);
    r1.page = page = below(16), r1.column = column = below(COLUMNS + 1), r2 = r1;
    for (size_t i = 0; i < 9; i++) { size_t k = below(i + 1); pages[i] = pages[k], pages[k] = i; }
    for (size_t i = 0; i < 9; i++) {
        ok &= !PANEL(page_group)(a, N, b, N, pages[i], out, ROOM, kinds, ROOM, &n) && played(&r1, m1, out, kinds, n);
        total += n;
        for (size_t c = 0, at = COLUMNS * pages[i]; c < COLUMNS; c++)
            if ((a[at + c] ^ b[at + c]) & (pages[i] == 8 ? 1 : 255)) page = pages[i], column = c + 1;
    }
    ok &= !MODEL(update)(a, N, b, N, out, ROOM, kinds, ROOM, &whole) && played(&r2, m2, out, kinds, whole);
    same("the groups in any order", ok && total == whole && !memcmp(m1, m2, N) && r1.page == page && r1.column == column);
}

static void frames(void)
{
    static uint8_t m[ROOM], f1[ROOM], f2[ROOM];
    uint8_t s[PANEL_STATE], a1 = 9, a2 = 9;
    struct model_registers r;
    any_state(s);
    to_model(&r, s);
    for (int i = 0; i < ROOM; i++) m[i] = rnd(), f1[i] = f2[i] = rnd();
    size_t lm = some_length(), lf = some_length();
    static uint8_t before[ROOM];
    memcpy(before, f1, ROOM);
    uint8_t n1 = PANEL(frame)(s, m, lm, f1, lf), n2 = MODEL(frame)(&r, m, lm, f2, lf);
    if (!n2 && spare(s)) { n2 = 2; memcpy(f2, before, ROOM); }
    numbers[n2]++;
    same("frame", n1 == n2 && !memcmp(f1, f2, ROOM));
    n1 = PANEL(power_state)(s, &a1), n2 = MODEL(power_state)(&r, &a2);
    if (spare(s)) n2 = 2, a2 = 9;
    same("power_state", n1 == n2 && a1 == a2);
    uint8_t resistor = below(10), contrast = below(70);
    uint32_t v1 = 7, v2 = 7;
    n1 = PANEL(v0)(resistor, contrast, &v1), n2 = MODEL(v0)(resistor, contrast, &v2);
    same("v0", n1 == n2 && v1 == v2);
}

/* all of them: 8 x 256 readings, 32 x 256 writings; and of the new set, whose reader and writer are the same for both chips,
   8 x 256 and 16 x 256 */
static void bytes(void)
{
    for (int a = 0; a < 8; a++) for (int b = 0; b < 256; b++) {
        uint8_t n1 = 99, n2 = 99, v1 = 98, v2 = 98;
        uint8_t r1 = PANEL(read_instruction)(a, b, &n1, &v1), r2 = MODEL(read_instruction)(a, b, &n2, &v2);
        numbers[r2]++;
        same("read_instruction", r1 == r2 && n1 == n2 && v1 == v2);
    }
    for (int n = 0; n < 32; n++) for (int v = 0; v < 256; v++) {
        uint8_t b1 = 97, b2 = 97;
        uint8_t r1 = PANEL(write_instruction)(n, v, &b1), r2 = MODEL(write_instruction)(n, v, &b2);
        numbers[r2]++;
        same("write_instruction", r1 == r2 && b1 == b2);
    }
    for (int a = 0; a < 8; a++) for (int b = 0; b < 256; b++) {
        uint8_t n1 = 99, n2 = 99, v1 = 98, v2 = 98;
        uint8_t r1 = panel_read_added(a, b, &n1, &v1), r2 = MODEL(read_added)(a, b, &n2, &v2);
        numbers[r2]++;
        same("read_added", r1 == r2 && n1 == n2 && v1 == v2);
    }
    for (int n = 0; n < 16; n++) for (int v = 0; v < 256; v++) {
        uint8_t b1 = 97, b2 = 97;
        uint8_t r1 = panel_write_added(n, v, &b1), r2 = MODEL(write_added)(n, v, &b2);
        numbers[r2]++;
        same("write_added", r1 == r2 && b1 == b2);
    }
}

/* a switch of the command set, at times to one that there is none of */
static int switched(uint8_t s[PANEL_STATE], struct model_registers *r)
{
    uint8_t set = below(8) ? below(2) : below(2) ? 2 : 255, before[PANEL_STATE];
    memcpy(before, s, PANEL_STATE);
    uint8_t n1 = PANEL(switch_set)(s, set), n2 = spare(before) ? 2 : MODEL(switch_set)(r, set);
    numbers[n2]++;
    return same("switch_set", n1 == n2 && !memcmp(s, r, sizeof *r) && !memcmp(s + sizeof *r, before + sizeof *r, PANEL_STATE - sizeof *r));
}
static void switches(void)
{
    uint8_t s[PANEL_STATE];
    struct model_registers r;
    any_state(s);
    to_model(&r, s);
    switched(s, &r);
}

/* second bytes of the new set about the bounds of what they set, and E4 */
static uint8_t some_second(void)
{
    static const uint8_t bounds[12] = { 0x4F, 0x50, 0xD0, 0x10, 0x11, 0x51, 0x52, 0x00, 0x01, 0x1F, 0x20, 0xE4 };
    return bounds[below(12)];
}
static uint8_t some_instruction(void)
{
    static const uint8_t often[9] = { 0x81, 0xAD, 0xE0, 0xEE, 0xE2, 0xE3, 0xB8, 0x10 + (COLUMNS - 1) / 16, (COLUMNS - 1) % 16 };
    switch (below(6)) {
    case 0: case 1: return often[below(9)];
    case 2: return 0x44 + below(12);
    case 3: return some_second();
    default: return rnd();
    }
}
/* any cycle; where a byte of the new set is awaited, mostly that one, and at times pin low */
static void some_cycle(uint8_t awaited, uint8_t *kind, uint8_t *value)
{
    *kind = below(20) ? below(4) : below(8), *value = *kind == 0 ? some_instruction() : rnd();
    if (*kind >= 2 && below(20)) *value = 0;
    if (awaited > 2 && below(3)) *kind = below(6) ? 0 : 4, *value = *kind ? 0 : some_second();
}

#ifndef KS0717
/* the model of a list: each cycle by itself, its answer at its entry; the list is refused as a whole first */
static uint8_t model_list(struct model_registers *r, int used, uint8_t *m, size_t length, const uint8_t *list, size_t n,
                          uint8_t *out[4], const size_t room[4])
{
    uint8_t flag = 0, byte = 0, fresh = 0;
    struct model_registers asked = *r;
    if (length != N) return 1;
    if (used || MODEL(cycle)(&asked, m, length, 2, 0, &flag, &byte, &fresh) == 2) return 2; /* a status read meets 1 and 2, and changes nothing */
    for (int i = 0; i < 4; i++) if (room[i] < n) return 5;
    for (size_t i = 0; i < n; i++) {
        flag = byte = fresh = 0;
        out[0][i] = MODEL(cycle)(r, m, length, list[2 * i], list[2 * i + 1], &flag, &byte, &fresh);
        out[1][i] = flag, out[2][i] = byte, out[3][i] = fresh;
    }
    return 0;
}

/* a list of cycles from any state, at times with an odd byte behind it, and with too little room */
static void lists(void)
{
    enum { MOST = 60, WIDE = MOST + 4 };
    static uint8_t m1[ROOM], m2[ROOM], list[2 * MOST + 1], ours[4][WIDE], theirs[4][WIDE];
    uint8_t s[PANEL_STATE], *out[4] = { theirs[0], theirs[1], theirs[2], theirs[3] };
    struct model_registers r;
    size_t n = below(MOST + 1), odd = below(2), length = some_length(), room[4];
    if (below(4)) good_state(s); else any_state(s);
    to_model(&r, s);
    for (int i = 0; i < ROOM; i++) m1[i] = m2[i] = rnd();
    for (size_t i = 0; i < n; i++) some_cycle(i ? 0 : s[18], &list[2 * i], &list[2 * i + 1]);
    list[2 * n] = rnd();
    for (int i = 0; i < 4; i++) {
        room[i] = below(20) ? n + below(4) : n ? n - 1 : 0;
        for (int k = 0; k < WIDE; k++) ours[i][k] = theirs[i][k] = rnd();
    }
    uint8_t before[PANEL_STATE];
    memcpy(before, s, PANEL_STATE);
    uint8_t n1 = bus_run(s, m1, length, list, 2 * n + odd, ours[0], room[0], ours[1], room[1], ours[2], room[2], ours[3], room[3]);
    uint8_t n2 = model_list(&r, spare(before), m2, length, list, n, out, room);
    numbers[n2]++;
    int state = n2 ? !memcmp(before, s, PANEL_STATE) : !memcmp(s, &r, sizeof r) && !spare(s);
    same("bus_run", n1 == n2 && state && !memcmp(m1, m2, ROOM) && !memcmp(ours, theirs, sizeof ours));
}

#endif

/* one cycle, from the state that the last one left or from another, in range or not; between two of them at times a switch */
static void cycles(long count)
{
    static uint8_t m1[ROOM], m2[ROOM];
    uint8_t s[PANEL_STATE];
    struct model_registers r;
    PANEL(power_up)(s);
    MODEL(power_up)(&r);
    same("power_up", !memcmp(s, &r, sizeof r) && !spare(s));
    for (int i = 0; i < ROOM; i++) m1[i] = m2[i] = rnd();
    for (long i = 0; i < count; i++) {
        uint8_t kind, value;
        if (below(16) == 0) {
            if (below(2)) any_state(s); else good_state(s);
            to_model(&r, s);
        }
        if (below(16) == 0 && !switched(s, &r)) { good_state(s); to_model(&r, s); }
        some_cycle(s[18], &kind, &value);
        size_t length = below(200) ? N : below(2) ? OTHER : below(ROOM);
        uint8_t before[PANEL_STATE], g1 = 7, g2 = 7, b1 = 5, b2 = 5, f1 = 3, f2 = 3;
        memcpy(before, s, PANEL_STATE);
        uint8_t n1 = PANEL(cycle)(s, m1, length, kind, value, &g1, &b1, &f1), n2;
        if (spare(before) && length == N) n2 = 2;
        else n2 = MODEL(cycle)(&r, m2, length, kind, value, &g2, &b2, &f2);
        numbers[n2]++;
        int kept = !n1 || !memcmp(before, s, PANEL_STATE);
        int equal = n1 == n2 && g1 == g2 && b1 == b2 && f1 == f2 && kept && (n1 || !spare(s)) && !memcmp(s, &r, sizeof r);
        if (i % 64 == 0 || kind == 1) equal = equal && !memcmp(m1, m2, ROOM);
        if (!same("cycle", equal)) { memcpy(m2, m1, ROOM); good_state(s); to_model(&r, s); }
        if (spare(s)) { good_state(s); to_model(&r, s); }
    }
}

int COMPARE(long n, long c);
int COMPARE(long n, long c)
{
    static const int must[8] = { 1, 2, 3, 4, 5, 6, 9, 13 };
    bytes();
    for (long i = 0; i < n && differences < 5; i++) streams(), groups();
    for (long i = 0; i < n / 50000; i++) places();
    for (long i = 0; i < n / 20 && differences < 5; i++) orders();
    for (long i = 0; i < n / 4 && differences < 5; i++) frames(), switches();
#ifndef KS0717
    for (long i = 0; i < n / 4 && differences < 5; i++) lists();
#endif
    if (differences < 5) cycles(c);
    int missing = 0;
    for (int i = 0; i < 8; i++) if (!numbers[must[i]]) { printf(CHIP ": refusal %d never occurred\n", must[i]); missing = 1; }
    printf(CHIP ": %lu comparisons, %lu differences; refusals 1: %lu, 2: %lu, 3: %lu, 4: %lu, 5: %lu, 6: %lu, 9: %lu, 13: %lu\n", cases,
           differences, numbers[1], numbers[2], numbers[3], numbers[4], numbers[5], numbers[6], numbers[9], numbers[13]);
    return differences || missing;
}

#ifndef KS0717
int compare0717(long n, long c);
int main(int argc, char **argv)
{
    long n = argc > 1 ? atol(argv[1]) : 100000, c = argc > 2 ? atol(argv[2]) : 1000000;
    int first = compare0713(n, c);
    return first + 2 * compare0717(n, c);
}
#endif

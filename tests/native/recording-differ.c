/* Compares every call of include/recorder.h with the independent model on seeded input, good and damaged.
   usage: recording-differ ROUNDS; the status is 0, or 1 where a call differs or some refusal number was never seen. */
#include "model.h"
#include "recorder.h"
#include "recording.h"

int printf(const char *, ...);
int memcmp(const void *, const void *, size_t);
void *memcpy(void *, const void *, size_t);
void *memmove(void *, const void *, size_t);
long atol(const char *);

enum { PICTURE = 1188, SPARE = 16, MOST = RECORDER_PLAYED_MOST + SPARE };

static uint64_t seed = 0xD1B54A32D192ED03u;
static uint32_t rnd(void)
{
    seed ^= seed << 13;
    seed ^= seed >> 7;
    seed ^= seed << 17;
    return (uint32_t)(seed >> 32);
}
static uint32_t below(uint32_t n) { return rnd() % n; }

static unsigned long comparisons, differences, numbers[256];
static uint8_t ours[MOST], theirs[MOST];

static void same(const char *what, int ok)
{
    comparisons++;
    if (!ok && differences++ < 5) printf("recorder differs: %s (comparison %lu)\n", what, comparisons);
}

/* room for what is needed: exactly, a little more, a byte less, or any */
static size_t room_near(size_t need)
{
    uint32_t d = below(6);
    return d < 2 ? need : d < 4 ? need + below(SPARE) : d == 4 ? (need ? need - 1 : 0) : below((uint32_t)need + SPARE);
}

/* both outputs alike, as far as a call may write and a little more */
static void fill(size_t room) { for (size_t i = 0; i < room + SPARE && i < MOST; i++) ours[i] = theirs[i] = (uint8_t)rnd(); }
static int alike(size_t room) { size_t n = room + SPARE; return !memcmp(ours, theirs, n < MOST ? n : MOST); }

/* ---- cycles: mostly good, of any kind and of either set; now and then one that is none, at any place */

static uint8_t cycles[2 * 16002];

static void wrong_cycle(size_t i)
{
    switch (below(3)) {
    case 0: cycles[2 * i] = 6, cycles[2 * i + 1] = 0; break;
    case 1: cycles[2 * i] = (uint8_t)(2 + below(4)), cycles[2 * i + 1] = (uint8_t)(1 + below(255)); break;
    default: cycles[2 * i] = (uint8_t)rnd(), cycles[2 * i + 1] = (uint8_t)rnd(); break;
    }
}
/* in the new set 44-4F open an instruction, E4 is one, and the others are second bytes about a bound */
static uint8_t some_value(void)
{
    static const uint8_t often[8] = { 0x00, 0xB0, 0x10, 0xE0, 0x81, 0xAF, 0x30, 0xA1 };
    static const uint8_t bounds[8] = { 0xE4, 0x4F, 0x50, 0x11, 0x51, 0x00, 0x01, 0x1F };
    switch (below(8)) {
    case 0: case 1: return often[below(8)];
    case 2: case 3: return (uint8_t)(0x44 + below(12));
    case 4: return bounds[below(8)];
    default: return (uint8_t)rnd();
    }
}
static size_t some_cycles(void)
{
    size_t n = below(8) == 0 ? below(3) : below(120);
    uint32_t seldom = below(2) ? 4 : 60;
    if (below(60) == 0) n = 15999 + below(3);
    for (size_t i = 0; i < n; i++) {
        uint8_t kind = (uint8_t)below(6);
        if (kind > 3 && below(seldom)) kind = (uint8_t)below(4); /* the pin seldom, or nothing is ever read, and no number stays */
        cycles[2 * i] = kind;
        cycles[2 * i + 1] = kind > 1 ? 0 : some_value();
    }
    if (n && below(5) == 0) wrong_cycle(below((uint32_t)n));
    return n;
}

/* ---- texts: of good lists, then mostly damaged in one place */

static uint8_t text[RECORDER_TEXT_MOST + 64];

static void insert(size_t *n, size_t at, uint8_t byte)
{
    memmove(text + at + 1, text + at, *n - at);
    text[at] = byte, ++*n;
}
static size_t line_at(size_t n, size_t at)
{
    while (at && !(at <= n && text[at - 1] == '\n')) at--;
    return at;
}
static size_t damaged(size_t n)
{
    static const uint8_t bytes[] = "idsrlhx 0f9agAF\n\r\t/:`G";
    if (!n) { if (below(2)) insert(&n, 0, bytes[below(sizeof bytes - 1)]); return n; }
    size_t at = below((uint32_t)n), first = line_at(n, at);
    switch (below(8)) {
    case 0: text[at] = (uint8_t)rnd(); break;
    case 1: text[at] = bytes[below(sizeof bytes - 1)]; break;
    case 2: insert(&n, at, bytes[below(sizeof bytes - 1)]); break;
    case 3: memmove(text + at, text + at + 1, n - at - 1), n--; break;
    case 4: n -= 1 + below(n < 5 ? (uint32_t)n : 5); break;
    case 5: for (size_t i = at; i < n; i++) if (text[i] >= 'a' && text[i] <= 'f') { text[i] = (uint8_t)(text[i] - 32); break; } break;
    case 6: text[first] = bytes[below(6)]; break;
    default: text[first] = (uint8_t)"srlh"[below(4)]; insert(&n, first + 1, '0'), insert(&n, first + 1, '0'), insert(&n, first + 1, ' '); break;
    }
    return n;
}
static size_t some_text(void)
{
    size_t n = 0;
    model_write_text(cycles, 2 * some_cycles(), text, RECORDER_TEXT_MOST, &n);
    /* one that is too long by its lines, and at times bad behind them */
    if (below(150) == 0) {
        for (n = 0; n < 2 * 16001; n += 2) text[n] = 's', text[n + 1] = '\n';
        if (below(2)) insert(&n, n, 'x');
        return n;
    }
    return below(3) ? damaged(n) : n;
}

/* ---- the calls */

static void texts(void)
{
    size_t odd = below(2), n = some_cycles(), need = 0, a = 77, b = 77, c = 78, d = 78;
    cycles[2 * n] = (uint8_t)rnd();
    if (model_write_text(cycles, 2 * n, ours, RECORDER_TEXT_MOST, &need)) need = 5 * n > RECORDER_TEXT_MOST ? RECORDER_TEXT_MOST : 5 * n;
    size_t room = room_near(need);
    fill(room);
    uint8_t r1 = recorder_write_text(cycles, 2 * n + odd, ours, room, &a), r2 = model_write_text(cycles, 2 * n + odd, theirs, room, &b);
    numbers[r2]++;
    same("write_text", r1 == r2 && a == b && alike(room));

    n = some_text(), need = 0, a = b = 77;
    model_read_text(text, n, ours, RECORDER_CYCLE_BYTES, &need, &c);
    room = room_near(2 * need), c = 78;
    fill(room);
    r1 = recorder_read_text(text, n, ours, room, &a, &c), r2 = model_read_text(text, n, theirs, room, &b, &d);
    numbers[r2]++;
    same("read_text", r1 == r2 && a == b && c == d && alike(room));
}

static uint8_t pictures[4 * PICTURE], file[RECORDER_JOB_MOST + PICTURE + 64];

static void some_pictures(void)
{
    for (size_t i = 0; i < sizeof pictures; i++) pictures[i] = (uint8_t)rnd();
    if (below(2)) for (size_t i = 0; i < PICTURE; i++) if (below(20)) pictures[PICTURE + i] = pictures[i];
}
static void jobs(void)
{
    static const size_t counts[8] = { 0, 1, 2, 3, 4, (size_t)-1, (size_t)1 << 62, ((size_t)1 << 62) + 1 };
    size_t odd = below(2), n = some_cycles(), count = counts[below(3) ? below(3) : below(8)], a = 77, b = 77;
    size_t length = count < 5 ? PICTURE * count : PICTURE * (count % 2);
    uint8_t set = (uint8_t)(below(8) ? below(2) : below(2) ? 2 : 255);
    some_pictures();
    cycles[2 * n] = (uint8_t)rnd();
    if (below(8) == 0) length = length && below(2) ? length - 1 : below(sizeof pictures);
    size_t room = room_near(8 + 2 * n + (length > 2 * PICTURE ? 2 * PICTURE : length));
    fill(room);
    uint8_t r1 = recorder_write_job(set, cycles, 2 * n + odd, count, pictures, length, ours, room, &a);
    uint8_t r2 = model_write_job(set, cycles, 2 * n + odd, count, pictures, length, theirs, room, &b);
    numbers[r2]++;
    same("write_job", r1 == r2 && a == b && alike(room));
}

/* a job file of either set, at times damaged in its header, its cycles or its length; one of 16,001 cycles is put together by hand. Only
   the first five picture count fields are good. There are as many pictures as a field's low byte says, for 255 one */
static size_t some_file(void)
{
    static const size_t fields[10] = { 0, 1, 2, 256, 257, 3, 255, 258, 512, 513 };
    size_t n = some_cycles(), field = fields[below(8) ? below(5) : below(10)];
    if (n > 16000) field = field < 256 ? 0 : 256;
    size_t p = field == 255 ? 1 : field % 256, size = 8 + 2 * n + PICTURE * p;
    some_pictures();
    size_t header[4] = { n, 8, field, 8 + 2 * n };
    for (int i = 0; i < 4; i++) file[2 * i] = (uint8_t)header[i], file[2 * i + 1] = (uint8_t)(header[i] >> 8);
    memcpy(file + 8, cycles, 2 * n);
    memcpy(file + 8 + 2 * n, pictures, PICTURE * p);
    switch (below(12)) {
    case 0: file[below(8)] = (uint8_t)rnd(); break;
    case 1: { int i = (int)(2 * below(4)); file[i] = (uint8_t)(file[i] + (below(2) ? 1 : 255)); break; }
    case 2: size += 1 + below(4); break;
    case 3: size -= below(size > 12 ? 12 : (uint32_t)size + 1); break;
    default: break;
    }
    return size;
}
static void files(void)
{
    size_t size = some_file(), a = 77, b = 77, c = 78, d = 78, need = 0;
    uint8_t s1 = 79, s2 = 79;
    uint8_t r1 = recorder_read_header(file, size, &a, &c, &s1), r2 = model_read_header(file, size, &b, &d, &s2);
    numbers[r2]++;
    same("read_header", r1 == r2 && a == b && c == d && s1 == s2);

    model_play(file, size, ours, RECORDER_PLAYED_MOST, &need);
    size_t room = room_near(need);
    a = b = 77;
    fill(room);
    r1 = recorder_play(file, size, ours, room, &a), r2 = model_play(file, size, theirs, room, &b);
    numbers[r2]++;
    same("play", r1 == r2 && a == b && alike(room));
}

int main(int argc, char **argv)
{
    static const int must[7] = { 1, 5, 6, 7, 8, 9, 11 };
    long rounds = argc > 1 ? atol(argv[1]) : 50000;
    int missing = 0;
    for (long i = 0; i < rounds && differences < 5; i++) texts(), jobs(), files();
    for (int i = 0; i < 7; i++) if (!numbers[must[i]]) { printf("recorder: refusal %d never occurred\n", must[i]); missing = 1; }
    printf("recorder: %lu comparisons, %lu differences; refusals 1: %lu, 5: %lu, 6: %lu, 7: %lu, 8: %lu, 9: %lu, 11: %lu\n", comparisons, differences,
           numbers[1], numbers[5], numbers[6], numbers[7], numbers[8], numbers[9], numbers[11]);
    return differences || missing;
}

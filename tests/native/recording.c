/* The recording calls of recording.h, written from document 01 and orders 2, 11 and 13 alone. The player's chip is the
   KS0713 of model.c, seen through model.h only.
   Sentences in quotes are document 01's own, and after "Order 2:", "Order 11:" and "Order 13:" those orders', which hold in
   place of 01's where they speak; "Settled" marks a reading settled beforehand and "Decision" a point settled here.
   Words in the form @name are markers for recording-faults.txt and mean nothing else.

   Nothing here checks for null pointers, and lent buffers are taken not to overlap one another. */
#include "recording.h"
#include "model.h"

/* "A picture is 1,188 bytes: 9 pages of 132 columns" */
#define PICTURE 1188u
/* "Header: four 16-bit numbers" */
#define HEADER 8u
/* "N ≤ 16,000, P ≤ 2" */
#define CYCLES_MOST 16000u
#define PICTURES_MOST 2u
/* Order 13: "A job whose picture count field is 256 or 257 powers up in the new set with 0 or 1 pictures". The sets are
   those of model.h, and the field is 256 times the set plus the number of pictures. */
#define SET_OLD 0u
#define SET_NEW 1u
#define SET_STEP 256u
#define NEW_PICTURES_MOST 1u

/* ---------------------------------------------------------------- what is put to an output */

/* A lent output of room bytes, and the number of bytes that were put to it. Bytes past the room are counted, not written:
   with room 0 a text is measured and the output untouched. */
struct output {
    uint8_t *out;
    size_t room;
    size_t length;
};

static struct output lent(uint8_t *out, size_t room)
{
    struct output o;

    o.out = out;
    o.room = room;
    o.length = 0;
    return o;
}

static void put(struct output *o, unsigned byte)
{
    if (o->length < o->room)
        o->out[o->length] = (uint8_t)byte;
    o->length++;
}

static void put_letters(struct output *o, const char *letters)
{
    for (; *letters != '\0'; letters++)
        put(o, (unsigned char)*letters);
}

/* "index decimal from 0". Decision: no sign, no leading zeros, and 0 is the one digit 0 (01's example: "end 2 7 0"). */
static void put_decimal(struct output *o, size_t number)
{
    size_t ten = 1;

    while (number / ten >= 10u) /* @decimal */
        ten *= 10u;
    for (; ten > 0u; ten /= 10u)
        put(o, (unsigned)('0' + number / ten % 10u));
}

/* "byte two lower-case hex digits". Order 11: "two lower-case hex digits". The digit of 0 to 15. */
static unsigned hex_digit(unsigned value)
{
    if (value < 10u)
        return '0' + value;
    return 'a' + (value - 10u);
}

static void put_hex(struct output *o, unsigned byte)
{
    put(o, hex_digit(byte / 16u));
    put(o, hex_digit(byte % 16u));
}

/* "16-bit numbers, low byte first" */
static void put_number(struct output *o, size_t number)
{
    put(o, (unsigned)(number % 256u)); put(o, (unsigned)(number / 256u)); /* @job_word */
}

/* ---------------------------------------------------------------- cycles */

/* 9: "kind above 5, or value not 0 in kinds 2 to 5"; "Value is 0 for kinds 2 to 5." */
static int refused_with_nine(uint8_t kind, uint8_t value)
{
    if (kind > 5u) /* @nine_kind */
        return 1;
    if (kind >= 2u && value != 0u) /* @nine_value */
        return 1;
    return 0;
}

/* "Cycles are two bytes, kind and value". 1 where number 9 would refuse one of the first n. */
static int any_refused_with_nine(const uint8_t *cycles, size_t n)
{
    size_t i;

    for (i = 0; i < n; i++) {
        if (refused_with_nine(cycles[2u * i], cycles[2u * i + 1u]))
            return 1;
    }
    return 0;
}

/* ---------------------------------------------------------------- the writer of job files */

/* Order 11: "We need a writer of job files from cycles and pictures, exactly inverse to the reader on every file the reader
   accepts." Order 11: "Refusals: 1 first; [...] 6 for more than 16,000 cycles, more than two pictures or a cycle that number
   9 would refuse; then 5."
   Order 13: "order 11's writer writes these too". */
uint8_t model_write_job(uint8_t set, const uint8_t *cycles, size_t cycles_len, size_t count, const uint8_t *pictures,
                        size_t pictures_len, uint8_t *out, size_t out_len, size_t *length)
{
    struct output o;
    size_t n, total, i;
    int one, six;

    /* Settled: a last odd byte is no cycle and is ignored. */
    n = cycles_len / 2u;

    /* 1: "a picture, memory or frame buffer is not 1,188 bytes". Settled: where pictures_len is not 1,188 times count, with
       three or more pictures too. Said by division, as 1,188 times count may be more than a size_t holds. */
    one = pictures_len % PICTURE != 0u || pictures_len / PICTURE != count; /* @job_whole */
    /* Order 11: "6 for more than 16,000 cycles, more than two pictures or a cycle that number 9 would refuse" */
    six = n > CYCLES_MOST || count > PICTURES_MOST || any_refused_with_nine(cycles, n); /* @job_fields */
    /* Settled: more than one picture in the new set is 6, and so is a set above 1. */
    six = six || set > SET_NEW || (set == SET_NEW && count > NEW_PICTURES_MOST); /* @job_set */
    /* "total 8 + 2N + 1,188·P". It means nothing while there are more pictures than two, and is then not used. */
    total = HEADER + 2u * n + PICTURE * count;

    if (one) /* @job_one */
        return 1;
    if (six) /* @job_six */
        return 6;
    /* 5: "either output shorter than the stream needs" */
    if (out_len < total)
        return 5;

    o = lent(out, out_len);
    /* "Header: four 16-bit numbers, low byte first: cycle count N, cycle offset, picture count P, picture offset."
       "offsets 8 and 8 + 2N". Decision: the picture offset is 8 + 2N without pictures too, as the reader asks.
       Order 13: "picture count field is 256 or 257". Settled: the set's place in the file is this field. */
    put_number(&o, n);
    put_number(&o, HEADER);
    put_number(&o, SET_STEP * set + count); /* @job_count */
    put_number(&o, HEADER + 2u * n); /* @job_offset */
    /* "Cycles are two bytes, kind and value; pictures follow." */
    for (i = 0; i < 2u * n; i++)
        put(&o, cycles[i]);
    /* Order 11: "exactly inverse to the reader". Settled: pictures are written raw, page 8 too. */
    for (i = 0; i < PICTURE * count; i++)
        put(&o, pictures[i]); /* @job_raw */
    *length = o.length;
    return 0;
}

/* ---------------------------------------------------------------- the text form */

/* Order 11: "i, d, s, r, l or h for kinds 0 to 5". A kind's letter is the one at its place. */
static const char letters[] = "idsrlh"; /* @letters */

/* Order 11: "one cycle per line: i, d, s, r, l or h for kinds 0 to 5, then for i and d one space and two lower-case hex
   digits, then a newline." */
static void put_cycles(struct output *o, const uint8_t *cycles, size_t n)
{
    size_t i;
    uint8_t kind, value;

    for (i = 0; i < n; i++) {
        kind = cycles[2u * i];
        value = cycles[2u * i + 1u];
        put(o, (unsigned char)letters[kind]);
        if (kind <= 1u) { /* i and d; @text_value */
            put(o, ' ');
            put_hex(o, value);
        }
        put(o, '\n');
    }
}

/* Order 11: "Any list of cycles has one text." Order 11: "6 for more than 16,000 cycles, [...] or a cycle that number 9 would
   refuse; then 5." Decision: the list of no cycles has the empty text. */
uint8_t model_write_text(const uint8_t *cycles, size_t cycles_len, uint8_t *out, size_t out_len, size_t *length)
{
    struct output o;
    size_t n;

    /* Settled: a last odd byte is no cycle and is ignored. */
    n = cycles_len / 2u;
    if (n > CYCLES_MOST) /* @text_cycles */
        return 6;
    if (any_refused_with_nine(cycles, n))
        return 6;

    /* 5: "either output shorter than the stream needs"; "A refusal returns its number only; registers and buffers stay." So
       the text is measured first and then written. */
    o = lent(out, 0u); /* @text_before */
    put_cycles(&o, cycles, n);
    if (out_len < o.length) /* @text_five */
        return 5;
    o = lent(out, out_len);
    put_cycles(&o, cycles, n);
    *length = o.length;
    return 0;
}

/* Order 11: "two lower-case hex digits". The value of a digit, or 16 for a byte that is none: upper case is none. */
static unsigned hex_value(uint8_t c)
{
    if (c >= '0' && c <= '9')
        return (unsigned)(c - '0');
    if (c >= 'a' && c <= 'f') return (unsigned)(c - 'a') + 10u; /* @read_case */
    return 16;
}

/* Reads the line at the start of a text of which left bytes are left, at least one. Answers the line's length with its
   newline, or 0 for a bad line; *kind and *value are the cycle of a good one. */
static size_t read_line(const uint8_t *text, size_t left, uint8_t *kind, uint8_t *value)
{
    size_t body; /* the line's length without its newline */
    unsigned high, low;
    uint8_t k;

    /* Order 11: "i, d, s, r, l or h for kinds 0 to 5". A line that begins otherwise is bad, the empty line too. */
    for (k = 0; k < 6u; k++) {
        if (text[0] == (unsigned char)letters[k])
            break;
    }
    if (k == 6u)
        return 0;

    if (k <= 1u) {
        /* Order 11: "then for i and d one space and two lower-case hex digits" */
        body = 4u;
        if (left < body)
            return 0;
        if (text[1] != ' ')
            return 0;
        high = hex_value(text[2]);
        low = hex_value(text[3]);
        if (high == 16u || low == 16u)
            return 0;
        *value = (uint8_t)(16u * high + low);
    } else {
        /* "Value is 0 for kinds 2 to 5." It is not in the line. Settled: "s 00" is bad. */
        body = 1u; /* @read_bare */
        *value = 0;
    }
    *kind = k;

    /* Order 11: "a last line without its newline is bad" */
    if (left == body)
        return 0; /* @read_last */
    /* Order 11: "then a newline". Decision: the one byte 0A. Settled: CR and a second blank are bad. */
    if (text[body] != '\n')
        return 0;
    return body + 1u;
}

/* Reads lines up to the end of the text or the first bad line, and puts their cycles to the output. Answers the number of
   good lines; *bad is 1 where a bad line follows them, else 0. */
static size_t read_lines(struct output *o, const uint8_t *text, size_t text_len, int *bad)
{
    size_t n, at, line_length;
    uint8_t kind, value;

    n = 0;
    at = 0;
    *bad = 0;
    while (at < text_len) {
        line_length = read_line(text + at, text_len - at, &kind, &value);
        if (line_length == 0u) {
            *bad = 1;
            break;
        }
        put(o, kind);
        put(o, value);
        n++;
        at += line_length;
    }
    return n;
}

/* Order 11: "new 11, a text no list of cycles has, given with its first bad line's number from 0 (a last line without its
   newline is bad); 6 for more than 16,000 cycles [...]; then 5." Settled: 11 comes before 6, also where the bad line is
   behind 16,001 good ones. Settled: the empty text is the empty list. */
uint8_t model_read_text(const uint8_t *text, size_t text_len, uint8_t *out, size_t out_len, size_t *count, size_t *line)
{
    struct output o;
    size_t n;
    int bad;

    /* The whole text is read before the first byte is written, so that a refusal alters no byte. */
    o = lent(out, 0u); /* @read_before */
    n = read_lines(&o, text, text_len, &bad);
    if (bad) { /* @read_eleven */
        /* Settled: "The bad line's number is the number of good lines before it." */
        *line = n; /* @read_number */
        return 11;
    }
    if (n > CYCLES_MOST) /* @read_cycles */
        return 6;
    if (out_len < 2u * n)
        return 5;
    o = lent(out, out_len);
    read_lines(&o, text, text_len, &bad);
    *count = n;
    return 0;
}

/* ---------------------------------------------------------------- the reader of job files */

/* "16-bit numbers, low byte first". The number at the given place of a file. */
static size_t number_at(const uint8_t *file, size_t at)
{
    return file[at] + 256u * (size_t)file[at + 1u];
}

/* "The order is 1, 2, 6, 3, 4, 5; for jobs 7, 8, 9." */
uint8_t model_read_header(const uint8_t *file, size_t file_len, size_t *cycles, size_t *pictures, uint8_t *set)
{
    size_t n, p, s;

    /* 7: "job shorter than 8 bytes" */
    if (file_len < HEADER) /* @header_seven */
        return 7;

    /* "Header: four 16-bit numbers, low byte first: cycle count N, cycle offset, picture count P, picture offset."
       8: "N, P, an offset or the total is wrong" */
    n = number_at(file, 0u);
    /* Order 13: "A job whose picture count field is 256 or 257 powers up in the new set with 0 or 1 pictures". Settled: 0, 1
       and 2 are the old set's as before, and every other field is 8. */
    p = number_at(file, 4u) % SET_STEP;
    s = number_at(file, 4u) / SET_STEP; /* @header_field */
    /* "N ≤ 16,000, P ≤ 2, offsets 8 and 8 + 2N, total 8 + 2N + 1,188·P." */
    if (n > CYCLES_MOST) /* @header_cycles */
        return 8;
    if (p > PICTURES_MOST)
        return 8;
    if (s > SET_NEW)
        return 8;
    if (s == SET_NEW && p > NEW_PICTURES_MOST) /* @header_pictures */
        return 8;
    if (number_at(file, 2u) != HEADER) /* @header_offset */
        return 8;
    if (number_at(file, 6u) != HEADER + 2u * n)
        return 8;
    if (file_len != HEADER + 2u * n + PICTURE * p) /* @header_total */
        return 8;

    /* 9: "kind above 5, or value not 0 in kinds 2 to 5" */
    if (any_refused_with_nine(file + HEADER, n))
        return 9;

    *cycles = n;
    *pictures = p;
    *set = (uint8_t)s;
    return 0;
}

/* ---------------------------------------------------------------- the player */

/* A field of a line, after the one before it. Decision: one space between two fields, as in 01's example. */
static void put_field(struct output *o, size_t number)
{
    put(o, ' ');
    put_decimal(o, number);
}

/* The whole text of the player for one file. Decision: every line ends in a newline, the last one too. */
static void put_play(struct output *o, const uint8_t *file, size_t file_len)
{
    static uint8_t memory[PICTURE];
    struct model_registers r;
    size_t cycles, pictures, pictures_at, update, i;
    uint8_t refusal, set, kind, value, read_flag, byte, fresh;

    /* "A refused file gives the one line `bad` and the number." */
    cycles = 0;
    pictures = 0;
    set = SET_OLD;
    refusal = model_read_header(file, file_len, &cycles, &pictures, &set);
    if (refusal != 0u) {
        put_letters(o, "bad");
        put_field(o, refusal);
        put(o, '\n');
        return;
    }

    /* "The player reads one job from standard input and plays it from power-up."
       "The power-up state is pin low then high, holder 0, memory as lent."
       "Picture 1 is the memory at power-up (zeros if absent), picture 2 a wanted picture." */
    pictures_at = HEADER + 2u * cycles;
    for (i = 0; i < PICTURE; i++)
        memory[i] = pictures >= 1u ? file[pictures_at + i] : 0u;
    model_power_up(&r);
    /* Order 13: "powers up in the new set". Decision: this is power-up and then a switch, which can't be refused here as
       nothing is awaited; to the old set it changes nothing. */
    model_switch_set(&r, set); /* @play_set */

    for (i = 0; i < cycles; i++) {
        kind = file[HEADER + 2u * i];
        value = file[HEADER + 2u * i + 1u];
        read_flag = 0;
        byte = 0;
        fresh = 0;
        refusal = model_cycle(&r, memory, PICTURE, kind, value, &read_flag, &byte, &fresh);

        /* "`x` index refusal for a refused cycle". "A refusal returns its number only; registers and buffers stay."
           Decision: the next cycle is played all the same. */
        if (refusal != 0u) {
            put_letters(o, "x");
            put_field(o, i);
            put_field(o, refusal);
            put(o, '\n');
            continue; /* @play_refused */
        }

        /* "`r` index byte for a data or status read (index decimal from 0, byte two lower-case hex digits)" */
        if (read_flag == 1u) {
            put_letters(o, "r");
            put_field(o, i);
            put(o, ' ');
            put_hex(o, byte);
            /* Order 2: "The player's data-read line gets a fourth field, f or s; in 01's example the line of index 6 ends in
               s, that of index 7 in f." f is fresh and s stale. Decision: a status read's line has three fields as before. */
            if (kind == 3u) { /* @play_status */
                put(o, ' ');
                put(o, fresh == 1u ? 'f' : 's'); /* @play_mark */
            }
            put(o, '\n');
        }
        /* Decision: every other accepted cycle gives no line. */
    }

    /* "then `end` with page, column, start line, SHL, ADC, reverse, entire, on, modify-read (0 or 1) and contrast,
       decimal" */
    put_letters(o, "end");
    put_field(o, r.page);
    put_field(o, r.column);
    put_field(o, r.start_line);
    put_field(o, r.shl); /* @end_shl */
    put_field(o, r.adc);
    put_field(o, r.reverse);
    put_field(o, r.entire);
    put_field(o, r.on);
    put_field(o, r.modify_read); /* @end_modify */
    put_field(o, r.contrast);
    /* Order 13: "its end line gains the three numbers in that order". Settled: initial COM0, duty and inversion, behind the
       contrast. Decision: inversion as a number of lines, 0 for frame inversion, as the state holds it. */
    if (set == SET_NEW) { /* @end_set */
        put_field(o, r.com0); put_field(o, r.duty); put_field(o, r.inversion); /* @end_three */
    }
    put(o, '\n');

    /* "then, if P = 2, `update` and its length from the memory now". Decision: the line is there for a length of 0 too.
       Settled: never in a job of the new set, which has no picture 2. */
    if (pictures == 2u) {
        update = 0;
        model_update_length(memory, PICTURE, file + pictures_at + PICTURE, PICTURE, &update); /* @play_update */
        put_letters(o, "update");
        put_field(o, update);
        put(o, '\n');
    }
}

/* Settled: the only refusal is 5, an output shorter than the text. */
uint8_t model_play(const uint8_t *file, size_t file_len, uint8_t *out, size_t out_len, size_t *length)
{
    struct output o;

    /* "A refusal returns its number only; registers and buffers stay." So the text is measured first and then written. */
    o = lent(out, 0u);
    put_play(&o, file, file_len);
    if (out_len < o.length)
        return 5;
    o = lent(out, out_len);
    put_play(&o, file, file_len);
    *length = o.length;
    return 0;
}

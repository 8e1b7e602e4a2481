/* The panel model of model.h, written from document 01 and orders 2, 5, 10 and 13 alone and, for the second chip, from
   order 1.
   Compiled as it is, this file is the model of the KS0713; compiled with -include ks0717.h it is that of the KS0717, under
   the names and with the numbers given there. The chips differ in the numbers of the first block below and in nothing else.
   Sentences in quotes are document 01's own, and after "Order 1:" the order's, which hold for the KS0717 in place of
   those of 01, and after "Order 2:", "Order 5:", "Order 10:" and "Order 13:" those orders', which hold for both chips;
   "Decision" marks a point settled by combining them and "Settled" a reading settled beforehand.
   Words in the form @name are markers for faults.txt (here and in ks0717.h) and mean nothing else.

   Nothing here checks for null pointers, and lent buffers are taken not to overlap one another
   (recorded and wanted may be the same buffer, as both are only read). */
#include "model.h"

#ifndef R
#define R
#endif

/* The KS0713's numbers; ks0717.h has the same list for the KS0717. */
#ifndef COLUMNS
/* "A picture is 1,188 bytes: 9 pages of 132 columns, byte 132·page + column." */
#define COLUMNS 132u
/* "Registers: page 0..15; column 0..255" */
#define COUNTER_LAST 255u
/* "00-0F / 10-1F | low / high four bits of column". The largest high part. */
#define HIGH_LAST 15u
/* "Advancing adds 1 below 132 and changes nothing from 132 up (house reading of 002's locked counter)." */
#define LOCK 132u
/* "rows 0..63 are the commons" */
#define ROWS 64u
/* "Start values are 0 and off, except contrast 32 (house)." */
#define RESISTOR_START 0u
/* "1 + Rb/Ra in hundredths by resistor, from 002: 190, 219, 255, 302, 361, 435, 529, 648." */
#define RATIOS 190, 219, 255, 302, 361, 435, 529, 648 /* @ratios */
/* "V0 in millivolts is ratio·(237 + contrast)/15" */
#define V0_BASE 237u
#define V0_FACTOR 1u
#endif

/* "9 pages of 132 columns". Order 1: "Its memory is 65 by 100".
   Decision: 65 lines are 01's 64 on pages 0 to 7 and the one of page 8, so the KS0717 has nine pages too. */
#define PAGES 9u
#define ICON_PAGE 8u
/* "A picture is 1,188 bytes". Order 1: "a picture is 900 bytes" */
#define PICTURE (PAGES * COLUMNS)
/* "4 + 9·135 = 1,219 bytes". Order 1: "the redraw 931" */
#define REDRAW (4u + PAGES * (COLUMNS + 3u))
/* "Start values are 0 and off, except contrast 32 (house)." The same on both chips; the pin and E2 take it from here. */
#define CONTRAST_START 32u /* @start_contrast */
/* Order 13: "The three start at 0, 81 and 0 (house)". Duty's start, the same on both chips. */
#define DUTY_START 81u /* @start_duty */

/* The words of the register "set". Order 13: "The shared state gains a command-set version." */
#define SET_OLD 0u
#define SET_NEW 1u

/* The words of the register "awaited". */
#define AWAITS_NOTHING 0u
#define AWAITS_CONTRAST 1u
#define AWAITS_INDICATOR 2u
#define AWAITS_COM0 3u
#define AWAITS_DUTY 4u
#define AWAITS_INVERSION 5u

/* The words of "counts" (order 2): not at all, as a data read, as one of the others. */
#define COUNTS_NOT 0u
#define COUNTS_AS_READ 1u
#define COUNTS_AS_OTHER 2u

/* Instruction numbers of model.h, those of the old set. */
#define I_COLUMN_LOW 0u
#define I_COLUMN_HIGH 1u
#define I_RESISTOR 2u
#define I_POWER 3u
#define I_START_LINE 4u
#define I_CONTRAST_NEXT 5u
#define I_CONTRAST_VALUE 6u
#define I_ADC 7u
#define I_BIAS 8u
#define I_ENTIRE 9u
#define I_REVERSE 10u
#define I_INDICATOR_OFF 11u
#define I_INDICATOR_ON 12u
#define I_INDICATOR_VALUE 13u
#define I_DISPLAY 14u
#define I_PAGE 15u
#define I_SHL 16u
#define I_MODIFY_ON 17u
#define I_MODIFY_OFF 18u
#define I_RESET 19u
#define I_NOTHING 20u

/* Instruction numbers of model.h, those of the new set. */
#define A_COM0_NEXT 0u
#define A_COM0_VALUE 1u
#define A_DUTY_NEXT 2u
#define A_DUTY_VALUE 3u
#define A_INVERSION_NEXT 4u
#define A_INVERSION_VALUE 5u
#define A_FRAME_INVERSION 6u

/* ---------------------------------------------------------------- memory and registers */

/* "byte 132·page + column". Order 1: "Its memory is 65 by 100, so a picture is 900 bytes".
   Decision: byte 100·page + column on the KS0717. */
static size_t cell(size_t page, size_t column)
{
    return COLUMNS * page + column;
}

/* "On page 8 only bit 0 exists: other bits are read as 0 whatever the buffer holds, and a write there stores the byte
   mod 2." The part of a byte that exists on the page. */
static uint8_t existing(size_t page, uint8_t byte)
{
    if (page == ICON_PAGE)
        return (uint8_t)(byte % 2u); /* @existing */
    return byte;
}

/* "Two pictures are the same when pages 0 to 7 agree byte for byte and page 8 agrees in bit 0." */
static int differs(const uint8_t *recorded, const uint8_t *wanted, size_t page, size_t column)
{
    return existing(page, recorded[cell(page, column)]) != existing(page, wanted[cell(page, column)]);
}

/* "column 0..255". Order 1: "the column counter has seven bits"; "number 2 a column, saved or not, above 127". */
static int in_counter(unsigned column)
{
    return column <= COUNTER_LAST;
}

/* Order 13: "Values these bytes can't set meet 2, and so does an awaited byte of the other set: contrast and indicator bytes
   belong to the old one, these three to the new." Settled: in both sets.
   What the bytes can set: Order 13: "initial COM0 for 0 to 79 and duty for 17 to 81"; "the inversion byte mod 32 sets 0 for
   frame inversion, or its value plus 2 lines", which is 0 or 3 to 33. */
static int added_in_range(const struct model_registers *r)
{
    if (r->set > SET_NEW) return 0;
    if (r->com0 > 79u) return 0; /* @range_com0 */
    if (r->duty < 17u) return 0;
    if (r->duty > 81u) return 0;
    if (r->inversion == 1u || r->inversion == 2u) return 0; /* @range_inversion_low */
    if (r->inversion > 33u) return 0; /* @range_inversion_high */
    if (r->awaited > AWAITS_INVERSION) return 0;
    if (r->set == SET_NEW && r->awaited == AWAITS_CONTRAST) return 0; /* @range_old_contrast */
    if (r->set == SET_NEW && r->awaited == AWAITS_INDICATOR) return 0;
    if (r->set == SET_OLD && r->awaited > AWAITS_INDICATOR) return 0; /* @range_new_byte */
    return 1;
}

/* "Registers: page 0..15; column 0..255; start line 0..63; contrast 0..63; resistor 0..7; power 0..7 (VC, VR, VF);
   bias, ADC, SHL, reverse, entire display, display on and indicator mode, each 0 or 1; indicator value 0..3; bus holder,
   a byte; reset pin."
   "The state holds either no saved column or exactly one (modify-read). It awaits either nothing, a contrast byte or an
   indicator byte."
   Decision: the holder is a byte, so nothing is outside its range, nor outside the column's on the KS0713. "either no
   saved column or exactly one" is given here by two fields; modify_read 0 with a saved column other than 0 is no such
   state and so out of range.
   Order 2: "A data read's answer shall tell fresh from stale"; "Refusals: none new."
   Decision: what it tells is a part of the state, the register fresh of 0 or 1, and so under number 2 as those of 01 are.
   It stands by itself: a state of pin low and fresh 1 is in range, though no cycles from power-up lead to it.
   The set, order 13's three numbers and the awaited byte are looked at in added_in_range. Decision: they stand by
   themselves too, so a byte awaited while the pin is low is in range. */
static int in_range(const struct model_registers *r)
{
    if (r->page > 15u) return 0;
    if (!in_counter(r->column)) return 0;
    if (r->start_line > 63u) return 0;
    if (r->contrast > 63u) return 0; /* @range_contrast */
    if (r->resistor > 7u) return 0;
    if (r->power > 7u) return 0;
    if (r->bias > 1u) return 0;
    if (r->adc > 1u) return 0;
    if (r->shl > 1u) return 0;
    if (r->reverse > 1u) return 0;
    if (r->entire > 1u) return 0;
    if (r->on > 1u) return 0;
    if (r->indicator > 1u) return 0;
    if (r->indicator_value > 3u) return 0;
    if (r->pin_low > 1u) return 0;
    if (r->modify_read > 1u) return 0;
    if (!in_counter(r->saved_column)) return 0; /* @saved_counter */
    if (r->modify_read == 0u && r->saved_column != 0u) return 0; /* @range_saved */
    if (r->fresh > 1u) return 0; /* @range_fresh */
    return added_in_range(r);
}

/* "Pin low: every register takes its start value, the awaited byte and the saved column are forgotten, memory and holder
   are kept (house). Start values are 0 and off, except contrast 32 (house)." On the KS0717 the resistor's is 4 (ks0717.h).
   Decision: the pin itself is a register, and the cycle leaves it low. The mark of order 2 is not put here: see
   counts.
   Order 13: "The three start at 0, 81 and 0 (house), also at pin low, which keeps the set." So set is the one register,
   beside the holder, that is not put here. */
static void pin_goes_low(struct model_registers *r)
{
    r->page = 0;
    r->column = 0;
    r->start_line = 0;
    r->contrast = CONTRAST_START;
    r->resistor = RESISTOR_START;
    r->power = 0;
    r->bias = 0;
    r->adc = 0;
    r->shl = 0;
    r->reverse = 0;
    r->entire = 0;
    r->on = 0;
    r->indicator = 0;
    r->indicator_value = 0;
    r->modify_read = 0;
    r->saved_column = 0;
    r->awaited = AWAITS_NOTHING;
    r->com0 = 0;
    r->duty = DUTY_START;
    r->inversion = 0;
    r->pin_low = 1;
}

/* "Pin high only raises the pin." */
static void pin_goes_high(struct model_registers *r)
{
    r->pin_low = 0;
}

/* "The power-up state is pin low then high, holder 0, memory as lent."
   Order 2: "Power-up is stale"
   Settled: power-up is in the old set. A job that "powers up in the new set" (order 13) switches to it: see recording.c. */
void model_power_up(struct model_registers *r)
{
    pin_goes_low(r);
    pin_goes_high(r);
    r->holder = 0;
    r->fresh = 0; /* @mark_power_up */
    r->set = SET_OLD;
}

/* Order 13: "Switching sets changes nothing else." Order 13: "Refusals: new 13, byte awaited at a switch, after 2."
   Settled: 2 is a register outside its range or a set above 1; 13 is given at a switch to the set in force too. A switch is
   no bus cycle: it works with the pin low, and the mark of order 2 stays. */
uint8_t model_switch_set(struct model_registers *r, uint8_t set)
{
    if (!in_range(r) || set > SET_NEW) /* @switch_two */
        return 2;
    if (r->awaited != AWAITS_NOTHING) /* @switch_thirteen */
        return 13;
    r->set = set; /* @switch_set */
    return 0;
}

/* ---------------------------------------------------------------- instruction bytes */

/* "Reader and writer take one byte at a time: 81 and AD are instructions of their own, and so is each second byte, read
   as one when it is awaited."
   Decision: awaited is a register, so a word above 2 is refusal 2, before 4 ("The order is 1, 2, 6, 3, 4, 5").
   Order 13: "an awaited byte of the other set". Settled: this is the old set's reader, so 3, 4 and 5 are 2 as before. */
uint8_t model_read_instruction(uint8_t awaited, uint8_t byte, uint8_t *number, uint8_t *value)
{
    uint8_t n, v;

    /* 2: "a register is outside its range" */
    if (awaited > 2u) /* @read_awaited */
        return 2;

    /* "An awaited second byte is taken whatever its value." */
    if (awaited == AWAITS_CONTRAST) {
        /* "81 | next instruction byte mod 64 is contrast" */
        n = I_CONTRAST_VALUE;
        v = (uint8_t)(byte % 64u); /* @read_contrast */
    } else if (awaited == AWAITS_INDICATOR) {
        /* "AD | indicator on; next instruction byte mod 4 is its value" */
        n = I_INDICATOR_VALUE;
        v = (uint8_t)(byte % 4u);
    } else if (byte <= 0x0Fu) {
        /* "00-0F / 10-1F | low / high four bits of column" */
        n = I_COLUMN_LOW;
        v = byte;
    } else if (byte <= 0x1Fu) {
        /* Order 1: "bit 3 of a high column byte is free". So 18-1F are read as 10-17. */
        n = I_COLUMN_HIGH;
        v = (uint8_t)((byte - 0x10u) % (HIGH_LAST + 1u)); /* @read_high */
    } else if (byte <= 0x27u) {
        /* "20-27, 28-2F | resistor, power" */
        n = I_RESISTOR;
        v = (uint8_t)(byte - 0x20u);
    } else if (byte <= 0x2Fu) {
        n = I_POWER;
        v = (uint8_t)(byte - 0x28u);
    } else if (byte >= 0x40u && byte <= 0x7Fu) { /* @read_start_line */
        /* "40-7F | start line" */
        n = I_START_LINE;
        v = (uint8_t)(byte - 0x40u);
    } else if (byte == 0x81u) { /* @read_contrast_next */
        /* "81 | next instruction byte mod 64 is contrast" */
        n = I_CONTRAST_NEXT;
        v = 0;
    } else if (byte >= 0xA0u && byte <= 0xA1u) {
        /* "A0-A1, A2-A3, A4-A5, A6-A7 | ADC, bias, entire display, reverse" */
        n = I_ADC;
        v = (uint8_t)(byte - 0xA0u);
    } else if (byte >= 0xA2u && byte <= 0xA3u) {
        n = I_BIAS;
        v = (uint8_t)(byte - 0xA2u);
    } else if (byte >= 0xA4u && byte <= 0xA5u) {
        n = I_ENTIRE;
        v = (uint8_t)(byte - 0xA4u);
    } else if (byte >= 0xA6u && byte <= 0xA7u) {
        n = I_REVERSE;
        v = (uint8_t)(byte - 0xA6u);
    } else if (byte == 0xACu) {
        /* "AC | indicator off" */
        n = I_INDICATOR_OFF;
        v = 0;
    } else if (byte == 0xADu) {
        /* "AD | indicator on; next instruction byte mod 4 is its value" */
        n = I_INDICATOR_ON;
        v = 0;
    } else if (byte >= 0xAEu && byte <= 0xAFu) {
        /* "AE-AF | display off, on" */
        n = I_DISPLAY;
        v = (uint8_t)(byte - 0xAEu);
    } else if (byte >= 0xB0u && byte <= 0xBFu) {
        /* "B0-BF | page" */
        n = I_PAGE;
        v = (uint8_t)(byte - 0xB0u);
    } else if (byte >= 0xC0u && byte <= 0xCFu) {
        /* "C0-CF | SHL is bit 3; bits 0-2 free" */
        n = I_SHL;
        v = (uint8_t)(byte / 8u % 2u); /* @read_shl */
    } else if (byte == 0xE0u) {
        /* "E0 / EE | modify-read on, saving the column / off, restoring it" */
        n = I_MODIFY_ON;
        v = 0;
    } else if (byte == 0xEEu) {
        n = I_MODIFY_OFF;
        v = 0;
    } else if (byte == 0xE2u) {
        /* "E2 | reset" */
        n = I_RESET;
        v = 0;
    } else if (byte == 0xE3u) {
        /* "E3 | nothing" */
        n = I_NOTHING;
        v = 0;
    } else {
        /* "These are 161 bytes; the other 95 are unassigned."
           4: "instruction byte unassigned and nothing awaited" */
        return 4;
    }

    *number = n;
    *value = v;
    return 0;
}

/* "The writer puts free bits, of second bytes too, to 0."
   6: "a value to write is outside its field"
   Decision (model.h): another number than 0 to 20 is 6 too, and where there is no field the only value is 0. */
uint8_t model_write_instruction(uint8_t number, uint8_t value, uint8_t *byte)
{
    uint8_t first; /* the byte for value 0 */
    uint8_t top;   /* the largest value of the field */
    uint8_t step;  /* what one more in the value adds to the byte */

    step = 1;
    switch (number) {
    /* "00-0F / 10-1F | low / high four bits of column". Order 1: "bit 3 of a high column byte is free". Decision: the free
       bit is put to 0 and no part of the field, so a high part above 7 is 6. */
    case I_COLUMN_LOW: first = 0x00; top = 15; break;
    case I_COLUMN_HIGH: first = 0x10; top = HIGH_LAST; break; /* @write_high */
    /* "20-27, 28-2F | resistor, power" */
    case I_RESISTOR: first = 0x20; top = 7; break;
    case I_POWER: first = 0x28; top = 7; break; /* @write_power */
    /* "40-7F | start line" */
    case I_START_LINE: first = 0x40; top = 63; break;
    /* "81 | next instruction byte mod 64 is contrast" */
    case I_CONTRAST_NEXT: first = 0x81; top = 0; break;
    case I_CONTRAST_VALUE: first = 0x00; top = 63; break;
    /* "A0-A1, A2-A3, A4-A5, A6-A7 | ADC, bias, entire display, reverse" */
    case I_ADC: first = 0xA0; top = 1; break;
    case I_BIAS: first = 0xA2; top = 1; break;
    case I_ENTIRE: first = 0xA4; top = 1; break;
    case I_REVERSE: first = 0xA6; top = 1; break;
    /* "AC | indicator off" */
    case I_INDICATOR_OFF: first = 0xAC; top = 0; break;
    /* "AD | indicator on; next instruction byte mod 4 is its value" */
    case I_INDICATOR_ON: first = 0xAD; top = 0; break;
    case I_INDICATOR_VALUE: first = 0x00; top = 3; break; /* @write_indicator */
    /* "AE-AF | display off, on" */
    case I_DISPLAY: first = 0xAE; top = 1; break;
    /* "B0-BF | page" */
    case I_PAGE: first = 0xB0; top = 15; break;
    /* "C0-CF | SHL is bit 3; bits 0-2 free" */
    case I_SHL: first = 0xC0; top = 1; step = 8; break; /* @write_shl */
    /* "E0 / EE | modify-read on, saving the column / off, restoring it" */
    case I_MODIFY_ON: first = 0xE0; top = 0; break;
    case I_MODIFY_OFF: first = 0xEE; top = 0; break;
    /* "E2 | reset" */
    case I_RESET: first = 0xE2; top = 0; break;
    /* "E3 | nothing" */
    case I_NOTHING: first = 0xE3; top = 0; break;
    default: return 6;
    }
    if (value > top)
        return 6;
    *byte = (uint8_t)(first + step * value);
    return 0;
}

/* What an accepted instruction does to the registers. */
static void carry_out(struct model_registers *r, uint8_t number, uint8_t value)
{
    switch (number) {
    /* "00-0F / 10-1F | low / high four bits of column" */
    case I_COLUMN_LOW:
        r->column = (uint8_t)(r->column / 16u * 16u + value);
        break;
    case I_COLUMN_HIGH:
        r->column = (uint8_t)(r->column % 16u + 16u * value);
        break;
    /* "20-27, 28-2F | resistor, power" */
    case I_RESISTOR:
        r->resistor = value;
        break;
    case I_POWER:
        r->power = value;
        break;
    /* "40-7F | start line" */
    case I_START_LINE:
        r->start_line = value;
        break;
    /* "81 | next instruction byte mod 64 is contrast" */
    case I_CONTRAST_NEXT:
        r->awaited = AWAITS_CONTRAST;
        break;
    case I_CONTRAST_VALUE:
        r->contrast = value;
        r->awaited = AWAITS_NOTHING;
        break;
    /* "A0-A1, A2-A3, A4-A5, A6-A7 | ADC, bias, entire display, reverse" */
    case I_ADC:
        r->adc = value;
        break;
    case I_BIAS:
        r->bias = value;
        break;
    case I_ENTIRE:
        r->entire = value;
        break;
    case I_REVERSE:
        r->reverse = value;
        break;
    /* "AC | indicator off"; "AC awaits nothing (house)." Decision: the indicator value is another register and stays. */
    case I_INDICATOR_OFF:
        r->indicator = 0;
        break;
    /* "AD | indicator on; next instruction byte mod 4 is its value" */
    case I_INDICATOR_ON:
        r->indicator = 1;
        r->awaited = AWAITS_INDICATOR;
        break;
    case I_INDICATOR_VALUE:
        r->indicator_value = value;
        r->awaited = AWAITS_NOTHING;
        break;
    /* "AE-AF | display off, on" */
    case I_DISPLAY:
        r->on = value;
        break;
    /* "B0-BF | page" */
    case I_PAGE:
        r->page = value;
        break;
    /* "C0-CF | SHL is bit 3; bits 0-2 free" */
    case I_SHL:
        r->shl = value;
        break;
    /* "E0 / EE | modify-read on, saving the column / off, restoring it"
       "E0 while on and EE while off change nothing (house)." */
    case I_MODIFY_ON:
        if (r->modify_read < 1u) { /* off; @modify_on */
            r->modify_read = 1;
            r->saved_column = r->column;
        }
        break;
    case I_MODIFY_OFF:
        if (r->modify_read == 1u) {
            r->modify_read = 0;
            r->column = r->saved_column;
            r->saved_column = 0;
        }
        break;
    /* "E2 | reset: start line, column, page and SHL to 0". Order 5: "From now on E2 also forgets the saved column, turns
       the indicator off and its value to 0, and puts resistor and contrast to their start values. All else stays."
       Decision: this stands in place of the row's "nothing else". The saved column is forgotten, not restored: modify-read
       is off and the column 0. The start values are the chip's own, those of pin_goes_low. "All else" is power, bias, ADC,
       reverse, entire display, display on, holder and pin; an E2 that is awaited is the second byte and not this one. The
       mark of order 2 is no part of this: see counts. Settled: nor are order 13's three numbers and the set. */
    case I_RESET:
        r->start_line = 0;
        r->column = 0; /* @reset_column */
        r->page = 0;
        r->shl = 0; /* @reset_shl */
        r->modify_read = r->saved_column = 0; /* @reset_saved */
        r->indicator = 0; /* @reset_indicator */
        r->indicator_value = 0; /* @reset_value */
        r->resistor = RESISTOR_START; /* @reset_resistor */
        r->contrast = CONTRAST_START; /* @reset_contrast */
        break;
    /* "E3 | nothing" */
    default:
        break;
    }
}

/* ---------------------------------------------------------------- instruction bytes of the new set */

/* Order 13: "bytes 44-47, 48-4B and 4C-4F open two-byte instructions for initial COM0, partial duty and line inversion."
   "Reader and writer take one byte at a time", as in the old set. Refusals in the order 2, 4. None of it depends on the
   chip. */
uint8_t model_read_added(uint8_t awaited, uint8_t byte, uint8_t *number, uint8_t *value)
{
    uint8_t n, v;

    /* 2: "a register is outside its range". Order 13: "and so does an awaited byte of the other set" */
    if (awaited > AWAITS_INVERSION)
        return 2;
    if (awaited == AWAITS_CONTRAST || awaited == AWAITS_INDICATOR)
        return 2;

    /* "An awaited second byte is taken whatever its value." Settled: E4 too, which is 6 lines as inversion byte. Decision:
       so are 44-4F. */
    if (awaited == AWAITS_COM0) {
        /* Order 13: "the second byte mod 128 sets initial COM0 [...] and duty" */
        n = A_COM0_VALUE;
        v = (uint8_t)(byte % 128u); /* @added_com0_mod */
    } else if (awaited == AWAITS_DUTY) {
        n = A_DUTY_VALUE;
        v = (uint8_t)(byte % 128u);
    } else if (awaited == AWAITS_INVERSION) {
        /* Order 13: "the inversion byte mod 32" */
        n = A_INVERSION_VALUE;
        v = (uint8_t)(byte % 32u);
    } else if (byte >= 0x44u && byte <= 0x47u) {
        /* Order 13: "bytes 44-47, 48-4B and 4C-4F open two-byte instructions". Decision: the low two bits are free. */
        n = A_COM0_NEXT;
        v = 0;
    } else if (byte >= 0x48u && byte <= 0x4Bu) { /* @added_48 */
        n = A_DUTY_NEXT;
        v = 0;
    } else if (byte >= 0x4Cu && byte <= 0x4Fu) {
        n = A_INVERSION_NEXT;
        v = 0;
    } else if (byte == 0xE4u) {
        /* Order 13: "E4 returns to frame inversion" */
        n = A_FRAME_INVERSION;
        v = 0;
    } else {
        /* Order 13: "with nothing awaited, any other instruction byte in the new set is refused with 4, assigned by the
           sheet or not". Settled: so are 40-43, 81, AC, AD, E0, E2, E3, EE, pages and columns. */
        return 4;
    }

    *number = n;
    *value = v;
    return 0;
}

/* "The writer puts free bits, of second bytes too, to 0." Settled: 44, 48, 4C, E4.
   6: "a value to write is outside its field". Settled: the field is what the byte is after mod, also where the value does
   nothing; another number than 0 to 6 is 6 too, and where there is no field the only value is 0. */
uint8_t model_write_added(uint8_t number, uint8_t value, uint8_t *byte)
{
    uint8_t first; /* the byte for value 0 */
    uint8_t top;   /* the largest value of the field */

    switch (number) {
    /* Order 13: "bytes 44-47, 48-4B and 4C-4F open two-byte instructions"; "the second byte mod 128"; "the inversion byte
       mod 32" */
    case A_COM0_NEXT: first = 0x44; top = 0; break;
    case A_COM0_VALUE: first = 0x00; top = 127; break;
    case A_DUTY_NEXT: first = 0x48; top = 0; break;
    case A_DUTY_VALUE: first = 0x00; top = 127; break;
    case A_INVERSION_NEXT: first = 0x4C; top = 0; break;
    case A_INVERSION_VALUE: first = 0x00; top = 31; break; /* @write_inversion */
    /* Order 13: "E4 returns to frame inversion" */
    case A_FRAME_INVERSION: first = 0xE4; top = 0; break;
    default: return 6;
    }
    if (value > top)
        return 6;
    *byte = (uint8_t)(first + value);
    return 0;
}

/* Order 13: "the inversion byte mod 32 sets 0 for frame inversion, or its value plus 2 lines" */
static uint8_t inversion_lines(uint8_t value)
{
    if (value == 0u)
        return 0;
    return (uint8_t)(value + 2u); /* @added_lines */
}

/* What an accepted instruction of the new set does to the registers. Decision: a first byte sets what is awaited and nothing
   else. Settled: page, column, memory and the mark of order 2 stay. */
static void carry_out_added(struct model_registers *r, uint8_t number, uint8_t value)
{
    switch (number) {
    case A_COM0_NEXT:
        r->awaited = AWAITS_COM0;
        break;
    /* Order 13: "the second byte mod 128 sets initial COM0 for 0 to 79 and duty for 17 to 81, other values doing nothing".
       Settled: the byte is spent in every case. */
    case A_COM0_VALUE:
        if (value <= 79u) /* @com0_taken */
            r->com0 = value;
        r->awaited = AWAITS_NOTHING; /* @added_com0_spent */
        break;
    case A_DUTY_NEXT:
        r->awaited = AWAITS_DUTY;
        break;
    case A_DUTY_VALUE:
        if (value >= 17u && value <= 81u) /* @duty_taken */
            r->duty = value;
        r->awaited = AWAITS_NOTHING; /* @added_duty_spent */
        break;
    case A_INVERSION_NEXT:
        r->awaited = AWAITS_INVERSION;
        break;
    case A_INVERSION_VALUE:
        r->inversion = inversion_lines(value);
        r->awaited = AWAITS_NOTHING;
        break;
    /* Order 13: "E4 returns to frame inversion" */
    default: /* A_FRAME_INVERSION */
        r->inversion = 0; /* @added_e4 */
        break;
    }
}

/* ---------------------------------------------------------------- cycles */

/* "stored if page ≤ 8 and column ≤ 131, otherwise nothing is stored"; a read takes "the cell (0 if there is none)".
   Order 1: "Its memory is 65 by 100". Decision: column ≤ 99 on the KS0717. */
static int cell_exists(const struct model_registers *r)
{
    return r->page <= 8u && r->column <= COLUMNS - 1u; /* @cell_exists */
}

/* "Advancing adds 1 below 132 and changes nothing from 132 up (house reading of 002's locked counter). Page plays no
   part." Order 1: "it locks from 100". */
static void advance(struct model_registers *r)
{
    if (r->column < LOCK) /* @advance */
        r->column = (uint8_t)(r->column + 1u);
}

/* "Status: bit 7 busy, always 0; bit 6 is 1 for ADC 0; bit 5 is 1 for display off; bit 4 is 1 while the pin is low; the
   rest 0." */
static uint8_t status(const struct model_registers *r)
{
    uint8_t s = 0;
    if (r->adc == 0u)
        s = (uint8_t)(s + 0x40u);
    if (r->on == 0u)
        s = (uint8_t)(s + 0x20u);
    if (r->pin_low == 1u)
        s = (uint8_t)(s + 0x10u); /* @status_pin */
    return s;
}

/* Order 2: "fresh exactly when the last cycle that was a data read, a data write, a page or column instruction, E0, EE, E2
   or pin low was a data read. Power-up is stale; status reads and refused cycles don't count."
   The one place that says of a cycle whether it counts and, if so, as what. It is asked of the state before the cycle.
   Decision: instructions are meant and not bytes, so a byte that is awaited is a second byte, whatever its value, and
   doesn't count. An instruction of the list counts whether or not it changes anything else: E0 while modify-read is on,
   EE while it is off, a page or column that is there already; so do data cycles where there is no cell. Pin high and
   every other instruction don't count. Settled: no instruction of order 13's new set counts. */
static uint8_t counts(const struct model_registers *r, uint8_t kind, uint8_t value)
{
    uint8_t number, field;

    switch (kind) {
    case 0:
        if (r->set == SET_NEW)
            return COUNTS_NOT; /* @mark_added */
        /* "refused cycles don't count" */
        if (model_read_instruction(r->awaited, value, &number, &field) != 0u) /* @mark_awaited */
            return COUNTS_NOT;
        switch (number) {
        /* "a page or column instruction" */
        case I_PAGE: return COUNTS_AS_OTHER; /* @mark_page */
        case I_COLUMN_LOW: return COUNTS_AS_OTHER; /* @mark_low */
        case I_COLUMN_HIGH: return COUNTS_AS_OTHER; /* @mark_high */
        /* "E0, EE, E2" */
        case I_MODIFY_ON: return COUNTS_AS_OTHER; /* @mark_e0 */
        case I_MODIFY_OFF: return COUNTS_AS_OTHER; /* @mark_ee */
        case I_RESET: return COUNTS_AS_OTHER; /* @mark_e2 */
        default: return COUNTS_NOT; /* @mark_instruction */
        }
    /* "a data write" */
    case 1: return COUNTS_AS_OTHER; /* @mark_write */
    /* "status reads [...] don't count" */
    case 2: return COUNTS_NOT; /* @mark_status */
    /* "a data read" */
    case 3: return COUNTS_AS_READ; /* @mark_read */
    /* "pin low" */
    case 4: return COUNTS_AS_OTHER; /* @mark_pin_low */
    /* pin high */
    default: return COUNTS_NOT; /* 5; @mark_pin_high */
    }
}

/* One instruction byte, read and carried out in the set in force; answers 0 or the refusal, which changes nothing.
   4: "instruction byte unassigned and nothing awaited". Order 13: "with nothing awaited, any other instruction byte in the
   new set is refused with 4". Settled: in the old set E4 is refused with 4 and 44-4F are start lines, as before. */
static uint8_t instruct(struct model_registers *r, uint8_t byte)
{
    uint8_t refusal, number, field;

    if (r->set == SET_NEW) { /* @set_in_force */
        refusal = model_read_added(r->awaited, byte, &number, &field); /* @added_awaited */
        if (refusal == 0u)
            carry_out_added(r, number, field);
    } else {
        refusal = model_read_instruction(r->awaited, byte, &number, &field);
        if (refusal == 0u)
            carry_out(r, number, field);
    }
    return refusal;
}

/* "Kinds: 0 instruction, 1 data write, 2 status read, 3 data read, 4 reset pin low, 5 reset pin high."
   "The order is 1, 2, 6, 3, 4, 5; [...] A single cycle given as kind and value can meet 9 too, after 2." So: 1, 2, 9, 3,
   4.
   "A refusal returns its number only; registers and buffers stay."
   Order 13 speaks of instruction bytes and pin low alone. Settled: data writes, data reads, status reads and pin cycles are
   as in 01 in either set. */
uint8_t model_cycle(struct model_registers *r, uint8_t *memory, size_t memory_len, uint8_t kind, uint8_t value,
                    uint8_t *read_flag, uint8_t *byte, uint8_t *fresh)
{
    uint8_t refusal, counted;

    /* 1: "a picture, memory or frame buffer is not 1,188 bytes" (whatever the kind). Order 1: "number 1 uses 900 here" */
    if (memory_len != PICTURE)
        return 1;
    /* 2: "a register is outside its range" */
    if (!in_range(r))
        return 2;
    /* 9: "kind above 5, or value not 0 in kinds 2 to 5" */
    if (kind > 5u || (kind >= 2u && value != 0u)) /* @nine */
        return 9; /* @mark_nine */
    /* 3: "pin low, and the cycle is kind 0, 1 or 3". Decision: this comes before the byte is looked at, so an awaited
       second byte is not spent and 4 is not met. */
    if (r->pin_low == 1u && (kind == 0u || kind == 1u || kind == 3u)) /* @three */
        return 3; /* @mark_three */

    counted = counts(r, kind, value);
    switch (kind) {
    case 0:
        /* 4: "instruction byte unassigned and nothing awaited" */
        refusal = instruct(r, value);
        if (refusal != 0u)
            return refusal; /* @mark_four */
        break;
    case 1:
        /* "Data write: the byte enters the holder and is stored if page ≤ 8 and column ≤ 131, otherwise nothing is
           stored. Then the column advances."
           "a write there [page 8] stores the byte mod 2"
           "Data cycles are carried out while a second byte is awaited, and it stays awaited (house)."
           Decision: the holder takes the whole byte, on page 8 too; only what is stored is mod 2. The column advances in
           modify-read too: only the data read has an "unless". */
        r->holder = value;
        if (cell_exists(r))
            memory[cell(r->page, r->column)] = existing(r->page, value);
        advance(r);
        break;
    case 2:
        /* "Status reads change nothing." */
        *read_flag = 1;
        *byte = status(r); /* @mark_untold */
        break;
    case 3:
        /* "Data read: answers the holder, then loads it from the cell (0 if there is none). Then the column advances
           unless modify-read is on. So the first read after an address set is a dummy (002)."
           "On page 8 only bit 0 exists: other bits are read as 0 whatever the buffer holds"
           Order 2: "A data read's answer shall tell fresh from stale"; "in 01's example the line of index 6 ends in s, that
           of index 7 in f". Decision: so it tells the mark from before this read. */
        *read_flag = 1;
        *byte = r->holder;
        *fresh = r->fresh; /* @mark_told */
        if (cell_exists(r))
            r->holder = existing(r->page, memory[cell(r->page, r->column)]);
        else
            r->holder = 0;
        if (r->modify_read == 0u) /* @read_advance */
            advance(r);
        break;
    case 4:
        pin_goes_low(r); /* @pin_low */
        break;
    default: /* 5 */
        pin_goes_high(r);
        break;
    }

    /* Order 2: "fresh exactly when the last cycle that was [...] was a data read". Only accepted cycles come
       here: "refused cycles don't count". */
    if (counted != COUNTS_NOT)
        r->fresh = counted == COUNTS_AS_READ ? 1 : 0;
    return 0;
}

/* "Power state: display off with entire display on is sleep if the indicator is off and standby if on (000); all else is
   normal."
   Decision: it is asked of a whole register struct, so any register outside its range is 2. Settled: those of order 13
   too. The set plays no other part. */
uint8_t model_power_state(const struct model_registers *r, uint8_t *state)
{
    if (!in_range(r))
        return 2;
    if (r->on == 0u && r->entire == 1u)
        *state = r->indicator == 0u ? 1 : 2; /* @power_state */
    else
        *state = 0;
    return 0;
}

/* ---------------------------------------------------------------- the lit frame */

/* "A dot is dark if the display is off; else lit if entire display is on; else its bit, inverted if reverse is on, icons
   too (house)." */
static unsigned dot(const struct model_registers *r, unsigned bit)
{
    if (r->on == 0u)
        return 0;
    if (r->entire == 1u)
        return 1;
    if (r->reverse == 1u)
        return 1u - bit;
    return bit;
}

/* "A frame has a picture's layout, with segments for columns and rows for lines; rows 0..63 are the commons and strip 8
   bit 0 the icon row." Order 1: "rows are 0..53".
   Order 13: "Its own frame isn't wanted, and a frame call follows 01 in either set". Decision: so initial COM0, duty and
   inversion change no dot. */
uint8_t model_frame(const struct model_registers *r, const uint8_t *memory, size_t memory_len, uint8_t *frame, size_t frame_len)
{
    unsigned strip, segment, column, b, row, line, bit, lit, byte;

    /* 1: "a picture, memory or frame buffer is not 1,188 bytes". Order 1: "number 1 uses 900 here" */
    if (memory_len != PICTURE || frame_len != PICTURE)
        return 1;
    /* 2: "a register is outside its range" */
    if (!in_range(r))
        return 2;

    for (segment = 0; segment < COLUMNS; segment++) {
        /* "Segment s shows column s if ADC is 0, 131 − s if 1." Order 1: "ADC 1 shows column 99 − s". */
        if (r->adc == 0u) /* @frame_adc */
            column = segment;
        else
            column = COLUMNS - 1u - segment;

        for (strip = 0; strip < 8u; strip++) {
            byte = 0;
            for (b = 0; b < 8u; b++) {
                row = 8u * strip + b;
                if (row < ROWS) {
                    /* "Row k shows line (start + k) mod 64 if SHL is 0, (start + 63 − k) mod 64 if 1." Order 1: "row k
                       showing line (start + k) mod 64, or (start + 53 − k) mod 64 with SHL 1". */
                    if (r->shl == 0u)
                        line = (r->start_line + row) % 64u; /* @frame_start */
                    else
                        line = (r->start_line + ROWS - 1u - row) % 64u; /* @frame_shl */
                    /* "Bit b of a byte on page p (0 to 7) is line 8p + b." */
                    bit = (unsigned)memory[cell(line / 8u, column)] >> (line % 8u) & 1u;
                    lit = dot(r, bit);
                } else {
                    /* Order 1: "Rows 54 to 63 of its frame are 0." Decision: they are no dots of the glass, so neither
                       entire display nor reverse lights them. */
                    lit = 0; /* @beyond_rows */
                }
                byte |= lit << b;
            }
            frame[cell(strip, segment)] = (uint8_t)byte;
        }

        /* "The icon row never scrolls." "Strip 8's bits 1 to 7 are 0." */
        bit = memory[cell(ICON_PAGE, column)] & 1u; /* @frame_icon */
        frame[cell(ICON_PAGE, segment)] = (uint8_t)dot(r, bit);
    }
    return 0;
}

/* ---------------------------------------------------------------- V0 */

/* "1 + Rb/Ra in hundredths by resistor". Order 1: "Ratios in tenths". */
static const uint16_t ratios[8] = {RATIOS};

/* "V0 in millivolts is ratio·(237 + contrast)/15, from VREF 2.0 V, given as an exact numerator over 15; a resistor or
   contrast outside its range is refused with 2." Order 1: "V0 in millivolts is ratio·(99 + contrast)·35/27".
   Decision: the KS0717's is ratio·(99 + contrast)·35 over 27, not reduced. */
uint8_t model_v0(uint8_t resistor, uint8_t contrast, uint32_t *numerator)
{
    if (resistor > 7u || contrast > 63u) /* @v0_range */
        return 2;
    *numerator = (uint32_t)ratios[resistor] * (V0_BASE + contrast) * V0_FACTOR; /* @v0_offset */
    return 0;
}

/* ---------------------------------------------------------------- update and redraw */

/* "The scan for the first differing byte stops at the first one found, page by page. It answers that page and column, or
   that there is none; on page 8 only bit 0 counts." */
uint8_t model_first_difference(const uint8_t *R recorded, size_t recorded_len, const uint8_t *R wanted, size_t wanted_len, uint8_t *R found, size_t *R page, size_t *R column)
{
    size_t p, c;

    /* 1: "a picture, memory or frame buffer is not 1,188 bytes". Order 1: "number 1 uses 900 here" */
    if (recorded_len != PICTURE || wanted_len != PICTURE)
        return 1;

    for (p = 0; p < PAGES; p++) { /* @first_pages */
        for (c = 0; c < COLUMNS; c++) { /* @first_columns */
            if (differs(recorded, wanted, p, c))
                goto difference;
        }
    }
    *found = 0;
    return 0;

difference:
    *found = 1;
    *page = p;
    *column = c;
    return 0;
}

/* "Its length is the sum, over pages that differ, of 3 + differing columns + min(gap, 2) for each gap of equal columns
   between two differing ones." */
static size_t formula(const uint8_t *recorded, const uint8_t *wanted)
{
    size_t sum = 0;
    size_t page, column, gap;
    int page_differs;

    for (page = 0; page < PAGES; page++) {
        page_differs = 0;
        gap = 0; /* equal columns since the last differing one */
        for (column = 0; column < COLUMNS; column++) {
            if (!differs(recorded, wanted, page, column)) {
                gap++;
                continue;
            }
            if (!page_differs)
                sum += 3; /* the equal columns before the first differing one are no gap between two */
            else
                sum += gap < 2u ? gap : 2u; /* @formula_gap */
            sum++;
            page_differs = 1;
            gap = 0;
        }
    }
    return sum;
}

uint8_t model_update_length(const uint8_t *R recorded, size_t recorded_len, const uint8_t *R wanted, size_t wanted_len, size_t *R count)
{
    /* 1: "a picture, memory or frame buffer is not 1,188 bytes". Order 1: "number 1 uses 900 here" */
    if (recorded_len != PICTURE || wanted_len != PICTURE)
        return 1;
    *count = formula(recorded, wanted);
    return 0;
}

/* "Ours takes pages in rising order, columns rising, begins and ends each page's work on differing columns, writes
   through a gap of 1 or 2 equal columns and starts a new stretch at 3 or more."
   "A stream's bytes go to one lent output and their kinds (0 or 1, as under Cycles) to a second."
   Decision: equal pictures need no stretch, so the stream is empty and outputs of 0 bytes are long enough. */
uint8_t model_update(const uint8_t *R recorded, size_t recorded_len, const uint8_t *R wanted, size_t wanted_len,
                     uint8_t *R out, size_t out_len, uint8_t *R kinds, size_t kinds_len, size_t *R count)
{
    size_t need, sent, page, column, last, c;
    int page_byte_sent;

    /* 1: "a picture, memory or frame buffer is not 1,188 bytes". Order 1: "number 1 uses 900 here" */
    if (recorded_len != PICTURE || wanted_len != PICTURE)
        return 1;
    /* 5: "either output shorter than the stream needs"
       "A refusal returns its number only; registers and buffers stay." So the need is known before the first byte. */
    need = formula(recorded, wanted);
    if (out_len < need || kinds_len < need) /* @update_five */
        return 5;

    /* "A longer output keeps its bytes past the stream." Only out[0..sent) and kinds[0..sent) are written. */
    sent = 0;
    for (page = 0; page < PAGES; page++) {
        page_byte_sent = 0;
        column = 0;
        while (column < COLUMNS) {
            if (!differs(recorded, wanted, page, column)) {
                column++;
                continue;
            }

            /* A stretch begins here. Its last column is the last differing one that is reached over gaps of at most 2
               equal columns, which is in steps of at most 3. */
            last = column;
            for (c = column + 1u; c < COLUMNS && c - last <= 3u; c++) { /* @update_gap */
                if (differs(recorded, wanted, page, c))
                    last = c;
            }

            /* "A stretch is a page byte (B0 + page), two column bytes (10 + high part, then 00 + low part), then at least
               one data byte, ending at or before column 131. The page byte is left out exactly when the stretch before
               it in the same stream was on that page." Decision: at or before column 99 on the KS0717. */
            if (!page_byte_sent) {
                out[sent] = (uint8_t)(0xB0u + page);
                kinds[sent] = 0;
                sent++;
                page_byte_sent = 1;
            }
            out[sent] = (uint8_t)(0x10u + column / 16u); /* @update_high */
            kinds[sent] = 0;
            sent++;
            out[sent] = (uint8_t)(0x00u + column % 16u);
            kinds[sent] = 0;
            sent++;

            /* "Its data are the wanted bytes (mod 2 on page 8)." */
            for (c = column; c <= last; c++) {
                out[sent] = existing(page, wanted[cell(page, c)]);
                kinds[sent] = 1; /* @update_kind */
                sent++;
            }
            column = last + 1u;
        }
    }
    *count = sent;
    return 0;
}

/* "The redraw is E3, AC, 81, contrast, then all nine pages as one stretch each, data as in the update: 4 + 9·135 = 1,219
   bytes." Order 1: "the update is at most 927 bytes and the redraw 931".
   Refusals in the order 1, 6, 5. */
uint8_t model_redraw(const uint8_t *R wanted, size_t wanted_len, uint8_t contrast, uint8_t *R out, size_t out_len, uint8_t *R kinds, size_t kinds_len, size_t *R count)
{
    size_t sent, page, column;

    /* 1: "a picture, memory or frame buffer is not 1,188 bytes". Order 1: "number 1 uses 900 here" */
    if (wanted_len != PICTURE)
        return 1;
    /* "A given contrast above 63 is refused with 6." */
    if (contrast > 63u) /* @redraw_six */
        return 6;
    /* 5: "either output shorter than the stream needs" */
    if (out_len < REDRAW || kinds_len < REDRAW) /* @redraw_five */
        return 5;

    out[0] = 0xE3;
    out[1] = 0xAC; /* @redraw_ac */
    out[2] = 0x81;
    out[3] = contrast;
    for (sent = 0; sent < 4u; sent++)
        kinds[sent] = 0;

    for (page = 0; page < PAGES; page++) {
        /* "A stretch is a page byte (B0 + page), two column bytes (10 + high part, then 00 + low part), then at least one
           data byte". Every page byte is there, as the stretch before is on another page. */
        out[sent] = (uint8_t)(0xB0u + page);
        kinds[sent] = 0;
        sent++;
        out[sent] = 0x10;
        kinds[sent] = 0;
        sent++;
        out[sent] = 0x00;
        kinds[sent] = 0;
        sent++;
        /* "data as in the update": "the wanted bytes (mod 2 on page 8)" */
        for (column = 0; column < COLUMNS; column++) {
            out[sent] = existing(page, wanted[cell(page, column)]); /* @redraw_data */
            kinds[sent] = 1;
            sent++;
        }
    }
    *count = sent;
    return 0;
}

/* ---------------------------------------------------------------- page groups */

/* Order 10: "Split 01's update into its page groups, each beginning with its page byte." The group of one page, which is the
   part of 01's update that is for the page. It is not cut out of model_update: of each column by itself it is asked whether
   it is sent and whether a stretch begins there. Only the place of a byte (cell) is shared with model_update.
   Order 10: "This is for 01's kind of update only". */

/* "writes through a gap of 1 or 2 equal columns and starts a new stretch at 3 or more". The longest gap written through. */
#define LONGEST_THROUGH 2u /* @group_through */

/* "Two pictures are the same when pages 0 to 7 agree byte for byte and page 8 agrees in bit 0." Whether the column's two
   bytes stand in the way of that. */
static int group_differs(const uint8_t *recorded, const uint8_t *wanted, size_t page, size_t column)
{
    unsigned bits = (unsigned)recorded[cell(page, column)] ^ (unsigned)wanted[cell(page, column)]; /* the unequal ones */

    if (page == ICON_PAGE)
        bits &= 1u; /* @group_bits */
    return bits != 0u;
}

/* Whether the column's data byte is sent.
   "begins and ends each page's work on differing columns, writes through a gap of 1 or 2 equal columns"; a gap is one "of
   equal columns between two differing ones".
   Decision: so a column is sent exactly if it differs, or is equal and lies in such a gap of at most 2. That is, some column
   to its left and some column to its right differ, and between the two are at most 2 columns. (Should one of these differ
   too, the gap is the shorter for it.) Equal columns before the first differing one or behind the last lie in no gap. */
static int group_sends(const uint8_t *recorded, const uint8_t *wanted, size_t page, size_t column)
{
    size_t left, right; /* how many columns away; between the two are left + right - 1 columns */

    if (group_differs(recorded, wanted, page, column))
        return 1;
    for (left = 1; left <= column && left <= LONGEST_THROUGH; left++) {
        if (!group_differs(recorded, wanted, page, column - left))
            continue;
        for (right = 1; column + right < COLUMNS && left + right - 1u <= LONGEST_THROUGH; right++) {
            if (group_differs(recorded, wanted, page, column + right))
                return 1;
        }
    }
    return 0;
}

/* Whether a stretch begins with the column: it is sent, and the one before it, if there is one, is not. */
static int group_begins(const uint8_t *recorded, const uint8_t *wanted, size_t page, size_t column)
{
    if (!group_sends(recorded, wanted, page, column))
        return 0;
    return column == 0u || !group_sends(recorded, wanted, page, column - 1u);
}

/* A group under way: where its bytes go and how many there are so far. A byte past the room is counted and not written. */
struct group {
    uint8_t *out, *kinds;
    size_t room, count;
};

/* "A stream's bytes go to one lent output and their kinds (0 or 1, as under Cycles) to a second." */
static void group_byte(struct group *g, uint8_t kind, uint8_t byte)
{
    if (g->count < g->room) {
        g->out[g->count] = byte;
        g->kinds[g->count] = kind;
    }
    g->count++;
}

/* The page's group from first byte to last, as far as there is room; answers its whole length. */
static size_t group_walk(const uint8_t *recorded, const uint8_t *wanted, size_t page, uint8_t *out, uint8_t *kinds, size_t room)
{
    struct group g = {out, kinds, room, 0};
    size_t column;
    uint8_t data;

    for (column = 0; column < COLUMNS; column++) {
        if (group_begins(recorded, wanted, page, column)) {
            /* "A stretch is a page byte (B0 + page), two column bytes (10 + high part, then 00 + low part), then at least
               one data byte"; "The page byte is left out exactly when the stretch before it in the same stream was on that
               page." Order 10: "each beginning with its page byte". Decision: so the first stretch of a group has the page
               byte, whatever is sent before the group, and the later ones, all on the same page, don't. */
            if (g.count == 0u) /* @group_page_byte */
                group_byte(&g, 0, (uint8_t)(0xB0u + page));
            group_byte(&g, 0, (uint8_t)(0x10u + column / 16u)); /* @group_high */
            group_byte(&g, 0, (uint8_t)(0x00u + column % 16u));
        }
        if (group_sends(recorded, wanted, page, column)) {
            /* "Its data are the wanted bytes (mod 2 on page 8)." */
            data = wanted[cell(page, column)];
            if (page == ICON_PAGE) /* @group_data */
                data = (uint8_t)(data % 2u);
            group_byte(&g, 1, data);
        }
    }
    return g.count;
}

/* Order 10: "Refusals: none new." Settled: a page above 8, as large as a size_t may be, is a value outside its field and so
   6; the order is 1, 6, 5, and 5 is asked of this one group. A page that does not differ has no group: it answers 0 with
   a count of 0 and leaves the outputs alone, and outputs of 0 bytes are long enough. */
uint8_t model_page_group(const uint8_t *R recorded, size_t recorded_len, const uint8_t *R wanted, size_t wanted_len, size_t page,
                         uint8_t *R out, size_t out_len, uint8_t *R kinds, size_t kinds_len, size_t *R count)
{
    size_t need;

    /* 1: "a picture, memory or frame buffer is not 1,188 bytes". Order 1: "number 1 uses 900 here" */
    if (recorded_len != PICTURE)
        return 1;
    if (wanted_len != PICTURE)
        return 1; /* @group_wanted */
    /* 6: "a value to write is outside its field" */
    if (page > ICON_PAGE) /* @group_top */
        return 6; /* @group_order */
    /* 5: "either output shorter than the stream needs"
       "A refusal returns its number only; registers and buffers stay." So the bytes are first counted, in no room. */
    need = group_walk(recorded, wanted, page, out, kinds, 0); /* @group_need */
    if (out_len < need || kinds_len < need) /* @group_room */
        return 5;

    /* "A longer output keeps its bytes past the stream." */
    group_walk(recorded, wanted, page, out, kinds, need);
    *count = need;
    return 0;
}

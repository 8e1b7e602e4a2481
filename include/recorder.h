/* Recording what a panel was sent: job files written from cycles and pictures, and the text form of cycles, written and read; beside
 * them the reader of job files and the player, so that a tool can read what it writes. What the head of panel.h says of its calls, and
 * what it leaves to the caller, holds here too, but for one number: with 11 the bad line is told. The archive is librecorder.a.
 *
 * Cycles are bytes, two a cycle, the kind (PANEL_INSTRUCTION and so on) and the value; a last odd byte is no cycle. What
 * recorder_read_text gives, both writers and bus_run take. A longer output keeps its bytes past what is written.
 *
 * The text form has one line a cycle: i, d, s, r, l or h for kinds 0 to 5, then for i and d one space and two lower-case hex digits, then
 * a newline (0A). Any list of cycles has one text, and a text at most one list. */
#ifndef RECORDER_H
#define RECORDER_H

#include <stddef.h>
#include <stdint.h>

#ifdef __cplusplus
extern "C" {
#endif

/* The numbers that a refusal carries here, beside 1, 5, 6 and 9 of panel.h. */
enum {
    RECORDER_SHORT_JOB = 7,         /* a job of fewer than 8 bytes */
    RECORDER_WRONG_HEADER = 8,      /* a job's count, offset or length is wrong */
    RECORDER_NO_TEXT = 11           /* a text that no list of cycles has */
};

/* Sizes: nothing that these calls write is longer. */
enum {
    RECORDER_CYCLES = 16000,        /* cycles of a job */
    RECORDER_CYCLE_BYTES = 32000,   /* their bytes */
    RECORDER_TEXT_MOST = 80000,     /* their text */
    RECORDER_JOB_MOST = 34384,      /* a job file */
    RECORDER_PLAYED_MOST = 210000   /* the player's text */
};

/* A job file that powers up in the command set `set` (PANEL_SET_OLD, PANEL_SET_NEW), of the cycles and of `count` pictures of 1,188
 * bytes, one behind the other; *length is the file's. Refuses with 1 (pictures that are not `count` of 1,188 bytes), 6 (a set above 1,
 * more than 16,000 cycles, more than two pictures, in the new set more than one, a kind above 5, or a value other than 0 in kinds 2 to
 * 5), 5 (an output shorter than the file). */
uint8_t recorder_write_job(uint8_t set, const uint8_t *cycles, size_t cycles_length, size_t count, const uint8_t *pictures,
                           size_t pictures_length, uint8_t *out, size_t out_length, size_t *length);

/* The text of the cycles; *length is the text's. Refuses with 6 (more than 16,000 cycles, a kind above 5, or a value other than 0 in
 * kinds 2 to 5), 5 (an output shorter than the text). */
uint8_t recorder_write_text(const uint8_t *cycles, size_t cycles_length, uint8_t *out, size_t out_length, size_t *length);

/* The cycles of a text; *count is how many, and their bytes are twice as many. Refuses with 11 (a text that no list of cycles has: *line
 * is the number of its first bad line, from 0; a last line without its newline is bad), 6 (more than 16,000 cycles), 5 (an output shorter
 * than the cycles' bytes). Only 11 sets *line. */
uint8_t recorder_read_text(const uint8_t *text, size_t text_length, uint8_t *out, size_t out_length, size_t *count, size_t *line);

/* How many cycles and how many pictures a job file has, and the command set that it powers up in: its cycles stand from byte 8 on, its
 * pictures behind them. Refuses with 7 (fewer than 8 bytes), 8 (a count, an offset or the length is wrong), 9 (a kind above 5, or a value
 * other than 0 in kinds 2 to 5). */
uint8_t recorder_read_header(const uint8_t *file, size_t file_length, size_t *cycles, size_t *pictures, uint8_t *set);

/* The player's text of a job file, as ./play writes it; *length is the text's. A file that recorder_read_header refuses gives the one
 * line `bad` and the number, and is no refusal of this call. Refuses with 5 (an output shorter than the text). */
uint8_t recorder_play(const uint8_t *file, size_t file_length, uint8_t *out, size_t out_length, size_t *length);

#ifdef __cplusplus
}
#endif

#endif

/* The recording calls of the independent model: the writer of job files, the text form of a list of cycles, the reader of a
   job file's header and the player. Written from document 01 and orders 2, 11 and 13 alone. Plain C, no library calls.
   Every function answers 0, or the number of the refusal; values go through pointers that a refusal leaves alone, but for
   11, which sets *line. A refusal alters no byte of a lent buffer, and a longer output keeps its bytes past what is written.
   Cycles are given and answered as bytes, two a cycle, kind and value; of cycles that are given, a last odd byte is no
   cycle and is ignored. */
#ifndef RECORDING_H
#define RECORDING_H
#include <stddef.h>
#include <stdint.h>

/* The job file of cycles and pictures that powers up in the set, 0 old, 1 new; count is the number of pictures, pictures
   their bytes one behind the other. *length is the file's length. Refusals: 1, 6 (also for a set above 1), 5. */
uint8_t model_write_job(uint8_t set, const uint8_t *cycles, size_t cycles_len, size_t count, const uint8_t *pictures, size_t pictures_len,
                        uint8_t *out, size_t out_len, size_t *length);
/* The text of a list of cycles. *length is the text's length. Refusals: 6, 5. */
uint8_t model_write_text(const uint8_t *cycles, size_t cycles_len, uint8_t *out, size_t out_len, size_t *length);
/* The list of cycles of a text, two bytes a cycle. *count is the number of cycles (half the number of bytes written).
   Refusals: 11 (*line is then the first bad line's number from 0; else it is left alone), 6, 5. */
uint8_t model_read_text(const uint8_t *text, size_t text_len, uint8_t *out, size_t out_len, size_t *count, size_t *line);
/* *cycles and *pictures are the numbers of cycles and of pictures of a job file, *set the set that it powers up in. The
   whole file is looked at, its cycles too. Refusals: 7, 8, 9. */
uint8_t model_read_header(const uint8_t *file, size_t file_len, size_t *cycles, size_t *pictures, uint8_t *set);
/* The whole text of the player (KS0713) for a job file, or the one line for a file that model_read_header refuses.
   *length is the text's length. Refusal: 5. */
uint8_t model_play(const uint8_t *file, size_t file_len, uint8_t *out, size_t out_len, size_t *length);
#endif

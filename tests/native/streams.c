/* Writes the library's update and redraw for the two pictures of a job that has no cycles, as a job has cycles: kind, byte.
   usage: streams < JOB; the contrast is 28 hex. Status 1 where the job is another, or a call refuses. */
#include "panel.h"

long read(int, void *, size_t);
long write(int, const void *, size_t);

enum { HEADER = 8, SIZE = HEADER + 2 * PANEL_PICTURE };

static uint8_t job[SIZE + 1], bytes[PANEL_REDRAW_LENGTH], kinds[PANEL_REDRAW_LENGTH], cycles[2 * PANEL_REDRAW_LENGTH];

static int written(size_t n)
{
    for (size_t i = 0; i < n; i++) cycles[2 * i] = kinds[i], cycles[2 * i + 1] = bytes[i];
    return write(1, cycles, 2 * n) == (long)(2 * n);
}

int main(void)
{
    const uint8_t *recorded = job + HEADER, *wanted = recorded + PANEL_PICTURE;
    size_t size = 0, n = 0;
    for (long got; size < sizeof job && (got = read(0, job + size, sizeof job - size)) > 0;) size += (size_t)got;
    if (size != SIZE) return 1;
    if (panel_update(recorded, PANEL_PICTURE, wanted, PANEL_PICTURE, bytes, sizeof bytes, kinds, sizeof kinds, &n) || !written(n)) return 1;
    if (panel_redraw(wanted, PANEL_PICTURE, 0x28, bytes, sizeof bytes, kinds, sizeof kinds, &n) || !written(n)) return 1;
    return 0;
}

/* Instructions and time of a call without arguments. */
#ifndef MEASURE_H
#define MEASURE_H

/* How instructions are counted. STEPPING through a call needs an x86-64 machine. Under an emulator that lists every instruction the
   program runs twice: MARKING where a call begins and ends, and then READING from standard input what was counted between the marks;
   there are no times then. */
enum counting { STEPPING, MARKING, READING };
extern enum counting counting;
void mark(void);

/* the instructions that a call executes; what it changes on the desk is undone. Ends the program where they can't be counted */
long steps_of(void (*call)(void));
/* the nanoseconds that each of `sides` calls takes, the least of several rounds in which the sides take turns */
void times_of(void (*const *call)(void), int sides, double *nanoseconds);
#endif

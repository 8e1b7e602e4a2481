#include "measure.h"
#include "posix.h"
#include "sides.h"

enum counting counting = STEPPING;

__attribute__((noinline)) void mark(void) { __asm__ volatile(""); }

static void nothing(void) {}

static int stopped(int status) { return (status & 0xff) == 0x7f; }

static long marked(void (*call)(void))
{
    static struct desk before;
    before = desk;
    mark();
    call();
    mark();
    desk = before;
    return 0;
}

static long counted(void)
{
    long steps;
    if (scanf("%ld", &steps) != 1) {
        printf("bench: fewer counts than calls\n");
        exit(2);
    }
    return steps;
}

/* from a child's first stop to its second */
static long stepped(void (*call)(void))
{
    int child = fork(), status = 0;
    if (child == 0) {
        if (ptrace(PTRACE_TRACEME, 0, 0, 0) != 0) _exit(1);
        raise(SIGSTOP);
        call();
        raise(SIGSTOP);
        _exit(0);
    }
    waitpid(child, &status, 0);
    if (!stopped(status)) {
        printf("bench: this system lets no process step through another (ptrace)\n");
        exit(2);
    }
    for (long steps = 0;; steps++) {
        ptrace(PTRACE_SINGLESTEP, child, 0, 0);
        waitpid(child, &status, 0);
        if (!stopped(status) || status >> 8 != SIGTRAP) {
            /* the second stop: let the child end */
            ptrace(PTRACE_CONT, child, 0, 0);
            waitpid(child, &status, 0);
            return steps;
        }
    }
}

static long steps_between(void (*call)(void))
{
    return counting == MARKING ? marked(call) : counting == READING ? counted() : stepped(call);
}

/* without the two stops: the empty call's own return is one instruction of it, as it is of every call */
long steps_of(void (*call)(void))
{
    return steps_between(call) - steps_between(nothing) + 1;
}

static double now(void)
{
    struct timespec t;
    clock_gettime(CLOCK_MONOTONIC, &t);
    return t.tv_sec * 1e9 + t.tv_nsec;
}

static double time_of(void (*call)(void), long turns)
{
    double start = now();
    for (long turn = 0; turn < turns; turn++) call();
    return now() - start;
}

void times_of(void (*const *call)(void), int sides, double *nanoseconds)
{
    enum { ROUNDS = 15 };
    double round = 2e6;
    long turns = 1;
    for (int side = 0; side < sides; side++) nanoseconds[side] = 0;
    if (counting != STEPPING) return;
    while (time_of(call[0], turns) < round) turns *= 2;
    for (int side = 0; side < sides; side++) nanoseconds[side] = 1e18;
    for (int r = 0; r < ROUNDS; r++)
        for (int side = 0; side < sides; side++) {
            double took = time_of(call[side], turns) / turns;
            if (took < nanoseconds[side]) nanoseconds[side] = took;
        }
}

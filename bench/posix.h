/* The few C and POSIX calls that the benchmark uses. The toolchain brings a C library without its headers. */
#ifndef POSIX_H
#define POSIX_H
#include <stddef.h>
#include <stdint.h>

int printf(const char *, ...);
int dprintf(int, const char *, ...);
int scanf(const char *, ...);
int strcmp(const char *, const char *);
void *memcpy(void *, const void *, size_t);
void *memset(void *, int, size_t);
int memcmp(const void *, const void *, size_t);
void exit(int);
void _exit(int);

struct timespec { long tv_sec, tv_nsec; };
int clock_gettime(int, struct timespec *);
enum { CLOCK_MONOTONIC = 1 };

int fork(void);
int raise(int);
int waitpid(int, int *, int);
long ptrace(int, int, void *, void *);
enum { PTRACE_TRACEME = 0, PTRACE_CONT = 7, PTRACE_SINGLESTEP = 9, SIGTRAP = 5, SIGSTOP = 19 };
#endif

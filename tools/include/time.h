/* The clock of the kit's C library, as it is on x86-64 Linux, for a compiler that comes without headers. */
#ifndef TOOLS_TIME_H
#define TOOLS_TIME_H

struct timespec {
    long tv_sec;
    long tv_nsec;
};

/* A clock that nobody sets back while the bench runs. */
enum { CLOCK_MONOTONIC = 1 };

int clock_gettime(int clock, struct timespec *time);

#endif

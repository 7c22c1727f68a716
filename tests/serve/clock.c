/* Loaded before the C library, clocks that a row sets: the seconds of a clock are those in a file. CLOCK names the file of the seconds since
   1970, and MONOTONIC the file of the clock that is never set. A clock without a file is the system's. */
#define _GNU_SOURCE
#include <stdio.h>
#include <stdlib.h>
#include <sys/syscall.h>
#include <time.h>
#include <unistd.h>

int clock_gettime(clockid_t clock, struct timespec *time) {
    const char *name = NULL;
    if (clock == CLOCK_REALTIME) name = getenv("CLOCK");
    if (clock == CLOCK_MONOTONIC) name = getenv("MONOTONIC");
    if (!name) return syscall(SYS_clock_gettime, clock, time);
    FILE *file = fopen(name, "r");
    long seconds = -1;
    if (file) {
        if (fscanf(file, "%ld", &seconds) != 1) seconds = -1;
        fclose(file);
    }
    time->tv_sec = seconds;
    time->tv_nsec = 0;
    return seconds < 0 ? -1 : 0;
}

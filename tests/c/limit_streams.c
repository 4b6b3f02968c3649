/* Limits what the program that it is loaded into by LD_PRELOAD reads and writes, by variables. For glibc.
 *
 *   IN_ROOM, OUT_ROOM, ERR_ROOM  how many bytes standard input gives, and how many standard output and error take
 *   FAULT   the error of reads past IN_ROOM; without it standard input ends there
 *   STEP    how many bytes each call reads or writes at most
 *   INTERRUPTS  if set, every second read is interrupted
 *   COUNTS  a file for how often standard output and error were written to
 *   CLOCK   if set, the clock advances by a second each time it is asked, and standard error is a terminal
 *
 *   cc -shared -fPIC -O2 tests/c/limit_streams.c -o limit_streams.so
 *   LD_PRELOAD=./limit_streams.so OUT_ROOM=3 crates/vectors/out/vectors half int even 464 */
#define _GNU_SOURCE
#include <errno.h>
#include <stdio.h>
#include <stdlib.h>
#include <sys/syscall.h>
#include <time.h>
#include <unistd.h>

static size_t room[3] = {-1, -1, -1};
static size_t step = -1;
static long calls[3];
static int fault, interrupts, interrupted, ticks;
static const char *counts;

/* The text of a variable that is set and not empty. */
static const char *given(const char *name) {
    const char *text = getenv(name);
    return text && *text ? text : NULL;
}

static size_t number(const char *name, size_t otherwise) {
    const char *text = given(name);
    return text ? strtoul(text, NULL, 10) : otherwise;
}

__attribute__((constructor)) static void begin(void) {
    room[0] = number("IN_ROOM", -1);
    room[1] = number("OUT_ROOM", -1);
    room[2] = number("ERR_ROOM", -1);
    step = number("STEP", -1);
    fault = (int)number("FAULT", 0);
    interrupts = given("INTERRUPTS") != NULL;
    ticks = given("CLOCK") != NULL;
    counts = given("COUNTS");
}

__attribute__((destructor)) static void end(void) {
    FILE *file = counts ? fopen(counts, "w") : NULL;
    if (file) {
        fprintf(file, "%ld %ld\n", calls[1], calls[2]);
        fclose(file);
    }
}

static int failed(int error) {
    errno = error;
    return -1;
}

static size_t least(size_t a, size_t b) { return a < b ? a : b; }

ssize_t read(int from, void *into, size_t count) {
    if (from == 0 && interrupts && (interrupted = !interrupted))
        return failed(EINTR);
    if (from == 0 && room[0] == 0 && count > 0)
        return fault ? failed(fault) : 0;
    if (from == 0)
        count = least(count, least(step, room[0]));
    ssize_t done = syscall(SYS_read, from, into, count);
    if (from == 0 && done > 0 && room[0] != (size_t)-1)
        room[0] -= (size_t)done;
    return done;
}

ssize_t write(int into, const void *from, size_t count) {
    if (into != 1 && into != 2)
        return syscall(SYS_write, into, from, count);
    calls[into]++;
    if (room[into] == 0)
        return failed(EPIPE);
    ssize_t done = syscall(SYS_write, into, from, least(count, least(step, room[into])));
    if (done > 0 && room[into] != (size_t)-1)
        room[into] -= (size_t)done;
    return done;
}

ssize_t __write(int into, const void *from, size_t count) { return write(into, from, count); }

int isatty(int file) { return ticks && file == 2; }

int clock_gettime(clockid_t clock, struct timespec *now) {
    static long seconds;
    if (!ticks)
        return (int)syscall(SYS_clock_gettime, clock, now);
    now->tv_sec = ++seconds;
    now->tv_nsec = 0;
    return 0;
}

/* How the programs of this folder in C time a call. */
#ifndef TIMING_H
#define TIMING_H

#include <stdio.h>
#include <time.h>

typedef unsigned __int128 u128;

/* The operands of COUNT calls are timed in up to ROUNDS rounds, until ENOUGH nanoseconds are spent. */
enum { COUNT = 1024, ROUNDS = 300 };
static const double ENOUGH = 200e6;

static double now(void)
{
    struct timespec time;
    clock_gettime(CLOCK_MONOTONIC, &time);
    return time.tv_sec * 1e9 + time.tv_nsec;
}

static u128 number_of(const char *word)
{
    u128 number = 0;
    for (; *word; word++)
        number = number << 4 | (u128)(*word <= '9' ? *word - '0' : *word - 'a' + 10);
    return number;
}

/* Prints the nanoseconds of a call, for each i, in the fastest round. */
#define TIME(CALL)                                                      \
    do {                                                                \
        double least = 1e18, spent = 0;                                 \
        for (int round = 0; round < ROUNDS && spent < ENOUGH; round++) {\
            double start = now();                                       \
            for (int i = 0; i < COUNT; i++) {                           \
                CALL;                                                   \
            }                                                           \
            double time = now() - start;                                \
            spent += time;                                              \
            least = time < least ? time : least;                        \
        }                                                               \
        printf("%.2f", least / COUNT);                                  \
    } while (0)

#endif

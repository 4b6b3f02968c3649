// Integers that look random: the generator splitmix64, the same in each run with a seed.
#ifndef DRAWING_H
#define DRAWING_H

#include <stdint.h>

// The seed, before the first draw.
static uint64_t state;

static uint64_t word(void) {
    uint64_t z = state += 0x9e3779b97f4a7c15;
    z = (z ^ z >> 30) * 0xbf58476d1ce4e5b9;
    z = (z ^ z >> 27) * 0x94d049bb133111eb;
    return z ^ z >> 31;
}

static int64_t between(int64_t least, int64_t greatest) {
    return least + (int64_t)(word() % (uint64_t)(greatest - least + 1));
}

#endif

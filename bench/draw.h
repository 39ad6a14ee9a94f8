/* Numbers drawn from a fixed seed, the same in each run. */
#ifndef DRAW_H
#define DRAW_H
#include <stdint.h>

/* A number from 0 to most. */
static inline int64_t draw(int64_t most) {
    static uint64_t state = 2014;
    state = state * 6364136223846793005u + 1442695040888963407u;
    return (int64_t)((state >> 16) % (uint64_t)(most + 1));
}
#endif

/* Several runners of the same work, timed in turns in one run, so that a change of the machine's pace meets them all. */
#ifndef TIMING_H
#define TIMING_H
#include <time.h>

/* Its work takes the runner's own number, and `best` is the least time of a turn, in seconds. */
typedef struct {
    const char *name;
    void (*work)(int which);
    int which;
    double best;
} runner;

static inline double now(void) {
    struct timespec t;
    clock_gettime(CLOCK_MONOTONIC, &t);
    return (double)t.tv_sec + 1e-9 * (double)t.tv_nsec;
}

static inline void take_turns(runner *all, int count, int turns) {
    for (int i = 0; i < count; i++) all[i].best = 1e9;
    for (int turn = 0; turn < turns; turn++)
        for (int i = 0; i < count; i++) {
            double from = now();
            all[i].work(all[i].which);
            double took = now() - from;
            if (took < all[i].best) all[i].best = took;
        }
}

/* The time of the fastest. */
static inline double fastest(const runner *all, int count) {
    double best = all[0].best;
    for (int i = 1; i < count; i++)
        if (all[i].best < best) best = all[i].best;
    return best;
}
#endif

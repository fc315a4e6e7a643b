// Single calls of the index, each timed by itself: steps of a walk and of a search, and withdrawals.
#ifndef SINGLES_H
#define SINGLES_H

#include "sides.h"

// How many single calls took each number of nanoseconds; the last count has all that took longer.
#define LONGEST 4096
struct timings {
    uint64_t count;
    uint32_t took[LONGEST];
};

// Steps of contains calls that go six rows down.
struct timings measure_walks(struct sides *sides, uint32_t calls);

// Steps of nearest calls that leave them unfinished: those that look at a removed record first, while another station removes records, and those
// that have missed none.
struct timings measure_looks(struct sides *sides, uint32_t calls);
struct timings measure_searches(struct sides *sides, uint32_t calls);

// Withdrawals of nearest calls that are under way.
struct timings measure_withdrawals(struct sides *sides, uint32_t calls);

// The time that half of the calls did not pass: a clock that jumps or a call that was interrupted does not move it.
uint32_t median(const struct timings *timings);

#endif

// Whole calls: the index beside the flat scan and the buckets.
#ifndef MEASURE_H
#define MEASURE_H

#include "sides.h"

// The times of some calls of one kind, in nanoseconds, and the steps that they took.
struct times {
    double index;
    double steps_alone;
    double flat;
    double buckets;
    uint64_t steps;
    uint64_t calls;
};

// At least so many calls of a kind in batches of eight, one at each station. Their answers must be those of both peers.
void measure_readings(struct sides *sides, uint32_t kind, uint32_t calls, struct times *times);
void measure_changes(struct sides *sides, uint32_t calls, struct times *removes, struct times *adds);

// The times less what reading the clock cost, which is as much as a few calls of the buckets take.
struct times less_clock(struct times times);

#endif

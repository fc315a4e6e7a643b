// A nearest beside another station: how many steps of its own it takes, and how long these take.
#ifndef BESIDE_H
#define BESIDE_H

#include "sides.h"

// Some nearest calls: their own steps, the most that one took, and the time of these steps in nanoseconds.
struct beside {
    uint64_t calls;
    uint64_t own;
    uint64_t most;
    double ns;
};

// So many nearest calls on the records of the workload, with some places free. Where `other` is set, another station removes the record nearest to
// the target and adds it again, one whole call before each own step.
struct beside measure_beside(struct sides *sides, uint32_t calls, int other);

// One nearest on a stair of as many records as there are places. Where `other` is set, another station removes the leaf on which the search stands
// near the top of the stair, so that a search which were sent down to the leaf's sibling would go through all the stair again.
struct beside measure_hold_up(struct index index, uint32_t places, int other);

#endif

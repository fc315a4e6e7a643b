// What the peers ask of points. In a header, so that the compiler can put each question into the loop that asks it.
#ifndef POINTS_H
#define POINTS_H

#include "records.h"
#include <string.h>

static inline int same_point(const struct point *a, const struct point *b)
{
    return memcmp(a, b, sizeof *a) == 0;
}

// Among equal squares of one grade: the heavier wins, and of two of one weight the lower.
static inline int wins(const struct point *a, const struct point *b)
{
    if (a->axis[1] != b->axis[1])
        return a->axis[1] > b->axis[1];
    for (int k = 2; k < AXES; k++)
        if (a->axis[k] != b->axis[k])
            return a->axis[k] < b->axis[k];
    return 0;
}

static inline uint64_t square(const struct point *a, const struct point *b)
{
    int64_t sum = 0;
    for (int k = 1; k < AXES; k++) {
        int64_t d = (int64_t)a->axis[k] - b->axis[k];
        sum += d * d;
    }
    return (uint64_t)sum;
}

// The same by dry weight, and by moisture, speed and draw times 10,000 (rule 2).
static inline uint64_t dry_square(const struct point *a, const struct point *b)
{
    int64_t dry = (int64_t)a->axis[1] * (10000 - a->axis[2]) - (int64_t)b->axis[1] * (10000 - b->axis[2]);
    uint64_t sum = (uint64_t)(dry * dry);
    for (int k = 2; k < AXES; k++) {
        int64_t d = 10000 * ((int64_t)a->axis[k] - b->axis[k]);
        sum += (uint64_t)(d * d);
    }
    return sum;
}

static inline uint64_t square_by(enum rule rule, const struct point *a, const struct point *b)
{
    return rule == BY_DRY_WEIGHT ? dry_square(a, b) : square(a, b);
}

#endif

// Records and calls of the benchmark, and the random numbers that they are drawn by.
#ifndef RECORDS_H
#define RECORDS_H

#include <stdint.h>

#define AXES 5

enum call_kind { ADD = 1, REMOVE = 2, CONTAINS = 3, NEAREST = 4 };

enum spread { UNIFORM, CLUSTERED };

// The rule of an opening: squares by the coordinates, or by dry weight.
enum rule { BY_COORDINATES = 1, BY_DRY_WEIGHT = 2 };

// A point by its axes: grade, weight, moisture, speed, draw.
struct point {
    int32_t axis[AXES];
};

struct record {
    struct point point;
    uint32_t curve;
};

struct call {
    uint32_t kind;
    struct record record;
};

struct answer {
    uint32_t code;
    struct point point;
    uint32_t curve;
    uint64_t square;
};

// The next number below `bound` of a fixed sequence, which `seed` begins.
void random_seed(uint64_t seed);
uint32_t random_below(uint32_t bound);

// A record of one of so many grades, numbered from 1: anywhere in the ranges, or near one of the set points of its grade.
struct record random_record(enum spread spread, uint32_t grades);

#endif

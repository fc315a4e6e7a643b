#include "records.h"

#define SET_POINTS 3

static const int32_t LOW[AXES] = {1, 1, 0, 0, -2000};
static const int32_t HIGH[AXES] = {9999, 100000, 10000, 30000, 2000};

// How far a clustered record lies from its set point, at most.
static const int32_t REACH[AXES] = {0, 500, 100, 300, 50};

static uint64_t state;

// SplitMix64.
static uint64_t mix(uint64_t x)
{
    x = (x ^ (x >> 30)) * 0xBF58476D1CE4E5B9u;
    x = (x ^ (x >> 27)) * 0x94D049BB133111EBu;
    return x ^ (x >> 31);
}

void random_seed(uint64_t seed)
{
    state = seed;
}

uint32_t random_below(uint32_t bound)
{
    state += 0x9E3779B97F4A7C15u;
    return (uint32_t)(mix(state) % bound);
}

static int32_t between(int32_t low, int32_t high)
{
    return low + (int32_t)random_below((uint32_t)(high - low + 1));
}

// The coordinate of a set point: fixed by its grade, its number and the axis, and so far inside that no record near it leaves the range.
static int32_t set_point(int32_t grade, uint32_t number, int axis)
{
    uint64_t width = (uint64_t)(HIGH[axis] - LOW[axis] - 2 * REACH[axis] + 1);
    uint64_t key = ((uint64_t)grade * SET_POINTS + number) * AXES + (uint64_t)axis;
    return LOW[axis] + REACH[axis] + (int32_t)(mix(key + 1) % width);
}

struct record random_record(enum spread spread, uint32_t grades)
{
    struct record r;
    int32_t grade = between(1, (int32_t)grades);
    uint32_t number = random_below(SET_POINTS);
    r.point.axis[0] = grade;
    for (int a = 1; a < AXES; a++) {
        int32_t centre = set_point(grade, number, a);
        int uniform = spread == UNIFORM;
        r.point.axis[a] = between(uniform ? LOW[a] : centre - REACH[a], uniform ? HIGH[a] : centre + REACH[a]);
    }
    r.curve = 1 + random_below(999999);
    return r;
}

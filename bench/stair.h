// The time of an audit, the busy case, and the stack of every call: on records of one grade that differ in weight alone, added in order of weight,
// which makes the deepest tree there is (a stair), or in a random order.
#ifndef STAIR_H
#define STAIR_H

#include "stack.h"

struct stair {
    double audit_ns;
    uint32_t busy_steps;
    double busy_ns;
    size_t used[ENTRIES];
};

enum order { BY_WEIGHT, SHUFFLED };

// A call at a record of a stair; and a search for a grade that has no record, and that is in one slot with the grade of the records: it excludes no
// side of a cut, and goes through the whole tree.
struct call stair_call(uint32_t kind, uint32_t weight);
struct call search_for_none(uint32_t weight);

// So many records in an index of as many places, audited; then eight searches of it in turn, calls of eight stations on it, and calls on words
// changed at random.
struct stair measure_stair(struct index index, uint32_t records, enum order order);

#endif

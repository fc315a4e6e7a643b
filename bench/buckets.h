// The other peer: the same records in an array for each grade, so that a call looks only at records of its own grade.
#ifndef BUCKETS_H
#define BUCKETS_H

#include "records.h"

#define MOST_GRADES 9999

// The records of one grade, with room for some more.
struct bucket {
    uint32_t held;
    uint32_t room;
    struct record *records;
};

// The buckets by grade; grades begin with 1.
struct buckets {
    enum rule rule;
    uint32_t places;
    uint32_t held;
    struct bucket of[MOST_GRADES + 1];
};

// No records, so many places for them, and the rule of their squares. The room of each bucket stays.
void buckets_empty(struct buckets *buckets, uint32_t places, enum rule rule);

// One call, answered at once.
struct answer buckets_call(struct buckets *buckets, struct call call);

#endif

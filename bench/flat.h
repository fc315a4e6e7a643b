// One peer: the same records in an array, which every call scans.
#ifndef FLAT_H
#define FLAT_H

#include "records.h"

#define MOST_PLACES 4096

struct flat {
    enum rule rule;
    uint32_t places;
    uint32_t held;
    struct record records[MOST_PLACES];
};

// One call, answered at once.
struct answer flat_call(struct flat *flat, struct call call);

#endif

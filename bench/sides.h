// The index and its two peers with the same records, and how they come to hold them.
#ifndef SIDES_H
#define SIDES_H

#include "buckets.h"
#include "flat.h"
#include "index.h"

// How the records come in: as they are drawn, in order of weight, or as they are drawn and then churned.
enum filling { AS_DRAWN, IN_ORDER, CHURNED };

// Where the targets of a nearest lie: as the records do, or so but for one in eight, which lies anywhere in the ranges.
enum targets { AS_RECORDS, SOME_ANYWHERE };
#define ONE_ANYWHERE_OF 8

// The records of an index: how many, of how many grades, where they lie and how they come in; where its targets lie; and the rule.
struct workload {
    const char *name;
    uint32_t places;
    uint32_t grades;
    enum spread spread;
    enum filling filling;
    enum targets targets;
    enum rule rule;
};

struct sides {
    struct index index;
    struct flat *flat;
    struct buckets *buckets;
    struct workload workload;
};

// Opens the index and fills all sides with the same records, as the workload says. The same workload gives the same records every time.
void fill(struct sides *sides);

// Removes so many of the records on all sides, so that as many places are free.
void thin(struct sides *sides, uint32_t removals);

// A record as the workload has them, and the target number n of a nearest.
struct record drawn_record(const struct sides *sides);
struct record drawn_target(const struct sides *sides, uint32_t n);

// One of the records held, and removals of eight different ones.
struct record held_record(const struct sides *sides);
void draw_removes(const struct sides *sides, struct call asked[STATIONS]);

// One call of station s from its submission to its taking, with nothing measured.
struct answer finish(struct index index, uint32_t s, struct call call);

// Ends the run with status 1 where the index answers otherwise than it should, by the word of a peer or of a rule.
void check(struct answer got, struct answer want, const char *by);

#endif

#include "sides.h"
#include <stdio.h>
#include <stdlib.h>

#define LIMIT 500000000u

// So many pairs of a remove and an add for each place make a churn.
#define CHURN 100

// The greatest moisture under rule 2.
#define MOST_DRY_MOISTURE 9999

void check(struct answer got, struct answer want, const char *by)
{
    int same = got.code == want.code && got.curve == want.curve && got.square == want.square;
    for (int k = 0; k < AXES; k++)
        same = same && got.point.axis[k] == want.point.axis[k];
    if (!same) {
        fprintf(stderr, "bench: the index answers %u with curve %u and square %llu, %s %u, %u, %llu\n", got.code, got.curve,
                (unsigned long long)got.square, by, want.code, want.curve, (unsigned long long)want.square);
        exit(1);
    }
}

struct answer finish(struct index index, uint32_t s, struct call call)
{
    submit(index, s, call);
    while (unfinished(index, s))
        step(index, s);
    return take(index, s);
}

// A record with a moisture that is in range under rule 2 too.
static struct record dried(struct record record, enum rule rule)
{
    if (rule == BY_DRY_WEIGHT && record.point.axis[2] > MOST_DRY_MOISTURE)
        record.point.axis[2] = MOST_DRY_MOISTURE;
    return record;
}

struct record drawn_record(const struct sides *sides)
{
    return dried(random_record(sides->workload.spread, sides->workload.grades), sides->workload.rule);
}

struct record drawn_target(const struct sides *sides, uint32_t n)
{
    int anywhere = sides->workload.targets == SOME_ANYWHERE && n % ONE_ANYWHERE_OF == 0;
    return dried(random_record(anywhere ? UNIFORM : sides->workload.spread, sides->workload.grades), sides->workload.rule);
}

struct record held_record(const struct sides *sides)
{
    return sides->flat->records[random_below(sides->flat->held)];
}

// Eight neighbours in the array: eight different records.
void draw_removes(const struct sides *sides, struct call asked[STATIONS])
{
    uint32_t first = random_below(sides->flat->held - STATIONS + 1);
    for (uint32_t s = 0; s < STATIONS; s++)
        asked[s] = (struct call){REMOVE, sides->flat->records[first + s]};
}

// One call on all sides.
static void everywhere(struct sides *sides, uint32_t s, struct call call)
{
    struct answer got = finish(sides->index, s, call);
    check(got, flat_call(sides->flat, call), "the flat scan");
    check(got, buckets_call(sides->buckets, call), "the buckets");
}

static int by_weight(const void *a, const void *b)
{
    int32_t one = ((const struct record *)a)->point.axis[1], other = ((const struct record *)b)->point.axis[1];
    return (one > other) - (one < other);
}

// As many records as there are places, all different, in the order in which they come in.
static void draw_all(const struct sides *sides, struct flat *drawn)
{
    drawn->places = sides->workload.places;
    drawn->held = 0;
    while (drawn->held < drawn->places)
        flat_call(drawn, (struct call){ADD, drawn_record(sides)});
    if (sides->workload.filling == IN_ORDER)
        qsort(drawn->records, drawn->held, sizeof drawn->records[0], by_weight);
}

// Each pair removes a record that is held and adds another, at one station after the other.
static void churn(struct sides *sides)
{
    for (uint32_t n = 0; n < CHURN * sides->workload.places; n++) {
        everywhere(sides, n % STATIONS, (struct call){REMOVE, held_record(sides)});
        everywhere(sides, n % STATIONS, (struct call){ADD, drawn_record(sides)});
    }
}

void thin(struct sides *sides, uint32_t removals)
{
    for (uint32_t n = 0; n < removals; n++)
        everywhere(sides, 0, (struct call){REMOVE, held_record(sides)});
}

static void empty(struct sides *sides)
{
    uint32_t places = sides->workload.places;
    sides->index.length = words_for(places);
    enum rule rule = sides->workload.rule;
    uint32_t refused = rule == BY_DRY_WEIGHT ? index_open_ruled(sides->index.words, sides->index.length, places, LIMIT, 1, 1, 1, 1, rule)
                                             : index_open(sides->index.words, sides->index.length, places, LIMIT);
    if (refused != 0)
        exit(1);
    sides->flat->rule = rule;
    sides->flat->places = places;
    sides->flat->held = 0;
    buckets_empty(sides->buckets, places, rule);
}

void fill(struct sides *sides)
{
    static struct flat drawn;
    random_seed(sides->workload.places);
    draw_all(sides, &drawn);
    empty(sides);
    for (uint32_t i = 0; i < drawn.held; i++)
        everywhere(sides, 0, (struct call){ADD, drawn.records[i]});
    if (sides->workload.filling == CHURNED)
        churn(sides);
}

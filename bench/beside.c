#include "beside.h"
#include "clock.h"
#include "stair.h"
#include <stdlib.h>

// The station that searches, and the one that adds and removes.
#define SEARCHER 0
#define OTHER 1

// The places left free: a removal under a search holds its place until the search is answered.
#define FREE 256

#define LIMIT 500000000u
#define HEAVIEST 100000

// The codes of answers.
#define ADDED 1
#define TAKEN_OUT 5
#define FOUND 8
#define NO_RECORD 9

// One step of the search, timed by itself; what reading the clock costs is taken off at the end.
static void own_step(struct index index, struct beside *beside)
{
    double begin = now();
    step(index, SEARCHER);
    beside->ns += now() - begin;
    beside->own++;
}

// One more call, which began when so many own steps had been made.
static void ended(struct beside *beside, uint64_t before)
{
    uint64_t own = beside->own - before;
    beside->calls++;
    beside->most = own > beside->most ? own : beside->most;
}

static struct beside less_readings(struct beside beside)
{
    beside.ns -= clock_cost() * (double)beside.own;
    return beside;
}

// The record is removed where it is held, else added. An add that finds no place leaves it removed, until the search is answered.
static int exchange(struct index index, struct record record, int held)
{
    uint32_t code = finish(index, OTHER, (struct call){held ? REMOVE : ADD, record}).code;
    return code == ADDED || code == TAKEN_OUT ? !held : held;
}

// A search finds what was held at its submission, whatever is done to that record meanwhile.
static void search(struct sides *sides, struct call call, int other, struct beside *beside)
{
    struct index index = sides->index;
    struct answer want = flat_call(sides->flat, call);
    struct record nearest = {want.point, want.curve};
    uint64_t before = beside->own;
    int held = 1;
    submit(index, SEARCHER, call);
    while (unfinished(index, SEARCHER)) {
        if (other && want.code == FOUND)
            held = exchange(index, nearest, held);
        own_step(index, beside);
    }
    check(take(index, SEARCHER), want, "the flat scan");
    if (!held)
        exchange(index, nearest, held);
    ended(beside, before);
}

struct beside measure_beside(struct sides *sides, uint32_t calls, int other)
{
    struct beside beside = {0, 0, 0, 0};
    fill(sides);
    thin(sides, FREE);
    for (uint32_t n = 0; n < calls; n++)
        search(sides, (struct call){NEAREST, drawn_target(sides, n)}, other, &beside);
    return less_readings(beside);
}

// Records added in order of weight: the lightest is the topmost leaf, and the near end of a heavy target is the deepest.
static void build(struct index index, uint32_t places)
{
    if (index_open(index.words, index.length, places, LIMIT) != 0)
        exit(1);
    for (uint32_t weight = 1; weight <= places; weight++)
        finish(index, OTHER, stair_call(ADD, weight));
}

// Whether at most three cuts are above a row. The calls do not tell where a search stands: the words of the index are read, as docs/LAYOUT.md lists
// them.
static int is_high(struct index index, uint32_t row)
{
    for (int n = 0; n < 4; n++)
        row = parent_of(index, row);
    return row == NONE;
}

// A step makes five moves and stands on a leaf after two of three of them on the way up, so that it stops at one of the last three leaves.
static void hold_up(struct index index)
{
    uint32_t row = cursor_of(index, SEARCHER);
    if (row != NONE && kind_of(index, row) == LEAF && is_high(index, row))
        finish(index, OTHER, (struct call){REMOVE, record_at(index, row)});
}

// How many own steps are allowed is not asked here: a library that allows more can be measured too.
struct beside measure_hold_up(struct index index, uint32_t places, int other)
{
    struct beside beside = {0, 0, 0, 0};
    struct call call = search_for_none(HEAVIEST);
    build(index, places);
    submit(index, SEARCHER, call);
    while (unfinished(index, SEARCHER)) {
        if (other)
            hold_up(index);
        own_step(index, &beside);
    }
    check(take(index, SEARCHER), (struct answer){NO_RECORD, call.record.point, 0, 0}, "a search for a grade without records must find");
    ended(&beside, 0);
    return less_readings(beside);
}

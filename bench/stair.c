#include "stair.h"
#include "clock.h"
#include "flat.h"
#include <stdio.h>
#include <stdlib.h>

#define ROUNDS 7
#define EVENTS 20000
#define DAMAGES 20000

// The words changed one after another before the index is audited and built anew.
#define AT_ONCE 20

// Mark, places and limit, and the factors: where one of these is out of range every call is refused with 4, so they stay.
#define OPENING_WORDS 3
#define FACTORS 48
#define FACTOR_WORDS 4
#define RULE 52
#define GRADE 12

// The set of grades of a cut has so many slots; grade g is in slot (g - 1) mod SLOTS.
#define SLOTS 127

// The places of the index whose words are changed; every measured one has as many.
#define FEW 256

struct call stair_call(uint32_t kind, uint32_t weight)
{
    return (struct call){kind, {{{GRADE, (int32_t)weight, 0, 0, 0}}, 1}};
}

struct call search_for_none(uint32_t weight)
{
    struct call call = stair_call(NEAREST, weight);
    call.record.point.axis[0] = GRADE + SLOTS;
    return call;
}

static void must(bool right, const char *what)
{
    if (!right) {
        fprintf(stderr, "bench: %s\n", what);
        exit(1);
    }
}

// The weights 1 to so many, each once.
static void draw_weights(uint32_t weights[], uint32_t records, enum order order)
{
    for (uint32_t k = 0; k < records; k++) {
        uint32_t j = order == SHUFFLED ? random_below(k + 1) : k;
        weights[k] = weights[j];
        weights[j] = k + 1;
    }
}

static void build(struct index index, uint32_t records, enum order order)
{
    static uint32_t weights[MOST_PLACES];
    draw_weights(weights, records, order);
    painted_open(index, records);
    for (uint32_t k = 0; k < records; k++) {
        painted_submit(index, 0, stair_call(ADD, weights[k]));
        must(painted_run(index, 0) == 0, "a run on a stair was refused");
        painted_take(index, 0);
    }
}

static double audit_time(struct index index)
{
    double best = 1e18;
    for (int round = 0; round < ROUNDS; round++) {
        double begin = now();
        bool sound = index_audit(index.words, index.length);
        double took = now() - begin;
        must(sound, "the audit of a stair says no");
        best = took < best ? took : best;
    }
    return best;
}

// A step of each station in turn: how many there are up to the first answer.
static uint32_t steps_in_turn(struct index index)
{
    uint32_t steps = 0;
    do
        step(index, steps % STATIONS);
    while (unfinished(index, steps++ % STATIONS));
    return steps;
}

// What is left of a call, and its taking.
static void end_call(struct index index, uint32_t s)
{
    while (unfinished(index, s))
        step(index, s);
    take(index, s);
}

// Such a search at every station, a step of each in turn; the least time up to the first answer counts.
static void busy_case(struct index index, uint32_t records, struct stair *stair)
{
    stair->busy_ns = 1e18;
    for (int round = 0; round < ROUNDS; round++) {
        for (uint32_t s = 0; s < STATIONS; s++)
            submit(index, s, search_for_none(1));
        double begin = now();
        stair->busy_steps = steps_in_turn(index);
        double took = now() - begin;
        must(stair->busy_steps <= 8 * records + 1, "nobody was answered in 8 steps for each place and one more");
        for (uint32_t s = 0; s < STATIONS; s++)
            end_call(index, s);
        stair->busy_ns = took < stair->busy_ns ? took : stair->busy_ns;
    }
}

// One call of some station: a submission, a taking, a report, a run or a withdrawal now and then, and mostly steps.
static void some_call(struct index index, uint32_t records)
{
    uint32_t s = random_below(STATIONS);
    switch (random_below(16)) {
    case 0:
    case 1:
    case 2:
        painted_submit(index, s, stair_call(1 + random_below(4), 1 + random_below(records)));
        break;
    case 3:
    case 4:
        painted_take(index, s);
        break;
    case 5:
        painted_report(index);
        break;
    case 6:
        painted_run(index, s);
        break;
    case 7:
        painted_withdraw(index, s);
        break;
    default:
        painted_step(index, s);
    }
}

// Whether question 4 asks for a word: mark, places and limit, the factors and the rule.
static bool asked_first(uint32_t at)
{
    return at < OPENING_WORDS || (FACTORS <= at && at < FACTORS + FACTOR_WORDS) || at == RULE;
}

// A word of the records or of some row of an index of FEW places becomes another; none that question 4 asks for.
static void damage(struct index index)
{
    uint32_t end = (uint32_t)words_for(random_below(2) ? 0 : FEW);
    uint32_t at;
    do
        at = random_below(end);
    while (asked_first(at));
    index.words[at] = random_below(2) ? random_below(64) : NONE;
}

// Calls on an index of FEW places in which words are changed.
static void damaged_calls(struct index index, enum order order)
{
    for (int n = 0; n < DAMAGES; n++) {
        if (n % AT_ONCE == 0) {
            painted_audit(index);
            build(index, FEW, order);
        }
        damage(index);
        some_call(index, FEW);
        must(index_report_number(index.words, index.length) == 0, "words changed at random are refused with 4");
    }
}

struct stair measure_stair(struct index index, uint32_t records, enum order order)
{
    struct stair stair;
    random_seed(records);
    paint();
    build(index, records, order);
    stair.audit_ns = audit_time(index);
    must(painted_audit(index), "the audit of a stair says no");
    busy_case(index, records, &stair);
    for (int n = 0; n < EVENTS; n++)
        some_call(index, records);
    must(painted_audit(index), "the audit after a history says no");
    damaged_calls(index, order);
    for (int entry = 0; entry < ENTRIES; entry++)
        stair.used[entry] = stack_used((enum entry)entry);
    return stair;
}

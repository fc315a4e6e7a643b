#include "singles.h"
#include "clock.h"

// The station that removes while the others search, and how many records it removes meanwhile.
#define REMOVER (STATIONS - 1)
#define REMOVALS STATIONS

// The steps that a nearest makes before it is taken back: few, so that hardly one is answered before.
#define STEPS_BEFORE 4

// The time of a call of station s, less what reading the clock cost right before it.
static double timed(void (*call)(struct index, uint32_t), struct index index, uint32_t s)
{
    double before = now();
    double begin = now();
    call(index, s);
    double end = now();
    return (end - begin) - (begin - before);
}

// One more call that was timed.
static void took(struct timings *timings, double time)
{
    uint32_t at = time <= 0 ? 0 : time >= LONGEST - 1 ? LONGEST - 1 : (uint32_t)time;
    timings->took[at]++;
    timings->count++;
}

uint32_t median(const struct timings *timings)
{
    uint64_t below = 0;
    for (uint32_t time = 0; time < LONGEST; time++) {
        below += timings->took[time];
        if (2 * below >= timings->count)
            return time;
    }
    return LONGEST;
}

// A step from a cut to a cut has read six rows.
static void walk_step(struct index index, struct timings *timings)
{
    uint32_t from = kind_of(index, cursor_of(index, 0));
    double time = timed(step, index, 0);
    if (from == CUT && unfinished(index, 0) && kind_of(index, cursor_of(index, 0)) == CUT)
        took(timings, time);
}

static void walk(struct index index, struct call call, struct timings *timings)
{
    submit(index, 0, call);
    while (unfinished(index, 0))
        walk_step(index, timings);
    take(index, 0);
}

struct timings measure_walks(struct sides *sides, uint32_t calls)
{
    struct timings timings = {0};
    for (uint32_t n = 0; n < calls; n++)
        walk(sides->index, (struct call){CONTAINS, held_record(sides)}, &timings);
    return timings;
}

// A step counts if it leaves the search unfinished, and if the search had missed a removed record before it, or had not, as asked.
static void search_step(struct index index, uint32_t s, int looks, struct timings *timings)
{
    int missed = missed_of(index, s) != NONE;
    double time = timed(step, index, s);
    if (missed == looks && unfinished(index, s))
        took(timings, time);
}

// The seven searches go one step each; gives whether any was unfinished.
static int round_of_steps(struct index index, int looks, struct timings *timings)
{
    int left = 0;
    for (uint32_t s = 0; s < REMOVER; s++)
        if (unfinished(index, s)) {
            search_step(index, s, looks, timings);
            left = 1;
        }
    return left;
}

static void submit_searches(struct sides *sides, uint32_t n)
{
    for (uint32_t s = 0; s < REMOVER; s++)
        submit(sides->index, s, (struct call){NEAREST, drawn_target(sides, n + s)});
}

static void take_searches(struct index index)
{
    for (uint32_t s = 0; s < REMOVER; s++)
        take(index, s);
}

// The seven searches to their ends. After each round of their steps the eighth station removes a record, up to so many in all; gives how many.
static uint32_t search_while(struct index index, const struct call removes[STATIONS], uint32_t removals, struct timings *timings)
{
    uint32_t gone = 0;
    while (round_of_steps(index, removals > 0, timings))
        if (gone < removals)
            finish(index, REMOVER, removes[gone++]);
    return gone;
}

static void add_again(struct index index, const struct call removes[STATIONS], uint32_t gone)
{
    for (uint32_t i = 0; i < gone; i++)
        finish(index, REMOVER, (struct call){ADD, removes[i].record});
}

static struct timings searches(struct sides *sides, uint32_t calls, uint32_t removals)
{
    struct timings timings = {0};
    for (uint32_t n = 0; n < calls; n += REMOVER) {
        struct call removes[STATIONS];
        draw_removes(sides, removes);
        submit_searches(sides, n);
        uint32_t gone = search_while(sides->index, removes, removals, &timings);
        take_searches(sides->index);
        add_again(sides->index, removes, gone);
    }
    return timings;
}

struct timings measure_looks(struct sides *sides, uint32_t calls)
{
    return searches(sides, calls, REMOVALS);
}

struct timings measure_searches(struct sides *sides, uint32_t calls)
{
    return searches(sides, calls, 0);
}

// A nearest is submitted, goes down the tree unless it is answered first, and is taken back. Its answer is 11 with the target, curve 0 and square 0.
static void search_and_withdraw(struct index index, struct call call, struct timings *timings)
{
    submit(index, 0, call);
    for (uint32_t k = 0; k < STEPS_BEFORE && unfinished(index, 0); k++)
        step(index, 0);
    if (!unfinished(index, 0)) {
        take(index, 0);
        return;
    }
    took(timings, timed(withdraw, index, 0));
    check(take(index, 0), (struct answer){WITHDRAWN, call.record.point, 0, 0}, "a withdrawal must leave");
}

struct timings measure_withdrawals(struct sides *sides, uint32_t calls)
{
    struct timings timings = {0};
    for (uint32_t n = 0; n < calls; n++)
        search_and_withdraw(sides->index, (struct call){NEAREST, drawn_target(sides, n)}, &timings);
    return timings;
}

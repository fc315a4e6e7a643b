#include "measure.h"
#include "clock.h"

static void submit_all(struct index index, const struct call calls[STATIONS])
{
    for (uint32_t s = 0; s < STATIONS; s++)
        submit(index, s, calls[s]);
}

// The steps of station s to its answer: how many there are.
static uint64_t step_to_end(struct index index, uint32_t s)
{
    uint64_t steps = 0;
    for (; unfinished(index, s); steps++)
        step(index, s);
    return steps;
}

static uint64_t step_all(struct index index)
{
    uint64_t steps = 0;
    for (uint32_t s = 0; s < STATIONS; s++)
        steps += step_to_end(index, s);
    return steps;
}

static void take_all(struct index index, struct answer answers[STATIONS])
{
    for (uint32_t s = 0; s < STATIONS; s++)
        answers[s] = take(index, s);
}

// A call at each station: all submitted, each stepped to its end, all taken.
static void index_batch(struct index index, const struct call calls[STATIONS], struct answer answers[STATIONS], struct times *times)
{
    double begin = now();
    submit_all(index, calls);
    double stepping = now();
    times->steps += step_all(index);
    double taking = now();
    take_all(index, answers);
    times->index += now() - begin;
    times->steps_alone += taking - stepping;
    times->calls += STATIONS;
}

static void flat_batch(struct flat *flat, const struct call calls[STATIONS], struct answer answers[STATIONS], struct times *times)
{
    double begin = now();
    for (uint32_t s = 0; s < STATIONS; s++)
        answers[s] = flat_call(flat, calls[s]);
    times->flat += now() - begin;
}

static void buckets_batch(struct buckets *buckets, const struct call calls[STATIONS], struct answer answers[STATIONS], struct times *times)
{
    double begin = now();
    for (uint32_t s = 0; s < STATIONS; s++)
        answers[s] = buckets_call(buckets, calls[s]);
    times->buckets += now() - begin;
}

// In a batch the index reads the clock three times after the first, of which one is among its steps, and each peer once.
struct times less_clock(struct times times)
{
    double cost = clock_cost() * (double)(times.calls / STATIONS);
    times.index -= 3 * cost;
    times.steps_alone -= cost;
    times.flat -= cost;
    times.buckets -= cost;
    return times;
}

static void batch(struct sides *sides, const struct call calls[STATIONS], struct times *times)
{
    struct answer got[STATIONS], flat[STATIONS], buckets[STATIONS];
    index_batch(sides->index, calls, got, times);
    flat_batch(sides->flat, calls, flat, times);
    buckets_batch(sides->buckets, calls, buckets, times);
    for (uint32_t s = 0; s < STATIONS; s++) {
        check(got[s], flat[s], "the flat scan");
        check(got[s], buckets[s], "the buckets");
    }
}

// Call number n of a kind that changes nothing. Every other contains asks for a record that is held.
static struct call drawn_reading(const struct sides *sides, uint32_t kind, uint32_t n)
{
    if (kind == NEAREST)
        return (struct call){kind, drawn_target(sides, n)};
    return (struct call){kind, n % 2 == 0 ? held_record(sides) : drawn_record(sides)};
}

static void draw_readings(const struct sides *sides, uint32_t kind, uint32_t n, struct call asked[STATIONS])
{
    for (uint32_t s = 0; s < STATIONS; s++)
        asked[s] = drawn_reading(sides, kind, n + s);
}

void measure_readings(struct sides *sides, uint32_t kind, uint32_t calls, struct times *times)
{
    struct call asked[STATIONS];
    for (uint32_t n = 0; n < calls; n += STATIONS) {
        draw_readings(sides, kind, n, asked);
        batch(sides, asked, times);
    }
}

static void draw_adds(const struct sides *sides, struct call asked[STATIONS])
{
    for (uint32_t s = 0; s < STATIONS; s++)
        asked[s] = (struct call){ADD, drawn_record(sides)};
}

// Eight records are removed, then eight others are added, so that the index stays full but for eight places.
void measure_changes(struct sides *sides, uint32_t calls, struct times *removes, struct times *adds)
{
    struct call asked[STATIONS];
    for (uint32_t n = 0; n < calls; n += STATIONS) {
        draw_removes(sides, asked);
        batch(sides, asked, removes);
        draw_adds(sides, asked);
        batch(sides, asked, adds);
    }
}

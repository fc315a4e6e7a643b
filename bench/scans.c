#include "scans.h"
#include "clock.h"
#include "records.h"
#include <stdio.h>
#include <stdlib.h>

#define WETTEST 10000u
#define BATCH 1000

// The peer: the last readings in a ring, with their sum kept. It asks nothing of its state.
struct ring {
    uint32_t length;
    uint32_t present;
    uint32_t next;
    uint32_t sum;
    uint32_t readings[LONGEST_WINDOW];
};

__attribute__((noinline)) static struct figures ring_update(struct ring *ring, uint32_t reading)
{
    if (ring->present == ring->length)
        ring->sum -= ring->readings[ring->next];
    else
        ring->present++;
    ring->readings[ring->next] = reading;
    ring->next = ring->next + 1 == ring->length ? 0 : ring->next + 1;
    ring->sum += reading;
    struct figures f = {0, ring->sum, reading, reading, 0};
    for (uint32_t i = 0; i < ring->present; i++) {
        f.least = ring->readings[i] < f.least ? ring->readings[i] : f.least;
        f.greatest = ring->readings[i] > f.greatest ? ring->readings[i] : f.greatest;
    }
    f.mean = (2 * f.sum + ring->present) / (2 * ring->present);
    return f;
}

static void check(struct figures got, struct figures want)
{
    if (got.number != want.number || got.sum != want.sum || got.least != want.least || got.greatest != want.greatest || got.mean != want.mean) {
        fprintf(stderr, "bench: the window tells %u: %u %u %u %u, the ring %u %u %u %u\n", got.number, got.sum, got.least, got.greatest, got.mean,
                want.sum, want.least, want.greatest, want.mean);
        exit(1);
    }
}

struct scan_times measure_scans(uint32_t length, uint32_t readings)
{
    struct window window = {0};
    struct ring ring = {.length = length};
    struct scan_times times = {0};
    static uint32_t drawn[BATCH];
    static struct figures got[BATCH], want[BATCH];
    random_seed(length);
    if (window_begin(&window, length) != 0)
        exit(1);
    for (uint32_t n = 0; n < readings; n += BATCH) {
        for (int i = 0; i < BATCH; i++)
            drawn[i] = random_below(WETTEST + 1);
        double begin = now();
        for (int i = 0; i < BATCH; i++)
            got[i] = window_update(&window, drawn[i]);
        double middle = now();
        for (int i = 0; i < BATCH; i++)
            want[i] = ring_update(&ring, drawn[i]);
        times.window += middle - begin;
        times.ring += now() - middle;
        for (int i = 0; i < BATCH; i++)
            check(got[i], want[i]);
    }
    return times;
}

// The window of moisture readings, beside a ring of the same readings.
#ifndef SCANS_H
#define SCANS_H

#include <stddef.h>
#include <stdint.h>

#define LONGEST_WINDOW 64

// The state of a window and the figures of its readings, as docs/LAYOUT.md lists them.
struct window {
    uint32_t length;
    uint32_t present;
    uint32_t readings[LONGEST_WINDOW];
};

struct figures {
    uint32_t number;
    uint32_t sum;
    uint32_t least;
    uint32_t greatest;
    uint32_t mean;
};

// The calls of crate window.
uint32_t window_begin(struct window *window, uint32_t length);
struct figures window_update(struct window *window, uint32_t reading);

// The times of some readings, in nanoseconds.
struct scan_times {
    double window;
    double ring;
};

// So many readings into a window of this length, and into the ring. Their figures must be the same.
struct scan_times measure_scans(uint32_t length, uint32_t readings);

#endif

// The clock by which everything is timed, in nanoseconds.
#ifndef CLOCK_H
#define CLOCK_H

double now(void);

// What one reading of the clock costs.
double clock_cost(void);

#endif

#include "index.h"
#include <stdio.h>
#include <stdlib.h>

#define COMMON 96
#define STATION 64
#define FIRST_ROW 608
#define ROW 16
#define UNFINISHED 1

// The least coordinate of each axis: words are distances from it.
static const int32_t LOW[AXES] = {1, 1, 0, 0, -2000};

// No call of the benchmark is refused.
static void accepted(uint32_t number, const char *what)
{
    if (number != 0) {
        fprintf(stderr, "bench: %s was refused with %u\n", what, number);
        exit(1);
    }
}

size_t words_for(uint32_t places)
{
    return FIRST_ROW + 2 * ROW * (size_t)places;
}

void submit(struct index index, uint32_t s, struct call call)
{
    const int32_t *p = call.record.point.axis;
    accepted(index_submit(index.words, index.length, s, call.kind, p[0], p[1], p[2], p[3], p[4], call.record.curve), "a submission");
}

void step(struct index index, uint32_t s)
{
    accepted(index_step(index.words, index.length, s), "a step");
}

void withdraw(struct index index, uint32_t s)
{
    accepted(index_withdraw(index.words, index.length, s), "a withdrawal");
}

static uint32_t *station(struct index index, uint32_t s)
{
    return index.words + COMMON + STATION * s;
}

static struct point point_from(const uint32_t *words)
{
    struct point point;
    for (int k = 0; k < AXES; k++)
        point.axis[k] = (int32_t)words[k] + LOW[k];
    return point;
}

struct answer take(struct index index, uint32_t s)
{
    struct answer a;
    const uint32_t *w = station(index, s) + 20;
    accepted(index_take(index.words, index.length, s), "a taking");
    a.code = w[0];
    a.point = point_from(w + 1);
    a.curve = w[6];
    a.square = w[7] + ((uint64_t)w[8] << 32);
    return a;
}

int unfinished(struct index index, uint32_t s)
{
    return *station(index, s) == UNFINISHED;
}

uint32_t cursor_of(struct index index, uint32_t s)
{
    return index.words[16 + s];
}

uint32_t missed_of(struct index index, uint32_t s)
{
    return index.words[40 + s];
}

static const uint32_t *words_of(struct index index, uint32_t row)
{
    return index.words + FIRST_ROW + ROW * (size_t)row;
}

uint32_t kind_of(struct index index, uint32_t row)
{
    return words_of(index, row)[0];
}

uint32_t parent_of(struct index index, uint32_t row)
{
    return row == NONE ? NONE : words_of(index, row)[1];
}

struct record record_at(struct index index, uint32_t row)
{
    const uint32_t *w = words_of(index, row);
    return (struct record){point_from(w + 4), w[9]};
}

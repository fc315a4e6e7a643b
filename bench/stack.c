#include "stack.h"
#include <stdint.h>
#include <string.h>
#include <ucontext.h>

#define SIZE (2u << 20)
#define PAINT 0xA5
#define LIMIT 500000000u

static unsigned char stacks[ENTRIES][SIZE];

// The call that is made: its arguments, and what it gave.
static struct {
    struct index index;
    uint32_t places;
    uint32_t s;
    struct call call;
    uint32_t number;
    bool sound;
    struct window *window;
    uint32_t length;
    uint32_t reading;
} made;

static ucontext_t here, there;

__attribute__((noinline)) static uint32_t nothing(uint32_t *words, size_t length)
{
    __asm__ volatile("" : : "r"(words), "r"(length));
    return 0;
}

static void make_nothing(void)
{
    made.number = nothing(made.index.words, made.index.length);
}

static void make_open(void)
{
    made.number = index_open(made.index.words, made.index.length, made.places, LIMIT);
}

static void make_submit(void)
{
    const int32_t *p = made.call.record.point.axis;
    made.number = index_submit(made.index.words, made.index.length, made.s, made.call.kind, p[0], p[1], p[2], p[3], p[4], made.call.record.curve);
}

static void make_step(void)
{
    made.number = index_step(made.index.words, made.index.length, made.s);
}

static void make_run(void)
{
    made.number = index_run(made.index.words, made.index.length, made.s);
}

static void make_take(void)
{
    made.number = index_take(made.index.words, made.index.length, made.s);
}

static void make_withdraw(void)
{
    made.number = index_withdraw(made.index.words, made.index.length, made.s);
}

static void make_report(void)
{
    made.number = (uint32_t)index_report(made.index.words, made.index.length);
}

static void make_audit(void)
{
    made.sound = index_audit(made.index.words, made.index.length);
}

static void make_window_begin(void)
{
    made.number = window_begin(made.window, made.length);
}

static void make_window_update(void)
{
    made.number = window_update(made.window, made.reading).number;
}

static void (*const MAKE[ENTRIES])(void) = {make_nothing,  make_open,   make_submit, make_step,         make_run,          make_take,
                                            make_withdraw, make_report, make_audit,  make_window_begin, make_window_update};

static void make(enum entry entry, struct index index)
{
    made.index = index;
    getcontext(&there);
    there.uc_stack.ss_sp = stacks[entry];
    there.uc_stack.ss_size = SIZE;
    there.uc_link = &here;
    makecontext(&there, MAKE[entry], 0);
    swapcontext(&here, &there);
}

void paint(void)
{
    memset(stacks, PAINT, sizeof stacks);
    make(NOTHING, (struct index){NULL, 0});
}

void painted_open(struct index index, uint32_t places)
{
    made.places = places;
    make(OPENING, index);
}

void painted_submit(struct index index, uint32_t s, struct call call)
{
    made.s = s;
    made.call = call;
    make(SUBMISSION, index);
}

void painted_step(struct index index, uint32_t s)
{
    made.s = s;
    make(STEP, index);
}

uint32_t painted_run(struct index index, uint32_t s)
{
    made.s = s;
    make(RUN, index);
    return made.number;
}

void painted_take(struct index index, uint32_t s)
{
    made.s = s;
    make(TAKING, index);
}

void painted_withdraw(struct index index, uint32_t s)
{
    made.s = s;
    make(WITHDRAWAL, index);
}

void painted_report(struct index index)
{
    make(REPORT, index);
}

bool painted_audit(struct index index)
{
    make(AUDIT, index);
    return made.sound;
}

static void painted_update(struct window *window, uint32_t reading)
{
    made.window = window;
    made.reading = reading;
    make(WINDOW_UPDATE, (struct index){NULL, 0});
}

// A copy of the window with one number of its state changed.
static void changed_update(struct window window, size_t at, uint32_t number)
{
    ((uint32_t *)&window)[at] = number;
    painted_update(&window, number);
}

void paint_scans(uint32_t length)
{
    struct window window = {0};
    paint();
    made.window = &window;
    made.length = length;
    make(WINDOW_BEGIN, (struct index){NULL, 0});
    for (uint32_t n = 0; n < 3 * LONGEST_WINDOW; n++)
        painted_update(&window, n * 100);
    for (size_t at = 0; at < sizeof window / sizeof(uint32_t); at++)
        changed_update(window, at, NONE);
    made.length = LONGEST_WINDOW + 1;
    make(WINDOW_BEGIN, (struct index){NULL, 0});
}

static size_t below_paint(enum entry entry)
{
    size_t i = 0;
    while (i < SIZE && stacks[entry][i] == PAINT)
        i++;
    return SIZE - i;
}

size_t stack_used(enum entry entry)
{
    size_t used = below_paint(entry), nothing_used = below_paint(NOTHING);
    return used > nothing_used ? used - nothing_used : 0;
}

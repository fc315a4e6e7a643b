// The benchmark: an index beside a flat scan and buckets of the same records, single calls of it, a nearest beside another station, its audit, its
// busy case and its stack; and a window of moisture readings beside a ring. All in one run.
#define _GNU_SOURCE
#include "beside.h"
#include "measure.h"
#include "scans.h"
#include "singles.h"
#include "stack.h"
#include "stair.h"
#include <sched.h>
#include <stdio.h>
#include <stdlib.h>
#include <string.h>

#define CALLS 10000
#define SINGLE_CALLS 10000
#define CALLS_BESIDE 2000
#define READINGS 100000
#define ROUNDS 7
#define KINDS 4
#define COUNT(array) (sizeof(array) / sizeof(array)[0])

static const char *const NAMES[KINDS] = {"nearest", "contains", "remove", "add"};

static const uint32_t SIZES[] = {256, MOST_PLACES};

// The workloads of each size; a size puts its places in.
static const struct workload WORKLOADS[] = {
    {"uniform", 0, 1, UNIFORM, AS_DRAWN, AS_RECORDS, BY_COORDINATES},
    {"clustered", 0, 1, CLUSTERED, AS_DRAWN, AS_RECORDS, BY_COORDINATES},
    {"uniform", 0, 40, UNIFORM, AS_DRAWN, AS_RECORDS, BY_COORDINATES},
    {"clustered", 0, 40, CLUSTERED, AS_DRAWN, AS_RECORDS, BY_COORDINATES},
    {"uniform", 0, 1000, UNIFORM, AS_DRAWN, AS_RECORDS, BY_COORDINATES},
    {"clustered", 0, 1000, CLUSTERED, AS_DRAWN, AS_RECORDS, BY_COORDINATES},
    {"clustered, some targets anywhere", 0, 40, CLUSTERED, AS_DRAWN, SOME_ANYWHERE, BY_COORDINATES},
    {"uniform, added by weight", 0, 40, UNIFORM, IN_ORDER, AS_RECORDS, BY_COORDINATES},
    {"uniform, after churn", 0, 40, UNIFORM, CHURNED, AS_RECORDS, BY_COORDINATES},
    {"uniform, by dry weight", 0, 40, UNIFORM, AS_DRAWN, AS_RECORDS, BY_DRY_WEIGHT},
    {"clustered, by dry weight", 0, 40, CLUSTERED, AS_DRAWN, AS_RECORDS, BY_DRY_WEIGHT},
};

// The workload of the single calls.
static const struct workload SINGLES = {"uniform", MOST_PLACES, 40, UNIFORM, AS_DRAWN, AS_RECORDS, BY_COORDINATES};

// The workloads of a nearest beside another station.
static const struct workload BESIDE[] = {
    {"uniform", MOST_PLACES, 1, UNIFORM, AS_DRAWN, AS_RECORDS, BY_COORDINATES},
    {"clustered", MOST_PLACES, 1, CLUSTERED, AS_DRAWN, AS_RECORDS, BY_COORDINATES},
    {"uniform", MOST_PLACES, 40, UNIFORM, AS_DRAWN, AS_RECORDS, BY_COORDINATES},
    {"clustered", MOST_PLACES, 40, CLUSTERED, AS_DRAWN, AS_RECORDS, BY_COORDINATES},
};

// A number as the tables show it.
struct shown {
    char text[40];
};

// With so many decimals, and the digits before the point in threes.
static struct shown figure(double number, int decimals)
{
    char plain[30];
    struct shown shown = {""};
    snprintf(plain, sizeof plain, "%.*f", decimals, number);
    size_t whole = strcspn(plain, ".");
    for (size_t i = 0, at = 0; plain[i] != 0 && at + 2 < sizeof shown.text; i++) {
        if (i > 0 && i < whole && (whole - i) % 3 == 0)
            shown.text[at++] = ',';
        shown.text[at++] = plain[i];
    }
    return shown;
}

static double least(double a, double b)
{
    return a < b ? a : b;
}

// Every round makes the same calls, so the least time of each is the one with the least disturbance.
static void keep_least(struct times *best, struct times times, int round)
{
    if (round == 0) {
        *best = times;
        return;
    }
    best->index = least(best->index, times.index);
    best->steps_alone = least(best->steps_alone, times.steps_alone);
    best->flat = least(best->flat, times.flat);
    best->buckets = least(best->buckets, times.buckets);
}

static void one_round(struct sides *sides, struct times best[KINDS], int round)
{
    struct times times[KINDS] = {{0}};
    fill(sides);
    measure_readings(sides, NEAREST, CALLS, &times[0]);
    measure_readings(sides, CONTAINS, CALLS, &times[1]);
    measure_changes(sides, CALLS, &times[2], &times[3]);
    for (int kind = 0; kind < KINDS; kind++)
        keep_least(&best[kind], times[kind], round);
}

static void print_times(const struct workload *workload, int kind, struct times t)
{
    printf("| %s | %s | %s | %s | %s | %s | %s | %s |\n", figure(workload->places, 0).text, figure(workload->grades, 0).text, workload->name,
           NAMES[kind], figure((double)t.steps / (double)t.calls, 1).text, figure(t.index / t.flat, 2).text, figure(t.index / t.buckets, 2).text,
           figure(t.steps_alone / (double)t.steps, 0).text);
}

static void calls_of(struct sides *sides)
{
    struct times best[KINDS];
    for (int round = 0; round < ROUNDS; round++)
        one_round(sides, best, round);
    for (int kind = 0; kind < KINDS; kind++)
        print_times(&sides->workload, kind, less_clock(best[kind]));
}

static void whole_calls(struct sides *sides)
{
    printf("| places | grades | records | call | steps | index / flat | index / buckets | ns per step |\n|---|---|---|---|---|---|---|---|\n");
    for (size_t i = 0; i < COUNT(SIZES) * COUNT(WORKLOADS); i++) {
        sides->workload = WORKLOADS[i % COUNT(WORKLOADS)];
        sides->workload.places = SIZES[i / COUNT(WORKLOADS)];
        // An earlier index that is measured in turns with this one may know no rule.
        if (sides->workload.rule == BY_COORDINATES || index_open_ruled)
            calls_of(sides);
    }
}

// The least median of the rounds. A rule by which no call was timed says nothing, and ends the run.
static void singles_of(struct sides *sides, const char *name, struct timings (*measure)(struct sides *, uint32_t))
{
    uint32_t best = LONGEST;
    uint64_t count = 0;
    for (int round = 0; round < ROUNDS; round++) {
        fill(sides);
        struct timings timings = measure(sides, SINGLE_CALLS);
        best = median(&timings) < best ? median(&timings) : best;
        count = timings.count;
    }
    if (count == 0) {
        fprintf(stderr, "bench: there were no %s\n", name);
        exit(1);
    }
    printf("| %s | %s | %s |\n", name, figure((double)count, 0).text, figure(best, 0).text);
}

static void single_calls(struct sides *sides)
{
    printf("\n| single calls, 4,096 places, 40 grades, uniform | timed | ns, the median |\n|---|---|---|\n");
    sides->workload = SINGLES;
    singles_of(sides, "walk steps of six rows (add, remove, contains)", measure_walks);
    singles_of(sides, "search steps that look at a removed record first (nearest)", measure_looks);
    singles_of(sides, "search steps with nothing missed (nearest)", measure_searches);
    singles_of(sides, "withdrawals of a nearest", measure_withdrawals);
}

// Whatever the others do, five times the own steps that do not answer are at most nine times the places; one more answers.
static void print_beside(uint32_t places, uint32_t grades, const char *records, const char *other, struct beside b)
{
    printf("| %s | %s | %s | %s | %s | %s | %s | %s | %s | %s |\n", figure(places, 0).text, figure(grades, 0).text, records, other,
           figure((double)b.calls, 0).text, figure((double)b.own / (double)b.calls, 1).text, figure((double)b.most, 0).text,
           figure(9 * places / 5 + 1, 0).text, figure(b.ns / (double)b.own, 0).text, figure(b.ns / (double)b.calls / 1e3, 1).text);
}

// The round with the least time.
static void beside_of(struct sides *sides, int other)
{
    struct beside best = measure_beside(sides, CALLS_BESIDE, other);
    for (int round = 1; round < ROUNDS; round++)
        best.ns = least(best.ns, measure_beside(sides, CALLS_BESIDE, other).ns);
    print_beside(sides->workload.places, sides->workload.grades, sides->workload.name,
                 other ? "removes the nearest record and adds it again" : "idle", best);
}

static void hold_up_of(struct index index, uint32_t places, int other)
{
    index.length = words_for(places);
    struct beside best = measure_hold_up(index, places, other);
    for (int round = 1; round < ROUNDS; round++)
        best.ns = least(best.ns, measure_hold_up(index, places, other).ns);
    print_beside(places, 1, "one grade, added by weight", other ? "removes the leaf under the search near the top" : "idle", best);
}

static void beside_others(struct sides *sides)
{
    printf("\n| places | grades | records | the other station | nearest calls | own steps | the most of a call | allowed | ns per own step | "
           "µs of own steps a call |\n|---|---|---|---|---|---|---|---|---|---|\n");
    for (size_t i = 0; i < 2 * COUNT(BESIDE); i++) {
        sides->workload = BESIDE[i / 2];
        beside_of(sides, i % 2);
    }
    for (size_t i = 0; i < 2 * COUNT(SIZES); i++)
        hold_up_of(sides->index, SIZES[i / 2], i % 2);
}

static void print_stair(uint32_t records, enum order order, struct stair stair)
{
    const size_t *u = stair.used;
    printf("| %s | %s | %s | %s | %s |", figure(records, 0).text, order == BY_WEIGHT ? "by weight" : "shuffled", figure(stair.audit_ns / 1e6, 2).text,
           figure(stair.busy_steps, 0).text, figure(stair.busy_ns / 1e6, 2).text);
    printf(" %zu | %zu | %zu | %zu | %zu | %zu | %zu | %zu |\n", u[OPENING], u[SUBMISSION], u[STEP], u[RUN], u[TAKING], u[WITHDRAWAL], u[REPORT],
           u[AUDIT]);
}

static void stairs(struct index index)
{
    static const struct {
        uint32_t records;
        enum order order;
    } rows[] = {{256, BY_WEIGHT}, {1024, BY_WEIGHT}, {MOST_PLACES, BY_WEIGHT}, {MOST_PLACES, SHUFFLED}};
    printf("\n| records | added | audit, ms | steps of eight searches in turn, up to the first answer | their ms | bytes of stack: open | submit | "
           "step | run | take | withdraw | report | audit |\n|---|---|---|---|---|---|---|---|---|---|---|---|---|\n");
    for (size_t i = 0; i < COUNT(rows); i++) {
        index.length = words_for(rows[i].records);
        print_stair(rows[i].records, rows[i].order, measure_stair(index, rows[i].records, rows[i].order));
    }
}

static struct scan_times scans_of(uint32_t length)
{
    struct scan_times best = measure_scans(length, READINGS);
    for (int round = 1; round < ROUNDS; round++) {
        struct scan_times times = measure_scans(length, READINGS);
        best.window = least(best.window, times.window);
        best.ring = least(best.ring, times.ring);
    }
    return best;
}

static void scans(void)
{
    static const uint32_t lengths[] = {1, 12, LONGEST_WINDOW};
    printf("\n| length of the window | ns a reading | ring, ns | window / ring | bytes of stack: window_begin | window_update |\n"
           "|---|---|---|---|---|---|\n");
    for (size_t i = 0; i < COUNT(lengths); i++) {
        struct scan_times t = scans_of(lengths[i]);
        paint_scans(lengths[i]);
        printf("| %u | %.0f | %.1f | %.1f | %zu | %zu |\n", lengths[i], t.window / READINGS, t.ring / READINGS, t.window / t.ring,
               stack_used(WINDOW_BEGIN), stack_used(WINDOW_UPDATE));
    }
}

// One processor throughout: the clocks of two may differ.
static void stay_here(void)
{
    cpu_set_t here;
    CPU_ZERO(&here);
    CPU_SET((size_t)sched_getcpu(), &here);
    sched_setaffinity(0, sizeof here, &here);
}

int main(void)
{
    static struct flat flat;
    static struct buckets buckets;
    struct sides sides = {{calloc(words_for(MOST_PLACES), sizeof(uint32_t)), 0}, &flat, &buckets, SINGLES};
    if (sides.index.words == NULL)
        return 1;
    stay_here();
    whole_calls(&sides);
    single_calls(&sides);
    beside_others(&sides);
    stairs(sides.index);
    scans();
    free(sides.index.words);
    return 0;
}

#include "buckets.h"
#include "points.h"
#include <stdlib.h>

// The room of a bucket that gets its first record; it doubles when it is used up.
#define FIRST_ROOM 4

void buckets_empty(struct buckets *buckets, uint32_t places, enum rule rule)
{
    buckets->rule = rule;
    buckets->places = places;
    buckets->held = 0;
    for (int grade = 0; grade <= MOST_GRADES; grade++)
        buckets->of[grade].held = 0;
}

static struct bucket *bucket_of(struct buckets *buckets, const struct point *point)
{
    return &buckets->of[point->axis[0]];
}

// The place of the record with the point in its bucket, or the number of records held there.
static uint32_t find(const struct bucket *bucket, const struct point *point)
{
    for (uint32_t i = 0; i < bucket->held; i++)
        if (same_point(&bucket->records[i].point, point))
            return i;
    return bucket->held;
}

static struct answer nearest(const struct bucket *bucket, enum rule rule, struct point target)
{
    struct answer best = {9, target, 0, 0};
    for (uint32_t i = 0; i < bucket->held; i++) {
        const struct record *r = &bucket->records[i];
        uint64_t s = square_by(rule, &r->point, &target);
        if (best.code == 9 || s < best.square || (s == best.square && wins(&r->point, &best.point)))
            best = (struct answer){8, r->point, r->curve, s};
    }
    return best;
}

static void make_room(struct bucket *bucket)
{
    if (bucket->held < bucket->room)
        return;
    bucket->room = bucket->room == 0 ? FIRST_ROOM : 2 * bucket->room;
    bucket->records = realloc(bucket->records, bucket->room * sizeof *bucket->records);
    if (bucket->records == NULL)
        exit(1);
}

static struct answer add(struct buckets *buckets, struct bucket *bucket, struct record record)
{
    uint32_t i = find(bucket, &record.point);
    if (i < bucket->held)
        return (struct answer){2, record.point, bucket->records[i].curve, 0};
    if (buckets->held == buckets->places)
        return (struct answer){3, record.point, 0, 0};
    make_room(bucket);
    bucket->records[bucket->held++] = record;
    buckets->held++;
    return (struct answer){1, record.point, record.curve, 0};
}

// The last record of the bucket takes the place of the removed one.
static struct answer removal(struct buckets *buckets, struct bucket *bucket, struct point point)
{
    uint32_t i = find(bucket, &point);
    if (i == bucket->held)
        return (struct answer){6, point, 0, 0};
    uint32_t curve = bucket->records[i].curve;
    bucket->records[i] = bucket->records[--bucket->held];
    buckets->held--;
    return (struct answer){5, point, curve, 0};
}

static struct answer contains(const struct bucket *bucket, struct point point)
{
    uint32_t i = find(bucket, &point);
    if (i == bucket->held)
        return (struct answer){6, point, 0, 0};
    return (struct answer){7, point, bucket->records[i].curve, 0};
}

struct answer buckets_call(struct buckets *buckets, struct call call)
{
    struct bucket *bucket = bucket_of(buckets, &call.record.point);
    switch (call.kind) {
    case ADD:
        return add(buckets, bucket, call.record);
    case REMOVE:
        return removal(buckets, bucket, call.record.point);
    case CONTAINS:
        return contains(bucket, call.record.point);
    default:
        return nearest(bucket, buckets->rule, call.record.point);
    }
}

#include "flat.h"
#include "points.h"

// The place of the record with the point, or the number of records held.
static uint32_t find(const struct flat *flat, const struct point *point)
{
    for (uint32_t i = 0; i < flat->held; i++)
        if (same_point(&flat->records[i].point, point))
            return i;
    return flat->held;
}

static struct answer nearest(const struct flat *flat, struct point target)
{
    struct answer best = {9, target, 0, 0};
    for (uint32_t i = 0; i < flat->held; i++) {
        const struct record *r = &flat->records[i];
        if (r->point.axis[0] != target.axis[0])
            continue;
        uint64_t s = square_by(flat->rule, &r->point, &target);
        if (best.code == 9 || s < best.square || (s == best.square && wins(&r->point, &best.point)))
            best = (struct answer){8, r->point, r->curve, s};
    }
    return best;
}

static struct answer add(struct flat *flat, struct record record)
{
    uint32_t i = find(flat, &record.point);
    if (i < flat->held)
        return (struct answer){2, record.point, flat->records[i].curve, 0};
    if (flat->held == flat->places)
        return (struct answer){3, record.point, 0, 0};
    flat->records[flat->held++] = record;
    return (struct answer){1, record.point, record.curve, 0};
}

// The last record takes the place of the removed one.
static struct answer removal(struct flat *flat, struct point point)
{
    uint32_t i = find(flat, &point);
    if (i == flat->held)
        return (struct answer){6, point, 0, 0};
    uint32_t curve = flat->records[i].curve;
    flat->records[i] = flat->records[--flat->held];
    return (struct answer){5, point, curve, 0};
}

static struct answer contains(const struct flat *flat, struct point point)
{
    uint32_t i = find(flat, &point);
    if (i == flat->held)
        return (struct answer){6, point, 0, 0};
    return (struct answer){7, point, flat->records[i].curve, 0};
}

struct answer flat_call(struct flat *flat, struct call call)
{
    switch (call.kind) {
    case ADD:
        return add(flat, call.record);
    case REMOVE:
        return removal(flat, call.record.point);
    case CONTAINS:
        return contains(flat, call.record.point);
    default:
        return nearest(flat, call.record.point);
    }
}

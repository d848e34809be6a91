/* What the C programs share: the dice, the plans, the clock. The plans are those of crates/bench/src/plan.rt. */
#ifndef WORK_H
#define WORK_H

#include <stdint.h>
#include <stdio.h>
#include <stdlib.h>
#include <string.h>
#include <time.h>

enum { ROUNDS = 40 };

typedef enum { ALONE, WIDE, CHAINS } Shape;

typedef struct {
    const char *name;
    Shape shape;
    uint32_t records, room, reads, every, turns, days;
} Plan;

static const Plan PLANS[] = {
    {"alone", ALONE, 256, 2048, 4, 1, 1792, 16},
    {"wide", WIDE, 256, 2048, 4, 1, 112, 16},
    {"crowded", WIDE, 4, 2048, 4, 1, 112, 16},
    {"chains", CHAINS, 4, 2048, 1000, 1, 2044, 1},
    {"full-day", ALONE, 256, 2048, 2, 4, 4000, 8},
};

static const Plan SCALES[] = {
    {"room-512", ALONE, 256, 512, 4, 1, 256, 64},
    {"room-1024", ALONE, 256, 1024, 4, 1, 768, 32},
    {"reads-1", ALONE, 256, 2048, 1, 1, 1792, 16},
    {"reads-16", ALONE, 256, 2048, 16, 1, 1792, 16},
    {"reads-32", ALONE, 256, 2048, 32, 1, 1792, 16},
    {"reads-64", ALONE, 256, 2048, 64, 1, 1792, 16},
    {"chains-0", CHAINS, 4, 2048, 1000, 1, 0, 1},
    {"chains-16", CHAINS, 4, 2048, 1000, 1, 64, 1},
    {"chains-128", CHAINS, 4, 2048, 1000, 1, 512, 1},
    {"commits-500", ALONE, 256, 2048, 2, 4, 500, 64},
    {"commits-1000", ALONE, 256, 2048, 2, 4, 1000, 32},
    {"commits-2000", ALONE, 256, 2048, 2, 4, 2000, 16},
};

#define COUNT(a) (sizeof(a) / sizeof((a)[0]))

static inline uint32_t roll(uint32_t *seed)
{
    *seed = *seed * 1664525u + 1013904223u;
    return *seed >> 8;
}

static inline uint64_t nanos(void)
{
    struct timespec t;
    clock_gettime(CLOCK_MONOTONIC, &t);
    return (uint64_t)t.tv_sec * 1000000000u + (uint64_t)t.tv_nsec;
}

static inline uint64_t units(const Plan *p)
{
    uint64_t each = p->turns;
    if (p->shape == WIDE)
        each *= 16;
    if (p->shape == CHAINS)
        each = (uint64_t)p->reads * p->records;
    each *= p->days;
    return each ? each : 1;
}

static inline void tell_time(const Plan *p, const char *kind, uint64_t best, uint32_t sum)
{
    uint64_t tenths = best * 10 / units(p);
    printf("%s %s %llu.%llu %u\n", p->name, kind, (unsigned long long)(tenths / 10), (unsigned long long)(tenths % 10), sum);
}

#endif

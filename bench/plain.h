/* The days of one console over a table of entries that has get and put inside transactions, checked against an array.
 * The program that includes this gives begin, get, put and commit. It keeps no versions, no marks and no rank, and
 * begins a day by setting every entry to 0. */
#include "work.h"

static void begin(void);
static uint32_t get(uint32_t at);
static void put(uint32_t at, uint32_t entry);
static void commit(void);

static void die(const char *what)
{
    fprintf(stderr, "%s\n", what);
    exit(1);
}

static void fresh(uint32_t records)
{
    begin();
    for (uint32_t at = 0; at < records; at++)
        put(at, 0);
    commit();
}

static uint32_t run_day(const Plan *p, uint32_t *seed, uint32_t sum)
{
    for (uint32_t turn = 0; turn < p->turns; turn++) {
        begin();
        for (uint32_t i = 0; i < p->reads; i++)
            sum = sum * 31 + get(roll(seed) & (p->records - 1));
        if ((turn & (p->every - 1)) == 0)
            put(roll(seed) & (p->records - 1), turn);
        commit();
    }
    return sum;
}

static uint32_t expected(const Plan *p, uint32_t count)
{
    uint32_t seed = 1, sum = 0;
    for (uint32_t d = 0; d < count; d++) {
        uint32_t entries[256] = {0};
        for (uint32_t turn = 0; turn < p->turns; turn++) {
            for (uint32_t i = 0; i < p->reads; i++)
                sum = sum * 31 + entries[roll(&seed) & (p->records - 1)];
            if ((turn & (p->every - 1)) == 0)
                entries[roll(&seed) & (p->records - 1)] = turn;
        }
    }
    return sum;
}

/* The fastest of a few rounds of one day each. */
static void plain(const Plan *given)
{
    if (given->shape != ALONE)
        return;
    Plan p = *given;
    p.days = 1;
    uint64_t best = UINT64_MAX;
    uint32_t sum = 0;
    for (int r = 0; r < 20; r++) {
        uint32_t seed = 1;
        fresh(p.records);
        uint64_t start = nanos();
        sum = run_day(&p, &seed, 0);
        uint64_t took = nanos() - start;
        if (took < best)
            best = took;
        if (sum != expected(&p, 1))
            die("wrong entries were read");
    }
    tell_time(&p, "plain", best, sum);
}

static void all(void)
{
    for (size_t i = 0; i < COUNT(PLANS); i++)
        plain(&PLANS[i]);
    for (size_t i = 0; i < COUNT(SCALES); i++)
        plain(&SCALES[i]);
}

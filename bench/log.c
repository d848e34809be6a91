/* A plain log in C: the same calls, checks and answers as the proved one, laid out as a C programmer would who knows
 * that a version's number is its place, that all numbers but entries fit 16 bits, and that a low mark is never 0. */
#include "work.h"

enum { CONSOLES = 16, NOTES = 64, WRITES = 16, DAY = 4000, SHUT = 0xffff, NONE = 0xffff };

enum {
    NO_CONSOLE = 1, NO_RECORD, NOT_OPEN, OPEN, READS, TOO_MANY_WRITES, HELD, STALE, NO_ROOM, DAY_FULL, UNSAFE, TABLE
};

typedef struct {
    uint32_t entry;
    uint16_t stamp, older; /* older: the version that it overwrote */
    uint16_t high, low;    /* low: 0 while it is not overwritten */
} Version;

typedef struct {
    uint32_t entry;
    uint16_t at, over;
} Pending;

typedef struct {
    uint16_t began; /* SHUT while nothing is open */
    uint16_t notes, writes;
    uint16_t noted[NOTES];
    Pending pending[WRITES];
} Console;

typedef struct {
    uint8_t console, place; /* true only if the entry there is of this record */
} Hold;

typedef struct {
    uint32_t records, room, versions, pending;
    uint16_t clock;
    uint8_t snapshot;
    uint16_t newest[256];
    Hold holds[256];
    Console consoles[CONSOLES];
    uint16_t latest[DAY + 1], earlier[DAY + 1]; /* the commits by low mark, each to the one before */
    Version table[];
} Log;

typedef struct {
    uint32_t own, number, entry;
    uint16_t stamp;
} Seen;

typedef struct {
    uint16_t stamp, low, high;
} Grant;

static Log *log_open(uint32_t records, uint32_t room, uint32_t first, int snapshot)
{
    if (records < 1 || records > 256 || room < records || room > 2048)
        return NULL;
    Log *l = malloc(sizeof *l + room * sizeof(Version));
    if (!l)
        return NULL;
    l->records = l->versions = records;
    l->room = room;
    l->pending = 0;
    l->clock = 0;
    l->snapshot = snapshot;
    for (uint32_t r = 0; r < records; r++) {
        l->table[r] = (Version){.entry = first, .older = NONE};
        l->newest[r] = r;
        l->holds[r] = (Hold){0, 0};
    }
    for (int c = 0; c < CONSOLES; c++) {
        l->consoles[c].began = SHUT;
        l->consoles[c].notes = l->consoles[c].writes = 0;
    }
    memset(l->latest, 0, sizeof l->latest);
    memset(l->earlier, 0, sizeof l->earlier);
    return l;
}

static int log_begin(Log *l, uint32_t console, uint16_t *stamp)
{
    if (console >= CONSOLES)
        return NO_CONSOLE;
    Console *c = &l->consoles[console];
    if (c->began != SHUT)
        return OPEN;
    c->began = *stamp = l->clock;
    return 0;
}

/* The record's pending entry, if it has one, and whose it is. */
static Pending *find(Log *l, uint32_t at, uint32_t *whose)
{
    Hold h = l->holds[at];
    Console *c = &l->consoles[h.console];
    if (h.place >= c->writes || c->pending[h.place].at != at)
        return NULL;
    *whose = h.console;
    return &c->pending[h.place];
}

static int note(Console *c, uint16_t n)
{
    int found = 0;
    for (uint32_t i = 0; i < c->notes; i++)
        found |= c->noted[i] == n;
    if (found)
        return 1;
    if (c->notes == NOTES)
        return 0;
    c->noted[c->notes++] = n;
    return 1;
}

static int log_read(Log *l, uint32_t console, uint32_t at, Seen *seen)
{
    if (console >= CONSOLES)
        return NO_CONSOLE;
    Console *c = &l->consoles[console];
    if (c->began == SHUT)
        return NOT_OPEN;
    if (at >= l->records)
        return NO_RECORD;
    if (c->writes) {
        uint32_t whose;
        Pending *p = find(l, at, &whose);
        if (p && whose == console) {
            *seen = (Seen){.own = 1, .entry = p->entry};
            return 0;
        }
    }
    uint16_t n = l->newest[at];
    if (l->snapshot)
        while (l->table[n].stamp > c->began && l->table[n].older != NONE)
            n = l->table[n].older;
    if (!note(c, n))
        return READS;
    *seen = (Seen){.number = n, .entry = l->table[n].entry, .stamp = l->table[n].stamp};
    return 0;
}

static int log_write(Log *l, uint32_t console, uint32_t at, uint32_t entry, uint32_t *over)
{
    if (console >= CONSOLES)
        return NO_CONSOLE;
    Console *c = &l->consoles[console];
    if (c->began == SHUT)
        return NOT_OPEN;
    if (at >= l->records)
        return NO_RECORD;
    uint32_t whose;
    Pending *p = find(l, at, &whose);
    if (p && whose == console) {
        p->entry = entry;
        *over = l->newest[at];
        return 0;
    }
    if (c->writes == WRITES)
        return TOO_MANY_WRITES;
    if (p)
        return HELD;
    if (l->snapshot && l->table[l->newest[at]].stamp > c->began)
        return STALE;
    if (l->versions + l->pending >= l->room)
        return NO_ROOM;
    l->holds[at] = (Hold){console, c->writes};
    c->pending[c->writes++] = (Pending){.entry = entry, .at = at, .over = l->newest[at]};
    l->pending++;
    *over = l->newest[at];
    return 0;
}

static void shut(Log *l, Console *c)
{
    l->pending -= c->writes;
    c->began = SHUT;
    c->notes = c->writes = 0;
}

static int log_commit(Log *l, uint32_t console, Grant *grant)
{
    if (console >= CONSOLES)
        return NO_CONSOLE;
    Console *c = &l->consoles[console];
    if (c->began == SHUT)
        return NOT_OPEN;
    if (l->clock >= DAY)
        return DAY_FULL;
    uint16_t stamp = l->clock + 1, low = stamp, high = 0;
    for (uint32_t i = 0; i < c->notes; i++) {
        const Version *v = &l->table[c->noted[i]];
        if (v->stamp > high)
            high = v->stamp;
        if (v->low && v->low < low)
            low = v->low;
    }
    for (uint32_t i = 0; i < c->writes; i++)
        if (l->table[c->pending[i].over].high > high)
            high = l->table[c->pending[i].over].high;
    if (high >= low) {
        shut(l, c);
        return UNSAFE;
    }
    for (uint32_t i = 0; i < c->notes; i++)
        l->table[c->noted[i]].high = stamp;
    for (uint32_t i = 0; i < c->writes; i++) {
        const Pending *p = &c->pending[i];
        l->table[p->over].low = low;
        l->table[l->versions] = (Version){.entry = p->entry, .stamp = stamp, .older = l->newest[p->at], .high = stamp};
        l->newest[p->at] = l->versions++;
    }
    l->earlier[stamp] = l->latest[low];
    l->latest[low] = stamp;
    l->clock = stamp;
    shut(l, c);
    *grant = (Grant){stamp, low, high};
    return 0;
}

/* What a day counted. */
typedef struct {
    uint32_t granted, refused[16], sum;
} Tally;

static void mix(Tally *t, uint32_t sum)
{
    t->sum = t->sum * 31 + sum;
}

static uint32_t do_begin(Log *l, uint32_t console, Tally *t)
{
    uint16_t stamp;
    int no = log_begin(l, console, &stamp);
    if (no) {
        t->refused[no]++;
        return 0;
    }
    return stamp;
}

static uint32_t do_read(Log *l, uint32_t console, uint32_t at, Tally *t)
{
    Seen s;
    int no = log_read(l, console, at, &s);
    if (no) {
        t->refused[no]++;
        return 0;
    }
    return s.own ? s.entry : s.number * 3 + s.entry;
}

static uint32_t do_write(Log *l, uint32_t console, uint32_t at, uint32_t entry, Tally *t)
{
    uint32_t over;
    int no = log_write(l, console, at, entry, &over);
    if (no) {
        t->refused[no]++;
        return 0;
    }
    return over;
}

static uint32_t do_commit(Log *l, uint32_t console, Tally *t)
{
    Grant g;
    int no = log_commit(l, console, &g);
    if (no) {
        t->refused[no]++;
        return 0;
    }
    t->granted++;
    return (uint32_t)g.low * 3 + g.high;
}

static void alone(Log *l, const Plan *p, uint32_t *seed, Tally *t)
{
    uint32_t records = p->records - 1;
    for (uint32_t turn = 0; turn < p->turns; turn++) {
        uint32_t sum = do_begin(l, 0, t);
        for (uint32_t i = 0; i < p->reads; i++)
            sum += do_read(l, 0, roll(seed) & records, t);
        if ((turn & (p->every - 1)) == 0)
            sum += do_write(l, 0, roll(seed) & records, turn, t);
        mix(t, sum + do_commit(l, 0, t));
    }
}

static uint32_t call(Log *l, uint32_t console, uint32_t step, uint32_t at, uint32_t entry, Tally *t)
{
    switch (step) {
    case 0: return do_begin(l, console, t);
    case 5: return do_write(l, console, at, entry, t);
    case 6: return do_commit(l, console, t);
    default: return do_read(l, console, at, t);
    }
}

static void wide(Log *l, const Plan *p, uint32_t *seed, Tally *t)
{
    static const uint32_t first[16] = {0, 1, 2, 3, 4, 5, 6, 0, 1, 2, 3, 4, 5, 6, 0, 1};
    for (uint32_t turn = 0; turn < p->turns; turn++)
        for (uint32_t shift = 0; shift < 7; shift++) {
            uint32_t sum = 0;
            for (uint32_t k = 0; k < 16; k++) {
                uint32_t from = first[k] + shift;
                sum += call(l, k, from < 7 ? from : from - 7, roll(seed) & (p->records - 1), turn, t);
            }
            mix(t, sum);
        }
}

static void chains(Log *l, const Plan *p, Tally *t)
{
    mix(t, do_begin(l, 1, t));
    for (uint32_t turn = 0; turn < p->turns; turn++) {
        uint32_t sum = do_begin(l, 0, t);
        sum += do_write(l, 0, turn & (p->records - 1), turn, t);
        mix(t, sum + do_commit(l, 0, t));
    }
    for (uint32_t i = 0; i < p->reads; i++) {
        uint32_t sum = 0;
        for (uint32_t at = 0; at < p->records; at++)
            sum += do_read(l, 1, at, t);
        mix(t, sum);
    }
    mix(t, do_commit(l, 1, t));
}

static void days(const Plan *p, int snapshot, uint32_t count, Tally *t)
{
    uint32_t seed = 1;
    for (uint32_t i = 0; i < count; i++) {
        Log *l = log_open(p->records, p->room, 0, snapshot);
        if (!l)
            exit(1);
        if (p->shape == ALONE)
            alone(l, p, &seed, t);
        else if (p->shape == WIDE)
            wide(l, p, &seed, t);
        else
            chains(l, p, t);
        free(l);
    }
}

static void report(const Plan *p, int snapshot, int timed)
{
    const char *kind = snapshot ? "snapshot" : "newest";
    Tally t = {0};
    if (!timed) {
        days(p, snapshot, 1, &t);
        printf("%s %s: granted %u, sum %u", p->name, kind, t.granted, t.sum);
        for (int n = 0; n < 16; n++)
            if (t.refused[n])
                printf(", no %d %u", n, t.refused[n]);
        printf("\n");
        return;
    }
    uint64_t best = UINT64_MAX;
    for (int r = 0; r < ROUNDS; r++) {
        uint64_t start = nanos();
        days(p, snapshot, p->days, &t);
        uint64_t took = nanos() - start;
        if (took < best)
            best = took;
    }
    tell_time(p, kind, best, t.sum);
}

int main(int argc, char **argv)
{
    if (argc > 1 && !strcmp(argv[1], "open"))
        return log_open(256, 2048, 0, 1) ? 0 : 1;
    int timed = argc > 1 && !strcmp(argv[1], "times");
    for (size_t i = 0; i < COUNT(PLANS); i++)
        for (int snapshot = PLANS[i].shape == CHAINS; snapshot < 2; snapshot++)
            report(&PLANS[i], snapshot, timed);
    for (size_t i = 0; i < COUNT(SCALES); i++)
        report(&SCALES[i], 1, timed);
    return 0;
}

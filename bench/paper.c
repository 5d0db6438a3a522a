// The source's evaluation again (section 5, figure 1 a), by the desk's own search: sets of strings as section 5.1 makes them, and for
// each moving cost how many of them pass by each policy. Proved, by the entries of desk.h: fp-EDF (everybody may take the bank), np-EDF
// (nobody), cp-EDF (the search), and every run. Peers, written here and proved nowhere: lp-EDF (equations 5 and 6), Algorithm 3, and
// equation 7 as printed. It declares what it uses of the C library itself: the kit's compiler builds it for x86-64 on any machine,
// without the library's headers.
//     paper SETS SEED WORKERS [PICTURE]     the table on standard output, how far it is on standard error, the picture as SVG
//     paper --answers SETS SEED H           the answers for each set whose H is at most that, a line for each cost: for the second program
#include "desk.h"
struct timespec { long tv_sec, tv_nsec; };
enum { CLOCK_MONOTONIC = 1, SHARED_MEMORY = 0x21, READ_WRITE = 3, NO_WAIT = 1 };
typedef struct _IO_FILE FILE;
extern FILE *stderr;
int printf(const char *, ...);
int fprintf(FILE *, const char *, ...);
int fclose(FILE *);
FILE *fopen(const char *, const char *);
int strcmp(const char *, const char *);
unsigned long strtoul(const char *, char **, int);
void *memset(void *, int, size_t);
void *mmap(void *, size_t, int, int, int, long);
int fork(void);
int waitpid(int, int *, int);
int usleep(unsigned int);
int clock_gettime(int, struct timespec *);
__attribute__((noreturn)) void _exit(int);

enum { STRINGS = 10, LONGEST = 1000, MOST_H = 100000, COSTS = 12, KINDS = 10 };

// the source's delays; its 1,024 is over the page's bound on a moving cost
static const uint32_t costs[COSTS] = {0, 1, 2, 4, 8, 16, 32, 64, 128, 256, 512, 1000};

// strings stand by rising D, as the source has them (2.1)
typedef struct { uint32_t t, c, d; } String;
typedef struct { uint32_t n, h; String s[STRINGS]; } Set;

// ---- Chance: splitmix64, so that a seed makes the same sets everywhere

static uint64_t drawn(uint64_t *chance) {
    uint64_t z = *chance += 0x9e3779b97f4a7c15;
    z = (z ^ z >> 30) * 0xbf58476d1ce4e5b9;
    z = (z ^ z >> 27) * 0x94d049bb133111eb;
    return z ^ z >> 31;
}

static double unit(uint64_t *chance) { return (double)(drawn(chance) >> 11) * 0x1p-53; }
static uint32_t between(uint64_t *chance, uint32_t low, uint32_t high) { return low + (uint32_t)(drawn(chance) % (high - low + 1)); }

// exponential with mean 1 (von Neumann's way, by comparisons alone): a falling run of numbers has odd length with the density wanted
static double exponential(uint64_t *chance) {
    for (uint32_t whole = 0;; whole++) {
        double first = unit(chance), last = first;
        uint32_t falling = 1;
        for (double next; (next = unit(chance)) < last; last = next) falling++;
        if (falling % 2) return whole + first;
    }
}

// C/T (section 5.1, footnotes 1 and 2): bimodal for the kinds 0 to 4, exponential for 5 to 9, each with 0.1, 0.3, 0.5, 0.7 and 0.9. A
// job that is longer than its period fits no set: drawn again
static double utilisation(uint64_t *chance, uint32_t kind) {
    double parameter = 0.1 + 0.2 * (kind % 5);
    if (kind < 5) {
        int light = unit(chance) < parameter;
        return unit(chance) * 0.5 + (light ? 0 : 0.5);
    }
    for (;;) { double u = exponential(chance) * parameter; if (u <= 1) return u; }
}

// ---- Sets of strings

static uint32_t divisor(uint32_t a, uint32_t b) { while (b) { uint32_t r = a % b; a = b; b = r; } return a; }
static uint32_t jobs(const String *s, uint32_t w) { return w < s->d ? 0 : (w - s->d) / s->t + 1; }

// one string more, in its place by D. Whole days: C is rounded to the nearest and at least 1. A period with which H would pass its bound is
// drawn again
static void added(Set *z, uint64_t *chance, uint32_t kind) {
    String s;
    uint64_t h;
    do {
        s.t = between(chance, 1, LONGEST);
        h = (uint64_t)z->h / divisor(z->h, s.t) * s.t;
    } while (h > MOST_H);
    z->h = (uint32_t)h;
    s.c = (uint32_t)(utilisation(chance, kind) * s.t + 0.5);
    if (!s.c) s.c = 1;
    s.d = between(chance, s.c, s.t);
    uint32_t at = z->n++;
    for (; at && s.d < z->s[at - 1].d; at--) z->s[at] = z->s[at - 1];
    z->s[at] = s;
}

typedef struct { uint32_t l, b; } Pair;

static uint32_t asked(const Set *z, const uint32_t *e, uint32_t w) {
    uint32_t sum = 0;
    for (uint32_t i = 0; i < z->n; i++) sum += jobs(&z->s[i], w) * e[i];
    return sum;
}

// Whether the jobs' e within w days are at most w for every w (equations 2 and 4); where not, at which w. From H downwards: where less
// is asked than there are days, nothing breaks between the two; where as much, the next deadline below decides.
static int fits(const Set *z, const uint32_t *e, Pair *at) {
    uint32_t w = z->h;
    while (w >= z->s[0].d) {
        uint32_t sum = asked(z, e, w);
        if (sum > w) { *at = (Pair){w, 0}; return 0; }
        if (sum < w) { w = sum; continue; }
        uint32_t below = 0;
        for (uint32_t i = 0; i < z->n; i++) {
            const String *s = &z->s[i];
            if (w <= s->d) continue;
            uint32_t last = s->d + (w - 1 - s->d) / s->t * s->t;
            if (last > below) below = last;
        }
        w = below;
    }
    return 1;
}

static int feasible(const Set *z) {
    uint32_t work[STRINGS];
    Pair at;
    for (uint32_t i = 0; i < z->n; i++) work[i] = z->s[i].c;
    return fits(z, work, &at);
}

// The next set of a kind: the last one with a string more, if that is feasible where moving is free; else, and after a set of ten, two new
// strings, until they are.
static void next_set(Set *z, uint64_t *chance, uint32_t kind) {
    if (z->n && z->n < STRINGS) {
        added(z, chance, kind);
        if (feasible(z)) return;
    }
    do {
        *z = (Set){0, 1, {{0}}};
        added(z, chance, kind);
        added(z, chance, kind);
    } while (!feasible(z));
}

// ---- The desk's answers

// a plan as an entry takes it: N, then T, C, D, X, A and J of each string
typedef struct { size_t count; uint32_t of[1 + 6 * STRINGS]; } Row;

static Row row_of(const Set *z, uint32_t a, uint32_t takers, uint32_t run) {
    Row row = {1 + 6 * z->n, {run}};
    for (uint32_t i = 0; i < z->n; i++) {
        const String *s = &z->s[i];
        const uint32_t of[6] = {s->t, s->c, s->d, takers >> i & 1, a, 0};
        for (uint32_t k = 0; k < 6; k++) row.of[1 + 6 * i + k] = of[k];
    }
    return row;
}

enum { NONE = 1 << STRINGS };

static int desk_passes(const Set *z, uint32_t a, uint32_t takers) {
    uint64_t out[DESK_PLACES];
    Row row = row_of(z, a, takers, 1);
    return desk_quick(row.of, row.count, out, DESK_PLACES) == DESK_PASS;
}

static uint32_t desk_found(const Set *z, uint32_t a) {
    uint64_t out[DESK_PLACES];
    Row row = row_of(z, a, 0, 1);
    return desk_search(row.of, row.count, out, DESK_PLACES) == DESK_TAKERS ? (uint32_t)out[0] : NONE;
}

// ---- Peers: equation 9 with the blocker's days as equation 7 prints them, C, or as the desk's rule has them, E - 1

typedef struct { uint32_t takers, e[STRINGS], blocks[STRINGS]; } Rule;

static Rule rule_of(const Set *z, uint32_t a, uint32_t takers, int printed) {
    Rule r;
    r.takers = takers;
    for (uint32_t i = 0; i < z->n; i++) {
        r.e[i] = z->s[i].c + (takers >> i & 1 ? a : 0);
        r.blocks[i] = printed ? z->s[i].c : r.e[i] - 1;
    }
    return r;
}

static uint32_t demand(const Set *z, const Rule *r, Pair q) {
    uint32_t sum = q.b;
    for (uint32_t i = 0; i < z->n; i++) sum += jobs(&z->s[i], r->takers >> i & 1 ? q.l - q.b : q.l) * r->e[i];
    return sum;
}

// Whether the rule breaks at some interval from `from` up to, not into, `to`, both between the smallest D and the largest; at which, and
// with the blocking that asks most there. With w = l - b the rule reads: what keepers ask within l days is at most w less what takers ask
// within w, for each w from l - B to l. That range only moves up, so one pass with a queue of candidates for the least is enough.
static int breaks(const Set *z, const Rule *r, uint32_t from, uint32_t to, Pair *at) {
    static int32_t taken[LONGEST], kept[LONGEST];
    static uint32_t queue[LONGEST];
    if (from >= to) return 0;
    memset(taken, 0, to * sizeof *taken);
    memset(kept, 0, to * sizeof *kept);
    for (uint32_t i = 0; i < z->n; i++) {
        const String *s = &z->s[i];
        int32_t *ask = r->takers >> i & 1 ? taken : kept;
        for (uint32_t w = s->d; w < to; w += s->t) ask[w] += (int32_t)r->e[i];
    }
    for (uint32_t w = 1; w < to; w++) { taken[w] += taken[w - 1]; kept[w] += kept[w - 1]; }
    uint32_t first = 0, count = 0, next = 0;
    for (uint32_t l = from; l < to; l++) {
        uint32_t most = 0;
        for (uint32_t i = z->n; i-- && z->s[i].d > l;) if (r->blocks[i] > most) most = r->blocks[i];
        uint32_t low = most < l ? l - most : 0;
        for (; next <= l; next++) {
            while (count > first && (int32_t)next - taken[next] <= (int32_t)queue[count - 1] - taken[queue[count - 1]]) count--;
            queue[count++] = next;
        }
        while (queue[first] < low) first++;
        uint32_t w = queue[first];
        if (kept[l] > (int32_t)w - taken[w]) { *at = (Pair){l, l - w}; return 1; }
    }
    return 0;
}

static int holds(const Set *z, const Rule *r, Pair *at) { return fits(z, r->e, at) && !breaks(z, r, z->s[0].d, z->s[z->n - 1].d, at); }

// The set that passes by equation 7 as printed, in the order of the page's search. A pair at which an earlier set broke is asked first: the
// printed limit is the same for all sets.
static uint32_t printed_found(const Set *z, uint32_t a) {
    enum { KEPT = 16 };
    Pair pairs[KEPT];
    uint32_t kept = 0, oldest = 0;
    for (uint32_t ones = 0; ones <= z->n; ones++)
        for (uint32_t takers = 0; takers < 1u << z->n; takers++) {
            if ((uint32_t)__builtin_popcount(takers) != ones) continue;
            Rule r = rule_of(z, a, takers, 1);
            uint32_t k = 0;
            while (k < kept && demand(z, &r, pairs[k]) <= pairs[k].l) k++;
            if (k < kept) continue;
            Pair at;
            if (holds(z, &r, &at)) return takers;
            pairs[oldest] = at;
            oldest = (oldest + 1) % KEPT;
            if (kept < KEPT) kept++;
        }
    return NONE;
}

// The source's Algorithm 3: whenever the rule breaks from the k-th D up to the next, the k-th and those before it get permission, the
// latest first, as long as it breaks; what is on stays on.
static uint32_t switched_on(const Set *z, uint32_t a, int printed) {
    uint32_t takers = 0;
    Pair at;
    for (uint32_t k = 0; k + 1 < z->n; k++)
        for (uint32_t j = k + 1; j--;) {
            Rule r = rule_of(z, a, takers, printed);
            if (takers >> j & 1 || !breaks(z, &r, z->s[k].d, z->s[k + 1].d, &at)) break;
            takers |= 1u << j;
        }
    Rule r = rule_of(z, a, takers, printed);
    return holds(z, &r, &at) ? takers : NONE;
}

// lp-EDF (equations 5 and 6): a job of a string runs in p chunks that nobody interrupts, and pays for each interruption, so it asks for
// C + (p - 1) A days, and its longest chunk is a p-th of that, rounded up. A chunk that blocks has been at it for a day, as the desk's
// blocker has; as printed it has not. By rising D, each string gets the least p whose chunk leaves the strings before it time enough at
// every interval below its D: what it asks counts from its own D on, so nothing later changes that.
static int chunks_pass(const Set *z, uint32_t a, int printed) {
    uint32_t ask[STRINGS], spare = 2 * LONGEST;
    Pair at;
    for (uint32_t k = 0; k < z->n; k++) {
        const String *s = &z->s[k];
        for (uint32_t l = k ? z->s[k - 1].d : s->d; l < s->d; l++) {
            uint32_t sum = 0;
            for (uint32_t i = 0; i < k; i++) sum += jobs(&z->s[i], l) * ask[i];
            if (sum > l) return 0;
            if (l - sum < spare) spare = l - sum;
        }
        uint32_t longest = printed ? spare : spare + 1, chunks = 1;
        if (s->c > longest) {
            // a chunk is A and a p-th of C - A
            if (longest <= a) return 0;
            chunks = (s->c - a + longest - a - 1) / (longest - a);
        }
        ask[k] = s->c + (chunks - 1) * a;
        if (ask[k] > s->d) return 0;
    }
    return fits(z, ask, &at);
}

// ---- Releases that miss, for takers that pass by equation 7 as printed and fail by the desk's rule. That rule breaks then at a pair
// (l, b) with more days of blocking than any C: the blocker k has paid. As in P6: a job of v is on the bank; a day later one of k takes
// it and pays; another day later all others come, as often as is lawful, takers only after a while: when b days are over, or one more. By
// then k is done, or is stopped by the first of them, which pays too. The run is the desk's.

typedef struct { uint32_t day, place, need, due; } Release;
enum { RELEASES = 1000 };

static int run_misses(const Set *z, uint32_t a, uint32_t takers, uint32_t v, uint32_t k, uint32_t need, uint32_t delay, uint32_t l) {
    static Release list[RELEASES];
    uint32_t count = 2, end = 2 + l;
    list[0] = (Release){0, v + 1, z->s[v].c, 0};
    list[1] = (Release){1, k + 1, need, 1};
    for (uint32_t i = 0; i < z->n; i++) {
        const String *s = &z->s[i];
        if (i == v || i == k) continue;
        for (uint32_t day = 2 + (takers >> i & 1 ? delay : 0); day + s->d <= end; day += s->t) {
            if (count == RELEASES) return 0;
            uint32_t at = count++;
            for (; day < list[at - 1].day; at--) list[at] = list[at - 1];
            list[at] = (Release){day, i + 1, s->c, day};
        }
    }
    uint64_t out[DESK_PLACES];
    Row row = row_of(z, a, takers, end);
    return desk_run(row.of, row.count, (const uint32_t *)list, 4 * (size_t)count, out, DESK_PLACES) == DESK_MISS;
}

static int some_miss(const Set *z, uint32_t a, uint32_t takers) {
    Rule r = rule_of(z, a, takers, 0);
    uint32_t last = z->s[z->n - 1].d;
    Pair q;
    for (uint32_t from = z->s[0].d; breaks(z, &r, from, last, &q); from = q.l + 1)
        for (uint32_t k = 0; k < z->n; k++) {
            uint32_t whole = z->s[k].c;
            if (!(takers >> k & 1) || z->s[k].d <= q.l || r.blocks[k] < q.b) continue;
            // b days are left when the others come, if its moving leaves room for that
            uint32_t need = q.b < a ? 1 : q.b + 1 - a < whole ? q.b + 1 - a : whole;
            for (uint32_t v = 0; v < z->n; v++) {
                if (z->s[v].d <= z->s[k].d + 1 || z->s[v].c < 2) continue;
                for (uint32_t delay = q.b; delay < q.b + 2; delay++)
                    if (run_misses(z, a, takers, v, k, need, delay, q.l) || run_misses(z, a, takers, v, k, whole, delay, q.l)) return 1;
            }
        }
    return 0;
}

// ---- Counting

// of one set at one cost; a set of takers, or NONE. The last three are the source's own: np and lp whose blocker has not worked a day, and
// Algorithm 3 by equation 7
typedef struct { int fp, np, lp; uint32_t cp, one_by_one, printed; int own_np, own_lp; uint32_t own_cp; } Answers;

// np does not depend on the cost
static Answers answers_of(const Set *z, uint32_t a, int np, int own_np) {
    return (Answers){
        .fp = desk_passes(z, a, (1u << z->n) - 1), .np = np, .lp = chunks_pass(z, a, 0), .cp = desk_found(z, a),
        .one_by_one = switched_on(z, a, 0), .printed = printed_found(z, a),
        .own_np = own_np, .own_lp = chunks_pass(z, a, 1), .own_cp = switched_on(z, a, 1),
    };
}

static int printed_nobody(const Set *z) {
    Rule r = rule_of(z, 0, 0, 1);
    Pair at;
    return holds(z, &r, &at);
}

// Sets that pass; those that cp finds beyond fp and np, and beyond lp too; those that only lp finds. Of those that pass by equation 7 as
// printed those whose takers the desk's rule fails, those of them for which releases miss, and those of them for which no other takers
// pass either. The sets by how many takers the search finds for them, three standing for more too. Answers that contradict what is
// proved.
enum { MANY = 3 };
typedef struct {
    uint64_t fp, np, lp, cp, beyond_two, beyond_three, lp_alone, one_by_one, printed, failed, late, lost, takers[MANY + 1], wrong;
    uint64_t own_np, own_lp, own_cp, own_two, own_three, own_beyond_two, own_beyond_three;
} Count;

static void counted(Count *sum, const Set *z, uint32_t a, const Answers *y) {
    int found = y->cp != NONE, two = y->fp || y->np;
    sum->fp += (uint64_t)y->fp;
    sum->np += (uint64_t)y->np;
    sum->lp += (uint64_t)y->lp;
    sum->one_by_one += y->one_by_one != NONE;
    sum->printed += y->printed != NONE;
    sum->cp += (uint64_t)found;
    if (found) {
        int takers = __builtin_popcount(y->cp);
        sum->takers[takers < MANY ? takers : MANY]++;
    }
    sum->beyond_two += found && !two;
    sum->beyond_three += found && !two && !y->lp;
    sum->lp_alone += y->lp && !found;
    // fp and np are sets of takers too, and so is what Algorithm 3 finds
    sum->wrong += (two && !found) || y->np != (y->cp == 0) || (y->one_by_one != NONE && !found);
    int own = y->own_cp != NONE, own_two = y->fp || y->own_np, own_three = own_two || y->own_lp;
    sum->own_np += (uint64_t)y->own_np;
    sum->own_lp += (uint64_t)y->own_lp;
    sum->own_cp += (uint64_t)own;
    sum->own_two += (uint64_t)own_two;
    sum->own_three += (uint64_t)own_three;
    sum->own_beyond_two += own && !own_two;
    sum->own_beyond_three += own && !own_three;
    if (y->printed != NONE && !desk_passes(z, a, y->printed)) {
        sum->failed++;
        sum->late += some_miss(z, a, y->printed);
        sum->lost += !found;
    }
}

// what a worker has counted, where all see it
typedef struct { uint64_t done; uint64_t sizes[STRINGS + 1]; Count at[COSTS]; } Book;

static void seeded(uint64_t *chance, uint64_t seed, uint32_t kind) { *chance = (seed * KINDS + kind) * 0xd1342543de82ef95; }

// Every worker makes every set, which is quick, and answers its share: so the counts do not depend on how many work.
static void worked(Book *book, uint64_t sets, uint64_t seed, uint64_t worker, uint64_t workers) {
    for (uint32_t kind = 0; kind < KINDS; kind++) {
        Set z = {0};
        uint64_t chance;
        seeded(&chance, seed, kind);
        for (uint64_t k = 0; k < sets / KINDS; k++) {
            next_set(&z, &chance, kind);
            if (k % workers != worker) continue;
            int np = desk_passes(&z, 0, 0), own_np = printed_nobody(&z);
            book->sizes[z.n]++;
            for (uint32_t i = 0; i < COSTS; i++) {
                Answers y = answers_of(&z, costs[i], np, own_np);
                counted(&book->at[i], &z, costs[i], &y);
            }
            book->done++;
        }
    }
}

// ---- The table and the picture

static void share(uint64_t part, uint64_t whole) { printf(" %.2f |", whole ? 100.0 * (double)part / (double)whole : 0.0); }

// What cp finds beyond others is said twice: as a share of all sets, and by how much more it is than what the others find together, as the
// source says it. Whatever fp or np finds, cp finds.
static void table(const Count *at, uint64_t sets) {
    printf("Sets that pass, in a hundred.\n\n"
        "| Moving cost | fp | np | lp | cp | beyond fp and np | more by | beyond fp, np and lp | more by | lp beyond cp |\n"
        "|---:|---:|---:|---:|---:|---:|---:|---:|---:|---:|\n");
    for (uint32_t i = 0; i < COSTS; i++) {
        const Count *c = &at[i];
        printf("| %u |", costs[i]);
        share(c->fp, sets);
        share(c->np, sets);
        share(c->lp, sets);
        share(c->cp, sets);
        share(c->beyond_two, sets);
        share(c->beyond_two, c->cp - c->beyond_two);
        share(c->beyond_three, sets);
        share(c->beyond_three, c->cp - c->beyond_three + c->lp_alone);
        share(c->lp_alone, sets);
        printf("\n");
    }
    printf("\nSets for which the search finds so many takers, in a hundred.\n\n"
        "| Moving cost | nobody | one | two | three or more | no set passes |\n"
        "|---:|---:|---:|---:|---:|---:|\n");
    for (uint32_t i = 0; i < COSTS; i++) {
        const Count *c = &at[i];
        printf("| %u |", costs[i]);
        for (uint32_t k = 0; k <= MANY; k++) share(c->takers[k], sets);
        share(sets - c->cp, sets);
        printf("\n");
    }
    printf("\nSets, counted.\n\n"
        "| Moving cost | cp finds | Algorithm 3 overlooks | pass by equation 7 | and their takers fail | and releases miss "
        "| and no takers pass | of them overlooked by Algorithm 3 |\n|---:|---:|---:|---:|---:|---:|---:|---:|\n");
    for (uint32_t i = 0; i < COSTS; i++) {
        const Count *c = &at[i];
        printf("| %u | %lu | %lu | %lu | %lu | %lu | %lu | %lu |\n", costs[i], c->cp, c->cp - c->one_by_one, c->printed, c->failed, c->late,
            c->lost, c->printed - c->own_cp);
    }
    printf("\nSets that pass by the source's own rules, in a hundred.\n\n"
        "| Moving cost | fp | np | lp | cp | beyond fp and np | more by | beyond fp, np and lp | more by |\n"
        "|---:|---:|---:|---:|---:|---:|---:|---:|---:|\n");
    for (uint32_t i = 0; i < COSTS; i++) {
        const Count *c = &at[i];
        printf("| %u |", costs[i]);
        share(c->fp, sets);
        share(c->own_np, sets);
        share(c->own_lp, sets);
        share(c->own_cp, sets);
        share(c->own_beyond_two, sets);
        share(c->own_beyond_two, c->own_two);
        share(c->own_beyond_three, sets);
        share(c->own_beyond_three, c->own_three);
        printf("\n");
    }
}

enum { LEFT = 60, TOP = 30, STEP = 56, HIGH = 400, LINES = 5 };

static double x_of(uint32_t i) { return LEFT + (double)STEP * i; }
static double y_of(uint64_t count, uint64_t sets) { return TOP + HIGH * (1 - (double)count / (double)sets); }

// a mark that is told from the others without colour
static void mark(FILE *to, uint32_t line, double x, double y) {
    switch (line) {
    case 0: fprintf(to, "<circle cx='%.1f' cy='%.1f' r='3' fill='black'/>\n", x, y); break;
    case 1: fprintf(to, "<circle cx='%.1f' cy='%.1f' r='5.5' fill='white' stroke='black'/>\n", x, y); break;
    case 2: fprintf(to, "<rect x='%.1f' y='%.1f' width='7' height='7' fill='white' stroke='black'/>\n", x - 3.5, y - 3.5); break;
    case 3: fprintf(to, "<path d='M%.1f %.1fl4 7h-8z' fill='white' stroke='black'/>\n", x, y - 4); break;
    default: fprintf(to, "<path d='M%.1f %.1fl7 7m0 -7l-7 7' stroke='black'/>\n", x - 3.5, y - 3.5);
    }
}

static void picture(FILE *to, const Count *at, uint64_t sets) {
    static const char *const names[LINES] = {
        "cp: the desk's search", "equation 7 as printed", "lp: chunks", "fp: everybody", "np: nobody",
    };
    static const char *const dashes[LINES] = {"none", "2 3", "8 3", "12 3 2 3", "4 4"};
    double right = x_of(COSTS - 1), floor = TOP + HIGH;
    fprintf(to, "<svg xmlns='http://www.w3.org/2000/svg' viewBox='0 0 %.0f %.0f' ", right + 40, floor + 140);
    fprintf(to, "font-family='sans-serif' font-size='13'>\n");
    fprintf(to, "<title>Share of %lu sets of strings that pass, over the moving cost</title>\n", sets);
    fprintf(to, "<rect width='100%%' height='100%%' fill='white'/>\n");
    for (uint32_t share = 0; share <= 100; share += 20) {
        double y = y_of(share, 100);
        fprintf(to, "<path d='M%d %.1fH%.1f' stroke='#ccc'/>", LEFT, y, right);
        fprintf(to, "<text x='%d' y='%.1f' text-anchor='end'>%u %%</text>\n", LEFT - 8, y + 4, share);
    }
    for (uint32_t i = 0; i < COSTS; i++)
        fprintf(to, "<text x='%.1f' y='%.1f' text-anchor='middle'>%u</text>\n", x_of(i), floor + 20, costs[i]);
    fprintf(to, "<text x='%.1f' y='%.1f' text-anchor='middle'>moving cost (days)</text>\n", (LEFT + right) / 2, floor + 40);
    // the search's line last, over the others
    for (uint32_t line = LINES; line--;) {
        const char *width = line ? "1.3" : "2.2";
        fprintf(to, "<path fill='none' stroke='black' stroke-width='%s' stroke-dasharray='%s' d='", width, dashes[line]);
        double y[COSTS];
        for (uint32_t i = 0; i < COSTS; i++) {
            const uint64_t of[LINES] = {at[i].cp, at[i].printed, at[i].lp, at[i].fp, at[i].np};
            y[i] = y_of(of[line], sets);
            fprintf(to, "%s%.1f %.1f", i ? "L" : "M", x_of(i), y[i]);
        }
        fprintf(to, "'/>\n");
        for (uint32_t i = 0; i < COSTS; i++) mark(to, line, x_of(i), y[i]);
        double key = floor + 70 + 22 * (line / 2), column = LEFT + 320 * (line % 2);
        fprintf(to, "<path d='M%.1f %.1fh44' stroke='black' stroke-width='%s' stroke-dasharray='%s'/>\n", column, key, width, dashes[line]);
        mark(to, line, column + 22, key);
        fprintf(to, "<text x='%.1f' y='%.1f'>%s</text>\n", column + 54, key + 4, names[line]);
    }
    fprintf(to, "</svg>\n");
}

// ---- A line for each set and cost, for the second program

static void told(const char *name, uint32_t takers) {
    if (takers == NONE) printf(" %s none", name);
    else printf(" %s %u", name, takers);
}

static void tell_answers(uint64_t sets, uint64_t seed, uint32_t most) {
    for (uint32_t kind = 0; kind < KINDS; kind++) {
        Set z = {0};
        uint64_t chance;
        seeded(&chance, seed, kind);
        for (uint64_t k = 0; k < sets / KINDS; k++) {
            next_set(&z, &chance, kind);
            if (z.h > most) continue;
            int np = desk_passes(&z, 0, 0), own_np = printed_nobody(&z);
            for (uint32_t i = 0; i < COSTS; i++) {
                Answers y = answers_of(&z, costs[i], np, own_np);
                printf("%u", costs[i]);
                for (uint32_t j = 0; j < z.n; j++) printf(" %u,%u,%u", z.s[j].t, z.s[j].c, z.s[j].d);
                printf(": fp %d np %d lp %d", y.fp, y.np, y.lp);
                told("assign", y.cp);
                told("one-by-one", y.one_by_one);
                told("equation-7", y.printed);
                printf(" printed np %d lp %d", y.own_np, y.own_lp);
                told("cp", y.own_cp);
                printf("\n");
            }
        }
    }
}

// ---- The work shared out

static double now(void) { struct timespec t; clock_gettime(CLOCK_MONOTONIC, &t); return (double)t.tv_sec + 1e-9 * (double)t.tv_nsec; }

enum { MOST_WORKERS = 64 };

static int shared_out(uint64_t sets, uint64_t seed, uint64_t workers, const char *drawing) {
    static Book whole;
    int id[MOST_WORKERS];
    uint64_t done = 0, working = workers;
    double start = now(), said = start;
    Book *books = mmap(0, workers * sizeof *books, READ_WRITE, SHARED_MEMORY, -1, 0);
    if (books == (Book *)-1) { fprintf(stderr, "paper: no memory to share\n"); return 2; }
    for (uint64_t w = 0; w < workers; w++)
        if ((id[w] = fork()) == 0) { worked(&books[w], sets, seed, w, workers); _exit(0); }
        else if (id[w] < 0) { fprintf(stderr, "paper: no second process\n"); return 2; }
    while (working) {
        usleep(100000);
        for (uint64_t w = 0; w < workers; w++) {
            int status = 0;
            if (id[w] && waitpid(id[w], &status, NO_WAIT) == id[w]) {
                if (status) { fprintf(stderr, "paper: a worker ended with status %d\n", status); return 2; }
                id[w] = 0;
                working--;
            }
        }
        if (now() - said < 5 && working) continue;
        said = now();
        done = 0;
        for (uint64_t w = 0; w < workers; w++) done += ((volatile Book *)books)[w].done;
        fprintf(stderr, "paper: %lu of %lu sets, %.0f s\n", done, sets, said - start);
    }
    for (uint64_t w = 0; w < workers; w++) {
        const uint64_t *from = (const uint64_t *)&books[w];
        for (size_t k = 0; k < sizeof whole / sizeof *from; k++) ((uint64_t *)&whole)[k] += from[k];
    }
    printf("%lu sets, seed %lu; strings in a set:", sets, seed);
    for (uint32_t n = 2; n <= STRINGS; n++) printf(" %u in %lu%s", n, whole.sizes[n], n < STRINGS ? "," : "\n\n");
    table(whole.at, sets);
    uint64_t wrong = 0;
    for (uint32_t i = 0; i < COSTS; i++) wrong += whole.at[i].wrong;
    if (wrong) { fprintf(stderr, "paper: %lu answers contradict what is proved\n", wrong); return 1; }
    if (drawing) {
        FILE *to = fopen(drawing, "w");
        if (!to) { fprintf(stderr, "paper: %s cannot be written\n", drawing); return 2; }
        picture(to, whole.at, sets);
        fclose(to);
    }
    return 0;
}

int main(int count, char **words) {
    if (count == 5 && !strcmp(words[1], "--answers")) {
        tell_answers(strtoul(words[2], 0, 10), strtoul(words[3], 0, 10), (uint32_t)strtoul(words[4], 0, 10));
        return 0;
    }
    uint64_t sets = count > 3 ? strtoul(words[1], 0, 10) / KINDS * KINDS : 0, workers = sets ? strtoul(words[3], 0, 10) : 0;
    if (count > 5 || workers < 1 || workers > MOST_WORKERS) {
        fprintf(stderr, "usage: paper SETS SEED WORKERS [PICTURE]\n       paper --answers SETS SEED H\n");
        return 2;
    }
    return shared_out(sets, strtoul(words[2], 0, 10), workers, count > 4 ? words[4] : 0);
}

// How far each number of a plan can go, beside a peer that tries every value, the hardest first, with the full verdict of the page; and a climb for plans on which
// ours is slow. `bench/run slack [CLIMBS [SEED]]`.
#include "desk.h"
struct timespec { long tv_sec, tv_nsec; };
enum { CLOCK_PROCESS_CPUTIME_ID = 2, STRINGS = 10, NUMBERS = 1 + 6 * STRINGS, STEPS = 60 };
int printf(const char *, ...);
int atoi(const char *);
int rand(void);
void srand(unsigned int);
int clock_gettime(int, struct timespec *);

// a plan as an entry takes it: N, then T, C, D, X, A and J of each string
typedef struct { uint32_t of[NUMBERS]; size_t n; } Plan;
enum { T, C, D, X, A, J };

static uint32_t below(uint32_t n) { return (uint32_t)rand() % n; }
static double now(void) { struct timespec t; clock_gettime(CLOCK_PROCESS_CPUTIME_ID, &t); return (double)t.tv_sec + 1e-9 * (double)t.tv_nsec; }
static uint32_t *string(Plan *p, size_t i) { return p->of + 1 + 6 * i; }
static const uint32_t *kept(const Plan *p, size_t i) { return p->of + 1 + 6 * i; }

// ---- the peer

static uint32_t gcd(uint32_t a, uint32_t b) { while (b) { uint32_t r = a % b; a = b; b = r; } return a; }
static uint32_t multiple(const Plan *p) {
    uint64_t h = 1;
    for (size_t i = 0; i < p->n; i++) { uint32_t t = kept(p, i)[T]; h = h / gcd((uint32_t)h, t) * t; if (h > 100000) return 0; }
    return (uint32_t)h;
}
static int bounded(const uint32_t *s) {
    return s[T] >= 1 && s[T] <= 1000 && s[D] >= 1 && s[D] <= s[T] && s[J] < s[D] && s[C] >= 1 && s[C] <= s[D] - s[J] && s[X] <= 1 && s[A] <= 1000;
}
static uint32_t hold(const uint32_t *s) { return s[C] + s[A] * s[X]; }
static uint32_t jobs(const uint32_t *s, uint32_t w) { return w + s[J] < s[D] ? 0 : (w + s[J] - s[D]) / s[T] + 1; }

static int passes(const Plan *p) {
    uint32_t h = multiple(p), first = 1000, last = 0;
    if (!h) return 0;
    uint64_t load = 0;
    for (size_t i = 0; i < p->n; i++) {
        const uint32_t *s = kept(p, i);
        if (!bounded(s)) return 0;
        load += (uint64_t)hold(s) * (h / s[T]);
        if (s[D] - s[J] < first) first = s[D] - s[J];
        if (s[D] > last) last = s[D];
    }
    if (load > h) return 0;
    for (uint32_t l = 1; l < last + h; l++) {
        uint32_t top = 0, keepers = 0;
        if (first <= l && l < last)
            for (size_t i = 0; i < p->n; i++) { const uint32_t *s = kept(p, i); if (l < s[D] && hold(s) - 1 > top) top = hold(s) - 1; }
        if (top > l) top = l;
        for (size_t i = 0; i < p->n; i++) { const uint32_t *s = kept(p, i); if (!s[X]) keepers += jobs(s, l) * s[C]; }
        for (uint32_t b = 0; b <= top; b++) {
            uint32_t demand = b + keepers;
            for (size_t i = 0; i < p->n; i++) { const uint32_t *s = kept(p, i); if (s[X]) demand += jobs(s, l - b) * hold(s); }
            if (demand > l) return 0;
        }
    }
    return 1;
}

static const char letters[] = "CDTAJ";
static const int fields[] = {C, D, T, A, J};

// the first value of 0 to 1,000 that passes, or 1,001
static uint32_t peer_limit(const Plan *p, size_t i, int k) {
    int falling = fields[k] == C || fields[k] == A || fields[k] == J;
    for (uint32_t at = 0; at <= 1000; at++) {
        Plan q = *p;
        string(&q, i)[fields[k]] = falling ? 1000 - at : at;
        if (passes(&q)) return string(&q, i)[fields[k]];
    }
    return 1001;
}

// ---- ours

static uint32_t our_limit(const Plan *p, size_t i, int k) {
    uint64_t out[DESK_PLACES];
    uint32_t kind = desk_limit(p->of, 1 + 6 * p->n, i + 1, (uint32_t)letters[k], out, DESK_PLACES);
    return kind == DESK_LIMIT ? (uint32_t)out[0] : kind == DESK_NO_LIMIT ? 1001 : 1002; // 1002: refused
}

static double all_of(const Plan *p, uint32_t (*limit)(const Plan *, size_t, int)) {
    double begin = now();
    uint64_t sum = 0;
    for (size_t i = 0; i < p->n; i++) for (int k = 0; k < 5; k++) sum += limit(p, i, k);
    double took = now() - begin;
    return sum == 1 ? 0 : took;
}
static double ours(const Plan *p) { double a = all_of(p, our_limit), b = all_of(p, our_limit); return a < b ? a : b; }

static void shown(const char *name, const Plan *p, int peer) {
    double our = ours(p);
    if (!peer) { printf("%s: ours %.2f ms\n", name, our * 1e3); return; }
    double other = all_of(p, peer_limit);
    int differ = 0;
    for (size_t i = 0; i < p->n; i++) for (int k = 0; k < 5; k++) differ += our_limit(p, i, k) != peer_limit(p, i, k);
    printf("%s: ours %.2f ms, every value %.1f ms, ratio %.4f, %d differ\n", name, our * 1e3, other * 1e3, our / other, differ);
}

static void set(uint32_t *s, uint32_t t, uint32_t c, uint32_t d, uint32_t x, uint32_t a, uint32_t j) {
    s[T] = t; s[C] = c; s[D] = d; s[X] = x; s[A] = a; s[J] = j;
}

static const uint32_t multiples[] = {98280, 95760, 90090, 83160, 75600, 73920, 72072, 65520, 55440, 96000, 49140, 93600};
enum { MULTIPLES = sizeof multiples / sizeof multiples[0] };
static uint32_t period(uint32_t h) { for (;;) { uint32_t t = 1 + below(1000); if (h % t == 0) return t; } }
static void drawn(uint32_t *s, uint32_t h, int late) {
    s[T] = period(h);
    s[D] = 1 + below(s[T]);
    s[J] = late && s[D] > 1 ? below(s[D]) : 0;
    s[C] = 1 + below(s[D] - s[J] < 4 ? s[D] - s[J] : 4);
    s[X] = below(2);
    s[A] = below(3);
}

static void climb(int climbs, int late) {
    double most = 0;
    for (int c = 0; c < climbs; c++) {
        uint32_t h = multiples[below(MULTIPLES)];
        Plan p = {{20}, STRINGS};
        for (int i = 0; i < STRINGS; i++) drawn(string(&p, i), h, late);
        double took = ours(&p);
        for (int k = 0; k < STEPS; k++) {
            Plan q = p;
            drawn(string(&q, below(STRINGS)), h, late);
            double next = ours(&q);
            if (next >= took) { p = q; took = next; }
        }
        if (took > most) {
            most = took;
            shown(late ? "the slowest so far, with late days" : "the slowest so far", &p, 0);
            for (int i = 0; i < STRINGS; i++) { uint32_t *s = string(&p, i); printf(" (%u,%u,%u) X %u A %u J %u", s[T], s[C], s[D], s[X], s[A], s[J]); }
            printf("\n");
        }
    }
}

int main(int count, char **words) {
    int climbs = count > 1 ? atoi(words[1]) : 5;
    srand(count > 2 ? (unsigned)atoi(words[2]) : 1);
    Plan sample = {{20}, 2};
    set(string(&sample, 0), 10, 3, 5, 1, 1, 0);
    set(string(&sample, 1), 10, 5, 10, 0, 1, 0);
    shown("the sample", &sample, 1);
    // ten short periods: a step on most days
    Plan steps = {{20}, STRINGS};
    static const uint32_t t[] = {20, 21, 22, 24, 28, 30, 33, 35, 36, 40};
    for (int i = 0; i < STRINGS; i++) set(string(&steps, i), t[i], 1, t[i], (uint32_t)i % 2, 1, 0);
    shown("ten periods, a step on most days", &steps, 1);
    Plan late = steps;
    for (int i = 0; i < STRINGS; i++) set(string(&late, i), 960 >> i % 4, 2, 900 >> i % 4, (uint32_t)i % 2, 1, 100 >> i % 4);
    shown("ten strings with late days", &late, 1);
    uint64_t differ = 0, asked = 0;
    for (int k = 0; k < 2000; k++) {
        Plan p = {{20}, 1 + below(3)};
        for (size_t i = 0; i < p.n; i++) {
            uint32_t *s = string(&p, i);
            s[T] = 1 + below(12); s[D] = 1 + below(s[T]); s[J] = below(2) ? below(s[D]) : 0; s[C] = 1 + below(s[D] - s[J]); s[X] = below(2); s[A] = below(4);
        }
        size_t i = below((uint32_t)p.n);
        for (int x = 0; x < 5; x++) { asked++; differ += our_limit(&p, i, x) != peer_limit(&p, i, x); }
    }
    printf("%lu limits of random plans: %lu differ\n", asked, differ);
    climb(climbs, 0);
    climb(climbs, 1);
    return differ != 0;
}

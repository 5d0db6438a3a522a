// Climbs for plans on which the desk's search is slow: one number of one string is changed at a time, and what is slower is kept. Each line is
// the slowest so far. `bench/run worst [CLIMBS [SEED]]`.
#include "desk.h"
struct timespec { long tv_sec, tv_nsec; };
enum { CLOCK_PROCESS_CPUTIME_ID = 2, STRINGS = 10, NUMBERS = 1 + 6 * STRINGS, STEPS = 3000 };
int printf(const char *, ...);
int atoi(const char *);
void *memcpy(void *, const void *, size_t);
int rand(void);
void srand(unsigned int);
int clock_gettime(int, struct timespec *);

// a plan as an entry takes it: N, then T, C, D, X, A and J of each string; no string has late days
typedef struct { uint32_t of[NUMBERS]; } Plan;

// numbers with many divisors up to 1,000, so that ten strings find different periods with a large H
static const uint32_t multiples[] = {98280, 95760, 90090, 83160, 75600, 73920, 72072, 65520, 55440, 96000, 49140, 93600};
enum { MULTIPLES = sizeof multiples / sizeof multiples[0] };

static uint32_t below(uint32_t n) { return (uint32_t)rand() % n; }

static uint32_t period(uint32_t h) {
    for (;;) { uint32_t t = 1 + below(1000); if (h % t == 0) return t; }
}

// the least of three
static double seconds(const Plan *p) {
    uint64_t out[DESK_PLACES];
    double best = 1e9;
    for (int k = 0; k < 3; k++) {
        struct timespec a, b;
        clock_gettime(CLOCK_PROCESS_CPUTIME_ID, &a);
        if (desk_search(p->of, NUMBERS, out, DESK_PLACES) == DESK_REFUSED) return 0;
        clock_gettime(CLOCK_PROCESS_CPUTIME_ID, &b);
        double took = (double)(b.tv_sec - a.tv_sec) + 1e-9 * (double)(b.tv_nsec - a.tv_nsec);
        if (took < best) best = took;
    }
    return best;
}

static void drawn(uint32_t *s, uint32_t h) {
    s[0] = period(h);
    s[2] = 1 + below(s[0]);
    s[1] = 1 + below(below(4) ? (s[2] < 8 ? s[2] : 8) : s[2]);
    s[3] = below(2);
    s[4] = below(3) ? below(3) : below(40);
}

// one number of one string another, near what it was or anywhere; the string stays lawful
static void changed(uint32_t *s, uint32_t h) {
    switch (below(5)) {
    case 0: drawn(s, h); return;
    case 1: s[0] = period(h); break;
    case 2: s[2] = below(2) ? 1 + below(s[0]) : s[2] + below(9) - 4; break;
    case 3: s[1] = below(2) ? 1 + below(s[2]) : s[1] + below(5) - 2; break;
    default: s[4] = below(3) ? below(3) : below(40);
    }
    if (s[2] < 1 || s[2] > s[0]) s[2] = s[0];
    if (s[1] < 1 || s[1] > s[2]) s[1] = 1;
}

static void shown(const Plan *p, double took) {
    printf("%7.3f ms", took * 1e3);
    for (int i = 0; i < STRINGS; i++) {
        const uint32_t *s = p->of + 1 + 6 * i;
        printf(" (%u,%u,%u) %u", s[0], s[1], s[2], s[4]);
    }
    printf("\n");
}

int main(int count, char **words) {
    int climbs = count > 1 ? atoi(words[1]) : 40;
    srand(count > 2 ? (unsigned)atoi(words[2]) : 1);
    double most = 0;
    for (int c = 0; c < climbs; c++) {
        uint32_t h = multiples[below(MULTIPLES)];
        Plan p = {{20}};
        for (int i = 0; i < STRINGS; i++) drawn(p.of + 1 + 6 * i, h);
        double now = seconds(&p);
        for (int k = 0; k < STEPS; k++) {
            Plan q = p;
            changed(q.of + 1 + 6 * below(STRINGS), h);
            if (below(3) == 0) changed(q.of + 1 + 6 * below(STRINGS), h);
            double took = seconds(&q);
            if (took >= now) { p = q; now = took; }
        }
        if (now > most) { most = now; shown(&p, now); }
    }
    return 0;
}

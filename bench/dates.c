// The usual civil-date formulas (era, year of the era, March as the first month), and a clock for them and for the calendar's functions.
// It declares what it uses of the C library itself: the kit's compiler builds it for x86-64 on any machine, without the library's headers.
#include "desk.h"
struct timespec { long tv_sec, tv_nsec; };
enum { CLOCK_PROCESS_CPUTIME_ID = 2, DAYS = 146097, ROUNDS = 60 };
int printf(const char *, ...);
int clock_gettime(int, struct timespec *);

// 512 times the year, 32 times the month, and the day; 0 refused
static uint64_t our_date(uint32_t day) {
    uint64_t out[DESK_PLACES];
    return desk_date(day, out, DESK_PLACES) == DESK_DATE ? out[0] * 512 + out[1] * 32 + out[2] : 0;
}

// 4294967295 refused
static uint32_t our_day(uint32_t year, uint32_t month, uint32_t day) {
    uint64_t out[DESK_PLACES];
    return desk_day(year, month, day, out, DESK_PLACES) == DESK_DAY ? out[0] : 4294967295;
}

// 1 January 2000, counted from 1 March of the year 0
enum { EPOCH = 730425 };

__attribute__((noinline)) static uint64_t civil_from_days(uint32_t day) {
    uint32_t z = day + EPOCH, era = z / 146097, doe = z - era * 146097;
    uint32_t yoe = (doe - doe / 1460 + doe / 36524 - doe / 146096) / 365;
    uint32_t doy = doe - (365 * yoe + yoe / 4 - yoe / 100), mp = (5 * doy + 2) / 153;
    uint32_t d = doy - (153 * mp + 2) / 5 + 1, m = mp < 10 ? mp + 3 : mp - 9, y = yoe + era * 400 + (m <= 2);
    return (uint64_t)y * 512 + m * 32 + d;
}

__attribute__((noinline)) static uint32_t days_from_civil(uint32_t y, uint32_t m, uint32_t d) {
    y -= m <= 2;
    uint32_t era = y / 400, yoe = y - era * 400, doy = (153 * (m > 2 ? m - 3 : m + 9) + 2) / 5 + d - 1;
    return era * 146097 + yoe * 365 + yoe / 4 - yoe / 100 + doy - EPOCH;
}

static double now(void) { struct timespec t; clock_gettime(CLOCK_PROCESS_CPUTIME_ID, &t); return t.tv_sec + t.tv_nsec * 1e-9; }

static uint64_t dates[DAYS];

static uint64_t all_dates(int ours) {
    uint64_t sum = 0;
    if (ours) for (uint32_t k = 0; k < DAYS; k++) sum += our_date(k);
    else for (uint32_t k = 0; k < DAYS; k++) sum += civil_from_days(k);
    return sum;
}

static uint64_t all_days(int ours) {
    uint64_t sum = 0;
    if (ours) for (uint32_t k = 0; k < DAYS; k++) sum += our_day(dates[k] / 512, dates[k] / 32 % 16, dates[k] % 32);
    else for (uint32_t k = 0; k < DAYS; k++) sum += days_from_civil(dates[k] / 512, dates[k] / 32 % 16, dates[k] % 32);
    return sum;
}

static void clocked(const char *name, uint64_t (*run)(int)) {
    double best[2] = {1e9, 1e9};
    uint64_t said[2] = {0};
    for (int round = 0; round < ROUNDS; round++)
        for (int ours = 0; ours < 2; ours++) {
            double start = now();
            said[ours] = run(ours);
            double spent = now() - start;
            if (spent < best[ours]) best[ours] = spent;
        }
    printf("%-24s ours %6.3f ms  civil-date formulas %6.3f ms  ratio %4.2f  %s\n", name, best[1] * 1e3, best[0] * 1e3, best[1] / best[0],
        said[0] == said[1] ? "same" : "DIFFERENT");
}

int main(void) {
    int bad = 0;
    for (uint32_t k = 0; k < DAYS; k++) {
        dates[k] = civil_from_days(k);
        bad += our_date(k) != dates[k] || our_day(dates[k] / 512, dates[k] / 32 % 16, dates[k] % 32) != k;
    }
    for (uint32_t k = DAYS; k < 2 * DAYS; k++) bad += our_date(k) != 0;
    bad += our_day(2001, 2, 29) != 4294967295 || our_day(2400, 1, 1) != 4294967295 || our_day(1999, 12, 31) != 4294967295;
    printf("%d days both ways: %d differ\n", DAYS, bad);
    clocked("dates of all days", all_dates);
    clocked("day numbers of all dates", all_days);
    return 0;
}

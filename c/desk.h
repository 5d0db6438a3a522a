/* The planning desk for C and C++ programs. `tools/build entries archive` proves the entries and writes target/staticlib/libentries.a, for
 * x86-64 Linux; it wants nothing beside it but the C library. c/example.c shows each entry, c/example.rs the same from Rust.
 *
 * A plan is a row of numbers: N, then T, C, D, X, A and J of each string, by place: 1 + 6 n numbers for n strings.
 *     N  days of the run                                   1 to 1,000,000
 *     T  least days between two due days of the string     1 to 1,000
 *     C  most working days of a job                        1 to D - J
 *     D  days from a due day to its deadline               1 to T
 *     X  1: its jobs may take the bank, 0: they may not
 *     A  moving days that a job pays which takes the bank  0 to 1,000
 *     J  late days: a job may come so many days after it is due   0 to D - 1
 * n is 1 to 10, and the least common multiple of all T is at most 100,000.
 *
 * Releases are a row of numbers too: day, place (of the string, from 1), need (working days) and due day of each, at most 1,000 releases. Days
 * never fall, a day is below N and 0 to J days after its due day, a need is 1 to C, and due days of one place are at least T days apart. The
 * deadline is due day plus D. Where nothing comes late, J is 0 and the due day is the day.
 *
 * Every entry answers for whatever is lent: what lies outside these bounds is refused, with a number and a place.
 *
 * What is lent: a pointer, and behind it how many elements there are. The pointer is not null, even where the count is 0, and has the
 * alignment of its type. What an entry writes to does not overlap what it reads. An entry reads and writes nothing else, keeps no pointer
 * after it has returned and has no state: any number of threads may call at once. 256 kB of stack are enough (measured, not proved).
 *
 * What is told: an entry with `out` returns a kind, one of those below, and writes four numbers to out[0] to out[3], 0 where the kind has
 * fewer than four. out[4] and later places stay as they are. Where `room` is below DESK_PLACES nothing is written, and DESK_NO_ROOM is
 * returned whatever the answer is. */
#ifndef DESK_H
#define DESK_H

#include <stddef.h>
#include <stdint.h>

#ifdef __cplusplus
extern "C" {
#endif

/* The places that `out` needs, the bytes that every answer of desk_answer fits in, and the numbers that every list of desk_stints fits in. */
enum { DESK_PLACES = 4, DESK_PAGE = 256, DESK_STINT_LIST = 15005 };

/* The kinds, each with its numbers in the order of out. */
enum {
    DESK_REFUSED = 0,   /* the refusal number, and where: a place, a place in the release list, or 0 for the whole */
    DESK_PASS = 1,      /* pairs compared */
    DESK_FAIL = 2,      /* interval, blocking, demand there, pairs compared */
    DESK_OVERLOAD = 3,  /* pairs compared, which are 0 */
    DESK_TAKERS = 4,    /* the set: place 1 is worth 1, place 2 is worth 2, place 3 is worth 4 */
    DESK_NOBODY = 5,    /* no set passes */
    DESK_CLEAN = 6,     /* days of work, days of moving, idle days */
    DESK_MISS = 7,      /* the day and the place of the first miss */
    DESK_LAWFUL = 8,    /* nothing is refused */
    DESK_NO_ROOM = 9,   /* room is below DESK_PLACES: nothing is written */
    DESK_DATE = 10,     /* year, month, day of the month */
    DESK_DAY = 11,      /* the day number */
    DESK_STINTS = 12,   /* how many stints are listed */
    DESK_NONE_PASSES = 13,    /* no list of releases misses: the plan passes */
    DESK_NONE_MISSES = 14,    /* no list of releases misses, though the plan fails */
    DESK_LIST_MISSES = 15,    /* a list misses: the days of its run */
    DESK_LIST_TOO_LONG = 16,  /* a list misses, and it has over 1,000 releases */
    DESK_NONE_FOUND = 17,     /* the plan fails, and no list was found that misses: not guaranteed */
    DESK_LIMIT = 18,          /* the limit of a number */
    DESK_NO_LIMIT = 19        /* with no lawful value does the plan pass */
};

/* The refusal numbers of entries that take numbers, in the order in which they are looked for. */
enum {
    DESK_STRING_COUNT = 4,      /* n is not 1 to 10, or the numbers are not 1 + 6 n; with 0 */
    DESK_OUT_OF_BOUNDS = 5,     /* N, with 0; a set of 2^n or more, with 0; then T, C, D, X, A or J, with the string's place */
    DESK_MULTIPLE_OVER = 6,     /* the least common multiple of all T is over 100,000; with 0 */
    DESK_RELEASE_TOO_MANY = 7,  /* more than 1,000 releases; with 1,001 */
    DESK_RELEASE_UNLAWFUL = 8,  /* with the place in the list, from 1, of the first release that may not stand there; one that lacks a
                                   number is such a release */
    DESK_LIST_TOO_SHORT = 9,    /* a list has fewer places than five for each stint; with 0 */
    DESK_NO_SUCH_DATE = 10,     /* a date that does not exist, or a day outside the calendar; with 0 */
    DESK_TEXT_TOO_LONG = 1,     /* a visit list of over 65,536 bytes; with 0 */
    DESK_ROW_MALFORMED = 13,    /* a line of a visit list that is not three numbers; with its number */
    DESK_VISIT_UNLAWFUL = 14,   /* with the number of the record */
    DESK_SUM_DIFFERS = 15       /* with the place of the release in its list */
};

/* Whether a plan is lawful: DESK_LAWFUL, or DESK_REFUSED with 4, 5 or 6. */
uint32_t desk_check(const uint32_t *plan, size_t count, uint64_t *out, size_t room);

/* H, the least common multiple of all T; 100,001 where it is over 100,000 or some T is 0. Numbers that are no plan of at most ten strings
 * have no string, and H 1. */
uint32_t desk_multiple(const uint32_t *plan, size_t count);

/* The verdict on a plan with the X that it carries: DESK_PASS, DESK_FAIL, DESK_OVERLOAD, or DESK_REFUSED with 4, 5 or 6. A plan that passes
 * never misses a deadline, whatever is released. */
uint32_t desk_verdict(const uint32_t *plan, size_t count, uint64_t *out, size_t room);

/* The verdict on a plan with the permission set given, in place of its X: kinds as desk_verdict. */
uint32_t desk_verdict_with(const uint32_t *plan, size_t count, uint32_t set, uint64_t *out, size_t room);

/* The quick verdict: as desk_verdict in all but its count of pairs, which is its own and smaller. */
uint32_t desk_quick(const uint32_t *plan, size_t count, uint64_t *out, size_t room);

/* The passing set with the fewest takers, among equals the smallest number: DESK_TAKERS, DESK_NOBODY, or DESK_REFUSED with 4, 5 or 6. The
 * plan's X plays no part. */
uint32_t desk_search(const uint32_t *plan, size_t count, uint64_t *out, size_t room);

/* How far a number of a string can go, all else as it is: the hardest lawful value with which the plan passes. `place` is the string's, from
 * 1, and `letter` names the number, as 'C': C, D, T, A or J; the largest C, A and J, the smallest D and T. DESK_LIMIT, DESK_NO_LIMIT, or
 * DESK_REFUSED with 4, 5 or 6. Where there is no string at the place, and for another letter, there is no limit. */
uint32_t desk_limit(const uint32_t *plan, size_t count, size_t place, uint32_t letter, uint64_t *out, size_t room);

/* How the run of a plan ends under a list of releases, with the X that the plan carries: DESK_CLEAN, DESK_MISS, or DESK_REFUSED with 4 to
 * 8. listed is 4 for each release. */
uint32_t desk_run(const uint32_t *plan, size_t count, const uint32_t *releases, size_t listed, uint64_t *out, size_t room);

/* Whether a plan can miss, with the X that it carries, whatever N: DESK_NONE_PASSES, DESK_NONE_MISSES, DESK_LIST_MISSES, DESK_LIST_TOO_LONG,
 * DESK_NONE_FOUND, or DESK_REFUSED with 4, 5 or 6. All but DESK_NONE_FOUND are proved: after the first two no lawful list of releases makes
 * desk_run say DESK_MISS; after the next two some list does. `clerk miss` writes the list of DESK_LIST_MISSES. */
uint32_t desk_can_miss(const uint32_t *plan, size_t count, uint64_t *out, size_t room);

/* The stints of that run: its days, from the first to the last, in stretches on which the bank did one thing; up to, not into, the day of the
 * miss where there is one. Five numbers for each go to the head of `list`: first day, length in days, kind, place, release (its place in the
 * list of releases, from 1). Kind is 0 for idle days, with place and release 0; 1 for work; 2 for moving. DESK_STINTS, or DESK_REFUSED with 4
 * to 8, then 9; on a refusal the list stays as it is, and so do its places behind the last stint. `size` is the list's places; a run has at
 * most 3 stints for each release and 1 more, so that DESK_STINT_LIST places are always enough. */
uint32_t desk_stints(const uint32_t *plan, size_t count, const uint32_t *releases, size_t listed, uint32_t *list, size_t size,
                     uint64_t *out, size_t room);

/* Whether a contractor's visit list is accepted for a plan and its releases: DESK_LAWFUL, or DESK_REFUSED with 4 to 8; then with 1 and 0 for a
 * list of over 65,536 bytes; then with 13 and the number of the first line that is no visit; 14 and the number of the first record that breaks
 * a rule on its own or against those before it; 15 and the first release whose visits do not add up. `visits` is a text of `length` bytes, a
 * line for each visit: release (its place in the list of releases, from 1), first day and length in decimal, between commas, at most seven
 * digits each without leading zeros, ended by CR LF. */
uint32_t desk_check_visits(const uint32_t *plan, size_t count, const uint32_t *releases, size_t listed, const uint8_t *visits, size_t length,
                           uint64_t *out, size_t room);

/* The lines that ./desk writes for a plan file: `text` is the file, `length` bytes, and need not end in 0. The lines go to the head of
 * `page`, and their length is returned; the page's later bytes stay, and no 0 is put behind the lines. Where they do not fit into `size`
 * bytes nothing is written and 0 is returned. With size DESK_PAGE they always fit. */
size_t desk_answer(const uint8_t *text, size_t length, uint8_t *page, size_t size);

/* The date of a day number, 0 for 1 January 2000 (a Saturday) to 146,096 for 31 December 2399: DESK_DATE, or DESK_REFUSED with 10. */
uint32_t desk_date(uint32_t day, uint64_t *out, size_t room);

/* The day number of a date: DESK_DAY, or DESK_REFUSED with 10. */
uint32_t desk_day(uint32_t year, uint32_t month, uint32_t day, uint64_t *out, size_t room);

#ifdef __cplusplus
}
#endif

#endif

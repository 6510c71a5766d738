/*
 * An index of signals by retention time (milliseconds) and mass (mass-to-charge, in thousandths): formats a pool,
 * places, lists, removes, and prints what each call gives. The Makefile says how it is built; expected.txt has what it
 * writes.
 */
#include <inttypes.h>
#include <stdio.h>

#include "korytanka.h"

enum { K = 2, PAGES = 8, WORDS = PAGES * KORYTANKA_PAGE_WORDS, SLOTS = 3 };

/* The pool is lent to every call; the work buffer, as long as the pool, to place alone. */
static uint32_t pool[WORDS];
static uint32_t work[WORDS];

struct signal {
    uint32_t point[K]; /* retention time, mass */
    uint32_t location; /* where the recording lies */
};

/* The tenth fills a page past its nine places. It is cut at 120000 ms, the time of the three masses of caffeine. */
static const struct signal signals[] = {
    {{120000, 195088}, 1000}, {{95400, 181072}, 1001},  {{98100, 181072}, 1002},  {{120000, 138066}, 1003},
    {{64800, 149023}, 1004},  {{201300, 445120}, 1005}, {{120000, 110071}, 1006}, {{152700, 286144}, 1007},
    {{33900, 124039}, 1008},  {{176100, 609281}, 1009}, {{48600, 163123}, 1010},  {{120000, 195088}, 1011},
};

static void place(const struct signal *s) {
    uint32_t number = korytanka_place(pool, WORDS, work, WORDS, s->point, K, s->location);
    printf("place %" PRIu32 " ms, mass %" PRIu32 ": %" PRIu32 "%s\n", s->point[0], s->point[1], number,
           number == KORYTANKA_REFUSED_PRESENT ? ", already there" : "");
}

static void find(uint32_t time, uint32_t mass) {
    const uint32_t point[K] = {time, mass};
    korytanka_found found = korytanka_find(pool, WORDS, point, K);
    printf("find %" PRIu32 " ms, mass %" PRIu32 ": %" PRIu32, time, mass, found.number);
    if (found.number == KORYTANKA_DONE)
        printf(", location %" PRIu32 ", pages read %" PRIu32, found.location, found.reads);
    printf("\n");
}

/* The window's lower ends come first, then its upper ends; both edges count. */
static void list(uint32_t from, uint32_t to, uint32_t lightest, uint32_t heaviest) {
    const uint32_t window[2 * K] = {from, lightest, to, heaviest};
    uint32_t answer[SLOTS] = {0};
    korytanka_listed listed = korytanka_list(pool, WORDS, window, 2 * K, answer, SLOTS);
    printf("list %" PRIu32 " to %" PRIu32 " ms, masses %" PRIu32 " to %" PRIu32 ": %" PRIu32, from, to, lightest,
           heaviest, listed.number);
    if (listed.number == KORYTANKA_DONE) {
        printf(", total %" PRIu32 ", pages read %" PRIu32 "%s", listed.total, listed.reads,
               listed.total > 0 ? ", locations" : "");
        for (uint32_t i = 0; i < listed.total && i < SLOTS; i++)
            printf(" %" PRIu32, answer[i]);
        if (listed.total > SLOTS)
            printf(" and %" PRIu32 " more", listed.total - SLOTS);
    }
    printf("\n");
}

static void remove_at(uint32_t time, uint32_t mass) {
    const uint32_t point[K] = {time, mass};
    korytanka_removed removed = korytanka_remove(pool, WORDS, point, K);
    printf("remove %" PRIu32 " ms, mass %" PRIu32 ": %" PRIu32, time, mass, removed.number);
    if (removed.number == KORYTANKA_DONE)
        printf(", location %" PRIu32, removed.location);
    printf("\n");
}

int main(void) {
    printf("format with 5 domains: %" PRIu32 "\n", korytanka_format(pool, WORDS, 5));
    printf("format with 2 domains: %" PRIu32 "\n", korytanka_format(pool, WORDS, K));

    for (size_t i = 0; i < sizeof signals / sizeof signals[0]; i++)
        place(&signals[i]);

    find(120000, 195088);
    find(120001, 195088);

    /* Caffeine lies on the edge between two pages, and is listed whichever side the window comes from. A window that ends
     * a millisecond before it does not read its page. */
    list(120000, 120000, 0, 500000);
    list(120000, 180000, 195000, 195200);
    list(95000, 120000, 195000, 195200);
    list(95000, 119999, 195000, 195200);

    list(30000, 180000, 100000, 200000);
    list(180000, 30000, 100000, 200000);

    remove_at(120000, 138066);
    remove_at(120000, 138066);
    list(120000, 120000, 0, 500000);

    /* With no slots a list only counts. */
    const uint32_t all[2 * K] = {0, 0, KORYTANKA_MOST_KEY, KORYTANKA_MOST_KEY};
    korytanka_listed counted = korytanka_list(pool, WORDS, all, 2 * K, NULL, 0);
    printf("all: %" PRIu32 ", total %" PRIu32 ", pages read %" PRIu32 "\n", counted.number, counted.total, counted.reads);

    /* A word written by another hand: the pool is not sound, and place will not touch it. */
    printf("check: %" PRIu32 "\n", korytanka_check(pool, WORDS));
    pool[4] += 1;
    printf("check of a spoilt pool: %" PRIu32 "\n", korytanka_check(pool, WORDS));
    const uint32_t next[K] = {87000, 212050};
    printf("place in a spoilt pool: %" PRIu32 "\n", korytanka_place(pool, WORDS, work, WORDS, next, K, 1012));
    return 0;
}

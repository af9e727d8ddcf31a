/*
 * A whole program over include/budgieleaf.h: reads a log, adds a trace by hand, and lists the rules that nine of ten traces
 * fulfil. From the root of the repository:
 *
 *     tools/build
 *     gcc -std=c99 -Wall -Wextra -I include samples/example.c target/staticlib/libcapi.a -o target/example && target/example
 */
#include <inttypes.h>
#include <stdio.h>
#include <string.h>

#include "budgieleaf.h"

/* All the memory there is: 64 events, 8 traces, 90 rules of five numbers. */
static uint32_t store[2];
static uint8_t events[64];
static uint32_t ends[8];
static uint32_t words[8];
static uint16_t list[5 * 90];

static int refused(const char *call, uint32_t number, uint64_t detail)
{
    printf("%s: refusal %" PRIu32 ", detail %" PRIu64 "\n", call, number, detail);
    return 1;
}

static uint32_t add(const uint8_t *trace, size_t length, uint64_t answer[4])
{
    return budgieleaf_add(store, events, sizeof events, ends, sizeof ends / sizeof *ends, words, sizeof words / sizeof *words,
                          trace, length, answer);
}

/* By a threshold alone: with a confidence of 0. */
static uint32_t find(uint32_t threshold, size_t rules, uint64_t answer[4])
{
    return budgieleaf_find(store, events, sizeof events, ends, sizeof ends / sizeof *ends, words, sizeof words / sizeof *words,
                           threshold, 0, list, 5 * rules, answer);
}

int main(void)
{
    /* Activities: 0 tip, 1 wash, 2 sort. */
    static const char log[] = "     1  0\n     1  1\n     1  2\n"
                              "     2  0\n     2  1\n     2  1\n     2  2\n"
                              "     5  0\n     5  2\n";
    static const uint8_t by_hand[] = {0, 1, 2};
    static const uint8_t mistyped[] = {0, 7, 1, 9};
    uint64_t answer[4];
    uint32_t number = budgieleaf_open(3, store);

    if (number != 0)
        return refused("open", number, 0);

    number = budgieleaf_read(store, events, sizeof events, ends, sizeof ends / sizeof *ends, words, sizeof words / sizeof *words,
                             (const uint8_t *)log, strlen(log), answer);
    if (number != 0)
        return refused("read", number, answer[0]);
    printf("read: %" PRIu64 " traces\n", answer[0]);

    number = add(by_hand, sizeof by_hand, answer);
    if (number != 0)
        return refused("add", number, answer[0]);
    printf("add: %" PRIu32 " traces are kept\n", store[1]);

    /* An empty trace, as of a run that was booked and cancelled, is kept, and a find passes over it. */
    number = add(by_hand, 0, answer);
    if (number != 0)
        return refused("add", number, answer[0]);
    printf("add: %" PRIu32 " traces are kept, the last of them empty\n", store[1]);

    /* A refused call changes nothing, and says why: the first mistyped activity stands at place 2. */
    number = add(mistyped, sizeof mistyped, answer);
    if (number != 0)
        refused("add", number, answer[0]);

    /* A list that is too short says how many rules it needs. */
    number = find(900, 0, answer);
    if (number == 10)
        refused("find", number, answer[0]);

    number = find(900, sizeof list / sizeof *list / 5, answer);
    if (number != 0)
        return refused("find", number, answer[0]);
    printf("find: %" PRIu64 " rules, %" PRIu64 " replayed, %" PRIu64 " traces, %" PRIu64 " events read\n", answer[0], answer[1],
           answer[2], answer[3]);
    for (uint64_t k = 0; k < answer[0]; k++)
        printf("%2d %2d %2d %4d %4d\n", list[5 * k], list[5 * k + 1], list[5 * k + 2], list[5 * k + 3], list[5 * k + 4]);
    return 0;
}

/*
 * A whole program over include/budgieleaf.h: watches one run step by step, and stops at the first rule that can no longer
 * hold. From the root of the repository:
 *
 *     tools/build
 *     gcc -std=c99 -Wall -Wextra -I include samples/watch.c target/staticlib/libcapi.a -o target/watch && target/watch
 */
#include <inttypes.h>
#include <stdio.h>

#include "budgieleaf.h"

#define NUMBERS (sizeof rules / sizeof *rules)

/* Activities: 0 tip, 1 wash, 2 sort, 3 pack, 4 check. The rules are never written, and may lie in read-only memory. */
static const uint16_t rules[] = {
    7,  0, 0, /* the first step is a tip */
    14, 0, 1, /* each tip has a later wash */
    17, 1, 2, /* each sort has an earlier wash */
    1,  3, 3, /* there is a pack */
    16, 4, 1, /* each check has a wash as the very next step */
    8,  3, 3, /* the last step is a pack */
    23, 3, 0, /* no pack has a later tip */
};

/* All the memory there is: 3 numbers and 512 bytes. */
static uint32_t watcher[3];
static uint8_t states[256];
static uint8_t told[256];

/* 0 holds and always will, 1 holds, 2 does not hold yet, 3 can no longer hold. */
static void print_told(void)
{
    for (uint32_t k = 0; k < watcher[1]; k++)
        printf(" %d", told[k]);
    printf("\n");
}

/* The first rule that can no longer hold, from 0, or the number of rules where there is none. */
static uint32_t first_broken(void)
{
    uint32_t k = 0;

    while (k < watcher[1] && told[k] != 3)
        k++;
    return k;
}

int main(void)
{
    /* The 9 is mistyped. */
    static const uint32_t run[] = {0, 1, 2, 4, 9, 1, 2, 3, 0, 1, 3};
    uint32_t number = budgieleaf_watch_start(5, watcher, rules, NUMBERS, states, told);

    if (number != 0) {
        printf("start: refusal %" PRIu32 "\n", number);
        return 1;
    }
    printf("start: %" PRIu32 " rules over %" PRIu32 " activities\n", watcher[1], watcher[0]);
    printf("before the first step:");
    print_told();
    for (size_t i = 0; i < sizeof run / sizeof *run; i++) {
        uint32_t k;

        /* A refused step changes nothing: the run goes on as if it had not come. */
        number = budgieleaf_watch_step(watcher, rules, NUMBERS, states, told, run[i]);
        if (number != 0) {
            printf("step %" PRIu32 ": refusal %" PRIu32 ", ignored\n", run[i], number);
            continue;
        }
        printf("step %" PRIu32 ":", run[i]);
        print_told();
        k = first_broken();
        if (k < watcher[1]) {
            printf("stop after %" PRIu32 " steps: rule %" PRIu32 " (template %d, a %d, b %d) can no longer hold\n", watcher[2], k + 1,
                   rules[3 * k], rules[3 * k + 1], rules[3 * k + 2]);
            return 0;
        }
    }
    printf("every rule holds or still can\n");
    return 0;
}

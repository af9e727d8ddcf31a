/*
 * Budgieleaf from C: a store of traces, the constraints (DECLARE templates) that hold over them, and a watcher that tells
 * while a trace grows which constraints still hold.
 *
 * Link with target/staticlib/libcapi.a, which `tools/build` makes (x86-64 Linux). The archive needs the C library's
 * memset and nothing else, allocates nothing, keeps nothing between calls and prints nothing. Calls on different memory
 * may run at the same time.
 *
 * Each function is proved against the contract in crates/capi/src/lib.rt. Nothing proves this header: it is written by
 * hand after that source.
 *
 * WHAT IS LENT
 *   store    2 numbers, the record of a store: store[0] is N, the number of declared activities; store[1] is the number
 *            of traces kept. `budgieleaf_open` sets both. Keep it with its three buffers.
 *   events   the kept activities, one byte each, trace after trace. `events_length` is the room, in bytes.
 *   ends     the k-th number is the length of the first k traces together. `ends_length` is the room, in numbers.
 *   words    one number for each kept trace: bit s (1u << s) is set just when activity s occurs in it, so that an empty
 *            trace's is 0. `words_length` is the room, in numbers.
 *   answer   4 numbers that the call writes, refused or not: see each call.
 * A length counts elements and not bytes. What is lent must be there in full, at its type's alignment, for the whole
 * call, and what a call writes must not overlap anything else that it is lent. No pointer may be null, also where its
 * length is 0. Any numbers and bytes may stand in what is lent. Where record and buffers are no sound store (below,
 * budgieleaf_is_sound), add, read and find answer 1; damage that leaves a sound store is not noticed.
 *
 * WHAT IS RETURNED
 * 0 where the call is accepted, else the number of the refusal; answer[0] is then its detail. The other numbers of
 * `answer` are 0 unless said below. A refused call leaves all else that is lent as it was: the store, its three buffers
 * and the list, and of the watcher its record and both arrays.
 *
 * REFUSALS, in README's words: a run is a trace, a step an activity, a rule a constraint; the step buffer is `events`,
 * the ends slice `ends`, the word slice `words`.
 *       what                                                             detail         who causes it
 *    1  store not sound                                                  0              the program that lends memory
 *    2  N not 1 to 32                                                    0              the operator
 *    3  threshold not 1 to 1000                                          0              the operator
 *    4  malformed line                                                   line           the writer of the log
 *    5  run number lower than the line before                            line           the writer of the log
 *    6  step not below N                                                 line or place  the writer of the log or run
 *    7  run longer than 4096                                             line           the writer of the log or run
 *    8  run count already 4095, or the length of the ends or word slice  line           the program that lends memory
 *    9  steps don't fit in the step buffer behind the last end           line           the program that lends memory
 *   10  list shorter than five numbers for each rule to be listed        rules needed   the program that lends memory
 *   11  no run of length 1 or more kept                                  0              the operator
 *   12  more than 65536 bytes of input                                   0              the program that lends memory
 *   13  rule cut short, without template 1 to 24, or wrong steps         0              the writer of the rules
 *   14  more than 256 rules                                              0              the writer of the rules
 *   15  confidence above 1000                                            0              the operator
 * What is sound, `budgieleaf_is_sound` says. A line is the log's, from 1. Add has no lines: its detail is 0 in 7, 8
 * and 9, and in 6 the place, from 1, of the first step that is not below N. Open has no answer, and so no detail. Only
 * findrules gives 12. The watcher's start gives 2, 14 and 13, its step 1, 6 and 7, all of them without a detail.
 *
 * TEMPLATES, by number with the field's names; README says when each holds.
 *    1 Existence(1)      9 Choice                   17 Precedence
 *    2 Existence(2)     10 Exclusive Choice         18 Alternate Precedence
 *    3 Existence(3)     11 Co-Existence             19 Chain Precedence
 *    4 Absence(1)       12 Not Co-Existence         20 Succession
 *    5 Absence(2)       13 Responded Existence      21 Alternate Succession
 *    6 Absence(3)       14 Response                 22 Chain Succession
 *    7 Init             15 Alternate Response       23 Not Succession
 *    8 End              16 Chain Response           24 Not Chain Succession
 */
#ifndef BUDGIELEAF_H
#define BUDGIELEAF_H

#include <stdbool.h>
#include <stddef.h>
#include <stdint.h>

#ifdef __cplusplus
extern "C" {
#endif

/*
 * An empty store for n declared activities, 0 to n - 1. Accepted: store is { n, 0 }; the buffers are not touched, and
 * what stood in them does not matter. Refusals: 2.
 */
uint32_t budgieleaf_open(uint32_t n, uint32_t store[2]);

/*
 * Whether the store is sound: N is 1 to 32; at most 4095 traces are kept, and no more than `ends` or `words` has room
 * for; no end is below the one before it (0 before the first) or more than 4096 above it; the last end is at most
 * events_length; each kept activity is below N; each kept word is that of its trace. What the other calls leave of a
 * sound store is sound. Reads the kept events and words once, and the kept ends twice.
 */
bool budgieleaf_is_sound(const uint32_t store[2], const uint8_t *events, size_t events_length, const uint32_t *ends,
                         size_t ends_length, const uint32_t *words, size_t words_length);

/*
 * One trace more, of 0 to 4096 activities, behind those kept. Accepted: answer is { 0, 0, 0, 0 }. An empty trace is kept as
 * any other: it takes an end and a word, the word 0, 8 counts it, and budgieleaf_find passes over it.
 * Refusals, the first that holds: 1, 6, 7, 8, 9. For 6 the detail is the lowest place of an activity not below N.
 */
uint32_t budgieleaf_add(uint32_t store[2], uint8_t *events, size_t events_length, uint32_t *ends, size_t ends_length,
                        uint32_t *words, size_t words_length, const uint8_t *trace, size_t trace_length,
                        uint64_t answer[4]);

/*
 * The traces of a log in columns, behind those kept. A line has 10 bytes: the trace number (1 to 999999) in columns 1
 * to 6, the activity (0 to 999) in 7 to 9, both decimal, right-justified, filled with blanks and without leading zeros;
 * then a line feed. Neighbouring lines with one number are one trace, and a new number must be higher. Trace numbers
 * are not kept, so the first line starts a new trace. An empty log adds nothing.
 * Accepted: answer[0] is the number of traces added.
 * Refusals: 1, and then those of the first line with a fault, the first that holds: 4, 5, 6, 7, 8, 9. Nothing of a
 * refused log is kept.
 */
uint32_t budgieleaf_read(uint32_t store[2], uint8_t *events, size_t events_length, uint32_t *ends, size_t ends_length,
                         uint32_t *words, size_t words_length, const uint8_t *log, size_t log_length,
                         uint64_t answer[4]);

/*
 * The constraints that enough of the kept traces fulfil. R and all counts are taken over the kept traces of length 1 or
 * more; in thousandths, nothing rounded, a constraint is listed where both
 *   1000 * fulfilled >= threshold * R              (threshold 1 to 1000), and
 *   1000 * fulfilled >= confidence * activated     (confidence 0 to 1000; with 0 the threshold alone decides).
 * A trace is fulfilled where the constraint is activated and holds. It is activated in each trace for templates 1 to 10,
 * in those with a for 13 to 16, with b for 17 to 19, and with a or b for 11, 12 and 20 to 24. A constraint that is activated
 * in no trace is never listed: its count is 0, and the threshold at least 1.
 * Each constraint takes five numbers of the list: template (1 to 24), a, b (for templates 1 to 8, a again), the count of
 * traces fulfilled and that of traces activated, by template, then a, then b, rising. Numbers past the last constraint
 * stay as they were. There are at most 14 * N * N - 6 * N constraints, so 5 * 14144 numbers are always enough.
 * Accepted: answer is { constraints listed, constraints replayed after pruning, R, events read }; the other
 * store[1] - R traces are empty. Events read says how many activities replay was handed, each constraint that pruning
 * keeps taken once: those of the traces with a for templates 1 to 3, 7 and 8, of all for 4 to 6, of those with a or b
 * for 9, 10, 12, 23 and 24, of those with both for 11 and 13 to 22. The confidence changes the list alone, and none of the
 * last three numbers.
 * Refusals, the first that holds: 1, 3, 15, 11, 10. Where only empty traces are kept, it is 11.
 */
uint32_t budgieleaf_find(const uint32_t store[2], const uint8_t *events, size_t events_length, const uint32_t *ends,
                         size_t ends_length, const uint32_t *words, size_t words_length, uint32_t threshold,
                         uint32_t confidence, uint16_t *list, size_t list_length, uint64_t answer[4]);

/*
 * WATCHING A RUN WHILE IT GROWS
 *
 * A watcher is started with the number of declared activities and at most 256 constraints, and is then given one
 * activity after another. After the start and after each step it tells of every constraint one of four states, over the
 * activities accepted so far. `Holds` is the template's condition without activation; a continuation is any list of
 * declared activities, of any length, the empty one among them.
 *
 *   told  what it says                            the field's word         what to do
 *    0    holds, and every continuation holds     permanently satisfied    nothing: it stays 0
 *    1    holds, some continuation doesn't        temporarily satisfied    go on; the run may end here
 *    2    doesn't hold, some continuation does    temporarily violated     go on; the run must not end here
 *    3    doesn't hold, and no continuation does  permanently violated     stop: it stays 3
 *
 * Where a run ends, it has kept the constraints told 0 and 1.
 *
 * WHAT IS LENT
 *   watcher      3 numbers, the record: N, the number of constraints, the number of activities taken. The start sets
 *                them. To watch the next run, start again.
 *   constraints  three numbers each: template, a, b, as budgieleaf_find lists them before the counts. They are read and
 *                never written, so they can stay in flash; each step is lent those of the start again.
 *   states       256 bytes, one for each constraint: the states of their automata. Nothing else need be known of them.
 *   told         256 bytes, one for each constraint: the state told, 0 to 3.
 * Bytes of both arrays past the last constraint are never written, and nothing need be set before the start. That is 524
 * bytes beside the constraints; a step takes 1,104 bytes of stack on x86-64, a start 1,088. A step first puts a
 * table of 1,024 bytes onto the stack, some 160 instructions with its checks, and then goes over the constraints once,
 * front to back, with the same work for each whatever its template and state: two comparisons and two look-ups, 16
 * instructions. The time does not grow with the length of the run.
 *
 * What is lent must be there as for the calls above. Pass the record, the arrays and the constraints on as the call
 * before left them. Given others, a step still ends, with 0, 1, 6 or 7: refused it writes nothing, and accepted nothing
 * but the 3 numbers and the 512 bytes, but what it then tells means nothing.
 */

/*
 * Starts to watch, and tells the states before the first activity. Accepted (0): watcher is { n, constraints, 0 }.
 * Refusals, the first that holds: 2 where n is not 1 to 32; 14 where there are more than 256 constraints, that is more
 * than 768 numbers; 13 where a constraint is cut short (constraints_length not divisible by three), has no template 1 to
 * 24, an a or b not below n, or a wrong pair: b not a in templates 1 to 8, a not below b in 9 to 12, a equal to b in 13
 * to 24. A refused start changes nothing that is lent.
 */
uint32_t budgieleaf_watch_start(uint32_t n, uint32_t watcher[3], const uint16_t *constraints, size_t constraints_length,
                                uint8_t states[256], uint8_t told[256]);

/*
 * One activity more. Accepted (0): told has the states over the activities accepted so far, this one among them.
 * Refusals, the first that holds: 6 where the activity is not below N; 7 where 4096 were taken already. A refused step
 * changes nothing that is lent, so watching goes on as if it had not been tried. 1, and first of all, where the record
 * has sizes that no start and steps leave (N above 32, more than 256 constraints, more than 4096 activities taken), or
 * another number of constraints than is lent. Other constraints, of the same number, are not noticed.
 */
uint32_t budgieleaf_watch_step(uint32_t watcher[3], const uint16_t *constraints, size_t constraints_length,
                               uint8_t states[256], uint8_t told[256], uint32_t activity);

#ifdef __cplusplus
}
#endif

#endif

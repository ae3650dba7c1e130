/*
 * The library against the reference on random calls: the number and every byte of the buffer. A text that was written
 * is read back, and of small extracts each coalition is tested. Before these, days are added to every date.
 *
 *     compare [CALLS [SEED [SECONDS]]]
 *
 * Fails if anything differs, if an answer of the documents was never met, or if the calls were not done in time.
 * The library's slices end or start at a page that can't be touched, so a byte read or written outside of
 * one ends the program. An empty slice is a null pointer in every second call.
 */
#include "coverage.h"
#include "fences.h"
#include "random_calls.h"
#include "run.h"

#include <stdbool.h>
#include <string.h>
#include <sys/mman.h>

enum { DATES_SHOWN = 10, TESTED_NAMES = 4 };

/* ---- One call ---- */

static void print_difference(const struct request *r, uint32_t expected, uint32_t got)
{
    printf("%s: reference %lu, library %lu%s\n", operation_names[r->operation], (unsigned long)expected,
           (unsigned long)got, expected == got ? ", other bytes in the buffer or in an input" : "");
    print_request(r);
}

/* Makes the call on both; gives the reference's number, and whether the library did the same. */
static uint32_t compare_call(const struct fences *fences, const struct request *ours, bool at_end, bool *same)
{
    struct request theirs = fenced_request(fences, ours, at_end);
    uint32_t got = perform(&library_engine, &theirs);
    uint32_t expected = perform(&reference_engine, ours);
    *same = got == expected && same_bytes(ours->buffer, theirs.buffer, ours->buffer_length)
        && same_inputs(ours, &theirs);
    if (!*same)
        print_difference(ours, expected, got);
    return expected;
}

/* ---- What was written against another call ---- */

/* Does a term that was written as a text, the buffer's first bytes, read back to the same codes? */
static bool reads_back(const struct engine *engine, const struct request *r, uint32_t length)
{
    uint8_t codes[CODES];
    uint32_t number = engine->read_text(r->number, r->buffer, length, codes, sizeof codes);
    bool same = number == r->p.length && same_bytes(codes, r->p.bytes, r->p.length);
    if (!same)
        printf("%s by the %s: reads back to other codes\n", operation_names[r->operation], engine->name);
    return same;
}

static bool compare_reading_back(const struct request *r, uint32_t length)
{
    return reads_back(&library_engine, r, length) && reads_back(&reference_engine, r, length);
}

/* Is the coalition, tested alone by the library, sound exactly if the extract in the buffer says so? */
static bool tests_as_extracted(const struct request *extract, uint32_t side, uint32_t coalition)
{
    struct request test = *extract;
    test.operation = TEST_COALITION;
    test.number = number_of_test(side, coalition);
    bool sound = extract->buffer[512 * side + coalition / 8] >> coalition % 8 & 1;
    uint32_t number = perform(&library_engine, &test);
    bool same = number / PER_KIND == (sound ? YES : NO);
    if (!same)
        printf("%s of coalition %lu on side %lu: %lu, unlike the extract\n", operation_names[TEST_COALITION],
               (unsigned long)coalition, (unsigned long)side, (unsigned long)number);
    return same;
}

/* Of jobs of few names alone, since for each coalition the whole ledger is weighed again. */
static bool compare_testing(const struct request *extract)
{
    unsigned n = extract->ledger.bytes[1];
    for (uint32_t c = 0; n <= TESTED_NAMES && c < 1u << n; c++)
        if (!tests_as_extracted(extract, SEE, c) || !tests_as_extracted(extract, CHANGE, c))
            return false;
    return true;
}

/* What was written holds against another call: a text is read back, the coalitions of an extract are tested. */
static bool compare_written(const struct request *r, uint32_t number)
{
    if (number / PER_KIND != YES)
        return true;
    if (r->operation == WRITE_TERM)
        return compare_reading_back(r, number);
    return r->operation != EXTRACT || compare_testing(r);
}

/* ---- Many calls ---- */

static void compare_random_calls(const struct fences *fences, struct run *run, struct coverage *coverage)
{
    static struct call call;
    static uint8_t buffer[BUFFER_ROOM];
    struct source source = {run->seed};
    while (goes_on(run)) {
        bool same;
        random_call(&source, performed[run->done % PERFORMED], &call);
        memset(buffer, call.fill, sizeof buffer);
        struct request request = request_of(&call, buffer);
        uint32_t number = compare_call(fences, &request, run->done / PERFORMED % 2 == 0, &same);
        same = same && compare_written(&request, number);
        count_answer(coverage, &call, number);
        run->done++;
        if (!same)
            printf("(call %lu of seed %lu)\n", run->done, run->seed);
        run->differences += !same;
    }
}

/* ---- Lengths that are good only in their low 32 bits ---- */

static const size_t four_gigabytes = (size_t)1 << 32;

/* A call that is accepted, on its own buffer. */
static void good_call(struct call *call, enum operation operation)
{
    memset(call, 0, sizeof *call);
    call->operation = operation;
    call->p = call->q = call->label = one_code(0);
    call->day = 20240131;
    call->number = 2;
    call->buffer_length = buffer_length_of(operation);
    start_ledger(&call->ledger, 2);
    add_step(&call->derivation, 1, 0, 0, 0, &call->p, &call->q);
    if (operation == READ_TEXT)
        call->p = one_code('a');
}

/* Makes slice `which` of the request, or else its buffer, 4 GiB longer. */
static void lengthen(struct request *r, unsigned which, uint8_t *huge)
{
    struct slice *slices[] = {&r->ledger, &r->p, &r->q, &r->label, &r->derivation};
    if (which == 5) {
        r->buffer = huge;
        r->buffer_length += four_gigabytes;
    } else {
        memcpy(huge, slices[which]->bytes, slices[which]->length);
        slices[which]->bytes = huge;
        slices[which]->length += four_gigabytes;
    }
}

static unsigned long compare_huge_lengths(void)
{
    static struct call call;
    static uint8_t buffer[BUFFER_ROOM];
    uint8_t *huge = map(four_gigabytes + LEDGER_ROOM, PROT_READ | PROT_WRITE);
    unsigned long differences = 0;
    for (unsigned i = 0; i < 6 * PERFORMED; i++) {
        good_call(&call, performed[i % PERFORMED]);
        struct request r = request_of(&call, buffer);
        lengthen(&r, i / PERFORMED, huge);
        uint32_t got = perform(&library_engine, &r);
        uint32_t expected = perform(&reference_engine, &r);
        if (got != expected)
            print_difference(&r, expected, got);
        differences += got != expected;
    }
    munmap(huge, four_gigabytes + LEDGER_ROOM);
    return differences;
}

/* ---- Every date ---- */

/* Adds so many days to every number from before the first real date to behind the last. */
static unsigned long compare_dates(uint32_t count)
{
    struct request r = {.operation = ADD_DAYS, .day = 10000 * (FIRST_YEAR - 1), .number = count};
    unsigned long differences = 0;
    for (; r.day < 10000 * (LAST_YEAR + 2) && differences < DATES_SHOWN; r.day++) {
        uint32_t got = perform(&library_engine, &r), expected = perform(&reference_engine, &r);
        if (got != expected)
            print_difference(&r, expected, got);
        differences += got != expected;
    }
    return differences;
}

int main(int count, char **arguments)
{
    static struct coverage coverage;
    struct fences fences = make_fences();
    unsigned long differences =
        compare_huge_lengths() + compare_dates(0) + compare_dates(1) + compare_dates(DAYS_ADDED_MOST);
    struct run run = start_run(count, arguments, 200000);
    run.differences = differences;
    compare_random_calls(&fences, &run, &coverage);
    unsigned missing = print_coverage(&coverage, performed, PERFORMED, stdout);
    printf("library and reference: %lu of %lu calls of seed %lu in %.1f s, %lu differ, %u answers never met\n",
           run.done, run.wanted, run.seed, seconds_since(&run), run.differences, missing);
    return run.done < run.wanted || run.differences > 0 || missing > 0;
}

/*
 * The library's live ledger against the reference on random lists of calls: after each call the reply, the head, the
 * label, every byte of the ledger and every stored number. Questions are put to the written ledger too, by the
 * library's own call.
 *
 *     compare_live [LISTS [SEED [SECONDS]]]
 *
 * Fails if anything differs, if an answer of document 02 was never met, or a sort of adding and withdrawing was not, or
 * if the lists were not done in time. The library's slices and the pieces that it is lent end or start at a page that
 * can't be touched.
 */
#include "coverage.h"
#include "fences.h"
#include "random_live.h"
#include "run.h"

#include <string.h>

/* ---- The library's pieces ---- */

struct live_fences {
    struct fence head, label, ledger, numbers;
};

static struct live_fences make_live_fences(void)
{
    struct live_fences fences = {
        .head = make_fence(sizeof(uint64_t) * HEAD_WORDS),
        .label = make_fence(CODES),
        .ledger = make_fence(LEDGER_MOST),
        .numbers = make_fence(sizeof(uint64_t) * NUMBER_WORDS),
    };
    return fences;
}

static struct pieces fenced_pieces(const struct live_fences *fences, bool at_end)
{
    struct pieces pieces = {
        .head = (uint64_t *)(void *)place_in(&fences->head, sizeof(uint64_t) * HEAD_WORDS, at_end),
        .label = place_in(&fences->label, CODES, at_end),
        .ledger = place_in(&fences->ledger, LEDGER_MOST, at_end),
        .numbers = (uint64_t *)(void *)place_in(&fences->numbers, sizeof(uint64_t) * NUMBER_WORDS, at_end),
    };
    return pieces;
}

/* Any bytes in all pieces, the same in both. */
static void fill(struct source *source, struct live *ours, const struct pieces *theirs)
{
    memset(ours, any_byte(source), sizeof *ours);
    memcpy(theirs->head, ours->head, sizeof ours->head);
    memcpy(theirs->label, ours->label, sizeof ours->label);
    memcpy(theirs->ledger, ours->ledger, sizeof ours->ledger);
    memcpy(theirs->numbers, ours->numbers, sizeof ours->numbers);
}

/* ---- Comparing ---- */

static bool is_question(enum operation operation)
{
    return operation == LIVE_ACTS_FOR || operation == LIVE_FLOWS_TO;
}

/* The same question, put to the written ledger that the library keeps. */
static uint32_t ask_written(const struct request *live_question)
{
    struct request r = *live_question;
    r.operation = r.operation == LIVE_ACTS_FOR ? ACTS_FOR : FLOWS_TO;
    r.ledger = (struct slice){r.live.ledger, live_length(r.live.head)};
    r.label = (struct slice){r.live.label, (size_t)r.live.head[LIVE_CODES]};
    r.day = (uint32_t)r.live.head[LIVE_DAY];
    return perform(&library_engine, &r);
}

static bool same_as_written(const struct request *r, uint32_t number)
{
    uint32_t by_written = ask_written(r);
    if (by_written != number)
        printf("the written ledger says %lu\n", (unsigned long)by_written);
    return by_written == number;
}

static void print_difference(const struct request *r, uint32_t expected, uint32_t got, uint64_t held)
{
    printf("%s: reference %lu, library %lu, %llu grants held\n", operation_names[r->operation],
           (unsigned long)expected, (unsigned long)got, (unsigned long long)held);
    print_request(r);
}

struct sides {
    const struct fences *fences;
    struct live ours;
    struct pieces theirs;
    bool at_end;
};

/* Makes the call on both; gives the reference's number, and whether the library did the same. */
static uint32_t compare_call(struct sides *sides, const struct call *call, bool *same)
{
    struct request ours = live_request_of(call, &sides->ours);
    struct request theirs = fenced_request(sides->fences, &ours, sides->at_end);
    theirs.live = sides->theirs;
    uint32_t got = perform(&library_engine, &theirs), expected = perform(&reference_engine, &ours);
    *same = same_live(&sides->ours, &sides->theirs, kind_of(expected) == REFUSED);
    *same = *same && got == expected && same_inputs(&ours, &theirs);
    if (*same && is_question(call->operation))
        *same = same_as_written(&theirs, got);
    if (!*same)
        print_difference(&ours, expected, got, sides->ours.head[LIVE_HELD]);
    return expected;
}

/* ---- Sorts of adding and withdrawing ---- */

enum sort {
    A_TWIN,
    A_COUNTING_TWIN,
    A_COUNTING_GRANT,
    ONE_BY_THE_GAP,
    ANOTHER_GRANT,
    THE_LAST_PLACE,
    A_NUMBER_OF_64,
    THE_FIRST_OF_SEVERAL,
    ONE_IN_THE_MIDDLE,
    THE_LAST_OF_SEVERAL,
    THE_ONLY_ONE,
    A_COUNTING_ONE,
    ONE_OF_TWINS,
    MADE_AGAIN,
    SORTS
};

static const char *const sort_names[SORTS] = {
    "added a twin", "a counting twin", "a counting grant", "one by the gap alone", "one that doesn't count", "the 64th",
    "a number became 64", "withdrew the first of several", "one in the middle", "the last of several", "the only one",
    "a counting one", "one of twins", "made again",
};

struct sorts {
    unsigned long met[SORTS];
};

/* Is the block among the grants held? */
static bool is_held(const struct live *live, const uint8_t *block)
{
    for (size_t at = BLOCK; at < live_length(live->head); at += BLOCK)
        if (memcmp(live->ledger + at, block, BLOCK) == 0)
            return true;
    return false;
}

static bool same_numbers(const struct live *a, const struct live *b)
{
    return memcmp(a->numbers, b->numbers, sizeof a->numbers) == 0;
}

static bool has_number(const struct live *live, unsigned number)
{
    for (unsigned c = 0; c < 1u << NAMES; c++)
        if (number_at(live->numbers, SEE, c) == number || number_at(live->numbers, CHANGE, c) == number)
            return true;
    return false;
}

static void count_added(struct sorts *sorts, const struct live *before, const struct live *after)
{
    const uint8_t *block = after->ledger + live_length(before->head);
    bool twin = is_held(before, block), counts = !same_numbers(before, after);
    sorts->met[A_TWIN] += twin;
    sorts->met[A_COUNTING_TWIN] += twin && counts;
    sorts->met[counts ? A_COUNTING_GRANT : ANOTHER_GRANT]++;
    sorts->met[ONE_BY_THE_GAP] += counts && lacks_voice((unsigned)after->head[LIVE_NAMES], block);
    if (after->head[LIVE_HELD] < GRANTS)
        return;
    sorts->met[THE_LAST_PLACE]++;
    sorts->met[A_NUMBER_OF_64] += has_number(after, GRANTS);
}

static enum sort sort_of_position(uint64_t k, uint64_t held)
{
    if (held == 1)
        return THE_ONLY_ONE;
    return k == 0 ? THE_FIRST_OF_SEVERAL : k + 1 == held ? THE_LAST_OF_SEVERAL : ONE_IN_THE_MIDDLE;
}

static void count_withdrawn(struct sorts *sorts, const struct live *before, const struct live *after, uint64_t k)
{
    sorts->met[sort_of_position(k, before->head[LIVE_HELD])]++;
    sorts->met[A_COUNTING_ONE] += !same_numbers(before, after);
    sorts->met[ONE_OF_TWINS] += is_held(after, before->ledger + BLOCK * (1 + (size_t)k));
}

static void count_sort(struct sorts *sorts, const struct call *call, const struct live *before,
                       const struct live *after)
{
    if (call->operation == LIVE_ADD)
        count_added(sorts, before, after);
    else if (call->operation == LIVE_WITHDRAW)
        count_withdrawn(sorts, before, after, call->number);
    else
        sorts->met[MADE_AGAIN] += call->operation == LIVE_MAKE;
}

/* Gives how many were never met. */
static unsigned print_sorts(const struct sorts *sorts)
{
    unsigned missing = 0;
    for (unsigned i = 0; i < SORTS; i++) {
        printf("%s%s %lu%s", i == 0 ? "" : ", ", sort_names[i], sorts->met[i],
               sorts->met[i] == 0 ? " (NEVER MET)" : "");
        missing += sorts->met[i] == 0;
    }
    putchar('\n');
    return missing;
}

/* ---- Lists ---- */

struct met {
    unsigned long calls;
    struct coverage coverage;
    struct sorts sorts;
};

/* Gives whether the library did the same in every call. */
static bool compare_list(struct source *source, struct sides *sides, struct met *met)
{
    static struct call call;
    static struct live before;
    struct random_list list = random_list(source);
    bool made = false, same = true;
    fill(source, &sides->ours, &sides->theirs);
    for (unsigned i = 0; i < list.calls && same; i++) {
        random_live_call(source, &list, made ? &sides->ours : NULL, &call);
        before = sides->ours;
        uint32_t number = compare_call(sides, &call, &same);
        count_answer(&met->coverage, &call, number);
        met->calls++;
        if (made && kind_of(number) == YES)
            count_sort(&met->sorts, &call, &before, &sides->ours);
        made = made || kind_of(number) == YES;
        if (!same)
            printf("(call %u of a list of %u)\n", i, list.calls);
    }
    return same;
}

static void compare_lists(struct sides *sides, struct run *run, struct met *met)
{
    struct live_fences fences = make_live_fences();
    struct source source = {run->seed};
    for (; goes_on(run); run->done++) {
        sides->at_end = run->done % 2 == 0;
        sides->theirs = fenced_pieces(&fences, sides->at_end);
        if (compare_list(&source, sides, met))
            continue;
        printf("(list %lu of seed %lu)\n", run->done, run->seed);
        run->differences++;
    }
}

int main(int count, char **arguments)
{
    static struct met met;
    static struct sides sides;
    struct fences fences = make_fences();
    struct run run = start_run(count, arguments, 2000);
    sides.fences = &fences;
    compare_lists(&sides, &run, &met);
    unsigned missing = print_coverage(&met.coverage, live_operations, LIVE_OPERATIONS, stdout);
    missing += print_sorts(&met.sorts);
    printf("live ledgers: %lu of %lu lists of seed %lu, %lu calls in %.1f s, %lu differ, %u answers never met\n",
           run.done, run.wanted, run.seed, met.calls, seconds_since(&run), run.differences, missing);
    return run.done < run.wanted || run.differences > 0 || missing > 0;
}

#include "live_rows.h"

#include "hand_live.h"
#include "jobs.h"
#include "measure.h"

#include <stdio.h>
#include <stdlib.h>
#include <string.h>

/* ---- Engines ---- */

static uint32_t acts_for_by_hand(const uint64_t *head, const uint8_t *label, const uint8_t *ledger,
                                 const uint64_t *numbers, const uint8_t *p, size_t p_len, const uint8_t *q,
                                 size_t q_len)
{
    (void)ledger;
    return hand_live_acts_for(head, label, numbers, p, p_len, q, q_len);
}

static uint32_t flows_to_by_hand(const uint64_t *head, const uint8_t *label, const uint8_t *ledger,
                                 const uint64_t *numbers, const uint8_t *p, size_t p_len, const uint8_t *q,
                                 size_t q_len)
{
    (void)ledger;
    return hand_live_flows_to(head, label, numbers, p, p_len, q, q_len);
}

static const struct live_calls calls_by_hand = {
    hand_live_make, hand_live_add, hand_live_withdraw, acts_for_by_hand, flows_to_by_hand,
};

static const struct engine hand_engine = {.name = "by hand", .live = &calls_by_hand};

/* ---- Live ledgers ---- */

static struct call calls[JOBS];

/* The live ledgers of the jobs, kept by one engine. Their grants are those of the job, from number `turn` on and then
 * from the beginning. */
struct set {
    const struct engine *engine;
    struct live live[JOBS];
    unsigned turn;
};

static struct set by_library = {.engine = &library_engine}, by_hand = {.engine = &hand_engine};

static void expect(const char *what, bool right)
{
    if (right)
        return;
    printf("%s: not the same\n", what);
    exit(1);
}

static uint32_t add(const struct engine *engine, struct live *live, const uint8_t *block)
{
    return engine->live->add(live->head, live->label, live->ledger, live->numbers, block, BLOCK);
}

static uint32_t withdraw(const struct engine *engine, struct live *live, uint64_t k)
{
    return engine->live->withdraw(live->head, live->label, live->ledger, live->numbers, k);
}

/* The job's live ledger, with all of its grants. */
static void make_live(const struct engine *engine, struct call *call, struct live *live)
{
    memset(live, 0, sizeof *live);
    expect("make", engine->live->make(call->number, call->label.codes, call->label.length, call->day, live->head,
                                      live->label, live->ledger, live->numbers) == 0);
    for (size_t i = 1; i <= grant_count(&call->ledger); i++)
        expect("add", add(engine, live, block_of(&call->ledger, i)) == 0);
}

static void make_set(struct set *set)
{
    set->turn = 0;
    for (unsigned i = 0; i < JOBS; i++)
        make_live(set->engine, &calls[i], &set->live[i]);
}

static bool same_numbers(const struct live *a, const struct live *b)
{
    return memcmp(a->head, b->head, sizeof a->head) == 0 && memcmp(a->numbers, b->numbers, sizeof a->numbers) == 0;
}

/* What the reference makes of it when it puts the last grant in again, with all numbers worked out afresh. */
static bool same_afresh(const struct live *live)
{
    static struct live again;
    again = *live;
    memset(again.numbers, 0, sizeof again.numbers);
    uint64_t last = live->head[LIVE_HELD] - 1;
    const uint8_t *block = live->ledger + BLOCK * (1 + (size_t)last);
    return withdraw(&reference_engine, &again, last) == 0 && add(&reference_engine, &again, block) == 0
        && same_numbers(live, &again);
}

/* Both engines keep the written ledger of the job and the same numbers. */
static void make_jobs(make_call *make, struct job job)
{
    for (unsigned i = 0; i < JOBS; i++)
        make(&calls[i], job, i);
    make_set(&by_library);
    make_set(&by_hand);
    for (unsigned i = 0; i < JOBS; i++) {
        const struct live *live = &by_library.live[i];
        expect("ledger", memcmp(live->ledger, calls[i].ledger.bytes, calls[i].ledger.length) == 0);
        expect("numbers", same_numbers(live, &by_hand.live[i]));
    }
}

/* The numbers of the first job are those worked out afresh. */
static void expect_afresh(void)
{
    expect("numbers worked out afresh", same_afresh(&by_library.live[0]));
}

/* ---- Questions ---- */

/* Questions put by an engine, and what it answered last. */
struct questions {
    const struct engine *engine;
    unsigned count;
    struct request requests[JOBS];
    uint32_t answers[JOBS];
};

static struct questions live = {.engine = &library_engine}, written = {.engine = &library_engine},
                        live_by_hand = {.engine = &hand_engine};

static double time_questions(void *work, unsigned passes)
{
    struct questions *q = work;
    clock_t start = clock();
    for (unsigned pass = 0; pass < passes; pass++)
        for (unsigned i = 0; i < q->count; i++)
            q->answers[i] = perform(q->engine, &q->requests[i]);
    return microseconds_since(start);
}

static void make_questions(void)
{
    for (unsigned i = 0; i < JOBS; i++) {
        written.requests[i] = live.requests[i] = request_of(&calls[i], NULL);
        live.requests[i].operation = calls[i].operation == ACTS_FOR ? LIVE_ACTS_FOR : LIVE_FLOWS_TO;
        live.requests[i].live = pieces_of(&by_library.live[i]);
        live_by_hand.requests[i] = live.requests[i];
    }
}

/* The same answers, all of this kind. */
static void expect_answers(const char *what, unsigned count, enum kind kind)
{
    live.count = written.count = live_by_hand.count = count;
    time_questions(&live, 1);
    time_questions(&written, 1);
    time_questions(&live_by_hand, 1);
    for (unsigned i = 0; i < count; i++)
        expect(what, kind_of(live.answers[i]) == kind && live.answers[i] == written.answers[i]
                         && live.answers[i] == live_by_hand.answers[i]);
}

static void print_question(const char *what, unsigned count, enum kind kind)
{
    const struct contestant contestants[] = {
        {time_questions, &live}, {time_questions, &written}, {time_questions, &live_by_hand},
    };
    double best[3];
    expect_answers(what, count, kind);
    measure(contestants, 3, best);
    printf("  %-26s %12.3f %14.2f %14.1f %12.3f %14.2f\n", what, best[0] / count, best[1] / count, best[1] / best[0],
           best[2] / count, best[0] / best[2]);
    fflush(stdout);
}

static const struct question_row {
    const char *what;
    make_call *make;
    enum kind kind;
} question_rows[] = {
    {"acts-for, chain yes", make_ends_yes, YES},
    {"acts-for, no on see", make_ends_no, NO},
    {"acts-for, no on change", make_ends_change_no, NO},
    {"acts-for, static yes", make_static_yes, YES},
    {"flows-to, chain yes", make_ends_flow, YES},
    {"flows-to, no on change", make_ends_flow_no, NO},
};

enum { QUESTION_ROWS = sizeof question_rows / sizeof *question_rows };

static void print_questions(struct job job)
{
    char in_turn[32], title[40];
    snprintf(in_turn, sizeof in_turn, "  %u jobs in turn", JOBS);
    snprintf(title, sizeof title, "live, %u grants, %u codes", job.grants, job.codes);
    printf("%-28s %12s %14s %14s %12s %14s\n", title, "live, us", "written, us", "times as fast", "by hand, us",
           "times as long");
    for (const struct question_row *row = question_rows; row < question_rows + QUESTION_ROWS; row++) {
        make_jobs(row->make, job);
        expect_afresh();
        make_questions();
        print_question(row->what, 1, row->kind);
        print_question(in_turn, JOBS, row->kind);
    }
}

/* ---- Adding and withdrawing ---- */

/* So many are withdrawn from each live ledger, and then as many added, so that reading the clock takes little of it. */
enum { TOGETHER = 8 };

enum place { THE_FIRST, THE_LAST };

/* Of each round either the withdrawals are measured or the additions. */
struct updates {
    struct set *set;
    enum place place;
    bool adding;
};

static void withdraw_some(struct set *set, enum place place)
{
    for (unsigned i = 0; i < JOBS; i++)
        for (unsigned j = 0; j < TOGETHER; j++)
            withdraw(set->engine, &set->live[i], place == THE_FIRST ? 0 : set->live[i].head[LIVE_HELD] - 1);
}

/* In the job's order, from this one on. */
static void add_some(struct set *set, unsigned from)
{
    for (unsigned i = 0; i < JOBS; i++)
        for (unsigned j = 0; j < TOGETHER; j++)
            add(set->engine, &set->live[i], block_of(&calls[i].ledger, 1 + (from + j) % GRANTS));
}

/* The live ledgers are as before, or their first grants have become the last. */
static double time_round(const struct updates *u)
{
    struct set *set = u->set;
    unsigned from = u->place == THE_FIRST ? set->turn : set->turn + GRANTS - TOGETHER;
    clock_t start = clock();
    withdraw_some(set, u->place);
    double withdrawing = microseconds_since(start);
    start = clock();
    add_some(set, from);
    double adding = microseconds_since(start);
    if (u->place == THE_FIRST)
        set->turn = (set->turn + TOGETHER) % GRANTS;
    return u->adding ? adding : withdrawing;
}

static double time_updates(void *work, unsigned passes)
{
    double spent = 0;
    for (unsigned pass = 0; pass < passes; pass++)
        spent += time_round(work);
    return spent;
}

static void print_updates(const char *what, enum place place, bool adding)
{
    struct updates library = {&by_library, place, adding}, hand = {&by_hand, place, adding};
    const struct contestant contestants[] = {{time_updates, &library}, {time_updates, &hand}};
    double best[2], count = JOBS * TOGETHER;
    measure(contestants, 2, best);
    for (unsigned i = 0; i < JOBS; i++)
        expect(what, by_library.live[i].head[LIVE_HELD] == GRANTS
                         && same_numbers(&by_library.live[i], &by_hand.live[i]));
    printf("  %-26s %12.3f %14.3f %14.2f\n", what, best[0] / count, best[1] / count, best[0] / best[1]);
    fflush(stdout);
}

static const struct update_row {
    const char *what;
    make_call *make;
    struct job job;
} update_rows[] = {
    {"1 code", make_granted_yes, {NAMES, GRANTS, 1}},
    {"5 codes", make_granted_yes, {NAMES, GRANTS, 5}},
    {"63 codes", make_granted_yes, {NAMES, GRANTS, 63}},
    {"quorums", make_quorum_extract, {NAMES, GRANTS, 0}},
};

enum { UPDATE_ROWS = sizeof update_rows / sizeof *update_rows };

static void print_update_row(const struct update_row *row)
{
    char title[40];
    make_jobs(row->make, row->job);
    expect_afresh();
    snprintf(title, sizeof title, "live, %u grants, %s", row->job.grants, row->what);
    printf("%-28s %12s %14s %14s\n", title, "library, us", "by hand, us", "times as long");
    print_updates("add", THE_LAST, true);
    print_updates("withdraw the last", THE_LAST, false);
    print_updates("withdraw the first", THE_FIRST, false);
}

static const struct job question_jobs[] = {{NAMES, GRANTS, 5}, {NAMES, GRANTS, 63}};

void print_live_rows(void)
{
    printf("live ledgers of %u names\n", NAMES);
    for (unsigned i = 0; i < sizeof question_jobs / sizeof *question_jobs; i++)
        print_questions(question_jobs[i]);
    for (unsigned i = 0; i < UPDATE_ROWS; i++)
        print_update_row(&update_rows[i]);
}

/* ---- Instructions ---- */

static void run_updates_once(make_once *once, const struct update_row *row, const char *what, enum operation operation,
                             uint64_t k)
{
    static struct request requests[JOBS];
    for (unsigned i = 0; i < JOBS; i++)
        requests[i] = (struct request){
            .operation = operation,
            .ledger = {block_of(&calls[i].ledger, GRANTS), BLOCK},
            .number = k,
            .live = pieces_of(&by_library.live[i]),
        };
    once(&library_engine, requests);
    printf("0 %u names: %s, %s\n", row->job.n, what, row->what);
}

void run_live_rows_once(make_once *once)
{
    for (unsigned i = 0; i < QUESTION_ROWS; i++) {
        make_jobs(question_rows[i].make, question_jobs[0]);
        make_questions();
        once(&library_engine, live.requests);
        printf("0 %u names: live %s\n", question_jobs[0].n, question_rows[i].what);
    }
    for (const struct update_row *row = update_rows; row < update_rows + UPDATE_ROWS; row++) {
        make_jobs(row->make, row->job);
        run_updates_once(once, row, "withdraw the last", LIVE_WITHDRAW, GRANTS - 1);
        run_updates_once(once, row, "add", LIVE_ADD, 0);
        run_updates_once(once, row, "withdraw the first", LIVE_WITHDRAW, 0);
    }
}

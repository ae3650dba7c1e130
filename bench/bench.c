/*
 * How much processor time the library and the reference take for the same calls, in one run. Compiled with BEFORE, the
 * name of an earlier revision, and BEFORE_VERSION, that of its rights.h, it measures the archive of that revision too.
 *
 * Each call is measured alone, made again and again, and then with 31 others on other jobs, all made in turn: of one
 * job alone the processor learns which way the branches go. live_rows.c has the rows on live ledgers.
 *
 *     bench                 the times
 *     bench instructions    for scripts/instructions, which has `once` counted: each row by the library and the archive
 */
#include "jobs.h"
#include "live_rows.h"
#include "measure.h"

#include <stdio.h>
#include <stdlib.h>
#include <string.h>

/* ---- Engines ---- */

#ifdef BEFORE
extern const struct engine before_engine; /* in before.c, the one file here that needs the earlier archive */
#else
#define BEFORE_VERSION 0
#endif

static const struct engine *const engines[] = {
    &library_engine,
    &reference_engine,
#ifdef BEFORE
    &before_engine,
#endif
};

enum { LIBRARY, REFERENCE, EARLIER, ENGINES = sizeof engines / sizeof *engines };

/* How many of the engines have this call: an earlier archive doesn't have those of trials.h. */
static unsigned engines_with(unsigned operation)
{
    return operation < C_OPERATIONS ? ENGINES : EARLIER;
}

/* How many of these answer it: an archive of before version 3 doesn't know days, one of before 4 no quorums. */
static unsigned engines_for(const struct call *call)
{
    if ((BEFORE_VERSION < 3 && is_dated(&call->ledger)) || (BEFORE_VERSION < 4 && has_quorum(call)))
        return EARLIER;
    return engines_with(call->operation);
}

/* These engines gave the same number, and it is as wanted; otherwise the run ends. */
static void expect(const char *what, const uint32_t *answers, unsigned count, bool wanted)
{
    for (unsigned e = 0; e < count; e++)
        wanted = wanted && answers[e] == answers[0];
    if (wanted)
        return;
    printf("%s: not the wanted answer:", what);
    for (unsigned e = 0; e < count; e++)
        printf(" %s %lu", engines[e]->name, (unsigned long)answers[e]);
    putchar('\n');
    exit(1);
}

/* ---- The calls that are measured ---- */

static struct call calls[JOBS];
static struct request requests[JOBS];
static uint8_t buffer[BUFFER_ROOM];

static void make_calls(make_call *make, struct job job)
{
    for (unsigned i = 0; i < JOBS; i++) {
        make(&calls[i], job, i);
        requests[i] = request_of(&calls[i], buffer);
    }
}

/* How many judge this grant as it is meant: an archive of before version 5 asks for the voice of q. */
static unsigned engines_judging(const struct call *call, unsigned grant)
{
    return BEFORE_VERSION < 5 && meant_by_gap(&call->ledger, grant) ? EARLIER : engines_for(call);
}

/* A derivation of one step, by rule 2 on this grant: accepted if the grant is meant to count, else refused. */
static void expect_counting(struct call *call, unsigned grant, bool counts)
{
    struct term p = term_of_grant(&call->ledger, grant, 0), q = term_of_grant(&call->ledger, grant, 1);
    uint32_t answers[ENGINES], wanted = counts ? 0 : REFUSED * PER_KIND + 66;
    call->derivation.length = 0;
    add_step(&call->derivation, 2, 0, 0, grant, &p, &q);
    struct request request = request_of(call, buffer);
    unsigned engine_count = engines_judging(call, grant);
    for (unsigned e = 0; e < engine_count; e++)
        answers[e] = perform(engines[e], &request);
    expect("which grants count", answers, engine_count, answers[0] == wanted);
}

/* How many grants of a job count: just those that are meant to. */
static unsigned counting_grants(const struct call *job_call)
{
    static struct call call;
    unsigned counting = 0;
    call = *job_call;
    call.operation = DERIVATION;
    for (unsigned i = 0; i < grant_count(&call.ledger); i++) {
        bool counts = meant_to_count(&call.ledger, i);
        expect_counting(&call, i, counts);
        counting += counts;
    }
    return counting;
}

/* How many coalitions are sound on the see side, by the first of the calls, which is an extract. */
static unsigned sound_coalitions(void)
{
    unsigned sound = 0;
    perform(engines[REFERENCE], &requests[0]);
    for (unsigned c = 0; c < 1u << NAMES; c++)
        sound += buffer[c / 8] >> c % 8 & 1;
    return sound;
}

/* ---- Measuring ---- */

/* What each engine answered last. */
static uint32_t answers_of[JOBS][ENGINES];

/* The first so many calls, by one of the engines. */
struct work {
    unsigned engine, count;
};

static double time_calls(void *work, unsigned passes)
{
    const struct work *w = work;
    clock_t start = clock();
    for (unsigned pass = 0; pass < passes; pass++)
        for (unsigned i = 0; i < w->count; i++)
            answers_of[i][w->engine] = perform(engines[w->engine], &requests[i]);
    return microseconds_since(start);
}

/* Measures the first engines on the first `count` calls: microseconds of a call. */
static void measure_engines(unsigned engine_count, unsigned count, double *best)
{
    struct work works[ENGINES];
    struct contestant contestants[ENGINES];
    for (unsigned e = 0; e < engine_count; e++) {
        works[e] = (struct work){e, count};
        contestants[e] = (struct contestant){time_calls, &works[e]};
    }
    measure(contestants, engine_count, best);
    for (unsigned e = 0; e < engine_count; e++)
        best[e] /= count;
}

/* A test ends at the first grant or is sound after all. Any other no is a late one, and what is refused has too many
 * codes. */
static bool is_wanted(const struct call *call, uint32_t answer, unsigned kind, unsigned n)
{
    if (call->operation == TEST_COALITION)
        return answer == kind * PER_KIND + (kind == NO ? 1 : grant_count(&call->ledger));
    if (kind == REFUSED)
        return answer == REFUSED * PER_KIND + 83;
    return kind == NO ? is_late_no(answer, n) : kind_of(answer) == kind;
}

/* ---- Tables ---- */

static void print_head(const char *what, unsigned engine_count)
{
    printf("%-28s %12s %14s %8s", what, "library, us", "reference, us", "ratio");
    for (unsigned e = EARLIER; e < engine_count; e++)
        printf(" %12s %14s", "before, us", "times as fast");
    putchar('\n');
}

/* Measures the first `count` calls in turn, all wanted to give this kind of answer. An engine that has the call but
 * doesn't answer it gets a dash. */
static void print_line(const char *what, unsigned count, unsigned kind, unsigned n)
{
    double best[ENGINES];
    unsigned engine_count = engines_for(&calls[0]), columns = engines_with(calls[0].operation);
    measure_engines(engine_count, count, best);
    for (unsigned i = 0; i < count; i++)
        expect(what, answers_of[i], engine_count, is_wanted(&calls[i], answers_of[i][0], kind, n));
    double library = best[LIBRARY], reference = best[REFERENCE], ratio = reference / library;
    printf("  %-26s %12.2f %14.2f %8.*f", what, library, reference, ratio < 0.1 ? 3 : 1, ratio);
    for (unsigned e = EARLIER; e < engine_count; e++)
        printf(" %12.2f %14.2f", best[e], best[e] / library);
    for (unsigned e = engine_count; e < columns; e++)
        printf(" %12s %14s", "-", "-");
    putchar('\n');
    fflush(stdout);
}

static const struct row {
    const char *what;
    make_call *make;
    unsigned kind;
} rows[] = {
    {"acts-for, static yes", make_static_yes, YES},
    {"acts-for, yes by a chain", make_chain_yes, YES},
    {"acts-for, no in last word", make_late_no, NO},
    {"extract, chain", make_chain_extract, YES},
    {"extract, breaking", make_breaking_extract, YES},
    {"64-step derivation", make_derivation, YES},
    {"short form", make_short_form, YES},
    {"acts-for, static, dated", make_dated_static_yes, YES},
    {"acts-for, chain, dated", make_dated_chain_yes, YES},
    {"extract, chain, dated", make_dated_chain_extract, YES},
    {"64-step derivation, dated", make_dated_derivation, YES},
    {"extract, early", make_early_extract, YES},
    {"acts-for, yes, early", make_early_yes, YES},
    {"test, early", make_early_test, NO},
    {"test, sound", make_sound_test, YES},
    {"counting, chain", make_counting_chain, YES},
    {"counting, by the voice", make_counting_by_voice, YES},
    {"counting, by the gap", make_counting_by_gap, YES},
};

/* Of twelve names and few codes. */
static const struct row short_rows[] = {
    {"counting, voice, 5 codes", make_counting_by_voice, YES},
    {"counting, gap, 5 codes", make_counting_by_gap, YES},
};

/* Of twelve names; the first four without grants. */
static const struct row quorum_rows[] = {
    {"acts-for, 6:12 for 5:12", make_six_of_twelve, YES},
    {"acts-for, 2:3 of 2:3s", make_nested_quorums, YES},
    {"short form, 6:12", make_short_six_of_twelve, YES},
    {"short form, 2:3 of 2:3s", make_short_nested_quorums, YES},
    {"acts-for, static, quorums", make_quorum_static_yes, YES},
    {"acts-for, granted, quorums", make_quorum_granted_yes, YES},
    {"acts-for, no, quorums", make_quorum_late_no, NO},
    {"extract, quorums", make_quorum_extract, YES},
    {"derivation, quorums", make_quorum_derivation, YES},
};

static const struct row notation_rows[] = {
    {"read 38 characters", make_usual_text, YES},
    {"read 256, 64 codes", make_bracketed_text, YES},
    {"read 256, refused by 83", make_bare_text, REFUSED},
    {"write 64 codes", make_written_term, YES},
    {"read 105, quorums", make_text_of_quorums, YES},
    {"write 59 codes, quorums", make_written_quorums, YES},
};

static const struct row date_rows[] = {
    {"add 366 days", make_added_days, YES},
};

/* Each row on one job, and then on all in turn. */
static void print_rows(const struct row *row, unsigned count, struct job job)
{
    char in_turn[32];
    snprintf(in_turn, sizeof in_turn, "  %u jobs in turn", JOBS);
    for (const struct row *end = row + count; row < end; row++) {
        make_calls(row->make, job);
        print_line(row->what, 1, row->kind, job.n);
        print_line(in_turn, JOBS, row->kind, job.n);
    }
}

/* What the ledger of the first job is like; of all jobs it is made sure which grants count. */
static void print_ledger(const char *what, make_call *make_extract, struct job job)
{
    make_calls(make_extract, job);
    unsigned counting = counting_grants(&calls[0]);
    for (unsigned i = 1; i < JOBS; i++)
        counting_grants(&calls[i]);
    printf("  %s: %u of %u grants count, %u of %u coalitions are sound\n", what, counting, job.grants,
           sound_coalitions(), 1u << job.n);
}

static void print_job(struct job job)
{
    printf("%u names, %u grants, %u codes\n", job.n, job.grants, job.codes);
    print_ledger("chain", make_chain_extract, job);
    print_ledger("breaking", make_breaking_extract, job);
    print_ledger("early", make_early_extract, job);
    print_ledger("by the gap", make_gap_extract, job);
    print_head("", ENGINES);
    print_rows(rows, sizeof rows / sizeof *rows, job);
}

static const struct job short_job = {NAMES, GRANTS, 5};

static void print_short(void)
{
    printf("%u names, %u grants, %u codes\n", short_job.n, short_job.grants, short_job.codes);
    print_ledger("by the gap", make_gap_extract, short_job);
    print_head("", ENGINES);
    print_rows(short_rows, sizeof short_rows / sizeof *short_rows, short_job);
}

static const struct job quorum_job = {NAMES, GRANTS, 0};

static void print_quorums(void)
{
    printf("%u names, %u grants, quorums\n", quorum_job.n, quorum_job.grants);
    print_ledger("quorums", make_quorum_extract, quorum_job);
    print_head("", ENGINES);
    print_rows(quorum_rows, sizeof quorum_rows / sizeof *quorum_rows, quorum_job);
}

static void print_growth_line(struct job job, const char *unit, unsigned count)
{
    char what[32];
    snprintf(what, sizeof what, "acts-for, yes, %u %s", count, unit);
    make_calls(make_granted_yes, job);
    print_line(what, 1, YES, job.n);
}

static void print_growth_with_grants(void)
{
    print_head("8 names, 9 codes, by grants", ENGINES);
    for (unsigned grants = 1; grants <= GRANTS; grants *= 2)
        print_growth_line((struct job){8, grants, 9}, "grants", grants);
}

static void print_growth_with_names(void)
{
    print_head("16 grants, 9 codes, by names", ENGINES);
    for (unsigned n = 2; n <= NAMES; n++)
        print_growth_line((struct job){n, 16, 9}, "names", n);
}

static void print_notation(void)
{
    print_head("12 names, notation", EARLIER);
    print_rows(notation_rows, sizeof notation_rows / sizeof *notation_rows, (struct job){NAMES, 0, 0});
}

static void print_dates(void)
{
    print_head("dates", EARLIER);
    print_rows(date_rows, sizeof date_rows / sizeof *date_rows, (struct job){1, 0, 0});
}

static const struct job sizes[] = {{4, 8, 5}, {8, 20, 9}, {NAMES, GRANTS, 63}};

enum { SIZES = sizeof sizes / sizeof *sizes };

/* ---- Instructions ---- */

/* The calls of a row, one after another; a function by this name, not inlined and not specialised. */
__attribute__((noipa)) static void once(const struct engine *engine, const struct request *made)
{
    for (unsigned i = 0; i < JOBS; i++)
        perform(engine, &made[i]);
}

/* Each row once, by the library and by the archive of before if it has the call; prints how many of these it has. */
static void run_rows_once(const struct row *row, unsigned count, struct job job)
{
    for (const struct row *end = row + count; row < end; row++) {
        make_calls(row->make, job);
        unsigned engine_count = engines_for(&calls[0]);
        once(engines[LIBRARY], requests);
        for (unsigned e = EARLIER; e < engine_count; e++)
            once(engines[e], requests);
        printf("%u %u names: %s\n", engine_count - EARLIER, job.n, row->what);
    }
}

int main(int argc, char **argv)
{
    if (argc > 1 && strcmp(argv[1], "instructions") == 0) {
        for (unsigned i = 0; i < SIZES; i++)
            run_rows_once(rows, sizeof rows / sizeof *rows, sizes[i]);
        run_rows_once(quorum_rows, sizeof quorum_rows / sizeof *quorum_rows, quorum_job);
        run_rows_once(short_rows, sizeof short_rows / sizeof *short_rows, short_job);
        run_live_rows_once(once);
        return 0;
    }
    for (unsigned e = EARLIER; e < ENGINES; e++)
        printf("before: the archive of revision %s\n", engines[e]->name);
    for (unsigned i = 0; i < SIZES; i++)
        print_job(sizes[i]);
    print_short();
    print_quorums();
    print_growth_with_grants();
    print_growth_with_names();
    print_notation();
    print_dates();
    print_live_rows();
    return 0;
}

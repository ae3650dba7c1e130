#include "jobs.h"

#include "random_calls.h"

#include <string.h>

/* On which all is asked. */
enum { DAY = 20240131 };

/* ---- Names ---- */

static void swap(unsigned *a, unsigned *b)
{
    unsigned kept = *a;
    *a = *b;
    *b = kept;
}

/* The numbers from `first` on in some order, `count` of them. */
static void shuffle(struct source *source, unsigned *numbers, unsigned first, unsigned count)
{
    for (unsigned i = 0; i < count; i++)
        numbers[i] = first + i;
    for (unsigned i = count; i > 1; i--)
        swap(&numbers[i - 1], &numbers[below(source, i)]);
}

static unsigned at_most(unsigned most, unsigned number)
{
    return number < most ? number : most;
}

/* ---- Terms ---- */

/* Names to put into a term, in turn. */
struct leaves {
    const unsigned *names;
    unsigned count, used;
};

/* An operator over names, of an odd number of codes. */
static void put_tree(struct source *source, struct term *term, unsigned operator, struct leaves *leaves, unsigned codes)
{
    if (codes == 1) {
        put_code(term, leaves->names[leaves->used++ % leaves->count]);
        return;
    }
    unsigned first = 1 + 2 * below(source, (codes - 1) / 2);
    put_code(term, operator);
    put_tree(source, term, operator, leaves, first);
    put_tree(source, term, operator, leaves, codes - 1 - first);
}

static struct term tree(struct source *source, unsigned operator, const unsigned *names, unsigned count, unsigned codes)
{
    struct leaves leaves = {names, count, 0};
    struct term term = {0};
    put_tree(source, &term, operator, &leaves, codes);
    return term;
}

/* A both or an either of one name alone. */
static struct term name_tree(struct source *source, unsigned name, unsigned codes)
{
    unsigned operator = BOTH + below(source, 2);
    return tree(source, operator, &name, 1, codes);
}

/* A both of two eithers, each of half of the names; an either where codes are few. */
static struct term mixed_tree(struct source *source, const unsigned *names, unsigned count, unsigned codes)
{
    if (codes < 7)
        return tree(source, EITHER, names, count, codes);
    unsigned half = (codes - 1) / 2 | 1;
    struct term a = tree(source, EITHER, names, count / 2, half);
    struct term b = tree(source, EITHER, names + count / 2, count - count / 2, codes - 1 - half);
    return joined(BOTH, &a, &b);
}

static void put_quorum_of(struct term *term, unsigned k, const unsigned *names, unsigned count)
{
    put_quorum(term, k, count);
    for (unsigned i = 0; i < count; i++)
        put_code(term, names[i]);
}

/* Any k of these names. */
static struct term any_of(unsigned k, const unsigned *names, unsigned count)
{
    struct term term = {0};
    put_quorum_of(&term, k, names, count);
    return term;
}

enum { NESTED = 9 }; /* names of a 2:3 of 2:3s */

static struct term two_of_threes(const unsigned *names)
{
    struct term term = {0};
    put_quorum(&term, 2, 3);
    for (unsigned i = 0; i < NESTED; i += 3)
        put_quorum_of(&term, 2, names + i, 3);
    return term;
}

/* ---- Grants ---- */

static void add_counting(struct ledger *ledger, const struct term *p, const struct term *q)
{
    struct term label = prefixed(CHANGE_OF, q);
    add_grant(ledger, p, q, &label);
}

/* How many of the last codes of q follow the 41 of the label; 0 if something else does, or it has no 41. */
static size_t codes_spoken(const struct ledger *ledger, unsigned grant)
{
    struct term q = term_of_grant(ledger, grant, 1), label = term_of_grant(ledger, grant, 2);
    size_t count = label.length - 1;
    if (label.codes[0] != CHANGE_OF || count > q.length)
        return 0;
    return memcmp(label.codes + 1, q.codes + q.length - count, count) == 0 ? count : 0;
}

bool meant_to_count(const struct ledger *ledger, unsigned grant)
{
    return codes_spoken(ledger, grant) > 0;
}

bool meant_by_gap(const struct ledger *ledger, unsigned grant)
{
    size_t count = codes_spoken(ledger, grant);
    return 0 < count && count < term_of_grant(ledger, grant, 1).length;
}

static void add_link(struct source *source, struct ledger *ledger, unsigned from, unsigned to, unsigned codes)
{
    struct term p = name_tree(source, from, codes), q = name_tree(source, to, codes);
    add_counting(ledger, &p, &q);
}

/* From one name of a chain to a later one. It doesn't count: its label is q, which is not visible under 21, or the
 * word of p: who has the name of p alone holds that, and p, and not q. */
static void add_shortcut(struct source *source, struct ledger *ledger, struct job job, const unsigned *chain)
{
    unsigned from = below(source, job.n - 1), to = from + 1 + below(source, job.n - 1 - from);
    struct term p = name_tree(source, chain[from], job.codes), q = name_tree(source, chain[to], job.codes);
    struct term label = below(source, 2) ? q : prefixed(CHANGE_OF, &p);
    add_grant(ledger, &p, &q, &label);
}

/* How many names p and q of a breaking grant have. */
static unsigned names_of_breaking(struct job job)
{
    return at_most(job.n, job.n / 2 + 2);
}

/* A both of the first of these names for an either of the next: it breaks a coalition that has all of the first and
 * none of the next. */
static void add_breaking(struct source *source, struct ledger *ledger, struct job job, const unsigned *names)
{
    unsigned count = names_of_breaking(job), left = 1 + below(source, count - 1);
    struct term p = tree(source, BOTH, names, left, job.codes);
    struct term q = tree(source, EITHER, names + left, count - left, job.codes);
    add_counting(ledger, &p, &q);
}

/* Such a grant of which a name of p comes later in the chain than one of q: no beginning of the chain breaks it, so
 * it makes no link needless. */
static void add_against(struct source *source, struct ledger *ledger, struct job job, const unsigned *chain)
{
    unsigned places[NAMES], names[NAMES], last = names_of_breaking(job) - 1;
    shuffle(source, places, 0, job.n);
    if (places[0] < places[last])
        swap(&places[0], &places[last]);
    for (unsigned i = 0; i < job.n; i++)
        names[i] = chain[places[i]];
    add_breaking(source, ledger, job, names);
}

/* A both of the first of these names for a both of the same, or of fewer, with an either of the next; its label is the
 * word of that either, which is all that p lacks. */
static void add_by_gap(struct source *source, struct ledger *ledger, struct job job, const unsigned *names)
{
    unsigned count = names_of_breaking(job), left = 1 + below(source, count - 1), half = (job.codes - 1) / 2 | 1;
    struct term p = tree(source, BOTH, names, left, job.codes), had = tree(source, BOTH, names, left, half);
    struct term missing = tree(source, EITHER, names + left, count - left, job.codes - 1 - half);
    struct term q = joined(BOTH, &had, &missing), label = prefixed(CHANGE_OF, &missing);
    add_grant(ledger, &p, &q, &label);
}

/* Any one of the names for all of them: broken by a coalition that has some and not all. */
static void add_any_for_all(struct source *source, struct ledger *ledger, struct job job, const unsigned *names)
{
    struct term p = tree(source, EITHER, names, job.n, job.codes), q = tree(source, BOTH, names, job.n, job.codes);
    add_counting(ledger, &p, &q);
}

static void add_quorums(struct source *source, struct ledger *ledger, struct job job)
{
    unsigned names[NAMES];
    shuffle(source, names, 0, job.n);
    struct term nested = two_of_threes(names), six = any_of(6, names, job.n), five = any_of(5, names, NESTED);
    if (grant_count(ledger) % 2)
        add_counting(ledger, &nested, &five);
    else
        add_counting(ledger, &six, &nested);
}

/* ---- Ledgers ---- */

static void start_call(struct call *call, struct job job)
{
    memset(call, 0, sizeof *call);
    start_ledger(&call->ledger, job.n);
    call->label = one_code(WEAKEST);
    call->day = DAY;
    call->number = job.n;
}

/* A call on a chain, its p the first name and its q the last; gives the source to go on with. */
static struct source start_chain(struct call *call, struct job job, unsigned seed)
{
    struct source source = {seed};
    unsigned chain[NAMES], roles[GRANTS], links = job.n - 1;
    start_call(call, job);
    shuffle(&source, chain, 0, job.n);
    shuffle(&source, roles, 0, job.grants);
    for (unsigned i = 0; i < job.grants; i++) {
        unsigned role = roles[i];
        if (role < links)
            add_link(&source, &call->ledger, chain[role], chain[role + 1], job.codes);
        else if (role % 2)
            add_against(&source, &call->ledger, job, chain);
        else
            add_shortcut(&source, &call->ledger, job, chain);
    }
    call->p = name_tree(&source, chain[0], job.codes);
    call->q = name_tree(&source, chain[links], job.codes);
    return source;
}

typedef void add_of_names(struct source *source, struct ledger *ledger, struct job job, const unsigned *names);

/* A call on grants of one sort, each of names in another order. */
static void draw_grants(struct source *source, struct call *call, struct job job, add_of_names *add)
{
    unsigned names[NAMES];
    start_call(call, job);
    for (unsigned i = 0; i < job.grants; i++) {
        shuffle(source, names, 0, job.n);
        add(source, &call->ledger, job, names);
    }
}

/* A call on grants like those of a breaking ledger. */
static void draw_breaking(struct source *source, struct call *call, struct job job)
{
    draw_grants(source, call, job, add_breaking);
}

/* A call on a ledger by the gap. */
static void start_by_gap(struct call *call, struct job job, unsigned seed)
{
    struct source source = {seed};
    draw_grants(&source, call, job, add_by_gap);
}

/* A call on an early ledger. */
static void start_early(struct call *call, struct job job, unsigned seed)
{
    struct source source = {seed};
    unsigned names[NAMES];
    start_call(call, job);
    shuffle(&source, names, 0, job.n);
    add_any_for_all(&source, &call->ledger, job, names);
    while (grant_count(&call->ledger) < job.grants) {
        shuffle(&source, names, 0, job.n);
        add_breaking(&source, &call->ledger, job, names);
    }
}

/* A call on a ledger of quorums; gives the source to go on with. */
static struct source start_quorums(struct call *call, struct job job, unsigned seed)
{
    struct source source = {seed};
    start_call(call, job);
    for (unsigned i = 0; i < job.grants; i++)
        add_quorums(&source, &call->ledger, job);
    return source;
}

/* The coalition of all names in term 0 or 1 of a grant. */
static unsigned names_in(const struct ledger *ledger, unsigned grant, unsigned which)
{
    struct term term = term_of_grant(ledger, grant, which);
    unsigned names = 0;
    for (size_t i = 0; i < term.length; i++)
        if (term.codes[i] < NAMES)
            names |= 1u << term.codes[i];
    return names;
}

/* The names of p, a both, and of q, an either. */
struct breaking {
    unsigned all, any;
};

/* The one grant that breaks the coalition; GRANTS if there is none or more than one. */
static unsigned only_breaker(const struct breaking *breaking, unsigned grants, unsigned coalition)
{
    unsigned only = GRANTS;
    for (unsigned i = 0; i < grants; i++) {
        if ((coalition & breaking[i].all) != breaking[i].all || (coalition & breaking[i].any) != 0)
            continue;
        if (only != GRANTS)
            return GRANTS;
        only = i;
    }
    return only;
}

static bool each_breaks_its_own(const struct ledger *ledger, unsigned n)
{
    struct breaking breaking[GRANTS];
    bool breaks_its_own[GRANTS + 1] = {false};
    unsigned grants = (unsigned)grant_count(ledger);
    for (unsigned i = 0; i < grants; i++)
        breaking[i] = (struct breaking){names_in(ledger, i, 0), names_in(ledger, i, 1)};
    for (unsigned c = 0; c < 1u << n; c++)
        breaks_its_own[only_breaker(breaking, grants, c)] = true;
    for (unsigned i = 0; i < grants; i++)
        if (!breaks_its_own[i])
            return false;
    return true;
}

/* A call on a breaking ledger; gives the source to go on with. */
static struct source start_breaking(struct call *call, struct job job, unsigned seed)
{
    struct source source = {seed};
    do
        draw_breaking(&source, call, job);
    while (!each_breaks_its_own(&call->ledger, job.n));
    return source;
}

/* ---- Calls ---- */

void make_chain_yes(struct call *call, struct job job, unsigned seed)
{
    start_chain(call, job, seed);
    call->operation = ACTS_FOR;
}

/* The name of a both or an either of one name alone. */
static struct term name_of(const struct term *tree)
{
    return one_code(tree->codes[tree->length - 1]);
}

/* A call on a chain, its p the first name and its q the last. */
static void ask_ends(struct call *call, struct job job, unsigned seed, enum operation operation)
{
    start_chain(call, job, seed);
    call->operation = operation;
    call->p = name_of(&call->p);
    call->q = name_of(&call->q);
}

static void ask_change_sides(struct call *call)
{
    call->p = prefixed(CHANGE_OF, &call->p);
    call->q = prefixed(CHANGE_OF, &call->q);
}

void make_ends_yes(struct call *call, struct job job, unsigned seed)
{
    ask_ends(call, job, seed, ACTS_FOR);
}

void make_ends_no(struct call *call, struct job job, unsigned seed)
{
    ask_ends(call, job, seed, ACTS_FOR);
    call->q = one_code(STRONGEST);
}

void make_ends_change_no(struct call *call, struct job job, unsigned seed)
{
    make_ends_no(call, job, seed);
    ask_change_sides(call);
}

void make_ends_flow(struct call *call, struct job job, unsigned seed)
{
    ask_ends(call, job, seed, FLOWS_TO);
    struct term see_of_last = prefixed(SEE_OF, &call->q), see_of_first = prefixed(SEE_OF, &call->p);
    ask_change_sides(call);
    call->p = joined(BOTH, &call->p, &see_of_last);
    call->q = joined(BOTH, &call->q, &see_of_first);
}

void make_ends_flow_no(struct call *call, struct job job, unsigned seed)
{
    make_ends_change_no(call, job, seed);
    call->operation = FLOWS_TO;
}

/* A both of names for a mixed tree of the same. */
void make_static_yes(struct call *call, struct job job, unsigned seed)
{
    struct source source = start_chain(call, job, seed);
    unsigned names[NAMES], count = at_most(job.n, (job.codes + 1) / 2);
    shuffle(&source, names, 0, job.n);
    call->operation = ACTS_FOR;
    call->p = tree(&source, BOTH, names, count, job.codes);
    call->q = mixed_tree(&source, names, count, job.codes);
}

static void ask_first_grant(struct call *call)
{
    call->operation = ACTS_FOR;
    call->p = term_of_grant(&call->ledger, 0, 0);
    call->q = term_of_grant(&call->ledger, 0, 1);
}

void make_granted_yes(struct call *call, struct job job, unsigned seed)
{
    struct source source = {seed};
    draw_breaking(&source, call, job);
    ask_first_grant(call);
}

/* p is a both of the names from 6 up, or of half of the names where these are few. q is held always on the see side
 * and never on the change side. */
void make_late_no(struct call *call, struct job job, unsigned seed)
{
    struct source source = start_breaking(call, job, seed);
    unsigned high[NAMES], never[1 + NAMES] = {STRONGEST}, first = job.n > 6 ? 6 : job.n / 2;
    shuffle(&source, high, first, job.n - first);
    shuffle(&source, never + 1, 0, job.n);
    struct term nobody = tree(&source, BOTH, never, 1 + job.n, job.codes - 2);
    call->operation = ACTS_FOR;
    call->p = tree(&source, BOTH, high, job.n - first, job.codes);
    call->q = prefixed(CHANGE_OF, &nobody);
}

bool is_late_no(uint32_t answer, unsigned n)
{
    unsigned last = NO * PER_KIND + CHANGE * PER_SIDE + (1u << n) - 1;
    return answer / 64 == last / 64;
}

static void set_extract(struct call *call)
{
    call->operation = EXTRACT;
    call->buffer_length = EXTRACT_SIZE;
}

void make_chain_extract(struct call *call, struct job job, unsigned seed)
{
    start_chain(call, job, seed);
    set_extract(call);
}

void make_breaking_extract(struct call *call, struct job job, unsigned seed)
{
    start_breaking(call, job, seed);
    set_extract(call);
}

/* Eight steps, every rule among them, on the terms of one grant. */
static void add_eight_steps(struct derivation *d, const struct ledger *ledger, const struct job *job, unsigned grant)
{
    unsigned k = (unsigned)step_count(d);
    struct term p = term_of_grant(ledger, grant, 0), q = term_of_grant(ledger, grant, 1);
    struct term see_p = prefixed(SEE_OF, &p), see_q = prefixed(SEE_OF, &q);
    struct term change_p = prefixed(CHANGE_OF, &p), change_q = prefixed(CHANGE_OF, &q);
    struct term a = one_code(0), b = one_code(job->n - 1), either = joined(EITHER, &a, &b);
    struct term both = joined(BOTH, &either, &either), twice = joined(EITHER, &a, &a);
    add_step(d, 2, 0, 0, grant, &p, &q);
    add_step(d, 1, 0, 0, 0, &p, &p);
    add_step(d, 3, k + 1, k, 0, &p, &q);
    add_step(d, 6, k + 2, 0, 0, &see_p, &see_q);
    add_step(d, 7, k + 2, 0, 0, &change_p, &change_q);
    add_step(d, 1, 0, 0, 0, &a, &either);
    add_step(d, 4, k + 5, k + 5, 0, &a, &both);
    add_step(d, 5, k + 5, k + 5, 0, &twice, &either);
}

static void set_derivation(struct call *call, struct job job)
{
    call->operation = DERIVATION;
    for (unsigned i = 0; i < STEPS / 8; i++)
        add_eight_steps(&call->derivation, &call->ledger, &job, i % job.grants);
}

void make_derivation(struct call *call, struct job job, unsigned seed)
{
    start_breaking(call, job, seed);
    set_derivation(call, job);
}

static void set_counting(struct call *call)
{
    struct term anyone = one_code(WEAKEST);
    call->operation = DERIVATION;
    add_step(&call->derivation, 1, 0, 0, 0, &anyone, &anyone);
}

void make_counting_chain(struct call *call, struct job job, unsigned seed)
{
    start_chain(call, job, seed);
    set_counting(call);
}

void make_counting_by_voice(struct call *call, struct job job, unsigned seed)
{
    struct source source = {seed};
    draw_breaking(&source, call, job);
    set_counting(call);
}

void make_counting_by_gap(struct call *call, struct job job, unsigned seed)
{
    start_by_gap(call, job, seed);
    set_counting(call);
}

void make_gap_extract(struct call *call, struct job job, unsigned seed)
{
    start_by_gap(call, job, seed);
    set_extract(call);
}

static void set_short_form(struct call *call)
{
    call->operation = SHORT_FORM;
    call->buffer_length = BUFFER_ROOM; /* enough for earlier archives, which ask for more, too */
}

void make_short_form(struct call *call, struct job job, unsigned seed)
{
    struct source source = {seed};
    unsigned names[NAMES];
    start_call(call, job);
    shuffle(&source, names, 0, job.n);
    call->p = mixed_tree(&source, names, job.n, job.codes);
    set_short_form(call);
}

/* ---- Early ledgers ---- */

void make_early_extract(struct call *call, struct job job, unsigned seed)
{
    start_early(call, job, seed);
    set_extract(call);
}

void make_early_yes(struct call *call, struct job job, unsigned seed)
{
    start_early(call, job, seed);
    ask_first_grant(call);
}

static void set_test(struct call *call, unsigned coalition)
{
    call->operation = TEST_COALITION;
    call->number = number_of_test(SEE, coalition);
}

/* One of the names in the first grant, alone. */
void make_early_test(struct call *call, struct job job, unsigned seed)
{
    start_early(call, job, seed);
    unsigned names = names_in(&call->ledger, 0, 0);
    set_test(call, names & (~names + 1));
}

/* No names: they hold no p. */
void make_sound_test(struct call *call, struct job job, unsigned seed)
{
    start_early(call, job, seed);
    set_test(call, 0);
}

/* ---- Quorums ---- */

/* 6:12 for 5:12, of the names in other orders. */
static void ask_six_of_twelve(struct source *source, struct call *call, struct job job)
{
    unsigned names[NAMES];
    shuffle(source, names, 0, job.n);
    call->p = any_of(6, names, job.n);
    shuffle(source, names, 0, job.n);
    call->q = any_of(5, names, job.n);
    call->operation = ACTS_FOR;
}

void make_six_of_twelve(struct call *call, struct job job, unsigned seed)
{
    struct source source = {seed};
    start_call(call, job);
    ask_six_of_twelve(&source, call, job);
}

void make_nested_quorums(struct call *call, struct job job, unsigned seed)
{
    struct source source = {seed};
    unsigned names[NAMES];
    start_call(call, job);
    shuffle(&source, names, 0, job.n);
    call->p = two_of_threes(names);
    call->q = any_of(4, names, NESTED);
    call->operation = ACTS_FOR;
}

void make_short_six_of_twelve(struct call *call, struct job job, unsigned seed)
{
    make_six_of_twelve(call, job, seed);
    set_short_form(call);
}

void make_short_nested_quorums(struct call *call, struct job job, unsigned seed)
{
    make_nested_quorums(call, job, seed);
    set_short_form(call);
}

void make_quorum_static_yes(struct call *call, struct job job, unsigned seed)
{
    struct source source = start_quorums(call, job, seed);
    ask_six_of_twelve(&source, call, job);
}

void make_quorum_granted_yes(struct call *call, struct job job, unsigned seed)
{
    start_quorums(call, job, seed);
    ask_first_grant(call);
}

/* p is all of the names from 6 up. q is held always on the see side and never on the change side: all of eleven names
 * and the strongest. */
void make_quorum_late_no(struct call *call, struct job job, unsigned seed)
{
    struct source source = start_quorums(call, job, seed);
    unsigned high[NAMES], never[NAMES];
    shuffle(&source, high, 6, 6);
    shuffle(&source, never, 0, job.n);
    never[below(&source, job.n)] = STRONGEST;
    struct term nobody = any_of(job.n, never, job.n);
    call->operation = ACTS_FOR;
    call->p = any_of(6, high, 6);
    call->q = prefixed(CHANGE_OF, &nobody);
}

void make_quorum_extract(struct call *call, struct job job, unsigned seed)
{
    start_quorums(call, job, seed);
    set_extract(call);
}

void make_quorum_derivation(struct call *call, struct job job, unsigned seed)
{
    start_quorums(call, job, seed);
    set_derivation(call, job);
}

/* ---- Days ---- */

/* A date of one of these years. */
static uint32_t some_date(struct source *source, unsigned first_year, unsigned last_year)
{
    uint32_t date = 10000 * (first_year + below(source, last_year + 1 - first_year));
    date += 100 * (1 + below(source, 12));
    return date + 1 + below(source, 28);
}

/* Makes the ledger a dated one. */
static void date_grants(struct call *call, unsigned seed)
{
    struct source source = {seed};
    for (unsigned i = 0; i < grant_count(&call->ledger); i++) {
        uint32_t first = some_date(&source, 2014, 2023), last = some_date(&source, 2025, 2034);
        put_days(block_of(&call->ledger, i + 1), first, last);
    }
}

/* All grants have days, or none has; the first byte of a date is 01. */
bool is_dated(const struct ledger *ledger)
{
    return grant_count(ledger) > 0 && ledger->bytes[BLOCK + 208] != 0;
}

void make_dated_static_yes(struct call *call, struct job job, unsigned seed)
{
    make_static_yes(call, job, seed);
    date_grants(call, seed);
}

void make_dated_chain_yes(struct call *call, struct job job, unsigned seed)
{
    make_chain_yes(call, job, seed);
    date_grants(call, seed);
}

void make_dated_chain_extract(struct call *call, struct job job, unsigned seed)
{
    make_chain_extract(call, job, seed);
    date_grants(call, seed);
}

void make_dated_derivation(struct call *call, struct job job, unsigned seed)
{
    make_derivation(call, job, seed);
    date_grants(call, seed);
}

void make_added_days(struct call *call, struct job job, unsigned seed)
{
    struct source source = {seed};
    start_call(call, job);
    call->operation = ADD_DAYS;
    call->day = some_date(&source, FIRST_YEAR, LAST_YEAR - 2);
    call->number = DAYS_ADDED_MOST;
}

/* ---- Notation ---- */

static struct source start_notation(struct call *call, enum operation operation, struct job job, unsigned seed)
{
    start_call(call, job);
    call->operation = operation;
    call->buffer_length = buffer_length_of(operation);
    return (struct source){seed};
}

/* Puts more text, in which each n stands for some name, j for some joiner and s for some sign. */
static void put_text(struct source *source, struct call *call, const char *text)
{
    for (; *text != 0; text++)
        switch (*text) {
        case 'n':
            put_code(&call->p, 'a' + below(source, (unsigned)call->number));
            break;
        case 'j':
            put_code(&call->p, below(source, 2) ? '&' : '|');
            break;
        case 's':
            put_code(&call->p, below(source, 2) ? '>' : '<');
            break;
        default:
            put_code(&call->p, (uint8_t)*text);
        }
}

void make_bracketed_text(struct call *call, struct job job, unsigned seed)
{
    struct source source = start_notation(call, READ_TEXT, job, seed);
    put_text(&source, call, "(((n)))");
    for (unsigned i = 1; i < CODES / 2; i++)
        put_text(&source, call, "j(((n)))");
    put_text(&source, call, "s");
}

void make_bare_text(struct call *call, struct job job, unsigned seed)
{
    struct source source = start_notation(call, READ_TEXT, job, seed);
    put_text(&source, call, "n");
    while (call->p.length < TEXT_MOST)
        put_text(&source, call, call->p.length == TEXT_MOST - 1 || below(&source, 2) ? "s" : "jn");
}

void make_usual_text(struct call *call, struct job job, unsigned seed)
{
    struct source source = start_notation(call, READ_TEXT, job, seed);
    put_text(&source, call, "(njn)j(njn)sj(njn)j(njn)sj(njn)j(njn)s");
}

void make_written_term(struct call *call, struct job job, unsigned seed)
{
    struct source source = start_notation(call, WRITE_TERM, job, seed);
    unsigned names[NAMES];
    shuffle(&source, names, 0, job.n);
    struct term part = mixed_tree(&source, names, job.n, CODES - 1);
    call->p = prefixed(SEE_OF, &part);
}

void make_text_of_quorums(struct call *call, struct job job, unsigned seed)
{
    struct source source = start_notation(call, READ_TEXT, job, seed);
    for (unsigned i = 0; i < 2; i++)
        put_text(&source, call, "2:3(2:3(n,n,n),2:3(n,n,n),2:3(n,n,n))j");
    put_text(&source, call, "6:12(n,n,n,n,n,n,n,n,n,n,n,n)");
}

void make_written_quorums(struct call *call, struct job job, unsigned seed)
{
    struct source source = start_notation(call, WRITE_TERM, job, seed);
    unsigned names[NAMES];
    shuffle(&source, names, 0, job.n);
    struct term nested = two_of_threes(names), twice = joined(EITHER, &nested, &nested);
    struct term six = any_of(6, names, job.n);
    call->p = joined(BOTH, &six, &twice);
}

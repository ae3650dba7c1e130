/*
 * A libFuzzer harness: the library against the reference, the number and every byte of the buffer. The bytes
 * of an input say in short form what a call takes, so that most inputs are nearly good. Some inputs are a list of
 * calls on a live ledger, all of which is compared after each. At the end it prints how often each answer was met.
 */
#include "coverage.h"
#include "reference.h"

#include <stdbool.h>
#include <stdlib.h>
#include <string.h>

/* ---- The input ---- */

struct input {
    const uint8_t *bytes;
    size_t left;
};

/* The next byte; 00 behind the end. */
static uint8_t take(struct input *in)
{
    if (in->left == 0)
        return 0;
    in->left--;
    return *in->bytes++;
}

static unsigned take_two(struct input *in)
{
    unsigned high = take(in);
    return high << 8 | take(in);
}

static uint64_t take_eight(struct input *in)
{
    uint64_t value = 0;
    for (unsigned i = 0; i < 8; i++)
        value = value << 8 | take(in);
    return value;
}

static uint32_t take_four(struct input *in)
{
    uint32_t high = take_two(in);
    return high << 16 | take_two(in);
}

/* Mostly a number below `end`, now and then any byte. */
static unsigned take_below(struct input *in, unsigned end)
{
    unsigned byte = take(in);
    return byte < 240 ? byte % end : byte;
}

static struct term take_any_bytes(struct input *in)
{
    struct term term = {0};
    for (unsigned length = take(in); length > 0; length--)
        put_code(&term, take(in));
    return term;
}

/* A quorum's code, k and m, mostly in range; gives m, or 0 if it is more than any quorum has. */
static unsigned take_quorum(struct input *in, struct term *term)
{
    unsigned m = 1 + take_below(in, PARTS), k = m <= PARTS ? 1 + take_below(in, m) : take(in);
    put_quorum(term, k, m);
    return m <= PARTS ? m : 0;
}

/* Codes as long as parts are missing: a good term, unless it gets too long. */
static struct term take_good_term(struct input *in, unsigned n)
{
    static const uint8_t codes[19] = {WEAKEST, STRONGEST, BOTH, EITHER, QUORUM, SEE_OF, CHANGE_OF,
                                      0, 1, 2, 3, 4, 5, 6, 7, 8, 9, 10, 11};
    struct term term = {0};
    for (unsigned missing = 1; missing > 0 && term.length < CODES; missing--) {
        unsigned code = codes[take(in) % (7 + n)];
        if (code == QUORUM) {
            missing += take_quorum(in, &term);
            continue;
        }
        put_code(&term, code);
        if (code == BOTH || code == EITHER)
            missing += 2;
        else if (code == SEE_OF || code == CHANGE_OF)
            missing++;
    }
    return term;
}

static struct term take_term(struct input *in, unsigned n)
{
    return take(in) < 240 && n <= NAMES ? take_good_term(in, n) : take_any_bytes(in);
}

static uint8_t take_character(struct input *in)
{
    static const char characters[] = "abcdefghijkl*_()&|><:,0123456789";
    return (uint8_t)characters[take(in) % (sizeof characters - 1)];
}

/* A good term as the reference writes it, with up to three other characters. */
static struct term take_written_text(struct input *in, unsigned n)
{
    struct term term = take_good_term(in, n), text = {0};
    uint32_t number = reference_write_term(n, term.codes, term.length, text.codes, TEXT_MOST);
    text.length = kind_of(number) == YES ? number : 0;
    for (unsigned patches = take(in) % 4; patches > 0 && text.length > 0; patches--) {
        size_t place = take(in) % text.length;
        text.codes[place] = take_character(in);
    }
    return text;
}

/* The text of a term; or the rest of the input, mostly as characters of the language, now and then the bytes
 * themselves. */
static struct term take_text(struct input *in, unsigned n)
{
    struct term text = {0};
    unsigned draw = take(in);
    if (draw < 96 && n <= NAMES)
        return take_written_text(in, n);
    while (in->left > 0 && text.length <= TEXT_MOST)
        put_code(&text, draw < 240 ? take_character(in) : take(in));
    return text;
}

/* ---- Days ---- */

/* Mostly a real date, or a day that its month doesn't have; now and then any number. */
static uint32_t take_date(struct input *in)
{
    if (take(in) >= 240)
        return take_four(in);
    uint32_t year = FIRST_YEAR + take_two(in) % (LAST_YEAR + 1 - FIRST_YEAR);
    uint32_t month = 1 + take(in) % 12, day = 1 + take(in) % 31;
    return 10000 * year + 100 * month + day;
}

/* An edge of a grant's days: none, near the day of the call, or any date. */
static uint32_t take_edge(struct input *in, uint32_t day)
{
    unsigned draw = take(in);
    if (draw < 96)
        return 0;
    return draw < 224 ? day + draw % 5 - 2 : take_date(in);
}

/* ---- Ledgers and derivations ---- */

static void put_field(uint8_t *field, uint8_t *length, const struct term *term)
{
    memcpy(field, term->codes, term->length <= CODES ? term->length : CODES);
    *length = (uint8_t)term->length;
}

/* A grant whose terms may have any length, in a ledger that is asked on this day. */
static void take_grant(struct input *in, struct ledger *ledger, unsigned n, uint32_t day)
{
    const struct term none = {0};
    add_grant(ledger, &none, &none, &none);
    uint8_t *block = block_of(ledger, grant_count(ledger));
    for (unsigned which = 0; which < 3; which++) {
        struct term term = take_term(in, n);
        put_field(block + 16 + 64 * which, block + 1 + which, &term);
    }
    uint32_t first = take_edge(in, day), last = take_edge(in, day);
    put_days(block, first, last);
}

/* Another value for some bytes, most with a new check. */
static void patch_ledger(struct input *in, struct ledger *ledger)
{
    for (unsigned patches = take(in) % 4; patches > 0; patches--) {
        unsigned place = take_two(in) % (unsigned)ledger->length;
        ledger->bytes[place] = take(in);
        if (take(in) % 4 != 3)
            seal(block_of(ledger, place / BLOCK));
    }
}

static void take_ledger(struct input *in, struct ledger *ledger, unsigned n, uint32_t day)
{
    start_ledger(ledger, n);
    for (unsigned grants = take(in) % 8; grants > 0; grants--)
        take_grant(in, ledger, n, day);
    patch_ledger(in, ledger);
    if (take(in) % 16 == 15)
        ledger->length = take_two(in) % (LEDGER_ROOM + 1);
}

/* A term, a term of an earlier step, or a term of a grant, since rules compare them. */
static struct term take_step_term(struct input *in, const struct ledger *ledger, const struct derivation *derivation,
                                  unsigned which, unsigned n)
{
    unsigned draw = take(in), steps = (unsigned)step_count(derivation) - 1;
    if (draw >= 192 && ledger->length >= 2 * BLOCK)
        return term_of_grant(ledger, take(in) % grant_count(ledger), which);
    if (draw >= 128 && steps > 0)
        return left_of(derivation, take(in) % steps);
    if (draw >= 64 && steps > 0)
        return right_of(derivation, take(in) % steps);
    return take_term(in, n);
}

static void take_step(struct input *in, const struct ledger *ledger, struct derivation *derivation, unsigned n)
{
    const struct term none = {0};
    unsigned number = (unsigned)step_count(derivation), rule = take_below(in, 8);
    unsigned first = rule >= 3 ? take_below(in, number + 1) : 0;
    unsigned second = rule >= 3 && rule <= 5 ? take_below(in, number + 1) : 0;
    unsigned grant = rule == 2 ? take_below(in, 8) : 0;
    add_step(derivation, rule, first, second, grant, &none, &none);
    uint8_t *step = step_of(derivation, number);
    for (unsigned which = 0; which < 2; which++) {
        struct term term = take_step_term(in, ledger, derivation, which, n);
        put_field(step + 8 + 64 * which, step + 4 + which, &term);
    }
}

static void take_derivation(struct input *in, struct ledger *ledger, struct derivation *derivation, unsigned n)
{
    for (unsigned steps = 1 + take(in) % (STEPS + 1); steps > 0; steps--)
        take_step(in, ledger, derivation, n);
    for (unsigned patches = take(in) % 4; patches > 0 && derivation->length > 0; patches--) {
        unsigned place = take_two(in) % (unsigned)derivation->length;
        derivation->bytes[place] = take(in);
    }
    if (take(in) % 16 == 15)
        derivation->length = take_two(in) % (DERIVATION_ROOM + 1);
}

/* The good length of a buffer, or another near it, or any; 0 if there is none. */
static size_t take_buffer_length(struct input *in, size_t good)
{
    unsigned draw = good > 0 ? take(in) : 0;
    if (draw < 192)
        return good;
    return draw < 255 ? good + draw - 224 : take_two(in) % (BUFFER_ROOM + 1);
}

/* A side, mostly 0 or 1, and a coalition of up to twelve names, now and then any number. */
static uint64_t take_test(struct input *in)
{
    uint32_t side = take_below(in, 2), coalition = take(in) < 240 ? take_two(in) % (1u << NAMES) : take_four(in);
    return number_of_test(side, coalition);
}

static void take_call(struct input *in, enum operation operation, struct call *call)
{
    memset(call, 0, sizeof *call);
    call->operation = operation;
    call->fill = take(in);
    if (call->operation == ADD_DAYS) {
        call->day = take_date(in);
        call->number = take(in) < 240 ? take_two(in) % (DAYS_ADDED_MOST + 2) : take_four(in);
        return;
    }
    unsigned n = 1 + take_below(in, NAMES);
    call->buffer_length = take_buffer_length(in, buffer_length_of(call->operation));
    if (call->operation == SHORT_FORM || call->operation == READ_TEXT || call->operation == WRITE_TERM) {
        call->number = n < 256 ? n : take_eight(in);
        call->p = call->operation == READ_TEXT ? take_text(in, n) : take_term(in, n);
        return;
    }
    call->day = take_date(in);
    take_ledger(in, &call->ledger, n, call->day);
    call->label = take_term(in, n);
    if (call->operation == DERIVATION) {
        take_derivation(in, &call->ledger, &call->derivation, n);
    } else if (call->operation == TEST_COALITION) {
        call->number = take_test(in);
    } else if (call->operation != EXTRACT) {
        call->p = take_term(in, n);
        call->q = take_term(in, n);
    }
}

/* ---- Calls on a live ledger ---- */

/* One that is held, or a new one, with a few other bytes. */
static void take_block(struct input *in, struct call *call, const struct live *live, unsigned n)
{
    unsigned draw = take(in), held = (unsigned)live->head[LIVE_HELD];
    const uint8_t *twin = live->ledger + BLOCK * (1 + (held > 0 ? draw % held : 0));
    start_ledger(&call->ledger, n);
    if (held == 0 || draw >= 128) {
        take_grant(in, &call->ledger, n, (uint32_t)live->head[LIVE_DAY]);
        twin = block_of(&call->ledger, 1);
    }
    memcpy(call->ledger.bytes, twin, BLOCK);
    call->ledger.length = BLOCK;
    patch_ledger(in, &call->ledger);
    if (take(in) % 16 == 15)
        call->ledger.length = take_two(in) % (2 * BLOCK + 1);
}

static void take_make(struct input *in, struct call *call, unsigned n)
{
    call->operation = LIVE_MAKE;
    call->number = n < 256 ? n : take_eight(in);
    call->day = take_date(in);
    call->label = take_term(in, n);
}

/* A call on what was made before; to make one if nothing was. */
static void take_live_call(struct input *in, struct call *call, const struct live *live, bool made, unsigned n)
{
    unsigned draw = made ? take(in) % 16 : 0;
    memset(call, 0, sizeof *call);
    if (draw == 0) {
        take_make(in, call, n);
    } else if (draw < 8) {
        call->operation = LIVE_ADD;
        take_block(in, call, live, n);
    } else if (draw < 11) {
        unsigned position = take_below(in, (unsigned)live->head[LIVE_HELD] + 1);
        call->operation = LIVE_WITHDRAW;
        call->number = position < 255 ? position : take_eight(in);
    } else {
        call->operation = draw % 2 ? LIVE_ACTS_FOR : LIVE_FLOWS_TO;
        call->p = take_term(in, n);
        call->q = take_term(in, n);
    }
}

/* How many calls a list has at most: the reference's work grows as 2^n. */
static unsigned most_calls(unsigned n)
{
    return n <= 5 ? 160 : n <= 8 ? 40 : 8;
}

/* ---- Both engines on a call ---- */

static struct coverage coverage;

static void print_at_end(void)
{
    print_coverage(&coverage, performed, PERFORMED, stderr);
    print_coverage(&coverage, live_operations, LIVE_OPERATIONS, stderr);
}

static void end(enum operation operation, uint32_t expected, uint32_t got)
{
    fprintf(stderr, "%s: reference %lu, library %lu\n", operation_names[operation], (unsigned long)expected,
            (unsigned long)got);
    abort();
}

static void compare_call(struct input *in, enum operation operation)
{
    static struct call call;
    static uint8_t ours[BUFFER_ROOM], theirs[BUFFER_ROOM];
    take_call(in, operation, &call);
    memset(ours, call.fill, sizeof ours);
    memset(theirs, call.fill, sizeof theirs);
    struct request request = request_of(&call, ours);
    uint32_t expected = perform(&reference_engine, &request);
    request.buffer = theirs;
    uint32_t got = perform(&library_engine, &request);
    if (got != expected || memcmp(ours, theirs, sizeof ours) != 0)
        end(operation, expected, got);
    count_answer(&coverage, &call, got);
}

/* Gives whether the call was accepted. */
static bool compare_live_call(const struct call *call, struct live *ours, struct live *theirs)
{
    const struct pieces pieces = pieces_of(theirs);
    struct request by_reference = live_request_of(call, ours), by_library = live_request_of(call, theirs);
    uint32_t expected = perform(&reference_engine, &by_reference), got = perform(&library_engine, &by_library);
    if (!same_live(ours, &pieces, kind_of(expected) == REFUSED) || got != expected)
        end(call->operation, expected, got);
    count_answer(&coverage, call, got);
    return kind_of(got) == YES;
}

/* Now and then a call is made many times over. */
static void compare_list(struct input *in)
{
    static struct call call;
    static struct live ours, theirs;
    unsigned n = 1 + take_below(in, NAMES), left = most_calls(n);
    bool made = false;
    memset(&ours, take(in), sizeof ours);
    theirs = ours;
    while (left > 0 && in->left > 0) {
        take_live_call(in, &call, &ours, made, n);
        for (unsigned times = take(in) < 224 ? 1 : GRANTS; times > 0 && left > 0; times--, left--)
            made |= compare_live_call(&call, &ours, &theirs);
    }
}

int LLVMFuzzerInitialize(int *count, char ***arguments);
int LLVMFuzzerTestOneInput(const uint8_t *bytes, size_t length);

int LLVMFuzzerInitialize(int *count, char ***arguments)
{
    (void)count;
    (void)arguments;
    return atexit(print_at_end);
}

int LLVMFuzzerTestOneInput(const uint8_t *bytes, size_t length)
{
    struct input in = {bytes, length};
    unsigned draw = take(&in) % (PERFORMED + 2);
    if (draw < PERFORMED)
        compare_call(&in, performed[draw]);
    else
        compare_list(&in);
    return 0;
}

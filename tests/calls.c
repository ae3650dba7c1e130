#include "calls.h"

#include "reference.h"

#include <stdio.h>
#include <string.h>

const char *const operation_names[EVERY_OPERATION] = {
    "acts-for", "flows-to", "extract", "short form", "derivation", "quoting", "read text", "write term", "add days",
    "test", "live make", "live add", "live withdraw", "live acts-for", "live flows-to",
};

const enum operation all_operations[OPERATIONS] = {
    ACTS_FOR, FLOWS_TO, EXTRACT, SHORT_FORM, DERIVATION, QUOTE, READ_TEXT, WRITE_TERM, ADD_DAYS, TEST_COALITION,
};

const enum operation performed[PERFORMED] = {
    ACTS_FOR, FLOWS_TO, EXTRACT, SHORT_FORM, DERIVATION, READ_TEXT, WRITE_TERM, ADD_DAYS, TEST_COALITION,
};

const enum operation live_operations[LIVE_OPERATIONS] = {
    LIVE_MAKE, LIVE_ADD, LIVE_WITHDRAW, LIVE_ACTS_FOR, LIVE_FLOWS_TO,
};

size_t buffer_length_of(enum operation operation)
{
    switch (operation) {
    case EXTRACT:
        return EXTRACT_SIZE;
    case SHORT_FORM:
        return SHORT_FORM_LEAST;
    case READ_TEXT:
        return CODES;
    case WRITE_TERM:
        return TEXT_MOST;
    default:
        return 0;
    }
}

static const struct live_calls live_calls = {
    reference_live_make, reference_live_add, reference_live_withdraw, reference_live_acts_for, reference_live_flows_to,
};

const struct engine reference_engine = {
    "reference", reference_acts_for, reference_flows_to, reference_extract, reference_short_form,
    reference_check_derivation, reference_read_text, reference_write_term, reference_add_days,
    reference_test_coalition, &live_calls,
};

uint64_t number_of_test(uint32_t side, uint32_t coalition)
{
    return (uint64_t)side << 32 | coalition;
}

static bool has_byte(struct term term, uint8_t byte)
{
    return memchr(term.codes, byte, term.length) != NULL;
}

static bool quorum_in_block(const uint8_t *block)
{
    for (unsigned which = 0; which < 3; which++)
        if (has_byte(term_of_block(block, which), QUORUM))
            return true;
    return false;
}

/* In blocks from a place on. */
static bool quorum_in_blocks(const struct ledger *ledger, size_t from)
{
    for (size_t at = from; at < ledger->length; at += BLOCK)
        if (quorum_in_block(ledger->bytes + at))
            return true;
    return false;
}

static bool quorum_in_derivation(const struct derivation *derivation)
{
    for (size_t i = 0; i < step_count(derivation); i++)
        if (has_byte(left_of(derivation, i), QUORUM) || has_byte(right_of(derivation, i), QUORUM))
            return true;
    return false;
}

/* No other byte of a term is 32, and no other character of a text is a colon. */
bool has_quorum(const struct call *call)
{
    return has_byte(call->p, call->operation == READ_TEXT ? ':' : QUORUM) || has_byte(call->q, QUORUM)
        || has_byte(call->label, QUORUM)
        || quorum_in_blocks(&call->ledger, call->operation == LIVE_ADD ? 0 : BLOCK)
        || quorum_in_derivation(&call->derivation);
}

static struct slice slice_of_term(const struct term *term)
{
    struct slice slice = {term->codes, term->length};
    return slice;
}

struct request request_of(const struct call *call, uint8_t *buffer)
{
    struct request request = {
        .operation = call->operation,
        .ledger = {call->ledger.bytes, call->ledger.length},
        .p = slice_of_term(&call->p),
        .q = slice_of_term(&call->q),
        .label = slice_of_term(&call->label),
        .derivation = {call->derivation.bytes, call->derivation.length},
        .day = call->day,
        .number = call->number,
        .buffer = buffer,
        .buffer_length = call->buffer_length,
    };
    return request;
}

struct request live_request_of(const struct call *call, struct live *live)
{
    struct request request = request_of(call, NULL);
    request.live = pieces_of(live);
    return request;
}

static uint32_t ask(question_call *question, const struct request *r)
{
    return question(r->ledger.bytes, r->ledger.length, r->p.bytes, r->p.length, r->q.bytes, r->q.length,
                    r->label.bytes, r->label.length, r->day);
}

static uint32_t test(testing_call *call, const struct request *r)
{
    return call(r->ledger.bytes, r->ledger.length, r->label.bytes, r->label.length, r->day,
                (uint32_t)(r->number >> 32), (uint32_t)r->number);
}

static uint32_t write_from_p(writing_call *call, const struct request *r)
{
    return call(r->number, r->p.bytes, r->p.length, r->buffer, r->buffer_length);
}

static uint32_t ask_live(live_question_call *question, const struct request *r)
{
    return question(r->live.head, r->live.label, r->live.ledger, r->live.numbers, r->p.bytes, r->p.length, r->q.bytes,
                    r->q.length);
}

static uint32_t perform_live(const struct live_calls *calls, const struct request *r)
{
    const struct pieces *live = &r->live;
    switch (r->operation) {
    case LIVE_MAKE:
        return calls->make(r->number, r->label.bytes, r->label.length, r->day, live->head, live->label, live->ledger,
                           live->numbers);
    case LIVE_ADD:
        return calls->add(live->head, live->label, live->ledger, live->numbers, r->ledger.bytes, r->ledger.length);
    case LIVE_WITHDRAW:
        return calls->withdraw(live->head, live->label, live->ledger, live->numbers, r->number);
    case LIVE_ACTS_FOR:
        return ask_live(calls->acts_for, r);
    default:
        return ask_live(calls->flows_to, r);
    }
}

uint32_t perform(const struct engine *engine, const struct request *r)
{
    if (r->operation >= LIVE_MAKE)
        return perform_live(engine->live, r);
    switch (r->operation) {
    case ACTS_FOR:
        return ask(engine->acts_for, r);
    case FLOWS_TO:
        return ask(engine->flows_to, r);
    case EXTRACT:
        return engine->extract(r->ledger.bytes, r->ledger.length, r->label.bytes, r->label.length, r->day, r->buffer,
                               r->buffer_length);
    case SHORT_FORM:
        return write_from_p(engine->short_form, r);
    case READ_TEXT:
        return write_from_p(engine->read_text, r);
    case WRITE_TERM:
        return write_from_p(engine->write_term, r);
    case ADD_DAYS:
        return engine->add_days(r->day, (uint32_t)r->number);
    case TEST_COALITION:
        return test(engine->test_coalition, r);
    default:
        return engine->check_derivation(r->derivation.bytes, r->derivation.length, r->ledger.bytes,
                                        r->ledger.length, r->label.bytes, r->label.length, r->day);
    }
}

static void print_slice(const char *name, struct slice slice)
{
    printf("  %s, %zu bytes:", name, slice.length);
    for (size_t i = 0; i < slice.length && i < 80; i++)
        printf(" %02X", slice.bytes[i]);
    putchar('\n');
}

void print_request(const struct request *r)
{
    printf("  day %lu, number %llu, buffer of %zu bytes\n", (unsigned long)r->day, (unsigned long long)r->number,
           r->buffer_length);
    print_slice("ledger", r->ledger);
    print_slice("p", r->p);
    print_slice("q", r->q);
    print_slice("label", r->label);
    print_slice("derivation", r->derivation);
}

enum kind kind_of(uint32_t number)
{
    uint32_t kind = number / PER_KIND;
    return kind > REFUSED ? YES : (enum kind)kind;
}

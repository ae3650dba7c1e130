/*
 * How much stack the library's calls take: the most over random calls and over calls with the deepest terms and
 * texts. Fails if it is more than rights.h says, or, of the calls of trials.h, which C does not get, more than is
 * said here.
 */
#define _DEFAULT_SOURCE /* MAP_ANONYMOUS */
#include "random_live.h"
#include "rights.h"

#include <pthread.h>
#include <stdio.h>
#include <stdlib.h>
#include <string.h>
#include <sys/mman.h>

enum { STACK = 1 << 19, PAINT = 0xA5, RANDOM_CALLS = 500, TRIALS_STACK_BYTES = 65536 };

static void fail(const char *what)
{
    fprintf(stderr, "stack_use: %s failed\n", what);
    exit(2);
}

/* What the last call answered. */
static uint32_t answer;

static void *make_call(void *request)
{
    if (request != NULL)
        answer = perform(&library_engine, request);
    return NULL;
}

/* How many bytes of its stack a thread changes that makes the call; none if the request is null. */
static size_t stack_of_thread(uint8_t *stack, struct request *request)
{
    pthread_attr_t attributes;
    pthread_t thread;
    memset(stack, PAINT, STACK);
    if (pthread_attr_init(&attributes) != 0 || pthread_attr_setstack(&attributes, stack, STACK) != 0)
        fail("setting the stack");
    if (pthread_create(&thread, &attributes, make_call, request) != 0 || pthread_join(thread, NULL) != 0)
        fail("running a thread");
    pthread_attr_destroy(&attributes);
    size_t untouched = 0;
    while (untouched < STACK && stack[untouched] == PAINT)
        untouched++;
    return STACK - untouched;
}

/* What the deepest terms and texts are nested by: signs, joiners to the left, joiners to the right (of a text, brackets
 * alone), joiners to the right of which no part is a name (of a text, as the next), quorums 1:1. Where there is room for
 * one more code, it is a sign. */
enum shape { SIGNS, LEFT, RIGHT, PAIRS, QUORUMS, SHAPES };

static struct term one_of_one(const struct term *part)
{
    struct term term = {0};
    put_quorum(&term, 1, 1);
    put_term(&term, part);
    return term;
}

static struct term deepest_term(enum shape shape)
{
    struct term name = one_code(0), term = name, side = prefixed(SEE_OF, &name);
    while (term.length < CODES - 1)
        if (shape == SIGNS)
            term = prefixed(CHANGE_OF, &term);
        else if (shape == LEFT)
            term = joined(EITHER, &term, &name);
        else if (shape == RIGHT)
            term = joined(EITHER, &name, &term);
        else if (shape == PAIRS)
            term = joined(EITHER, &side, &term);
        else
            term = one_of_one(&term);
    return term.length < CODES ? prefixed(CHANGE_OF, &term) : term;
}

/* 1:1(text) */
static struct term text_of_one(const struct term *text)
{
    struct term inside = in_brackets(text), longer = one_code('1');
    put_code(&longer, ':');
    put_code(&longer, '1');
    put_term(&longer, &inside);
    return longer;
}

static struct term deepest_text(enum shape shape)
{
    struct term text = one_code('a');
    while (text.length < TEXT_MOST - 1)
        if (shape == SIGNS) {
            put_code(&text, '<');
        } else if (shape == LEFT) {
            put_code(&text, '|');
            put_code(&text, 'a');
        } else if (shape == RIGHT) {
            text = in_brackets(&text);
        } else {
            text = text_of_one(&text);
        }
    if (text.length < TEXT_MOST)
        put_code(&text, '<');
    return text;
}

static void deepest_call(enum operation operation, enum shape shape, struct call *call)
{
    struct term term = deepest_term(shape);
    memset(call, 0, sizeof *call);
    call->operation = operation;
    call->q = call->label = term;
    call->p = operation == READ_TEXT ? deepest_text(shape) : term;
    call->day = 20240131;
    call->number = operation == ADD_DAYS ? DAYS_ADDED_MOST : operation == LIVE_WITHDRAW ? 0 : NAMES;
    call->buffer_length = buffer_length_of(operation);
    start_ledger(&call->ledger, NAMES);
    for (unsigned i = 0; i < GRANTS; i++) {
        add_grant(&call->ledger, &term, &term, &term);
        put_days(block_of(&call->ledger, i + 1), call->day, call->day);
    }
    for (unsigned i = 0; i < STEPS; i++)
        add_step(&call->derivation, 1 + i % 2, 0, 0, 0, &term, &term);
}

static size_t most(size_t a, size_t b)
{
    return a > b ? a : b;
}

/* The most stack that calls of this operation take, above what the thread itself does. */
static size_t stack_of_operation(uint8_t *stack, enum operation operation)
{
    static struct call call;
    static uint8_t buffer[BUFFER_ROOM];
    struct source source = {3};
    size_t used = 0;
    for (unsigned i = 0; i < SHAPES + RANDOM_CALLS; i++) {
        if (i < SHAPES)
            deepest_call(operation, (enum shape)i, &call);
        else
            random_call(&source, operation, &call);
        struct request request = request_of(&call, buffer);
        used = most(used, stack_of_thread(stack, &request));
    }
    return used - stack_of_thread(stack, NULL);
}

/* ---- Live ledgers ---- */

/* A live ledger of the deepest terms, with one grant less than it can have; gives the call on it. */
static void deepest_live(enum operation operation, enum shape shape, struct live *live, struct call *call)
{
    deepest_call(LIVE_MAKE, shape, call);
    struct ledger block = {.length = BLOCK};
    memcpy(block.bytes, block_of(&call->ledger, 1), BLOCK);
    struct request request = live_request_of(call, live);
    make_call(&request);
    for (unsigned i = 1; i < GRANTS; i++) {
        request.operation = LIVE_ADD;
        request.ledger = (struct slice){block.bytes, BLOCK};
        make_call(&request);
    }
    deepest_call(operation, shape, call);
    if (operation == LIVE_ADD)
        call->ledger = block;
}

/* The most over the calls of this operation in random lists. */
static size_t stack_of_lists(uint8_t *stack, enum operation operation, struct live *live, struct call *call)
{
    struct source source = {3};
    size_t used = 0;
    for (unsigned measured = 0; measured < RANDOM_CALLS;) {
        struct random_list list = random_list(&source);
        bool made = false;
        for (unsigned i = 0; i < list.calls && measured < RANDOM_CALLS; i++) {
            random_live_call(&source, &list, made ? live : NULL, call);
            struct request request = live_request_of(call, live);
            if (call->operation == operation) {
                used = most(used, stack_of_thread(stack, &request));
                measured++;
            } else {
                make_call(&request);
            }
            made = made || kind_of(answer) == YES;
        }
    }
    return used;
}

static size_t stack_of_live_operation(uint8_t *stack, enum operation operation)
{
    static struct call call;
    static struct live live;
    size_t used = 0;
    for (unsigned shape = 0; shape < SHAPES; shape++) {
        deepest_live(operation, (enum shape)shape, &live, &call);
        struct request request = live_request_of(&call, &live);
        used = most(used, stack_of_thread(stack, &request));
    }
    used = most(used, stack_of_lists(stack, operation, &live, &call));
    return used - stack_of_thread(stack, NULL);
}

typedef size_t stack_of(uint8_t *stack, enum operation operation);

/* The most over these operations, of which each has its line. */
static size_t stack_of_operations(uint8_t *stack, const enum operation *operations, unsigned count)
{
    size_t used = 0;
    for (unsigned i = 0; i < count; i++) {
        stack_of *measure = operations[i] >= LIVE_MAKE ? stack_of_live_operation : stack_of_operation;
        size_t of_this = measure(stack, operations[i]);
        printf("%-13s %6zu bytes of stack\n", operation_names[operations[i]], of_this);
        used = most(used, of_this);
    }
    return used;
}

int main(void)
{
    uint8_t *stack = mmap(NULL, STACK, PROT_READ | PROT_WRITE, MAP_PRIVATE | MAP_ANONYMOUS, -1, 0);
    if (stack == MAP_FAILED)
        fail("mmap");
    size_t used = stack_of_operations(stack, performed, C_OPERATIONS);
    printf("at most %zu bytes of stack; rights.h says less than %d\n", used, RIGHTS_STACK_BYTES);
    size_t by_trials = stack_of_operations(stack, performed + C_OPERATIONS, PERFORMED - C_OPERATIONS);
    by_trials = most(by_trials, stack_of_operations(stack, live_operations, LIVE_OPERATIONS));
    printf("calls of trials.h: at most %zu bytes of stack; less than %d is asked\n", by_trials, TRIALS_STACK_BYTES);
    return used >= RIGHTS_STACK_BYTES || by_trials >= TRIALS_STACK_BYTES;
}

/*
 * A call with all that it takes, and the two engines that can make it: the library, with the calls of trials.h, and
 * the reference.
 */
#ifndef CALLS_H
#define CALLS_H

#include "build.h"
#include "live.h"

#include <stdbool.h>

enum operation {
    ACTS_FOR,
    FLOWS_TO,
    EXTRACT,
    SHORT_FORM,
    DERIVATION,
    QUOTE,
    READ_TEXT,
    WRITE_TERM,
    ADD_DAYS,
    TEST_COALITION,
    LIVE_MAKE,
    LIVE_ADD,
    LIVE_WITHDRAW,
    LIVE_ACTS_FOR,
    LIVE_FLOWS_TO
};

enum {
    C_OPERATIONS = 5, /* those that C calls: the first */
    OPERATIONS = 10, /* those without a live ledger: the next too */
    PERFORMED = OPERATIONS - 1, /* of these, all but quoting */
    LIVE_OPERATIONS = 5,
    EVERY_OPERATION = OPERATIONS + LIVE_OPERATIONS,
    BUFFER_ROOM = 20000
};

extern const char *const operation_names[EVERY_OPERATION];

extern const enum operation all_operations[OPERATIONS], performed[PERFORMED], live_operations[LIVE_OPERATIONS];

/* The length of the buffer that an operation takes, the least if it takes several; 0 if it takes none. */
size_t buffer_length_of(enum operation operation);

/* What a call takes; an operation uses some of it. */
struct call {
    enum operation operation;
    struct ledger ledger; /* of adding to a live ledger: the block alone */
    struct term p; /* of a short form and of writing: the term; of reading: the text */
    struct term q;
    struct term label;
    struct derivation derivation;
    uint32_t day; /* of adding days: the date */
    /* n of a short form, of reading and of writing; the step that is quoted; the days to add; of a test, as
     * `number_of_test` says; n of a live ledger, or the position to withdraw */
    uint64_t number;
    size_t buffer_length;
    uint8_t fill; /* every byte of the buffer before the call */
};

/* Is there a quorum in the terms or the text that the call takes? Asked of a call that is not refused. */
bool has_quorum(const struct call *call);

struct slice {
    const uint8_t *bytes;
    size_t length;
};

/* The same as slices, wherever they stand. */
struct request {
    enum operation operation;
    struct slice ledger, p, q, label, derivation;
    uint32_t day;
    uint64_t number;
    uint8_t *buffer;
    size_t buffer_length;
    struct pieces live; /* of a call on a live ledger */
};

/* A side and a coalition to test: the upper and the lower half of a number. */
uint64_t number_of_test(uint32_t side, uint32_t coalition);

/* The request of a call, on a buffer that has room for it. */
struct request request_of(const struct call *call, uint8_t *buffer);

/* The request of a call on a live ledger. */
struct request live_request_of(const struct call *call, struct live *live);

typedef uint32_t question_call(const uint8_t *, size_t, const uint8_t *, size_t, const uint8_t *, size_t,
                               const uint8_t *, size_t, uint32_t);
typedef uint32_t extract_call(const uint8_t *, size_t, const uint8_t *, size_t, uint32_t, uint8_t *, size_t);
typedef uint32_t writing_call(uint64_t, const uint8_t *, size_t, uint8_t *, size_t);
typedef uint32_t derivation_call(const uint8_t *, size_t, const uint8_t *, size_t, const uint8_t *, size_t, uint32_t);
typedef uint32_t adding_call(uint32_t, uint32_t);
typedef uint32_t testing_call(const uint8_t *, size_t, const uint8_t *, size_t, uint32_t, uint32_t, uint32_t);

struct engine {
    const char *name;
    question_call *acts_for;
    question_call *flows_to;
    extract_call *extract;
    writing_call *short_form;
    derivation_call *check_derivation;
    /* null in an engine without the calls of trials.h */
    writing_call *read_text, *write_term;
    adding_call *add_days;
    testing_call *test_coalition;
    const struct live_calls *live;
};

extern const struct engine reference_engine;
extern const struct engine library_engine; /* in library.c, the one file here that needs the library */

/* Makes the call, any but quoting. */
uint32_t perform(const struct engine *engine, const struct request *request);

/* What a request takes, on standard output. */
void print_request(const struct request *request);

/* The kind of an answer by its number. Adding days gives a date, which is above all other numbers: a yes too. */
enum kind kind_of(uint32_t number);

#endif

/*
 * Writes random calls and the reference's results to a file, for the test program `cases`.
 *
 *     make_cases FILE
 *
 * The file is records, one after another to its end. A record is its packed size in bytes, 4 bytes, then that
 * many bytes. Numbers are big-endian.
 *
 * Packed bytes are runs, one after another: 1 byte a, then a bytes that stand for themselves, then 2 bytes z,
 * which stand for z bytes 00.
 *
 * An unpacked record, at most 65,536 bytes, is
 *
 *      0  4 bytes  the operation: 0 acts-for, 1 flows-to, 2 extract, 3 short form, 4 derivation, 5 quoting,
 *                  6 reading a text, 7 writing a term, 8 adding days, 9 testing a coalition, 10 a list of calls
 *                  on a live ledger
 *      4  8 bytes  n of a short form, of reading and of writing; the step of quoting; of adding days, the count;
 *                  of testing, the side in the first four bytes and the coalition in the last four; else 0
 *     12  4 bytes  the length of the ledger
 *     16  4 bytes  the length of p: of a short form and of writing, the term; of reading, the text; of a list,
 *                  its calls
 *     20  4 bytes  the length of q
 *     24  4 bytes  the length of the label
 *     28  4 bytes  the length of the derivation
 *     32  4 bytes  the length of the buffer
 *     36  4 bytes  the value of every byte of the buffer before the call
 *     40  4 bytes  the expected number; of quoting, where the expected part starts in the ledger
 *     44  4 bytes  how many bytes the buffer is expected to start with; behind them it is as it was before.
 *                  Of quoting, the length of the expected part
 *     48  4 bytes  the day; of adding days, the date
 *     52           the ledger, p, q, the label, the derivation, then the bytes that the buffer is expected to
 *                  start with (of quoting: none)
 *
 * What an operation doesn't take has length 0; a day or a number that it doesn't have is 0.
 *
 * The calls of a list are made on pieces that hold zeros at first, one after another. A call is
 *
 *      0  1 byte   the call: 0 make, 1 add, 2 withdraw, 3 acts-for, 4 flows-to
 *      1  4 bytes  the expected number
 *      5  8 bytes  n of making; the position of withdrawing; else 0
 *     13  4 bytes  the day of making; else 0
 *     17  2 bytes  the length of the first input: the label of making, the block of adding, p of a question
 *     19  2 bytes  the length of the second: q of a question
 *     21           the two inputs
 *
 * Of a list the bytes that are expected behind the inputs are two check sums of what the calls leave, 4 bytes each:
 * of the bytes of the ledger, and of the words of the numbers. A check sum starts at 0, and each value makes
 * (257 x sum + value) modulo 1,000,000,007 of it.
 */
#include "coverage.h"
#include "random_live.h"
#include "reference.h"

#include <stdbool.h>
#include <string.h>

enum { CALLS = 7000, SEED = 3, RECORD_ROOM = 65536, SMALL = 700, FILE_MOST = 2000000 };

/* Lists of calls on a live ledger. So long a list leaves room for the rest of a record, packed too. */
enum { LISTS = 120, LIST_SEED = 5, LIST_MOST = 64000, CALL_HEAD = 21, CHECK_SUM = 1000000007 };

struct record {
    size_t length;
    uint8_t bytes[RECORD_ROOM];
};

static void put_bytes(struct record *record, const uint8_t *bytes, size_t length)
{
    if (length > 0) /* else they may be null */
        memcpy(record->bytes + record->length, bytes, length);
    record->length += length;
}

static void put_number(struct record *record, uint64_t value, unsigned bytes)
{
    while (bytes-- > 0)
        record->bytes[record->length++] = (uint8_t)(value >> 8 * bytes);
}

static void put_slice(struct record *record, struct slice slice)
{
    put_bytes(record, slice.bytes, slice.length);
}

/* What the call gave: the fields 40 and 44 of a record. */
struct result {
    uint64_t number;
    size_t length;
};

static struct result quoted(const struct request *r)
{
    struct reference_part part = reference_quote(r->derivation.bytes, r->derivation.length, r->ledger.bytes,
                                                 r->ledger.length, r->label.bytes, r->label.length, r->day,
                                                 r->number);
    struct result result = {part.offset, part.length};
    return result;
}

static struct result answered(const struct request *r)
{
    struct result result = {perform(&reference_engine, r), 0};
    bool wrote = buffer_length_of(r->operation) > 0 && result.number / PER_KIND == YES;
    if (wrote) /* the number is the length, but of an extract */
        result.length = r->operation == EXTRACT ? EXTRACT_SIZE : (size_t)result.number;
    return result;
}

static void make_record(struct record *record, const struct request *r, uint8_t fill, struct result result)
{
    record->length = 0;
    put_number(record, r->operation, 4);
    put_number(record, r->number, 8);
    put_number(record, r->ledger.length, 4);
    put_number(record, r->p.length, 4);
    put_number(record, r->q.length, 4);
    put_number(record, r->label.length, 4);
    put_number(record, r->derivation.length, 4);
    put_number(record, r->buffer_length, 4);
    put_number(record, fill, 4);
    put_number(record, result.number, 4);
    put_number(record, result.length, 4);
    put_number(record, r->day, 4);
    put_slice(record, r->ledger);
    put_slice(record, r->p);
    put_slice(record, r->q);
    put_slice(record, r->label);
    put_slice(record, r->derivation);
    if (r->operation != QUOTE)
        put_bytes(record, r->buffer, result.length);
}

/* How many bytes from a place on are 00. */
static size_t zeros_from(const struct record *record, size_t at)
{
    size_t end = at;
    while (end < record->length && record->bytes[end] == 0)
        end++;
    return end - at;
}

/* How many bytes from a place on stand for themselves: up to four or more 00, and at most 255. */
static size_t plain_from(const struct record *record, size_t at)
{
    size_t end = at;
    while (end < record->length && end - at < 255 && zeros_from(record, end) < 4)
        end++;
    return end - at;
}

static void pack(const struct record *record, struct record *packed)
{
    packed->length = 0;
    for (size_t at = 0; at < record->length;) {
        size_t plain = plain_from(record, at);
        put_number(packed, plain, 1);
        put_bytes(packed, record->bytes + at, plain);
        at += plain;
        size_t zeros = zeros_from(record, at);
        put_number(packed, zeros, 2);
        at += zeros;
    }
}

/* Makes one record; gives its packed form, for the file. */
static void make_packed(struct source *source, enum operation operation, struct record *packed, struct coverage *seen)
{
    static struct call call;
    static uint8_t buffer[BUFFER_ROOM];
    static struct record record;
    random_call(source, operation, &call);
    memset(buffer, call.fill, sizeof buffer);
    struct request request = request_of(&call, buffer);
    struct result result = operation == QUOTE ? quoted(&request) : answered(&request);
    make_record(&record, &request, call.fill, result);
    pack(&record, packed);
    if (operation == QUOTE)
        count_quote(seen, &call, result.length);
    else
        count_answer(seen, &call, (uint32_t)result.number);
}

static size_t write_record(const struct record *packed, FILE *to)
{
    struct record size = {0};
    put_number(&size, packed->length, 4);
    return fwrite(size.bytes, 1, size.length, to) + fwrite(packed->bytes, 1, packed->length, to);
}

/* Gives the size of the file. Of records that are not small one in eight is kept. */
static size_t write_records(FILE *to, struct coverage *seen)
{
    static struct record packed;
    struct source source = {SEED};
    size_t written = 0;
    for (unsigned done = 0; done < CALLS;) {
        struct coverage with_this = *seen;
        make_packed(&source, all_operations[done % OPERATIONS], &packed, &with_this);
        if (packed.length > SMALL && below(&source, 8) != 0)
            continue;
        written += write_record(&packed, to);
        *seen = with_this;
        done++;
    }
    return written;
}

/* ---- Lists of calls on a live ledger ---- */

static struct slice first_input(const struct request *r)
{
    return r->operation == LIVE_MAKE ? r->label : r->operation == LIVE_ADD ? r->ledger : r->p;
}

static size_t length_of_call(const struct request *r)
{
    return CALL_HEAD + first_input(r).length + r->q.length;
}

static void put_call(struct record *list, const struct request *r, uint32_t number)
{
    put_number(list, r->operation - LIVE_MAKE, 1);
    put_number(list, number, 4);
    put_number(list, r->number, 8);
    put_number(list, r->operation == LIVE_MAKE ? r->day : 0, 4);
    put_number(list, first_input(r).length, 2);
    put_number(list, r->q.length, 2);
    put_slice(list, first_input(r));
    put_slice(list, r->q);
}

/* Makes the calls of a list, as many as have room. */
static void make_list(struct source *source, struct record *list, struct live *live, struct coverage *seen)
{
    static struct call call;
    struct random_list random = random_list(source);
    bool made = false;
    for (unsigned i = 0; i < random.calls; i++) {
        random_live_call(source, &random, made ? live : NULL, &call);
        struct request request = live_request_of(&call, live);
        if (list->length + length_of_call(&request) > LIST_MOST)
            return;
        uint32_t number = perform(&reference_engine, &request);
        put_call(list, &request, number);
        count_answer(seen, &call, number);
        made = made || kind_of(number) == YES;
    }
}

static uint64_t sum_with(uint64_t sum, uint64_t value)
{
    return (257 * sum + value % CHECK_SUM) % CHECK_SUM;
}

static void put_sums(struct record *sums, const struct live *live)
{
    uint64_t bytes = 0, words = 0;
    for (size_t i = 0; i < LEDGER_MOST; i++)
        bytes = sum_with(bytes, live->ledger[i]);
    for (size_t i = 0; i < NUMBER_WORDS; i++)
        words = sum_with(words, live->numbers[i]);
    put_number(sums, bytes, 4);
    put_number(sums, words, 4);
}

/* Gives how many bytes were written. */
static size_t write_list(struct source *source, FILE *to, struct coverage *seen)
{
    static struct record list, sums, record, packed;
    static struct live live;
    memset(&live, 0, sizeof live);
    list.length = sums.length = 0;
    make_list(source, &list, &live, seen);
    put_sums(&sums, &live);
    struct request request = {.operation = LIVE_MAKE, .p = {list.bytes, list.length}, .buffer = sums.bytes};
    make_record(&record, &request, 0, (struct result){0, sums.length});
    pack(&record, &packed);
    return write_record(&packed, to);
}

static size_t write_lists(FILE *to, struct coverage *seen)
{
    struct source source = {LIST_SEED};
    size_t written = 0;
    for (unsigned done = 0; done < LISTS; done++)
        written += write_list(&source, to, seen);
    return written;
}

int main(int count, char **arguments)
{
    static struct coverage seen;
    FILE *to = count == 2 ? fopen(arguments[1], "wb") : NULL;
    if (to == NULL) {
        fputs("usage: make_cases FILE\n", stderr);
        return 2;
    }
    size_t written = write_records(to, &seen);
    written += write_lists(to, &seen);
    bool failed = ferror(to) != 0;
    failed |= fclose(to) != 0;
    unsigned missing = print_coverage(&seen, all_operations, OPERATIONS, stdout);
    missing += print_coverage(&seen, live_operations, LIVE_OPERATIONS, stdout);
    printf("%d calls, %d lists, %zu bytes, %u answers never met\n", CALLS, LISTS, written, missing);
    return failed || missing > 0 || written > FILE_MOST;
}

/*
 * The worked cases A to L of document 01, and of document 02 the short form's buffer by K12, the notation by K1, days
 * by K2, the test of a coalition by K3, quorums by K4, the live ledger by K5 and the spoken gap by K6, on the reference
 * and on the library.
 */
#include "calls.h"

#include <stdbool.h>
#include <stdio.h>
#include <string.h>

/* On which the cases of document 01 are asked; their grants have no days. */
enum { SOME_DAY = 20240131 };

static unsigned failures;

static void expect(const struct engine *engine, const char *letter, bool as_written)
{
    if (as_written)
        return;
    printf("case %s differs (%s)\n", letter, engine->name);
    failures++;
}

/* A term from codes written in hexadecimal, with spaces. */
static struct term codes(const char *hex)
{
    struct term term = {0};
    unsigned code;
    int used;
    for (; sscanf(hex, "%x%n", &code, &used) == 1; hex += used)
        put_code(&term, code);
    return term;
}

static struct ledger plain(void)
{
    struct ledger ledger;
    start_ledger(&ledger, 2);
    return ledger;
}

static void put_grant(struct ledger *ledger, const char *p, const char *q, const char *label)
{
    struct term tp = codes(p), tq = codes(q), tl = codes(label);
    add_grant(ledger, &tp, &tq, &tl);
}

/* Of two names, one grant. */
static struct ledger one_grant(const char *p, const char *q, const char *label)
{
    struct ledger ledger = plain();
    put_grant(&ledger, p, q, label);
    return ledger;
}

static struct ledger granted(const char *label)
{
    return one_grant("00", "01", label);
}

static uint32_t ask_on(question_call *question, const struct ledger *ledger, const char *p, const char *q,
                       const char *label, uint32_t day)
{
    struct term tp = codes(p), tq = codes(q), tl = codes(label);
    return question(ledger->bytes, ledger->length, tp.codes, tp.length, tq.codes, tq.length, tl.codes, tl.length, day);
}

static uint32_t ask(question_call *question, const struct ledger *ledger, const char *p, const char *q,
                    const char *label)
{
    return ask_on(question, ledger, p, q, label, SOME_DAY);
}

static uint32_t yes(void)
{
    return YES * PER_KIND;
}

static uint32_t no_on_see_side(unsigned coalition)
{
    return NO * PER_KIND + SEE * PER_SIDE + coalition;
}

static uint32_t no_on_change_side(unsigned coalition)
{
    return NO * PER_KIND + CHANGE * PER_SIDE + coalition;
}

static uint32_t refused(unsigned refusal)
{
    return REFUSED * PER_KIND + refusal;
}

static bool check_is(const struct ledger *ledger, unsigned block, uint8_t high, uint8_t low)
{
    return ledger->bytes[BLOCK * block + 510] == high && ledger->bytes[BLOCK * block + 511] == low;
}

static void checks_of_the_ledgers(const struct engine *e)
{
    struct ledger l = granted("41 01"), g = granted("41 00"), p = plain();
    expect(e, "Plain", check_is(&p, 0, 0x00, 0x05));
    expect(e, "Granted", check_is(&l, 0, 0x00, 0x09) && check_is(&l, 1, 0x25, 0xC3));
    expect(e, "G", check_is(&g, 1, 0x25, 0x31));
}

static void cases_of_acts_for(const struct engine *e)
{
    struct ledger p = plain(), l = granted("41 01"), g = granted("41 00");
    expect(e, "A", ask(e->acts_for, &p, "21", "31 40 00 41 01", "21") == yes());
    expect(e, "A", ask(e->acts_for, &p, "31 40 00 41 01", "21", "21") == yes());
    expect(e, "B", ask(e->acts_for, &p, "30 00 01", "00", "21") == yes());
    expect(e, "C", ask(e->acts_for, &p, "31 00 01", "00", "21") == no_on_see_side(2));
    expect(e, "D", ask(e->acts_for, &p, "20", "00", "21") == yes());
    expect(e, "D", ask(e->acts_for, &p, "21", "20", "21") == no_on_see_side(0));
    expect(e, "E", ask(e->acts_for, &l, "00", "01", "41 01") == yes());
    expect(e, "F", ask(e->acts_for, &l, "00", "01", "00") == no_on_see_side(1));
    expect(e, "G", ask(e->acts_for, &g, "00", "01", "21") == no_on_see_side(1));
}

static void cases_of_flows_to(const struct engine *e)
{
    struct ledger p = plain();
    expect(e, "I", ask(e->flows_to, &p, "40 00", "40 30 00 01", "21") == yes());
    expect(e, "J", ask(e->flows_to, &p, "40 30 00 01", "40 00", "21") == no_on_see_side(1));
}

/* Bytes 0 and 512 have one value, 1 and 513 another, the rest is 00. */
static bool extract_of_two(const struct engine *e, const struct ledger *ledger, const char *under, uint32_t day,
                           uint8_t first, uint8_t second)
{
    uint8_t buffer[EXTRACT_SIZE], expected[EXTRACT_SIZE] = {0};
    struct term label = codes(under);
    memset(buffer, 0xAA, sizeof buffer);
    expected[0] = expected[512] = first;
    expected[1] = expected[513] = second;
    return e->extract(ledger->bytes, ledger->length, label.codes, label.length, day, buffer, sizeof buffer) == yes()
        && memcmp(buffer, expected, sizeof buffer) == 0;
}

/* Bytes 0 and 512 have this value, the rest is 00. */
static bool extract_is(const struct engine *e, const struct ledger *ledger, uint32_t day, uint8_t value)
{
    return extract_of_two(e, ledger, "41 01", day, value, 0);
}

static void case_of_extract(const struct engine *e)
{
    struct ledger l = granted("41 01"), p = plain();
    expect(e, "H", extract_is(e, &l, SOME_DAY, 0x0D));
    expect(e, "H", extract_is(e, &p, SOME_DAY, 0x0F));
}

/* On a buffer of this length the call gives the number and writes the expected bytes; all others are kept. */
static bool leaves(writing_call *call, uint64_t n, const struct term *from, size_t buffer_length, uint32_t number,
                   const uint8_t *expected, size_t length)
{
    static uint8_t buffer[BUFFER_ROOM], after[BUFFER_ROOM];
    memset(buffer, 0xAA, sizeof buffer);
    memset(after, 0xAA, sizeof after);
    memcpy(after, expected, length);
    return call(n, from->codes, from->length, buffer, buffer_length) == number
        && memcmp(buffer, after, sizeof buffer) == 0;
}

static bool writes(writing_call *call, uint64_t n, const struct term *from, size_t buffer_length,
                   const struct term *expected)
{
    return leaves(call, n, from, buffer_length, (uint32_t)expected->length, expected->codes, expected->length);
}

static bool refuses(writing_call *call, uint64_t n, const struct term *from, size_t buffer_length, unsigned refusal)
{
    return leaves(call, n, from, buffer_length, refused(refusal), from->codes, 0);
}

static bool short_form_is(const struct engine *e, uint64_t n, const char *term, const char *expected)
{
    struct term t = codes(term), bytes = codes(expected);
    return writes(e->short_form, n, &t, SHORT_FORM_LEAST, &bytes);
}

static void cases_of_short_form(const struct engine *e)
{
    expect(e, "A", short_form_is(e, 2, "31 40 00 41 01", "00 01 00 00 00 01 00 00"));
    expect(e, "K", short_form_is(e, 2, "31 00 30 00 01", "00 01 00 01 00 01 00 01"));
    expect(e, "K", short_form_is(e, 2, "20", "00 00 00 00"));
}

/* The refusal of a term in a job of n names; 0 if it passes. */
static uint32_t refusal_of_term(const struct engine *e, uint64_t n, const struct term *t)
{
    static uint8_t buffer[SHORT_FORM_LEAST];
    uint32_t number = e->short_form(n, t->codes, t->length, buffer, sizeof buffer);
    return number / PER_KIND == REFUSED ? number % PER_KIND : 0;
}

static struct term nested(unsigned projections)
{
    struct term term = {0};
    put_codes(&term, SEE_OF, projections);
    put_code(&term, 0);
    return term;
}

static uint32_t asked_of_length(const struct engine *e, size_t length)
{
    struct ledger ledger = {0};
    start_ledger(&ledger, 2);
    ledger.length = length;
    return ask(e->acts_for, &ledger, "00", "00", "21");
}

static void case_of_refusals(const struct engine *e)
{
    struct term longest = nested(63), longer = nested(64);
    struct term unknown = codes("02"), early = codes("30 00"), left_over = codes("00 00"), unjudged = codes("00 FF");
    expect(e, "L", refusal_of_term(e, 2, &longest) == 0);
    expect(e, "L", refusal_of_term(e, 2, &longer) == 1);
    expect(e, "L", refusal_of_term(e, 2, &unknown) == 2);
    expect(e, "L", refusal_of_term(e, 2, &early) == 3);
    expect(e, "L", refusal_of_term(e, 2, &left_over) == 4);
    expect(e, "L", refusal_of_term(e, 2, &unjudged) == 4);
    expect(e, "L", asked_of_length(e, 0) == refused(10));
    expect(e, "L", asked_of_length(e, 513) == refused(10));
    expect(e, "L", asked_of_length(e, 33792) == refused(10));
}

/* ---- K12: a buffer of 3,700 bytes ---- */

static bool one_byte_less(const struct engine *e, uint64_t n, const char *term, unsigned refusal)
{
    struct term t = codes(term);
    return refuses(e->short_form, n, &t, SHORT_FORM_LEAST - 1, refusal);
}

static void case_of_buffer(const struct engine *e)
{
    for (unsigned n = 1; n <= NAMES; n++) {
        expect(e, "K12", short_form_is(e, n, "21", "00 01 00 00 00 01 00 00"));
        expect(e, "K12", one_byte_less(e, n, "21", 8));
        expect(e, "K12", one_byte_less(e, n, "FF", 8));
    }
    expect(e, "K12", one_byte_less(e, 0, "21", 7));
    expect(e, "K12", one_byte_less(e, 13, "21", 7));
}

static unsigned members(unsigned coalition)
{
    unsigned count = 0;
    for (; coalition > 0; coalition /= 2)
        count += coalition % 2;
    return count;
}

/* Has the coalition of six names three members, not all of one half? */
static bool three_of_two_halves(unsigned coalition)
{
    return members(coalition) == 3 && members(coalition % 8) != 0 && members(coalition % 8) != 3;
}

static bool three_of_each_six(unsigned coalition)
{
    return three_of_two_halves(coalition % 64) && three_of_two_halves(coalition / 64);
}

/* The coalitions of twelve names that `minimal` says, ascending, are those of a term on both sides. */
static bool short_form_lists(const struct engine *e, const struct term *t, unsigned count, bool minimal(unsigned))
{
    static uint8_t expected[SHORT_FORM_LEAST];
    size_t end = 0;
    for (unsigned side = SEE; side <= CHANGE; side++) {
        expected[end++] = (uint8_t)(count / 256);
        expected[end++] = (uint8_t)(count % 256);
        for (unsigned c = 0; c < 1u << NAMES; c++)
            if (minimal(c)) {
                expected[end++] = (uint8_t)(c / 256);
                expected[end++] = (uint8_t)(c % 256);
            }
    }
    return end == 4 + 4 * count && leaves(e->short_form, NAMES, t, SHORT_FORM_LEAST, (uint32_t)end, expected, end);
}

/* Of each six names one of a half and two of the other half, or the reverse: by 63 codes 18 x 18 minimal coalitions
 * on each side. */
static void case_of_many_coalitions(const struct engine *e)
{
    struct term t = codes("30 31 30 31 31 00 01 02 31 30 03 04 30 05 31 03 04 30 31 30 00 01 30 02 31 00 01 31 31 03 04 05 "
                          "31 30 31 31 06 07 08 31 30 09 0A 30 0B 31 09 0A 30 31 30 06 07 30 08 31 06 07 31 31 09 0A 0B");
    expect(e, "K12", short_form_lists(e, &t, 324, three_of_each_six));
}

/* ---- K1: a written notation ---- */

/* A text, then so many of one character more. */
static struct term text(const char *start, unsigned times, char more)
{
    struct term t = {0};
    for (; *start != 0; start++)
        put_code(&t, (uint8_t)*start);
    put_codes(&t, (uint8_t)more, times);
    return t;
}

static void reads(const struct engine *e, const char *letter, uint64_t n, const char *start, const char *expected)
{
    struct term t = text(start, 0, 0), bytes = codes(expected);
    expect(e, letter, writes(e->read_text, n, &t, CODES, &bytes));
}

static void refuses_text(const struct engine *e, const char *letter, uint64_t n, struct term t, size_t buffer_length,
                         unsigned refusal)
{
    expect(e, letter, refuses(e->read_text, n, &t, buffer_length, refusal));
}

static void cases_of_reading(const struct engine *e)
{
    static const char *const no_texts[] = {"c", "()", "a&", ">a", "a b", "A", "(a", "a)", "\xE1", "a\n"};
    reads(e, "K1", 3, "a|b|c", "31 31 00 01 02");
    reads(e, "K1", 3, "a|(b|c)", "31 00 31 01 02");
    reads(e, "K1", 3, "a|b&c", "31 00 30 01 02");
    reads(e, "K1", 2, "a&b>", "30 00 40 01");
    reads(e, "K1", 2, "(a&b)><", "41 40 30 00 01");
    reads(e, "K1", 12, "*&l|_", "31 30 20 0B 21");
    for (unsigned i = 0; i < sizeof no_texts / sizeof *no_texts; i++)
        refuses_text(e, "K1", 2, text(no_texts[i], 0, 0), CODES, 82);
    refuses_text(e, "K1", 12, text("m", 0, 0), CODES, 82);
}

/* Lengths of texts, of codes and of buffers, and which refusal comes first. */
static void cases_of_lengths_read(const struct engine *e)
{
    struct term longest = text("a", 63, '>'), expected = nested(63), spoiled = text("a", 64, '>'), empty = {0};
    expect(e, "K1", writes(e->read_text, 1, &longest, CODES, &expected));
    put_code(&spoiled, '&');
    refuses_text(e, "K1", 1, spoiled, CODES, 82);
    refuses_text(e, "K1", 1, text("&a", 64, '>'), CODES, 82);
    refuses_text(e, "K1", 1, text("a", 64, '>'), CODES, 83);
    refuses_text(e, "K1", 1, text("a", 255, '>'), CODES, 83);
    refuses_text(e, "K1", 1, text("a", 256, '>'), CODES, 81);
    refuses_text(e, "K1", 1, text("", 257, ')'), CODES, 81);
    refuses_text(e, "K1", 1, empty, CODES, 81);
    refuses_text(e, "K1", 1, text("a", 0, 0), CODES - 1, 81);
    refuses_text(e, "K1", 1, text("a", 0, 0), CODES + 1, 81);
    refuses_text(e, "K1", 0, empty, CODES, 7);
    refuses_text(e, "K1", 13, empty, CODES, 7);
    refuses_text(e, "K1", 0, empty, CODES + 1, 7);
}

/* 256 characters and two codes: a in 127 brackets, and a sign. */
static void case_of_brackets(const struct engine *e)
{
    struct term t = text("a", 0, 0), expected = nested(1);
    for (unsigned i = 0; i < 127; i++)
        t = in_brackets(&t);
    put_code(&t, '>');
    expect(e, "K1", t.length == TEXT_MOST && writes(e->read_text, 1, &t, CODES, &expected));
}

/* The term is written as this text, and the text is read to the term. */
static void both_ways(const struct engine *e, const char *letter, uint64_t n, const char *term, const char *expected)
{
    struct term t = codes(term), characters = text(expected, 0, 0);
    expect(e, letter, writes(e->write_term, n, &t, TEXT_MOST, &characters));
    reads(e, letter, n, expected, term);
}

static void refuses_term(const struct engine *e, const char *letter, uint64_t n, const char *term,
                         size_t buffer_length, unsigned refusal)
{
    struct term t = codes(term);
    expect(e, letter, refuses(e->write_term, n, &t, buffer_length, refusal));
}

static void cases_of_writing(const struct engine *e)
{
    struct term longest = nested(63), expected = text("a", 63, '>'), longer = nested(64);
    both_ways(e, "K1", 3, "30 31 00 01 02", "(a|b)&c");
    both_ways(e, "K1", 3, "30 00 30 01 02", "a&(b&c)");
    both_ways(e, "K1", 3, "31 31 00 01 02", "a|b|c");
    both_ways(e, "K1", 2, "40 41 00", "a<>");
    both_ways(e, "K1", 3, "30 00 31 01 02", "a&(b|c)");
    both_ways(e, "K1", 3, "31 00 31 01 02", "a|(b|c)");
    both_ways(e, "K1", 3, "30 30 00 01 02", "a&b&c");
    both_ways(e, "K1", 4, "31 30 00 01 30 02 03", "a&b|c&d");
    both_ways(e, "K1", 2, "40 30 00 01", "(a&b)>");
    both_ways(e, "K1", 2, "41 31 20 21", "(*|_)<");
    expect(e, "K1", writes(e->write_term, 1, &longest, TEXT_MOST, &expected));
    expect(e, "K1", refuses(e->write_term, 1, &longer, TEXT_MOST, 1));
    refuses_term(e, "K1", 2, "", TEXT_MOST, 1);
    refuses_term(e, "K1", 2, "02", TEXT_MOST, 2);
    refuses_term(e, "K1", 2, "30 00", TEXT_MOST, 3);
    refuses_term(e, "K1", 2, "00 00", TEXT_MOST, 4);
    refuses_term(e, "K1", 2, "00", TEXT_MOST - 1, 81);
    refuses_term(e, "K1", 2, "00", TEXT_MOST + 1, 81);
    refuses_term(e, "K1", 2, "FF", TEXT_MOST - 1, 81);
    refuses_term(e, "K1", 0, "00", TEXT_MOST - 1, 7);
    refuses_term(e, "K1", 13, "00", TEXT_MOST, 7);
}

/* ---- K2: grants with a first and last day ---- */

/* The label of Granted, under which its grant counts. */
static const char own_word[] = "41 01";

static struct ledger granted_for(uint32_t first, uint32_t last)
{
    struct ledger ledger = granted(own_word);
    put_days(block_of(&ledger, 1), first, last);
    return ledger;
}

/* Granted with these days, asked on a day. */
static uint32_t asked_on(const struct engine *e, uint32_t first, uint32_t last, uint32_t day)
{
    struct ledger ledger = granted_for(first, last);
    return ask_on(e->acts_for, &ledger, "00", "01", own_word, day);
}

static void inside(const struct engine *e, uint32_t first, uint32_t last, uint32_t day)
{
    expect(e, "K2", asked_on(e, first, last, day) == yes());
}

static void outside(const struct engine *e, uint32_t first, uint32_t last, uint32_t day)
{
    expect(e, "K2", asked_on(e, first, last, day) == no_on_see_side(1));
}

/* Both edges are inside, and an end without an edge is open. */
static void cases_of_edges(const struct engine *e)
{
    inside(e, 0, 20240131, 20240131);
    outside(e, 0, 20240131, 20240201);
    inside(e, 0, 20240131, 19000101);
    outside(e, 20240131, 0, 20240130);
    inside(e, 20240131, 0, 20240131);
    inside(e, 20240131, 0, 21991231);
    outside(e, 20240101, 20240131, 20231231);
    inside(e, 20240101, 20240131, 20240101);
    inside(e, 20240101, 20240131, 20240131);
    outside(e, 20240101, 20240131, 20240201);
    outside(e, 20240229, 20240229, 20240228);
    inside(e, 20240229, 20240229, 20240229);
    outside(e, 20240229, 20240229, 20240301);
    inside(e, 0, 0, 19000101);
    inside(e, 0, 0, 21991231);
    inside(e, 19000101, 21991231, 19000101);
    inside(e, 19000101, 21991231, 21991231);
}

static void case_of_block(const struct engine *e)
{
    static const uint8_t days[8] = {0x01, 0x34, 0xD6, 0xE5, 0x01, 0x34, 0xD7, 0x03};
    struct ledger l = granted_for(20240101, 20240131);
    expect(e, "K2", memcmp(block_of(&l, 1) + 208, days, sizeof days) == 0 && check_is(&l, 1, 0xA2, 0xC6));
}

/* As a day of a call the number is refused if it is not real. As a grant's first or last it is so too, but for 0. */
static void judges_date(const struct engine *e, uint32_t date, bool real)
{
    struct ledger l = plain();
    expect(e, "K2", ask_on(e->acts_for, &l, "00", "00", "21", date) == (real ? yes() : refused(86)));
    expect(e, "K2", e->add_days(date, 0) == (real ? date : refused(86)));
    expect(e, "K2", (asked_on(e, date, 0, SOME_DAY) == refused(84)) == (!real && date != 0));
    expect(e, "K2", (asked_on(e, 0, date, SOME_DAY) == refused(84)) == (!real && date != 0));
}

static void cases_of_months(const struct engine *e)
{
    static const uint8_t days[13] = {0, 31, 28, 31, 30, 31, 30, 31, 31, 30, 31, 30, 31};
    for (uint32_t month = 1; month <= 12; month++) {
        uint32_t before_first = 20230000 + 100 * month;
        judges_date(e, before_first, false);
        judges_date(e, before_first + 1, true);
        judges_date(e, before_first + days[month], true);
        judges_date(e, before_first + days[month] + 1, false);
    }
}

static void cases_of_dates(const struct engine *e)
{
    static const uint32_t real[] = {19000101, 19000228, 19040229, 20000229, 20240229, 21000228, 21960229, 21991231};
    static const uint32_t not_real[] = {0, 1, 101, 18991231, 19000229, 20000230, 20230001, 20231301, 20240230, 21000229,
                                        22000101, 0x8134D703, 0x03D73401, UINT32_MAX};
    for (unsigned i = 0; i < sizeof real / sizeof *real; i++)
        judges_date(e, real[i], true);
    for (unsigned i = 0; i < sizeof not_real / sizeof *not_real; i++)
        judges_date(e, not_real[i], false);
}

/* What Granted with these days is refused by; 0 if it isn't. */
static uint32_t refusal_of_days(const struct engine *e, uint32_t first, uint32_t last)
{
    uint32_t number = asked_on(e, first, last, SOME_DAY);
    return kind_of(number) == REFUSED ? number % PER_KIND : 0;
}

static void cases_of_order_of_days(const struct engine *e)
{
    expect(e, "K2", refusal_of_days(e, 20240201, 20240131) == 85);
    expect(e, "K2", refusal_of_days(e, 20240131, 20240131) == 0);
    expect(e, "K2", refusal_of_days(e, 20240131, 0) == 0);
    expect(e, "K2", refusal_of_days(e, 0, 20240131) == 0);
    expect(e, "K2", refusal_of_days(e, 20240230, 20240131) == 84);
    expect(e, "K2", refusal_of_days(e, 20240201, 20240132) == 84);
    expect(e, "K2", refusal_of_days(e, 20240132, 20240230) == 84);
}

/* Another byte in a block, with the check made right. */
static void put_byte(struct ledger *ledger, unsigned block, unsigned place, uint8_t value)
{
    block_of(ledger, block)[place] = value;
    seal(block_of(ledger, block));
}

/* Granted twice over, of which one grant gets bad days and a byte of one is another. */
static uint32_t with_two_damages(const struct engine *e, unsigned dated, uint32_t first, uint32_t last, unsigned grant,
                                 unsigned place, uint8_t value)
{
    struct ledger ledger = granted(own_word);
    put_grant(&ledger, "00", "01", own_word);
    put_days(block_of(&ledger, dated + 1), first, last);
    put_byte(&ledger, grant + 1, place, value);
    return ask(e->acts_for, &ledger, "00", "01", own_word);
}

/* 13, 14, 84 and 85 of one grant, then those of the next. Byte 0 is the kind, 15 and 216 are filler, 16 is p, 145 is
 * in d. */
static void cases_of_order_of_refusals(const struct engine *e)
{
    expect(e, "K2", with_two_damages(e, 0, 20230229, 0, 1, 0, 0x03) == refused(84));
    expect(e, "K2", with_two_damages(e, 1, 20230229, 0, 0, 0, 0x03) == refused(13));
    expect(e, "K2", with_two_damages(e, 0, 20240201, 20240131, 1, 0, 0x03) == refused(85));
    expect(e, "K2", with_two_damages(e, 0, 20240201, 20240131, 1, 16, 0xFF) == refused(85));
    expect(e, "K2", with_two_damages(e, 1, 20240201, 20240131, 0, 16, 0xFF) == refused(14));
    expect(e, "K2", with_two_damages(e, 1, 20230229, 0, 0, 216, 0x01) == refused(13));
    expect(e, "K2", with_two_damages(e, 0, 20230229, 0, 0, 15, 0x01) == refused(13));
    expect(e, "K2", with_two_damages(e, 0, 20240201, 20240131, 0, 216, 0x01) == refused(13));
    expect(e, "K2", with_two_damages(e, 0, 20230229, 0, 0, 16, 0xFF) == refused(14));
    expect(e, "K2", with_two_damages(e, 0, 0, 20230229, 0, 145, 0xFF) == refused(14));
    expect(e, "K2", with_two_damages(e, 0, 20240201, 20240131, 0, 145, 0xFF) == refused(14));
    expect(e, "K2", with_two_damages(e, 0, 20240201, 20240131, 1, 212, 0xFF) == refused(85));
    expect(e, "K2", with_two_damages(e, 1, 20240201, 20240131, 0, 208, 0xFF) == refused(84));
}

static void adds(const struct engine *e, uint32_t date, uint32_t count, uint32_t expected)
{
    expect(e, "K2", e->add_days(date, count) == expected);
}

static void cases_of_adding_days(const struct engine *e)
{
    adds(e, 20240131, 30, 20240301);
    adds(e, 20991231, 366, 21010101);
    adds(e, 21991231, 1, refused(86));
    adds(e, 20230229, 0, refused(86));
    adds(e, 0, 0, refused(86));
    adds(e, 20240131, 0, 20240131);
    adds(e, 19000228, 1, 19000301);
    adds(e, 20000228, 1, 20000229);
    adds(e, 20000228, 2, 20000301);
    adds(e, 20230228, 1, 20230301);
    adds(e, 20240228, 1, 20240229);
    adds(e, 21000228, 1, 21000301);
    adds(e, 20231231, 1, 20240101);
    adds(e, 20231231, 366, 20241231);
    adds(e, 20241231, 366, 20260101);
    adds(e, 20240131, 366, 20250131);
    adds(e, 20240131, 367, refused(86));
    adds(e, 20240131, UINT32_MAX, refused(86));
    adds(e, 21991231, 0, 21991231);
    adds(e, 21981231, 365, 21991231);
    adds(e, 21981231, 366, refused(86));
    adds(e, 21991201, 30, 21991231);
    adds(e, 21991201, 31, refused(86));
}

/* The extract call on a ledger and a buffer of these lengths gives this refusal and leaves the buffer as it was. */
static bool extract_refuses(const struct engine *e, const struct ledger *ledger, size_t length, uint32_t day,
                            size_t buffer_length, unsigned refusal)
{
    uint8_t buffer[EXTRACT_SIZE], before[EXTRACT_SIZE];
    struct term label = codes(own_word);
    memset(buffer, 0xAA, sizeof buffer);
    memset(before, 0xAA, sizeof before);
    return e->extract(ledger->bytes, length, label.codes, label.length, day, buffer, buffer_length) == refused(refusal)
        && memcmp(buffer, before, sizeof buffer) == 0;
}

static void cases_of_dated_extract(const struct engine *e)
{
    struct ledger l = granted_for(20240101, 20240131), bad = granted_for(20240201, 20240131);
    expect(e, "K2", extract_is(e, &l, 20231231, 0x0F));
    expect(e, "K2", extract_is(e, &l, 20240101, 0x0D));
    expect(e, "K2", extract_is(e, &l, 20240131, 0x0D));
    expect(e, "K2", extract_is(e, &l, 20240201, 0x0F));
    expect(e, "K2", extract_refuses(e, &l, 1, 0, 3, 86));
    expect(e, "K2", extract_refuses(e, &l, 1, SOME_DAY, 3, 51));
    expect(e, "K2", extract_refuses(e, &l, 1, SOME_DAY, EXTRACT_SIZE, 10));
    expect(e, "K2", extract_refuses(e, &l, l.length, 0, EXTRACT_SIZE, 86));
    expect(e, "K2", extract_refuses(e, &l, l.length, 20230229, EXTRACT_SIZE, 86));
    expect(e, "K2", extract_refuses(e, &bad, bad.length, SOME_DAY, EXTRACT_SIZE, 85));
}

/* One step by rule 2: grant 0 as it stands. */
static uint32_t derived_on(const struct engine *e, const struct ledger *ledger, size_t length, uint32_t day)
{
    struct derivation d = {0};
    struct term p = codes("00"), q = codes("01"), label = codes(own_word);
    add_step(&d, 2, 0, 0, 0, &p, &q);
    return e->check_derivation(d.bytes, d.length, ledger->bytes, length, label.codes, label.length, day);
}

static void cases_of_dated_calls(const struct engine *e)
{
    struct ledger l = granted_for(20240101, 20240131);
    expect(e, "K2", derived_on(e, &l, l.length, 20231231) == refused(66));
    expect(e, "K2", derived_on(e, &l, l.length, 20240101) == yes());
    expect(e, "K2", derived_on(e, &l, l.length, 20240131) == yes());
    expect(e, "K2", derived_on(e, &l, l.length, 20240201) == refused(66));
    expect(e, "K2", derived_on(e, &l, 1, 0) == refused(86));
    expect(e, "K2", derived_on(e, &l, 1, SOME_DAY) == refused(10));
    expect(e, "K2", ask_on(e->flows_to, &l, "41 00", "41 01", own_word, 20240131) == yes());
    expect(e, "K2", ask_on(e->flows_to, &l, "41 00", "41 01", own_word, 20240201) == no_on_change_side(1));
    l.length = 1;
    expect(e, "K2", ask_on(e->flows_to, &l, "FF", "FF", "FF", 0) == refused(86));
    expect(e, "K2", ask_on(e->acts_for, &l, "FF", "FF", "FF", 0) == refused(86));
    expect(e, "K2", ask_on(e->acts_for, &l, "FF", "FF", "FF", SOME_DAY) == refused(10));
}

/* ---- K3: stop at the broken grant ---- */

/* A label that no coalition holds on the change side: its grant counts, whatever q is and under whatever label. */
static const char nobodys_word[] = "41 20";

static uint32_t tested_on(const struct engine *e, const struct ledger *ledger, const char *label, uint32_t day,
                          uint32_t side, uint32_t coalition)
{
    struct term l = codes(label);
    return e->test_coalition(ledger->bytes, ledger->length, l.codes, l.length, day, side, coalition);
}

static uint32_t tested(const struct engine *e, const struct ledger *ledger, uint32_t side, uint32_t coalition)
{
    return tested_on(e, ledger, "21", SOME_DAY, side, coalition);
}

static uint32_t sound(unsigned count)
{
    return YES * PER_KIND + count;
}

static uint32_t broken(unsigned count)
{
    return NO * PER_KIND + count;
}

/* On this side coalitions 0 to 3 are tested so. */
static void all_tested(const struct engine *e, const struct ledger *ledger, uint32_t side, const uint32_t expected[4])
{
    for (uint32_t c = 0; c < 4; c++)
        expect(e, "K3", tested(e, ledger, side, c) == expected[c]);
}

/* Name 0 for 1, 1 for 0 and 0 for 1 again; the second of the four doesn't count, since coalition 1 holds 41 00, 00 and
 * not 20. */
static struct ledger to_and_fro(void)
{
    struct ledger ledger = plain();
    put_grant(&ledger, "00", "01", nobodys_word);
    put_grant(&ledger, "00", "20", "41 00");
    put_grant(&ledger, "01", "00", nobodys_word);
    put_grant(&ledger, "00", "01", nobodys_word);
    return ledger;
}

/* Both sides alike: coalitions 0 and 3 keep all three, 1 breaks the first, and 2 keeps that and breaks the next. */
static void cases_of_testing(const struct engine *e)
{
    const uint32_t expected[4] = {sound(3), broken(1), broken(2), sound(3)};
    struct ledger l = to_and_fro(), none = plain();
    all_tested(e, &l, SEE, expected);
    all_tested(e, &l, CHANGE, expected);
    for (uint32_t c = 0; c < 4; c++) {
        expect(e, "K3", tested(e, &none, SEE, c) == sound(0));
        expect(e, "K3", tested(e, &none, CHANGE, c) == sound(0));
    }
}

/* 40 00 is held by all on the change side, 41 01 by all on the see side, 20 by none on either. So on the see side
 * coalition 1, with name 0 and without name 1, breaks the first grant; the others keep it and break the second. On the
 * change side 0 and 1, without name 1, break the first; 2 and 3 keep it, and hold 41 01: they break the second. */
static void cases_of_sides(const struct engine *e)
{
    const uint32_t on_see[4] = {broken(2), broken(1), broken(2), broken(2)};
    const uint32_t on_change[4] = {broken(1), broken(1), broken(2), broken(2)};
    static const uint32_t change[] = {CHANGE, 2, 3, 256, 65536, 0x80000000, UINT32_MAX};
    struct ledger l = plain();
    put_grant(&l, "40 00", "01", nobodys_word);
    put_grant(&l, "41 01", "20", nobodys_word);
    all_tested(e, &l, SEE, on_see);
    for (unsigned i = 0; i < sizeof change / sizeof *change; i++)
        all_tested(e, &l, change[i], on_change);
}

/* With q of the same side as p, all keep the first grant on the change side and the second on the see side. On the see
 * side coalition 1 breaks the first; on the change side 2 and 3, with name 1, break the second. */
static void cases_of_one_side(const struct engine *e)
{
    const uint32_t on_see[4] = {sound(2), broken(1), sound(2), sound(2)};
    const uint32_t on_change[4] = {sound(2), sound(2), broken(2), broken(2)};
    struct ledger l = plain();
    put_grant(&l, "40 00", "40 01", nobodys_word);
    put_grant(&l, "41 01", "41 20", nobodys_word);
    all_tested(e, &l, SEE, on_see);
    all_tested(e, &l, CHANGE, on_change);
}

/* As many grants as a ledger can have, of which all but the last are kept by everybody. */
static void case_of_most_grants(const struct engine *e)
{
    const uint32_t expected[4] = {sound(GRANTS), broken(GRANTS), sound(GRANTS), sound(GRANTS)};
    struct ledger l = plain();
    for (unsigned i = 1; i < GRANTS; i++)
        put_grant(&l, "00", "00", nobodys_word);
    put_grant(&l, "00", "01", nobodys_word);
    all_tested(e, &l, SEE, expected);
    all_tested(e, &l, CHANGE, expected);
}

/* Of twelve names the last for the first. */
static void cases_of_last_name(const struct engine *e)
{
    struct ledger l;
    start_ledger(&l, NAMES);
    put_grant(&l, "0B", "00", nobodys_word);
    expect(e, "K3", tested(e, &l, SEE, 0x800) == broken(1));
    expect(e, "K3", tested(e, &l, CHANGE, 0xFFE) == broken(1));
    expect(e, "K3", tested(e, &l, SEE, 0x801) == sound(1));
    expect(e, "K3", tested(e, &l, SEE, 0x7FE) == sound(1));
}

/* The bits of names that the job doesn't have. */
static void cases_of_other_bits(const struct engine *e)
{
    struct ledger l = to_and_fro();
    expect(e, "K3", tested(e, &l, SEE, 4) == sound(3));
    expect(e, "K3", tested(e, &l, SEE, 4 + 1) == broken(1));
    expect(e, "K3", tested(e, &l, CHANGE, 0x1000 + 2) == broken(2));
    expect(e, "K3", tested(e, &l, CHANGE, 0x80000000) == sound(3));
    expect(e, "K3", tested(e, &l, SEE, UINT32_MAX) == sound(3));
}

/* Only grants that count on the day and under the label are tested. */
static void cases_of_counting(const struct engine *e)
{
    struct ledger l = to_and_fro(), g = granted(own_word);
    put_days(block_of(&l, 1), 0, 20240131);
    expect(e, "K3", tested_on(e, &l, "21", 20240131, SEE, 1) == broken(1));
    expect(e, "K3", tested_on(e, &l, "21", 20240201, SEE, 1) == broken(2));
    expect(e, "K3", tested_on(e, &l, "21", 20240201, SEE, 2) == broken(1));
    expect(e, "K3", tested_on(e, &l, "21", 20240201, SEE, 3) == sound(2));
    expect(e, "K3", tested_on(e, &g, own_word, SOME_DAY, SEE, 1) == broken(1));
    expect(e, "K3", tested_on(e, &g, "00", SOME_DAY, SEE, 1) == sound(0));
}

/* Of three that apply the first is given, and so on. */
static void cases_of_refused_tests(const struct engine *e)
{
    struct ledger l = to_and_fro(), short_one = plain();
    short_one.length = 1;
    expect(e, "K3", tested_on(e, &short_one, "", 20230229, SEE, 0) == refused(86));
    expect(e, "K3", tested_on(e, &short_one, "", SOME_DAY, SEE, 0) == refused(10));
    expect(e, "K3", tested_on(e, &l, "", SOME_DAY, SEE, 0) == refused(41));
    expect(e, "K3", tested_on(e, &l, "02", SOME_DAY, CHANGE, 1) == refused(42));
    put_byte(&l, 4, 16, 0xFF); /* behind the grant that coalition 1 breaks */
    expect(e, "K3", tested_on(e, &l, "21", SOME_DAY, SEE, 1) == refused(14));
}

/* ---- K4: quorums ---- */

/* A missing k or m comes before the range, and that before the parts, of which the first bad one counts. */
static void cases_of_refused_quorums(const struct engine *e)
{
    static const struct {
        unsigned refusal;
        const char *term;
    } cases[] = {
        {3, "32"},
        {3, "32 00"},
        {3, "32 FF"},
        {3, "32 0D"},
        {3, "32 32"},
        {3, "32 01 01"},
        {3, "30 32 00"},
        {3, "40 32 02"},
        {3, "30 00 32 01"},
        {3, "32 02 03 00 01"},
        {3, "32 01 02 32 01 01 00"},
        {2, "32 00 05"},
        {2, "32 03 02 00 01"},
        {2, "32 01 0D"},
        {2, "32 00 00"},
        {2, "32 01 00"},
        {2, "32 00 01 00"},
        {2, "32 02 01 00"},
        {2, "32 FF FF"},
        {2, "32 0D 0D"},
        {2, "32 30 31 00 01"},
        {2, "32 01 FF 00"},
        {2, "32 01 0D 00 00 00 00 00 00 00 00 00 00 00 00 00"},
        {2, "32 02 03 FF"},
        {2, "32 02 03 00 03"},
        {2, "32 01 02 03 32"},
        {2, "32 01 02 00 32 02 01"},
        {4, "32 01 02 00 01 32"},
        {4, "32 01 01 00 00"},
        {4, "32 02 02 00 01 02"},
    };
    for (unsigned i = 0; i < sizeof cases / sizeof *cases; i++) {
        struct term t = codes(cases[i].term);
        expect(e, "K4", refusal_of_term(e, 3, &t) == cases[i].refusal);
        refuses_term(e, "K4", 3, cases[i].term, TEXT_MOST, cases[i].refusal);
    }
}

/* So many quorums 1:1, one in another: three codes each, and a name. */
static struct term nested_quorums(unsigned quorums)
{
    struct term term = {0};
    while (quorums-- > 0)
        put_quorum(&term, 1, 1);
    put_code(&term, 0);
    return term;
}

/* The same as a text. */
static struct term text_of_quorums(unsigned quorums)
{
    struct term t = {0}, one = text("1:1(", 0, 0);
    for (unsigned i = 0; i < quorums; i++)
        put_term(&t, &one);
    put_code(&t, 'a');
    put_codes(&t, ')', quorums);
    return t;
}

/* k and m count towards the 64 codes. */
static void cases_of_length_of_quorums(const struct engine *e)
{
    struct term longest = nested_quorums(21), longer = prefixed(SEE_OF, &longest);
    struct term expected = text_of_quorums(21), spoiled = expected;
    expect(e, "K4", longest.length == CODES && refusal_of_term(e, 1, &longest) == 0);
    expect(e, "K4", refusal_of_term(e, 1, &longer) == 1);
    expect(e, "K4", writes(e->write_term, 1, &longest, TEXT_MOST, &expected));
    expect(e, "K4", writes(e->read_text, 1, &expected, CODES, &longest));
    put_code(&spoiled, '>');
    refuses_text(e, "K4", 1, spoiled, CODES, 83);
    put_code(&spoiled, ',');
    refuses_text(e, "K4", 1, spoiled, CODES, 82);
    refuses_text(e, "K4", 1, text_of_quorums(51), CODES, 83);
}

/* By place, so that equal parts count each, and on each side for itself. */
static void cases_of_short_forms_of_quorums(const struct engine *e)
{
    expect(e, "K4", short_form_is(e, 3, "32 02 03 00 01 02", "00 03 00 03 00 05 00 06 00 03 00 03 00 05 00 06"));
    expect(e, "K4", short_form_is(e, 3, "32 01 03 00 01 02", "00 03 00 01 00 02 00 04 00 03 00 01 00 02 00 04"));
    expect(e, "K4", short_form_is(e, 3, "32 03 03 00 01 02", "00 01 00 07 00 01 00 07"));
    expect(e, "K4", short_form_is(e, 2, "32 02 03 00 00 01", "00 01 00 01 00 01 00 01"));
    expect(e, "K4", short_form_is(e, 2, "32 02 02 00 00", "00 01 00 01 00 01 00 01"));
    expect(e, "K4", short_form_is(e, 1, "32 01 01 00", "00 01 00 01 00 01 00 01"));
    expect(e, "K4", short_form_is(e, 1, "32 01 01 20", "00 00 00 00"));
    expect(e, "K4", short_form_is(e, 1, "32 02 03 20 21 21", "00 01 00 00 00 01 00 00"));
    expect(e, "K4", short_form_is(e, 2, "32 02 02 40 00 40 01", "00 01 00 03 00 01 00 00"));
    expect(e, "K4", short_form_is(e, 3, "32 02 03 40 00 41 01 02", "00 02 00 01 00 04 00 02 00 02 00 04"));
    expect(e, "K4", short_form_is(e, 3, "41 32 02 03 00 01 02", "00 01 00 00 00 03 00 03 00 05 00 06"));
    expect(e, "K4", short_form_is(e, 3, "32 02 03 32 01 02 00 01 30 01 02 02", "00 02 00 05 00 06 00 02 00 05 00 06"));
}

static bool of_six_members(unsigned coalition)
{
    return members(coalition) == 6;
}

/* Any six of twelve names: the longest short form. */
static void case_of_six_of_twelve(const struct engine *e)
{
    struct term t = codes("32 06 0C 00 01 02 03 04 05 06 07 08 09 0A 0B");
    expect(e, "K4", short_form_lists(e, &t, 924, of_six_members));
}

static void cases_of_reading_quorums(const struct engine *e)
{
    static const char *const no_texts[] = {
        "2:3(a,b)",   "02:3(a,b,c)", "4:3(a,b,c)", "2:2(a,b,)",   "0:1(a)",  "2:03(a,b,c)", "0:0()",   "1:0()",
        "1:1()",      "1:2(a,)",     "1:2(,a)",    "2:3(a,b,c,a)", "2:3(a,b,c", "2:3a,b,c",  "2:3",     "2",
        "2:(a)",      ":3(a,b,c)",   "3(a,b,c)",   "1:1(d)",      "1:1(a)b", "a1:1(a)",     "1 :1(a)", "+1:1(a)",
        "2:3((a,b),c)", "2:2(a;b)",  "a,b",        "(a,b)",       "1:1>(a)", "1:1(a,)",     "257:1(a)", "1:257(a)",
        "1:13(a,a,a,a,a,a,a,a,a,a,a,a,a)", "13:13(a,a,a,a,a,a,a,a,a,a,a,a,a)",
    };
    reads(e, "K4", 3, "2:3(a|b,c&a>,_)<&b", "30 41 32 02 03 31 00 01 30 02 40 00 21 01");
    reads(e, "K4", 3, "(2:2(((a)),(b|c)>))", "32 02 02 00 40 31 01 02");
    for (unsigned i = 0; i < sizeof no_texts / sizeof *no_texts; i++)
        refuses_text(e, "K4", 3, text(no_texts[i], 0, 0), CODES, 82);
}

/* Without brackets around a quorum or its parts. */
static void cases_of_writing_quorums(const struct engine *e)
{
    both_ways(e, "K4", 3, "40 32 02 03 31 00 01 40 02 30 00 21", "2:3(a|b,c>,a&_)>");
    both_ways(e, "K4", 3, "32 01 01 00", "1:1(a)");
    both_ways(e, "K4", 3, "30 00 32 02 02 01 02", "a&2:2(b,c)");
    both_ways(e, "K4", 3, "31 32 01 02 00 01 31 32 01 01 02 00", "1:2(a,b)|(1:1(c)|a)");
    both_ways(e, "K4", 3, "41 40 32 01 01 31 00 31 01 02", "1:1(a|(b|c))><");
    both_ways(e, "K4", 3, "32 01 02 32 02 02 00 01 30 30 00 01 30 01 02", "1:2(2:2(a,b),a&b&(b&c))");
    both_ways(e, "K4", 12, "32 0A 0B 00 01 02 03 04 05 06 07 08 09 0A", "10:11(a,b,c,d,e,f,g,h,i,j,k)");
    both_ways(e, "K4", 12, "32 09 0C 20 21 02 03 04 05 06 07 08 09 0A 0B", "9:12(*,_,c,d,e,f,g,h,i,j,k,l)");
}

/* 64 codes are written as at most 132 characters, these as just so many. */
static void case_of_longest_text(const struct engine *e)
{
    static const char longest[] = "10:10(a,a,a,a,a,a,a,a,a,10:10(a,a,a,a,a,a,a,a,a,10:10(a,a,a,a,a,a,a,a,a,"
                                  "11:11(a,a,a,a,a,a,a,a,a,a,12:12(a,a,a,a,a,a,a,a,a,a,a,a)))))";
    expect(e, "K4", sizeof longest - 1 == 132);
    both_ways(e, "K4", 1,
              "32 0A 0A 00 00 00 00 00 00 00 00 00 32 0A 0A 00 00 00 00 00 00 00 00 00 "
              "32 0A 0A 00 00 00 00 00 00 00 00 00 32 0B 0B 00 00 00 00 00 00 00 00 00 00 "
              "32 0C 0C 00 00 00 00 00 00 00 00 00 00 00 00",
              longest);
}

static const char any_two[] = "32 02 03 00 01 02";

static void asks_statically(const struct engine *e, const char *p, const char *q, uint32_t expected)
{
    struct ledger ledger;
    start_ledger(&ledger, 4);
    expect(e, "K4", ask(e->acts_for, &ledger, p, q, "21") == expected);
}

static void cases_of_static_quorums(const struct engine *e)
{
    asks_statically(e, "30 00 01", any_two, yes());
    asks_statically(e, "30 00 30 01 02", any_two, yes());
    asks_statically(e, "00", any_two, no_on_see_side(1));
    asks_statically(e, "31 30 00 01 31 30 00 02 30 01 02", any_two, yes());
    asks_statically(e, any_two, "31 30 00 01 31 30 00 02 30 01 02", yes());
    asks_statically(e, any_two, "00", no_on_see_side(6));
    asks_statically(e, any_two, "32 01 03 02 01 00", yes());
    asks_statically(e, any_two, "32 03 03 00 01 02", no_on_see_side(3));
    asks_statically(e, "32 03 03 00 01 02", any_two, yes());
    asks_statically(e, "00", "32 02 03 00 00 01", yes());
    asks_statically(e, "32 02 02 41 00 41 01", "41 30 00 01", yes());
    asks_statically(e, "41 30 00 01", "32 02 02 41 00 41 01", yes());
    asks_statically(e, "32 01 02 41 00 41 01", "41 00", no_on_change_side(2));
    asks_statically(e, "32 00 03 00 01 02", "00", refused(22));
    asks_statically(e, "00", "32 02", refused(33));
}

/* The label under which the grant of the editors counts. */
static const char owners_word[] = "41 03";

/* Any two of three editors act for name 3, which owns the page. */
static struct ledger editors(void)
{
    struct ledger ledger;
    start_ledger(&ledger, 4);
    put_grant(&ledger, any_two, "03", owners_word);
    return ledger;
}

static void asks_editors(const struct engine *e, const char *p, uint32_t expected)
{
    struct ledger l = editors();
    expect(e, "K4", ask(e->acts_for, &l, p, "03", owners_word) == expected);
}

static void cases_of_editors(const struct engine *e)
{
    struct ledger l = editors();
    asks_editors(e, "30 00 01", yes());
    asks_editors(e, "30 00 02", yes());
    asks_editors(e, "30 01 02", yes());
    asks_editors(e, "30 00 30 01 02", yes());
    asks_editors(e, any_two, yes());
    asks_editors(e, "00", no_on_see_side(1));
    asks_editors(e, "01", no_on_see_side(2));
    asks_editors(e, "31 00 32 02 02 01 02", no_on_see_side(1));
    expect(e, "K4", ask(e->acts_for, &l, "30 00 01", "03", "00") == no_on_see_side(3));
    expect(e, "K4", ask(e->flows_to, &l, "41 30 00 01", owners_word, owners_word) == yes());
    expect(e, "K4", ask(e->flows_to, &l, "40 03", "40 32 02 02 00 02", owners_word) == yes());
    expect(e, "K4", ask(e->flows_to, &l, "40 03", "40 00", owners_word) == no_on_see_side(1));
    expect(e, "K4", extract_of_two(e, &l, owners_word, SOME_DAY, 0x17, 0xFF));
    expect(e, "K4", tested_on(e, &l, owners_word, SOME_DAY, SEE, 3) == broken(1));
    expect(e, "K4", tested_on(e, &l, owners_word, SOME_DAY, CHANGE, 7) == broken(1));
    expect(e, "K4", tested_on(e, &l, owners_word, SOME_DAY, CHANGE, 4) == sound(1));
    expect(e, "K4", tested_on(e, &l, owners_word, SOME_DAY, SEE, 11) == sound(1));
    put_byte(&l, 1, 17, 0x00); /* k */
    expect(e, "K4", ask(e->acts_for, &l, any_two, "03", owners_word) == refused(14));
}

/* Name 3 acts for any two of the editors, said under a quorum of their words. */
static uint32_t asked_for_quorum(const struct engine *e, const char *grant_label, const char *label)
{
    struct ledger ledger;
    start_ledger(&ledger, 4);
    put_grant(&ledger, "03", any_two, grant_label);
    return ask(e->acts_for, &ledger, "03", any_two, label);
}

/* Fewer of them don't speak for two, and under the word of more the grant isn't visible. */
static void cases_of_words_of_quorums(const struct engine *e)
{
    static const char one[] = "41 32 01 03 00 01 02", two[] = "41 32 02 03 00 01 02", three[] = "41 32 03 03 00 01 02";
    expect(e, "K4", asked_for_quorum(e, two, two) == yes());
    expect(e, "K4", asked_for_quorum(e, two, one) == yes());
    expect(e, "K4", asked_for_quorum(e, two, three) == no_on_see_side(8));
    expect(e, "K4", asked_for_quorum(e, three, two) == yes());
    expect(e, "K4", asked_for_quorum(e, one, one) == no_on_see_side(8));
    expect(e, "K4", asked_for_quorum(e, two, "32 03 02") == refused(42));
    expect(e, "K4", asked_for_quorum(e, "41 32 04 03 00 01 02", two) == refused(14));
}

/* p for any two of the editors by rule 1, these for name 3 by the grant, so p for name 3. */
static uint32_t derived_by_editors(const struct engine *e, const char *p)
{
    struct derivation d = {0};
    struct ledger l = editors();
    struct term first = codes(p), two = codes(any_two), owner = codes("03"), label = codes(owners_word);
    add_step(&d, 1, 0, 0, 0, &first, &two);
    add_step(&d, 2, 0, 0, 0, &two, &owner);
    add_step(&d, 3, 0, 1, 0, &first, &owner);
    return e->check_derivation(d.bytes, d.length, l.bytes, l.length, label.codes, label.length, SOME_DAY);
}

static void cases_of_derived_quorums(const struct engine *e)
{
    expect(e, "K4", derived_by_editors(e, "30 00 01") == yes());
    expect(e, "K4", derived_by_editors(e, "32 03 03 02 01 00") == yes());
    expect(e, "K4", derived_by_editors(e, "00") == refused(67));
    expect(e, "K4", derived_by_editors(e, "32 01 03 00 01 02") == refused(67));
    expect(e, "K4", derived_by_editors(e, "32 01 0D 00 01 02") == refused(62));
    expect(e, "K4", derived_by_editors(e, "32 01") == refused(62));
}

/* ---- K5: the live ledger ---- */

enum { LIVE_CASES_DAY = 20261115, BYTE_BEFORE = 0xAA };

static uint32_t make_live(const struct engine *e, struct live *live, uint64_t n, const char *label, uint32_t day)
{
    struct term t = codes(label);
    return e->live->make(n, t.codes, t.length, day, live->head, live->label, live->ledger, live->numbers);
}

/* A new one under the grantor's own word, all bytes of which were another before. */
static struct live new_live(const struct engine *e, unsigned n)
{
    struct live live;
    memset(&live, BYTE_BEFORE, sizeof live);
    expect(e, "K5", make_live(e, &live, n, own_word, LIVE_CASES_DAY) == yes());
    return live;
}

static uint32_t add_bytes(const struct engine *e, struct live *live, const uint8_t *block, size_t length)
{
    return e->live->add(live->head, live->label, live->ledger, live->numbers, block, length);
}

/* Adds the first grant of a ledger. */
static uint32_t add_first(const struct engine *e, struct live *live, struct ledger *ledger)
{
    return add_bytes(e, live, block_of(ledger, 1), BLOCK);
}

static uint32_t add_to_live(const struct engine *e, struct live *live, const char *p, const char *q, const char *label)
{
    struct ledger ledger = one_grant(p, q, label);
    return add_first(e, live, &ledger);
}

static uint32_t add_g(const struct engine *e, struct live *live)
{
    return add_to_live(e, live, "00", "01", own_word);
}

static uint32_t withdraw(const struct engine *e, struct live *live, uint64_t k)
{
    return e->live->withdraw(live->head, live->label, live->ledger, live->numbers, k);
}

static uint32_t ask_live(live_question_call *question, const struct live *live, const char *p, const char *q)
{
    struct term tp = codes(p), tq = codes(q);
    return question(live->head, live->label, live->ledger, live->numbers, tp.codes, tp.length, tq.codes, tq.length);
}

static uint32_t ask_g(const struct engine *e, const struct live *live)
{
    return ask_live(e->live->acts_for, live, "00", "01");
}

static bool number_is(const struct live *live, unsigned coalition, unsigned number)
{
    return number_at(live->numbers, SEE, coalition) == number && number_at(live->numbers, CHANGE, coalition) == number;
}

/* Is this number stored for the one coalition on both sides, and 0 for all others? */
static bool only_number_is(const struct live *live, unsigned coalition, unsigned number)
{
    for (unsigned c = 0; c < 1u << NAMES; c++)
        if (!number_is(live, c, c == coalition ? number : 0))
            return false;
    return true;
}

/* Does the ledger start with these bytes, and is the rest as it was before all calls? */
static bool keeps_ledger(const struct live *live, const struct ledger *ledger)
{
    size_t at = ledger->length;
    while (at < LEDGER_MOST && live->ledger[at] == BYTE_BEFORE)
        at++;
    return at == LEDGER_MOST && memcmp(live->ledger, ledger->bytes, ledger->length) == 0;
}

static bool unaltered(const struct live *before, const struct live *after)
{
    return memcmp(before, after, sizeof *before) == 0;
}

static void cases_of_twins(const struct engine *e)
{
    struct live live = new_live(e, 2);
    struct ledger empty = plain(), one = granted(own_word), two = granted(own_word);
    put_grant(&two, "00", "01", own_word);
    expect(e, "K5", only_number_is(&live, 0, 0) && keeps_ledger(&live, &empty));
    expect(e, "K5", ask_g(e, &live) == no_on_see_side(1));
    expect(e, "K5", add_g(e, &live) == yes() && only_number_is(&live, 1, 1) && keeps_ledger(&live, &one));
    expect(e, "K5", ask_g(e, &live) == yes());
    expect(e, "K5", ask_live(e->live->flows_to, &live, "00", "01") == no_on_see_side(2));
    expect(e, "K5", add_g(e, &live) == yes() && only_number_is(&live, 1, 2) && keeps_ledger(&live, &two));
    expect(e, "K5", withdraw(e, &live, 0) == yes() && only_number_is(&live, 1, 1));
    expect(e, "K5", ask_g(e, &live) == yes());
    expect(e, "K5", withdraw(e, &live, 0) == yes() && only_number_is(&live, 1, 0));
    expect(e, "K5", ask_g(e, &live) == no_on_see_side(1));
    expect(e, "K5", withdraw(e, &live, 0) == refused(88));
}

/* A refused call leaves every byte as it was. */
static void refuses_to_make(const struct engine *e, uint64_t n, const char *label, uint32_t day, unsigned refusal)
{
    struct live live = new_live(e, 2), before = live;
    expect(e, "K5", make_live(e, &live, n, label, day) == refused(refusal) && unaltered(&before, &live));
}

static void cases_of_making(const struct engine *e)
{
    refuses_to_make(e, 13, "", 20260229, 86);
    refuses_to_make(e, 13, "", 0, 86);
    refuses_to_make(e, 13, "", 20260228, 7);
    refuses_to_make(e, 0, "00", 20260228, 7);
    refuses_to_make(e, 0x100000002, "00", 20260228, 7);
    refuses_to_make(e, 2, "", LIVE_CASES_DAY, 41);
    refuses_to_make(e, 2, "02", LIVE_CASES_DAY, 42);
    refuses_to_make(e, 2, "30 00", LIVE_CASES_DAY, 43);
    refuses_to_make(e, 2, "00 00", LIVE_CASES_DAY, 44);
}

/* Made again it has no grants. */
static void case_of_making_again(const struct engine *e)
{
    struct live live = new_live(e, 2);
    add_g(e, &live);
    expect(e, "K5", make_live(e, &live, 3, "21", 20240131) == yes() && only_number_is(&live, 0, 0));
    expect(e, "K5", live.head[LIVE_NAMES] == 3 && live.head[LIVE_DAY] == 20240131 && live.head[LIVE_HELD] == 0
                        && live.head[LIVE_CODES] == 1 && live.label[0] == WEAKEST);
    expect(e, "K5", withdraw(e, &live, 0) == refused(88));
}

static void cases_of_places(const struct engine *e)
{
    struct live live = new_live(e, 2), before;
    struct ledger b_and_c = plain();
    put_grant(&b_and_c, "01", "00", "41 00");
    put_grant(&b_and_c, "30 00 01", "01", own_word);
    add_g(e, &live);
    add_bytes(e, &live, block_of(&b_and_c, 1), BLOCK);
    add_bytes(e, &live, block_of(&b_and_c, 2), BLOCK);
    expect(e, "K5", withdraw(e, &live, 0) == yes() && memcmp(live.ledger, b_and_c.bytes, b_and_c.length) == 0);
    before = live;
    expect(e, "K5", withdraw(e, &live, 2) == refused(88) && withdraw(e, &live, UINT64_MAX) == refused(88)
                        && withdraw(e, &live, 0x100000000) == refused(88) && unaltered(&before, &live));
}

/* A grant counts under the live label, on the live day, or changes no number. */
static void cases_of_counting_live(const struct engine *e)
{
    struct live live = new_live(e, 2);
    struct ledger on_the_day = granted_for(LIVE_CASES_DAY, LIVE_CASES_DAY), before = granted_for(0, 20261114),
                  after = granted_for(20261116, 0);
    expect(e, "K5", add_first(e, &live, &before) == yes() && only_number_is(&live, 1, 0));
    expect(e, "K5", add_first(e, &live, &after) == yes() && only_number_is(&live, 1, 0));
    expect(e, "K5", add_to_live(e, &live, "00", "01", "41 00") == yes() && only_number_is(&live, 1, 0));
    expect(e, "K5", add_to_live(e, &live, "00", "01", "01") == yes() && only_number_is(&live, 1, 0));
    expect(e, "K5", ask_g(e, &live) == no_on_see_side(1));
    expect(e, "K5", add_first(e, &live, &on_the_day) == yes() && only_number_is(&live, 1, 1));
    expect(e, "K5", withdraw(e, &live, 2) == yes() && only_number_is(&live, 1, 1));
    expect(e, "K5", withdraw(e, &live, 3) == yes() && only_number_is(&live, 1, 0));
}

/* A grant of one side alone is counted there alone. */
static void case_of_one_live_side(const struct engine *e)
{
    struct live live = new_live(e, 2);
    expect(e, "K5", add_to_live(e, &live, "41 00", "41 01", own_word) == yes());
    expect(e, "K5", number_at(live.numbers, SEE, 1) == 0 && number_at(live.numbers, CHANGE, 1) == 1);
    expect(e, "K5", withdraw(e, &live, 0) == yes() && only_number_is(&live, 1, 0));
}

static void refuses_to_add(const struct engine *e, struct live *live, const uint8_t *block, size_t length,
                           unsigned refusal)
{
    struct live before = *live;
    expect(e, "K5", add_bytes(e, live, block, length) == refused(refusal) && unaltered(&before, live));
}

/* The block's own refusals come first, whether there is room or not. */
static void refuses_bad_blocks(const struct engine *e, struct live *live)
{
    struct ledger good = granted(own_word), form = granted(own_word), term = granted(own_word),
                  date = granted_for(20260229, 0), order = granted_for(20261116, 20261115), check = granted(own_word);
    check.bytes[BLOCK + 511] ^= 1;
    put_byte(&form, 1, 4, 1);
    put_byte(&term, 1, 16, 2);
    refuses_to_add(e, live, NULL, 0, 10);
    refuses_to_add(e, live, good.bytes, 2 * BLOCK, 10);
    refuses_to_add(e, live, block_of(&good, 1), BLOCK - 1, 10);
    refuses_to_add(e, live, block_of(&check, 1), BLOCK, 11);
    refuses_to_add(e, live, block_of(&form, 1), BLOCK, 13);
    refuses_to_add(e, live, block_of(&good, 0), BLOCK, 13);
    refuses_to_add(e, live, block_of(&term, 1), BLOCK, 14);
    refuses_to_add(e, live, block_of(&date, 1), BLOCK, 84);
    refuses_to_add(e, live, block_of(&order, 1), BLOCK, 85);
}

/* 64 twins: their number is 64, and no more go in. */
static void case_of_full_live(const struct engine *e)
{
    struct live live = new_live(e, 2);
    struct ledger good = granted(own_word);
    refuses_bad_blocks(e, &live);
    for (unsigned i = 0; i < GRANTS; i++)
        expect(e, "K5", add_g(e, &live) == yes());
    expect(e, "K5", only_number_is(&live, 1, GRANTS) && ask_g(e, &live) == yes());
    refuses_bad_blocks(e, &live);
    refuses_to_add(e, &live, block_of(&good, 1), BLOCK, 87);
    expect(e, "K5", withdraw(e, &live, 63) == yes() && only_number_is(&live, 1, GRANTS - 1));
    expect(e, "K5", add_g(e, &live) == yes() && only_number_is(&live, 1, GRANTS));
}

static void cases_of_live_refusals(const struct engine *e)
{
    static const struct {
        const char *p, *q;
        unsigned refusal;
    } cases[] = {
        {"", "02", 21},   {"02", "", 22},   {"30 00", "", 23},   {"00 00", "", 24},
        {"00", "", 31},   {"00", "02", 32}, {"00", "30 00", 33}, {"00", "00 00", 34},
    };
    struct live live = new_live(e, 2);
    for (unsigned i = 0; i < sizeof cases / sizeof *cases; i++) {
        expect(e, "K5", ask_live(e->live->acts_for, &live, cases[i].p, cases[i].q) == refused(cases[i].refusal));
        expect(e, "K5", ask_live(e->live->flows_to, &live, cases[i].p, cases[i].q) == refused(cases[i].refusal));
    }
}

/* Of twelve names, name 11 for name 1: the coalitions with the one and without the other have 1, on both sides. */
static void case_of_last_live_name(const struct engine *e)
{
    struct live live = new_live(e, NAMES);
    bool right = add_to_live(e, &live, "0B", "01", own_word) == yes();
    for (unsigned c = 0; c < 1u << NAMES; c++)
        right &= number_is(&live, c, c >> 11 == 1 && (c & 2) == 0);
    expect(e, "K5", right);
    expect(e, "K5", ask_live(e->live->acts_for, &live, "0B", "30 0B 01") == yes());
    expect(e, "K5", ask_live(e->live->acts_for, &live, "0B", "0A") == no_on_see_side(2050));
    expect(e, "K5", ask_live(e->live->acts_for, &live, "41 0B", "41 0A") == no_on_change_side(2050));
}

/* ---- K6: only the missing part must be spoken ---- */

/* 1. Name 0 acts for both of two names, of which it lacks 1: the word of 1 is enough. */
static void case_of_missing_name(const struct engine *e)
{
    struct ledger l = one_grant("00", "30 00 01", own_word);
    expect(e, "K6", ask(e->acts_for, &l, "00", "01", own_word) == yes());
    expect(e, "K6", extract_is(e, &l, SOME_DAY, 0x0D));
}

/* 2 and 3. p lacks q on the see side alone: the word of p doesn't speak for that, the word of 1 does. */
static void cases_of_missing_side(const struct engine *e)
{
    struct ledger by_p = one_grant("00", "40 01", "41 00"), by_q = one_grant("00", "40 01", own_word);
    expect(e, "K6", ask(e->acts_for, &by_p, "00", "40 01", "21") == no_on_see_side(1));
    expect(e, "K6", ask(e->acts_for, &by_q, "00", "40 01", own_word) == yes());
}

/* One step by rule 2 on the only grant of a ledger, asked under 21: accepted if it counts. */
static uint32_t step_on_grant(const struct engine *e, const struct ledger *ledger)
{
    struct derivation d = {0};
    struct term p = term_of_grant(ledger, 0, 0), q = term_of_grant(ledger, 0, 1), label = codes("21");
    add_step(&d, 2, 0, 0, 0, &p, &q);
    return e->check_derivation(d.bytes, d.length, ledger->bytes, ledger->length, label.codes, label.length, SOME_DAY);
}

/* 4. Where p statically acts for q any label speaks. The grant counts, and nobody breaks it: the extract is that
 * without it. */
static void case_of_nothing_missing(const struct engine *e)
{
    struct ledger l = one_grant("30 00 01", "00", "41 21"), p = plain();
    expect(e, "K6", step_on_grant(e, &l) == yes());
    expect(e, "K6", extract_of_two(e, &l, "21", SOME_DAY, 0x0F, 0));
    expect(e, "K6", extract_of_two(e, &p, "21", SOME_DAY, 0x0F, 0));
}

/* 5. Case G: p lacks all of q, and its own word doesn't speak for that. */
static void case_of_everything_missing(const struct engine *e)
{
    struct ledger g = granted("41 00");
    expect(e, "K6", ask(e->acts_for, &g, "00", "01", "21") == no_on_see_side(1));
}

static void speaks(const struct engine *e, const char *p, const char *q, const char *label, bool spoken)
{
    struct ledger l = one_grant(p, q, label);
    expect(e, "K6", step_on_grant(e, &l) == (spoken ? yes() : refused(66)));
}

/* p and q are asked on the same side, and on each; the label on the change side alone. */
static void cases_of_sides_spoken(const struct engine *e)
{
    speaks(e, "00", "41 01", "41 00", false);
    speaks(e, "00", "41 01", own_word, true);
    speaks(e, "40 20", "40 00", "41 21", true);
    speaks(e, "41 20", "40 00", "41 21", false);
    speaks(e, "40 00", "00", "41 00", true);
    speaks(e, "41 00", "30 00 01", "41 00", false);
    speaks(e, "41 00", "30 00 01", "41 30 00 01", true);
    speaks(e, "31 00 01", "30 00 01", "41 01", false);
    speaks(e, "00", "20", "41 00", false);
    speaks(e, "00", "20", nobodys_word, true);
}

/* A live ledger made under the word of 1, with the grant of 1. */
static void case_of_live_gap(const struct engine *e)
{
    struct live live = new_live(e, 2);
    expect(e, "K6", add_to_live(e, &live, "00", "30 00 01", own_word) == yes() && only_number_is(&live, 1, 1));
    expect(e, "K6", ask_g(e, &live) == yes());
    expect(e, "K6", withdraw(e, &live, 0) == yes() && only_number_is(&live, 1, 0));
    expect(e, "K6", ask_g(e, &live) == no_on_see_side(1));
}

/* One made under 21: the grants that are spoken are counted, each on the sides on which it is broken. */
static void cases_of_live_sides(const struct engine *e)
{
    struct live live;
    expect(e, "K6", make_live(e, &live, 2, "21", LIVE_CASES_DAY) == yes());
    expect(e, "K6", add_to_live(e, &live, "00", "40 01", "41 00") == yes() && only_number_is(&live, 1, 0));
    expect(e, "K6", add_to_live(e, &live, "30 00 01", "00", "41 21") == yes() && only_number_is(&live, 1, 0));
    expect(e, "K6", add_to_live(e, &live, "00", "40 01", own_word) == yes());
    expect(e, "K6", number_at(live.numbers, SEE, 1) == 1 && number_at(live.numbers, CHANGE, 1) == 0);
    expect(e, "K6", add_to_live(e, &live, "00", "30 00 01", own_word) == yes());
    expect(e, "K6", number_at(live.numbers, SEE, 1) == 2 && number_at(live.numbers, CHANGE, 1) == 1);
    expect(e, "K6", withdraw(e, &live, 2) == yes() && only_number_is(&live, 1, 1));
}

static void all_cases(const struct engine *e)
{
    checks_of_the_ledgers(e);
    cases_of_acts_for(e);
    cases_of_flows_to(e);
    case_of_extract(e);
    cases_of_short_form(e);
    case_of_refusals(e);
    case_of_buffer(e);
    case_of_many_coalitions(e);
    cases_of_reading(e);
    cases_of_lengths_read(e);
    case_of_brackets(e);
    cases_of_writing(e);
    cases_of_edges(e);
    case_of_block(e);
    cases_of_months(e);
    cases_of_dates(e);
    cases_of_order_of_days(e);
    cases_of_order_of_refusals(e);
    cases_of_adding_days(e);
    cases_of_dated_extract(e);
    cases_of_dated_calls(e);
    cases_of_testing(e);
    cases_of_sides(e);
    cases_of_one_side(e);
    case_of_most_grants(e);
    cases_of_last_name(e);
    cases_of_other_bits(e);
    cases_of_counting(e);
    cases_of_refused_tests(e);
    cases_of_refused_quorums(e);
    cases_of_length_of_quorums(e);
    cases_of_short_forms_of_quorums(e);
    case_of_six_of_twelve(e);
    cases_of_reading_quorums(e);
    cases_of_writing_quorums(e);
    case_of_longest_text(e);
    cases_of_static_quorums(e);
    cases_of_editors(e);
    cases_of_words_of_quorums(e);
    cases_of_derived_quorums(e);
    cases_of_twins(e);
    cases_of_making(e);
    case_of_making_again(e);
    cases_of_places(e);
    cases_of_counting_live(e);
    case_of_one_live_side(e);
    case_of_full_live(e);
    cases_of_live_refusals(e);
    case_of_last_live_name(e);
    case_of_missing_name(e);
    cases_of_missing_side(e);
    case_of_nothing_missing(e);
    case_of_everything_missing(e);
    cases_of_sides_spoken(e);
    case_of_live_gap(e);
    cases_of_live_sides(e);
}

int main(void)
{
    all_cases(&reference_engine);
    all_cases(&library_engine);
    if (failures)
        return 1;
    puts("worked cases A to L, K12 and K1 to K6: same, by the reference and by the library");
    return 0;
}

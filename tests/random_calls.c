#include "random_calls.h"

#include "random_parts.h"

#include <stdbool.h>
#include <string.h>

/* No expression here has two draws whose order C leaves open, so every compiler makes the same calls. */

/* ---- Numbers ---- */

/* splitmix64 */
static uint64_t next(struct source *s)
{
    uint64_t x = s->state += 0x9E3779B97F4A7C15u;
    x = (x ^ x >> 30) * 0xBF58476D1CE4E5B9u;
    x = (x ^ x >> 27) * 0x94D049BB133111EBu;
    return x ^ x >> 31;
}

unsigned below(struct source *s, unsigned end)
{
    return (unsigned)((next(s) >> 32) * end >> 32);
}

bool one_in(struct source *s, unsigned k)
{
    return below(s, k) == 0;
}

unsigned between(struct source *s, unsigned low, unsigned high)
{
    return low + below(s, high - low + 1);
}

/* Often one of the two ends. */
static unsigned edge_or_between(struct source *s, unsigned low, unsigned high)
{
    unsigned draw = below(s, 4);
    return draw == 0 ? low : draw == 1 ? high : between(s, low, high);
}

uint8_t any_byte(struct source *s)
{
    return (uint8_t)below(s, 256);
}

uint8_t nonzero_byte(struct source *s)
{
    return (uint8_t)between(s, 1, 255);
}

unsigned random_names(struct source *s)
{
    unsigned draw = below(s, 256);
    if (draw < 150)
        return between(s, 1, 5);
    if (draw < 225)
        return between(s, 3, 8);
    return draw < 250 ? between(s, 8, 10) : between(s, 11, NAMES);
}

/* For a test now and then more than eight, so that a coalition is more than a byte. */
static unsigned names_for(struct source *s, enum operation operation)
{
    return operation == TEST_COALITION && one_in(s, 8) ? between(s, 9, NAMES) : random_names(s);
}

/* ---- Terms ---- */

/* Mostly short, now and then of any length. */
static unsigned random_size(struct source *s)
{
    unsigned draw = below(s, 16);
    if (draw < 11)
        return between(s, 1, 5);
    return draw < 15 ? between(s, 1, 15) : between(s, 1, CODES);
}

static void put_random_leaf(struct source *s, struct term *term, unsigned n)
{
    unsigned draw = below(s, 16);
    if (draw < 2)
        put_code(term, STRONGEST + draw);
    else
        put_code(term, below(s, n));
}

/* Which of several parts has all the codes but one for each of the others. */
enum lean { NEITHER, LEFT, RIGHT };

/* Of so many codes for so many parts, those of the first. */
static unsigned size_of_first_part(struct source *s, unsigned size, unsigned parts, enum lean lean)
{
    unsigned most = size - (parts - 1);
    if (parts == 1 || lean == LEFT)
        return most;
    return lean == RIGHT ? 1 : between(s, 1, most);
}

static void put_random_part(struct source *s, struct term *term, unsigned n, unsigned size, enum lean lean);

static void put_random_parts(struct source *s, struct term *term, unsigned n, unsigned size, unsigned parts,
                             enum lean lean)
{
    for (; parts > 0; parts--) {
        unsigned first = size_of_first_part(s, size, parts, lean);
        put_random_part(s, term, n, first, lean);
        size -= first;
    }
}

/* A quorum's code, k and m, of at most so many parts; gives m. */
static unsigned put_random_quorum(struct source *s, struct term *term, unsigned most)
{
    unsigned m = between(s, 1, most < PARTS ? most : PARTS), k = between(s, 1, m);
    put_quorum(term, k, m);
    return m;
}

/* A term of just so many codes. */
static void put_random_part(struct source *s, struct term *term, unsigned n, unsigned size, enum lean lean)
{
    if (size == 1) {
        put_random_leaf(s, term, n);
    } else if (size == 2 || one_in(s, 6)) {
        put_code(term, SEE_OF + below(s, 2));
        put_random_part(s, term, n, size - 1, lean);
    } else if (size > 3 && one_in(s, 4)) {
        unsigned parts = put_random_quorum(s, term, size - 3);
        put_random_parts(s, term, n, size - 3, parts, lean);
    } else {
        put_code(term, BOTH + below(s, 2));
        put_random_parts(s, term, n, size - 1, 2, lean);
    }
}

static struct term random_term(struct source *s, unsigned n, unsigned size)
{
    struct term term = {0};
    put_random_part(s, &term, n, size, NEITHER);
    return term;
}

/* A term that may lean to one side. */
static struct term leaning_term(struct source *s, unsigned n, unsigned size)
{
    struct term term = {0};
    put_random_part(s, &term, n, size, (enum lean)below(s, 3));
    return term;
}

/* A both of eithers: it has many minimal coalitions. */
static struct term many_ways(struct source *s, unsigned n)
{
    struct term term = {0};
    unsigned groups = between(s, 2, 6);
    for (unsigned g = 0; g < groups; g++) {
        if (g + 1 < groups)
            put_code(&term, BOTH);
        for (unsigned i = g + groups; i < n; i += groups) {
            put_code(&term, EITHER);
            put_code(&term, i);
        }
        put_code(&term, g % n);
    }
    return term;
}

/* A quorum of the names from one on, in a circle: it has many minimal coalitions, or equal parts. */
static struct term quorum_of_names(struct source *s, unsigned n)
{
    struct term term = {0};
    unsigned parts = put_random_quorum(s, &term, PARTS), first = below(s, n);
    for (unsigned i = 0; i < parts; i++)
        put_code(&term, (first + i) % n);
    return term;
}

static struct term some_term(struct source *s, unsigned n)
{
    return one_in(s, 12) ? quorum_of_names(s, n) : random_term(s, n, random_size(s));
}

/* ---- Damaged terms ---- */

static unsigned bad_code(struct source *s, unsigned n)
{
    static const uint8_t codes[] = {0x0C, 0x0D, 0x1F, 0x22, 0x2F, 0x33, 0x3F, 0x42, 0x7F, 0x80, 0xFE, 0xFF};
    unsigned draw = below(s, 2 * sizeof codes);
    return draw < sizeof codes ? codes[draw] : n;
}

/* Over 64 codes; some lengths are good if only their low byte is looked at. */
static struct term too_long(struct source *s, unsigned n)
{
    return random_term(s, n, one_in(s, 2) ? between(s, 65, 67) : between(s, 257, 320));
}

static struct term random_bytes(struct source *s)
{
    struct term term = {0};
    unsigned size = below(s, 80);
    for (unsigned i = 0; i < size; i++)
        put_code(&term, any_byte(s));
    return term;
}

static void spoil_code(struct source *s, struct term *term, unsigned n)
{
    unsigned place = below(s, (unsigned)term->length);
    term->codes[place] = (uint8_t)bad_code(s, n);
}

/* Of a single code an operator alone is left. */
static void drop_last_code(struct term *term)
{
    if (term->length > 1)
        term->length--;
    else
        term->codes[0] = BOTH;
}

/* Where a byte stands, from some place on and then from the beginning; the length if it doesn't. */
static size_t place_of(struct source *s, const struct term *term, uint8_t byte)
{
    unsigned length = (unsigned)term->length, start = below(s, length);
    for (unsigned i = 0; i < length; i++)
        if (term->codes[(start + i) % length] == byte)
            return (start + i) % length;
    return length;
}

/* Another k or m, mostly out of range, or not the number of the parts; or nothing behind the code, k or m. A term
 * without a quorum becomes one. */
static void damage_quorum(struct source *s, struct term *term, unsigned n)
{
    static const uint8_t numbers[] = {0, 1, 12, 13, 0x20, 0x21, 0x30, 0x32, 0x40, 0x7F, 0x80, 0xFF};
    size_t place = place_of(s, term, QUORUM);
    if (place + 2 >= term->length) {
        *term = quorum_of_names(s, n);
        place = 0;
    }
    uint8_t *k = &term->codes[place + 1], *m = &term->codes[place + 2], kept = *k;
    switch (below(s, 8)) {
    case 0:
        *k = 0;
        break;
    case 1:
        *k = (uint8_t)(*m + 1);
        break;
    case 2:
        *k = numbers[below(s, sizeof numbers)];
        break;
    case 3:
        *m = numbers[below(s, sizeof numbers)];
        break;
    case 4:
        ++*m;
        break;
    case 5:
        --*m;
        break;
    case 6:
        *k = *m;
        *m = kept;
        break;
    default:
        *k = one_in(s, 2) ? *k : any_byte(s);
        term->length = place + between(s, 1, 3);
    }
}

static void damage_term(struct source *s, struct term *term, unsigned n)
{
    switch (below(s, 8)) {
    case 0:
        term->length = 0;
        break;
    case 1:
        *term = too_long(s, n);
        break;
    case 2:
        spoil_code(s, term, n);
        break;
    case 3:
        drop_last_code(term);
        if (one_in(s, 4))
            spoil_code(s, term, n);
        break;
    case 4:
        put_code(term, any_byte(s));
        break;
    case 5:
        *term = random_bytes(s);
        break;
    default:
        damage_quorum(s, term, n);
    }
}

void maybe_damage_term(struct source *s, struct term *term, unsigned n)
{
    if (one_in(s, 12))
        damage_term(s, term, n);
}

/* ---- Texts ---- */

static unsigned random_sign(struct source *s)
{
    return one_in(s, 2) ? '>' : '<';
}

static unsigned random_joiner(struct source *s)
{
    return one_in(s, 2) ? '&' : '|';
}

/* Which list a code makes: 2 an either, 1 a both, 0 none. */
static unsigned rank_of(uint8_t code)
{
    return code == EITHER ? 2 : code == BOTH ? 1 : 0;
}

static unsigned character_of(uint8_t code)
{
    return code == STRONGEST ? '*' : code == WEAKEST ? '_' : 'a' + (unsigned)code;
}

static void put_leaf(struct source *s, struct term *text, unsigned n)
{
    struct term leaf = random_term(s, n, 1);
    put_code(text, character_of(leaf.codes[0]));
}

static void put_number(struct term *text, unsigned number)
{
    if (number >= 10)
        put_code(text, '0' + number / 10);
    put_code(text, '0' + number % 10);
}

static size_t put_text(struct source *s, struct term *text, const struct term *term, size_t at, unsigned rank,
                       unsigned one_in_so_many);

/* Puts the text of a quorum whose k is at a place; gives the place behind it. */
static size_t put_quorum_text(struct source *s, struct term *text, const struct term *term, size_t at,
                              unsigned one_in_so_many)
{
    unsigned k = term->codes[at], m = term->codes[at + 1];
    at += 2;
    put_number(text, k);
    put_code(text, ':');
    put_number(text, m);
    for (unsigned i = 0; i < m; i++) {
        put_code(text, i == 0 ? '(' : ',');
        at = put_text(s, text, term, at, 2, one_in_so_many);
    }
    put_code(text, ')');
    return at;
}

/* Puts the text of the part at a place; gives the place behind it. A part of higher rank than this is in brackets,
 * and one in so many parts is in brackets that it doesn't need. */
static size_t put_text(struct source *s, struct term *text, const struct term *term, size_t at, unsigned rank,
                       unsigned one_in_so_many)
{
    uint8_t code = term->codes[at++];
    unsigned own = rank_of(code), brackets = own > rank;
    if (one_in(s, one_in_so_many))
        brackets += between(s, 1, 3);
    put_codes(text, '(', brackets);
    if (own > 0) {
        at = put_text(s, text, term, at, own, one_in_so_many);
        put_code(text, code == BOTH ? '&' : '|');
        at = put_text(s, text, term, at, own - 1, one_in_so_many);
    } else if (code == SEE_OF || code == CHANGE_OF) {
        at = put_text(s, text, term, at, 0, one_in_so_many);
        put_code(text, code == SEE_OF ? '>' : '<');
    } else if (code == QUORUM) {
        at = put_quorum_text(s, text, term, at, one_in_so_many);
    } else {
        put_code(text, character_of(code));
    }
    put_codes(text, ')', brackets);
    return at;
}

static struct term text_of(struct source *s, const struct term *term)
{
    static const uint8_t seldom_or_often[] = {2, 5, 20, 200};
    struct term text = {0};
    put_text(s, &text, term, 0, 2, seldom_or_often[below(s, sizeof seldom_or_often)]);
    return text;
}

/* A text of so many codes. */
static struct term text_of_size(struct source *s, unsigned n, unsigned size)
{
    struct term term = leaning_term(s, n, size);
    return text_of(s, &term);
}

static struct term text_of_quorum(struct source *s, unsigned n)
{
    struct term quorum = quorum_of_names(s, n);
    return text_of(s, &quorum);
}

/* A text of just this length without brackets, so that every character is a code. */
static struct term bare_text(struct source *s, unsigned n, unsigned length)
{
    unsigned one_sign_in = between(s, 1, 6);
    struct term text = {0};
    put_leaf(s, &text, n);
    while (text.length < length)
        if (text.length + 1 == length || one_in(s, one_sign_in)) {
            put_code(&text, random_sign(s));
        } else {
            put_code(&text, random_joiner(s));
            put_leaf(s, &text, n);
        }
    return text;
}

/* A text of just this length, unless it was longer: brackets around it, and a few signs. */
static struct term bracketed_text(struct source *s, unsigned n, unsigned length)
{
    struct term text = text_of_size(s, n, random_size(s));
    while (text.length < length)
        if (text.length + 1 == length || one_in(s, 24))
            put_code(&text, random_sign(s));
        else
            text = in_brackets(&text);
    return text;
}

static struct term random_text(struct source *s, unsigned n)
{
    static const uint16_t lengths[] = {64, 65, 128, 255, 256, 257};
    unsigned length = lengths[below(s, sizeof lengths / sizeof *lengths)];
    switch (below(s, 9)) {
    case 0:
        return bare_text(s, n, length);
    case 1:
        return bracketed_text(s, n, length);
    case 2:
        return text_of_size(s, n, between(s, CODES, CODES + 1));
    case 3:
        return text_of_size(s, n, between(s, CODES - 6, 2 * CODES));
    case 4:
        return text_of_quorum(s, n);
    default:
        return text_of_size(s, n, random_size(s));
    }
}

/* ---- Damaged texts ---- */

/* Mostly a character of the language. */
static unsigned any_character(struct source *s)
{
    static const char characters[] = "abcdefghijkl*_()&|<>:,0123456789";
    unsigned count = sizeof characters - 1, draw = below(s, count + 4);
    if (draw < count)
        return (uint8_t)characters[draw];
    return draw < count + 2 ? ' ' : any_byte(s);
}

static struct term random_characters(struct source *s)
{
    struct term text = {0};
    unsigned length = one_in(s, 2) ? below(s, 10) : below(s, 280);
    for (unsigned i = 0; i < length; i++)
        put_code(&text, any_character(s));
    return text;
}

/* What is no name, for a name: the first after n, a capital letter, a letter with the high bit, a space. */
static unsigned bad_name(struct source *s, unsigned name, unsigned n)
{
    switch (below(s, 4)) {
    case 0:
        return 'a' + n;
    case 1:
        return name - 'a' + 'A';
    case 2:
        return name | 0x80;
    default:
        return ' ';
    }
}

/* The first name from a place on. */
static void spoil_name(struct source *s, struct term *text, size_t place, unsigned n)
{
    while (place < text->length && (text->codes[place] < 'a' || text->codes[place] >= 'a' + NAMES))
        place++;
    if (place < text->length)
        text->codes[place] = (uint8_t)bad_name(s, text->codes[place], n);
}

/* Puts a character before the one at a place, or at the end. */
static void insert_character(struct term *text, size_t place, unsigned character)
{
    struct term longer = term_of(text->codes, place);
    put_code(&longer, character);
    for (size_t i = place; i < text->length; i++)
        put_code(&longer, text->codes[i]);
    *text = longer;
}

static void drop_character(struct term *text, size_t place)
{
    text->length--;
    memmove(text->codes + place, text->codes + place + 1, text->length - place);
}

/* Another number before or behind a colon, or one of another length; or a part more, or two in one. A text without a
 * quorum becomes one. */
static void damage_quorum_text(struct source *s, struct term *text, unsigned n)
{
    size_t colon = place_of(s, text, ':'), comma;
    if (colon + 2 >= text->length) {
        *text = text_of_quorum(s, n);
        colon = place_of(s, text, ':');
    }
    comma = place_of(s, text, ',');
    unsigned digit = '0' + below(s, 10);
    switch (below(s, 7)) {
    case 0:
        text->codes[colon - 1] = (uint8_t)digit;
        break;
    case 1:
        text->codes[colon + 1] = (uint8_t)digit;
        break;
    case 2: /* a leading zero */
        insert_character(text, one_in(s, 2) ? colon - 1 : colon + 1, '0');
        break;
    case 3:
        insert_character(text, one_in(s, 2) ? colon : colon + 2, digit);
        break;
    case 4:
        drop_character(text, one_in(s, 2) ? colon - 1 : colon + 1);
        break;
    case 5: /* before a comma, or at the end */
        insert_character(text, comma, 'a');
        insert_character(text, comma, ',');
        break;
    default:
        if (comma < text->length)
            text->codes[comma] = (uint8_t)random_joiner(s);
    }
}

static void damage_text(struct source *s, struct term *text, unsigned n)
{
    unsigned length = (unsigned)text->length, place = below(s, length);
    switch (below(s, 12)) {
    case 0:
        text->length = 0;
        break;
    case 1:
        text->codes[place] = (uint8_t)any_character(s);
        break;
    case 2:
        drop_character(text, place);
        break;
    case 3:
        insert_character(text, place, any_character(s));
        break;
    case 4:
        insert_character(text, place, text->codes[place]);
        break;
    case 5: /* at one of the ends, or anywhere */
        place = edge_or_between(s, 0, length);
        insert_character(text, place, one_in(s, 2) ? '(' : ')');
        break;
    case 6: /* its beginning alone */
        text->length = place;
        break;
    case 7:
        *text = random_characters(s);
        break;
    case 8:
    case 9:
        damage_quorum_text(s, text, n);
        break;
    default:
        spoil_name(s, text, place, n);
    }
}

/* ---- Dates ---- */

struct days random_days(struct source *s)
{
    static const struct days ends[] = {
        {19000101, 19000102}, {19000131, 19000201}, {19000228, 19000301}, {19991231, 20000101}, {20000228, 20000229},
        {20000229, 20000301}, {20230228, 20230301}, {20231231, 20240101}, {20240131, 20240201}, {20240228, 20240229},
        {20240229, 20240301}, {20240430, 20240501}, {20990228, 20990301}, {21000228, 21000301}, {21981231, 21990101},
        {21991230, 21991231},
    };
    unsigned count = sizeof ends / sizeof *ends, draw = below(s, count + count / 2), date;
    if (draw < count)
        return ends[draw];
    date = 10000 * edge_or_between(s, FIRST_YEAR, LAST_YEAR);
    date += 100 * between(s, 1, 12);
    date += between(s, 1, 27);
    return (struct days){date, date + 1};
}

uint32_t one_of(struct source *s, const struct days *days)
{
    return one_in(s, 2) ? days->day : days->next;
}

/* The number that the same four bytes give, read from the other end. */
static uint32_t read_backwards(uint32_t date)
{
    return date >> 24 | (date >> 8 & 0xFF00) | (date << 8 & 0xFF0000) | date << 24;
}

/* A year, a month and a day, each often one that is just not real. */
static uint32_t nearly_real_date(struct source *s)
{
    uint32_t date = 10000 * edge_or_between(s, FIRST_YEAR - 1, LAST_YEAR + 1);
    date += 100 * edge_or_between(s, 0, 13);
    return date + edge_or_between(s, 0, 32);
}

uint32_t doubtful_date(struct source *s)
{
    static const uint32_t dates[] = {1, 131, 10101, 18991231, 19000001, 19000229, 19960229, 20000229, 20000230,
                                     20230229, 20230431, 20230631, 20230931, 20231131, 20231232, 20231301, 20240100,
                                     20240132, 20240229, 20240230, 20249999, 21000229, 21960229, 22000101, UINT32_MAX};
    struct days days = random_days(s);
    switch (below(s, 8)) {
    case 0:
        return days.day ^ 1u << between(s, 0, 31);
    case 1:
        return read_backwards(days.day);
    case 2:
        return (uint32_t)next(s);
    case 3:
    case 4:
        return nearly_real_date(s);
    case 5:
        return 0;
    default:
        return dates[below(s, sizeof dates / sizeof *dates)];
    }
}

/* ---- Ledgers ---- */

/* An edge of a grant's days: none, one of these two days, or some day. */
static uint32_t random_edge(struct source *s, const struct days *days)
{
    struct days others = random_days(s);
    unsigned draw = below(s, 4);
    return draw == 0 ? 0 : draw == 1 ? days->day : draw == 2 ? days->next : others.day;
}

void put_random_days(struct source *s, uint8_t *block, const struct days *days)
{
    uint32_t first = random_edge(s, days), last = random_edge(s, days);
    if (last == 0 || first <= last)
        put_days(block, first, last);
    else
        put_days(block, last, first);
}

static struct term random_grant_label(struct source *s, unsigned n, const struct term *q)
{
    struct term never = one_code(STRONGEST), label, other;
    switch (below(s, 6)) {
    case 0: /* counts under every label */
        return prefixed(CHANGE_OF, &never);
    case 1:
        return some_term(s, n);
    case 2:
        other = random_term(s, n, between(s, 1, 5));
        return prefixed(CHANGE_OF, &other);
    default:
        label = speaking_for(q);
        return label.length <= CODES ? label : prefixed(CHANGE_OF, &never);
    }
}

/* Few codes or a quorum, or one side of that. */
static struct term some_part(struct source *s, unsigned n)
{
    struct term part = one_in(s, 4) ? quorum_of_names(s, n) : random_term(s, n, between(s, 1, 5));
    return one_in(s, 3) ? prefixed(SEE_OF + below(s, 2), &part) : part;
}

/* Mostly it speaks for the part that p lacks; or it nearly does: for p instead, for one side of the part, or for the
 * part or another. */
static struct term label_for_part(struct source *s, unsigned n, const struct term *p, const struct term *missing)
{
    struct term label = one_code(CHANGE_OF), other;
    switch (below(s, 8)) {
    case 0:
        return speaking_for(p);
    case 1:
        put_one_side(&label, missing, SEE_OF + below(s, 2));
        return label;
    case 2:
        other = random_term(s, n, between(s, 1, 5));
        other = joined(EITHER, missing, &other);
        return speaking_for(&other);
    default:
        return speaking_for(missing);
    }
}

/* q is both of two parts. p has the first alone, or with a part of its own; or p is one side of q, and lacks the
 * other. Of such parts the longest label has less than 64 codes. */
static void add_grant_of_part(struct source *s, struct ledger *ledger, unsigned n)
{
    struct term p = some_part(s, n), missing = some_part(s, n), own = random_term(s, n, between(s, 1, 5)), q, label;
    unsigned draw = below(s, 4), side = below(s, 2);
    q = one_in(s, 2) ? joined(BOTH, &p, &missing) : joined(BOTH, &missing, &p);
    if (draw == 0) {
        p = joined(BOTH, &p, &own);
    } else if (draw == 1) {
        p = prefixed(SEE_OF + side, &q);
        missing = prefixed(CHANGE_OF - side, &q);
    }
    label = label_for_part(s, n, &p, &missing);
    add_grant(ledger, &p, &q, &label);
}

void add_random_grant(struct source *s, struct ledger *ledger, unsigned n)
{
    if (one_in(s, 3)) {
        add_grant_of_part(s, ledger, n);
        return;
    }
    struct term p = some_term(s, n), q = some_term(s, n);
    struct term label = random_grant_label(s, n, &q);
    add_grant(ledger, &p, &q, &label);
}

static void add_last_grant_again(struct ledger *ledger)
{
    size_t last = grant_count(ledger) - 1;
    struct term p = term_of_grant(ledger, last, 0), q = term_of_grant(ledger, last, 1);
    struct term label = term_of_grant(ledger, last, 2);
    add_grant(ledger, &p, &q, &label);
}

/* Many different grants would leave nothing sound. Of a few, now and then one is there twice. */
static bool again(struct source *s, unsigned grant, unsigned count)
{
    if (grant == 0)
        return false;
    return count > 9 ? grant + 1 < count && !one_in(s, 16) : one_in(s, 8);
}

static unsigned random_grant_count(struct source *s, unsigned n)
{
    unsigned draw = below(s, 64);
    if (draw < 8)
        return 0;
    if (draw < 48)
        return between(s, 1, 4);
    if (draw < 63 || (n > 8 && !one_in(s, 4)))
        return between(s, 1, 9);
    return one_in(s, 3) ? GRANTS : below(s, GRANTS + 1);
}

/* For a test mostly several, since it is the first broken one that matters; now and then as many as there can be. */
static unsigned grant_count_for(struct source *s, enum operation operation, unsigned n)
{
    if (operation != TEST_COALITION || one_in(s, 4))
        return random_grant_count(s, n);
    return n <= 8 && one_in(s, 16) ? GRANTS : between(s, 2, 9);
}

/* So many grants. In two of three ledgers half of them have days, many beginning or ending at one of these two. */
static void random_ledger(struct source *s, struct ledger *ledger, unsigned n, unsigned count,
                          const struct days *days)
{
    bool dated = !one_in(s, 3);
    start_ledger(ledger, n);
    for (unsigned i = 0; i < count; i++) {
        if (again(s, i, count))
            add_last_grant_again(ledger);
        else
            add_random_grant(s, ledger, n);
        if (dated && one_in(s, 2))
            put_random_days(s, block_of(ledger, i + 1), days);
    }
}

/* ---- Damaged ledgers ---- */

/* One of eight lengths, or one more or less than this one. */
static size_t bad_length(struct source *s, const uint16_t lengths[8], size_t length)
{
    unsigned draw = below(s, 12);
    if (draw < 8)
        return lengths[draw];
    return draw < 10 || length == 0 ? length + 1 : length - 1;
}

/* Bytes that the builder didn't write, where it gets longer, are 00. */
static void spoil_length(struct source *s, const uint16_t lengths[8], uint8_t *bytes, size_t *length)
{
    size_t before = *length;
    *length = bad_length(s, lengths, before);
    if (*length > before)
        memset(bytes + before, 0, *length - before);
}

static void spoil_ledger_length(struct source *s, struct ledger *ledger)
{
    static const uint16_t lengths[8] = {0, 1, 511, 513, 33279, 33281, 33792, 34304};
    spoil_length(s, lengths, ledger->bytes, &ledger->length);
}

static void damage_header(struct source *s, uint8_t *block)
{
    static const uint8_t bad_names[] = {0, 13, 14, 128, 255};
    unsigned place;
    switch (below(s, 4)) {
    case 0:
        block[0] = one_in(s, 2) ? 2 : any_byte(s);
        break;
    case 1:
        block[1] = bad_names[below(s, sizeof bad_names)];
        break;
    case 2:
        place = between(s, 2, 3);
        block[place] ^= nonzero_byte(s);
        break;
    default:
        place = edge_or_between(s, 4, 509);
        block[place] = nonzero_byte(s);
    }
    seal(block);
}

/* The byte behind a term's field or just behind its term, or any byte of filler. */
static unsigned filler_place(struct source *s, const uint8_t *block)
{
    unsigned which = below(s, 3);
    switch (below(s, 4)) {
    case 0:
        return edge_or_between(s, 4, 15);
    case 1:
        return edge_or_between(s, 216, 509);
    case 2:
        return 16 + 64 * which + block[1 + which];
    default:
        return 16 + 64 * which + 63;
    }
}

static size_t at_most_codes(size_t length)
{
    return length <= CODES ? length : CODES;
}

/* Damages the term that stands in a field of 64 bytes, its length elsewhere. */
static void damage_field(struct source *s, uint8_t *field, uint8_t *length, unsigned n)
{
    struct term term = term_of(field, at_most_codes(*length));
    damage_term(s, &term, n);
    memset(field, 0, CODES);
    memcpy(field, term.codes, at_most_codes(term.length));
    *length = (uint8_t)term.length;
}

static void damage_term_of_grant(struct source *s, uint8_t *block, unsigned n)
{
    unsigned which = below(s, 3);
    damage_field(s, block + 16 + 64 * which, &block[1 + which], n);
}

/* One of the dates is doubtful, or both; or they are real and in the wrong order; or a byte is another. */
static void damage_days(struct source *s, uint8_t *block)
{
    struct days days = random_days(s);
    uint32_t doubtful = doubtful_date(s), other = doubtful_date(s);
    unsigned place = between(s, 208, 215);
    switch (below(s, 6)) {
    case 0:
        put_days(block, doubtful, one_in(s, 2) ? 0 : days.next);
        break;
    case 1:
        put_days(block, one_in(s, 2) ? 0 : days.day, doubtful);
        break;
    case 2:
        put_days(block, doubtful, other);
        break;
    case 3:
        block[place] ^= nonzero_byte(s);
        break;
    default:
        put_days(block, days.next, days.day);
    }
}

void damage_grant(struct source *s, uint8_t *block, unsigned n)
{
    unsigned place;
    switch (below(s, 8)) {
    case 0:
        block[0] = one_in(s, 2) ? 1 : any_byte(s);
        break;
    case 1:
        place = between(s, 1, 3);
        block[place] = one_in(s, 2) ? 65 : any_byte(s);
        break;
    case 2:
        place = filler_place(s, block);
        block[place] = nonzero_byte(s);
        break;
    case 3:
    case 4:
        damage_term_of_grant(s, block, n);
        break;
    default:
        damage_days(s, block);
    }
    seal(block);
}

void damage_check(uint8_t *block)
{
    unsigned check = block[510] * 256u + block[511];
    check = check + 65521 <= 65535 ? check + 65521 : check ^ 1;
    block[510] = (uint8_t)(check >> 8);
    block[511] = (uint8_t)check;
}

static void damage_ledger(struct source *s, struct ledger *ledger, unsigned n)
{
    unsigned blocks = (unsigned)(ledger->length / BLOCK), block, place;
    if (blocks == 0)
        return;
    switch (below(s, 10)) {
    case 0:
        spoil_ledger_length(s, ledger);
        break;
    case 1:
        damage_check(block_of(ledger, below(s, blocks)));
        break;
    case 2: /* any byte, without a new check */
        place = below(s, (unsigned)ledger->length);
        ledger->bytes[place] ^= nonzero_byte(s);
        break;
    case 3:
    case 4:
        damage_header(s, block_of(ledger, 0));
        break;
    default:
        if (blocks == 1)
            break;
        block = between(s, 1, blocks - 1);
        damage_grant(s, block_of(ledger, block), n);
        if (block + 1 < blocks && one_in(s, 2))
            block++;
        if (one_in(s, 3)) /* once more, there or in the next grant: which refusal comes first? */
            damage_grant(s, block_of(ledger, block), n);
    }
}

static void maybe_damage_ledger(struct source *s, struct ledger *ledger, unsigned n)
{
    if (!one_in(s, 4))
        return;
    damage_ledger(s, ledger, n);
    if (one_in(s, 4))
        damage_ledger(s, ledger, n);
}

/* ---- Labels and the terms of a question ---- */

/* A term of a random grant, or a random term if there are no grants. */
static struct term some_grant_term(struct source *s, const struct ledger *ledger, unsigned n, unsigned which)
{
    unsigned grants = (unsigned)grant_count(ledger);
    if (grants == 0)
        return some_term(s, n);
    return term_of_grant(ledger, below(s, grants), which);
}

struct term random_label(struct source *s, const struct ledger *ledger, unsigned n)
{
    struct term part;
    switch (below(s, 6)) {
    case 0:
        return some_grant_term(s, ledger, n, 2);
    case 1:
        part = random_term(s, n, between(s, 1, 5));
        return prefixed(CHANGE_OF, &part);
    case 2:
        return some_term(s, n);
    default: /* what is said under any label with a bare change side is visible */
        return one_code(WEAKEST);
    }
}

/* The term, or the other where it is too long. */
static struct term if_short(const struct term *term, const struct term *otherwise)
{
    return term->length <= CODES ? *term : *otherwise;
}

/* p and q of a grant, or p stronger than a grant's p and q weaker than its q. */
static void question_on_grant(struct source *s, struct call *call, unsigned n, unsigned grants)
{
    unsigned grant = below(s, grants);
    struct term other, joint;
    call->p = term_of_grant(&call->ledger, grant, 0);
    call->q = term_of_grant(&call->ledger, grant, 1);
    if (one_in(s, 2))
        return;
    other = random_term(s, n, between(s, 1, 5));
    joint = joined(BOTH, &call->p, &other);
    call->p = if_short(&joint, &call->p);
    joint = joined(EITHER, &call->q, &other);
    call->q = if_short(&joint, &call->q);
}

/* p a quorum, and q the same with another k. */
static void question_on_quorum(struct source *s, struct call *call, unsigned n)
{
    call->p = call->q = quorum_of_names(s, n);
    call->q.codes[1] = (uint8_t)between(s, 1, call->q.codes[2]);
}

void random_question(struct source *s, struct call *call, unsigned n)
{
    unsigned grants = (unsigned)grant_count(&call->ledger), draw = below(s, 8);
    if (grants > 0 && draw < 3) {
        question_on_grant(s, call, n, grants);
    } else if (draw == 3) {
        question_on_quorum(s, call, n);
    } else {
        call->p = some_term(s, n);
        call->q = draw == 4 ? call->p : some_term(s, n);
    }
}

/* ---- Derivations ---- */

static void add_good_step(struct derivation *d, unsigned rule, unsigned first, unsigned second, unsigned grant,
                          const struct term *p, const struct term *q)
{
    if (p->length <= CODES && q->length <= CODES)
        add_step(d, rule, first, second, grant, p, q);
}

/* Rule 1: each choice makes p act for q statically. */
static void add_static_step(struct source *s, struct derivation *d, unsigned n)
{
    struct term p = random_term(s, n, between(s, 1, 5)), q = p;
    struct term other = random_term(s, n, between(s, 1, 3));
    unsigned steps = (unsigned)step_count(d);
    if (steps > 0 && one_in(s, 2)) /* from the right term of a step, so that rule 3 has something to join */
        p = q = right_of(d, below(s, steps));
    switch (below(s, 5)) {
    case 0:
        p = one_code(STRONGEST);
        break;
    case 1:
        q = one_code(WEAKEST);
        break;
    case 2:
        p = joined(BOTH, &q, &other);
        break;
    case 3:
        q = joined(EITHER, &other, &p);
        break;
    default:
        break;
    }
    add_good_step(d, 1, 0, 0, 0, &p, &q);
}

static void add_granted_step(struct source *s, struct derivation *d, const struct ledger *ledger)
{
    unsigned grants = (unsigned)grant_count(ledger);
    if (grants == 0)
        return;
    unsigned grant = below(s, grants);
    struct term p = term_of_grant(ledger, grant, 0), q = term_of_grant(ledger, grant, 1);
    add_good_step(d, 2, 0, 0, grant, &p, &q);
}

static bool same(const struct term *a, const struct term *b)
{
    return a->length == b->length && memcmp(a->codes, b->codes, a->length) == 0;
}

typedef struct term end_of(const struct derivation *, size_t);

/* From a random step on, the first whose end (its left or its right term) is `wanted`; else the count. Now and
 * then a step that is not the right one. */
static unsigned step_with(struct source *s, const struct derivation *d, end_of *end, const struct term *wanted)
{
    unsigned steps = (unsigned)step_count(d), start = below(s, steps);
    if (one_in(s, 128))
        return start;
    for (unsigned i = 0; i < steps; i++) {
        struct term candidate = end(d, (start + i) % steps);
        if (same(&candidate, wanted))
            return (start + i) % steps;
    }
    return steps;
}

static void add_transitive_step(struct source *s, struct derivation *d)
{
    unsigned steps = (unsigned)step_count(d), first = below(s, steps), second;
    struct term p = left_of(d, first), middle = right_of(d, first), q;
    second = step_with(s, d, left_of, &middle);
    if (second == steps)
        return;
    q = right_of(d, second);
    add_good_step(d, 3, first, second, 0, &p, &q);
}

static void add_conjunction_step(struct source *s, struct derivation *d)
{
    unsigned first = below(s, (unsigned)step_count(d)), second;
    struct term p = left_of(d, first), a = right_of(d, first), b, q;
    second = step_with(s, d, left_of, &p);
    p = left_of(d, one_in(s, 2) ? first : second); /* the same, unless the second is not the right one */
    b = right_of(d, second);
    q = joined(BOTH, &a, &b);
    add_good_step(d, 4, first, second, 0, &p, &q);
}

static void add_disjunction_step(struct source *s, struct derivation *d)
{
    unsigned first = below(s, (unsigned)step_count(d)), second;
    struct term q = right_of(d, first), a = left_of(d, first), b, p;
    second = step_with(s, d, right_of, &q);
    q = right_of(d, one_in(s, 2) ? first : second);
    b = left_of(d, second);
    p = joined(EITHER, &a, &b);
    add_good_step(d, 5, first, second, 0, &p, &q);
}

static void add_projection_step(struct source *s, struct derivation *d, unsigned side)
{
    unsigned first = below(s, (unsigned)step_count(d));
    struct term a = left_of(d, first), b = right_of(d, first);
    struct term p = prefixed(SEE_OF + side, &a), q = prefixed(SEE_OF + side, &b);
    add_good_step(d, 6 + side, first, 0, 0, &p, &q);
}

/* One more step by a random rule, or none where that doesn't go. */
static void add_random_step(struct source *s, struct derivation *d, const struct ledger *ledger, unsigned n)
{
    unsigned rule = between(s, 1, 9);
    if (rule == 2 || rule == 8)
        add_granted_step(s, d, ledger);
    else if (rule == 1 || rule == 9 || step_count(d) == 0)
        add_static_step(s, d, n);
    else if (rule == 3)
        add_transitive_step(s, d);
    else if (rule == 4)
        add_conjunction_step(s, d);
    else if (rule == 5)
        add_disjunction_step(s, d);
    else
        add_projection_step(s, d, rule - 6);
}

static void random_derivation(struct source *s, struct call *call, unsigned n)
{
    struct derivation *d = &call->derivation;
    unsigned draw = below(s, 16);
    unsigned wanted = draw == 0 ? STEPS : draw < 4 ? between(s, 5, 20) : between(s, 1, 6);
    d->length = 0;
    while (step_count(d) < wanted)
        add_random_step(s, d, &call->ledger, n);
}

/* ---- Damaged derivations ---- */

static void spoil_derivation_length(struct source *s, struct derivation *d)
{
    static const uint16_t lengths[8] = {0, 1, 135, 137, 8703, 8705, 8840, 8976};
    spoil_length(s, lengths, d->bytes, &d->length);
}

/* A byte that a good step has 00 in: 6, 7, or past p or q; where a term is full, byte 6. */
static unsigned step_filler_place(struct source *s, const uint8_t *step)
{
    unsigned which = below(s, 2), used = step[4 + which];
    if (one_in(s, 3) || used >= CODES)
        return between(s, 6, 7);
    return 8 + 64 * which + (one_in(s, 2) ? used : 63);
}

static void damage_term_of_step(struct source *s, uint8_t *step, unsigned n)
{
    unsigned which = below(s, 2);
    damage_field(s, step + 8 + 64 * which, &step[4 + which], n);
}

/* A length over 64, with any bytes in the field. */
static void overlong_term_of_step(struct source *s, uint8_t *step)
{
    unsigned which = below(s, 2);
    step[4 + which] = (uint8_t)(one_in(s, 2) ? 65 : between(s, 66, 255));
    for (unsigned i = 0; i < CODES; i++)
        step[8 + 64 * which + i] = any_byte(s);
}

/* Another good term of the same length, so that the step is formed but may not meet its rule. */
static void change_term_of_step(struct source *s, uint8_t *step, unsigned n)
{
    unsigned which = below(s, 2);
    size_t length = at_most_codes(step[4 + which]);
    struct term term = random_term(s, n, length > 0 ? (unsigned)length : 1);
    memcpy(step + 8 + 64 * which, term.codes, length);
}

static void damage_step(struct source *s, uint8_t *step, unsigned number, unsigned n)
{
    unsigned place;
    switch (below(s, 12)) {
    case 0:
        step[0] = (uint8_t)(one_in(s, 8) ? any_byte(s) : edge_or_between(s, 0, 8));
        break;
    case 1: /* a premise that is this step or a later one, or one that no rule uses here */
        place = between(s, 1, 2);
        step[place] = one_in(s, 2) ? (uint8_t)number : any_byte(s);
        break;
    case 2: /* another premise */
        place = between(s, 1, 2);
        step[place] = (uint8_t)below(s, number + 1);
        break;
    case 3: /* another grant */
        step[3] = one_in(s, 2) ? (uint8_t)below(s, 6) : any_byte(s);
        break;
    case 4:
        place = step_filler_place(s, step);
        step[place] = nonzero_byte(s);
        break;
    case 5:
        overlong_term_of_step(s, step);
        break;
    case 6:
    case 7:
        damage_term_of_step(s, step, n);
        break;
    case 8:
    case 9: /* 30 for 31, 40 for 41, another name */
        place = 8 + 64 * below(s, 2);
        step[place] ^= 1;
        break;
    default:
        change_term_of_step(s, step, n);
    }
}

static void damage_derivation(struct source *s, struct derivation *d, unsigned n)
{
    unsigned steps = (unsigned)step_count(d), step;
    if (steps == 0 || one_in(s, 8)) {
        spoil_derivation_length(s, d);
        return;
    }
    step = below(s, steps);
    if (one_in(s, 16)) { /* a grant that the ledger doesn't have */
        step_of(d, step)[0] = 2;
        step_of(d, step)[1] = 0;
        step_of(d, step)[2] = 0;
        step_of(d, step)[3] = (uint8_t)between(s, 0, 80);
    } else {
        damage_step(s, step_of(d, step), step, n);
    }
}

static void maybe_damage_derivation(struct source *s, struct derivation *d, unsigned n)
{
    if (!one_in(s, 2))
        return;
    damage_derivation(s, d, n);
    if (one_in(s, 8))
        damage_derivation(s, d, n);
}

/* The step to quote: mostly one by rule 2, now and then past the end. */
static uint64_t random_quoted_step(struct source *s, const struct derivation *d)
{
    unsigned steps = (unsigned)step_count(d), start, draw = below(s, 8);
    if (steps == 0)
        return draw;
    start = below(s, steps);
    if (draw == 0)
        return steps;
    if (draw == 1) /* good only if its low half is looked at alone */
        return ((uint64_t)1 << (one_in(s, 2) ? 32 : 63)) + start;
    for (unsigned i = 0; i < steps && draw > 2; i++)
        if (d->bytes[STEP * ((start + i) % steps)] == 2)
            return (start + i) % steps;
    return start;
}

/* ---- Calls ---- */

void maybe_spoil_names(struct source *s, struct call *call)
{
    static const uint64_t bad_names[] = {0, 13, 255, 258, 65538, 0x100000002, 0x8000000000000001, UINT64_MAX};
    if (one_in(s, 12))
        call->number = bad_names[below(s, sizeof bad_names / sizeof *bad_names)];
}

/* Now and then another length of the buffer, one of eight. */
static void maybe_spoil_buffer(struct source *s, struct call *call, const uint16_t bad_lengths[8])
{
    if (one_in(s, 12))
        call->buffer_length = bad_lengths[below(s, 8)];
}

static void random_short_form(struct source *s, struct call *call)
{
    static const uint16_t bad_lengths[8] = {0, 1, 4, 924, 1024, 1850, 3698, 3699};
    unsigned n = random_names(s), draw = below(s, 6);
    call->number = n;
    call->p = draw < 2 ? many_ways(s, n) : draw == 2 ? quorum_of_names(s, n) : random_term(s, n, random_size(s));
    if (one_in(s, 2))
        call->buffer_length = between(s, SHORT_FORM_LEAST + 1, BUFFER_ROOM);
    maybe_spoil_names(s, call);
    maybe_spoil_buffer(s, call, bad_lengths);
    if (one_in(s, 3))
        damage_term(s, &call->p, n);
}

static void random_reading(struct source *s, struct call *call)
{
    static const uint16_t bad_lengths[8] = {0, 63, 65, 128, 255, 256, 257, 320};
    unsigned n = between(s, 1, NAMES);
    call->number = n;
    call->p = random_text(s, n);
    maybe_spoil_names(s, call);
    maybe_spoil_buffer(s, call, bad_lengths);
    if (one_in(s, 3))
        damage_text(s, &call->p, n);
}

static void random_writing(struct source *s, struct call *call)
{
    static const uint16_t bad_lengths[8] = {0, 63, 64, 65, 192, 255, 257, 512};
    unsigned n = between(s, 1, NAMES);
    call->number = n;
    call->p = leaning_term(s, n, one_in(s, 2) ? random_size(s) : edge_or_between(s, CODES - 4, CODES));
    maybe_spoil_names(s, call);
    maybe_spoil_buffer(s, call, bad_lengths);
    if (one_in(s, 3))
        damage_term(s, &call->p, n);
}

static unsigned random_count_of_days(struct source *s)
{
    unsigned draw = below(s, 4);
    if (draw == 0)
        return below(s, 64);
    return edge_or_between(s, draw == 1 ? 364 : 0, DAYS_ADDED_MOST);
}

static void random_adding(struct source *s, struct call *call)
{
    static const uint32_t bad_counts[] = {367, 368, 622, 65536, 65566, 0x1000001, 0x80000000, UINT32_MAX};
    struct days days = random_days(s);
    unsigned left = below(s, 31);
    call->day = one_of(s, &days);
    call->number = random_count_of_days(s);
    if (one_in(s, 8)) { /* just to the last real date, or one day more */
        call->day = 21991231 - left;
        call->number = left + below(s, 2);
    }
    if (one_in(s, 12))
        call->number = bad_counts[below(s, sizeof bad_counts / sizeof *bad_counts)];
    if (one_in(s, 8))
        call->day = doubtful_date(s);
}

static void random_extract(struct source *s, struct call *call)
{
    static const uint16_t bad_lengths[8] = {0, 1, 512, 1023, 1025, 2048, 3700, 8192};
    maybe_spoil_buffer(s, call, bad_lengths);
}

/* Mostly see or change itself. */
static uint32_t random_side(struct source *s)
{
    static const uint32_t other_numbers[] = {2, 3, 256, 65536, 0x80000000, UINT32_MAX};
    return one_in(s, 8) ? other_numbers[below(s, sizeof other_numbers / sizeof *other_numbers)] : below(s, 2);
}

/* Mostly a coalition of the job, now and then with one other bit, or any number. */
static uint32_t random_coalition(struct source *s, unsigned n)
{
    uint32_t number = (uint32_t)next(s), coalition = number % (1u << n);
    unsigned draw = below(s, 8), other = between(s, n, 31);
    return draw == 0 ? number : draw == 1 ? coalition | 1u << other : coalition;
}

static void random_test(struct source *s, struct call *call, unsigned n)
{
    uint32_t side = random_side(s);
    call->number = number_of_test(side, random_coalition(s, n));
}

static void random_call_on_ledger(struct source *s, struct call *call)
{
    unsigned n = names_for(s, call->operation), grants = grant_count_for(s, call->operation, n);
    struct days days = random_days(s);
    call->day = one_in(s, 16) ? doubtful_date(s) : one_of(s, &days);
    random_ledger(s, &call->ledger, n, grants, &days);
    call->label = random_label(s, &call->ledger, n);
    maybe_damage_term(s, &call->label, n);
    if (call->operation == ACTS_FOR || call->operation == FLOWS_TO) {
        random_question(s, call, n);
        maybe_damage_term(s, &call->p, n);
        maybe_damage_term(s, &call->q, n);
    } else if (call->operation == EXTRACT) {
        random_extract(s, call);
    } else if (call->operation == TEST_COALITION) {
        random_test(s, call, n);
    } else {
        random_derivation(s, call, n);
        maybe_damage_derivation(s, &call->derivation, n);
    }
    if (call->operation == QUOTE)
        call->number = random_quoted_step(s, &call->derivation);
    maybe_damage_ledger(s, &call->ledger, n);
}

void clear_call(struct call *call)
{
    call->p.length = call->q.length = call->label.length = call->ledger.length = call->derivation.length = 0;
    call->buffer_length = 0;
    call->day = 0;
    call->number = 0;
}

void random_call(struct source *s, enum operation operation, struct call *call)
{
    clear_call(call);
    call->operation = operation;
    call->buffer_length = buffer_length_of(operation);
    call->fill = any_byte(s);
    if (operation == SHORT_FORM)
        random_short_form(s, call);
    else if (operation == READ_TEXT)
        random_reading(s, call);
    else if (operation == WRITE_TERM)
        random_writing(s, call);
    else if (operation == ADD_DAYS)
        random_adding(s, call);
    else
        random_call_on_ledger(s, call);
}

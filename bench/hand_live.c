#include "hand_live.h"

#include <stdbool.h>
#include <string.h>

enum { WORDS = 64, DIGITS = 7, ROW = 4 * DIGITS, SIDE_ROWS = 16 };

/* The words of the head. */
enum { NAMES_OF, DAY_OF, HELD_OF, CODES_OF };

static uint32_t refused(unsigned refusal)
{
    return REFUSED * PER_KIND + refusal;
}

/* Words that n names fill, and the bits of a word that are coalitions. */
static unsigned words_of(unsigned n)
{
    return n > 6 ? 1u << (n - 6) : 1;
}

static uint64_t bits_of(unsigned n)
{
    return n >= 6 ? ~(uint64_t)0 : ((uint64_t)1 << (1u << n)) - 1;
}

/* ---- Reading ---- */

static unsigned read_term(unsigned n, const uint8_t *codes, size_t length)
{
    if (length < 1 || length > CODES)
        return 1;
    size_t at = 0;
    for (unsigned missing = 1; missing > 0;) {
        if (at == length)
            return 3;
        uint8_t code = codes[at++];
        if (code < n || code == STRONGEST || code == WEAKEST) {
            missing--;
        } else if (code == BOTH || code == EITHER) {
            missing++;
        } else if (code == QUORUM) {
            if (length - at < 2)
                return 3;
            unsigned k = codes[at], m = codes[at + 1];
            if (k < 1 || k > m || m > PARTS)
                return 2;
            at += 2;
            missing += m - 1;
        } else if (code != SEE_OF && code != CHANGE_OF) {
            return 2;
        }
    }
    return at < length ? 4 : 0;
}

/* The place behind a good term. */
static const uint8_t *skip(const uint8_t *next)
{
    for (unsigned missing = 1; missing > 0;) {
        uint8_t code = *next++;
        if (code == BOTH || code == EITHER) {
            missing++;
        } else if (code == QUORUM) {
            missing += next[1] - 1u;
            next += 2;
        } else if (code != SEE_OF && code != CHANGE_OF) {
            missing--;
        }
    }
    return next;
}

static bool real_date(uint32_t number)
{
    static const uint8_t days[13] = {0, 31, 28, 31, 30, 31, 30, 31, 31, 30, 31, 30, 31};
    uint32_t year = number / 10000, month = number / 100 % 100, day = number % 100;
    if (year < FIRST_YEAR || year > LAST_YEAR || month < 1 || month > 12)
        return false;
    bool leap = year % 4 == 0 && (year % 100 != 0 || year == 2000);
    return day >= 1 && day <= days[month] + (uint32_t)(leap && month == 2);
}

static bool zeros(const uint8_t *block, unsigned from, unsigned end)
{
    uint8_t any = 0;
    for (unsigned i = from; i < end; i++)
        any |= block[i];
    return any == 0;
}

static bool check_holds(const uint8_t *block)
{
    uint32_t sum = 0;
    for (uint32_t i = 0; i < 510; i++)
        sum += (i + 1) * block[i];
    return sum % 65521 == block[510] * 256u + block[511];
}

static bool formed(const uint8_t *block)
{
    if (block[0] != 2)
        return false;
    for (unsigned which = 0; which < 3; which++) {
        unsigned start = 16 + 64 * which, length = block[1 + which];
        if (length < 1 || length > CODES || !zeros(block, start + length, start + 64))
            return false;
    }
    return zeros(block, 4, 16) && zeros(block, 216, 510);
}

static const uint8_t *term_of(const uint8_t *block, unsigned which)
{
    return block + 16 + 64 * which;
}

static uint32_t date_at(const uint8_t *bytes)
{
    return (uint32_t)bytes[0] << 24 | (uint32_t)bytes[1] << 16 | (uint32_t)bytes[2] << 8 | bytes[3];
}

static unsigned read_block(unsigned n, const uint8_t *block, size_t length)
{
    if (length != BLOCK)
        return 10;
    if (!check_holds(block))
        return 11;
    if (!formed(block))
        return 13;
    for (unsigned which = 0; which < 3; which++)
        if (read_term(n, term_of(block, which), block[1 + which]))
            return 14;
    uint32_t first = date_at(block + 208), last = date_at(block + 212);
    if ((first != 0 && !real_date(first)) || (last != 0 && !real_date(last)))
        return 84;
    return first > last && last != 0 ? 85 : 0;
}

/* ---- Terms over words ---- */

/* What is done with the words of a part: they are put, or joined to what is there. */
enum onto { PUT, AND, OR };

static void join(enum onto onto, uint64_t *words, const uint64_t *part, unsigned count)
{
    if (onto == PUT)
        memcpy(words, part, count * sizeof *words);
    else if (onto == AND)
        for (unsigned i = 0; i < count; i++)
            words[i] &= part[i];
    else
        for (unsigned i = 0; i < count; i++)
            words[i] |= part[i];
}

static void join_same(enum onto onto, uint64_t *words, uint64_t part, unsigned count)
{
    for (unsigned i = 0; i < count; i++)
        words[i] = onto == PUT ? part : onto == AND ? words[i] & part : words[i] | part;
}

/* A name from 6 up: all bits of every word whose number has it. */
static void join_high(enum onto onto, uint64_t *words, unsigned bit, unsigned count)
{
    for (unsigned i = 0; i < count; i++) {
        uint64_t part = -(uint64_t)(i >> bit & 1);
        words[i] = onto == PUT ? part : onto == AND ? words[i] & part : words[i] | part;
    }
}

static void join_name(enum onto onto, uint64_t *words, unsigned name, unsigned count)
{
    static const uint64_t low[6] = {0xAAAAAAAAAAAAAAAA, 0xCCCCCCCCCCCCCCCC, 0xF0F0F0F0F0F0F0F0,
                                    0xFF00FF00FF00FF00, 0xFFFF0000FFFF0000, 0xFFFFFFFF00000000};
    if (name < 6)
        join_same(onto, words, low[name], count);
    else
        join_high(onto, words, name - 6, count);
}

static const uint8_t *hold(const uint8_t *next, enum side side, enum onto onto, uint64_t *words, unsigned count);

/* Where at least k of m parts are held: for each bit how many are, in as many digits as m has, is compared with k. */
static const uint8_t *hold_quorum(const uint8_t *next, enum side side, enum onto onto, uint64_t *words, unsigned count)
{
    uint64_t digits[4][WORDS], part[WORDS];
    unsigned k = *next++, m = *next++, used = m > 7 ? 4 : m > 3 ? 3 : m > 1 ? 2 : 1;
    memset(digits, 0, used * sizeof *digits);
    for (; m > 0; m--) {
        next = hold(next, side, PUT, part, count);
        for (unsigned d = 0; d < used; d++)
            for (unsigned i = 0; i < count; i++) {
                uint64_t carry = digits[d][i] & part[i];
                digits[d][i] ^= part[i];
                part[i] = carry;
            }
    }
    for (unsigned i = 0; i < count; i++) {
        uint64_t least = ~(uint64_t)0; /* from the last digit up: is the rest at least the rest of k? */
        for (unsigned d = 0; d < used; d++)
            least = k >> d & 1 ? digits[d][i] & least : digits[d][i] | least;
        part[i] = least;
    }
    join(onto, words, part, count);
    return next;
}

/* A both inside a both, or an either inside an either, needs no words of its own. */
static const uint8_t *hold_two(const uint8_t *next, enum side side, enum onto onto, enum onto own, uint64_t *words,
                               unsigned count)
{
    if (onto == PUT || onto == own) {
        next = hold(next, side, onto, words, count);
        return hold(next, side, own, words, count);
    }
    uint64_t part[WORDS];
    next = hold(next, side, PUT, part, count);
    next = hold(next, side, own, part, count);
    join(onto, words, part, count);
    return next;
}

/* Where the term at `next` is held; gives the place behind it. */
static const uint8_t *hold(const uint8_t *next, enum side side, enum onto onto, uint64_t *words, unsigned count)
{
    uint8_t code = *next++;
    switch (code) {
    case STRONGEST:
    case WEAKEST:
        join_same(onto, words, code == WEAKEST ? ~(uint64_t)0 : 0, count);
        return next;
    case BOTH:
        return hold_two(next, side, onto, AND, words, count);
    case EITHER:
        return hold_two(next, side, onto, OR, words, count);
    case QUORUM:
        return hold_quorum(next, side, onto, words, count);
    case SEE_OF:
    case CHANGE_OF:
        if ((code == SEE_OF) == (side == SEE))
            return hold(next, side, onto, words, count);
        join_same(onto, words, ~(uint64_t)0, count);
        return skip(next);
    default:
        join_name(onto, words, code, count);
        return next;
    }
}

/* Where a term is held on each side; one table serves for both where no code tells them apart. */
struct marks {
    const uint64_t *on[2];
    uint64_t words[2][WORDS];
};

static void mark(struct marks *marks, const uint8_t *codes, size_t length, unsigned count)
{
    hold(codes, SEE, PUT, marks->words[SEE], count);
    marks->on[SEE] = marks->on[CHANGE] = marks->words[SEE];
    if (memchr(codes, SEE_OF, length) == NULL && memchr(codes, CHANGE_OF, length) == NULL)
        return;
    hold(codes, CHANGE, PUT, marks->words[CHANGE], count);
    marks->on[CHANGE] = marks->words[CHANGE];
}

/* ---- Which grants count ---- */

static bool in_its_days(const uint8_t *block, uint64_t day)
{
    uint32_t first = date_at(block + 208), last = date_at(block + 212);
    return first <= day && (last == 0 || day <= last);
}

/* Visible under the label and spoken, p and q being marked already. Terms are monotone: so it is spoken where nobody
 * that holds its label on the change side holds p and not q, on either side. */
static bool counts(unsigned n, const uint8_t *text, size_t text_len, const uint8_t *block, const struct marks *p,
                   const struct marks *q)
{
    struct marks label, d;
    unsigned count = words_of(n);
    uint64_t against = 0;
    mark(&label, text, text_len, count);
    mark(&d, term_of(block, 2), block[3], count);
    for (unsigned i = 0; i < count; i++) {
        uint64_t said = d.on[CHANGE][i];
        uint64_t breaks = (p->on[SEE][i] & ~q->on[SEE][i]) | (p->on[CHANGE][i] & ~q->on[CHANGE][i]);
        against |= (label.on[SEE][i] & ~d.on[SEE][i]) | (said & (~label.on[CHANGE][i] | breaks));
    }
    return (against & bits_of(n)) == 0;
}

/* ---- Numbers ---- */

/* One more at each bit of four words, carried from digit to digit; one less, borrowed. */
static void raise_row(uint64_t *row, uint64_t *bits)
{
    for (unsigned d = 0; d < DIGITS && (bits[0] | bits[1] | bits[2] | bits[3]) != 0; d++)
        for (unsigned i = 0; i < 4; i++) {
            uint64_t digit = row[4 * d + i];
            row[4 * d + i] = digit ^ bits[i];
            bits[i] &= digit;
        }
}

static void lower_row(uint64_t *row, uint64_t *bits)
{
    for (unsigned d = 0; d < DIGITS && (bits[0] | bits[1] | bits[2] | bits[3]) != 0; d++)
        for (unsigned i = 0; i < 4; i++) {
            uint64_t digit = row[4 * d + i];
            row[4 * d + i] = digit ^ bits[i];
            bits[i] &= ~digit;
        }
}

typedef void row_change(uint64_t *row, uint64_t *bits);

static void change_side(row_change *change, uint64_t *rows, const uint64_t *p, const uint64_t *q, unsigned n)
{
    unsigned count = words_of(n);
    uint64_t bits[WORDS] = {0};
    for (unsigned i = 0; i < count; i++)
        bits[i] = p[i] & ~q[i] & bits_of(n);
    for (unsigned i = 0; i < count; i += 4)
        change(rows + ROW * (i / 4), bits + i);
}

/* If the grant counts: at each side and coalition that holds p and not q. */
static void change_numbers(row_change *change, const uint64_t *head, const uint8_t *text, const uint8_t *block,
                           uint64_t *numbers)
{
    unsigned n = (unsigned)head[NAMES_OF];
    struct marks p, q;
    if (!in_its_days(block, head[DAY_OF]))
        return;
    mark(&p, term_of(block, 0), block[1], words_of(n));
    mark(&q, term_of(block, 1), block[2], words_of(n));
    if (!counts(n, text, (size_t)head[CODES_OF], block, &p, &q))
        return;
    change_side(change, numbers, p.on[SEE], q.on[SEE], n);
    change_side(change, numbers + SIDE_ROWS * ROW, p.on[CHANGE], q.on[CHANGE], n);
}

/* ---- Calls ---- */

/* The check of a header is 1 + 2 n + 4 times the grants. */
static void patch_header(const uint64_t *head, uint8_t *ledger)
{
    unsigned check = 1 + 2 * (unsigned)head[NAMES_OF] + 4 * (unsigned)head[HELD_OF];
    ledger[3] = (uint8_t)head[HELD_OF];
    ledger[510] = (uint8_t)(check >> 8);
    ledger[511] = (uint8_t)check;
}

uint32_t hand_live_make(uint64_t n, const uint8_t *label, size_t label_len, uint32_t day, uint64_t head[HEAD_WORDS],
                        uint8_t text[CODES], uint8_t ledger[LEDGER_MOST], uint64_t numbers[NUMBER_WORDS])
{
    if (!real_date(day))
        return refused(86);
    if (n < 1 || n > NAMES)
        return refused(7);
    unsigned refusal = read_term((unsigned)n, label, label_len);
    if (refusal)
        return refused(40 + refusal);
    head[NAMES_OF] = n;
    head[DAY_OF] = day;
    head[HELD_OF] = 0;
    head[CODES_OF] = label_len;
    memcpy(text, label, label_len);
    memset(ledger, 0, BLOCK);
    ledger[0] = 1;
    ledger[1] = (uint8_t)n;
    patch_header(head, ledger);
    memset(numbers, 0, NUMBER_WORDS * sizeof *numbers);
    return 0;
}

uint32_t hand_live_add(uint64_t head[HEAD_WORDS], uint8_t text[CODES], uint8_t ledger[LEDGER_MOST],
                       uint64_t numbers[NUMBER_WORDS], const uint8_t *block, size_t block_len)
{
    unsigned refusal = read_block((unsigned)head[NAMES_OF], block, block_len);
    if (refusal)
        return refused(refusal);
    if (head[HELD_OF] == GRANTS)
        return refused(87);
    head[HELD_OF]++;
    memcpy(ledger + BLOCK * head[HELD_OF], block, BLOCK);
    patch_header(head, ledger);
    change_numbers(raise_row, head, text, block, numbers);
    return 0;
}

uint32_t hand_live_withdraw(uint64_t head[HEAD_WORDS], uint8_t text[CODES], uint8_t ledger[LEDGER_MOST],
                            uint64_t numbers[NUMBER_WORDS], uint64_t k)
{
    if (k >= head[HELD_OF])
        return refused(88);
    uint8_t *block = ledger + BLOCK * (k + 1);
    change_numbers(lower_row, head, text, block, numbers);
    head[HELD_OF]--;
    memmove(block, block + BLOCK, BLOCK * (head[HELD_OF] - k));
    patch_header(head, ledger);
    return 0;
}

/* ---- Questions ---- */

static uint64_t sound_bits(const uint64_t *rows, unsigned word)
{
    const uint64_t *digits = rows + ROW * (word / 4) + word % 4;
    uint64_t broken = 0;
    for (unsigned d = 0; d < DIGITS; d++)
        broken |= digits[4 * d];
    return ~broken;
}

/* The lowest coalition that holds `from`, not `to`, and is sound; its no, or else 0. */
static uint32_t refute(enum side side, const uint64_t *rows, const uint64_t *from, const uint64_t *to, unsigned n)
{
    for (unsigned i = 0; i < words_of(n); i++) {
        uint64_t bits = from[i] & ~to[i] & bits_of(n);
        if (bits != 0)
            bits &= sound_bits(rows, i);
        if (bits != 0)
            return NO * PER_KIND + (uint32_t)side * PER_SIDE + 64 * i + (unsigned)__builtin_ctzll(bits);
    }
    return 0;
}

static uint32_t ask(bool flows, const uint64_t *head, const uint64_t *numbers, const uint8_t *p, size_t p_len,
                    const uint8_t *q, size_t q_len)
{
    unsigned n = (unsigned)head[NAMES_OF], refusal = read_term(n, p, p_len);
    if (refusal)
        return refused(20 + refusal);
    refusal = read_term(n, q, q_len);
    if (refusal)
        return refused(30 + refusal);
    struct marks left, right;
    mark(&left, p, p_len, words_of(n));
    mark(&right, q, q_len, words_of(n));
    const struct marks *from = flows ? &right : &left, *to = flows ? &left : &right;
    uint32_t no = refute(SEE, numbers, from->on[SEE], to->on[SEE], n);
    return no ? no : refute(CHANGE, numbers + SIDE_ROWS * ROW, left.on[CHANGE], right.on[CHANGE], n);
}

uint32_t hand_live_acts_for(const uint64_t head[HEAD_WORDS], const uint8_t text[CODES],
                            const uint64_t numbers[NUMBER_WORDS], const uint8_t *p, size_t p_len, const uint8_t *q,
                            size_t q_len)
{
    (void)text;
    return ask(false, head, numbers, p, p_len, q, q_len);
}

uint32_t hand_live_flows_to(const uint64_t head[HEAD_WORDS], const uint8_t text[CODES],
                            const uint64_t numbers[NUMBER_WORDS], const uint8_t *p, size_t p_len, const uint8_t *q,
                            size_t q_len)
{
    (void)text;
    return ask(true, head, numbers, p, p_len, q, q_len);
}

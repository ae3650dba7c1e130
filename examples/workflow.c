/*
 * A workflow program: it makes three ledgers, asks about them on two days, and prints the answers for a person.
 *
 *     make demo
 *     cc examples/workflow.c $(PKG_CONFIG_PATH=build pkg-config --cflags --libs rights)
 */
#include "rights.h"

#include <stdio.h>
#include <string.h>

/* ---- Making a ledger ---- */

struct term {
    uint8_t length;
    uint8_t codes[RIGHTS_TERM_MAX];
};

/* A term from its codes: TERM(RIGHTS_BOTH, 0, 1). */
#define TERM(...) \
    ((struct term){sizeof(uint8_t[]){__VA_ARGS__}, {__VA_ARGS__}})

struct ledger {
    size_t length;
    uint8_t bytes[RIGHTS_LEDGER_MAX];
};

static void put_two_bytes(uint8_t *at, unsigned value)
{
    at[0] = (uint8_t)(value >> 8);
    at[1] = (uint8_t)value;
}

static void put_date(uint8_t *at, uint32_t date)
{
    put_two_bytes(at, date >> 16);
    put_two_bytes(at + 2, date);
}

static void write_check(uint8_t *block)
{
    uint32_t sum = 0;
    for (uint32_t i = 0; i < 510; i++)
        sum += (i + 1) * block[i];
    put_two_bytes(block + 510, sum % 65521);
}

/* A ledger for a job of n names, without grants. */
static void start_ledger(struct ledger *ledger, unsigned n)
{
    memset(ledger, 0, sizeof *ledger);
    ledger->length = RIGHTS_BLOCK_SIZE;
    ledger->bytes[0] = 1;
    ledger->bytes[1] = (uint8_t)n;
    write_check(ledger->bytes);
}

/* One more grant: p acts for q, said under a label, from a first day to a last, 0 where there is none. At most
 * RIGHTS_GRANTS_MAX. */
static void add_grant(struct ledger *ledger, struct term p, struct term q, struct term label, uint32_t first,
                      uint32_t last)
{
    uint8_t *block = ledger->bytes + ledger->length;
    block[0] = 2;
    block[1] = p.length;
    block[2] = q.length;
    block[3] = label.length;
    memcpy(block + 16, p.codes, p.length);
    memcpy(block + 80, q.codes, q.length);
    memcpy(block + 144, label.codes, label.length);
    put_date(block + 208, first);
    put_date(block + 212, last);
    write_check(block);

    ledger->length += RIGHTS_BLOCK_SIZE;
    put_two_bytes(ledger->bytes + 2, (unsigned)(ledger->length / RIGHTS_BLOCK_SIZE - 1));
    write_check(ledger->bytes);
}

/* ---- Words for a person ---- */

static const char *const side_words[] = {"see", "change"};

static char letter(unsigned name)
{
    return (char)('A' + name);
}

/* Prints a coalition as a set: {A,C}. */
static void print_coalition(unsigned coalition)
{
    const char *before = "";
    putchar('{');
    for (unsigned name = 0; name < RIGHTS_NAMES_MAX; name++)
        if (coalition >> name & 1) {
            printf("%s%c", before, letter(name));
            before = ",";
        }
    putchar('}');
}

static const uint8_t *print_codes(const uint8_t *codes);

/* Prints the term that starts at codes in brackets; one of several parts has its own. */
static const uint8_t *print_in_brackets(const uint8_t *codes)
{
    if (*codes == RIGHTS_BOTH || *codes == RIGHTS_EITHER || *codes == RIGHTS_QUORUM)
        return print_codes(codes);
    putchar('(');
    codes = print_codes(codes);
    putchar(')');
    return codes;
}

/* Prints a quorum behind its code: (2 of A, B, C). */
static const uint8_t *print_quorum(const uint8_t *codes)
{
    unsigned needed = *codes++, parts = *codes++;
    const char *before = " of ";
    printf("(%u", needed);
    for (; parts > 0; parts--) {
        fputs(before, stdout);
        codes = print_codes(codes);
        before = ", ";
    }
    putchar(')');
    return codes;
}

/* Prints the term that starts at codes, and gives what stands behind it. */
static const uint8_t *print_codes(const uint8_t *codes)
{
    uint8_t code = *codes++;
    switch (code) {
    case RIGHTS_STRONGEST:
        fputs("the strongest", stdout);
        return codes;
    case RIGHTS_WEAKEST:
        fputs("anyone", stdout);
        return codes;
    case RIGHTS_BOTH:
    case RIGHTS_EITHER:
        putchar('(');
        codes = print_codes(codes);
        fputs(code == RIGHTS_BOTH ? " and " : " or ", stdout);
        codes = print_codes(codes);
        putchar(')');
        return codes;
    case RIGHTS_QUORUM:
        return print_quorum(codes);
    case RIGHTS_SEE_OF:
    case RIGHTS_CHANGE_OF:
        fputs(side_words[code - RIGHTS_SEE_OF], stdout);
        return print_in_brackets(codes);
    default:
        putchar(letter(code));
        return codes;
    }
}

/* Prints a term that is known to be well formed. */
static void print_term(const struct term *term)
{
    print_codes(term->codes);
}

static void print_answer(uint32_t answer)
{
    unsigned refusal = rights_refusal_of(answer);
    switch (rights_kind_of(answer)) {
    case RIGHTS_YES:
        puts("yes");
        break;
    case RIGHTS_NO:
        fputs("no: ", stdout);
        print_coalition(rights_coalition_of(answer));
        printf(" refutes it on the %s side\n", side_words[rights_side_of(answer)]);
        break;
    default:
        fputs("refused", stdout);
        if (refusal >= RIGHTS_STEP_FORM && refusal <= RIGHTS_STEP_RULE)
            printf(" at step %u", rights_step_of(answer));
        printf(": %s\n", rights_refusal_text(refusal));
    }
}

/* ---- Asking ---- */

/* Prints the beginning of a question. */
static void print_question(const struct term *p, const char *verb, const struct term *q)
{
    fputs("  does ", stdout);
    print_term(p);
    printf(" %s ", verb);
    print_term(q);
}

static void ask_acts_for(const struct ledger *ledger, struct term p, struct term q, struct term label, uint32_t day)
{
    print_question(&p, "act for", &q);
    fputs(", under ", stdout);
    print_term(&label);
    fputs("?  ", stdout);
    print_answer(rights_acts_for(ledger->bytes, ledger->length, p.codes, p.length, q.codes, q.length,
                                 label.codes, label.length, day));
}

static void ask_flows_to(const struct ledger *ledger, struct term p, struct term q, struct term label, uint32_t day)
{
    print_question(&p, "flow to", &q);
    fputs("?  ", stdout);
    print_answer(rights_flows_to(ledger->bytes, ledger->length, p.codes, p.length, q.codes, q.length,
                                 label.codes, label.length, day));
}

/* Prints the coalitions of n names that are sound on each side. */
static void show_extract(const struct ledger *ledger, unsigned n, struct term label, uint32_t day)
{
    uint8_t extract[RIGHTS_EXTRACT_SIZE];
    uint32_t answer = rights_extract(ledger->bytes, ledger->length, label.codes, label.length, day,
                                     extract, sizeof extract);
    if (rights_kind_of(answer) != RIGHTS_YES) {
        print_answer(answer);
        return;
    }
    for (unsigned side = RIGHTS_SEE; side <= RIGHTS_CHANGE; side++) {
        printf("  sound on the %s side:", side_words[side]);
        for (unsigned coalition = 0; coalition < 1u << n; coalition++)
            if (rights_extract_has(extract, side, coalition)) {
                putchar(' ');
                print_coalition(coalition);
            }
        putchar('\n');
    }
}

static unsigned two_bytes(const uint8_t *at)
{
    return at[0] * 256u + at[1];
}

/* Prints the smallest coalitions that hold a term, on each side. */
static void show_short_form(unsigned n, struct term term)
{
    static uint8_t buffer[RIGHTS_SHORT_FORM_MIN];
    uint32_t answer = rights_short_form(n, term.codes, term.length, buffer, sizeof buffer);
    if (rights_kind_of(answer) != RIGHTS_YES) {
        print_answer(answer);
        return;
    }
    const uint8_t *at = buffer;
    for (unsigned side = RIGHTS_SEE; side <= RIGHTS_CHANGE; side++) {
        unsigned count = two_bytes(at);
        at += 2;
        fputs("  ", stdout);
        print_term(&term);
        printf(" is held on the %s side by each set with:", side_words[side]);
        for (; count > 0; count--, at += 2) {
            putchar(' ');
            print_coalition(two_bytes(at));
        }
        putchar('\n');
    }
}

/* Two steps: grant 0 as it stands, then the see sides of its terms. */
static void check_derivation(const struct ledger *ledger, struct term label, uint32_t day)
{
    static const uint8_t derivation[2][RIGHTS_STEP_SIZE] = {
        {[0] = 2, [3] = 0, [4] = 1, [5] = 1, [8] = 0, [72] = 1},
        {[0] = 6, [1] = 0, [4] = 2, [5] = 2, [8] = RIGHTS_SEE_OF, 0, [72] = RIGHTS_SEE_OF, 1},
    };
    fputs("  is it derived that see(A) acts for see(B), under ", stdout);
    print_term(&label);
    fputs("?  ", stdout);
    print_answer(rights_check_derivation(derivation[0], sizeof derivation, ledger->bytes, ledger->length,
                                         label.codes, label.length, day));
}

int main(void)
{
    static struct ledger plain, granted, edited;
    const struct term a = TERM(0), b = TERM(1), c = TERM(2), d = TERM(3), anyone = TERM(RIGHTS_WEAKEST);
    const struct term change_of_b = TERM(RIGHTS_CHANGE_OF, 1), change_of_d = TERM(RIGHTS_CHANGE_OF, 3);
    const struct term two_editors = TERM(RIGHTS_QUORUM, 2, 3, 0, 1, 2);
    const uint32_t day = 20240131, next_day = 20240201;

    start_ledger(&plain, 2);
    puts("On 2024-01-31, a job of A and B, no grants:");
    ask_acts_for(&plain, TERM(RIGHTS_BOTH, 0, 1), a, anyone, day);
    ask_acts_for(&plain, TERM(RIGHTS_EITHER, 0, 1), a, anyone, day);
    ask_acts_for(&plain, a, c, anyone, day);
    ask_flows_to(&plain, TERM(RIGHTS_SEE_OF, 0), TERM(RIGHTS_SEE_OF, RIGHTS_BOTH, 0, 1), anyone, day);
    ask_flows_to(&plain, TERM(RIGHTS_SEE_OF, RIGHTS_BOTH, 0, 1), TERM(RIGHTS_SEE_OF, 0), anyone, day);
    show_short_form(2, TERM(RIGHTS_EITHER, 0, RIGHTS_BOTH, 0, 1));

    start_ledger(&granted, 2);
    add_grant(&granted, a, b, change_of_b, 20240101, 20240131);
    puts("With the grant that A acts for B, said under change(B), from 2024-01-01 to 2024-01-31:");
    ask_acts_for(&granted, a, b, change_of_b, day);
    ask_acts_for(&granted, a, b, a, day);
    check_derivation(&granted, change_of_b, day);
    check_derivation(&granted, a, day);
    show_extract(&granted, 2, change_of_b, day);

    puts("On 2024-02-01, the day after:");
    ask_acts_for(&granted, a, b, change_of_b, next_day);

    granted.bytes[600] ^= 1;
    puts("After a byte of that ledger was changed:");
    ask_acts_for(&granted, a, b, change_of_b, day);

    start_ledger(&edited, 4);
    add_grant(&edited, two_editors, d, change_of_d, 0, 0);
    puts("With the grant that any two of the editors A, B and C act for D, said under change(D):");
    ask_acts_for(&edited, TERM(RIGHTS_BOTH, 0, 2), d, change_of_d, day);
    ask_acts_for(&edited, a, d, change_of_d, day);
    show_short_form(4, two_editors);
    return 0;
}

/*
 * The written notation of document 02, K1, with the quorums of K4: a text is read from left to right into a tree, rule
 * by rule, and the tree's codes are written by a walk.
 */
#include "reference.h"

#include "numbers.h"
#include "shared.h"

#include <stdbool.h>

/* ---- Reading ---- */

/* A code and its parts; of a quorum also how many of them are needed. */
struct node {
    uint8_t code, needed, parts;
    const struct node *part[PARTS];
};

/* Every node takes a character of its own. In a tree that is read to the end every node has its place, and `codes` is
 * how many codes they have. */
struct reader {
    unsigned n;
    const uint8_t *next, *end;
    size_t nodes, codes;
    struct node node[TEXT_MOST];
};

/* A node of a code, still without parts. */
static struct node *node_of(struct reader *r, unsigned code)
{
    struct node *node = &r->node[r->nodes++];
    node->code = (uint8_t)code;
    node->parts = 0;
    r->codes++;
    return node;
}

static void add_part(struct node *node, const struct node *part)
{
    node->part[node->parts++] = part;
}

/* Takes this character if it is the next one. */
static bool take(struct reader *r, uint8_t character)
{
    if (r->next == r->end || *r->next != character)
        return false;
    r->next++;
    return true;
}

/* Each of these reads as much as it can, and gives null if the text doesn't go on by its rule. */

static const struct node *read_either(struct reader *r);

static const struct node *read_name(struct reader *r)
{
    if (r->next == r->end || *r->next < 'a' || *r->next - 'a' >= (int)r->n)
        return NULL;
    return node_of(r, *r->next++ - 'a');
}

static bool at_digit(const struct reader *r)
{
    return r->next < r->end && *r->next >= '0' && *r->next <= '9';
}

/* A number without a leading zero: 0 where none stands, something above PARTS where it is more than that. */
static unsigned read_number(struct reader *r)
{
    unsigned number = 0;
    if (take(r, '0'))
        return 0;
    while (at_digit(r) && number <= PARTS)
        number = 10 * number + (*r->next++ - '0');
    return number;
}

static const struct node *read_quorum(struct reader *r)
{
    unsigned k = read_number(r);
    if (!take(r, ':'))
        return NULL;
    unsigned m = read_number(r);
    if (!quorate(k, m) || !take(r, '('))
        return NULL;
    struct node *quorum = node_of(r, QUORUM);
    r->codes += 2; /* k and m */
    quorum->needed = (uint8_t)k;
    while (quorum->parts < m) {
        const struct node *part = read_either(r);
        if (part == NULL || !take(r, quorum->parts + 1u < m ? ',' : ')'))
            return NULL;
        add_part(quorum, part);
    }
    return quorum;
}

static const struct node *read_simple(struct reader *r)
{
    if (take(r, '*'))
        return node_of(r, STRONGEST);
    if (take(r, '_'))
        return node_of(r, WEAKEST);
    if (at_digit(r))
        return read_quorum(r);
    if (!take(r, '('))
        return read_name(r);
    const struct node *inside = read_either(r);
    return inside != NULL && take(r, ')') ? inside : NULL;
}

static const struct node *signed_by(struct reader *r, unsigned code, const struct node *atom)
{
    struct node *node = node_of(r, code);
    add_part(node, atom);
    return node;
}

static const struct node *read_atom(struct reader *r)
{
    const struct node *atom = read_simple(r);
    while (atom != NULL)
        if (take(r, '>'))
            atom = signed_by(r, SEE_OF, atom);
        else if (take(r, '<'))
            atom = signed_by(r, CHANGE_OF, atom);
        else
            break;
    return atom;
}

/* One more part of a list, which is then the left part of what comes. */
static const struct node *join(struct reader *r, unsigned code, const struct node *list, const struct node *part)
{
    if (part == NULL)
        return NULL;
    struct node *node = node_of(r, code);
    add_part(node, list);
    add_part(node, part);
    return node;
}

static const struct node *read_both(struct reader *r)
{
    const struct node *list = read_atom(r);
    while (list != NULL && take(r, '&'))
        list = join(r, BOTH, list, read_atom(r));
    return list;
}

static const struct node *read_either(struct reader *r)
{
    const struct node *list = read_both(r);
    while (list != NULL && take(r, '|'))
        list = join(r, EITHER, list, read_both(r));
    return list;
}

/* Writes the codes of a tree, and gives the place behind them. */
static uint8_t *write_codes(const struct node *node, uint8_t *to)
{
    *to++ = node->code;
    if (node->code == QUORUM) {
        *to++ = node->needed;
        *to++ = node->parts;
    }
    for (unsigned i = 0; i < node->parts; i++)
        to = write_codes(node->part[i], to);
    return to;
}

uint32_t reference_read_text(uint64_t n, const uint8_t *text, size_t text_len, uint8_t *codes, size_t codes_len)
{
    if (n < 1 || n > NAMES)
        return refused(7);
    if (text_len < 1 || text_len > TEXT_MOST || codes_len != CODES)
        return refused(81);
    struct reader reader;
    reader.n = (unsigned)n;
    reader.next = text;
    reader.end = text + text_len;
    reader.nodes = reader.codes = 0;
    const struct node *tree = read_either(&reader);
    if (tree == NULL || reader.next != reader.end)
        return refused(82);
    if (reader.codes > CODES)
        return refused(83);
    write_codes(tree, codes);
    return written(reader.codes);
}

/* ---- Writing ---- */

/* A part of a quorum stands alone. */
enum place { ALONE, LEFT_OF_BOTH, RIGHT_OF_BOTH, LEFT_OF_EITHER, RIGHT_OF_EITHER, UNDER_A_SIGN };

struct writer {
    const uint8_t *next;
    uint8_t *to;
};

/* Does a part that starts with this code need brackets at this place? */
static bool needs_brackets(enum place place, uint8_t code)
{
    switch (place) {
    case LEFT_OF_BOTH:
    case RIGHT_OF_EITHER:
        return code == EITHER;
    case RIGHT_OF_BOTH:
    case UNDER_A_SIGN:
        return code == BOTH || code == EITHER;
    default:
        return false;
    }
}

static void put(struct writer *w, int character)
{
    *w->to++ = (uint8_t)character;
}

static void write_part(struct writer *w, enum place place);

static void write_joined(struct writer *w, enum place left, int joiner, enum place right)
{
    write_part(w, left);
    put(w, joiner);
    write_part(w, right);
}

static void write_signed(struct writer *w, int sign)
{
    write_part(w, UNDER_A_SIGN);
    put(w, sign);
}

/* 1 to PARTS. */
static void write_number(struct writer *w, unsigned number)
{
    if (number >= 10)
        put(w, '0' + (int)number / 10);
    put(w, '0' + (int)number % 10);
}

/* The rest of a quorum: k, m and m terms. */
static void write_quorum(struct writer *w)
{
    unsigned k = *w->next++, m = *w->next++;
    write_number(w, k);
    put(w, ':');
    write_number(w, m);
    for (unsigned part = 0; part < m; part++) {
        put(w, part == 0 ? '(' : ',');
        write_part(w, ALONE);
    }
    put(w, ')');
}

static void write_part(struct writer *w, enum place place)
{
    uint8_t code = *w->next++;
    bool brackets = needs_brackets(place, code);
    if (brackets)
        put(w, '(');
    switch (code) {
    case STRONGEST:
        put(w, '*');
        break;
    case WEAKEST:
        put(w, '_');
        break;
    case BOTH:
        write_joined(w, LEFT_OF_BOTH, '&', RIGHT_OF_BOTH);
        break;
    case EITHER:
        write_joined(w, LEFT_OF_EITHER, '|', RIGHT_OF_EITHER);
        break;
    case QUORUM:
        write_quorum(w);
        break;
    case SEE_OF:
        write_signed(w, '>');
        break;
    case CHANGE_OF:
        write_signed(w, '<');
        break;
    default:
        put(w, 'a' + code);
    }
    if (brackets)
        put(w, ')');
}

/* 64 codes give at most 132 characters. */
uint32_t reference_write_term(uint64_t n, const uint8_t *term, size_t term_len, uint8_t *text, size_t text_len)
{
    if (n < 1 || n > NAMES)
        return refused(7);
    if (text_len != TEXT_MOST)
        return refused(81);
    unsigned refusal = read_term((unsigned)n, (struct term){term, term_len});
    if (refusal)
        return refused(refusal);
    struct writer writer = {term, text};
    write_part(&writer, ALONE);
    return written((size_t)(writer.to - text));
}

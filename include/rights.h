/*
 * rights.h: who may act for whom in a job of the catalogue, decided from its ledger of grants.
 *
 * A job has n parties, its names, 1 to 12, numbered from 0. Its ledger says who was granted to act for
 * whom. Five calls decide questions about it. Each takes bytes and gives one 32-bit number, which the
 * functions below take apart: yes, no with a counterexample, or refused with a reason.
 *
 *     uint32_t answer = rights_acts_for(ledger, ledger_len, p, p_len, q, q_len, label, label_len, 20240131);
 *     if (rights_kind_of(answer) == RIGHTS_YES) ...
 *
 * Terms. Who p or q is, and how far a label reaches, is said by a term: 1 to 64 bytes, operator first
 * (enum rights_code). With names 00, 01, 02: `30 00 31 01 02` is 00 together with 01 or 02. A term has
 * two sides: who may see, and who may change. `40 00` is only the see side of 00, `41 00` only the change
 * side. `32 02 03 00 01 02` is a quorum: any two of the three.
 *
 * Coalitions. A coalition is a set of names, written as a number: name i adds 2^i. A coalition holds a
 * name, on both sides, if it has it as a member; it holds a both where it holds both parts, an either where
 * it holds one, and a quorum where it holds at least k of the m parts, of which equal ones count each. It
 * never holds the strongest party and always holds the weakest. `40 x` is held on the see side where x is
 * held there, and always on the change side; `41 x` the other way round.
 *
 * The ledger. Blocks of 512 bytes; the last two bytes of a block are its check, big-endian: the sum of
 * (i + 1) times byte i, i from 0 to 509, modulo 65521. Block 0: byte 0 is 01, byte 1 is n, bytes 2 and 3 are
 * the number of grants, 0 to 64, big-endian. Then a block for each grant: byte 0 is 02; bytes 1, 2, 3 are the
 * lengths of the terms p, q and d, which begin at bytes 16, 80 and 144: p acts for q, said under label d;
 * bytes 208 to 211 are the grant's first day and 212 to 215 its last, big-endian, 0 where there is no edge on
 * that end. All other bytes are 00.
 *
 * Days. A day is a real date of the Gregorian calendar, of the years 1900 to 2199, as the number
 * year * 10000 + month * 100 + day: 20240131 is the last day of January 2024. Every question, extract and
 * derivation check is asked on a day, which is never 0; a short form takes none. A grant counts only within
 * its days, its first and its last inside.
 *
 * The label. Every question is asked under a label, a term too. Within its days a grant counts under it if
 * the grant's own label d flows to it (see rights_flows_to, here without grants) and speaks for what p lacks
 * of q: no coalition that holds d on the change side holds p without q, on the see side or on the change
 * side. So `41 01` speaks for the grant that 00 acts for `30 00 01`; where p acts for q without any grant,
 * every d speaks. A coalition is sound on a side if no counting grant has its p held there and its q not.
 * Answers look at sound coalitions only: so grants make more questions a yes.
 *
 * Slices. A pointer and a length in bytes. Any length and any bytes are safe: what doesn't fit is refused.
 * With length 0 the pointer is not used and may be null. Otherwise it points to that many bytes, which
 * nobody writes during the call. A buffer that a call writes must overlap none of the call's other slices;
 * those may overlap each other.
 *
 * State. None: no memory is kept or allocated, no error number or locale is used. Calls are reentrant, and
 * any number of threads may call at a time. Equal inputs get equal answers.
 *
 * Stack. A call takes less than RIGHTS_STACK_BYTES (`make stack-use` measures it).
 */
#ifndef RIGHTS_H
#define RIGHTS_H

#include <stddef.h>
#include <stdint.h>

#ifdef __cplusplus
extern "C" {
#endif

/*
 * The version, for #if; rights.pc has the same. It grows by 1 whenever a call, a form or a number of this
 * header changes its meaning, or a new one comes. 1 is the first: where there is no such macro, #if takes it
 * for 0. Since 2, RIGHTS_SHORT_FORM_MIN is 3700; before, it was 16388. Since 3, every call but
 * rights_short_form takes a day, and a grant's block has days, with refusals 84 to 86; before, bytes 208 to
 * 215 were 00, and such a ledger is read as it was. Since 4, terms have quorums; before, `32` was no code.
 * Since 5, a grant's label needs to speak only for what p lacks of q; before, for all of q, which is still
 * enough: grants that counted count, others may now.
 */
#define RIGHTS_VERSION 5

/* Sizes, in bytes unless said otherwise. */
#define RIGHTS_NAMES_MAX 12        /* names of a job */
#define RIGHTS_TERM_MAX 64         /* a term */
#define RIGHTS_PARTS_MAX 12        /* parts of a quorum */
#define RIGHTS_BLOCK_SIZE 512      /* a block of a ledger */
#define RIGHTS_GRANTS_MAX 64       /* grants of a ledger */
#define RIGHTS_LEDGER_MAX 33280    /* a ledger of 64 grants */
#define RIGHTS_EXTRACT_SIZE 1024   /* an extract: exactly this much */
#define RIGHTS_SHORT_FORM_MIN 3700 /* a buffer for a short form: at least this much, whatever n is */
#define RIGHTS_STEP_SIZE 136       /* a step of a derivation */
#define RIGHTS_STEPS_MAX 64        /* steps of a derivation */
#define RIGHTS_DERIVATION_MAX 8704 /* a derivation of 64 steps */
#define RIGHTS_STACK_BYTES 65536   /* stack of a call: a bound, above what `make stack-use` measures */

/* The codes of a term. 00 to 0B are names. */
enum rights_code {
    RIGHTS_STRONGEST = 0x20,
    RIGHTS_WEAKEST = 0x21,
    RIGHTS_BOTH = 0x30,      /* of the next two terms */
    RIGHTS_EITHER = 0x31,    /* of the next two terms */
    RIGHTS_QUORUM = 0x32,    /* a byte k, a byte m, then m terms: at least k of them; 1 <= k <= m <= 12 */
    RIGHTS_SEE_OF = 0x40,    /* the see side (confidentiality) of the next term */
    RIGHTS_CHANGE_OF = 0x41  /* the change side (integrity) of the next term */
};

enum rights_kind {
    RIGHTS_YES = 0,     /* yes; of a derivation: accepted; of an extract or a short form: written */
    RIGHTS_NO = 1,      /* no; see rights_side_of and rights_coalition_of */
    RIGHTS_REFUSED = 2  /* the call was refused and wrote nothing; see rights_refusal_of */
};

enum rights_side {
    RIGHTS_SEE = 0,
    RIGHTS_CHANGE = 1
};

/* Why a call was refused: the first that applies, in the order that each call below gives. */
enum rights_refusal {
    /* the term of a short form */
    RIGHTS_TERM_LENGTH = 1,     /* no codes, or over 64 */
    RIGHTS_TERM_CODE = 2,       /* a byte that is no code, a name not below n, or a quorum out of range */
    RIGHTS_TERM_ENDS = 3,       /* the codes end too early */
    RIGHTS_TERM_LEFT_OVER = 4,  /* codes are left after the term */

    /* a short form's other arguments */
    RIGHTS_NAMES = 7,               /* n is not 1 to 12 */
    RIGHTS_SHORT_FORM_BUFFER = 8,   /* the buffer is shorter than RIGHTS_SHORT_FORM_MIN */

    /* the day of a question, an extract and a derivation check: before everything else */
    RIGHTS_DAY = 86,            /* not a real date */

    /* the ledger; its grants one after another, each by 13, 14, 84 and 85 before the next */
    RIGHTS_LEDGER_LENGTH = 10,  /* not a multiple of 512 from 512 to 33280 */
    RIGHTS_LEDGER_CHECK = 11,   /* a block's check fails */
    RIGHTS_LEDGER_HEADER = 12,  /* block 0: its kind, n, a count unlike the number of blocks, or filler */
    RIGHTS_LEDGER_GRANT = 13,   /* a grant's block: its kind, a term's length, or filler */
    RIGHTS_LEDGER_TERM = 14,    /* a term of a grant */
    RIGHTS_GRANT_DATE = 84,     /* a grant's first or last day is not a real date and not 0 */
    RIGHTS_GRANT_DAYS = 85,     /* a grant's first day is after its last, neither being 0 */

    /* the terms of a question, an extract and a derivation check, as 1 to 4 above */
    RIGHTS_P_LENGTH = 21,
    RIGHTS_P_CODE = 22,
    RIGHTS_P_ENDS = 23,
    RIGHTS_P_LEFT_OVER = 24,
    RIGHTS_Q_LENGTH = 31,
    RIGHTS_Q_CODE = 32,
    RIGHTS_Q_ENDS = 33,
    RIGHTS_Q_LEFT_OVER = 34,
    RIGHTS_LABEL_LENGTH = 41,
    RIGHTS_LABEL_CODE = 42,
    RIGHTS_LABEL_ENDS = 43,
    RIGHTS_LABEL_LEFT_OVER = 44,

    RIGHTS_EXTRACT_BUFFER = 51,     /* the buffer is not RIGHTS_EXTRACT_SIZE long */

    RIGHTS_DERIVATION_LENGTH = 60,  /* not a multiple of 136 from 136 to 8704 */
    /* a step of a derivation: rights_step_of says which */
    RIGHTS_STEP_FORM = 61,          /* the rule is not 1 to 7, or filler or an unused field is not 00 */
    RIGHTS_STEP_P = 62,             /* p is no term */
    RIGHTS_STEP_Q = 63,             /* q is no term */
    RIGHTS_STEP_PREMISE = 64,       /* a premise is not an earlier step */
    RIGHTS_STEP_GRANT = 65,         /* there is no such grant */
    RIGHTS_STEP_NOT_COUNTING = 66,  /* the grant doesn't count under the label on the day */
    RIGHTS_STEP_RULE = 67           /* the step doesn't meet its rule */
};

/*
 * Does p act for q? Yes if, on each side, every sound coalition that holds p holds q. A no gives the first
 * coalition that doesn't: on the see side if there is one, the lowest number.
 * Refusals: 86, 10 to 14, 84, 85, 21 to 24, 31 to 34, 41 to 44.
 */
uint32_t rights_acts_for(const uint8_t *ledger, size_t ledger_len, const uint8_t *p, size_t p_len,
                         const uint8_t *q, size_t q_len, const uint8_t *label, size_t label_len,
                         uint32_t day);

/*
 * Does information flow from p to q? Yes if on the see side every sound coalition that holds q holds p, and
 * on the change side every one that holds p holds q. A no gives a coalition as above.
 * Refusals: as rights_acts_for.
 */
uint32_t rights_flows_to(const uint8_t *ledger, size_t ledger_len, const uint8_t *p, size_t p_len,
                         const uint8_t *q, size_t q_len, const uint8_t *label, size_t label_len,
                         uint32_t day);

/*
 * Which coalitions are sound under the label on the day? Writes a bit for each into a buffer of
 * RIGHTS_EXTRACT_SIZE bytes: see rights_extract_has. Two ledgers of the same n with equal extracts answer
 * every question under that label on that day alike.
 * Refusals: 86, 51, 10 to 14, 84, 85, 41 to 44.
 */
uint32_t rights_extract(const uint8_t *ledger, size_t ledger_len, const uint8_t *label, size_t label_len,
                        uint32_t day, uint8_t *buffer, size_t buffer_len);

/*
 * Which are the smallest coalitions that hold the term, in a job of n names? Writes, for the see side and
 * then for the change side, how many there are and then each, ascending: two bytes each, big-endian.
 * rights_length_of is the number of bytes written; later bytes of the buffer stay as they were. Every short
 * form fits RIGHTS_SHORT_FORM_MIN bytes: at most 924 coalitions of twelve names stand with none inside another.
 * Refusals: 7, 8, 1 to 4.
 */
uint32_t rights_short_form(uint64_t n, const uint8_t *term, size_t term_len, uint8_t *buffer, size_t buffer_len);

/*
 * Is this a derivation: does every step follow by its rule? Then every step's p acts for its q.
 * A derivation has 1 to 64 steps of 136 bytes: byte 0 the rule, 1 and 2 premises (numbers of earlier steps,
 * from 0), 3 a grant (from 0), 4 and 5 the lengths of p and q, p from byte 8, q from byte 72, all other
 * bytes and the fields that a rule doesn't use 00. The rules, terms compared byte for byte:
 *   1  p acts for q without any grant
 *   2  the grant in byte 3 counts under the label on the day and has this p and q
 *   3  the first premise is p for m, the second m for q
 *   4  q is 30, then the right terms of the two premises; the left terms of both are p
 *   5  p is 31, then the left terms of the two premises; the right terms of both are q
 *   6  p and q are 40 and then the terms of the premise in byte 1
 *   7  the same with 41
 * Refusals: 86, 10 to 14, 84, 85, 41 to 44, 60, and then, step by step, 61 to 67.
 */
uint32_t rights_check_derivation(const uint8_t *derivation, size_t derivation_len,
                                 const uint8_t *ledger, size_t ledger_len,
                                 const uint8_t *label, size_t label_len, uint32_t day);

/* The parts of an answer. That this arithmetic gives them back is proved: docs/READING.md says where. */

/* An answer's kind, an enum rights_kind. */
static inline unsigned rights_kind_of(uint32_t answer)
{
    return answer / 65536;
}

/* Of a no: the side, an enum rights_side. */
static inline unsigned rights_side_of(uint32_t answer)
{
    return answer / 4096 % 2;
}

/* Of a no: the coalition. Name i is a member if bit i is set. */
static inline unsigned rights_coalition_of(uint32_t answer)
{
    return answer % 4096;
}

/* Of a refusal: the reason, an enum rights_refusal. */
static inline unsigned rights_refusal_of(uint32_t answer)
{
    return answer % 256;
}

/* Of a refusal 61 to 67: the step, from 0. For other refusals 0. */
static inline unsigned rights_step_of(uint32_t answer)
{
    return answer / 256 % 256;
}

/* Of a short form that was written: its length. */
static inline size_t rights_length_of(uint32_t answer)
{
    return answer % 65536;
}

/* Is the coalition, 0 to 4095, sound on the side, by an extract that was written? */
static inline int rights_extract_has(const uint8_t *extract, unsigned side, unsigned coalition)
{
    return extract[512 * side + coalition / 8] >> coalition % 8 & 1;
}

/* What a refusal says, for a person. Every number of enum rights_refusal has a text of its own, all others
 * one in common. */
static inline const char *rights_refusal_text(unsigned refusal)
{
    switch (refusal) {
    case RIGHTS_TERM_LENGTH: return "the term has no codes, or over 64";
    case RIGHTS_TERM_CODE: return "the term has a byte that is no code, an unknown name, or a quorum out of range";
    case RIGHTS_TERM_ENDS: return "the term ends too early";
    case RIGHTS_TERM_LEFT_OVER: return "codes are left after the term";
    case RIGHTS_NAMES: return "a job has 1 to 12 names";
    case RIGHTS_SHORT_FORM_BUFFER: return "the buffer for the short form is too short";
    case RIGHTS_DAY: return "the day is not a real date";
    case RIGHTS_LEDGER_LENGTH: return "the ledger's length is wrong";
    case RIGHTS_LEDGER_CHECK: return "a check of the ledger fails";
    case RIGHTS_LEDGER_HEADER: return "the ledger's first block is malformed";
    case RIGHTS_LEDGER_GRANT: return "a grant's block is malformed";
    case RIGHTS_LEDGER_TERM: return "a grant has a malformed term";
    case RIGHTS_GRANT_DATE: return "a grant has a date that is not real";
    case RIGHTS_GRANT_DAYS: return "a grant's first day is after its last";
    case RIGHTS_P_LENGTH: return "p has no codes, or over 64";
    case RIGHTS_P_CODE: return "p has a byte that is no code, an unknown name, or a quorum out of range";
    case RIGHTS_P_ENDS: return "p ends too early";
    case RIGHTS_P_LEFT_OVER: return "codes are left after p";
    case RIGHTS_Q_LENGTH: return "q has no codes, or over 64";
    case RIGHTS_Q_CODE: return "q has a byte that is no code, an unknown name, or a quorum out of range";
    case RIGHTS_Q_ENDS: return "q ends too early";
    case RIGHTS_Q_LEFT_OVER: return "codes are left after q";
    case RIGHTS_LABEL_LENGTH: return "the label has no codes, or over 64";
    case RIGHTS_LABEL_CODE: return "the label has a byte that is no code, an unknown name, or a quorum out of range";
    case RIGHTS_LABEL_ENDS: return "the label ends too early";
    case RIGHTS_LABEL_LEFT_OVER: return "codes are left after the label";
    case RIGHTS_EXTRACT_BUFFER: return "an extract takes a buffer of 1,024 bytes";
    case RIGHTS_DERIVATION_LENGTH: return "the derivation's length is wrong";
    case RIGHTS_STEP_FORM: return "the step is malformed";
    case RIGHTS_STEP_P: return "the step's p is no term";
    case RIGHTS_STEP_Q: return "the step's q is no term";
    case RIGHTS_STEP_PREMISE: return "a premise is not an earlier step";
    case RIGHTS_STEP_GRANT: return "there is no such grant";
    case RIGHTS_STEP_NOT_COUNTING: return "the grant doesn't count under this label on this day";
    case RIGHTS_STEP_RULE: return "the step doesn't follow by its rule";
    default: return "a reason that this rights.h doesn't know";
    }
}

#ifdef __cplusplus
}
#endif

#endif

/*
 * The numbers of documents 01 and 02 for the reference and the tests: written down a second time, not taken from
 * rights.h. tests/header.c asserts that the two agree on what both have.
 */
#ifndef NUMBERS_H
#define NUMBERS_H

/* Sizes, in bytes unless said otherwise. */
enum {
    NAMES = 12, /* of a job, at most */
    PARTS = 12, /* of a quorum, at most */
    CODES = 64, /* of a term, at most */
    BLOCK = 512,
    GRANTS = 64, /* of a ledger, at most */
    LEDGER_MOST = 33280,
    EXTRACT_SIZE = 1024,
    SHORT_FORM_LEAST = 3700, /* the buffer */
    STEP = 136,
    STEPS = 64, /* of a derivation, at most */
    DERIVATION_MOST = 8704,
    TEXT_MOST = 256, /* characters; also the buffer that a term is written to */
    HEAD_WORDS = 4, /* 64-bit words of a live ledger: its head, its numbers */
    NUMBER_WORDS = 896
};

enum { FIRST_YEAR = 1900, LAST_YEAR = 2199, DAYS_ADDED_MOST = 366 };

enum code {
    STRONGEST = 0x20,
    WEAKEST = 0x21,
    BOTH = 0x30,
    EITHER = 0x31,
    QUORUM = 0x32,
    SEE_OF = 0x40,
    CHANGE_OF = 0x41
};

enum side { SEE = 0, CHANGE = 1 };

enum kind { YES = 0, NO = 1, REFUSED = 2 };

/* What a kind, a side and a step count for in the number of an answer. */
enum { PER_KIND = 65536, PER_SIDE = 4096, PER_STEP = 256 };

#endif

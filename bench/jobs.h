/*
 * The jobs of the benchmark, and the calls on them.
 *
 * A job has n names, and grants whose p and q all have the same number of codes. All is asked under the label 21 and
 * on one day. A grant counts exactly if its label is its grantor's own word: 41 and then q, or, in a ledger by the
 * gap, 41 and then the part of q that p lacks. It has no days, or, in a dated ledger, a first and a last day around
 * that day.
 *
 * There are five sorts of ledgers. In a chain each name is granted to act for the next one, the names in some order
 * and the grants in another; other grants stand between these, and half of the others don't count. In a breaking
 * ledger every grant counts, and breaks a coalition that no other grant breaks: one that holds its p and not its q.
 * In an early one every grant counts too, and most coalitions break the first: that any of the names, or of as many as
 * there are codes for, acts for all of them together. In a ledger of quorums, of twelve names, every grant counts and
 * is of quorums alone: 6:12 of all names for 2:3 of 2:3s of nine, or such a 2:3 of 2:3s for 5:9 of its names. In a
 * ledger by the gap every grant counts, and is spoken for the part that p lacks alone: its q is both of names that p
 * has and an either of others.
 */
#ifndef JOBS_H
#define JOBS_H

#include "calls.h"

#include <stdbool.h>

enum { JOBS = 32 }; /* that calls are made on in turn */

struct job {
    unsigned n, grants, codes;
};

/* Makes a call on a job; other seeds give other names, shapes and orders. */
typedef void make_call(struct call *call, struct job job, unsigned seed);

/* On a chain: a yes without any grant, and the first name of the chain for the last. */
make_call make_static_yes, make_chain_yes, make_chain_extract;

/* On a chain too, of few codes whatever the job's are. The first name for the last, and for the strongest: a no on the
 * see side, refuted by all names together alone, since they are the one sound coalition with the first. The same of the
 * change sides: a no as is_late_no says. And flows: from the change side of the first with the see side of the last to
 * the change side of the last with the see side of the first, a yes; and that no as a flow. */
make_call make_ends_yes, make_ends_no, make_ends_change_no, make_ends_flow, make_ends_flow_no;

/* On a breaking ledger; the no is as is_late_no says. */
make_call make_late_no, make_breaking_extract, make_derivation;

/* On an early ledger; the yes is p and q of the first grant, one test breaks that grant and the other is sound. */
make_call make_early_extract, make_early_yes, make_early_test, make_sound_test;

/* On grants that need not break anything of their own: p and q of the first. */
make_call make_granted_yes;

/* A derivation of one step, 21 for 21 by rule 1: the library reads the ledger and judges every grant for it, and the
 * reference none. It is accepted whatever counts, by an earlier archive too. On a chain; by the voice, on grants like
 * those of a breaking ledger; on a ledger by the gap, of an odd number of codes from 3 up. */
make_call make_counting_chain, make_counting_by_voice, make_counting_by_gap;

make_call make_gap_extract;

/* As those without "dated", on dated ledgers. */
make_call make_dated_static_yes, make_dated_chain_yes, make_dated_chain_extract, make_dated_derivation;

make_call make_short_form;

/* Of twelve names without grants: 6:12 of all names for 5:12, and 2:3 of 2:3s of nine names for 4:9 of them, both a
 * yes; the short forms of these left terms. */
make_call make_six_of_twelve, make_nested_quorums, make_short_six_of_twelve, make_short_nested_quorums;

/* On a ledger of quorums: 6:12 for 5:12, p and q of the first grant, and a no as is_late_no says. */
make_call make_quorum_static_yes, make_quorum_granted_yes, make_quorum_late_no;

make_call make_quorum_extract, make_quorum_derivation;

/* Of n names: a text of 256 characters with 64 codes and brackets; one in which every character is a code, so that they
 * are too many; a text of 38 characters; a term of 64 codes. */
make_call make_bracketed_text, make_bare_text, make_usual_text, make_written_term;

/* Of twelve names: two of 2:3 of 2:3s and one of 6:12, joined; as a text of 105 characters, as a term of 59 codes. */
make_call make_text_of_quorums, make_written_quorums;

/* As many days as can be added, to some date. */
make_call make_added_days;

/* A no on the change side by one of the last 64 coalitions: nearly all were looked at. */
bool is_late_no(uint32_t answer, unsigned n);

/* Is the grant's label 41 and then q, or then the last codes of q? */
bool meant_to_count(const struct ledger *ledger, unsigned grant);

/* Then not all of q? */
bool meant_by_gap(const struct ledger *ledger, unsigned grant);

bool is_dated(const struct ledger *ledger);

#endif

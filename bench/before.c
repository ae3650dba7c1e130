/*
 * The engine of the archive of an earlier revision, its entry points renamed by the Makefile, which also gives the
 * version of that revision's rights.h. Before version 3 the calls take no day: then it is dropped on the way.
 */
#include "calls.h"

writing_call before_rights_short_form;

#if BEFORE_VERSION >= 3

question_call before_rights_acts_for, before_rights_flows_to;
extract_call before_rights_extract;
derivation_call before_rights_check_derivation;

const struct engine before_engine = {
    BEFORE, before_rights_acts_for, before_rights_flows_to, before_rights_extract, before_rights_short_form,
    before_rights_check_derivation, NULL, NULL, NULL, NULL, NULL,
};

#else

typedef uint32_t dayless_question_call(const uint8_t *, size_t, const uint8_t *, size_t, const uint8_t *, size_t,
                                       const uint8_t *, size_t);
typedef uint32_t dayless_extract_call(const uint8_t *, size_t, const uint8_t *, size_t, uint8_t *, size_t);
typedef uint32_t dayless_derivation_call(const uint8_t *, size_t, const uint8_t *, size_t, const uint8_t *, size_t);

dayless_question_call before_rights_acts_for, before_rights_flows_to;
dayless_extract_call before_rights_extract;
dayless_derivation_call before_rights_check_derivation;

static uint32_t acts_for(const uint8_t *ledger, size_t ledger_len, const uint8_t *p, size_t p_len, const uint8_t *q,
                         size_t q_len, const uint8_t *label, size_t label_len, uint32_t day)
{
    (void)day;
    return before_rights_acts_for(ledger, ledger_len, p, p_len, q, q_len, label, label_len);
}

static uint32_t flows_to(const uint8_t *ledger, size_t ledger_len, const uint8_t *p, size_t p_len, const uint8_t *q,
                         size_t q_len, const uint8_t *label, size_t label_len, uint32_t day)
{
    (void)day;
    return before_rights_flows_to(ledger, ledger_len, p, p_len, q, q_len, label, label_len);
}

static uint32_t extract(const uint8_t *ledger, size_t ledger_len, const uint8_t *label, size_t label_len, uint32_t day,
                        uint8_t *buffer, size_t buffer_len)
{
    (void)day;
    return before_rights_extract(ledger, ledger_len, label, label_len, buffer, buffer_len);
}

static uint32_t check_derivation(const uint8_t *derivation, size_t derivation_len, const uint8_t *ledger,
                                 size_t ledger_len, const uint8_t *label, size_t label_len, uint32_t day)
{
    (void)day;
    return before_rights_check_derivation(derivation, derivation_len, ledger, ledger_len, label, label_len);
}

const struct engine before_engine = {
    BEFORE, acts_for, flows_to, extract, before_rights_short_form, check_derivation, NULL, NULL, NULL, NULL, NULL,
};

#endif

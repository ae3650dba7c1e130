#include "calls.h"

#include "rights.h"
#include "trials.h"

/* The library answers by the numbers. */
static uint32_t live_acts_for(const uint64_t *head, const uint8_t *label, const uint8_t *ledger,
                              const uint64_t *numbers, const uint8_t *p, size_t p_len, const uint8_t *q, size_t q_len)
{
    (void)ledger;
    return trials_live_acts_for(head, label, numbers, p, p_len, q, q_len);
}

static uint32_t live_flows_to(const uint64_t *head, const uint8_t *label, const uint8_t *ledger,
                              const uint64_t *numbers, const uint8_t *p, size_t p_len, const uint8_t *q, size_t q_len)
{
    (void)ledger;
    return trials_live_flows_to(head, label, numbers, p, p_len, q, q_len);
}

static const struct live_calls live_calls = {
    trials_live_make, trials_live_add, trials_live_withdraw, live_acts_for, live_flows_to,
};

const struct engine library_engine = {
    "library", rights_acts_for, rights_flows_to, rights_extract, rights_short_form, rights_check_derivation,
    trials_read_text, trials_write_term, trials_add_days, trials_test_coalition, &live_calls,
};

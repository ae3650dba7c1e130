// rights.h from C++, and empty slices as null pointers; at last on day 0.
#include "rights.h"

#include <cstdio>

int main()
{
    const unsigned expected[] = {RIGHTS_LEDGER_LENGTH, RIGHTS_LEDGER_LENGTH, RIGHTS_EXTRACT_BUFFER,
                                 RIGHTS_SHORT_FORM_BUFFER, RIGHTS_LEDGER_LENGTH, RIGHTS_DAY};
    const uint32_t day = 20240131;
    const uint32_t answers[] = {
        rights_acts_for(nullptr, 0, nullptr, 0, nullptr, 0, nullptr, 0, day),
        rights_flows_to(nullptr, 0, nullptr, 0, nullptr, 0, nullptr, 0, day),
        rights_extract(nullptr, 0, nullptr, 0, day, nullptr, 0),
        rights_short_form(1, nullptr, 0, nullptr, 0),
        rights_check_derivation(nullptr, 0, nullptr, 0, nullptr, 0, day),
        rights_acts_for(nullptr, 0, nullptr, 0, nullptr, 0, nullptr, 0, 0),
    };
    for (unsigned i = 0; i < sizeof answers / sizeof *answers; i++)
        if (rights_kind_of(answers[i]) != RIGHTS_REFUSED || rights_refusal_of(answers[i]) != expected[i]) {
            std::printf("call %u on empty slices gives %u\n", i, static_cast<unsigned>(answers[i]));
            return 1;
        }
    std::puts("from C++, on empty slices: refused as expected");
    return 0;
}

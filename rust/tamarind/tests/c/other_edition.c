/* An archive of the next edition, of which only the edition may be asked. */
#include "tamarind.h"

#include <stdlib.h>

uint32_t tamarind_edition(void) { return TAMARIND_EDITION + 1; }

tamarind_answer tamarind_check_grammar(const uint32_t *grammar, size_t grammar_len) {
    (void)grammar, (void)grammar_len;
    abort();
}

tamarind_answer tamarind_check_slip(const uint32_t *grammar, size_t grammar_len,
                                    const uint32_t *slip, size_t slip_len) {
    (void)grammar, (void)grammar_len, (void)slip, (void)slip_len;
    abort();
}

tamarind_answer tamarind_check_rules(const uint32_t *grammar, size_t grammar_len,
                                     const uint32_t *rules, size_t rules_len) {
    (void)grammar, (void)grammar_len, (void)rules, (void)rules_len;
    abort();
}

tamarind_outcome tamarind_run(const uint32_t *grammar, size_t grammar_len,
                              const uint32_t *rules, size_t rules_len,
                              const uint32_t *slip, size_t slip_len,
                              uint32_t budget,
                              uint32_t *result, size_t result_len,
                              uint32_t *work, size_t work_len) {
    (void)grammar, (void)grammar_len, (void)rules, (void)rules_len, (void)slip, (void)slip_len;
    (void)budget, (void)result, (void)result_len, (void)work, (void)work_len;
    abort();
}

tamarind_posting tamarind_words_to_post(uint32_t ending, size_t filled,
                                        size_t result_len, size_t slip_len) {
    (void)ending, (void)filled, (void)result_len, (void)slip_len;
    abort();
}

tamarind_conversion tamarind_convert(const uint32_t *old_grammar, size_t old_grammar_len,
                                     const uint32_t *new_grammar, size_t new_grammar_len,
                                     const uint32_t *table, size_t table_len,
                                     const uint32_t *slip, size_t slip_len,
                                     bool counted,
                                     uint32_t *result, size_t result_len) {
    (void)old_grammar, (void)old_grammar_len, (void)new_grammar, (void)new_grammar_len;
    (void)table, (void)table_len, (void)slip, (void)slip_len, (void)counted;
    (void)result, (void)result_len;
    abort();
}

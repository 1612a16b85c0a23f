/* Calls each function from C or C++ and prints each answer. The header may be
 * included twice, and in several files: meanings.c has it too. */
#include "tamarind.h"
#include "tamarind.h"

#include <stdio.h>
#include <string.h>

static const uint32_t grammar[] = {3, 8, 1, 1, 1, 4, 2, 1, 2};
static const uint32_t endless[] = {1, 8, 1, 1, 0};
static const uint32_t slip[] = {0, 0, 6, 1, 0, 5, 2, 200, 1, 1, 0, 3, 2, 500, 1, 1, 1, 1};
static const uint32_t miscounted[] = {0, 0, 6, 1, 0, 5, 2, 200, 1, 1, 0, 2, 2, 500, 1, 1, 1, 1};
static const uint32_t rules[] = {1, 9, 2, 2, 1, 2, 200, 1, 2, 4200};
static const uint32_t untyped[] = {1, 9, 2, 2, 1, 2, 200, 1, 1, 1};
/* The number comes before the sequence: types 1 and 2 have changed places. */
static const uint32_t renumbered[] = {3, 8, 1, 1, 2, 1, 2, 4, 1};
static const uint32_t table[] = {0, 0, 2, 1, 0};
static const uint32_t older[] = {0, 0, 1, 0, 2, 200, 1, 0, 2, 500, 1, 1};
static const uint32_t converted[] = {0, 0, 6, 2, 0, 5, 1, 200, 1, 2, 0, 3, 1, 500, 1, 2, 1, 1};

/* Both memories are lent but for their last words, which no run may change. */
enum { GUARD = 8, RESULT = TAMARIND_RESULT_WORDS + 5, WORK = TAMARIND_WORK_WORDS + 7 };
static uint32_t result[RESULT + GUARD], result_due[RESULT + GUARD];
static uint32_t work[WORK + GUARD], work_due[WORK + GUARD];

void print_meanings(void);

static void print(tamarind_answer answer) {
    printf("%u %zu\n", (unsigned)answer.number, answer.position);
}

static void fill(uint32_t *words, size_t count) {
    for (size_t word = 0; word < count; word++) words[word] = 0xdead0000u + (uint32_t)word;
}

/* What is posted after an outcome: which words, and how many. */
static const char *posted(const tamarind_outcome *outcome, size_t result_len, size_t *words) {
    const uint32_t *post = tamarind_output(outcome, result, result_len, slip, 18, words);
    return post == result ? "result" : post == slip ? "slip" : "neither";
}

/* Runs over dirty memories and prints the outcome, whether both memories are as
 * they must be, and what is posted: `filled` has the words that the result gets,
 * or is null where the run must be refused. */
static void run(const uint32_t *book, size_t book_len, uint32_t budget, const uint32_t *filled) {
    fill(result, RESULT + GUARD);
    fill(work, WORK + GUARD);
    memcpy(result_due, result, sizeof result);
    memcpy(work_due, work, sizeof work);
    if (filled) {
        memcpy(result_due, filled, 18 * sizeof *filled);
        memset(work_due, 0, WORK * sizeof *work_due);
    }
    tamarind_outcome outcome =
        tamarind_run(grammar, 9, book, book_len, slip, 18, budget, result, RESULT, work, WORK);
    printf("%u %u %zu %u %u %zu", (unsigned)outcome.ending, (unsigned)outcome.number,
           outcome.position, (unsigned)outcome.attempts, (unsigned)outcome.replacements,
           outcome.filled);
    int right = !memcmp(result, result_due, sizeof result) && !memcmp(work, work_due, sizeof work);
    size_t words;
    const char *source = posted(&outcome, RESULT, &words);
    printf(" memories %s, post %s %zu\n", right ? "right" : "wrong", source, words);
}

/* A done run with as many words filled, whose result is `result_len` long. */
static void post(size_t filled, size_t result_len) {
    tamarind_outcome outcome = {TAMARIND_DONE, 0, 0, 1, 1, filled};
    size_t words;
    const char *source = posted(&outcome, result_len, &words);
    printf("post %s %zu\n", source, words);
}

/* Converts a slip to the new grammar over a dirty result and prints the answer,
 * and whether the result is as it must be: it has the converted slip, or is as it
 * was. */
static void convert(const uint32_t *to, size_t to_len, size_t table_len, const uint32_t *words,
                    size_t count, bool counted) {
    fill(result, RESULT + GUARD);
    memcpy(result_due, result, sizeof result);
    tamarind_conversion answer = tamarind_convert(grammar, 9, to, to_len, table, table_len, words,
                                                  count, counted, result, RESULT);
    if (answer.number == 0) memcpy(result_due, converted, sizeof converted);
    printf("%u %zu %u %zu", (unsigned)answer.number, answer.position, (unsigned)answer.grammar,
           answer.filled);
    int right = !memcmp(result, result_due, sizeof result);
    printf(" result %s\n", right ? "right" : "wrong");
}

/* Refusals that come before the table: of the result, and of the old grammar. */
static void refuse_conversions(void) {
    tamarind_conversion answer = tamarind_convert(grammar, 9, renumbered, 9, table, 4, slip, 18, true,
                                                  result, TAMARIND_RESULT_WORDS - 1);
    printf("%u %zu %u\n", (unsigned)answer.number, answer.position, (unsigned)answer.grammar);
    answer = tamarind_convert(endless, 5, renumbered, 9, table, 4, slip, 18, true, result, RESULT);
    printf("%u %zu %d\n", (unsigned)answer.number, answer.position,
           answer.grammar == TAMARIND_OLD_GRAMMAR);
    answer = tamarind_convert(grammar, 9, endless, 5, table, 4, slip, 18, true, result, RESULT);
    printf("%u %zu %d\n", (unsigned)answer.number, answer.position,
           answer.grammar == TAMARIND_NEW_GRAMMAR);
}

int main(void) {
    print(tamarind_check_grammar(grammar, 9));
    print(tamarind_check_grammar(grammar, 8));
    print(tamarind_check_grammar(endless, 5));
    print(tamarind_check_slip(grammar, 9, slip, 18));
    print(tamarind_check_slip(grammar, 9, slip, 3));
    print(tamarind_check_slip(grammar, 9, slip, 17));
    print(tamarind_check_slip(grammar, 9, miscounted, 18));
    print(tamarind_check_slip(endless, 5, slip, 18));
    print(tamarind_check_rules(grammar, 9, rules, 10));
    print(tamarind_check_rules(grammar, 9, rules, 9));
    print(tamarind_check_rules(endless, 5, rules, 10));
    const uint32_t rewritten[] = {0, 0, 6, 1, 0, 5, 2, 4200, 1, 1, 0, 3, 2, 500, 1, 1, 1, 1};
    run(rules, 10, 3, rewritten);
    run(rules, 10, 2, rewritten);
    run(untyped, 10, 3, NULL);
    run(rules, 10, 0, NULL);
    post(8, 8);
    post(9, 8);
    post(SIZE_MAX, 8);
    convert(renumbered, 9, 4, slip, 18, true);
    convert(renumbered, 9, 4, older, 12, false);
    convert(renumbered, 8, 4, slip, 18, true);
    convert(renumbered, 9, 3, slip, 18, true);
    convert(renumbered, 9, 5, slip, 18, true);
    convert(grammar, 9, 4, slip, 18, true);
    convert(renumbered, 9, 4, older, 11, false);
    convert(renumbered, 9, 4, older, 2, false);
    convert(renumbered, 9, 4, miscounted, 18, true);
    refuse_conversions();
    printf("edition %u %d\n", (unsigned)tamarind_edition(), tamarind_is_this_edition());
    print_meanings();
    return 0;
}

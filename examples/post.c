/* What a pad does with a slip, in C; post.rs does the same in Rust.
 *
 *     gcc -std=c99 -I include examples/post.c target/staticlib/libtamarind.a -o post
 */
#include "tamarind.h"

#include <inttypes.h>
#include <stdio.h>

/* A program is a sequence of numbers; replace every 2.00 by 42.00; the slip is
 * 2.00, 5.00, each node its type, its value and the number of nodes in its tree.
 * docs/bench.md takes these words apart. */
static const uint32_t grammar[] = {3, 8, 1, 1, 1, 4, 2, 1, 2};
static const uint32_t rules[] = {1, 9, 2, 2, 1, 2, 200, 1, 2, 4200};
static const uint32_t slip[] = {0, 0, 6, 1, 0, 5, 2, 200, 1, 1, 0, 3, 2, 500, 1, 1, 1, 1};
/* The same rules with a fault: they put a sequence where a number must stand. */
static const uint32_t faulty[] = {1, 9, 2, 2, 1, 2, 200, 1, 1, 1};
/* Lent to every run. They may hold any words, and are never cleared. */
static uint32_t result[TAMARIND_RESULT_WORDS], work[TAMARIND_WORK_WORDS];

#define COUNT(words) (sizeof(words) / sizeof *(words))

static void run_and_post(const uint32_t *book, size_t book_len, uint32_t budget) {
    const tamarind_outcome o =
        tamarind_run(grammar, COUNT(grammar), book, book_len, slip, COUNT(slip), budget,
                     result, COUNT(result), work, COUNT(work));
    if (o.ending == TAMARIND_DONE) printf("done");
    if (o.ending == TAMARIND_STOPPED) printf("stopped %" PRIu32 ": %s", o.number, tamarind_meaning(o.number));
    if (o.ending == TAMARIND_REFUSED) printf("refused %" PRIu32 " at word %zu: %s\n", o.number, o.position, tamarind_meaning(o.number));
    else printf(", attempts %" PRIu32 ", replacements %" PRIu32 "\n", o.attempts, o.replacements);

    size_t count;
    const uint32_t *words = tamarind_output(&o, result, COUNT(result), slip, COUNT(slip), &count);
    printf("post");
    for (size_t word = 0; word < count; word++) printf(" %" PRIu32, words[word]);
    printf("\n");
}

int main(void) {
    if (!tamarind_is_this_edition()) {
        fprintf(stderr, "libtamarind.a is of edition %" PRIu32 ", not %d\n", tamarind_edition(), TAMARIND_EDITION);
        return 1;
    }
    printf("edition %" PRIu32 "\n", tamarind_edition());
    run_and_post(rules, COUNT(rules), 3);
    run_and_post(rules, COUNT(rules), 2);
    run_and_post(faulty, COUNT(faulty), 3);
    return 0;
}

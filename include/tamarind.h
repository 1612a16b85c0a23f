/* The proved rewriting core of the counter pad, for C and C++ programs on
 * 64-bit x86 Linux. Link with libtamarind.a.
 *
 * It rewrites a slip, a tree in 32-bit words, by a rule book into the words
 * that are posted, and it converts slips of an old grammar to a new one. Each
 * function promises its whole outcome on every input: any words of any length
 * may be passed, and what is not allowed is refused with a number and a
 * position. docs/bench.md says what each number asks of a rule writer,
 * docs/convert.md how a grammar is renumbered, docs/DATASHEET.md what a call
 * costs; a release has them beside this.
 *
 * A slip has three words for each node of its tree, a parent's before its
 * children's: the node's type, its value, and its count, which is the number of
 * nodes in its tree, itself included. So the slip of 2.00 and 5.00 is
 *
 *     0 0 6   1 0 5   2 200 1   1 0 3   2 500 1   1 1 1
 *
 * and a terminal steps over the field that begins at slip[at] by its count:
 * at += 3 * slip[at + 2]. Every count is right in a slip that
 * tamarind_check_slip passes, and in what a run or a conversion has filled of
 * its result. Grammars, rule books and tables have no counts. Slips of two words
 * a node, without counts, are of older editions: only tamarind_convert takes
 * them, where its caller says so.
 *
 * What a caller guarantees of every call:
 * - A pointer points to as many words as its length says, aligned as uint32_t
 *   is (4 bytes), and is not null, also where the length is 0.
 * - Until the call returns, no one else writes to the words that are lent, or
 *   reads `result` or `work`.
 * - `result` and `work` share no word with each other or with an input. Inputs
 *   may overlap, since they are only read.
 *
 * What a caller may rely on:
 * - Nothing is kept between calls, so there is nothing to begin or to reset. The
 *   core has no variables of its own, reserves no memory and makes no system
 *   call.
 * - Any number of threads may call at once, each with a result and a work
 *   memory of its own.
 * - Nothing is written but `result` and `work` of a run and `result` of a
 *   conversion, as said there.
 */
#ifndef TAMARIND_H
#define TAMARIND_H

#include <stdbool.h>
#include <stddef.h>
#include <stdint.h>

#ifdef __cplusplus
extern "C" {
#endif

/* The edition of this header: 0 is the core as first specified, and a change
 * request that a caller can see sets its own number. 1 is T-01: operation 1,004
 * rounds an exact half to the even whole number. 2 is T-02: a number may be as
 * great as 4,000,000,000 hundredths. 4 is T-04: the list, and operations on
 * sequences. 5 is T-05: in a pattern a variable whose tree holds an empty name
 * or string matches nothing. 6 is T-06: reach 3, the one-pass rule. 7 is T-07:
 * each node of a slip and of a result has a third word, the number of nodes in
 * its tree. 8 is T-08: tamarind_convert, which converts a slip of one grammar to
 * a slip of another.
 *
 * tamarind_edition() is the archive's. A program asks tamarind_is_this_edition()
 * once when it starts, and makes no other call if the answer is 0: header and
 * archive do not belong together. An archive that is older than editions does
 * not link. */
#define TAMARIND_EDITION 8

uint32_t tamarind_edition(void);

static inline int tamarind_is_this_edition(void) {
    return tamarind_edition() == TAMARIND_EDITION;
}

/* Limits of a call. The first two are the fewest words of the two memories. */
#define TAMARIND_RESULT_WORDS 6144
#define TAMARIND_WORK_WORDS 16384
#define TAMARIND_LEAST_BUDGET 1
#define TAMARIND_GREATEST_BUDGET 1000000
#define TAMARIND_MOST_GRAMMAR_WORDS 4096
#define TAMARIND_MOST_RULES_WORDS 16384
#define TAMARIND_MOST_SLIP_WORDS 6144

/* Limits of a grammar: its types, the forms of a type, the elements of a form;
 * the elements that are literals. */
#define TAMARIND_MOST_TYPES 64
#define TAMARIND_MOST_FORMS 16
#define TAMARIND_MOST_ELEMENTS 8
#define TAMARIND_LEAST_LITERAL 65536
#define TAMARIND_GREATEST_LITERAL 131071

/* Limits of a tree: its nodes, its nesting; the value of a name or string, and
 * of a number in hundredths. */
#define TAMARIND_MOST_NODES 2048
#define TAMARIND_MOST_NESTING 64
#define TAMARIND_GREATEST_NAME 65535
#define TAMARIND_GREATEST_NUMBER 4000000000u

/* Limits of a rule book: its rules; the parameters, parts and variables of a
 * rule; the pairs of a pattern or replacement; the applications of a group. */
#define TAMARIND_MOST_RULES 64
#define TAMARIND_MOST_PARAMETERS 4
#define TAMARIND_MOST_PARTS 8
#define TAMARIND_MOST_VARIABLES 16
#define TAMARIND_MOST_PAIRS 128
#define TAMARIND_MOST_APPLICATIONS 4

/* Limits of a run: calls open at one time, the main rule's included, and the
 * nodes that they hold. */
#define TAMARIND_MOST_NESTED_CALLS 32
#define TAMARIND_MOST_LIVE_NODES 6144

/* Refusals: nothing was run or converted. tamarind_meaning says what each stands
 * for. */
#define TAMARIND_REFUSAL_RESULT_TOO_SHORT 1
#define TAMARIND_REFUSAL_WORK_TOO_SHORT 2
#define TAMARIND_REFUSAL_BUDGET 3
#define TAMARIND_REFUSAL_GRAMMAR_TOO_LONG 4
#define TAMARIND_REFUSAL_RULES_TOO_LONG 5
#define TAMARIND_REFUSAL_GRAMMAR_END 10
#define TAMARIND_REFUSAL_GRAMMAR_WORD 11
#define TAMARIND_REFUSAL_NO_FINITE_TREE 12
#define TAMARIND_REFUSAL_RULES_END 20
#define TAMARIND_REFUSAL_RULES_WORD 21
#define TAMARIND_REFUSAL_RULES_REFERENCE 22
#define TAMARIND_REFUSAL_RULES_PAIR 23
#define TAMARIND_REFUSAL_RULES_LIMIT 24
#define TAMARIND_REFUSAL_SLIP_SIZE 30
#define TAMARIND_REFUSAL_SLIP_END 31
#define TAMARIND_REFUSAL_SLIP_WORD 32
#define TAMARIND_REFUSAL_SLIP_NESTING 33
#define TAMARIND_REFUSAL_SLIP_COUNT 34
#define TAMARIND_REFUSAL_TABLE_NAMES 60
#define TAMARIND_REFUSAL_TABLE_FIT 61

/* Stops: the run ended before it was done. */
#define TAMARIND_STOP_BUDGET_SPENT 40
#define TAMARIND_STOP_CALLS_TOO_DEEP 41
#define TAMARIND_STOP_TOO_MANY_NODES 42
#define TAMARIND_STOP_NESTS_TOO_DEEP 43
#define TAMARIND_STOP_TOO_MANY_LIVE_NODES 44
#define TAMARIND_STOP_OUT_OF_RANGE 45

/* What the number of an answer or an outcome stands for. */
static inline const char *tamarind_meaning(uint32_t number) {
    switch (number) {
    case 0: return "nothing is refused or stopped";
    case TAMARIND_REFUSAL_RESULT_TOO_SHORT: return "result under 6,144 words";
    case TAMARIND_REFUSAL_WORK_TOO_SHORT: return "work under 16,384 words";
    case TAMARIND_REFUSAL_BUDGET: return "budget 0 or over 1,000,000";
    case TAMARIND_REFUSAL_GRAMMAR_TOO_LONG: return "grammar over 4,096 words";
    case TAMARIND_REFUSAL_RULES_TOO_LONG: return "rule book over 16,384 words";
    case TAMARIND_REFUSAL_GRAMMAR_END: return "grammar ends early, or words left over";
    case TAMARIND_REFUSAL_GRAMMAR_WORD: return "count, map, class, type or element not allowed in the grammar";
    case TAMARIND_REFUSAL_NO_FINITE_TREE: return "a type of which no finite tree exists";
    case TAMARIND_REFUSAL_RULES_END: return "rule book ends early, or words left over";
    case TAMARIND_REFUSAL_RULES_WORD: return "count, map, reach or a type outside pairs not allowed in the rule book, or rule 0's bits";
    case TAMARIND_REFUSAL_RULES_REFERENCE: return "variable not there yet, rule or operation not there or not usable here or on its scope, or argument count";
    case TAMARIND_REFUSAL_RULES_PAIR: return "a pair, value, type or variable's type that cannot stand there, or pairs short or over";
    case TAMARIND_REFUSAL_RULES_LIMIT: return "17th variable of a rule, or a pattern or replacement nested over 64";
    case TAMARIND_REFUSAL_SLIP_SIZE: return "slip of no words, of a count that is no multiple of three, or over 6,144; at two words a node an odd count, or over 4,096";
    case TAMARIND_REFUSAL_SLIP_END: return "slip ends early, or words left over";
    case TAMARIND_REFUSAL_SLIP_WORD: return "type, form or value not allowed in the slip";
    case TAMARIND_REFUSAL_SLIP_NESTING: return "slip nested over 64";
    case TAMARIND_REFUSAL_SLIP_COUNT: return "a count in the slip is wrong";
    case TAMARIND_REFUSAL_TABLE_NAMES: return "the table is too short, too long or names something not in the new grammar";
    case TAMARIND_REFUSAL_TABLE_FIT: return "a mapped type differs in kind or class, a mapped element or form differs in its mapped types, or type 0 does not map to type 0";
    case TAMARIND_STOP_BUDGET_SPENT: return "an attempt is due and the budget is spent";
    case TAMARIND_STOP_CALLS_TOO_DEEP: return "a 33rd nested call, main being the first";
    case TAMARIND_STOP_TOO_MANY_NODES: return "a tree would pass 2,048 nodes";
    case TAMARIND_STOP_NESTS_TOO_DEEP: return "a finished tree's nesting would pass 64";
    case TAMARIND_STOP_TOO_MANY_LIVE_NODES: return "live nodes would pass 6,144";
    case TAMARIND_STOP_OUT_OF_RANGE: return "an operation's result under 0 or over 4,000,000,000, or divisor 0";
    default: return "no number of this edition";
    }
}

/* A single check's answer: the number of the refusal and the word at fault,
 * counted from 0 in what is refused; both 0 where nothing is refused. */
typedef struct {
    uint32_t number;
    size_t position;
} tamarind_answer;

/* Checks a grammar: refusals 4, 10, 11 and 12. */
tamarind_answer tamarind_check_grammar(const uint32_t *grammar, size_t grammar_len);

/* Checks a slip against a grammar: refusals 4, 10 to 12, then 30 to 34. The
 * grammar alone says where the tree ends; the counts are held to it last, so 34
 * is given only where 30 to 33 find nothing in the whole slip. */
tamarind_answer tamarind_check_slip(const uint32_t *grammar, size_t grammar_len,
                                    const uint32_t *slip, size_t slip_len);

/* Checks a rule book against a grammar: refusals 4, 5, 10 to 12, then 20 to 24. */
tamarind_answer tamarind_check_rules(const uint32_t *grammar, size_t grammar_len,
                                     const uint32_t *rules, size_t rules_len);

/* How a run ended. */
#define TAMARIND_DONE 0
#define TAMARIND_STOPPED 1
#define TAMARIND_REFUSED 2

/* The outcome of a run. */
typedef struct {
    uint32_t ending;       /* one of the three above */
    uint32_t number;       /* of the stop, 40 to 45, or of the refusal; 0 when done */
    size_t position;       /* of a refusal, otherwise 0 */
    uint32_t attempts;     /* attempts that were started; 0 when refused */
    uint32_t replacements; /* that the first call put in place; 0 when refused */
    size_t filled;         /* words of the result that are a slip; 0 when refused */
} tamarind_outcome;

/* Checks everything (refusals 1 to 5, 10 to 12, 20 to 24, 30 to 34) and rewrites
 * the slip's tree by the rule book with at most `budget` attempts.
 *
 * Both memories may hold any words. Done or stopped, the first `filled` words of
 * the result are a slip again, three words a node and every count right; its
 * other words are unchanged, and all words of `work` are 0.
 *
 * A refused run has changed no word of either memory. What is posted is the slip
 * itself, as it was given. The number and the position say what to mend: a
 * length or the budget of this call (1 to 5), the grammar (10 to 12), the rule
 * book (20 to 24) or the slip (30 to 34), and the word at fault in it. There is
 * nothing to reset: the next run may follow at once, over the same memories.
 *
 * A larger budget changes nothing that was finished. A run that was not stopped
 * by 40 has the same outcome and the same filled words under every larger budget
 * that is allowed, and so has a refusal, but for 3. A run that was stopped by 40
 * has made exactly `budget` attempts. */
tamarind_outcome tamarind_run(const uint32_t *grammar, size_t grammar_len,
                              const uint32_t *rules, size_t rules_len,
                              const uint32_t *slip, size_t slip_len,
                              uint32_t budget,
                              uint32_t *result, size_t result_len,
                              uint32_t *work, size_t work_len);

/* Where the words to post lie. */
#define TAMARIND_POST_SLIP 0
#define TAMARIND_POST_RESULT 1

/* The words to post: the first `words` words of the source. */
typedef struct {
    uint32_t source; /* one of the two above */
    size_t words;
} tamarind_posting;

/* The words to post after a run: the filled ones of the result if the run is
 * done and the result has so many, otherwise all words of the slip. */
tamarind_posting tamarind_words_to_post(uint32_t ending, size_t filled,
                                        size_t result_len, size_t slip_len);

/* The same as a pointer, with their number in `*words`: give it what the run
 * was given, before the next run over the same result. */
static inline const uint32_t *tamarind_output(const tamarind_outcome *outcome,
                                              const uint32_t *result, size_t result_len,
                                              const uint32_t *slip, size_t slip_len,
                                              size_t *words) {
    tamarind_posting posting =
        tamarind_words_to_post(outcome->ending, outcome->filled, result_len, slip_len);
    *words = posting.words;
    return posting.source == TAMARIND_POST_RESULT ? result : slip;
}

/* Which grammar of a conversion is at fault. */
#define TAMARIND_OLD_GRAMMAR 1
#define TAMARIND_NEW_GRAMMAR 2

/* What came of a conversion. */
typedef struct {
    uint32_t number;  /* of the refusal; 0 when converted */
    size_t position;  /* of a refusal, otherwise 0 */
    uint32_t grammar; /* one of the two above for refusals 4 and 10 to 12, otherwise 0 */
    size_t filled;    /* words of the result that are the new slip; 0 when refused */
} tamarind_conversion;

/* Converts a slip of the old grammar to a slip of the new one, for a bank that
 * renumbers its grammar. docs/convert.md has an example, word by word.
 *
 * The table has for each type of the old grammar, in order, its type in the new
 * one, and after it, if the type has forms, the number in the new grammar of
 * each form. Literals may differ, in place and count too. The table is checked
 * whole, so that nothing depends on which slip is converted.
 *
 * `counted` says how the slip is written: true, three words a node; false, two
 * words a node, type and value, at most 4,096 words. Either way the result has
 * three words a node.
 *
 * The first fault is told: 1, the result is under 6,144 words, whatever the slip
 * needs; 4 of the old grammar, 4 of the new one; 10 to 12 of the old one, 10 to
 * 12 of the new one; 60, then 61, of the table; 30 to 34 of the slip, against
 * the old grammar, with positions at the slip's own words a node. A slip of two
 * words a node has no counts, and so no 34.
 *
 * The result may hold any words, and is not the slip itself: no slip is
 * converted in its own place. Converted, its first `filled` words are a slip
 * of the new grammar, node for node that of the old: types and forms as the
 * table says, all other values kept, every count right. Its other words are
 * unchanged. A refused conversion has changed no word of it. */
tamarind_conversion tamarind_convert(const uint32_t *old_grammar, size_t old_grammar_len,
                                     const uint32_t *new_grammar, size_t new_grammar_len,
                                     const uint32_t *table, size_t table_len,
                                     const uint32_t *slip, size_t slip_len,
                                     bool counted,
                                     uint32_t *result, size_t result_len);

#ifdef __cplusplus
}
#endif

/* The archive is compiled for the layouts below. A compiler that lays the
 * structs out otherwise stops here, in every C from C99 on and in C++. */
#if defined(__cplusplus) && __cplusplus >= 201103L
#define TAMARIND_LAYOUT(name, holds) static_assert(holds, #name)
#elif !defined(__cplusplus) && __STDC_VERSION__ >= 201112L
#define TAMARIND_LAYOUT(name, holds) _Static_assert(holds, #name)
#else
#define TAMARIND_LAYOUT(name, holds) typedef char tamarind_layout_##name[(holds) ? 1 : -1]
#endif

TAMARIND_LAYOUT(size_t_has_8_bytes, sizeof(size_t) == 8);
TAMARIND_LAYOUT(pointers_have_8_bytes, sizeof(void *) == 8);
TAMARIND_LAYOUT(answer_size, sizeof(tamarind_answer) == 16);
TAMARIND_LAYOUT(answer_number, offsetof(tamarind_answer, number) == 0);
TAMARIND_LAYOUT(answer_position, offsetof(tamarind_answer, position) == 8);
TAMARIND_LAYOUT(outcome_size, sizeof(tamarind_outcome) == 32);
TAMARIND_LAYOUT(outcome_ending, offsetof(tamarind_outcome, ending) == 0);
TAMARIND_LAYOUT(outcome_number, offsetof(tamarind_outcome, number) == 4);
TAMARIND_LAYOUT(outcome_position, offsetof(tamarind_outcome, position) == 8);
TAMARIND_LAYOUT(outcome_attempts, offsetof(tamarind_outcome, attempts) == 16);
TAMARIND_LAYOUT(outcome_replacements, offsetof(tamarind_outcome, replacements) == 20);
TAMARIND_LAYOUT(outcome_filled, offsetof(tamarind_outcome, filled) == 24);
TAMARIND_LAYOUT(posting_size, sizeof(tamarind_posting) == 16);
TAMARIND_LAYOUT(posting_source, offsetof(tamarind_posting, source) == 0);
TAMARIND_LAYOUT(posting_words, offsetof(tamarind_posting, words) == 8);
TAMARIND_LAYOUT(bool_has_1_byte, sizeof(bool) == 1);
TAMARIND_LAYOUT(conversion_size, sizeof(tamarind_conversion) == 32);
TAMARIND_LAYOUT(conversion_number, offsetof(tamarind_conversion, number) == 0);
TAMARIND_LAYOUT(conversion_position, offsetof(tamarind_conversion, position) == 8);
TAMARIND_LAYOUT(conversion_grammar, offsetof(tamarind_conversion, grammar) == 16);
TAMARIND_LAYOUT(conversion_filled, offsetof(tamarind_conversion, filled) == 24);

#undef TAMARIND_LAYOUT

#endif

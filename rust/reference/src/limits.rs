//! The limits that document 01 sets, one name each. T-02 of document 02 moves
//! that of a number, T-07 those of the words of a slip and of a result.

/// Most words of a grammar (refusal 4).
pub const GRAMMAR_WORDS: usize = 4_096;
/// Most words of the rules, the paper's "rule book" (refusal 5).
pub const RULES_WORDS: usize = 16_384;
/// Most words of a slip (refusal 30). T-07: "The slip may have 6,144 words and
/// a multiple of three", which are `NODES` nodes.
pub const SLIP_WORDS: usize = 6_144;
/// Most words of a slip in the edition of document 01, two words a node, which
/// T-08 still takes "with 30 as in document 01".
pub const TWO_WORD_SLIP_WORDS: usize = 4_096;
/// Fewest words of result memory (refusal 1). T-07: "the result needs 6,144".
pub const RESULT_WORDS: usize = 6_144;
/// Fewest words of work memory (refusal 2), with T-07 too: "Patterns,
/// replacements and work memory stay at two words and at their length."
pub const WORK_WORDS: usize = 16_384;
/// Greatest budget (refusal 3).
pub const BUDGET: u32 = 1_000_000;

/// Most types of a grammar.
pub const TYPES: u32 = 64;
/// Most forms of one type.
pub const FORMS: u32 = 16;
/// Most elements of one form.
pub const ELEMENTS: u32 = 8;
/// Greatest value of a name or string token.
pub const TEXT_VALUE: u32 = 65_535;
/// Greatest value of a number token (refusals 23 and 32, stop 45). T-02: "A
/// number's value now runs to 4,000,000,000 hundredths, in slips, patterns,
/// replacements and results." It is a whole number, so round cannot pass it.
pub const NUMBER_VALUE: u32 = 4_000_000_000;

/// Most rules.
pub const RULES: u32 = 64;
/// Most parameters of a rule.
pub const PARAMETERS: u32 = 4;
/// Most parts of a rule.
pub const PARTS: u32 = 8;
/// Most pairs of one pattern or replacement.
pub const PAIRS: u32 = 128;
/// Most variables of a rule (refusal 24).
pub const VARIABLES: usize = 16;
/// Most applications of one application chain, the paper's K.
pub const APPLICATIONS: u32 = 4;

/// Most nodes of one tree (stop 42).
pub const NODES: usize = 2_048;
/// Greatest nesting of a node (refusals 24 and 33, stop 43).
pub const NESTING: usize = 64;
/// Most live nodes, the paper's "held nodes" (stop 44).
pub const LIVE_NODES: usize = 6_144;
/// Most calls open at one time, the main rule's included (stop 41).
pub const CALLS: usize = 32;

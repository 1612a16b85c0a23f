//! The limits of the core, with the values of `include/tamarind.h`.
//!
//! What passes one is refused or stopped by the number that is named.

/// The fewest words of result memory that a run or a conversion accepts (refusal
/// 1).
pub const RESULT_WORDS: usize = 6_144;
/// The fewest words of work memory that a run accepts (refusal 2).
pub const WORK_WORDS: usize = 16_384;
/// The least budget that a run accepts (refusal 3).
pub const LEAST_BUDGET: u32 = 1;
/// The greatest budget that a run accepts (refusal 3).
pub const GREATEST_BUDGET: u32 = 1_000_000;
/// Most words of a grammar (refusal 4).
pub const MOST_GRAMMAR_WORDS: usize = 4_096;
/// Most words of a rule book (refusal 5).
pub const MOST_RULES_WORDS: usize = 16_384;
/// Most words of a slip, three for each node (refusal 30).
pub const MOST_SLIP_WORDS: usize = 6_144;

/// Most types of a grammar (refusal 11).
pub const MOST_TYPES: u32 = 64;
/// Most forms of a type (refusal 11).
pub const MOST_FORMS: u32 = 16;
/// Most elements of a form (refusal 11).
pub const MOST_ELEMENTS: u32 = 8;
/// The least element of a form that is a literal (refusal 11).
pub const LEAST_LITERAL: u32 = 65_536;
/// The greatest element of a form that is a literal (refusal 11).
pub const GREATEST_LITERAL: u32 = 131_071;

/// Most nodes of a tree (refusal 30, stop 42).
pub const MOST_NODES: usize = 2_048;
/// The greatest nesting of a node (refusals 24 and 33, stop 43).
pub const MOST_NESTING: usize = 64;
/// The greatest value of a name or string (refusals 23 and 32).
pub const GREATEST_NAME: u32 = 65_535;
/// The greatest value of a number, in hundredths (refusals 23 and 32, stop 45).
pub const GREATEST_NUMBER: u32 = 4_000_000_000;

/// Most rules of a rule book (refusal 21).
pub const MOST_RULES: u32 = 64;
/// Most parameters of a rule (refusal 21).
pub const MOST_PARAMETERS: u32 = 4;
/// Most parts of a rule (refusal 21).
pub const MOST_PARTS: u32 = 8;
/// Most variables of a rule: parameters, pattern and parts together (refusal
/// 24).
pub const MOST_VARIABLES: usize = 16;
/// Most pairs of a pattern or replacement (refusal 21).
pub const MOST_PAIRS: u32 = 128;
/// Most applications of a group (refusal 23).
pub const MOST_APPLICATIONS: u32 = 4;

/// Most calls that are open at one time, the main rule's included (stop 41).
pub const MOST_NESTED_CALLS: usize = 32;
/// Most nodes that all open calls hold together, the paper's "held nodes" (stop
/// 44).
pub const MOST_LIVE_NODES: usize = 6_144;

//! The texts of the numbers, those of `tamarind_meaning` in
//! `include/tamarind.h`.

/// What the number of a refusal or a stop stands for.
///
/// ```
/// assert_eq!(tamarind::meaning(34), "a count in the slip is wrong");
/// assert_eq!(tamarind::meaning(44), "live nodes would pass 6,144");
/// ```
pub const fn meaning(number: u32) -> &'static str {
    match number {
        0 => "nothing is refused or stopped",
        1 => "result under 6,144 words",
        2 => "work under 16,384 words",
        3 => "budget 0 or over 1,000,000",
        4 => "grammar over 4,096 words",
        5 => "rule book over 16,384 words",
        10 => "grammar ends early, or words left over",
        11 => "count, map, class, type or element not allowed in the grammar",
        12 => "a type of which no finite tree exists",
        20 => "rule book ends early, or words left over",
        21 => "count, map, reach or a type outside pairs not allowed in the rule book, or rule 0's bits",
        22 => "variable not there yet, rule or operation not there or not usable here or on its scope, or argument count",
        23 => "a pair, value, type or variable's type that cannot stand there, or pairs short or over",
        24 => "17th variable of a rule, or a pattern or replacement nested over 64",
        30 => "slip of no words, of a count that is no multiple of three, or over 6,144; at two words a node an odd count, or over 4,096",
        31 => "slip ends early, or words left over",
        32 => "type, form or value not allowed in the slip",
        33 => "slip nested over 64",
        34 => "a count in the slip is wrong",
        40 => "an attempt is due and the budget is spent",
        41 => "a 33rd nested call, main being the first",
        42 => "a tree would pass 2,048 nodes",
        43 => "a finished tree's nesting would pass 64",
        44 => "live nodes would pass 6,144",
        45 => "an operation's result under 0 or over 4,000,000,000, or divisor 0",
        60 => "the table is too short, too long or names something not in the new grammar",
        61 => "a mapped type differs in kind or class, a mapped element or form differs in its mapped types, or type 0 does not map to type 0",
        _ => "no number of this edition",
    }
}

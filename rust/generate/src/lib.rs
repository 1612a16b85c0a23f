//! Seeded generators of inputs for comparing two implementations of the
//! rewriting core. Each is a function of a seed: the same seed gives the same
//! input.

mod blanks;
mod budgets;
mod conversion_slips;
mod conversions;
mod counts;
mod damage;
mod families;
mod grammars;
mod inputs;
mod labeled;
mod lists;
mod misfits;
mod one_pass;
mod random;
mod renumbering;
mod rulebooks;
mod sequences;
mod shrink;
mod slips;
mod table_faults;
mod trees;

pub use blanks::blank_fields;
pub use budgets::rising_budgets;
pub use conversions::conversion;
pub use counts::{with_wrong_count, WrongCount};
pub use damage::{ConversionInput, Damage, Due, LabeledConversion};
pub use families::{
    calls_near_limit, conditions, counting_down, live_nodes_at_limit, live_nodes_near_limit,
    nesting_near_limit, nodes_near_limit, numbers_at_limit, operations_near_limit, rounding,
    searches,
};
pub use grammars::{any_grammar, damaged_grammar, grammar, long_grammar};
pub use inputs::{
    any_run_input, check_input, reference_outcome, refused_input, run_input, typed_input,
    with_budget_near_need, with_large_budget,
};
pub use lists::{run_list, RunList};
pub use misfits::Misfit;
pub use one_pass::one_pass;
pub use random::Random;
pub use reference::bench::Input;
pub use rulebooks::{damaged_rules, rules};
pub use sequences::{sequence_operations, sequences_near_limit};
pub use shrink::shrink;
pub use slips::{damaged_slip, slip, slip_at_limits, slip_of, without_counts};
pub use table_faults::TableFault;
pub use trees::tree;

/// An input in the bench format, on one line.
pub fn to_bench(input: &Input) -> String {
    reference::bench::write(input)
}

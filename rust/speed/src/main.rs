//! Times the proved functions and the reference on the same inputs in one run
//! and prints its tables: of the checks, of the runs, of how the cost of a run
//! grows, of the conversions and of how their cost grows. A time is the median of
//! many calls.

mod checks;
mod conversions;
mod growth;
mod inputs;
mod runs;
mod timing;

fn main() {
    checks::print_table();
    println!();
    runs::print_table();
    println!();
    growth::print_table();
    println!();
    conversions::print_tables();
}

//! `compare --seed S --count N`: compares the checks of N inputs from seed S
//! on; with `--runs`, N lists of runs; with `--budgets`, N inputs, each run under
//! rising budgets; with `--conversions`, N conversions.

use std::process::ExitCode;

use compare::{
    compare_budgets, compare_checks, compare_conversion, compare_list, ConversionCounts, Counts,
    RaisedCounts,
};
use generate::{any_run_input, check_input, conversion, rising_budgets, run_list};

fn main() -> ExitCode {
    let Some(arguments) = arguments() else {
        eprintln!("usage: compare [--runs | --budgets | --conversions] [--seed S] [--count N]");
        return ExitCode::from(2);
    };
    match arguments.compare() {
        Ok(agreement) => {
            println!("{agreement}");
            ExitCode::SUCCESS
        }
        Err(disagreement) => {
            println!("{disagreement}");
            ExitCode::FAILURE
        }
    }
}

/// What of the two cores is compared.
enum What {
    Checks,
    Runs,
    Budgets,
    Conversions,
}

/// What is to be compared.
struct Arguments {
    what: What,
    seed: u64,
    count: u64,
}

impl Arguments {
    /// Compares, and tells that the cores agree or where they do not.
    fn compare(&self) -> Result<String, String> {
        let (seed, count) = (self.seed, self.count);
        let mut counts = Counts::new();
        match self.what {
            What::Checks => {
                self.each(|seed| compare_checks(&check_input(seed), &mut counts))?;
                Ok(format!(
                    "{count} inputs from seed {seed} on agree; answers by number: {counts:?}"
                ))
            }
            What::Runs => {
                self.each(|seed| compare_list(&run_list(seed), &mut counts))?;
                let total: u64 = counts.values().sum();
                Ok(format!(
                    "{total} runs in {count} lists from seed {seed} on agree; endings by number: {counts:?}"
                ))
            }
            What::Budgets => {
                let mut counts = RaisedCounts::new();
                self.each(|seed| {
                    let input = any_run_input(seed);
                    compare_budgets(&input, &rising_budgets(seed, &input), &mut counts)
                })?;
                Ok(format!(
                    "{count} inputs from seed {seed} on agree under rising budgets; numbers under a budget and under the next: {counts:?}"
                ))
            }
            What::Conversions => {
                let mut counts = ConversionCounts::new();
                self.each(|seed| compare_conversion(&conversion(seed).input, &mut counts))?;
                Ok(format!(
                    "{count} conversions from seed {seed} on agree; answers by number, grammar and words a node: {counts:?}"
                ))
            }
        }
    }

    /// Compares by each seed, up to the first disagreement.
    fn each(&self, mut compare: impl FnMut(u64) -> Result<(), String>) -> Result<(), String> {
        for seed in self.seed..self.seed + self.count {
            compare(seed).map_err(|disagreement| format!("seed {seed}: {disagreement}"))?;
        }
        Ok(())
    }
}

/// The arguments, or `None` if they cannot be read.
fn arguments() -> Option<Arguments> {
    let mut read = Arguments {
        what: What::Checks,
        seed: 0,
        count: 20_000,
    };
    let mut arguments = std::env::args().skip(1);
    while let Some(name) = arguments.next() {
        match name.as_str() {
            "--runs" => read.what = What::Runs,
            "--budgets" => read.what = What::Budgets,
            "--conversions" => read.what = What::Conversions,
            "--seed" => read.seed = arguments.next()?.parse().ok()?,
            "--count" => read.count = arguments.next()?.parse().ok()?,
            _ => return None,
        }
    }
    Some(read)
}

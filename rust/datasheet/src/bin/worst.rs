//! `worst`: times the inputs that are as slow as their attempts allow, and
//! prints what the formula of docs/DATASHEET.md makes of them; `worst --write`
//! puts the tables into the sheet.

use std::collections::BTreeMap;
use std::hint::black_box;
use std::path::PathBuf;
use std::process::ExitCode;

use datasheet::abi;
use datasheet::formula::formula;
use datasheet::nesting::table_to_itself;
use datasheet::sheet::{most_table, terms_table, top, write, written};
use datasheet::slow::slow_checks;
use datasheet::timing::{least, run_timed, times_of_rounds, usual_clock, Timed};
use datasheet::worst::all;
use generate::Input;

fn main() -> ExitCode {
    let arguments: Vec<String> = std::env::args().skip(1).collect();
    let arguments: Vec<&str> = arguments.iter().map(String::as_str).collect();
    match arguments[..] {
        [] => print_tables(),
        ["--write"] => write(&tables()),
        _ => {
            eprintln!("usage: worst [--write]");
            return ExitCode::from(2);
        }
    }
    ExitCode::SUCCESS
}

fn tables() -> [(&'static str, Vec<String>); 6] {
    [
        ("usual runs", usual_table()),
        ("terms", terms_table()),
        ("most", most_table()),
        ("slow runs", rounds_table()),
        ("slow checks", checks_table()),
        ("machine", machine_table()),
    ]
}

fn print_tables() {
    for (name, rows) in tables() {
        println!("{name}:\n\n{}\n", rows.join("\n"));
    }
}

/// The processor, as the system names it, and its clock.
fn machine_table() -> Vec<String> {
    let text = std::fs::read_to_string("/proc/cpuinfo").expect("the system's page");
    let named = |key: &str| {
        let lines = text.lines().filter_map(|line| line.split_once(':'));
        let mut named = lines.filter(|(name, _)| name.trim() == key);
        named.next().map_or("?", |(_, value)| value.trim())
    };
    let (family, model) = (named("cpu family"), named("model"));
    let name = named("model name");
    vec![
        "| processor | family | model | clock, GHz |".to_string(),
        "|---|---|---|---|".to_string(),
        format!("| {name} | {family} | {model} | {:.1} |", usual_clock()),
    ]
}

/// The workloads of docs/SPEED.md that are not refused.
fn usual_table() -> Vec<String> {
    let mut rows = vec![
        "| run | attempts | ns an attempt |".to_string(),
        "|---|---|---|".to_string(),
    ];
    let workloads = workloads();
    let times = least(workloads.values().cloned().map(run_timed).collect());
    for ((name, input), time) in workloads.iter().zip(times) {
        let attempts = attempts_of(input);
        if attempts > 0 {
            let each = short(time / attempts as f64);
            rows.push(format!("| {name} | {} | {each} |", written(attempts)));
        }
    }
    rows
}

/// The attempts of a run.
fn attempts_of(input: &Input) -> usize {
    let mut result = vec![0; abi::RESULT_WORDS];
    let mut work = vec![0; abi::WORK_WORDS];
    abi::run(input, &mut result, &mut work).attempts as usize
}

/// A number with one place behind the point, if it is under 100.
fn short(number: f64) -> String {
    match number {
        0.0..100.0 => format!("{number:.1}"),
        _ => written(number.round() as usize),
    }
}

/// The workloads by name.
fn workloads() -> BTreeMap<String, Input> {
    let folder = top().join("rust/speed/workloads");
    let files = std::fs::read_dir(folder).expect("the workloads are there");
    let read = |path: PathBuf| {
        let name = path
            .file_stem()
            .expect("a file")
            .to_string_lossy()
            .to_string();
        let text = std::fs::read(&path).expect("a workload can be read");
        let input = reference::bench::parse(&text).expect("a bench input");
        (name, input)
    };
    files
        .map(|file| read(file.expect("a file").path()))
        .collect()
}

/// The inputs whose rounds are timed.
fn rounds_table() -> Vec<String> {
    let mut rows = vec![
        "| run | attempts | ns an attempt | formula | formula / measured |".to_string(),
        "|---|---|---|---|---|".to_string(),
    ];
    let all = all();
    let times = times_of_rounds(&all);
    rows.extend(all.iter().zip(times).map(|(worst, measured)| {
        let attempts = worst.round.attempts;
        let each = |ns: f64| written((ns / attempts as f64).round() as usize);
        let formula = formula(&worst.round);
        let (name, ratio) = (&worst.name, formula / measured);
        let (measured, formula) = (each(measured), each(formula));
        let attempts = written(attempts);
        format!("| {name} | {attempts} | {measured} | {formula} | {ratio:.2} |")
    }));
    rows
}

/// The inputs of which a check takes long.
fn checks_table() -> Vec<String> {
    let mut rows = vec![
        "| check | words | microseconds |".to_string(),
        "|---|---|---|".to_string(),
    ];
    let checks = slow_checks();
    let calls = checks
        .iter()
        .map(|(check, input)| check_timed(check, input));
    let times = least(calls.collect());
    rows.extend(checks.iter().zip(times).map(|((check, input), time)| {
        let words = written(words_of(check, input));
        format!("| {check} | {words} | {:.1} |", time / 1e3)
    }));
    rows
}

/// How many words a check is about; a conversion reads its grammar twice.
fn words_of(check: &str, input: &Input) -> usize {
    let (grammar, slip) = (input.grammar.len(), input.slip.len());
    match check {
        "grammar" => grammar,
        "slip" => slip,
        "conversion" => 2 * grammar + table_to_itself(&input.grammar).len() + slip,
        _ => input.rules.len(),
    }
}

/// A check, or a conversion.
fn check_timed<'a>(check: &str, input: &'a Input) -> Timed<'a> {
    let call = match check {
        "grammar" => abi::check_grammar,
        "slip" => abi::check_slip,
        "conversion" => return conversion_timed(input),
        _ => abi::check_rules,
    };
    Box::new(move || _ = black_box(call(black_box(input))))
}

fn conversion_timed(input: &Input) -> Timed<'_> {
    let table = table_to_itself(&input.grammar);
    let mut result = vec![u32::MAX; abi::RESULT_WORDS];
    Box::new(move || _ = black_box(abi::convert(black_box(input), &table, &mut result)))
}

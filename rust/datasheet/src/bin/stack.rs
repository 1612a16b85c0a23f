//! `stack`: measures the stack of the proved core and prints the tables of
//! docs/DATASHEET.md; `stack --write` puts them into the sheet. `stack --deepest`
//! prints the deepest run that is known as a bench input, `stack --search N`
//! measures N generated inputs.

use std::process::ExitCode;

use datasheet::bench;
use datasheet::exports::{needed, EXPORTS};
use datasheet::figures::{by_length, deepest_run, figures, growth, nested};
use datasheet::frames::read_frames;
use datasheet::painted::Stack;
use datasheet::sheet;
use datasheet::source::read_calls;
use generate::{any_run_input, check_input, to_bench};

fn main() -> ExitCode {
    let arguments: Vec<String> = std::env::args().skip(1).collect();
    let arguments: Vec<&str> = arguments.iter().map(String::as_str).collect();
    match arguments[..] {
        [] => print_tables(),
        ["--write"] => sheet::write(&tables()),
        ["--deepest"] => println!("{}", to_bench(&deepest_run(&mut Stack::new()))),
        ["--search", count] => match count.parse() {
            Ok(count) => search(count),
            Err(_) => return ExitCode::from(2),
        },
        _ => {
            eprintln!("usage: stack [--write | --deepest | --search N]");
            return ExitCode::from(2);
        }
    }
    ExitCode::SUCCESS
}

/// The measured tables, by name; that of the bench only if it has been built.
fn tables() -> Vec<(&'static str, Vec<String>)> {
    let frames = read_frames(&sheet::archive());
    let mut stack = Stack::new();
    let figures = figures(&frames, &mut stack);
    let nested = nested(&mut stack);
    let mut tables = vec![
        ("stack", sheet::stack_table(&figures)),
        ("needed", sheet::needed_table(&needed(&mut stack))),
        ("chains", sheet::chains_table(&figures)),
        ("growth", sheet::growth_table(&growth(&frames))),
        ("nested calls", sheet::nested_table(&nested)),
        ("length", sheet::length_table(&by_length(&mut stack))),
        ("ends", sheet::ends_table(&read_calls())),
        ("frames", sheet::frames_table(&frames)),
        ("code", sheet::code_table(&frames)),
        ("memory", sheet::memory_table(&figures)),
    ];
    if let Some(program) = bench::program() {
        tables.push(("bench", sheet::bench_table(&bench::needs(&program))));
    }
    tables
}

fn print_tables() {
    for (name, rows) in tables() {
        println!("{name}:\n\n{}\n", rows.join("\n"));
    }
}

/// Prints the greatest stack of each function on generated inputs: half of them
/// made for the checks, half for runs.
fn search(count: u64) {
    let mut stack = Stack::new();
    let mut greatest = EXPORTS.map(|_| (0, 0));
    for seed in 0..count {
        let input = match seed % 2 {
            0 => check_input(seed),
            _ => any_run_input(seed),
        };
        for ((_, measure), most) in EXPORTS.iter().zip(&mut greatest) {
            let measured = measure(&mut stack, &input).stack;
            if measured > most.0 {
                *most = (measured, seed);
            }
        }
    }
    for ((name, _), (bytes, seed)) in EXPORTS.iter().zip(greatest) {
        println!("{name}: at most {bytes} bytes, first at seed {seed}");
    }
}

//! What a pad does with a slip, in Rust; post.c does the same in C.
//!
//!     cd rust && cargo run --release --offline -p tamarind --example post

use std::process::ExitCode;

use tamarind::Pad;

// A program is a sequence of numbers; replace every 2.00 by 42.00; the slip is
// 2.00, 5.00, each node its type, its value and the number of nodes in its tree.
// docs/bench.md takes these words apart.
const GRAMMAR: [u32; 9] = [3, 8, 1, 1, 1, 4, 2, 1, 2];
const RULES: [u32; 10] = [1, 9, 2, 2, 1, 2, 200, 1, 2, 4200];
const SLIP: [u32; 18] = [0, 0, 6, 1, 0, 5, 2, 200, 1, 1, 0, 3, 2, 500, 1, 1, 1, 1];

// The same rules with a fault: they put a sequence where a number must stand.
const FAULTY: [u32; 10] = [1, 9, 2, 2, 1, 2, 200, 1, 1, 1];

fn run_and_post(pad: &mut Pad, rules: &[u32], budget: u32) {
    let posting = pad.run(&GRAMMAR, rules, &SLIP, budget);
    println!("{}", posting.outcome);
    print!("post");
    for word in posting.words {
        print!(" {word}");
    }
    println!();
}

fn main() -> ExitCode {
    if let Err(wrong) = tamarind::check_edition() {
        eprintln!("{wrong}");
        return ExitCode::FAILURE;
    }
    println!("edition {}", tamarind::edition());
    let mut pad = Pad::new();
    run_and_post(&mut pad, &RULES, 3);
    run_and_post(&mut pad, &RULES, 2);
    run_and_post(&mut pad, &FAULTY, 3);
    ExitCode::SUCCESS
}

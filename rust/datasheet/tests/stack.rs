//! Holds the stack figures of docs/DATASHEET.md to what is measured.

use std::arch::global_asm;

use datasheet::archive::given;
use datasheet::bench;
use datasheet::exports::{check_slip, convert, needed, run, Export};
use datasheet::figures::{by_length, deep_chains, figures, growth, nested, stack_at};
use datasheet::figures::{Growth, MOST_READ, SLIPS};
use datasheet::frames::read_frames;
use datasheet::nesting::{long_slip, Nest, MOST_CALLS, MOST_NESTING};
use datasheet::painted::Stack;
use datasheet::sheet;

const DONE: u32 = 0;
const STOPPED: u32 = 1;
const REFUSED: u32 = 2;

/// A figure of the sheet is one that nothing passes, and no more than a tenth
/// above what was seen.
fn assert_holds(what: &str, figure: usize, measured: usize) {
    assert!(measured <= figure, "{what}: {measured} passes {figure}");
    let most = measured + measured / 10;
    assert!(figure <= most, "{what}: {figure} is far above {measured}");
}

/// The cells of a table's rows, without its head.
fn rows<'a>(text: &'a str, name: &str) -> Vec<Vec<&'a str>> {
    let rows = sheet::table(text, name);
    rows[2..].iter().map(|row| sheet::cells(row)).collect()
}

#[test]
fn no_function_takes_more_stack_than_the_sheet_says() {
    let text = sheet::read();
    let rows = rows(&text, "stack");
    let frames = read_frames(&sheet::archive());
    let figures = figures(&frames, &mut Stack::new());
    assert_eq!(rows.len(), figures.len());
    for (row, figure) in rows.iter().zip(&figures) {
        assert_eq!(row[0], format!("`{}`", figure.name));
        let stated = sheet::number(row[1]);
        assert_eq!(sheet::number(row[3]), figure.pushed, "{}", figure.name);
        assert_holds(figure.name, stated, figure.painted);
        assert_holds(figure.name, stated, figure.chain.bytes);
        assert!(figure.painted <= figure.chain.bytes, "{figure:?}");
    }
}

#[test]
fn memcpy_and_memset_of_this_system_fit_their_room() {
    let frames = read_frames(&sheet::archive());
    let mut stack = Stack::new();
    let rooms = figures(&frames, &mut stack);
    let least = rooms.iter().filter_map(|figure| figure.room).min();
    let least = least.expect("a function that calls them");
    for (name, bytes) in needed(&mut stack) {
        assert!(
            bytes >= 8 && bytes <= least,
            "{name} takes {bytes} of {least}"
        );
    }
}

#[test]
fn the_sheet_has_every_exported_function() {
    let given = given(&sheet::archive());
    let mut given: Vec<String> = given.iter().map(|name| format!("`{name}`")).collect();
    let text = sheet::read();
    let mut stated: Vec<&str> = rows(&text, "stack").iter().map(|row| row[0]).collect();
    given.sort();
    stated.sort();
    assert_eq!(given, stated);
}

#[test]
fn the_memory_in_all_and_the_chains_are_those_of_the_sheet() {
    let frames = read_frames(&sheet::archive());
    let figures = figures(&frames, &mut Stack::new());
    let text = sheet::read();
    assert_eq!(sheet::table(&text, "memory"), sheet::memory_table(&figures));
    assert_eq!(sheet::table(&text, "chains"), sheet::chains_table(&figures));
}

/// Where the system begins a stack is left to chance within 8 KiB, and what it
/// puts there before the program differs a little from one to the next.
const CHANCE: usize = 16;

#[test]
fn the_bench_needs_the_stack_that_the_sheet_says() {
    let program = bench::program().expect("crates/bench/out/bench is there: tools/build bench");
    let text = sheet::read();
    let rows = rows(&text, "bench");
    let needs = bench::needs(&program);
    assert_eq!(rows.len(), needs.len());
    for (row, (name, need)) in rows.iter().zip(needs) {
        assert_eq!(row[0], name);
        let stated = sheet::number(row[1]);
        assert!(
            stated.abs_diff(need) <= CHANCE,
            "{name}: {need}, stated {stated}"
        );
    }
}

#[test]
fn each_way_of_nesting_takes_what_the_sheet_says() {
    let text = sheet::read();
    let rows = rows(&text, "nested calls");
    let nested = nested(&mut Stack::new());
    assert_eq!(rows.len(), nested.len());
    for (row, nested) in rows.iter().zip(&nested) {
        assert_eq!(row[0], nested.way);
        for (cell, measured) in row[1..].iter().zip(nested.figures()) {
            assert_holds(&nested.way, sheet::number(cell), measured);
        }
    }
}

#[test]
fn the_frames_are_those_of_the_sheet() {
    let frames = read_frames(&sheet::archive());
    let text = sheet::read();
    assert_eq!(sheet::table(&text, "frames"), sheet::frames_table(&frames));
}

#[test]
fn each_chain_has_32_nested_calls_and_one_more_stops() {
    let mut stack = Stack::new();
    let longer = deep_chains(MOST_CALLS + 1);
    for (chain, longer) in deep_chains(MOST_CALLS).iter().zip(&longer) {
        let (outcome, _) = run(&mut stack, &chain.on_slip_of(SLIPS[0]));
        assert_eq!((outcome.ending, outcome.number), (DONE, 0), "{chain:?}");
        // An attempt at each of the two numbers, and one in each other call.
        assert_eq!(outcome.attempts as usize, MOST_CALLS + 1, "{chain:?}");
        let (outcome, _) = run(&mut stack, &longer.on_slip_of(SLIPS[0]));
        assert_eq!(
            (outcome.ending, outcome.number),
            (STOPPED, 41),
            "{longer:?}"
        );
    }
}

/// The growth of one function.
fn growth_of(name: &str) -> Growth {
    let all = growth(&read_frames(&sheet::archive()));
    let one = all.into_iter().find(|growth| growth.name == name);
    one.expect("an exported function")
}

#[test]
fn the_growth_is_that_of_the_sheet_and_of_the_frames() {
    let frames = read_frames(&sheet::archive());
    let growth = growth(&frames);
    let text = sheet::read();
    assert_eq!(sheet::table(&text, "growth"), sheet::growth_table(&growth));
    for growth in growth {
        for nesting in 1..=MOST_READ {
            for calls in 1..=MOST_CALLS {
                let stack = stack_at(&frames, growth.name, nesting, calls);
                let place = format!("{} at {nesting}, {calls}", growth.name);
                assert_eq!(growth.at(nesting, calls), stack, "{place}");
            }
        }
    }
}

#[test]
fn check_and_conversion_of_a_slip_take_what_the_growth_says_of_its_nesting() {
    let exports: [Export; 2] = [
        ("tamarind_check_slip", check_slip),
        ("tamarind_convert", convert),
    ];
    let mut stack = Stack::new();
    for (name, measure) in exports {
        let growth = growth_of(name);
        for nest in Nest::ALL {
            for nesting in 1..=MOST_READ {
                let taken = measure(&mut stack, &nest.input(nesting)).stack;
                let what = format!("{name}, {nest:?} at {nesting}");
                assert_holds(&what, growth.at(nesting, 1), taken);
            }
        }
    }
}

#[test]
fn a_run_takes_no_more_than_the_growth_says_of_its_calls() {
    let growth = growth_of("tamarind_run");
    let mut stack = Stack::new();
    for calls in 1..=MOST_CALLS {
        let stacks = deep_chains(calls)
            .iter()
            .map(|chain| run(&mut stack, &chain.on_slip_of(SLIPS[0])).1.stack)
            .collect::<Vec<usize>>();
        let taken = stacks.into_iter().max().expect("chains");
        assert_holds(&format!("{calls} calls"), growth.at(3, calls), taken);
    }
}

#[test]
fn no_function_takes_another_stack_on_a_longer_slip() {
    let text = sheet::read();
    let by_length = by_length(&mut Stack::new());
    assert_eq!(
        sheet::table(&text, "length"),
        sheet::length_table(&by_length)
    );
    for (name, stacks) in by_length {
        assert_eq!(stacks, [stacks[0]; SLIPS.len()], "{name}");
    }
}

#[test]
fn at_the_deepest_nesting_no_function_follows_the_length() {
    let mut stack = Stack::new();
    let longest = (2_048 - (2 * MOST_NESTING - 3)) / 2;
    let taken = [1, 37, longest].map(|elements| {
        let input = long_slip(MOST_NESTING, elements);
        assert_eq!(input.slip.len(), 3 * (2 * MOST_NESTING - 3 + 2 * elements));
        let checked = check_slip(&mut stack, &input);
        let converted = convert(&mut stack, &input);
        let (outcome, run) = run(&mut stack, &input);
        let numbers = (checked.number, converted.number, outcome.ending);
        assert_eq!(numbers, (0, 0, DONE), "{elements}");
        (checked.stack, converted.stack, run.stack)
    });
    assert_eq!(taken, [taken[0]; 3]);
}

#[test]
fn the_stack_does_not_follow_the_length_of_the_slip() {
    let mut stack = Stack::new();
    for chain in deep_chains(MOST_CALLS).iter().step_by(5) {
        let runs = SLIPS.map(|nodes| {
            let (outcome, measured) = run(&mut stack, &chain.on_slip_of(nodes));
            assert_eq!((outcome.ending, outcome.filled), (DONE, 3 * nodes));
            // All numbers are tried: half of the nodes but the first and the last.
            let numbers = (nodes - 2) / 2;
            assert_eq!(outcome.attempts as usize, numbers + MOST_CALLS - 1);
            measured.stack
        });
        assert_eq!(runs, [runs[0]; 3], "{chain:?}");
    }
}

#[test]
fn trees_of_nesting_64_are_read_and_deeper_ones_refused() {
    let mut stack = Stack::new();
    for nest in Nest::ALL {
        let (deep, deeper) = (nest.input(MOST_NESTING), nest.input(MOST_NESTING + 1));
        assert_eq!(check_slip(&mut stack, &deep).number, 0, "{nest:?}");
        assert_eq!(check_slip(&mut stack, &deeper).number, 33, "{nest:?}");
        assert_eq!(convert(&mut stack, &deep).number, 0, "{nest:?}");
        assert_eq!(convert(&mut stack, &deeper).number, 33, "{nest:?}");
        let (outcome, _) = run(&mut stack, &deep);
        assert_eq!(
            (outcome.ending, outcome.replacements),
            (DONE, 1),
            "{nest:?}"
        );
        let (outcome, _) = run(&mut stack, &deeper);
        assert_eq!((outcome.ending, outcome.number), (REFUSED, 33), "{nest:?}");
    }
}

// Takes 8 bytes for its return address, 16 for two registers and 40 below them,
// of which it writes the lowest; its seventh argument and eighth are on the stack.
global_asm!(
    ".globl datasheet_takes_64",
    "datasheet_takes_64:",
    "mov rax, [rsp + 8]",
    "add rax, [rsp + 16]",
    "push rdi",
    "push rsi",
    "mov byte ptr [rsp - 40], 1",
    "pop rsi",
    "pop rdi",
    "ret",
);

extern "C" {
    fn datasheet_takes_64();
}

#[test]
fn a_stack_that_is_known_is_measured_to_the_byte() {
    let arguments = [1, 2, 3, 4, 5, 6, 700, 80];
    let target = datasheet_takes_64 as *const ();
    // SAFETY: it takes whole numbers and writes only below the stack pointer.
    let returned = unsafe { Stack::new().measure(target, &arguments) };
    assert_eq!((returned.stack, returned.registers[0]), (64, 780));
}

//! Where the end of a tree is found, no function reaches itself.

use std::collections::BTreeSet;

use datasheet::frames::read_frames;
use datasheet::sheet;
use datasheet::source::{cyclic, depth, end_finders, proved_as_cycles, read_calls, Calls, COUNTS};

/// Outside the engine: the readers of the tree's check, which nest as the tree
/// does, and the bench's printing of a number, digit by digit.
const NESTING: [&str; 4] = [
    "decimal::put_digits",
    "tree::children",
    "tree::node",
    "tree::sequence",
];

#[test]
fn where_the_end_of_a_tree_is_found_no_function_reaches_itself() {
    let calls = read_calls();
    let finders = end_finders(&calls);
    assert!(finders.iter().any(|name| *name == COUNTS));
    assert!(finders.iter().any(|name| *name == "marks::put_in_place"));
    for finder in finders {
        assert!(depth(&calls, finder).is_some(), "{finder}");
    }
}

#[test]
fn the_functions_that_reach_themselves_are_those_proved_as_cycles() {
    let cyclic = cyclic(&read_calls());
    assert!(cyclic.contains("tree::node") && cyclic.contains("calls::call"));
    assert_eq!(cyclic, proved_as_cycles());
}

#[test]
fn outside_the_engine_only_these_reach_themselves() {
    let mut others = cyclic(&read_calls());
    others.retain(|name| !name.starts_with("calls::"));
    assert_eq!(others, NESTING.map(str::to_string).into());
}

#[test]
fn what_reaches_itself_in_the_archive_was_proved_as_a_cycle() {
    let frames = read_frames(&sheet::archive());
    let called = |calls: &[(String, usize)]| calls.iter().map(|(name, _)| name.clone()).collect();
    let mut calls: Calls = frames
        .iter()
        .map(|(name, frame)| (name.clone(), called(&frame.calls)))
        .collect();
    for needed in ["memcpy", "memset"] {
        calls.insert(needed.to_string(), BTreeSet::new());
    }
    let cyclic = cyclic(&calls);
    assert!(cyclic.contains("tree::node") && cyclic.contains("calls::call"));
    let proved = proved_as_cycles();
    assert!(cyclic.is_subset(&proved), "{cyclic:?}");
}

#[test]
fn the_sheet_says_where_the_end_of_a_tree_is_found() {
    let text = sheet::read();
    assert_eq!(
        sheet::table(&text, "ends"),
        sheet::ends_table(&read_calls())
    );
}

//! The frames of the archive's functions, from its disassembly, and the deepest
//! chain of calls from each exported one.

use std::collections::BTreeMap;

use crate::archive::printed;
use crate::nesting::{MOST_CALLS, MOST_NESTING};

/// What is pushed by a call instruction.
const RETURN_ADDRESS: usize = 8;
/// What the archive needs from the caller's program.
const NEEDED: [&str; 2] = ["memcpy", "memset"];

/// A function's use of the stack. Depths are bytes below the stack pointer just
/// before the function is called, the return address among them.
#[derive(Clone, Debug, Default)]
pub struct Frame {
    /// Return address, saved registers and locals.
    pub bytes: usize,
    /// What it writes below its stack pointer.
    pub red_zone: usize,
    /// What it calls, and the depth just before the call.
    pub calls: Vec<(String, usize)>,
}

/// All functions by name.
pub type Frames = BTreeMap<String, Frame>;

/// One instruction: its mnemonic and operands, and the function that its
/// relocation names.
#[derive(Clone, Debug)]
struct Instruction {
    mnemonic: String,
    operands: String,
    relocated: Option<String>,
}

/// The instructions of a function by address.
type Body = BTreeMap<usize, Instruction>;

/// The frames of an archive.
pub fn read_frames(archive: &str) -> Frames {
    let text = printed("objdump", &["-dr", "--no-show-raw-insn", archive]);
    follow(&read_bodies(&text))
}

/// The frames of these functions.
fn follow(bodies: &BTreeMap<String, Body>) -> Frames {
    let frames = bodies.iter();
    frames
        .map(|(name, body)| (name.clone(), frame_of(name, body)))
        .collect()
}

/// The functions of a listing.
fn read_bodies(text: &str) -> BTreeMap<String, Body> {
    let mut bodies: BTreeMap<String, Body> = BTreeMap::new();
    let mut name = String::new();
    for line in text.lines() {
        if let Some((_, label)) = line.split_once(" <").filter(|_| line.ends_with(">:")) {
            name = label.trim_end_matches(">:").to_string();
        } else if let Some((_, named)) = line.split_once("R_X86_64_PLT32") {
            let body = bodies.get_mut(&name).expect("a relocation in a function");
            let last = body.values_mut().last().expect("of an instruction");
            last.relocated = Some(relocated(named));
        } else if let Some((address, instruction)) = read_instruction(line) {
            let body = bodies.entry(name.clone()).or_default();
            body.insert(address, instruction);
        }
    }
    bodies.values_mut().for_each(enter_frames_at_once);
    bodies
}

/// Takes each loop that enters a frame for one instruction that moves the stack
/// pointer all the way: each turn moves it by a page, up to where a register says.
fn enter_frames_at_once(body: &mut Body) {
    let addresses: Vec<usize> = body.keys().copied().collect();
    for window in addresses.windows(6) {
        let listed: Vec<&Instruction> = window.iter().map(|address| &body[address]).collect();
        let Some(bytes) = entered_by_loop(&listed, window[2]) else {
            continue;
        };
        let change = |address: usize, mnemonic: &str, operands: String| {
            let relocated = None;
            let mnemonic = mnemonic.to_string();
            (
                address,
                Instruction {
                    mnemonic,
                    operands,
                    relocated,
                },
            )
        };
        body.extend([
            change(window[2], "sub", format!("${bytes:#x},%rsp")),
            change(window[5], "nop", String::new()),
        ]);
    }
}

/// The bytes of a frame, if these instructions are the loop that enters it: a
/// register is set, the pointer is moved from `start` on, the page is touched, the
/// two are compared, and a jump leads back.
fn entered_by_loop(listed: &[&Instruction], start: usize) -> Option<usize> {
    let [copy, less, page, _, compare, back] = listed else {
        return None;
    };
    let text = |instruction: &Instruction| {
        let Instruction {
            mnemonic, operands, ..
        } = instruction;
        format!("{mnemonic} {operands}")
    };
    let register = copy.operands.strip_prefix("%rsp,")?;
    let (bytes, lowered) = less.operands.split_once(',')?;
    let bytes = number_of(bytes)?;
    let is_loop = text(copy) == format!("mov %rsp,{register}")
        && (less.mnemonic == "sub" && lowered == register)
        && text(page) == "sub $0x1000,%rsp"
        && text(compare) == format!("cmp {register},%rsp")
        && (back.mnemonic == "jne" && jump_target(back) == Some(start));
    (is_loop && bytes % 0x1000 == 0).then_some(bytes)
}

/// The function that a relocation's text names: `.text.name-0x4` or `name-0x4`.
fn relocated(named: &str) -> String {
    let named = named.trim().trim_end_matches("-0x4");
    named.trim_start_matches(".text.").to_string()
}

/// A line `address:<tab>mnemonic operands`.
fn read_instruction(line: &str) -> Option<(usize, Instruction)> {
    let (address, text) = line.split_once(":\t")?;
    let address = usize::from_str_radix(address.trim(), 16).ok()?;
    let (mnemonic, operands) = text.split_once(' ').unwrap_or((text, ""));
    let instruction = Instruction {
        mnemonic: mnemonic.to_string(),
        operands: operands.trim().to_string(),
        relocated: None,
    };
    Some((address, instruction))
}

/// Follows a function's instructions with the depth before each.
fn frame_of(name: &str, body: &Body) -> Frame {
    let mut depths: BTreeMap<usize, usize> = BTreeMap::new();
    let mut todo = vec![(0, RETURN_ADDRESS)];
    // Where a table of jumps may lead, the depth is that of its jump.
    let mut at_table = None;
    loop {
        let next = todo.pop().or_else(|| {
            let unseen = body.keys().find(|address| !depths.contains_key(address));
            Some((*unseen?, at_table?))
        });
        let Some((address, depth)) = next else { break };
        if let Some(known) = depths.insert(address, depth) {
            assert_eq!(known, depth, "{name} at {address:x}: two depths");
            continue;
        }
        let instruction = &body[&address];
        let after = depth_after(name, instruction, depth);
        if is_table_jump(instruction) {
            at_table = Some(depth);
        }
        let target = jump_target(instruction);
        todo.extend(target.map(|target| (target, after)));
        if !leaves(&instruction.mnemonic) {
            let following = body.range(address + 1..).next();
            todo.extend(following.map(|(next, _)| (*next, after)));
        }
    }
    summed(name, body, &depths)
}

/// The depth after an instruction. Only these change the stack pointer.
fn depth_after(name: &str, instruction: &Instruction, depth: usize) -> usize {
    let operands = instruction.operands.as_str();
    let constant = operands.strip_suffix(",%rsp").map(number_of);
    match (instruction.mnemonic.as_str(), constant) {
        ("push", _) => depth + 8,
        ("pop", _) => depth - 8,
        ("sub", Some(Some(bytes))) => depth + bytes,
        ("add", Some(Some(bytes))) => depth - bytes,
        ("cmp" | "test", _) | (_, None) => depth,
        _ => panic!("{name}: what does {instruction:?} do to the stack pointer?"),
    }
}

/// The number `$0x..`.
fn number_of(operand: &str) -> Option<usize> {
    usize::from_str_radix(operand.strip_prefix("$0x")?, 16).ok()
}

fn is_table_jump(instruction: &Instruction) -> bool {
    instruction.mnemonic == "jmp" && instruction.operands.starts_with('*')
}

/// Does nothing follow it?
fn leaves(mnemonic: &str) -> bool {
    ["jmp", "ret", "ud2"].contains(&mnemonic)
}

/// Where a jump inside the function leads.
fn jump_target(instruction: &Instruction) -> Option<usize> {
    let outside = instruction.relocated.is_some() || is_table_jump(instruction);
    if !instruction.mnemonic.starts_with('j') || outside {
        return None;
    }
    let (address, _) = instruction.operands.split_once(' ')?;
    usize::from_str_radix(address, 16).ok()
}

/// What a function's instructions come to, at these depths.
fn summed(name: &str, body: &Body, depths: &BTreeMap<usize, usize>) -> Frame {
    let mut frame = Frame::default();
    let mut lowest = 0;
    for (address, depth) in depths {
        let instruction = &body[address];
        if instruction.mnemonic == "call" {
            frame.calls.push((callee(name, instruction), *depth));
        } else if let Some(next) = &instruction.relocated {
            // A jump to another function, which returns in this one's stead.
            frame.calls.push((next.clone(), depth - RETURN_ADDRESS));
        }
        match below_pointer(&instruction.operands) {
            0 => {}
            below => lowest = lowest.max(depth + below),
        }
    }
    frame.bytes = body_depth(body, depths);
    frame.red_zone = lowest.saturating_sub(frame.bytes);
    frame.calls.sort();
    frame.calls.dedup();
    frame
}

/// The function that a call instruction calls: the one its relocation names, or
/// its own.
fn callee(name: &str, call: &Instruction) -> String {
    if let Some(relocated) = &call.relocated {
        return relocated.clone();
    }
    let own = format!("<{name}>");
    assert!(call.operands.ends_with(&own), "{name}: calls {call:?}");
    name.to_string()
}

/// How far below the stack pointer an operand `-0x..(%rsp..)` lies.
fn below_pointer(operands: &str) -> usize {
    let Some((before, _)) = operands.split_once("(%rsp") else {
        return 0;
    };
    let Some((_, below)) = before.rsplit_once("-0x") else {
        return 0;
    };
    usize::from_str_radix(below, 16).unwrap_or(0)
}

/// The frame without arguments that are pushed for a call: of a function that
/// calls none the greatest depth, of another the depth of most instructions, since
/// the pointer is there again after each call.
fn body_depth(body: &Body, depths: &BTreeMap<usize, usize>) -> usize {
    let calls = |address: &usize| body[address].mnemonic == "call";
    if !depths.keys().any(calls) {
        return depths.values().copied().max().unwrap_or(RETURN_ADDRESS);
    }
    let mut counts: BTreeMap<usize, usize> = BTreeMap::new();
    for depth in depths.values() {
        *counts.entry(*depth).or_default() += 1;
    }
    let most = counts.into_iter().max_by_key(|(_, count)| *count);
    most.map_or(RETURN_ADDRESS, |(depth, _)| depth)
}

/// A chain of calls: its depth, and its functions.
#[derive(Clone, Debug, Default, PartialEq, Eq, PartialOrd, Ord)]
pub struct Deepest {
    pub bytes: usize,
    pub functions: Vec<String>,
}

/// What a chain may still do: nested calls below the main rule's, and levels of a
/// tree below its root.
#[derive(Clone, Copy, Debug, PartialEq, Eq)]
pub struct Left {
    pub calls: usize,
    pub levels: usize,
}

/// The most that any input can do. A tree nested one too deep is refused by a
/// reader of its own.
pub const MOST: Left = Left {
    calls: MOST_CALLS - 1,
    levels: MOST_NESTING,
};

/// The deepest chain from a function; or, if `needed`, the deepest that ends in
/// what the caller's program links, if there is one.
pub fn deepest(frames: &Frames, name: &str, left: Left, needed: bool) -> Option<Deepest> {
    deepest_from(frames, name, left, needed, 0, &mut BTreeMap::new())
}

type Known = BTreeMap<(String, usize, usize), Option<Deepest>>;

/// The same with what is left; `None` for what must not be counted.
fn deepest_from(
    frames: &Frames,
    name: &str,
    left: Left,
    needed: bool,
    in_a_row: usize,
    known: &mut Known,
) -> Option<Deepest> {
    assert!(in_a_row < 100, "a cycle through {name} that nothing bounds");
    let key = (name.to_string(), left.calls, left.levels);
    if let Some(found) = known.get(&key) {
        return found.clone();
    }
    let found = match frames.get(name) {
        Some(frame) => longest_of(frames, (name, frame), left, needed, in_a_row, known),
        None => {
            assert!(NEEDED.contains(&name), "{name} is not in the archive");
            needed.then(|| only(name, RETURN_ADDRESS))
        }
    };
    known.insert(key, found.clone());
    found
}

fn only(name: &str, bytes: usize) -> Deepest {
    Deepest {
        bytes,
        functions: vec![name.to_string()],
    }
}

/// The longest of a function's own frame and the chains through its calls. Where
/// only chains to what is needed count, its own frame does not.
fn longest_of(
    frames: &Frames,
    (name, frame): (&str, &Frame),
    left: Left,
    needed: bool,
    in_a_row: usize,
    known: &mut Known,
) -> Option<Deepest> {
    let own = only(name, frame.bytes + frame.red_zone);
    let mut longest = (!needed).then_some(own);
    for (callee, depth) in &frame.calls {
        let Some((after, bounded)) = left_after(name, callee, left) else {
            continue;
        };
        let in_a_row = if bounded { 0 } else { in_a_row + 1 };
        let below = deepest_from(frames, callee, after, needed, in_a_row, known);
        longest = longest.max(below.map(|below| Deepest {
            bytes: depth + below.bytes,
            functions: [vec![name.to_string()], below.functions].concat(),
        }));
    }
    longest
}

/// What is left after a call, and whether it took something: a rule applied by
/// another is a nested call, and a child's tree is a level. Arguments are
/// gathered only where a nested call is left. It goes by the names of
/// crates/calls and crates/tree: if these change and it does not, a cycle is found
/// that nothing bounds, or a painted stack passes the chain.
fn left_after(caller: &str, callee: &str, left: Left) -> Option<(Left, bool)> {
    let in_engine = caller.starts_with("calls::");
    let nested = match callee {
        "calls::call" => in_engine,
        "calls::matches" => true,
        "calls::seek" => !["calls::call", "calls::matches"].contains(&caller),
        _ => false,
    };
    let readers = ["tree::node", "tree::sequence", "tree::children"];
    if nested {
        let calls = left.calls.checked_sub(1)?;
        return Some((Left { calls, ..left }, true));
    }
    if callee == "tree::node" && readers.contains(&caller) {
        let levels = left.levels.checked_sub(1)?;
        return Some((Left { levels, ..left }, true));
    }
    let gathers = callee == "rewrite::arena::gather";
    (!gathers || left.calls > 0).then_some((left, false))
}

#[cfg(test)]
mod tests {
    use super::*;

    /// A function that saves a register, keeps 16 bytes, jumps by a table, calls
    /// with an argument and itself without, and one that returns in its stead;
    /// `leaf` writes below its pointer, and `early` returns before it saves.
    const LISTING: &str = "
0000000000000000 <calls::call>:
   0:\tpush   %rbx
   1:\tsub    $0x10,%rsp
   5:\tjmp    *%rax
   7:\tpush   %rax
   8:\tcall   d <calls::call+0xd>
\t\t\t9: R_X86_64_PLT32\t.text.leaf-0x4
   d:\tadd    $0x8,%rsp
  11:\tcall   0 <calls::call>
  16:\tmov    %eax,0x8(%rsp)
  1a:\tadd    $0x10,%rsp
  1e:\tpop    %rbx
  1f:\tjmp    24 <calls::call+0x24>
\t\t\t20: R_X86_64_PLT32\tmemset-0x4

0000000000000000 <leaf>:
   0:\tmov    %eax,-0x20(%rsp)
   4:\tret

0000000000000000 <early>:
   0:\ttest   %eax,%eax
   2:\tje     8 <early+0x8>
   4:\tpush   %rbp
   5:\tnop
   6:\tpop    %rbp
   7:\tret
   8:\txor    %eax,%eax
   9:\txor    %eax,%eax
   a:\tret

0000000000000000 <paged>:
   0:\tpush   %rbp
   1:\tmov    %rsp,%r11
   4:\tsub    $0x9000,%r11
   b:\tsub    $0x1000,%rsp
  12:\tmovq   $0x0,(%rsp)
  1a:\tcmp    %r11,%rsp
  1d:\tjne    b <paged+0xb>
  1f:\tsub    $0x18,%rsp
  26:\tcall   2b <paged+0x2b>
\t\t\t27: R_X86_64_PLT32\t.text.leaf-0x4
  2b:\tnop
  2c:\tnop
  2d:\tadd    $0x9018,%rsp
  34:\tpop    %rbp
  35:\tret
";

    fn frames() -> Frames {
        follow(&read_bodies(LISTING))
    }

    #[test]
    fn frames_and_calls_are_read_from_a_listing() {
        let frames = frames();
        let caller = &frames["calls::call"];
        let calls = [("calls::call", 32), ("leaf", 40), ("memset", 0)];
        let calls = calls.map(|(name, depth)| (name.to_string(), depth));
        assert_eq!((caller.bytes, caller.red_zone), (32, 0));
        assert_eq!(caller.calls, calls);
        assert_eq!((frames["leaf"].bytes, frames["leaf"].red_zone), (8, 32));
        assert_eq!((frames["early"].bytes, frames["early"].red_zone), (16, 0));
    }

    #[test]
    fn a_frame_that_a_loop_enters_is_counted_whole() {
        let paged = &frames()["paged"];
        assert_eq!((paged.bytes, paged.red_zone), (0x9018 + 16, 0));
        assert_eq!(paged.calls, [("leaf".to_string(), 0x9018 + 16)]);
    }

    #[test]
    #[should_panic(expected = "odd at 2: two depths")]
    fn another_loop_that_moves_the_pointer_is_seen() {
        let start = "0 <odd>:\n   0:\tpush   %rbp\n   2:\tsub    $0x1000,%rsp\n";
        let bodies = read_bodies(&format!("{start}   9:\tjne    2 <odd+0x2>\n   b:\tret\n"));
        follow(&bodies);
    }

    #[test]
    fn the_deepest_chain_has_as_many_nested_calls_as_it_may() {
        let frames = frames();
        let left = Left {
            calls: 2,
            levels: 0,
        };
        let chain = deepest(&frames, "calls::call", left, false).expect("a chain");
        assert_eq!(chain.bytes, 32 + 32 + 40 + 40);
        let names = ["calls::call", "calls::call", "calls::call", "leaf"];
        assert_eq!(chain.functions, names);
        let needed = deepest(&frames, "calls::call", left, true).expect("a chain");
        assert_eq!(needed.bytes, 32 + 32 + 8);
    }

    #[test]
    #[should_panic(expected = "a cycle through other that nothing bounds")]
    fn a_cycle_that_nothing_bounds_is_seen() {
        let mut frames = Frames::new();
        let calls = vec![("other".to_string(), 16)];
        let frame = Frame {
            calls,
            ..Frame::default()
        };
        frames.insert("other".to_string(), frame);
        deepest(&frames, "other", MOST, false);
    }
}

//! The figures of the stack: what is painted, and what the frames add up to.

use crate::exports::{run, Export, Measured, EXPORTS};
use crate::frames::{deepest, Deepest, Frames, Left, MOST};
use crate::nesting::{Chain, Last, Nest, Way, MOST_CALLS, MOST_NESTING};
use crate::painted::Stack;
use generate::Input;

/// The slips on which the same run must take the same stack.
pub const SLIPS: [usize; 3] = [6, 200, 2_048];
/// The fewest and the most arguments of an application.
const ARGUMENTS: [usize; 2] = [0, 4];

/// An exported function's stack, from its frames and painted.
#[derive(Clone, Debug)]
pub struct Figure {
    pub name: &'static str,
    pub chain: Deepest,
    pub painted: usize,
    /// Arguments that its caller pushes, not counted in its stack.
    pub pushed: usize,
    /// What memcpy and memset may take, return address and all, before the
    /// figure grows; `None` if the function calls neither.
    pub room: Option<usize>,
}

/// The figures of all exported functions.
pub fn figures(frames: &Frames, stack: &mut Stack) -> Vec<Figure> {
    let inputs = deep_inputs();
    let figure = |(name, measure): Export| {
        let measured = inputs.iter().map(|input| measure(stack, input));
        let deep = measured.max_by_key(|measured| measured.stack);
        let Measured { stack, pushed, .. } = deep.expect("inputs");
        let chain = deepest(frames, name, MOST, false);
        let chain = chain.expect("a function of the archive");
        let needed = deepest(frames, name, MOST, true);
        let room = needed.map(|needed| chain.bytes + 8 - needed.bytes);
        Figure {
            name,
            chain,
            painted: stack,
            pushed,
            room,
        }
    };
    EXPORTS.map(figure).to_vec()
}

/// A figure that grows with a number: so much for each, and so much beside.
#[derive(Clone, Copy, Debug, PartialEq, Eq)]
pub struct Line {
    pub beside: usize,
    pub each: usize,
}

/// An exported function's stack by what nests, from its frames: the greatest of
/// what it takes in any case, of what the tree's nesting takes and of what the open
/// calls take. A line that never counts is `None`.
#[derive(Clone, Debug)]
pub struct Growth {
    pub name: &'static str,
    pub least: usize,
    pub by_nesting: Option<Line>,
    pub by_calls: Option<Line>,
}

/// The nesting of the deepest node that can be read: that of one that is refused.
pub const MOST_READ: usize = MOST_NESTING + 1;

impl Growth {
    /// The stack, where the deepest node that is read has this nesting and so many
    /// calls are open.
    pub fn at(&self, nesting: usize, calls: usize) -> usize {
        let on = |line: Option<Line>, n| line.map_or(0, |line| line.beside + line.each * n);
        let nested = on(self.by_nesting, nesting).max(on(self.by_calls, calls));
        self.least.max(nested)
    }
}

/// The growth of all exported functions.
pub fn growth(frames: &Frames) -> Vec<Growth> {
    let row = |(name, _): Export| {
        let at = |nesting, calls| stack_at(frames, name, nesting, calls);
        let line = |most: usize, last: usize, before: usize| {
            let each = last - before;
            (each > 0).then(|| Line {
                beside: last - each * most,
                each,
            })
        };
        Growth {
            name,
            least: at(1, 1),
            by_nesting: line(MOST_READ, at(MOST_READ, 1), at(MOST_READ - 1, 1)),
            by_calls: line(MOST_CALLS, at(1, MOST_CALLS), at(1, MOST_CALLS - 1)),
        }
    };
    EXPORTS.map(row).to_vec()
}

/// The sum of a function's frames along the deepest chain, where nodes are read up
/// to this nesting and so many calls are open.
pub fn stack_at(frames: &Frames, name: &str, nesting: usize, calls: usize) -> usize {
    let left = Left {
        calls: calls - 1,
        levels: nesting - 1,
    };
    let chain = deepest(frames, name, left, false);
    chain.expect("a function of the archive").bytes
}

/// Each exported function's stack, painted, on slips of these lengths: the most
/// that any chain of 32 nested calls takes.
pub fn by_length(stack: &mut Stack) -> Vec<(&'static str, [usize; SLIPS.len()])> {
    let chains = deep_chains(MOST_CALLS);
    let row = |(name, measure): Export| {
        let stacks = SLIPS.map(|nodes| {
            let inputs = chains.iter().map(|chain| chain.on_slip_of(nodes));
            let stacks = inputs.map(|input| measure(stack, &input).stack);
            stacks.max().expect("chains")
        });
        (name, stacks)
    };
    EXPORTS.map(row).to_vec()
}

/// Inputs that drive each function as deep as is known: chains of all ways,
/// alone and in turn, with each end, and slips nested to the limit and one past it.
pub fn deep_inputs() -> Vec<Input> {
    let chains = deep_chains(MOST_CALLS);
    let mut inputs: Vec<Input> = chains.iter().map(|c| c.on_slip_of(SLIPS[0])).collect();
    for nest in Nest::ALL {
        inputs.push(nest.input(MOST_NESTING));
        inputs.push(nest.input(MOST_NESTING + 1));
    }
    inputs
}

/// Chains of so many calls: in all ways, alone and in turn, without and with
/// arguments, with each end.
pub fn deep_chains(calls: usize) -> Vec<Chain> {
    let mut chains = Vec::new();
    for ways in WAYS {
        for last in Last::ALL {
            for arguments in ARGUMENTS {
                chains.push(Chain::in_turn(calls, ways, arguments, last));
            }
        }
    }
    chains
}

/// The ways of nesting, alone and in turn. No replacement comes straight after a
/// condition: a rule that is tested puts none in place.
const WAYS: [&[Way]; 8] = [
    &[Way::Construct],
    &[Way::Replacement],
    &[Way::Condition],
    &[Way::Construct, Way::Replacement],
    &[Way::Construct, Way::Condition],
    &[Way::Replacement, Way::Construct],
    &[Way::Condition, Way::Construct],
    &[Way::Replacement, Way::Condition, Way::Construct],
];

/// A way of nesting: for calls without arguments and with four, the stack of a
/// run with 32 nested calls and what each nested call adds.
#[derive(Clone, Debug)]
pub struct Nested {
    pub way: String,
    pub plain: [usize; 2],
    pub with_arguments: [usize; 2],
}

impl Nested {
    /// All four figures, as in a row of the sheet.
    pub fn figures(&self) -> [usize; 4] {
        let ([a, b], [c, d]) = (self.plain, self.with_arguments);
        [a, b, c, d]
    }
}

/// The ways of nesting.
pub fn nested(stack: &mut Stack) -> Vec<Nested> {
    let mut figures = |ways: &[Way], arguments| {
        let mut painted = |calls| painted_in_turn(stack, calls, ways, arguments);
        let (most, fewer) = (painted(MOST_CALLS), painted(MOST_CALLS - ways.len()));
        [most, (most - fewer) / ways.len()]
    };
    let row = |ways: &[Way]| {
        let names: Vec<&str> = ways.iter().map(|way| name_of(*way)).collect();
        let [plain, with_arguments] = ARGUMENTS.map(|count| figures(ways, count));
        Nested {
            way: names.join(", "),
            plain,
            with_arguments,
        }
    };
    let mut rows = WAYS.map(row).to_vec();
    let alone = painted_in_turn(stack, 1, &[], 0);
    rows.insert(
        0,
        Nested {
            way: "nothing: one call".to_string(),
            plain: [alone, 0],
            with_arguments: [alone, 0],
        },
    );
    rows
}

fn name_of(way: Way) -> &'static str {
    match way {
        Way::Construct => "construct",
        Way::Replacement => "replacement",
        Way::Condition => "condition",
    }
}

/// The deepest of the runs with so many calls in these ways, whatever the end.
fn painted_in_turn(stack: &mut Stack, calls: usize, ways: &[Way], arguments: usize) -> usize {
    let runs = Last::ALL.map(|last| {
        let chain = Chain::in_turn(calls, ways, arguments, last);
        let (outcome, measured) = run(stack, &chain.on_slip_of(SLIPS[0]));
        assert_eq!(outcome.ending, 0, "{chain:?} is done");
        measured.stack
    });
    runs.into_iter().max().expect("runs")
}

/// The deepest run that is known, as an input.
pub fn deepest_run(stack: &mut Stack) -> Input {
    let inputs = deep_inputs().into_iter();
    let deepest = inputs.max_by_key(|input| run(stack, input).1.stack);
    deepest.expect("inputs")
}

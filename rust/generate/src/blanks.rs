//! Runs that compare fields which hold blanks (T-05): names and strings of value 0 at
//! every depth, in one of two fields and in both, beside all that is not blank.

use reference::bench::Input;

use crate::families::{construct, input};
use crate::random::Random;
use crate::rulebooks::{Pair, PartText, RuleText, CHAIN, NEW_VARIABLE, VARIABLE};

/// The root holds a sequence of transfers. A transfer has a payer and a payee, or
/// is marked and has one field. A field is a name, a string, a number, an optional
/// string, a sequence of fields, a field and a name, or has nothing.
fn grammar(random: &mut Random) -> Vec<u32> {
    let head = vec![9, 8, 1, 1, TRANSFERS];
    let transfers = vec![random.pick(&[4, 16]), TRANSFER];
    let transfer = vec![8, 2, 2, FIELD, FIELD, 1, FIELD];
    let single = [NAME, STRING, NUMBER, OPTIONAL, FIELDS];
    let mut field = vec![8, 7];
    field.extend(single.iter().flat_map(|&ty| [1, ty]));
    field.extend([2, FIELD, NAME, 0]);
    let tokens = vec![1, 1, 1, 3, 1, 2];
    let others = vec![2, STRING, random.pick(&[4, 16]), FIELD];
    [head, transfers, transfer, field, tokens, others].concat()
}

const TRANSFERS: u32 = 1;
const TRANSFER: u32 = 2;
const FIELD: u32 = 3;
const NAME: u32 = 4;
const STRING: u32 = 5;
const NUMBER: u32 = 6;
const OPTIONAL: u32 = 7;
const FIELDS: u32 = 8;

/// How often in a hundred a name or string of an input is blank.
struct Blanks(usize);

impl Blanks {
    fn text(&self, random: &mut Random) -> u32 {
        if random.chance(self.0) {
            0
        } else {
            random.pick(&[1, 2, 65_535])
        }
    }

    /// A field that holds fields down to so many levels.
    fn field(&self, random: &mut Random, levels: usize) -> Vec<u32> {
        let form = random.pick(&[0, 1, 2, 3, 4, 4, 5, 5, 6]);
        let below = match form {
            0 => vec![NAME, self.text(random)],
            1 => vec![STRING, self.text(random)],
            2 => vec![NUMBER, random.pick(&[0, 0, 100])],
            3 if random.chance(50) => vec![OPTIONAL, 1],
            3 => vec![OPTIONAL, 0, STRING, self.text(random)],
            4 => self.fields(random, levels),
            5 if levels > 0 => {
                let inner = self.field(random, levels - 1);
                [inner, vec![NAME, self.text(random)]].concat()
            }
            5 => return vec![FIELD, 0, NAME, self.text(random)],
            _ => vec![],
        };
        [vec![FIELD, form], below].concat()
    }

    fn fields(&self, random: &mut Random, levels: usize) -> Vec<u32> {
        let mut words = Vec::new();
        let elements = if levels == 0 { 0 } else { random.below(4) };
        for _ in 0..elements {
            words.extend([FIELDS, 0]);
            words.extend(self.field(random, levels - 1));
        }
        words.extend([FIELDS, 1]);
        words
    }

    /// A transfer from a field, mostly to the same one, or to one that differs in a
    /// name or string alone, which is then blank in one of them.
    fn transfer(&self, random: &mut Random) -> Vec<u32> {
        let levels = random.below(5);
        let payer = self.field(random, levels);
        let payee = match random.below(10) {
            0 => self.field(random, levels),
            1 | 2 => with_one_other(random, &payer),
            _ => payer.clone(),
        };
        [vec![TRANSFER, 0], payer, payee].concat()
    }
}

/// The same field with one name or string left blank or filled in.
fn with_one_other(random: &mut Random, field: &[u32]) -> Vec<u32> {
    let texts: Vec<usize> = (0..field.len())
        .step_by(2)
        .filter(|&place| [NAME, STRING].contains(&field[place]))
        .collect();
    let mut words = field.to_vec();
    if let Some(place) = random.pick_any(&texts) {
        words[place + 1] = u32::from(words[place + 1] == 0);
    }
    words
}

fn deconstruct(variable: u32, pattern: &[Pair]) -> PartText {
    PartText::Deconstruct {
        searched: None,
        variable,
        pattern: pattern.to_vec(),
    }
}

fn search(searched: u32, variable: u32, pattern: &[Pair]) -> PartText {
    PartText::Deconstruct {
        searched: Some(searched),
        variable,
        pattern: pattern.to_vec(),
    }
}

/// A rule for transfers that marks what matches.
fn marking(random: &mut Random, pattern: Vec<Pair>, parts: Vec<PartText>) -> RuleText {
    RuleText {
        target: TRANSFER,
        reach: random.pick(&[1, 2, 3]),
        pattern,
        parts,
        replacement: Some(vec![(TRANSFER, 1), (VARIABLE, 0)]),
        ..RuleText::default()
    }
}

/// The pattern that binds payer and payee to variables 0 and 1.
fn both() -> Vec<Pair> {
    vec![(TRANSFER, 0), (NEW_VARIABLE, FIELD), (NEW_VARIABLE, FIELD)]
}

/// One part that compares payer and payee, or one of them with itself.
fn comparison(random: &mut Random) -> PartText {
    let (taken, compared) = (random.below(2) as u32, random.below(2) as u32);
    let same = (VARIABLE, compared);
    match random.below(4) {
        0 | 1 => deconstruct(taken, &[same]),
        2 => search(FIELD, taken, &[same]),
        _ => search(FIELD, taken, &[(FIELD, 5), same, (NEW_VARIABLE, NAME)]),
    }
}

/// A field that is built of written-out nodes, and searched for in the whole
/// transfer's fields; its tokens may be blank.
fn built_field(random: &mut Random, blanks: &Blanks) -> Vec<PartText> {
    let levels = random.below(2);
    let words = blanks.field(random, levels);
    let pairs: Vec<Pair> = words
        .chunks_exact(2)
        .map(|pair| (pair[0], pair[1]))
        .collect();
    let taken = random.below(2) as u32;
    vec![
        construct(FIELD, &pairs),
        search(FIELD, taken, &[(VARIABLE, 2)]),
    ]
}

/// Rule 1 is applied to the payer with the payee as argument, as a condition or in
/// the replacement; it matches if they are the same.
fn with_a_parameter(random: &mut Random) -> Vec<RuleText> {
    let chain = vec![(CHAIN, 0), (1, 0), (1, 1), (VARIABLE, 1)];
    let main = if random.chance(50) {
        let negated = random.chance(50);
        let test = PartText::Condition { negated, chain };
        marking(random, both(), vec![test])
    } else {
        let mut rule = marking(random, both(), vec![]);
        rule.reach = random.pick(&[1, 3]);
        rule.replacement = Some([vec![(TRANSFER, 1)], chain].concat());
        rule
    };
    let same = RuleText {
        target: FIELD,
        reach: random.pick(&[0, 0, 1, 3]),
        parameters: vec![FIELD],
        pattern: vec![(VARIABLE, 0)],
        replacement: Some(vec![(FIELD, 6)]),
        ..RuleText::default()
    };
    vec![main, same]
}

/// Searches the whole tree for a transfer with two fields alike, and leaves that
/// one alone.
fn first_alike() -> RuleText {
    let alike = [(TRANSFER, 0), (NEW_VARIABLE, FIELD), (VARIABLE, 1)];
    let left = [(TRANSFERS, 0), (TRANSFER, 1), (VARIABLE, 1), (TRANSFERS, 1)];
    RuleText {
        pattern: vec![(NEW_VARIABLE, 0)],
        parts: vec![search(TRANSFER, 0, &alike)],
        replacement: Some([vec![(0, 0)], left.to_vec()].concat()),
        ..RuleText::default()
    }
}

/// A token of each class with the form of a field that holds it.
const TOKENS: [(u32, u32); 3] = [(NAME, 0), (STRING, 1), (NUMBER, 2)];

/// Two tokens compared, not the fields that hold them.
fn tokens_alike(random: &mut Random) -> RuleText {
    let (ty, form) = random.pick(&TOKENS);
    let payer = [(TRANSFER, 0), (FIELD, form), (NEW_VARIABLE, ty)];
    let payee = [(FIELD, form), (VARIABLE, 0)];
    RuleText {
        replacement: Some(vec![(TRANSFER, 1), (FIELD, form), (VARIABLE, 0)]),
        ..marking(random, [&payer[..], &payee].concat(), vec![])
    }
}

/// Written-out blanks, which match, beside a variable, which does not match one.
fn written_out(random: &mut Random) -> RuleText {
    let (ty, form) = random.pick(&TOKENS);
    let payer = vec![(TRANSFER, 0), (FIELD, form), (ty, 0)];
    let payee = random.pick(&[vec![(FIELD, form), (ty, 0)], vec![(NEW_VARIABLE, FIELD)]]);
    let replacement = vec![(TRANSFER, 1), (FIELD, form), (ty, 1)];
    RuleText {
        replacement: Some(replacement),
        ..marking(random, [payer, payee].concat(), vec![])
    }
}

/// Transfers between fields alike that hold a blank or just do not, compared in the
/// pattern of a rule, of a part that takes apart and of one that searches, with
/// variables of every kind.
pub fn blank_fields(seed: u64) -> Input {
    let random = &mut Random::new(seed);
    let blanks = Blanks(random.pick(&[0, 10, 40]));
    let rules = match random.below(9) {
        0 | 1 => {
            let pattern = vec![(TRANSFER, 0), (NEW_VARIABLE, FIELD), (VARIABLE, 0)];
            vec![marking(random, pattern, vec![])]
        }
        2 | 3 => {
            let part = comparison(random);
            vec![marking(random, both(), vec![part])]
        }
        4 => {
            let parts = built_field(random, &blanks);
            vec![marking(random, both(), parts)]
        }
        5 => with_a_parameter(random),
        6 => vec![first_alike()],
        7 => vec![tokens_alike(random)],
        _ => vec![written_out(random)],
    };
    let mut tree = vec![0, 0];
    for _ in 0..random.between(1, 6) {
        tree.extend([TRANSFERS, 0]);
        tree.extend(blanks.transfer(random));
    }
    tree.extend([TRANSFERS, 1]);
    let grammar = grammar(random);
    input(&grammar, &rules, tree, 60)
}

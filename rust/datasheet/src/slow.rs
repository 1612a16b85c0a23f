//! Inputs of which one check takes long.

use generate::{slip_of, Input, Random};

use crate::sequences::{built_elements, counted_elements, counted_grammar, elements};

/// Inputs of which one check takes long, each with the check's name. They are
/// irregular, so that the processor foresees little. A conversion is that of the
/// slip to its own grammar.
pub fn slow_checks() -> [(&'static str, Input); 6] {
    [
        ("grammar", slow_grammar()),
        ("slip", slow_slip()),
        ("rules", slow_forms()),
        ("rules", slow_chains()),
        ("conversion", slow_conversion()),
        ("conversion", slow_slip()),
    ]
}

fn unrun(grammar: Vec<u32>, rules: Vec<u32>, slip: Vec<u32>) -> Input {
    Input {
        grammar,
        rules,
        slip,
        budget: 1,
    }
}

/// 64 types, each of forms of the next one: a round of the search for finite
/// trees reads all forms and finds one type more.
fn slow_grammar() -> Input {
    let mut random = Random::new(0);
    let mut grammar = vec![64];
    for next in 1..64 {
        let mut forms = Vec::new();
        while forms.len() < 16 && forms.iter().map(Vec::len).sum::<usize>() < 54 {
            forms.push(irregular_form(&mut random, next));
        }
        grammar.extend([8, forms.len() as u32]);
        grammar.extend(forms.concat());
    }
    grammar.extend([1, 2]);
    unrun(grammar, vec![], vec![])
}

/// The same grammar with one more form of type 0, which has nothing, and the slip
/// of that form: both grammars take long, and the table is long.
fn slow_conversion() -> Input {
    let mut input = slow_grammar();
    let (forms, after) = (input.grammar[2], 3);
    assert!(forms < 16, "there is room for one more form");
    input.grammar[2] = forms + 1;
    input.grammar.insert(after, 0);
    input.slip = vec![0, 0, 1];
    input
}

/// A form of literals and elements of a type, which is the last of them.
fn irregular_form(random: &mut Random, ty: u32) -> Vec<u32> {
    let count = random.between(1, 8);
    let mut words = vec![count as u32];
    let literal = 65_536;
    words.extend((1..count).map(|_| random.pick(&[literal, ty])));
    words.push(ty);
    words
}

/// A program of irregular elements, as many as fit.
fn slow_slip() -> Input {
    let sequence = counted_elements(&mut Random::new(0), 2_047);
    let tree = [vec![0, 0], sequence].concat();
    let slip = slip_of(&counted_grammar(), &tree);
    unrun(counted_grammar(), vec![], slip)
}

/// Rules whose parts build sequences of them.
fn slow_forms() -> Input {
    let mut random = Random::new(0);
    let mut rules = vec![7];
    for _ in 0..7 {
        let parts: Vec<u32> = (0..8).flat_map(|_| built_elements(&mut random)).collect();
        rules.extend([vec![12, 0, 1, 64, 0, 8], parts, vec![1, 65, 0]].concat());
    }
    unrun(counted_grammar(), rules, vec![])
}

/// Rules that build sequences of chains, each of four applications with four
/// arguments.
fn slow_chains() -> Input {
    let grammar = vec![3, 8, 1, 1, 1, 4, 2, 1, 2];
    let application = [vec![1, 4], [65, 0].repeat(4)].concat();
    let chain = [vec![66, 0, 4, 0], application.repeat(4)].concat();
    let built = [vec![116], elements(5, &chain), vec![1, 1]].concat();
    let part = [vec![4, 1], built].concat();
    let copy = vec![1, 65, 0];
    let parts = [vec![8], part.repeat(8), copy].concat();
    let main = [vec![13, 2, 1, 1, 64, 2], parts.clone()].concat();
    let other = [vec![14, 2, 4, 2, 2, 2, 2, 1, 64, 2], parts].concat();
    let rules = [vec![8], main, other.repeat(7)].concat();
    unrun(grammar, rules, vec![])
}

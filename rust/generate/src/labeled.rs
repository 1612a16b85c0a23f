//! Words with a label each that says what the word is, so that damage can be
//! aimed at words of one kind.

use crate::random::Random;

/// Words and the field that each of them is.
#[derive(Clone, Debug)]
pub struct Labeled<F> {
    pub words: Vec<u32>,
    fields: Vec<F>,
}

impl<F: Copy + PartialEq> Labeled<F> {
    pub fn new() -> Self {
        Labeled {
            words: Vec::new(),
            fields: Vec::new(),
        }
    }

    pub fn push(&mut self, field: F, word: u32) {
        self.words.push(word);
        self.fields.push(field);
    }

    /// Whether a field occurs.
    pub fn has(&self, field: F) -> bool {
        self.fields.contains(&field)
    }

    /// A position of a random field: first a kind of field that occurs, then
    /// one of its words, so that rare fields are hit as often as frequent ones.
    pub fn position(&self, random: &mut Random) -> (usize, F) {
        self.position_where(random, |_| true)
            .expect("words have at least one field")
    }

    /// The same among fields that are wanted, if any occurs.
    pub fn position_where(
        &self,
        random: &mut Random,
        wanted: impl Fn(F) -> bool,
    ) -> Option<(usize, F)> {
        let mut kinds: Vec<F> = Vec::new();
        for &field in &self.fields {
            if wanted(field) && !kinds.contains(&field) {
                kinds.push(field);
            }
        }
        let kind = random.pick_any(&kinds)?;
        let positions: Vec<usize> = (0..self.fields.len())
            .filter(|&position| self.fields[position] == kind)
            .collect();
        Some((random.pick(&positions), kind))
    }
}

/// Cuts words off at the end, or adds some.
pub fn change_length(random: &mut Random, words: &mut Vec<u32>) {
    if random.chance(50) && !words.is_empty() {
        let kept = if random.chance(50) {
            words.len() - 1
        } else {
            random.below(words.len())
        };
        words.truncate(kept);
    } else {
        for _ in 0..random.between(1, 3) {
            let word = random.pick(&[0, 1, 2, 8, 64]);
            words.push(word);
        }
    }
}

/// A count just outside its limits, near it, or far off.
pub fn wrong_count(random: &mut Random, count: u32, most: u32) -> u32 {
    let near = count.wrapping_add(1);
    random.pick(&[0, most + 1, near, count.wrapping_sub(1), u32::MAX, most])
}

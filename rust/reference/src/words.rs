//! Reading a grammar or rules word by word, from the first to the last.

use crate::Refusal;

/// A position in the words that are read, and the two numbers that refusals
/// of this reading carry.
pub struct Reader<'a> {
    words: &'a [u32],
    position: usize,
    wrong_length: u32,
    not_allowed: u32,
}

impl<'a> Reader<'a> {
    /// `wrong_length` is given when the words end early or are left over,
    /// `not_allowed` when a word cannot stand where it is.
    pub fn new(words: &'a [u32], wrong_length: u32, not_allowed: u32) -> Self {
        Reader {
            words,
            position: 0,
            wrong_length,
            not_allowed,
        }
    }

    /// The position of the word that is read next.
    pub fn position(&self) -> usize {
        self.position
    }

    /// Reads one word, whatever it is.
    pub fn word(&mut self) -> Result<u32, Refusal> {
        let word = *self
            .words
            .get(self.position)
            .ok_or(Refusal::new(self.wrong_length, self.words.len()))?;
        self.position += 1;
        Ok(word)
    }

    /// Reads one word that must pass `allowed`.
    pub fn word_where(&mut self, allowed: impl Fn(u32) -> bool) -> Result<u32, Refusal> {
        let position = self.position;
        let word = self.word()?;
        if allowed(word) {
            Ok(word)
        } else {
            Err(Refusal::new(self.not_allowed, position))
        }
    }

    /// Reads a count from `least` to `most`.
    pub fn count(&mut self, least: u32, most: u32) -> Result<u32, Refusal> {
        self.word_where(|word| (least..=most).contains(&word))
    }

    /// Passes over `count` words without judging them, and returns them.
    pub fn take(&mut self, count: usize) -> Result<&'a [u32], Refusal> {
        let taken = self
            .words
            .get(self.position..self.position + count)
            .ok_or(Refusal::new(self.wrong_length, self.words.len()))?;
        self.position += count;
        Ok(taken)
    }

    /// Says that the reading is over; words left over are refused.
    pub fn finish(&self) -> Result<(), Refusal> {
        if self.position < self.words.len() {
            Err(Refusal::new(self.wrong_length, self.position))
        } else {
            Ok(())
        }
    }
}

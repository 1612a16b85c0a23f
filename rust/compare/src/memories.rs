//! The two memories that runs are lent, one after another.

use std::ops::Range;

use generate::{Random, RunList};
use reference::limits;

/// How many words lie before, between and behind the memories.
const GUARD: usize = 64;

/// Result and work memory, between words that no run may change. They are one
/// piece, so that a core that writes past the end of one is seen.
#[derive(Clone, Debug, PartialEq, Eq)]
pub struct Memories {
    words: Vec<u32>,
    result: Range<usize>,
    work: Range<usize>,
}

impl Memories {
    /// Memories that hold these words at first.
    fn new(result: &[u32], work: &[u32]) -> Memories {
        let mut random = Random::new(0);
        let guard: Vec<u32> = (0..GUARD).map(|_| random.word()).collect();
        let result_end = GUARD + result.len();
        let work_start = result_end + GUARD;
        Memories {
            words: [&guard, result, &guard, work, &guard].concat(),
            result: GUARD..result_end,
            work: work_start..work_start + work.len(),
        }
    }

    /// The memories before the first run of a list.
    pub fn of_list(list: &RunList) -> Memories {
        Memories::new(&list.result, &list.work)
    }

    /// Memories of the least lengths in which all words are the same.
    pub fn least(word: u32) -> Memories {
        let result = [word; limits::RESULT_WORDS];
        let work = [word; limits::WORK_WORDS];
        Memories::new(&result, &work)
    }

    pub fn result(&self) -> &[u32] {
        &self.words[self.result.clone()]
    }

    pub fn work(&self) -> &[u32] {
        &self.words[self.work.clone()]
    }

    /// Both memories for a run: result and work.
    pub fn lend(&mut self) -> (&mut [u32], &mut [u32]) {
        let (front, back) = self.words.split_at_mut(self.work.start);
        let work_len = self.work.len();
        (&mut front[self.result.clone()], &mut back[..work_len])
    }

    /// The first word that is not as it is due, in words.
    pub fn difference(&self, due: &Memories) -> Option<String> {
        let differs = |position: &usize| self.words[*position] != due.words[*position];
        let position = (0..self.words.len()).find(differs)?;
        let place = if self.result.contains(&position) {
            format!("result word {}", position - self.result.start)
        } else if self.work.contains(&position) {
            format!("work word {}", position - self.work.start)
        } else {
            "a word outside both memories".to_string()
        };
        let (is, due) = (self.words[position], due.words[position]);
        Some(format!("{place} is {is}, due {due}"))
    }
}

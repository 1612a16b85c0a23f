//! Wrong counts of every kind in slips whose tree may be right or not.

use crate::random::Random;
use crate::slips::SLIP_NODE;

/// How the counts of a slip are wrong.
#[derive(Clone, Copy, Debug, PartialEq, Eq, PartialOrd, Ord)]
pub enum WrongCount {
    OneLess,
    OneMore,
    /// That of the node's first child, of a child of the same parent, or of the
    /// parent.
    OfTheChild,
    OfASibling,
    OfTheParent,
    /// The nodes of the whole slip, or all from the node on.
    OfTheWhole,
    ToTheEnd,
    /// Another word of the node.
    TheValue,
    TheType,
    Zero,
    Greatest,
    /// So much more: right if only some bits are compared.
    MoreBy(u32),
    /// So many times what it is, as if words were counted.
    Times(u32),
    /// Every node leaves itself out.
    EachWithoutItself,
    /// Every node counts words.
    EachInWords,
    /// Two counts are wrong, of which the first is told.
    Two,
    /// Two are wrong, one by as much less as the other by more.
    TwoThatCancel,
    /// Two counts stand in each other's place.
    TwoExchanged,
}

use WrongCount::*;

/// The kinds that make one count wrong.
const SINGLE: [WrongCount; 19] = [
    OneLess,
    OneMore,
    OfTheChild,
    OfASibling,
    OfTheParent,
    OfTheWhole,
    ToTheEnd,
    TheValue,
    TheType,
    Zero,
    Greatest,
    MoreBy(1 << 8),
    MoreBy(1 << 11),
    MoreBy(1 << 12),
    MoreBy(1 << 16),
    MoreBy(1 << 24),
    MoreBy(1 << 31),
    Times(2),
    Times(3),
];

/// The kinds that make several wrong.
const SEVERAL: [WrongCount; 5] = [
    EachWithoutItself,
    EachInWords,
    Two,
    TwoThatCancel,
    TwoExchanged,
];

impl WrongCount {
    /// All kinds, those that make one count wrong first.
    pub fn all() -> impl Iterator<Item = WrongCount> {
        SINGLE.into_iter().chain(SEVERAL)
    }

    /// Whether just one count is wrong.
    pub fn is_single(self) -> bool {
        SINGLE.contains(&self)
    }
}

/// The nodes of a slip and what its counts, which must be right, say of them.
struct Nodes {
    /// Type, value and count.
    words: Vec<[u32; SLIP_NODE]>,
    parents: Vec<Option<usize>>,
}

impl Nodes {
    fn new(slip: &[u32]) -> Nodes {
        let words: Vec<[u32; SLIP_NODE]> = slip
            .chunks_exact(SLIP_NODE)
            .map(|node| [node[0], node[1], node[2]])
            .collect();
        let mut parents = Vec::new();
        // The nodes whose trees hold the next one, the innermost last.
        let mut around: Vec<usize> = Vec::new();
        for place in 0..words.len() {
            while around
                .last()
                .is_some_and(|&above| above + words[above][2] as usize <= place)
            {
                around.pop();
            }
            parents.push(around.last().copied());
            around.push(place);
        }
        Nodes { words, parents }
    }

    fn count(&self, place: usize) -> u32 {
        self.words[place][2]
    }

    /// The places of a node's children.
    fn children(&self, place: usize) -> impl Iterator<Item = usize> + '_ {
        let end = place + self.count(place) as usize;
        let inside = move |&child: &usize| child < end.min(self.words.len());
        let first = Some(place + 1).filter(inside);
        // A child is stepped over by its size.
        std::iter::successors(first, move |&child| {
            Some(child + self.count(child) as usize).filter(inside)
        })
    }

    /// The count that one kind of fault gives a node, if that is wrong there.
    fn wrong_count(&self, kind: WrongCount, place: usize) -> Option<u32> {
        let [ty, value, count] = self.words[place];
        let parent = self.parents[place];
        let wrong = match kind {
            OneLess => count.wrapping_sub(1),
            OneMore => count.wrapping_add(1),
            OfTheChild => self.count(self.children(place).next()?),
            OfASibling => self
                .children(parent?)
                .map(|sibling| self.count(sibling))
                .find(|&other| other != count)?,
            OfTheParent => self.count(parent?),
            OfTheWhole => self.words.len() as u32,
            ToTheEnd => (self.words.len() - place) as u32,
            TheValue => value,
            TheType => ty,
            Zero => 0,
            Greatest => u32::MAX,
            MoreBy(more) => count.wrapping_add(more),
            Times(times) => count.wrapping_mul(times),
            _ => return None,
        };
        (wrong != count).then_some(wrong)
    }

    /// A place where one kind of fault can be, often the first or the last,
    /// with the count that it gives.
    fn pick_fault(&self, random: &mut Random, kind: WrongCount) -> Option<(usize, u32)> {
        let faults: Vec<(usize, u32)> = (0..self.words.len())
            .filter_map(|place| Some((place, self.wrong_count(kind, place)?)))
            .collect();
        let any = random.pick_any(&faults)?;
        Some(random.pick(&[*faults.first()?, *faults.last()?, any, any]))
    }

    /// Two different places, the lower one first.
    fn two_places(&self, random: &mut Random) -> Option<[usize; 2]> {
        let last = self.words.len().checked_sub(1).filter(|&last| last > 0)?;
        let lower = random.below(last);
        Some([lower, random.between(lower + 1, last)])
    }

    /// The wrong counts of a kind that makes several wrong, with their places.
    fn several(&self, random: &mut Random, kind: WrongCount) -> Option<Vec<(usize, u32)>> {
        let each = |count: fn(u32) -> u32| {
            let nodes = self.words.iter().enumerate();
            nodes.map(|(place, node)| (place, count(node[2]))).collect()
        };
        match kind {
            EachWithoutItself => return Some(each(|count| count.wrapping_sub(1))),
            EachInWords => return Some(each(|count| count.wrapping_mul(SLIP_NODE as u32))),
            _ => {}
        }
        let two = match kind {
            // Most nodes have none below them, and so the same count.
            TwoExchanged => (0..20)
                .filter_map(|_| self.two_places(random))
                .find(|two| self.count(two[0]) != self.count(two[1]))?,
            _ => self.two_places(random)?,
        };
        let counts = two.map(|place| self.count(place));
        let wrong = match kind {
            Two => [
                self.any_fault(random, two[0]),
                self.any_fault(random, two[1]),
            ],
            TwoThatCancel => {
                let less = random.below(2);
                let by = random.pick(&[1, 1, counts[less]]);
                let mut wrong = counts.map(|count| count.wrapping_add(by));
                wrong[less] = counts[less].wrapping_sub(by);
                wrong
            }
            _ => [counts[1], counts[0]],
        };
        Some(two.into_iter().zip(wrong).collect())
    }

    /// A wrong count of any kind at a place.
    fn any_fault(&self, random: &mut Random, place: usize) -> u32 {
        let kinds = SINGLE.into_iter();
        let faults: Vec<u32> = kinds
            .filter_map(|kind| self.wrong_count(kind, place))
            .collect();
        random.pick(&faults)
    }
}

/// A slip with wrong counts of a kind, if it has a place for them. Its counts
/// must be right before, as `slip` makes them; its tree need not fit.
pub fn with_wrong_count(seed: u64, slip: &[u32], kind: WrongCount) -> Option<Vec<u32>> {
    miscounted(&mut Random::new(seed), slip, kind)
}

fn miscounted(random: &mut Random, slip: &[u32], kind: WrongCount) -> Option<Vec<u32>> {
    let nodes = Nodes::new(slip);
    let faults = if kind.is_single() {
        vec![nodes.pick_fault(random, kind)?]
    } else {
        nodes.several(random, kind)?
    };
    let mut words = slip.to_vec();
    for (place, count) in faults {
        words[SLIP_NODE * place + 2] = count;
    }
    Some(words)
}

/// A slip with wrong counts of any kind.
pub(crate) fn with_any_wrong_count(random: &mut Random, slip: &[u32]) -> Vec<u32> {
    let kinds: Vec<WrongCount> = WrongCount::all().collect();
    // Not every slip has a place for every kind.
    while slip.len() >= SLIP_NODE {
        let kind = random.pick(&kinds);
        if let Some(words) = miscounted(random, slip, kind) {
            return words;
        }
    }
    slip.to_vec()
}

/// A slip whose last count alone is wrong.
pub(crate) fn with_last_count_wrong(random: &mut Random, slip: &[u32]) -> Vec<u32> {
    let mut words = slip.to_vec();
    let nodes = Nodes::new(slip);
    if let Some(last) = nodes.words.len().checked_sub(1) {
        words[SLIP_NODE * last + 2] = nodes.any_fault(random, last);
    }
    words
}

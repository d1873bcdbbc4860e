//! What each entry of a message does to its side, and how many levels that moves.

use crate::message::{Entry, Level, Side};

#[derive(Clone, Copy, Debug, PartialEq, Eq)]
pub enum Act {
    Insert,
    Replace,
    Remove,
    /// A removal of a price that does not stand.
    Nothing,
}

/// An entry on a side of `count` levels, at its place among them, 0 being the best.
#[derive(Clone, Copy, Debug, PartialEq, Eq)]
pub struct Step {
    pub act: Act,
    pub place: usize,
    pub count: usize,
}

impl Step {
    pub fn moved(self) -> usize {
        match self.act {
            Act::Insert => self.count - self.place,
            Act::Remove => self.count - 1 - self.place,
            Act::Replace | Act::Nothing => 0,
        }
    }

    /// How many levels stand after it.
    pub fn left(self) -> usize {
        match self.act {
            Act::Insert => self.count + 1,
            Act::Remove => self.count - 1,
            Act::Replace | Act::Nothing => self.count,
        }
    }
}

/// The steps of the entries for `side`, in their order; `levels` stand there before, best first.
pub fn steps(side: Side, levels: &[Level], entries: &[Entry]) -> Vec<Step> {
    let mut prices: Vec<u128> = levels.iter().map(|level| level.price.value()).collect();
    let mut steps = Vec::new();
    for Entry { level, .. } in entries.iter().filter(|entry| entry.side == side) {
        let price = level.price.value();
        let is_better = |other: &&u128| if side == Side::Bid { **other > price } else { **other < price };
        let (place, count) = (prices.iter().filter(is_better).count(), prices.len());
        let act = match (prices.contains(&price), level.size.is_zero()) {
            (false, false) => Act::Insert,
            (true, false) => Act::Replace,
            (true, true) => Act::Remove,
            (false, true) => Act::Nothing,
        };
        match act {
            Act::Insert => prices.insert(place, price),
            Act::Remove => drop(prices.remove(place)),
            Act::Replace | Act::Nothing => {}
        }
        steps.push(Step { act, place, count });
    }
    steps
}

/// The most levels that so many entries move on a side that had so many levels.
pub fn most_moved(entries: usize, levels: usize) -> usize {
    entries * levels + entries * entries.saturating_sub(1) / 2
}

#[cfg(test)]
mod tests {
    use super::*;
    use crate::book::Sides;
    use crate::decimal::Decimal;
    use crate::random::Random;

    fn at(side: Side, price: usize, size: usize) -> Entry {
        let decimal = |digits: usize| Decimal { digits: digits as u128, decimals: 0 };
        Entry { side, level: Level { price: decimal(price), size: decimal(size) } }
    }

    /// The levels that stand before and after the entry, at another place.
    fn at_another_place(before: &[Level], after: &[Level]) -> usize {
        let place = |levels: &[Level], level: &Level| levels.iter().position(|other| other.price == level.price);
        let moved = |level: &&Level| place(after, level).is_some_and(|there| Some(there) != place(before, level));
        before.iter().filter(moved).count()
    }

    #[test]
    fn moved_are_those_at_another_place() {
        let mut random = Random::new(3);
        for side in Side::BOTH {
            let mut sides = Sides::default();
            for _ in 0..2000 {
                let entry = at(side, random.between(1, 40), random.below(2));
                let after = sides.with(&[entry]);
                let step = steps(side, sides.side(side), &[entry])[0];
                assert_eq!(step.moved(), at_another_place(sides.side(side), after.side(side)));
                assert_eq!((step.count, step.left()), (sides.side(side).len(), after.side(side).len()));
                sides = after;
            }
        }
    }

    #[test]
    fn the_other_side_is_left_alone() {
        let entries = [at(Side::Bid, 3, 1), at(Side::Ask, 5, 1), at(Side::Bid, 4, 1)];
        let inserted = |place, count| Step { act: Act::Insert, place, count };
        assert_eq!(steps(Side::Bid, &[], &entries), [inserted(0, 0), inserted(0, 1)]);
        assert_eq!(steps(Side::Ask, &[], &entries), [inserted(0, 0)]);
    }

    #[test]
    fn the_most() {
        assert_eq!([most_moved(0, 7), most_moved(1, 7), most_moved(4, 3), most_moved(100, 100)], [0, 7, 18, 14_950]);
    }
}

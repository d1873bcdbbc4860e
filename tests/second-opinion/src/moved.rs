//! How many levels a message moves: sessions whose entries come to every place of a side, taken
//! and refused, and what came up of them.

use crate::book::{Sides, State};
use crate::decimal::Decimal;
use crate::making::{prices, removal, set, Making};
use crate::message::{self, Entry, Kind, Level, Message, Side, MAX_ENTRIES};
use crate::random::Random;
use crate::session::{Purpose, Session};
use crate::settings::{Dialect, Settings};
use crate::steps::{most_moved, Act, Step};
use crate::traffic::Line;

/// The prices of a side, best first: the first hundred are for levels that come at the top, the
/// second for those that stand, the third for those that come at the end.
type Ladders = [Vec<Decimal>; 2];

const STANDING: usize = MAX_ENTRIES;
const END: usize = 2 * MAX_ENTRIES;
const RUNGS: usize = 3 * MAX_ENTRIES;

/// Messages that move levels in every way; K at its full depth or at another.
pub fn session(random: &mut Random, purpose: Purpose, dialect: Dialect, full: bool) -> Session {
    let depth = if dialect == Dialect::K && !full { random.pick(&[10, 11, 57]) } else { 100 };
    let mut making = Making::new(purpose, dialect, depth);
    let [mut bids, mut asks] = prices(random, RUNGS);
    bids.sort_by_key(|price| std::cmp::Reverse(price.value()));
    asks.sort_by_key(|price| price.value());
    let ladders = [bids, asks];
    for turn in 0..72 {
        if making.book.state != State::Live || random.percent(20) {
            let count = random.pick(&[0, 1, 2, 12, 60, 90]);
            start(random, &mut making, &ladders, count);
        }
        match turn % 9 {
            0 => tops(random, &mut making, &ladders, turn / 9),
            1 => past(random, &mut making, &ladders),
            2 => again(random, &mut making, &ladders),
            3 => refused(random, &mut making, &ladders, turn / 9),
            _ => changes(random, &mut making, &ladders),
        }
    }
    making.ask(random);
    making.made()
}

/// A snapshot of `count` levels a side.
fn start(random: &mut Random, making: &mut Making, ladders: &Ladders, count: usize) {
    let lines = standing(random, ladders, count);
    making.send(random, Kind::Snapshot, lines);
}

fn standing(random: &mut Random, ladders: &Ladders, count: usize) -> Vec<Line> {
    let order = random.below(3);
    let mut lines = Vec::new();
    for (side, ladder) in Side::BOTH.into_iter().zip(ladders) {
        let mut rungs: Vec<usize> = (STANDING..END).collect();
        random.shuffle(&mut rungs);
        rungs.truncate(count);
        let rungs = ordered(random, order, rungs);
        lines.extend(rungs.iter().map(|&rung| set(random, side, ladder[rung])));
    }
    lines
}

/// Best first, worst first, or in any order.
fn ordered(random: &mut Random, order: usize, mut rungs: Vec<usize>) -> Vec<usize> {
    match order {
        0 => rungs.sort(),
        1 => rungs.sort_by_key(|&rung| std::cmp::Reverse(rung)),
        _ => random.shuffle(&mut rungs),
    }
    rungs
}

/// Levels that come at the top, one after another: none move more.
fn tops(random: &mut Random, making: &mut Making, ladders: &Ladders, way: usize) {
    let many = if making.settings.dialect == Dialect::K { MAX_ENTRIES } else { MAX_ENTRIES / 2 };
    let (count, coming) = [(many, many), (many, 7), (3, 4), (1, 60)][way % 4];
    start(random, making, ladders, count);
    let mut lines = Vec::new();
    for (side, ladder) in Side::BOTH.into_iter().zip(ladders) {
        lines.extend((STANDING - coming..STANDING).rev().map(|rung| set(random, side, ladder[rung])));
    }
    making.send(random, Kind::Update, lines);
}

/// A full side, and levels that come worse than all that stand: K cuts them at once.
fn past(random: &mut Random, making: &mut Making, ladders: &Ladders) {
    let full = if making.settings.dialect == Dialect::K { MAX_ENTRIES } else { 60 };
    start(random, making, ladders, full);
    let (order, coming) = (random.below(3), random.between(2, 40));
    let mut lines = Vec::new();
    for (side, ladder) in Side::BOTH.into_iter().zip(ladders) {
        let rungs = ordered(random, order, (END..END + coming).collect());
        lines.extend(rungs.iter().map(|&rung| set(random, side, ladder[rung])));
    }
    making.send(random, Kind::Update, lines);
}

/// Several entries of a message at one price.
fn again(random: &mut Random, making: &mut Making, ladders: &Ladders) {
    let mut lines = Vec::new();
    for (side, ladder) in Side::BOTH.into_iter().zip(ladders) {
        for _ in 0..random.between(1, 3) {
            let levels = making.book.sides.side(side);
            let stands = random.percent(50) && !levels.is_empty();
            let price = if stands { random.pick(levels).price } else { random.pick(ladder) };
            for _ in 0..random.between(2, 4) {
                lines.push(if random.percent(50) { removal(random, side, price) } else { set(random, side, price) });
            }
        }
    }
    making.send(random, Kind::Update, lines);
}

/// Some entries at any place of the sides.
fn changes(random: &mut Random, making: &mut Making, ladders: &Ladders) {
    let mut lines = Vec::new();
    for (place, side) in Side::BOTH.into_iter().enumerate() {
        for _ in 0..random.pick(&[0, 1, 1, 2, 4]) {
            lines.extend(change(random, making, side, &ladders[place]));
        }
    }
    making.send(random, Kind::Update, lines);
}

/// A level that comes or goes before, between or behind those that stand, or one at its price.
fn change(random: &mut Random, making: &Making, side: Side, ladder: &[Decimal]) -> Option<Line> {
    let levels = making.book.sides.side(side);
    let stands = |rung: &usize| levels.iter().any(|level| level.price.value() == ladder[*rung].value());
    let (there, absent): (Vec<usize>, Vec<usize>) = (0..ladder.len()).partition(stands);
    let (first, last) = (*there.first().unwrap_or(&END), *there.last().unwrap_or(&STANDING));
    let way = random.below(8);
    let rungs: Vec<usize> = match way {
        0 => absent.into_iter().filter(|&rung| rung < first).collect(),
        1 => absent.into_iter().filter(|rung| (first..last).contains(rung)).collect(),
        2 => absent.into_iter().filter(|&rung| rung > last).collect(),
        3 => there,
        4 => absent,
        5 => vec![first],
        6 => vec![last],
        _ => there,
    };
    let price = ladder[*rungs.get(random.below(rungs.len().max(1)))?];
    Some(if way < 4 { set(random, side, price) } else { removal(random, side, price) })
}

/// A message that would move levels and is refused, each of its ways in turn; then an update,
/// which the waiting book refuses.
fn refused(random: &mut Random, making: &mut Making, ladders: &Ladders, way: usize) {
    let full = if way == 2 { MAX_ENTRIES } else { random.between(1, 20) };
    start(random, making, ladders, full);
    let place = random.below(2);
    let (side, ladder) = (Side::BOTH[place], &ladders[place]);
    let price = random.pick(&ladder[..STANDING]);
    let top = set(random, side, price);
    let mut draft = making.draft(random, Kind::Update, vec![top.clone()]);
    match way {
        0 => draft.checksum = (random.next() as u32).to_string(),
        1 => draft.gsn = making.book.number.to_string(),
        3 => {
            let opposite = making.book.sides.side(Side::BOTH[1 - place]);
            let crossing = set(random, side, opposite[0].price);
            draft = making.draft(random, Kind::Update, vec![crossing]);
        }
        4 | 5 => {
            let mut lines = standing(random, ladders, 5);
            let twice = random.below(lines.len());
            lines.push(lines[twice].clone());
            lines.push(top.clone());
            draft = making.draft(random, Kind::Snapshot, lines);
        }
        6 => {
            let lines = standing(random, ladders, 12);
            draft = making.draft(random, Kind::Snapshot, lines);
            draft.checksum = (random.next() as u32).to_string();
        }
        _ => {}
    }
    making.send_draft(random, draft);
    making.send(random, Kind::Update, vec![top]);
}

// What came up.

pub const INSERT_EMPTY: &str = "level inserted in an empty side by an update, taken";
pub const INSERT_TOP: &str = "level inserted at the top, taken";
pub const INSERT_MIDDLE: &str = "level inserted in the middle, taken";
pub const INSERT_END: &str = "level inserted at the end, taken";
pub const REMOVE_ONLY: &str = "only level removed, taken";
pub const REMOVE_TOP: &str = "level removed at the top, taken";
pub const REMOVE_MIDDLE: &str = "level removed in the middle, taken";
pub const REMOVE_END: &str = "level removed at the end, taken";
pub const REPLACE: &str = "level replaced above others, taken";
pub const NOTHING: &str = "absent price removed above others, taken";
pub const SET_SET: &str = "new price set and set again in one message, taken";
pub const SET_REMOVE: &str = "new price set and removed in one message, taken";
pub const REMOVE_SET: &str = "standing price removed and set in one message, taken";
pub const REMOVE_REMOVE: &str = "standing price removed and removed again in one message, taken";
pub const BEST_FIRST: &str = "snapshot with over one level a side, best first, taken";
pub const WORST_FIRST: &str = "snapshot with over one level a side, worst first, taken";
pub const BOTH: &str = "levels moved on both sides, taken";
pub const NONE: &str = "entries on both sides and no level moved, taken";
pub const MOST: &str = "update that moved as many levels as its entries can, taken";
pub const LARGEST: &str = "29,900 levels moved, taken";
pub const PAST: &str = "level inserted past the depth above others and cut, taken";
pub const PAST_END: &str = "level inserted past the depth at the end and cut, taken";
pub const PUSHED: &str = "level inserted above the depth and cut, taken";
pub const STOOD: &str = "level that stood cut, taken";
pub const REFUSED_9: &str = "entries that would move levels, 9";
pub const REFUSED_10: &str = "entries that would move levels, 10";
pub const REFUSED_11: &str = "entries that would move levels, 11";
pub const REFUSED_12: &str = "entries that would move levels, 12";
pub const REFUSED_13: &str = "entries that would move levels, 13";
pub const REFUSED_16: &str = "entries that would move levels, 16";

/// What has to come up in a dialect.
pub fn causes(dialect: Dialect) -> Vec<&'static str> {
    let both = [
        INSERT_EMPTY, INSERT_TOP, INSERT_MIDDLE, INSERT_END, REMOVE_ONLY, REMOVE_TOP, REMOVE_MIDDLE, REMOVE_END, REPLACE, NOTHING,
        SET_SET, SET_REMOVE, REMOVE_SET, REMOVE_REMOVE, BEST_FIRST, WORST_FIRST, BOTH, NONE, MOST, REFUSED_9, REFUSED_10,
        REFUSED_13, REFUSED_16,
    ];
    match dialect {
        Dialect::K => [both.as_slice(), &[LARGEST, PAST, PAST_END, PUSHED, STOOD]].concat(),
        Dialect::M1 | Dialect::M2 => [both.as_slice(), &[REFUSED_11, REFUSED_12]].concat(),
    }
}

/// What a snapshot that names a price twice brings up.
pub fn seen_twice(settings: &Settings, text: &[u8], answer: u8) -> Vec<&'static str> {
    let would = |message: &Message| Sides::default().moved(message) > 0;
    match (answer, message::read_to_8(settings, text)) {
        (9, Ok(message)) if would(&message) => vec![REFUSED_9],
        _ => vec![],
    }
}

/// What a message brings up; `before` are the sides that it found, `after` those that it gives.
pub fn seen(settings: &Settings, message: &Message, before: &Sides, after: &Sides, answer: u8) -> Vec<&'static str> {
    let moved = before.moved(message);
    match answer {
        0 => taken(settings, message, before, after),
        _ if moved == 0 => vec![],
        10 => vec![REFUSED_10],
        11 => vec![REFUSED_11],
        12 => vec![REFUSED_12],
        13 => vec![REFUSED_13],
        16 => vec![REFUSED_16],
        _ => vec![],
    }
}

fn taken(settings: &Settings, message: &Message, before: &Sides, after: &Sides) -> Vec<&'static str> {
    let uncut = before.uncut(message);
    let mut seen = Vec::new();
    let mut moved = Vec::new();
    for side in Side::BOTH {
        let entries = message.entries.iter().filter(|entry| entry.side == side);
        let steps: Vec<(&Entry, Step)> = entries.zip(before.steps(message, side)).collect();
        let count: usize = steps.iter().map(|(_, step)| step.moved()).sum();
        moved.extend((!steps.is_empty()).then_some(count));
        match message.kind {
            Kind::Snapshot => seen.extend(seen_order(&steps)),
            Kind::Update => {
                seen.extend(steps.iter().filter_map(|(_, step)| seen_step(*step)));
                seen.extend(seen_again(&steps));
                let found = before.side(side).len();
                if found > 0 && steps.len() > 1 && count == most_moved(steps.len(), found) {
                    seen.push(MOST);
                }
            }
        }
        let cut = &uncut.side(side)[after.side(side).len()..];
        seen.extend(cut.iter().map(|level| seen_cut(settings, &steps, level)));
    }
    match moved[..] {
        [0, 0] => seen.push(NONE),
        [14_950, 14_950] => seen.extend([BOTH, LARGEST]),
        [bids, asks] if bids > 0 && asks > 0 => seen.push(BOTH),
        _ => {}
    }
    seen
}

fn seen_step(step: Step) -> Option<&'static str> {
    let Step { act, place, count } = step;
    match act {
        Act::Insert if count == 0 => Some(INSERT_EMPTY),
        Act::Insert if place == 0 => Some(INSERT_TOP),
        Act::Insert if place == count => Some(INSERT_END),
        Act::Insert => Some(INSERT_MIDDLE),
        Act::Remove if count == 1 => Some(REMOVE_ONLY),
        Act::Remove if place == 0 => Some(REMOVE_TOP),
        Act::Remove if place == count - 1 => Some(REMOVE_END),
        Act::Remove => Some(REMOVE_MIDDLE),
        Act::Replace => (place + 1 < count).then_some(REPLACE),
        Act::Nothing => (place < count).then_some(NOTHING),
    }
}

/// Two entries of an update at one price, with none at that price between them.
fn seen_again(steps: &[(&Entry, Step)]) -> Vec<&'static str> {
    let mut seen = Vec::new();
    for (place, (entry, step)) in steps.iter().enumerate() {
        let value = entry.level.price.value();
        let next = steps[place + 1..].iter().find(|(other, _)| other.level.price.value() == value);
        match (step.act, next.map(|(_, step)| step.act)) {
            (Act::Insert, Some(Act::Replace)) => seen.push(SET_SET),
            (Act::Insert, Some(Act::Remove)) => seen.push(SET_REMOVE),
            (Act::Remove, Some(Act::Insert)) => seen.push(REMOVE_SET),
            (Act::Remove, Some(Act::Nothing)) => seen.push(REMOVE_REMOVE),
            _ => {}
        }
    }
    seen
}

/// The order of a snapshot's entries.
fn seen_order(steps: &[(&Entry, Step)]) -> Option<&'static str> {
    let many = steps.len() > 1;
    if many && steps.iter().all(|(_, step)| step.place == step.count) {
        return Some(BEST_FIRST);
    }
    (many && steps.iter().all(|(_, step)| step.place == 0)).then_some(WORST_FIRST)
}

/// How a level that is cut came.
fn seen_cut(settings: &Settings, steps: &[(&Entry, Step)], cut: &Level) -> &'static str {
    let is_own = |(entry, step): &&(&Entry, Step)| step.act == Act::Insert && entry.level.price.value() == cut.price.value();
    match steps.iter().rfind(is_own) {
        None => STOOD,
        Some((_, step)) if step.place < settings.depth as usize => PUSHED,
        Some((_, step)) if step.place < step.count => PAST,
        Some(_) => PAST_END,
    }
}

//! Crossed books: messages after which the best bid is not below the best ask, messages
//! that come near, and what came up of them.

use crate::book::{Sides, State};
use crate::decimal::Decimal;
use crate::making::{prices, prices_from, removal, set, sets, Making};
use crate::message::{Entry, Kind, Message, Side, MAX_ENTRIES};
use crate::random::Random;
use crate::session::{Purpose, Session};
use crate::settings::{Dialect, Settings};
use crate::traffic::{respelled, size, Line};
use std::collections::BTreeSet;

/// Messages that cross a book in every way, each on a book that was live before; with prices
/// of few decimals, which can be written in more ways, or of any.
pub fn session(random: &mut Random, purpose: Purpose, dialect: Dialect, few: bool) -> Session {
    let depth = if dialect == Dialect::K { random.pick(&[10, 11, 57, 100]) } else { 100 };
    let mut making = Making::new(purpose, dialect, depth);
    let all = if few { prices_from(random, 95, 2, 2 * MAX_ENTRIES) } else { prices(random, 2 * MAX_ENTRIES) };
    for turn in 0..72 {
        if making.book.state != State::Live {
            let many = random.pick(&[1, 3, 12, MAX_ENTRIES]);
            let lines = standing(random, &all, many);
            making.send(random, Kind::Snapshot, lines);
        }
        match turn % 12 {
            0 => whole(random, &mut making, &all),
            1 => full(random, &mut making, &all),
            2 => on_the_way(random, &mut making),
            3 => beside(random, &mut making, &all),
            4 => one_side(random, &mut making, &all),
            5 => cut(random, &mut making, &all),
            place => over(random, &mut making, place),
        }
    }
    making.made()
}

/// Lines that set `count` levels on each side.
fn standing(random: &mut Random, all: &[Vec<Decimal>; 2], count: usize) -> Vec<Line> {
    let bids = sets(random, Side::Bid, &all[0][..count]);
    [bids, sets(random, Side::Ask, &all[1][..count])].concat()
}

fn other(side: Side) -> Side {
    if side == Side::Bid {
        Side::Ask
    } else {
        Side::Bid
    }
}

/// A line on `side` at the best price of the other side, or better than that.
fn crossing(random: &mut Random, making: &Making, side: Side) -> Option<Line> {
    let opposite = making.book.sides.side(other(side));
    let (best, any) = (opposite.first()?, random.pick(opposite));
    let price = random.pick(&[best.price, best.price, any.price]);
    let price = if random.percent(50) { price.text() } else { respelled(random, price, 90) };
    Some(Line { side, price, size: size(random) })
}

/// A snapshot that is crossed.
fn whole(random: &mut Random, making: &mut Making, all: &[Vec<Decimal>; 2]) {
    let side = random.pick(&Side::BOTH);
    let count = random.pick(&[1, 12, MAX_ENTRIES - 1]);
    let mut lines = standing(random, all, count);
    let price = random.pick(&all[if side == Side::Bid { 1 } else { 0 }][..count]);
    lines.push(set(random, side, price));
    random.shuffle(&mut lines);
    making.send(random, Kind::Snapshot, lines);
}

/// An update that crosses; with a wrong checksum or an old number in some turns.
fn over(random: &mut Random, making: &mut Making, place: usize) {
    let side = random.pick(&Side::BOTH);
    let Some(mut line) = crossing(random, making, side) else { return };
    if place == 8 {
        // The other side's best price, written differently if that can be.
        let best = making.book.sides.side(other(side))[0].price;
        let other_text = (0..20).map(|_| respelled(random, best, 90)).find(|text| *text != best.text());
        line.price = other_text.unwrap_or(best.text());
    }
    let mut draft = making.draft(random, Kind::Update, vec![line]);
    match place {
        6 => draft.checksum = (random.next() as u32).to_string(),
        7 => draft.gsn = making.book.number.to_string(),
        _ => {}
    }
    making.send_draft(random, draft);
}

/// 100 levels stand and one more comes that crosses: too many comes first in M.
fn full(random: &mut Random, making: &mut Making, all: &[Vec<Decimal>; 2]) {
    let lines = standing(random, all, MAX_ENTRIES);
    making.send(random, Kind::Snapshot, lines);
    over(random, making, 8);
}

/// Crossed after an entry and not at the end: the line is taken back, or the other side goes.
fn on_the_way(random: &mut Random, making: &mut Making) {
    let side = random.pick(&Side::BOTH);
    let Some(line) = crossing(random, making, side) else { return };
    let Some(price) = Decimal::read(line.price.as_bytes()) else { return };
    let mut lines = vec![line];
    if random.percent(50) {
        lines.push(removal(random, side, price));
    } else {
        let reached = |value: u128| if side == Side::Bid { value <= price.value() } else { value >= price.value() };
        let levels = making.book.sides.side(other(side)).iter().filter(|level| reached(level.price.value()));
        let gone: Vec<_> = levels.map(|level| level.price).collect();
        lines.extend(gone.into_iter().map(|price| removal(random, other(side), price)));
    }
    making.send(random, Kind::Update, lines);
}

/// The highest of the bids' prices and the lowest of the asks' stand next to each other.
fn beside(random: &mut Random, making: &mut Making, all: &[Vec<Decimal>; 2]) {
    let highest = all[0].iter().max_by_key(|price| price.value());
    let lowest = all[1].iter().min_by_key(|price| price.value());
    let (Some(&highest), Some(&lowest)) = (highest, lowest) else { return };
    let lines = vec![set(random, Side::Bid, highest), set(random, Side::Ask, lowest)];
    let kind = random.pick(&[Kind::Snapshot, Kind::Update]);
    making.send(random, kind, lines);
}

/// One side alone: nothing crosses.
fn one_side(random: &mut Random, making: &mut Making, all: &[Vec<Decimal>; 2]) {
    let side = random.pick(&Side::BOTH);
    let lines = all.iter().flat_map(|prices| sets(random, side, &prices[..20])).collect();
    making.send(random, Kind::Snapshot, lines);
}

/// So many levels come that K cuts the side; the best one crosses.
fn cut(random: &mut Random, making: &mut Making, all: &[Vec<Decimal>; 2]) {
    let side = random.pick(&Side::BOTH);
    let Some(line) = crossing(random, making, side) else { return };
    let prices = &all[if side == Side::Bid { 0 } else { 1 }];
    let mut lines = sets(random, side, &prices[MAX_ENTRIES..2 * MAX_ENTRIES - 1]);
    lines.push(line);
    random.shuffle(&mut lines);
    making.send(random, Kind::Update, lines);
}

// What came up.

pub const SNAPSHOT: &str = "crossed snapshot, 16";
pub const UPDATE: &str = "crossed update, 16";
pub const ALIKE: &str = "crossed by equal prices written alike, 16";
pub const DIFFERENTLY: &str = "crossed by equal prices written differently, 16";
pub const ABOVE: &str = "crossed by a bid above the ask, 16";
pub const RIGHT: &str = "crossed with a right checksum, 16";
pub const WRONG: &str = "crossed with a wrong checksum, 16";
pub const CUT: &str = "crossed by one level of a side that is cut, 16";
pub const MANY: &str = "crossed and too many levels, 12";
pub const OLD: &str = "crossed and an old number, 11";
pub const MIDWAY: &str = "crossed on the way and not at the end, taken";
pub const BESIDE: &str = "best bid one below the best ask in the last decimal, taken";
pub const ONE_SIDE: &str = "a side empty, taken";

/// What has to come up in a dialect.
pub fn causes(dialect: Dialect) -> Vec<&'static str> {
    let both = [SNAPSHOT, UPDATE, ALIKE, DIFFERENTLY, ABOVE, RIGHT, WRONG, MIDWAY, BESIDE, ONE_SIDE];
    match dialect {
        Dialect::K => [both.as_slice(), &[CUT]].concat(),
        Dialect::M1 | Dialect::M2 => [both.as_slice(), &[MANY, OLD]].concat(),
    }
}

/// What a message brings up; `before` are the sides that it found, `after` those that it gives.
pub fn seen(settings: &Settings, message: &Message, before: &Sides, after: &Sides, answer: u8) -> Vec<&'static str> {
    match answer {
        0 => taken(message, before, after),
        11 if after.crossed() => vec![OLD],
        12 if after.crossed() => vec![MANY],
        16 => refused(settings, message, before, after),
        _ => vec![],
    }
}

fn refused(settings: &Settings, message: &Message, before: &Sides, after: &Sides) -> Vec<&'static str> {
    let mut seen = vec![if message.kind == Kind::Snapshot { SNAPSHOT } else { UPDATE }];
    let (bid, ask) = (after.bids[0].price, after.asks[0].price);
    seen.push(match bid.value() == ask.value() {
        true if bid == ask => ALIKE,
        true => DIFFERENTLY,
        false => ABOVE,
    });
    if let Some(sum) = message.checksum {
        seen.push(if sum == after.checksum(settings.dialect) { RIGHT } else { WRONG });
    }
    let uncut = before.uncut(message);
    for side in Side::BOTH {
        let (levels, opposite) = (uncut.side(side), after.side(other(side))[0].price.value());
        let reaches = |value: u128| if side == Side::Bid { value >= opposite } else { value <= opposite };
        let over = levels.iter().filter(|level| reaches(level.price.value())).count();
        if levels.len() > settings.depth as usize && over == 1 {
            seen.push(CUT);
        }
    }
    seen
}

fn taken(message: &Message, before: &Sides, after: &Sides) -> Vec<&'static str> {
    let mut seen = Vec::new();
    match (after.bids.first(), after.asks.first()) {
        (Some(bid), Some(ask)) if is_beside(bid.price, ask.price) => seen.push(BESIDE),
        (None, Some(_)) | (Some(_), None) => seen.push(ONE_SIDE),
        _ => {}
    }
    if crossed_midway(message, before) {
        seen.push(MIDWAY);
    }
    seen
}

/// Whether the bid is one below the ask in the last decimal that either of them has.
fn is_beside(bid: Decimal, ask: Decimal) -> bool {
    let unit = Decimal { digits: 1, decimals: bid.decimals.max(ask.decimals) };
    bid.value() + unit.value() == ask.value()
}

/// Whether the sides are crossed after some entry.
fn crossed_midway(message: &Message, before: &Sides) -> bool {
    let values = |side: Side| -> BTreeSet<u128> {
        before.found(message.kind, side).iter().map(|level| level.price.value()).collect()
    };
    let (mut bids, mut asks) = (values(Side::Bid), values(Side::Ask));
    message.entries.iter().any(|Entry { side, level }| {
        let prices = if *side == Side::Bid { &mut bids } else { &mut asks };
        if level.size.is_zero() {
            prices.remove(&level.price.value());
        } else {
            prices.insert(level.price.value());
        }
        bids.last().zip(asks.first()).is_some_and(|(bid, ask)| bid >= ask)
    })
}

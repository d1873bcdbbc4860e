//! Up to twelve decimals: 22 digits, prices that differ past the ninth decimal alone, and
//! what came up of them.

use crate::book::{Book, Sides, State};
use crate::decimal::Decimal;
use crate::making::{removal, Making, LARGEST_12};
use crate::message::{Entry, Kind, Message, Side, MAX_ENTRIES};
use crate::random::Random;
use crate::session::{Purpose, Session};
use crate::settings::Dialect;
use crate::traffic::{large, respelled, size, Line};

/// 2^64 units of 10^-12.
const WRAP: u128 = 1 << 64;

/// Prices that only all their digits tell apart, in small books and in the longest.
pub fn session(random: &mut Random, purpose: Purpose, dialect: Dialect) -> Session {
    let mut making = Making::named(purpose, dialect, 100, "0123456789abcdef");
    for turn in 0..60 {
        if making.book.state != State::Live {
            making.send(random, Kind::Snapshot, vec![]);
        }
        let base = 1000 * (random.wide() % 1_000_000_000_000_000_000) + 1_000_000;
        match turn % 10 {
            0 => near(random, &mut making, base),
            1 => near(random, &mut making, LARGEST_12 - 3000),
            2 => wrapped(random, &mut making, base),
            3 => beside(random, &mut making, base, turn / 10),
            4 => spelled(random, &mut making, base),
            5 => smallest(random, &mut making, base),
            6 => too_many(random, &mut making, base),
            7 => longest(random, &mut making),
            8 => decimals(random, &mut making),
            _ => zeros(random, &mut making, base),
        }
        if turn % 10 == 7 || random.percent(10) {
            making.ask(random);
        }
    }
    making.made()
}

fn at(digits: u128) -> Decimal {
    Decimal { digits, decimals: 12 }
}

fn line(random: &mut Random, side: Side, price: Decimal) -> Line {
    let size = if random.percent(50) { large(random).text() } else { size(random) };
    Line { side, price: price.text(), size }
}

/// Prices one unit apart, in any order; then some of them go.
fn near(random: &mut Random, making: &mut Making, base: u128) {
    let mut places: Vec<u128> = (0..20).collect();
    random.shuffle(&mut places);
    let side = |place: u128| if place < 10 { Side::Bid } else { Side::Ask };
    let lines = places.iter().map(|&place| line(random, side(place), at(base + place))).collect();
    making.send(random, Kind::Snapshot, lines);
    random.shuffle(&mut places);
    let lines = places[..7].iter().map(|&place| removal(random, side(place), at(base + place))).collect();
    making.send(random, Kind::Update, lines);
}

/// Prices that are 2^64 units apart, on one side and on both.
fn wrapped(random: &mut Random, making: &mut Making, base: u128) {
    let low = base % (LARGEST_12 - 4 * WRAP) + 1;
    let prices = [0, 1, 2, 3].map(|turn| at(low + turn * WRAP));
    let mut lines: Vec<Line> = prices[..2].iter().map(|&price| line(random, Side::Bid, price)).collect();
    lines.extend(prices[2..].iter().map(|&price| line(random, Side::Ask, price)));
    random.shuffle(&mut lines);
    making.send(random, Kind::Snapshot, lines);
    let gone = random.pick(&prices[..2]);
    let lines = vec![removal(random, Side::Bid, gone)];
    making.send(random, Kind::Update, lines);
}

/// A bid and an ask that are equal up to the ninth decimal: below, equal, or above.
fn beside(random: &mut Random, making: &mut Making, base: u128, turn: usize) {
    let (low, high) = (random.below(500) as u128, random.between(500, 999) as u128);
    let (bid, ask) = [(low, high), (high, low), (low, low)][turn % 3];
    let lines = vec![line(random, Side::Bid, at(base + bid)), line(random, Side::Ask, at(base + ask))];
    let kind = if turn < 3 { Kind::Snapshot } else { Kind::Update };
    making.send(random, kind, lines);
}

/// One price in texts of more and of fewer than nine decimals.
fn spelled(random: &mut Random, making: &mut Making, base: u128) {
    let side = random.pick(&Side::BOTH);
    let price = Decimal { digits: base / 1000, decimals: random.pick(&[0, 3, 9]) };
    let price = if price.value() > LARGEST_12 { at(base) } else { price };
    let lines = vec![line(random, side, price)];
    making.send(random, Kind::Snapshot, lines);
    for _ in 0..3 {
        let price = respelled(random, price, 90);
        let lines = vec![Line { side, price, size: size(random) }];
        making.send(random, Kind::Update, lines);
    }
}

/// Sizes that are zero up to the ninth decimal and not past it.
fn smallest(random: &mut Random, making: &mut Making, base: u128) {
    let side = random.pick(&Side::BOTH);
    let sizes = ["0.000000000001", "0.0000000001", "0.000000000999", "0.00000000010", "0.000000000010"];
    let lines = sizes.map(|size| Line { side, price: at(base + random.below(9) as u128).text(), size: size.to_string() });
    making.send(random, Kind::Update, lines.to_vec());
}

/// Thirteen decimals and more, in a price or in a size.
fn too_many(random: &mut Random, making: &mut Making, base: u128) {
    let mut bad = line(random, Side::Bid, at(base));
    let digits = "0".repeat(random.below(3)) + random.pick(&["0", "5"]);
    if random.percent(50) {
        bad.price += &digits;
    } else {
        bad.size = at(random.wide() % 1_000_000).text() + &digits;
    }
    let kind = random.pick(&[Kind::Snapshot, Kind::Update]);
    making.send(random, kind, vec![bad]);
}

/// A snapshot of 100 levels a side, each text of 23 bytes.
fn longest(random: &mut Random, making: &mut Making) {
    let base = LARGEST_12 - 300;
    let mut lines: Vec<Line> = (0..2 * MAX_ENTRIES as u128)
        .map(|place| {
            let side = if place < MAX_ENTRIES as u128 { Side::Bid } else { Side::Ask };
            Line { side, price: at(base + place).text(), size: at(LARGEST_12 - random.below(1_000_000) as u128).text() }
        })
        .collect();
    random.shuffle(&mut lines);
    making.send(random, Kind::Snapshot, lines);
}

/// Every count of decimals, in prices and in sizes.
fn decimals(random: &mut Random, making: &mut Making) {
    let mut lines = Vec::new();
    for decimals in 0..=12 {
        let digits = |random: &mut Random| 1 + random.wide() % 1_000_000_000;
        let price = Decimal { digits: digits(random), decimals };
        let size = Decimal { digits: digits(random), decimals: 12 - decimals };
        lines.push(Line { side: Side::Bid, price: price.text(), size: size.text() });
    }
    let kind = random.pick(&[Kind::Snapshot, Kind::Update]);
    making.send(random, kind, lines);
}

/// Zeros of ten to twelve decimals: a removal, a price that may not be, a size that may not be.
fn zeros(random: &mut Random, making: &mut Making, base: u128) {
    let zero = "0.000000000000"[..random.between(12, 14)].to_string();
    let mut first = line(random, Side::Ask, at(base));
    let lines = vec![first.clone()];
    making.send(random, Kind::Snapshot, lines);
    let kind = random.pick(&[Kind::Update, Kind::Update, Kind::Snapshot]);
    *(if random.percent(70) { &mut first.size } else { &mut first.price }) = zero;
    making.send(random, kind, vec![first]);
}

// What came up.

const PRICES: [&str; 3] = ["price of 10 decimals, taken", "price of 11 decimals, taken", "price of 12 decimals, taken"];
const SIZES: [&str; 3] = ["size of 10 decimals, taken", "size of 11 decimals, taken", "size of 12 decimals, taken"];
pub const LAST: &str = "prices that differ in the last of 22 digits, taken";
pub const APART: &str = "prices 2^64 units apart on a side, taken";
pub const ONE_PRICE: &str = "price of over nine decimals and the same of nine or fewer, taken";
pub const TINY: &str = "size that is zero up to the ninth decimal alone, taken";
pub const REMOVES: &str = "size of zero with over nine decimals removes, taken";
pub const BELOW: &str = "best bid below the best ask past the ninth decimal alone, taken";
pub const ABOVE: &str = "best bid above the best ask past the ninth decimal alone, 16";
pub const BAD_LONG: &str = "decimal of 13 decimals, 8";
pub const BAD_ZERO: &str = "zero of over nine decimals where none may be, 8";

/// What has to come up in each dialect.
pub const CAUSES: [&str; 15] = [
    PRICES[0], PRICES[1], PRICES[2], SIZES[0], SIZES[1], SIZES[2], LAST, APART, ONE_PRICE, TINY, REMOVES, BELOW, ABOVE, BAD_LONG,
    BAD_ZERO,
];

/// Whether the book is live and its snapshot is as long as any.
pub fn is_longest(book: &Book) -> bool {
    let long = |text: String| text.len() == 23;
    let full = |side: Side| {
        let levels = book.sides.side(side);
        levels.len() == 100 && levels.iter().all(|level| long(level.price.text()) && long(level.size.text()))
    };
    let named = book.settings.as_ref().is_some_and(|settings| settings.name.len() == 16);
    book.state == State::Live && named && Side::BOTH.into_iter().all(full)
}

/// What a first bad text brings up, with its quotes.
pub fn seen_bad(text: Option<&[u8]>) -> Vec<&'static str> {
    let text = text.map_or("".into(), String::from_utf8_lossy);
    let inner = text.trim_matches('"');
    match inner.split_once('.') {
        Some((_, part)) if part.len() == 13 && part.bytes().all(|byte| byte.is_ascii_digit()) => vec![BAD_LONG],
        Some(("0", part)) if (10..=12).contains(&part.len()) && part.bytes().all(|byte| byte == b'0') => vec![BAD_ZERO],
        _ => vec![],
    }
}

/// What a message brings up; `before` are the sides that it found, `after` those that it gives.
pub fn seen(message: &Message, before: &Sides, after: &Sides, answer: u8) -> Vec<&'static str> {
    match answer {
        0 => taken(message, before, after),
        16 => {
            let (bid, ask) = (after.bids[0].price.value(), after.asks[0].price.value());
            if bid > ask && bid / 1000 == ask / 1000 {
                vec![ABOVE]
            } else {
                vec![]
            }
        }
        _ => vec![],
    }
}

fn taken(message: &Message, before: &Sides, after: &Sides) -> Vec<&'static str> {
    let mut seen = Vec::new();
    for Entry { side, level } in &message.entries {
        let (price, size) = (level.price, level.size);
        for (decimal, names) in [(price, PRICES), (size, SIZES)] {
            if decimal.decimals > 9 {
                seen.push(names[decimal.decimals as usize - 10]);
            }
        }
        if size.words()[0] == 0 && size.words()[1] > 0 {
            seen.push(TINY);
        }
        let stood = before.side(*side).iter().find(|level| level.price.value() == price.value());
        if let Some(stood) = stood.filter(|_| message.kind == Kind::Update) {
            if size.is_zero() && size.decimals > 9 {
                seen.push(REMOVES);
            }
            if (stood.price.decimals > 9) != (price.decimals > 9) {
                seen.push(ONE_PRICE);
            }
        }
    }
    seen.extend(standing(after));
    seen
}

/// What the levels of a book bring up.
fn standing(sides: &Sides) -> Vec<&'static str> {
    const LONG: u128 = 1_000_000_000_000_000_000_000;
    let mut seen = Vec::new();
    for side in Side::BOTH {
        let values: Vec<u128> = sides.side(side).iter().map(|level| level.price.value()).collect();
        if values.windows(2).any(|pair| pair[0] >= LONG && pair[0].abs_diff(pair[1]) == 1) {
            seen.push(LAST);
        }
        if values.len() < 10 && values.iter().any(|value| values.contains(&(value + WRAP))) {
            seen.push(APART);
        }
    }
    if let (Some(bid), Some(ask)) = (sides.bids.first(), sides.asks.first()) {
        if bid.price.value() / 1000 == ask.price.value() / 1000 {
            seen.push(BELOW);
        }
    }
    seen
}

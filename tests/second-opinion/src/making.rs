//! Sessions in the making: messages are made for the book as it stands, with right
//! checksums, and handed to it.

use crate::book::{Book, Scope, Sides, State};
use crate::decimal::Decimal;
use crate::message::{Kind, Side, MAX_MESSAGE};
use crate::random::Random;
use crate::session::{Call, Opening, Purpose, Session};
use crate::settings::{Dialect, Settings};
use crate::traffic::{finished, large, respelled, size, zero, Draft, Line};
use crate::value::{Blanks, Value};

pub const AT: u128 = 1 << 63;
/// The largest digits, with nine decimals and with twelve.
pub const LARGEST: u128 = 9_999_999_999_999_999_999;
pub const LARGEST_12: u128 = 9_999_999_999_999_999_999_999;

/// A session in the making, and the book so far.
pub struct Making {
    pub settings: Settings,
    pub book: Book,
    pub calls: Vec<Call>,
    pub purpose: Purpose,
    /// The dialect as the first line says it.
    pub spelled: &'static str,
}

impl Making {
    pub fn new(purpose: Purpose, dialect: Dialect, depth: u64) -> Making {
        Making::named(purpose, dialect, depth, "XBT/USD")
    }

    pub fn named(purpose: Purpose, dialect: Dialect, depth: u64, name: &str) -> Making {
        let settings = Settings { dialect, depth, name: name.as_bytes().to_vec() };
        Making { book: Book::open(Some(settings.clone())), settings, calls: vec![], purpose, spelled: dialect.name() }
    }

    /// The lines as a draft, with the checksum of the book after it and a number that fits.
    pub fn draft(&self, random: &mut Random, kind: Kind, lines: Vec<Line>) -> Draft {
        let gsn = match kind {
            Kind::Snapshot => random.below(1000).to_string(),
            Kind::Update => (self.book.number + 1).to_string(),
        };
        let previous = self.book.number.to_string();
        finished(&self.book, Draft { kind, lines, checksum: String::new(), gsn, previous })
    }

    pub fn value(&self, random: &mut Random, kind: Kind, lines: Vec<Line>) -> Value {
        self.draft(random, kind, lines).value(random, &self.settings)
    }

    pub fn text(&self, random: &mut Random, kind: Kind, lines: Vec<Line>) -> Vec<u8> {
        self.value(random, kind, lines).written(random, Blanks::None)
    }

    pub fn push(&mut self, text: Vec<u8>) {
        self.book.take(&text);
        self.calls.push(Call::Message(text));
    }

    pub fn send(&mut self, random: &mut Random, kind: Kind, lines: Vec<Line>) {
        let text = self.text(random, kind, lines);
        self.push(text);
    }

    pub fn send_draft(&mut self, random: &mut Random, draft: Draft) {
        let text = draft.value(random, &self.settings).written(random, Blanks::None);
        self.push(text);
    }

    /// Everything that the book shows; to the line program, an update that changes
    /// nothing, whose checksum says what stands.
    pub fn ask(&mut self, random: &mut Random) {
        if self.purpose == Purpose::Lines {
            if self.book.state == State::Live {
                self.send(random, Kind::Update, vec![]);
            }
            return;
        }
        let scope = random.pick(&[Scope::Live, Scope::LastGood]);
        for side in Side::BOTH {
            let count = self.book.sides.side(side).len() as u64;
            self.calls.extend((0..=count).map(|place| Call::Level(scope, side, place)));
        }
        let mut room = vec![0; 2 * MAX_MESSAGE];
        let (_, length) = self.book.write(&mut room);
        let writer = [Call::Write(length.saturating_sub(1)), Call::Write(length)];
        self.calls.extend([Call::Levels(scope), Call::Number(scope), Call::Updates(scope)]);
        self.calls.extend(writer);
    }

    /// Removes the ten best levels of each side again and again: one after another, every
    /// level of a K book comes into the checksum.
    pub fn peel(&mut self, random: &mut Random) {
        while self.book.state == State::Live && self.book.sides != Sides::default() {
            let mut lines = Vec::new();
            for side in Side::BOTH {
                let best = self.book.sides.side(side).iter().take(10);
                lines.extend(best.map(|level| removal(random, side, level.price)));
            }
            self.send(random, Kind::Update, lines);
        }
    }

    pub fn made(self) -> Session {
        let Settings { dialect, depth, name } = self.settings;
        let opening = Opening([format!("{} {depth} ", self.spelled).as_bytes(), &name].concat());
        Session { dialect, opening, calls: self.calls }
    }
}

/// `count` different prices for each side, one after another from some base on, the bids
/// below the asks; each side shuffled.
pub fn prices(random: &mut Random, count: usize) -> [Vec<Decimal>; 2] {
    let wide = count as u128;
    let any = random.below(13) as u32;
    let (base, decimals) = random.pick(&[
        (1, any), (95, any), (5_000_000_000, any), (AT - wide, 9), (LARGEST + 1 - 2 * wide, 9), (2 * AT - wide, 12),
        (LARGEST_12 + 1 - 2 * wide, 12),
    ]);
    prices_from(random, base, decimals, count)
}

pub fn prices_from(random: &mut Random, base: u128, decimals: u32, count: usize) -> [Vec<Decimal>; 2] {
    let step = |place: usize| Decimal { digits: base + place as u128, decimals };
    [0..count, count..2 * count].map(|places| {
        let mut all: Vec<Decimal> = places.map(step).collect();
        random.shuffle(&mut all);
        all
    })
}

pub fn set(random: &mut Random, side: Side, price: Decimal) -> Line {
    let size = if random.percent(20) { large(random).text() } else { size(random) };
    Line { side, price: respelled(random, price, 10), size }
}

pub fn removal(random: &mut Random, side: Side, price: Decimal) -> Line {
    Line { side, price: respelled(random, price, 10), size: zero(random) }
}

pub fn sets(random: &mut Random, side: Side, prices: &[Decimal]) -> Vec<Line> {
    prices.iter().map(|&price| set(random, side, price)).collect()
}

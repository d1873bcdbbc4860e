//! The book: a map from price to level for each side, ranked and cut after
//! each message.

use crate::crc::crc32;
use crate::message::{self, Entry, Kind, Level, Message, Refusal, Side};
use crate::settings::{Dialect, Settings};
use crate::steps::{most_moved, steps, Step};
use std::collections::HashMap;

pub const MAX_LEVELS: usize = 100;

/// The levels of a side that M2 sums.
pub const SUMMED: usize = 25;

#[derive(Clone, Copy, Debug, PartialEq, Eq)]
pub enum State {
    Shut,
    Waiting,
    Live,
}

/// Both sides, best level first.
#[derive(Clone, Debug, Default, PartialEq, Eq)]
pub struct Sides {
    pub bids: Vec<Level>,
    pub asks: Vec<Level>,
}

/// A waiting book keeps sides, number and count as last good.
#[derive(Clone, Debug, PartialEq, Eq)]
pub struct Book {
    pub settings: Option<Settings>,
    pub state: State,
    pub sides: Sides,
    pub number: u64,
    pub count: u32,
    pub ever: bool,
}

/// Which book a question is about.
#[derive(Clone, Copy, Debug, PartialEq, Eq)]
pub enum Scope {
    Live,
    LastGood,
}

impl Sides {
    pub fn side(&self, side: Side) -> &[Level] {
        match side {
            Side::Bid => &self.bids,
            Side::Ask => &self.asks,
        }
    }

    /// The levels of a side that a message of this kind starts from.
    pub fn found(&self, kind: Kind, side: Side) -> &[Level] {
        match kind {
            Kind::Snapshot => &[],
            Kind::Update => self.side(side),
        }
    }

    /// What the message does to a side, entry by entry.
    pub fn steps(&self, message: &Message, side: Side) -> Vec<Step> {
        steps(side, self.found(message.kind, side), &message.entries)
    }

    /// How many levels the message moves, entry by entry and before any cut; never more than its entries can.
    pub fn moved(&self, message: &Message) -> u64 {
        let on = |side: Side| {
            let (found, steps) = (self.found(message.kind, side).len(), self.steps(message, side));
            let moved: usize = steps.iter().map(|step| step.moved()).sum();
            assert!(moved <= most_moved(steps.len(), found), "{} entries on {found} levels moved {moved}", steps.len());
            moved as u64
        };
        Side::BOTH.map(on).iter().sum()
    }

    /// These sides after `entries`, in their order; nothing is cut.
    pub fn with(&self, entries: &[Entry]) -> Sides {
        let side = |side: Side| -> HashMap<u128, Level> {
            let mut levels: HashMap<u128, Level> =
                self.side(side).iter().map(|&level| (level.price.value(), level)).collect();
            for entry in entries.iter().filter(|entry| entry.side == side) {
                let price = entry.level.price.value();
                if entry.level.size.is_zero() {
                    levels.remove(&price);
                } else {
                    levels.insert(price, entry.level);
                }
            }
            levels
        };
        let mut bids: Vec<Level> = side(Side::Bid).into_values().collect();
        let mut asks: Vec<Level> = side(Side::Ask).into_values().collect();
        bids.sort_by_key(|level| std::cmp::Reverse(level.price.value()));
        asks.sort_by_key(|level| level.price.value());
        Sides { bids, asks }
    }

    /// These sides as the message leaves them, before any cut.
    pub fn uncut(&self, message: &Message) -> Sides {
        match message.kind {
            Kind::Snapshot => Sides::default().with(&message.entries),
            Kind::Update => self.with(&message.entries),
        }
    }

    /// Both sides have levels, and the best bid is not below the best ask.
    pub fn crossed(&self) -> bool {
        match (self.bids.first(), self.asks.first()) {
            (Some(bid), Some(ask)) => bid.price.value() >= ask.price.value(),
            _ => false,
        }
    }

    fn cut(&mut self, depth: usize) {
        self.bids.truncate(depth);
        self.asks.truncate(depth);
    }

    pub fn checksum_text(&self, dialect: Dialect) -> String {
        match dialect {
            Dialect::K => self.text_k(),
            Dialect::M1 => self.text_m(usize::MAX),
            Dialect::M2 => self.text_m(SUMMED),
        }
    }

    pub fn checksum(&self, dialect: Dialect) -> u32 {
        crc32(self.checksum_text(dialect).as_bytes())
    }

    fn text_k(&self) -> String {
        let best = self.asks.iter().take(10).chain(self.bids.iter().take(10));
        best.map(|level| level.price.stripped() + &level.size.stripped()).collect()
    }

    /// Of the best `most` levels of each side.
    fn text_m(&self, most: usize) -> String {
        let mut parts = Vec::new();
        for place in 0..self.bids.len().max(self.asks.len()).min(most) {
            for side in [&self.bids, &self.asks] {
                if let Some(level) = side.get(place) {
                    parts.push(format!("{}:{}", level.price.text(), level.size.text()));
                }
            }
        }
        parts.join(":")
    }
}

impl Book {
    /// A waiting book, or a shut one if the settings are bad.
    pub fn open(settings: Option<Settings>) -> Book {
        let state = if settings.is_some() { State::Waiting } else { State::Shut };
        Book { settings, state, sides: Sides::default(), number: 0, count: 0, ever: false }
    }

    /// The answer number; the book is changed as the table says.
    pub fn take(&mut self, text: &[u8]) -> u8 {
        self.take_counting(text).0
    }

    /// As `take`, and how many levels the message moved: none if it is refused.
    pub fn take_counting(&mut self, text: &[u8]) -> (u8, u64) {
        let Some(settings) = self.settings.clone() else { return (1, 0) };
        self.take_read(&settings, &message::read(&settings, text))
    }

    /// As `take_counting`, of a message that was read with these settings.
    pub fn take_read(&mut self, settings: &Settings, read: &Result<Message, Refusal>) -> (u8, u64) {
        let outcome = match read {
            Ok(message) => self.apply(settings, message),
            Err(refusal) => Err(*refusal),
        };
        match outcome {
            Ok(moved) => (0, moved),
            Err(number) => {
                if number != 5 && number != 10 {
                    self.state = State::Waiting;
                }
                (number, 0)
            }
        }
    }

    /// The sides as the message leaves them, if nothing refuses it.
    pub fn after(&self, settings: &Settings, message: &Message) -> Sides {
        let mut sides = self.sides.uncut(message);
        if settings.dialect == Dialect::K {
            sides.cut(settings.depth as usize);
        }
        sides
    }

    /// Checks 10 to 13 and 16, the book after a taken message, and how many levels it moved.
    fn apply(&mut self, settings: &Settings, message: &Message) -> Result<u64, Refusal> {
        let moved = self.sides.moved(message);
        let is_update = message.kind == Kind::Update;
        let is_m = settings.dialect != Dialect::K;
        if is_update && self.state != State::Live {
            return Err(10);
        }
        let wrong_previous = message.previous.is_some_and(|previous| previous != self.number);
        if is_m && is_update && (message.gsn <= self.number || wrong_previous) {
            return Err(11);
        }
        let sides = self.after(settings, message);
        if is_m && (sides.bids.len() > MAX_LEVELS || sides.asks.len() > MAX_LEVELS) {
            return Err(12);
        }
        if sides.crossed() {
            return Err(16);
        }
        if message.checksum.is_some_and(|sum| sum != sides.checksum(settings.dialect)) {
            return Err(13);
        }
        self.sides = sides;
        self.number = message.gsn;
        self.count = if is_update { self.count.saturating_add(1) } else { 0 };
        self.state = State::Live;
        self.ever = true;
        Ok(moved)
    }

    /// Whether a question about this book is refused.
    fn refusal(&self, scope: Scope) -> Option<Refusal> {
        let there = match scope {
            Scope::Live => self.state == State::Live,
            Scope::LastGood => self.ever,
        };
        match self.state {
            State::Shut => Some(1),
            _ if !there => Some(10),
            _ => None,
        }
    }

    /// Answer number, how many bids and how many asks.
    pub fn levels(&self, scope: Scope) -> (u8, usize, usize) {
        match self.refusal(scope) {
            Some(number) => (number, 0, 0),
            None => (0, self.sides.bids.len(), self.sides.asks.len()),
        }
    }

    /// Answer number and a level, counted from 0 as best.
    pub fn level(&self, scope: Scope, side: Side, place: u64) -> (u8, Level) {
        if let Some(number) = self.refusal(scope) {
            return (number, Level::default());
        }
        let found = usize::try_from(place).ok().and_then(|place| self.sides.side(side).get(place));
        found.map_or((14, Level::default()), |&level| (0, level))
    }

    /// Answer number and the book's number.
    pub fn book_number(&self, scope: Scope) -> (u8, u64) {
        self.refusal(scope).map_or((0, self.number), |number| (number, 0))
    }

    /// Answer number and the count of updates since the snapshot.
    pub fn updates(&self, scope: Scope) -> (u8, u32) {
        self.refusal(scope).map_or((0, self.count), |number| (number, 0))
    }

    /// Writes a live book into `room` as a snapshot: answer number and length.
    pub fn write(&self, room: &mut [u8]) -> (u8, usize) {
        if let Some(number) = self.refusal(Scope::Live) {
            return (number, 0);
        }
        let text = self.snapshot_text();
        if room.len() < text.len() {
            return (15, 0);
        }
        room[..text.len()].copy_from_slice(&text);
        (0, text.len())
    }

    fn snapshot_text(&self) -> Vec<u8> {
        let settings = self.settings.as_ref().expect("a live book has settings");
        let name = String::from_utf8(settings.name.clone()).expect("names are ASCII");
        let depth = settings.depth;
        match settings.dialect {
            Dialect::K => {
                let stamp = ",\"0.000000\"";
                let (asks, bids) = (entries_text(&self.sides.asks, stamp), entries_text(&self.sides.bids, stamp));
                format!("[0,{{\"as\":{asks},\"bs\":{bids}}},\"book-{depth}\",\"{name}\"]")
            }
            Dialect::M1 | Dialect::M2 => {
                let (bids, asks) = (entries_text(&self.sides.bids, ""), entries_text(&self.sides.asks, ""));
                let data = format!("{{\"bids\":{bids},\"asks\":{asks}}}");
                let (sum, gsn) = (self.sides.checksum(settings.dialect), self.number);
                format!("{{\"channel\":\"book\",\"product\":\"{name}\",\"type\":\"snapshot\",\"data\":{data},\"checksum\":{sum},\"gsn\":{gsn}}}")
            }
        }
        .into_bytes()
    }
}

/// An array of entries; `rest` follows the size in each.
fn entries_text(levels: &[Level], rest: &str) -> String {
    let entry = |level: &Level| format!("[\"{}\",\"{}\"{rest}]", level.price.text(), level.size.text());
    format!("[{}]", levels.iter().map(entry).collect::<Vec<_>>().join(","))
}

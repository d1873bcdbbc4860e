//! What came up in the calls that were compared, beside the answer numbers: the
//! ends of the rules that chance alone would rarely reach.

use crate::book::{Book, Scope, Sides};
use crate::crossed;
use crate::escapes;
use crate::linked;
use crate::message::{self, BadText, Level, Message, Side};
use crate::moved;
use crate::session::{Call, Session};
use crate::settings::{Dialect, Settings};
use crate::twelve;
use std::collections::{BTreeMap, BTreeSet};

pub const FULL_K: &str = "working side of 200 levels, K, taken";
pub const FULL_M: &str = "working side of 200 levels, M, refused 12";
pub const MIDWAY: &str = "over 100 levels midway, M, taken";
pub const MIDWAY_FULL: &str = "over 100 levels midway and 100 at the end, M, taken";
pub const PRICE_BELOW: &str = "price with the digits 2^63 - 1, taken";
pub const PRICE_AT: &str = "price with the digits 2^63, taken";
pub const PRICE_ABOVE: &str = "price with digits above 2^63, taken";
pub const SIZE_BELOW: &str = "size with the digits 2^63 - 1, taken";
pub const SIZE_AT: &str = "size with the digits 2^63, taken";
pub const SIZE_ABOVE: &str = "size with digits above 2^63, taken";
pub const PRICE_SHOWN: &str = "level shown, price with the digits 2^63 or above";
pub const SIZE_SHOWN: &str = "level shown, size with the digits 2^63 or above";
pub const PRICE_PAST: &str = "level shown, price with digits past the ninth decimal";
pub const SIZE_PAST: &str = "level shown, size with digits past the ninth decimal";
pub const LONGEST: &str = "longest snapshot written";
pub const FILE: &str = "file longer than a block";
pub const ACROSS: &str = "file with a line across a block's end";
pub const AT_END: &str = "file with a line end at a block's end";
pub const CHECKED: &str = "first bad text asked for";
pub const BAD_PRICE: &str = "first bad text, a price";
pub const BAD_SIZE: &str = "first bad text, a size";
pub const BAD_ASK: &str = "first bad text, on an ask before a bad bid";
pub const BAD_BID: &str = "first bad text, on a bid before a bad ask";
pub const BAD_BOTH: &str = "first bad text, a price before a bad size";
pub const BAD_NONE: &str = "first bad text, none";

/// What every run has to bring up.
const ALWAYS: [&str; 10] = [
    FULL_K, FULL_M, MIDWAY, MIDWAY_FULL, PRICE_BELOW, PRICE_AT, PRICE_ABOVE, SIZE_BELOW, SIZE_AT, SIZE_ABOVE,
];
/// What a run of every call has to bring up.
const CALLS: [&str; 5] = [PRICE_SHOWN, SIZE_SHOWN, PRICE_PAST, SIZE_PAST, LONGEST];
/// What a run against the line program has to bring up, beside the bad first lines.
const LINES: [&str; 3] = [FILE, ACROSS, AT_END];
/// What a run with the program for the first bad text has to bring up.
const BAD: [&str; 7] = [CHECKED, BAD_PRICE, BAD_SIZE, BAD_ASK, BAD_BID, BAD_BOTH, BAD_NONE];

/// The depths of K.
pub const DEPTHS: std::ops::RangeInclusive<u64> = 10..=100;

/// The block of bytes whose ends a file is to have lines across.
pub const BLOCK: usize = 65_536;

#[derive(Default)]
pub struct Seen {
    counts: BTreeMap<String, u64>,
    /// The K depths to which a side was cut.
    depths: BTreeSet<u64>,
}

/// What a run compares with.
#[derive(Clone, Copy)]
pub struct Against {
    pub lines: bool,
    pub first_bad: bool,
}

impl Seen {
    pub fn count(&mut self, name: &str) {
        *self.counts.entry(name.to_string()).or_insert(0) += 1;
    }

    pub fn times(&self, name: &str) -> u64 {
        self.counts.get(name).copied().unwrap_or(0)
    }

    /// Runs the session on this book once more and counts.
    pub fn session(&mut self, session: &Session) {
        let mut book = Book::open(session.opening.settings());
        let Some(settings) = book.settings.clone() else { return };
        self.causes(settings.dialect, linked::seen_opening(&settings, session.opening.line()));
        for call in &session.calls {
            match call {
                Call::Message(text) => self.message(&mut book, &settings, text),
                Call::Level(scope, side, place) => self.level(&book, *scope, *side, *place),
                Call::Write(room) if twelve::is_longest(&book) && book.write(&mut vec![0; *room]).0 == 0 => self.count(LONGEST),
                _ => {}
            }
        }
    }

    fn level(&mut self, book: &Book, scope: Scope, side: Side, place: u64) {
        let (_, level) = book.level(scope, side, place);
        for (decimal, large, past) in [(level.price, PRICE_SHOWN, PRICE_PAST), (level.size, SIZE_SHOWN, SIZE_PAST)] {
            let [digits, past_ninth, _] = decimal.words();
            if digits >= 1 << 63 {
                self.count(large);
            }
            if past_ninth > 0 {
                self.count(past);
            }
        }
    }

    fn message(&mut self, book: &mut Book, settings: &Settings, text: &[u8]) {
        let read = message::read(settings, text);
        let (before, number) = (book.sides.clone(), book.number);
        let (answer, _) = book.take_read(settings, &read);
        self.texts(settings, text, answer);
        let Ok(message) = read else { return };
        // A refused message leaves the sides as they were.
        let after = if answer == 0 { book.sides.clone() } else { book.after(settings, &message) };
        self.causes(settings.dialect, crossed::seen(settings, &message, &before, &after, answer));
        self.causes(settings.dialect, twelve::seen(&message, &before, &after, answer));
        self.causes(settings.dialect, linked::seen(settings, &message, number, &before, &after, answer));
        self.causes(settings.dialect, moved::seen(settings, &message, &before, &after, answer));
        for (most, end) in Side::BOTH.map(|side| worked(&before, &message, side)) {
            match (settings.dialect, answer) {
                (Dialect::K, 0) => {
                    if most == 200 {
                        self.count(FULL_K);
                    }
                    if end > settings.depth as usize {
                        self.depths.insert(settings.depth);
                    }
                }
                (Dialect::M1 | Dialect::M2, 12) if most == 200 => self.count(FULL_M),
                (Dialect::M1 | Dialect::M2, 0) if most > 100 => {
                    self.count(MIDWAY);
                    if end == 100 {
                        self.count(MIDWAY_FULL);
                    }
                }
                _ => {}
            }
        }
        if answer == 0 {
            message.entries.iter().for_each(|entry| self.digits(&entry.level));
        }
    }

    /// What the texts of a message brought up.
    fn texts(&mut self, settings: &Settings, text: &[u8], answer: u8) {
        let bad = (answer == 8).then(|| &text[message::first_bad(Some(settings), text)]);
        self.causes(settings.dialect, escapes::seen(settings, text, answer, bad));
        self.causes(settings.dialect, linked::seen_texts(settings, text, answer));
        self.causes(settings.dialect, twelve::seen_bad(bad));
        self.causes(settings.dialect, moved::seen_twice(settings, text, answer));
    }

    /// Why a message got its answer, counted for each dialect.
    fn causes(&mut self, dialect: Dialect, causes: Vec<&str>) {
        causes.into_iter().for_each(|cause| self.count(&of_dialect(dialect, cause)));
    }

    fn digits(&mut self, level: &Level) {
        const AT: u64 = 1 << 63;
        for (digits, names) in [
            (level.price.words()[0], [PRICE_BELOW, PRICE_AT, PRICE_ABOVE]),
            (level.size.words()[0], [SIZE_BELOW, SIZE_AT, SIZE_ABOVE]),
        ] {
            if digits + 1 == AT {
                self.count(names[0]);
            } else if digits == AT {
                self.count(names[1]);
            } else if digits > AT {
                self.count(names[2]);
            }
        }
    }

    /// The texts of a message that break check 8, where the first was compared.
    pub fn bad_texts(&mut self, texts: &[BadText]) {
        self.count(CHECKED);
        let Some(first) = texts.first() else { return self.count(BAD_NONE) };
        self.count(if first.is_price { BAD_PRICE } else { BAD_SIZE });
        if texts.iter().any(|other| other.side != first.side) {
            self.count(if first.side == Side::Ask { BAD_ASK } else { BAD_BID });
        }
        if first.is_price && texts.get(1).is_some_and(|second| !second.is_price) {
            self.count(BAD_BOTH);
        }
    }

    /// An input that was handed over as a file.
    pub fn file(&mut self, input: &[u8]) {
        if input.len() <= BLOCK {
            return;
        }
        self.count(FILE);
        self.count(if input[BLOCK - 1] == b'\n' { AT_END } else { ACROSS });
    }

    /// What did not come up and had to.
    pub fn missing(&self, against: Against, first_lines: &[&str]) -> Vec<String> {
        let mut wanted: Vec<&str> = ALWAYS.to_vec();
        if against.lines {
            wanted.extend(LINES);
            wanted.extend(first_lines);
        } else {
            wanted.extend(CALLS);
        }
        if against.first_bad {
            wanted.extend(BAD);
        }
        let mut missing: Vec<String> =
            wanted.iter().filter(|name| self.times(name) == 0).map(|name| name.to_string()).collect();
        missing.extend(causes(against.lines).into_iter().filter(|name| self.times(name) == 0));
        missing.extend(DEPTHS.filter(|depth| !self.depths.contains(depth)).map(|depth| format!("K depth {depth}")));
        missing
    }

    /// A line for each, with how often it came up.
    pub fn report(&self) -> String {
        let line = |(name, times): (&String, &u64)| format!("{times:>9}  {name}\n");
        let depths = format!("{:>9}  K depths to which a side was cut\n", self.depths.len());
        self.counts.iter().map(line).collect::<String>() + &depths
    }
}

fn of_dialect(dialect: Dialect, cause: &str) -> String {
    format!("{}: {cause}", dialect.name())
}

/// What a run has to bring up in each dialect; the line program shows no count of moved levels.
pub fn causes(lines: bool) -> Vec<String> {
    let of = |dialect: Dialect| {
        let moved = if lines { vec![] } else { moved::causes(dialect) };
        let all =
            [escapes::causes(dialect), crossed::causes(dialect), linked::causes(dialect), twelve::CAUSES.to_vec(), moved].concat();
        all.into_iter().map(move |cause| of_dialect(dialect, cause))
    };
    Dialect::ALL.into_iter().flat_map(of).collect()
}

/// The most levels that a side has while the message is worked, and how many before any cut.
fn worked(before: &Sides, message: &Message, side: Side) -> (usize, usize) {
    let found = before.found(message.kind, side).len();
    let left: Vec<usize> = before.steps(message, side).iter().map(|step| step.left()).collect();
    (left.iter().copied().fold(found, usize::max), left.last().copied().unwrap_or(found))
}

//! Sessions: an opening and the calls to one book, right ones and damaged ones.

use crate::book::{Book, Scope, State};
use crate::damage::{cross, damage_bytes, damage_draft, damage_tree, pad};
use crate::escapes::respell;
use crate::message::{Kind, Side};
use crate::random::Random;
use crate::settings::{Dialect, Settings};
use crate::traffic::{snapshot, update, Market};
use crate::value::Blanks;

#[derive(Clone, Debug, PartialEq, Eq)]
pub enum Call {
    Message(Vec<u8>),
    Levels(Scope),
    Level(Scope, Side, u64),
    Number(Scope),
    Updates(Scope),
    /// Into room of this length.
    Write(usize),
}

/// What a book is opened with, good or bad: line 1, without its end.
#[derive(Clone, Debug)]
pub struct Opening(pub Vec<u8>);

impl Opening {
    pub fn settings(&self) -> Option<Settings> {
        Settings::of_line(&self.0)
    }

    pub fn line(&self) -> &[u8] {
        &self.0
    }
}

#[derive(Clone, Debug)]
pub struct Session {
    /// The dialect that the session is about.
    pub dialect: Dialect,
    pub opening: Opening,
    pub calls: Vec<Call>,
}

impl Session {
    /// Where its answers are counted: damaged settings may be good ones of another dialect.
    pub fn counted_as(&self) -> Dialect {
        self.opening.settings().map_or(self.dialect, |settings| settings.dialect)
    }
}

/// What the sessions are for.
#[derive(Clone, Copy, PartialEq, Eq)]
pub enum Purpose {
    /// Messages alone, without line ends.
    Lines,
    /// Every call, with any byte.
    Calls,
}

/// The answer number of each call, on this book.
pub fn answers(session: &Session) -> Vec<u8> {
    let mut book = Book::open(session.opening.settings());
    session.calls.iter().map(|call| answer(&mut book, call)).collect()
}

fn answer(book: &mut Book, call: &Call) -> u8 {
    match call {
        Call::Message(message) => book.take(message),
        Call::Levels(scope) => book.levels(*scope).0,
        Call::Level(scope, side, place) => book.level(*scope, *side, *place).0,
        Call::Number(scope) => book.book_number(*scope).0,
        Call::Updates(scope) => book.updates(*scope).0,
        Call::Write(room) => book.write(&mut vec![0; *room]).0,
    }
}

const GOOD_NAMES: [&str; 8] = ["BTC-VND", "XBT/USD", "a", "0123456789abcdef", "it's", "~!", "{}[],:", "book"];

const BAD_LINES: [&str; 24] = [
    "", " ", "K", "K 10", "K 10 ", "K 9 a", "K 101 a", "M 99 a", "M 101 a", "M 10 a", "L 10 a", "k 10 a", "K  10 a",
    "K 10  a", "K 10 a ", "K 010 a", "K +10 a", "K 10.0 a", "K\t10 a", "K 10 a\r", "K 18446744073709551626 a",
    "M 100 0123456789abcdefg", "M2 1e2 a", "M 0100 a",
];

/// A session of `length` calls.
pub fn session(random: &mut Random, purpose: Purpose, length: usize) -> Session {
    let dialect = random.pick(&[Dialect::K, Dialect::K, Dialect::K, Dialect::M1, Dialect::M1, Dialect::M2, Dialect::M2]);
    let opening = Opening(match purpose {
        Purpose::Lines => first_line(random, dialect),
        Purpose::Calls => words(random, dialect),
    });
    let mut book = Book::open(opening.settings());
    let mut source = Source { market: Market::new(random), purpose, damage: random.pick(&[3, 15, 15, 40]) };
    let mut calls = Vec::new();
    while calls.len() < length {
        if purpose == Purpose::Calls && random.percent(50) {
            calls.push(question(random, &book));
            continue;
        }
        let message = source.message(random, &book, dialect);
        book.take(&message);
        calls.push(Call::Message(message));
    }
    Session { dialect, opening, calls }
}

fn good_depth(random: &mut Random, dialect: Dialect) -> u64 {
    match dialect {
        Dialect::K if random.percent(50) => random.between(10, 100) as u64,
        Dialect::K => random.pick(&[10, 10, 11, 99, 100]),
        Dialect::M1 | Dialect::M2 => 100,
    }
}

/// The dialect as settings say it.
fn spelled(random: &mut Random, dialect: Dialect) -> &'static str {
    match dialect {
        Dialect::M1 => random.pick(&["M", "M1"]),
        _ => dialect.name(),
    }
}

/// Settings that are good, or now and then bad, with any bytes.
fn words(random: &mut Random, dialect: Dialect) -> Vec<u8> {
    let mut letters = spelled(random, dialect).as_bytes().to_vec();
    let mut depth = good_depth(random, dialect);
    let mut name = random.pick(&GOOD_NAMES).as_bytes().to_vec();
    if random.percent(10) {
        match random.below(5) {
            0 => letters = vec![(random.next() % 256) as u8],
            1 => letters.push(random.pick(b"0123 KM")),
            2 => depth = random.pick(&[0, 9, 10, 99, 100, 101, 256 + 100, (1 << 32) + 100, u64::MAX]),
            3 => name = vec![b'n'; random.pick(&[0, 1, 15, 16, 17, 255, 256, 257, 272, 40_000])],
            _ => {
                let place = random.below(name.len());
                name[place] = (random.next() % 256) as u8;
            }
        }
    }
    [letters.as_slice(), format!(" {depth} ").as_bytes(), name.as_slice()].concat()
}

/// The first line: settings that are good, or now and then bad, without line ends.
fn first_line(random: &mut Random, dialect: Dialect) -> Vec<u8> {
    let depth = good_depth(random, dialect);
    let name = random.pick(&GOOD_NAMES).as_bytes();
    let letter = spelled(random, dialect);
    if random.percent(95) {
        return [format!("{letter} {depth} ").as_bytes(), name].concat();
    }
    match random.below(3) {
        0 => {
            let byte = (random.next() % 256) as u8;
            let byte = if byte == b'\n' { 0 } else { byte };
            [format!("{letter} {depth} ").as_bytes(), name, &[byte]].concat()
        }
        1 => format!("{letter} {} a", random.below(130)).into_bytes(),
        _ => random.pick(&BAD_LINES).as_bytes().to_vec(),
    }
}

struct Source {
    market: Market,
    purpose: Purpose,
    /// How many messages in a hundred are damaged.
    damage: usize,
}

impl Source {
    fn message(&mut self, random: &mut Random, book: &Book, dialect: Dialect) -> Vec<u8> {
        let stand_in = Settings { dialect, depth: 100, name: b"a".to_vec() };
        let settings = book.settings.clone().unwrap_or(stand_in);
        let kind = self.kind(random, book);
        let filling = random.percent(if self.market.spread > 100 { 12 } else { 4 });
        let mut draft = match kind {
            Kind::Snapshot => snapshot(random, book, &self.market),
            Kind::Update => update(random, book, &self.market, filling),
        };
        if random.percent(3) {
            draft = cross(random, book, &self.market, draft);
        }
        let damaged = random.percent(self.damage);
        let place = if damaged { random.below(10) } else { 10 };
        if place < 5 {
            draft = damage_draft(random, book, &self.market, draft);
        }
        let mut tree = draft.value(random, &settings);
        if random.percent(12) {
            respell(random, &settings, &mut tree);
        }
        if (4..9).contains(&place) {
            tree = damage_tree(random, &settings, tree);
        }
        let blanks = self.blanks(random);
        let bytes = tree.written(random, blanks);
        match place {
            8 | 9 => damage_bytes(random, bytes),
            _ if random.below(200) == 0 => pad(random, bytes),
            _ => bytes,
        }
    }

    /// A live book mostly gets updates, a waiting one mostly snapshots.
    fn kind(&self, random: &mut Random, book: &Book) -> Kind {
        let snapshots = if book.state == State::Live { 8 } else { 75 };
        if random.percent(snapshots) {
            Kind::Snapshot
        } else {
            Kind::Update
        }
    }

    fn blanks(&self, random: &mut Random) -> Blanks {
        match (random.below(3), self.purpose) {
            (0, Purpose::Lines) => Blanks::Few,
            (0, Purpose::Calls) => Blanks::Lines,
            _ => Blanks::None,
        }
    }
}

/// A question or a writing-out.
fn question(random: &mut Random, book: &Book) -> Call {
    let scope = if random.percent(50) { Scope::Live } else { Scope::LastGood };
    let side = if random.percent(50) { Side::Bid } else { Side::Ask };
    match random.below(8) {
        0 => Call::Levels(scope),
        1 => Call::Number(scope),
        2 => Call::Updates(scope),
        3 | 4 => Call::Write(room(random, book)),
        _ => Call::Level(scope, side, place(random, book.sides.side(side).len() as u64)),
    }
}

/// A place on a side of `count` levels, or just past it, or far off.
fn place(random: &mut Random, count: u64) -> u64 {
    match random.below(10) {
        0 => random.pick(&[0, 99, 100, 199, 200, 255, 256, u64::from(u32::MAX), u64::MAX]),
        1 => count + 1,
        2 => count,
        3 => count.saturating_sub(1),
        _ => random.next() % count.max(1),
    }
}

/// Room about as long as the text.
fn room(random: &mut Random, book: &Book) -> usize {
    let mut all = vec![0; 2 * crate::message::MAX_MESSAGE];
    let (_, length) = book.write(&mut all);
    match random.below(6) {
        0 => 0,
        1 => length.saturating_sub(1),
        2 => length,
        3 => length + 1,
        4 => random.below(length + 2),
        _ => length + random.below(100),
    }
}

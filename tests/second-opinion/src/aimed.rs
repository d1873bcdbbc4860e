//! Sessions aimed at the ends of the rules: full working sides, sides that pass
//! 100 levels midway, every depth, the largest digits, names with escapes, bad
//! first lines, long files.

use crate::book::{Book, State};
use crate::crossed;
use crate::damage::BAD_DECIMALS;
use crate::decimal::Decimal;
use crate::linked;
use crate::escapes::{misspell, misspelled, respell, respell_wholly, spelled, twice};
use crate::making::{prices, prices_from, removal, set, sets, Making, AT, LARGEST, LARGEST_12};
use crate::message::{Kind, Side, MAX_ENTRIES, MAX_MESSAGE};
use crate::moved;
use crate::random::Random;
use crate::seen::{BLOCK, DEPTHS};
use crate::session::{Call, Opening, Purpose, Session};
use crate::settings::Dialect;
use crate::traffic::{large, zero, Line};
use crate::twelve;
use crate::value::{key, Blanks, Value};

/// Where digits are large, with the count of decimals: 2^63 among the asks, among the bids, and the largest.
const BASES: [(u128, u32); 5] =
    [(AT - 150, 9), (AT - 60, 9), (LARGEST + 1 - 240, 9), (2 * AT - 150, 12), (LARGEST_12 + 1 - 240, 12)];

/// One session for each depth, and some for each other end.
pub fn sessions(random: &mut Random, purpose: Purpose) -> Vec<Session> {
    let mut all: Vec<Session> = DEPTHS.map(|depth| deep(random, purpose, depth)).collect();
    for _ in 0..4 {
        all.push(deep(random, purpose, 100));
        for dialect in [Dialect::M1, Dialect::M2] {
            all.push(overfull(random, purpose, dialect));
            all.push(midway(random, purpose, dialect));
        }
    }
    for dialect in Dialect::ALL {
        for base in BASES {
            all.push(digits(random, purpose, dialect, base));
        }
        all.extend([true, false].map(|few| crossed::session(random, purpose, dialect, few)));
        all.push(twelve::session(random, purpose, dialect));
        all.extend([true, false].map(|full| moved::session(random, purpose, dialect, full)));
        if dialect != Dialect::K {
            all.push(linked::session(random, purpose, dialect));
        }
        all.push(bad_texts(random, purpose, dialect));
        all.extend(NAMES.map(|name| escaped(random, purpose, dialect, name)));
    }
    all
}

/// One of them.
pub fn one(random: &mut Random, purpose: Purpose) -> Session {
    let dialect = random.pick(&Dialect::ALL);
    let m = random.pick(&[Dialect::M1, Dialect::M2]);
    match random.below(11) {
        0 => {
            let depth = random.between(10, 100) as u64;
            deep(random, purpose, depth)
        }
        1 => deep(random, purpose, 100),
        2 => overfull(random, purpose, m),
        3 => midway(random, purpose, m),
        4 => bad_texts(random, purpose, dialect),
        5 => {
            let name = random.pick(&NAMES);
            escaped(random, purpose, dialect, name)
        }
        6 => {
            let few = random.percent(50);
            crossed::session(random, purpose, dialect, few)
        }
        7 => linked::session(random, purpose, m),
        8 => twelve::session(random, purpose, dialect),
        9 => {
            let full = random.percent(50);
            moved::session(random, purpose, dialect, full)
        }
        _ => {
            let base = random.pick(&BASES);
            digits(random, purpose, dialect, base)
        }
    }
}

/// A snapshot of 100 levels a side, cut to the depth, then 100 new ones on each:
/// the working sides have `depth` + 100 levels.
fn deep(random: &mut Random, purpose: Purpose, depth: u64) -> Session {
    let mut making = Making::new(purpose, Dialect::K, depth);
    let [bids, asks] = prices(random, 2 * MAX_ENTRIES);
    let all = [(Side::Bid, bids), (Side::Ask, asks)].map(|(side, mut prices)| {
        // The entry that fills the working side is often the best of the new ones.
        if random.percent(70) {
            best_last(side, &mut prices[MAX_ENTRIES..]);
        }
        (side, prices)
    });
    for (kind, part) in [(Kind::Snapshot, 0..MAX_ENTRIES), (Kind::Update, MAX_ENTRIES..2 * MAX_ENTRIES)] {
        let lines = all.iter().flat_map(|(side, prices)| sets(random, *side, &prices[part.clone()])).collect();
        making.send(random, kind, lines);
    }
    making.ask(random);
    // New ones in, then others out: only a cut after the whole message keeps the last levels.
    let mut lines = Vec::new();
    for (side, prices) in &all {
        let some = random.between(1, 60);
        let coming = random.pick(&[1, 50, some]);
        let going = random.pick(&[1, MAX_ENTRIES - coming]);
        lines.extend(in_and_out(random, &making.book, *side, prices, coming, going));
    }
    making.send(random, Kind::Update, lines);
    making.ask(random);
    if purpose == Purpose::Lines {
        making.peel(random);
    }
    making.made()
}

fn best_last(side: Side, prices: &mut [Decimal]) {
    match side {
        Side::Bid => prices.sort_by_key(|price| price.value()),
        Side::Ask => prices.sort_by_key(|price| std::cmp::Reverse(price.value())),
    }
}

/// 100 levels stand in an M book and 100 more come: refused 12.
fn overfull(random: &mut Random, purpose: Purpose, dialect: Dialect) -> Session {
    let mut making = Making::new(purpose, dialect, 100);
    let [bids, asks] = prices(random, 2 * MAX_ENTRIES);
    let all = [(Side::Bid, bids), (Side::Ask, asks)];
    let lines = |random: &mut Random, from: usize, to: usize| -> Vec<Line> {
        all.iter().flat_map(|(side, prices)| sets(random, *side, &prices[from..to])).collect()
    };
    let standing = lines(random, 0, MAX_ENTRIES);
    making.send(random, Kind::Snapshot, standing.clone());
    let mut coming = lines(random, MAX_ENTRIES, 2 * MAX_ENTRIES);
    if random.percent(50) {
        let side = random.pick(&Side::BOTH);
        coming.retain(|line| line.side == side);
    }
    making.send(random, Kind::Update, coming);
    if purpose == Purpose::Calls {
        making.ask(random);
    }
    making.send(random, Kind::Snapshot, standing);
    making.ask(random);
    making.made()
}

/// M updates that pass 100 levels and end with at most 100, or now and then with 101.
fn midway(random: &mut Random, purpose: Purpose, dialect: Dialect) -> Session {
    let mut making = Making::new(purpose, dialect, 100);
    let all = prices(random, 250);
    let standing = Side::BOTH.map(|_| random.pick(&[100, 100, 99, 80, 60]));
    let mut lines = Vec::new();
    for (place, side) in Side::BOTH.into_iter().enumerate() {
        lines.extend(sets(random, side, &all[place][..standing[place]]));
    }
    making.send(random, Kind::Snapshot, lines);
    for turn in 0..4 {
        let mut lines = Vec::new();
        for (place, side) in Side::BOTH.into_iter().enumerate() {
            if turn < 2 || random.percent(70) {
                lines.extend(through(random, &making.book, side, &all[place], turn));
            }
        }
        making.send(random, Kind::Update, lines);
        if purpose == Purpose::Calls || turn == 3 {
            making.ask(random);
        }
        if making.book.state != State::Live {
            break;
        }
    }
    making.made()
}

/// Through more than 100 levels. In the first turn 100 are left; in the last there may
/// be one too many.
fn through(random: &mut Random, book: &Book, side: Side, all: &[Decimal], turn: usize) -> Vec<Line> {
    let count = book.sides.side(side).len();
    // New ones and removals together are at most 100.
    let (fewest, most) = (101 - count, (200 - count) / 2);
    let some = random.between(fewest, most);
    let coming = random.pick(&[fewest, most, some, some]);
    let least = count + coming - 100;
    let going = match turn {
        0 => least,
        3 if random.percent(30) => least - 1,
        _ => random.between(least, MAX_ENTRIES - coming),
    };
    in_and_out(random, book, side, all, coming, going)
}

/// `coming` new prices first, then removals of `going` standing and new ones, if there are so many.
fn in_and_out(random: &mut Random, book: &Book, side: Side, all: &[Decimal], coming: usize, going: usize) -> Vec<Line> {
    let mut standing: Vec<Decimal> = book.sides.side(side).iter().map(|level| level.price).collect();
    let is_new = |price: &&Decimal| !standing.iter().any(|other| other.value() == price.value());
    let new: Vec<Decimal> = all.iter().filter(is_new).take(coming).copied().collect();
    let mut lines = sets(random, side, &new);
    standing.extend(new);
    random.shuffle(&mut standing);
    lines.extend(standing.iter().take(going).map(|&price| removal(random, side, price)));
    lines
}

/// Prices and sizes of many digits from `base` on, taken one after another.
fn digits(random: &mut Random, purpose: Purpose, dialect: Dialect, (base, decimals): (u128, u32)) -> Session {
    let depth = if dialect == Dialect::K { random.pick(&[10, 57, 100]) } else { 100 };
    let mut making = Making::new(purpose, dialect, depth);
    let [bids, asks] = prices_from(random, base, decimals, 120);
    let of = |side: Side, prices: Vec<Decimal>| prices.into_iter().map(move |price| (side, price));
    let mut all: Vec<(Side, Decimal)> = of(Side::Bid, bids).chain(of(Side::Ask, asks)).collect();
    random.shuffle(&mut all);
    let line = |random: &mut Random, (side, price): (Side, Decimal)| Line { side, price: price.text(), size: large(random).text() };
    let lines = all[..100].iter().map(|&one| line(random, one)).collect();
    making.send(random, Kind::Snapshot, lines);
    making.ask(random);
    for part in all[100..].chunks(5) {
        let mut lines: Vec<Line> = part.iter().map(|&one| line(random, one)).collect();
        for side in Side::BOTH {
            let standing = making.book.sides.side(side);
            if standing.len() > 80 {
                let places: Vec<usize> = (0..6).map(|_| random.below(standing.len())).collect();
                lines.extend(places.iter().map(|&place| removal(random, side, standing[place].price)));
            }
        }
        making.send(random, Kind::Update, lines);
    }
    making.ask(random);
    making.made()
}

/// Messages with one to four texts that break check 8, or with zeros that may not.
fn bad_texts(random: &mut Random, purpose: Purpose, dialect: Dialect) -> Session {
    let mut making = Making::new(purpose, dialect, 100);
    let all = prices(random, MAX_ENTRIES);
    for _ in 0..100 {
        let kind = random.pick(&[Kind::Snapshot, Kind::Update]);
        let count = random.pick(&[1, 2, 5, MAX_ENTRIES]);
        let mut lines = Vec::new();
        for (place, side) in Side::BOTH.into_iter().enumerate() {
            lines.extend(sets(random, side, &all[place][..count]));
        }
        for _ in 0..random.between(1, 4) {
            let any = random.below(2 * count);
            let place = random.pick(&[0, count - 1, count, 2 * count - 1, any]);
            let bad = if random.percent(30) { zero(random) } else { random.pick(&BAD_DECIMALS).to_string() };
            let line = &mut lines[place];
            *(if random.percent(50) { &mut line.price } else { &mut line.size }) = bad;
        }
        making.send(random, kind, lines);
    }
    making.made()
}

/// Products and pairs that are written with escapes: the shortest and the longest among them.
const NAMES: [&str; 4] = ["a", "XBT/USD", "0123456789abcdef", "JKLMNO/jklmno-~!"];

/// Messages whose names are written with escapes: with their meaning, with another, and
/// members twice; escapes where none may be.
fn escaped(random: &mut Random, purpose: Purpose, dialect: Dialect, name: &str) -> Session {
    let mut making = Making::named(purpose, dialect, 100, name);
    let [all, _] = prices(random, 50);
    for turn in 0..96 {
        let live = making.book.state == State::Live;
        // A checksum is an update's, and its layout is looked at in a waiting book too.
        let updating = turn % 8 == 5 || (live && turn % 8 > 0);
        let kind = if updating { Kind::Update } else { Kind::Snapshot };
        let count = random.between(1, 3);
        let mut lines = sets(random, Side::Bid, &all[..count]);
        if turn % 8 == 4 {
            let line = random.below(lines.len());
            let text = if random.percent(50) { &mut lines[line].price } else { &mut lines[line].size };
            let string = spelled(random, text.as_bytes());
            *text = String::from_utf8_lossy(&string[1..string.len() - 1]).into_owned();
        }
        let mut tree = making.value(random, kind, lines);
        match turn % 8 {
            0 | 1 => respell_wholly(random, &making.settings, &mut tree),
            2 => respell(random, &making.settings, &mut tree),
            3 => twice(random, &mut tree),
            4 => {}
            5 => escape_value(random, dialect, &mut tree),
            _ => misspell(random, &making.settings, &mut tree),
        }
        making.push(tree.written(random, Blanks::None));
    }
    making.made()
}

/// K: the checksum with an escape, which it may not have. M: a type that means another.
fn escape_value(random: &mut Random, dialect: Dialect, tree: &mut Value) {
    let name = if dialect == Dialect::K { key("c") } else { key("type") };
    let objects: Vec<&mut Value> = match tree {
        Value::Array(items) => items.iter_mut().collect(),
        other => vec![other],
    };
    for object in objects {
        let Value::Object(members) = object else { continue };
        for (_, value) in members.iter_mut().filter(|member| member.0 == name) {
            let Value::Raw(bytes) = value else { continue };
            let inner = bytes[1..bytes.len() - 1].to_vec();
            *bytes = if dialect == Dialect::K { spelled(random, &inner) } else { misspelled(random, &inner) };
        }
    }
}

// The line program alone.

/// Kinds of bad first lines.
pub const FIRST_LINES: [&str; 16] = [
    "first line missing", "first line empty", "first line with two blanks", "first line with a tab",
    "first line with a trailing blank", "first line with a leading blank", "first line with byte 13",
    "first line of dialect KK", "first line of dialect M0, M3 or M22", "first line of depth 010 or 0100",
    "first line of depth +10 or +100", "first line of a depth that is not allowed", "first line with a name of 17 bytes",
    "first line with a name with a quote", "first line with a name with a backslash", "first line without a name",
];

/// The lines of a kind, as they are.
fn bad_lines(kind: usize) -> &'static [&'static str] {
    match kind {
        0 | 1 => &[""],
        2 => &["K  10 x", "K 10  x", "M  100 x", "M 100  x", "  "],
        3 => &["K\t10 x", "K 10\tx", "M\t100 x", "M 100\tx", "K 10 x\t", "M 100 x\t"],
        4 => &["K 10 x ", "M 100 x "],
        5 => &[" K 10 x", " M 100 x"],
        6 => &["K 10 x\r", "M 100 x\r", "\r", "K 10\r x", "K\r 10 x", "\rM 100 x"],
        7 => &["KK 10 x", "KK 100 x"],
        8 => &["M0 100 x", "M3 100 x", "M22 100 x", "M 2 100 x", "M2.0 100 x", "m2 100 x"],
        9 => &["K 010 x", "M 0100 x", "K 0100 x"],
        10 => &["K +10 x", "M +100 x", "K +100 x"],
        11 => &["K 9 x", "K 101 x", "M 99 x", "M 101 x", "M 10 x", "K 0 x", "K 10.0 x", "K 1e1 x", "M -100 x", "K 18446744073709551626 x"],
        12 => &["K 10 0123456789abcdefg", "M 100 0123456789abcdefg"],
        13 => &["K 10 x\"", "M 100 \"x", "K 10 \"", "M 100 x\"y"],
        14 => &["K 10 x\\", "M 100 \\x"],
        _ => &["K 10", "M 100", "K 10 ", "M 100 ", "K", "M", "K ", "M "],
    }
}

/// Every bad first line with its kind, each before messages that a lenient reading of
/// it would take. A missing line has nothing after it.
pub fn bad_first_lines() -> Vec<(&'static str, Session)> {
    let mut all = Vec::new();
    for (kind, name) in FIRST_LINES.iter().enumerate() {
        for line in bad_lines(kind) {
            let calls = if kind == 0 { vec![] } else { lenient(line) };
            let dialect = if line.contains('M') { Dialect::M1 } else { Dialect::K };
            all.push((*name, Session { dialect, opening: Opening(line.as_bytes().to_vec()), calls }));
        }
    }
    all
}

/// Snapshots for the names and depths that the line might be read to have.
fn lenient(line: &str) -> Vec<Call> {
    let last = line.rsplit([' ', '\t', '\r']).find(|word| !word.is_empty()).unwrap_or("x");
    let mut texts = vec![String::new(), "{".to_string()];
    for name in ["x", last, last.get(..16).unwrap_or(last)] {
        for depth in ["10", "010", "100", "0100", "9", "101", "99"] {
            texts.push(format!("[0,{{\"as\":[],\"bs\":[]}},\"book-{depth}\",\"{name}\"]"));
        }
        texts.push(format!(
            "{{\"channel\":\"book\",\"product\":\"{name}\",\"type\":\"snapshot\",\"data\":{{\"bids\":[],\"asks\":[]}},\"checksum\":0,\"gsn\":1}}"
        ));
    }
    texts.into_iter().map(|text| Call::Message(text.into_bytes())).collect()
}

/// Inputs of some blocks: lines that end at a block's end, next to it and far from it,
/// and inputs that end there.
pub fn files(random: &mut Random) -> Vec<Session> {
    let mut all = Vec::new();
    for dialect in Dialect::ALL {
        for past in [-2, -1, 0, 1, 2, 700] {
            all.push(file(random, dialect, past, false));
            all.push(file(random, dialect, past, true));
        }
    }
    all
}

/// Right messages, some of them with blanks at the end, so that a line end lies `past`
/// bytes past the end of each block; more after it, unless the input ends there.
fn file(random: &mut Random, dialect: Dialect, past: i64, ends: bool) -> Session {
    let mut making = Making::new(Purpose::Lines, dialect, 100);
    let all = prices(random, 120);
    let mut length = format!("{} 100 XBT/USD\n", dialect.name()).len();
    let blocks = if ends { random.between(1, 2) } else { 3 };
    for block in 1..=blocks {
        let end = (block * BLOCK).saturating_add_signed(past as isize);
        while length + 20_000 < end {
            let text = busy(random, &making, &all);
            length += text.len() + 1;
            making.push(text);
        }
        let mut text = making.text(random, Kind::Snapshot, vec![]);
        text.resize((end - length - 1).max(text.len()), random.pick(b" \t\r"));
        length += text.len() + 1;
        making.push(text);
    }
    if !ends {
        let long = random.pick(&[MAX_MESSAGE + 1, BLOCK - 1, BLOCK, BLOCK + 1, 3 * BLOCK + 5]);
        let texts = [busy(random, &making, &all), vec![b' '; long]];
        texts.into_iter().for_each(|text| making.push(text));
        making.send(random, Kind::Snapshot, vec![]);
    }
    making.made()
}

/// A snapshot, or an update that leaves no more than 100 levels in an M book.
fn busy(random: &mut Random, making: &Making, all: &[Vec<Decimal>; 2]) -> Vec<u8> {
    let fresh = making.book.state != State::Live || random.percent(20);
    let mut lines = Vec::new();
    for (place, side) in Side::BOTH.into_iter().enumerate() {
        let count = random.between(0, MAX_ENTRIES);
        for &price in &all[place][..count] {
            let remove = !fresh && random.percent(40);
            lines.push(if remove { removal(random, side, price) } else { set(random, side, price) });
        }
    }
    making.text(random, if fresh { Kind::Snapshot } else { Kind::Update }, lines)
}

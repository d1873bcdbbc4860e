//! Drafts of right messages, from the book as it stands.

use crate::book::{Book, Sides};
use crate::decimal::{Decimal, MAX_DECIMALS};
use crate::message::{Entry, Kind, Level, Message, Side, MAX_ENTRIES};
use crate::random::Random;
use crate::settings::{Dialect, Settings};
use crate::value::{key, nested, quoted, raw, stray, text, Value};
use std::collections::HashSet;

/// The prices of a session: `spread` ticks on each side of `middle`, each of 10^-`decimals`.
pub struct Market {
    pub decimals: u32,
    pub middle: u128,
    pub spread: u128,
    /// How many prices in a hundred are drawn on the other side of the middle.
    pub crossing: usize,
}

const ENDS: [&str; 10] = [
    "9999999999.999999999999", "9999999999.999999999", "9223372036.854775807", "9223372036.854775808", "0.000000001", "0.000000000001",
    "9999999999", "9999999999.0", "1", "0.1",
];

/// An entry as it is to be written.
#[derive(Clone, Debug)]
pub struct Line {
    pub side: Side,
    pub price: String,
    pub size: String,
}

/// A message before it is written: its texts may be damaged.
#[derive(Clone, Debug)]
pub struct Draft {
    pub kind: Kind,
    pub lines: Vec<Line>,
    pub checksum: String,
    pub gsn: String,
    /// `prev_gsn`, where the dialect has it.
    pub previous: String,
}

impl Market {
    pub fn new(random: &mut Random) -> Market {
        let spread = random.pick(&[3, 12, 60, 130, 400]);
        let crossing = random.pick(&[0, 0, 0, 0, 0, 0, 1, 10]);
        if random.percent(12) {
            let (middle, decimals) = random.pick(&[
                (1 << 63, 9), ((1 << 63) + 200, 9), (9_999_999_999_999_990_000, 9), (1 << 63, 12), (1 << 64, 12), (1 << 73, 12),
                (9_999_999_999_999_999_990_000, 12), (1_000_000_000_000, 12),
            ]);
            return Market { decimals, middle, spread, crossing };
        }
        let decimals = random.below(13) as u32;
        let middle = spread + 1 + u128::from(random.next()) % random.pick(&[1, 50, 100_000, 900_000_000]);
        Market { decimals, middle, spread, crossing }
    }

    fn tick(&self, random: &mut Random, side: Side) -> u128 {
        let step = u128::from(random.next()) % self.spread;
        let below = (side == Side::Bid) != random.percent(self.crossing);
        if below {
            self.middle - 1 - step
        } else {
            self.middle + step
        }
    }

    /// A price above zero, now and then at the ends of what is allowed.
    pub fn price(&self, random: &mut Random, side: Side) -> String {
        let middle = Decimal { digits: self.middle, decimals: self.decimals }.value();
        let is_below = |end: &str| Decimal::read(end.as_bytes()).is_some_and(|end| end.value() < middle);
        let ends: Vec<&str> = ENDS.into_iter().filter(|end| is_below(end) == (side == Side::Bid)).collect();
        if random.percent(1) && !ends.is_empty() {
            return random.pick(&ends).to_string();
        }
        let tick = Decimal { digits: self.tick(random, side), decimals: self.decimals };
        respelled(random, tick, 15)
    }
}

/// The same value, with `chance` in a hundred with other decimals.
pub fn respelled(random: &mut Random, decimal: Decimal, chance: usize) -> String {
    let mut spelled = decimal;
    let chance = if random.percent(3) { 95 } else { chance };
    while spelled.decimals < MAX_DECIMALS && random.percent(chance) {
        spelled = Decimal { digits: spelled.digits * 10, decimals: spelled.decimals + 1 };
    }
    while spelled.decimals > 0 && spelled.digits % 10 == 0 && random.percent(chance) {
        spelled = Decimal { digits: spelled.digits / 10, decimals: spelled.decimals - 1 };
    }
    spelled.text()
}

/// A size above zero.
pub fn size(random: &mut Random) -> String {
    match random.below(30) {
        0 => random.pick(&["9999999999.999999999", "9999999999.999999999999", "9999999999"]).to_string(),
        1 => random.pick(&["0.000000001", "0.000000000001", "0.0000000010", "0.000000000100"]).to_string(),
        2 => "0.00000500".to_string(),
        3 => large(random).text(),
        _ => {
            let decimals = random.below(13);
            let most = random.between(1, 9 + decimals) as u32;
            let digits = 1 + random.wide() % 10u128.pow(most);
            Decimal { digits, decimals: decimals as u32 }.text()
        }
    }
}

/// 19 digits that are about 2^63 as one number, or above it; or up to 22 digits, with twelve decimals.
pub fn large(random: &mut Random) -> Decimal {
    const AT: u128 = 1 << 63;
    const END: u128 = 10_000_000_000_000_000_000;
    let digits = match random.below(6) {
        0 => AT - 1,
        1 => AT,
        2 => AT + 1,
        3 => END - 1,
        _ => AT + random.wide() % (END - AT),
    };
    if random.percent(40) {
        let past = random.pick(&[0, 1, 999, 500]);
        return Decimal { digits: 1000 * digits + past, decimals: 12 };
    }
    Decimal { digits, decimals: 9 }
}

pub fn zero(random: &mut Random) -> String {
    Decimal { digits: 0, decimals: random.below(13) as u32 }.text()
}

/// A right snapshot with different prices.
pub fn snapshot(random: &mut Random, book: &Book, market: &Market) -> Draft {
    let mut lines = Vec::new();
    for side in [Side::Bid, Side::Ask] {
        let most = random.pick(&[0, 3, 12, 40, 100, 100]);
        let wanted = if most == 100 { random.between(85, 100) } else { random.between(0, most) };
        let mut seen = HashSet::new();
        for _ in 0..wanted {
            let price = market.price(random, side);
            let value = Decimal::read(price.as_bytes()).map(Decimal::value);
            if seen.insert(value) {
                lines.push(Line { side, price, size: size(random) });
            }
        }
    }
    let gsn = match random.below(20) {
        0 => "9999999999999999999".to_string(),
        1 => "0".to_string(),
        2 => book.number.to_string(),
        _ => (random.next() % 1_000_000_000_000).to_string(),
    };
    let previous = book.number.to_string();
    finished(book, Draft { kind: Kind::Snapshot, lines, checksum: String::new(), gsn, previous })
}

/// A right update; with `filling` it mostly adds levels.
pub fn update(random: &mut Random, book: &Book, market: &Market, filling: bool) -> Draft {
    let most = random.pick(&[0, 2, 2, 4, 4, 8, 30, MAX_ENTRIES]);
    let wanted = if filling { random.between(10, MAX_ENTRIES) } else { random.between(0, most) };
    let mut lines = Vec::new();
    for _ in 0..wanted {
        let side = if random.percent(50) { Side::Bid } else { Side::Ask };
        let crowded = !filling && book.sides.side(side).len() + wanted / 2 > 95;
        let removing = if filling { 3 } else { 30 };
        lines.push(change(random, book, market, side, crowded, removing));
    }
    let step = random.pick(&[1, 1, 1, 2, 1000]);
    let gsn = book.number.saturating_add(step).min(9_999_999_999_999_999_999).to_string();
    let previous = book.number.to_string();
    finished(book, Draft { kind: Kind::Update, lines, checksum: String::new(), gsn, previous })
}

/// A level set or, with `removing` in a hundred, removed. In a crowded book no new price comes.
fn change(
    random: &mut Random,
    book: &Book,
    market: &Market,
    side: Side,
    crowded: bool,
    removing: usize,
) -> Line {
    let levels = book.sides.side(side);
    let standing = !levels.is_empty() && (crowded || random.percent(40));
    let price = if standing {
        let level = random.pick(levels);
        respelled(random, level.price, 20)
    } else {
        market.price(random, side)
    };
    let removed = random.percent(removing);
    let size = if removed { zero(random) } else { size(random) };
    Line { side, price, size }
}

/// The draft with the checksum of the book after it.
pub fn finished(book: &Book, mut draft: Draft) -> Draft {
    draft.checksum = right_checksum(book, &draft).unwrap_or(0).to_string();
    draft
}

/// Nothing if a text of the draft is no decimal, or the book is shut.
pub fn right_checksum(book: &Book, draft: &Draft) -> Option<u32> {
    let dialect = book.settings.as_ref()?.dialect;
    Some(sides_after(book, draft)?.checksum(dialect))
}

/// The sides after the draft, as for its checksum.
pub fn sides_after(book: &Book, draft: &Draft) -> Option<Sides> {
    let settings = book.settings.as_ref()?;
    let entry = |line: &Line| {
        let price = Decimal::read(line.price.as_bytes())?;
        let size = Decimal::read(line.size.as_bytes())?;
        Some(Entry { side: line.side, level: Level { price, size } })
    };
    let entries = draft.lines.iter().map(entry).collect::<Option<Vec<Entry>>>()?;
    let message = Message { kind: draft.kind, entries, checksum: None, gsn: 0, previous: None };
    Some(book.after(settings, &message))
}

impl Draft {
    /// The draft as JSON, in one of the layouts that the dialect allows.
    pub fn value(&self, random: &mut Random, settings: &Settings) -> Value {
        match settings.dialect {
            Dialect::K => self.value_k(random, settings),
            Dialect::M1 | Dialect::M2 => self.value_m(random, settings),
        }
    }

    /// The entries of a side as an array; `rest` gives what follows the size.
    fn entries(&self, random: &mut Random, side: Side, rest: fn(&mut Random) -> Vec<Value>) -> Value {
        let lines = self.lines.iter().filter(|line| line.side == side);
        let entry = |line: &Line| Value::Array([vec![text(&line.price), text(&line.size)], rest(random)].concat());
        Value::Array(lines.map(entry).collect())
    }

    fn value_k(&self, random: &mut Random, settings: &Settings) -> Value {
        let asks = self.entries(random, Side::Ask, timestamp);
        let bids = self.entries(random, Side::Bid, timestamp);
        let mut objects = match self.kind {
            Kind::Snapshot => vec![vec![(key("as"), asks), (key("bs"), bids)]],
            Kind::Update => self.objects_k(random, asks, bids),
        };
        for members in &mut objects {
            pass_over(random, members);
            random.shuffle(members);
        }
        let number = random.pick(&["0", "0", "1", "336", "9999999999999999999"]).to_string();
        let mut items = vec![raw(&number)];
        items.extend(objects.into_iter().map(Value::Object));
        items.push(Value::Raw(quoted(&settings.channel())));
        items.push(Value::Raw(quoted(&settings.name)));
        Value::Array(items)
    }

    /// One object or two; a side without entries may be left out.
    fn objects_k(&self, random: &mut Random, asks: Value, bids: Value) -> Vec<Vec<(Vec<u8>, Value)>> {
        let has = |side| self.lines.iter().any(|line| line.side == side);
        let mut sides = vec![(key("a"), asks), (key("b"), bids)];
        if !has(Side::Bid) && random.percent(70) {
            sides.remove(1);
        } else if !has(Side::Ask) && random.percent(70) {
            sides.remove(0);
        }
        random.shuffle(&mut sides);
        let mut objects = if sides.len() == 2 && random.percent(50) {
            sides.into_iter().map(|side| vec![side]).collect()
        } else {
            vec![sides]
        };
        if let Some(last) = objects.last_mut() {
            last.push((key("c"), text(&self.checksum)));
        }
        objects
    }

    fn value_m(&self, random: &mut Random, settings: &Settings) -> Value {
        let kind = if self.kind == Kind::Snapshot { "snapshot" } else { "update" };
        let mut data = vec![
            (key("bids"), self.entries(random, Side::Bid, |_| vec![])),
            (key("asks"), self.entries(random, Side::Ask, |_| vec![])),
        ];
        if random.percent(30) {
            let name = random.pick(&["gsn", "gsn", "prev_gsn"]);
            data.push((key(name), stray(random)));
        }
        pass_over(random, &mut data);
        random.shuffle(&mut data);
        let mut members = vec![
            (key("channel"), text("book")),
            (key("product"), Value::Raw(quoted(&settings.name))),
            (key("type"), text(kind)),
            (key("data"), Value::Object(data)),
            (key("checksum"), raw(&self.checksum)),
            (key("gsn"), raw(&self.gsn)),
        ];
        if settings.dialect == Dialect::M2 && self.kind == Kind::Update {
            members.push((key("prev_gsn"), raw(&self.previous)));
        } else if random.percent(15) {
            // Passed over, whatever it holds.
            members.push((key("prev_gsn"), if random.percent(30) { raw(&self.previous) } else { stray(random) }));
        }
        pass_over(random, &mut members);
        if random.percent(50) {
            random.shuffle(&mut members);
        }
        Value::Object(members)
    }
}

/// A K entry's timestamp and whatever follows it.
fn timestamp(random: &mut Random) -> Vec<Value> {
    let mut rest = vec![text(random.pick(&["1582905487.439814", "0.000000", "t", "", "\\n", "\u{e9}"]))];
    while random.percent(4) {
        rest.push(if random.percent(50) { text("r") } else { stray(random) });
    }
    rest
}

/// Members that are not named, with anything in them.
fn pass_over(random: &mut Random, members: &mut Vec<(Vec<u8>, Value)>) {
    while random.percent(15) {
        let name = random.pick(&["timestamp", "x", "", "prev_sequence", "\u{e9}", "A", "bs ", "version"]);
        let value = match random.below(3) {
            0 => stray(random),
            1 => text("1764643130040025000"),
            _ => {
                let depth = random.between(1, 6);
                nested(random, depth)
            }
        };
        members.push((key(name), value));
    }
}

//! Damage to messages: in a draft's texts, in the JSON tree, in the bytes.

use crate::book::Book;
use crate::escapes::{misspell, misspelled, respell, spelled, twice};
use crate::message::{Kind, Side, MAX_ENTRIES, MAX_MESSAGE};
use crate::random::Random;
use crate::settings::{Dialect, Settings};
use crate::traffic::{finished, respelled, sides_after, size, zero, Draft, Line, Market};
use crate::value::{key, nested, quoted, raw, stray, text, Value, NAMES};

pub const BAD_DECIMALS: [&str; 31] = [
    "", ".", "5.", ".5", "05", "00", "00.5", "-1", "+1", "1e1", "1E1", "1.2.3", " 1", "1 ", "10000000000",
    "0.0000000000001", "1.0000000000000", "1,5", "x", "0x1", "1.", "\\u0031", "1\\u002e5", "\u{e9}", "12345678901", "NaN",
    "1..2", "-0", "99999999999999999999", "1/", "1:",
];

const BAD_WHOLE: [&str; 22] = [
    "01", "00", "-0", "-1", "1.0", "1e0", "1E5", "0.0", "10000000000000000000", "12345678901234567890123", "null",
    "\"\"", "\"1\"", "\"01\"", "\" 1\"", "\"1.0\"", "\"4294967296\"", "4294967296", "[]", "{}", "\"\\u0031\"",
    "\"10000000000000000000\"",
];

const MISNAMED: [&str; 18] = [
    "", "book", "book-", "book-10", "book-100", "book-11", "book-010", "Book", "trade", "trades", "BTC-VND", "XBT/USD",
    "BTC", "xbt/usd", "XBT/USD ", "book-1000", "a", "book-25",
];

// Drafts.

/// One fault in the draft's texts.
pub fn damage_draft(random: &mut Random, book: &Book, market: &Market, draft: Draft) -> Draft {
    match (random.below(18), draft.kind) {
        (0 | 1, _) => bad_decimal(random, book, market, draft),
        (2, _) => zeros(random, book, market, draft),
        (3 | 4, _) | (5..=9, Kind::Snapshot) => doubled(random, book, market, draft),
        (5..=9, Kind::Update) | (10, _) => crowd(random, book, market, draft),
        (11 | 12, _) => old_gsn(random, book, draft),
        (13, _) => cross(random, book, market, draft),
        (14 | 15, _) => wrong_previous(random, book, draft),
        _ => wrong_checksum(random, draft),
    }
}

/// A draft with an entry at least.
fn with_line(random: &mut Random, market: &Market, mut draft: Draft) -> Draft {
    if draft.lines.is_empty() {
        let side = if random.percent(50) { Side::Bid } else { Side::Ask };
        draft.lines.push(Line { side, price: market.price(random, side), size: size(random) });
    }
    draft
}

fn bad_decimal(random: &mut Random, book: &Book, market: &Market, draft: Draft) -> Draft {
    let mut draft = finished(book, with_line(random, market, draft));
    for _ in 0..random.between(1, 2) {
        let place = random.below(draft.lines.len());
        let bad = random.pick(&BAD_DECIMALS).to_string();
        let line = &mut draft.lines[place];
        *(if random.percent(50) { &mut line.price } else { &mut line.size }) = bad;
    }
    draft
}

fn zeros(random: &mut Random, book: &Book, market: &Market, draft: Draft) -> Draft {
    let mut draft = with_line(random, market, draft);
    let place = random.below(draft.lines.len());
    let none = zero(random);
    let line = &mut draft.lines[place];
    *(if random.percent(40) { &mut line.price } else { &mut line.size }) = none;
    finished(book, draft)
}

/// One price twice, perhaps with another text, perhaps on the other side.
fn doubled(random: &mut Random, book: &Book, market: &Market, draft: Draft) -> Draft {
    let mut draft = with_line(random, market, draft);
    let mut again = draft.lines[random.below(draft.lines.len())].clone();
    again.size = size(random);
    if random.percent(50) {
        again.price += if again.price.contains('.') { "0" } else { ".0" };
    }
    if random.percent(15) {
        again.side = if again.side == Side::Bid { Side::Ask } else { Side::Bid };
    }
    let place = random.below(draft.lines.len() + 1);
    draft.lines.insert(place, again);
    finished(book, draft)
}

/// 99 to 102 entries on a side, or fewer that a full side has no place for.
fn crowd(random: &mut Random, book: &Book, market: &Market, mut draft: Draft) -> Draft {
    let side = if random.percent(50) { Side::Bid } else { Side::Ask };
    let least = random.pick(&[MAX_ENTRIES - 1, 20]);
    let wanted = random.between(least, MAX_ENTRIES + 2);
    let spread = if side == Side::Bid { (market.middle - 1).min(400) } else { 400 };
    let wide = Market { spread, ..*market };
    let market = if random.percent(50) { market } else { &wide };
    draft.lines.retain(|line| line.side != side);
    for _ in 0..wanted {
        let size = if draft.kind == Kind::Update && random.percent(20) { zero(random) } else { size(random) };
        draft.lines.push(Line { side, price: market.price(random, side), size });
    }
    if random.percent(20) {
        return bad_decimal(random, book, market, draft);
    }
    finished(book, draft)
}

fn old_gsn(random: &mut Random, book: &Book, mut draft: Draft) -> Draft {
    let number = match random.below(4) {
        0 => 0,
        1 => book.number.saturating_sub(1),
        2 => book.number / 2,
        _ => book.number,
    };
    draft.gsn = number.to_string();
    draft
}

/// Another number before, or one that is none.
fn wrong_previous(random: &mut Random, book: &Book, mut draft: Draft) -> Draft {
    let number = book.number;
    draft.previous = match random.below(8) {
        0 => number.saturating_sub(1).to_string(),
        1 => number.saturating_add(1).to_string(),
        2 => draft.gsn.clone(),
        3 => random.pick(&BAD_WHOLE).to_string(),
        4 => format!("\"{number}\""),
        5 => "9999999999999999999".to_string(),
        6 => "0".to_string(),
        _ => (random.next() % 1_000_000_000_000).to_string(),
    };
    if random.percent(20) {
        draft = old_gsn(random, book, draft);
    }
    draft
}

/// A best bid at or above the best ask, mostly with the checksum of the book that it would give.
pub fn cross(random: &mut Random, book: &Book, market: &Market, draft: Draft) -> Draft {
    let mut draft = with_line(random, market, draft);
    let side = random.pick(&Side::BOTH);
    let other = if side == Side::Bid { Side::Ask } else { Side::Bid };
    let opposite = sides_after(book, &draft).map_or(vec![], |sides| sides.side(other).to_vec());
    let price = match opposite.first() {
        None => {
            let price = market.price(random, other);
            draft.lines.push(Line { side: other, price: price.clone(), size: size(random) });
            price
        }
        Some(best) => {
            let any = random.pick(&opposite);
            let price = random.pick(&[best.price, best.price, any.price]);
            respelled(random, price, 40)
        }
    };
    draft.lines.push(Line { side, price, size: size(random) });
    let draft = finished(book, draft);
    match random.below(8) {
        0 => wrong_checksum(random, draft),
        1 => old_gsn(random, book, draft),
        _ => draft,
    }
}

fn wrong_checksum(random: &mut Random, mut draft: Draft) -> Draft {
    let right: u32 = draft.checksum.parse().unwrap_or(0);
    draft.checksum = match random.below(6) {
        0 => right.wrapping_add(1).to_string(),
        1 => (right ^ 1 << random.below(32)).to_string(),
        2 => (!right).to_string(),
        3 => random.pick(&["0", "4294967295", "4294967296", "00", "9999999999999999999"]).to_string(),
        4 => (u64::from(right) + (1 << 32)).to_string(),
        _ => (random.next() as u32).to_string(),
    };
    draft
}

// Trees.

/// A fault in the tree or some, or changes that only seem to be faults.
pub fn damage_tree(random: &mut Random, settings: &Settings, tree: Value) -> Value {
    let mut tree = damage_part(random, settings, tree);
    while random.percent(30) {
        tree = damage_part(random, settings, tree);
    }
    tree
}

fn damage_part(random: &mut Random, settings: &Settings, mut tree: Value) -> Value {
    match random.below(14) {
        0 => misname(random, settings, &mut tree),
        1 => escape_name(random, settings, &mut tree),
        2 => escape_some(random, settings, &mut tree),
        3 => *tree.some(random) = stray(random),
        4 => duplicate_member(random, &mut tree),
        5 => remove_member(random, &mut tree),
        6 => rename_member(random, &mut tree),
        7 => change_array(random, &mut tree),
        8 => bad_whole(random, settings, &mut tree),
        9 => nest(random, &mut tree),
        10 => add_named(random, &mut tree),
        11 => regroup(random, &mut tree),
        12 => duplicate_name(random, settings, &mut tree),
        _ => tree = whole_other(random, tree),
    }
    tree
}

/// The strings that say whose message it is: K's last two, M's channel and product.
fn name_values<'a>(settings: &Settings, tree: &'a mut Value) -> Vec<&'a mut Value> {
    match tree {
        Value::Array(items) if settings.dialect == Dialect::K => items.iter_mut().rev().take(2).collect(),
        Value::Object(members) => {
            let names = [key("channel"), key("product")];
            members.iter_mut().filter(|(key, _)| names.contains(key)).map(|(_, value)| value).collect()
        }
        _ => vec![],
    }
}

fn misname(random: &mut Random, settings: &Settings, tree: &mut Value) {
    let mut names = name_values(settings, tree);
    if names.is_empty() {
        return;
    }
    let place = random.below(names.len());
    *names[place] = match random.below(4) {
        0 => stray(random),
        1 => Value::Raw(quoted(&[settings.name.as_slice(), b"x"].concat())),
        2 => Value::Raw(quoted(&settings.name)),
        _ => text(random.pick(&MISNAMED)),
    };
}

fn escape_name(random: &mut Random, settings: &Settings, tree: &mut Value) {
    if random.percent(20) {
        misname(random, settings, tree);
    }
    let mut names = name_values(settings, tree);
    if names.is_empty() {
        return;
    }
    let place = random.below(names.len());
    if let Value::Raw(bytes) = &mut *names[place] {
        escape(random, bytes);
    }
}

/// An escape in some string or some key, or in some that are names.
fn escape_some(random: &mut Random, settings: &Settings, tree: &mut Value) {
    match random.below(5) {
        0 => {
            if let Some(members) = tree.some_object(random).filter(|members| !members.is_empty()) {
                let place = random.below(members.len());
                escape(random, &mut members[place].0);
            }
        }
        1 => {
            if let Value::Raw(bytes) = tree.some(random) {
                escape(random, bytes);
            }
        }
        2 => respell(random, settings, tree),
        3 => twice(random, tree),
        _ => misspell(random, settings, tree),
    }
}

/// The string with an escape: with the same meaning, or with another.
fn escape(random: &mut Random, string: &mut Vec<u8>) {
    if string.len() < 2 || string[0] != b'"' || string.contains(&b'\\') {
        return;
    }
    let inner = string[1..string.len() - 1].to_vec();
    *string = if random.percent(50) { spelled(random, &inner) } else { misspelled(random, &inner) };
}

fn duplicate_member(random: &mut Random, tree: &mut Value) {
    if let Some(members) = tree.some_object(random).filter(|members| !members.is_empty()) {
        let mut again = members[random.below(members.len())].clone();
        if random.percent(40) {
            again.1 = stray(random);
        }
        let place = random.below(members.len() + 1);
        members.insert(place, again);
    }
}

fn remove_member(random: &mut Random, tree: &mut Value) {
    if let Some(members) = tree.some_object(random).filter(|members| !members.is_empty()) {
        let place = random.below(members.len());
        members.remove(place);
    }
}

fn rename_member(random: &mut Random, tree: &mut Value) {
    if let Some(members) = tree.some_object(random).filter(|members| !members.is_empty()) {
        let place = random.below(members.len());
        members[place].0 = key(random.pick(&NAMES));
    }
}

fn add_named(random: &mut Random, tree: &mut Value) {
    if let Some(members) = tree.some_object(random) {
        let place = random.below(members.len() + 1);
        members.insert(place, (key(random.pick(&NAMES)), stray(random)));
    }
}

/// K: another object before or after the first, with some of its members.
fn regroup(random: &mut Random, tree: &mut Value) {
    let Value::Array(items) = tree else { return };
    let Some(Value::Object(members)) = items.get_mut(1) else { return };
    let kept = random.below(members.len() + 1);
    let moved = members.split_off(kept);
    let place = random.between(1, 2);
    items.insert(place, Value::Object(moved));
}

/// M: `channel` or `product` once more, perhaps with an escape or another value.
fn duplicate_name(random: &mut Random, settings: &Settings, tree: &mut Value) {
    let Value::Object(members) = tree else { return };
    let (name, value) = if random.percent(50) { ("channel", b"book".as_slice()) } else { ("product", &settings.name[..]) };
    let mut value = quoted(value);
    match random.below(3) {
        0 => escape(random, &mut value),
        1 => value = quoted(random.pick(&MISNAMED).as_bytes()),
        _ => {}
    }
    let place = random.below(members.len() + 1);
    members.insert(place, (key(name), Value::Raw(value)));
}

/// An element more, one less, or two that changed places.
fn change_array(random: &mut Random, tree: &mut Value) {
    for _ in 0..10 {
        let Value::Array(items) = tree.some(random) else { continue };
        let place = random.below(items.len() + 1);
        match random.below(3) {
            0 => items.insert(place, stray(random)),
            1 if place < items.len() => drop(items.remove(place)),
            _ if !items.is_empty() => {
                let (one, other) = (random.below(items.len()), random.below(items.len()));
                items.swap(one, other);
            }
            _ => {}
        }
        return;
    }
}

/// A whole number, where one belongs, that is none.
fn bad_whole(random: &mut Random, settings: &Settings, tree: &mut Value) {
    let bad = raw(random.pick(&BAD_WHOLE));
    match (settings.dialect, &mut *tree) {
        (Dialect::K, Value::Array(items)) if random.percent(30) && !items.is_empty() => items[0] = bad,
        (Dialect::K, Value::Array(items)) => {
            for item in items.iter_mut() {
                let Value::Object(members) = item else { continue };
                members.iter_mut().filter(|member| member.0 == key("c")).for_each(|member| member.1 = bad.clone());
            }
        }
        (_, Value::Object(members)) => {
            let name = key(random.pick(&["gsn", "checksum", "prev_gsn"]));
            members.iter_mut().filter(|member| member.0 == name).for_each(|member| member.1 = bad.clone());
        }
        _ => {}
    }
}

/// Nesting about as deep as allowed, in a member that is passed over.
fn nest(random: &mut Random, tree: &mut Value) {
    let depth = random.between(12, 18);
    let deep = nested(random, depth);
    if let Some(members) = tree.some_object(random) {
        let place = random.below(members.len() + 1);
        members.insert(place, (key("x"), deep));
    }
}

/// Another message altogether, or this one inside an array or an object.
fn whole_other(random: &mut Random, tree: Value) -> Value {
    match random.below(7) {
        0 => stray(random),
        1 => {
            let depth = random.between(14, 18);
            nested(random, depth)
        }
        2 => Value::Array(vec![tree]),
        3 => Value::Object(vec![(key("data"), tree)]),
        4 => Value::Array((0..random.below(7)).map(|_| stray(random)).collect()),
        5 => Value::Object((0..random.below(4)).map(|_| (key(random.pick(&NAMES)), stray(random))).collect()),
        _ => raw(random.pick(&[
            "{\"channel\":\"trades\"}",
            "{\"event\":\"heartbeat\"}",
            "{\"channel\":\"book\",\"channel\":\"trades\"}",
            "[0,{},\"trade\",\"XBT/USD\"]",
        ])),
    }
}

// Bytes.

/// One fault in the bytes. No line end is put in.
pub fn damage_bytes(random: &mut Random, mut bytes: Vec<u8>) -> Vec<u8> {
    match random.below(8) {
        0 => bytes.truncate(random.below(bytes.len() + 1)),
        1 => bytes = pad(random, bytes),
        2 => bytes.drain(..random.below(bytes.len() + 1).min(3)).for_each(drop),
        3 => bytes = random.pick(&["", " ", "\t\r ", "\u{feff}", "\"", "[", "{", "\0"]).as_bytes().to_vec(),
        4 => bytes.extend_from_slice(random.pick(&["]", "}", ",", " 1", "\"", "x", "\0", "\u{feff}"]).as_bytes()),
        _ => (0..random.between(1, 3)).for_each(|_| change_byte(random, &mut bytes)),
    }
    bytes
}

fn change_byte(random: &mut Random, bytes: &mut Vec<u8>) {
    let place = random.below(bytes.len() + 1);
    let byte = match random.below(3) {
        0 => random.pick(b"[]{},:\"\\ \t0123456789.-+eEu"),
        1 => (random.next() % 256) as u8,
        _ => random.pick(&[0, 1, 9, 13, 31, 32, 127, 128, 255, b'"', b'\\']),
    };
    let byte = if byte == b'\n' { b' ' } else { byte };
    match random.below(3) {
        0 if place < bytes.len() => bytes[place] = byte,
        1 if place < bytes.len() => drop(bytes.remove(place)),
        _ => bytes.insert(place, byte),
    }
}

/// Blanks before or after, up to about the longest message.
pub fn pad(random: &mut Random, bytes: Vec<u8>) -> Vec<u8> {
    let wanted = match random.below(4) {
        0 => MAX_MESSAGE,
        1 => MAX_MESSAGE + 1,
        2 => random.between(MAX_MESSAGE - 2, MAX_MESSAGE + 2),
        _ => random.between(MAX_MESSAGE + 1, 3 * MAX_MESSAGE),
    };
    let blanks = vec![random.pick(b" \t\r"); wanted.saturating_sub(bytes.len())];
    if random.percent(50) {
        [bytes, blanks].concat()
    } else {
        [blanks, bytes].concat()
    }
}

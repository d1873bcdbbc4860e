//! The two rules of M: how many levels are summed, and the number before. Sessions that
//! try both, and what came up of them.

use crate::book::{Sides, State, SUMMED};
use crate::decimal::Decimal;
use crate::escapes;
use crate::json::{self, Node, Shape};
use crate::making::{prices, removal, set, sets, Making};
use crate::message::{self, Kind, Message, Side};
use crate::random::Random;
use crate::session::{Purpose, Session};
use crate::settings::{Dialect, Settings};
use crate::traffic::{sides_after, Line};
use crate::value::{key, raw, stray, Blanks, Value};

type Members = Vec<(Vec<u8>, Value)>;

const NOT_WHOLE: [&str; 8] = ["-0", "1.0", "1e0", "-1", "10000000000000000000", "0.0", "7E0", "null"];

/// Books of about 25 levels a side, sums by both rules, and numbers before of every kind.
pub fn session(random: &mut Random, purpose: Purpose, dialect: Dialect) -> Session {
    let mut making = Making::new(purpose, dialect, 100);
    if dialect == Dialect::M1 {
        making.spelled = "M";
    }
    let all = prices(random, 60);
    for turn in 0..240 {
        if making.book.state != State::Live {
            let lines = about_summed(random, &all);
            making.send(random, Kind::Snapshot, lines);
        }
        match turn % 12 {
            0 => {
                let lines = about_summed(random, &all);
                let tree = making.value(random, Kind::Snapshot, lines);
                send_edited(random, &mut making, tree, any_previous);
            }
            1 => {
                let lines = about_summed(random, &all);
                making.send(random, Kind::Snapshot, lines);
                making.send(random, Kind::Update, vec![]);
            }
            2 => past_summed(random, &mut making),
            3 => other_sum(random, &mut making, &all),
            4 | 5 => broken(random, &mut making, &all),
            6 => largest(random, &mut making),
            7 => {
                let tree = making.value(random, Kind::Update, vec![]);
                send_edited(random, &mut making, tree, in_data);
            }
            _ => numbers(random, &mut making, &all),
        }
    }
    making.made()
}

/// Lines for sides of about as many levels as M2 sums.
fn about_summed(random: &mut Random, all: &[Vec<Decimal>; 2]) -> Vec<Line> {
    let mut lines = Vec::new();
    for (prices, side) in all.iter().zip(Side::BOTH) {
        let count = random.pick(&[0, 1, SUMMED - 1, SUMMED, SUMMED, SUMMED + 1, SUMMED + 1, SUMMED + 2, 60]);
        lines.extend(sets(random, side, &prices[..count]));
    }
    lines
}

fn one_line(random: &mut Random, all: &[Vec<Decimal>; 2]) -> Vec<Line> {
    let place = random.below(2);
    let price = random.pick(&all[place]);
    vec![set(random, Side::BOTH[place], price)]
}

/// A change that the ten and the 25 best levels do not show.
fn past_summed(random: &mut Random, making: &mut Making) {
    let mut lines = Vec::new();
    for side in Side::BOTH {
        let levels = making.book.sides.side(side);
        if levels.len() > SUMMED {
            let price = random.pick(&levels[SUMMED..]).price;
            lines.push(if random.percent(50) { removal(random, side, price) } else { set(random, side, price) });
        }
    }
    making.send(random, Kind::Update, lines);
}

/// The checksum that the other rule gives.
fn other_sum(random: &mut Random, making: &mut Making, all: &[Vec<Decimal>; 2]) {
    let kind = random.pick(&[Kind::Snapshot, Kind::Update]);
    let lines = if kind == Kind::Snapshot { about_summed(random, all) } else { vec![] };
    let mut draft = making.draft(random, kind, lines);
    let sum = sides_after(&making.book, &draft).map_or(0, |sides| sides.checksum(other(making.settings.dialect)));
    draft.checksum = sum.to_string();
    making.send_draft(random, draft);
}

fn other(dialect: Dialect) -> Dialect {
    if dialect == Dialect::M1 {
        Dialect::M2
    } else {
        Dialect::M1
    }
}

/// Right and wrong numbers, before and new.
fn numbers(random: &mut Random, making: &mut Making, all: &[Vec<Decimal>; 2]) {
    let lines = one_line(random, all);
    let mut draft = making.draft(random, Kind::Update, lines);
    let number = making.book.number;
    match random.below(10) {
        0 => draft.previous = number.saturating_sub(1).to_string(),
        1 => draft.previous = (number + 1).to_string(),
        2 => {
            draft.gsn = (number + 5).to_string();
            draft.previous = draft.gsn.clone();
        }
        3 => draft.gsn = number.to_string(),
        4 => {
            draft.gsn = number.to_string();
            draft.previous = (number + 1).to_string();
        }
        5 => draft.previous = (number + 1_000_000).to_string(),
        6 | 7 => draft.gsn = (number + 5).to_string(),
        8 => {
            draft.gsn = (number + 5).to_string();
            draft.previous = (number + 4).to_string();
        }
        _ => {}
    }
    making.send_draft(random, draft);
}

/// The number before is missing, there twice, or no whole number.
fn broken(random: &mut Random, making: &mut Making, all: &[Vec<Decimal>; 2]) {
    let lines = one_line(random, all);
    let tree = making.value(random, Kind::Update, lines);
    send_edited(random, making, tree, |random, members| {
        let Some(place) = members.iter().position(|member| member.0 == key("prev_gsn")) else { return };
        let number = members[place].1.clone();
        match random.below(5) {
            0 => drop(members.remove(place)),
            1 => members.insert(random.below(members.len() + 1), (key("prev_gsn"), number)),
            2 => members.push((escapes::spelled(random, b"prev_gsn"), number)),
            3 => {
                if let Value::Raw(bytes) = number {
                    members[place].1 = Value::Raw([b"\"".as_slice(), &bytes, b"\""].concat());
                }
            }
            _ => members[place].1 = raw(random.pick(&NOT_WHOLE)),
        }
    });
}

/// Numbers of 19 digits.
fn largest(random: &mut Random, making: &mut Making) {
    let mut draft = making.draft(random, Kind::Snapshot, vec![]);
    draft.gsn = random.pick(&["9999999999999999990", "9223372036854775807", "1000000000000000000"]).to_string();
    making.send_draft(random, draft);
    for _ in 0..2 {
        let tree = making.value(random, Kind::Update, vec![]);
        send_edited(random, making, tree, escaped_key);
    }
}

fn send_edited(random: &mut Random, making: &mut Making, mut tree: Value, edit: impl FnOnce(&mut Random, &mut Members)) {
    if let Value::Object(members) = &mut tree {
        edit(random, members);
    }
    making.push(tree.written(random, Blanks::None));
}

/// A number before of any kind, where it is passed over.
fn any_previous(random: &mut Random, members: &mut Members) {
    members.push((key("prev_gsn"), stray(random)));
}

/// A number before inside `data`.
fn in_data(random: &mut Random, members: &mut Members) {
    for (_, value) in members.iter_mut().filter(|member| member.0 == key("data")) {
        if let Value::Object(data) = value {
            data.push((key("prev_gsn"), stray(random)));
        }
    }
}

fn escaped_key(random: &mut Random, members: &mut Members) {
    for (name, _) in members.iter_mut().filter(|member| member.0 == key("prev_gsn")) {
        *name = escapes::spelled(random, b"prev_gsn");
    }
}

// What came up.

pub const AS_M: &str = "opened as M";
pub const AS_M1: &str = "opened as M1";
pub const RIGHT: &str = "prev_gsn right, taken";
pub const FAR: &str = "prev_gsn right and gsn more than one further, taken";
pub const LONG: &str = "prev_gsn of 19 digits, taken";
pub const ESCAPED: &str = "prev_gsn with an escape, taken";
pub const ONE_LESS: &str = "prev_gsn one less, 11";
pub const ONE_MORE: &str = "prev_gsn one more, 11";
pub const JUST_BELOW: &str = "prev_gsn one below the new gsn and not the book's number, 11";
pub const NEW: &str = "prev_gsn that is the new gsn, 11";
pub const GAP: &str = "prev_gsn right and gsn old, 11";
pub const BOTH_WRONG: &str = "prev_gsn wrong and gsn old, 11";
pub const MISSING: &str = "prev_gsn missing, 6";
pub const TWICE: &str = "prev_gsn twice, 6";
pub const TWICE_MEANT: &str = "prev_gsn twice, written in two ways, 6";
pub const STRING: &str = "prev_gsn a string, 6";
pub const NO_NUMBER: &str = "prev_gsn no whole number, 6";
pub const IN_DATA: &str = "prev_gsn in data, taken";
pub const SNAPSHOT: &str = "prev_gsn in a snapshot, taken";
pub const PASSED: &str = "prev_gsn in an update, passed over";
pub const UNDER: &str = "24 levels on the longer side, taken";
pub const JUST: &str = "25 levels on the longer side, taken";
pub const OVER: &str = "26 levels on the longer side, taken";
pub const UNEQUAL: &str = "over 25 levels on one side and fewer on the other, taken";
pub const PAST: &str = "change past the 25th level alone, taken";
pub const OTHER_SUM: &str = "checksum by the other rule, 13";

/// What has to come up in a dialect.
pub fn causes(dialect: Dialect) -> Vec<&'static str> {
    let both = [UNDER, JUST, OVER, UNEQUAL, PAST, OTHER_SUM, IN_DATA, SNAPSHOT];
    match dialect {
        Dialect::K => vec![],
        Dialect::M1 => [both.as_slice(), &[AS_M, AS_M1, PASSED]].concat(),
        Dialect::M2 => {
            let own = [
                RIGHT, FAR, LONG, ESCAPED, ONE_LESS, ONE_MORE, NEW, JUST_BELOW, GAP, BOTH_WRONG, MISSING, TWICE, TWICE_MEANT, STRING,
                NO_NUMBER,
            ];
            [both.as_slice(), &own].concat()
        }
    }
}

/// How the settings say the dialect.
pub fn seen_opening(settings: &Settings, line: &[u8]) -> Vec<&'static str> {
    match settings.dialect {
        Dialect::M1 => vec![if line.starts_with(b"M1") { AS_M1 } else { AS_M }],
        _ => vec![],
    }
}

/// What a message's numbers and sums bring up; `number` and `before` are what it found.
pub fn seen(settings: &Settings, message: &Message, number: u64, before: &Sides, after: &Sides, answer: u8) -> Vec<&'static str> {
    if settings.dialect == Dialect::K {
        return vec![];
    }
    let previous = message.previous.map_or(vec![], |previous| seen_previous(previous, message.gsn, number, answer));
    let sums = match answer {
        0 => seen_sums(message, before, after),
        13 if message.checksum == Some(after.checksum(other(settings.dialect))) => vec![OTHER_SUM],
        _ => vec![],
    };
    [previous, sums].concat()
}

fn seen_previous(previous: u64, gsn: u64, number: u64, answer: u8) -> Vec<&'static str> {
    const LONGEST: u64 = 1_000_000_000_000_000_000;
    let causes = match answer {
        0 => vec![(RIGHT, true), (FAR, previous + 1 < gsn), (LONG, previous >= LONGEST)],
        11 if gsn <= number => vec![(GAP, previous == number), (BOTH_WRONG, previous != number)],
        11 => vec![
            (NEW, previous == gsn),
            (JUST_BELOW, previous + 1 == gsn),
            (ONE_LESS, previous + 1 == number),
            (ONE_MORE, previous == number + 1),
        ],
        _ => vec![],
    };
    causes.into_iter().filter(|cause| cause.1).map(|cause| cause.0).collect()
}

fn seen_sums(message: &Message, before: &Sides, after: &Sides) -> Vec<&'static str> {
    let (bids, asks) = (after.bids.len(), after.asks.len());
    let mut seen = match bids.max(asks) {
        24 => vec![UNDER],
        25 => vec![JUST],
        26 => vec![OVER],
        _ => vec![],
    };
    if bids.max(asks) > SUMMED {
        if bids.min(asks) < SUMMED {
            seen.push(UNEQUAL);
        }
        let unseen = || before.checksum_text(Dialect::M2) == after.checksum_text(Dialect::M2);
        if message.kind == Kind::Update && before != after && unseen() {
            seen.push(PAST);
        }
    }
    seen
}

/// What the layout of a message brings up.
pub fn seen_texts(settings: &Settings, text: &[u8], answer: u8) -> Vec<&'static str> {
    if settings.dialect == Dialect::K || (answer != 0 && answer != 6) {
        return vec![];
    }
    let Some(tree) = json::read(text) else { return vec![] };
    let Some(members) = tree.members() else { return vec![] };
    let previous: Vec<(&Node, &Node)> =
        members.iter().filter(|member| member.key.is(text, b"prev_gsn")).map(|member| (&member.key, &member.value)).collect();
    match answer {
        0 => taken(settings, text, &tree, &previous),
        _ if settings.dialect == Dialect::M2 => refused(settings, text, &previous),
        _ => vec![],
    }
}

fn taken(settings: &Settings, text: &[u8], tree: &Node, previous: &[(&Node, &Node)]) -> Vec<&'static str> {
    let members = tree.members().unwrap_or(&[]);
    let is_snapshot = members.iter().any(|member| member.key.is(text, b"type") && member.value.is(text, b"snapshot"));
    let data = members.iter().filter(|member| member.key.is(text, b"data")).filter_map(|member| member.value.members());
    let mut seen = Vec::new();
    if data.flatten().any(|member| member.key.is(text, b"prev_gsn")) {
        seen.push(IN_DATA);
    }
    match previous.first() {
        None => {}
        Some(_) if is_snapshot => seen.push(SNAPSHOT),
        Some(_) if settings.dialect == Dialect::M1 => seen.push(PASSED),
        Some((key, _)) if key.inner(text) != Some(b"prev_gsn") => seen.push(ESCAPED),
        Some(_) => {}
    }
    seen
}

/// A message that M1 would not refuse for its layout.
fn refused(settings: &Settings, text: &[u8], previous: &[(&Node, &Node)]) -> Vec<&'static str> {
    let as_m1 = Settings { dialect: Dialect::M1, ..settings.clone() };
    if message::read(&as_m1, text) == Err(6) {
        return vec![];
    }
    vec![match previous {
        [] => MISSING,
        [(_, value)] if value.shape == Shape::Text => STRING,
        [_] => NO_NUMBER,
        [(first, _), rest @ ..] if rest.iter().all(|(key, _)| key.inner(text) == first.inner(text)) => TWICE,
        _ => TWICE_MEANT,
    }]
}

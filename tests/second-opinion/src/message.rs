//! A message against the settings: checks 2 to 9.

use crate::decimal::{checksum, whole_number, Decimal};
use crate::json::{self, Member, Node, Shape};
use crate::settings::{Dialect, Settings};
use std::collections::HashSet;
use std::ops::Range;

pub const MAX_MESSAGE: usize = 32_768;
pub const MAX_ENTRIES: usize = 100;

/// The answer number of a refusal.
pub type Refusal = u8;

#[derive(Clone, Copy, Debug, PartialEq, Eq, Hash)]
pub enum Side {
    Bid,
    Ask,
}

impl Side {
    pub const BOTH: [Side; 2] = [Side::Bid, Side::Ask];
}

#[derive(Clone, Copy, Debug, PartialEq, Eq)]
pub enum Kind {
    Snapshot,
    Update,
}

#[derive(Clone, Copy, Debug, PartialEq, Eq, Default)]
pub struct Level {
    pub price: Decimal,
    pub size: Decimal,
}

/// A level to set, or to remove where the size is zero.
#[derive(Clone, Copy, Debug, PartialEq, Eq)]
pub struct Entry {
    pub side: Side,
    pub level: Level,
}

#[derive(Clone, Debug, PartialEq, Eq)]
pub struct Message {
    pub kind: Kind,
    /// In written order.
    pub entries: Vec<Entry>,
    /// None for a K snapshot.
    pub checksum: Option<u32>,
    /// 0 in K.
    pub gsn: u64,
    /// The `prev_gsn` of an M2 update.
    pub previous: Option<u64>,
}

/// A message that passed checks 2 to 7: its layout is right.
struct Layout<'a> {
    kind: Kind,
    entries: Vec<Written<'a>>,
    checksum: Option<u32>,
    gsn: u64,
    previous: Option<u64>,
}

/// The price and the size of an entry, where they stand.
struct Written<'a> {
    side: Side,
    price: &'a Node,
    size: &'a Node,
}

/// The message's meaning, or the first of checks 2 to 9 that refuses it.
pub fn read(settings: &Settings, message: &[u8]) -> Result<Message, Refusal> {
    let read = read_to_8(settings, message)?;
    if read.kind == Kind::Snapshot && names_twice(&read.entries) {
        return Err(9);
    }
    Ok(read)
}

/// The message's meaning, or the first of checks 2 to 8 that refuses it.
pub fn read_to_8(settings: &Settings, message: &[u8]) -> Result<Message, Refusal> {
    let tree = tree(message)?;
    let layout = layout(settings, message, &tree)?;
    if layout.entries.iter().any(|entry| !entry.bad_texts(message, layout.kind).is_empty()) {
        return Err(8);
    }
    let entries: Vec<Entry> = layout.entries.iter().map(|written| written.meaning(message)).collect();
    let Layout { kind, checksum, gsn, previous, .. } = layout;
    Ok(Message { kind, entries, checksum, gsn, previous })
}

/// A text that breaks check 8, and where it stands, with its quotes.
#[derive(Clone, Debug, PartialEq, Eq)]
pub struct BadText {
    pub side: Side,
    /// Else it is a size.
    pub is_price: bool,
    pub place: Range<usize>,
}

/// Every text that breaks check 8, in message order; none if the settings are bad or
/// one of checks 2 to 7 refuses.
pub fn bad_texts(settings: Option<&Settings>, message: &[u8]) -> Vec<BadText> {
    let find = || -> Option<Vec<BadText>> {
        let tree = tree(message).ok()?;
        let layout = layout(settings?, message, &tree).ok()?;
        Some(layout.entries.iter().flat_map(|entry| entry.bad_texts(message, layout.kind)).collect())
    };
    find().unwrap_or_default()
}

/// Where the first text stands that breaks check 8, with its quotes; else the
/// empty part at the message's start.
pub fn first_bad(settings: Option<&Settings>, message: &[u8]) -> Range<usize> {
    bad_texts(settings, message).first().map_or(0..0, |bad| bad.place.clone())
}

/// Checks 2 and 3.
fn tree(message: &[u8]) -> Result<Node, Refusal> {
    if message.len() > MAX_MESSAGE {
        return Err(2);
    }
    json::read(message).ok_or(3)
}

/// Checks 5 to 7.
fn layout<'a>(settings: &Settings, message: &[u8], tree: &'a Node) -> Result<Layout<'a>, Refusal> {
    let layout = match settings.dialect {
        Dialect::K => layout_k(settings, message, tree)?,
        Dialect::M1 | Dialect::M2 => layout_m(settings, message, tree)?,
    };
    for side in [Side::Bid, Side::Ask] {
        if layout.entries.iter().filter(|entry| entry.side == side).count() > MAX_ENTRIES {
            return Err(7);
        }
    }
    Ok(layout)
}

fn names_twice(entries: &[Entry]) -> bool {
    let mut seen = HashSet::new();
    entries.iter().any(|entry| !seen.insert((entry.side, entry.level.price.value())))
}

impl Written<'_> {
    /// Those of price and size that break check 8.
    fn bad_texts(&self, message: &[u8], kind: Kind) -> Vec<BadText> {
        let zero_allowed = kind == Kind::Update;
        let price_good = decimal(message, self.price).is_some_and(|price| !price.is_zero());
        let size_good = decimal(message, self.size).is_some_and(|size| zero_allowed || !size.is_zero());
        let bad = |node: &Node, is_price| BadText { side: self.side, is_price, place: node.start..node.end };
        let price = (!price_good).then(|| bad(self.price, true));
        let size = (!size_good).then(|| bad(self.size, false));
        price.into_iter().chain(size).collect()
    }

    /// Of an entry that breaks nothing.
    fn meaning(&self, message: &[u8]) -> Entry {
        let read = |node| decimal(message, node).expect("check 8 passed");
        Entry { side: self.side, level: Level { price: read(self.price), size: read(self.size) } }
    }
}

fn decimal(message: &[u8], node: &Node) -> Option<Decimal> {
    Decimal::read(node.inner(message)?)
}

// Dialect K.

/// The named members of the objects of a K message, each with its object's place.
#[derive(Default)]
struct NamedK<'a> {
    asks_whole: Vec<&'a Node>,
    bids_whole: Vec<&'a Node>,
    asks: Vec<(usize, &'a Node)>,
    bids: Vec<(usize, &'a Node)>,
    checksums: Vec<(usize, &'a Node)>,
}

/// Checks 5 and 6 in K.
fn layout_k<'a>(settings: &Settings, message: &[u8], tree: &'a Node) -> Result<Layout<'a>, Refusal> {
    let items = tree.items().filter(|items| items.len() == 4 || items.len() == 5).ok_or(5)?;
    let (rest, names) = items.split_at(items.len() - 2);
    if !names[0].is(message, &settings.channel()) || !names[1].is(message, &settings.name) {
        return Err(5);
    }
    body_k(message, &rest[0], &rest[1..]).ok_or(6)
}

fn body_k<'a>(message: &[u8], number: &Node, objects: &'a [Node]) -> Option<Layout<'a>> {
    whole(message, number)?;
    let objects: Vec<&[Member]> = objects.iter().map(Node::members).collect::<Option<_>>()?;
    let named = named_k(message, &objects);
    let updating = named.asks.len() + named.bids.len() + named.checksums.len() > 0;
    if updating {
        update_k(objects.len(), &named)?;
    } else {
        let snapshot = objects.len() == 1 && named.asks_whole.len() == 1 && named.bids_whole.len() == 1;
        snapshot.then_some(())?;
    }
    let checksum = match named.checksums.first() {
        None => None,
        Some((_, node)) => Some(checksum(node.inner(message)?)?),
    };
    let kind = if updating { Kind::Update } else { Kind::Snapshot };
    Some(Layout { kind, entries: entries_k(message, &objects)?, checksum, gsn: 0, previous: None })
}

fn named_k<'a>(message: &[u8], objects: &[&'a [Member]]) -> NamedK<'a> {
    let mut named = NamedK::default();
    for (place, members) in objects.iter().enumerate() {
        for member in members.iter() {
            match member.key.name(message).as_deref() {
                Some(b"as") => named.asks_whole.push(&member.value),
                Some(b"bs") => named.bids_whole.push(&member.value),
                Some(b"a") => named.asks.push((place, &member.value)),
                Some(b"b") => named.bids.push((place, &member.value)),
                Some(b"c") => named.checksums.push((place, &member.value)),
                _ => {}
            }
        }
    }
    named
}

/// The rules of an update's members: each side at most once, one of them in each
/// object, the checksum once, in the last.
fn update_k(objects: usize, named: &NamedK) -> Option<()> {
    let no_whole = named.asks_whole.is_empty() && named.bids_whole.is_empty();
    let at_most_once = named.asks.len() <= 1 && named.bids.len() <= 1;
    let side_in = |place| named.asks.iter().chain(&named.bids).any(|&(at, _)| at == place);
    let side_in_each = (0..objects).all(side_in);
    let one_checksum = named.checksums.len() == 1 && named.checksums[0].0 == objects - 1;
    (no_whole && at_most_once && side_in_each && one_checksum).then_some(())
}

fn entries_k<'a>(message: &[u8], objects: &[&'a [Member]]) -> Option<Vec<Written<'a>>> {
    let mut entries = Vec::new();
    for member in objects.iter().flat_map(|members| members.iter()) {
        let side = match member.key.name(message).as_deref() {
            Some(b"as" | b"a") => Side::Ask,
            Some(b"bs" | b"b") => Side::Bid,
            _ => continue,
        };
        for entry in member.value.items()? {
            let items = entry.items().filter(|items| items.len() >= 3)?;
            items[..3].iter().all(Node::is_text).then_some(())?;
            entries.push(Written { side, price: &items[0], size: &items[1] });
        }
    }
    Some(entries)
}

// Dialects M1 and M2.

/// Checks 5 and 6 in M.
fn layout_m<'a>(settings: &Settings, message: &[u8], tree: &'a Node) -> Result<Layout<'a>, Refusal> {
    let members = tree.members().ok_or(5)?;
    let all = |name: &[u8]| -> Vec<&'a Node> { named(message, members, name) };
    let some = |name: &[u8], value: &[u8]| all(name).iter().any(|node| node.is(message, value));
    if !some(b"channel", b"book") || !some(b"product", &settings.name) {
        return Err(5);
    }
    body_m(settings.dialect, message, members).ok_or(6)
}

fn named<'a>(message: &[u8], members: &'a [Member], name: &[u8]) -> Vec<&'a Node> {
    members.iter().filter(|member| member.key.is(message, name)).map(|member| &member.value).collect()
}

fn once<'a>(message: &[u8], members: &'a [Member], name: &[u8]) -> Option<&'a Node> {
    match named(message, members, name)[..] {
        [only] => Some(only),
        _ => None,
    }
}

fn body_m<'a>(dialect: Dialect, message: &[u8], members: &'a [Member]) -> Option<Layout<'a>> {
    once(message, members, b"channel")?;
    once(message, members, b"product")?;
    let kind = match once(message, members, b"type")?.name(message)?.as_ref() {
        b"snapshot" => Kind::Snapshot,
        b"update" => Kind::Update,
        _ => return None,
    };
    let sum = once(message, members, b"checksum")?;
    let sum = u32::try_from(whole(message, sum)?).ok()?;
    let gsn = whole(message, once(message, members, b"gsn")?)?;
    let previous = match (dialect, kind) {
        (Dialect::M2, Kind::Update) => Some(whole(message, once(message, members, b"prev_gsn")?)?),
        _ => None,
    };
    let data = once(message, members, b"data")?.members()?;
    once(message, data, b"bids")?;
    once(message, data, b"asks")?;
    Some(Layout { kind, entries: entries_m(message, data)?, checksum: Some(sum), gsn, previous })
}

fn entries_m<'a>(message: &[u8], data: &'a [Member]) -> Option<Vec<Written<'a>>> {
    let mut entries = Vec::new();
    for member in data {
        let side = match member.key.name(message).as_deref() {
            Some(b"bids") => Side::Bid,
            Some(b"asks") => Side::Ask,
            _ => continue,
        };
        for entry in member.value.items()? {
            let items = entry.items().filter(|items| items.len() == 2)?;
            items.iter().all(Node::is_text).then_some(())?;
            entries.push(Written { side, price: &items[0], size: &items[1] });
        }
    }
    Some(entries)
}

/// A JSON number that is written as a whole number.
fn whole(message: &[u8], node: &Node) -> Option<u64> {
    (node.shape == Shape::Number).then_some(())?;
    whole_number(node.bytes(message))
}

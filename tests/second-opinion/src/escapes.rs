//! Names written with escapes, with their meaning or with another; and what came
//! up of them in the messages that were compared.

use crate::json::{self, Member, Node};
use crate::random::Random;
use crate::settings::{Dialect, Settings};
use crate::value::{key, Value};

/// A string, with its quotes, that means `name`.
pub fn spelled(random: &mut Random, name: &[u8]) -> Vec<u8> {
    let chance = random.pick(&[0, 15, 50, 100]);
    let one = random.below(name.len().max(1));
    let bytes = name.iter().enumerate().map(|(place, &byte)| {
        if place == one || random.percent(chance) {
            escape(random, byte)
        } else {
            vec![byte]
        }
    });
    quoted_parts(bytes.collect())
}

/// A string, with its quotes, that means `name`, with every byte as an escape.
pub fn spelled_whole(random: &mut Random, name: &[u8]) -> Vec<u8> {
    quoted_parts(name.iter().map(|&byte| escape(random, byte)).collect())
}

fn quoted_parts(parts: Vec<Vec<u8>>) -> Vec<u8> {
    [b"\"".to_vec(), parts.concat(), b"\"".to_vec()].concat()
}

fn escape(random: &mut Random, byte: u8) -> Vec<u8> {
    match byte {
        b'/' if random.percent(60) => b"\\/".to_vec(),
        _ => hex(random, u32::from(byte)),
    }
}

/// `\u` with four hex digits: small, capital, or each as it comes.
fn hex(random: &mut Random, code: u32) -> Vec<u8> {
    let case = random.below(3);
    let digits = format!("{code:04x}").into_bytes().into_iter();
    let digits = digits.map(|digit| match case {
        0 => digit,
        1 => digit.to_ascii_uppercase(),
        _ => random.pick(&[digit, digit.to_ascii_uppercase()]),
    });
    let digits: Vec<u8> = digits.collect();
    [b"\\u".as_slice(), &digits].concat()
}

/// Escapes that mean no byte of a name of ours, or one too many.
const STRANGE: [&str; 20] = [
    "\\n", "\\t", "\\b", "\\f", "\\r", "\\\\", "\\\"", "\\/", "\\u0020", "\\u007f", "\\u007F", "\\u0000", "\\u0100", "\\ud800",
    "\\udfff", "\\ud83d\\ude00", "\\u00e9", "\\u0022", "\\u005c", "\\uffff",
];

/// A string, with its quotes, that comes near to `name` and mostly means something else.
pub fn misspelled(random: &mut Random, name: &[u8]) -> Vec<u8> {
    let mut parts: Vec<Vec<u8>> = name.iter().map(|&byte| vec![byte]).collect();
    if random.percent(30) {
        parts = name.iter().map(|&byte| escape(random, byte)).collect();
    }
    let place = random.below(name.len() + 1);
    match name.get(place) {
        Some(&byte) if random.percent(70) => parts[place] = mistaken(random, byte),
        _ => parts.insert(place, random.pick(&STRANGE).as_bytes().to_vec()),
    }
    quoted_parts(parts)
}

/// An escape that a wrong reading takes for `byte`.
fn mistaken(random: &mut Random, byte: u8) -> Vec<u8> {
    let code = u32::from(byte);
    match random.below(8) {
        0 if b"bfnrt".contains(&byte) => vec![b'\\', byte],
        1 => hex(random, code << 8),
        2 => hex(random, code % 16 * 16 + code / 16),
        3 => hex(random, code ^ 32),
        4 => hex(random, 0xff00 + code.wrapping_sub(32) % 256),
        5 => [b"\\".to_vec(), hex(random, code)].concat(),
        6 => [b"\\\\".as_slice(), &[byte]].concat(),
        _ => {
            let high = random.pick(&[0x100, 0x200, 0x1000, 0x8000, 0xd800]);
            hex(random, high + code)
        }
    }
}

/// The strings of a message that are compared with names: keys of the objects that are
/// read, and values; each with its quotes.
fn names<'a>(dialect: Dialect, tree: &'a mut Value) -> Vec<&'a mut Vec<u8>> {
    let compared = [key("channel"), key("product"), key("type")];
    let mut names = Vec::new();
    match tree {
        Value::Array(items) if dialect == Dialect::K => {
            for item in items {
                match item {
                    Value::Object(members) => names.extend(members.iter_mut().map(|member| &mut member.0)),
                    Value::Raw(bytes) => names.push(bytes),
                    Value::Array(_) => {}
                }
            }
        }
        Value::Object(members) => {
            for (name, value) in members {
                let (is_compared, is_data) = (compared.contains(name), *name == key("data"));
                names.push(name);
                match value {
                    Value::Raw(bytes) if is_compared => names.push(bytes),
                    Value::Object(inner) if is_data => names.extend(inner.iter_mut().map(|member| &mut member.0)),
                    _ => {}
                }
            }
        }
        _ => {}
    }
    names.retain(|name| name.len() > 2 && name[0] == b'"' && !name.contains(&b'\\'));
    names
}

/// Some names, or all of them, written otherwise with the same meaning.
pub fn respell(random: &mut Random, settings: &Settings, tree: &mut Value) {
    let chance = random.pick(&[15, 15, 50, 100]);
    let whole = random.percent(30);
    for name in names(settings.dialect, tree) {
        if random.percent(chance) {
            let inner = name[1..name.len() - 1].to_vec();
            *name = if whole { spelled_whole(random, &inner) } else { spelled(random, &inner) };
        }
    }
}

/// Every name with every byte as an escape.
pub fn respell_wholly(random: &mut Random, settings: &Settings, tree: &mut Value) {
    for name in names(settings.dialect, tree) {
        *name = spelled_whole(random, &name[1..name.len() - 1].to_vec());
    }
}

/// One name written so that it mostly means something else.
pub fn misspell(random: &mut Random, settings: &Settings, tree: &mut Value) {
    let mut names = names(settings.dialect, tree);
    if names.is_empty() {
        return;
    }
    let place = random.below(names.len());
    let name = &mut *names[place];
    *name = misspelled(random, &name[1..name.len() - 1].to_vec());
}

/// Some member of an object that is read once more, its key written otherwise.
pub fn twice(random: &mut Random, tree: &mut Value) {
    if let Some(members) = tree.some_object(random).filter(|members| !members.is_empty()) {
        let (name, value) = members[random.below(members.len())].clone();
        if name.len() > 2 && !name.contains(&b'\\') {
            let again = (spelled(random, &name[1..name.len() - 1]), value);
            let place = random.below(members.len() + 1);
            members.insert(place, again);
        }
    }
}

// What came up.

pub const KEY: &str = "key with an escape, taken";
pub const CHANNEL: &str = "channel with an escape, taken";
pub const PRODUCT: &str = "product or pair with an escape, taken";
pub const TYPE: &str = "type with an escape, taken";
pub const SLASH: &str = "name with an escaped slash, taken";
pub const CAPITAL: &str = "name with a capital hex digit, taken";
pub const SMALL: &str = "name with a small hex digit, taken";
pub const WHOLE: &str = "name with every byte escaped, taken";
pub const SHORTEST: &str = "product or pair of 1 byte, escaped, taken";
pub const LONGEST: &str = "product or pair of 16 bytes, all escaped, taken";
pub const NO_KEY: &str = "key with an escape that is none of ours, taken";
pub const NO_CHANNEL: &str = "channel whose escapes mean another, 5";
pub const NO_PRODUCT: &str = "product or pair whose escapes mean another, 5";
pub const NO_TYPE: &str = "type whose escapes mean another, 6";
pub const TWICE: &str = "member twice, written in two ways, 6";
pub const DECIMAL: &str = "price or size with an escape, 8";
pub const CHECKSUM: &str = "checksum with an escape, 6";

/// What has to come up in a dialect.
pub fn causes(dialect: Dialect) -> Vec<&'static str> {
    let both = [
        KEY, CHANNEL, PRODUCT, SLASH, CAPITAL, SMALL, WHOLE, SHORTEST, LONGEST, NO_KEY, NO_CHANNEL, NO_PRODUCT, TWICE, DECIMAL,
    ];
    match dialect {
        Dialect::K => [both.as_slice(), &[CHECKSUM]].concat(),
        Dialect::M1 | Dialect::M2 => [both.as_slice(), &[TYPE, NO_TYPE]].concat(),
    }
}

/// A message's strings, by what they are compared with.
#[derive(Default)]
struct Parts<'a> {
    channels: Vec<&'a Node>,
    products: Vec<&'a Node>,
    types: Vec<&'a Node>,
    checksums: Vec<&'a Node>,
    objects: Vec<&'a [Member]>,
}

fn parts<'a>(dialect: Dialect, message: &[u8], tree: &'a Node) -> Option<Parts<'a>> {
    if dialect == Dialect::K {
        let items = tree.items().filter(|items| items.len() == 4 || items.len() == 5)?;
        let (rest, last) = items.split_at(items.len() - 2);
        let objects: Vec<&[Member]> = rest.iter().filter_map(Node::members).collect();
        let members = objects.iter().flat_map(|members| members.iter());
        let checksums = members.filter(|member| member.key.is(message, b"c")).map(|member| &member.value).collect();
        return Some(Parts { channels: vec![&last[0]], products: vec![&last[1]], checksums, objects, ..Parts::default() });
    }
    let members = tree.members()?;
    let all = |name: &[u8]| -> Vec<&'a Node> {
        members.iter().filter(|member| member.key.is(message, name)).map(|member| &member.value).collect()
    };
    let objects = [vec![members], all(b"data").into_iter().filter_map(Node::members).collect()].concat();
    Some(Parts { channels: all(b"channel"), products: all(b"product"), types: all(b"type"), objects, ..Parts::default() })
}

/// What a message with escapes brings up.
pub fn seen(settings: &Settings, message: &[u8], answer: u8, bad_text: Option<&[u8]>) -> Vec<&'static str> {
    if !message.contains(&b'\\') {
        return vec![];
    }
    let Some(tree) = json::read(message) else { return vec![] };
    let Some(parts) = parts(settings.dialect, message, &tree) else { return vec![] };
    match answer {
        0 => parts.taken(message),
        5 => parts.not_ours(settings, message),
        6 => parts.broken(message),
        8 if bad_text.is_some_and(|text| text.contains(&b'\\')) => vec![DECIMAL],
        _ => vec![],
    }
}

fn escaped(node: &Node, message: &[u8]) -> bool {
    node.inner(message).is_some_and(|text| text.contains(&b'\\'))
}

impl Parts<'_> {
    fn keys(&self) -> Vec<&Node> {
        self.objects.iter().flat_map(|members| members.iter()).map(|member| &member.key).collect()
    }

    fn taken(&self, message: &[u8]) -> Vec<&'static str> {
        let mut seen = Vec::new();
        let ours: [&[u8]; 14] = [
            b"as", b"bs", b"a", b"b", b"c", b"channel", b"product", b"type", b"data", b"checksum", b"gsn", b"bids", b"asks",
            b"prev_gsn",
        ];
        for key in self.keys().into_iter().filter(|key| escaped(key, message)) {
            let known = key.name(message).is_some_and(|name| ours.contains(&name.as_ref()));
            seen.push(if known { KEY } else { NO_KEY });
        }
        let values = [(&self.channels, CHANNEL), (&self.products, PRODUCT), (&self.types, TYPE)];
        for (nodes, name) in values {
            for node in nodes.iter().filter(|node| escaped(node, message)) {
                seen.push(name);
                seen.extend(ways(node, message));
                let length = node.name(message).map_or(0, |name| name.len());
                match (name, length, wholly(node, message)) {
                    (PRODUCT, 1, true) => seen.push(SHORTEST),
                    (PRODUCT, 16, true) => seen.push(LONGEST),
                    _ => {}
                }
            }
        }
        seen
    }

    fn not_ours(&self, settings: &Settings, message: &[u8]) -> Vec<&'static str> {
        let channel = match settings.dialect {
            Dialect::K => settings.channel(),
            Dialect::M1 | Dialect::M2 => b"book".to_vec(),
        };
        let is_other = |nodes: &[&Node], name: &[u8]| {
            let none = !nodes.iter().any(|node| node.is(message, name));
            none && nodes.iter().any(|node| escaped(node, message))
        };
        let mut seen = Vec::new();
        if is_other(&self.channels, &channel) {
            seen.push(NO_CHANNEL);
        }
        if is_other(&self.products, &settings.name) {
            seen.push(NO_PRODUCT);
        }
        seen
    }

    fn broken(&self, message: &[u8]) -> Vec<&'static str> {
        let mut seen = Vec::new();
        if self.types.iter().any(|node| escaped(node, message) && !node.is(message, b"snapshot") && !node.is(message, b"update")) {
            seen.push(NO_TYPE);
        }
        if self.checksums.iter().any(|node| escaped(node, message)) {
            seen.push(CHECKSUM);
        }
        let is_twice = |members: &&[Member]| {
            members.iter().enumerate().any(|(place, member)| {
                let name = member.key.name(message);
                let other = |other: &Member| other.key.name(message) == name && other.key.inner(message) != member.key.inner(message);
                name.is_some() && members[..place].iter().any(other)
            })
        };
        if self.objects.iter().any(is_twice) {
            seen.push(TWICE);
        }
        seen
    }
}

/// Every byte is an escape.
fn wholly(node: &Node, message: &[u8]) -> bool {
    let text = node.inner(message).unwrap_or(b"");
    let (mut place, mut whole) = (0, !text.is_empty());
    while place < text.len() {
        whole &= text[place] == b'\\';
        place += match text.get(place..place + 2) {
            Some(b"\\u") => 6,
            Some([b'\\', _]) => 2,
            _ => 1,
        };
    }
    whole
}

/// How the escapes of a name are written.
fn ways(node: &Node, message: &[u8]) -> Vec<&'static str> {
    let text = node.inner(message).unwrap_or(b"");
    let mut seen = Vec::new();
    if text.windows(2).any(|pair| pair == b"\\/") {
        seen.push(SLASH);
    }
    let digits = || text.windows(6).filter(|part| part.starts_with(b"\\u")).flat_map(|part| &part[2..]);
    if digits().any(u8::is_ascii_uppercase) {
        seen.push(CAPITAL);
    }
    if digits().any(u8::is_ascii_lowercase) {
        seen.push(SMALL);
    }
    if wholly(node, message) {
        seen.push(WHOLE);
    }
    seen
}

#[cfg(test)]
mod tests {
    use super::*;

    fn meant(string: &[u8]) -> Option<Vec<u8>> {
        json::read(string).and_then(|node| node.name(string).map(|name| name.into_owned()))
    }

    #[test]
    fn spellings() {
        let mut random = Random::new(3);
        let names: [&[u8]; 5] = [b"a", b"BTC/USD", b"book-100", b"0123456789abcdef", b"~!{}[],:"];
        let mut others = 0;
        for _ in 0..200 {
            for name in names {
                assert_eq!(meant(&spelled(&mut random, name)).as_deref(), Some(name));
                let whole = spelled_whole(&mut random, name);
                assert_eq!(meant(&whole).as_deref(), Some(name));
                assert!(wholly(&json::read(&whole).unwrap(), &whole));
                let other = misspelled(&mut random, name);
                assert!(json::read(&other).is_some(), "{}", String::from_utf8_lossy(&other));
                others += usize::from(meant(&other).as_deref() != Some(name));
            }
        }
        assert!(others > 900, "{others}");
    }
}

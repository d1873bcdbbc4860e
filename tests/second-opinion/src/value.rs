//! JSON values to be written, and damage done to them.

use crate::random::Random;

#[derive(Clone, Debug)]
pub enum Value {
    /// A number, literal or string (with its quotes), as it is to be written.
    Raw(Vec<u8>),
    Array(Vec<Value>),
    /// Keys with their quotes.
    Object(Vec<(Vec<u8>, Value)>),
}

/// How a value is written: with random blanks or with none.
#[derive(Clone, Copy, PartialEq, Eq)]
pub enum Blanks {
    None,
    Few,
    /// Line ends too.
    Lines,
}

/// Every name that means something somewhere, and some that come near.
pub const NAMES: [&str; 20] = [
    "as", "bs", "a", "b", "c", "channel", "product", "type", "data", "checksum", "gsn", "bids", "asks", "timestamp",
    "", "A", "As", "Bids", "prev_gsn", "book",
];

/// Values of every type, some of them right in some places.
const STRAY: [&str; 34] = [
    "null", "true", "false", "0", "1", "-1", "-0", "1.0", "1e0", "1E+2", "0.5", "12345678901234567890123",
    "\"\"", "\"x\"", "\"1\"", "\"0\"", "\"book\"", "\"book-10\"", "\"snapshot\"", "\"update\"", "\"\\n\"", "\"\\u0031\"",
    "[]", "{}", "[[]]", "[{}]", "[[\"1\",\"1\"]]", "[[\"1\",\"1\",\"1\"]]", "{\"a\":[]}", "{\"bids\":[],\"asks\":[]}",
    "[\"1\",\"1\"]", "\"\\ud800\"", "\"\u{e9}\"", "9999999999999999999",
];

pub fn quoted(text: &[u8]) -> Vec<u8> {
    [b"\"", text, b"\""].concat()
}

pub fn text(text: &str) -> Value {
    Value::Raw(quoted(text.as_bytes()))
}

pub fn raw(text: &str) -> Value {
    Value::Raw(text.as_bytes().to_vec())
}

pub fn key(name: &str) -> Vec<u8> {
    quoted(name.as_bytes())
}

pub fn stray(random: &mut Random) -> Value {
    raw(random.pick(&STRAY))
}

/// Arrays or objects inside each other.
pub fn nested(random: &mut Random, depth: usize) -> Value {
    let innermost = if random.percent(50) { Value::Array(vec![]) } else { Value::Object(vec![]) };
    (1..depth).fold(innermost, |inner, _| match random.below(3) {
        0 => Value::Object(vec![(key("a"), inner)]),
        1 => Value::Array(vec![raw("1"), inner]),
        _ => Value::Array(vec![inner]),
    })
}

impl Value {
    pub fn written(&self, random: &mut Random, blanks: Blanks) -> Vec<u8> {
        let mut out = Vec::new();
        blank(random, blanks, &mut out);
        self.write(random, blanks, &mut out);
        blank(random, blanks, &mut out);
        out
    }

    fn write(&self, random: &mut Random, blanks: Blanks, out: &mut Vec<u8>) {
        match self {
            Value::Raw(bytes) => out.extend_from_slice(bytes),
            Value::Array(items) => {
                out.push(b'[');
                for (place, item) in items.iter().enumerate() {
                    separate(place, random, blanks, out);
                    item.write(random, blanks, out);
                }
                blank(random, blanks, out);
                out.push(b']');
            }
            Value::Object(members) => {
                out.push(b'{');
                for (place, (key, value)) in members.iter().enumerate() {
                    separate(place, random, blanks, out);
                    out.extend_from_slice(key);
                    blank(random, blanks, out);
                    out.push(b':');
                    blank(random, blanks, out);
                    value.write(random, blanks, out);
                }
                blank(random, blanks, out);
                out.push(b'}');
            }
        }
    }

    /// How many values there are, this one included.
    fn count(&self) -> usize {
        1 + match self {
            Value::Raw(_) => 0,
            Value::Array(items) => items.iter().map(Value::count).sum(),
            Value::Object(members) => members.iter().map(|(_, value)| value.count()).sum(),
        }
    }

    /// The value at a place, counted from 0 in written order.
    fn nth(&mut self, mut place: usize) -> &mut Value {
        if place == 0 {
            return self;
        }
        place -= 1;
        let inner: Vec<&mut Value> = match self {
            Value::Raw(_) => vec![],
            Value::Array(items) => items.iter_mut().collect(),
            Value::Object(members) => members.iter_mut().map(|(_, value)| value).collect(),
        };
        for value in inner {
            let count = value.count();
            if place < count {
                return value.nth(place);
            }
            place -= count;
        }
        unreachable!("a place below the count")
    }

    /// A value that is likely to be near the top, where the named parts stand.
    pub fn some(&mut self, random: &mut Random) -> &mut Value {
        if random.percent(30) {
            let place = random.below(self.count());
            return self.nth(place);
        }
        self.walk(random)
    }

    fn walk(&mut self, random: &mut Random) -> &mut Value {
        let inner = match self {
            Value::Raw(_) => 0,
            Value::Array(items) => items.len(),
            Value::Object(members) => members.len(),
        };
        if inner == 0 || random.percent(30) {
            return self;
        }
        let place = random.below(inner);
        match self {
            Value::Raw(_) => self,
            Value::Array(items) => items[place].walk(random),
            Value::Object(members) => members[place].1.walk(random),
        }
    }

    /// Some object's members, if there is an object.
    pub fn some_object(&mut self, random: &mut Random) -> Option<&mut Vec<(Vec<u8>, Value)>> {
        let objects: Vec<usize> = (0..self.count()).filter(|&place| self.is_object(place)).collect();
        if objects.is_empty() {
            return None;
        }
        match self.nth(random.pick(&objects)) {
            Value::Object(members) => Some(members),
            _ => None,
        }
    }

    fn is_object(&mut self, place: usize) -> bool {
        matches!(self.nth(place), Value::Object(_))
    }
}

fn separate(place: usize, random: &mut Random, blanks: Blanks, out: &mut Vec<u8>) {
    if place > 0 {
        blank(random, blanks, out);
        out.push(b',');
    }
    blank(random, blanks, out);
}

fn blank(random: &mut Random, blanks: Blanks, out: &mut Vec<u8>) {
    let kinds: &[u8] = match blanks {
        Blanks::None => return,
        Blanks::Few => b" \t\r",
        Blanks::Lines => b" \t\r\n",
    };
    while random.percent(20) {
        out.push(random.pick(kinds));
    }
}

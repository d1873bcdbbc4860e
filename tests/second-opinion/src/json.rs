//! A reader of RFC 8259 by positions. It makes a tree whose nodes say where
//! a value stands in the message; escapes are read where a name is compared.

use std::borrow::Cow;

/// Arrays and objects nest at most this deep, the outermost counted as one.
pub const MAX_DEPTH: usize = 16;

#[derive(Clone, Debug, PartialEq, Eq)]
pub enum Shape {
    Literal,
    Number,
    Text,
    Array(Vec<Node>),
    Object(Vec<Member>),
}

/// A value: the bytes from `start` up to and without `end`, quotes or brackets included.
#[derive(Clone, Debug, PartialEq, Eq)]
pub struct Node {
    pub start: usize,
    pub end: usize,
    pub shape: Shape,
}

#[derive(Clone, Debug, PartialEq, Eq)]
pub struct Member {
    pub key: Node,
    pub value: Node,
}

impl Node {
    pub fn bytes<'a>(&self, message: &'a [u8]) -> &'a [u8] {
        &message[self.start..self.end]
    }

    pub fn is_text(&self) -> bool {
        self.shape == Shape::Text
    }

    /// The bytes between the quotes, for a string.
    pub fn inner<'a>(&self, message: &'a [u8]) -> Option<&'a [u8]> {
        self.is_text().then(|| &message[self.start + 1..self.end - 1])
    }

    pub fn items(&self) -> Option<&[Node]> {
        match &self.shape {
            Shape::Array(items) => Some(items),
            _ => None,
        }
    }

    pub fn members(&self) -> Option<&[Member]> {
        match &self.shape {
            Shape::Object(members) => Some(members),
            _ => None,
        }
    }

    /// What a string means, where that may be a name: no escape in it means
    /// anything but a byte of 33 to 126.
    pub fn name<'a>(&self, message: &'a [u8]) -> Option<Cow<'a, [u8]>> {
        let mut rest = self.inner(message)?;
        if !rest.contains(&b'\\') {
            return Some(Cow::Borrowed(rest));
        }
        let mut name = Vec::new();
        while let Some((&first, after)) = rest.split_first() {
            let (code, after) = if first == b'\\' { meaning(after) } else { (u32::from(first), after) };
            let byte = u8::try_from(code).ok()?;
            (first != b'\\' || (33..=126).contains(&byte)).then_some(())?;
            name.push(byte);
            rest = after;
        }
        Some(Cow::Owned(name))
    }

    /// A string that means this name.
    pub fn is(&self, message: &[u8], name: &[u8]) -> bool {
        self.name(message).as_deref() == Some(name)
    }
}

/// What an escape means, and what stands after it; `text` follows the backslash.
fn meaning(text: &[u8]) -> (u32, &[u8]) {
    let (&letter, rest) = text.split_first().expect("an escape that was read");
    let code = match letter {
        b'b' => 8,
        b'f' => 12,
        b'n' => 10,
        b'r' => 13,
        b't' => 9,
        b'u' => {
            let digit = |&byte: &u8| char::from(byte).to_digit(16).expect("a hex digit that was read");
            return (rest[..4].iter().fold(0, |code, byte| 16 * code + digit(byte)), &rest[4..]);
        }
        same => u32::from(same),
    };
    (code, rest)
}

/// The one value that `message` is, or nothing if it is not JSON or nests too deep.
pub fn read(message: &[u8]) -> Option<Node> {
    let mut reader = Reader { message, at: 0 };
    reader.blanks();
    let value = reader.value(0)?;
    reader.blanks();
    (reader.at == message.len()).then_some(value)
}

struct Reader<'a> {
    message: &'a [u8],
    at: usize,
}

impl Reader<'_> {
    fn peek(&self) -> Option<u8> {
        self.message.get(self.at).copied()
    }

    fn next(&mut self) -> Option<u8> {
        let byte = self.peek()?;
        self.at += 1;
        Some(byte)
    }

    fn takes(&mut self, byte: u8) -> bool {
        let found = self.peek() == Some(byte);
        if found {
            self.at += 1;
        }
        found
    }

    fn blanks(&mut self) {
        while matches!(self.peek(), Some(b' ' | b'\t' | b'\n' | b'\r')) {
            self.at += 1;
        }
    }

    /// The value at this place; `depth` arrays and objects stand around it.
    fn value(&mut self, depth: usize) -> Option<Node> {
        let start = self.at;
        let shape = match self.peek()? {
            b'"' => self.text()?,
            b'[' => self.array(depth + 1)?,
            b'{' => self.object(depth + 1)?,
            b't' => self.literal(b"true")?,
            b'f' => self.literal(b"false")?,
            b'n' => self.literal(b"null")?,
            _ => self.number()?,
        };
        Some(Node { start, end: self.at, shape })
    }

    fn literal(&mut self, word: &[u8]) -> Option<Shape> {
        self.message[self.at..].starts_with(word).then(|| {
            self.at += word.len();
            Shape::Literal
        })
    }

    fn number(&mut self) -> Option<Shape> {
        self.takes(b'-');
        if !self.takes(b'0') {
            self.digits()?;
        }
        if self.takes(b'.') {
            self.digits()?;
        }
        if self.takes(b'e') || self.takes(b'E') {
            let _sign = self.takes(b'+') || self.takes(b'-');
            self.digits()?;
        }
        Some(Shape::Number)
    }

    /// One digit or more.
    fn digits(&mut self) -> Option<()> {
        let start = self.at;
        while self.peek().is_some_and(|byte| byte.is_ascii_digit()) {
            self.at += 1;
        }
        (start < self.at).then_some(())
    }

    fn text(&mut self) -> Option<Shape> {
        self.at += 1;
        loop {
            match self.next()? {
                b'"' => return Some(Shape::Text),
                b'\\' => self.escape()?,
                0..=31 => return None,
                _ => {}
            }
        }
    }

    /// What follows a backslash.
    fn escape(&mut self) -> Option<()> {
        match self.next()? {
            b'"' | b'\\' | b'/' | b'b' | b'f' | b'n' | b'r' | b't' => Some(()),
            b'u' => (0..4).try_for_each(|_| self.next()?.is_ascii_hexdigit().then_some(())),
            _ => None,
        }
    }

    fn array(&mut self, depth: usize) -> Option<Shape> {
        if depth > MAX_DEPTH {
            return None;
        }
        let mut items = Vec::new();
        self.at += 1;
        self.blanks();
        if self.takes(b']') {
            return Some(Shape::Array(items));
        }
        loop {
            self.blanks();
            items.push(self.value(depth)?);
            self.blanks();
            match self.next()? {
                b',' => {}
                b']' => return Some(Shape::Array(items)),
                _ => return None,
            }
        }
    }

    fn object(&mut self, depth: usize) -> Option<Shape> {
        if depth > MAX_DEPTH {
            return None;
        }
        let mut members = Vec::new();
        self.at += 1;
        self.blanks();
        if self.takes(b'}') {
            return Some(Shape::Object(members));
        }
        loop {
            self.blanks();
            members.push(self.member(depth)?);
            self.blanks();
            match self.next()? {
                b',' => {}
                b'}' => return Some(Shape::Object(members)),
                _ => return None,
            }
        }
    }

    fn member(&mut self, depth: usize) -> Option<Member> {
        if self.peek() != Some(b'"') {
            return None;
        }
        let key = self.value(depth)?;
        self.blanks();
        if !self.takes(b':') {
            return None;
        }
        self.blanks();
        let value = self.value(depth)?;
        Some(Member { key, value })
    }
}

#[cfg(test)]
mod tests {
    use super::*;

    fn good(text: &[u8]) -> bool {
        read(text).is_some()
    }

    #[test]
    fn values() {
        let all: [&[u8]; 12] = [
            b"7", b"-0", b"1e999", b"0.5E+3", b" \t\r\n[ ] ", b"{}", b"{\"a\" : [1 , null]}", b"\"\\ud800\"",
            b"\"\x7f\xff\x80\"", b"\"\\/\\b\\f\\n\\r\\t\\\\\\\"\"", b"true", b"{\"a\":1,\"a\":2}",
        ];
        for text in all {
            assert!(good(text), "{}", String::from_utf8_lossy(text));
        }
    }

    #[test]
    fn broken() {
        let all: [&[u8]; 24] = [
            b"", b" ", b"01", b"-", b"1.", b".5", b"+1", b"1e", b"1e+", b"[1,]", b"[,1]", b"{\"a\":1,}", b"{a:1}",
            b"{\"a\"}", b"\"\x1f\"", b"\"\\u12g4\"", b"\"\\U0041\"", b"\"\\x\"", b"\"\\'\"", b"nul", b"True",
            b"1 2", b"\xef\xbb\xbf1", b"[1 2]",
        ];
        for text in all {
            assert!(!good(text), "{}", String::from_utf8_lossy(text));
        }
    }

    #[test]
    fn names() {
        let name = |text: &str| read(text.as_bytes()).and_then(|node| node.name(text.as_bytes()).map(Cow::into_owned));
        for (text, meant) in [
            (r#""XBT\/USD""#, "XBT/USD"), (r#""\u0061s""#, "as"), (r#""\u004A\u004a\u006F\u006f""#, "JJoo"), (r#""""#, ""),
            (r#""\"\\\/""#, "\"\\/"), (r#""\u0021\u007e""#, "!~"), (r#""a b""#, "a b"), (r#""\\u0061""#, "\\u0061"),
        ] {
            assert_eq!(name(text), Some(meant.as_bytes().to_vec()), "{text}");
        }
        for text in [
            r#""\b""#, r#""\f""#, r#""\n""#, r#""\r""#, r#""a\t""#, r#""\u0020""#, r#""\u007f""#, r#""\u0000""#, r#""\u0100""#,
            r#""\u0161s""#, r#""\ud83d\ude00""#, r#""\ud800""#, r#""\uff41""#, "7", "[]",
        ] {
            assert_eq!(name(text), None, "{text}");
        }
    }

    #[test]
    fn nesting() {
        let nested = |depth: usize| [vec![b'['; depth], vec![b']'; depth]].concat();
        assert!(good(&nested(16)));
        assert!(!good(&nested(17)));
        let object = [b"{\"a\":".as_slice(), &nested(15), b"}"].concat();
        assert!(good(&object));
        let object = [b"{\"a\":".as_slice(), &nested(16), b"}"].concat();
        assert!(!good(&object));
    }
}

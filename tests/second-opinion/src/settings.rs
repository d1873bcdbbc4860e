//! What a book is opened with.

use crate::decimal::whole_number;

#[derive(Clone, Copy, Debug, PartialEq, Eq)]
pub enum Dialect {
    K,
    M1,
    M2,
}

impl Dialect {
    pub const ALL: [Dialect; 3] = [Dialect::K, Dialect::M1, Dialect::M2];

    /// As settings say it; M1 has another name, plain M.
    pub fn name(self) -> &'static str {
        match self {
            Dialect::K => "K",
            Dialect::M1 => "M1",
            Dialect::M2 => "M2",
        }
    }

    /// The dialect that settings say.
    pub fn named(name: &[u8]) -> Option<Dialect> {
        match name {
            b"K" => Some(Dialect::K),
            b"M" | b"M1" => Some(Dialect::M1),
            b"M2" => Some(Dialect::M2),
            _ => None,
        }
    }
}

#[derive(Clone, Debug, PartialEq, Eq)]
pub struct Settings {
    pub dialect: Dialect,
    pub depth: u64,
    pub name: Vec<u8>,
}

impl Settings {
    /// The settings of a book that is not shut.
    pub fn good(dialect: Dialect, depth: u64, name: &[u8]) -> Option<Settings> {
        let depth_good = match dialect {
            Dialect::K => (10..=100).contains(&depth),
            Dialect::M1 | Dialect::M2 => depth == 100,
        };
        let name_good = (1..=16).contains(&name.len()) && name.iter().all(|&byte| name_byte(byte));
        (depth_good && name_good).then(|| Settings { dialect, depth, name: name.to_vec() })
    }

    /// The first line of the line program: dialect, depth and name, one blank between.
    pub fn of_line(line: &[u8]) -> Option<Settings> {
        let mut words = line.splitn(3, |&byte| byte == b' ');
        let dialect = Dialect::named(words.next()?)?;
        let depth = whole_number(words.next()?)?;
        Settings::good(dialect, depth, words.next()?)
    }

    /// The channel name of a K message.
    pub fn channel(&self) -> Vec<u8> {
        format!("book-{}", self.depth).into_bytes()
    }
}

fn name_byte(byte: u8) -> bool {
    (33..=126).contains(&byte) && byte != b'"' && byte != b'\\'
}

#[cfg(test)]
mod tests {
    use super::*;

    #[test]
    fn lines() {
        for good in ["K 10 a", "K 100 XBT/USD", "K 37 it's", "M 100 0123456789abcdef", "M1 100 a", "M2 100 a"] {
            assert!(Settings::of_line(good.as_bytes()).is_some(), "{good}");
        }
        let bad = [
            "", "K", "K 10", "K 10 ", "K 9 a", "K 101 a", "M 99 a", "M 101 a", "M 10 a", "L 10 a", "k 10 a", "K  10 a",
            "K 10  a", "K 10 a ", "K 010 a", "K +10 a", "K 10.0 a", "K\t10 a", "K 10 a\r", "K 10 0123456789abcdefg",
            "K 10 a\"b", "K 10 a\\b", "K 10 \u{e9}", " K 10 a", "K 10 a b", "K 10 \x7f", "M0 100 a",
            "M3 100 a", "M12 100 a", "M2 99 a", "M1 10 a", "m2 100 a", "M 2 100 a", "2 100 a", "K1 10 a", "M2100 a",
        ];
        for line in bad {
            assert!(Settings::of_line(line.as_bytes()).is_none(), "{line}");
        }
        assert_eq!(Settings::of_line(b"M 100 a"), Settings::of_line(b"M1 100 a"));
        assert_ne!(Settings::of_line(b"M 100 a"), Settings::of_line(b"M2 100 a"));
    }
}

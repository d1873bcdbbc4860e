//! Prices and sizes, and whole numbers.

/// The most digits that stand behind the point.
pub const MAX_DECIMALS: u32 = 12;

/// A price or size: its digits as one whole number, up to 22 of them, and how many stand behind the point.
#[derive(Clone, Copy, Debug, PartialEq, Eq, Default)]
pub struct Decimal {
    pub digits: u128,
    pub decimals: u32,
}

impl Decimal {
    /// 1 to 10 digits without a needless zero, then perhaps a point and 1 to 12 digits.
    pub fn read(text: &[u8]) -> Option<Decimal> {
        let point = text.iter().position(|&byte| byte == b'.');
        let (whole, part) = match point {
            None => (text, None),
            Some(at) => (&text[..at], Some(&text[at + 1..])),
        };
        if !all_digits(whole, 10) || needless_zero(whole) {
            return None;
        }
        if part.is_some_and(|part| !all_digits(part, MAX_DECIMALS as usize)) {
            return None;
        }
        let part = part.unwrap_or(b"");
        let digits = [whole, part].concat();
        Some(Decimal { digits: number(&digits), decimals: part.len() as u32 })
    }

    pub fn is_zero(self) -> bool {
        self.digits == 0
    }

    /// The value in units of 10^-12, by which prices are compared.
    pub fn value(self) -> u128 {
        self.digits * 10u128.pow(MAX_DECIMALS - self.decimals)
    }

    /// As a level is handed out: the digits up to the ninth decimal, those past it, and the count of decimals.
    pub fn words(self) -> [u64; 3] {
        let unit = 10u128.pow(self.decimals.saturating_sub(9));
        [(self.digits / unit) as u64, (self.digits % unit) as u64, u64::from(self.decimals)]
    }

    /// The text as it was sent.
    pub fn text(self) -> String {
        if self.decimals == 0 {
            return self.digits.to_string();
        }
        let unit = 10u128.pow(self.decimals);
        let width = self.decimals as usize;
        format!("{}.{:0width$}", self.digits / unit, self.digits % unit)
    }

    /// The text without its point, then without leading zeros.
    pub fn stripped(self) -> String {
        self.text().replace('.', "").trim_start_matches('0').to_string()
    }
}

/// 1 to 19 digits with no needless leading zero.
pub fn whole_number(text: &[u8]) -> Option<u64> {
    (all_digits(text, 19) && !needless_zero(text)).then(|| number(text) as u64)
}

/// A whole number that fits 32 bits.
pub fn checksum(text: &[u8]) -> Option<u32> {
    whole_number(text).and_then(|value| u32::try_from(value).ok())
}

fn all_digits(text: &[u8], most: usize) -> bool {
    (1..=most).contains(&text.len()) && text.iter().all(u8::is_ascii_digit)
}

fn needless_zero(text: &[u8]) -> bool {
    text.len() > 1 && text[0] == b'0'
}

/// At most 22 digits; 19 of them fit 64 bits.
fn number(digits: &[u8]) -> u128 {
    digits.iter().fold(0, |value, &digit| value * 10 + u128::from(digit - b'0'))
}

#[cfg(test)]
mod tests {
    use super::*;

    #[test]
    fn checked_by_hand() {
        assert_eq!(Decimal::read(b"0.05120"), Some(Decimal { digits: 5120, decimals: 5 }));
        for bad in ["05", "5.", ".5", "10000000000", "0.0000000000001", "", ".", "-1", "+1", "1e1", "1.2.3", "00", " 1"] {
            assert_eq!(Decimal::read(bad.as_bytes()), None, "{bad}");
        }
        for good in ["9999999999", "0.000000000001", "0", "0.0", "9999999999.999999999999", "10.050", "0.000000000000"] {
            assert_eq!(Decimal::read(good.as_bytes()).unwrap().text(), good);
        }
        assert_eq!(Decimal::read(b"0.5").unwrap().value(), Decimal::read(b"0.50").unwrap().value());
    }

    #[test]
    fn words() {
        for (text, words) in [
            ("0.05120", [5120, 0, 5]), ("1.123456789", [1123456789, 0, 9]), ("1.1234567890", [1123456789, 0, 10]),
            ("1.12345678901", [1123456789, 1, 11]), ("1.000000000012", [1000000000, 12, 12]), ("0.000000000120", [0, 120, 12]),
            ("9999999999.999999999999", [9999999999999999999, 999, 12]), ("7", [7, 0, 0]),
        ] {
            assert_eq!(Decimal::read(text.as_bytes()).unwrap().words(), words, "{text}");
        }
    }

    #[test]
    fn whole_numbers() {
        assert_eq!(whole_number(b"9999999999999999999"), Some(9999999999999999999));
        assert_eq!(whole_number(b"10000000000000000000"), None);
        assert_eq!(whole_number(b"0"), Some(0));
        assert_eq!(whole_number(b"00"), None);
        assert_eq!(whole_number(b""), None);
        assert_eq!(checksum(b"4294967295"), Some(u32::MAX));
        assert_eq!(checksum(b"4294967296"), None);
    }

    #[test]
    fn stripped_text() {
        let stripped = |text: &str| Decimal::read(text.as_bytes()).unwrap().stripped();
        assert_eq!(stripped("0.05000") + &stripped("0.00000304"), "5000304");
        assert_eq!(stripped("10.0"), "100");
    }
}

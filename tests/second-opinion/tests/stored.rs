//! The stored vectors, whose answers the Python programs of tools/ worked out: this book
//! gives the same ones.

use second_opinion::book::{Book, Scope, Sides};
use second_opinion::decimal::{checksum, whole_number, Decimal};
use second_opinion::message::{self, bad_texts, Entry, Kind, Level, Message, Side};
use second_opinion::settings::{Dialect, Settings};
use second_opinion::vectors::{expected, shortened};

/// The lines of a file of a crate, without their ends.
fn lines(name: &str) -> Vec<Vec<u8>> {
    let path = format!("{}/../../crates/{name}", env!("CARGO_MANIFEST_DIR"));
    let text = std::fs::read(&path).unwrap_or_else(|error| panic!("{path}: {error}"));
    let mut lines: Vec<Vec<u8>> = text.split(|&byte| byte == b'\n').map(<[u8]>::to_vec).collect();
    assert_eq!(lines.pop(), Some(vec![]), "{path}");
    lines
}

/// What a line says after its sign and a blank.
fn said(line: &[u8]) -> &[u8] {
    line.get(2..).unwrap_or(b"")
}

fn number(text: &[u8]) -> usize {
    String::from_utf8_lossy(text).parse().expect("a number")
}

/// The digits up to the ninth decimal, and what tells the rest: how many decimals there are, up to 9, else
/// a 1 and the digits past the ninth.
fn digits(decimal: Decimal) -> String {
    let [digits, past, decimals] = decimal.words();
    match decimals {
        0..=9 => format!("{digits}/{decimals}"),
        _ => format!("{digits}/1{past:0width$}", width = decimals as usize - 9),
    }
}

/// What `message_vectors` says of a message that passes.
fn passed(message: &Message) -> String {
    let kind = if message.kind == Kind::Snapshot { "snapshot" } else { "update" };
    let count = |side| message.entries.iter().filter(|entry| entry.side == side).count();
    let mut line = format!("0 {kind} bids {} asks {}", count(Side::Bid), count(Side::Ask));
    if let Some(checksum) = message.checksum {
        line += &format!(" checksum {checksum}");
    }
    line += &format!(" number {}", message.gsn);
    if let Some(previous) = message.previous {
        line += &format!(" previous {previous}");
    }
    for entry in &message.entries {
        let letter = if entry.side == Side::Bid { "b" } else { "a" };
        line += &format!(" {letter} {} {}", digits(entry.level.price), digits(entry.level.size));
    }
    line + " bad 0 0"
}

/// A text in a room of 28 bytes from a place on.
fn laid(text: &str, at: usize) -> String {
    let room = 28;
    if at + text.len() > room {
        return format!("full {}", "*".repeat(room));
    }
    let end = at + text.len();
    format!("{end} {}{text}{}", "*".repeat(at), "*".repeat(room - end))
}

fn decimal_line(text: &[u8]) -> String {
    let Some(decimal) = Decimal::read(text) else { return "refused".to_string() };
    let (text, stripped) = (decimal.text(), decimal.stripped());
    let backwards: String = stripped.chars().rev().collect();
    let zero = if decimal.is_zero() { " zero" } else { "" };
    format!("{} {} {} {backwards}{zero}", digits(decimal).replace('/', " "), laid(&text, 2), laid(&text, 8))
}

fn order_line(text: &[u8]) -> Option<String> {
    let blank = text.iter().position(|&byte| byte == b' ')?;
    let (first, second) = (Decimal::read(&text[..blank]), Decimal::read(&text[blank + 1..]));
    let (Some(first), Some(second)) = (first, second) else { return Some("refused".to_string()) };
    let word = ["less", "equal", "greater"][(first.value().cmp(&second.value()) as i8 + 1) as usize];
    Some(word.to_string())
}

#[test]
fn decimals() {
    let (cases, answers) = (lines("decimal_vectors/stdin"), lines("decimal_vectors/stdout"));
    assert_eq!(cases.len(), answers.len());
    let mut compared = 0;
    for (case, answer) in cases.iter().zip(&answers) {
        let text = said(case);
        let refused = "refused".to_string();
        let told = match case[0] {
            b'd' => decimal_line(text),
            b'w' => whole_number(text).map_or(refused, |number| laid(&number.to_string(), 2)),
            b'c' => checksum(text).map_or(refused, |number| number.to_string()),
            b'<' => order_line(text).expect("two texts"),
            _ => panic!("no case"),
        };
        assert_eq!(told, String::from_utf8_lossy(answer), "{}", String::from_utf8_lossy(case));
        compared += 1;
    }
    assert!(compared > 1000);
}

/// The entries of a line: price and size in turn.
fn entries(side: Side, line: &str) -> Vec<Entry> {
    let texts: Vec<Decimal> =
        line.split(' ').skip(1).map(|text| Decimal::read(text.as_bytes()).expect("a decimal")).collect();
    texts.chunks(2).map(|pair| Entry { side, level: Level { price: pair[0], size: pair[1] } }).collect()
}

/// Whether an entry sets a price that stands already, as the entries before it left the side.
fn replaces(sides: &Sides, entries: &[Entry]) -> bool {
    (0..entries.len()).any(|place| {
        let (side, level) = (entries[place].side, entries[place].level);
        let stands = |other: &Level| other.price.value() == level.price.value();
        !level.size.is_zero() && sides.with(&entries[..place]).side(side).iter().any(stands)
    })
}

#[test]
fn sides() {
    let cases = lines("checksum_vectors/stdin");
    let mut told: Vec<String> = Vec::new();
    let (mut sides, mut dialect, mut depth) = (Sides::default(), Dialect::K, 0);
    for case in &cases {
        let line = String::from_utf8_lossy(case).into_owned();
        match case[0] {
            b'a' | b'b' => {
                let side = if case[0] == b'a' { Side::Ask } else { Side::Bid };
                let entries = entries(side, &line);
                let met = replaces(&sides, &entries);
                sides = sides.with(&entries);
                told.push(format!("{} {}", sides.side(side).len(), u8::from(met)));
                sides.bids.truncate(depth);
                sides.asks.truncate(depth);
            }
            b'=' => {
                for (name, side) in [("bids", Side::Bid), ("asks", Side::Ask)] {
                    let level = |level: &Level| format!(" {}:{}", digits(level.price), digits(level.size));
                    told.push(name.to_string() + &sides.side(side).iter().map(level).collect::<String>());
                }
                told.push(format!("sum {}", sides.checksum(dialect)));
            }
            _ => {
                let (name, number_text) = line.split_once(' ').expect("dialect and depth");
                (sides, dialect, depth) =
                    (Sides::default(), Dialect::named(name.as_bytes()).expect("a dialect"), number(number_text.as_bytes()));
                told.push(line);
            }
        }
    }
    let answers: Vec<String> =
        lines("checksum_vectors/stdout").iter().map(|line| String::from_utf8_lossy(line).into_owned()).collect();
    assert_eq!(told.len(), answers.len());
    for (place, (ours, theirs)) in told.iter().zip(&answers).enumerate() {
        assert_eq!(ours, theirs, "line {place}");
    }
}

#[test]
fn messages() {
    let (cases, answers) = (lines("message_vectors/stdin"), lines("message_vectors/stdout"));
    assert_eq!(cases.len(), answers.len());
    let mut settings = None;
    let mut compared = 0;
    for (case, answer) in cases.iter().zip(&answers) {
        let mut text = said(case).to_vec();
        match case.first() {
            Some(b'=') => settings = Settings::of_line(&text),
            Some(b'+') => {
                let blank = text.iter().position(|&byte| byte == b' ').expect("a length");
                let length = number(&text[..blank]);
                text = text[blank + 1..].to_vec();
                text.resize(length.max(text.len()), b' ');
            }
            _ => {}
        }
        if !matches!(case.first(), Some(b'<' | b'+')) {
            continue;
        }
        let answer = String::from_utf8_lossy(answer).into_owned();
        let bad = bad_texts(settings.as_ref(), &text);
        let shown = String::from_utf8_lossy(&text);
        assert_eq!(expected(settings.as_ref(), &text, &bad), shortened(&answer), "{shown}");
        if let Some(Ok(message)) = settings.as_ref().map(|settings| message::read(settings, &text)) {
            assert_eq!(passed(&message), answer, "{shown}");
        }
        compared += 1;
    }
    assert!(compared > 1000);
}

fn level_line((answer, level): (u8, message::Level)) -> String {
    format!("{answer} {} {}", level.price.text(), level.size.text())
}

/// The line for a call on the book.
fn told(book: &mut Book, case: &[u8]) -> Vec<u8> {
    let letter = case[0];
    let scope = if letter.is_ascii_uppercase() { Scope::LastGood } else { Scope::Live };
    let text = said(case);
    let line = match letter.to_ascii_lowercase() {
        b'<' => {
            let (answer, moved) = book.take_counting(text);
            format!("{answer} {moved}")
        }
        b'c' => {
            let (answer, bids, asks) = book.levels(scope);
            format!("{answer} {bids} {asks}")
        }
        b'n' => {
            let (answer, number) = book.book_number(scope);
            format!("{answer} {number}")
        }
        b'u' => {
            let (answer, count) = book.updates(scope);
            format!("{answer} {count}")
        }
        b'b' => level_line(book.level(scope, Side::Bid, number(text) as u64)),
        b'a' => level_line(book.level(scope, Side::Ask, number(text) as u64)),
        b'w' => {
            let mut room = vec![b'.'; number(text)];
            let (answer, length) = book.write(&mut room);
            return [format!("{answer} {length} ").into_bytes(), room].concat();
        }
        b'r' => {
            let mut room = vec![0; 40_000];
            match book.write(&mut room) {
                (0, length) => {
                    *book = Book::open(book.settings.clone());
                    let (answer, moved) = book.take_counting(&room[..length]);
                    format!("0 {answer} {moved}")
                }
                (answer, _) => answer.to_string(),
            }
        }
        other => panic!("what is {}?", char::from(other)),
    };
    line.into_bytes()
}

#[test]
fn books() {
    let (cases, answers) = (lines("book_vectors/stdin"), lines("book_vectors/stdout"));
    assert_eq!(cases.len(), answers.len());
    let mut book = Book::open(None);
    for (case, answer) in cases.iter().zip(&answers) {
        match case[0] {
            b'#' => assert_eq!(case, answer),
            b'=' => {
                book = Book::open(Settings::of_line(said(case)));
                assert_eq!(answer, b"");
            }
            _ => {
                let told = told(&mut book, case);
                let shown = String::from_utf8_lossy(case);
                assert_eq!(String::from_utf8_lossy(&told), String::from_utf8_lossy(answer), "{shown}");
            }
        }
    }
    assert!(cases.len() > 500);
}

//! The first text that breaks check 8: what `message_vectors` says of a message, and
//! the comparison. That program is handed settings and messages, one on a line, and
//! says the first of checks 1 to 8 that refuses, where the first bad text lies, and the text.

use crate::decimal::whole_number;
use crate::lines::{first_difference, run, shown};
use crate::message::{self, bad_texts, BadText};
use crate::seen::Seen;
use crate::session::{Call, Session};
use crate::settings::Settings;
use std::path::Path;

/// No more than this is handed over at once.
const MOST: usize = 200_000;

/// The line for a message whose texts that break check 8 are `bad`, without what is
/// said of a message that passes.
pub fn expected(settings: Option<&Settings>, text: &[u8], bad: &[BadText]) -> String {
    let number = match settings.map(|settings| message::read(settings, text)) {
        None => 1,
        Some(Err(number @ 2..=8)) => number,
        Some(_) => 0,
    };
    match bad.first() {
        None => format!("{number} bad 0 0"),
        Some(BadText { place, .. }) => {
            let first = String::from_utf8_lossy(&text[place.clone()]);
            format!("{number} bad {} {} {first}", place.start, place.end)
        }
    }
}

/// The line that was printed, without what is said of a message that passes.
pub fn shortened(line: &str) -> String {
    match (line.strip_prefix("0 "), line.rfind("bad ")) {
        (Some(_), Some(place)) => format!("0 {}", &line[place..]),
        _ => line.to_string(),
    }
}

/// Compares the first bad text of the session's messages; a difference is answered as a report.
pub fn compare(program: &Path, session: &Session, seen: &mut Seen) -> std::io::Result<Option<String>> {
    let first = [b"= ".as_slice(), settings_words(session.opening.line())].concat();
    let mut texts: Vec<&[u8]> = Vec::new();
    for call in &session.calls {
        match call {
            Call::Message(text) if !text.contains(&b'\n') && text.len() < MOST / 2 => texts.push(text),
            _ => {}
        }
    }
    let settings = session.opening.settings();
    if first.contains(&b'\n') || first.len() > MOST / 4 {
        return Ok(None);
    }
    while !texts.is_empty() {
        let mut input = first.clone();
        let mut count = 0;
        while count < texts.len() && input.len() + texts[count].len() < MOST {
            input.extend_from_slice(b"\n< ");
            input.extend_from_slice(texts[count]);
            count += 1;
        }
        input.push(b'\n');
        let rest = texts.split_off(count);
        let ours: Vec<String> = texts.iter().map(|text| counted(settings.as_ref(), text, seen)).collect();
        let theirs: Vec<String> = run(program, &input, false)?.iter().skip(1).map(|line| shortened(line)).collect();
        if let Some(place) = first_difference(&ours, &theirs) {
            let line = |lines: &[String]| lines.get(place).cloned().unwrap_or("nothing".to_string());
            let text = texts.get(place).map_or("nothing".to_string(), |text| shown(text));
            return Ok(Some(format!("{}\n{text}\nhere {}, there {}\n", shown(&first), line(&ours), line(&theirs))));
        }
        texts = rest;
    }
    Ok(None)
}

/// The line, if it has the three words that the program reads; else other bad settings.
fn settings_words(line: &[u8]) -> &[u8] {
    let mut words = line.splitn(3, |&byte| byte == b' ');
    let (dialect, depth) = (words.next().unwrap_or(b""), words.next().unwrap_or(b""));
    let is_number = (1..=6).contains(&depth.len()) && whole_number(depth).is_some();
    if (1..=2).contains(&dialect.len()) && is_number && words.next().is_some() {
        line
    } else {
        b"\0 0 "
    }
}

fn counted(settings: Option<&Settings>, text: &[u8], seen: &mut Seen) -> String {
    let bad = bad_texts(settings, text);
    seen.bad_texts(&bad);
    expected(settings, text, &bad)
}

#[cfg(test)]
mod tests {
    use super::*;
    use crate::settings::Dialect;

    fn told(settings: Option<&Settings>, text: &str) -> String {
        expected(settings, text.as_bytes(), &bad_texts(settings, text.as_bytes()))
    }

    #[test]
    fn what_is_said() {
        let settings = Settings::good(Dialect::K, 10, b"a");
        let text = |asks: &str| format!("[0,{{\"as\":[{asks}],\"bs\":[]}},\"book-10\",\"a\"]");
        let told_of = |asks: &str| told(settings.as_ref(), &text(asks));
        assert_eq!(told_of("[\"1\",\"1\",\"\"]"), "0 bad 0 0");
        assert_eq!(told_of("[\"1\",\"0\",\"\"]"), "8 bad 15 18 \"0\"");
        assert_eq!(told_of("[\"\",\"0\",\"\"]"), "8 bad 11 13 \"\"");
        assert_eq!(told_of("[\"1\",0,\"\"]"), "6 bad 0 0");
        // Check 9 is none of these.
        assert_eq!(told_of("[\"1\",\"1\",\"\"],[\"1\",\"1\",\"\"]"), "0 bad 0 0");
        assert_eq!(told(None, &text("[\"1\",\"0\",\"\"]")), "1 bad 0 0");
        assert_eq!(shortened("0 snapshot bids 3 0 asks 4 0 number 7 bad 0 0"), "0 bad 0 0");
        assert_eq!(shortened("8 bad 1 6 \"bad\""), "8 bad 1 6 \"bad\"");
    }
}

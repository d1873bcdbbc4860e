//! The aimed sessions bring up what has to come up, and it is counted as it should be.

use second_opinion::aimed::{bad_first_lines, files, sessions, FIRST_LINES};
use second_opinion::book::Book;
use second_opinion::crc::crc32;
use second_opinion::lines::{compare, input, lines, How};
use second_opinion::message::bad_texts;
use second_opinion::random::Random;
use second_opinion::seen::{self, Against, Seen};
use second_opinion::session::{answers, Call, Opening, Purpose, Session};
use second_opinion::settings::Dialect;
use std::path::Path;

const SECOND_LINES: &str = env!("CARGO_BIN_EXE_second-lines");

#[test]
fn everything_comes_up() {
    for (purpose, by_lines) in [(Purpose::Lines, true), (Purpose::Calls, false)] {
        let against = Against { lines: by_lines, first_bad: true };
        let mut random = Random::new(8);
        let mut seen = Seen::default();
        for session in sessions(&mut random, purpose) {
            seen.session(&session);
            let settings = session.opening.settings();
            for call in &session.calls {
                let Call::Message(text) = call else { continue };
                seen.bad_texts(&bad_texts(settings.as_ref(), text));
            }
        }
        if by_lines {
            let missing = seen.missing(against, &FIRST_LINES);
            assert_eq!(missing.len(), 3 + FIRST_LINES.len(), "{missing:?}");
            files(&mut random).iter().for_each(|session| seen.file(&input(session, true)));
            bad_first_lines().iter().for_each(|(kind, _)| seen.count(kind));
        }
        assert_eq!(seen.missing(against, &FIRST_LINES), Vec::<String>::new());
    }
    let nothing = Seen::default().missing(Against { lines: true, first_bad: true }, &FIRST_LINES);
    assert_eq!(nothing.len(), 10 + 3 + 7 + FIRST_LINES.len() + 91 + seen::causes(true).len());
}

/// An M message about bids alone, with the checksum of these levels, best first.
fn bids(kind: &str, gsn: u32, entries: &[(u32, u32)], left: &[(u32, u32)]) -> Call {
    let entry = |(price, size): &(u32, u32)| format!(r#"["{price}","{size}"]"#);
    let entries: Vec<String> = entries.iter().map(entry).collect();
    let text: Vec<String> = left.iter().map(|(price, size)| format!("{price}:{size}")).collect();
    let sum = crc32(text.join(":").as_bytes());
    let data = format!(r#"{{"bids":[{}],"asks":[]}}"#, entries.join(","));
    let text = format!(
        r#"{{"channel":"book","product":"a","type":"{kind}","data":{data},"checksum":{sum},"gsn":{gsn}}}"#
    );
    Call::Message(text.into_bytes())
}

fn session(line: &str, calls: Vec<Call>) -> Session {
    let dialect = if line.starts_with('K') { Dialect::K } else { Dialect::M1 };
    Session { dialect, opening: Opening(line.into()), calls }
}

#[test]
fn levels_midway_are_counted() {
    let levels = |prices: std::ops::RangeInclusive<u32>| prices.rev().map(|price| (price, 1)).collect::<Vec<_>>();
    let standing = levels(1..=100);
    let through = [levels(101..=150), (1..=50).map(|price| (price, 0)).collect()].concat();
    let calls = vec![
        bids("snapshot", 1, &standing, &standing),
        // 150 midway, 100 left.
        bids("update", 2, &through, &levels(51..=150)),
        // Never above 100.
        bids("update", 3, &[(51, 0), (50, 1)], &[levels(52..=150), vec![(50, 1)]].concat()),
        bids("update", 4, &levels(201..=300), &[]),
    ];
    let session = session("M 100 a", calls);
    assert_eq!(answers(&session), [0, 0, 0, 12]);
    let mut seen = Seen::default();
    seen.session(&session);
    for (name, times) in [(seen::MIDWAY, 1), (seen::MIDWAY_FULL, 1), (seen::FULL_M, 1), (seen::FULL_K, 0)] {
        assert_eq!(seen.times(name), times, "{name}");
    }
}

#[test]
fn a_full_working_side_is_counted() {
    let asks = |prices: std::ops::Range<u32>| {
        prices.map(|price| format!(r#"["{price}","1","t"]"#)).collect::<Vec<_>>().join(",")
    };
    let sum = crc32((1..=10).map(|price| format!("{price}1")).collect::<String>().as_bytes());
    let texts = [
        format!(r#"[0,{{"as":[{}],"bs":[]}},"book-100","a"]"#, asks(101..201)),
        format!(r#"[0,{{"a":[{}],"c":"{sum}"}},"book-100","a"]"#, asks(1..101)),
    ];
    let session = session("K 100 a", texts.into_iter().map(|text| Call::Message(text.into_bytes())).collect());
    assert_eq!(answers(&session), [0, 0]);
    let mut seen = Seen::default();
    seen.session(&session);
    assert_eq!(seen.times(seen::FULL_K), 1);
}

#[test]
fn large_digits_are_counted() {
    let text = |size: &str| {
        let price = "9223372036.854775808";
        let text = format!(r#"[0,{{"as":[["{price}","{size}","t"]],"bs":[]}},"book-10","a"]"#);
        Call::Message(text.into_bytes())
    };
    let calls = ["9223372036.854775807", "9223372036.854775809", "9999999999.999999999", "922337.2036854775808"].map(text);
    let session = session("K 10 a", calls.to_vec());
    assert_eq!(answers(&session), [0, 0, 0, 8]);
    let mut seen = Seen::default();
    seen.session(&session);
    for (name, times) in [
        (seen::PRICE_BELOW, 0), (seen::PRICE_AT, 3), (seen::PRICE_ABOVE, 0),
        (seen::SIZE_BELOW, 1), (seen::SIZE_AT, 0), (seen::SIZE_ABOVE, 2),
    ] {
        assert_eq!(seen.times(name), times, "{name}");
    }
}

#[test]
fn bad_first_lines_open_shut_books() {
    for kind in FIRST_LINES {
        assert!(bad_first_lines().iter().any(|(other, _)| *other == kind), "{kind}");
    }
    for (kind, session) in bad_first_lines() {
        assert_eq!(Book::open(session.opening.settings()).settings, None, "{kind}");
        let missing = kind == FIRST_LINES[0];
        let input = input(&session, !missing);
        assert_eq!(input.is_empty(), missing);
        assert_eq!(lines(&input), vec!["1 - -"; session.calls.len()], "{kind}");
    }
}

#[test]
fn files_are_handed_over() {
    let mut random = Random::new(9);
    for session in files(&mut random) {
        let how = How { finished: true, file: true };
        assert!(compare(Path::new(SECOND_LINES), &session, how).expect("it runs").is_none());
    }
    let short = session("K 10 a", vec![Call::Message(vec![]), Call::Message(b"{".to_vec())]);
    let how = How { finished: false, file: true };
    let report = compare(Path::new("cat"), &short, how).expect("it runs").expect("another output");
    assert!(report.contains("file: true") && report.contains("there K 10 a"), "{report}");
}

#[test]
fn lines_end_where_they_are_meant_to() {
    let ends: Vec<usize> = files(&mut Random::new(10)).iter().map(|session| input(session, true).len()).collect();
    for past in [seen::BLOCK - 2, seen::BLOCK - 1, seen::BLOCK, seen::BLOCK + 1, seen::BLOCK + 2] {
        assert!(ends.contains(&past) || ends.contains(&(past + seen::BLOCK)), "{past}");
    }
}

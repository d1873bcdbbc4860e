//! The generated sessions bring up every answer number, what the writer gives a
//! new book takes, and the comparison finds a reply that is changed in any byte.

use second_opinion::book::{Book, Scope, State};
use second_opinion::message::Side;
use second_opinion::random::Random;
use second_opinion::script::{here, script, Script};
use second_opinion::session::{answers, session, Call, Opening, Purpose, Session};
use second_opinion::settings::Dialect;
use second_opinion::tally::{is_given, Tally, ANSWERS};

#[test]
fn every_answer_comes_up() {
    let mut random = Random::new(5);
    let mut tally = Tally::default();
    for _ in 0..250 {
        let session = session(&mut random, Purpose::Calls, 200);
        tally.count(session.dialect, &answers(&session));
    }
    for dialect in Dialect::ALL {
        for answer in 0..ANSWERS as u8 {
            assert_eq!(tally.times(dialect, answer) >= 10, is_given(dialect, answer), "{dialect:?} {answer}");
        }
    }
    assert_eq!(tally.wrong(false), Vec::<String>::new());
    // In lines nothing is asked, so 14 and 15 are too many.
    assert_eq!(tally.wrong(true).len(), 2 * Dialect::ALL.len());
    assert!(!Tally::default().wrong(true).is_empty());
}

#[test]
fn a_new_book_takes_what_the_writer_gives() {
    let mut random = Random::new(6);
    let mut written = 0;
    for _ in 0..40 {
        let session = session(&mut random, Purpose::Lines, 60);
        let mut book = Book::open(session.opening.settings());
        for call in &session.calls {
            let Call::Message(message) = call else { continue };
            book.take(message);
            if book.state == State::Live {
                round_trip(&book);
                written += 1;
            }
        }
    }
    assert!(written > 500);
}

fn round_trip(book: &Book) {
    let mut room = vec![0; 32_768];
    let (answer, length) = book.write(&mut room);
    assert_eq!(answer, 0);
    let mut other = Book::open(book.settings.clone());
    assert_eq!(other.take(&room[..length]), 0);
    assert_eq!((other.sides, other.number, other.count), (book.sides.clone(), book.number, 0));
}

/// As this book, but a level is never found far down.
fn wrong(opening: &Opening, script: &[u8], out: &mut [u8]) -> usize {
    let made = here(opening, script, out);
    for place in (0..out.len().saturating_sub(8)).step_by(8) {
        if out[place..place + 8] == 14u64.to_le_bytes() {
            out[place] = 10;
        }
    }
    made
}

#[test]
fn a_difference_is_reported() {
    let mut random = Random::new(7);
    let found = (0..50).find_map(|_| {
        let session = session(&mut random, Purpose::Calls, 100);
        let script = script(&mut random, &session, false);
        assert!(script.compare(&here).is_ok());
        script.compare(&wrong).err()
    });
    let report = found.expect("a session with a level that is not there");
    assert!(report.contains("here [14,") && report.contains("there [10,"), "{report}");
}

/// A live book of each dialect, then one call of each kind: answers, counts, a level, number, updates, and
/// writings-out with room to spare and with too little, for the live book and for the last good one.
fn every_call(dialect: Dialect) -> Session {
    let (line, snapshot): (&str, &str) = match dialect {
        Dialect::K => ("K 10 a", r#"[0,{"as":[["2.50","0.1","t"]],"bs":[["1.5","3","t"]]},"book-10","a"]"#),
        Dialect::M1 | Dialect::M2 => (
            if dialect == Dialect::M1 { "M 100 a" } else { "M2 100 a" },
            r#"{"channel":"book","product":"a","type":"snapshot","data":{"bids":[["9","2"]],"asks":[["10","1"]]},"checksum":1226559413,"gsn":7}"#,
        ),
    };
    let questions = [Scope::Live, Scope::LastGood].map(|scope| {
        let level = |side, place| Call::Level(scope, side, place);
        vec![
            Call::Levels(scope),
            level(Side::Bid, 0),
            level(Side::Ask, 0),
            level(Side::Ask, 1),
            Call::Number(scope),
            Call::Updates(scope),
            Call::Write(200),
            Call::Write(20),
        ]
    });
    let questions = questions.concat();
    let messages = |text: &str| vec![Call::Message(text.as_bytes().to_vec())];
    let calls = [messages(snapshot), questions.clone(), messages("{"), questions].concat();
    Session { dialect, opening: Opening(line.into()), calls }
}

/// The session as a script, with 16 bytes of room past the replies.
fn with_spare_room(session: &Session) -> Script {
    let mut script = script(&mut Random::new(1), session, true);
    script.out.extend(0..16);
    script
}

#[test]
fn every_changed_byte_is_found() {
    for dialect in Dialect::ALL {
        let script = with_spare_room(&every_call(dialect));
        let answers = script.compare(&here).expect("the same book");
        assert_eq!(answers.len(), script.parts.len());
        assert!([0, 3, 10, 14, 15].iter().all(|answer| answers.contains(answer)), "{answers:?}");
        for place in 0..script.out.len() {
            let changed = |opening: &Opening, script: &[u8], out: &mut [u8]| {
                let made = here(opening, script, out);
                if let Some(byte) = out.get_mut(place) {
                    *byte ^= 1 << (place % 8);
                }
                made
            };
            assert!(script.compare(&changed).is_err(), "{dialect:?}, byte {place}");
        }
    }
}

#[test]
fn a_wrong_count_of_calls_is_found() {
    let more = |opening: &Opening, script: &[u8], out: &mut [u8]| here(opening, script, out) + 1;
    let script = with_spare_room(&every_call(Dialect::K));
    let report = script.compare(&more).expect_err("one call more");
    assert!(report.contains("calls made: here 0, there 1"), "{report}");
}

//! How many levels a message moves, worked out by hand.

use second_opinion::book::{Book, Scope};
use second_opinion::message::{self, Kind};
use second_opinion::moved::{self, *};
use second_opinion::random::Random;
use second_opinion::script::{here, script};
use second_opinion::session::{Call, Opening, Session};
use second_opinion::settings::{Dialect, Settings};
use second_opinion::steps::most_moved;
use Kind::{Snapshot, Update};

/// Price and size.
type Entries<'a> = &'a [(u32, u32)];

const BIDS: Entries = &[(50, 1), (40, 1), (30, 1), (20, 1), (10, 1)];
const ASKS: Entries = &[(110, 1), (120, 1), (130, 1), (140, 1), (150, 1)];

fn open(line: &str) -> Book {
    Book::open(Settings::of_line(line.as_bytes()))
}

/// A live book with these levels, handed over best first.
fn standing(line: &str, bids: Entries, asks: Entries) -> Book {
    let mut book = open(line);
    assert_eq!(take(&mut book, Snapshot, bids, asks), (0, 0));
    book
}

fn text(book: &Book, kind: Kind, bids: Entries, asks: Entries, checksum: u32) -> Vec<u8> {
    let Settings { dialect, depth, .. } = book.settings.clone().expect("good settings");
    let rows = |entries: Entries| {
        let stamp = if dialect == Dialect::K { r#","t""# } else { "" };
        let row = |(price, size): &(u32, u32)| format!(r#"["{price}","{size}"{stamp}]"#);
        entries.iter().map(row).collect::<Vec<_>>().join(",")
    };
    let (bids, asks, number) = (rows(bids), rows(asks), book.number);
    match (dialect, kind) {
        (Dialect::K, Snapshot) => format!(r#"[0,{{"as":[{asks}],"bs":[{bids}]}},"book-{depth}","a"]"#),
        (Dialect::K, Update) => format!(r#"[0,{{"a":[{asks}],"b":[{bids}],"c":"{checksum}"}},"book-{depth}","a"]"#),
        _ => {
            let kind = if kind == Snapshot { "snapshot" } else { "update" };
            let data = format!(r#"{{"bids":[{bids}],"asks":[{asks}]}}"#);
            let rest = format!(r#""checksum":{checksum},"gsn":{},"prev_gsn":{number}"#, number + 1);
            format!(r#"{{"channel":"book","product":"a","type":"{kind}","data":{data},{rest}}}"#)
        }
    }
    .into_bytes()
}

/// The message with its right checksum.
fn right(book: &Book, kind: Kind, bids: Entries, asks: Entries) -> Vec<u8> {
    let settings = book.settings.as_ref().expect("good settings");
    let read = message::read(settings, &text(book, kind, bids, asks, 0)).expect("a good layout");
    text(book, kind, bids, asks, book.after(settings, &read).checksum(settings.dialect))
}

fn take(book: &mut Book, kind: Kind, bids: Entries, asks: Entries) -> (u8, u64) {
    let text = right(book, kind, bids, asks);
    book.take_counting(&text)
}

/// How many levels an update of the bids moves on `BIDS`.
fn moved_on_bids(entries: Entries) -> u64 {
    let moved = ["K 10 a", "M1 100 a", "M2 100 a"].map(|line| take(&mut standing(line, BIDS, &[]), Update, entries, &[]));
    assert!(moved.iter().all(|&one| one == (0, moved[0].1)), "{entries:?} {moved:?}");
    moved[0].1
}

#[test]
fn one_entry() {
    for (entry, moved) in [
        // Inserted at the places 0, 2 and 5 of five.
        ((55, 1), 5), ((35, 1), 3), ((5, 1), 0),
        // Removed at the places 0, 2 and 4 of five.
        ((50, 0), 4), ((30, 0), 2), ((10, 0), 0),
        // Replaced, and removed where nothing stands.
        ((50, 7), 0), ((30, 7), 0), ((10, 7), 0), ((55, 0), 0), ((35, 0), 0), ((5, 0), 0),
    ] {
        assert_eq!(moved_on_bids(&[entry]), moved, "{entry:?}");
    }
    assert_eq!(moved_on_bids(&[]), 0);
}

#[test]
fn one_entry_on_the_asks() {
    for (entry, moved) in [
        ((105, 1), 5), ((125, 1), 3), ((155, 1), 0), ((110, 0), 4), ((130, 0), 2), ((150, 0), 0), ((130, 7), 0), ((125, 0), 0),
    ] {
        assert_eq!(take(&mut standing("M 100 a", BIDS, ASKS), Update, &[], &[entry]), (0, moved), "{entry:?}");
    }
    // Both sides: 5 and 3.
    assert_eq!(take(&mut standing("M 100 a", BIDS, ASKS), Update, &[(55, 1)], &[(125, 1)]), (0, 8));
}

#[test]
fn entries_one_after_another() {
    let cases: &[(Entries, u64)] = &[
        // At the top of five, then of six.
        (&[(51, 1), (52, 1)], 5 + 6),
        // At the top of five, then at place 1 of six.
        (&[(52, 1), (51, 1)], 5 + 5),
        // Set at place 1 of five, replaced, removed at place 1 of six, removed again.
        (&[(45, 1), (45, 2), (45, 0), (45, 0)], 4 + 4),
        // Removed at place 0 of five, removed again, set at place 0 of four.
        (&[(50, 0), (50, 0), (50, 1)], 4 + 4),
        // All go from the top: 4, 3, 2, 1, 0. From the end none moves.
        (&[(50, 0), (40, 0), (30, 0), (20, 0), (10, 0)], 10),
        (&[(10, 0), (20, 0), (30, 0), (40, 0), (50, 0)], 0),
        // Two come at the end, best first; or the worse one first, and then one moves.
        (&[(9, 1), (8, 1)], 0),
        (&[(8, 1), (9, 1)], 1),
    ];
    for (entries, moved) in cases {
        assert_eq!(moved_on_bids(entries), *moved, "{entries:?}");
    }
}

#[test]
fn snapshots_start_from_empty_sides() {
    let mut book = standing("M 100 a", BIDS, ASKS);
    let worst_first = |levels: Entries| levels.iter().rev().copied().collect::<Vec<_>>();
    // 0, 1, 2, 3 and 4 on each side.
    assert_eq!(take(&mut book, Snapshot, &worst_first(BIDS), &worst_first(ASKS)), (0, 20));
    assert_eq!(take(&mut book, Snapshot, BIDS, ASKS), (0, 0));
    assert_eq!(take(&mut book, Snapshot, BIDS, &worst_first(ASKS)), (0, 10));
    // 30, then 50 above it, then 40 between them.
    assert_eq!(take(&mut book, Snapshot, &[(30, 1), (50, 1), (40, 1)], &[]), (0, 2));
    assert_eq!(take(&mut book, Snapshot, &[], &[]), (0, 0));
    assert_eq!(take(&mut book, Update, &[(5, 1)], &[(6, 1)]), (0, 0));
}

#[test]
fn the_cut_moves_none() {
    let ten: Vec<(u32, u32)> = (101..=110).map(|price| (price, 1)).collect();
    let mut book = standing("K 10 a", &[], &ten);
    let before = book.sides.clone();
    // Past the depth: at place 10 of ten, then at place 10 of eleven. Both are cut.
    assert_eq!(take(&mut book, Update, &[], &[(112, 1), (111, 1)]), (0, 1));
    assert_eq!(take(&mut book, Update, &[], &[(111, 1), (112, 1)]), (0, 0));
    assert_eq!(book.sides, before);
    // At the top of ten each time: the eleventh is cut after the message.
    assert_eq!(take(&mut book, Update, &[], &[(100, 1)]), (0, 10));
    assert_eq!(take(&mut book, Update, &[], &[(99, 1)]), (0, 10));
    // Within one message nothing is cut: at the top of ten, then of eleven.
    assert_eq!(take(&mut book, Update, &[], &[(98, 1), (97, 1)]), (0, 21));
    // At the top of ten; then 106 goes, which stands at the place 10 of eleven.
    assert_eq!(take(&mut book, Update, &[], &[(96, 1), (106, 0)]), (0, 10));
    // Twelve levels, worst first: 0 to 11.
    let twelve: Vec<(u32, u32)> = (101..=112).rev().map(|price| (price, 1)).collect();
    assert_eq!(take(&mut book, Snapshot, &[], &twelve), (0, 66));
}

/// Bids and asks that come nearer and nearer to the other side.
fn nearer(count: u32) -> [Vec<(u32, u32)>; 2] {
    [(0..count).map(|place| (1000 + place, 1)).collect(), (0..count).map(|place| (2000 - place, 1)).collect()]
}

/// Bids and asks worse than those, best first.
fn worse(count: u32) -> [Vec<(u32, u32)>; 2] {
    [(0..count).map(|place| (999 - place, 1)).collect(), (0..count).map(|place| (2001 + place, 1)).collect()]
}

#[test]
fn the_bound_is_reached() {
    // Four at the top of three: 3, 4, 5 and 6 on each side.
    for line in ["K 10 a", "M 100 a", "M2 100 a"] {
        let ([bids, asks], [new_bids, new_asks]) = (worse(3), nearer(4));
        assert_eq!(take(&mut standing(line, &bids, &asks), Update, &new_bids, &new_asks), (0, 36));
    }
    assert_eq!(most_moved(4, 3), 18);
    // A hundred at the top of a hundred; and of none, by a snapshot.
    let ([bids, asks], [new_bids, new_asks]) = (worse(100), nearer(100));
    assert_eq!(take(&mut standing("K 100 a", &bids, &asks), Update, &new_bids, &new_asks), (0, 29_900));
    assert_eq!(2 * most_moved(100, 100), 29_900);
    assert_eq!(take(&mut open("M 100 a"), Snapshot, &new_bids, &new_asks), (0, 9_900));
    assert_eq!(2 * most_moved(100, 0), 9_900);
}

#[test]
fn a_refused_message_moves_none() {
    let twice = text(&open("K 10 a"), Snapshot, &[(10, 1), (20, 1), (10, 2)], &[], 0);
    let bad = text(&open("K 10 a"), Snapshot, &[(10, 1), (20, 0)], &[], 0);
    for (refused, answer) in [(twice, 9), (bad, 8), (b"{".to_vec(), 3), (b"[]".to_vec(), 5)] {
        assert_eq!(standing("K 10 a", BIDS, ASKS).take_counting(&refused), (answer, 0));
    }
    assert_eq!(Book::open(None).take_counting(b"{}"), (1, 0));
    for line in ["K 10 a", "M 100 a", "M2 100 a"] {
        let mut book = standing(line, BIDS, ASKS);
        assert_eq!(take(&mut book.clone(), Update, &[(110, 1)], &[]), (16, 0));
        let wrong = text(&book, Update, &[(55, 1)], &[], 5);
        assert_eq!(book.take_counting(&wrong), (13, 0));
        assert_eq!(take(&mut book, Update, &[(55, 1)], &[]), (10, 0));
        assert_eq!(take(&mut book, Snapshot, &[(10, 1), (20, 1)], &[]), (0, 1));
    }
    let mut book = standing("M 100 a", BIDS, ASKS);
    let old = right(&book, Update, &[(55, 1)], &[]);
    assert_eq!([book.take_counting(&old), book.take_counting(&old)], [(0, 5), (11, 0)]);
    let hundred: Vec<(u32, u32)> = (1..=100).rev().map(|price| (price, 1)).collect();
    assert_eq!(take(&mut standing("M 100 a", &hundred, &[]), Update, &[(101, 1)], &[]), (12, 0));
}

#[test]
fn the_count_stands_behind_the_answer() {
    let mut book = open("K 10 a");
    let mut calls = Vec::new();
    let messages: [(Kind, Entries); 3] =
        [(Snapshot, &[(10, 1), (20, 1)]), (Update, &[(30, 1), (40, 1)]), (Update, &[(40, 0), (60, 1)])];
    for (kind, bids) in messages {
        let text = right(&book, kind, bids, &[(50, 1)]);
        book.take(&text);
        calls.push(Call::Message(text));
    }
    calls.push(Call::Message(b"{".to_vec()));
    calls.push(Call::Levels(Scope::LastGood));
    let session = Session { dialect: Dialect::K, opening: Opening(b"K 10 a".to_vec()), calls };
    let mut script = script(&mut Random::new(1), &session, true);
    for part in &mut script.parts {
        // No lent buffers.
        part[32..40].fill(0);
    }
    let (made, out) = script.run(&here);
    let word = |bytes: &[u8]| u64::from_le_bytes(bytes.try_into().expect("eight"));
    let words: Vec<u64> = out[..56 * made].chunks(8).map(word).collect();
    let replies: Vec<&[u64]> = words.chunks(7).map(|reply| &reply[..3]).collect();
    assert_eq!(replies, [[0, 1, 0], [0, 5, 0], [16, 0, 0], [3, 0, 0], [0, 4, 1]]);
    assert!(words.chunks(7).all(|reply| reply[3..] == [0; 4]));
}

/// What a message on a K book of `BIDS` and `ASKS` brings up.
fn seen(kind: Kind, bids: Entries, asks: Entries) -> Vec<&'static str> {
    let mut book = standing("K 10 a", BIDS, ASKS);
    let settings = book.settings.clone().expect("good settings");
    let read = message::read(&settings, &right(&book, kind, bids, asks));
    let before = book.sides.clone();
    let (answer, _) = book.take_read(&settings, &read);
    let message = read.expect("a good layout");
    // A refused message leaves the sides as they were.
    let after = if answer == 0 { book.sides.clone() } else { book.after(&settings, &message) };
    moved::seen(&settings, &message, &before, &after, answer)
}

#[test]
fn what_came_up_is_told() {
    let cases: &[(Kind, Entries, &[&str])] = &[
        (Update, &[(55, 1)], &[INSERT_TOP]),
        (Update, &[(35, 1)], &[INSERT_MIDDLE]),
        (Update, &[(5, 1)], &[INSERT_END]),
        (Update, &[(50, 0)], &[REMOVE_TOP]),
        (Update, &[(30, 0)], &[REMOVE_MIDDLE]),
        (Update, &[(10, 0)], &[REMOVE_END]),
        (Update, &[(30, 2)], &[REPLACE]),
        (Update, &[(35, 0)], &[NOTHING]),
        (Update, &[(10, 2)], &[]),
        (Update, &[(5, 0)], &[]),
        (Update, &[(55, 1), (56, 1)], &[INSERT_TOP, INSERT_TOP, MOST]),
        (Update, &[(45, 1), (45, 2), (45, 0)], &[INSERT_MIDDLE, REPLACE, REMOVE_MIDDLE, SET_SET]),
        (Update, &[(45, 1), (45, 0)], &[INSERT_MIDDLE, REMOVE_MIDDLE, SET_REMOVE]),
        (Update, &[(50, 0), (50, 1)], &[REMOVE_TOP, INSERT_TOP, REMOVE_SET]),
        (Update, &[(50, 0), (50, 0)], &[REMOVE_TOP, NOTHING, REMOVE_REMOVE]),
        (Update, &[(110, 1)], &[REFUSED_16]),
        (Snapshot, &[(50, 1), (40, 1)], &[BEST_FIRST]),
        (Snapshot, &[(40, 1), (50, 1)], &[WORST_FIRST]),
        (Snapshot, &[(40, 1), (50, 1), (45, 1)], &[]),
        (Snapshot, &[(50, 1)], &[]),
    ];
    for (kind, bids, expected) in cases {
        assert_eq!(seen(*kind, bids, &[]), *expected, "{bids:?}");
    }
    assert_eq!(seen(Update, &[(55, 1)], &[(155, 1)]), [INSERT_TOP, INSERT_END]);
    assert_eq!(seen(Update, &[(55, 1)], &[(110, 0)]), [INSERT_TOP, REMOVE_TOP, BOTH]);
    assert_eq!(seen(Update, &[(50, 2)], &[(155, 1)]), [REPLACE, INSERT_END, NONE]);
}

#[test]
fn what_is_cut_is_told() {
    let cut = |entries: Entries| -> Vec<&str> {
        seen(Update, entries, &[]).into_iter().filter(|cause| [PAST, PAST_END, PUSHED, STOOD].contains(cause)).collect()
    };
    // Five stand and five come at the end; then one at the place 10 of ten, and another at the place 10 of eleven.
    let past = [(9, 1), (8, 1), (7, 1), (6, 1), (5, 1), (3, 1), (4, 1)];
    assert_eq!(cut(&past[..5]), [] as [&str; 0]);
    assert_eq!(cut(&past[..6]), [PAST_END]);
    assert_eq!(cut(&past), [PAST, PAST_END]);
    // Six at the top, and the last of the five that stood is cut; eleven, and all five are, and the first of the eleven.
    let tops: Vec<(u32, u32)> = (0..11).map(|place| (51 + place, 1)).collect();
    assert_eq!(cut(&tops[..6]), [STOOD]);
    assert_eq!(cut(&tops), [PUSHED, STOOD, STOOD, STOOD, STOOD, STOOD]);
}

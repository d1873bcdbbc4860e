//! The papers' own examples.

use second_opinion::book::{Book, Scope, State};
use second_opinion::message::{first_bad, Side};
use second_opinion::settings::{Dialect, Settings};
use second_opinion::lines::{line, lines};

const EXAMPLE: &str = r#"M 100 BTC-VND
{"channel":"book","product":"BTC-VND","type":"snapshot","data":{"bids":[["9","2"]],"asks":[["10","1"]]},"checksum":1226559413,"gsn":7}
{"channel":"trades"}
{"channel":"book"
{"channel":"book","product":"BTC-VND","type":"update","data":{"bids":[],"asks":[]},"checksum":1226559413,"gsn":8}
"#;

const BOOK_001: &str = r#"[0,{
"as": [
[ "0.05005", "0.00000500", "1582905487.684110" ],
[ "0.05010", "0.00000500", "1582905486.187983" ],
[ "0.05015", "0.00000500", "1582905484.480241" ],
[ "0.05020", "0.00000500", "1582905486.645658" ],
[ "0.05025", "0.00000500", "1582905486.859009" ],
[ "0.05030", "0.00000500", "1582905488.601486" ],
[ "0.05035", "0.00000500", "1582905488.357312" ],
[ "0.05040", "0.00000500", "1582905488.785484" ],
[ "0.05045", "0.00000500", "1582905485.302661" ],
[ "0.05050", "0.00000500", "1582905486.157467" ] ],
"bs": [
[ "0.05000", "0.00000500", "1582905487.439814" ],
[ "0.04995", "0.00000500", "1582905485.119396" ],
[ "0.04990", "0.00000500", "1582905486.432052" ],
[ "0.04980", "0.00000500", "1582905480.609351" ],
[ "0.04975", "0.00000500", "1582905476.793880" ],
[ "0.04970", "0.00000500", "1582905486.767461" ],
[ "0.04965", "0.00000500", "1582905481.767528" ],
[ "0.04960", "0.00000500", "1582905487.378907" ],
[ "0.04955", "0.00000500", "1582905483.626664" ],
[ "0.04950", "0.00000500", "1582905488.509872" ] ]
},"book-10","XBT/USD"]"#;

fn open(dialect: Dialect, depth: u64, name: &str) -> Book {
    Book::open(Settings::good(dialect, depth, name.as_bytes()))
}

fn k_book() -> Book {
    open(Dialect::K, 10, "XBT/USD")
}

#[test]
fn the_example_of_the_line_program() {
    assert_eq!(lines(EXAMPLE.as_bytes()), ["0 1 1", "5 1 1", "3 - -", "10 - -"]);
    assert!(lines(b"").is_empty());
    assert_eq!(lines(b"\n\n"), ["1 - -"]);
    assert_eq!(lines(b"M 100 a\n\n7"), ["3 - -", "5 - -"]);
}

#[test]
fn the_book_of_001() {
    let mut book = k_book();
    assert_eq!(line(&mut book, BOOK_001.as_bytes()), "0 10 10");
    assert_eq!(book.sides.checksum(Dialect::K), 974947235);
    let update = |sum: &str| format!(r#"[0,{{"a":[],"c":"{sum}"}},"book-10","XBT/USD"]"#);
    assert_eq!(line(&mut book, update("974947235").as_bytes()), "0 10 10");
    assert_eq!(book.updates(Scope::Live), (0, 1));
    assert_eq!(line(&mut book, update("974947236").as_bytes()), "13 - -");
    assert_eq!(book.updates(Scope::LastGood), (0, 1));
}

#[test]
fn the_text_of_three_levels() {
    let mut book = open(Dialect::M1, 100, "a");
    let data = r#"{"bids":[["8","3"],["9","2"]],"asks":[["10","1"]]}"#;
    let sum = second_opinion::crc::crc32(b"9:2:10:1:8:3");
    let text = format!(r#"{{"channel":"book","product":"a","type":"snapshot","data":{data},"checksum":{sum},"gsn":0}}"#);
    assert_eq!(line(&mut book, text.as_bytes()), "0 2 1");
    assert_eq!(book.sides.checksum_text(Dialect::M1), "9:2:10:1:8:3");
}

#[test]
fn the_text_of_the_writer() {
    let text = br#"[0,{"as":[["0.05005","0.00000500","0.000000"]],"bs":[]},"book-10","XBT/USD"]"#;
    let mut book = k_book();
    assert_eq!(book.take(text), 0);
    let mut room = vec![7; text.len() + 1];
    assert_eq!(book.write(&mut room), (0, text.len()));
    assert_eq!(&room[..text.len()], text);
    assert_eq!(room[text.len()], 7);
    let mut room = vec![7; text.len() - 1];
    assert_eq!(book.write(&mut room), (15, 0));
    assert!(room.iter().all(|&byte| byte == 7));
}

#[test]
fn the_writer_gives_back_the_example() {
    let snapshot = EXAMPLE.lines().nth(1).unwrap().as_bytes();
    let mut book = open(Dialect::M1, 100, "BTC-VND");
    assert_eq!(book.take(snapshot), 0);
    let mut room = vec![0; snapshot.len()];
    assert_eq!(book.write(&mut room), (0, snapshot.len()));
    assert_eq!(room, snapshot);
}

#[test]
fn a_cut_comes_after_the_whole_message() {
    let mut book = k_book();
    assert_eq!(book.take(BOOK_001.as_bytes()), 0);
    let mut after = book.sides.clone();
    after.asks.remove(0);
    let better = second_opinion::message::Level {
        price: second_opinion::decimal::Decimal::read(b"0.05001").unwrap(),
        size: second_opinion::decimal::Decimal::read(b"1").unwrap(),
    };
    after.asks.insert(0, better);
    let sum = after.checksum(Dialect::K);
    let text = format!(
        r#"[0,{{"a":[["0.05001","1","t"],["0.05005","0.0","t"]]}},{{"b":[],"c":"{sum}"}},"book-10","XBT/USD"]"#
    );
    assert_eq!(line(&mut book, text.as_bytes()), "0 10 10");
    assert_eq!(book.sides, after);
}

#[test]
fn names_are_compared_by_meaning() {
    let mut book = k_book();
    assert_eq!(book.take(br#"[0,{"as":[],"bs":[]},"book-10","XBT\/USD"]"#), 0);
    for (text, answer) in [
        (r#"[0,{"\u0061s":[],"b\u0073":[]},"\u0062ook-10","XBT\u002FUSD"]"#, 0),
        (r#"[0,{"\u0061":[],"\u0063":"0"},"book\u002D10","\u0058BT/USD"]"#, 0),
        (r#"[0,{"a":[],"c":"0","a\n":5,"\u0161":6},"book-10","XBT\u002fUSD"]"#, 0),
        (r#"[1,2,"\n","trade"]"#, 5),
        (r#"[0,{"as":[],"bs":[]},"book-10","XBT\\/USD"]"#, 5),
        (r#"[0,{"as":[],"bs":[]},"\book-10","XBT/USD"]"#, 5),
        (r#"[0,{"as":[],"bs":[]},"book-10","XBT/USD\u0020"]"#, 5),
        (r#"["\n","\n","\n"]"#, 5),
    ] {
        assert_eq!(book.take(text.as_bytes()), answer, "{text}");
        assert_eq!(book.state, State::Live, "{text}");
    }
    for (text, answer) in [
        (r#"[0,{"as":[],"bs":[],"\u0061s":[]},"book-10","XBT/USD"]"#, 6),
        (r#"[0,{"as":[],"bs":[],"as":[]},"book-10","XBT/USD"]"#, 6),
        (r#"[0,{"a":[],"c":"\u0030"},"book-10","XBT/USD"]"#, 6),
        (r#"[0,{"a":[["\u0031","1","t"]],"c":"0"},"book-10","XBT/USD"]"#, 8),
    ] {
        assert_eq!(book.take(text.as_bytes()), answer, "{text}");
        assert_eq!(book.state, State::Waiting, "{text}");
    }
    let mut book = open(Dialect::M1, 100, "a");
    let text = r#"{"ch\u0061nnel":"boo\u006b","product":"\u0061","\u0074ype":"\u0073napshot","data":{"bi\u0064s":[],"asks":[]},"checksum":0,"gs\u006E":1}"#;
    assert_eq!(book.take(text.as_bytes()), 0);
    assert_eq!(book.take(text.replace(r#""gs"#, r#""gsn":1,"gs"#).as_bytes()), 6);
    assert_eq!(book.take(text.replace(r#""\u0061","#, r#""\u0041","#).as_bytes()), 5);
    assert_eq!(book.take(text.replace(r#""\u0073n"#, r#""s\n"#).as_bytes()), 6);
}

#[test]
fn questions_in_their_order() {
    let shut = Book::open(None);
    assert_eq!(shut.levels(Scope::LastGood), (1, 0, 0));
    assert_eq!(shut.write(&mut []), (1, 0));
    let mut book = k_book();
    assert_eq!(book.levels(Scope::LastGood), (10, 0, 0));
    assert_eq!(book.level(Scope::Live, Side::Bid, 0).0, 10);
    assert_eq!(book.take(BOOK_001.as_bytes()), 0);
    assert_eq!(book.level(Scope::Live, Side::Bid, 9).1.price.text(), "0.04950");
    assert_eq!(book.level(Scope::Live, Side::Bid, 10).0, 14);
    assert_eq!(book.take(b""), 3);
    assert_eq!(book.levels(Scope::Live), (10, 0, 0));
    assert_eq!(book.levels(Scope::LastGood), (0, 10, 10));
}

#[test]
fn the_first_bad_decimal() {
    let settings = Settings::good(Dialect::K, 10, b"XBT/USD");
    let message = br#" [0,{"b":[["1","0","t"]],"a":[["2","05","t"],["0","x","t"]],"c":"0"},"book-10","XBT/USD"]"#;
    let found = first_bad(settings.as_ref(), message);
    assert_eq!(&message[found], b"\"05\"");
    assert_eq!(first_bad(None, message), 0..0);
    assert_eq!(first_bad(settings.as_ref(), b"["), 0..0);
}

/// The first bad text of a message of product or pair `a`.
fn bad_of(dialect: Dialect, message: &str) -> &str {
    let depth = if dialect == Dialect::K { 10 } else { 100 };
    &message[first_bad(Settings::good(dialect, depth, b"a").as_ref(), message.as_bytes())]
}

#[test]
fn the_first_bad_decimal_in_message_order() {
    let k = |objects: &str| bad_of(Dialect::K, &format!(r#"[0,{objects},"book-10","a"]"#)).to_string();
    // As written, whichever side and object; a price before its size.
    assert_eq!(k(r#"{"a":[["1","x","t"]]},{"b":[["y","1","t"]],"c":"0"}"#), r#""x""#);
    assert_eq!(k(r#"{"b":[["y","1","t"]]},{"a":[["1","x","t"]],"c":"0"}"#), r#""y""#);
    assert_eq!(k(r#"{"bs":[["1","1","t"],["0.0","","t"]],"as":[["","","t"]]}"#), r#""0.0""#);
    assert_eq!(k(r#"{"as":[["1","0","t"]],"bs":[]}"#), r#""0""#);
    assert_eq!(k(r#"{"a":[["1","0","t"],["2","1\u002e5","t"]],"c":"0"}"#), r#""1\u002e5""#);
    // Nothing breaks, or checks 5 and 6 refuse: the checksum is no decimal, the timestamp is none.
    assert_eq!(k(r#"{"a":[["1","0","x"]],"c":"0"}"#), "");
    assert_eq!(k(r#"{"a":[["1","x","t"]],"c":"01"}"#), "");
    assert_eq!(k(r#"{"a":[["1","x","t"],["1","x"]],"c":"0"}"#), "");
    assert_eq!(bad_of(Dialect::K, r#"[0,{"a":[["1","x","t"]],"c":"0"},"book-10","b"]"#), "");
    let m = |data: &str| {
        let rest = r#""type":"snapshot","checksum":0,"gsn":1"#;
        bad_of(Dialect::M1, &format!(r#"{{"channel":"book","data":{data},"product":"a",{rest}}}"#)).to_string()
    };
    assert_eq!(m(r#"{"asks":[["1","1"],["1","05"]],"bids":[["-1","1"]]}"#), r#""05""#);
    assert_eq!(m(r#"{"bids":[["-1","1"]],"asks":[["1","1"],["1","05"]]}"#), r#""-1""#);
    // One price twice breaks check 9, which comes after.
    assert_eq!(m(r#"{"bids":[["1","1"],["1","1"]],"asks":[]}"#), "");
    let many = vec![r#"["x","1"]"#; 101].join(",");
    assert_eq!(m(&format!(r#"{{"bids":[{many}],"asks":[]}}"#)), "");
}

#[test]
fn the_first_bad_decimal_is_empty_at_the_start() {
    let settings = Settings::good(Dialect::K, 10, b"a");
    let message = format!(r#"{}[0,{{"as":[["1","x","t"]],"bs":[]}},"book-10","a"]"#, " ".repeat(32_768));
    assert_eq!(first_bad(settings.as_ref(), message.as_bytes()), 0..0);
    assert_eq!(first_bad(Settings::good(Dialect::K, 9, b"a").as_ref(), message.trim().as_bytes()), 0..0);
    assert_eq!(first_bad(settings.as_ref(), message.trim().as_bytes()), 15..18);
}

/// An M message of product `a`.
fn m_text(kind: &str, bids: &str, checksum: u32, gsn: u64) -> Vec<u8> {
    let data = format!(r#"{{"bids":[{bids}],"asks":[]}}"#);
    format!(r#"{{"channel":"book","product":"a","type":"{kind}","data":{data},"checksum":{checksum},"gsn":{gsn}}}"#)
        .into_bytes()
}

#[test]
fn a_hundred_entries_and_one_more() {
    let entries = |count: u32| (1..=count).map(|price| format!(r#"["{price}","1"]"#)).collect::<Vec<_>>().join(",");
    let text: Vec<String> = (1..=100).rev().map(|price| format!("{price}:1")).collect();
    let checksum = second_opinion::crc::crc32(text.join(":").as_bytes());
    let mut book = open(Dialect::M1, 100, "a");
    assert_eq!(line(&mut book, &m_text("snapshot", &entries(101), 0, 1)), "7 - -");
    assert_eq!(line(&mut book, &m_text("snapshot", &entries(100), checksum, 1)), "0 100 0");
    assert_eq!(line(&mut book, &m_text("update", r#"["101","1"]"#, 0, 2)), "12 - -");
    assert_eq!(line(&mut book, &m_text("snapshot", &entries(100), checksum, 1)), "0 100 0");
    assert_eq!(line(&mut book, &m_text("update", r#"["101","1"],["101.0","0"]"#, checksum, 2)), "0 100 0");
}

#[test]
fn an_equal_gsn_and_one_more() {
    let mut book = open(Dialect::M1, 100, "a");
    assert_eq!(book.take(&m_text("snapshot", "", 0, 7)), 0);
    assert_eq!(book.take(&m_text("update", "", 0, 8)), 0);
    assert_eq!(book.book_number(Scope::Live), (0, 8));
    assert_eq!(book.take(&m_text("update", "", 0, 8)), 11);
    assert_eq!(book.book_number(Scope::LastGood), (0, 8));
    assert_eq!(book.take(&m_text("snapshot", "", 0, 3)), 0);
    assert_eq!((book.book_number(Scope::Live), book.updates(Scope::Live)), ((0, 3), (0, 0)));
}

#[test]
fn one_price_twice() {
    let mut book = open(Dialect::M1, 100, "a");
    let twice = r#"["0.5","1"],["0.50","2"]"#;
    assert_eq!(book.take(&m_text("snapshot", twice, 0, 1)), 9);
    assert_eq!(book.take(&m_text("snapshot", "", 0, 1)), 0);
    let checksum = second_opinion::crc::crc32(b"0.50:2");
    assert_eq!(line(&mut book, &m_text("update", twice, checksum, 2)), "0 1 0");
}

#[test]
fn the_samples_of_the_venues() {
    let mut book = open(Dialect::M1, 100, "BTC-VND");
    assert_eq!(book.take(EXAMPLE.lines().nth(1).unwrap().as_bytes()), 0);
    let sample = br#"{
"channel": "book",
"product": "BTC-VND",
"type": "update",
"data": {
"bids": [["2275689000", "2.249857"]],
"asks": [],
"timestamp": "1764643130040025000",
"gsn": 2309207234
},
"checksum": 2734336218,
"timestamp": "1764643130040025000",
"gsn": 2309207234
}"#;
    // Its bid stands above the example's ask; without asks its checksum is another book's.
    assert_eq!(book.take(sample), 16);
    assert_eq!(book.take(sample), 10);
    assert_eq!(open_with_bid(&mut book), 0);
    assert_eq!(book.take(sample), 13);
}

fn open_with_bid(book: &mut Book) -> u8 {
    let sum = second_opinion::crc::crc32(b"9:2");
    let text = format!(
        r#"{{"channel":"book","product":"BTC-VND","type":"snapshot","data":{{"bids":[["9","2"]],"asks":[]}},"checksum":{sum},"gsn":7}}"#
    );
    book.take(text.as_bytes())
}

/// An M message of product `a` with asks alone, of the prices 1 to `count`; `rest` stands last.
fn asks_text(kind: &str, count: usize, summed: usize, gsn: u64, rest: &str) -> String {
    let entries: Vec<String> = (1..=count).map(|price| format!(r#"["{price}","1"]"#)).collect();
    let text: Vec<String> = (1..=summed.min(count)).map(|price| format!("{price}:1")).collect();
    let sum = second_opinion::crc::crc32(text.join(":").as_bytes());
    let data = format!(r#"{{"bids":[],"asks":[{}]}}"#, entries.join(","));
    format!(r#"{{"channel":"book","product":"a","type":"{kind}","data":{data},"checksum":{sum},"gsn":{gsn}{rest}}}"#)
}

#[test]
fn m2_sums_twenty_five_levels() {
    for count in [24, 25, 26, 100] {
        let mut book = open(Dialect::M2, 100, "a");
        assert_eq!(book.take(asks_text("snapshot", count, 100, 7, "").as_bytes()), if count > 25 { 13 } else { 0 }, "{count}");
        assert_eq!(book.take(asks_text("snapshot", count, 25, 7, "").as_bytes()), 0, "{count}");
        assert_eq!(book.take(asks_text("snapshot", count, 24, 7, "").as_bytes()), if count > 24 { 13 } else { 0 }, "{count}");
        let mut book = open(Dialect::M1, 100, "a");
        assert_eq!(book.take(asks_text("snapshot", count, 25, 7, "").as_bytes()), if count > 25 { 13 } else { 0 }, "{count}");
    }
}

#[test]
fn m2_follows_the_number_before() {
    let update = |gsn: u64, rest: &str| asks_text("update", 30, 25, gsn, rest);
    for (gsn, rest, answer) in [
        (8, r#","prev_gsn":7"#, 0), (8, r#","prev_gsn":6"#, 11), (8, r#","prev_gsn":8"#, 11), (7, r#","prev_gsn":7"#, 11),
        (8, "", 6), (8, r#","prev_gsn":7,"prev_gsn":7"#, 6), (8, r#","prev_gsn":"7""#, 6), (8, r#","prev_gsn":7.0"#, 6),
        (8, r#","prev\u005fgsn":7"#, 0), (8, r#","prev_gsn":7,"prev\u005fgsn":7"#, 6), (8, r#","prev_gsn":07"#, 3),
        (9999999999999999999, r#","prev_gsn":7"#, 0), (8, r#","prev_gsn":10000000000000000000"#, 6), (8, r#","prev_gsn":-0"#, 6),
    ] {
        let mut book = open(Dialect::M2, 100, "a");
        assert_eq!(book.take(asks_text("snapshot", 30, 25, 7, r#","prev_gsn":"x","prev_gsn":[]"#).as_bytes()), 0);
        assert_eq!(book.take(update(gsn, rest).as_bytes()), answer, "{rest}");
        assert_eq!(book.state == State::Live, answer == 0);
    }
    let mut book = open(Dialect::M1, 100, "a");
    assert_eq!(book.take(asks_text("snapshot", 20, 25, 7, "").as_bytes()), 0);
    assert_eq!(book.take(asks_text("update", 20, 25, 8, r#","prev_gsn":"x","prev_gsn":[]"#).as_bytes()), 0);
}

#[test]
fn a_crossed_book_is_no_book() {
    let mut book = k_book();
    let snapshot = |bid: &str, ask: &str| {
        format!(r#"[0,{{"as":[["11","1","t"],["{ask}","1","t"]],"bs":[["{bid}","1","t"],["0.1","1","t"]]}},"book-10","XBT/USD"]"#)
    };
    for (bid, ask, answer) in [("0.5", "0.50", 16), ("2", "1", 16), ("10", "10", 16), ("1", "2", 0), ("0.999999999", "1", 0)] {
        assert_eq!(book.take(snapshot(bid, ask).as_bytes()), answer, "{bid} {ask}");
        assert_eq!(book.state == State::Live, answer == 0);
    }
    // By an update, whatever its checksum says.
    let update = |sum: u32| format!(r#"[0,{{"b":[["1.00","2","t"]],"c":"{sum}"}},"book-10","XBT/USD"]"#);
    let right = second_opinion::crc::crc32(b"111111002999999999111");
    for sum in [right, 5] {
        assert_eq!(line(&mut book, update(sum).as_bytes()), "16 - -");
        assert_eq!(line(&mut book, snapshot("0.999999999", "1").as_bytes()), "0 2 2");
    }
    // M: too many levels and an old number come first.
    let mut book = open(Dialect::M1, 100, "a");
    let hundred: Vec<String> = (1..=100).map(|price| format!(r#"["{price}","1"]"#)).collect();
    let text: Vec<String> = (1..=100).rev().map(|price| format!("{price}:1")).collect();
    let sum = second_opinion::crc::crc32(text.join(":").as_bytes());
    assert_eq!(book.take(&m_text("snapshot", &hundred.join(","), sum, 7)), 0);
    let crossing = |gsn: u64, bid: &str| {
        let data = format!(r#"{{"bids":[["{bid}","1"]],"asks":[["50.0","1"]]}}"#);
        format!(r#"{{"channel":"book","product":"a","type":"update","data":{data},"checksum":0,"gsn":{gsn}}}"#)
    };
    let mut again = book.clone();
    assert_eq!(again.take(crossing(7, "101").as_bytes()), 11);
    let mut again = book.clone();
    assert_eq!(again.take(crossing(8, "101").as_bytes()), 12);
    assert_eq!(book.take(crossing(8, "100").as_bytes()), 16);
}

//! Sessions that go through every case of a small range, in place of drawing them.

use crate::message::MAX_MESSAGE;
use crate::session::{Call, Opening, Session};
use crate::settings::Dialect;

const K_LINE: &str = "K 10 a";
const M_LINE: &str = "M 100 a";
const M2_LINE: &str = "M2 100 a";
const K_SNAPSHOT: &str = r#"[0,{"as":[["2","1","t"]],"bs":[["1.5","1","t"]]},"book-10","a"]"#;
const K_UPDATE: &str = r#"[0,{"a":[["2","0","t"]]},{"b":[["1.5","0","t",1]],"c":"0"},"book-10","a"]"#;
const M_SNAPSHOT: &str = r#"{"channel":"book","product":"a","type":"snapshot","data":{"bids":[["9","2"]],"asks":[["10","1"]]},"checksum":1226559413,"gsn":7}"#;
const M_UPDATE: &str = r#"{"channel":"book","product":"a","type":"update","data":{"bids":[["9","0"]],"asks":[["10","0"]],"gsn":1},"checksum":0,"gsn":8}"#;

const M2_UPDATE: &str = r#"{"channel":"book","product":"a","type":"update","data":{"bids":[],"asks":[["10","0"]]},"checksum":965052660,"gsn":8,"prev_gsn":7}"#;

/// Every sweep, each as sessions of a bearable length.
pub fn sessions() -> Vec<Session> {
    let mut all = Vec::new();
    for (line, snapshot, update) in [(K_LINE, K_SNAPSHOT, K_UPDATE), (M_LINE, M_SNAPSHOT, M_UPDATE)] {
        for base in [snapshot, update] {
            let after: Vec<Vec<u8>> = near(base).into_iter().flat_map(|text| [snapshot.into(), text]).collect();
            all.extend(chunks(line, after));
        }
        all.extend(chunks(line, words(b"[]{}\",:1- \\", 4)));
        all.extend(chunks(line, tokens(&["[", "]", "{", "}", ",", ":", "\"a\"", "1"], 6)));
        all.extend(chunks(line, around("[", words(b"-+01.eE", 5), "]")));
        all.extend(chunks(line, strings()));
        all.extend(chunks(line, names(line)));
        all.extend(chunks(line, nesting()));
        all.extend(chunks(line, lengths(snapshot)));
        all.extend(chunks(line, decimals(line)));
        all.extend(chunks(line, whole_numbers(line)));
    }
    let after: Vec<Vec<u8>> = near(M2_UPDATE).into_iter().flat_map(|text| [M_SNAPSHOT.into(), text]).collect();
    all.extend(chunks(M2_LINE, after));
    all.extend(chunks(M2_LINE, previous_numbers()));
    all.extend(elements());
    all.extend(openings());
    all
}

/// The dialect that a session with this first line is about.
fn dialect_of(line: &[u8]) -> Dialect {
    let word = line.split(|&byte| byte == b' ').next().unwrap_or(b"");
    let about = if line.starts_with(b"M") { Dialect::M1 } else { Dialect::K };
    Dialect::named(word).unwrap_or(about)
}

fn chunks(line: &str, messages: Vec<Vec<u8>>) -> Vec<Session> {
    let dialect = dialect_of(line.as_bytes());
    let session = |messages: &[Vec<u8>]| Session {
        dialect,
        opening: Opening(line.into()),
        calls: messages.iter().cloned().map(Call::Message).collect(),
    };
    messages.chunks(1000).map(session).collect()
}

/// Every text that is one byte away: cut, left out, put in or changed. No line ends.
fn near(base: &str) -> Vec<Vec<u8>> {
    let base = base.as_bytes();
    let mut texts = Vec::new();
    for place in 0..=base.len() {
        let (before, after) = base.split_at(place);
        texts.push(before.to_vec());
        texts.push(after.to_vec());
        let rest = after.get(1..).unwrap_or(b"");
        texts.push([before, rest].concat());
        for byte in (0..=255).filter(|&byte| byte != b'\n') {
            texts.push([before, &[byte], after].concat());
            texts.push([before, &[byte], rest].concat());
        }
    }
    texts
}

/// Every text of up to `most` of these bytes.
fn words(bytes: &[u8], most: usize) -> Vec<Vec<u8>> {
    let single: Vec<&[u8]> = bytes.chunks(1).collect();
    all_of(&single, most)
}

/// Every text of up to `most` of these tokens.
fn tokens(tokens: &[&str], most: usize) -> Vec<Vec<u8>> {
    let bytes: Vec<&[u8]> = tokens.iter().map(|token| token.as_bytes()).collect();
    all_of(&bytes, most)
}

fn all_of(parts: &[&[u8]], most: usize) -> Vec<Vec<u8>> {
    let mut all: Vec<Vec<u8>> = vec![vec![]];
    let mut last = all.clone();
    for _ in 0..most {
        let longer = |text: &Vec<u8>| -> Vec<Vec<u8>> { parts.iter().map(|part| [text, *part].concat()).collect() };
        last = last.iter().flat_map(longer).collect();
        all.extend(last.iter().cloned());
    }
    all
}

fn around(before: &str, texts: Vec<Vec<u8>>, after: &str) -> Vec<Vec<u8>> {
    texts.into_iter().map(|text| [before.as_bytes(), &text, after.as_bytes()].concat()).collect()
}

/// Strings with every byte, every escape, and every byte at each place of `\u`.
fn strings() -> Vec<Vec<u8>> {
    let mut texts = Vec::new();
    for byte in (0..=255).filter(|&byte| byte != b'\n') {
        for before in ["", "\\", "\\u", "\\u0", "\\u00", "\\u00a", "\\u00a0", "\\\\"] {
            let rest = "0000".get(before.len().saturating_sub(1)..).unwrap_or("");
            texts.push([b"[\"", before.as_bytes(), &[byte], b"\"]"].concat());
            texts.push([b"[\"", before.as_bytes(), &[byte], rest.as_bytes(), b"\"]"].concat());
            texts.push([b"[\"", before.as_bytes(), &[byte]].concat());
        }
    }
    texts
}

/// Names with every short escape, and with `\u` of every byte and of what has the same low
/// byte, in place of one of their bytes.
fn names(line: &str) -> Vec<Vec<u8>> {
    let mut escapes: Vec<String> = "\"\\/bfnrt".chars().map(|letter| format!("\\{letter}")).collect();
    for code in (0..0x180).chain((0..256).map(|high| 256 * high + 0x61)) {
        escapes.extend([format!("\\u{code:04x}"), format!("\\u{code:04X}")]);
    }
    let named = |escape: &String| -> Vec<Vec<u8>> {
        let texts = if line == K_LINE {
            vec![
                format!("[0,{{\"as\":[],\"bs\":[]}},\"book-10\",\"{escape}\"]"),
                format!("[0,{{\"as\":[],\"bs\":[]}},\"{escape}ook-10\",\"a\"]"),
                format!("[0,{{\"{escape}s\":[],\"bs\":[]}},\"book-10\",\"a\"]"),
                format!("[0,{{\"a\":[],\"{escape}\":\"0\"}},\"book-10\",\"a\"]"),
            ]
        } else {
            let message = |key: &str, channel: &str, product: &str, kind: &str| {
                let data = "{\"bids\":[],\"asks\":[]}";
                format!("{{\"channel\":\"{channel}\",\"product\":\"{product}\",\"type\":\"{kind}\",\"{key}\":{data},\"checksum\":0,\"gsn\":1}}")
            };
            vec![
                message("data", "book", escape, "snapshot"),
                message("data", &format!("boo{escape}"), "a", "snapshot"),
                message("data", "book", "a", &format!("sn{escape}pshot")),
                message(&format!("dat{escape}"), "book", "a", "snapshot"),
            ]
        };
        texts.into_iter().map(String::into_bytes).collect()
    };
    escapes.iter().flat_map(named).collect()
}

fn nesting() -> Vec<Vec<u8>> {
    let mut texts = Vec::new();
    for depth in 0..20 {
        for (open, inner, close) in [("[", "", "]"), ("{\"a\":", "1", "}"), ("[{\"a\":", "1", "}]"), ("[1,", "2", ",3]")] {
            texts.push([open.repeat(depth), inner.to_string(), close.repeat(depth)].concat().into_bytes());
            texts.push([open.repeat(depth), "[]".to_string(), close.repeat(depth)].concat().into_bytes());
            texts.push([open.repeat(depth), "{}".to_string(), close.repeat(depth)].concat().into_bytes());
        }
    }
    texts
}

/// Messages, and texts that are none, about as long as the longest message.
fn lengths(snapshot: &str) -> Vec<Vec<u8>> {
    let mut texts = Vec::new();
    for length in [MAX_MESSAGE, 2 * MAX_MESSAGE, 4 * MAX_MESSAGE].into_iter().flat_map(|about| about - 2..=about + 2) {
        let blanks = vec![b' '; length - snapshot.len()];
        texts.push([snapshot.as_bytes(), &blanks].concat());
        texts.push([&blanks, snapshot.as_bytes()].concat());
        texts.push([b"\"".as_slice(), &vec![b'x'; length - 2], b"\""].concat());
        texts.push(vec![b'['; length]);
        texts.push(vec![0; length]);
        texts.push(snapshot.into());
    }
    texts
}

/// A message with one entry: the price and the size given.
fn with_entry(line: &str, kind: &str, price: &[u8], size: &[u8]) -> Vec<u8> {
    let (before, after) = match (line, kind) {
        (K_LINE, "snapshot") => ("[0,{\"bs\":[],\"as\":[[\"", "\",\"t\"]]},\"book-10\",\"a\"]"),
        (K_LINE, _) => ("[0,{\"a\":[[\"", "\",\"t\"]],\"c\":\"0\"},\"book-10\",\"a\"]"),
        (_, "snapshot") => (
            "{\"channel\":\"book\",\"product\":\"a\",\"type\":\"snapshot\",\"checksum\":0,\"gsn\":1,\"data\":{\"asks\":[],\"bids\":[[\"",
            "\"]]}}",
        ),
        _ => (
            "{\"channel\":\"book\",\"product\":\"a\",\"type\":\"update\",\"checksum\":0,\"gsn\":1,\"data\":{\"asks\":[],\"bids\":[[\"",
            "\"]]}}",
        ),
    };
    [before.as_bytes(), price, b"\",\"", size, after.as_bytes()].concat()
}

fn decimals(line: &str) -> Vec<Vec<u8>> {
    let mut spelled = words(b"019.-+ex /:", 3);
    for whole in 1..13 {
        for part in 0..15 {
            for digit in ["0", "1", "9"] {
                spelled.push(format!("{}.{}", "1".repeat(whole), digit.repeat(part)).into_bytes());
                spelled.push(format!("{}{}", "9".repeat(whole), digit.repeat(part)).into_bytes());
                spelled.push(format!("0.{}{}", digit.repeat(whole), "1".repeat(part)).into_bytes());
            }
        }
    }
    let mut texts = Vec::new();
    for text in &spelled {
        for kind in ["snapshot", "update"] {
            texts.push(with_entry(line, kind, text, b"1"));
            texts.push(with_entry(line, kind, b"1", text));
        }
    }
    texts
}

fn whole_numbers(line: &str) -> Vec<Vec<u8>> {
    let mut spelled = words(b"019-.eE", 3);
    for length in 1..23 {
        for digit in ["1", "9", "4", "0"] {
            spelled.push(digit.repeat(length).into_bytes());
        }
    }
    for value in (1u64 << 32) - 3..(1 << 32) + 3 {
        spelled.push(value.to_string().into_bytes());
    }
    let mut texts = Vec::new();
    for text in spelled {
        let text = String::from_utf8_lossy(&text);
        if line == K_LINE {
            texts.push(format!("[{text},{{\"as\":[],\"bs\":[]}},\"book-10\",\"a\"]"));
            texts.push(format!("[0,{{\"a\":[],\"c\":\"{text}\"}},\"book-10\",\"a\"]"));
        } else {
            let empty = "{\"channel\":\"book\",\"product\":\"a\",\"type\":\"snapshot\",\"data\":{\"bids\":[],\"asks\":[]},";
            texts.push(format!("{empty}\"checksum\":{text},\"gsn\":1}}"));
            texts.push(format!("{empty}\"checksum\":0,\"gsn\":{text}}}"));
        }
    }
    texts.into_iter().map(String::into_bytes).collect()
}

/// Updates whose `prev_gsn` is written in many ways, each after a snapshot with the number 7.
fn previous_numbers() -> Vec<Vec<u8>> {
    let mut spelled = words(b"0179-.eE\"", 3);
    for length in 1..23 {
        spelled.extend([b'1', b'7', b'9'].map(|digit| vec![digit; length]));
    }
    let update = |text: &[u8]| [M2_UPDATE.trim_end_matches("7}").as_bytes(), text, b"}"].concat();
    spelled.iter().flat_map(|text| [M_SNAPSHOT.into(), update(text)]).collect()
}

/// K objects and M members in every choice of up to four named ones.
fn elements() -> Vec<Session> {
    let k_members = ["\"as\":[]", "\"bs\":[]", "\"a\":[]", "\"b\":[]", "\"c\":\"0\"", "\"x\":0"];
    let mut objects = Vec::new();
    for choice in choices(k_members.len(), 3) {
        let members: Vec<&str> = choice.iter().map(|&place| k_members[place]).collect();
        objects.push(format!("{{{}}}", members.join(",")));
    }
    let snapshot = "[0,{\"as\":[],\"bs\":[]},\"book-10\",\"a\"]";
    let mut k_texts: Vec<Vec<u8>> = Vec::new();
    for first in &objects {
        k_texts.extend([snapshot.into(), format!("[0,{first},\"book-10\",\"a\"]").into_bytes()]);
        for second in objects.iter().step_by(3) {
            k_texts.extend([snapshot.into(), format!("[0,{first},{second},\"book-10\",\"a\"]").into_bytes()]);
        }
    }
    let m_members = [
        "\"channel\":\"book\"", "\"product\":\"a\"", "\"type\":\"snapshot\"", "\"data\":{\"bids\":[],\"asks\":[]}",
        "\"checksum\":0", "\"gsn\":1", "\"type\":\"update\"", "\"channel\":\"trades\"", "\"product\":\"b\"",
        "\"data\":{\"bids\":[]}", "\"channel\":1", "\"prev_gsn\":1", "\"prev_gsn\":\"1\"", "\"prev_gsn\":0",
    ];
    let base = &m_members[..6];
    let mut m_texts: Vec<Vec<u8>> = Vec::new();
    for left_out in 0..=base.len() {
        for choice in choices(m_members.len(), 2) {
            let mut members: Vec<&str> = base.to_vec();
            if left_out < members.len() {
                members.remove(left_out);
            }
            members.extend(choice.iter().map(|&place| m_members[place]));
            m_texts.push(format!("{{{}}}", members.join(",")).into_bytes());
        }
    }
    [chunks(K_LINE, k_texts), chunks(M2_LINE, m_texts.clone()), chunks(M_LINE, m_texts)].concat()
}

/// Every list of up to `most` numbers below `end`.
fn choices(end: usize, most: usize) -> Vec<Vec<usize>> {
    let mut all: Vec<Vec<usize>> = vec![vec![]];
    let mut last = all.clone();
    for _ in 0..most {
        let longer = |list: &Vec<usize>| -> Vec<Vec<usize>> {
            (0..end).map(|next| [list.as_slice(), &[next]].concat()).collect()
        };
        last = last.iter().flat_map(longer).collect();
        all.extend(last.iter().cloned());
    }
    all
}

/// First lines, each with a message that a book with that name would take.
fn openings() -> Vec<Session> {
    let mut lines: Vec<Vec<u8>> = [near("K 10 ab"), near("M 100 a"), near("M2 100 a")].concat();
    for digits in 0..120 {
        lines.push(format!("M{digits} 100 a").into_bytes());
    }
    for depth in 0..130 {
        lines.push(format!("K {depth} a").into_bytes());
        lines.push(format!("M {depth} a").into_bytes());
    }
    for length in 0..20 {
        lines.push(format!("K 10 {}", "n".repeat(length)).into_bytes());
        lines.push(format!("M 100 {}", "n".repeat(length)).into_bytes());
    }
    lines.push([b"K 10 ".as_slice(), &vec![b'n'; MAX_MESSAGE]].concat());
    lines.push(vec![b' '; 3 * MAX_MESSAGE]);
    lines.push("M 18446744073709551716 a".into());
    lines.push("M 4294967396 a".into());
    lines.into_iter().map(opening).collect()
}

fn opening(line: Vec<u8>) -> Session {
    let dialect = dialect_of(&line);
    let name = line.rsplit(|&byte| byte == b' ').next().unwrap_or(b"").to_vec();
    let depth = line.split(|&byte| byte == b' ').nth(1).unwrap_or(b"").to_vec();
    let k = [b"[0,{\"as\":[],\"bs\":[]},\"book-".as_slice(), &depth, b"\",\"", &name, b"\"]"].concat();
    let m = [
        b"{\"channel\":\"book\",\"product\":\"".as_slice(),
        &name,
        b"\",\"type\":\"snapshot\",\"data\":{\"bids\":[],\"asks\":[]},\"checksum\":0,\"gsn\":1}",
    ]
    .concat();
    Session { dialect, opening: Opening(line), calls: [k, m].into_iter().map(Call::Message).collect() }
}

//! The line program's answers to right feeds, with serde_json's borrowed strings, BTreeMap and crc32fast.

use serde::de::{Deserializer, Error, IgnoredAny, SeqAccess, Visitor};
use serde::Deserialize;
use serde_json::value::RawValue;
use std::collections::BTreeMap;
use std::io::{BufRead, BufWriter, Write};

/// Price and size; what follows them is passed over.
struct Entry<'a>(&'a str, &'a str);

type Entries<'a> = Vec<Entry<'a>>;

struct EntryReader;

impl<'a> Visitor<'a> for EntryReader {
    type Value = Entry<'a>;

    fn expecting(&self, f: &mut std::fmt::Formatter) -> std::fmt::Result {
        f.write_str("price and size")
    }

    fn visit_seq<A: SeqAccess<'a>>(self, mut items: A) -> Result<Entry<'a>, A::Error> {
        let price = items.next_element()?.ok_or_else(|| A::Error::custom("no price"))?;
        let size = items.next_element()?.ok_or_else(|| A::Error::custom("no size"))?;
        while items.next_element::<IgnoredAny>()?.is_some() {}
        Ok(Entry(price, size))
    }
}

impl<'de: 'a, 'a> Deserialize<'de> for Entry<'a> {
    fn deserialize<D: Deserializer<'de>>(from: D) -> Result<Entry<'a>, D::Error> {
        from.deserialize_seq(EntryReader)
    }
}

#[derive(Deserialize)]
struct PartK<'a> {
    #[serde(borrow, alias = "as")]
    a: Option<Entries<'a>>,
    #[serde(borrow, alias = "bs")]
    b: Option<Entries<'a>>,
    c: Option<&'a str>,
}

#[derive(Deserialize)]
struct MessageM<'a> {
    channel: &'a str,
    product: &'a str,
    #[serde(rename = "type")]
    kind: &'a str,
    #[serde(borrow)]
    data: DataM<'a>,
    checksum: u32,
}

#[derive(Deserialize)]
struct DataM<'a> {
    #[serde(borrow)]
    bids: Entries<'a>,
    #[serde(borrow)]
    asks: Entries<'a>,
}

type Side = BTreeMap<u64, String>;

struct Book {
    k: bool,
    depth: usize,
    channel: String,
    product: String,
    bids: Side,
    asks: Side,
    live: bool,
    text: String,
}

/// The price in units of 10^-9.
fn key(text: &str) -> u64 {
    let (whole, part) = text.split_once('.').unwrap_or((text, ""));
    let digits = whole.bytes().chain(part.bytes()).fold(0, |sum, byte| sum * 10 + u64::from(byte - b'0'));
    digits * 10u64.pow(9 - part.len() as u32)
}

/// Adds the text without the point and the zeros in front.
fn strip(out: &mut String, text: &str) {
    let start = text.bytes().position(|byte| byte != b'0' && byte != b'.').unwrap_or(text.len());
    text[start..].split('.').for_each(|part| out.push_str(part));
}

fn apply(k: bool, side: &mut Side, entries: &Entries) {
    for entry in entries {
        let &Entry(price, size) = entry;
        if size.bytes().all(|byte| byte == b'0' || byte == b'.') {
            side.remove(&key(price));
            continue;
        }
        let piece = side.entry(key(price)).or_default();
        piece.clear();
        if k {
            strip(piece, price);
            strip(piece, size);
        } else {
            [price, ":", size].into_iter().for_each(|text| piece.push_str(text));
        }
    }
}

impl Book {
    fn checksum(&mut self) -> u32 {
        self.text.clear();
        if self.k {
            let best = self.asks.values().take(10).chain(self.bids.values().rev().take(10));
            best.for_each(|piece| self.text.push_str(piece));
            return crc32fast::hash(self.text.as_bytes());
        }
        let (mut bids, mut asks) = (self.bids.values().rev(), self.asks.values());
        for _ in 0..self.bids.len().max(self.asks.len()) {
            for piece in [bids.next(), asks.next()].into_iter().flatten() {
                self.text.push_str(piece);
                self.text.push(':');
            }
        }
        self.text.pop();
        crc32fast::hash(self.text.as_bytes())
    }

    fn clear(&mut self) {
        self.bids.clear();
        self.asks.clear();
    }

    fn checked(&mut self, checksum: Option<u32>) -> u8 {
        self.live = checksum.is_none() || checksum == Some(self.checksum());
        if self.live { 0 } else { 13 }
    }

    fn take_k(&mut self, line: &str) -> serde_json::Result<u8> {
        let items: Vec<&RawValue> = serde_json::from_str(line)?;
        let [_, parts @ .., channel, product] = items.as_slice() else { return Ok(6) };
        let ours = serde_json::from_str::<&str>(channel.get())? == self.channel
            && serde_json::from_str::<&str>(product.get())? == self.product;
        if !ours {
            return Ok(5);
        }
        let mut checksum = None;
        let parts: Vec<PartK> = parts.iter().map(|part| serde_json::from_str(part.get())).collect::<Result<_, _>>()?;
        if parts.iter().all(|part| part.c.is_none()) {
            self.clear();
        }
        for part in &parts {
            part.a.iter().for_each(|entries| apply(true, &mut self.asks, entries));
            part.b.iter().for_each(|entries| apply(true, &mut self.bids, entries));
            checksum = checksum.or(part.c);
        }
        while self.asks.len() > self.depth {
            self.asks.pop_last();
        }
        while self.bids.len() > self.depth {
            self.bids.pop_first();
        }
        Ok(self.checked(checksum.map(|text| text.parse().unwrap_or(0))))
    }

    fn take_m(&mut self, line: &str) -> serde_json::Result<u8> {
        let message: MessageM = serde_json::from_str(line)?;
        if message.channel != self.channel || message.product != self.product {
            return Ok(5);
        }
        if message.kind == "snapshot" {
            self.clear();
        }
        apply(false, &mut self.bids, &message.data.bids);
        apply(false, &mut self.asks, &message.data.asks);
        Ok(self.checked(Some(message.checksum)))
    }
}

fn main() -> std::io::Result<()> {
    let mut input = std::io::stdin().lock();
    let mut out = BufWriter::new(std::io::stdout().lock());
    let mut line = String::new();
    input.read_line(&mut line)?;
    let words: Vec<&str> = line.split_whitespace().collect();
    let (k, depth, product) = (words[0] == "K", words[1], words[2].to_string());
    let channel = if k { format!("book-{depth}") } else { "book".to_string() };
    let depth = depth.parse().expect("a depth");
    let (bids, asks) = (Side::new(), Side::new());
    let mut book = Book { k, depth, channel, product, bids, asks, live: false, text: String::new() };
    let mut line = String::new();
    while input.read_line(&mut line)? > 0 {
        let answer = if k { book.take_k(&line) } else { book.take_m(&line) }.unwrap_or(3);
        if book.live {
            writeln!(out, "{answer} {} {}", book.bids.len(), book.asks.len())?;
        } else {
            writeln!(out, "{answer} - -")?;
        }
        line.clear();
    }
    Ok(())
}

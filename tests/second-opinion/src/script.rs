//! Scripts of calls on one book, as docs/REPLAY.md has them: made, run on this
//! book, and compared with what `replay` lays down.

use crate::book::{Book, Scope};
use crate::lines::shown;
use crate::message::Side;
use crate::random::Random;
use crate::session::{Call, Opening, Session};

const HEADER: usize = 48;
const REPLY: usize = 56;
/// The words of a reply after the answer number.
type Values = [u64; 6];

/// A script in its calls, and the room for its replies.
#[derive(Clone, Debug)]
pub struct Script {
    pub opening: Opening,
    pub parts: Vec<Vec<u8>>,
    pub out: Vec<u8>,
    /// Every call is as the session has it, and has its room.
    pub whole: bool,
}

/// How a script is run: the count of calls made; the replies are laid into the room.
pub type Run<'a> = &'a dyn Fn(&Opening, &[u8], &mut [u8]) -> usize;

/// The session as a script. Unless it is to be whole, sometimes it is cut, asks
/// for what is not there, or has too little room.
pub fn script(random: &mut Random, session: &Session, whole: bool) -> Script {
    let mut parts: Vec<Vec<u8>> = session.calls.iter().map(|call| part(random, call)).collect();
    let mut room: usize = parts.iter().map(|part| REPLY + word(part, 32) as usize).sum();
    let fault = if whole { 12 } else { random.below(12) };
    match fault {
        0 => room = random.below(room + 1),
        1 => room += random.below(100),
        2 => parts.push(garbage(random, HEADER + 7)),
        3 => cut(random, &mut parts),
        4 => overlong(random, &mut parts),
        _ => {}
    }
    let out = garbage(random, room);
    Script { opening: session.opening.clone(), parts, out, whole: fault > 4 }
}

fn garbage(random: &mut Random, most: usize) -> Vec<u8> {
    (0..most).map(|_| random.next() as u8).collect()
}

/// The last call ends early.
fn cut(random: &mut Random, parts: &mut [Vec<u8>]) {
    if let Some(last) = parts.last_mut() {
        let kept = random.below(last.len());
        last.truncate(kept);
    }
}

/// Some call's length of the message or of the buffer is far too large, or what it asks is.
fn overlong(random: &mut Random, parts: &mut [Vec<u8>]) {
    if parts.is_empty() {
        return;
    }
    let part = random.below(parts.len());
    let place = random.pick(&[0, 32, 40]);
    let value = random.pick(&[6, 7, 256, 1 << 32, 1 << 63, u64::MAX - 55, u64::MAX - 47, u64::MAX]);
    parts[part][place..place + 8].copy_from_slice(&value.to_le_bytes());
}

/// A word that is not used: mostly 0, else anything.
fn unused(random: &mut Random) -> u64 {
    if random.percent(80) {
        0
    } else {
        random.next()
    }
}

/// 0, or anything else for the second of two choices.
fn choice(random: &mut Random, second: bool) -> u64 {
    match (second, random.percent(80)) {
        (false, _) => 0,
        (true, true) => 1,
        (true, false) => random.pick(&[2, 255, 256, 1 << 32, u64::MAX]),
    }
}

fn part(random: &mut Random, call: &Call) -> Vec<u8> {
    let mut scope = unused(random);
    let mut side = unused(random);
    let mut index = unused(random);
    let mut buffer = if random.percent(5) { random.below(60) } else { 0 };
    let mut message: Vec<u8> = if random.percent(3) { garbage(random, 9) } else { vec![] };
    let mut last_good = |random: &mut Random, asked: &Scope| scope = choice(random, *asked == Scope::LastGood);
    let asked: u64 = match call {
        Call::Message(text) => {
            message = text.clone();
            0
        }
        Call::Levels(asked) => {
            last_good(random, asked);
            1
        }
        Call::Level(asked, on, place) => {
            last_good(random, asked);
            side = choice(random, *on == Side::Ask);
            index = *place;
            2
        }
        Call::Number(asked) => {
            last_good(random, asked);
            3
        }
        Call::Updates(asked) => {
            last_good(random, asked);
            4
        }
        Call::Write(room) => {
            buffer = *room;
            5
        }
    };
    let words = [asked, scope, side, index, buffer as u64, message.len() as u64];
    [words.map(u64::to_le_bytes).concat(), message].concat()
}

fn word(bytes: &[u8], place: usize) -> u64 {
    let mut eight = [0; 8];
    eight.copy_from_slice(&bytes[place..place + 8]);
    u64::from_le_bytes(eight)
}

/// The script run on this book.
pub fn here(opening: &Opening, script: &[u8], out: &mut [u8]) -> usize {
    let mut book = Book::open(opening.settings());
    let (mut from, mut to, mut made) = (0, 0, 0);
    while let Some((asked, message)) = next(&script[from..]) {
        let Some(room) = lent(&script[from..], &out[to..]) else { break };
        let (answer, values) = reply(&mut book, &script[from..], message, &mut out[to + REPLY..to + REPLY + room]);
        debug_assert!(asked <= 5);
        let words: Vec<u64> = [vec![u64::from(answer)], values.to_vec()].concat();
        let bytes: Vec<u8> = words.into_iter().flat_map(u64::to_le_bytes).collect();
        out[to..to + REPLY].copy_from_slice(&bytes);
        from += HEADER + message.len();
        to += REPLY + room;
        made += 1;
    }
    made
}

/// What the next call asks, and its message; nothing if it is cut or asks for more than 5.
fn next(script: &[u8]) -> Option<(u64, &[u8])> {
    let rest = script.get(HEADER..)?;
    let length = usize::try_from(word(script, 40)).ok()?;
    let asked = word(script, 0);
    (asked <= 5).then_some((asked, rest.get(..length)?))
}

/// The length of the lent buffer, if the reply and the buffer fit.
fn lent(script: &[u8], out: &[u8]) -> Option<usize> {
    let room = usize::try_from(word(script, 32)).ok()?;
    (out.len().checked_sub(REPLY)? >= room).then_some(room)
}

fn reply(book: &mut Book, header: &[u8], message: &[u8], room: &mut [u8]) -> (u8, Values) {
    let scope = if word(header, 8) == 0 { Scope::Live } else { Scope::LastGood };
    let side = if word(header, 16) == 0 { Side::Bid } else { Side::Ask };
    match word(header, 0) {
        0 => {
            let (answer, moved) = book.take_counting(message);
            (answer, [moved, 0, 0, 0, 0, 0])
        }
        1 => {
            let (answer, bids, asks) = book.levels(scope);
            (answer, [bids as u64, asks as u64, 0, 0, 0, 0])
        }
        2 => {
            let (answer, level) = book.level(scope, side, word(header, 24));
            let ([digits, past, decimals], size) = (level.price.words(), level.size.words());
            (answer, [digits, past, decimals, size[0], size[1], size[2]])
        }
        3 => {
            let (answer, number) = book.book_number(scope);
            (answer, [number, 0, 0, 0, 0, 0])
        }
        4 => {
            let (answer, count) = book.updates(scope);
            (answer, [u64::from(count), 0, 0, 0, 0, 0])
        }
        _ => {
            let (answer, length) = book.write(room);
            (answer, [length as u64, 0, 0, 0, 0, 0])
        }
    }
}

/// The answer numbers in the replies of the calls made.
fn answers(script: &[u8], made: usize, out: &[u8]) -> Vec<u8> {
    let (mut from, mut to) = (0, 0);
    let mut answers = Vec::new();
    for _ in 0..made {
        answers.push(out[to]);
        to += REPLY + word(&script[from..], 32) as usize;
        from += HEADER + word(&script[from..], 40) as usize;
    }
    answers
}

impl Script {
    /// The count of calls made, and the whole room afterwards.
    pub fn run(&self, run: Run) -> (usize, Vec<u8>) {
        let mut out = self.out.clone();
        let made = run(&self.opening, &self.parts.concat(), &mut out);
        (made, out)
    }

    fn differs(&self, there: Run) -> bool {
        self.run(&here) != self.run(there)
    }

    /// The script without the calls that the difference does not need.
    fn shortest(&self, there: Run) -> Script {
        let mut short = self.clone();
        for place in (0..self.parts.len()).rev() {
            let mut shorter = short.clone();
            shorter.parts.remove(place);
            if shorter.differs(there) {
                short = shorter;
            }
        }
        short
    }

    /// The answer number of each call made; a difference is an error with its report.
    pub fn compare(&self, there: Run) -> Result<Vec<u8>, String> {
        let (made, out) = self.run(&here);
        let (there_made, there_out) = self.run(there);
        if made == there_made && out == there_out {
            return Ok(answers(&self.parts.concat(), made, &out));
        }
        Err(self.shortest(there).report(there))
    }

    fn report(&self, there: Run) -> String {
        let (ours, theirs) = (self.run(&here), self.run(there));
        let mut report = format!("opened with {}, room of {}\n", shown(self.opening.line()), self.out.len());
        for part in &self.parts {
            let words: Vec<u64> = (0..6).filter(|&at| 8 * at + 8 <= part.len()).map(|at| word(part, 8 * at)).collect();
            report += &format!("call {words:?} {}\n", shown(part.get(HEADER..).unwrap_or(part)));
        }
        report += &format!("calls made: here {}, there {}\n", ours.0, theirs.0);
        if let Some(place) = (0..self.out.len()).find(|&place| ours.1[place] != theirs.1[place]) {
            let end = self.out.len().min(place + 200);
            report += &format!("from byte {place}: here {:?}, there {:?}\n", &ours.1[place..end], &theirs.1[place..end]);
        }
        report
    }
}

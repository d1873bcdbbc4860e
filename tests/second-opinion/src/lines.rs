//! The line program: what it should print, and the comparison with what it prints.

use crate::book::{Book, State};
use crate::session::{Call, Session};
use crate::settings::Settings;
use std::fs::File;
use std::io::{Read, Write};
use std::path::Path;
use std::process::{Command, Stdio};

/// How a session is handed over.
#[derive(Clone, Copy, Debug)]
pub struct How {
    /// The last line has its end.
    pub finished: bool,
    /// A file is standard input, in place of a pipe.
    pub file: bool,
}

/// What the line program prints for `input`.
pub fn lines(input: &[u8]) -> Vec<String> {
    let mut parts: Vec<&[u8]> = input.split(|&byte| byte == b'\n').collect();
    if parts.last().is_some_and(|last| last.is_empty()) {
        parts.pop();
    }
    let mut parts = parts.into_iter();
    let mut book = Book::open(parts.next().and_then(Settings::of_line));
    parts.map(|message| line(&mut book, message)).collect()
}

/// The line for one message.
pub fn line(book: &mut Book, message: &[u8]) -> String {
    let number = book.take(message);
    if book.state == State::Live {
        format!("{number} {} {}", book.sides.bids.len(), book.sides.asks.len())
    } else {
        format!("{number} - -")
    }
}

/// The session's input: first line and messages, the last one perhaps unfinished.
pub fn input(session: &Session, finished: bool) -> Vec<u8> {
    let mut input = session.opening.line().to_vec();
    for call in &session.calls {
        if let Call::Message(message) = call {
            input.push(b'\n');
            input.extend_from_slice(message);
        }
    }
    if finished {
        input.push(b'\n');
    }
    input
}

/// What `program` prints for `input`, line by line.
pub fn run(program: &Path, input: &[u8], file: bool) -> std::io::Result<Vec<String>> {
    let stdin = if file { Stdio::from(file_of(input)?) } else { Stdio::piped() };
    let mut child = Command::new(program).stdin(stdin).stdout(Stdio::piped()).spawn()?;
    let pipe = child.stdin.take();
    let mut printed = Vec::new();
    std::thread::scope(|scope| -> std::io::Result<()> {
        // A program that stops early is told by its missing lines.
        if let Some(mut pipe) = pipe {
            scope.spawn(move || drop(pipe.write_all(input)));
        }
        child.stdout.take().expect("piped").read_to_end(&mut printed)?;
        Ok(())
    })?;
    let status = child.wait()?;
    let text = String::from_utf8_lossy(&printed);
    let mut lines: Vec<String> = text.split('\n').map(str::to_string).collect();
    if lines.last().is_some_and(String::is_empty) {
        lines.pop();
    } else {
        lines.push("no line end after the last line".to_string());
    }
    if !status.success() {
        lines.push(format!("ended with {status}"));
    }
    Ok(lines)
}

/// A file with these bytes, open at its start; its name is gone.
fn file_of(input: &[u8]) -> std::io::Result<File> {
    let path = std::env::temp_dir().join(format!("second-opinion-{}", std::process::id()));
    std::fs::write(&path, input)?;
    let file = File::open(&path)?;
    std::fs::remove_file(&path)?;
    Ok(file)
}

/// The first message whose line differs, counted from 0.
pub fn first_difference(ours: &[String], theirs: &[String]) -> Option<usize> {
    (0..ours.len().max(theirs.len())).find(|&place| ours.get(place) != theirs.get(place))
}

/// Where `program` prints another line for the same calls.
fn differs(program: &Path, session: &Session, how: How) -> std::io::Result<Option<usize>> {
    let input = input(session, how.finished);
    Ok(first_difference(&lines(&input), &run(program, &input, how.file)?))
}

/// A shorter session that still differs: up to the first difference, without the
/// messages that it does not need.
pub fn shortest(program: &Path, session: &Session, how: How) -> std::io::Result<Session> {
    let mut short = session.clone();
    if let Some(place) = differs(program, &short, how)? {
        short.calls.truncate(place + 1);
    }
    let mut place = short.calls.len();
    while place > 0 {
        place -= 1;
        let mut shorter = short.clone();
        shorter.calls.remove(place);
        if differs(program, &shorter, how)?.is_some() {
            short = shorter;
        }
    }
    Ok(short)
}

/// The text with bytes that do not print as `\xNN`.
pub fn shown(text: &[u8]) -> String {
    let one = |&byte: &u8| match byte {
        b'\n' | 32..=126 => char::from(byte).to_string(),
        _ => format!("\\x{byte:02x}"),
    };
    text.iter().map(one).collect()
}

/// Compares one session; a difference is answered as a report.
pub fn compare(program: &Path, session: &Session, how: How) -> std::io::Result<Option<String>> {
    if differs(program, session, how)?.is_none() {
        return Ok(None);
    }
    let short = shortest(program, session, how)?;
    let input = input(&short, how.finished);
    let (ours, theirs) = (lines(&input), run(program, &input, how.file)?);
    let mut report = format!("{how:?}\n{}\n", shown(&input));
    for place in 0..ours.len().max(theirs.len()) {
        let line = |lines: &[String]| lines.get(place).cloned().unwrap_or("nothing".to_string());
        report += &format!("message {place}: here {}, there {}\n", line(&ours), line(&theirs));
    }
    Ok(Some(report))
}

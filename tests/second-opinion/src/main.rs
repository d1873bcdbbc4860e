//! `second-opinion --seed N --calls N [--sweep] [--booklines PATH] [--message-vectors PATH]`:
//! hands generated sessions to both books, after those that are aimed at the ends of the
//! rules and, with `--sweep`, those that go through small ranges. Without a path the calls
//! go to `replay`, if it is linked (REPLAY_DIR at the build), else to this book alone.
//! With `--message-vectors` the first bad text is compared too, for a part of the sessions.
//! Exit status 1 if anything differs, or if something that has to come up did not.

use second_opinion::aimed;
use second_opinion::lines::{self, How};
use second_opinion::random::Random;
use second_opinion::replay;
use second_opinion::script::script;
use second_opinion::seen::{Against, Seen};
use second_opinion::session::{answers, session, Purpose, Session};
use second_opinion::sweep;
use second_opinion::tally::Tally;
use second_opinion::vectors;
use std::path::PathBuf;
use std::process::ExitCode;

struct Options {
    seed: u64,
    calls: usize,
    sweep: bool,
    booklines: Option<PathBuf>,
    vectors: Option<PathBuf>,
}

/// A run of so many calls has to bring up every answer.
const ENOUGH: usize = 50_000;

const USAGE: &str =
    "usage: second-opinion [--seed N] [--calls N] [--sweep] [--booklines PATH] [--message-vectors PATH]";

fn options() -> Result<Options, String> {
    let mut options = Options { seed: 1, calls: 100_000, sweep: false, booklines: None, vectors: None };
    let mut words = std::env::args().skip(1);
    while let Some(word) = words.next() {
        if word == "--sweep" {
            options.sweep = true;
            continue;
        }
        let value = words.next().ok_or(USAGE)?;
        let number = || value.parse::<u64>().map_err(|_| USAGE);
        match word.as_str() {
            "--seed" => options.seed = number()?,
            "--calls" => options.calls = number()? as usize,
            "--booklines" => options.booklines = Some(PathBuf::from(value)),
            "--message-vectors" => options.vectors = Some(PathBuf::from(value)),
            _ => return Err(USAGE.to_string()),
        }
    }
    Ok(options)
}

impl Options {
    fn purpose(&self) -> Purpose {
        if self.booklines.is_some() {
            Purpose::Lines
        } else {
            Purpose::Calls
        }
    }
}

/// A run: what it is for, and what came up so far.
struct Run {
    options: Options,
    counts: Tally,
    seen: Seen,
    random: Random,
    done: usize,
}

/// How much of a session is counted, and asked of `message_vectors`.
#[derive(Clone, Copy, PartialEq, Eq)]
enum Way {
    /// Drawn: perhaps cut, now and then asked.
    Drawn,
    /// Aimed: whole, and asked.
    Aimed,
    /// Of the sweep: whole, now and then asked, and of no matter to what has to come up.
    Swept,
}

impl Run {
    /// Sessions until there were enough calls; the first difference is reported.
    fn all(&mut self) -> Result<(), String> {
        let purpose = self.options.purpose();
        for session in aimed::sessions(&mut self.random, purpose) {
            self.one(&session, Way::Aimed)?;
        }
        if self.options.booklines.is_some() {
            self.first_lines()?;
            self.files()?;
        }
        let sweeps = if self.options.sweep { sweep::sessions() } else { vec![] };
        for session in sweeps {
            self.one(&session, Way::Swept)?;
        }
        let enough = self.done + self.options.calls;
        while self.done < enough {
            if self.random.percent(6) {
                let session = aimed::one(&mut self.random, purpose);
                self.one(&session, Way::Drawn)?;
            }
            let most = self.random.pick(&[5, 50, 300, 300, 600]);
            let length = self.random.between(0, most);
            let session = session(&mut self.random, purpose, length);
            self.one(&session, Way::Drawn)?;
        }
        Ok(())
    }

    /// Bad first lines, from a pipe and from a file.
    fn first_lines(&mut self) -> Result<(), String> {
        for (kind, session) in aimed::bad_first_lines() {
            for file in [false, true] {
                // A missing line has no end.
                let finished = !session.calls.is_empty();
                self.lines(&session, How { finished, file })?;
                self.seen.count(kind);
            }
        }
        Ok(())
    }

    fn files(&mut self) -> Result<(), String> {
        for session in aimed::files(&mut self.random) {
            for finished in [true, false] {
                self.lines(&session, How { finished, file: true })?;
            }
        }
        Ok(())
    }

    /// One session, if nothing differs.
    fn one(&mut self, session: &Session, way: Way) -> Result<(), String> {
        let asked = match way {
            Way::Drawn => self.random.percent(10),
            Way::Aimed => true,
            Way::Swept => self.random.percent(5),
        };
        if let Some(program) = self.options.vectors.as_ref().filter(|_| asked) {
            match vectors::compare(program, session, &mut self.seen) {
                Ok(None) => {}
                Ok(Some(report)) => return Err(format!("first bad text differs:\n{report}")),
                Err(error) => return Err(format!("{}: {error}", program.display())),
            }
        }
        if self.options.booklines.is_some() {
            let how = How { finished: self.random.percent(80), file: self.random.percent(40) };
            return self.lines(session, how);
        }
        let (answers, whole) = match replay::linked() {
            Some(library) => {
                let script = script(&mut self.random, session, way != Way::Drawn);
                (script.compare(library).map_err(differs)?, script.whole)
            }
            None => (answers(session), true),
        };
        self.counts.count(session.counted_as(), &answers);
        self.done += answers.len();
        if whole && way != Way::Swept {
            self.seen.session(session);
        }
        Ok(())
    }

    /// One session against the line program.
    fn lines(&mut self, session: &Session, how: How) -> Result<(), String> {
        let Some(program) = &self.options.booklines else { return Ok(()) };
        match lines::compare(program, session, how) {
            Ok(None) => {}
            Ok(Some(report)) => return Err(differs(report)),
            Err(error) => return Err(format!("{}: {error}", program.display())),
        }
        let answers = answers(session);
        self.counts.count(session.counted_as(), &answers);
        self.done += answers.len();
        self.seen.session(session);
        if how.file {
            self.seen.file(&lines::input(session, how.finished));
        }
        Ok(())
    }

    /// What had to come up and did not; in a run of enough calls, the answers too.
    fn missing(&self) -> Vec<String> {
        let against = Against { lines: self.options.booklines.is_some(), first_bad: self.options.vectors.is_some() };
        let mut missing = self.seen.missing(against, &aimed::FIRST_LINES);
        if self.options.calls >= ENOUGH {
            missing.extend(self.counts.wrong(against.lines));
        }
        missing
    }
}

fn differs(report: String) -> String {
    format!("differs:\n{report}")
}

/// What this book was compared with.
fn against(options: &Options) -> &'static str {
    match (&options.booklines, replay::linked()) {
        (Some(_), _) => "against booklines",
        (None, Some(_)) => "against replay",
        (None, None) => "on this book alone",
    }
}

fn main() -> ExitCode {
    let options = match options() {
        Ok(options) => options,
        Err(usage) => {
            eprintln!("{usage}");
            return ExitCode::from(2);
        }
    };
    let random = Random::new(options.seed);
    let mut run = Run { options, counts: Tally::default(), seen: Seen::default(), random, done: 0 };
    let outcome = run.all();
    print!("{}{}", run.counts.report(), run.seen.report());
    let (seed, missing) = (run.options.seed, run.missing());
    match outcome {
        Err(report) => println!("seed {seed}: {report}"),
        Ok(()) if !missing.is_empty() => println!("seed {seed}: did not come up: {}", missing.join("; ")),
        Ok(()) => {
            println!("seed {seed}, {} calls {}, no difference", run.done, against(&run.options));
            return ExitCode::SUCCESS;
        }
    }
    ExitCode::FAILURE
}

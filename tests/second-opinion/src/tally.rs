//! How often each answer number came up in each dialect.

use crate::settings::Dialect;

/// Answer numbers are below this.
pub const ANSWERS: usize = 17;

#[derive(Default)]
pub struct Tally {
    counts: [[u64; ANSWERS]; 3],
}

fn row(dialect: Dialect) -> usize {
    match dialect {
        Dialect::K => 0,
        Dialect::M1 => 1,
        Dialect::M2 => 2,
    }
}

/// Whether a dialect has this answer: 4 is given no more, 11 and 12 are M's.
pub fn is_given(dialect: Dialect, answer: u8) -> bool {
    match answer {
        4 => false,
        11 | 12 => dialect != Dialect::K,
        _ => true,
    }
}

impl Tally {
    pub fn count(&mut self, dialect: Dialect, answers: &[u8]) {
        for &answer in answers {
            self.counts[row(dialect)][usize::from(answer)] += 1;
        }
    }

    pub fn times(&self, dialect: Dialect, answer: u8) -> u64 {
        self.counts[row(dialect)][usize::from(answer)]
    }

    /// The answers that did not come up and had to, and those that came up and are never given.
    pub fn wrong(&self, lines: bool) -> Vec<String> {
        let mut wrong = Vec::new();
        for dialect in Dialect::ALL {
            for answer in 0..ANSWERS as u8 {
                let wanted = is_given(dialect, answer) && !(lines && (answer == 14 || answer == 15));
                if wanted != (self.times(dialect, answer) > 0) {
                    wrong.push(format!("answer {answer} in {}: {} times", dialect.name(), self.times(dialect, answer)));
                }
            }
        }
        wrong
    }

    /// A line for each dialect.
    pub fn report(&self) -> String {
        let line = |dialect: Dialect| {
            let counts = self.counts[row(dialect)].iter().enumerate();
            let words: Vec<String> = counts.map(|(answer, times)| format!("{answer}:{times}")).collect();
            format!("{} {}\n", dialect.name(), words.join(" "))
        };
        Dialect::ALL.map(line).concat()
    }
}

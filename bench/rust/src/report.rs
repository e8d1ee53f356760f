//! The text of a report, and lines of numbers.

use std::fmt::Write;

/// How many nodes a search visited and how many it cut.
#[derive(Clone, Copy, Debug, Default)]
pub struct Totals {
    pub visited: u64,
    pub cut: u64,
}

impl Totals {
    /// The answer with the six lines of the report of one worker after it.
    pub fn report(self, answer: &str) -> String {
        let Totals { visited, cut } = self;
        format!("{answer}workers 1\ntaken 1\nspawned 0\nhanded 0\nvisited {visited}\ncut {cut}\n")
    }
}

/// A line that is a word and numbers, each after one space.
pub fn line(word: &str, numbers: impl IntoIterator<Item = usize>) -> String {
    let mut line = String::from(word);
    for number in numbers {
        let _ = write!(line, " {number}");
    }
    line.push('\n');
    line
}

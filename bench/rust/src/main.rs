//! Five exact tree searches, each written by hand for its one problem and sharing nothing but the reading of files and
//! the report. They search the trees of the program `yew`, with its bounds and its order of children, and write what
//! `yew JOB sequential .. --report` writes: the answer, and how many nodes were visited and cut.

mod flow;
mod knapsack;
mod reading;
mod report;
mod semigroups;
mod subgraph;
mod tsp;

use std::process::ExitCode;

const USAGE: &str = "by_hand knapsack FILE [--target T] | tsp FILE | subgraph PATTERN TARGET | semigroups --genus G | flow FILE";

fn main() -> ExitCode {
    let words: Vec<String> = std::env::args().skip(1).collect();
    let words: Vec<&str> = words.iter().map(String::as_str).collect();
    match answer(&words) {
        Ok(text) => {
            print!("{text}");
            ExitCode::SUCCESS
        }
        Err(fault) => {
            eprintln!("by_hand: {fault}");
            ExitCode::FAILURE
        }
    }
}

/// The answer and the report that these words ask for.
fn answer(words: &[&str]) -> Result<String, String> {
    match *words {
        ["knapsack", file] => knapsack::best(&read(file)?),
        ["knapsack", file, "--target", target] => knapsack::reach(&read(file)?, number(target)?),
        ["tsp", file] => tsp::best(&read(file)?),
        ["subgraph", pattern, target] => subgraph::reach(&read(pattern)?, &read(target)?),
        ["semigroups", "--genus", genus] => semigroups::count(number(genus)?),
        ["flow", file] => flow::best(&read(file)?),
        _ => Err(format!("usage: {USAGE}")),
    }
}

/// The text of a file.
fn read(file: &str) -> Result<String, String> {
    std::fs::read_to_string(file).map_err(|fault| format!("{file}: {fault}"))
}

/// A number among the words.
fn number(word: &str) -> Result<u64, String> {
    word.parse().map_err(|_| format!("{word} is not a number"))
}

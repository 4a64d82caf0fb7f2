//! Holds the library against the original and against a plain second implementation of document 01, on the same inputs.
//!
//!     compare SEED COUNT
//!     compare vectors FOLDER
//!
//! The short inputs run in full, then the programs and the large files, then rounds of random inputs from SEED until COUNT comparisons are
//! made in all; some rounds run even where COUNT is reached before. Each difference from the original is one of the rules, which stand in
//! docs/DIFFERENCES.md, or it fails. The second form stores answers for the program `vectors`.

mod calls;
mod cuts;
mod files;
mod grammar;
mod interface;
mod jumps;
mod large;
mod lent;
mod listing;
mod lists;
mod original;
mod pages;
mod pieces;
mod programs;
mod random;
mod registers;
mod rules;
mod said;
mod seeks;
mod sounds;
mod suites;
mod tally;
mod texts;
mod vectors;

use std::process::ExitCode;
use std::time::Instant;

/// So many random rounds run however small COUNT is: they meet the rules that short inputs do not.
const LEAST_ROUNDS: u32 = 1000;

fn main() -> ExitCode {
    let words: Vec<String> = std::env::args().skip(1).collect();
    quiet_panics();
    match &words[..] {
        [mode, folder] if mode == "vectors" => {
            vectors::store(folder.as_ref());
            ExitCode::SUCCESS
        }
        [seed, count] => {
            let number = |word: &str| word.parse().expect("SEED and COUNT are numbers");
            compare(number(seed), number(count))
        }
        _ => {
            eprintln!("usage: compare SEED COUNT, or compare vectors FOLDER");
            ExitCode::from(2)
        }
    }
}

fn compare(seed: u64, count: u64) -> ExitCode {
    let started = Instant::now();
    let mut tally = tally::Tally::default();
    let mut random = random::Random(seed);
    suites::exhaustive(&mut tally, &mut random);
    println!(
        "{} comparisons of short inputs, {:?}",
        tally.total(),
        started.elapsed()
    );
    programs::listing(&mut tally, &mut random);
    programs::ffmpeg(&mut tally);
    large::suite(&mut tally);
    let mut rounds = 0;
    while tally.total() < count || rounds < LEAST_ROUNDS {
        suites::round(&mut tally, &mut random);
        rounds += 1;
    }
    rules_stand(&mut tally);
    tally.print();
    println!("seed {seed}, {:?}", started.elapsed());
    println!(
        "{} passed, {} failed",
        tally.total() - tally.failed(),
        tally.failed()
    );
    if tally.failed() == 0 {
        ExitCode::SUCCESS
    } else {
        ExitCode::FAILURE
    }
}

/// Each rule has a row in docs/DIFFERENCES.md and was met; else the list or the inputs are out of date.
fn rules_stand(tally: &mut tally::Tally) {
    let list = include_str!("../../docs/DIFFERENCES.md");
    for rule in rules::ALL {
        let listed = list.contains(&format!("| {rule} |"));
        let met = tally.times_met(rule) > 0;
        tally.judge("rules", listed && met, || {
            format!("{rule}: listed {listed}, met {met}")
        });
    }
}

/// A panic of the original is an answer, and not to be printed; any other, of our own, still ends the run with its message.
fn quiet_panics() {
    let usual = std::panic::take_hook();
    std::panic::set_hook(Box::new(move |info| {
        let of_the_original = |at: &std::panic::Location| at.file() == ::original::SOURCE;
        if !info.location().is_some_and(of_the_original) {
            usual(info);
        }
    }));
}

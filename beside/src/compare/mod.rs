//! Runs the port beside the crate that it ports: the same questions to both, and every answer compared.

mod batch;
pub mod changed;
mod comparison;
mod entries_sample;
mod limit;
mod progress;
mod sample;
mod shaper_program;
mod shaper_sample;

use crate::compare::comparison::{Comparison, Count};
use crate::compare::entries_sample::EntriesSample;
use crate::compare::limit::Limited;
use crate::compare::progress::Progress;
use crate::compare::sample::Sample;
use crate::questions::{
    anchored_calls, indexed_calls, kerning_choices, lookup, mort_passes, not_asked_for, orders, reasons, Ask, PARTS,
};
use crate::reference::oracle;
use crate::tables::random::Random;
use crate::wire::pipe::TheBox;
use std::process::ExitCode;

const USAGE: &str =
    "usage: beside compare|trace PART CASES SEED SECONDS BOX-COMMAND.. | beside shape CASES SEED SECONDS \
                     PROGRAM-COMMAND.. | beside sample FILE | beside entries FILE";

/// The program of `beside/run`.
pub fn main() -> ExitCode {
    oracle::quiet_crate();
    let words: Vec<String> = std::env::args().skip(1).collect();
    match words.iter().map(String::as_str).collect::<Vec<_>>()[..] {
        ["shape", cases, seed, seconds, _, ..] => match (cases.parse(), seed.parse(), seconds.parse()) {
            (Ok(cases), Ok(seed), Ok(seconds)) => shape(cases, seed, seconds, &words[4..]),
            _ => failed(USAGE),
        },
        [mode @ ("compare" | "trace"), part, cases, seed, seconds, _, ..] => {
            match (cases.parse(), seed.parse(), seconds.parse()) {
                (Ok(cases), Ok(seed), Ok(seconds)) => {
                    compare(mode == "trace", part, &Amount { cases, seed, seconds }, &words[5..])
                }
                _ => failed(USAGE),
            }
        }
        ["sample", file] => sample(file),
        ["entries", file] => sample_entries(file),
        _ => failed(USAGE),
    }
}

/// How much is asked: so many random cases of this seed, and fewer where they take longer, in at most so many seconds for a part, 0 for
/// as many as it takes.
struct Amount {
    cases: u64,
    seed: u64,
    seconds: u64,
}

/// Every question of the parts of this name, or of all for no name; how many were left out when a part's seconds were over.
fn ask_all(asked: &mut dyn Ask, name: &str, amount: &Amount) -> u64 {
    let random = &mut Random::new(amount.seed);
    let asked = &mut Limited::new(asked, amount.seconds);
    for part in PARTS.iter().filter(|part| name.is_empty() || part.name() == name) {
        part.ask(asked.part(), random, amount.cases / part.every());
    }
    asked.left_out
}

/// Compares the box with the crate; where it `traces`, shows the steps of cases that differ.
fn compare(traces: bool, part: &str, amount: &Amount, command: &[String]) -> ExitCode {
    let unknown = not_asked_for();
    if !unknown.is_empty() {
        return failed(format!("aat.h declares what nobody asks for: {}", unknown.join(", ")));
    }
    let mut count = Count::default();
    ask_all(&mut count, part, &Amount { seconds: 0, ..*amount });
    if count.0 == 0 {
        return failed(format!("there is no part {}", part));
    }
    let the_box = match TheBox::start(command) {
        Ok(the_box) => the_box,
        Err(error) => return failed(error),
    };
    let mut comparison = Comparison::new(the_box, Progress::new(count.0), traces);
    let left_out = ask_all(&mut comparison, part, amount);
    let totals = comparison.finish();
    if left_out > 0 {
        println!("{} cases were left out when their part's {} seconds were over", left_out, amount.seconds);
    }
    if totals.panics > 0 {
        println!("the crate panicked in {} cases", totals.panics);
    }
    let (checks, actions) = (oracle::check_range_as_none(), oracle::last_action_as_none());
    let classes = oracle::no_classes_as_none();
    println!(
        "panics taken for None: {} in check_range, {} at action 65,535, {} at class count 0",
        checks, actions, classes
    );
    let counted = [
        reasons::counted(),
        kerning_choices::counted(),
        anchored_calls::counted(),
        vec![mort_passes::counted()],
        indexed_calls::counted(),
        orders::counted(),
    ];
    counted.concat().iter().for_each(|line| println!("{}", line));
    println!("{} cases, {} differences (seed {})", totals.cases, totals.differences, amount.seed);
    ExitCode::from(u8::from(totals.differences > 0))
}

/// Compares what the shaper's program prints with what the crate gives.
fn shape(cases: u64, seed: u64, seconds: u64, command: &[String]) -> ExitCode {
    let totals = match shaper_program::compare(command, cases, seed, seconds) {
        Ok(totals) => totals,
        Err(error) => return failed(error),
    };
    if totals.left_out > 0 {
        println!("{} inputs were left out when {} seconds were over", totals.left_out, seconds);
    }
    println!("the program shape: {} inputs, {} differences (seed {})", totals.cases, totals.differences, seed);
    ExitCode::from(u8::from(totals.differences > 0))
}

const SAMPLE_SEED: u64 = 1;

fn sample(file: &str) -> ExitCode {
    let mut sample = Sample::default();
    lookup::ask_sample(&mut sample, &mut Random::new(SAMPLE_SEED));
    shaper_sample::add_all(&mut sample, &mut Random::new(SAMPLE_SEED));
    write_sample(file, &sample.bytes, sample.cases)
}

/// The random cases that calls of every entry are picked from, besides all others.
const SAMPLED_CASES: u64 = 20_000;

fn sample_entries(file: &str) -> ExitCode {
    let mut sample = EntriesSample::new(Random::new(SAMPLE_SEED));
    ask_all(&mut sample, "", &Amount { cases: SAMPLED_CASES, seed: SAMPLE_SEED, seconds: 0 });
    let (bytes, cases) = sample.finish();
    write_sample(file, &bytes, cases as u64)
}

fn write_sample(file: &str, bytes: &[u8], cases: u64) -> ExitCode {
    if let Err(error) = std::fs::write(file, bytes) {
        return failed(error);
    }
    println!("{} cases in {} bytes", cases, bytes.len());
    ExitCode::SUCCESS
}

fn failed(why: impl std::fmt::Display) -> ExitCode {
    eprintln!("{}", why);
    ExitCode::from(2)
}

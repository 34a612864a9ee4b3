//! Puts one part of the questions to a changed crate and to the box, up to the first answer in which they differ.

use crate::compare::batch::{held, Batch};
use crate::compare::limit::Limited;
use crate::questions::{Ask, Question, PARTS};
use crate::reference::oracle;
use crate::tables::random::Random;
use crate::wire::pipe::TheBox;
use std::process::exit;
use std::rc::Rc;

const USAGE: &str = "usage: changed PART CASES SECONDS BOX-COMMAND..";

/// The program of `beside/changed`.
pub fn main() -> ! {
    oracle::quiet_crate();
    let words: Vec<String> = std::env::args().skip(1).collect();
    let numbers = |word: &String| word.parse().unwrap_or_else(|_| fail(USAGE));
    match &words[..] {
        [part, cases, seconds, command @ ..] if !command.is_empty() => {
            let the_box = TheBox::start(command).unwrap_or_else(|error| fail(error));
            let mut first = First::new(the_box);
            let mut asked = Limited::new(&mut first, numbers(seconds));
            ask(part, &mut asked, &mut Random::new(1), numbers(cases));
            first.compare_batch();
            println!("not told apart in {} cases", first.cases);
            exit(1)
        }
        _ => fail(USAGE),
    }
}

/// Every question of the parts of this name.
fn ask(name: &str, asked: &mut Limited, random: &mut Random, cases: u64) {
    if PARTS.iter().all(|part| part.name() != name) {
        fail(format!("there is no part {}", name));
    }
    for part in PARTS.iter().filter(|part| part.name() == name) {
        part.ask(asked.part(), random, cases);
    }
}

/// Ends the program at the first difference.
struct First {
    batch: Batch,
    cases: u64,
    /// Those of them that the box has answered.
    answered: u64,
}

const BATCH_BYTES: usize = 1 << 16;

impl Ask for First {
    fn ask(&mut self, table: &Rc<[u8]>, question: Box<dyn Question>) {
        self.cases += 1;
        if let Err(fault) = self.batch.add(table, &*question, held(self.cases)) {
            self.compare_batch();
            told_apart(self.cases, fault.describe());
        }
        if self.batch.bytes() >= BATCH_BYTES {
            self.compare_batch();
        }
    }
}

impl First {
    fn new(the_box: TheBox) -> Self {
        First { batch: Batch::new(the_box), cases: 0, answered: 0 }
    }

    fn compare_batch(&mut self) {
        let differences = self.batch.answer().unwrap_or_else(|error| fail(error));
        if let Some(first) = differences.first() {
            told_apart(self.answered + first.number as u64 + 1, "the box gives another answer");
        }
        self.answered = self.cases;
    }
}

fn told_apart(case: u64, how: &str) -> ! {
    println!("told apart after {} cases: {}", case, how);
    exit(0)
}

fn fail(why: impl std::fmt::Display) -> ! {
    eprintln!("{}", why);
    exit(2)
}

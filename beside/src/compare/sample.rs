//! A sample of the oracle's answers, for a program that checks them with no Rust at hand.
//!
//! A case is the entry's number in one byte, the table's length in two, the table, and then the
//! question with its answer. For `lookup` (1) and the survey (2) these are the start in four bytes,
//! the glyph in two (0 for the survey), the answer in one, and two numbers of two bytes each: the
//! element and 0, or the verdict and the bad record, 0 for what is not given. All is big-endian.
//! `shaper_sample` adds inputs of the shaper.

use crate::questions::{Ask, Question};
use std::rc::Rc;

/// Writes the questions down with the crate's answers.
#[derive(Default)]
pub struct Sample {
    pub bytes: Vec<u8>,
    pub cases: u64,
}

impl Ask for Sample {
    fn ask(&mut self, table: &Rc<[u8]>, question: Box<dyn Question>) {
        let length = u16::try_from(table.len()).expect("a short table");
        self.bytes.push(question.entry() as u8);
        self.bytes.extend(length.to_be_bytes());
        self.bytes.extend(&table[..]);
        if let Err(fault) = question.sample(table, &mut self.bytes) {
            panic!("{}: {}", question.describe(0), fault.describe());
        }
        self.cases += 1;
    }
}

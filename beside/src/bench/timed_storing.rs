//! Lines whose storing and reading is timed; the crate has nothing like it.

use crate::bench::sides::ours;
use crate::bench::timing::{Subject, Worked};
use crate::bench::{calls_on, grouped, LENGTHS};
use crate::reference::line::Line;
use crate::reference::stored::record_of;
use crate::tables::random::Random;

/// A line and its record.
#[derive(Clone)]
struct Stored {
    line: Line,
    record: Vec<u8>,
}

impl Worked for Stored {
    fn places(&self) -> usize {
        self.line.length()
    }

    fn glance(&self) -> u64 {
        self.line.glance()
    }
}

/// Lines of every length, each with as many characters as places, written and read.
pub fn subjects(random: &mut Random) -> Vec<Subject> {
    let mut subjects = Vec::new();
    for length in LENGTHS {
        let line = Line::any(random, length, length, 65_536);
        let stored = Stored { record: record_of(&line), line };
        let (calls, places) = (calls_on(length), grouped(length));
        let write = |stored: &mut Stored| ours::store_line(&stored.line, &mut stored.record);
        let read = |stored: &mut Stored| ours::read_line(&stored.record, &mut stored.line);
        subjects.push(Subject::of_ours(format!("a line stored, {} places", places), calls, stored.clone(), write));
        subjects.push(Subject::of_ours(format!("a stored line read, {} places", places), calls, stored, read));
    }
    subjects
}

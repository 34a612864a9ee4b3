//! The report on kerning (W-214), written from the request alone.

use crate::reference::kerning::{are_modest, LARGEST_ADJUSTMENT};
use crate::reference::line::{Line, LARGEST_ROOM};
use crate::reference::oracle::Answer;
use crate::reference::reel::{add_up, Reel};

/// The most lines that a report is over.
pub const MOST_LINES: usize = 255;

// Every sum of as many lines fits 64 bits.
const _: () = assert!(MOST_LINES as u128 * LARGEST_ROOM as u128 * LARGEST_ADJUSTMENT as u128 <= i64::MAX as u128);

/// What a report is lent: lines as a reel's, whose answers and heads it has not, an adjustment for each place, and where it writes.
#[derive(Clone, PartialEq)]
pub struct Report {
    pub lines: Reel,
    pub along: Vec<i64>,
    pub sums: Vec<i64>,
    pub largest: Vec<i64>,
    pub smallest: Vec<i64>,
    pub totals: [i64; 3],
}

/// Sum, largest and smallest of some numbers, all 0 for none.
fn told(numbers: &[i64]) -> [i64; 3] {
    let largest = numbers.iter().copied().max().unwrap_or(0);
    let smallest = numbers.iter().copied().min().unwrap_or(0);
    [numbers.iter().sum(), largest, smallest]
}

impl Report {
    /// These lines with these adjustments, one slice for each, and numbers that no report gives where it writes.
    pub fn of(lines: &[Line], along: &[Vec<i64>]) -> Self {
        let held = |first: i64| (0..lines.len() as i64).map(|line| first - line).collect::<Vec<i64>>();
        Report {
            lines: Reel::of(lines),
            along: along.concat(),
            sums: held(i64::MAX),
            largest: held(i64::MIN + 1_000),
            smallest: held(1 << 50),
            totals: [1 << 60, 1 << 61, -(1 << 62)],
        }
    }

    fn is_refused(&self) -> bool {
        let Reel { rooms, characters, used, glyphs, tags, homes, .. } = &self.lines;
        let lengths = [characters.len(), used.len(), self.sums.len(), self.largest.len(), self.smallest.len()];
        let are_places = [glyphs.len(), tags.len(), self.along.len()].iter().all(|slice| add_up(rooms, *slice));
        let is_number = rooms.len() <= MOST_LINES && lengths.iter().all(|length| *length == rooms.len());
        !is_number || !are_places || !add_up(characters, homes.len())
    }

    /// REEL, LINE, or DONE with the numbers written.
    pub fn make(&mut self) -> Answer<()> {
        if self.is_refused() {
            return Answer::Reel;
        }
        let lines = self.lines.lines();
        // The numbers of all lines are looked at, one room behind the other.
        if !lines.iter().all(Line::is_line) || !are_modest(&self.along) {
            return Answer::Line;
        }
        let (mut place, mut all) = (0, Vec::new());
        for (number, line) in lines.iter().enumerate() {
            let along = &self.along[place..place + line.length()];
            [self.sums[number], self.largest[number], self.smallest[number]] = told(along);
            all.extend(along);
            place += line.glyphs.len();
        }
        self.totals = told(&all);
        Answer::Done(())
    }
}

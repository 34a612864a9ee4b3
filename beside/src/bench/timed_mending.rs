//! Lookup tables whose mending is timed; the crate has nothing like it.

use crate::bench::grouped;
use crate::bench::sides::ours;
use crate::bench::timing::{Subject, Worked};
use crate::tables::lookup::{record_size, with_records, Record};
use crate::tables::random::Random;

/// A table, and what it is mended into.
#[derive(Clone)]
struct Mended {
    table: Vec<u8>,
    buffer: Vec<u8>,
    numbers: Vec<u16>,
}

impl Worked for Mended {
    fn places(&self) -> usize {
        self.numbers.len()
    }

    fn glance(&self) -> u64 {
        self.numbers.first().copied().map_or(0, u64::from)
    }
}

/// Records in any order, each for a glyph of its own.
pub fn subjects(random: &mut Random) -> Vec<Subject> {
    let mut subjects = Vec::new();
    for format in [2, 6] {
        for count in [16, 1_024, 65_535] {
            let any = |glyph| Record { first: glyph, last: glyph, value: random.word() };
            let mut records: Vec<Record> = (0..count).map(any).collect();
            random.shuffle(&mut records);
            let table = with_records(format, record_size(format), count, &records);
            let mended = Mended { buffer: vec![0; table.len()], numbers: vec![0; count.into()], table };
            let name = format!("mending, format {}, {} records", format, grouped(count.into()));
            subjects.push(Subject::of_ours(name, CALLS, mended, |mended| {
                ours::mend(&mended.table, &mut mended.buffer, &mut mended.numbers);
            }));
        }
    }
    subjects
}

const CALLS: usize = 1;

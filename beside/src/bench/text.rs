//! Lines as text has them, and lookup tables that are searched.

use crate::tables::lookup::{record_size, with_records, words, Record};
use crate::tables::random::Random;

/// Glyphs of such lines and tables are below this number.
pub const GLYPHS: u16 = 4_096;

/// How the glyphs of lines are drawn.
#[derive(Clone, Copy)]
pub enum Drawn {
    /// As text repeats them: from so many, of which that of rank n comes with weight 1/n.
    Text,
    /// A line's are all different.
    Different,
}

/// So many glyphs make a text.
pub const TEXT_GLYPHS: usize = 64;

impl Drawn {
    /// How it is called.
    pub fn name(self) -> &'static str {
        match self {
            Drawn::Text => "text",
            Drawn::Different => "all different",
        }
    }

    /// So many lines of so many glyphs. Every other glyph that they are drawn from, by rank, is one of those that are covered,
    /// as long as there are such.
    pub fn lines(self, random: &mut Random, covered: &[u16], count: usize, length: usize) -> Vec<Vec<u16>> {
        let drawn_from = alternating(random, covered);
        let ranks = &drawn_from[..TEXT_GLYPHS];
        let line = |_| match self {
            Drawn::Text => (0..length).map(|_| ranks[any_rank(random)]).collect(),
            Drawn::Different => {
                let mut line = drawn_from[..length].to_vec();
                random.shuffle(&mut line);
                line
            }
        };
        (0..count).map(line).collect()
    }
}

/// All glyphs, of those that are covered and the others one each, in any order but for that.
fn alternating(random: &mut Random, covered: &[u16]) -> Vec<u16> {
    let mut others: Vec<u16> = (0..GLYPHS).filter(|glyph| covered.binary_search(glyph).is_err()).collect();
    let mut covered = covered.to_vec();
    random.shuffle(&mut covered);
    random.shuffle(&mut others);
    let (mut covered, mut others) = (covered.into_iter(), others.into_iter());
    let one = |rank: u16| if rank % 2 == 0 { covered.next().or_else(|| others.next()) } else { others.next() };
    (0..GLYPHS).map_while(one).collect()
}

/// A rank below that of a text's last glyph: n - 1 with weight 1/n.
fn any_rank(random: &mut Random) -> usize {
    const ONE: usize = 720_720;
    let mut left = random.below((1..=TEXT_GLYPHS).map(|rank| ONE / rank).sum());
    (1..TEXT_GLYPHS).find(|rank| left.checked_sub(ONE / rank).map(|less| left = less).is_none()).unwrap_or(TEXT_GLYPHS)
        - 1
}

/// A lookup table of format 2, 4 or 6 with so many records, evenly among the glyphs, and the glyphs that it covers: from each
/// record's first to half way to the next's, in format 6 the first alone.
pub fn searched(format: u16, count: u16, mut value: impl FnMut() -> u16) -> (Vec<u8>, Vec<u16>) {
    let stretch = GLYPHS / count;
    let width = if format == 6 { 1 } else { stretch / 2 };
    let behind = 12 + record_size(format) * count;
    let record = |number| {
        let first = number * stretch;
        let value = if format == 4 { behind + 2 * number * width } else { value() };
        Record { first, last: first + width - 1, value }
    };
    let records: Vec<Record> = (0..count).map(record).collect();
    let covered: Vec<u16> = records.iter().flat_map(|record| record.first..=record.last).collect();
    let mut table = with_records(format, record_size(format), count, &records);
    if format == 4 {
        table.extend(words(&covered.iter().map(|_| value()).collect::<Vec<u16>>()));
    }
    (table, covered)
}

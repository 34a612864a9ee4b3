//! The kinds of subtables that have a pass, and any subtable of one.

use crate::reference::line::Line;
use crate::reference::oracle::Answer;
use crate::reference::pass::line_of;
use crate::tables::lookup::{damage, Made};
use crate::tables::morx::{subtable, SUBTABLE_HEAD};
use crate::tables::random::Random;
use crate::tables::{contextual, insertion, ligature, noncontextual, rearrangement};
use crate::wire::entries::Entry;
use std::ops::Range;

/// A kind of subtable that has a pass.
pub struct Kind {
    pub name: &'static str,
    /// Its number in the low byte of a subtable's coverage.
    pub number: u32,
    /// Its own pass.
    pub pass: Entry,
    /// Passes whose results follow from the documents.
    pub examples: fn() -> Vec<Example>,
    /// Hands over all of its small bodies about two glyphs.
    pub short_bodies: fn(&mut dyn FnMut(Vec<u8>)),
    /// Any body about these glyphs.
    pub any_body: fn(&mut Random, &Range<u16>) -> Vec<u8>,
    /// Hands over bodies with lines that bring them to their limits.
    pub limits: fn(&mut dyn FnMut(Vec<u8>, Line)),
}

/// A body, and a line before and after the pass by it.
pub struct Example {
    pub body: Vec<u8>,
    pub before: Line,
    pub written: Written,
}

/// What a document gives of a pass.
#[derive(Clone)]
pub struct Written {
    pub answer: Answer<()>,
    pub glyphs: Vec<u16>,
    pub homes: Option<Vec<u16>>,
}

impl Written {
    /// Whether the answer and the line are these.
    pub fn is(&self, answer: Answer<()>, line: &Line) -> bool {
        let is_line = self.glyphs == line.glyphs[..line.length()];
        self.answer == answer && is_line && self.homes.as_ref().map_or(true, |homes| *homes == line.homes)
    }
}

impl Example {
    /// A fresh line of these glyphs before, with no more room than it needs, and of those after.
    pub fn new(body: Vec<u8>, before: &[u16], after: &[u16], answer: Answer<()>) -> Self {
        Example::in_room(before.len().max(after.len()), body, before, after, answer)
    }

    /// The same in a room of so many places.
    pub fn in_room(room: usize, body: Vec<u8>, before: &[u16], after: &[u16], answer: Answer<()>) -> Self {
        let written = Written { answer, glyphs: after.to_vec(), homes: None };
        Example { body, before: line_of(before, room), written }
    }

    /// The same with these homes after.
    pub fn homes(mut self, homes: &[u16]) -> Self {
        self.written.homes = Some(homes.to_vec());
        self
    }
}

/// The kinds of subtables.
pub static KINDS: [Kind; 5] =
    [rearrangement::KIND, noncontextual::KIND, contextual::KIND, ligature::KIND, insertion::KIND];

/// Any subtable: mostly whole and of its kind, often behind other bytes.
pub fn any_subtable(random: &mut Random, kind: &Kind, glyphs: &Range<u16>) -> Made {
    let body = (kind.any_body)(random, glyphs);
    let number = if random.once_in(30) { random.below(7) as u32 } else { kind.number };
    let bits = if random.once_in(2) { 0 } else { random.number() as u32 & !0xFF };
    let mut table = subtable(bits | number, &body);
    match random.below(8) {
        0 => damage_head(random, &mut table),
        1 | 2 => damage(random, &mut table),
        _ => {}
    }
    Made::behind_others(random, table, Vec::new())
}

/// Changes a number of the body's head.
fn damage_head(random: &mut Random, table: &mut [u8]) {
    let numbers = (table.len() - SUBTABLE_HEAD) / 4;
    let at = SUBTABLE_HEAD + 4 * random.below(numbers.min(5));
    let number = random.among(&far_numbers(table, at));
    table[at..at + 4].copy_from_slice(&number.to_be_bytes());
}

/// Numbers for the one at this place of the table.
pub fn far_numbers(table: &[u8], at: usize) -> Vec<u32> {
    let right = u32::from_be_bytes([table[at], table[at + 1], table[at + 2], table[at + 3]]);
    let length = table.len() as u32;
    let near = [0, 1, 2, right.wrapping_sub(1), right.wrapping_add(1), right.wrapping_add(2)];
    let ends = [77, 14, 13, 12, 0].map(|back| length.saturating_sub(back));
    let wrapped = [1 << 8, 1 << 16, 1 << 24, 1 << 31, u32::MAX - 75, u32::MAX - 63, u32::MAX - 11];
    let wrapped = wrapped.map(|more| right.wrapping_add(more));
    [&near[..], &ends, &wrapped, &[0x7FFF_FFFF, 0x8000_0000, u32::MAX - 1, u32::MAX]].concat()
}

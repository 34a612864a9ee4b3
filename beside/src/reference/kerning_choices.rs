//! Document 02's choices of kerning; and joined pairs (W-201), written from the request alone over the crate's own `get`.

use crate::reference::kerning::{add_at, Kerning, Subtable};
use crate::reference::kerx_readings::Reading;
use crate::reference::line::DELETED;
use crate::reference::oracle::{caught, Answer, Fault};

/// A sum of the bits that aat.h names; a bit without a name is not looked at.
#[derive(Clone, Copy)]
pub struct Choices(pub u32);

/// The choice of joined pairs.
pub const JOINED_PAIRS: u32 = 1;

/// The choice of the manual's reading of kerx.
pub const MANUAL_LISTS: u32 = 2;

impl Choices {
    /// No choice is made: document 01's passes and runs.
    pub const NONE: Choices = Choices(0);

    /// Whether pairs are those of `joined_pairs`, and else the neighbours.
    pub fn joins_pairs(self) -> bool {
        self.0 & JOINED_PAIRS != 0
    }

    /// How a table is read; kern is not told of the manual's reading.
    pub fn reading(self, kerning: Kerning) -> Reading {
        if kerning == Kerning::Kerx && self.0 & MANUAL_LISTS != 0 {
            Reading::Manual
        } else {
            Reading::Crate
        }
    }

    /// The same without some of them.
    pub fn without(self, choices: u32) -> Self {
        Choices(self.0 & !choices)
    }

    /// The two places of every pair.
    pub fn pairs(self, glyphs: &[u16]) -> Vec<(usize, usize)> {
        if self.joins_pairs() {
            joined_pairs(glyphs).collect()
        } else {
            (1..glyphs.len()).map(|second| (second - 1, second)).collect()
        }
    }
}

/// The places below 0xFFFF in order, each with the next: two of them with only 0xFFFF between them.
fn joined_pairs(glyphs: &[u16]) -> impl Iterator<Item = (usize, usize)> + '_ {
    let kept = (0..glyphs.len()).filter(|place| glyphs[*place] < DELETED);
    kept.clone().zip(kept.skip(1))
}

/// The number of every joined pair, added at the first.
pub fn add_joined_pairs(subtable: &Subtable, glyphs: &[u16], along: &mut [i64]) {
    for (first, second) in joined_pairs(glyphs) {
        if let Answer::Done(number) = subtable.get(glyphs[first], glyphs[second]) {
            add_at(along, first, number);
        }
    }
}

impl Subtable<'_> {
    /// The pass by these choices over these glyphs.
    pub fn pass_by(&self, choices: Choices, glyphs: &[u16], along: &mut [i64]) -> Result<Answer<()>, Fault> {
        match self {
            Subtable::KernMachine(_) | Subtable::KerxMachine(_) => self.pass(glyphs, along),
            _ if choices.joins_pairs() => caught(|| Answer::Done(add_joined_pairs(self, glyphs, along))),
            _ => self.pass(glyphs, along),
        }
    }
}

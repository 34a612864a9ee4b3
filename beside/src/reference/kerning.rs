//! The crate's kerning, as published, under document 01's rules of pairs and passes.

use crate::reference::kerning_choices::Choices;
use crate::reference::line::{Line, LARGEST_ROOM};
use crate::reference::oracle::aat::{kern, kerx};
use crate::reference::oracle::{caught, caught_as_none, Answer, Fault, LONGEST_TABLE};
use crate::reference::pass::stepped;
use crate::wire::entries::Entry;

/// The two kerning tables.
#[derive(Clone, Copy, PartialEq)]
pub enum Kerning {
    Kern,
    Kerx,
}

impl Kerning {
    /// The table's name.
    pub fn name(self) -> &'static str {
        match self {
            Kerning::Kern => "kern",
            Kerning::Kerx => "kerx",
        }
    }

    /// The entry that is this table's, of kern's and kerx's.
    pub fn its(self, [kern, kerx]: [Entry; 2]) -> Entry {
        match self {
            Kerning::Kern => kern,
            Kerning::Kerx => kerx,
        }
    }

    /// A table with these bytes as its one subtable, in a list of this version.
    pub fn alone(self, version: u16, subtable: &[u8]) -> Vec<u8> {
        let head = self.head(version, 1);
        [&[0; ALONE_AT], &head[..], subtable].concat()
    }

    /// The head of a list of this version that counts so many subtables.
    pub fn head(self, version: u16, count: u32) -> Vec<u8> {
        let version = version.to_be_bytes();
        match self {
            Kerning::Kern if version == [0, 0] => [version, (count as u16).to_be_bytes()].concat(),
            _ => [&version, &[0; 2], &count.to_be_bytes()[..]].concat(),
        }
    }
}

/// Where the list of such a table begins: 0 would be no table.
pub const ALONE_AT: usize = 4;

/// A subtable that can be read, and of a format that is not left out.
pub enum Subtable<'a> {
    KernPairs(kern::Format0<'a>),
    KernMachine(kern::Format1<'a>),
    KerxPairs(kerx::Format0<'a>),
    KerxMachine(kerx::Format1<'a>),
    KerxClasses(kerx::Format2<'a>),
}

impl<'a> Subtable<'a> {
    /// A subtable of kern.
    pub fn of_kern(subtable: &kern::Subtable<'a>) -> Option<Self> {
        Some(match subtable.kind()? {
            kern::SubtableKind::Format0(pairs) => Subtable::KernPairs(pairs),
            kern::SubtableKind::Format1(machine) => Subtable::KernMachine(machine),
        })
    }

    /// A subtable of kerx.
    pub fn of_kerx(subtable: &kerx::Subtable<'a>) -> Option<Self> {
        Some(match subtable.kind()? {
            kerx::SubtableKind::Format0(pairs) => Subtable::KerxPairs(pairs),
            kerx::SubtableKind::Format1(machine) => Subtable::KerxMachine(machine),
            kerx::SubtableKind::Format2(classes) => Subtable::KerxClasses(classes),
            kerx::SubtableKind::Format4(_) => return None,
        })
    }

    /// The one subtable of a table made by `alone`.
    pub fn alone(kerning: Kerning, table: &'a [u8]) -> Result<Option<Self>, Fault> {
        caught(|| Subtable::first(kerning, table))
    }

    /// The same, and a panic of the crate is one.
    pub fn first(kerning: Kerning, table: &'a [u8]) -> Option<Self> {
        let start = ALONE_AT as u32;
        match kerning {
            Kerning::Kern => Subtable::of_kern(&kern::subtables(table, start).next()?),
            Kerning::Kerx => Subtable::of_kerx(&kerx::subtables(table, start, 0).next()?),
        }
    }

    /// What a pair of glyphs adds; HEAD where the format has no pairs.
    pub fn get(&self, left: u16, right: u16) -> Answer<i16> {
        match self {
            Subtable::KernPairs(pairs) => Answer::of(pairs.get(left, right)),
            Subtable::KerxPairs(pairs) => Answer::of(pairs.get(left, right)),
            Subtable::KerxClasses(classes) => Answer::of(classes.get(left, right)),
            Subtable::KernMachine(_) | Subtable::KerxMachine(_) => Answer::Head,
        }
    }

    /// The pass over these glyphs, which adds to as many adjustments; ENDED, too, where the crate divides by a class count
    /// of 0.
    pub fn pass(&self, glyphs: &[u16], along: &mut [i64]) -> Result<Answer<()>, Fault> {
        Ok(caught_as_none(|| Some(self.add(glyphs, along)))?.unwrap_or(Answer::Ended))
    }

    /// The same, and a panic of the crate is one.
    pub fn add(&self, glyphs: &[u16], along: &mut [i64]) -> Answer<()> {
        match self {
            Subtable::KernPairs(pairs) => add_kern_pairs(pairs, glyphs, along),
            Subtable::KerxPairs(pairs) => add_kerx_pairs(pairs, glyphs, along),
            Subtable::KerxClasses(classes) => add_kerx_classes(classes, glyphs, along),
            Subtable::KernMachine(machine) => add_by_kern_machine(machine, glyphs, along),
            Subtable::KerxMachine(machine) => add_by_kerx_machine(machine, glyphs, along),
        }
    }
}

// The pass by each of the crate's subtables is a function of its own in the machine code, too, so that its times do not hang on
// who else calls it.

#[inline(never)]
fn add_kern_pairs(pairs: &kern::Format0, glyphs: &[u16], along: &mut [i64]) -> Answer<()> {
    add_pairs(glyphs, along, |left, right| pairs.get(left, right))
}

#[inline(never)]
fn add_kerx_pairs(pairs: &kerx::Format0, glyphs: &[u16], along: &mut [i64]) -> Answer<()> {
    add_pairs(glyphs, along, |left, right| pairs.get(left, right))
}

#[inline(never)]
fn add_kerx_classes(classes: &kerx::Format2, glyphs: &[u16], along: &mut [i64]) -> Answer<()> {
    add_pairs(glyphs, along, |left, right| classes.get(left, right))
}

#[inline(never)]
fn add_by_kern_machine(machine: &kern::Format1, glyphs: &[u16], along: &mut [i64]) -> Answer<()> {
    let mut state = kern::Format1State::new();
    make_steps(glyphs, |place, glyph| machine.next(&mut state, place, glyph, |at, number| add_at(along, at, number)))
}

#[inline(never)]
fn add_by_kerx_machine(machine: &kerx::Format1, glyphs: &[u16], along: &mut [i64]) -> Answer<()> {
    let mut state = kerx::ContextualState::new();
    make_steps(glyphs, |place, glyph| machine.next(&mut state, place, glyph, |at, number| add_at(along, at, number)))
}

/// The number of every two neighbours, added at the first.
fn add_pairs(glyphs: &[u16], along: &mut [i64], get: impl Fn(u16, u16) -> Option<i16>) -> Answer<()> {
    for (place, pair) in glyphs.windows(2).enumerate() {
        if let Some(number) = get(pair[0], pair[1]) {
            add_at(along, place, number);
        }
    }
    Answer::Done(())
}

/// The step at each place, going on by what it gives; None ends the pass. There is no step for the end of text.
pub fn make_steps(glyphs: &[u16], mut step: impl FnMut(usize, u16) -> Option<usize>) -> Answer<()> {
    let mut place = 0;
    while place < glyphs.len() {
        match stepped(step(place, glyphs[place])) {
            Answer::Done(advance) => place += advance,
            other => return other.map(|_| ()),
        }
    }
    Answer::Done(())
}

/// Adds to the adjustment of a place; at one not in the line, nothing.
pub fn add_at(along: &mut [i64], place: usize, number: i16) -> Option<()> {
    if let Some(adjustment) = along.get_mut(place) {
        *adjustment += i64::from(number);
    }
    Some(())
}

/// The largest adjustment that may be lent to a pass or a step.
pub const LARGEST_ADJUSTMENT: u64 = 1 << 40;

/// Whether none of these is beyond the largest.
pub fn are_modest(along: &[i64]) -> bool {
    along.iter().all(|number| number.unsigned_abs() <= LARGEST_ADJUSTMENT)
}

/// Whether these are the adjustments of a room for so many places.
pub fn are_roomy(along: &[i64], length: u64) -> bool {
    along.len() <= LARGEST_ROOM && length <= along.len() as u64 && are_modest(along)
}

/// A line with the adjustments that are lent with it.
pub struct Kerned {
    pub line: Line,
    pub along: Vec<i64>,
}

impl Clone for Kerned {
    fn clone(&self) -> Self {
        Kerned { line: self.line.clone(), along: self.along.clone() }
    }

    /// Takes no new memory where the parts are as long as those copied.
    fn clone_from(&mut self, other: &Self) {
        self.line.clone_from(&other.line);
        self.along.clone_from(&other.along);
    }
}

impl Kerned {
    /// Whether this is a line, with an adjustment for each place of its room.
    pub fn is_line(&self) -> bool {
        self.line.is_line() && self.along.len() == self.line.glyphs.len()
    }

    /// What a pass is refused for, before its subtable is looked at.
    pub fn refuses_pass(&self, table: &[u8]) -> Option<Answer<()>> {
        if table.len() > LONGEST_TABLE {
            Some(Answer::Table)
        } else if !self.is_line() || !are_modest(&self.along) {
            Some(Answer::Line)
        } else {
            None
        }
    }

    /// The glyphs and adjustments of the places that are used.
    pub fn used(&mut self) -> (&[u16], &mut [i64]) {
        let length = self.line.length();
        (&self.line.glyphs[..length], &mut self.along[..length])
    }

    /// The pass by a subtable and these choices.
    pub fn pass(&mut self, subtable: &Subtable, choices: Choices) -> Result<Answer<()>, Fault> {
        let (glyphs, along) = self.used();
        subtable.pass_by(choices, glyphs, along)
    }

    /// Turns the line and its adjustments round.
    pub fn reverse(&mut self) {
        self.line.reverse();
        self.used().1.reverse();
    }
}

//! Lone kerning steps from lent states, and passes made of them, by the crate's copy.

use crate::reference::kerning::{add_at, make_steps, Kerning, ALONE_AT};
use crate::reference::opened::aat::{kern, kerx};
use crate::reference::oracle::{caught_as_none, Answer, Fault};
use crate::reference::pass::stepped;

/// A machine of format 1.
pub enum Machine<'a> {
    Kern(kern::Format1<'a>),
    Kerx(kerx::Format1<'a>),
}

/// How many numbers a state has: the state table's, the depth of the stack, the steps that did not advance, and the stack.
pub const STATE: usize = 3 + DEEPEST;

/// The most places on the stack.
pub const DEEPEST: usize = 8;

/// The machine of the one subtable of a table made by `alone`, where it has one.
pub fn open(kerning: Kerning, table: &[u8]) -> Option<Machine<'_>> {
    machines(kerning, table, ALONE_AT as u32).next()?
}

/// The machine of each subtable of the table whose list begins at `start`, where it has one.
pub fn machines(kerning: Kerning, table: &[u8], start: u32) -> Box<dyn Iterator<Item = Option<Machine<'_>>> + '_> {
    match kerning {
        Kerning::Kern => Box::new(kern::subtables(table, start).map(|subtable| match subtable.kind()? {
            kern::SubtableKind::Format1(machine) => Some(Machine::Kern(machine)),
            _ => None,
        })),
        Kerning::Kerx => Box::new(kerx::subtables(table, start, 0).map(|subtable| match subtable.kind()? {
            kerx::SubtableKind::Format1(machine) => Some(Machine::Kerx(machine)),
            _ => None,
        })),
    }
}

impl Machine<'_> {
    /// One step, which changes the state and adds to the adjustments of the line.
    pub fn step(
        &self,
        numbers: &mut [u64; STATE],
        index: usize,
        glyph: u16,
        along: &mut [i64],
    ) -> Result<Answer<usize>, Fault> {
        let (number, depth, cycles) = (numbers[0] as u16, numbers[1] as usize, numbers[2] as u16);
        let mut places = [0; DEEPEST];
        places.iter_mut().zip(&numbers[3..]).for_each(|(place, number)| *place = *number as usize);
        let add = |at, number| add_at(along, at, number);
        let (given, left) = match self {
            Machine::Kern(machine) => {
                let mut state = kern::Format1State { state: number, stack: places, pos: depth, cycles };
                let given = caught_as_none(|| machine.next(&mut state, index, glyph, add))?;
                (given, (state.state, state.pos, state.cycles, state.stack))
            }
            Machine::Kerx(machine) => {
                let mut state = kerx::ContextualState { state: number, stack: places, pos: depth, cycles };
                let given = caught_as_none(|| machine.next(&mut state, index, glyph, add))?;
                (given, (state.state, state.pos, state.cycles, state.stack))
            }
        };
        numbers[..3].copy_from_slice(&[left.0.into(), left.1 as u64, left.2.into()]);
        numbers[3..].iter_mut().zip(left.3).for_each(|(number, place)| *number = place as u64);
        Ok(stepped(given))
    }

    /// The pass of steps from the fresh state, whose numbers are all 0; each state is shown before its step, with the place
    /// and the adjustments.
    pub fn pass(
        &self,
        glyphs: &[u16],
        along: &mut [i64],
        show: &mut dyn FnMut(&[u64; STATE], usize, &[i64]),
    ) -> Result<Answer<()>, Fault> {
        let mut numbers = [0; STATE];
        let mut fault = None;
        let answer = make_steps(glyphs, |place, glyph| {
            show(&numbers, place, along);
            match self.step(&mut numbers, place, glyph, along) {
                Ok(answer) => answer.done(),
                Err(other) => {
                    fault = Some(other);
                    None
                }
            }
        });
        fault.map_or(Ok(answer), Err)
    }
}

//! Document 01's pass over a line by each of the crate's machines, as published. Each is a function of its own in the machine
//! code, too, so that its times do not hang on who else calls it.

use crate::reference::line::Line;
use crate::reference::oracle::aat::morx::{
    Contextual, ContextualState, Insertion, InsertionState, Ligature, LigatureState, NonContextual, Rearrangement,
    RearrangementState, Subtable, SubtableKind,
};
use crate::reference::oracle::{caught_as_none, Answer, Fault};
use crate::reference::pass::{make_steps, stepped};

/// The pass by this subtable.
pub fn pass(subtable: &SubtableKind, line: &mut Line) -> Answer<()> {
    match subtable {
        SubtableKind::Rearrangement(machine) => rearrangement(machine, line),
        SubtableKind::Contextual(machine) => contextual(machine, line),
        SubtableKind::Ligature(machine) => ligature(machine, line),
        SubtableKind::NonContextual(lookup) => noncontextual(lookup, line),
        SubtableKind::Insertion(machine) => insertion(machine, line),
    }
}

/// The same, with ENDED for a panic at action 65,535, and for one in `check_range`, where the crate gives None in a build
/// without overflow checks.
pub fn caught_pass(subtable: &SubtableKind, line: &mut Line) -> Result<Answer<()>, Fault> {
    Ok(caught_as_none(|| Some(pass(subtable, line)))?.unwrap_or(Answer::Ended))
}

const VERTICAL: u32 = 0x8000_0000;
const BOTH_WAYS: u32 = 0x2000_0000;

/// Whether a run makes the pass by the subtable of a chain with these flags, if that is of a kind that can be read.
pub fn is_chosen(flags: u32, subtable: &Subtable) -> bool {
    let coverage = subtable.coverage();
    let is_vertical = coverage & VERTICAL != 0 && coverage & BOTH_WAYS == 0;
    flags & subtable.flags() != 0 && !is_vertical
}

/// The number of a subtable's kind.
pub fn number(subtable: &SubtableKind) -> u32 {
    match subtable {
        SubtableKind::Rearrangement(_) => 0,
        SubtableKind::Contextual(_) => 1,
        SubtableKind::Ligature(_) => 2,
        SubtableKind::NonContextual(_) => 4,
        SubtableKind::Insertion(_) => 5,
    }
}

/// Each rearrangement is applied to glyphs and tags as it is handed over.
#[inline(never)]
fn rearrangement(machine: &Rearrangement, line: &mut Line) -> Answer<()> {
    let mut state = RearrangementState::new();
    make_steps(line, |line, place, glyph, is_end| {
        let length = line.length();
        stepped(machine.next(&mut state, place, glyph, is_end, |rearrange| {
            rearrange.apply(&mut line.glyphs[..length]);
            rearrange.apply(&mut line.tags[..length]);
            Some(())
        }))
    })
}

/// Each glyph is written as it is handed over.
#[inline(never)]
fn contextual(machine: &Contextual, line: &mut Line) -> Answer<()> {
    let mut state = ContextualState::new();
    make_steps(line, |line, place, glyph, is_end| {
        let write = |at, glyph| {
            line.write(at, glyph);
            Some(())
        };
        stepped(machine.next(&mut state, place, glyph, is_end, write).map(|()| 1))
    })
}

/// Each ligature is written, and its components go, as they are handed over.
#[inline(never)]
fn ligature(machine: &Ligature, line: &mut Line) -> Answer<()> {
    let mut state = LigatureState::new();
    make_steps(line, |line, place, glyph, is_end| {
        let ligate = |at, ligature, components: &[usize]| {
            line.ligate(at, ligature, components);
            Some(())
        };
        stepped(machine.next(&mut state, place, glyph, is_end, ligate).map(|()| 1))
    })
}

/// Each glyph by itself; there is nothing for the end of text to do.
#[inline(never)]
fn noncontextual(lookup: &NonContextual, line: &mut Line) -> Answer<()> {
    let length = line.length();
    for glyph in &mut line.glyphs[..length] {
        *glyph = lookup.substitute(*glyph).unwrap_or(*glyph);
    }
    Answer::Done(())
}

/// Glyphs are put in as they are handed over; the first that do not fit end the pass.
#[inline(never)]
fn insertion(machine: &Insertion, line: &mut Line) -> Answer<()> {
    let mut state = InsertionState::new();
    make_steps(line, |line, place, glyph, is_end| {
        let mut fits = true;
        let given = machine.next(&mut state, place, glyph, is_end, |at, glyphs| {
            fits = line.insert(at, glyphs.len(), glyphs.iter());
            fits.then_some(())
        });
        if fits {
            stepped(given)
        } else {
            Answer::Full
        }
    })
}

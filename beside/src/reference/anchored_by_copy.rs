//! Anchored marks by the crate's own `next`: steps from lent states, passes and runs by its copy, and passes by the crate as published.

use crate::reference::anchored::{Anchored, Mark, Marks, STATE};
use crate::reference::kerning::{make_steps, Kerning, ALONE_AT};
use crate::reference::kerning_run::{Run, Visit};
use crate::reference::opened::aat::kerx;
use crate::reference::oracle::aat::kerx as published;
use crate::reference::oracle::{caught, caught_as_none, Answer, Fault};
use crate::reference::pass::stepped;
use crate::reference::run::MOST_HEADS;

/// The machine of each subtable of the table whose list begins at `start`, where it is of format 4.
pub fn machines<'a>(table: &'a [u8], start: u32, ankr: &'a [u8]) -> impl Iterator<Item = Option<kerx::Format4<'a>>> {
    let list = kerx::Subtables { ankr, ..kerx::subtables(table, start, 0) };
    list.map(|subtable| match subtable.kind()? {
        kerx::SubtableKind::Format4(machine) => Some(machine),
        _ => None,
    })
}

/// The machine of the one subtable of a table made by `alone`, where it is of format 4.
pub fn open<'a>(table: &'a [u8], ankr: &'a [u8]) -> Option<kerx::Format4<'a>> {
    machines(table, ALONE_AT as u32, ankr).next()?
}

/// What the crate hands over, in whole numbers; None where it is none.
fn whole(distance: usize, x: f32, y: f32) -> Option<Mark> {
    let [x_is, y_is] = [x, y].map(|number| number as i32);
    let is_whole = [x_is as f32, y_is as f32] == [x, y] && distance <= usize::from(u16::MAX);
    is_whole.then(|| (x_is, y_is, distance as u16))
}

/// One step on a line of this length, which changes the state and writes one mark.
pub fn step(
    machine: &kerx::Format4,
    numbers: &mut [u64; STATE],
    index: usize,
    glyph: u16,
    length: usize,
    marks: &mut Marks,
) -> Result<Answer<usize>, Fault> {
    let [number, mark, mark_id, cycles] = *numbers;
    let mut state = kerx::Format4State {
        state: number as u16,
        mark: mark as usize,
        mark_id: mark_id as u16,
        cycles: cycles as u16,
    };
    let mut is_whole = true;
    let given = caught_as_none(|| {
        machine.next(&mut state, index, glyph, |place, distance, x, y| {
            match whole(distance, x, y) {
                Some(mark) => marks.write(length, place, mark),
                None => is_whole = false,
            }
            Some(())
        })
    })?;
    *numbers = [state.state.into(), state.mark as u64, state.mark_id.into(), state.cycles.into()];
    if is_whole {
        Ok(stepped(given))
    } else {
        Err(Fault::Disputed)
    }
}

/// The pass of steps from the fresh state, whose numbers are all 0; each state is shown before its step, with the place.
pub fn pass(
    machine: &kerx::Format4,
    glyphs: &[u16],
    marks: &mut Marks,
    show: &mut dyn FnMut(&[u64; STATE], usize, &Marks),
) -> Result<Answer<()>, Fault> {
    let mut numbers = [0; STATE];
    let mut fault = None;
    let answer = make_steps(glyphs, |place, glyph| {
        show(&numbers, place, marks);
        match step(machine, &mut numbers, place, glyph, glyphs.len(), marks) {
            Ok(answer) => answer.done(),
            Err(other) => {
                fault = Some(other);
                None
            }
        }
    });
    fault.map_or(Ok(answer), Err)
}

/// The pass by the one subtable of a table made by `alone`, by the crate as published, which takes the ankr table behind the other in
/// one font; None where that subtable is not of format 4.
pub fn published_pass(
    font: &[u8],
    ankr: usize,
    glyphs: &[u16],
    marks: &mut Marks,
) -> Result<Option<Answer<()>>, Fault> {
    caught(|| {
        let machine = match published::subtables(font, ALONE_AT as u32, ankr as u32).next()?.kind()? {
            published::SubtableKind::Format4(machine) => machine,
            _ => return None,
        };
        let mut state = published::Format4State::new();
        Some(make_steps(glyphs, |place, glyph| {
            machine.next(&mut state, place, glyph, |place, distance, x, y| {
                marks.write(glyphs.len(), place, whole(distance, x, y)?);
                Some(())
            })
        }))
    })
}

/// A whole run, over the crate's subtables: the answer and the heads that were counted.
pub fn run(run: &Run, ankr: &[u8], lent: &mut Anchored) -> Result<(Answer<()>, u32), Fault> {
    lent.zero();
    let Run { table, start, right_to_left, choices, .. } = *run;
    let mut heads = 0;
    let mut left = Visit::all(Kerning::Kerx, table, start as u32, right_to_left);
    let mut copies = machines(table, start as u32, ankr);
    while let Some(visit) = caught(|| left.next())? {
        let machine = caught(|| copies.next())?.flatten();
        if heads == MOST_HEADS {
            return Ok((Answer::Limit, heads));
        }
        heads += 1;
        if visit.passed_over.is_some() {
            continue;
        }
        if visit.is_turned {
            lent.reverse();
        }
        if let Some(machine) = machine {
            let glyphs = &lent.kerned.line.glyphs[..lent.kerned.line.length()];
            pass(&machine, glyphs, &mut lent.marks, &mut |_, _, _| {})?;
        } else if let Some(subtable) = &visit.subtable {
            lent.kerned.pass(subtable, choices)?;
        }
        if visit.is_turned {
            lent.reverse();
        }
    }
    Ok((Answer::Done(()), heads))
}

//! Lone steps from lent states, and passes made of them, by the crate's copy.

use crate::reference::line::Line;
use crate::reference::opened::aat::morx::{
    chains, Contextual, ContextualState, Insertion, InsertionState, Ligature, LigatureState, Rearrange, Rearrangement,
    RearrangementState, SubtableKind,
};
use crate::reference::oracle::{caught_as_none, Answer, Fault};
use crate::reference::pass::{make_steps, stepped};
use crate::reference::step::{Lent, Machine, Sees, Told, MACHINES};
use crate::tables::lookup::numbers;

/// A subtable of a table, and where its bytes lie.
pub struct Opened<'a> {
    subtable: SubtableKind<'a>,
    pub machine: &'static Machine,
    table: &'a [u8],
}

/// The machine of the one subtable of a table of one chain, where it has one.
pub fn open(table: &[u8]) -> Option<Opened<'_>> {
    Opened::of(chains(table, 0).next()?.subtables().next()?.kind()?, table)
}

impl<'a> Opened<'a> {
    /// The machine of a subtable of this table, where it has one.
    pub fn of(subtable: SubtableKind<'a>, table: &'a [u8]) -> Option<Self> {
        let number = match subtable {
            SubtableKind::Rearrangement(_) => 0,
            SubtableKind::Contextual(_) => 1,
            SubtableKind::Ligature(_) => 2,
            SubtableKind::NonContextual(_) => return None,
            SubtableKind::Insertion(_) => 5,
        };
        let machine = MACHINES.iter().find(|machine| machine.kind.number == number)?;
        Some(Opened { subtable, machine, table })
    }

    /// One step, which changes what it is lent; the edits that it hands over are 0 where there is none.
    pub fn step(&self, told: Told, lent: &mut Lent) -> Result<Answer<usize>, Fault> {
        lent.edits.fill(0);
        match &self.subtable {
            SubtableKind::Rearrangement(machine) => rearrangement(machine, told, lent),
            SubtableKind::Contextual(machine) => contextual(machine, told, lent),
            SubtableKind::Ligature(machine) => ligature(machine, told, lent),
            SubtableKind::Insertion(machine) => insertion(machine, self.table, told, lent),
            SubtableKind::NonContextual(_) => panic!("no machine"),
        }
    }

    /// The pass of steps from the fresh state, whose numbers are all 0. What each is told is shown before it is made, with
    /// the state and the line.
    pub fn pass(&self, line: &mut Line, show: &mut dyn FnMut(Told, &[u64], &Line)) -> Result<Answer<()>, Fault> {
        let Machine { state, sees, edits, .. } = *self.machine;
        let room = line.glyphs.len() as u64;
        let mut lent = Lent { state: vec![0; state.len()], line: Line::none(), room, edits: vec![0; edits] };
        let mut fault = None;
        let answer = make_steps(line, |line, place, glyph, is_end| {
            let told = Told { index: place as u64, glyph, ends: is_end.into() };
            show(told, &lent.state, line);
            sees.lend(line, &mut lent.line);
            let answer = self.step(told, &mut lent);
            sees.lend(line, &mut lent.line);
            self.make_edits(&lent.edits, line);
            answer.unwrap_or_else(|other| {
                fault = Some(other);
                Answer::Ended
            })
        });
        fault.map_or(Ok(answer), Err)
    }

    /// Makes the edits that a step handed over.
    fn make_edits(&self, edits: &[u64], line: &mut Line) {
        match self.machine.sees {
            Sees::Length => line.rearrange(edits[0] as usize, edits[1] as usize, edits[2] as u16),
            Sees::LengthAndRoom => {
                for edit in edits[1..].chunks(3).take(edits[0] as usize) {
                    let [place, count, offset] = [0, 1, 2].map(|part| edit[part] as usize);
                    let fits = line.insert(place, count, numbers(&self.table[offset..offset + 2 * count]));
                    assert!(fits, "an edit that was handed over");
                }
            }
            Sees::Line => {}
        }
    }
}

fn rearrangement(machine: &Rearrangement, told: Told, lent: &mut Lent) -> Result<Answer<usize>, Fault> {
    let [number, first, last, cycles] = [0, 1, 2, 3].map(|slot| lent.state[slot]);
    let mut state =
        RearrangementState { state: number as u16, first: first as usize, last: last as usize, cycles: cycles as u16 };
    let edits = &mut lent.edits;
    let given = caught_as_none(|| {
        machine.next(&mut state, told.index as usize, told.glyph, told.ends != 0, |rearrange| {
            edits.copy_from_slice(&[rearrange.start as u64, rearrange.end as u64, verb_of(rearrange)]);
            Some(())
        })
    })?;
    lent.state = vec![state.state.into(), state.first as u64, state.last as u64, state.cycles.into()];
    Ok(stepped(given))
}

/// The verb whose groups these are: the glyphs taken from the left and from the right, 3 for two that change places.
pub fn verb_of(rearrange: &Rearrange) -> u64 {
    const GROUPS: [usize; 16] =
        [0x00, 0x10, 0x01, 0x11, 0x20, 0x30, 0x02, 0x03, 0x12, 0x13, 0x21, 0x31, 0x22, 0x32, 0x23, 0x33];
    let left = rearrange.l + usize::from(rearrange.reverse_l);
    let right = rearrange.r + usize::from(rearrange.reverse_r);
    let groups = left << 4 | right;
    GROUPS.iter().position(|known| *known == groups).expect("the groups of a verb") as u64
}

fn contextual(machine: &Contextual, told: Told, lent: &mut Lent) -> Result<Answer<usize>, Fault> {
    let [number, mark_set, mark_index, mark_id] = [0, 1, 2, 3].map(|slot| lent.state[slot]);
    let mut state = ContextualState {
        state: number as u16,
        mark_set: mark_set != 0,
        mark_index: mark_index as usize,
        mark_id: mark_id as u16,
    };
    let line = &mut lent.line;
    let given = caught_as_none(|| {
        machine.next(&mut state, told.index as usize, told.glyph, told.ends != 0, |place, glyph| {
            line.write(place, glyph);
            Some(())
        })
    })?;
    lent.state = vec![state.state.into(), state.mark_set.into(), state.mark_index as u64, state.mark_id.into()];
    Ok(stepped(given.map(|()| 1)))
}

fn ligature(machine: &Ligature, told: Told, lent: &mut Lent) -> Result<Answer<usize>, Fault> {
    let mut state = LigatureState::new();
    state.state = lent.state[0] as u16;
    state.pos = lent.state[1] as usize;
    for slot in 0..32 {
        state.indices[slot] = lent.state[2 + slot] as usize;
        state.glyphs[slot] = lent.state[34 + slot] as u16;
    }
    let line = &mut lent.line;
    let given = caught_as_none(|| {
        machine.next(&mut state, told.index as usize, told.glyph, told.ends != 0, |place, ligature, components| {
            line.ligate(place, ligature, components);
            Some(())
        })
    })?;
    lent.state[0] = state.state.into();
    lent.state[1] = state.pos as u64;
    for slot in 0..32 {
        lent.state[2 + slot] = state.indices[slot] as u64;
        lent.state[34 + slot] = state.glyphs[slot].into();
    }
    Ok(stepped(given.map(|()| 1)))
}

/// An insertion is handed over by its place, cut to the line, its count, and where in the table its glyphs lie.
fn insertion(machine: &Insertion, table: &[u8], told: Told, lent: &mut Lent) -> Result<Answer<usize>, Fault> {
    let [number, mark, cycles] = [0, 1, 2].map(|slot| lent.state[slot]);
    let mut state = InsertionState { state: number as u16, mark: mark as usize, cycles: cycles as u16 };
    let (mut length, room) = (lent.line.used, lent.room);
    let mut made = Vec::new();
    let mut fits = true;
    let given = caught_as_none(|| {
        machine.next(&mut state, told.index as usize, told.glyph, told.ends != 0, |place, glyphs| {
            let count = glyphs.len() as u64;
            fits = length + count <= room;
            if fits {
                let offset = glyphs.data.as_ptr() as usize - table.as_ptr() as usize;
                made.push([length.min(place as u64), count, offset as u64]);
                length += count;
            }
            fits.then_some(())
        })
    })?;
    lent.state = vec![state.state.into(), state.mark as u64, state.cycles.into()];
    lent.edits[0] = made.len() as u64;
    lent.edits[1..1 + 3 * made.len()].copy_from_slice(&made.concat());
    Ok(if fits { stepped(given) } else { Answer::Full })
}

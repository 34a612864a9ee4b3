//! Which rows of docs/DIFFERENCES.md a line meets in the run of a morx table: this looks on while the crate goes from subtable
//! to subtable and from step to step, with the state and the line before each.
//!
//! What a step does inside is read from the table once more: the crate hands over glyphs and places, not the entries, flags and
//! actions that the rows ask for, and rows 38 and 39 ask for some that it leaves unread. To tell of them it would have to be
//! changed, and then it would be another crate than the one compared.

use crate::font::met::{Entry, Met, Spot, Subtable, MOST_CYCLES, NONE};
use crate::font::sfnt::{long, word};
use crate::reference::line::Line;
use crate::reference::opened::aat::morx::SubtableKind;
use crate::reference::oracle::Answer;
use crate::reference::run::{Run, Visit};
use crate::reference::step::Told;
use crate::reference::steps_by_copy::Opened;
use crate::tables::morx::SUBTABLE_HEAD;

/// Watches the run, which is made on the line.
pub fn watch(met: &mut Met, run: &Run, line: &mut Line) {
    let mut show = |visit: Visit, line: &Line| {
        if let (Some((at, opened)), true) = (visit.opened, visit.is_chosen) {
            let mut line = line.clone();
            if visit.is_turned {
                line.reverse();
            }
            met.spot = Spot { subtable: Subtable::of_morx(visit.number), place: None };
            watch_subtable(met, at + SUBTABLE_HEAD, opened, visit.is_turned, run.table, line);
        }
    };
    // A fault is shown where the sides are compared.
    let made = run.make(line, &mut show);
    met.row(49, matches!(made, Ok((Answer::Full, _))));
    met.spot = Spot { subtable: Subtable { table: "morx", ..Subtable::default() }, place: None };
    met.row(50, matches!(made, Ok((Answer::Limit, _))));
}

fn watch_subtable(met: &mut Met, body: usize, opened: SubtableKind, is_turned: bool, table: &[u8], mut line: Line) {
    let number = match opened {
        SubtableKind::Rearrangement(_) => 0,
        SubtableKind::Contextual(_) => 1,
        SubtableKind::Ligature(_) => 2,
        SubtableKind::NonContextual(_) => {
            for (place, glyph) in line.glyphs[..line.length()].iter().enumerate() {
                met.spot.place = Some(place);
                met.lookup(body, *glyph);
            }
            return;
        }
        SubtableKind::Insertion(_) => 5,
    };
    let machine = match Opened::of(opened, table) {
        Some(machine) => machine,
        None => return,
    };
    let _ = machine.pass(&mut line, &mut |told, state, line| {
        met.spot.place = Some(told.index as usize);
        let mut step = Step { met, body, is_turned, told, state, line };
        match number {
            0 => step.rearrangement(),
            1 => step.contextual(),
            2 => step.ligature(),
            _ => step.insertion(),
        };
    });
}

/// A step that is about to be made. Its watchers give None where the crate's machine ends.
struct Step<'a, 'b> {
    met: &'a mut Met<'b>,
    body: usize,
    is_turned: bool,
    told: Told,
    state: &'a [u64],
    line: &'a Line,
}

impl Step<'_, '_> {
    fn is_end(&self) -> bool {
        self.told.ends != 0
    }

    fn class(&mut self) -> Option<u16> {
        if self.is_end() {
            Some(0)
        } else {
            self.met.class(self.body, self.told.glyph)
        }
    }

    fn entry(&mut self, payload: usize, state: u16, class: u16) -> Option<Entry> {
        self.met.entry(self.body, payload, state, class)
    }

    fn word(&self, at: usize) -> Option<u16> {
        word(self.met.table, at)
    }

    /// Where the part lies whose offset the body has here.
    fn part(&self, at: usize) -> Option<usize> {
        Some(self.body + long(self.met.table, self.body + at)? as usize)
    }

    fn rearrangement(&mut self) -> Option<()> {
        let class = self.class()?;
        let entry = self.entry(0, self.state[0] as u16, class)?;
        self.met.row(15, entry.stays() && self.state[3] == MOST_CYCLES);
        Some(())
    }

    fn contextual(&mut self) -> Option<()> {
        let [state, mark_set, mark, mark_glyph] = [0, 1, 2, 3].map(|slot| self.state[slot]);
        let (mut state, mut mark, mut mark_glyph) = (state as u16, mark as usize, mark_glyph as u16);
        let (is_end, index) = (self.is_end(), self.told.index as usize);
        if is_end && mark_set == 0 {
            let entry = self.entry(4, state, 0)?;
            let lookups = [self.word(entry.payload)?, self.word(entry.payload + 2)?];
            self.met.row(38, lookups != [NONE; 2]);
            return Some(());
        }
        if index == 0 && !is_end {
            (mark, mark_glyph) = (0, self.told.glyph);
        }
        let mut glyphs = self.line.glyphs[..self.line.length()].to_vec();
        let mut current = self.told.glyph;
        let mut class = self.class()?;
        for cycles in 0.. {
            let entry = self.entry(4, state, class)?;
            let classes = long(self.met.table, self.body)?;
            self.met.row(17, u32::from(class) >= classes);
            state = entry.state;
            let [at_mark, at_current] = [self.word(entry.payload)?, self.word(entry.payload + 2)?];
            if at_mark != NONE {
                self.met.row(16, glyphs.get(mark).map_or(false, |glyph| *glyph != mark_glyph));
                if let Some(glyph) = self.substitute(at_mark, mark_glyph) {
                    write(&mut glyphs, mark, glyph);
                    if mark == index {
                        current = glyph;
                    }
                }
            }
            if at_current != NONE {
                self.met.row(14, is_end);
                if let Some(glyph) = self.substitute(at_current, current) {
                    write(&mut glyphs, index, glyph);
                    current = glyph;
                }
            }
            if entry.flags & 0x8000 != 0 {
                (mark, mark_glyph) = (index, current);
            }
            self.met.row(15, entry.stays() && cycles == MOST_CYCLES);
            if !entry.stays() || cycles == MOST_CYCLES {
                break;
            }
            self.met.row(18, is_end);
            class = self.met.class(self.body, current)?;
        }
        Some(())
    }

    fn substitute(&mut self, index: u16, glyph: u16) -> Option<u16> {
        let lookups = self.part(16)?;
        let lookup = lookups + long(self.met.table, lookups + 4 * usize::from(index))? as usize;
        self.met.lookup(lookup, glyph)
    }

    fn ligature(&mut self) -> Option<()> {
        let mut state = self.state[0] as u16;
        let mut stack: Vec<(usize, u16)> = (0..self.state[1] as usize)
            .map(|slot| (self.state[2 + slot] as usize, self.state[34 + slot] as u16))
            .collect();
        let (is_end, index) = (self.is_end(), self.told.index as usize);
        let mut line = self.line.clone();
        let class = self.class()?;
        let mut cycles = 0;
        loop {
            let entry = self.entry(2, state, class)?;
            state = entry.state;
            if entry.flags & 0x8000 != 0 {
                self.met.row(39, stack.len() == 32);
                if stack.len() == 32 {
                    return None;
                }
                self.met.row(40, stack.iter().any(|slot| slot.0 == index));
                stack.push((index, self.told.glyph));
            }
            if entry.flags & 0x2000 != 0 {
                self.met.row(22, is_end && !stack.is_empty());
                let first = self.word(entry.payload)?;
                self.actions(first, &mut stack, &mut line, &mut cycles)?;
            }
            self.met.row(15, entry.stays() && cycles >= MOST_CYCLES);
            if !entry.stays() || cycles >= MOST_CYCLES {
                return Some(());
            }
            let now = line.glyphs[..line.length()].get(index);
            self.met.row(21, now.map_or(false, |glyph| *glyph != self.told.glyph));
            cycles += 1;
        }
    }

    /// The actions from this number on, and how many of entries and actions there were so far.
    fn actions(&mut self, first: u16, stack: &mut Vec<(usize, u16)>, line: &mut Line, cycles: &mut u64) -> Option<()> {
        let (actions, components, ligatures) = (self.part(16)?, self.part(20)?, self.part(24)?);
        let (mut number, mut sum) = (usize::from(first), 0);
        let mut depth = stack.len();
        let mut has_stored = false;
        while depth > 0 {
            depth -= 1;
            self.met.row(19, has_stored);
            self.met.row(20, has_stored);
            let (place, glyph) = stack[depth];
            let action = long(self.met.table, actions + 4 * number)?;
            number += 1;
            let offset = (action << 2) as i32 >> 2;
            let component = usize::try_from(i64::from(glyph) + i64::from(offset)).ok();
            let component = component.and_then(|component| self.word(components + 2 * component));
            self.met.row(39, component.is_none());
            sum += usize::from(component?);
            let [is_last, stores] = [0x8000_0000, 0x4000_0000].map(|bit| action & bit != 0);
            if is_last || stores {
                let ligature = self.word(ligatures + 2 * sum);
                self.met.row(39, ligature.is_none());
                let ligature = ligature?;
                let others: Vec<usize> = stack[depth + 1..].iter().map(|slot| slot.0).collect();
                line.ligate(place, ligature, &others);
                stack[depth].1 = ligature;
                depth += 1;
                has_stored = true;
            }
            if is_last || *cycles > 32 {
                break;
            }
            *cycles += 1;
        }
        stack.truncate(depth);
        Some(())
    }

    fn insertion(&mut self) -> Option<()> {
        let class = self.class()?;
        let entry = self.entry(4, self.state[0] as u16, class)?;
        let [at_current, at_mark] = [self.word(entry.payload)?, self.word(entry.payload + 2)?];
        let [current, marked] = [entry.flags >> 5 & 0x1F, entry.flags & 0x1F];
        self.met.row(15, entry.stays() && self.state[2] == MOST_CYCLES);
        let [inserts, inserts_at_mark] = [at_current != NONE && current > 0, at_mark != NONE && marked > 0];
        self.met.row(23, entry.flags & 0x8000 != 0 && inserts_at_mark);
        self.met.row(41, entry.flags & 0x8800 == 0x8800 && inserts);
        self.met.row(42, self.is_turned && (inserts || inserts_at_mark));
        let lists = self.part(16)?;
        for (index, count) in [(at_mark, marked), (at_current, current)] {
            let is_behind = lists + 2 * usize::from(index) >= self.met.table.len();
            self.met.row(24, index != NONE && count == 0 && is_behind);
        }
        Some(())
    }
}

fn write(glyphs: &mut [u16], place: usize, glyph: u16) {
    if let Some(at) = glyphs.get_mut(place) {
        *at = glyph;
    }
}

/// The rows that are looked at in a morx run, with those of its lookups and state tables.
pub const ROWS: [u32; 24] = [1, 2, 3, 4, 5, 6, 14, 15, 16, 17, 18, 19, 20, 21, 22, 23, 24, 38, 39, 40, 41, 42, 49, 50];

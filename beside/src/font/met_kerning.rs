//! Which rows of docs/DIFFERENCES.md a line meets in the run of a kern or kerx table.

use crate::font::kerning_heads::{subtables, Listed};
use crate::font::met::{self, Entry, Met, Spot, DELETED, MOST_CYCLES, NONE};
use crate::font::sfnt::{long, word};
use crate::reference::anchored::Marks;
use crate::reference::anchored_by_copy as anchored;
use crate::reference::kerning::{make_steps, Kerned, Kerning, Subtable};
use crate::reference::kerning_by_copy::{open, DEEPEST, STATE};
use crate::reference::kerning_run::Run;
use crate::reference::line::Line;
use crate::reference::oracle::Answer;

/// A run to be watched.
struct Watched<'a> {
    kerning: Kerning,
    start: usize,
    right_to_left: bool,
    ankr: &'a [u8],
    glyphs: &'a [u16],
}

/// Watches the run on a line, with an ankr table where that is not empty.
pub fn watch(met: &mut Met, run: &Run, ankr: &[u8], line: &Line) {
    let Run { kerning, start, right_to_left, .. } = *run;
    let glyphs = &line.glyphs[..line.length()];
    Watched { kerning, start: start as usize, right_to_left, ankr, glyphs }.watch(met);
    // A fault is shown where the sides are compared.
    let mut lent = Kerned { line: line.clone(), along: vec![0; line.glyphs.len()] };
    let made = run.make(&mut lent);
    met.spot = Spot { subtable: met::Subtable { table: kerning.name(), ..met::Subtable::default() }, place: None };
    met.row(50, matches!(made, Ok((Answer::Limit, _))));
}

/// The flag of entries that push, and of those that mark.
const PUSH: u16 = 0x8000;
const RESET: u16 = 0x2000;

/// The format of anchored marks.
const ANCHORS: u32 = 4;

impl Watched<'_> {
    /// Watches each subtable.
    fn watch(&self, met: &mut Met) {
        for (number, subtable) in subtables(self.kerning, met.table, self.start).enumerate() {
            met.spot = Spot { subtable: met::Subtable::of_list(self.kerning.name(), number as u32), place: None };
            met.row(48, met.table.len() < subtable.body);
            met.row(53, self.kerning == Kerning::Kerx && subtable.coverage & 0xE000_0000 == 0x2000_0000);
            if !subtable.is_passed_over {
                let has_ways = self.glyphs.iter().ne(self.glyphs.iter().rev());
                met.row(52, self.kerning == Kerning::Kern && self.right_to_left && has_ways);
                self.watch_subtable(met, &subtable);
            }
        }
    }

    fn is_turned(&self, subtable: &Listed) -> bool {
        self.kerning == Kerning::Kerx && subtable.reverses != self.right_to_left
    }

    fn watch_subtable(&self, met: &mut Met, subtable: &Listed) {
        let alone = match met.table.get(subtable.at..) {
            Some(bytes) => self.kerning.alone(subtable.version, bytes),
            None => return,
        };
        let mut glyphs = self.glyphs.to_vec();
        if self.is_turned(subtable) {
            glyphs.reverse();
        }
        let is_kern = self.kerning == Kerning::Kern;
        if !is_kern && subtable.format == ANCHORS && !self.ankr.is_empty() {
            return self.watch_marks(met, subtable, &alone, &glyphs);
        }
        met.row(47, if is_kern { matches!(subtable.format, 2 | 3) } else { subtable.format == 6 });
        match Subtable::alone(self.kerning, &alone) {
            Ok(Some(Subtable::KernMachine(_) | Subtable::KerxMachine(_))) => {
                self.watch_machine(met, subtable, &alone, &glyphs)
            }
            Ok(Some(pairs)) => {
                met.row(35, subtable.reverses);
                for (place, pair) in glyphs.windows(2).enumerate() {
                    met.spot.place = Some(place);
                    let is_found = matches!(pairs.get(pair[0], pair[1]), Answer::Done(_));
                    met.row(34, is_found && subtable.tuples != 0);
                    if let Subtable::KerxClasses(_) = pairs {
                        watch_classes(met, subtable, pair, is_found);
                    }
                }
            }
            Ok(None) if is_kern && subtable.format == 1 => {
                let is_empty = is_class_array_empty(met.table, subtable.body);
                met.row(9, is_empty == Some(true));
                return;
            }
            _ => return,
        }
        met.spot.place = None;
        met.row(36, is_kern && subtable.version != 0 && subtable.coverage & 0x2000 != 0);
        met.row(43, is_kern && subtable.version == 0 && subtable.coverage & 0xA != 0);
        met.row(44, is_kern && (subtable.version > 1 || subtable.version == 0 && subtable.format == 1));
    }

    fn watch_machine(&self, met: &mut Met, subtable: &Listed, alone: &[u8], glyphs: &[u16]) {
        let machine = match open(self.kerning, alone) {
            Some(machine) => machine,
            None => return,
        };
        let mut state = [0; STATE];
        let mut along = vec![0; glyphs.len()];
        let answer = make_steps(glyphs, |place, glyph| {
            met.spot.place = Some(place);
            self.watch_step(met, subtable, &state, glyph);
            machine.step(&mut state, place, glyph, &mut along).ok()?.done()
        });
        if answer == Answer::Done(()) {
            met.spot.place = Some(glyphs.len());
            self.watch_end(met, subtable, &state);
        }
    }

    /// Watches a machine of format 4.
    fn watch_marks(&self, met: &mut Met, subtable: &Listed, alone: &[u8], glyphs: &[u16]) {
        let machine = match anchored::open(alone, self.ankr) {
            Some(machine) => machine,
            None => return,
        };
        let (mut state, mut is_marked) = ([0; 4], false);
        let mut marks = Marks::none(glyphs.len());
        make_steps(glyphs, |place, glyph| {
            met.spot.place = Some(place);
            self.watch_mark(met, subtable, &state, glyph, &mut is_marked);
            anchored::step(&machine, &mut state, place, glyph, glyphs.len(), &mut marks).ok()?.done()
        });
    }

    fn watch_mark(
        &self,
        met: &mut Met,
        subtable: &Listed,
        state: &[u64; 4],
        glyph: u16,
        is_marked: &mut bool,
    ) -> Option<()> {
        let class = met.class(subtable.body, glyph)?;
        let entry = met.entry(subtable.body, 2, state[0] as u16, class)?;
        let marks = entry.flags & PUSH != 0;
        met.row(15, entry.stays() && state[3] == MOST_CYCLES);
        let index = word(met.table, entry.payload)?;
        let flags = long(met.table, subtable.body + 16)?;
        if index != NONE {
            met.row(58, matches!(flags >> 30, 0 | 2));
        }
        if index != NONE && flags >> 30 == 1 {
            met.row(55, index != 0);
            met.row(56, marks);
            met.row(57, !marks && !*is_marked);
            let record = subtable.body + (flags & 0xFF_FFFF) as usize + 2 * usize::from(index);
            let of_marked = if marks { glyph } else { state[2] as u16 };
            for (at, glyph) in [(record, of_marked), (record + 2, glyph)] {
                let point = word(met.table, at);
                self.watch_point(met, glyph, point);
            }
        }
        *is_marked |= marks;
        Some(())
    }

    /// Watches the lookup of a glyph's points, and whether it has one of this number.
    fn watch_point(&self, met: &mut Met, glyph: u16, point: Option<u16>) -> Option<()> {
        let mut of_ankr = Met::new(self.ankr, None);
        let found = of_ankr.lookup(long(self.ankr, 4)? as usize, glyph);
        of_ankr.rows.into_keys().for_each(|row| met.row(row, true));
        let at = long(self.ankr, 8)? as usize + usize::from(found?);
        let (count, point) = (long(self.ankr, at)?, u32::from(point?));
        met.row(54, point >= count && long(self.ankr, at + 4 + 4 * point as usize).is_some());
        Some(())
    }

    fn entry(&self, met: &mut Met, subtable: &Listed, state: u64, class: u16) -> Option<Entry> {
        match self.kerning {
            Kerning::Kern => classic_entry(met, subtable.body, state as u16, class),
            Kerning::Kerx => met.entry(subtable.body, 2, state as u16, class),
        }
    }

    /// The list of an entry: kern's offset, kerx's index.
    fn list(&self, table: &[u8], entry: &Entry) -> Option<usize> {
        match self.kerning {
            Kerning::Kern => Some(usize::from(entry.flags & 0x3FFF)).filter(|offset| *offset != 0),
            Kerning::Kerx => word(table, entry.payload).filter(|index| *index != NONE).map(usize::from),
        }
    }

    fn watch_step(&self, met: &mut Met, subtable: &Listed, state: &[u64; STATE], glyph: u16) -> Option<()> {
        let class = match self.kerning {
            Kerning::Kern => classic_class(met.table, subtable.body, glyph)?,
            Kerning::Kerx => met.class(subtable.body, glyph)?,
        };
        let entry = self.entry(met, subtable, state[0], class)?;
        let (mut depth, pushes) = (state[1] as usize, entry.flags & PUSH != 0);
        met.row(37, pushes && depth == DEEPEST);
        met.row(15, entry.stays() && state[2] == MOST_CYCLES);
        if pushes && depth == DEEPEST {
            return None;
        }
        depth += usize::from(pushes);
        let list = self.list(met.table, &entry);
        match self.kerning {
            Kerning::Kern => {
                met.row(30, entry.flags == 0 && depth > 0);
                watch_kern_list(met, subtable.body, list?, depth)
            }
            Kerning::Kerx => {
                met.row(27, entry.flags & RESET != 0 && (pushes || list.is_some()));
                watch_kerx_list(met, subtable, list?, depth)
            }
        }
    }

    /// What the entry for the end of text would have done.
    fn watch_end(&self, met: &mut Met, subtable: &Listed, state: &[u64; STATE]) -> Option<()> {
        let entry = self.entry(met, subtable, state[0], 0)?;
        let has_list = self.list(met.table, &entry).is_some();
        met.row(28, has_list && (state[1] > 0 || entry.flags & PUSH != 0));
        Some(())
    }
}

fn watch_classes(met: &mut Met, subtable: &Listed, pair: &[u16], is_found: bool) -> Option<()> {
    let [left, right] = [subtable.at + 16, subtable.at + 20].map(|offset| long(met.table, offset));
    let left = met.lookup(subtable.at + left? as usize, pair[0]);
    let right = met.lookup(subtable.at + right? as usize, pair[1]);
    met.row(32, is_found);
    met.row(33, left.is_none() || right.is_none());
    Some(())
}

fn watch_kern_list(met: &mut Met, body: usize, offset: usize, depth: usize) -> Option<()> {
    for popped in 1..=depth {
        let number = word(met.table, body + offset + 2 * (popped - 1))?;
        if number & 1 != 0 {
            met.row(29, popped < depth);
            return Some(());
        }
    }
    Some(())
}

fn watch_kerx_list(met: &mut Met, subtable: &Listed, index: usize, depth: usize) -> Option<()> {
    let value = long(met.table, subtable.body + 16)? as usize;
    let size = 2 * (subtable.tuples as usize).max(1);
    let offset = (value + index).checked_mul(size)?;
    met.row(25, depth > 0 && offset != value + index);
    for popped in 0..depth {
        let number = word(met.table, subtable.body + offset + popped * size)?;
        met.row(26, number & 1 != 0);
    }
    Some(())
}

fn classic_class(table: &[u8], body: usize, glyph: u16) -> Option<u16> {
    if glyph == DELETED {
        return Some(2);
    }
    let array = body + usize::from(word(table, body + 2)?);
    let (first, count) = (word(table, array)?, word(table, array + 2)?);
    Some(match glyph.checked_sub(first) {
        Some(index) if index < count => u16::from(*table.get(array + 4 + usize::from(index))?),
        _ => 1,
    })
}

/// The entry of a classic state table; None where the crate has none.
fn classic_entry(met: &mut Met, body: usize, state: u16, class: u16) -> Option<Entry> {
    let (count, states) = (word(met.table, body)?, word(met.table, body + 4)?);
    met.row(6, class >= count);
    let row = body + usize::from(states) + usize::from(state) * usize::from(count);
    let index = usize::from(*met.table.get(row + usize::from(class))?);
    let entry = body + usize::from(word(met.table, body + 6)?) + 4 * index;
    let (next, flags) = (word(met.table, entry)?, word(met.table, entry + 2)?);
    met.row(8, next < states);
    met.row(31, next < states);
    let past = next.checked_sub(states)?;
    met.row(7, past.checked_rem(count)? != 0);
    Some(Entry { state: past / count, flags, payload: entry + 4 })
}

/// Whether the class array of a classic state table has no classes and begins at the table's end.
fn is_class_array_empty(table: &[u8], body: usize) -> Option<bool> {
    let array = body + usize::from(word(table, body + 2)?);
    Some(word(table, array + 2)? == 0 && array + 4 == table.len())
}

/// The rows that are looked at in these runs, with those of their lookups and state tables.
pub const ROWS: [u32; 35] = [
    1, 2, 3, 4, 5, 6, 7, 8, 9, 15, 25, 26, 27, 28, 29, 30, 31, 32, 33, 34, 35, 36, 37, 43, 44, 47, 48, 50, 52, 53, 54,
    55, 56, 57, 58,
];

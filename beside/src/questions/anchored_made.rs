//! What the questions on anchored marks are made of: subtables, ankr tables, and calls about both.

use crate::questions::anchored_calls::{AnchorStep, AnchoredPass, AnchoredRun};
use crate::questions::kerning_choices::unkerned;
use crate::questions::kerning_runs::{behind_others, BEFORE};
use crate::questions::Ask;
use crate::reference::anchored::{Anchored, Marks, Stepped, STATE};
use crate::reference::kerning::{Kerned, Kerning};
use crate::reference::kerning_choices::{Choices, JOINED_PAIRS, MANUAL_LISTS};
use crate::reference::line::Line;
use crate::reference::pass::line_of;
use crate::tables::anchored::{act, ankr, one_state, Act, Point, BY_POINTS, MARK, NONE};
use crate::tables::kerning::{classes, Edition, Entry as Pushing, Parts as Pushes, PUSH};
use crate::tables::kerx_manual::{in_bytes, trimmed};
use std::rc::Rc;

/// No choice is made.
pub const CRATES: Choices = Choices(0);
/// The manual's reading is chosen.
pub const MANUALS: Choices = Choices(MANUAL_LISTS);

/// All mixtures of the two choices.
pub const MIXTURES: [Choices; 4] = [CRATES, Choices(JOINED_PAIRS), MANUALS, Choices(JOINED_PAIRS | MANUAL_LISTS)];

/// The bit of a subtable that works against the line's order.
pub const REVERSED: u32 = 0x1000_0000;

/// A list of kerx without tuples.
pub const PLAIN: Edition = Edition::new(Kerning::Kerx, 2, 0);

/// A line with some adjustments and marks, none like another.
pub fn some(line: Line) -> Anchored {
    let marks = Marks::of(line.glyphs.len());
    Anchored { kerned: Kerned::of(line), marks }
}

/// A line with adjustments of 0 and no marks.
pub fn unmarked(glyphs: &[u16]) -> Anchored {
    Anchored { kerned: unkerned(glyphs), marks: Marks::none(glyphs.len()) }
}

/// A table, and the ankr table that goes with it.
pub struct Both<'a> {
    pub table: &'a Rc<[u8]>,
    pub ankr: &'a Rc<[u8]>,
    pub version: u16,
}

impl<'a> Both<'a> {
    /// Both in a list without tuples.
    pub fn new(table: &'a Rc<[u8]>, ankr: &'a Rc<[u8]>) -> Self {
        Both { table, ankr, version: PLAIN.version }
    }

    /// A pass over a line at the beginning of the table.
    pub fn pass(&self, asked: &mut dyn Ask, choices: Choices, glyphs: &[u16]) {
        let (version, ankr, lent) = (self.version, self.ankr.clone(), some(line_of(glyphs, glyphs.len() + 1)));
        asked.ask(self.table, Box::new(AnchoredPass { version, choices, ankr, lent, start: 0, written: None }));
    }

    /// A run each way over a line, of a table that lies behind others.
    pub fn run(&self, asked: &mut dyn Ask, choices: Choices, glyphs: &[u16]) {
        for right_to_left in [0, 1] {
            let (ankr, lent) = (self.ankr.clone(), some(line_of(glyphs, glyphs.len() + 1)));
            let start = BEFORE as u64;
            asked.ask(self.table, Box::new(AnchoredRun { choices, ankr, lent, start, right_to_left, written: None }));
        }
    }

    /// A step at a place of a line.
    pub fn step(&self, asked: &mut dyn Ask, choices: Choices, state: [u64; STATE], told: (u64, u64, u16)) {
        let (length, index, glyph) = told;
        asked.ask(self.table, Box::new(self.step_of(choices, state, length, index, glyph)));
    }

    /// The same, to be asked later.
    pub fn step_of(&self, choices: Choices, state: [u64; STATE], length: u64, index: u64, glyph: u16) -> AnchorStep {
        let room = length as usize + 1;
        let lent = Stepped { state, along: (10..).take(room).collect(), marks: Marks::of(room) };
        AnchorStep { version: self.version, choices, ankr: self.ankr.clone(), start: 0, lent, length, index, glyph }
    }

    /// A pass, a run each way and a step at the line's last place, under some choices; the table is the subtable alone.
    pub fn all(&self, asked: &mut dyn Ask, choices: &[Choices], glyphs: &[u16]) {
        let listed = behind_others(Edition { version: self.version, ..PLAIN }.table(&[self.table.to_vec()]));
        for choices in choices {
            self.pass(asked, *choices, glyphs);
            Both { table: &listed, ..*self }.run(asked, *choices, glyphs);
            let last = glyphs.len() as u64 - 1;
            self.step(asked, *choices, [0, 0, glyphs[0].into(), 0], (last + 1, last, glyphs[last as usize]));
        }
    }
}

/// The first glyph of most tables here.
pub const FIRST: u16 = 5;

/// Points of glyphs 5, 6 and 7.
pub fn some_points() -> Vec<Vec<Point>> {
    vec![vec![(100, 200), (-7, 8)], vec![(30, 250), (11, -12)], vec![(1, 2), (10, 20)]]
}

/// An ankr table with them.
pub fn some_ankr() -> Rc<[u8]> {
    Rc::from(ankr(8, FIRST, &some_points()))
}

/// Of the glyphs from 5 on the first is marked, the second is written by record 0, and the third is marked and written by record 1;
/// record 2 is behind them.
pub fn some_acts() -> [Act; 3] {
    [act(MARK, NONE), act(0, 0), act(MARK, 1)]
}

/// A subtable of format 4.
pub fn subtable(bits: u32, body: &[u8]) -> Vec<u8> {
    PLAIN.subtable(bits, 4, body)
}

/// One with these entries, and actions of this type.
pub fn some_subtable(action: u32) -> Vec<u8> {
    subtable(0, &one_state(action, FIRST, &some_acts(), 3))
}

/// A body of each format, with numbers or marks for glyphs 5 and 6; formats that are left out have one of these.
pub fn body_of(format: u8) -> Vec<u8> {
    let pushing = |flags, list| Pushing { state: 0, flags, list };
    match format {
        0 => PLAIN.pairs(2, &[(5, 6, 10), (6, 5, 30)]),
        1 => in_bytes(PLAIN.machine(&Pushes {
            first: FIRST,
            classes: &[4, 5],
            count: 6,
            rows: &[0, 0, 0, 0, 1, 2],
            entries: &[pushing(0, NONE), pushing(PUSH, NONE), pushing(PUSH, 0)],
            lists: &[100, 200, -1],
        })),
        2 => classes(4, trimmed(1, FIRST, &[0, 4]), trimmed(2, FIRST, &[0, 2]), &[1, 2, 3, 4]),
        _ => one_state(BY_POINTS, FIRST, &some_acts(), 3),
    }
}

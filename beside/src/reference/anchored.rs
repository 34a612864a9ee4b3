//! Document 02's anchored marks (W-211): what is lent for them, and a model of format 4 of kerx with an ankr table, in both readings
//! of kerx. Written from the request alone; in the crate's reading it has to give what the crate's own `next` gives.

use crate::reference::kerning::{make_steps, Kerned};
use crate::reference::kerning_choices::Choices;
use crate::reference::kerx_readings::{advance, number, visit_all, Head, Kerx, Reading, States};
use crate::reference::line::LARGEST_ROOM;
use crate::reference::oracle::{Answer, LONGEST_TABLE};
use crate::reference::pass::stepped;

/// How many numbers a state has: the state table's, the marked place, its glyph, and the steps in a row that did not advance.
pub const STATE: usize = 4;

/// The marked glyph's point less the current glyph's, and how many places back, in the order of work, the marked place is.
pub type Mark = (i32, i32, u16);

/// What is lent for marks beside the adjustments along the line.
#[derive(Clone, PartialEq)]
pub struct Marks {
    pub x: Vec<i32>,
    pub y: Vec<i32>,
    pub back: Vec<u16>,
}

impl Marks {
    /// None at each place of a room.
    pub fn none(room: usize) -> Self {
        Marks { x: vec![0; room], y: vec![0; room], back: vec![0; room] }
    }

    /// Whether each part is as long as the room.
    pub fn are_of(&self, room: usize) -> bool {
        [self.x.len(), self.y.len(), self.back.len()] == [room; 3]
    }

    /// Writes at a place of a line this long; at one not in it, nothing.
    pub fn write(&mut self, length: usize, place: usize, (x, y, back): Mark) {
        if place < length {
            self.x[place] = x;
            self.y[place] = y;
            self.back[place] = back;
        }
    }

    /// Those of the first places.
    pub fn of_places(&self, length: usize) -> Vec<Mark> {
        (0..length).map(|place| (self.x[place], self.y[place], self.back[place])).collect()
    }
}

/// A line with its adjustments and marks.
#[derive(Clone)]
pub struct Anchored {
    pub kerned: Kerned,
    pub marks: Marks,
}

impl Anchored {
    /// Whether this is a line, with an adjustment and a mark for each place of its room.
    pub fn is_line(&self) -> bool {
        self.kerned.is_line() && self.marks.are_of(self.kerned.line.glyphs.len())
    }

    /// The refusal for an ankr table's length, which stands right behind that for the table's, where there is one of them.
    fn refuses_tables(table: &[u8], ankr: &[u8]) -> Option<Answer<()>> {
        [(table, Answer::Table), (ankr, Answer::Anchor)]
            .into_iter()
            .find(|it| it.0.len() > LONGEST_TABLE)
            .map(|it| it.1)
    }

    /// What a pass is refused for, before its subtable is looked at.
    pub fn refuses_pass(&self, table: &[u8], ankr: &[u8]) -> Option<Answer<()>> {
        let of_line = || if self.is_line() { self.kerned.refuses_pass(table) } else { Some(Answer::Line) };
        Anchored::refuses_tables(table, ankr).or_else(of_line)
    }

    /// What a run is refused for.
    pub fn refuses_run(&self, table: &[u8], ankr: &[u8], start: u64) -> Option<Answer<()>> {
        let refusals = [(!self.is_line(), Answer::Line), (start > table.len() as u64, Answer::Head)];
        let others = || refusals.into_iter().find(|refusal| refusal.0).map(|refusal| refusal.1);
        Anchored::refuses_tables(table, ankr).or_else(others)
    }

    /// Sets the adjustments and marks of all places that are used to 0.
    pub fn zero(&mut self) {
        let length = self.kerned.line.length();
        self.kerned.along[..length].fill(0);
        let Marks { x, y, back } = &mut self.marks;
        x[..length].fill(0);
        y[..length].fill(0);
        back[..length].fill(0);
    }

    /// Turns the line round, with its adjustments and marks; a distance is a count of steps and stays what it is.
    pub fn reverse(&mut self) {
        let length = self.kerned.line.length();
        self.kerned.reverse();
        let Marks { x, y, back } = &mut self.marks;
        x[..length].reverse();
        y[..length].reverse();
        back[..length].reverse();
    }
}

/// A single step, as it is lent.
#[derive(Clone)]
pub struct Stepped {
    pub state: [u64; STATE],
    pub along: Vec<i64>,
    pub marks: Marks,
}

/// The most steps in a row that do not advance.
const MOST_CYCLES: u64 = 17;

impl Stepped {
    /// What a step on a line of this length is refused for, before its subtable is looked at.
    pub fn refuses(&self, table: &[u8], ankr: &[u8], length: u64, index: u64) -> Option<Answer<usize>> {
        let refusals = [
            (table.len() > LONGEST_TABLE, Answer::Table),
            (ankr.len() > LONGEST_TABLE, Answer::Anchor),
            (!self.is_roomy(length), Answer::Line),
            (index > length, Answer::Place),
            (!self.is_state(index), Answer::State),
        ];
        refusals.into_iter().find(|refusal| refusal.0).map(|refusal| refusal.1)
    }

    fn is_roomy(&self, length: u64) -> bool {
        let room = self.along.len();
        let is_modest = self.along.iter().all(|number| number.unsigned_abs() <= 1 << 40);
        room <= LARGEST_ROOM && length <= room as u64 && is_modest && self.marks.are_of(room)
    }

    fn is_state(&self, index: u64) -> bool {
        let [number, mark, glyph, cycles] = self.state;
        number <= 0xFFFF && mark <= index && glyph <= 0xFFFF && cycles <= MOST_CYCLES
    }
}

const MARK: u64 = 0x8000;

/// No record.
const NONE: u64 = 0xFFFF;

/// The action by points of an ankr table.
const BY_POINTS: u64 = 1;

/// Distances from this one on write nothing.
const TOO_FAR: usize = 255;

/// A machine of format 4, and the points that it asks for.
struct Machine<'a> {
    table: States<'a>,
    action: u64,
    records: u64,
    points: Points<'a>,
}

impl<'a> Machine<'a> {
    /// One step from a state. What it goes on by; None where it ends.
    fn step(
        &self,
        state: &mut [u64; STATE],
        index: usize,
        glyph: u16,
        length: usize,
        marks: &mut Marks,
    ) -> Option<usize> {
        let [next, flags, record] = self.table.entry(state[0], glyph)?;
        state[0] = next;
        if flags & MARK != 0 {
            state[1] = index as u64;
            state[2] = glyph.into();
        }
        if record != NONE && self.action == BY_POINTS {
            let word = |at| number(self.table.data, self.records + 2 * record + at, 2);
            let [of_marked, of_current] = [word(0)?, word(2)?];
            let marked = self.points.point(state[2] as u16, of_marked);
            let current = self.points.point(glyph, of_current);
            let distance = index - state[1] as usize;
            if let (Some(marked), Some(current), true) = (marked, current, distance < TOO_FAR) {
                marks.write(length, index, (marked[0] - current[0], marked[1] - current[1], distance as u16));
            }
        }
        Some(advance(flags, &mut state[3]))
    }
}

/// The points of an ankr table, which may be none.
struct Points<'a> {
    reading: Reading,
    ankr: &'a [u8],
}

impl Points<'_> {
    /// A glyph's point of this number. Its count has to be there, and is not asked.
    fn point(&self, glyph: u16, point: u64) -> Option<[i32; 2]> {
        let [lookup, data] = [number(self.ankr, 4, 4)?, number(self.ankr, 8, 4)?];
        let at = data + self.reading.lookup(self.ankr, lookup, glyph)?;
        number(self.ankr, at, 4)?;
        let part = |of_point| Some(i32::from(number(self.ankr, at + 4 + 4 * point + of_point, 2)? as i16));
        Some([part(0)?, part(2)?])
    }
}

/// The format that marks are anchored by.
const ANCHORS: u64 = 4;

impl<'a> Kerx<'a> {
    fn anchors(&self, ankr: &'a [u8]) -> Option<(Head, Machine<'a>)> {
        let head = self.head().filter(|head| head.format() == ANCHORS)?;
        let table = self.states()?;
        let flags = number(table.data, 16, 4)?;
        let points = Points { reading: self.reading, ankr };
        Some((head, Machine { table, action: flags >> 30, records: flags & 0xFF_FFFF, points }))
    }

    /// The pass over a line: format 4 writes marks, and the others add to its adjustments.
    pub fn anchored_pass(&self, ankr: &'a [u8], choices: Choices, lent: &mut Anchored) -> Answer<()> {
        if self.head().map_or(true, |head| head.format() != ANCHORS) {
            let (glyphs, along) = lent.kerned.used();
            return self.pass(choices, glyphs, along);
        }
        let machine = match self.anchors(ankr) {
            None => return Answer::Head,
            Some((head, _)) if self.reading.leaves_out(head.tuples) => return Answer::Tuples,
            Some((_, machine)) => machine,
        };
        let Anchored { kerned, marks } = lent;
        let (glyphs, _) = kerned.used();
        let mut state = [0; STATE];
        make_steps(glyphs, |place, glyph| machine.step(&mut state, place, glyph, glyphs.len(), marks))
    }

    /// A lone step on a line of this length, which changes the state and writes one mark.
    pub fn anchor_step(
        &self,
        ankr: &'a [u8],
        lent: &mut Stepped,
        length: u64,
        index: u64,
        glyph: u16,
    ) -> Answer<usize> {
        match self.anchors(ankr) {
            None => Answer::Head,
            Some((head, _)) if self.reading.leaves_out(head.tuples) => Answer::Tuples,
            Some((_, machine)) => {
                let Stepped { state, marks, .. } = lent;
                stepped(machine.step(state, index as usize, glyph, length as usize, marks))
            }
        }
    }
}

/// A whole run of the table whose list begins at a start: the answer, and the heads that were counted.
pub fn run(
    reading: Reading,
    table: &[u8],
    start: u64,
    right_to_left: bool,
    choices: Choices,
    ankr: &[u8],
    lent: &mut Anchored,
) -> (Answer<()>, u32) {
    lent.zero();
    visit_all(reading, table, start, right_to_left, |subtable, is_turned| {
        if is_turned {
            lent.reverse();
        }
        Kerx::new(reading, subtable.version, subtable.data).anchored_pass(ankr, choices, lent);
        if is_turned {
            lent.reverse();
        }
    })
}

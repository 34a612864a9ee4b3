//! kerx in both of its readings: the crate's, of which demand 2 speaks, and the manual's, which document 02 asks for (W-206).
//! Written from the documents alone, with a step, a pass and a run of its own, since the crate has no such reading; in the
//! crate's reading it has to give what the crate gives. The readings part in `lookup`, `place`, `ends` and `leaves_out`.

use crate::reference::kerning::{add_at, make_steps, Kerned};
use crate::reference::kerning_by_copy::{DEEPEST, STATE};
use crate::reference::kerning_choices::Choices;
use crate::reference::line::DELETED;
use crate::reference::opened::{aat, failed_read, noting, Bytes};
use crate::reference::oracle::{Answer, Fault};
use crate::reference::pass::stepped;
use crate::reference::run::MOST_HEADS;

/// How lists and lookups are read.
#[derive(Clone, Copy, PartialEq)]
pub enum Reading {
    Crate,
    Manual,
}

impl Reading {
    /// What is right: what this model says, which has to be what the crate says in the crate's reading.
    pub fn right<T: PartialEq>(self, by_model: T, by_crate: impl FnOnce() -> Result<T, Fault>) -> Result<T, Fault> {
        if self == Reading::Crate && by_crate()? != by_model {
            return Err(Fault::Disputed);
        }
        Ok(by_model)
    }
}

/// The number of so many bytes at a place, where all of them are there.
pub fn number(data: &[u8], at: u64, bytes: u64) -> Option<u64> {
    let end = at.checked_add(bytes).filter(|end| *end <= data.len() as u64);
    match end {
        Some(end) => {
            Some(data[at as usize..end as usize].iter().fold(0, |number, byte| number << 8 | u64::from(*byte)))
        }
        None => failed_read(),
    }
}

impl Reading {
    /// The element of a glyph in the lookup table at a place.
    pub fn lookup(self, data: &[u8], at: u64, glyph: u16) -> Option<u64> {
        if self == Reading::Manual && number(data, at, 2)? == 10 {
            trimmed(data, at, glyph)
        } else {
            aat::lookup::<u16>(&Bytes::new(data), at as usize, glyph).map(u64::from)
        }
    }

    /// Whether subtables with this tuple count are passed over in a run, and refused in a lone pass or step.
    pub fn leaves_out(self, tuples: u64) -> bool {
        self == Reading::Manual && tuples != 0
    }
}

/// The element of a glyph in format 10, by the manual: of as many bytes as the unit size says, which is 1 or 2.
fn trimmed(data: &[u8], at: u64, glyph: u16) -> Option<u64> {
    let [size, first, count] = [number(data, at + 2, 2)?, number(data, at + 4, 2)?, number(data, at + 6, 2)?];
    let index = u64::from(glyph).checked_sub(first)?;
    let has_element = index < count && (size == 1 || size == 2);
    has_element.then(|| number(data, at + 8 + size * index, size))?
}

/// A subtable of a list of this version: its bytes and all behind them.
pub struct Kerx<'a> {
    pub reading: Reading,
    pub version: u16,
    pub data: &'a [u8],
    /// The classes of the glyphs below its length, which are asked before the class table; empty for none.
    pub index: &'a [u16],
}

/// What a subtable's head says.
pub struct Head {
    size: u64,
    coverage: u64,
    pub tuples: u64,
}

/// A subtable that can be read, and is of a format that is not left out.
enum Opened<'a> {
    Pairs { count: u64 },
    Classes { rows: u64, columns: u64, array: u64 },
    Machine(Machine<'a>),
}

impl<'a> Kerx<'a> {
    /// One whose classes are by its class table.
    pub fn new(reading: Reading, version: u16, data: &'a [u8]) -> Self {
        Kerx { reading, version, data, index: &[] }
    }

    /// What its head says, where it can be read.
    pub fn head(&self) -> Option<Head> {
        let [size, coverage] = [number(self.data, 0, 4)?, number(self.data, 4, 4)?];
        let tuples = if self.version >= 4 { number(self.data, 8, 4)? } else { 0 };
        Some(Head { size, coverage, tuples })
    }

    /// The state table of a machine.
    pub fn states(&self) -> Option<States<'a>> {
        let data = self.data.get(12..).or_else(failed_read)?;
        Some(States { index: self.index, ..States::open(self.reading, data)? })
    }

    fn opened(&self) -> Option<(Head, Opened<'a>)> {
        let head = self.head()?;
        let long = |at| number(self.data, at, 4);
        let opened = match head.format() {
            0 => Opened::Pairs { count: long(12)? },
            1 => Opened::Machine(Machine::open(self.states()?, head.tuples)?),
            2 => Opened::Classes { rows: long(16)?, columns: long(20)?, array: long(24)? },
            _ => return None,
        };
        Some((head, opened))
    }

    /// The pass over these glyphs, which adds to as many adjustments.
    pub fn pass(&self, choices: Choices, glyphs: &[u16], along: &mut [i64]) -> Answer<()> {
        let opened = match self.opened() {
            None => return Answer::Head,
            Some((head, _)) if self.reading.leaves_out(head.tuples) => return Answer::Tuples,
            Some((_, opened)) => opened,
        };
        if let Opened::Machine(machine) = opened {
            let mut state = [0; STATE];
            return make_steps(glyphs, |place, glyph| machine.step(&mut state, place, glyph, along));
        }
        for (first, second) in choices.pairs(glyphs) {
            if let Some(number) = self.number_of(&opened, glyphs[first], glyphs[second]) {
                add_at(along, first, number);
            }
        }
        Answer::Done(())
    }

    /// Whether a run works on it, if it is of a format that is not left out.
    fn is_worked_on(&self, head: &Head) -> bool {
        !head.is_passed_over() && !self.reading.leaves_out(head.tuples)
    }

    /// The answer of a run's pass over the line by these bytes alone, where they are as many as the head states and no read beyond them
    /// is tried (W-214); DONE where a run passes over them.
    pub fn alone(&self, choices: Choices, right_to_left: bool, lent: &Kerned) -> Option<Answer<()>> {
        let (answer, has_failed) = noting(|| {
            let head = self.head()?;
            if head.size != self.data.len() as u64 {
                return None;
            }
            if !self.is_worked_on(&head) {
                return Some(Answer::Done(()));
            }
            let mut lent = lent.clone();
            if head.is_reversed() != right_to_left {
                lent.reverse();
            }
            let (glyphs, along) = lent.used();
            Some(self.pass(choices, glyphs, along))
        });
        answer.filter(|_| !has_failed)
    }

    /// A lone step, which changes the state and adds to the adjustments of the line.
    pub fn step(&self, state: &mut [u64; STATE], index: usize, glyph: u16, along: &mut [i64]) -> Answer<usize> {
        match self.opened() {
            Some((head, Opened::Machine(machine))) => {
                if self.reading.leaves_out(head.tuples) {
                    return Answer::Tuples;
                }
                stepped(machine.step(state, index, glyph, along))
            }
            _ => Answer::Head,
        }
    }

    /// What two glyphs add.
    fn number_of(&self, opened: &Opened, left: u16, right: u16) -> Option<i16> {
        match *opened {
            Opened::Pairs { count } => self.number_in_list(count, left, right),
            Opened::Classes { rows, columns, array } => {
                let row = self.reading.lookup(self.data, rows, left)?;
                let column = self.reading.lookup(self.data, columns, right)?;
                Some(number(self.data, array + row + column, 2)? as i16)
            }
            Opened::Machine(_) => None,
        }
    }

    /// The search by halves for a pair.
    fn number_in_list(&self, count: u64, left: u16, right: u16) -> Option<i16> {
        let pair = u64::from(left) << 16 | u64::from(right);
        let (mut least, mut most) = (0, count);
        while least < most {
            let middle = (least + most) / 2;
            let record = 28 + 6 * middle;
            match number(self.data, record, 4)? {
                found if found < pair => least = middle + 1,
                found if found > pair => most = middle,
                _ => return Some(number(self.data, record + 4, 2)? as i16),
            }
        }
        None
    }
}

const PUSH: u64 = 0x8000;
const STAY: u64 = 0x4000;
const RESET: u64 = 0x2000;

/// No list.
const NONE: u64 = 0xFFFF;

/// The most steps in a row that do not advance.
const MOST_CYCLES: u64 = 17;

/// An extended state table.
pub struct States<'a> {
    reading: Reading,
    /// From its start on, from which all places are counted.
    pub data: &'a [u8],
    classes: u64,
    class_table: u64,
    states: u64,
    entries: u64,
    index: &'a [u16],
}

impl<'a> States<'a> {
    /// The one whose head begins here, where that can be read.
    pub fn open(reading: Reading, data: &'a [u8]) -> Option<Self> {
        let long = |at| number(data, at, 4);
        let [classes, class_table, states, entries] = [long(0)?, long(4)?, long(8)?, long(12)?];
        Some(States { reading, data, classes, class_table, states, entries, index: &[] })
    }

    /// The class of a glyph.
    pub fn class(&self, glyph: u16) -> u64 {
        if glyph == DELETED {
            return 2;
        }
        if let Some(class) = self.index.get(usize::from(glyph)) {
            return (*class).into();
        }
        self.reading.lookup(self.data, self.class_table, glyph).unwrap_or(1)
    }

    /// The entry for a state and a glyph: the new state, the flags, and what its machine has behind them, of two bytes.
    pub fn entry(&self, state: u64, glyph: u16) -> Option<[u64; 3]> {
        let cell = self.states + 2 * (state * self.classes + self.class(glyph));
        let entry = self.entries + 6 * number(self.data, cell, 2)?;
        let word = |at| number(self.data, entry + at, 2);
        Some([word(0)?, word(2)?, word(4)?])
    }
}

/// What a step with these flags goes on by, and the steps in a row that did not advance, which are counted.
pub fn advance(flags: u64, cycles: &mut u64) -> usize {
    let advances = flags & STAY == 0 || *cycles == MOST_CYCLES;
    *cycles = if advances { 0 } else { *cycles + 1 };
    usize::from(advances)
}

/// A machine of format 1.
struct Machine<'a> {
    reading: Reading,
    table: States<'a>,
    values: u64,
    tuples: u64,
}

impl<'a> Machine<'a> {
    fn open(table: States<'a>, tuples: u64) -> Option<Self> {
        Some(Machine { reading: table.reading, values: number(table.data, 16, 4)?, table, tuples })
    }

    /// Where number k of the list of this index lies; None where the crate's sums do not fit 64 bits.
    fn place(&self, index: u64, k: u64) -> Option<u64> {
        match self.reading {
            Reading::Crate => {
                let size = 2 * self.tuples.max(1);
                (self.values + index).checked_mul(size)?.checked_add(k * size)
            }
            Reading::Manual => Some(self.values + 2 * index + 2 * k),
        }
    }

    /// Whether a number ends its list, with nothing popped for it.
    fn ends(&self, number: u64) -> bool {
        self.reading == Reading::Manual && number == 0xFFFF
    }

    /// One step from a state: the state table's number, the depth of the stack, the steps in a row that did not advance, and the
    /// stack. What it goes on by; None where it ends.
    fn step(&self, state: &mut [u64; STATE], index: usize, glyph: u16, along: &mut [i64]) -> Option<usize> {
        let [next, flags, list] = self.table.entry(state[0], glyph)?;
        state[0] = next;
        if flags & PUSH != 0 {
            if state[1] == DEEPEST as u64 {
                return None;
            }
            state[3 + state[1] as usize] = index as u64;
            state[1] += 1;
        }
        if list != NONE {
            self.take_list(list, state, along)?;
        }
        if flags & RESET != 0 {
            state[1] = 0;
        }
        Some(advance(flags, &mut state[2]))
    }

    /// Goes through a list as long as there is a place on the stack: each number that does not end it is added at the place that
    /// it pops.
    fn take_list(&self, index: u64, state: &mut [u64; STATE], along: &mut [i64]) -> Option<()> {
        self.place(index, 0)?;
        for k in 0..state[1] {
            let place = self.place(index, k).or_else(failed_read)?;
            let number = number(self.table.data, place, 2)?;
            if self.ends(number) {
                break;
            }
            state[1] -= 1;
            add_at(along, state[3 + state[1] as usize] as usize, number as i16);
        }
        Some(())
    }
}

/// A whole run of the table whose list begins at a start: the answer, and the heads that were counted.
pub fn run(
    reading: Reading,
    table: &[u8],
    start: u64,
    right_to_left: bool,
    choices: Choices,
    lent: &mut Kerned,
) -> (Answer<()>, u32) {
    lent.used().1.fill(0);
    visit_all(reading, table, start, right_to_left, |subtable, is_turned| {
        if is_turned {
            lent.reverse();
        }
        let (glyphs, along) = lent.used();
        subtable.pass(choices, glyphs, along);
        if is_turned {
            lent.reverse();
        }
    })
}

/// The way of a run: each subtable that is not passed over, and whether the line is turned round for it; then the answer, and the
/// heads that were counted.
pub fn visit_all(
    reading: Reading,
    table: &[u8],
    start: u64,
    right_to_left: bool,
    mut visit: impl FnMut(&Kerx, bool),
) -> (Answer<()>, u32) {
    let list = if start == 0 { &[] } else { &table[start as usize..] };
    let [version, count] = [(0, 2), (4, 4)].map(|(at, bytes)| number(list, at, bytes).unwrap_or(0));
    let (mut at, mut heads) = (8, 0);
    for _ in 0..count {
        let data = match list.get(at as usize..) {
            Some(data) => data,
            None => break,
        };
        let subtable = Kerx::new(reading, version as u16, data);
        let head = match subtable.head() {
            Some(head) => head,
            None => break,
        };
        if heads == MOST_HEADS {
            return (Answer::Limit, heads);
        }
        heads += 1;
        if subtable.is_worked_on(&head) {
            visit(&subtable, head.is_reversed() != right_to_left);
        }
        at += head.size;
    }
    (Answer::Done(()), heads)
}

impl Head {
    /// The subtable's format.
    pub fn format(&self) -> u64 {
        self.coverage & 0xFF
    }

    /// Whether it is for vertical text, across the line or for variations.
    fn is_passed_over(&self) -> bool {
        self.coverage & 0xE000_0000 != 0
    }

    fn is_reversed(&self) -> bool {
        self.coverage & 0x1000_0000 != 0
    }
}

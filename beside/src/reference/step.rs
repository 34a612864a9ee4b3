//! Document 01's lone step: what it is lent and when that is refused; written from the document alone.

use crate::reference::line::{Line, LARGEST_ROOM};
use crate::tables::kinds::Kind;
use crate::tables::{contextual, insertion, ligature, rearrangement};
use crate::wire::entries::Entry;
use crate::wire::reply::add;

/// A machine with its step.
pub struct Machine {
    pub kind: &'static Kind,
    pub step: Entry,
    /// What the numbers of its state are.
    pub state: &'static [Slot],
    /// What it is told or lent of the line.
    pub sees: Sees,
    /// How many numbers it is lent for the edits it hands over; none where it makes them itself.
    pub edits: usize,
}

/// What a number of a state is.
#[derive(Clone, Copy)]
pub enum Slot {
    State,
    Flag,
    Cycles,
    Place,
    Glyph,
    Depth,
    /// The place of this slot of the stack, which counts only where the depth is above its number.
    Stacked(u64),
}

/// What a step is told or lent of the line.
#[derive(Clone, Copy, PartialEq)]
pub enum Sees {
    Length,
    LengthAndRoom,
    Line,
}

/// The most steps in a row that do not advance.
const MOST_CYCLES: u64 = 17;

/// The most glyphs on a ligature's stack.
pub const DEEPEST: u64 = 32;

static LIGATURE_STATE: [Slot; 66] = {
    let mut slots = [Slot::Glyph; 66];
    slots[0] = Slot::State;
    slots[1] = Slot::Depth;
    let mut place = 0;
    while place < DEEPEST {
        slots[2 + place as usize] = Slot::Stacked(place);
        place += 1;
    }
    slots
};

/// The machines whose steps are exported.
pub static MACHINES: [Machine; 4] = [
    Machine {
        kind: &rearrangement::KIND,
        step: Entry::RearrangementStep,
        state: &[Slot::State, Slot::Place, Slot::Place, Slot::Cycles],
        sees: Sees::Length,
        edits: 3,
    },
    Machine {
        kind: &contextual::KIND,
        step: Entry::ContextualStep,
        state: &[Slot::State, Slot::Flag, Slot::Place, Slot::Glyph],
        sees: Sees::Line,
        edits: 0,
    },
    Machine { kind: &ligature::KIND, step: Entry::LigatureStep, state: &LIGATURE_STATE, sees: Sees::Line, edits: 0 },
    Machine {
        kind: &insertion::KIND,
        step: Entry::InsertionStep,
        state: &[Slot::State, Slot::Place, Slot::Cycles],
        sees: Sees::LengthAndRoom,
        edits: 7,
    },
];

/// What a step is lent, and what it leaves. Where it is told the length, or the length and the room, the line has no more.
#[derive(Clone, PartialEq)]
pub struct Lent {
    pub state: Vec<u64>,
    pub line: Line,
    pub room: u64,
    pub edits: Vec<u64>,
}

impl Lent {
    /// The arguments of a call of a machine's step with this; the advance holds a number of its own.
    pub fn lend(&self, machine: &Machine, start: u64, told: Told, advance: u64, call: &mut Vec<u8>) {
        add(&self.state, call);
        match machine.sees {
            Sees::Line => self.line.lend(call),
            Sees::Length => add(&[self.line.used], call),
            Sees::LengthAndRoom => add(&[self.line.used, self.room], call),
        }
        add(&[start, told.index], call);
        call.extend(told.glyph.to_le_bytes());
        call.extend(told.ends.to_le_bytes());
        add(&[advance], call);
        add(&self.edits, call);
    }
}

/// What a step is told of a glyph.
#[derive(Clone, Copy)]
pub struct Told {
    pub index: u64,
    pub glyph: u16,
    /// Not 0 at end of text.
    pub ends: u32,
}

impl Sees {
    /// A copy of the line as far as the step sees it.
    pub fn of(self, line: &Line) -> Line {
        match self {
            Sees::Line => line.clone(),
            _ => Line { used: line.used, ..Line::none() },
        }
    }

    /// Lends a line as far as the step sees it, and takes it back.
    pub fn lend(self, line: &mut Line, lent: &mut Line) {
        match self {
            Sees::Line => std::mem::swap(line, lent),
            _ => lent.used = line.used,
        }
    }
}

impl Machine {
    /// Whether this is a line, or the length and room of one.
    pub fn is_line(&self, lent: &Lent) -> bool {
        let largest = LARGEST_ROOM as u64;
        match self.sees {
            Sees::Length => lent.line.used <= largest,
            Sees::LengthAndRoom => lent.room <= largest && lent.line.used <= lent.room,
            Sees::Line => lent.line.is_line(),
        }
    }

    /// Whether these numbers are a state on a line of this length.
    pub fn is_state(&self, state: &[u64], length: u64) -> bool {
        self.state.iter().zip(state).all(|(slot, number)| match slot {
            Slot::State | Slot::Glyph => *number <= 0xFFFF,
            Slot::Flag => *number <= 1,
            Slot::Cycles => *number <= MOST_CYCLES,
            Slot::Place => *number <= length,
            Slot::Depth => *number <= DEEPEST,
            Slot::Stacked(slot) => *slot >= state[1] || *number <= length,
        })
    }
}

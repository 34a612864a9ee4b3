//! mort, the earlier edition of morx, which the crate does not have: its lists, its two kinds that are taken, and a whole run, written
//! from W-212 and what stands in for the manual's pages alone. `mort_as_morx` is the second judge.

use crate::reference::carried::Moved;
use crate::reference::kerx_readings::{number, Reading};
use crate::reference::line::{Line, DELETED};
use crate::reference::lists_by_copy::{chains_from, Cursor};
use crate::reference::oracle::Answer;
use crate::reference::pass::{make_steps, stepped};
use crate::reference::run::{request, Run, MOST_HEADS};

/// The bytes in the heads of a chain and of a subtable, and in a feature.
const CHAIN_HEAD: u64 = 12;
pub const SUBTABLE_HEAD: u64 = 8;
const FEATURE: u64 = 12;

/// What a chain's head says.
pub struct Chain {
    pub flags: u32,
    pub features: Cursor,
    pub subtables: Cursor,
}

/// What a subtable's head says, and where it begins.
#[derive(Clone, Copy)]
pub struct Subtable {
    pub start: u64,
    pub coverage: u16,
    pub flags: u32,
}

/// A chain, and where the list goes on; None at the list's end.
pub fn next_chain(table: &[u8], [place, left]: Cursor) -> Option<(Chain, Cursor)> {
    let left = left.checked_sub(1)?;
    let head = read(table, place, CHAIN_HEAD)?;
    let [flags, length] = [number(head, 0, 4)?, number(head, 4, 4)?];
    let [features, subtables] = [number(head, 8, 2)?, number(head, 10, 2)?];
    let first_feature = place + CHAIN_HEAD;
    let features = [first_feature, features];
    let subtables = [first_feature + FEATURE * features[1], subtables];
    Some((Chain { flags: flags as u32, features, subtables }, [place + length, left]))
}

/// A subtable, and where the list goes on; None at the list's end.
pub fn next_subtable(table: &[u8], [place, left]: Cursor) -> Option<(Subtable, Cursor)> {
    let left = left.checked_sub(1)?;
    let head = read(table, place, SUBTABLE_HEAD)?;
    let [length, coverage, flags] = [number(head, 0, 2)?, number(head, 2, 2)?, number(head, 4, 4)?];
    let subtable = Subtable { start: place, coverage: coverage as u16, flags: flags as u32 };
    Some((subtable, [place + length, left]))
}

/// So many bytes from a place on, where all of them are there.
fn read(table: &[u8], place: u64, count: u64) -> Option<&[u8]> {
    table.get(usize::try_from(place).ok()?..usize::try_from(place.checked_add(count)?).ok()?)
}

impl Chain {
    /// The flags that choose its subtables: its own, changed by each feature that is asked for, in the table's order, up to the
    /// first that can't be read.
    fn flags_with(&self, table: &[u8], requests: &[u32]) -> u32 {
        let mut flags = self.flags;
        let [first, count] = self.features;
        // Without requests there is nothing to change.
        let count = if requests.is_empty() { 0 } else { count };
        for feature in (0..count).map_while(|index| read(table, first + FEATURE * index, FEATURE)) {
            let part = |at: usize| u32::from_be_bytes([feature[at], feature[at + 1], feature[at + 2], feature[at + 3]]);
            let asked_for = request((part(0) >> 16) as u16, part(0) as u16);
            if requests.contains(&asked_for) {
                flags = flags & part(8) | part(4);
            }
        }
        flags
    }
}

const VERTICAL: u16 = 0x8000;
const DESCENDING: u16 = 0x4000;
const BOTH_WAYS: u16 = 0x2000;
const KIND: u16 = 7;

const REARRANGEMENT: u16 = 0;
const NONCONTEXTUAL: u16 = 4;

impl Subtable {
    /// The kind's number.
    pub fn kind(&self) -> u16 {
        self.coverage & KIND
    }

    /// Whether it wants the glyphs in descending order.
    pub fn is_descending(&self) -> bool {
        self.coverage & DESCENDING != 0
    }

    /// Whether a run makes its pass in a chain with these flags, where its kind is one that is taken.
    fn is_chosen(&self, flags: u32) -> bool {
        let is_vertical = self.coverage & VERTICAL != 0 && self.coverage & BOTH_WAYS == 0;
        self.flags & flags != 0 && !is_vertical
    }

    /// The pass over the line; HEAD for a kind that is not taken.
    fn pass(&self, table: &[u8], line: &mut Line, see: &mut dyn FnMut(Moved)) -> Answer<()> {
        let body = &table[(self.start + SUBTABLE_HEAD) as usize..];
        match self.kind() {
            REARRANGEMENT => rearrange(body, line, see),
            NONCONTEXTUAL => substitute(body, line),
            _ => Answer::Head,
        }
    }
}

/// The lone pass by the subtable at a start, on what is a line; each edit of its history is shown.
pub fn pass(table: &[u8], start: u64, line: &mut Line, see: &mut dyn FnMut(Moved)) -> Answer<()> {
    match next_subtable(table, [start, 1]) {
        Some((subtable, _)) => subtable.pass(table, line, see),
        None => Answer::Head,
    }
}

/// Each glyph by itself.
fn substitute(body: &[u8], line: &mut Line) -> Answer<()> {
    let length = line.length();
    for glyph in &mut line.glyphs[..length] {
        if let Some(other) = Reading::Manual.lookup(body, 0, *glyph) {
            *glyph = other as u16;
        }
    }
    Answer::Done(())
}

/// A classic state table; all places are counted from its start.
struct States<'a> {
    data: &'a [u8],
    class_count: u64,
    state_array: u64,
    entry_table: u64,
    first_glyph: u16,
    classes: &'a [u8],
}

const ENTRY: u64 = 4;

impl<'a> States<'a> {
    /// None where its head, the class table or where the states begin is not in the table.
    fn open(data: &'a [u8]) -> Option<Self> {
        let word = |at| number(data, at, 2);
        let [class_count, class_table, state_array, entry_table] = [word(0)?, word(2)?, word(4)?, word(6)?];
        let [first_glyph, count] = [word(class_table)?, word(class_table + 2)?];
        let classes = read(data, class_table + 4, count)?;
        // As document 01 has it, a list of no elements at the end is none.
        let has_classes = class_table + 4 < data.len() as u64;
        let opened = States { data, class_count, state_array, entry_table, first_glyph: first_glyph as u16, classes };
        (has_classes && state_array <= data.len() as u64).then_some(opened)
    }

    fn class(&self, glyph: u16) -> u64 {
        if glyph == DELETED {
            return 2;
        }
        let covered = glyph.checked_sub(self.first_glyph).and_then(|index| self.classes.get(usize::from(index)));
        covered.map_or(1, |class| u64::from(*class))
    }

    /// The new state and the flags of an entry; None where it can't be read, has no state or there are no classes.
    fn entry(&self, state: u64, class: u64) -> Option<(u64, u64)> {
        let index = number(self.data, self.state_array + state * self.class_count + class, 1)?;
        let place = self.entry_table + ENTRY * index;
        let [new_state, flags] = [number(self.data, place, 2)?, number(self.data, place + 2, 2)?];
        let row = new_state.checked_sub(self.state_array)?.checked_div(self.class_count)?;
        Some((row, flags))
    }
}

const MARK_FIRST: u64 = 0x8000;
const STAY: u64 = 0x4000;
const MARK_LAST: u64 = 0x2000;
const VERB: u64 = 0xF;

/// The most steps in a row that do not advance.
const MOST_CYCLES: u64 = 17;

/// The class at end of text.
const END_OF_TEXT: u64 = 0;

fn rearrange(body: &[u8], line: &mut Line, see: &mut dyn FnMut(Moved)) -> Answer<()> {
    let states = match States::open(body) {
        Some(states) => states,
        None => return Answer::Ended,
    };
    let (mut state, mut first, mut last, mut cycles) = (0, 0, 0, 0);
    make_steps(line, |line, place, glyph, is_end| {
        let class = if is_end { END_OF_TEXT } else { states.class(glyph) };
        let (new_state, flags) = match states.entry(state, class) {
            Some(entry) => entry,
            None => return stepped(None),
        };
        state = new_state;
        if flags & MARK_FIRST != 0 {
            first = place;
        }
        if flags & MARK_LAST != 0 {
            last = place;
        }
        let verb = (flags & VERB) as u16;
        if verb != 0 && first <= last {
            see(Moved::Window { first, last, verb });
            line.rearrange(first, last, verb);
        }
        let advances = flags & STAY == 0 || cycles == MOST_CYCLES;
        cycles = if advances { 0 } else { cycles + 1 };
        stepped(Some(usize::from(advances)))
    })
}

/// A whole run, which is refused as a run of morx is: the answer, and the heads that were counted; each edit of its history is shown.
pub fn run(run: &Run, line: &mut Line, see: &mut dyn FnMut(Moved)) -> (Answer<()>, u32) {
    let mut heads = 0;
    let mut chains = chains_from(run.table, run.start);
    while let Some((chain, behind)) = next_chain(run.table, chains) {
        chains = behind;
        if heads == MOST_HEADS {
            return (Answer::Limit, heads);
        }
        heads += 1;
        let flags = chain.flags_with(run.table, run.requests);
        let mut subtables = chain.subtables;
        while let Some((subtable, behind)) = next_subtable(run.table, subtables) {
            subtables = behind;
            if heads == MOST_HEADS {
                return (Answer::Limit, heads);
            }
            heads += 1;
            if subtable.is_chosen(flags) {
                let is_turned = subtable.is_descending() != run.right_to_left;
                if is_turned {
                    see(Moved::Reversal);
                    line.reverse();
                }
                // However it ends, that is the end of this subtable alone.
                subtable.pass(run.table, line, see);
                if is_turned {
                    see(Moved::Reversal);
                    line.reverse();
                }
            }
        }
    }
    (Answer::Done(()), heads)
}

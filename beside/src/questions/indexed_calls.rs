//! Calls of the entries that fill an index of classes and go by one, beside the crate's own `next` by such an index and on a table that
//! is rewritten with its numbers.

use crate::questions::kerning_choices::describe_choices;
use crate::questions::Question;
use crate::reference::anchored::Anchored;
use crate::reference::indexed::{
    class_start, classes, is_kerx_rewritten, is_morx_rewritten, kerx_pass, morx_pass, Index, Told, MOST_ENTRIES,
};
use crate::reference::kerning::Kerning;
use crate::reference::kerning_choices::Choices;
use crate::reference::line::Line;
use crate::reference::oracle::aat::ExtendedStateTable;
use crate::reference::oracle::{caught, Answer, Bytes, Fault, LONGEST_TABLE};
use crate::tables::random::Random;
use crate::wire::entries::{Entry, ENTRIES};
use crate::wire::index::{add_index, describe_index, lend_index, sum};
use crate::wire::reply::{add, number};
use std::cell::Cell;
use std::rc::Rc;

const KERX: Kerning = Kerning::Kerx;

/// What is counted of a pass.
#[derive(Clone, Copy)]
enum Counted {
    /// By an index that is filled as it should be.
    Filled,
    /// By one with other numbers, which was let through.
    Other,
    /// By such a one, and left otherwise than by the plain pass.
    Otherwise,
    /// Made by the crate as published, too, on a table that is rewritten.
    Rewritten,
    /// By such a table as on the table itself: no read left the table, or came to its head.
    Alike,
}

const COUNTED: [Entry; 2] = [Entry::MorxPassIndexed, Entry::KerxPassIndexed];

thread_local! {
    static COUNTS: Cell<[[u64; 5]; COUNTED.len()]> = Cell::default();
}

fn count(entry: Entry, what: Counted) -> u64 {
    let place = COUNTED.iter().position(|counted| *counted == entry).expect("a pass by an index");
    let mut counts = COUNTS.with(Cell::get);
    counts[place][what as usize] += 1;
    COUNTS.with(|cell| cell.set(counts));
    counts[place][what as usize]
}

/// How many passes went by which indexes, in words.
pub fn counted() -> Vec<String> {
    let name = |entry: &Entry| ENTRIES[*entry as usize - 1].1;
    let line = |(entry, [filled, other, otherwise, rewritten, alike]): (&Entry, [u64; 5])| {
        let numbers = format!("{} by other numbers, {} of them otherwise than the plain pass", other, otherwise);
        let made = format!("{} on rewritten tables, {} of them as on the table itself", rewritten, alike);
        format!("{}: {} by a filled index; {}; {}", name(entry), filled, numbers, made)
    };
    COUNTED.iter().zip(COUNTS.with(Cell::get)).map(line).collect()
}

/// One pass of so many is made on a rewritten table, too.
const REWRITTEN_ONE_IN: u64 = 16;

/// Looks at a pass that was made: by a filled index it has to leave what the plain pass leaves.
fn compare_plain(entry: Entry, is_filled: bool, is_plain: bool) -> Result<bool, Fault> {
    let made = count(entry, if is_filled { Counted::Filled } else { Counted::Other });
    if is_filled && !is_plain {
        return Err(Fault::Disputed);
    }
    if !is_filled && !is_plain {
        count(entry, Counted::Otherwise);
    }
    Ok(made % REWRITTEN_ONE_IN == 1)
}

fn count_rewritten(entry: Entry, is_alike: bool) {
    count(entry, Counted::Rewritten);
    if is_alike {
        count(entry, Counted::Alike);
    }
}

/// How the index of a call is made.
#[derive(Clone, Copy)]
pub struct Making {
    pub length: usize,
    /// The seed of other numbers than the classes.
    pub other: Option<u64>,
    pub start: Start,
}

/// The start that a pass is told for its class table.
#[derive(Clone, Copy)]
pub enum Start {
    Right,
    /// So much behind the right one, modulo 2^64.
    Off(u64),
    At(u64),
}

impl Making {
    /// A filled index of so many entries, with the right start.
    pub fn filled(length: usize) -> Self {
        Making { length, other: None, start: Start::Right }
    }

    /// Whether it holds the classes.
    pub fn is_filled(&self) -> bool {
        self.other.is_none()
    }

    /// The index for the subtable at a start of a table; where that has no state table, of zeros.
    pub fn index(&self, table: &[u8], start: u64, choices: Choices) -> Index {
        let at = start.wrapping_add(12);
        let right = class_start(table, at).unwrap_or(at);
        let filled = || classes(choices.reading(KERX), table, at, self.length.min(MOST_ENTRIES));
        let mut numbers = match self.other {
            Some(seed) => other_numbers(&mut Random::new(seed), self.length),
            None => filled().unwrap_or_default(),
        };
        numbers.resize(self.length, 0);
        let start = match self.start {
            Start::Right => right,
            Start::Off(more) => right.wrapping_add(more),
            Start::At(start) => start,
        };
        Index { classes: Rc::from(numbers), start }
    }
}

/// Any numbers: mostly such as classes are.
fn other_numbers(random: &mut Random, length: usize) -> Vec<u16> {
    let any = |random: &mut Random| match random.below(40) {
        0 => random.word(),
        1 => random.below(16) as u16,
        _ => random.below(8) as u16,
    };
    (0..length).map(|_| any(random)).collect()
}

/// A call of the filler.
pub struct Fill {
    pub start: u64,
    pub choices: Choices,
    pub length: usize,
    /// The classes and where their table begins, where a document gives them.
    pub written: Option<(Vec<u16>, u64)>,
}

impl Fill {
    /// The answer, the classes, and where the class table begins.
    fn after(&self, table: &[u8]) -> Result<Answer<(Vec<u16>, u64)>, Fault> {
        if table.len() > LONGEST_TABLE {
            return Ok(Answer::Table);
        }
        let begins = match class_start(table, self.start) {
            Some(begins) => begins,
            None => return Ok(Answer::Head),
        };
        if self.length > MOST_ENTRIES {
            return Ok(Answer::Index);
        }
        let reading = self.choices.reading(KERX);
        let by_model = classes(reading, table, self.start, self.length).ok_or(Fault::Disputed)?;
        let numbers = reading.right(by_model, || {
            caught(|| {
                let states = ExtendedStateTable::new(&Bytes::with_offset(table, self.start as usize)?)?;
                Some((0..self.length).map(|glyph| states.class(glyph as u16)).collect())
            })?
            .ok_or(Fault::Disputed)
        })?;
        match &self.written {
            Some(written) if *written != (numbers.clone(), begins) => Err(Fault::Disputed),
            _ => Ok(Answer::Done((numbers, begins))),
        }
    }
}

impl Question for Fill {
    fn entry(&self) -> Entry {
        Entry::IndexClasses
    }

    fn arguments(&self, held: u64, call: &mut Vec<u8>) {
        add(&[self.start], call);
        call.extend(self.choices.0.to_le_bytes());
        call.extend((self.length as u32).to_le_bytes());
        call.extend((held as u16).to_le_bytes());
        add(&[held], call);
    }

    fn reply(&self, table: &[u8], held: u64, reply: &mut Vec<u8>) -> Result<(), Fault> {
        let (answer, numbers, begins) = match self.after(table)? {
            Answer::Done((numbers, begins)) => (0, numbers, begins),
            Answer::Table => (Answer::<()>::Table.number(), vec![held as u16; self.length], held),
            Answer::Head => (Answer::<()>::Head.number(), vec![held as u16; self.length], held),
            _ => (Answer::<()>::Index.number(), vec![held as u16; self.length], held),
        };
        reply.extend(answer.to_le_bytes());
        add_index(&numbers, reply);
        add(&[begins], reply);
        Ok(())
    }

    fn describe(&self, held: u64) -> String {
        let told = format!("index of {} entries to be filled, state table at {}", self.length, self.start);
        format!("{}{}, lent number {}, start {}", told, describe_choices(Some(self.choices)), held as u16, held)
    }

    fn describe_reply(&self, reply: &[u8]) -> String {
        let (rest, begins) = reply.split_at(reply.len() - 8);
        format!("answer {}, {}, class table at {}", number(&rest[..4]), describe_index(&rest[4..]), number(begins))
    }
}

/// A call of morx's pass.
#[derive(Clone)]
pub struct MorxIndexed {
    pub line: Line,
    pub start: u64,
    pub index: Index,
    pub is_filled: bool,
}

impl MorxIndexed {
    /// The answer, and the line as the call has to leave it.
    fn after(&self, table: &[u8]) -> Result<(Answer<()>, Line), Fault> {
        let mut line = self.line.clone();
        if table.len() > LONGEST_TABLE {
            return Ok((Answer::Table, line));
        }
        if !line.is_line() {
            return Ok((Answer::Line, line));
        }
        let answer = morx_pass(table, self.start, Some(&self.index), &mut line)?;
        if matches!(answer, Answer::Done(()) | Answer::Ended | Answer::Full) {
            let mut plain = self.line.clone();
            let is_plain = morx_pass(table, self.start, None, &mut plain)? == answer && plain == line;
            if compare_plain(self.entry(), self.is_filled, is_plain)? {
                let is_alike = is_morx_rewritten(table, self.start, &self.index, &self.line, (answer, &line))?;
                count_rewritten(self.entry(), is_alike);
            }
        }
        Ok((answer, line))
    }
}

impl Question for MorxIndexed {
    fn entry(&self) -> Entry {
        Entry::MorxPassIndexed
    }

    fn arguments(&self, _held: u64, call: &mut Vec<u8>) {
        self.line.lend(call);
        add(&[self.start], call);
        lend_index(&self.index.classes, call);
        add(&[self.index.start], call);
    }

    fn reply(&self, table: &[u8], _held: u64, reply: &mut Vec<u8>) -> Result<(), Fault> {
        let (answer, line) = self.after(table)?;
        line.reply(answer, reply);
        add(&[sum(&self.index.classes), line.used], reply);
        Ok(())
    }

    fn describe(&self, _held: u64) -> String {
        let Index { classes, start } = &self.index;
        let told = format!("indexed morx pass at start {}, class table at {}", self.start, start);
        let index = crate::wire::reply::describe(classes);
        format!("{}, index {}, filled {}, lent {}", told, index, self.is_filled, self.line.describe())
    }

    fn describe_reply(&self, reply: &[u8]) -> String {
        self.line.describe_reply_with_used(reply)
    }
}

/// A call of kerx's pass.
#[derive(Clone)]
pub struct KerxIndexed {
    pub version: u16,
    pub choices: Choices,
    pub ankr: Rc<[u8]>,
    pub lent: Anchored,
    pub start: u64,
    pub index: Index,
    pub is_filled: bool,
}

impl KerxIndexed {
    /// The answer, and what the call has to leave.
    fn after(&self, table: &[u8]) -> Result<(Answer<()>, Anchored), Fault> {
        let mut lent = self.lent.clone();
        if let Some(answer) = lent.refuses_pass(table, &self.ankr) {
            return Ok((answer, lent));
        }
        let told = Told { version: self.version, choices: self.choices, ankr: &self.ankr, start: self.start };
        let answer = kerx_pass(table, told, Some(&self.index), &mut lent)?;
        if matches!(answer, Answer::Done(()) | Answer::Ended) {
            let mut plain = self.lent.clone();
            let is_plain = kerx_pass(table, told, None, &mut plain)? == answer
                && plain.kerned.along == lent.kerned.along
                && plain.marks == lent.marks;
            let is_rewritten = compare_plain(self.entry(), self.is_filled, is_plain)?;
            if is_rewritten && self.choices.reading(KERX) == Choices::NONE.reading(KERX) {
                let is_alike = is_kerx_rewritten(table, told, &self.index, &self.lent, (answer, &lent))?;
                count_rewritten(self.entry(), is_alike);
            }
        }
        Ok((answer, lent))
    }
}

impl Question for KerxIndexed {
    fn entry(&self) -> Entry {
        Entry::KerxPassIndexed
    }

    fn arguments(&self, _held: u64, call: &mut Vec<u8>) {
        self.lent.lend(self.start, &self.ankr, call);
        call.extend(self.version.to_le_bytes());
        call.extend(self.choices.0.to_le_bytes());
        lend_index(&self.index.classes, call);
        add(&[self.index.start], call);
    }

    fn reply(&self, table: &[u8], _held: u64, reply: &mut Vec<u8>) -> Result<(), Fault> {
        let (answer, lent) = self.after(table)?;
        lent.reply(answer, reply);
        add(&[sum(&self.index.classes)], reply);
        Ok(())
    }

    fn describe(&self, _held: u64) -> String {
        let Index { classes, start } = &self.index;
        let chosen = describe_choices(Some(self.choices));
        let told = format!("indexed kerx pass at start {}, version {}{}", self.start, self.version, chosen);
        let index = format!("class table at {}, index {}", start, crate::wire::reply::describe(classes));
        let ankr = crate::wire::hex::describe(&self.ankr);
        format!("{}, {}, filled {}, ankr of {}, lent {}", told, index, self.is_filled, ankr, self.lent.describe())
    }

    fn describe_reply(&self, reply: &[u8]) -> String {
        self.lent.describe_reply(&reply[..reply.len() - 8])
    }
}

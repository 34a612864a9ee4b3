//! Calls of the entries for anchored marks beside the crate's own `next` and a model of the manual's reading.

use crate::questions::indexed_calls::{KerxIndexed, Making};
use crate::questions::kerning_choices::{count, describe_choices};
use crate::questions::Question;
use crate::reference::anchored::{self, Anchored, Mark, Marks, Stepped, STATE};
use crate::reference::anchored_by_copy::{self as by_copy, open, published_pass};
use crate::reference::kerning::{Kerning, Subtable};
use crate::reference::kerning_choices::Choices;
use crate::reference::kerning_run::Run;
use crate::reference::kerx_readings::{self, Kerx};
use crate::reference::oracle::{Answer, Fault};
use crate::reference::trace::{describe_state, end_pass};
use crate::wire::along::{add_along, along_of, describe_along, lend_along};
use crate::wire::entries::{Entry, ENTRIES};
use crate::wire::hex;
use crate::wire::marks::lend_ankr;
use crate::wire::reply::{add, number, numbers};
use std::cell::Cell;
use std::rc::Rc;

const KERX: Kerning = Kerning::Kerx;

/// The entries, in the order in which they are counted.
const COUNTED: [Entry; 3] = [Entry::KerxPassAnchored, Entry::KerxRunAnchored, Entry::AnchorStep];

thread_local! {
    /// For each of these, the calls that were not refused, and those of them that wrote marks.
    static CALLS: Cell<[[u64; 2]; COUNTED.len()]> = Cell::default();
}

/// Counts a call that wrote marks or did not.
fn count_call(entry: Entry, has_written: bool) {
    let mut calls = CALLS.with(Cell::get);
    for (_, [made, written]) in COUNTED.iter().zip(&mut calls).filter(|(of, _)| **of == entry) {
        *made += 1;
        *written += u64::from(has_written);
    }
    CALLS.with(|cell| cell.set(calls));
}

/// How many calls wrote marks, in words.
pub fn counted() -> Vec<String> {
    let name = |entry: &Entry| ENTRIES[*entry as usize - 1].1;
    let line = |(entry, [made, written]): (&Entry, [u64; 2])| {
        format!("{}: {} calls, {} wrote marks", name(entry), made, written)
    };
    COUNTED.iter().zip(CALLS.with(Cell::get)).map(line).collect()
}

fn describe_ankr(ankr: &[u8]) -> String {
    format!("ankr of {}", hex::describe(ankr))
}

/// A call of a pass.
#[derive(Clone)]
pub struct AnchoredPass {
    pub version: u16,
    pub choices: Choices,
    pub ankr: Rc<[u8]>,
    pub lent: Anchored,
    pub start: u64,
    /// The answer and the marks of the places that are used, where a document gives them.
    pub written: Option<(Answer<()>, Vec<Mark>)>,
}

impl AnchoredPass {
    /// The answer, and what the call has to leave.
    fn after(&self, table: &[u8]) -> Result<(Answer<()>, Anchored), Fault> {
        let (answer, lent) = self.left(table)?;
        let left_by = |choices| AnchoredPass { choices, ..self.clone() }.left(table);
        count(self.entry(), self.choices, |choices| {
            let other = left_by(choices)?.1;
            Ok(other.kerned.along != lent.kerned.along || other.marks != lent.marks)
        })?;
        if matches!(answer, Answer::Done(()) | Answer::Ended) {
            count_call(self.entry(), lent.marks != self.lent.marks);
        }
        match &self.written {
            Some((right, _)) if *right != answer => Err(Fault::Disputed),
            Some((_, marks)) if *marks != lent.marks.of_places(lent.kerned.line.length()) => Err(Fault::Disputed),
            _ => Ok((answer, lent)),
        }
    }

    fn left(&self, table: &[u8]) -> Result<(Answer<()>, Anchored), Fault> {
        let mut lent = self.lent.clone();
        let answer = match lent.refuses_pass(table, &self.ankr) {
            Some(answer) => answer,
            None => self.made(table, &mut lent)?,
        };
        Ok((answer, lent))
    }

    /// The pass by the model, and in the crate's reading by the crate.
    fn made(&self, table: &[u8], lent: &mut Anchored) -> Result<Answer<()>, Fault> {
        let data = match table.get(self.start as usize..) {
            Some(data) => data,
            None => return Ok(Answer::Head),
        };
        let (choices, reading) = (self.choices, self.choices.reading(KERX));
        let mut by_crate = lent.clone();
        let answer = Kerx::new(reading, self.version, data).anchored_pass(&self.ankr, choices, lent);
        let left = (answer, lent.kerned.along.clone(), lent.marks.clone());
        reading.right(left, || {
            let answer = self.made_by_crate(data, &mut by_crate)?;
            Ok((answer, by_crate.kerned.along, by_crate.marks))
        })?;
        Ok(answer)
    }

    fn made_by_crate(&self, data: &[u8], lent: &mut Anchored) -> Result<Answer<()>, Fault> {
        let table = KERX.alone(self.version, data);
        let Anchored { kerned, marks } = lent;
        let machine = match open(&table, &self.ankr) {
            Some(machine) => machine,
            None => {
                return match Subtable::alone(KERX, &table)? {
                    Some(subtable) => kerned.pass(&subtable, self.choices),
                    None => Ok(Answer::Head),
                }
            }
        };
        let (glyphs, _) = kerned.used();
        self.compare_published(&table, glyphs, marks)?;
        by_copy::pass(&machine, glyphs, marks, &mut |_, _, _| {})
    }

    /// The crate as published has to make of both tables in one font what its copy makes of the same bytes.
    fn compare_published(&self, table: &[u8], glyphs: &[u16], marks: &Marks) -> Result<(), Fault> {
        if table.len() + self.ankr.len() > LARGEST_FONT {
            return Ok(());
        }
        let font = [table, &self.ankr].concat();
        let [mut ours, mut theirs] = [marks.clone(), marks.clone()];
        let by_copy = match open(&font, &self.ankr) {
            Some(machine) => Some(by_copy::pass(&machine, glyphs, &mut ours, &mut |_, _, _| {})?),
            None => None,
        };
        if by_copy != published_pass(&font, table.len(), glyphs, &mut theirs)? || ours != theirs {
            return Err(Fault::Disputed);
        }
        Ok(())
    }
}

/// Larger ones are not put together for the crate as published.
const LARGEST_FONT: usize = 4_096;

impl Question for AnchoredPass {
    fn entry(&self) -> Entry {
        Entry::KerxPassAnchored
    }

    fn arguments(&self, _held: u64, call: &mut Vec<u8>) {
        self.lent.lend(self.start, &self.ankr, call);
        call.extend(self.version.to_le_bytes());
        call.extend(self.choices.0.to_le_bytes());
    }

    fn reply(&self, table: &[u8], _held: u64, reply: &mut Vec<u8>) -> Result<(), Fault> {
        let (answer, lent) = self.after(table)?;
        lent.reply(answer, reply);
        Ok(())
    }

    fn describe(&self, _held: u64) -> String {
        let told = format!("anchored kerx pass at start {}, version {}", self.start, self.version);
        let chosen = describe_choices(Some(self.choices));
        format!("{}{}, {}, lent {}", told, chosen, describe_ankr(&self.ankr), self.lent.describe())
    }

    fn describe_reply(&self, reply: &[u8]) -> String {
        self.lent.describe_reply(reply)
    }

    fn with_index(&self, table: &[u8], making: &Making) -> Option<Box<dyn Question>> {
        let AnchoredPass { version, choices, ankr, lent, start, .. } = self.clone();
        let (index, is_filled) = (making.index(table, start, choices), making.is_filled());
        Some(Box::new(KerxIndexed { version, choices, ankr, lent, start, index, is_filled }))
    }

    fn trace(&self, table: &[u8]) -> Vec<String> {
        let mut steps = Vec::new();
        let mut lent = self.lent.clone();
        if lent.refuses_pass(table, &self.ankr).is_some() || self.start > table.len() as u64 {
            return steps;
        }
        let alone = KERX.alone(self.version, &table[self.start as usize..]);
        if let Some(machine) = open(&alone, &self.ankr) {
            let Anchored { kerned, marks } = &mut lent;
            let (glyphs, _) = kerned.used();
            let answer = by_copy::pass(&machine, glyphs, marks, &mut |state, place, marks| {
                let told = format!("step at place {}, glyph {}", place, glyphs[place]);
                steps.push(format!("{}; state {}; {}", told, describe_state(state), marks.describe()));
            });
            end_pass(&mut steps, answer, &marks.describe());
        }
        steps
    }
}

/// A call of a run.
#[derive(Clone)]
pub struct AnchoredRun {
    pub choices: Choices,
    pub ankr: Rc<[u8]>,
    pub lent: Anchored,
    pub start: u64,
    /// Not 0 where the text runs from right to left.
    pub right_to_left: u32,
    /// The adjustments and marks of the places that are used, where a document gives them.
    pub written: Option<(Vec<i64>, Vec<Mark>)>,
}

impl AnchoredRun {
    /// The answer, what the call has to leave, and the heads, where they are counted.
    fn after(&self, table: &[u8]) -> Result<(Answer<()>, Anchored, Option<u32>), Fault> {
        let mut lent = self.lent.clone();
        if let Some(answer) = lent.refuses_run(table, &self.ankr, self.start) {
            return Ok((answer, lent, None));
        }
        let (answer, heads) = self.made(table, self.choices, &mut lent)?;
        count(self.entry(), self.choices, |choices| {
            let mut other = self.lent.clone();
            self.made(table, choices, &mut other)?;
            Ok(other.kerned.along != lent.kerned.along || other.marks != lent.marks)
        })?;
        let length = lent.kerned.line.length();
        let marks = lent.marks.of_places(length);
        count_call(self.entry(), marks.iter().any(|mark| *mark != (0, 0, 0)));
        match &self.written {
            Some(written) if (&lent.kerned.along[..length], marks) != (&written.0[..], written.1.clone()) => {
                Err(Fault::Disputed)
            }
            _ => Ok((answer, lent, Some(heads))),
        }
    }

    /// The run by the model, and in the crate's reading by the crate; whatever the ankr table, answer, heads and adjustments are those
    /// of the run without one.
    fn made(&self, table: &[u8], choices: Choices, lent: &mut Anchored) -> Result<(Answer<()>, u32), Fault> {
        let (right_to_left, start, reading) = (self.right_to_left != 0, self.start, choices.reading(KERX));
        let (mut by_crate, mut plain) = (lent.clone(), lent.kerned.clone());
        let told = anchored::run(reading, table, start, right_to_left, choices, &self.ankr, lent);
        let left = (told, lent.kerned.along.clone(), lent.marks.clone());
        reading.right(left, || {
            let run = Run { kerning: KERX, table, start, right_to_left, choices };
            let told = by_copy::run(&run, &self.ankr, &mut by_crate)?;
            Ok((told, by_crate.kerned.along, by_crate.marks))
        })?;
        if kerx_readings::run(reading, table, start, right_to_left, choices, &mut plain) != told
            || plain.along != lent.kerned.along
        {
            return Err(Fault::Disputed);
        }
        Ok(told)
    }
}

impl Question for AnchoredRun {
    fn entry(&self) -> Entry {
        Entry::KerxRunAnchored
    }

    fn arguments(&self, held: u64, call: &mut Vec<u8>) {
        self.lent.lend(self.start, &self.ankr, call);
        call.extend([held as u32, self.right_to_left, self.choices.0].into_iter().flat_map(u32::to_le_bytes));
    }

    fn reply(&self, table: &[u8], held: u64, reply: &mut Vec<u8>) -> Result<(), Fault> {
        let (answer, lent, heads) = self.after(table)?;
        lent.reply(answer, reply);
        reply.extend(heads.unwrap_or(held as u32).to_le_bytes());
        Ok(())
    }

    fn describe(&self, held: u64) -> String {
        let told = format!("anchored kerx run at start {}, right to left {}", self.start, self.right_to_left);
        let chosen = describe_choices(Some(self.choices));
        let lent = format!("{}, lent heads {}, {}", describe_ankr(&self.ankr), held as u32, self.lent.describe());
        format!("{}{}, {}", told, chosen, lent)
    }

    fn describe_reply(&self, reply: &[u8]) -> String {
        let (rest, heads) = reply.split_at(reply.len() - 4);
        format!("heads {}, {}", number(heads), self.lent.describe_reply(rest))
    }
}

/// A call of a step.
#[derive(Clone)]
pub struct AnchorStep {
    pub version: u16,
    pub choices: Choices,
    pub ankr: Rc<[u8]>,
    pub start: u64,
    pub lent: Stepped,
    pub length: u64,
    pub index: u64,
    pub glyph: u16,
}

impl AnchorStep {
    /// What the call has to answer and to leave.
    fn after(&self, table: &[u8]) -> Result<(Answer<usize>, Stepped), Fault> {
        let (answer, lent) = self.left(table)?;
        count(self.entry(), self.choices, |choices| {
            let (otherwise, other) = AnchorStep { choices, ..self.clone() }.left(table)?;
            Ok(otherwise != answer || other.state != lent.state || other.marks != lent.marks)
        })?;
        if matches!(answer, Answer::Done(_) | Answer::Ended) {
            count_call(self.entry(), lent.marks != self.lent.marks);
        }
        Ok((answer, lent))
    }

    fn left(&self, table: &[u8]) -> Result<(Answer<usize>, Stepped), Fault> {
        let mut lent = self.lent.clone();
        let answer = match lent.refuses(table, &self.ankr, self.length, self.index) {
            Some(answer) => answer,
            None => self.made(table, &mut lent)?,
        };
        Ok((answer, lent))
    }

    /// The step by the model, and in the crate's reading by the crate.
    fn made(&self, table: &[u8], lent: &mut Stepped) -> Result<Answer<usize>, Fault> {
        let data = match table.get(self.start as usize..) {
            Some(data) => data,
            None => return Ok(Answer::Head),
        };
        let (reading, AnchorStep { length, index, glyph, .. }) = (self.choices.reading(KERX), self);
        let Stepped { mut state, mut marks, .. } = lent.clone();
        let answer = Kerx::new(reading, self.version, data).anchor_step(&self.ankr, lent, *length, *index, *glyph);
        reading.right((answer, lent.state, lent.marks.clone()), || {
            let table = KERX.alone(self.version, data);
            let answer = match open(&table, &self.ankr) {
                Some(machine) => {
                    by_copy::step(&machine, &mut state, *index as usize, *glyph, *length as usize, &mut marks)?
                }
                None => Answer::Head,
            };
            Ok((answer, state, marks))
        })?;
        Ok(answer)
    }
}

impl Question for AnchorStep {
    fn entry(&self) -> Entry {
        Entry::AnchorStep
    }

    fn arguments(&self, held: u64, call: &mut Vec<u8>) {
        add(&self.lent.state, call);
        lend_along(&self.lent.along, call);
        lend_ankr(&self.ankr, call);
        self.lent.marks.lend(call);
        add(&[self.length], call);
        call.extend(self.version.to_le_bytes());
        add(&[self.start, self.index], call);
        call.extend(self.glyph.to_le_bytes());
        add(&[held], call);
        call.extend(self.choices.0.to_le_bytes());
    }

    fn reply(&self, table: &[u8], held: u64, reply: &mut Vec<u8>) -> Result<(), Fault> {
        let (answer, lent) = self.after(table)?;
        let advance = match answer {
            Answer::Done(advance) => advance as u64,
            Answer::Ended => 0,
            _ => held,
        };
        reply.extend(answer.number().to_le_bytes());
        add_along(&lent.along, reply);
        lent.marks.reply(reply);
        add(&lent.state, reply);
        add(&[advance], reply);
        Ok(())
    }

    fn describe(&self, held: u64) -> String {
        let told = format!("length {}, index {}, glyph {}, lent advance {}", self.length, self.index, self.glyph, held);
        let Stepped { state, along, marks } = &self.lent;
        let lent = format!("state {}; {}; {}", describe_state(state), describe_along(along), marks.describe());
        let chosen = describe_choices(Some(self.choices));
        let at = format!("anchor step at start {}, version {}{}", self.start, self.version, chosen);
        format!("{}, {}: {}; {}", at, describe_ankr(&self.ankr), told, lent)
    }

    fn describe_reply(&self, reply: &[u8]) -> String {
        let (along, rest) = reply[4..].split_at(8 * self.lent.along.len());
        let (marks, rest) = rest.split_at(self.lent.marks.bytes());
        let numbers = numbers(rest);
        let (state, advance) = numbers.split_at(STATE);
        let left = format!("state {}; advance {}", describe_state(state), advance[0]);
        let marks = self.lent.marks.of_reply(marks).describe();
        format!("answer {}; {}; {}; {}", number(&reply[..4]), left, describe_along(&along_of(along)), marks)
    }
}

//! Kerning passes beside the crate's formats in document 01's pass.

use crate::fuzz::case::Chosen;
use crate::fuzz::seeds::{self, Seed};
use crate::fuzz::source::Source;
use crate::questions::anchored_calls::AnchoredPass;
use crate::questions::indexed_calls::Making;
use crate::questions::kerning_choices::{count, describe_choices};
use crate::questions::{Ask, Part, Question};
use crate::reference::anchored::{Anchored, Marks};
use crate::reference::kerning::{Kerned, Kerning, Subtable, LARGEST_ADJUSTMENT};
use crate::reference::kerning_by_copy::open;
use crate::reference::kerning_choices::Choices;
use crate::reference::kerning_trace::describe_pass;
use crate::reference::kerx_readings::{Kerx, Reading};
use crate::reference::line::{Line, DELETED, LARGEST_ROOM};
use crate::reference::oracle::{Answer, Fault, LONGEST_TABLE};
use crate::reference::pass::line_of;
use crate::tables::kerning::editions;
use crate::tables::kerning::{any_body, any_subtable, formats, Edition};
use crate::tables::kerning_examples::{documented, pushes, runs_on_past_its_end, small_bodies, Documented};
use crate::tables::lines::{any_glyphs, for_each_length};
use crate::tables::random::Random;
use crate::wire::entries::Entry;
use std::rc::Rc;

/// A call of a pass.
#[derive(Clone)]
pub struct Pass {
    pub edition: Edition,
    /// What is chosen, by the entry that takes choices; None is the entry without them.
    pub choices: Option<Choices>,
    pub lent: Kerned,
    pub start: u64,
    /// The answer and the used adjustments that a document gives, from fresh ones.
    pub written: Option<(Answer<()>, Vec<i64>)>,
}

impl Pass {
    /// The answer, and what the call has to leave.
    fn after(&self, table: &[u8]) -> Result<(Answer<()>, Kerned), Fault> {
        let (answer, lent) = self.left(table)?;
        if let Some(choices) = self.choices {
            let left_by = |choices| Pass { choices: Some(choices), ..self.clone() }.left(table);
            count(self.entry(), choices, |choices| Ok(left_by(choices)?.1.along != lent.along))?;
        }
        match &self.written {
            Some(written) if *written != (answer, lent.along.clone()) => Err(Fault::Disputed),
            _ => Ok((answer, lent)),
        }
    }

    fn left(&self, table: &[u8]) -> Result<(Answer<()>, Kerned), Fault> {
        let mut lent = self.lent.clone();
        let answer = match lent.refuses_pass(table) {
            Some(answer) => answer,
            None => self.made(table, &mut lent)?,
        };
        Ok((answer, lent))
    }

    /// The pass by the crate, and where choices are told of by kerx's model, too.
    fn made(&self, table: &[u8], lent: &mut Kerned) -> Result<Answer<()>, Fault> {
        let Edition { kerning, version, .. } = self.edition;
        let data = match table.get(self.start as usize..) {
            Some(data) => data,
            None => return Ok(Answer::Head),
        };
        let choices = match self.choices {
            Some(choices) if kerning == Kerning::Kerx => choices,
            _ => return self.made_by_crate(data, lent),
        };
        let reading = choices.reading(kerning);
        let mut of_model = lent.clone();
        let (glyphs, along) = of_model.used();
        let by_model = Kerx::new(reading, version, data).pass(choices, glyphs, along);
        let by_crate = || Ok((self.made_by_crate(data, lent)?, lent.along.clone()));
        let (answer, along) = reading.right((by_model, of_model.along), by_crate)?;
        lent.along = along;
        Ok(answer)
    }

    /// The pass by the crate, if the subtable can be read; steps by its copy have to make the same.
    fn made_by_crate(&self, data: &[u8], lent: &mut Kerned) -> Result<Answer<()>, Fault> {
        let Edition { kerning, version, .. } = self.edition;
        let table = kerning.alone(version, data);
        let subtable = match Subtable::alone(kerning, &table)? {
            Some(subtable) => subtable,
            None => return Ok(Answer::Head),
        };
        let length = lent.line.length();
        let mut of_steps = lent.along.clone();
        let answer = lent.pass(&subtable, self.choices.unwrap_or(Choices::NONE))?;
        if let Some(machine) = open(kerning, &table) {
            let glyphs = &lent.line.glyphs[..length];
            if machine.pass(glyphs, &mut of_steps[..length], &mut |_, _, _| {})? != answer || of_steps != lent.along {
                return Err(Fault::Disputed);
            }
        }
        Ok(answer)
    }
}

impl Question for Pass {
    fn entry(&self) -> Entry {
        self.edition.kerning.its(if self.choices.is_some() { ENTRIES_BY } else { ENTRIES })
    }

    fn arguments(&self, _held: u64, call: &mut Vec<u8>) {
        self.lent.lend(self.start, call);
        call.extend(self.edition.version.to_le_bytes());
        call.extend(self.choices.iter().flat_map(|choices| choices.0.to_le_bytes()));
    }

    fn reply(&self, table: &[u8], _held: u64, reply: &mut Vec<u8>) -> Result<(), Fault> {
        let (answer, lent) = self.after(table)?;
        lent.reply(answer, reply);
        Ok(())
    }

    fn describe(&self, _held: u64) -> String {
        let Edition { kerning, version, .. } = self.edition;
        let chosen = describe_choices(self.choices);
        let told = format!("{} pass at start {}, version {}{}", kerning.name(), self.start, version, chosen);
        format!("{}, lent {}", told, self.lent.describe())
    }

    fn describe_reply(&self, reply: &[u8]) -> String {
        self.lent.describe_reply(reply)
    }

    fn with_choices(&self, choices: Choices) -> Option<Box<dyn Question>> {
        Some(Box::new(Pass { choices: Some(choices), written: None, ..self.clone() }))
    }

    fn with_marks(&self, choices: Choices, ankr: Rc<[u8]>) -> Option<Box<dyn Question>> {
        let Pass { edition: Edition { version, .. }, start, .. } = *self;
        let lent = Anchored { kerned: self.lent.clone(), marks: Marks::of(self.lent.line.glyphs.len()) };
        Some(Box::new(AnchoredPass { version, choices, ankr, lent, start, written: None }))
    }

    fn with_index(&self, table: &[u8], making: &Making) -> Option<Box<dyn Question>> {
        if self.edition.kerning == Kerning::Kern {
            return None;
        }
        self.with_marks(self.choices.unwrap_or(Choices::NONE), Rc::from(Vec::new()))?.with_index(table, making)
    }

    fn trace(&self, table: &[u8]) -> Vec<String> {
        let choices = self.choices.unwrap_or(Choices::NONE);
        let Edition { kerning, version, .. } = self.edition;
        let is_by_crate = choices.reading(kerning) == Reading::Crate;
        match table.get(self.start as usize..) {
            Some(bytes) if is_by_crate && self.lent.refuses_pass(table).is_none() => {
                describe_pass(kerning, &kerning.alone(version, bytes), choices, &self.lent)
            }
            _ => Vec::new(),
        }
    }
}

const ENTRIES: [Entry; 2] = [Entry::KernPass, Entry::KerxPass];
const ENTRIES_BY: [Entry; 2] = [Entry::KernPassBy, Entry::KerxPassBy];

/// Passes of kern or kerx.
pub struct Passes(pub Kerning);

impl Part for Passes {
    fn name(&self) -> &'static str {
        self.0.name()
    }

    fn entries(&self) -> Vec<Entry> {
        vec![self.0.its(ENTRIES)]
    }

    fn ask(&self, asked: &mut dyn Ask, random: &mut Random, cases: u64) {
        let kerning = self.0;
        examples(asked, kerning);
        list_runs_on_past_its_end(asked, kerning);
        eight_and_nine_pushes(asked, kerning);
        short_bodies(asked, kerning);
        cut_subtables(asked, kerning, random);
        formats_and_bits(asked, kerning, random);
        far_starts(asked, kerning);
        large_adjustments(asked, kerning);
        refused_lines(asked, kerning);
        long_tables(asked, kerning);
        long_lines(asked, kerning, random);
        random_subtables(asked, kerning, random, cases);
    }

    fn chosen(&self, _entry: Entry, chosen: Chosen, _source: &mut Source) -> Box<dyn Question> {
        let edition = Edition::new(self.0, chosen.version, 0);
        Box::new(Pass { edition, choices: None, lent: chosen.lent, start: chosen.start, written: None })
    }

    fn seed(&self, random: &mut Random, _entry: Entry) -> Seed {
        seeds::any_kerning(random, self.0)
    }
}

fn ask_pass(asked: &mut dyn Ask, edition: Edition, table: &Rc<[u8]>, start: usize, lent: &Kerned) {
    asked.ask(table, Box::new(Pass { edition, choices: None, lent: lent.clone(), start: start as u64, written: None }));
}

fn ask_line(asked: &mut dyn Ask, edition: Edition, table: &Rc<[u8]>, glyphs: &[u16]) {
    ask_pass(asked, edition, table, 0, &Kerned::of(line_of(glyphs, glyphs.len() + 2)));
}

/// The tables that say where the crate and the manual part.
fn examples(asked: &mut dyn Ask, kerning: Kerning) {
    for example in documented().iter().filter(|example| example.edition.kerning == kerning) {
        let Documented { edition, table, start, line, pass, .. } = example;
        let lent = Kerned { line: line_of(line, line.len()), along: vec![0; line.len()] };
        let (start, written) = (*start as u64, Some(pass.clone()));
        asked.ask(&Rc::from(&table[..]), Box::new(Pass { edition: *edition, choices: None, lent, start, written }));
    }
}

/// Lists of 0xFFFF, and of other numbers, longer and shorter than the stack, the last numbers of the table: kern's end at an
/// odd number, kerx's do not end at 0xFFFF, and both go on into what lies behind them.
fn list_runs_on_past_its_end(asked: &mut dyn Ask, kerning: Kerning) {
    for edition in editions(kerning) {
        runs_on_past_its_end(*edition, &mut |subtable| {
            let table = Rc::from(subtable);
            for length in 1..=9 {
                ask_line(asked, *edition, &table, &[&vec![10; length][..], &[11, 10, 11]].concat());
            }
        });
    }
}

/// As many places as the stack has, and one more.
fn eight_and_nine_pushes(asked: &mut dyn Ask, kerning: Kerning) {
    for edition in editions(kerning) {
        pushes(*edition, &mut |subtable| {
            let table = Rc::from(subtable);
            for length in 6..=20 {
                ask_line(asked, *edition, &table, &vec![10; length]);
                ask_line(asked, *edition, &table, &[&vec![10; length][..], &[11, 10, 11]].concat());
            }
        });
    }
}

/// All small machines on a few lines each.
fn short_bodies(asked: &mut dyn Ask, kerning: Kerning) {
    let lines: [&[u16]; 6] =
        [&[], &[10], &[10, 11], &[11, 10, 10], &[10, 10, 11, 11, 10], &[10, DELETED, 11, 10, 12, 11]];
    for edition in editions(kerning) {
        small_bodies(*edition, &mut |subtable| {
            let table = Rc::from(subtable);
            lines.iter().for_each(|line| ask_line(asked, *edition, &table, line));
        });
    }
}

/// Subtables of every format cut at every byte, at their own start and behind other bytes.
fn cut_subtables(asked: &mut dyn Ask, kerning: Kerning, random: &mut Random) {
    for edition in editions(kerning) {
        for format in formats(kerning) {
            let body = any_body(random, *edition, *format, &(10..13));
            for before in [0, 1] {
                let table = [&[9][..before], &edition.subtable(edition.plain(), *format, &body)].concat();
                for length in 0..=table.len() {
                    let table = Rc::from(&table[..length]);
                    for line in [&[10, 11, 12, 10, 10, 11][..], &[]] {
                        ask_pass(asked, *edition, &table, before, &Kerned::of(line_of(line, 6)));
                    }
                }
            }
        }
    }
}

/// Every format under every mix of bits, by every version.
fn formats_and_bits(asked: &mut dyn Ask, kerning: Kerning, random: &mut Random) {
    for edition in editions(kerning) {
        for format in formats(kerning) {
            let body = any_body(random, *edition, *format, &(10..13));
            for bits in edition.coverages() {
                for number in (0..9).chain([0x7F, 0x80, 0xFF]) {
                    let table = Rc::from(edition.subtable(*bits, number, &body));
                    ask_line(asked, *edition, &table, &[10, 11, 12, 10, 10]);
                }
            }
            let table = Rc::from(edition.subtable(edition.plain(), *format, &body));
            for version in [0, 1, 2, 3, 4, 5, 0x100, 0x400, 0x8000, 0xFFFF] {
                ask_line(asked, Edition { version, ..*edition }, &table, &[10, 11, 12, 10, 10]);
            }
        }
    }
}

/// The first example of a table, for what does not depend on the subtable.
fn any_example(kerning: Kerning) -> Documented {
    documented().into_iter().find(|example| example.edition.kerning == kerning).expect("an example")
}

fn far_starts(asked: &mut dyn Ask, kerning: Kerning) {
    let Documented { edition, table, line, .. } = any_example(kerning);
    let length = table.len();
    let table = Rc::from(table);
    let near = [0, 1, length - 1, length, length + 1];
    let far = [1 << 16, 1 << 31, 1 << 32, 1 << 63, usize::MAX - 11, usize::MAX - 3, usize::MAX];
    for start in near.into_iter().chain(far) {
        ask_pass(asked, edition, &table, start, &Kerned::of(line_of(&line, 5)));
    }
}

/// Adjustments about the largest, at places that are used and that are not.
fn large_adjustments(asked: &mut dyn Ask, kerning: Kerning) {
    let Documented { edition, table, start, line, .. } = any_example(kerning);
    let table = Rc::from(table);
    let largest = LARGEST_ADJUSTMENT as i64;
    for number in [largest - 1, largest, largest + 1, 1 << 41, i64::MAX, i64::MIN, i64::MIN + 1, i64::MIN >> 1] {
        for number in [number, number.wrapping_neg()] {
            for place in 0..5 {
                let mut lent = Kerned::of(line_of(&line, 5));
                lent.along[place] = number;
                ask_pass(asked, edition, &table, start, &lent);
            }
        }
    }
}

/// Lengths of all parts, most of them no line's, on a right subtable and on one that is refused by itself.
fn refused_lines(asked: &mut dyn Ask, kerning: Kerning) {
    let Documented { edition, table, start, .. } = any_example(kerning);
    let none: Rc<[u8]> = Rc::from(&table[..start + 2]);
    let table = Rc::from(table);
    for_each_length(5, &mut |line| {
        let room = line.glyphs.len();
        for along in [room, room + 1, room.saturating_sub(1)] {
            let lent = Kerned { line: line.clone(), along: vec![0; along] };
            ask_pass(asked, edition, &table, start, &lent);
            if room < 4 {
                ask_pass(asked, edition, &none, start, &lent);
            }
        }
    });
}

fn long_tables(asked: &mut dyn Ask, kerning: Kerning) {
    let Documented { edition, mut table, start, line, .. } = any_example(kerning);
    for length in [LONGEST_TABLE, LONGEST_TABLE + 1] {
        table.resize(length, 0);
        let table: Rc<[u8]> = Rc::from(&table[..]);
        for start in [start, length, length + 1] {
            ask_pass(asked, edition, &table, start, &Kerned::of(line_of(&line, 5)));
            ask_pass(asked, edition, &table, start, &Kerned::of(Line { used: 6, ..line_of(&line, 5) }));
        }
    }
}

/// Lines that fill the largest room, and almost: any, and those of the documents' tables at the end of others.
fn long_lines(asked: &mut dyn Ask, kerning: Kerning, random: &mut Random) {
    for example in documented().into_iter().filter(|example| example.edition.kerning == kerning) {
        let Documented { edition, table, start, line, .. } = example;
        let table = Rc::from(table);
        for used in [LARGEST_ROOM - 1, LARGEST_ROOM] {
            let glyphs = [vec![99; used - line.len()], line.clone()].concat();
            ask_pass(asked, edition, &table, start, &Kerned::of(line_of(&glyphs, LARGEST_ROOM)));
        }
    }
    for edition in editions(kerning) {
        for format in formats(kerning) {
            let glyphs = any_glyphs(random);
            let body = any_body(random, *edition, *format, &glyphs);
            let table = Rc::from(edition.subtable(edition.plain(), *format, &body));
            for used in [LARGEST_ROOM - 1, LARGEST_ROOM] {
                let lent = Kerned::any(random, &glyphs, used, LARGEST_ROOM);
                ask_pass(asked, *edition, &table, 0, &lent);
            }
        }
    }
}

const LINES_FOR_ONE_TABLE: u64 = 3;

fn random_subtables(asked: &mut dyn Ask, kerning: Kerning, random: &mut Random, cases: u64) {
    let mut left = cases;
    while left > 0 {
        let glyphs = any_glyphs(random);
        let edition = Edition::any(random, kerning);
        let format = if random.once_in(2) { 1 } else { random.among(formats(kerning)) };
        let made = any_subtable(random, edition, format, &glyphs);
        let table = Rc::from(&made.table[..]);
        let start = made.any_start(random);
        let lines = left.min(LINES_FOR_ONE_TABLE);
        for _ in 0..lines {
            let longest = random.among(&[2, 5, 12, 12, 24, 60]);
            let used = random.below(longest + 1);
            let room = used + random.among(&[0, 0, 1, 9]);
            let lent = Kerned::any(random, &glyphs, used, room);
            asked.ask(&table, Box::new(Pass { edition, choices: None, lent, start, written: None }));
        }
        left -= lines;
    }
}

//! Whole runs of kern and kerx tables beside document 01's run over the crate's subtables.

use crate::fuzz::case::Chosen;
use crate::fuzz::seeds::{self, Seed};
use crate::fuzz::source::Source;
use crate::questions::anchored_calls::AnchoredRun;
use crate::questions::kerning_choices::{count, describe_choices};
use crate::questions::passes::for_each_table;
use crate::questions::{Ask, Part, Question};
use crate::reference::anchored::{Anchored, Marks};
use crate::reference::kerning::{Kerned, Kerning, ALONE_AT};
use crate::reference::kerning_choices::Choices;
use crate::reference::kerning_run::Run;
use crate::reference::kerning_trace::describe_run;
use crate::reference::kerx_readings::{self, Reading};
use crate::reference::line::Line;
use crate::reference::oracle::{Answer, Fault, LONGEST_TABLE};
use crate::reference::pass::line_of;
use crate::reference::run::MOST_HEADS;
use crate::tables::kerning::editions;
use crate::tables::kerning::{any_body, formats, Edition};
use crate::tables::kerning_examples::{documented, Documented};
use crate::tables::lines::for_each_length;
use crate::tables::lookup::damage;
use crate::tables::random::Random;
use crate::tables::strings::for_each_string;
use crate::wire::entries::Entry;
use crate::wire::reply::number;
use std::ops::Range;
use std::rc::Rc;

/// A call of a run.
#[derive(Clone)]
pub struct KerningRun {
    pub kerning: Kerning,
    /// What is chosen, by the entry that takes choices; None is the entry without them.
    pub choices: Option<Choices>,
    pub lent: Kerned,
    pub start: u64,
    /// Not 0 where the text runs from right to left; kern is not told.
    pub right_to_left: u32,
    /// The adjustments that a document gives.
    pub written: Option<Vec<i64>>,
}

impl KerningRun {
    fn run<'a>(&self, table: &'a [u8]) -> Run<'a> {
        let (right_to_left, choices) = (self.right_to_left != 0, self.choices.unwrap_or(Choices::NONE));
        Run { kerning: self.kerning, table, start: self.start, right_to_left, choices }
    }

    /// The answer, what the call has to leave, and the heads, where they are counted.
    fn after(&self, table: &[u8]) -> Result<(Answer<()>, Kerned, Option<u32>), Fault> {
        let mut lent = self.lent.clone();
        let run = self.run(table);
        if let Some(answer) = run.refusal(&lent) {
            return Ok((answer, lent, None));
        }
        let (answer, heads) = self.made(&run, &mut lent)?;
        if let Some(choices) = self.choices {
            count(self.entry(), choices, |choices| {
                let mut other = self.lent.clone();
                self.made(&Run { choices, ..run }, &mut other)?;
                Ok(other.along != lent.along)
            })?;
        }
        match &self.written {
            Some(written) if answer != Answer::Done(()) || *written != lent.along => Err(Fault::Disputed),
            _ => Ok((answer, lent, Some(heads))),
        }
    }

    /// The answer, what the call leaves and the heads, of a run that is not refused; choices are not counted.
    pub fn made_on(&self, table: &[u8]) -> Result<(Answer<()>, Kerned, u32), Fault> {
        let mut lent = self.lent.clone();
        let (answer, heads) = self.made(&self.run(table), &mut lent)?;
        Ok((answer, lent, heads))
    }

    /// The run by the crate, and where choices are told of by kerx's model, too.
    fn made(&self, run: &Run, lent: &mut Kerned) -> Result<(Answer<()>, u32), Fault> {
        if self.choices.is_none() || self.kerning == Kerning::Kern {
            return run.make(lent);
        }
        let Run { kerning, table, start, right_to_left, choices } = *run;
        let reading = choices.reading(kerning);
        let mut of_model = lent.clone();
        let by_model = kerx_readings::run(reading, table, start, right_to_left, choices, &mut of_model);
        let by_crate = || Ok((run.make(lent)?, lent.along.clone()));
        let (made, along) = reading.right((by_model, of_model.along), by_crate)?;
        lent.along = along;
        Ok(made)
    }
}

impl Question for KerningRun {
    fn entry(&self) -> Entry {
        self.kerning.its(if self.choices.is_some() { ENTRIES_BY } else { ENTRIES })
    }

    fn arguments(&self, held: u64, call: &mut Vec<u8>) {
        self.lent.lend(self.start, call);
        call.extend((held as u32).to_le_bytes());
        if self.kerning == Kerning::Kerx {
            call.extend(self.right_to_left.to_le_bytes());
        }
        call.extend(self.choices.iter().flat_map(|choices| choices.0.to_le_bytes()));
    }

    fn reply(&self, table: &[u8], held: u64, reply: &mut Vec<u8>) -> Result<(), Fault> {
        let (answer, lent, heads) = self.after(table)?;
        lent.reply(answer, reply);
        reply.extend(heads.unwrap_or(held as u32).to_le_bytes());
        Ok(())
    }

    fn describe(&self, held: u64) -> String {
        let told = format!("{} run at start {}, right to left {}", self.kerning.name(), self.start, self.right_to_left);
        let chosen = describe_choices(self.choices);
        format!("{}{}, lent heads {}, {}", told, chosen, held as u32, self.lent.describe())
    }

    fn describe_reply(&self, reply: &[u8]) -> String {
        let (rest, heads) = reply.split_at(reply.len() - 4);
        format!("heads {}, {}", number(heads), self.lent.describe_reply(rest))
    }

    fn with_choices(&self, choices: Choices) -> Option<Box<dyn Question>> {
        Some(Box::new(KerningRun { choices: Some(choices), written: None, ..self.clone() }))
    }

    fn with_marks(&self, choices: Choices, ankr: Rc<[u8]>) -> Option<Box<dyn Question>> {
        let KerningRun { start, right_to_left, .. } = *self;
        let lent = Anchored { kerned: self.lent.clone(), marks: Marks::of(self.lent.line.glyphs.len()) };
        Some(Box::new(AnchoredRun { choices, ankr, lent, start, right_to_left, written: None }))
    }

    fn trace(&self, table: &[u8]) -> Vec<String> {
        let run = self.run(table);
        match run.refusal(&self.lent) {
            None if run.choices.reading(run.kerning) == Reading::Crate => describe_run(&run, &self.lent),
            _ => Vec::new(),
        }
    }
}

const ENTRIES: [Entry; 2] = [Entry::KernRun, Entry::KerxRun];
const ENTRIES_BY: [Entry; 2] = [Entry::KernRunBy, Entry::KerxRunBy];

/// Runs of kern or kerx.
pub struct Runs(pub Kerning);

impl Part for Runs {
    fn name(&self) -> &'static str {
        self.0.name()
    }

    fn entries(&self) -> Vec<Entry> {
        vec![self.0.its(ENTRIES)]
    }

    fn ask(&self, asked: &mut dyn Ask, random: &mut Random, cases: u64) {
        let kerning = self.0;
        examples(asked, kerning);
        coverages(asked, kerning, random);
        cut_tables(asked, kerning, random);
        far_starts(asked, kerning);
        refused_lines(asked, kerning);
        long_tables(asked, kerning);
        many_heads(asked, kerning);
        random_tables(asked, kerning, random, cases);
    }

    fn chosen(&self, _entry: Entry, chosen: Chosen, _source: &mut Source) -> Box<dyn Question> {
        let Chosen { start, right_to_left, lent, .. } = chosen;
        Box::new(KerningRun { kerning: self.0, choices: None, lent, start, right_to_left, written: None })
    }

    fn seed(&self, random: &mut Random, _entry: Entry) -> Seed {
        Seed::any(random, |random, glyphs| seeds::any_list(random, self.0, glyphs))
    }
}

/// A run in either direction, with two numbers for the second.
fn ask_run(asked: &mut dyn Ask, kerning: Kerning, table: &Rc<[u8]>, start: usize, lent: &Kerned) {
    let ways: &[u32] = if kerning == Kerning::Kerx { &[0, 1, 0x8000_0000] } else { &[0] };
    for right_to_left in ways {
        let (lent, start, right_to_left) = (lent.clone(), start as u64, *right_to_left);
        asked.ask(table, Box::new(KerningRun { kerning, choices: None, lent, start, right_to_left, written: None }));
    }
}

/// How many bytes lie before the tables that are asked about.
pub const BEFORE: usize = 3;

/// A table behind them.
pub fn behind_others(table: Vec<u8>) -> Rc<[u8]> {
    Rc::from([vec![0; BEFORE], table].concat())
}

fn examples(asked: &mut dyn Ask, kerning: Kerning) {
    for example in documented().into_iter().filter(|example| example.edition.kerning == kerning) {
        let Documented { table, line, run, .. } = example;
        let lent = Kerned::of(line_of(&line, line.len()));
        let (start, written) = (ALONE_AT as u64, Some(run));
        asked.ask(
            &Rc::from(table),
            Box::new(KerningRun { kerning, choices: None, lent, start, right_to_left: 0, written }),
        );
    }
}

/// Two subtables, each with every mix of bits, of every format.
fn coverages(asked: &mut dyn Ask, kerning: Kerning, random: &mut Random) {
    let glyphs = 10..13;
    for edition in editions(kerning) {
        for format in formats(kerning) {
            let bodies = [*format, 0].map(|format| any_body(random, *edition, format, &glyphs));
            for_each_string(edition.coverages(), 2, &mut |bits| {
                let numbers = [*format, 0];
                let subtables: Vec<Vec<u8>> =
                    (0..bits.len()).map(|part| edition.subtable(bits[part], numbers[part], &bodies[part])).collect();
                let table = behind_others(edition.table(&subtables));
                ask_run(asked, kerning, &table, BEFORE, &Kerned::of(line_of(&[10, 11, 12, 10, 11, 11], 8)));
            });
        }
    }
}

/// A table of three subtables, cut at every byte.
fn cut_tables(asked: &mut dyn Ask, kerning: Kerning, random: &mut Random) {
    for edition in editions(kerning) {
        let table = behind_others(some_table(random, *edition));
        for length in 0..=table.len() {
            let lent = Kerned::of(line_of(&[10, 11, 12, 10], 5));
            ask_run(asked, kerning, &Rc::from(&table[..length]), BEFORE, &lent);
        }
    }
}

/// A table of three subtables.
pub fn some_table(random: &mut Random, edition: Edition) -> Vec<u8> {
    let of_format = |format| edition.subtable(edition.plain(), format, &any_body(random, edition, format, &(10..13)));
    edition.table(&[0, 1, 0].map(of_format))
}

fn far_starts(asked: &mut dyn Ask, kerning: Kerning) {
    let random = &mut Random::new(7);
    for edition in editions(kerning) {
        let table = behind_others(some_table(random, *edition));
        let length = table.len();
        let near = [0, 1, 2, BEFORE, length - 8, length - 1, length, length + 1];
        let far = [1 << 16, 1 << 31, 1 << 32, (1 << 32) + BEFORE, 1 << 63, usize::MAX - 7, usize::MAX];
        for start in near.into_iter().chain(far) {
            ask_run(asked, kerning, &table, start, &Kerned::of(line_of(&[10, 11, 12, 10], 5)));
        }
    }
}

/// Lengths of all parts, most of them no line's, and any adjustments, at a start in the table, at none, and past it.
fn refused_lines(asked: &mut dyn Ask, kerning: Kerning) {
    let random = &mut Random::new(8);
    let table = behind_others(some_table(random, editions(kerning)[0]));
    for_each_length(10, &mut |line| {
        let room = line.glyphs.len();
        for along in [room, room + 1, room.saturating_sub(1)] {
            let along = (0..along).map(|_| random.number() as i64).collect();
            let lent = Kerned { line: line.clone(), along };
            let start = random.among(&[0, BEFORE, BEFORE, usize::MAX]);
            let right_to_left = random.below(2) as u32;
            let start = start as u64;
            asked.ask(
                &table,
                Box::new(KerningRun { kerning, choices: None, lent, start, right_to_left, written: None }),
            );
        }
    });
}

/// Tables at the limit of length and above it.
fn long_tables(asked: &mut dyn Ask, kerning: Kerning) {
    for length in [LONGEST_TABLE, LONGEST_TABLE + 1] {
        let mut table = behind_others(some_table(&mut Random::new(9), editions(kerning)[0])).to_vec();
        table.resize(length, 0);
        let table = Rc::from(table);
        for start in [0, BEFORE, length - 1, length, length + 1] {
            ask_run(asked, kerning, &table, start, &Kerned::of(line_of(&[10, 11], 2)));
            ask_run(asked, kerning, &table, start, &Kerned::of(Line { used: 3, ..line_of(&[10, 11], 2) }));
        }
    }
}

/// As many heads as are counted, one fewer and more: subtables that come again because their size is 0.
fn many_heads(asked: &mut dyn Ask, kerning: Kerning) {
    for edition in editions(kerning) {
        for bits in edition.coverages().iter().take(2) {
            let mut again = edition.subtable(*bits, 0, &edition.pairs(2, &[(10, 11, -32_768), (11, 10, 32_767)]));
            again[edition.size_at()].fill(0);
            for count in [1, 3, MOST_HEADS - 1, MOST_HEADS, MOST_HEADS + 1, u32::MAX] {
                let table = behind_others([kerning.head(edition.version, count), again.clone()].concat());
                ask_run(asked, kerning, &table, BEFORE, &Kerned::of(line_of(&[10, 11, 10], 4)));
            }
        }
    }
}

fn random_tables(asked: &mut dyn Ask, kerning: Kerning, random: &mut Random, cases: u64) {
    let any_table = |random: &mut Random, glyphs: &Range<u16>| any_table(random, kerning, glyphs);
    for_each_table(random, cases, any_table, &mut |random, table, start, glyphs, used| {
        let room = used + random.among(&[0, 1, 9]);
        let lent = Kerned::any(random, glyphs, used, room);
        let right_to_left = random.among(&[0, 1, 2, u32::MAX]);
        asked.ask(table, Box::new(KerningRun { kerning, choices: None, lent, start, right_to_left, written: None }));
    });
}

/// Any table: some subtables; now and then the count or a size is wrong.
pub fn any_table(random: &mut Random, kerning: Kerning, glyphs: &Range<u16>) -> Vec<u8> {
    let edition = Edition::any(random, kerning);
    let subtables: Vec<Vec<u8>> = (0..random.below(5)).map(|_| any_listed(random, edition, glyphs)).collect();
    let mut table = edition.table(&subtables);
    if random.once_in(12) {
        let count = if edition.body_at() == 6 { 3 } else { 7 };
        table[count] = random.below(7) as u8;
    }
    table
}

fn any_listed(random: &mut Random, edition: Edition, glyphs: &Range<u16>) -> Vec<u8> {
    let format = random.among(formats(edition.kerning));
    let number = if random.once_in(20) { random.below(256) as u8 } else { format };
    let bits = match random.below(8) {
        0 => random.number() as u32 & if edition.body_at() == 12 { 0xFFFF_FF00 } else { 0xFF00 },
        1..=3 => random.among(edition.coverages()),
        4 if edition.kerning == Kerning::Kerx => 0x1000_0000,
        _ => edition.plain(),
    };
    let mut made = edition.subtable(bits, number, &any_body(random, edition, format, glyphs));
    match random.below(30) {
        0 => made[edition.size_at().end - 1] = random.number() as u8,
        1 => made[edition.size_at()].fill(0),
        2 => damage(random, &mut made),
        _ => {}
    }
    made
}

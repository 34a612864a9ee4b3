//! `lookup` beside the crate, and the survey beside document 01.

use crate::fuzz::case::Chosen;
use crate::fuzz::seeds::Seed;
use crate::fuzz::source::Source;
use crate::questions::reasons::WithReason;
use crate::questions::value::{Asked, Value};
use crate::questions::{Ask, Part, Question};
use crate::reference::oracle::{self, Answer, Fault, LONGEST_TABLE};
use crate::reference::reasons::{self, Why};
use crate::reference::survey::{plain_look, survey, Verdict};
use crate::tables::lookup::{record_size, with_records, words, Made, Record};
use crate::tables::random::Random;
use crate::tables::strings::for_each_string;
use crate::wire::entries::Entry;
use crate::wire::reply::number;
use std::rc::Rc;

/// The element of a glyph.
#[derive(Clone, Copy)]
pub struct Lookup {
    pub glyph: u16,
}

impl Asked for Lookup {
    fn entry(&self) -> Entry {
        Entry::Lookup
    }

    fn tell(&self, call: &mut Vec<u8>) {
        call.extend(self.glyph.to_le_bytes());
    }

    fn answers(&self, table: &[u8], start: u64) -> Result<(Answer<u32>, Option<Answer<u32>>), Fault> {
        let plain = plain_look(table, start, self.glyph).map(|answer| answer.map(u32::from));
        Ok((oracle::lookup(table, start, self.glyph)?.map(u32::from), plain))
    }

    fn with_reason(&self, start: u64, written: Option<Answer<u32>>) -> Option<Box<dyn Question>> {
        Some(WithReason::of(Value { start, asked: *self, written }))
    }

    fn why(&self, table: &[u8], start: u64) -> Result<Option<Why>, Fault> {
        reasons::lookup(table, start, self.glyph)
    }

    fn describe(&self) -> String {
        format!("lookup of glyph {}", self.glyph)
    }

    fn sample(&self, start: u64, answer: Answer<u32>, sample: &mut Vec<u8>) {
        sample_case(sample, start, self.glyph, answer.number(), [answer.done().unwrap_or(0) as u16, 0]);
    }
}

/// A call of `aat_survey`.
pub struct Survey {
    pub start: u64,
}

impl Question for Survey {
    fn entry(&self) -> Entry {
        Entry::Survey
    }

    fn arguments(&self, held: u64, call: &mut Vec<u8>) {
        call.extend(self.start.to_le_bytes());
        call.extend(held.to_le_bytes());
    }

    fn reply(&self, table: &[u8], held: u64, reply: &mut Vec<u8>) -> Result<(), Fault> {
        let answer = survey(table, self.start);
        let (verdict, record) = verdict_numbers(answer);
        reply.extend(answer.number().to_le_bytes());
        reply.extend(verdict.unwrap_or(held as u32).to_le_bytes());
        reply.extend(record.unwrap_or((held >> 32) as u32).to_le_bytes());
        Ok(())
    }

    fn sample(&self, table: &[u8], sample: &mut Vec<u8>) -> Result<(), Fault> {
        let answer = survey(table, self.start);
        let (verdict, record) = verdict_numbers(answer);
        sample_case(sample, self.start, 0, answer.number(), [verdict, record].map(|number| number.unwrap_or(0) as u16));
        Ok(())
    }

    fn describe(&self, held: u64) -> String {
        format!("survey at start {}, lent verdict {}, lent record {}", self.start, held as u32, held >> 32)
    }

    fn describe_reply(&self, reply: &[u8]) -> String {
        let [answer, verdict, record] = [&reply[..4], &reply[4..8], &reply[8..]].map(number);
        format!("answer {}, verdict {}, record {}", answer, verdict, record)
    }
}

/// The numbers of a verdict and of the bad record, where they are given.
fn verdict_numbers(answer: Answer<Verdict>) -> (Option<u32>, Option<u32>) {
    match answer.done() {
        None => (None, None),
        Some(Verdict::NoRecords) => (Some(0), None),
        Some(Verdict::Sorted) => (Some(1), None),
        Some(Verdict::Bad(record)) => (Some(2), Some(record.into())),
        Some(Verdict::UnitSize(_)) => (Some(3), None),
    }
}

fn sample_case(sample: &mut Vec<u8>, start: u64, glyph: u16, answer: u32, values: [u16; 2]) {
    let start = u32::try_from(start).expect("a start of 32 bits");
    sample.extend(start.to_be_bytes());
    sample.extend(glyph.to_be_bytes());
    sample.push(answer as u8);
    sample.extend(words(&values));
}

/// Lookups and surveys.
pub struct Lookups;

impl Part for Lookups {
    fn name(&self) -> &'static str {
        "lookup"
    }

    fn every(&self) -> u64 {
        1
    }

    fn entries(&self) -> Vec<Entry> {
        vec![Entry::Lookup, Entry::Survey]
    }

    fn ask(&self, asked: &mut dyn Ask, random: &mut Random, cases: u64) {
        examples(asked);
        far_starts(asked);
        short_arrays(asked);
        short_record_lists(asked);
        unit_sizes(asked);
        long_arrays(asked);
        long_record_lists(asked);
        long_tables(asked);
        random_tables(asked, random, cases);
    }

    fn chosen(&self, entry: Entry, chosen: Chosen, _source: &mut Source) -> Box<dyn Question> {
        let start = chosen.start;
        if entry == Entry::Survey {
            return Box::new(Survey { start });
        }
        Value::chosen(start, Lookup { glyph: chosen.told.glyph })
    }

    fn seed(&self, random: &mut Random, _entry: Entry) -> Seed {
        Seed::any(random, |random, _| Made::any(random, 12))
    }
}

/// Questions for the sample: the examples, many small tables and a few of some thousand bytes.
pub fn ask_sample(asked: &mut dyn Ask, random: &mut Random) {
    examples(asked);
    sampled_tables(asked, random, 365, 12, 0..=100);
    sampled_tables(asked, random, 6, 600, 1_000..=3_000);
}

fn ask_glyphs(asked: &mut dyn Ask, table: &Rc<[u8]>, start: u64, glyphs: impl IntoIterator<Item = u16>) {
    asked.ask(table, Box::new(Survey { start }));
    for glyph in glyphs {
        asked.ask(table, Box::new(Value { start, asked: Lookup { glyph }, written: None }));
    }
}

/// The examples of document 01, and the smallest tables on which crate and manual part.
fn examples(asked: &mut dyn Ask) {
    use Answer::{Done, Nothing};
    let extended = [10, 1, 5, 2, 0x0709];
    let trimmed = [8, 5, 2, 7, 9];
    let wide_records = [6, 8, 2, 16, 1, 0, 5, 70, 0, 0, 6, 90, 0, 0];
    let counted_sentinel = [6, 4, 1, 4, 0, 0, 0xFFFF, 0];
    let open_ended = [0, 1, 2, 0x1234];
    let unsorted = [6, 4, 2, 8, 1, 0, 6, 90, 5, 70];
    let written: [(&[u16], u16, Answer<u32>); 12] = [
        (&trimmed, 5, Done(7)),
        (&trimmed, 6, Done(9)),
        (&trimmed, 4, Nothing),
        (&trimmed, 7, Nothing),
        (&extended, 5, Done(1801)),
        (&extended, 6, Nothing),
        (&wide_records, 5, Nothing),
        (&wide_records, 6, Nothing),
        (&counted_sentinel, 0xFFFF, Done(0)),
        (&open_ended, 2, Done(0x1234)),
        (&unsorted, 5, Done(70)),
        (&unsorted, 6, Nothing),
    ];
    for (numbers, glyph, answer) in written {
        let table = Rc::from(words(numbers));
        asked.ask(&table, Box::new(Value { start: 0, asked: Lookup { glyph }, written: Some(answer) }));
        asked.ask(&table, Box::new(Survey { start: 0 }));
    }
}

/// Every unit size up to 12 and some large ones, with few records and many, in order and out of order, cut at every byte of
/// the head.
fn unit_sizes(asked: &mut dyn Ask) {
    for format in [2, 4, 6] {
        for unit in (0..=12).chain([255, 256, 0xFFFF]) {
            for count in [0, 1, 2, 300] {
                let sorted: Vec<Record> =
                    (0..count).map(|number| Record { first: 3 * number, last: 3 * number + 1, value: 7 }).collect();
                let turned: Vec<Record> = sorted.iter().rev().copied().collect();
                for records in [sorted, turned] {
                    let table = with_records(format, unit, count, &records);
                    for length in (0..12.min(table.len())).chain([table.len()]) {
                        ask_glyphs(asked, &Rc::from(&table[..length]), 0, [0, 1, 2, 0xFFFF]);
                    }
                }
            }
        }
    }
}

/// Starts that a number of fewer bits, or a sum without care, would take for one in the table.
fn far_starts(asked: &mut dyn Ask) {
    for numbers in [[8, 0, 9, 7, 9], [0, 0, 0, 0, 0]] {
        let table = Rc::from(words(&numbers));
        for start in [1 << 16, 1 << 31, 1 << 32, 1 << 63, u64::MAX - 11, u64::MAX - 3, u64::MAX - 1, u64::MAX] {
            ask_glyphs(asked, &table, start, [0, 1, 0x7FFF, 0xFFFF]);
        }
    }
}

/// Formats 0, 8 and 10 with every tail over a few letters, long enough for an element.
fn short_arrays(asked: &mut dyn Ask) {
    let glyphs = [0, 1, 2, 3, 4, 255, 256, 257, 258, 259, 512, 0xFF00, 0xFFFE, 0xFFFF];
    let shapes: [(u8, usize, &[u8]); 3] = [(0, 7, &[0, 1, 2, 255]), (8, 7, &[0, 1, 2, 255]), (10, 9, &[0, 1, 2])];
    for (format, longest, alphabet) in shapes {
        for_each_string(alphabet, longest, &mut |tail| {
            let table: Rc<[u8]> = [&[0, format], tail].concat().into();
            let length = table.len() as u64;
            ask_glyphs(asked, &table, 0, glyphs);
            for start in [1, length, length + 1] {
                ask_glyphs(asked, &table, start, [0, 1, 0xFFFF]);
            }
        });
    }
}

/// Formats 2, 4 and 6 with every list of up to three records over small glyphs, in any order.
fn short_record_lists(asked: &mut dyn Ask) {
    let pairs: Vec<(u16, u16)> = (1..=5).flat_map(|first| (1..=5).map(move |last| (first, last))).collect();
    let single: Vec<(u16, u16)> = (1..=5).map(|glyph| (glyph, glyph)).collect();
    for (format, keys) in [(2, &pairs), (4, &pairs), (6, &single)] {
        for count in 0..=3 {
            for_each_string(keys, count, &mut |list| ask_cuts(asked, format, count as u16, list));
        }
    }
}

/// A table that states `count` records and has those listed, whole, behind other bytes, and cut at each byte of its
/// last part: its head where no record is listed, else the last record, and what lies behind the records where none
/// is missing. Shorter cuts come with shorter lists.
fn ask_cuts(asked: &mut dyn Ask, format: u16, count: u16, list: &[(u16, u16)]) {
    let size = record_size(format);
    let behind = 12 + size * count;
    let record = |(number, &(first, last)): (usize, &(u16, u16))| {
        let number = number as u16;
        let value = if format == 4 { behind + 2 * number } else { 0x0A00 + number };
        Record { first, last, value }
    };
    let records: Vec<Record> = list.iter().enumerate().map(record).collect();
    let mut table = with_records(format, size, count, &records);
    let shortest = if list.is_empty() { 0 } else { table.len() - size as usize + 1 };
    if list.len() == count as usize {
        table.extend(words(&[0x0B00, 0x0B01, 0x0B02, 0x0B03]));
    }
    let glyphs = || (0..=6).chain([0xFFFF]);
    for length in shortest..=table.len() {
        ask_glyphs(asked, &Rc::from(&table[..length]), 0, glyphs());
    }
    let before = [0, 1, 2];
    ask_glyphs(asked, &Rc::from([&before, &table[..]].concat()), before.len() as u64, glyphs());
}

/// Formats 0, 4, 8 and 10 with an element for almost every glyph.
fn long_arrays(asked: &mut dyn Ask) {
    let elements: Vec<u16> = (0..0xFFFF).map(|number| !number).collect();
    let heads: [&[u16]; 4] = [&[0], &[4, 6, 1, 6, 0, 0, 0xFFFF, 1, 60_000], &[8, 1, 0xFFFF], &[10, 2, 1, 0xFFFF]];
    for head in heads {
        ask_glyphs(asked, &Rc::from(words(&[head, &elements].concat())), 0, spread_glyphs());
    }
}

/// As many records as a count can say, each for one glyph.
fn long_record_lists(asked: &mut dyn Ask) {
    let records: Vec<Record> = (0..0xFFFF).map(|glyph| Record { first: glyph, last: glyph, value: !glyph }).collect();
    for format in [2, 4, 6] {
        let table = Rc::from(with_records(format, record_size(format), 0xFFFF, &records));
        ask_glyphs(asked, &table, 0, spread_glyphs());
    }
}

fn spread_glyphs() -> impl Iterator<Item = u16> {
    (0..=0xFFFF).step_by(257).chain([1, 0x7FFE, 0x7FFF, 0x8000, 0xFFFE])
}

/// Tables at the limit of length and above it, with a lookup at either end and zeros between.
fn long_tables(asked: &mut dyn Ask) {
    let lookup = words(&[8, 5, 2, 7, 9]);
    for length in [LONGEST_TABLE - 1, LONGEST_TABLE, LONGEST_TABLE + 1, LONGEST_TABLE + 4_096] {
        let mut table = vec![0; length];
        table[..lookup.len()].copy_from_slice(&lookup);
        table[length - lookup.len()..].copy_from_slice(&lookup);
        let table = Rc::from(table);
        for back in [length, length - 10, 16, 10, 9, 2, 1, 0] {
            ask_glyphs(asked, &table, (length - back) as u64, [0, 3, 4, 5, 6, 7, 0xFFFF]);
        }
        ask_glyphs(asked, &table, u64::MAX, [5]);
    }
}

const GLYPHS_FOR_ONE_TABLE: u64 = 24;

fn random_tables(asked: &mut dyn Ask, random: &mut Random, cases: u64) {
    let mut left = cases;
    while left > 0 {
        let made = Made::any(random, 4_000);
        let start = made.any_start(random);
        let glyphs = left.min(GLYPHS_FOR_ONE_TABLE);
        let table = Rc::from(&made.table[..]);
        ask_glyphs(asked, &table, start, (0..glyphs).map(|_| made.any_glyph(random)));
        left -= glyphs;
    }
}

/// Three glyphs and a survey for each of so many random tables of such a length.
fn sampled_tables(
    asked: &mut dyn Ask,
    random: &mut Random,
    tables: usize,
    most_records: usize,
    lengths: std::ops::RangeInclusive<usize>,
) {
    let mut left = tables;
    while left > 0 {
        let made = Made::any(random, most_records);
        let start = made.any_start(random);
        if lengths.contains(&made.table.len()) && u32::try_from(start).is_ok() {
            let table = Rc::from(&made.table[..]);
            ask_glyphs(asked, &table, start, (0..3).map(|_| made.any_glyph(random)));
            left -= 1;
        }
    }
}

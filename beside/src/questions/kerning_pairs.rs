//! Numbers of pairs of glyphs beside the crate's.

use crate::fuzz::case::Chosen;
use crate::fuzz::seeds::{self, Seed};
use crate::fuzz::source::Source;
use crate::questions::reasons::WithReason;
use crate::questions::value::{Asked, Value};
use crate::questions::{Ask, Part, Question};
use crate::reference::kerning::{Kerning, Subtable};
use crate::reference::oracle::{caught, Answer, Fault, LONGEST_TABLE};
use crate::reference::reasons::{self, Why};
use crate::tables::kerning::{any_subtable, classes, editions, formats, Edition, Pair};
use crate::tables::lines::any_glyphs;
use crate::tables::lookup::with_values;
use crate::tables::random::Random;
use crate::wire::entries::Entry;
use std::rc::Rc;

/// A call of `aat_kern_pair` or `aat_kerx_pair`.
#[derive(Clone, Copy)]
pub struct OfPair {
    pub edition: Edition,
    pub left: u16,
    pub right: u16,
}

impl Asked for OfPair {
    fn entry(&self) -> Entry {
        self.edition.kerning.its(ENTRIES)
    }

    fn tell(&self, call: &mut Vec<u8>) {
        for number in [self.edition.version, self.left, self.right] {
            call.extend(number.to_le_bytes());
        }
    }

    fn answers(&self, table: &[u8], start: u64) -> Result<(Answer<u32>, Option<Answer<u32>>), Fault> {
        if table.len() > LONGEST_TABLE {
            return Ok((Answer::Table, None));
        }
        let Edition { kerning, version, .. } = self.edition;
        let bytes = match table.get(start as usize..) {
            Some(bytes) => kerning.alone(version, bytes),
            None => return Ok((Answer::Head, None)),
        };
        let answer = match Subtable::alone(kerning, &bytes)? {
            Some(subtable) => caught(|| subtable.get(self.left, self.right))?,
            None => Answer::Head,
        };
        Ok((answer.map(|number| i32::from(number) as u32), None))
    }

    fn with_reason(&self, start: u64, written: Option<Answer<u32>>) -> Option<Box<dyn Question>> {
        Some(WithReason::of(Value { start, asked: *self, written }))
    }

    fn why(&self, table: &[u8], start: u64) -> Result<Option<Why>, Fault> {
        let Edition { kerning, version, .. } = self.edition;
        match table.get(start as usize..) {
            Some(bytes) => reasons::pair(kerning, &kerning.alone(version, bytes), self.left, self.right),
            None => Ok(None),
        }
    }

    fn describe(&self) -> String {
        let Edition { kerning, version, .. } = self.edition;
        format!("{} pair {} {}, version {}", kerning.name(), self.left, self.right, version)
    }
}

const ENTRIES: [Entry; 2] = [Entry::KernPair, Entry::KerxPair];

/// Pairs of kern or kerx.
pub struct Pairs(pub Kerning);

impl Part for Pairs {
    fn name(&self) -> &'static str {
        self.0.name()
    }

    fn entries(&self) -> Vec<Entry> {
        vec![self.0.its(ENTRIES)]
    }

    fn ask(&self, asked: &mut dyn Ask, random: &mut Random, cases: u64) {
        let kerning = self.0;
        examples(asked, kerning);
        cut_subtables(asked, kerning);
        formats_and_bits(asked, kerning);
        far_starts(asked, kerning);
        long_tables(asked, kerning);
        random_subtables(asked, kerning, random, cases);
    }

    fn chosen(&self, _entry: Entry, chosen: Chosen, _source: &mut Source) -> Box<dyn Question> {
        let edition = Edition::new(self.0, chosen.version, 0);
        Value::chosen(chosen.start, OfPair { edition, left: chosen.told.glyph, right: chosen.right })
    }

    fn seed(&self, random: &mut Random, _entry: Entry) -> Seed {
        seeds::any_kerning(random, self.0)
    }
}

fn ask_pair(asked: &mut dyn Ask, table: &Rc<[u8]>, start: u64, edition: Edition, pair: (u16, u16)) {
    let (left, right) = pair;
    asked.ask(table, Box::new(Value { start, asked: OfPair { edition, left, right }, written: None }));
}

const PAIRS: [Pair; 5] = [(5, 6, 10), (5, 7, -20), (6, 5, i16::MIN), (0xFFFF, 5, 30), (0xFFFF, 0xFFFF, i16::MAX)];

/// A subtable of each format that has pairs.
fn of_pairs(edition: Edition) -> Vec<Vec<u8>> {
    let mut made = vec![edition.subtable(edition.plain(), 0, &edition.pairs(PAIRS.len() as u32, &PAIRS))];
    if edition.kerning == Kerning::Kerx {
        let body = classes(4, with_values(6, 5, &[0, 4]), with_values(8, 6, &[0, 2]), &[10, 0xFFEC, 0x8000, 3]);
        made.push(edition.subtable(edition.plain(), 2, &body));
    }
    made
}

/// Each pair that a list has, found by the rule of the documents, and those beside them.
fn examples(asked: &mut dyn Ask, kerning: Kerning) {
    for edition in editions(kerning) {
        let table = Rc::from(of_pairs(*edition).swap_remove(0));
        for left in [0, 4, 5, 6, 7, 0xFFFE, 0xFFFF] {
            for right in [0, 4, 5, 6, 7, 0xFFFE, 0xFFFF] {
                let found = PAIRS.iter().find(|pair| (pair.0, pair.1) == (left, right));
                let written = Some(Answer::of(found.map(|pair| i32::from(pair.2) as u32)));
                asked.ask(
                    &table,
                    Box::new(Value { start: 0, asked: OfPair { edition: *edition, left, right }, written }),
                );
            }
        }
    }
}

const ASKED: [(u16, u16); 5] = [(5, 6), (5, 7), (6, 5), (6, 7), (0xFFFF, 0xFFFF)];

/// The subtables cut at every byte, at their own start and behind other bytes.
fn cut_subtables(asked: &mut dyn Ask, kerning: Kerning) {
    for edition in editions(kerning) {
        for subtable in of_pairs(*edition) {
            for before in [0, 1] {
                let table = [&[9][..before], &subtable].concat();
                for length in 0..=table.len() {
                    let table = Rc::from(&table[..length]);
                    ASKED.iter().for_each(|pair| ask_pair(asked, &table, before as u64, *edition, *pair));
                }
            }
        }
    }
}

/// Every format under bits that a pair does not look at, by every version.
fn formats_and_bits(asked: &mut dyn Ask, kerning: Kerning) {
    for edition in editions(kerning) {
        for bits in edition.coverages() {
            for format in 0..=255 {
                let table = Rc::from(edition.subtable(*bits, format, &edition.pairs(PAIRS.len() as u32, &PAIRS)));
                ask_pair(asked, &table, 0, *edition, (5, 7));
            }
        }
        for version in [0, 1, 2, 3, 4, 5, 0x100, 0x400, 0x8000, 0xFFFF] {
            for subtable in of_pairs(*edition) {
                ask_pair(asked, &Rc::from(subtable), 0, Edition { version, ..*edition }, (5, 6));
            }
        }
    }
}

fn far_starts(asked: &mut dyn Ask, kerning: Kerning) {
    let edition = editions(kerning)[0];
    let table = of_pairs(edition).swap_remove(0);
    let length = table.len() as u64;
    let table = Rc::from(table);
    for start in [1, length - 1, length, length + 1, 1 << 16, 1 << 32, 1 << 63, u64::MAX - 3, u64::MAX] {
        ask_pair(asked, &table, start, edition, (5, 6));
    }
}

fn long_tables(asked: &mut dyn Ask, kerning: Kerning) {
    let edition = editions(kerning)[0];
    for length in [LONGEST_TABLE, LONGEST_TABLE + 1] {
        let mut table = of_pairs(edition).swap_remove(0);
        table.resize(length, 0);
        let table = Rc::from(table);
        for start in [0, length, length + 1] {
            ask_pair(asked, &table, start as u64, edition, (5, 6));
        }
    }
}

/// A format that has pairs.
fn any_of_pairs(random: &mut Random, kerning: Kerning) -> u8 {
    match kerning {
        Kerning::Kern => 0,
        Kerning::Kerx => random.among(&[0, 2]),
    }
}

const PAIRS_FOR_ONE_TABLE: u64 = 8;

fn random_subtables(asked: &mut dyn Ask, kerning: Kerning, random: &mut Random, cases: u64) {
    let mut left = cases;
    while left > 0 {
        let glyphs = any_glyphs(random);
        let edition = Edition::any(random, kerning);
        let format = if random.once_in(12) { random.among(formats(kerning)) } else { any_of_pairs(random, kerning) };
        let made = any_subtable(random, edition, format, &glyphs);
        let table = Rc::from(&made.table[..]);
        let start = made.any_start(random);
        let pairs = left.min(PAIRS_FOR_ONE_TABLE);
        for _ in 0..pairs {
            let mut any_glyph = || match random.below(12) {
                0 => random.word(),
                1 => random.among(&[0xFFFF, 0xFFFE, glyphs.end, 0]),
                _ => glyphs.start + random.below(glyphs.len()) as u16,
            };
            let pair = (any_glyph(), any_glyph());
            ask_pair(asked, &table, start, edition, pair);
        }
        left -= pairs;
    }
}

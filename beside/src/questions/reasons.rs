//! Why nothing was found, for every lookup and pair that the other questions ask for, and for some of its own.

use crate::fuzz::case::Chosen;
use crate::fuzz::seeds::Seed;
use crate::fuzz::source::Source;
use crate::questions::kerning_pairs::{OfPair, Pairs};
use crate::questions::lookup::{Lookup, Lookups};
use crate::questions::value::{Asked, Value};
use crate::questions::{Ask, Part, Question};
use crate::reference::kerning::Kerning;
use crate::reference::oracle::{Answer, Fault};
use crate::reference::reasons::Why;
use crate::tables::kerning::{classes, editions};
use crate::tables::lookup::{with_records, with_values, words, Record};
use crate::tables::random::Random;
use crate::wire::entries::{Entry, ENTRIES};
use crate::wire::reply::number;
use std::cell::Cell;
use std::rc::Rc;

/// A call that is told why nothing was found, too.
pub struct WithReason<T> {
    plain: Value<T>,
    /// The reason that is known without the crate.
    written: Option<Why>,
}

impl<T: Asked + 'static> WithReason<T> {
    /// The call that is this one, but for the reason.
    pub fn of(plain: Value<T>) -> Box<dyn Question> {
        Box::new(WithReason { plain, written: None })
    }

    /// The reason, where the answer is NOTHING; it is counted.
    fn why(&self, table: &[u8]) -> Result<Why, Fault> {
        let why = self.plain.asked.why(table, self.plain.start)?.ok_or(Fault::Disputed)?;
        if self.written.map_or(false, |written| written != why) {
            return Err(Fault::Disputed);
        }
        count(self.entry(), why);
        Ok(why)
    }
}

impl<T: Asked + 'static> Question for WithReason<T> {
    fn entry(&self) -> Entry {
        with_reason(self.plain.asked.entry()).expect("an entry with reasons")
    }

    fn arguments(&self, held: u64, call: &mut Vec<u8>) {
        self.plain.arguments(held, call);
        call.extend(lent_why(held).to_le_bytes());
    }

    fn reply(&self, table: &[u8], held: u64, reply: &mut Vec<u8>) -> Result<(), Fault> {
        let begun = reply.len();
        self.plain.reply(table, held, reply)?;
        let is_nothing = number(&reply[begun..begun + 4]) == Answer::<()>::Nothing.number().into();
        let why = if is_nothing { self.why(table)? as u32 } else { lent_why(held) };
        reply.extend(why.to_le_bytes());
        Ok(())
    }

    fn describe(&self, held: u64) -> String {
        format!("{}, lent reason {}", self.plain.describe(held), lent_why(held))
    }

    fn describe_reply(&self, reply: &[u8]) -> String {
        format!("{}, reason {}", self.plain.describe_reply(&reply[..8]), number(&reply[8..]))
    }
}

fn lent_why(held: u64) -> u32 {
    (held >> 32) as u32
}

const WITH_REASONS: [(Entry, Entry); 3] =
    [(Entry::Lookup, Entry::LookupWhy), (Entry::KernPair, Entry::KernPairWhy), (Entry::KerxPair, Entry::KerxPairWhy)];

/// The entry that is this one, but for the reason.
fn with_reason(plain: Entry) -> Option<Entry> {
    WITH_REASONS.iter().find(|entries| entries.0 == plain).map(|entries| entries.1)
}

thread_local! {
    static COUNTED: Cell<[[u64; 3]; WITH_REASONS.len()]> = Cell::default();
}

fn count(entry: Entry, why: Why) {
    let place = WITH_REASONS.iter().position(|entries| entries.1 == entry).expect("an entry with reasons");
    let mut counted = COUNTED.with(Cell::get);
    counted[place][why as usize - 1] += 1;
    COUNTED.with(|cell| cell.set(counted));
}

/// How often each reason was given, in words.
pub fn counted() -> Vec<String> {
    let counted = COUNTED.with(Cell::get);
    let name = |entry: Entry| ENTRIES[entry as usize - 1].1;
    let line = |((_, entry), [covered, cut, format]): (&(Entry, Entry), [u64; 3])| {
        format!("{}: {} not covered, {} cut short, {} unknown format", name(*entry), covered, cut, format)
    };
    WITH_REASONS.iter().zip(counted).map(line).collect()
}

/// Asks for the reason, too, where there can be one, and for nothing else.
struct Reasoned<'a>(&'a mut dyn Ask);

impl Ask for Reasoned<'_> {
    fn ask(&mut self, table: &Rc<[u8]>, question: Box<dyn Question>) {
        if let Some(question) = question.with_reason() {
            self.0.ask(table, question);
        }
    }
}

/// The reasons of lookups, or of kern's or kerx's pairs.
pub enum Reasons {
    Lookups,
    Pairs(Kerning),
}

impl Reasons {
    fn plain(&self) -> Box<dyn Part> {
        match self {
            Reasons::Lookups => Box::new(Lookups),
            Reasons::Pairs(kerning) => Box::new(Pairs(*kerning)),
        }
    }
}

impl Part for Reasons {
    fn name(&self) -> &'static str {
        "reasons"
    }

    fn every(&self) -> u64 {
        1
    }

    fn entries(&self) -> Vec<Entry> {
        self.plain().entries().into_iter().filter_map(with_reason).collect()
    }

    fn ask(&self, asked: &mut dyn Ask, random: &mut Random, cases: u64) {
        match self {
            Reasons::Lookups => lookups_by_name(asked),
            Reasons::Pairs(Kerning::Kern) => {}
            Reasons::Pairs(Kerning::Kerx) => classes_by_name(asked),
        }
        self.plain().ask(&mut Reasoned(asked), random, cases);
    }

    fn chosen(&self, _entry: Entry, chosen: Chosen, source: &mut Source) -> Box<dyn Question> {
        let plain = self.plain();
        let entry = plain.entries()[0];
        plain.chosen(entry, chosen, source).with_reason().expect("a question that has a reason")
    }

    fn seed(&self, random: &mut Random, _entry: Entry) -> Seed {
        let plain = self.plain();
        let entry = plain.entries()[0];
        plain.seed(random, entry)
    }
}

/// Each reason once, and what the order of reads decides.
fn lookups_by_name(asked: &mut dyn Ask) {
    let trimmed = words(&[8, 5, 2, 7, 9]);
    let record = |first, last, value| Record { first, last, value };
    let ranges = with_records(2, 6, 2, &[record(3, 4, 70), record(6, 8, 90)]);
    let first_cut_off = &ranges[..ranges.len() - 4];
    let arrays = with_records(4, 6, 2, &[record(3, 4, 24), record(6, 8, 28)]);
    let written: [(&[u8], u64, u16, Why); 12] = [
        (&trimmed, 0, 4, Why::NotCovered),
        (&trimmed, 0, 7, Why::NotCovered),
        (&trimmed[..8], 0, 6, Why::CutShort),
        (&words(&[3]), 0, 6, Why::UnknownFormat),
        (&words(&[0xFFFF]), 0, 6, Why::UnknownFormat),
        (&[0], 0, 6, Why::CutShort),
        (&[], 0, 6, Why::CutShort),
        (&trimmed, 11, 6, Why::CutShort),
        (first_cut_off, 0, 9, Why::NotCovered),
        (first_cut_off, 0, 7, Why::CutShort),
        (&arrays[..arrays.len() - 4], 0, 9, Why::CutShort),
        (&arrays, 0, 7, Why::CutShort),
    ];
    for (table, start, glyph, why) in written {
        let plain = Value { start, asked: Lookup { glyph }, written: Some(Answer::Nothing) };
        asked.ask(&Rc::from(table), Box::new(WithReason { plain, written: Some(why) }));
    }
}

/// Class pairs whose two lookups find, do not cover, are cut short or are of no format, in every mixture, with the number and
/// without it: the left one speaks first, then the right one, then the number.
fn classes_by_name(asked: &mut dyn Ask) {
    let lookups = |glyph| {
        let past_the_end = Record { first: glyph, last: glyph, value: 0xFF00 };
        [
            (with_values(6, glyph, &[0]), None),
            (with_values(8, glyph + 1, &[0]), Some(Why::NotCovered)),
            (with_records(4, 6, 1, &[past_the_end]), Some(Why::CutShort)),
            (words(&[7]), Some(Why::UnknownFormat)),
        ]
    };
    let (left, right) = (5, 6);
    for edition in editions(Kerning::Kerx).iter().copied() {
        for (rows, row_why) in lookups(left) {
            for (columns, column_why) in lookups(right) {
                for (numbers, number_why) in [(&[10][..], None), (&[], Some(Why::CutShort))] {
                    let body = classes(2, rows.clone(), columns.clone(), numbers);
                    let table = Rc::from(edition.subtable(edition.plain(), 2, &body));
                    let why = row_why.or(column_why).or(number_why);
                    let answer = why.map_or(Answer::Done(10), |_| Answer::Nothing);
                    let plain = Value { start: 0, asked: OfPair { edition, left, right }, written: Some(answer) };
                    asked.ask(&table, Box::new(WithReason { plain, written: why }));
                }
            }
        }
    }
}

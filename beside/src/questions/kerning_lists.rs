//! The subtables of kern and kerx, as cursors go through them, beside the crate's iterators.

use crate::fuzz::case::Chosen;
use crate::fuzz::seeds::{self, Seed};
use crate::fuzz::source::Source;
use crate::questions::kerning_runs::{any_table, behind_others, some_table, BEFORE};
use crate::questions::lists::{self, far_places, lent, Counted, ELEMENTS};
use crate::questions::{Ask, Part, Question};
use crate::reference::kerning::Kerning;
use crate::reference::kerning_lists_by_copy::{list_from, next, Cursor};
use crate::reference::kerning_run::Visit;
use crate::reference::oracle::{caught, Answer, Fault, LONGEST_TABLE};
use crate::tables::kerning::editions;
use crate::tables::kerning::Edition;
use crate::tables::lookup::{damage, Made};
use crate::tables::random::Random;
use crate::wire::entries::Entry;
use crate::wire::reply::{add, number, numbers};
use std::rc::Rc;

/// A call of `aat_kern_subtables` or `aat_kerx_subtables`.
pub struct Start {
    pub kerning: Kerning,
    pub start: u64,
}

impl Start {
    fn answer(&self, table: &[u8]) -> Result<Answer<Cursor>, Fault> {
        if table.len() > LONGEST_TABLE {
            Ok(Answer::Table)
        } else if self.start > table.len() as u64 {
            Ok(Answer::Head)
        } else {
            caught(|| Answer::Done(list_from(self.kerning, table, self.start)))
        }
    }
}

impl Question for Start {
    fn entry(&self) -> Entry {
        self.kerning.its([Entry::KernSubtables, Entry::KerxSubtables])
    }

    fn arguments(&self, held: u64, call: &mut Vec<u8>) {
        call.extend(self.start.to_le_bytes());
        add(&lent(held, 3), call);
    }

    fn reply(&self, table: &[u8], held: u64, reply: &mut Vec<u8>) -> Result<(), Fault> {
        let answer = self.answer(table)?;
        reply.extend(answer.number().to_le_bytes());
        add(&answer.done().map_or(lent(held, 3), |cursor| cursor.to_vec()), reply);
        Ok(())
    }

    fn describe(&self, held: u64) -> String {
        format!("{} subtables at start {}, lent cursor {:?}", self.kerning.name(), self.start, lent(held, 3))
    }

    fn describe_reply(&self, reply: &[u8]) -> String {
        format!("answer {}, cursor {:?}", number(&reply[..4]), numbers(&reply[4..]))
    }
}

/// Found, place, format, passed over, turned.
const FIELDS: usize = 5;

/// A call of `aat_kern_next_subtable` or `aat_kerx_next_subtable`.
pub struct Next {
    pub kerning: Kerning,
    pub cursor: Cursor,
    /// What the crate's own iterator, from the list's start on, tells of the subtable.
    pub told: Option<Vec<u64>>,
}

impl Next {
    /// TABLE, or DONE with what the call leaves in cursor and fields.
    fn answer(&self, table: &[u8]) -> Result<Option<(Cursor, Vec<u64>)>, Fault> {
        if table.len() > LONGEST_TABLE {
            return Ok(None);
        }
        let (cursor, fields) = match caught(|| next(self.kerning, table, self.cursor))? {
            Some((fields, behind)) => (behind, [vec![1], fields].concat()),
            None => (self.cursor, vec![0; FIELDS]),
        };
        match &self.told {
            Some(told) if *told != [fields[0], fields[3], fields[4]] => Err(Fault::Disputed),
            _ => Ok(Some((cursor, fields))),
        }
    }
}

impl Question for Next {
    fn entry(&self) -> Entry {
        self.kerning.its([Entry::KernNextSubtable, Entry::KerxNextSubtable])
    }

    fn arguments(&self, held: u64, call: &mut Vec<u8>) {
        add(&self.cursor, call);
        add(&lent(held, FIELDS), call);
    }

    fn reply(&self, table: &[u8], held: u64, reply: &mut Vec<u8>) -> Result<(), Fault> {
        let answer = self.answer(table)?;
        let number = answer.as_ref().map_or(Answer::Table, |_| Answer::Done(())).number();
        let (cursor, fields) = answer.unwrap_or_else(|| (self.cursor, lent(held, FIELDS)));
        reply.extend(number.to_le_bytes());
        add(&cursor, reply);
        add(&fields, reply);
        Ok(())
    }

    fn describe(&self, held: u64) -> String {
        let name = self.kerning.name();
        format!("next {} subtable of cursor {:?}, lent fields {:?}", name, self.cursor, lent(held, FIELDS))
    }

    fn describe_reply(&self, reply: &[u8]) -> String {
        let numbers = numbers(&reply[4..]);
        format!("answer {}, cursor {:?}, fields {:?}", number(&reply[..4]), &numbers[..3], &numbers[3..])
    }
}

/// kern's or kerx's lists.
pub struct Lists(pub Kerning);

impl Part for Lists {
    fn name(&self) -> &'static str {
        self.0.name()
    }

    fn entries(&self) -> Vec<Entry> {
        vec![
            self.0.its([Entry::KernSubtables, Entry::KerxSubtables]),
            self.0.its([Entry::KernNextSubtable, Entry::KerxNextSubtable]),
        ]
    }

    fn ask(&self, asked: &mut dyn Ask, random: &mut Random, cases: u64) {
        let kerning = self.0;
        for edition in editions(kerning) {
            coverages(asked, *edition);
            cut_tables(asked, *edition, random);
            counts_and_sizes(asked, *edition, random);
            far_starts(asked, *edition, random);
            far_cursors(asked, *edition, random);
            long_tables(asked, *edition, random);
        }
        random_tables(asked, kerning, random, cases);
    }

    fn chosen(&self, entry: Entry, chosen: Chosen, source: &mut Source) -> Box<dyn Question> {
        let kerning = self.0;
        match entry {
            Entry::KernSubtables | Entry::KerxSubtables => Box::new(Start { kerning, start: chosen.start }),
            _ => Box::new(Next { kerning, cursor: [(); 3].map(|()| source.long()), told: None }),
        }
    }

    fn seed(&self, random: &mut Random, entry: Entry) -> Seed {
        let any = Seed::any(random, |random, glyphs| seeds::any_list(random, self.0, glyphs));
        match entry {
            Entry::KernSubtables | Entry::KerxSubtables => any,
            _ => any.with_cursor(|made| some_cursor(random, self.0, made)),
        }
    }
}

fn ask_next(asked: &mut dyn Ask, table: &Rc<[u8]>, kerning: Kerning, cursor: Cursor) {
    asked.ask(table, Box::new(Next { kerning, cursor, told: None }));
}

/// Goes through the list that begins at a start, beside the crate's iterator.
fn ask_list(asked: &mut dyn Ask, table: &Rc<[u8]>, kerning: Kerning, start: u64) {
    asked.ask(table, Box::new(Start { kerning, start }));
    if table.len() > LONGEST_TABLE || start > table.len() as u64 {
        return;
    }
    let mut cursor = list_from(kerning, table, start);
    let mut visits = Visit::all(kerning, table, start as u32, false);
    for _ in 0..ELEMENTS {
        let visit = visits.next();
        let told =
            visit.as_ref().map_or([0; 3], |visit| [1, visit.passed_over.is_some().into(), visit.is_turned.into()]);
        asked.ask(table, Box::new(Next { kerning, cursor, told: Some(told.to_vec()) }));
        match (visit, next(kerning, table, cursor)) {
            (Some(_), Some((_, behind))) => cursor = behind,
            _ => return,
        }
    }
}

/// A subtable for every mix of bits, each of another format and size.
fn coverages(asked: &mut dyn Ask, edition: Edition) {
    let subtable = |(number, bits): (usize, &u32)| edition.subtable(*bits, (37 * number) as u8, &vec![9; number]);
    let subtables: Vec<Vec<u8>> = edition.coverages().iter().enumerate().map(subtable).collect();
    ask_list(asked, &behind_others(edition.table(&subtables)), edition.kerning, BEFORE as u64);
}

/// A table of three subtables, cut at every byte.
fn cut_tables(asked: &mut dyn Ask, edition: Edition, random: &mut Random) {
    let table = behind_others(some_table(random, edition));
    for length in 0..=table.len() {
        ask_list(asked, &Rc::from(&table[..length]), edition.kerning, BEFORE as u64);
    }
}

/// Version, count and a size changed to each of these numbers.
fn counts_and_sizes(asked: &mut dyn Ask, edition: Edition, random: &mut Random) {
    let first = edition.table(&[]).len();
    for at in [0, 2, 4, first, first + 2] {
        for number in [0, 1, 2, 3, 4, 5, 11, 12, 13, 0x100, 0x7FFF, 0x8000, 0xFFFF] {
            let mut table = some_table(random, edition);
            table[at..at + 2].copy_from_slice(&u16::to_be_bytes(number));
            ask_list(asked, &behind_others(table), edition.kerning, BEFORE as u64);
        }
    }
}

fn far_starts(asked: &mut dyn Ask, edition: Edition, random: &mut Random) {
    let table = behind_others(some_table(random, edition));
    for start in [0, 2, BEFORE as u64].into_iter().chain(far_places(table.len() as u64)) {
        ask_list(asked, &table, edition.kerning, start);
    }
}

/// Cursors that no call has made.
fn far_cursors(asked: &mut dyn Ask, edition: Edition, random: &mut Random) {
    let table = behind_others(some_table(random, edition));
    let length = table.len() as u64;
    for place in (0..=length + 1).chain(far_places(length)) {
        for left in [0, 1, 2, u32::MAX.into(), 1 << 32, u64::MAX] {
            for version in [0, 1, 3, 4, 0xFFFF, 0x1_0000, 0x1_0003, u64::MAX] {
                ask_next(asked, &table, edition.kerning, [place, left, version]);
            }
        }
    }
}

/// Tables at the limit of length and above it.
fn long_tables(asked: &mut dyn Ask, edition: Edition, random: &mut Random) {
    for length in [LONGEST_TABLE, LONGEST_TABLE + 1] {
        let mut table = behind_others(some_table(random, edition)).to_vec();
        table.resize(length, 0);
        let table = Rc::from(table);
        let length = length as u64;
        for start in [0, BEFORE as u64, length - 8, length, length + 1, u64::MAX] {
            asked.ask(&table, Box::new(Start { kerning: edition.kerning, start }));
        }
        for place in [BEFORE as u64 + 8, length - 12, length - 8, length - 6, length - 5, length, length + 1] {
            for left in [0, 1] {
                ask_next(asked, &table, edition.kerning, [place, left, edition.version.into()]);
            }
        }
    }
}

fn random_tables(asked: &mut dyn Ask, kerning: Kerning, random: &mut Random, cases: u64) {
    let asked = &mut Counted::new(asked, cases);
    while asked.are_left() {
        let mut table = any_table(random, kerning, &(10..13));
        if random.once_in(3) {
            damage(random, &mut table);
        }
        let made = Made::behind_others(random, table, Vec::new());
        let table = Rc::from(&made.table[..]);
        ask_list(asked, &table, kerning, made.any_start(random));
        ask_next(asked, &table, kerning, any_cursor(random, table.len()));
    }
}

fn any_cursor(random: &mut Random, length: usize) -> Cursor {
    let mut any = |limit: usize| match random.below(8) {
        0 => random.number() >> random.below(64),
        _ => random.below(limit) as u64,
    };
    [any(length + 2), any(5), any(7)]
}

/// A cursor that the crate comes to, now and then with any numbers in it.
fn some_cursor(random: &mut Random, kerning: Kerning, made: &Made) -> Cursor {
    let first = list_from(kerning, &made.table, made.start as u64);
    let cursors = std::iter::successors(Some(first), |cursor| Some(next(kerning, &made.table, *cursor)?.1));
    let [place, left, version] = cursors.take(1 + random.below(4)).last().unwrap_or(first);
    if random.once_in(4) {
        let [place, left] = lists::any_cursor(random, made.table.len());
        return [place, left, version];
    }
    [place, left, version]
}

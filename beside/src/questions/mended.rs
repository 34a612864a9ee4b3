//! Mended lookup tables beside W-213's own model, and what they give: surveyed, and looked up beside a plain look down the old ones.

use crate::fuzz::case::Chosen;
use crate::fuzz::seeds::Seed;
use crate::fuzz::source::Source;
use crate::questions::lookup::{Lookup, Survey};
use crate::questions::value::Value;
use crate::questions::{Ask, Part, Question};
use crate::reference::mended::{look_down, mend, mended, Mended, DROPPED};
use crate::reference::oracle::{Answer, Fault, LONGEST_TABLE};
use crate::reference::survey::{survey, Verdict};
use crate::tables::lines::any_numbers;
use crate::tables::lookup::{any_records, damage, record_size, with_records, words, Made, Record};
use crate::tables::random::Random;
use crate::tables::strings::for_each_string;
use crate::wire::entries::Entry;
use crate::wire::hex;
use crate::wire::pipe::{add_numbers, lend_bytes, lend_numbers};
use crate::wire::reply::{add, describe, number};
use std::rc::Rc;

/// A call of `aat_mend` with so many bytes and numbers to write to; what they are comes from the number held.
pub struct Mend {
    pub start: u64,
    pub buffer: usize,
    pub numbers: usize,
    /// What document 02 gives, for the examples.
    pub written: Option<Written>,
}

/// An answer, and the table and the numbers that come with DONE.
pub type Written = (Answer<()>, Vec<u8>, Vec<u16>);

impl Mend {
    fn lent(&self, held: u64) -> (Vec<u8>, Vec<u16>) {
        let mut random = Random::new(held);
        (random.bytes(self.buffer), any_numbers(&mut random, self.numbers))
    }
}

impl Question for Mend {
    fn entry(&self) -> Entry {
        Entry::Mend
    }

    fn arguments(&self, held: u64, call: &mut Vec<u8>) {
        let (buffer, numbers) = self.lent(held);
        add(&[self.start], call);
        lend_bytes(&buffer, call);
        add(&[held], call);
        lend_numbers(&numbers, call);
    }

    fn reply(&self, table: &[u8], held: u64, reply: &mut Vec<u8>) -> Result<(), Fault> {
        let (buffer, numbers) = self.lent(held);
        let (answer, buffer, numbers) = mend(table, self.start, buffer, numbers);
        let is_written = |(given, table, list): &Written| {
            *given == answer.map(|_| ())
                && (answer.done().is_none() || buffer.starts_with(table) && numbers.starts_with(list))
        };
        if !self.written.as_ref().map_or(true, is_written) {
            return Err(Fault::Disputed);
        }
        reply.extend(answer.number().to_le_bytes());
        add(&[answer.done().unwrap_or(held)], reply);
        reply.extend(buffer);
        add_numbers(&numbers, reply);
        Ok(())
    }

    fn describe(&self, held: u64) -> String {
        let (buffer, numbers) = (self.buffer, self.numbers);
        format!(
            "table to be mended at start {}, in {} bytes and {} numbers, lent size {}",
            self.start, buffer, numbers, held
        )
    }

    fn describe_reply(&self, reply: &[u8]) -> String {
        let (head, rest) = reply.split_at(12);
        let (buffer, list) = rest.split_at(self.buffer);
        let list: Vec<u64> = list.chunks(2).map(number).collect();
        let [answer, size] = [&head[..4], &head[4..]].map(number);
        format!("answer {}, size {}, {}; numbers {}", answer, size, hex::describe(buffer), describe(&list))
    }
}

/// Mended tables.
pub struct MendedTables;

impl Part for MendedTables {
    fn name(&self) -> &'static str {
        "mended"
    }

    fn entries(&self) -> Vec<Entry> {
        vec![Entry::Mend]
    }

    fn ask(&self, asked: &mut dyn Ask, random: &mut Random, cases: u64) {
        examples(asked);
        heads(asked);
        cuts(asked);
        spaces(asked);
        far_starts(asked);
        long_tables(asked);
        many_records(asked, random);
        random_tables(asked, random, cases);
        short_tables(asked);
    }

    /// The buffer has as many bytes as the index says, and the numbers are as many as the glyph says, or each as many as are needed
    /// and a few more, where that is odd.
    fn chosen(&self, _entry: Entry, chosen: Chosen, source: &mut Source) -> Box<dyn Question> {
        let Chosen { start, told, .. } = chosen;
        let right = mended(source.0, start).map_or([0; 2], |mended| [mended.table.len(), mended.numbers.len()]);
        let few = [told.index.min(300) as usize, usize::from(told.glyph % 300)];
        let length = |place: usize| if few[place] % 2 == 0 { few[place] } else { right[place] + few[place] / 2 };
        Box::new(Mend { start, buffer: length(0), numbers: length(1), written: None })
    }

    fn seed(&self, random: &mut Random, _entry: Entry) -> Seed {
        Seed::of(0..16, any_table(random, 6))
    }
}

/// A table at a start, with room for all that it becomes, and what that gives by survey and lookups of these glyphs.
fn ask_mend(asked: &mut dyn Ask, table: &Rc<[u8]>, start: u64, glyphs: impl IntoIterator<Item = u16>) {
    let needed = mended(table, start).map(|Mended { table, numbers }| (table, numbers.len()));
    let (buffer, numbers) = needed.as_ref().map_or((40, 8), |(table, numbers)| (table.len(), *numbers));
    asked.ask(table, Box::new(Mend { start, buffer: buffer + 2, numbers: numbers + 1, written: None }));
    if let Ok((new, _)) = needed {
        ask_after(asked, table, start, &Rc::from(new), glyphs);
    }
}

/// The survey of a mended table, which has to be passed, and lookups in it, each of which has to give what the old one has.
fn ask_after(asked: &mut dyn Ask, old: &[u8], start: u64, new: &Rc<[u8]>, glyphs: impl IntoIterator<Item = u16>) {
    assert!(survey(new, 0) == Answer::Done(Verdict::Sorted), "a mended table is not in order");
    asked.ask(new, Box::new(Survey { start: 0 }));
    for glyph in glyphs {
        let written = Some(Answer::of(look_down(old, start, glyph).map(u32::from)));
        asked.ask(new, Box::new(Value { start: 0, asked: Lookup { glyph }, written }));
    }
}

/// Document 02's example, and of each of its sentences the smallest tables.
fn examples(asked: &mut dyn Ask) {
    use Answer::{Done, Head, Overlap};
    let written: [(&str, Answer<()>, &str, &[u16]); 22] = [
        (
            "0006 0004 0002 0008 0001 0000 0006 005A 0005 0046",
            Done(()),
            "0006 0004 0002 0008 0001 0000 0005 0046 0006 005A",
            &[1, 0],
        ),
        ("0006 0004 0000", Done(()), "0006 0004 0000 0000 0000 0000", &[]),
        ("0002 0006 0000 0007 0007 0007", Done(()), "0002 0006 0000 0000 0000 0000", &[]),
        (
            "0006 0004 0003 0000 0000 0000 0005 0001 0004 0002 0005 0003",
            Done(()),
            "0006 0004 0002 0008 0001 0000 0004 0002 0005 0001",
            &[1, 0, DROPPED],
        ),
        (
            "0006 0004 0003 FFFF FFFF FFFF 0001 0007 0002 0008 FFFF 0009 0004",
            Done(()),
            "0006 0004 0003 0008 0001 0004 0001 0007 0002 0008 FFFF 0009",
            &[0, 1, 2],
        ),
        (
            "0002 0006 0002 0000 0000 0000 0007 0005 0001 0004 0003 0002",
            Done(()),
            "0002 0006 0002 000C 0001 0000 0004 0003 0002 0007 0005 0001",
            &[1, 0],
        ),
        (
            "0002 0006 0002 0000 0000 0000 0003 0004 0001 0004 0003 0002",
            Done(()),
            "0002 0006 0001 0006 0000 0000 0004 0003 0002",
            &[DROPPED, 0],
        ),
        ("0002 0006 0001 0000 0000 0000 0003 0004 0001", Done(()), "0002 0006 0000 0000 0000 0000", &[DROPPED]),
        (
            "0002 0006 0001 0000 0000 0000 FFFF FFFF 0001",
            Done(()),
            "0002 0006 0001 0006 0000 0000 FFFF FFFF 0001",
            &[0],
        ),
        ("0002 0006 0002 0000 0000 0000 FFFF FFFF 0001 FFFF FFFF 0001", Overlap, "", &[]),
        ("0002 0006 0002 0000 0000 0000 0005 0003 0001 0007 0005 0002", Overlap, "", &[]),
        ("0002 0006 0002 0000 0000 0000 0009 0001 0001 0005 0005 0002", Overlap, "", &[]),
        (
            "0002 0006 0002 0000 0000 0000 0004 0005 0001 0005 0004 0002",
            Done(()),
            "0002 0006 0001 0006 0000 0000 0005 0004 0002",
            &[DROPPED, 0],
        ),
        ("0004 0006 0000 0000 0000 0000", Head, "", &[]),
        ("0008 0005 0002 0007 0009", Head, "", &[]),
        ("0006 0006 0000 0000 0000 0000", Head, "", &[]),
        ("0002 0004 0000 0000 0000 0000", Head, "", &[]),
        ("0006 0008 0000 0000 0000 0000", Head, "", &[]),
        ("0006 0004 00", Head, "", &[]),
        ("0006 0004 0001 0000 0000 0000", Head, "", &[]),
        ("0006 0004 0001 0000 0000 0000 0005 00", Head, "", &[]),
        ("", Head, "", &[]),
    ];
    for (table, answer, new, numbers) in written {
        let (table, new): (Rc<[u8]>, _) = (Rc::from(hex::bytes(table)), hex::bytes(new));
        let (buffer, list) = (new.len(), numbers.len());
        let written = Some((answer, new, numbers.to_vec()));
        asked.ask(&table, Box::new(Mend { start: 0, buffer, numbers: list, written }));
        ask_mend(asked, &table, 0, (0..=10).chain([0xFFFE, 0xFFFF]));
    }
}

/// Every format and unit size, with few records and none.
fn heads(asked: &mut dyn Ask) {
    let sizes = || (0..=12).chain([255, 256, 0x0204, 0x0600, 0x8004, 0xFFFF]);
    for format in sizes() {
        for unit in sizes() {
            for count in [0, 1, 2] {
                let table = words(&[format, unit, count, 0, 0, 0, 9, 8, 7, 6, 5, 4]);
                ask_mend(asked, &Rc::from(table), 0, [4, 5, 8, 9]);
            }
        }
    }
}

/// Three records of any keys, the table cut at every byte, and with a count that is larger, behind other bytes and not.
fn cuts(asked: &mut dyn Ask) {
    let record = |first, last, value| Record { first, last, value };
    let lists = [
        [record(6, 8, 1), record(2, 3, 2), record(4, 4, 3)],
        [record(6, 8, 1), record(9, 2, 2), record(4, 4, 3)],
        [record(2, 8, 1), record(2, 3, 2), record(8, 8, 3)],
    ];
    for format in [2, 6] {
        for records in &lists {
            for count in [0, 1, 2, 3, 4, 0x0103, 0xFFFF] {
                for before in [0, 1, 5] {
                    let whole = with_records(format, record_size(format), count, records);
                    let table = [&[0, 6, 0, 4, 0][..before], &whole].concat();
                    for length in before..=table.len() {
                        ask_mend(asked, &Rc::from(&table[..length]), before as u64, [2, 4, 7, 8]);
                    }
                }
            }
        }
    }
}

/// Buffers and numbers of every length about those that are needed, and a buffer longer than a table may be, for tables that are mended, overlap or have no head.
fn spaces(asked: &mut dyn Ask) {
    let record = |first, last, value| Record { first, last, value };
    let apart = [record(6, 8, 1), record(9, 2, 2), record(4, 4, 3), record(4, 3, 4)];
    let shared = [record(6, 8, 1), record(8, 9, 2)];
    for format in [2, 6] {
        for (unit, records) in [(record_size(format), &apart[..]), (record_size(format), &shared), (7, &apart)] {
            let table = Rc::from(with_records(format, unit, records.len() as u16, records));
            for buffer in 0..=40 {
                for numbers in 0..=6 {
                    asked.ask(&table, Box::new(Mend { start: 0, buffer, numbers, written: None }));
                }
            }
        }
    }
    let table = Rc::from(with_records(2, record_size(2), 4, &apart));
    asked.ask(&table, Box::new(Mend { start: 0, buffer: LONGEST_TABLE + 1, numbers: 4, written: None }));
}

fn far_starts(asked: &mut dyn Ask) {
    let table = with_records(6, 4, 1, &[Record { first: 5, last: 5, value: 7 }]);
    let length = table.len() as u64;
    let table = Rc::from(table);
    let near = [0, 1, 2, length - 1, length, length + 1];
    let far = [1 << 16, 1 << 31, 1 << 32, 1 << 63, u64::MAX - 15, u64::MAX - 5, u64::MAX - 1, u64::MAX];
    for start in near.into_iter().chain(far) {
        ask_mend(asked, &table, start, [5]);
    }
}

/// Tables at the limit of length and above it, with what is to be mended at either end.
fn long_tables(asked: &mut dyn Ask) {
    let lookup = hex::bytes("0006 0004 0002 0008 0001 0000 0006 005A 0005 0046");
    for length in [LONGEST_TABLE, LONGEST_TABLE + 1] {
        let mut table = vec![0; length];
        table[..lookup.len()].copy_from_slice(&lookup);
        table[length - lookup.len()..].copy_from_slice(&lookup);
        let table = Rc::from(table);
        for back in [length, lookup.len(), lookup.len() - 1, 6, 0] {
            for (buffer, numbers) in [(20, 2), (19, 2), (20, 1), (0, 0)] {
                let start = (length - back) as u64;
                asked.ask(&table, Box::new(Mend { start, buffer, numbers, written: None }));
            }
        }
    }
}

/// As many records as a count can say, and about the powers of two: in order, turned round and shuffled, each for a glyph of its
/// own, and with one that is the same as another, holds another, or is reversed; of the longest lists some.
fn many_records(asked: &mut dyn Ask, random: &mut Random) {
    for count in [0x00FF, 0x0100, 0x3FFF, 0x4000, 0x8000, 0xFFFF_u16] {
        for format in [2, 6] {
            let single = |glyph| Record { first: glyph, last: glyph, value: random.word() };
            let sorted: Vec<Record> = (0..count).map(single).collect();
            let turned: Vec<Record> = sorted.iter().rev().copied().collect();
            let mut shuffled = sorted.clone();
            random.shuffle(&mut shuffled);
            let [mut same, mut wide, mut reversed] = [&shuffled; 3].map(Clone::clone);
            let place = random.below(count.into());
            same[place].first = shuffled[(place + 1) % usize::from(count)].first;
            wide[place].last = wide[place].first.saturating_add(1);
            reversed[place].last = reversed[place].first.saturating_sub(1);
            let lists = [shuffled, same, turned, wide, reversed, sorted];
            for records in lists.iter().take(if count < 0x1000 { lists.len() } else { 3 }) {
                let table = Rc::from(with_records(format, record_size(format), count, records));
                let glyphs = [0, count - 1, count, records[place].first];
                ask_mend(asked, &table, 0, glyphs);
            }
        }
    }
}

/// Any table of format 2 or 6, mostly whole and out of order, often behind other bytes.
fn any_table(random: &mut Random, most: usize) -> Made {
    let format = random.among(&[2, 6]);
    let records = any_records(random, format, most);
    let unit = if random.once_in(20) { random.among(&[0, 2, 4, 6, 8]) } else { record_size(format) };
    let right = records.len() as u16;
    let count = if random.once_in(20) { right.wrapping_add(random.among(&[1, 2, 0xFFFF])) } else { right };
    let mut table = with_records(format, unit, count, &records);
    if random.once_in(8) {
        damage(random, &mut table);
    }
    let edges = records.iter().flat_map(|record| [record.first, record.last]).collect();
    Made::behind_others(random, table, edges)
}

/// The most lookups in a random table.
const MOST_GLYPHS: usize = 12;

/// Any tables, rarely of many records, with room for what they become and sometimes too little.
fn random_tables(asked: &mut dyn Ask, random: &mut Random, cases: u64) {
    for _ in 0..cases {
        let most = if random.once_in(2_000) { 0xFFFF } else { random.among(&[2, 4, 8, 20, 60]) };
        let made = any_table(random, most);
        let (table, start) = (Rc::from(&made.table[..]), made.any_start(random));
        if !random.once_in(4) {
            let glyphs: Vec<u16> = (0..random.below(MOST_GLYPHS)).map(|_| made.any_glyph(random)).collect();
            ask_mend(asked, &table, start, glyphs);
            continue;
        }
        let right = mended(&table, start).map_or([30, 3], |mended| [mended.table.len(), mended.numbers.len()]);
        let about = |right: usize, random: &mut Random| match random.below(4) {
            0 => right.saturating_sub(1),
            1 => random.below(right + 3),
            2 => right + random.below(9),
            _ => right,
        };
        let [buffer, numbers] = right.map(|right| about(right, random));
        asked.ask(&table, Box::new(Mend { start, buffer, numbers, written: None }));
    }
}

/// Every list of up to four records over five glyphs, and all lookups in what it becomes.
fn short_tables(asked: &mut dyn Ask) {
    let glyphs = 3..=7;
    let single: Vec<(u16, u16)> = glyphs.clone().map(|glyph| (glyph, glyph)).collect();
    let pairs: Vec<(u16, u16)> =
        glyphs.clone().flat_map(|first| glyphs.clone().map(move |last| (first, last))).collect();
    for (format, keys) in [(6, &single), (2, &pairs)] {
        for_each_string(keys, 4, &mut |list| {
            let record = |((first, last), value): (&(u16, u16), u16)| Record { first: *first, last: *last, value };
            let records: Vec<Record> = list.iter().zip(0x0A00..).map(record).collect();
            let table = with_records(format, record_size(format), list.len() as u16, &records);
            ask_mend(asked, &Rc::from(table), 0, (2..=8).chain([0xFFFF]));
        });
    }
}

//! mort's chains and subtables, as cursors go through them, beside the model of mort. The cursor at the chains and the features' cursor
//! are morx's own.

use crate::fuzz::case::Chosen;
use crate::fuzz::seeds::Seed;
use crate::fuzz::source::Source;
use crate::questions::lists::{any_cursor, for_each_far_cursor, for_each_heads, lent, ELEMENTS};
use crate::questions::{Ask, Part, Question};
use crate::reference::lists_by_copy::{chains_from, Cursor};
use crate::reference::mort::{next_chain, next_subtable};
use crate::reference::oracle::{Answer, Fault, LONGEST_TABLE};
use crate::tables::cuts::{for_each_cut, for_each_longest};
use crate::tables::lookup::Made;
use crate::tables::mort::{any_heads, chain, chosen_subtable, mort};
use crate::tables::random::Random;
use crate::wire::entries::Entry;
use crate::wire::reply::{add, number, numbers};
use std::rc::Rc;

/// A call that goes on with one of mort's two lists, by its entry.
pub struct Next {
    pub entry: Entry,
    pub cursor: Cursor,
    /// What a document gives: the fields, and where the list goes on.
    pub written: Option<(Vec<u64>, Cursor)>,
}

const FIELDS: usize = 6;

/// The fields of the next element, and where its list goes on; None at the list's end.
fn next(entry: Entry, table: &[u8], cursor: Cursor) -> Option<(Vec<u64>, Cursor)> {
    if entry == Entry::MortNextChain {
        let (chain, behind) = next_chain(table, cursor)?;
        return Some(([&[1, chain.flags.into()][..], &chain.features, &chain.subtables].concat(), behind));
    }
    let (subtable, behind) = next_subtable(table, cursor)?;
    let [coverage, kind] = [subtable.coverage, subtable.kind()].map(u64::from);
    let order = u64::from(subtable.is_descending());
    Some((vec![1, subtable.start, coverage, subtable.flags.into(), kind, order], behind))
}

impl Question for Next {
    fn entry(&self) -> Entry {
        self.entry
    }

    fn arguments(&self, held: u64, call: &mut Vec<u8>) {
        add(&self.cursor, call);
        add(&lent(held, FIELDS), call);
    }

    fn reply(&self, table: &[u8], held: u64, reply: &mut Vec<u8>) -> Result<(), Fault> {
        let (answer, (fields, cursor)) = if table.len() > LONGEST_TABLE {
            (Answer::Table, (lent(held, FIELDS), self.cursor))
        } else {
            let found = next(self.entry, table, self.cursor);
            (Answer::Done(()), found.unwrap_or_else(|| (vec![0; FIELDS], self.cursor)))
        };
        if self.written.as_ref().map_or(false, |written| *written != (fields.clone(), cursor)) {
            return Err(Fault::Disputed);
        }
        reply.extend(answer.number().to_le_bytes());
        add(&cursor, reply);
        add(&fields, reply);
        Ok(())
    }

    fn describe(&self, held: u64) -> String {
        let list = if self.entry == Entry::MortNextChain { "chain" } else { "subtable" };
        format!("next {} of mort's cursor {:?}, lent fields {:?}", list, self.cursor, lent(held, FIELDS))
    }

    fn describe_reply(&self, reply: &[u8]) -> String {
        let numbers = numbers(&reply[4..]);
        format!("answer {}, cursor {:?}, fields {:?}", number(&reply[..4]), &numbers[..2], &numbers[2..])
    }
}

const LISTS: [Entry; 2] = [Entry::MortNextChain, Entry::MortNextSubtable];

/// mort's lists.
pub struct Lists;

impl Part for Lists {
    fn name(&self) -> &'static str {
        "mort-lists"
    }

    fn every(&self) -> u64 {
        2
    }

    fn entries(&self) -> Vec<Entry> {
        LISTS.to_vec()
    }

    fn ask(&self, asked: &mut dyn Ask, random: &mut Random, cases: u64) {
        examples(asked);
        coverages(asked);
        cut_tables(asked);
        counts_and_sizes(asked);
        far_cursors(asked);
        long_tables(asked);
        random_tables(asked, random, cases);
    }

    fn chosen(&self, entry: Entry, _chosen: Chosen, source: &mut Source) -> Box<dyn Question> {
        Box::new(Next { entry, cursor: [(); 2].map(|()| source.long()), written: None })
    }

    fn seed(&self, random: &mut Random, entry: Entry) -> Seed {
        let seed = Seed::any(random, |random, _| Made::whole(any_heads(random)));
        seed.with_cursor(|made| some_cursor(random, entry, &made.table))
    }
}

/// A cursor of the list as the model comes to it, or any.
fn some_cursor(random: &mut Random, entry: Entry, table: &[u8]) -> Cursor {
    let chains = chains_from(table, 0);
    match next_chain(table, chains) {
        _ if random.once_in(4) => any_cursor(random, table.len()),
        Some((chain, _)) if entry == Entry::MortNextSubtable => chain.subtables,
        _ => chains,
    }
}

fn ask_next(asked: &mut dyn Ask, table: &Rc<[u8]>, entry: Entry, cursor: Cursor) {
    asked.ask(table, Box::new(Next { entry, cursor, written: None }));
}

/// Goes through all lists of the table that begins at a start.
fn ask_lists(asked: &mut dyn Ask, table: &Rc<[u8]>, start: u64) {
    if table.len() > LONGEST_TABLE || start > table.len() as u64 {
        return;
    }
    let mut chains = chains_from(table, start);
    for _ in 0..ELEMENTS {
        ask_next(asked, table, Entry::MortNextChain, chains);
        let (chain, behind) = match next_chain(table, chains) {
            Some(next) => next,
            None => return,
        };
        let mut subtables = chain.subtables;
        for _ in 0..ELEMENTS {
            ask_next(asked, table, Entry::MortNextSubtable, subtables);
            match next_subtable(table, subtables) {
                Some((_, behind)) => subtables = behind,
                None => break,
            }
        }
        chains = behind;
    }
}

/// Two chains: one of three features and no subtables, one of no features and a subtable of every order and kind.
fn two_chains() -> Vec<u8> {
    let features: Vec<u8> = (1..=36).collect();
    let any_kind =
        |number: u16| chosen_subtable(number << 12 | number % 8, !u32::from(number), &vec![9; number.into()]);
    let subtables: Vec<Vec<u8>> = (0..16).map(any_kind).collect();
    mort(&[chain(0xA5A5_0001, &features, &[]), chain(0x8000_0000, &[], &subtables)])
}

/// Where chains, features and subtables begin, and what their heads say, as W-212 has it.
fn examples(asked: &mut dyn Ask) {
    let table: Rc<[u8]> = Rc::from(two_chains());
    let second = 8 + 12 + 36;
    let length = table.len() as u64;
    let chains: [(Cursor, Vec<u64>, Cursor); 3] = [
        ([8, 2], vec![1, 0xA5A5_0001, 20, 3, 56, 0], [second, 1]),
        ([second, 1], vec![1, 0x8000_0000, second + 12, 0, second + 12, 16], [length, 0]),
        ([length, 0], vec![0; FIELDS], [length, 0]),
    ];
    for (cursor, fields, behind) in chains {
        let entry = Entry::MortNextChain;
        asked.ask(&table, Box::new(Next { entry, cursor, written: Some((fields, behind)) }));
    }
    let first = second + 12;
    let subtables: [(Cursor, Vec<u64>, Cursor); 4] = [
        ([first, 16], vec![1, first, 0, 0xFFFF_FFFF, 0, 0], [first + 8, 15]),
        ([first + 8, 15], vec![1, first + 8, 0x1001, 0xFFFF_FFFE, 1, 0], [first + 17, 14]),
        ([first + 8 + 9 + 10 + 11, 12], vec![1, first + 38, 0x4004, 0xFFFF_FFFB, 4, 1], [first + 50, 11]),
        ([first, 0], vec![0; FIELDS], [first, 0]),
    ];
    for (cursor, fields, behind) in subtables {
        let entry = Entry::MortNextSubtable;
        asked.ask(&table, Box::new(Next { entry, cursor, written: Some((fields, behind)) }));
    }
    for table in [mort(&[]), mort(&[chain(1, &[], &[])]), two_chains(), mort(&vec![two_chains()[8..].to_vec(); 12])] {
        ask_lists(asked, &Rc::from(table), 0);
    }
}

/// Every coverage: kind and order.
fn coverages(asked: &mut dyn Ask) {
    for coverage in 0..=0xFFFF {
        let table = Rc::from(chosen_subtable(coverage, 1, &[]));
        ask_next(asked, &table, Entry::MortNextSubtable, [0, 1]);
    }
}

/// A table cut at every byte, at its own start and behind other bytes.
fn cut_tables(asked: &mut dyn Ask) {
    for_each_cut([0, 1, 0], &two_chains(), &mut |table, start| ask_lists(asked, table, start as u64));
}

/// Every count and size of a table changed to each of these numbers.
fn counts_and_sizes(asked: &mut dyn Ask) {
    let second = 8 + 12 + 36;
    let lengths = [4, 12, second + 4];
    let words = [16, 18, second + 8, second + 10, second + 12, second + 20];
    for (at, size) in lengths.map(|at| (at, 4)).into_iter().chain(words.map(|at| (at, 2))) {
        for number in [0, 1, 2, 3, 7, 8, 11, 12, 13, 0xFF, 0x100, 0x7FFF, 0x8000, 0xFFFF, 0x8000_0000, u32::MAX] {
            let mut table = two_chains();
            table[at..at + size].copy_from_slice(&u32::to_be_bytes(number)[4 - size..]);
            ask_lists(asked, &Rc::from(table), 0);
        }
    }
}

/// Cursors that no call has made.
fn far_cursors(asked: &mut dyn Ask) {
    let table: Rc<[u8]> = Rc::from(two_chains());
    for entry in LISTS {
        for_each_far_cursor(table.len() as u64, &mut |cursor| ask_next(asked, &table, entry, cursor));
    }
}

/// Tables at the limit of length and above it.
fn long_tables(asked: &mut dyn Ask) {
    for_each_longest(two_chains(), &mut |table, length| {
        let length = length as u64;
        for entry in LISTS {
            for place in [8, length - 12, length - 11, length - 8, length - 7, length, length + 1] {
                ask_next(asked, table, entry, [place, 1]);
                ask_next(asked, table, entry, [place, 0]);
            }
        }
    });
}

fn random_tables(asked: &mut dyn Ask, random: &mut Random, cases: u64) {
    for_each_heads(asked, random, cases, any_heads, &mut |asked, random, table, start| {
        ask_lists(asked, table, start);
        for entry in LISTS {
            ask_next(asked, table, entry, any_cursor(random, table.len()));
        }
    });
}

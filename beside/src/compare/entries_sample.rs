//! A sample of the crate's answers to calls of every exported entry, which `beside/replay` puts to the box with no Rust at hand.
//!
//! It begins with the names of the entries: how many in one byte, then each with its length in one byte. Calls and replies follow,
//! as the box's pipe has them: a table is a byte 0, its length in four bytes, and its first and its last bytes, each with their
//! count in two, for all between them are 0; a call is the entry's number in one byte, what it is told and lent, and the reply
//! that is right, these two with their lengths in two bytes.

use crate::compare::batch::held;
use crate::questions::{Ask, Question};
use crate::reference::oracle::{Answer, LONGEST_TABLE};
use crate::tables::random::Random;
use crate::wire::entries::ENTRIES;
use crate::wire::reply::number;
use std::collections::{BTreeMap, BTreeSet};
use std::rc::Rc;

/// Picks from all questions a few for each answer of each entry.
pub struct EntriesSample {
    random: Random,
    asked: u64,
    picked: BTreeMap<(u8, u64), Picked>,
}

/// Cases of one entry with one answer, and how many there were to pick from.
#[derive(Default)]
struct Picked {
    seen: usize,
    cases: Vec<Case>,
}

/// A call about a table, and its reply.
#[derive(Clone, PartialEq, Eq, PartialOrd, Ord)]
struct Case {
    table: Rc<[u8]>,
    call: Vec<u8>,
    reply: Vec<u8>,
}

/// The longest table, but for those that are refused for their length, and the longest call; longer ones are left to the
/// comparison.
const LONGEST: usize = 1_500;

/// The most cases of one entry with one answer, and with a table that is too long.
const MOST_CASES: usize = 120;
const MOST_TOO_LONG: usize = 1;

/// As many of the first ones are in the sample; any that come later may take the place of one that is not.
const FIRST_CASES: usize = 5;

/// The bytes of an entry's cases, of which DONE gets so many shares and each other answer one, and the cases that an answer has
/// even if they take more.
const ENTRY_BYTES: usize = 28_000;
const SHARES_OF_DONE: usize = 3;
const LEAST_CASES: usize = 14;

impl Ask for EntriesSample {
    fn ask(&mut self, table: &Rc<[u8]>, question: Box<dyn Question>) {
        self.asked += 1;
        let is_too_long = table.len() > LONGEST_TABLE;
        if table.len() > LONGEST && !is_too_long {
            return;
        }
        let held = held(self.asked);
        let mut call = Vec::new();
        question.arguments(held, &mut call);
        if call.len() > LONGEST {
            return;
        }
        let mut reply = Vec::new();
        if let Err(fault) = question.reply(table, held, &mut reply) {
            panic!("{}: {}", question.describe(held), fault.describe());
        }
        let picked = self.picked.entry((question.entry() as u8, number(&reply[..4]))).or_default();
        let most = if is_too_long { MOST_TOO_LONG } else { MOST_CASES };
        picked.take(&mut self.random, most, Case { table: table.clone(), call, reply });
    }
}

impl Picked {
    fn take(&mut self, random: &mut Random, most: usize, case: Case) {
        self.seen += 1;
        if self.cases.len() < most {
            self.cases.push(case);
            return;
        }
        let place = random.below(self.seen);
        if (FIRST_CASES..most).contains(&place) {
            self.cases[place] = case;
        }
    }

    /// As many as there is room for, or the least.
    fn some(&self, bytes: usize) -> Vec<Case> {
        let mut tables = BTreeSet::new();
        let mut taken = 0;
        let fits = |(number, case): &(usize, &Case)| {
            taken += case.call.len() + case.reply.len();
            taken += if tables.insert(case.table.clone()) { case.table.len() } else { 0 };
            *number < LEAST_CASES || taken <= bytes
        };
        self.cases.iter().enumerate().take_while(fits).map(|(_, case)| case.clone()).collect()
    }
}

impl EntriesSample {
    /// Nothing is picked yet.
    pub fn new(random: Random) -> Self {
        EntriesSample { random, asked: 0, picked: BTreeMap::new() }
    }

    /// The sample, and how many cases it has.
    pub fn finish(&self) -> (Vec<u8>, usize) {
        let mut bytes = vec![ENTRIES.len() as u8];
        for (_, name) in ENTRIES {
            bytes.push(name.len() as u8);
            bytes.extend(name.as_bytes());
        }
        let (mut lent, mut count) = (None, 0);
        for (entry, _) in ENTRIES {
            let cases = self.cases_of(*entry as u8);
            count += cases.len();
            for case in cases {
                if lent.as_ref() != Some(&case.table) {
                    add_table(&case.table, &mut bytes);
                }
                bytes.push(*entry as u8);
                add_part(&case.call, &mut bytes);
                add_part(&case.reply, &mut bytes);
                lent = Some(case.table);
            }
        }
        (bytes, count)
    }

    /// The cases of an entry, those about the same table together.
    fn cases_of(&self, entry: u8) -> Vec<Case> {
        let shares_of = |answer| if answer == Answer::Done(()).number().into() { SHARES_OF_DONE } else { 1 };
        let picked = || self.picked.range((entry, 0)..(entry + 1, 0)).map(|(key, picked)| (shares_of(key.1), picked));
        let all: usize = picked().map(|(shares, _)| shares).sum();
        let some = |(shares, picked): (usize, &Picked)| picked.some(ENTRY_BYTES * shares / all);
        let mut cases: Vec<Case> = picked().flat_map(some).collect();
        cases.sort();
        cases
    }
}

fn add_table(table: &[u8], bytes: &mut Vec<u8>) {
    let (first, last) = table.split_at(table.len() / 2);
    let first_end = first.iter().rposition(|byte| *byte != 0).map_or(0, |place| place + 1);
    let last_start = last.iter().position(|byte| *byte != 0).unwrap_or(last.len());
    bytes.push(0);
    bytes.extend((table.len() as u32).to_le_bytes());
    add_part(&first[..first_end], bytes);
    add_part(&last[last_start..], bytes);
}

fn add_part(part: &[u8], bytes: &mut Vec<u8>) {
    bytes.extend(u16::try_from(part.len()).expect("a short part").to_le_bytes());
    bytes.extend(part);
}

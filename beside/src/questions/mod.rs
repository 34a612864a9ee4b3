//! The questions that are put to both sides, one file for the entries of a part.

pub mod anchored;
pub mod anchored_answers;
pub mod anchored_calls;
pub mod anchored_made;
pub mod anchored_refusals;
pub mod anchored_tables;
pub mod classes;
pub mod features;
pub mod indexed;
pub mod indexed_calls;
pub mod kerning_choices;
pub mod kerning_lists;
pub mod kerning_pairs;
pub mod kerning_passes;
pub mod kerning_runs;
pub mod kerning_steps;
pub mod kerx_manual;
pub mod language;
pub mod lists;
pub mod lone_insertion;
pub mod lookup;
pub mod mended;
pub mod mort_lists;
pub mod mort_passes;
pub mod mort_runs;
pub mod orders;
pub mod passes;
pub mod reasons;
pub mod reels;
pub mod reports;
pub mod runs;
pub mod steps;
pub mod stored;
pub mod value;
pub mod verbs;

use crate::fuzz::case::Chosen;
use crate::fuzz::seeds::Seed;
use crate::fuzz::source::Source;
use crate::questions::indexed_calls::Making;
use crate::reference::kerning::Kerning::{Kern, Kerx};
use crate::reference::kerning_choices::Choices;
use crate::reference::oracle::Fault;
use crate::reference::step::MACHINES;
use crate::tables::kinds::KINDS;
use crate::tables::random::Random;
use crate::wire::entries::{Entry, ENTRIES};
use std::rc::Rc;

/// One call of an exported entry, and what is right for it.
///
/// `held` is a number that changes from question to question. A question lends parts of it where
/// the entry may write, so that what a call left alone can be told from what it wrote.
pub trait Question {
    /// The entry that is called.
    fn entry(&self) -> Entry;
    /// Adds the call's arguments.
    fn arguments(&self, held: u64, call: &mut Vec<u8>);
    /// Adds the reply that the crate's answer asks for.
    fn reply(&self, table: &[u8], held: u64, reply: &mut Vec<u8>) -> Result<(), Fault>;
    /// Adds the question and its answer as the sample has them, after the table.
    fn sample(&self, _table: &[u8], _sample: &mut Vec<u8>) -> Result<(), Fault> {
        panic!("the sample has no form for {}", self.describe(0))
    }
    /// The question in words, with what it lends.
    fn describe(&self, held: u64) -> String;
    /// A reply to it in words.
    fn describe_reply(&self, reply: &[u8]) -> String;
    /// The same question to the entry that also says why nothing was found, where there is one.
    fn with_reason(&self) -> Option<Box<dyn Question>> {
        None
    }
    /// The same question to the entry that is told these choices, where there is one.
    fn with_choices(&self, _choices: Choices) -> Option<Box<dyn Question>> {
        None
    }
    /// The same question to the entry that also takes an ankr table, by these choices, where there is one.
    fn with_marks(&self, _choices: Choices, _ankr: Rc<[u8]>) -> Option<Box<dyn Question>> {
        None
    }
    /// The same question to the entry that also takes an index of classes, made so, where there is one.
    fn with_index(&self, _table: &[u8], _making: &Making) -> Option<Box<dyn Question>> {
        None
    }
    /// The same question to the entry that is told what features are asked for, where there is one: some of the table's, or none.
    fn with_requests(&self, _table: &[u8], _random: &mut Random) -> Option<Box<dyn Question>> {
        None
    }
    /// What the crate does, step by step, where there are steps.
    fn trace(&self, _table: &[u8]) -> Vec<String> {
        Vec::new()
    }
}

/// Whoever the questions are put to.
pub trait Ask {
    /// Takes a question about a table.
    fn ask(&mut self, table: &Rc<[u8]>, question: Box<dyn Question>);

    /// Takes a question that needs no table.
    fn ask_alone(&mut self, question: Box<dyn Question>) {
        self.ask(&Rc::from(Vec::new()), question);
    }
}

/// Some entries, and all that is asked about them.
pub trait Part: Sync {
    /// What it is called in beside/changes.
    fn name(&self) -> &'static str;
    /// It has one random case where a run has so many.
    fn every(&self) -> u64 {
        5
    }
    /// Its entries.
    fn entries(&self) -> Vec<Entry>;
    /// Puts all of its questions, with so many random ones.
    fn ask(&self, asked: &mut dyn Ask, random: &mut Random, cases: u64);
    /// The call of one of its entries that bytes choose, with a state, a cursor or a name from the bytes that follow.
    fn chosen(&self, entry: Entry, chosen: Chosen, source: &mut Source) -> Box<dyn Question>;
    /// What such bytes can begin with.
    fn seed(&self, random: &mut Random, entry: Entry) -> Seed;
}

/// All parts, in the order in which they are asked.
pub static PARTS: &[&dyn Part] = &[
    &lookup::Lookups,
    &reasons::Reasons::Lookups,
    &classes::Classes,
    &language::Languages,
    &verbs::Verbs,
    &passes::OwnPasses(&KINDS[0]),
    &passes::OwnPasses(&KINDS[1]),
    &passes::OwnPasses(&KINDS[2]),
    &passes::OwnPasses(&KINDS[3]),
    &passes::OwnPasses(&KINDS[4]),
    &passes::Passes,
    &steps::Steps(&MACHINES[0]),
    &steps::Steps(&MACHINES[1]),
    &steps::Steps(&MACHINES[2]),
    &steps::Steps(&MACHINES[3]),
    &lists::Lists,
    &runs::Runs,
    &kerning_pairs::Pairs(Kern),
    &reasons::Reasons::Pairs(Kern),
    &kerning_passes::Passes(Kern),
    &kerning_steps::Steps(Kern),
    &kerning_lists::Lists(Kern),
    &kerning_runs::Runs(Kern),
    &kerning_pairs::Pairs(Kerx),
    &reasons::Reasons::Pairs(Kerx),
    &kerning_passes::Passes(Kerx),
    &kerning_steps::Steps(Kerx),
    &kerning_lists::Lists(Kerx),
    &kerning_runs::Runs(Kerx),
    &lone_insertion::Insertions,
    &kerning_choices::ByChoices(Kern),
    &kerning_choices::ByChoices(Kerx),
    &mended::MendedTables,
    &stored::StoredLines,
    &features::Features,
    &kerx_manual::Manual,
    &anchored::AnchoredMarks,
    &mort_lists::Lists,
    &mort_passes::Passes,
    &mort_runs::Runs,
    &reels::Reels,
    &indexed::Indexes,
    &orders::Orders,
    &reports::Reports,
];

/// The part that an entry belongs to.
pub fn part_of(entry: Entry) -> &'static dyn Part {
    *PARTS.iter().find(|part| part.entries().contains(&entry)).expect("a part with this entry")
}

const HEADER: &str = include_str!("../../../crates/firmware/aat.h");

/// The entries that aat.h declares and no part has.
pub fn not_asked_for() -> Vec<&'static str> {
    let declared = HEADER.lines().filter_map(|line| line.strip_prefix("uint32_t ")?.split_once('('));
    let has = |entry: Entry| PARTS.iter().any(|part| part.entries().contains(&entry));
    let is_asked_for = |name: &&str| ENTRIES.iter().any(|entry| entry.1 == *name && has(entry.0));
    declared.map(|(name, _)| name).filter(|name| !is_asked_for(name)).collect()
}

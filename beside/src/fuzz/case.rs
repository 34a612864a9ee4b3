//! A call of an exported entry that any bytes choose, as one of the questions of the comparison.

use crate::fuzz::source::Source;
use crate::questions::{part_of, Question};
use crate::reference::kerning::Kerned;
use crate::reference::lists_by_copy::chains_from;
use crate::reference::mort;
use crate::reference::oracle::aat::{kern, kerx, morx::chains};
use crate::reference::oracle::Fault;
use crate::reference::step::Told;
use crate::wire::entries::{Entry, ENTRIES};
use crate::wire::hex;
use crate::wire::pipe::lend_table;
use std::iter::successors;

/// A question about a table.
pub struct Case {
    question: Box<dyn Question>,
    start: u64,
    table: Vec<u8>,
}

/// What a question lends where the entry may write.
const HELD: u64 = 0x5A17_C0DE_0BAD_F00D;

/// The most heads of a run, and one more.
const MOST_HEADS: usize = 2_000;

impl Case {
    /// The call that bytes choose: its entry, by the number on the pipe, what any entry may be told, what some are lent, and
    /// the table.
    pub fn of(bytes: &[u8]) -> Self {
        let mut source = Source(bytes);
        let number = usize::from(source.byte().wrapping_sub(1)) % ENTRIES.len();
        let chosen = Chosen::of(&mut source);
        let start = chosen.start;
        let entry = ENTRIES[number].0;
        let question = part_of(entry).chosen(entry, chosen, &mut source);
        Case { question, start, table: source.0.to_vec() }
    }

    /// The call on the box's pipe, after that of its table.
    pub fn call(&self) -> Vec<u8> {
        let mut call = Vec::new();
        lend_table(&self.table, &mut call);
        call.push(self.question.entry() as u8);
        self.question.arguments(HELD, &mut call);
        call
    }

    /// The reply that the crate's answer asks for.
    pub fn reply(&self) -> Result<Vec<u8>, Fault> {
        let mut reply = Vec::new();
        self.question.reply(&self.table, HELD, &mut reply)?;
        Ok(reply)
    }

    /// Whether a run has more heads than is worth the time here; `beside/run` has runs up to the limit and past it.
    pub fn is_long(&self) -> bool {
        if self.start > self.table.len() as u64 {
            return false;
        }
        let (table, start) = (&self.table[..], self.start as u32);
        match self.question.entry() {
            Entry::MorxRun | Entry::MorxRunWith | Entry::MorxReel => {
                let mut left = MOST_HEADS;
                chains(table, start).any(|chain| {
                    left = left.saturating_sub(1 + chain.subtables().take(left).count());
                    left == 0
                })
            }
            Entry::MortRun | Entry::MortReel => {
                let mut left = MOST_HEADS;
                let mut chains = chains_from(table, self.start);
                while let Some((chain, behind)) = mort::next_chain(table, chains) {
                    let subtables =
                        successors(Some(chain.subtables), |list| Some(mort::next_subtable(table, *list)?.1));
                    left = left.saturating_sub(subtables.take(left).count());
                    chains = behind;
                    if left == 0 {
                        return true;
                    }
                }
                false
            }
            Entry::KernRun | Entry::KernRunBy => kern::subtables(table, start).take(MOST_HEADS).count() == MOST_HEADS,
            Entry::KerxRun | Entry::KerxRunBy | Entry::KerxRunAnchored => {
                kerx::subtables(table, start, 0).take(MOST_HEADS).count() == MOST_HEADS
            }
            _ => false,
        }
    }

    /// The call in words.
    pub fn describe(&self) -> String {
        format!("{}\n  table {}", self.question.describe(HELD), hex::digits(&self.table))
    }

    /// A reply to it in words.
    pub fn describe_reply(&self, reply: &[u8]) -> String {
        self.question.describe_reply(reply)
    }
}

/// What any entry may be told, of which each takes its part. The glyph is the number of a verb, too, and the pair of glyphs a
/// coverage.
pub struct Chosen {
    pub start: u64,
    pub version: u16,
    pub right_to_left: u32,
    pub told: Told,
    /// The second glyph of a pair.
    pub right: u16,
    pub lent: Kerned,
}

impl Chosen {
    fn of(source: &mut Source) -> Self {
        let start = source.number();
        let version = source.number() as u16;
        let ways = source.byte();
        let told = Told { index: source.number(), glyph: source.word(), ends: (ways & 2).into() };
        Chosen { start, version, right_to_left: (ways & 1).into(), told, right: source.word(), lent: source.kerned() }
    }
}

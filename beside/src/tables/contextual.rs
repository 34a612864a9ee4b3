//! The contextual kind: bodies of its subtables.

use crate::reference::line::DELETED;
use crate::reference::oracle::Answer;
use crate::tables::kinds::{Example, Kind};
use crate::tables::lookup::{record_size, with_records, with_values, words, Record};
use crate::tables::morx::{any_machine, machine, small_machine, Placed};
use crate::tables::noncontextual;
use crate::tables::random::Random;
use crate::wire::entries::Entry;
use std::ops::Range;

/// Contextual substitution.
pub const KIND: Kind = Kind {
    name: "contextual",
    number: 1,
    pass: Entry::ContextualPass,
    examples,
    short_bodies,
    any_body,
    limits: |_| {},
};

const SET_MARK: u16 = 0x8000;
const STAY: u16 = 0x4000;

/// No lookup for the marked or the current glyph.
const NONE: u16 = 0xFFFF;

/// The lookups behind the list of their offsets.
fn substitutions(lookups: &[Vec<u8>]) -> Vec<u8> {
    let mut list = Vec::new();
    let mut offset = 4 * lookups.len();
    for lookup in lookups {
        list.extend((offset as u32).to_be_bytes());
        offset += lookup.len();
    }
    [list, lookups.concat()].concat()
}

/// A body that does nothing but by these entries, over the classes 4 and 5 of the glyphs 10 and 11; it has a lookup to the
/// next glyph, which turns a deleted one into 13, and one that deletes 10 and turns 11 into 10.
fn small_body(entries: &[Placed]) -> Vec<u8> {
    let single = |(glyph, value)| Record { first: glyph, last: glyph, value };
    let records = [(10, 11), (11, 12), (DELETED, 13)].map(single);
    let lookups = [with_records(6, record_size(6), 3, &records), with_values(8, 10, &[DELETED, 10])];
    small_machine(2, 2, &[0, NONE, NONE], entries, &[substitutions(&lookups)])
}

/// A class past the last one is read in the next row: the entry for glyph 5 turns it into 9.
fn class_past_the_last() -> Vec<u8> {
    let entries = words(&[0, 0, NONE, NONE, 0, 0, NONE, 0]);
    let lookup = with_values(6, 5, &[9]);
    machine(4, &[with_values(8, 5, &[4]), words(&[0, 0, 0, 0, 1, 0, 0, 0]), entries, substitutions(&[lookup])])
}

/// Glyph 5 is marked; 6 turns the marked 5 into 9; 7 looks up the glyph that was marked, not the one that is there now.
fn marked_glyph_is_kept() -> Vec<u8> {
    let entries = words(&[0, 0, NONE, NONE, 0, SET_MARK, NONE, NONE, 0, 0, 0, NONE, 0, 0, 1, NONE]);
    let lookups = [with_values(6, 5, &[9]), with_values(6, 9, &[11])];
    let rows = [0, 0, 0, 0, 1, 2, 3].repeat(2);
    machine(7, &[with_values(8, 5, &[4, 5, 6]), words(&rows), entries, substitutions(&lookups)])
}

/// Every entry turns a glyph into the next and stays.
fn counts_up() -> Vec<u8> {
    let next: Vec<u16> = (11..60).collect();
    let entries = words(&[0, 0, NONE, NONE, 0, STAY, NONE, 0]);
    let lookups = [with_values(8, 10, &next)];
    machine(5, &[with_values(8, 10, &[4; 50]), words(&[0, 0, 0, 0, 1]), entries, substitutions(&lookups)])
}

/// What the documents say of marks, stalls, the end of text and the end of a pass, and tables on which the crate and the
/// manual part.
fn examples() -> Vec<Example> {
    use Answer::{Done, Ended};
    let mark: Placed = (0, 4, &[0, SET_MARK, NONE, NONE]);
    let marked_at_end: Placed = (0, 0, &[0, 0, 0, 0]);
    let astray: Placed = (0, 5, &[9_000, 0, 0, 0]);
    vec![
        Example::new(class_past_the_last(), &[5], &[9], Done(())),
        Example::new(marked_glyph_is_kept(), &[5, 6, 7], &[9, 6, 7], Done(())),
        Example::new(counts_up(), &[10, 12], &[28, 30], Done(())),
        Example::new(small_body(&[mark, marked_at_end]), &[10, 11], &[11, 11], Done(())),
        Example::new(small_body(&[marked_at_end]), &[10, 11], &[10, 11], Done(())),
        Example::new(small_body(&[marked_at_end]), &[], &[], Done(())),
        Example::new(small_body(&[mark, astray]), &[10, 11, 10], &[11, 12, 10], Ended),
        Example::new(small_body(&[mark, astray]), &[10, 11], &[11, 12], Ended),
        Example::new(small_body(&[astray]), &[11], &[12], Done(())),
    ]
}

/// Every entry for one glyph, with every one for the other, and with some for the end of text.
fn short_bodies(hand_over: &mut dyn FnMut(Vec<u8>)) {
    let entries = all_entries();
    for entry in &entries {
        for other in &entries {
            for end in [[0, 0, NONE, NONE], [0, STAY, 0, 0], [1, SET_MARK | STAY, 1, 1]] {
                hand_over(small_body(&[(0, 4, entry), (0, 5, other), (0, 0, &end)]));
            }
        }
    }
}

fn all_entries() -> Vec<[u16; 4]> {
    let mut entries = Vec::new();
    for flags in [0, STAY, SET_MARK, SET_MARK | STAY] {
        for marked in [NONE, 0, 1, 2] {
            for current in [NONE, 0, 1] {
                entries.push([0, flags, marked, current]);
            }
        }
    }
    entries
}

/// Any machine with up to four lookups; some never advance, some always.
fn any_body(random: &mut Random, glyphs: &Range<u16>) -> Vec<u8> {
    let stays = random.among(&[0, 1, 1, 1, 2, 4]);
    let lookups: Vec<Vec<u8>> = (0..1 + random.below(4)).map(|_| noncontextual::any_body(random, glyphs)).collect();
    let any_action = |random: &mut Random| any_action(random, stays, lookups.len());
    any_machine(random, glyphs, &any_action, &[substitutions(&lookups)])
}

/// Any flags and lookups; stays so many times in four.
fn any_action(random: &mut Random, stays: usize, lookups: usize) -> Vec<u16> {
    let mut flags = random.among(&[0, SET_MARK]);
    if random.below(4) < stays {
        flags |= STAY;
    }
    if random.once_in(16) {
        flags |= random.word() & 0x3FFF;
    }
    let mut any_index = || match random.below(12) {
        0 => random.word(),
        1..=5 => NONE,
        _ => random.below(lookups) as u16,
    };
    vec![flags, any_index(), any_index()]
}

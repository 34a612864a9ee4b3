//! The non-contextual kind: its bodies are lookup tables.

use crate::reference::line::DELETED;
use crate::reference::oracle::Answer;
use crate::tables::kinds::{Example, Kind};
use crate::tables::lookup::{any_with_values, with_values, words};
use crate::tables::random::Random;
use crate::tables::strings::for_each_string;
use crate::wire::entries::Entry;
use std::ops::Range;

/// Non-contextual substitution.
pub const KIND: Kind = Kind {
    name: "non-contextual",
    number: 4,
    pass: Entry::NoncontextualPass,
    examples,
    short_bodies,
    any_body,
    limits: |_| {},
};

/// Document 01's table, and a deleted glyph that a record brings back.
fn examples() -> Vec<Example> {
    let trimmed = with_values(8, 5, &[7, 9]);
    let counted_sentinel = words(&[6, 4, 1, 4, 0, 0, DELETED, 0]);
    vec![
        Example::new(trimmed.clone(), &[5, 6, 20], &[7, 9, 20], Answer::Done(())),
        Example::new(trimmed.clone(), &[5, 5, DELETED], &[7, 7, DELETED], Answer::Done(())),
        Example::new(trimmed, &[], &[], Answer::Done(())),
        Example::new(counted_sentinel, &[5, DELETED], &[5, 0], Answer::Done(())),
    ]
}

/// Every format with every few values.
fn short_bodies(hand_over: &mut dyn FnMut(Vec<u8>)) {
    for format in [0, 2, 4, 6, 8, 10] {
        for_each_string(&[0, 10, 11, 12, DELETED], 3, &mut |values| {
            if !values.is_empty() {
                hand_over(with_values(format, 10, values));
            }
        });
    }
}

/// Any lookup: mostly from these glyphs to these, sometimes from a deleted one.
pub fn any_body(random: &mut Random, glyphs: &Range<u16>) -> Vec<u8> {
    let any_value = |random: &mut Random| match random.below(10) {
        0 => DELETED,
        1 => random.word(),
        _ => glyphs.start + random.below(glyphs.len()) as u16,
    };
    let values: Vec<u16> = glyphs.clone().map(|_| any_value(random)).collect();
    let first = if random.once_in(5) { DELETED - (glyphs.len() as u16 - 1) } else { glyphs.start };
    any_with_values(random, first, &values)
}

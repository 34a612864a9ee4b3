//! The rearrangement kind: bodies of its subtables.

use crate::reference::line::DELETED;
use crate::reference::oracle::Answer;
use crate::tables::kinds::{Example, Kind};
use crate::tables::morx::{any_machine, small_machine, Placed};
use crate::tables::random::Random;
use crate::wire::entries::Entry;
use std::ops::Range;

/// Rearrangement.
pub const KIND: Kind = Kind {
    name: "rearrangement",
    number: 0,
    pass: Entry::RearrangementPass,
    examples,
    short_bodies,
    any_body,
    limits: |_| {},
};

const MARK_FIRST: u16 = 0x8000;
const STAY: u16 = 0x4000;
const MARK_LAST: u16 = 0x2000;

/// A body that does nothing but by these entries, over the classes 4, 5, 6.. of the glyphs 10, 11, 12..
fn body(entries: &[Placed]) -> Vec<u8> {
    small_machine(5, 3, &[0], entries, &[])
}

/// What the documents say of marks, verbs, stalls, the end of text and the end of a pass.
fn examples() -> Vec<Example> {
    use Answer::{Done, Ended};
    let five = [10, 11, 12, 13, 14];
    let first: Placed = (0, 4, &[0, MARK_FIRST]);
    let last_stays = [0, STAY | MARK_LAST | 1];
    let stalls: Vec<Placed> = (4..8).map(|class| (0, class, &last_stays[..])).collect();
    let seen_again: [Placed; 4] =
        [first, (0, 5, &[1, STAY | MARK_LAST | 1]), (1, 4, &[2, 0]), (2, 6, &[2, MARK_LAST | 1])];
    vec![
        Example::new(body(&[first, (0, 8, &[0, MARK_LAST | 1])]), &five, &[11, 12, 13, 14, 10], Done(())),
        Example::new(body(&[first, (0, 8, &[0, MARK_LAST | 13])]), &five, &[13, 14, 12, 11, 10], Done(())),
        Example::new(body(&[first, (0, 2, &[0, MARK_LAST | 1])]), &[10, 11, DELETED], &[11, DELETED, 10], Done(())),
        Example::new(body(&[first, (0, 0, &[0, MARK_LAST | 1])]), &[10, 11, 12], &[11, 12, 10], Done(())),
        Example::new(body(&[(0, 0, &[0, MARK_LAST | 1])]), &[], &[], Done(())),
        Example::new(body(&[(0, 6, &[0, 3])]), &[10, 11, 12], &[10, 11, 12], Done(())),
        Example::new(body(&[(0, 6, &[0, MARK_FIRST | 3])]), &[10, 11, 12], &[10, 11, 12], Done(())),
        Example::new(body(&stalls), &[10, 11, 12, 13], &[12, 13, 10, 11], Done(())),
        Example::new(body(&seen_again), &[10, 11, 12], &[10, 12, 11], Done(())),
        Example::new(body(&[first, (0, 5, &[9_000, MARK_LAST | 1])]), &[10, 11, 12], &[11, 10, 12], Ended),
        Example::new(body(&[first, (0, 6, &[9_000, MARK_LAST | 1])]), &[10, 11, 12], &[11, 12, 10], Ended),
    ]
}

/// Every entry for one glyph, with all marks and some verbs for the other, and with two for the end of text.
fn short_bodies(hand_over: &mut dyn FnMut(Vec<u8>)) {
    for flags in all_flags(&(0..16).collect::<Vec<u16>>()) {
        for other in all_flags(&[0, 1, 7, 14]) {
            for end in [0, MARK_LAST | 13] {
                let entries: [Placed; 3] = [(0, 4, &[0, flags]), (0, 5, &[0, other]), (0, 0, &[0, end])];
                hand_over(small_machine(2, 1, &[0], &entries, &[]));
            }
        }
    }
}

fn all_flags(verbs: &[u16]) -> Vec<u16> {
    (0..8).flat_map(|marks| verbs.iter().map(move |verb| marks << 13 | verb)).collect()
}

/// Any machine; some never advance, some always.
fn any_body(random: &mut Random, glyphs: &Range<u16>) -> Vec<u8> {
    let stays = random.among(&[0, 1, 1, 1, 2, 4]);
    any_machine(random, glyphs, &|random| vec![any_flags(random, stays)], &[])
}

/// Any marks and verb; stays so many times in four.
fn any_flags(random: &mut Random, stays: usize) -> u16 {
    let mut flags = random.among(&[0, MARK_FIRST, MARK_LAST, MARK_LAST, MARK_FIRST | MARK_LAST]);
    if random.below(4) < stays {
        flags |= STAY;
    }
    if random.once_in(16) {
        flags |= random.word() & 0x1FF0;
    }
    flags | random.among(&[0, 1, 1, 1]) * random.below(16) as u16
}

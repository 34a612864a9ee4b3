//! The crate's rearrangement of a window. Its own machine makes it: the fields are private.

use crate::reference::oracle::aat::morx::{Rearrange, Rearrangement, RearrangementState, SubtableKind};
use crate::tables::lookup::words;
use crate::tables::morx::{in_chain, machine, subtable, the_subtable};

/// The verbs' numbers; the machine below takes them for glyphs.
const VERBS: u16 = 16;

/// The glyph that marks the first place.
const FIRST: u16 = VERBS;

/// What the crate's machine hands over for the verb of this number modulo 16, when it has marked the place at `start`
/// as the first and the one at `end`, which has the verb, as the last: nothing for verb 0.
pub fn rearrange(verb: u16, start: usize, end: usize) -> Option<Rearrange> {
    let table = table();
    let machine = rearrangement(&table);
    let mut state = RearrangementState::new();
    let mut handed = None;
    for (place, glyph) in [(start, FIRST), (end, verb % VERBS)] {
        let hand_over = |rearrange: &Rearrange| {
            handed = Some(*rearrange);
            Some(())
        };
        machine.next(&mut state, place, glyph, false, hand_over).expect("an entry for every glyph");
    }
    handed
}

/// The machine of a morx table with one subtable, a rearrangement.
pub fn rearrangement(table: &[u8]) -> Rearrangement<'_> {
    match the_subtable(table) {
        Some(SubtableKind::Rearrangement(machine)) => machine,
        _ => panic!("no rearrangement"),
    }
}

/// A morx table whose one machine has a class and an entry of its own for each verb and for the first mark.
fn table() -> Vec<u8> {
    let kinds = VERBS + 1;
    let numbers: Vec<u16> = (0..kinds).collect();
    let class_table = words(&[&[8, 0, kinds], &numbers[..]].concat());
    let entries: Vec<u16> = (0..kinds).flat_map(|number| [0, flags(number)]).collect();
    in_chain(&subtable(0, &machine(kinds, &[class_table, words(&numbers), words(&entries)])))
}

/// The flags of an entry: the first mark, or the last with its verb.
fn flags(number: u16) -> u16 {
    if number == FIRST {
        0x8000
    } else {
        0x2000 | number
    }
}

//! The insertion kind: bodies of its subtables.

use crate::reference::line::{Line, DELETED, LARGEST_ROOM};
use crate::reference::oracle::Answer;
use crate::reference::pass::line_of;
use crate::tables::kinds::{Example, Kind};
use crate::tables::lookup::words;
use crate::tables::morx::{any_machine, body_of, small_machine, Placed};
use crate::tables::random::Random;
use crate::wire::entries::Entry;
use std::ops::Range;

/// Insertions.
pub const KIND: Kind =
    Kind { name: "insertion", number: 5, pass: Entry::InsertionPass, examples, short_bodies, any_body, limits };

const SET_MARK: u16 = 0x8000;
const STAY: u16 = 0x4000;
const BEFORE: u16 = 0x0800;
const BEFORE_MARK: u16 = 0x0400;

/// No glyphs at the current place or at the mark.
const NONE: u16 = 0xFFFF;

/// The flags that say how many glyphs are put in at the current place and at the mark.
fn counts(current: u16, marked: u16) -> u16 {
    current << 5 | marked
}

/// A body that does nothing but by these entries, over the classes 4 and 5 of the glyphs 10 and 11, with these glyphs to put
/// in.
fn small_body(entries: &[Placed], list: &[u16]) -> Vec<u8> {
    small_machine(2, 2, &[0, NONE, NONE], entries, &[words(list)])
}

/// Glyph 6 sets the mark as it puts in 30 behind the one set at 5; 31 then goes to where 6 was.
const MARK_IS_NOT_MOVED: &str = "0002000000000001000000010000006e00000000000000010000005e0000000500000001000000070\
    0000014000000200000002e0000004e000800050003000400050006000000000000000000010002000300000000ffffffff00008000ffffffff0\
    0008001ffff000000000001ffff0001001e001f";

/// A list of no glyphs that begins at the table's end.
const NONE_AT_END: &str = "0002000000000001000000010000004a00000000000000010000003a0000000500000001000000050000001\
    40000001c000000260000002e0008000500010004000000000000000000000000000000000000";

/// What the documents say of places, marks, rooms, stalls, the end of text and the end of a pass, and tables on which the
/// crate and the manual part.
fn examples() -> Vec<Example> {
    use Answer::{Done, Ended, Full};
    let list = [20, 21, 22];
    let body = |entries: &[Placed]| small_body(entries, &list);
    let behind: Placed = (0, 4, &[0, counts(2, 0), 0, NONE]);
    let before: Placed = (0, 4, &[0, BEFORE | counts(2, 0), 0, NONE]);
    let mark: Placed = (0, 4, &[0, SET_MARK, NONE, NONE]);
    let at_mark: Placed = (0, 5, &[0, BEFORE_MARK | counts(0, 1), NONE, 2]);
    let mark_behind: Placed = (0, 4, &[0, SET_MARK | BEFORE | counts(1, 0), 0, NONE]);
    let both: Placed = (0, 5, &[0, counts(2, 1), 0, 2]);
    let at_end: Placed = (0, 0, &[0, counts(1, 0), 1, NONE]);
    let stalls: Placed = (0, 4, &[0, STAY | counts(1, 0), 0, NONE]);
    let none_inside: Placed = (0, 4, &[0, 0, 2, 2]);
    let none_at_end: Placed = (0, 5, &[0, 0, 3, NONE]);
    let past_end: Placed = (0, 5, &[0, counts(1, 0), 9, NONE]);
    let cut_list: Placed = (0, 5, &[0, counts(1, 2), 0, 2]);
    let stalled = [&[10][..], &[20; 18]].concat();
    vec![
        Example::new(body(&[behind]), &[10, 10], &[10, 20, 21, 10, 20, 21], Done(())).homes(&[0, 1]),
        Example::new(body(&[before]), &[10, 11], &[20, 21, 10, 11], Done(())),
        Example::in_room(9, body(&[mark, at_mark]), &[12, 10, 11], &[12, 22, 10, 11], Done(())),
        Example::new(body(&[mark, both]), &[10, 11, 11], &[10, 22, 22, 11, 20, 21, 11, 20, 21], Done(())),
        Example::in_room(4, body(&[mark, both]), &[10, 11, 11], &[10, 22, 11, 11], Full),
        Example::in_room(3, body(&[mark, both]), &[10, 11, 11], &[10, 11, 11], Full),
        Example::new(body(&[at_end]), &[10], &[10, 21], Done(())),
        Example::new(body(&[at_end]), &[], &[21], Done(())),
        Example::in_room(0, body(&[at_end]), &[], &[], Full),
        Example::new(body(&[stalls]), &[10], &stalled, Done(())),
        Example::in_room(18, body(&[stalls]), &[10], &stalled[..18], Full),
        Example::in_room(4, body(&[mark_behind, at_mark]), &[10, 11], &[22, 20, 10, 11], Done(())),
        Example::in_room(2, body(&[none_inside, none_at_end]), &[10, 11], &[10, 11], Ended),
        Example::in_room(6, body(&[behind, past_end]), &[10, 11], &[10, 20, 21, 11], Ended),
        Example::in_room(6, body(&[cut_list]), &[10, 11], &[10, 11], Ended),
        Example::in_room(9, body_of(MARK_IS_NOT_MOVED), &[5, 6, 7], &[5, 30, 31, 6, 7], Done(())).homes(&[0, 1, 2]),
        Example::in_room(9, body_of(NONE_AT_END), &[5, 5], &[5, 5], Ended),
    ]
}

/// Every entry for one glyph, with some for the other, and with two for the end of text.
fn short_bodies(hand_over: &mut dyn FnMut(Vec<u8>)) {
    let entries = all_entries();
    for entry in &entries {
        for other in entries.iter().step_by(7) {
            for end in [[0, 0, NONE, NONE], [0, STAY | counts(1, 2), 0, 1]] {
                hand_over(small_body(&[(0, 4, entry), (0, 5, other), (0, 0, &end)], &[20, 10, 11]));
            }
        }
    }
}

/// All flags with a few counts and lists: at one place or both, of no glyphs, cut by the table's end, at it and past it.
fn all_entries() -> Vec<[u16; 4]> {
    let lists = [
        [counts(1, 0), 0, NONE],
        [counts(0, 2), NONE, 1],
        [counts(2, 1), 1, 0],
        [counts(0, 0), 2, 2],
        [counts(2, 3), 0, 1],
        [counts(0, 0), NONE, 3],
        [counts(0, 0), 4, NONE],
        [counts(1, 1), NONE, NONE],
    ];
    let mut entries = Vec::new();
    for marks in [0, SET_MARK] {
        for stays in [0, STAY] {
            for places in [0, BEFORE, BEFORE_MARK, BEFORE | BEFORE_MARK] {
                entries
                    .extend(lists.map(|[count, current, marked]| [0, marks | stays | places | count, current, marked]));
            }
        }
    }
    entries
}

/// Any machine with any list; some never advance, some always.
fn any_body(random: &mut Random, glyphs: &Range<u16>) -> Vec<u8> {
    let stays = random.among(&[0, 1, 1, 1, 2, 4]);
    let puts = random.among(&[1, 2, 3, 5]);
    let most = random.among(&[1, 2, 2, 3, 31]);
    let size = most + random.below(6);
    let any_glyph = |random: &mut Random| match random.below(12) {
        0 => random.word(),
        1 => DELETED,
        _ => glyphs.start + random.below(glyphs.len()) as u16,
    };
    let list: Vec<u16> = (0..size).map(|_| any_glyph(random)).collect();
    let any_entry = |random: &mut Random| {
        let mut flags = random.among(&[0, SET_MARK]) | random.among(&[0, BEFORE]) | random.among(&[0, BEFORE_MARK]);
        if random.below(4) < stays {
            flags |= STAY;
        }
        if random.once_in(16) {
            flags |= random.word() & 0x3000;
        }
        let [current, marked] = [0; 2].map(|_| random.below(most + 1) as u16);
        let indexes = [current, marked].map(|count| any_index(random, puts, size, count));
        vec![flags | counts(current, marked), indexes[0], indexes[1]]
    };
    any_machine(random, glyphs, &any_entry, &[words(&list)])
}

/// None, or where so many glyphs of the list begin: mostly all in it, sometimes about its end.
fn any_index(random: &mut Random, puts: usize, size: usize, count: u16) -> u16 {
    let last = size - count as usize;
    match random.below(40) {
        0 => random.word(),
        1 => (last + 1 + random.below(3)) as u16,
        _ if random.once_in(puts) => random.below(last + 1) as u16,
        _ => NONE,
    }
}

/// Rooms that the glyphs of a step fill, and some smaller and larger by one; and the largest, for a few of them.
fn limits(hand_over: &mut dyn FnMut(Vec<u8>, Line)) {
    for (current, marked) in [(0, 0), (1, 0), (0, 1), (1, 1), (2, 5), (31, 0), (0, 31), (31, 31)] {
        for flags in [0, BEFORE, BEFORE_MARK, SET_MARK, STAY, STAY | BEFORE | BEFORE_MARK] {
            let body = limited_body(flags | counts(current, marked));
            for glyphs in [&[10, 11][..], &[11, 10], &[10, 12, 11, 10]] {
                let full = glyphs.len() + usize::from(current + marked);
                for room in [full.saturating_sub(1), full, full + 1, full + 2] {
                    hand_over(body.clone(), line_of(glyphs, room.max(glyphs.len())));
                }
            }
        }
        for flags in [0, STAY | BEFORE | BEFORE_MARK] {
            for left in [0, 1, usize::from(marked), usize::from(current + marked)] {
                let long = [vec![12; LARGEST_ROOM - left - 4], vec![10, 12, 11, 10]].concat();
                hand_over(limited_body(flags | counts(current, marked)), line_of(&long, LARGEST_ROOM));
            }
        }
    }
}

/// A body that marks glyph 10 and does this at glyph 11, and once more at the end.
fn limited_body(flags: u16) -> Vec<u8> {
    let entries: [Placed; 3] =
        [(0, 4, &[0, SET_MARK, NONE, NONE]), (0, 5, &[1, flags, 0, 3]), (1, 0, &[1, counts(0, 1), NONE, 7])];
    small_body(&entries, &(20..60).collect::<Vec<u16>>())
}

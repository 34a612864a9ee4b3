//! State tables as bytes, as far as classes need them: extended and classic ones from a seed, whole and damaged.

use crate::tables::lookup::{any_count, any_size, damage, last_glyphs, words, Made};
use crate::tables::random::Random;

/// The head of an extended state table: classes, class table, states, entries.
pub fn extended_head(numbers: [u32; 4]) -> Vec<u8> {
    numbers.iter().flat_map(|number| number.to_be_bytes()).collect()
}

/// The bytes in the head of an extended state table.
pub const EXTENDED_HEAD: usize = 16;

/// An extended state table with this class table right behind its head.
pub fn extended(class_table: &[u8]) -> Vec<u8> {
    let behind = EXTENDED_HEAD + class_table.len();
    let mut table = extended_head([4, EXTENDED_HEAD as u32, behind as u32, behind as u32]);
    table.extend(class_table);
    table
}

/// The bytes in the head of a classic state table.
pub const CLASSIC_HEAD: usize = 8;

/// A classic state table with a class table right behind its head, which states this count; its states are at its end.
pub fn classic(first: u16, count: u16, classes: &[u8]) -> Vec<u8> {
    let behind = (CLASSIC_HEAD + 4 + classes.len()) as u16;
    let mut table = words(&[4, CLASSIC_HEAD as u16, behind, behind, first, count]);
    table.extend(classes);
    table
}

/// Any extended state table: its class table of any format, often damaged, often behind other bytes.
pub fn any_extended(random: &mut Random) -> Made {
    let lookup = Made::any(random, 400);
    let right = EXTENDED_HEAD + lookup.start;
    let length = EXTENDED_HEAD + lookup.table.len();
    let [states, entries] = [random.number() as u32, random.below(length + 2) as u32];
    let class_table = any_offset(random, right, length);
    let mut table = extended_head([random.among(&[0, 1, 4, 7, u32::MAX]), class_table, states, entries]);
    table.extend(lookup.table);
    if random.once_in(4) {
        damage(random, &mut table);
    }
    Made::behind_others(random, table, lookup.edges)
}

/// Where a head says that a part lies: mostly the right offset.
fn any_offset(random: &mut Random, right: usize, length: usize) -> u32 {
    let (right, length) = (right as u32, length as u32);
    match random.below(24) {
        0 => random.number() as u32,
        1 => random.among(&[0x7FFF_FFFF, 0x8000_0000, u32::MAX - 39, u32::MAX - 1, u32::MAX]),
        2 => right + random.among(&[1, 2, 0x1_0000, 0x100_0000]),
        3 => random.among(&[0, 2, 8, length - 2, length - 1, length, length + 1]),
        _ => right,
    }
}

/// Any classic state table: its parts mostly in it, often up to its end, often damaged, often behind other bytes.
pub fn any_classic(random: &mut Random) -> Made {
    let size = any_size(random, 300);
    let first = if random.once_in(2) { random.below(10) as u16 } else { random.word() };
    let count = any_count(random, size);
    let [between, behind] = [random.among(&[0, 0, 1, 6]), random.among(&[0, 0, 0, 1, 2, 30])];
    let right = CLASSIC_HEAD + between;
    let length = right + 4 + size + behind;
    let head = [
        random.among(&[0, 1, 4, 7, 0xFFFF]),
        any_offset(random, right, length) as u16,
        any_state_array(random, length),
        random.word(),
    ];
    let mut table = words(&head);
    table.extend(random.bytes(between));
    table.extend(words(&[first, count]));
    table.extend(random.bytes(size + behind));
    if random.once_in(4) {
        damage(random, &mut table);
    }
    Made::behind_others(random, table, last_glyphs(first, &[1, size / 2, size, count as usize]))
}

/// Where the states begin: mostly in the table.
fn any_state_array(random: &mut Random, length: usize) -> u16 {
    let length = length as u16;
    match random.below(8) {
        0 => random.among(&[0, length - 1, length, length, length + 1, 0xFFFF]),
        1 => random.word(),
        _ => random.below(length as usize) as u16,
    }
}

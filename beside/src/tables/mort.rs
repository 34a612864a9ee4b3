//! mort tables as bytes, of given parts and from a seed.

use crate::tables::kerx_manual::{trimmed, UNIT_SIZES};
use crate::tables::lookup::{damage, with_values, words, Made};
use crate::tables::noncontextual;
use crate::tables::random::Random;
use std::ops::Range;

/// The bytes in a subtable's head.
pub const SUBTABLE_HEAD: usize = 8;

/// A subtable with this coverage, whose low three bits are its kind, and this body, which flag 1 chooses.
pub fn subtable(coverage: u16, body: &[u8]) -> Vec<u8> {
    chosen_subtable(coverage, 1, body)
}

/// The same, which these flags choose.
pub fn chosen_subtable(coverage: u16, flags: u32, body: &[u8]) -> Vec<u8> {
    let length = (SUBTABLE_HEAD + body.len()) as u16;
    [&words(&[length, coverage]), &flags.to_be_bytes()[..], body].concat()
}

/// A chain with these flags, the bytes of its features, and its subtables.
pub fn chain(flags: u32, features: &[u8], subtables: &[Vec<u8>]) -> Vec<u8> {
    let body = [features, &subtables.concat()].concat();
    let counts = words(&[(features.len() / 12) as u16, subtables.len() as u16]);
    [&flags.to_be_bytes()[..], &(12 + body.len() as u32).to_be_bytes(), &counts, &body].concat()
}

/// A mort table of these chains.
pub fn mort(chains: &[Vec<u8>]) -> Vec<u8> {
    let head = [0x1_0000, chains.len() as u32].map(u32::to_be_bytes).concat();
    [head, chains.concat()].concat()
}

/// What a classic state table is made of.
pub struct Classic<'a> {
    /// The first of the glyphs that have a class, and their classes.
    pub first: u16,
    pub classes: &'a [u8],
    /// The number of classes.
    pub count: u16,
    /// For each state and class the number of its entry.
    pub rows: &'a [u8],
    /// For each entry where its row begins, counted in bytes from the first row on, and its flags.
    pub entries: &'a [(u16, u16)],
}

impl Classic<'_> {
    /// Its bytes: head, class table, rows, entries.
    pub fn bytes(&self) -> Vec<u8> {
        let class_table = 8;
        let states = class_table + 4 + self.classes.len() as u16;
        let entries = states + self.rows.len() as u16;
        let head = words(&[self.count, class_table, states, entries, self.first, self.classes.len() as u16]);
        let list: Vec<u16> = self.entries.iter().flat_map(|(row, flags)| [states.wrapping_add(*row), *flags]).collect();
        [&head, self.classes, self.rows, &words(&list)].concat()
    }

    /// The same in another order: entries, rows, class table.
    pub fn turned(&self) -> Vec<u8> {
        let entries = 8;
        let states = entries + 4 * self.entries.len() as u16;
        let class_table = states + self.rows.len() as u16;
        let list: Vec<u16> = self.entries.iter().flat_map(|(row, flags)| [states.wrapping_add(*row), *flags]).collect();
        let head = words(&[self.count, class_table, states, entries]);
        let class_head = words(&[self.first, self.classes.len() as u16]);
        [&head, &words(&list), self.rows, &class_head, self.classes].concat()
    }
}

/// An entry, the state that it leads to first, then its flags; with the state and the class that it is for.
pub type Placed = (u8, u8, [u16; 2]);

/// A machine with a class of its own for each of so many glyphs from 10 on, the first of them class 4, and so many states. It stays in
/// its state and does nothing, but by these entries.
pub fn small_machine(glyphs: u8, states: u8, entries: &[Placed]) -> Vec<u8> {
    let count = 4 + glyphs;
    let rows: Vec<u8> = (0..states * count).collect();
    let entry_of = |row: &u8| {
        let (state, class) = (row / count, row % count);
        let given = entries.iter().find(|entry| (entry.0, entry.1) == (state, class));
        let [state, flags] = given.map_or([state.into(), 0], |entry| entry.2);
        (state.wrapping_mul(count.into()), flags)
    };
    let list: Vec<(u16, u16)> = rows.iter().map(entry_of).collect();
    let classes: Vec<u8> = (4..count).collect();
    Classic { first: 10, classes: &classes, count: count.into(), rows: &rows, entries: &list }.bytes()
}

pub const MARK_FIRST: u16 = 0x8000;
pub const STAY: u16 = 0x4000;
pub const MARK_LAST: u16 = 0x2000;

/// Any marks and verb; stays so many times in four.
fn any_flags(random: &mut Random, stays: usize) -> u16 {
    let mut flags = random.among(&[0, MARK_FIRST, MARK_LAST, MARK_LAST, MARK_FIRST | MARK_LAST]);
    if random.below(4) < stays {
        flags |= STAY;
    }
    if random.once_in(16) {
        flags |= random.word() & 0x1FF0;
    }
    flags | random.among(&[0, 1, 1, 1]) * random.below(16) as u16
}

/// Any rearrangement with a class for each of these glyphs. In one of three some numbers lead astray: classes at and above the count,
/// entries and rows that are not there, rows that begin elsewhere than their states do, or before the first.
pub fn any_machine(random: &mut Random, glyphs: &Range<u16>) -> Vec<u8> {
    let [count, states, entries] = [4 + random.below(5), 1 + random.below(6), 1 + random.below(16)];
    let stays = random.among(&[0, 1, 1, 1, 2, 4]);
    let goes_astray = random.once_in(3);
    let any_below = |random: &mut Random, limit: usize| match random.below(60) {
        0 if goes_astray => random.number() as u8,
        1 if goes_astray => (limit + random.below(3)) as u8,
        _ => random.below(limit) as u8,
    };
    let classes: Vec<u8> = glyphs.clone().map(|_| any_below(random, count)).collect();
    let rows: Vec<u8> = (0..states * count).map(|_| any_below(random, entries)).collect();
    let any_row = |random: &mut Random| match random.below(40) {
        0 if goes_astray => random.word(),
        1 if goes_astray => random.below(9).wrapping_sub(4) as u16,
        2 if goes_astray => random.below(states * count + 9) as u16,
        _ => (random.below(states) * count) as u16,
    };
    let list: Vec<(u16, u16)> = (0..entries).map(|_| (any_row(random), any_flags(random, stays))).collect();
    let made = Classic { first: glyphs.start, classes: &classes, count: count as u16, rows: &rows, entries: &list };
    let mut body = if random.once_in(3) { made.turned() } else { made.bytes() };
    if goes_astray && random.once_in(2) {
        mislead_head(random, &mut body);
    }
    body
}

/// Changes a number of a classic state table's head, or the count of its class table.
fn mislead_head(random: &mut Random, body: &mut [u8]) {
    let class_table = usize::from(u16::from_be_bytes([body[2], body[3]]));
    let at = random.among(&[0, 0, 2, 4, 4, 6, class_table, class_table + 2]);
    let right = u16::from_be_bytes([body[at], body[at + 1]]);
    let length = body.len() as u16;
    let near = [0, 0, 1, right.wrapping_sub(1), right.wrapping_add(1), right.wrapping_add(2)];
    let far = [length.saturating_sub(1), length, length + 1, 0x7FFF, 0x8000, 0xFFFF];
    let number = if random.once_in(2) { random.among(&near) } else { random.among(&far) };
    body[at..at + 2].copy_from_slice(&number.to_be_bytes());
}

/// Any lookup, often of format 10 with any unit size.
pub fn any_lookup(random: &mut Random, glyphs: &Range<u16>) -> Vec<u8> {
    if !random.once_in(3) {
        return noncontextual::any_body(random, glyphs);
    }
    let values: Vec<u16> = glyphs
        .clone()
        .map(|_| match random.below(8) {
            0 => random.word(),
            _ => glyphs.start + random.below(glyphs.len()) as u16,
        })
        .collect();
    let unit = if random.once_in(4) { random.among(&UNIT_SIZES) } else { random.among(&[1, 2]) };
    trimmed(unit, glyphs.start, &values)
}

/// Any body of a kind; of one that is not taken, any of the others'.
pub fn any_body(random: &mut Random, kind: u16, glyphs: &Range<u16>) -> Vec<u8> {
    let is_lookup = kind == 4 || kind != 0 && random.once_in(2);
    if is_lookup {
        any_lookup(random, glyphs)
    } else {
        any_machine(random, glyphs)
    }
}

/// Coverage bits: the two orders, those for vertical text, and those that are not looked at.
pub const BITS: [u16; 14] =
    [0, 0, 0, 0x4000, 0x4000, 0x2000, 0x6000, 0xA000, 0xE000, 0x8000, 0xC000, 0x1000, 0x5000, 0x1FF8];

/// Any subtable alone: mostly whole and of a kind that is taken, often behind other bytes.
pub fn any_subtable(random: &mut Random, glyphs: &Range<u16>) -> Made {
    let mut table = any_chained(random, glyphs);
    if random.once_in(4) {
        damage(random, &mut table);
    }
    Made::behind_others(random, table, Vec::new())
}

/// Any subtable in a chain; now and then its size is wrong.
pub fn any_chained(random: &mut Random, glyphs: &Range<u16>) -> Vec<u8> {
    let kind = if random.once_in(12) { random.below(8) as u16 } else { random.among(&[0, 0, 4]) };
    let bits = if random.once_in(8) { random.word() & !7 } else { random.among(&BITS) };
    let body = any_body(random, kind, glyphs);
    let mut made = chosen_subtable(bits | kind, any_choice(random), &body);
    match random.below(30) {
        0 => made[1] = random.number() as u8,
        1 => made[..2].fill(0),
        2 => damage(random, &mut made),
        _ => {}
    }
    made
}

/// Mostly flags that choose.
fn any_choice(random: &mut Random) -> u32 {
    random.among(&[1, 1, 1, 3, 3, 0x8000_0001, 2, 0, 0x8000_0000])
}

/// Any table of chains with features that `any_features` makes; now and then a count or a length is wrong.
pub fn any_mort(
    random: &mut Random,
    glyphs: &Range<u16>,
    any_features: &dyn Fn(&mut Random, usize) -> Vec<u8>,
) -> Vec<u8> {
    let some = random.among(&[0, 1, 1, 1, 2, 3]);
    let chains: Vec<Vec<u8>> = (0..some)
        .map(|_| {
            let subtables: Vec<Vec<u8>> = (0..random.below(4)).map(|_| any_chained(random, glyphs)).collect();
            let count = random.among(&[0, 0, 1, 3, 9]);
            let mut made = chain(any_choice(random), &any_features(random, count), &subtables);
            match random.below(24) {
                0 => made[11] = random.below(6) as u8,
                1 => made[9] = random.below(4) as u8,
                2 => made[8] = random.number() as u8,
                3 => made[7] = random.number() as u8,
                4 => made[4..8].fill(0),
                5 => made[10] = random.below(2) as u8,
                _ => {}
            }
            made
        })
        .collect();
    let mut table = mort(&chains);
    match random.below(24) {
        0 => table[7] = random.below(6) as u8,
        1 => table[..4].copy_from_slice(&random.bytes(4)),
        _ => {}
    }
    table
}

/// Any table of many heads: chains with features and with subtables of any coverage and few bytes. In one of two some counts and sizes
/// are wrong.
pub fn any_heads(random: &mut Random) -> Vec<u8> {
    let goes_astray = random.once_in(2);
    let mislead = |random: &mut Random, number: &mut [u8]| {
        if goes_astray && random.once_in(12) {
            let few = random.below(40) as u32;
            let wrong = random.among(&[0, 1, few, few, 0xFFFF, 0x8000_0000, u32::MAX]);
            number.copy_from_slice(&wrong.to_be_bytes()[4 - number.len()..]);
        }
    };
    let chains: Vec<Vec<u8>> = (0..random.below(9))
        .map(|_| {
            let subtables: Vec<Vec<u8>> = (0..random.below(9))
                .map(|_| {
                    let size = random.below(5);
                    let (coverage, flags) = (random.word(), random.number() as u32);
                    let mut made = chosen_subtable(coverage, flags, &random.bytes(size));
                    mislead(random, &mut made[..2]);
                    made
                })
                .collect();
            let features = 12 * random.among(&[0, 1, 2, 5, 20]);
            let mut made = chain(random.number() as u32, &random.bytes(features), &subtables);
            for part in [4..8, 8..10, 10..12] {
                mislead(random, &mut made[part]);
            }
            made
        })
        .collect();
    let mut table = mort(&chains);
    mislead(random, &mut table[4..8]);
    table
}

/// A non-contextual subtable by which 5 becomes 7 and 6 becomes 9.
pub fn substitutes(bits: u16) -> Vec<u8> {
    subtable(bits | 4, &with_values(8, 5, &[7, 9]))
}

/// A rearrangement subtable by which a 10 goes behind the next 11.
pub fn rearranges(bits: u16) -> Vec<u8> {
    subtable(bits, &small_machine(2, 1, &[(0, 4, [0, MARK_FIRST]), (0, 5, [0, MARK_LAST | 1])]))
}

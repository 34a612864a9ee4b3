//! morx subtables as bytes, of given parts and from a seed, and how the crate is brought to read one.

use crate::reference::oracle::aat::morx::{chains, SubtableKind};
use crate::tables::insertion;
use crate::tables::kinds::{Kind, KINDS};
use crate::tables::lookup::{any_with_values, damage, with_values, words};
use crate::tables::random::Random;
use crate::wire::hex::bytes;
use std::ops::Range;

/// The bytes in a subtable's head.
pub const SUBTABLE_HEAD: usize = 12;

/// A machine's body: the number of classes, the offset of each part, and these parts: the class table, the states, the
/// entries, and what its kind has behind them.
pub fn machine(classes: u16, parts: &[Vec<u8>]) -> Vec<u8> {
    let mut body = u32::from(classes).to_be_bytes().to_vec();
    let mut offset = 4 + 4 * parts.len();
    for part in parts {
        body.extend((offset as u32).to_be_bytes());
        offset += part.len();
    }
    body.extend(parts.concat());
    body
}

/// A subtable with this coverage, whose low byte is its kind, and this body, which flag 1 chooses.
pub fn subtable(coverage: u32, body: &[u8]) -> Vec<u8> {
    chosen_subtable(coverage, 1, body)
}

/// The same, which these flags choose.
pub fn chosen_subtable(coverage: u32, flags: u32, body: &[u8]) -> Vec<u8> {
    let length = (SUBTABLE_HEAD + body.len()) as u32;
    let head = [length, coverage, flags].map(u32::to_be_bytes).concat();
    [&head, body].concat()
}

/// A chain with these flags, the bytes of its features, and its subtables.
pub fn chain(flags: u32, features: &[u8], subtables: &[Vec<u8>]) -> Vec<u8> {
    let body = [features, &subtables.concat()].concat();
    let head = [flags, 16 + body.len() as u32, features.len() as u32 / 12, subtables.len() as u32];
    [head.map(u32::to_be_bytes).concat(), body].concat()
}

/// A morx table of these chains.
pub fn morx(chains: &[Vec<u8>]) -> Vec<u8> {
    let head = [0x2_0000, chains.len() as u32].map(u32::to_be_bytes).concat();
    [head, chains.concat()].concat()
}

/// A morx table of one chain, whose one subtable begins with these bytes, all that follow the chain's head.
pub fn in_chain(bytes: &[u8]) -> Vec<u8> {
    let length = 16 + bytes.len() as u32;
    let heads = [0x2_0000, 1, 1, length, 0, 1].map(u32::to_be_bytes).concat();
    [&heads, bytes].concat()
}

/// How many bytes such a table has before its subtable.
pub const CHAIN_HEADS: usize = 24;

/// The body in such a table, which is written in hex.
pub fn body_of(table: &str) -> Vec<u8> {
    bytes(table).split_off(CHAIN_HEADS + SUBTABLE_HEAD)
}

/// What the crate makes of the subtable of such a table.
pub fn the_subtable(table: &[u8]) -> Option<SubtableKind<'_>> {
    chains(table, 0).next()?.subtables().next()?.kind()
}

/// An entry as numbers, the new state first, and the state and the class that it is for.
pub type Placed<'a> = (u16, u16, &'a [u16]);

/// A machine with a class of its own for each of so many glyphs from 10 on, the first of them class 4, and so many states.
/// It stays in its state and does `nothing`, but by these entries.
pub fn small_machine(glyphs: u16, states: u16, nothing: &[u16], entries: &[Placed], more: &[Vec<u8>]) -> Vec<u8> {
    let classes = 4 + glyphs;
    let class_of: Vec<u16> = (4..classes).collect();
    let rows: Vec<u16> = (0..states * classes).collect();
    let entry_of = |row: &u16| {
        let (state, class) = (row / classes, row % classes);
        let given = entries.iter().find(|entry| (entry.0, entry.1) == (state, class));
        given.map_or([&[state], nothing].concat(), |entry| entry.2.to_vec())
    };
    let list: Vec<u16> = rows.iter().flat_map(entry_of).collect();
    let parts = [with_values(8, 10, &class_of), words(&rows), words(&list)];
    machine(classes, &[&parts, more].concat())
}

/// Any machine with a class for each of these glyphs: `any_action` gives an entry but for its new state, which is its first
/// number, and `more` is what the kind has behind the entries. In one of three machines some numbers lead astray.
pub fn any_machine(
    random: &mut Random,
    glyphs: &Range<u16>,
    any_action: &dyn Fn(&mut Random) -> Vec<u16>,
    more: &[Vec<u8>],
) -> Vec<u8> {
    let [classes, states, entries] = [4 + random.below(5), 1 + random.below(6), 1 + random.below(16)];
    let goes_astray = random.once_in(3);
    let any_below = |random: &mut Random, limit: usize| match random.below(60) {
        0 if goes_astray => random.word(),
        1 if goes_astray => (limit + random.below(3)) as u16,
        _ => random.below(limit) as u16,
    };
    let class_of: Vec<u16> = glyphs.clone().map(|_| any_below(random, classes)).collect();
    let rows: Vec<u16> = (0..states * classes).map(|_| any_below(random, entries)).collect();
    let mut any_entry = |_| [vec![any_below(random, states)], any_action(random)].concat();
    let list: Vec<u16> = (0..entries).flat_map(&mut any_entry).collect();
    let parts = [any_with_values(random, glyphs.start, &class_of), words(&rows), words(&list)];
    machine(classes as u16, &[&parts, more].concat())
}

/// Any table of many heads: chains with features and with subtables of any coverage and few bytes. In one of two some counts
/// and sizes are wrong.
pub fn any_heads(random: &mut Random) -> Vec<u8> {
    let goes_astray = random.once_in(2);
    let chains: Vec<Vec<u8>> = (0..random.below(9))
        .map(|_| {
            let subtables: Vec<Vec<u8>> = (0..random.below(9))
                .map(|_| {
                    let size = random.below(5);
                    let mut made = chosen_subtable(random.number() as u32, random.number() as u32, &random.bytes(size));
                    mislead(random, goes_astray, &mut made[..4]);
                    made
                })
                .collect();
            let features = 12 * random.among(&[0, 1, 2, 5, 20]);
            let mut made = chain(random.number() as u32, &random.bytes(features), &subtables);
            for at in [4, 8, 12] {
                mislead(random, goes_astray, &mut made[at..at + 4]);
            }
            made
        })
        .collect();
    let mut table = morx(&chains);
    mislead(random, goes_astray, &mut table[4..8]);
    table
}

/// Sometimes changes a 32-bit count or size.
fn mislead(random: &mut Random, goes_astray: bool, number: &mut [u8]) {
    if goes_astray && random.once_in(12) {
        let few = random.below(40) as u32;
        let wrong = random.among(&[0, 1, few, few, 0xFFFF, 0x8000_0000, u32::MAX]);
        number.copy_from_slice(&wrong.to_be_bytes());
    }
}

/// The lookup of document 01: 5 becomes 7 and 6 becomes 9.
pub fn trimmed() -> Vec<u8> {
    with_values(8, 5, &[7, 9])
}

/// A subtable of this order that puts two glyphs in behind each 10.
pub fn puts_in(order: u32) -> Vec<u8> {
    let Kind { number, examples, .. } = insertion::KIND;
    subtable(order | number, &examples().swap_remove(0).body)
}

/// Any table: some chains, each of some subtables; now and then a count or a length is wrong.
pub fn any_morx(random: &mut Random, glyphs: &Range<u16>) -> Vec<u8> {
    let chains: Vec<Vec<u8>> = (0..random.below(4)).map(|_| any_chain(random, glyphs)).collect();
    let mut table = morx(&chains);
    if random.once_in(12) {
        table[7] = random.below(6) as u8;
    }
    table
}

fn any_chain(random: &mut Random, glyphs: &Range<u16>) -> Vec<u8> {
    let subtables: Vec<Vec<u8>> = (0..random.below(4)).map(|_| any_chained(random, glyphs)).collect();
    let features = random.among(&[0, 0, 12, 36]);
    let mut made = chain(any_flags(random), &random.bytes(features), &subtables);
    match random.below(24) {
        0 => made[15] = random.below(6) as u8,
        1 => made[11] = random.below(4) as u8,
        2 => made[7] = random.number() as u8,
        3 => made[4..8].copy_from_slice(&[0; 4]),
        _ => {}
    }
    made
}

pub fn any_chained(random: &mut Random, glyphs: &Range<u16>) -> Vec<u8> {
    let kind: &Kind = &KINDS[random.below(KINDS.len())];
    let number = if random.once_in(20) { random.below(256) as u32 } else { kind.number };
    let bits = if random.once_in(8) { random.number() as u32 & !0xFF } else { random.among(&ORDERS) };
    let mut made = chosen_subtable(bits | number, any_flags(random), &(kind.any_body)(random, glyphs));
    match random.below(30) {
        0 => made[3] = random.number() as u8,
        1 => made[..4].copy_from_slice(&[0; 4]),
        2 => damage(random, &mut made),
        _ => {}
    }
    made
}

/// The coverage bits of the four orders, and those for vertical text.
const ORDERS: [u32; 10] = [
    0,
    0x1000_0000,
    0x4000_0000,
    0x5000_0000,
    0x2000_0000,
    0x3000_0000,
    0x6000_0000,
    0xE000_0000,
    0xF000_0000,
    0x8000_0000,
];

/// Mostly flags that choose.
fn any_flags(random: &mut Random) -> u32 {
    random.among(&[1, 1, 1, 3, 3, 0x8000_0001, 2, 0, 0x8000_0000])
}

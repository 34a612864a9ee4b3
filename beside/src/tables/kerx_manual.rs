//! kerx subtables whose lists and lookup tables are made for the manual's reading.

use crate::reference::kerning::Kerning;
use crate::tables::kerning::{any_body, classes, Edition};
use crate::tables::lookup::{any_with_values, damage, words};
use crate::tables::random::Random;
use std::ops::Range;

/// A lookup table of format 10 that states this unit size, with as many bytes for each value, and two where that is no size.
pub fn trimmed(unit: u16, first: u16, values: &[u16]) -> Vec<u8> {
    let size = if (1..=8).contains(&unit) { usize::from(unit) } else { 2 };
    let bytes = |value: &u16| u64::from(*value).to_be_bytes()[8 - size..].to_vec();
    [words(&[10, unit, first, values.len() as u16]), values.iter().flat_map(bytes).collect()].concat()
}

const VALUE_TABLE: Range<usize> = 16..20;

/// Where a machine's body has its value table.
pub fn value_table(body: &[u8]) -> u32 {
    u32::from_be_bytes([body[16], body[17], body[18], body[19]])
}

/// A machine's body with its value table elsewhere.
pub fn with_value_table(mut body: Vec<u8>, at: u32) -> Vec<u8> {
    body[VALUE_TABLE].copy_from_slice(&at.to_be_bytes());
    body
}

/// A machine's body, made for the crate's reading and no tuples, with its lists where the manual's looks for them.
pub fn in_bytes(body: Vec<u8>) -> Vec<u8> {
    let at = value_table(&body).wrapping_mul(2);
    with_value_table(body, at)
}

/// A machine's body with another class table, behind all else.
pub fn with_class_table(mut body: Vec<u8>, class_table: &[u8]) -> Vec<u8> {
    let at = body.len() as u32;
    body[4..8].copy_from_slice(&at.to_be_bytes());
    body.extend(class_table);
    body
}

/// The unit sizes that are tried; by the manual 1 and 2 are known.
pub const UNIT_SIZES: [u16; 7] = [0, 1, 2, 3, 4, 8, 65_535];

/// Any lookup table of these values, mostly of format 10.
fn any_lookup(random: &mut Random, first: u16, values: &[u16]) -> Vec<u8> {
    if random.once_in(4) {
        return any_with_values(random, first, values);
    }
    let unit = if random.once_in(3) { random.among(&UNIT_SIZES) } else { random.among(&[1, 2]) };
    trimmed(unit, first, values)
}

/// Any body of a format for the manual's reading, about these glyphs.
pub fn any_manual_body(random: &mut Random, version: u16, format: u8, glyphs: &Range<u16>) -> Vec<u8> {
    match format {
        1 => any_manual_machine(random, version, glyphs),
        2 => any_manual_classes(random, glyphs),
        _ => any_body(random, Edition::new(Kerning::Kerx, version, 0), format, glyphs),
    }
}

/// Any machine with more ends in its lists, mostly where the manual looks for them, and often another class table.
fn any_manual_machine(random: &mut Random, version: u16, glyphs: &Range<u16>) -> Vec<u8> {
    let mut body = any_body(random, Edition::new(Kerning::Kerx, version, 0), 1, glyphs);
    let lists = 2 * value_table(&body) as usize;
    if lists <= body.len() && random.once_in(2) {
        let rate = random.among(&[2, 4, 8]);
        for number in body[lists..].chunks_exact_mut(2) {
            if random.once_in(rate) {
                number.fill(0xFF);
            }
        }
    }
    if !random.once_in(6) {
        body = in_bytes(body);
    }
    if random.once_in(2) {
        let classes: Vec<u16> = glyphs.clone().map(|_| random.below(8) as u16).collect();
        let class_table = any_lookup(random, glyphs.start, &classes);
        body = with_class_table(body, &class_table);
    }
    body
}

/// Any rows and columns of few bytes.
fn any_manual_classes(random: &mut Random, glyphs: &Range<u16>) -> Vec<u8> {
    let [rows, columns] = [1 + random.below(4), 1 + random.below(4)];
    let mut lookup = |size: usize, limit: usize| {
        let values: Vec<u16> = glyphs.clone().map(|_| (size * random.below(limit)) as u16).collect();
        any_lookup(random, glyphs.start, &values)
    };
    let [left, right] = [lookup(2 * columns, rows), lookup(2, columns)];
    let numbers: Vec<u16> = (0..rows * columns).map(|_| random.below(400) as u16).collect();
    classes(2 * columns as u32, left, right, &numbers)
}

/// Any tuple count: mostly none.
pub fn any_tuples(random: &mut Random) -> u32 {
    let any = random.number() as u32;
    random.among(&[0, 0, 0, 0, 0, 0, 1, 2, u32::MAX, any])
}

/// Any subtable in a list of this version: mostly whole and of the format, without tuples, and none that a run passes over.
pub fn any_manual_subtable(random: &mut Random, version: u16, format: u8, glyphs: &Range<u16>) -> Vec<u8> {
    let edition = Edition::new(Kerning::Kerx, version, any_tuples(random));
    let number = if random.once_in(30) { random.below(7) as u8 } else { format };
    let bits = if random.once_in(6) { random.among(edition.coverages()) } else { random.among(&[0, 0, 0x1000_0000]) };
    let mut subtable = edition.subtable(bits, number, &any_manual_body(random, version, format, glyphs));
    if random.once_in(8) {
        damage(random, &mut subtable);
    }
    subtable
}

/// Any version: from 4 on there are tuple counts.
pub fn any_version(random: &mut Random) -> u16 {
    random.among(&[2, 3, 4, 4, 4, 5, 0xFFFF])
}

/// Any table of such subtables.
pub fn any_manual_table(random: &mut Random, glyphs: &Range<u16>) -> Vec<u8> {
    let version = any_version(random);
    let some = random.below(5);
    let subtables: Vec<Vec<u8>> = (0..some)
        .map(|_| {
            let format = random.among(&[0, 1, 1, 2, 2]);
            any_manual_subtable(random, version, format, glyphs)
        })
        .collect();
    Edition::new(Kerning::Kerx, version, 0).table(&subtables)
}

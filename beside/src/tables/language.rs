//! ltag tables as bytes: of given ranges or tags, and from a seed, whole and damaged.

use crate::tables::lookup::{any_size, damage, Made};
use crate::tables::random::Random;

/// The bytes before the ranges.
pub const HEAD: usize = 12;

/// Where a tag lies, from the table's start on.
#[derive(Clone, Copy)]
pub struct Range {
    pub offset: u16,
    pub length: u16,
}

/// A table that states this count and has these ranges, with bytes behind them.
pub fn with_ranges(count: u32, ranges: &[Range], behind: &[u8]) -> Vec<u8> {
    let mut table: Vec<u8> = [1, 0, count].iter().flat_map(|number: &u32| number.to_be_bytes()).collect();
    for range in ranges {
        table.extend(range.offset.to_be_bytes());
        table.extend(range.length.to_be_bytes());
    }
    table.extend(behind);
    table
}

/// A table of these tags, one behind the other.
pub fn with_tags(tags: &[&[u8]]) -> Vec<u8> {
    let mut offset = HEAD + 4 * tags.len();
    let mut ranges = Vec::new();
    for tag in tags {
        ranges.push(Range { offset: offset as u16, length: tag.len() as u16 });
        offset += tag.len();
    }
    with_ranges(tags.len() as u32, &ranges, &tags.concat())
}

/// Any table, and its tags: mostly as they are, some in shared bytes, some out of the table, often damaged, often
/// behind other bytes.
pub fn any_ltag(random: &mut Random) -> (Made, Vec<Vec<u8>>) {
    let size = any_size(random, 120);
    let tags: Vec<Vec<u8>> = (0..size).map(|_| any_tag(random)).collect();
    let (mut ranges, strings) = placed(random, &tags);
    let length = HEAD + 4 * size + strings.len();
    if size > 0 && random.once_in(3) {
        let bad = random.below(size);
        ranges[bad] = any_range(random, length as u16);
    }
    let mut table = with_ranges(any_count(random, size as u32), &ranges, &strings);
    if random.once_in(3) {
        damage(random, &mut table);
    }
    (Made::behind_others(random, table, Vec::new()), tags)
}

/// A tag: mostly one of a language, sometimes empty, long, or none that is UTF-8.
pub fn any_tag(random: &mut Random) -> Vec<u8> {
    let written: [&[u8]; 10] =
        [b"en", b"sr", b"SR", b"sr-Latn", b"zh-Hant", b"e", b"", b"\xC3\xA9", b"\xC3", b"\xFFen"];
    match random.below(8) {
        0 => random.bytes(2),
        1 => vec![b'x'; random.among(&[3, 40, 255, 256, 257])],
        2 => (0..5).map(|_| random.among(b"abAB-")).collect(),
        3 | 4 => (0..2).map(|_| random.among(b"abcdefgh")).collect(),
        _ => random.among(&written).to_vec(),
    }
}

/// The ranges of tags and the bytes behind the ranges: some tags lie in the bytes of those before them.
fn placed(random: &mut Random, tags: &[Vec<u8>]) -> (Vec<Range>, Vec<u8>) {
    let behind = HEAD + 4 * tags.len();
    let mut strings: Vec<u8> = Vec::new();
    let mut ranges = Vec::new();
    for tag in tags {
        let shared = if random.once_in(2) { find(&strings, tag) } else { None };
        let at = shared.unwrap_or(strings.len());
        if shared.is_none() {
            strings.extend(tag);
        }
        ranges.push(Range { offset: (behind + at) as u16, length: tag.len() as u16 });
    }
    (ranges, strings)
}

fn find(bytes: &[u8], part: &[u8]) -> Option<usize> {
    (0..=bytes.len()).find(|at| bytes[*at..].starts_with(part))
}

/// A range about the end of a table of this length, or anywhere.
fn any_range(random: &mut Random, end: u16) -> Range {
    let anywhere = [random.word(), random.word()];
    let offset = random.among(&[0, end - 1, end, end + 1, 0x7FFF, 0xFFFF, anywhere[0]]);
    let length = random.among(&[0, 1, 2, end.saturating_sub(offset), 0xFFFF, anywhere[1]]);
    Range { offset, length }
}

/// The count that a table of so many tags states: mostly the right one.
fn any_count(random: &mut Random, right: u32) -> u32 {
    match random.below(10) {
        0 => right + 1,
        1 => right.saturating_sub(1),
        2 => random.among(&[0, 1, 0x1_0000, 0x8000_0000, u32::MAX]),
        _ => right,
    }
}

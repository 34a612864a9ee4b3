//! W-213's mended lookup table, by sorting, and a plain look from the first record down; written from document 02 alone.

use crate::reference::oracle::{Answer, LONGEST_TABLE};
use crate::tables::lookup::{numbers, words};
use std::collections::BTreeSet;

/// The new number of a record that was dropped.
pub const DROPPED: u16 = 0xFFFF;

/// Where the records begin.
const HEAD: usize = 12;

/// What a table becomes, and the new number of each of its records.
pub struct Mended {
    pub table: Vec<u8>,
    pub numbers: Vec<u16>,
}

/// A record of the old table.
struct Record<'a> {
    number: usize,
    first: u16,
    last: u16,
    bytes: &'a [u8],
}

/// The format, the unit size and the records of the table that begins at `start`, where it is one that can be mended.
fn records_at(table: &[u8], start: u64) -> Option<([u16; 2], Vec<Record<'_>>)> {
    let lookup = table.get(usize::try_from(start).ok()?..)?;
    let head: Vec<u16> = numbers(lookup.get(..6)?).collect();
    let (format, unit, count) = (head[0], head[1], usize::from(head[2]));
    if !matches!((format, unit), (2, 6) | (6, 4)) {
        return None;
    }
    let record = |number| {
        let at = HEAD + usize::from(unit) * number;
        let bytes = lookup.get(at..at + usize::from(unit))?;
        let keys: Vec<u16> = numbers(bytes).collect();
        let [last, first] = if format == 2 { [keys[0], keys[1]] } else { [keys[0]; 2] };
        Some(Record { number, first, last, bytes })
    };
    Some(([format, unit], (0..count).map(record).collect::<Option<_>>()?))
}

/// The mended table, or what the old one is refused for, but for space.
pub fn mended(table: &[u8], start: u64) -> Result<Mended, Answer<u64>> {
    if table.len() > LONGEST_TABLE {
        return Err(Answer::Table);
    }
    let ([format, unit], mut kept) = records_at(table, start).ok_or(Answer::Head)?;
    let mut numbers = vec![DROPPED; kept.len()];
    let mut seen = BTreeSet::new();
    kept.retain(|record| if format == 2 { record.first <= record.last } else { seen.insert(record.first) });
    kept.sort_by_key(|record| record.first);
    if kept.windows(2).any(|pair| pair[0].last >= pair[1].first) {
        return Err(Answer::Overlap);
    }
    for (new, record) in kept.iter().enumerate() {
        numbers[record.number] = new as u16;
    }
    let head = [&[format, unit, kept.len() as u16][..], &search_fields(unit, kept.len())].concat();
    let records = kept.iter().flat_map(|record| record.bytes.iter().copied());
    Ok(Mended { table: words(&head).into_iter().chain(records).collect(), numbers })
}

/// The unit size times the largest power of two not above the count, its exponent, and the unit size times the rest, each modulo
/// 65,536; zeros for no records.
fn search_fields(unit: u16, count: usize) -> [u16; 3] {
    let exponent = (0..16).rev().find(|exponent| 1 << exponent <= count);
    exponent.map_or([0; 3], |exponent| {
        let power = 1 << exponent;
        [usize::from(unit) * power, exponent, usize::from(unit) * (count - power)].map(|field| field as u16)
    })
}

/// The answer to a table that is to be mended into a buffer and a list of numbers, with the size of what is written, and both as
/// they are left.
pub fn mend(table: &[u8], start: u64, mut buffer: Vec<u8>, mut list: Vec<u16>) -> (Answer<u64>, Vec<u8>, Vec<u16>) {
    let Mended { table, numbers } = match mended(table, start) {
        Ok(mended) => mended,
        Err(answer) => return (answer, buffer, list),
    };
    if buffer.len() < table.len() || list.len() < numbers.len() {
        return (Answer::Space, buffer, list);
    }
    buffer[..table.len()].copy_from_slice(&table);
    list[..numbers.len()].copy_from_slice(&numbers);
    (Answer::Done(table.len() as u64), buffer, list)
}

/// The element of the first record that holds the glyph, from the first down, in a table that can be mended.
pub fn look_down(table: &[u8], start: u64, glyph: u16) -> Option<u16> {
    let (_, records) = records_at(table, start)?;
    let holder = records.iter().find(|record| record.first <= glyph && glyph <= record.last)?;
    numbers(holder.bytes).last()
}

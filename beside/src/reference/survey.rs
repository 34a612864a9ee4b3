//! The survey of a lookup table, by document 01 and W-205 of document 02, and a plain look from the first record down:
//! written from the documents alone.

use crate::reference::oracle::{Answer, LONGEST_TABLE};

/// What the survey says of a table.
#[derive(Clone, Copy, PartialEq)]
pub enum Verdict {
    NoRecords,
    Sorted,
    /// The number of the first bad record.
    Bad(u16),
    /// The unit size that is stated and not the format's.
    UnitSize(u16),
}

/// The survey of the lookup table that begins at `start`.
pub fn survey(table: &[u8], start: u64) -> Answer<Verdict> {
    if table.len() > LONGEST_TABLE {
        return Answer::Table;
    }
    Answer::of(lookup_from(table, start).and_then(verdict))
}

/// What a plain look for the glyph gives, on a table that the survey passes.
pub fn plain_look(table: &[u8], start: u64, glyph: u16) -> Option<Answer<u16>> {
    if survey(table, start) != Answer::Done(Verdict::Sorted) {
        return None;
    }
    let lookup = lookup_from(table, start)?;
    Some(Answer::of(element(lookup, glyph)))
}

fn lookup_from(table: &[u8], start: u64) -> Option<&[u8]> {
    table.get(usize::try_from(start).ok()?..)
}

fn verdict(lookup: &[u8]) -> Option<Verdict> {
    let format = word(lookup, 0)?;
    if !matches!(format, 2 | 4 | 6) {
        return Some(Verdict::NoRecords);
    }
    let count = word(lookup, 4)?;
    let unit = word(lookup, 2)?;
    if unit != if format == 6 { 4 } else { 6 } {
        return Some(Verdict::UnitSize(unit));
    }
    Some(first_bad(lookup, format, count).map_or(Verdict::Sorted, Verdict::Bad))
}

/// Whether some record of the lookup table that begins at `start` is bad as the crate steps over them, whatever unit size
/// is stated.
pub fn is_unsorted(table: &[u8], start: u64) -> bool {
    let lookup = lookup_from(table, start).unwrap_or(&[]);
    match (word(lookup, 0), word(lookup, 4)) {
        (Some(format @ (2 | 4 | 6)), Some(count)) => first_bad(lookup, format, count).is_some(),
        _ => false,
    }
}

fn first_bad(lookup: &[u8], format: u16, count: u16) -> Option<u16> {
    let mut last_before = None;
    (0..count).find(|number| match record(lookup, format, *number) {
        Some(record) if record.first <= record.last && last_before < Some(record.first) => {
            last_before = Some(record.last);
            false
        }
        _ => true,
    })
}

fn element(lookup: &[u8], glyph: u16) -> Option<u16> {
    let format = word(lookup, 0)?;
    let holder = (0..word(lookup, 4)?)
        .filter_map(|number| record(lookup, format, number))
        .find(|record| record.first <= glyph && glyph <= record.last)?;
    match format {
        4 => word(lookup, holder.value as usize + 2 * (glyph - holder.first) as usize),
        _ => Some(holder.value),
    }
}

struct Record {
    first: u16,
    last: u16,
    value: u16,
}

/// The record of this number, if it lies wholly in the table.
fn record(lookup: &[u8], format: u16, number: u16) -> Option<Record> {
    let number = number as usize;
    if format == 6 {
        let at = 12 + 4 * number;
        let glyph = word(lookup, at)?;
        Some(Record { first: glyph, last: glyph, value: word(lookup, at + 2)? })
    } else {
        let at = 12 + 6 * number;
        Some(Record { last: word(lookup, at)?, first: word(lookup, at + 2)?, value: word(lookup, at + 4)? })
    }
}

fn word(lookup: &[u8], at: usize) -> Option<u16> {
    let bytes = lookup.get(at..at + 2)?;
    Some(u16::from_be_bytes([bytes[0], bytes[1]]))
}

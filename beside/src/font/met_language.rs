//! Which rows of docs/DIFFERENCES.md a language's name meets in an ltag table.

use crate::font::met::Met;
use crate::font::sfnt::{long, word};

/// Watches the search for a name in the table that begins here; None where the crate's search ends with nothing.
pub fn watch(met: &mut Met, start: usize, name: &[u8]) -> Option<()> {
    let table = &met.table[start..];
    met.spot.subtable.table = "ltag";
    for number in 0..long(table, 8)? as usize {
        let range = 12 + 4 * number;
        let (offset, length) = (usize::from(word(table, range)?), usize::from(word(table, range + 2)?));
        let tag = if offset < table.len() { table.get(offset..offset + length) } else { None };
        let is_empty_at_end = offset == table.len() && length == 0 && name.is_empty();
        met.row(11, tag.is_none() && !is_empty_at_end);
        met.row(12, is_empty_at_end);
        let tag = tag?;
        if tag == name {
            break;
        }
        met.row(13, tag.eq_ignore_ascii_case(name));
    }
    Some(())
}

/// The rows that are looked at.
pub const ROWS: [u32; 3] = [11, 12, 13];

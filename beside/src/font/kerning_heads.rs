//! The heads of the subtables of a kern or kerx table, as its bytes have them.

use crate::font::sfnt::{long, word};
use crate::reference::kerning::Kerning;
use crate::reference::run::MOST_HEADS;

/// A list's version and count, and where its first subtable begins.
pub struct Head {
    pub version: u16,
    pub count: u32,
    pub behind: usize,
}

/// A subtable of the list: where its head and its body begin, and what the head says.
pub struct Listed {
    pub at: usize,
    pub body: usize,
    pub size: u32,
    pub coverage: u32,
    pub format: u32,
    pub tuples: u32,
    pub version: u16,
    pub is_passed_over: bool,
    /// Whether the order of work is not that of the line.
    pub reverses: bool,
}

/// The head of the list that begins here.
pub fn head(kerning: Kerning, table: &[u8], start: usize) -> Option<Head> {
    let version = word(table, start)?;
    if kerning == Kerning::Kern && version == 0 {
        return Some(Head { version, count: word(table, start + 2)?.into(), behind: start + 4 });
    }
    Some(Head { version, count: long(table, start + 4)?, behind: start + 8 })
}

/// The subtables of the list that begins here, as far as they can be read, as many as a run counts.
pub fn subtables(kerning: Kerning, table: &[u8], start: usize) -> impl Iterator<Item = Listed> + '_ {
    let Head { version, count, behind } =
        head(kerning, table, start).unwrap_or(Head { version: 0, count: 0, behind: 0 });
    let mut at = behind;
    (0..count.min(MOST_HEADS)).map_while(move |_| {
        let subtable = listed(kerning, table, version, at)?;
        at += subtable.size as usize;
        Some(subtable)
    })
}

fn listed(kerning: Kerning, table: &[u8], version: u16, at: usize) -> Option<Listed> {
    Some(match kerning {
        Kerning::Kern if version == 0 => {
            let coverage = u32::from(word(table, at + 4)?);
            let (size, format) = (word(table, at + 2)?.into(), coverage >> 8);
            let is_passed_over = coverage & 5 != 1;
            Listed { at, body: at + 6, size, coverage, format, tuples: 0, version, is_passed_over, reverses: false }
        }
        Kerning::Kern => {
            let coverage = u32::from(word(table, at + 4)?);
            let (size, format) = (long(table, at)?, coverage & 0xFF);
            let is_passed_over = coverage & 0xC000 != 0;
            Listed { at, body: at + 8, size, coverage, format, tuples: 0, version, is_passed_over, reverses: false }
        }
        Kerning::Kerx => {
            let coverage = long(table, at + 4)?;
            let tuples = if version >= 4 { long(table, at + 8)? } else { 0 };
            let (size, format) = (long(table, at)?, coverage & 0xFF);
            let (is_passed_over, reverses) = (coverage & 0xE000_0000 != 0, coverage & 0x1000_0000 != 0);
            Listed { at, body: at + 12, size, coverage, format, tuples, version, is_passed_over, reverses }
        }
    })
}

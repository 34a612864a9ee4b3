//! The rule of `language_index` over the bytes of a name: written plainly from the manual's layout and document 01.

use crate::reference::oracle::{Answer, LONGEST_TABLE};

/// The index of the first tag with the bytes of `name`, in the ltag table that begins at `start`.
pub fn language_index(table: &[u8], start: u64, name: &[u8]) -> Answer<u32> {
    if table.len() > LONGEST_TABLE {
        return Answer::Table;
    }
    Answer::of(usize::try_from(start).ok().and_then(|start| index_in(table.get(start..)?, name)))
}

/// A tag that cannot be read hides those behind it.
fn index_in(ltag: &[u8], name: &[u8]) -> Option<u32> {
    for index in 0..number(ltag, 8, 4)? {
        if tag(ltag, index)? == name {
            return Some(index as u32);
        }
    }
    None
}

/// The bytes of a tag, which begin inside the table even where there are none.
fn tag(ltag: &[u8], index: usize) -> Option<&[u8]> {
    let range = 12 + 4 * index;
    let (offset, length) = (number(ltag, range, 2)?, number(ltag, range + 2, 2)?);
    if offset == ltag.len() {
        return None;
    }
    ltag.get(offset..offset + length)
}

fn number(ltag: &[u8], at: usize, bytes: usize) -> Option<usize> {
    let bytes = ltag.get(at..at + bytes)?;
    Some(bytes.iter().fold(0, |number, byte| number << 8 | usize::from(*byte)))
}

//! A subtable of a kern or kerx list, from any cursor on, by the crate's copy.

use crate::reference::kerning::Kerning;
use crate::reference::opened::aat::{kern, kerx};
use crate::reference::opened::Bytes;

/// The place of a list's next subtable in the table, how many are left, and the list's version.
pub type Cursor = [u64; 3];

/// What a subtable's head tells.
struct Head<'a> {
    /// The table's bytes from the head on.
    data: Bytes<'a>,
    format: u32,
    is_passed_over: bool,
    is_turned: bool,
    /// Where the list goes on.
    next: usize,
}

/// The cursor at the list that begins at a start in the bytes or just behind them.
pub fn list_from(kerning: Kerning, table: &[u8], start: u64) -> Cursor {
    let (offset, len, version) = match kerning {
        Kerning::Kern => {
            let kern::Subtables { data, offset, len, .. } = kern::subtables(table, start as u32);
            (offset, len, data.read_or_default::<u16>(0))
        }
        Kerning::Kerx => {
            let kerx::Subtables { version, offset, len, .. } = kerx::subtables(table, start as u32, 0);
            (offset, len, version)
        }
    };
    [start + offset as u64, len.into(), version.into()]
}

/// The fields of the next subtable, and where its list goes on; None at the list's end. The crate counts in 32 bits and does not
/// look at a count but for being 0; a place of more bits is past every table, and a version of more than 16 counts as the last.
pub fn next(kerning: Kerning, table: &[u8], [place, left, version]: Cursor) -> Option<(Vec<u64>, Cursor)> {
    let offset = place.min(u32::MAX.into()) as usize;
    let len = left.min(u32::MAX.into()) as u32;
    let version = version.min(u16::MAX.into()) as u16;
    let data = Bytes::new(table);
    let head = match kerning {
        Kerning::Kern => next_of_kern(kern::Subtables { data, offset, len, cur: 0, is_aat: version != 0 })?,
        Kerning::Kerx => next_of_kerx(kerx::Subtables { data, version, offset, len, cur: 0, ankr: &[] })?,
    };
    let place = (table.len() - head.data.len()) as u64;
    let fields = vec![place, head.format.into(), head.is_passed_over.into(), head.is_turned.into()];
    Some((fields, [head.next as u64, left - 1, version.into()]))
}

fn next_of_kern(mut list: kern::Subtables) -> Option<Head> {
    let subtable = list.next()?;
    Some(Head {
        data: subtable.data,
        format: subtable.format.into(),
        is_passed_over: !subtable.is_horizontal || subtable.cross_stream,
        is_turned: false,
        next: list.offset,
    })
}

fn next_of_kerx(mut list: kerx::Subtables) -> Option<Head> {
    let subtable = list.next()?;
    Some(Head {
        data: subtable.data,
        format: subtable.coverage & 0xFF,
        is_passed_over: subtable.is_vertical() || subtable.is_cross_stream() || subtable.has_variations(),
        is_turned: subtable.should_reverse(false),
        next: list.offset,
    })
}

//! Why the crate finds nothing: by its own text, in the copy, whose failed reads are noted.

use crate::reference::kerning::{Kerning, ALONE_AT};
use crate::reference::opened::aat::{self, kern, kerx};
use crate::reference::opened::{noting, Bytes};
use crate::reference::oracle::{caught, Fault};

/// Why nothing was found, by the numbers of aat.h.
#[derive(Clone, Copy, PartialEq)]
pub enum Why {
    NotCovered = 1,
    CutShort,
    UnknownFormat,
}

/// The formats that a lookup table can have.
const FORMATS: [u16; 6] = [0, 2, 4, 6, 8, 10];

/// Why a lookup at a start found nothing; `failed` says that a read failed on the way.
fn of_lookup(data: &Bytes, start: usize, failed: bool) -> Why {
    let is_unknown = |format: u16| !FORMATS.contains(&format);
    match data.read(start) {
        Some(format) if is_unknown(format) => Why::UnknownFormat,
        _ => of_search(failed),
    }
}

fn of_search(failed: bool) -> Why {
    if failed {
        Why::CutShort
    } else {
        Why::NotCovered
    }
}

/// Why the crate's lookup finds nothing; None where it finds something.
pub fn lookup(table: &[u8], start: u64, glyph: u16) -> Result<Option<Why>, Fault> {
    let (data, start) = (Bytes::new(table), start as usize);
    let (found, failed) = caught(|| noting(|| aat::lookup::<u16>(&data, start, glyph)))?;
    Ok(found.map_or_else(|| Some(of_lookup(&data, start, failed)), |_| None))
}

/// A subtable of pairs.
enum Pairs<'a> {
    Kern(kern::Format0<'a>),
    Kerx(kerx::Format0<'a>),
    Classes(kerx::Format2<'a>),
}

impl<'a> Pairs<'a> {
    /// The one subtable of a table made by `Kerning::alone`, where it has pairs.
    fn alone(kerning: Kerning, table: &'a [u8]) -> Option<Self> {
        let start = ALONE_AT as u32;
        match kerning {
            Kerning::Kern => match kern::subtables(table, start).next()?.kind()? {
                kern::SubtableKind::Format0(pairs) => Some(Pairs::Kern(pairs)),
                _ => None,
            },
            Kerning::Kerx => match kerx::subtables(table, start, 0).next()?.kind()? {
                kerx::SubtableKind::Format0(pairs) => Some(Pairs::Kerx(pairs)),
                kerx::SubtableKind::Format2(classes) => Some(Pairs::Classes(classes)),
                _ => None,
            },
        }
    }

    fn get(&self, left: u16, right: u16) -> Option<i16> {
        match self {
            Pairs::Kern(pairs) => pairs.get(left, right),
            Pairs::Kerx(pairs) => pairs.get(left, right),
            Pairs::Classes(classes) => classes.get(left, right),
        }
    }

    /// Why there is no number for a pair.
    fn why(&self, left: u16, failed: bool) -> Why {
        match self {
            Pairs::Kern(_) | Pairs::Kerx(_) => of_search(failed),
            Pairs::Classes(classes) => {
                let has_row = aat::lookup::<u16>(&classes.data, classes.l_table, left).is_some();
                of_lookup(&classes.data, if has_row { classes.r_table } else { classes.l_table }, failed)
            }
        }
    }
}

/// Why the crate has no number for a pair, in a table made by `Kerning::alone`; None where it has one, or no pairs.
pub fn pair(kerning: Kerning, table: &[u8], left: u16, right: u16) -> Result<Option<Why>, Fault> {
    caught(|| {
        let pairs = Pairs::alone(kerning, table)?;
        let (number, failed) = noting(|| pairs.get(left, right));
        number.map_or_else(|| Some(pairs.why(left, failed)), |_| None)
    })
}

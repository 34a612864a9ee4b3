//! Which rows of docs/DIFFERENCES.md a line meets: lookups and state tables as the crate reads them, and what the rows
//! ask of them.

use crate::font::sfnt::{long, word};
use crate::reference::oracle::{aat, Bytes};
use crate::reference::survey::is_unsorted;
use std::collections::{BTreeMap, HashMap};
use std::fmt;

/// A table whose reads are watched, and the rows that they met.
pub struct Met<'a> {
    pub table: &'a [u8],
    /// The font's glyph count, where it is known.
    glyphs: Option<u16>,
    /// What is at work.
    pub spot: Spot,
    pub rows: Rows,
    unsorted: HashMap<usize, bool>,
}

/// The rows that were met, and where.
pub type Rows = BTreeMap<u32, Vec<Spot>>;

/// A subtable at work, and the place of its step in the line as it lies for it.
#[derive(Clone, Copy, Default, PartialEq)]
pub struct Spot {
    pub subtable: Subtable,
    pub place: Option<usize>,
}

/// A subtable by its numbers, counted from 0: in morx that of its chain, too. None where the table itself is at work.
#[derive(Clone, Copy, Default, PartialEq)]
pub struct Subtable {
    pub table: &'static str,
    pub chain: Option<u32>,
    pub number: Option<u32>,
}

impl Subtable {
    /// One of morx, by the numbers of its chain and its own.
    pub fn of_morx((chain, number): (u32, u32)) -> Self {
        Subtable { table: "morx", chain: Some(chain), number: Some(number) }
    }

    /// One of a table whose subtables stand in one list.
    pub fn of_list(table: &'static str, number: u32) -> Self {
        Subtable { table, chain: None, number: Some(number) }
    }
}

impl fmt::Display for Subtable {
    fn fmt(&self, to: &mut fmt::Formatter) -> fmt::Result {
        write!(to, "{}", if self.table.is_empty() { "the line itself" } else { self.table })?;
        self.chain.map_or(Ok(()), |chain| write!(to, " chain {}", chain))?;
        self.number.map_or(Ok(()), |number| write!(to, " subtable {}", number))
    }
}

impl fmt::Display for Spot {
    fn fmt(&self, to: &mut fmt::Formatter) -> fmt::Result {
        write!(to, "{}", self.subtable)?;
        self.place.map_or(Ok(()), |place| write!(to, " place {}", place))
    }
}

/// A glyph that is deleted.
pub const DELETED: u16 = 0xFFFF;

/// Don't advance, in every machine.
pub const STAY: u16 = 0x4000;

/// No list and no lookup, in every entry.
pub const NONE: u16 = 0xFFFF;

/// As many steps in a row did not advance when the next has to.
pub const MOST_CYCLES: u64 = 17;

impl<'a> Met<'a> {
    /// Nothing is read yet.
    pub fn new(table: &'a [u8], glyphs: Option<u16>) -> Self {
        Met { table, glyphs, spot: Spot::default(), rows: Rows::new(), unsorted: HashMap::new() }
    }

    /// Meets a row where it applies.
    pub fn row(&mut self, number: u32, applies: bool) {
        let spots = if applies { self.rows.entry(number).or_default() } else { return };
        if spots.last() != Some(&self.spot) {
            spots.push(self.spot);
        }
    }

    /// The element of a glyph in the lookup that begins here.
    pub fn lookup(&mut self, at: usize, glyph: u16) -> Option<u16> {
        let found = aat::lookup::<u16>(&Bytes::new(self.table), at, glyph);
        let (format, unit) = (word(self.table, at), word(self.table, at.saturating_add(2)));
        match format {
            Some(0) => self.row(4, found.is_some() && self.glyphs.map_or(false, |count| glyph >= count)),
            Some(format @ (2 | 4 | 6)) => {
                self.row(2, unit != Some(if format == 6 { 4 } else { 6 }));
                self.row(3, found.is_some() && glyph == DELETED);
                let is_unsorted = self.is_unsorted(at);
                self.row(5, is_unsorted);
            }
            Some(10) => self.row(1, unit != Some(2)),
            _ => {}
        }
        found
    }

    fn is_unsorted(&mut self, at: usize) -> bool {
        let table = self.table;
        *self.unsorted.entry(at).or_insert_with(|| is_unsorted(table, at as u64))
    }

    /// The class of a glyph in the extended state table that begins here.
    pub fn class(&mut self, at: usize, glyph: u16) -> Option<u16> {
        if glyph == DELETED {
            return Some(2);
        }
        let classes = at + long(self.table, at + 4)? as usize;
        Some(self.lookup(classes, glyph).unwrap_or(1))
    }

    /// The entry for a state and a class there, whose payload has so many bytes.
    pub fn entry(&mut self, at: usize, payload: usize, state: u16, class: u16) -> Option<Entry> {
        let classes = long(self.table, at)? as usize;
        self.row(6, usize::from(class) >= classes);
        let row = at + long(self.table, at + 8)? as usize + 2 * usize::from(state) * classes;
        let index = usize::from(word(self.table, row + 2 * usize::from(class))?);
        let entry = at + long(self.table, at + 12)? as usize + index * (4 + payload);
        Some(Entry { state: word(self.table, entry)?, flags: word(self.table, entry + 2)?, payload: entry + 4 })
    }
}

/// An entry, and where its payload begins.
#[derive(Clone, Copy)]
pub struct Entry {
    pub state: u16,
    pub flags: u16,
    pub payload: usize,
}

impl Entry {
    /// Whether it does not advance.
    pub fn stays(&self) -> bool {
        self.flags & STAY != 0
    }
}

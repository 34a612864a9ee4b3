//! A mort table written as a morx table, for the crate and the old entries: the same chains and features; rearrangement with its classic
//! rows and entries made extended ones, which are read by the crate's own classic state table; lookups with their elements written out.
//! So the crate judges the model of mort, though it has no mort.

use crate::reference::line::Line;
use crate::reference::oracle::aat::{lookup, StateTable};
use crate::reference::oracle::{caught_as_none, Bytes, Fault};
use crate::tables::lookup::{with_records, words, Record};
use crate::tables::morx::{chain, chosen_subtable, machine, morx};
use std::collections::BTreeSet;

/// The longest table that is written: number 0xFFFF of its entries, 4 bytes each, lies behind its end.
const LONGEST: usize = 250_000;

/// The most glyphs whose elements are written out.
const MOST_GLYPHS: usize = 3_000;

/// An entry that there is not.
const NO_ENTRY: u16 = 0xFFFF;

/// A morx kind that is left out.
const LEFT_OUT: u32 = 3;

/// A kind 4 body that has nothing for any glyph.
const NOTHING: [u16; 3] = [8, 0, 0];

fn number(table: &[u8], at: usize, count: usize) -> Option<usize> {
    let bytes = table.get(at..at.checked_add(count)?)?;
    Some(bytes.iter().fold(0, |number, byte| number << 8 | usize::from(*byte)))
}

/// A subtable of mort: all from its head on, and what the head says.
struct Source<'a> {
    bytes: &'a [u8],
    length: usize,
    coverage: usize,
    flags: usize,
}

impl<'a> Source<'a> {
    fn at(table: &'a [u8], place: usize) -> Option<Self> {
        let bytes = table.get(place..)?;
        Some(Source {
            length: number(bytes, 0, 2)?,
            coverage: number(bytes, 2, 2)?,
            flags: number(bytes, 4, 4)?,
            bytes,
        })
    }

    fn body(&self) -> &'a [u8] {
        &self.bytes[8..]
    }

    /// The coverage of morx with the same meaning, for a kind.
    fn coverage_as(&self, kind: u32) -> u32 {
        (self.coverage as u32 & 0xE000) << 16 | kind
    }

    /// The same subtable of morx, its lookup written by `written`.
    fn as_morx(&self, written: impl Fn(&[u8]) -> Vec<u8>) -> Result<Vec<u8>, Fault> {
        let (kind, body) = match self.coverage % 8 {
            0 => (0, extended(self.body())?),
            4 => (4, written(self.body())),
            _ => (LEFT_OUT, Vec::new()),
        };
        Ok(chosen_subtable(self.coverage_as(kind), self.flags as u32, &body))
    }
}

/// The subtable of mort at a start as one of morx; None where there is none, or it is too long.
pub fn subtable_as_morx(table: &[u8], start: u64) -> Result<Option<Vec<u8>>, Fault> {
    let place = usize::try_from(start).unwrap_or(usize::MAX);
    match Source::at(table, place) {
        Some(source) => Ok(Some(source.as_morx(as_it_is)?).filter(|subtable| subtable.len() <= LONGEST)),
        None => Ok(None),
    }
}

/// The mort table at a start as one of morx for this line, with all that a run comes to; None where that is too long.
pub fn table_as_morx(table: &[u8], start: u64, line: &Line) -> Result<Option<Vec<u8>>, Fault> {
    let table = &table[start as usize..];
    let glyphs = match all_glyphs(table, &line.glyphs[..line.length()]) {
        Some(glyphs) => glyphs,
        None => return Ok(None),
    };
    let written = |body: &[u8]| written_out(body, &glyphs);
    let (mut made, mut fault, mut bytes) = (Vec::new(), None, 0);
    let fits = for_each_chain(table, &mut |heads, subtables, again| {
        let mut parts = Vec::new();
        for source in subtables {
            match source.as_morx(written) {
                Ok(part) => parts.push(part),
                Err(other) => fault = Some(other),
            }
        }
        bytes += parts.iter().map(Vec::len).sum::<usize>() + heads.features.len() + 16;
        // A subtable of size 0 is the chain's last, and comes again for all that the count gives.
        let count = match (subtables.last(), parts.last_mut()) {
            (Some(Source { length: 0, .. }), Some(last)) => {
                last[..4].fill(0);
                heads.count
            }
            _ => parts.len(),
        };
        let mut chain = chain(heads.flags as u32, heads.features, &parts);
        chain[12..16].copy_from_slice(&(count as u32).to_be_bytes());
        if again {
            chain[4..8].fill(0);
        }
        made.push(chain);
        bytes <= LONGEST && fault.is_none()
    });
    if let Some(fault) = fault {
        return Err(fault);
    }
    Ok(fits.map(|count| {
        let mut table = morx(&made);
        table[4..8].copy_from_slice(&(count as u32).to_be_bytes());
        table
    }))
}

/// What a chain's head says, and those of its features that can be read.
struct Heads<'a> {
    flags: usize,
    features: &'a [u8],
    /// How many subtables the head counts.
    count: usize,
}

/// The most heads that are gone through one by one.
const MOST_HEADS: usize = 3_000;

/// Goes through the chains with their subtables, up to one that comes again and again as its length is 0, which is told. How many
/// chains a run comes to, unless there are too many heads or `show` says no.
fn for_each_chain<'a>(table: &'a [u8], show: &mut dyn FnMut(&Heads, &[Source<'a>], bool) -> bool) -> Option<usize> {
    let chains = number(table, 4, 4).unwrap_or(0);
    let (mut place, mut heads) = (8, 0);
    for index in 0..chains {
        let parts = [(0, 4), (4, 4), (8, 2), (10, 2)].map(|(at, size)| number(table, place + at, size));
        let [flags, length, features, count] = match parts {
            [Some(flags), Some(length), Some(features), Some(count)] => [flags, length, features, count],
            _ => return Some(index),
        };
        let list = &table[place + 12..];
        let readable = features.min(list.len() / 12);
        let chain = Heads { flags, features: &list[..12 * readable], count };
        let mut subtables = Vec::new();
        let mut at = place + 12 + 12 * features;
        for _ in 0..count {
            match Source::at(table, at) {
                Some(source) => {
                    at += source.length;
                    subtables.push(source);
                }
                None => break,
            }
            heads += 1;
            if subtables.last().map_or(false, |source| source.length == 0) || heads > MOST_HEADS {
                break;
            }
        }
        heads += 1;
        if heads > MOST_HEADS || !show(&chain, &subtables, length == 0) {
            return None;
        }
        if length == 0 {
            break;
        }
        place += length;
    }
    Some(chains)
}

/// All glyphs that a line of these can have on the way; None where there are too many.
fn all_glyphs(table: &[u8], line: &[u16]) -> Option<BTreeSet<u16>> {
    let mut lookups = Vec::new();
    for_each_chain(table, &mut |_, subtables, _| {
        lookups.extend(subtables.iter().filter(|source| source.coverage % 8 == 4).map(Source::body));
        true
    })?;
    let mut all: BTreeSet<u16> = line.iter().copied().collect();
    let mut new = all.clone();
    while !new.is_empty() {
        let found = |glyph: &u16| lookups.iter().filter_map(|body| element(body, *glyph)).collect::<Vec<u16>>();
        new = new.iter().flat_map(found).filter(|glyph| !all.contains(glyph)).collect();
        all.extend(&new);
        if all.len() > MOST_GLYPHS {
            return None;
        }
    }
    Some(all)
}

/// The element of a glyph, by the crate but for format 10.
fn element(body: &[u8], glyph: u16) -> Option<u16> {
    if number(body, 0, 2) != Some(10) {
        return lookup::<u16>(&Bytes::new(body), 0, glyph);
    }
    let (first, elements) = elements_of(body)?;
    elements.get(usize::from(glyph.checked_sub(first)?)).copied()
}

/// The first glyph of a lookup of format 10 and those of its elements that can be read; None where it has none.
fn elements_of(body: &[u8]) -> Option<(u16, Vec<u16>)> {
    let [size, first, count] = [number(body, 2, 2)?, number(body, 4, 2)?, number(body, 6, 2)?];
    let elements: Vec<u16> = match size {
        1 => body[8..].iter().map(|byte| u16::from(*byte)).take(count).collect(),
        2 => body[8..].chunks_exact(2).map(|pair| u16::from_be_bytes([pair[0], pair[1]])).take(count).collect(),
        _ => return None,
    };
    Some((first as u16, elements))
}

/// A lookup as the crate takes it: format 10 as format 8, all others as they are, with all bytes behind them.
fn as_it_is(body: &[u8]) -> Vec<u8> {
    if number(body, 0, 2) != Some(10) {
        return body.to_vec();
    }
    match elements_of(body) {
        Some((first, elements)) => words(&[&[8, first, elements.len() as u16], &elements[..]].concat()),
        None => words(&NOTHING),
    }
}

/// The elements of these glyphs as a lookup of format 6.
fn written_out(body: &[u8], glyphs: &BTreeSet<u16>) -> Vec<u8> {
    let record = |glyph: &u16| element(body, *glyph).map(|value| Record { first: *glyph, last: *glyph, value });
    let records: Vec<Record> = glyphs.iter().filter_map(record).collect();
    with_records(6, 4, records.len() as u16, &records)
}

/// A classic state table as an extended one, with a row for each state that can be reached; one that can't be opened as one whose
/// states can't be read.
fn extended(body: &[u8]) -> Result<Vec<u8>, Fault> {
    let data = Bytes::new(body);
    let opened = match StateTable::new(&data) {
        Some(opened) => opened,
        None => return Ok([4, 16, 0x7FFF_FFFF, 0x7FFF_FFFF].map(u32::to_be_bytes).concat()),
    };
    let class_table = number(body, 2, 2).expect("a class table");
    let [first, count] = [0, 2].map(|at| number(body, class_table + at, 2).expect("a class table"));
    let classes: Vec<u16> = (first..(first + count).min(0xFFFF)).map(|glyph| opened.class(glyph as u16)).collect();
    // The classes at end of text, of glyphs that have none, and of deleted ones are there always.
    let met: BTreeSet<u16> = classes.iter().copied().chain(0..3).collect();
    let width = met.iter().max().expect("a class") + 1;
    // Rows and entries in the order in which they are met.
    let (mut states, mut entries, mut rows) = (vec![0], Vec::new(), Vec::new());
    let mut row = 0;
    while row < states.len() {
        for class in 0..width {
            let entry = match met.contains(&class) {
                true => caught_as_none(|| opened.entry::<()>(states[row], class))?,
                false => None,
            };
            rows.push(match entry {
                None => NO_ENTRY,
                Some(entry) => {
                    let state = place_of(&mut states, entry.new_state);
                    place_of(&mut entries, [state, entry.flags])
                }
            });
        }
        row += 1;
    }
    let class_table = words(&[&[8, first as u16, classes.len() as u16], &classes[..]].concat());
    Ok(machine(width, &[class_table, words(&rows), words(&entries.concat())]))
}

/// The place of an item in a list, where it is put if it is new.
fn place_of<T: PartialEq>(list: &mut Vec<T>, item: T) -> u16 {
    let place = list.iter().position(|known| *known == item).unwrap_or(list.len());
    if place == list.len() {
        list.push(item);
    }
    place as u16
}

//! Bytes to begin with: calls of every entry on tables that mostly make sense.

use crate::fuzz::source::LONGEST;
use crate::questions::part_of;
use crate::reference::kerning::Kerning;
use crate::reference::line::{Line, DELETED};
use crate::tables::kerning::{any_body, formats, Edition};
use crate::tables::kinds::{Kind, KINDS};
use crate::tables::lines::any_glyphs;
use crate::tables::lookup::{words, Made};
use crate::tables::morx::{any_heads, chain, morx, subtable};
use crate::tables::random::Random;
use crate::wire::entries::Entry;
use std::ops::Range;

/// A table, and what is to be told with it.
pub struct Seed {
    pub made: Made,
    pub version: u16,
    pub glyphs: Range<u16>,
    /// The state, the cursor or the name, where the entry has one.
    pub more: Vec<u8>,
}

/// What the bytes of a line begin with, besides its length and its characters, which are as many.
struct Shape {
    room_behind: u8,
    turn: u8,
    spoiled: u8,
}

/// A call of an entry.
pub fn seed(random: &mut Random, entry: Entry) -> Vec<u8> {
    let seed = part_of(entry).seed(random, entry);
    let edge = seed.made.edges.first().map(|edge| edge.saturating_sub(1).min(0xFFF0));
    let about = edge.map_or(seed.glyphs.clone(), |first| first..first + 8);
    let used = random.below(9);
    let [ways, index, turn] = [random.below(4), random.below(used + 1), random.below(4)].map(|number| number as u8);
    let spoiled = if random.once_in(10) { random.below(9) as u8 } else { 0 };
    let shape = Shape { room_behind: random.among(&[0, 1, 8, 30]), turn, spoiled };
    let glyphs: Vec<u16> = (0..used + 2).map(|_| any_glyph(random, &about)).collect();
    seed.bytes(entry, [ways, index], shape, &glyphs)
}

/// Calls whose results follow from the documents, or that bring the machines to their limits, by the passes.
pub fn known() -> Vec<Vec<u8>> {
    let mut seeds = Vec::new();
    for kind in &KINDS {
        let mut add = |body: &[u8], line: &Line| {
            if line.is_line() && line.length() <= LONGEST.into() && body.len() < LONGEST_BODY {
                let room_behind = (line.glyphs.len() - line.length()).min(30) as u8;
                let seed = Seed::of(0..1, Made::whole(subtable(kind.number, body)));
                let glyphs = [&[0, 0], &line.glyphs[..line.length()]].concat();
                seeds.push(seed.bytes(kind.pass, [0, 0], Shape { room_behind, turn: 0, spoiled: 0 }, &glyphs));
            }
        };
        (kind.examples)().iter().for_each(|example| add(&example.body, &example.before));
        (kind.limits)(&mut |body, line| add(&body, &line));
    }
    seeds
}

const LONGEST_BODY: usize = 1_200;

impl Seed {
    /// A table about these glyphs.
    pub fn of(glyphs: Range<u16>, made: Made) -> Self {
        Seed { made, version: 0, glyphs, more: Vec::new() }
    }

    /// The same with a cursor for its table.
    pub fn with_cursor<const N: usize>(mut self, cursor: impl FnOnce(&Made) -> [u64; N]) -> Self {
        self.more = cursor(&self.made).map(u64::to_be_bytes).concat();
        self
    }

    /// A table about any glyphs.
    pub fn any(random: &mut Random, make: impl FnOnce(&mut Random, &Range<u16>) -> Made) -> Self {
        let glyphs = any_glyphs(random);
        let made = make(random, &glyphs);
        Seed::of(glyphs, made)
    }

    /// The call's bytes: with ways and index, then a pair of glyphs and the line.
    fn bytes(self, entry: Entry, told: [u8; 2], shape: Shape, glyphs: &[u16]) -> Vec<u8> {
        let [ways, index] = told;
        let used = glyphs.len() as u8 - 2;
        let mut bytes = vec![entry as u8, self.made.start as u8, self.version as u8, ways, index];
        bytes.extend(words(&glyphs[..2]));
        bytes.extend([used, shape.room_behind, shape.turn, used, shape.spoiled]);
        bytes.extend(words(&glyphs[2..]));
        bytes.extend(self.more);
        bytes.extend(self.made.table);
        bytes
    }
}

fn any_glyph(random: &mut Random, glyphs: &Range<u16>) -> u16 {
    match random.below(12) {
        0 => DELETED,
        1 => glyphs.end,
        _ => glyphs.start + random.below(glyphs.len()) as u16,
    }
}

/// Any subtable of a kind.
pub fn any_subtable(random: &mut Random, kind: &Kind, glyphs: &Range<u16>) -> Vec<u8> {
    let ways = random.among(&[0, 0, 0x1000_0000, 0x4000_0000, 0x5000_0000, 0x2000_0000]);
    subtable(ways | kind.number, &(kind.any_body)(random, glyphs))
}

/// Any chains, all of whose subtables are chosen.
pub fn any_morx(random: &mut Random, glyphs: &Range<u16>) -> Vec<u8> {
    let mut chains = Vec::new();
    for _ in 0..1 + random.below(2) {
        let kinds: Vec<&Kind> = (0..random.below(4)).map(|_| &KINDS[random.below(KINDS.len())]).collect();
        let subtables: Vec<Vec<u8>> = kinds.iter().map(|kind| any_subtable(random, kind, glyphs)).collect();
        let features = 12 * random.below(4);
        chains.push(chain(1, &random.bytes(features), &subtables));
    }
    morx(&chains)
}

/// A table with lists to go through: of many heads, or of subtables that can be read, and either behind other bytes.
pub fn any_lists(random: &mut Random, glyphs: &Range<u16>) -> Made {
    let table = if random.once_in(2) { any_heads(random) } else { any_morx(random, glyphs) };
    Made::behind_others(random, table, Vec::new())
}

fn any_edition(random: &mut Random, kerning: Kerning) -> Edition {
    let version = match kerning {
        Kerning::Kern => random.among(&[0, 1]),
        Kerning::Kerx => random.among(&[2, 4]),
    };
    Edition::new(kerning, version, random.among(&[0, 0, 1, 2]))
}

fn any_kerned(random: &mut Random, edition: Edition, glyphs: &Range<u16>) -> Vec<u8> {
    let format = random.among(formats(edition.kerning));
    let body = any_body(random, edition, format, glyphs);
    edition.subtable(edition.plain(), format, &body)
}

/// Any subtable of a table of kerning.
pub fn any_kerning(random: &mut Random, kerning: Kerning) -> Seed {
    let glyphs = any_glyphs(random);
    let edition = any_edition(random, kerning);
    let made = Made::whole(any_kerned(random, edition, &glyphs));
    Seed { version: edition.version, ..Seed::of(glyphs, made) }
}

/// A list that does not begin with the table: start 0 is none.
pub fn any_list(random: &mut Random, kerning: Kerning, glyphs: &Range<u16>) -> Made {
    let edition = any_edition(random, kerning);
    let subtables: Vec<Vec<u8>> = (0..random.below(4)).map(|_| any_kerned(random, edition, glyphs)).collect();
    Made { table: [vec![0; 4], edition.table(&subtables)].concat(), start: 4, edges: Vec::new() }
}

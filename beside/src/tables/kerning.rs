//! kern and kerx subtables as bytes, of given parts and from a seed.

use crate::reference::kerning::Kerning;
use crate::tables::lookup::{any_with_values, damage, words, Made};
use crate::tables::morx::machine;
use crate::tables::random::Random;
use std::ops::Range;

/// A pair of glyphs and its number.
pub type Pair = (u16, u16, i16);

/// The kind of list that a subtable is in: its version says how heads and tuples are read.
#[derive(Clone, Copy)]
pub struct Edition {
    pub kerning: Kerning,
    pub version: u16,
    /// The tuple count of its subtables, which only kerx from version 4 on reads.
    pub tuples: u32,
}

impl Edition {
    /// The edition of these.
    pub const fn new(kerning: Kerning, version: u16, tuples: u32) -> Self {
        Edition { kerning, version, tuples }
    }

    /// Any edition of a table.
    pub fn any(random: &mut Random, kerning: Kerning) -> Self {
        match kerning {
            Kerning::Kern => Edition::new(kerning, random.among(&[0, 0, 1, 1, 1, 2, 0x100, 0xFFFF]), 0),
            Kerning::Kerx => {
                let version = random.among(&[2, 2, 3, 4, 4, 4, 0, 1, 5, 0xFFFF]);
                let any = random.number() as u32;
                let huge = random.among(&[0x7FFF_FFFF, 0x8000_0000, 0x8000_0001, u32::MAX, any]);
                Edition::new(kerning, version, random.among(&[0, 0, 1, 1, 2, 3, 7, huge]))
            }
        }
    }

    fn is_old(self) -> bool {
        self.kerning == Kerning::Kern && self.version == 0
    }

    /// The bytes before a subtable's body.
    pub fn body_at(self) -> usize {
        match self.kerning {
            Kerning::Kern if self.is_old() => 6,
            Kerning::Kern => 8,
            Kerning::Kerx => 12,
        }
    }

    /// The bits that a run passes over a subtable for, alone and together, and some that it doesn't look at.
    pub fn coverages(self) -> &'static [u32] {
        match self.kerning {
            Kerning::Kern if self.is_old() => &[1, 0, 4, 5, 3, 9, 0xF, 0xF9],
            Kerning::Kern => &[0, 0x8000, 0x4000, 0xC000, 0x2000, 0x1F00, 0xFF00],
            Kerning::Kerx => &[
                0,
                0x8000_0000,
                0x4000_0000,
                0x2000_0000,
                0x1000_0000,
                0x5000_0000,
                0x9000_0000,
                0x0FFF_FF00,
                0x1FFF_FF00,
                0xF000_0000,
            ],
        }
    }

    /// The bits of a subtable that a run makes the pass of.
    pub fn plain(self) -> u32 {
        u32::from(self.is_old())
    }

    /// A subtable of this format with these bits of coverage and this body.
    pub fn subtable(self, bits: u32, format: u8, body: &[u8]) -> Vec<u8> {
        let length = self.body_at() + body.len();
        let head = match self.kerning {
            Kerning::Kern if self.is_old() => words(&[0, length as u16, u16::from(format) << 8 | bits as u16]),
            Kerning::Kern => {
                [(length as u32).to_be_bytes(), (bits << 16 | u32::from(format) << 16).to_be_bytes()].concat()
            }
            Kerning::Kerx => [length as u32, bits | u32::from(format), self.tuples].map(u32::to_be_bytes).concat(),
        };
        [&head, body].concat()
    }

    /// The table of these subtables.
    pub fn table(self, subtables: &[Vec<u8>]) -> Vec<u8> {
        [self.kerning.head(self.version, subtables.len() as u32), subtables.concat()].concat()
    }

    /// Where a subtable's size is, with its bytes.
    pub fn size_at(self) -> Range<usize> {
        if self.is_old() {
            2..4
        } else {
            0..4
        }
    }

    /// The body of a list of pairs that counts so many.
    pub fn pairs(self, count: u32, pairs: &[Pair]) -> Vec<u8> {
        let head = match self.kerning {
            Kerning::Kern => words(&[count as u16, 6, 0, 0]),
            Kerning::Kerx => [count, 6, 0, 0].map(u32::to_be_bytes).concat(),
        };
        let records = pairs.iter().flat_map(|pair| words(&[pair.0, pair.1, pair.2 as u16]));
        head.into_iter().chain(records).collect()
    }

    fn stride(self) -> usize {
        match (self.kerning, self.tuples) {
            (Kerning::Kerx, 1..=64) if self.version >= 4 => 2 * self.tuples as usize,
            _ => 2,
        }
    }

    /// A machine's body.
    pub fn machine(self, parts: &Parts) -> Vec<u8> {
        match self.kerning {
            Kerning::Kern => classic_machine(parts),
            Kerning::Kerx => self.extended_machine(parts),
        }
    }

    fn extended_machine(self, parts: &Parts) -> Vec<u8> {
        let Parts { first, classes, count, rows, entries, lists } = *parts;
        let wide = |numbers: &[u8]| numbers.iter().map(|number| u16::from(*number)).collect::<Vec<u16>>();
        let class_table = words(&[&[8, first, classes.len() as u16], &wide(classes)[..]].concat());
        let entries = entries.iter().flat_map(|entry| words(&[entry.state, entry.flags, entry.list])).collect();
        let mut body = machine(count, &[class_table, words(&wide(rows)), entries, Vec::new()]);
        let stride = self.stride();
        body.resize((body.len() + stride - 1) / stride * stride, 0);
        let values = (body.len() / stride) as u32;
        body[16..20].copy_from_slice(&values.to_be_bytes());
        for number in lists {
            let mut tuple = number.to_be_bytes().to_vec();
            tuple.resize(stride, 0x11);
            body.extend(tuple);
        }
        body
    }
}

/// What a machine is made of.
pub struct Parts<'a> {
    /// The first of the glyphs that have a class, and their classes, from 4 on.
    pub first: u16,
    pub classes: &'a [u8],
    /// The number of classes.
    pub count: u16,
    /// For each state and class the number of its entry.
    pub rows: &'a [u8],
    pub entries: &'a [Entry],
    /// The numbers of the lists, one behind the other.
    pub lists: &'a [i16],
}

/// What an entry says: the new state, its flags, and, as the number of its first number, its list.
#[derive(Clone, Copy)]
pub struct Entry {
    pub state: u16,
    pub flags: u16,
    pub list: u16,
}

pub const PUSH: u16 = 0x8000;
pub const STAY: u16 = 0x4000;

/// kerx alone.
pub const RESET: u16 = 0x2000;

/// No list.
pub const NONE: u16 = 0xFFFF;

fn classic_machine(parts: &Parts) -> Vec<u8> {
    let Parts { first, classes, count, rows, entries, lists } = *parts;
    let class_table = 10;
    let states = class_table + 4 + classes.len() as u16;
    let entry_table = states + rows.len() as u16;
    let values = entry_table + 4 * entries.len() as u16;
    let mut body = words(&[count, class_table, states, entry_table, values, first, classes.len() as u16]);
    body.extend(classes);
    body.extend(rows);
    for entry in entries {
        let list = if entry.list == NONE { 0 } else { values.wrapping_add(entry.list.wrapping_mul(2)) & 0x3FFF };
        body.extend(words(&[states.wrapping_add(entry.state.wrapping_mul(count)), entry.flags | list]));
    }
    body.extend(lists.iter().flat_map(|number| number.to_be_bytes()));
    body
}

/// The editions of a table.
pub fn editions(kerning: Kerning) -> &'static [Edition] {
    use Kerning::{Kern, Kerx};
    const KERN: [Edition; 3] = [Edition::new(Kern, 0, 0), Edition::new(Kern, 1, 0), Edition::new(Kern, 0xFFFF, 0)];
    const KERX: [Edition; 7] = [
        Edition::new(Kerx, 2, 0),
        Edition::new(Kerx, 3, 7),
        Edition::new(Kerx, 4, 0),
        Edition::new(Kerx, 4, 1),
        Edition::new(Kerx, 4, 3),
        Edition::new(Kerx, 4, u32::MAX),
        Edition::new(Kerx, 0xFFFF, 2),
    ];
    match kerning {
        Kern => &KERN,
        Kerx => &KERX,
    }
}

/// Any body of a format about these glyphs.
pub fn any_body(random: &mut Random, edition: Edition, format: u8, glyphs: &Range<u16>) -> Vec<u8> {
    match format {
        0 => any_pairs(random, edition, glyphs),
        1 => any_machine(random, edition, glyphs),
        _ => any_classes(random, glyphs),
    }
}

/// The formats of a table.
pub fn formats(kerning: Kerning) -> &'static [u8] {
    match kerning {
        Kerning::Kern => &[0, 1],
        Kerning::Kerx => &[0, 1, 2],
    }
}

fn any_number(random: &mut Random) -> i16 {
    match random.below(12) {
        0 => random.among(&[i16::MIN, i16::MIN + 1, i16::MAX, -1, -1, -2, 0, 1]),
        1 => random.word() as i16,
        _ => random.below(200) as i16 - 100,
    }
}

fn any_pairs(random: &mut Random, edition: Edition, glyphs: &Range<u16>) -> Vec<u8> {
    let glyph = |random: &mut Random| match random.below(16) {
        0 => random.among(&[0, 0xFFFE, 0xFFFF]),
        _ => glyphs.start + random.below(glyphs.len()) as u16,
    };
    let most = random.among(&[1, 4, 12, 40, 80]);
    let mut pairs: Vec<Pair> =
        (0..random.below(most + 1)).map(|_| (glyph(random), glyph(random), any_number(random))).collect();
    pairs.sort_unstable();
    if !random.once_in(4) {
        pairs.dedup_by_key(|pair| (pair.0, pair.1));
    }
    if random.once_in(10) {
        random.shuffle(&mut pairs);
    }
    let right = pairs.len() as u32;
    let count = match random.below(12) {
        0 => random.among(&[0, right + 1, right * 2 + 1, 0xFFFF, 0x1_0000, u32::MAX]),
        _ => right,
    };
    edition.pairs(count, &pairs)
}

/// Any machine with up to two dozen numbers in its lists; some never advance, some always push.
fn any_machine(random: &mut Random, edition: Edition, glyphs: &Range<u16>) -> Vec<u8> {
    let [classes, states, count] = [4 + random.below(4), 1 + random.below(4), 1 + random.below(10)];
    let goes_astray = random.once_in(3);
    let any_below = |random: &mut Random, limit: usize| match random.below(60) {
        0 if goes_astray => random.number() as u8,
        1 if goes_astray => (limit + random.below(3)) as u8,
        _ => random.below(limit) as u8,
    };
    let class_of: Vec<u8> = glyphs.clone().map(|_| any_below(random, classes)).collect();
    let rows: Vec<u8> = (0..states * classes).map(|_| any_below(random, count)).collect();
    let numbers = random.below(24);
    let [stays, pushes] = [random.among(&[0, 1, 1, 2, 4]), random.among(&[1, 2, 2, 3, 4])];
    let entries: Vec<Entry> = (0..count)
        .map(|_| Entry {
            state: u16::from(any_below(random, states)),
            flags: any_flags(random, edition.kerning, stays, pushes),
            list: match random.below(32) {
                0 => random.among(&[0x1000, NONE - 1]),
                1..=16 => NONE,
                _ => random.below(numbers + 2) as u16,
            },
        })
        .collect();
    let lists: Vec<i16> = (0..numbers).map(|_| any_number(random)).collect();
    let count = if random.once_in(40) { random.among(&[0, 1, 3]) } else { classes as u16 };
    let mut body = edition.machine(&Parts {
        first: glyphs.start,
        classes: &class_of,
        count,
        rows: &rows,
        entries: &entries,
        lists: &lists,
    });
    if random.once_in(12) && edition.kerning == Kerning::Kerx {
        let values = random.among(&[0, 1, 0x7FFF_FFFF, 0x8000_0000, u32::MAX - 1, u32::MAX]);
        body[16..20].copy_from_slice(&values.to_be_bytes());
    }
    body
}

fn any_flags(random: &mut Random, kerning: Kerning, stays: usize, pushes: usize) -> u16 {
    let mut flags = 0;
    if random.below(4) < stays {
        flags |= STAY;
    }
    if random.below(4) < pushes {
        flags |= PUSH;
    }
    if kerning == Kerning::Kerx && random.once_in(6) {
        flags |= RESET;
    }
    if random.once_in(24) {
        flags |= random.word() & 0x1FFF;
    }
    flags
}

/// Any rows, columns and array, which the offsets count to from the subtable's head.
fn any_classes(random: &mut Random, glyphs: &Range<u16>) -> Vec<u8> {
    let [rows, columns] = [1 + random.below(4), 1 + random.below(4)];
    let any_place = |random: &mut Random, size: usize, limit: usize| match random.below(16) {
        0 => random.word(),
        1 => random.below(2 * size * limit + 2) as u16,
        _ => (size * random.below(limit)) as u16,
    };
    let some = |random: &mut Random| {
        let least = random.below(glyphs.len());
        let most = least + 1 + random.below(glyphs.len() - least);
        glyphs.start + least as u16..glyphs.start + most as u16
    };
    let [left, right] = [some(random), some(random)];
    let left_values: Vec<u16> = left.clone().map(|_| any_place(random, 2 * columns, rows)).collect();
    let right_values: Vec<u16> = right.clone().map(|_| any_place(random, 2, columns)).collect();
    let left_table = any_with_values(random, left.start, &left_values);
    let right_table = any_with_values(random, right.start, &right_values);
    let numbers: Vec<u16> = (0..rows * columns).map(|_| any_number(random) as u16).collect();
    classes(2 * columns as u32, left_table, right_table, &numbers)
}

/// A body of rows and columns.
pub fn classes(width: u32, left: Vec<u8>, right: Vec<u8>, numbers: &[u16]) -> Vec<u8> {
    let left_at = 28;
    let right_at = left_at + left.len() as u32;
    let array_at = right_at + right.len() as u32;
    let head = [width, left_at, right_at, array_at].map(u32::to_be_bytes).concat();
    [head, left, right, words(numbers)].concat()
}

/// Any subtable: mostly whole and of the format, often behind other bytes.
pub fn any_subtable(random: &mut Random, edition: Edition, format: u8, glyphs: &Range<u16>) -> Made {
    let body = any_body(random, edition, format, glyphs);
    let number = if random.once_in(30) { random.below(7) as u8 } else { format };
    let bits = if random.once_in(2) { edition.plain() } else { random.among(edition.coverages()) };
    let mut table = edition.subtable(bits, number, &body);
    match random.below(6) {
        0 => damage_head(random, edition, &mut table),
        1 => damage(random, &mut table),
        _ => {}
    }
    Made::behind_others(random, table, Vec::new())
}

/// Changes a number of the body's head.
fn damage_head(random: &mut Random, edition: Edition, table: &mut [u8]) {
    let at = edition.body_at() + 2 * random.below(10);
    let inside = random.below(table.len() + 2) as u16;
    let number = random.among(&[0, 1, 2, 0x7FFF, 0x8000, 0xFFFF, inside]);
    if at + 2 <= table.len() {
        table[at..at + 2].copy_from_slice(&number.to_be_bytes());
    }
}

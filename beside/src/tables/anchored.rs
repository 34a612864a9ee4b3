//! kerx subtables of format 4 and ankr tables as bytes, of given parts and from a seed.

use crate::reference::anchored::Marks;
use crate::reference::kerning::Kerning;
use crate::tables::kerning::{any_body, Edition};
use crate::tables::kerx_manual::{any_manual_body, any_tuples, any_version, trimmed, with_class_table, UNIT_SIZES};
use crate::tables::lookup::{any_with_values, damage, with_values, words};
use crate::tables::morx::machine;
use crate::tables::random::Random;
use std::ops::Range;

/// A point of a glyph.
pub type Point = (i16, i16);

/// An ankr table with a lookup table, whose elements count from where the points begin, and these bytes of points.
pub fn with_lookup(lookup: &[u8], points: &[u8]) -> Vec<u8> {
    let head = [0, ANKR_HEAD as u32, (ANKR_HEAD + lookup.len()) as u32].map(u32::to_be_bytes).concat();
    [&head, lookup, points].concat()
}

/// The bytes in the head of an ankr table.
pub const ANKR_HEAD: usize = 12;

/// The points of each glyph as bytes, behind their count, and where those of each begin.
pub fn points_of(glyphs: &[Vec<Point>]) -> (Vec<u8>, Vec<u16>) {
    let mut bytes = Vec::new();
    let mut begins = Vec::new();
    for points in glyphs {
        begins.push(bytes.len() as u16);
        bytes.extend((points.len() as u32).to_be_bytes());
        points.iter().for_each(|(x, y)| bytes.extend(words(&[*x as u16, *y as u16])));
    }
    (bytes, begins)
}

/// An ankr table with these points for as many glyphs from the first on, by a lookup table of this format.
pub fn ankr(format: u16, first: u16, glyphs: &[Vec<Point>]) -> Vec<u8> {
    let (bytes, begins) = points_of(glyphs);
    with_lookup(&with_values(format, first, &begins), &bytes)
}

/// What an entry says: the new state, its flags, and its record, by the number of words before it.
#[derive(Clone, Copy)]
pub struct Act {
    pub state: u16,
    pub flags: u16,
    pub record: u16,
}

pub const MARK: u16 = 0x8000;
pub const STAY: u16 = 0x4000;

/// No record.
pub const NONE: u16 = 0xFFFF;

/// The types of actions.
pub const ACTIONS: [u32; 4] = [0, 1, 2, 3];
pub const BY_POINTS: u32 = 1;

/// What a machine of format 4 is made of.
pub struct Parts<'a> {
    pub action: u32,
    /// The first of the glyphs that have a class, and their classes, from 4 on.
    pub first: u16,
    pub classes: &'a [u16],
    /// The number of classes.
    pub count: u16,
    /// For each state and class the number of its entry.
    pub rows: &'a [u16],
    pub acts: &'a [Act],
    /// The numbers of the marked and of the current glyph's point, one record behind the other.
    pub records: &'a [(u16, u16)],
}

impl Parts<'_> {
    /// The subtable's body.
    pub fn body(&self) -> Vec<u8> {
        let acts = self.acts.iter().flat_map(|act| words(&[act.state, act.flags, act.record])).collect();
        let records = self.records.iter().flat_map(|record| words(&[record.0, record.1])).collect();
        let parts = [with_values(8, self.first, self.classes), words(self.rows), acts, records];
        let body = machine(self.count, &parts);
        let at = records_at(&body);
        with_flags(body, self.action << 30 | at)
    }
}

/// Where a body's records begin, as its flags tell.
pub fn records_at(body: &[u8]) -> u32 {
    u32::from_be_bytes([0, body[17], body[18], body[19]])
}

/// A body with other flags: the type of its actions, and where its records begin.
pub fn with_flags(mut body: Vec<u8>, flags: u32) -> Vec<u8> {
    body[16..20].copy_from_slice(&flags.to_be_bytes());
    body
}

/// The body of a machine of one state in which each of as many glyphs from the first on has an entry, others do nothing, and record
/// number n is for points n of both glyphs.
pub fn one_state(action: u32, first: u16, acts: &[Act], records: u16) -> Vec<u8> {
    let nothing = Act { state: 0, flags: 0, record: NONE };
    let numbers = 0..acts.len() as u16;
    let classes: Vec<u16> = numbers.clone().map(|number| 4 + number).collect();
    let rows: Vec<u16> = [vec![0; 4], numbers.map(|number| 1 + number).collect()].concat();
    let acts = [&[nothing], acts].concat();
    let records: Vec<(u16, u16)> = (0..records).map(|number| (number, number)).collect();
    let count = 4 + classes.len() as u16;
    Parts { action, first, classes: &classes, count, rows: &rows, acts: &acts, records: &records }.body()
}

/// An entry of such a machine; the record by its own number.
pub fn act(flags: u16, record: u16) -> Act {
    Act { state: 0, flags, record: if record == NONE { NONE } else { 2 * record } }
}

/// Any coordinate: mostly of few digits.
fn any_coordinate(random: &mut Random) -> i16 {
    match random.below(8) {
        0 => random.among(&[i16::MIN, i16::MIN, i16::MAX, i16::MAX, -1, 0, 1]),
        1 => random.word() as i16,
        _ => random.below(2_000) as i16 - 1_000,
    }
}

/// Any lookup table of these values, often of format 10 with any unit size.
fn any_lookup(random: &mut Random, first: u16, values: &[u16]) -> Vec<u8> {
    match random.below(8) {
        0 => trimmed(random.among(&[1, 2]), first, values),
        1 if random.once_in(2) => trimmed(random.among(&UNIT_SIZES), first, values),
        _ => any_with_values(random, first, values),
    }
}

/// Any ankr table with some points for most of these glyphs; often none, often damaged. The counts of points are often not theirs,
/// as nobody asks.
pub fn any_ankr(random: &mut Random, glyphs: &Range<u16>) -> Vec<u8> {
    if random.once_in(16) {
        return Vec::new();
    }
    let most = random.among(&[1, 2, 4]);
    let mut list = Vec::new();
    for _ in glyphs.clone() {
        let count = if random.once_in(6) { 0 } else { 1 + random.below(most) };
        list.push((0..count).map(|_| (any_coordinate(random), any_coordinate(random))).collect());
    }
    let (mut points, mut begins) = points_of(&list);
    for begin in &mut begins {
        let at = usize::from(*begin);
        if random.once_in(8) {
            points[at + 3] = random.number() as u8;
        }
        if random.once_in(30) {
            *begin = random.among(&[points.len() as u16, points.len() as u16 - 4, 2, 0xFFFF]);
        }
    }
    let lookup = any_lookup(random, glyphs.start, &begins);
    let mut table = with_lookup(&lookup, &points);
    match random.below(10) {
        0 => damage(random, &mut table),
        1 if random.once_in(3) => {
            let inside = random.below(table.len() + 2) as u32;
            let offset = random.among(&[0, 1, 4, inside, 0x8000_0000, u32::MAX - 3, u32::MAX]);
            let at = random.among(&[4, 8]);
            table[at..at + 4].copy_from_slice(&offset.to_be_bytes());
        }
        _ => {}
    }
    table
}

/// Any machine of format 4 with a class for each of these glyphs: mostly of action type 1, with records of low numbers.
pub fn any_anchors(random: &mut Random, glyphs: &Range<u16>) -> Vec<u8> {
    let [classes, states, entries] = [4 + random.below(4), 1 + random.below(3), 1 + random.below(8)];
    let goes_astray = random.once_in(4);
    let any_below = |random: &mut Random, limit: usize| match random.below(60) {
        0 if goes_astray => random.word(),
        1 if goes_astray => (limit + random.below(3)) as u16,
        _ => random.below(limit) as u16,
    };
    let class_of: Vec<u16> = glyphs.clone().map(|_| any_below(random, classes)).collect();
    let rows: Vec<u16> = (0..states * classes).map(|_| any_below(random, entries)).collect();
    let records = 1 + random.below(4);
    let [stays, marks] = [random.among(&[0, 0, 1, 2, 4]), random.among(&[0, 1, 1, 2, 2, 2, 4])];
    let mut any_act = |_| {
        let mut flags = if random.below(4) < stays { STAY } else { 0 };
        flags |= if random.below(4) < marks { MARK } else { 0 };
        flags |= if random.once_in(16) { random.word() & 0x3FFF } else { 0 };
        let record = match random.below(24) {
            0 => random.among(&[0x1000, NONE - 1]),
            1 => random.below(2 * records + 2) as u16,
            2..=6 => NONE,
            _ => 2 * random.below(records) as u16,
        };
        Act { state: any_below(random, states), flags, record }
    };
    let acts: Vec<Act> = (0..entries).map(&mut any_act).collect();
    let any_point = |random: &mut Random| match random.below(12) {
        0 => random.among(&[4, 7, 0x4000, 0xFFFF]),
        1 => random.below(6) as u16,
        _ => random.below(2) as u16,
    };
    let records: Vec<(u16, u16)> = (0..records).map(|_| (any_point(random), any_point(random))).collect();
    let action = if random.once_in(10) { random.among(&ACTIONS) } else { BY_POINTS };
    let count = if random.once_in(40) { random.among(&[0, 1, 3]) } else { classes as u16 };
    let mut body =
        Parts { action, first: glyphs.start, classes: &class_of, count, rows: &rows, acts: &acts, records: &records }
            .body();
    if random.once_in(16) {
        let at = random.among(&[0, 1, 20, 0xFF_FFFF, records_at(&body) + 1, body.len() as u32 - 3, body.len() as u32]);
        let bits = random.among(&[0, 0, 0x3F00_0000, 0x0100_0000]);
        body = with_flags(body, action << 30 | bits | at);
    }
    if random.once_in(3) {
        let class_table = any_lookup(random, glyphs.start, &class_of);
        body = with_class_table(body, &class_table);
    }
    body
}

/// Any subtable of format 4, or another, in a list of this version: mostly whole, without tuples, and none that a run passes over.
pub fn any_anchored_subtable(random: &mut Random, version: u16, format: u8, glyphs: &Range<u16>) -> Vec<u8> {
    let edition = Edition::new(Kerning::Kerx, version, any_tuples(random));
    let body = match format {
        4 => any_anchors(random, glyphs),
        _ if random.once_in(2) => any_manual_body(random, version, format, glyphs),
        _ => any_body(random, edition, format, glyphs),
    };
    let number = if random.once_in(40) { random.below(7) as u8 } else { format };
    let bits = if random.once_in(8) { random.among(edition.coverages()) } else { random.among(&[0, 0, 0x1000_0000]) };
    let mut subtable = edition.subtable(bits, number, &body);
    match random.below(30) {
        0 => subtable[edition.size_at()].fill(0),
        1..=3 => damage(random, &mut subtable),
        _ => {}
    }
    subtable
}

/// Any table in which formats 0, 1, 2 and 4 are mixed.
pub fn any_anchored_table(random: &mut Random, glyphs: &Range<u16>) -> Vec<u8> {
    let version = any_version(random);
    let subtables: Vec<Vec<u8>> = (0..random.below(5))
        .map(|_| {
            let format = random.among(&[0, 1, 2, 4, 4, 4]);
            any_anchored_subtable(random, version, format, glyphs)
        })
        .collect();
    let mut table = Edition::new(Kerning::Kerx, version, 0).table(&subtables);
    if random.once_in(20) {
        table[7] = random.below(7) as u8;
    }
    table
}

impl Marks {
    /// Some at each place of a room, none like another.
    pub fn of(room: usize) -> Self {
        let numbers = |first: i32| (first..).take(room).collect();
        Marks { x: numbers(70_000), y: numbers(-80_000), back: (0..room).map(|place| (900 + place) as u16).collect() }
    }

    /// Any; now and then some that are refused.
    pub fn any(random: &mut Random, room: usize) -> Self {
        let mut numbers = || -> Vec<i32> { (0..room).map(|_| random.number() as i32).collect() };
        let (x, y) = (numbers(), numbers());
        let back = (0..room).map(|_| random.word()).collect();
        let mut marks = Marks { x, y, back };
        match random.below(60) {
            0 => marks.x.push(1),
            1 => marks.y.push(1),
            2 => marks.back.push(1),
            3 => drop(marks.x.pop()),
            4 => drop(marks.y.pop()),
            5 => drop(marks.back.pop()),
            6 => marks = Marks::none(0),
            _ => {}
        }
        marks
    }
}

//! Lines and adjustments from a seed, whole and spoiled.

use crate::reference::kerning::{Kerned, LARGEST_ADJUSTMENT};
use crate::reference::line::{Line, DELETED, LARGEST_ROOM};
use crate::tables::random::Random;
use std::ops::Range;

/// A few glyphs: often low ones, sometimes the highest.
pub fn any_glyphs(random: &mut Random) -> Range<u16> {
    let count = 1 + random.below(9) as u16;
    let first = random.among(&[0, 1, 10, 10, 10, 300, 0xFFFE - count]);
    first..first + count
}

/// So many numbers.
pub fn any_numbers(random: &mut Random, count: usize) -> Vec<u16> {
    (0..count).map(|_| random.word()).collect()
}

/// A line with distinct glyphs in the part that is used, its tags in any order, and any homes.
pub fn any_line(random: &mut Random, used: usize, room: usize) -> Line {
    let mut glyphs = any_numbers(random, room);
    let first = random.word();
    for (place, glyph) in glyphs[..used].iter_mut().enumerate() {
        *glyph = first.wrapping_add(place as u16);
    }
    let mut tags = any_numbers(random, room);
    for (place, tag) in tags[..used].iter_mut().enumerate() {
        *tag = place as u16;
    }
    random.shuffle(&mut tags[..used]);
    let some = random.below(used + 1);
    let characters = random.among(&[0, some, used]);
    let homes = (0..characters).map(|_| random.below(used) as u16).collect();
    Line { glyphs, tags, homes, used: used as u64 }
}

/// Rooms about the largest.
pub const LARGE_ROOMS: [usize; 3] = [LARGEST_ROOM - 1, LARGEST_ROOM, LARGEST_ROOM + 1];

/// What is lent for lines of this glyph with parts of every length up to 5, most of them no line's, and of some about the largest room.
pub fn for_each_length(glyph: u16, show: &mut dyn FnMut(Line)) {
    let numbers = |count: usize| (0..count as u16).collect::<Vec<u16>>();
    let mut line = |glyphs, tags, homes, used| {
        show(Line { glyphs: vec![glyph; glyphs], tags: numbers(tags), homes: numbers(homes), used });
    };
    let short = [0, 1, 3, 5];
    for (glyphs, tags) in short.into_iter().flat_map(|glyphs| short.map(|tags| (glyphs, tags))) {
        for homes in [0, 1, 4] {
            for used in [0, 1, 3, tags as u64, glyphs as u64 + 1, 1 << 32, u64::MAX] {
                line(glyphs, tags, homes, used);
            }
        }
    }
    let differing = [(LARGEST_ROOM, LARGEST_ROOM - 1), (LARGEST_ROOM - 1, LARGEST_ROOM), (3, LARGEST_ROOM)];
    for (glyphs, tags) in LARGE_ROOMS.map(|room| (room, room)).into_iter().chain(differing) {
        for (homes, used) in [(4, 3), (4, glyphs), (glyphs, glyphs), (0, glyphs + 1)] {
            line(glyphs, tags, homes, used as u64);
        }
    }
}

/// Sometimes makes a line one that is refused.
pub fn spoil(random: &mut Random, line: &mut Line) {
    let used = line.used as usize;
    let too_large = random.among(&[line.used as u16, line.used as u16 + 1, LARGEST_ROOM as u16, 0xFFFF]);
    match random.below(40) {
        0 if used > 0 => line.tags[random.below(used)] = too_large,
        1 if used > 0 => line.tags[random.below(used)] = random.below(used) as u16,
        2 if !line.homes.is_empty() => {
            let character = random.below(line.homes.len());
            line.homes[character] = too_large;
        }
        3 => line.homes.resize(used + 1, 0),
        4 => line.tags.push(0),
        5 => line.glyphs.push(0),
        6 => line.used += random.among(&[1, 1 << 16, 1 << 32]),
        7 => line.used = line.used.saturating_sub(1),
        _ => {}
    }
}

/// Any line, mostly of these glyphs.
pub fn any_line_of(random: &mut Random, glyphs: &Range<u16>, used: usize, room: usize) -> Line {
    let mut line = any_line(random, used, room);
    for glyph in &mut line.glyphs[..used] {
        *glyph = match random.below(20) {
            0 => DELETED,
            1 => glyphs.end,
            2 => random.word(),
            _ => glyphs.start + random.below(glyphs.len()) as u16,
        };
    }
    line
}

impl Kerned {
    /// A line with adjustments that count up from 100.
    pub fn of(line: Line) -> Self {
        let along = (100..).take(line.glyphs.len()).collect();
        Kerned { line, along }
    }

    /// Any line, mostly of these glyphs, with any adjustments; now and then one that is refused.
    pub fn any(random: &mut Random, glyphs: &Range<u16>, used: usize, room: usize) -> Self {
        let mut line = any_line_of(random, glyphs, used, room);
        let mut along = any_along(random, room);
        spoil(random, &mut line);
        if random.once_in(40) {
            along.push(0);
        }
        Kerned { line, along }
    }
}

/// So many adjustments, rarely beyond the largest, often at it.
pub fn any_along(random: &mut Random, count: usize) -> Vec<i64> {
    let largest = LARGEST_ADJUSTMENT as i64;
    let mut along: Vec<i64> = (0..count)
        .map(|_| match random.below(6) {
            0 => random.among(&[0, 1, -1, largest, -largest, largest - 1]),
            _ => random.below(4_000) as i64 - 2_000,
        })
        .collect();
    if count > 0 && random.once_in(16) {
        let any = random.number() as i64;
        let beyond = [largest + 1, -largest - 1, i64::MIN, i64::MAX, 1 << 41, any];
        along[random.below(count)] = random.among(&beyond);
    }
    along
}

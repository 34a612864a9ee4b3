//! Anchored marks by tables of every form: lookups, offsets and records up to the largest, lists of all formats, and all of them cut.

use crate::questions::anchored_made::{
    body_of, some_ankr, some_points, some_subtable, subtable, Both, CRATES, FIRST, MANUALS, MIXTURES, PLAIN, REVERSED,
};
use crate::questions::kerning_runs::behind_others;
use crate::questions::Ask;
use crate::reference::kerning::Kerning;
use crate::reference::line::DELETED;
use crate::tables::anchored::{
    act, ankr, one_state, points_of, records_at, with_flags, with_lookup, Act, Parts, ANKR_HEAD, BY_POINTS, MARK, NONE,
};
use crate::tables::kerning::Edition;
use crate::tables::kerx_manual::{trimmed, with_class_table, UNIT_SIZES};
use crate::tables::lookup::{with_values, words};
use crate::tables::random::Random;
use crate::tables::strings::for_each_string;
use std::rc::Rc;

/// Lookup tables of an ankr table of every format and unit size, and of none, whole and cut at every byte; their points, too.
pub fn lookups_of_points(asked: &mut dyn Ask) {
    let (points, begins) = points_of(&some_points());
    let formats = [0, 2, 4, 6, 8, 10].map(|format| with_values(format, FIRST, &begins));
    let units = UNIT_SIZES.map(|unit| trimmed(unit, FIRST, &begins));
    let others = [words(&[3, 2, FIRST, 1, 4]), words(&[10, 1, 0, 0xFFFF]), words(&[10, 2]), words(&[8, 0, 0xFFFF])];
    let table = Rc::from(some_subtable(BY_POINTS));
    for lookup in formats.into_iter().chain(units).chain(others) {
        let whole = with_lookup(&lookup, &points);
        for length in 0..=whole.len() {
            let ankr = Rc::from(&whole[..length]);
            Both::new(&table, &ankr).all(asked, &[CRATES, MANUALS], &[5, 6, 7, 6, 8, DELETED, 6]);
        }
        // The points before the lookup table, which is the last of the table, cut at every byte.
        let at = (ANKR_HEAD + points.len()) as u32;
        let head = [0, at, ANKR_HEAD as u32].map(u32::to_be_bytes).concat();
        let turned = [head, points.clone(), lookup].concat();
        for length in ANKR_HEAD + points.len()..=turned.len() {
            let ankr = Rc::from(&turned[..length]);
            Both::new(&table, &ankr).all(asked, &[CRATES, MANUALS], &[5, 6, 7, 6, 6]);
        }
    }
}

/// Offsets of the lookup table and of the points up to the largest; and counts of points, which nobody asks.
pub fn offsets_of_points(asked: &mut dyn Ask) {
    let whole = ankr(8, FIRST, &some_points());
    let length = whole.len() as u32;
    let table = Rc::from(some_subtable(BY_POINTS));
    for at in [4, 8] {
        let right = u32::from_be_bytes([whole[at], whole[at + 1], whole[at + 2], whole[at + 3]]);
        for offset in
            [0, 1, 2, 4, 8, right - 1, right + 1, length - 4, length - 1, length, 0x7FFF_FFFF, 0x8000_0000, u32::MAX]
        {
            let mut ankr = whole.clone();
            ankr[at..at + 4].copy_from_slice(&offset.to_be_bytes());
            Both::new(&table, &Rc::from(ankr)).all(asked, &[CRATES, MANUALS], &[5, 6, 7, 6]);
        }
    }
    let (mut points, begins) = points_of(&some_points());
    for begin in &begins {
        for count in [0, 1, 0x8000_0000, u32::MAX] {
            let at = usize::from(*begin);
            points[at..at + 4].copy_from_slice(&u32::to_be_bytes(count));
            let ankr = Rc::from(with_lookup(&with_values(6, FIRST, &begins), &points));
            Both::new(&table, &ankr).all(asked, &[CRATES], &[5, 6, 7, 6]);
        }
    }
    for begin in [2, 4, 11, points.len() as u16 - 4, points.len() as u16, 0xFFFF] {
        let lookup = with_values(8, FIRST, &[0, begin, 12]);
        let ankr = Rc::from(with_lookup(&lookup, &points));
        Both::new(&table, &ankr).all(asked, &[CRATES], &[5, 6, 7, 6]);
    }
}

/// Indexes of records and control tables up to the largest, and numbers of points, in tables that they lie in and such that they do
/// not.
pub fn records(asked: &mut dyn Ask, random: &mut Random) {
    const LONG: usize = 0x2_0200;
    let longer: Vec<u8> = (0..LONG).map(|_| random.below(2) as u8 * (random.number() as u8 & 1)).collect();
    let ankr = some_ankr();
    for index in [0, 1, 2, 3, 0x7FFE, 0x7FFF, 0x8000, 0xFFFD, 0xFFFE, 0xFFFF] {
        let acts = [act(MARK, NONE), Act { state: 0, flags: 0, record: index }];
        let body = one_state(BY_POINTS, FIRST, &acts, 4);
        let end = (body.len() + LONG) as u32;
        let near = end - 2 * u32::from(index);
        let right = records_at(&body);
        for at in
            [0, 1, 19, 20, right - 1, right, right + 2, near - 4, near - 3, near - 2, near - 1, near, end, 0xFF_FFFF]
        {
            for bits in [0, 0x3F00_0000] {
                let body = with_flags(body.clone(), BY_POINTS << 30 | bits | at);
                for behind in [&[][..], &longer] {
                    let table = Rc::from([&subtable(0, &body), behind].concat());
                    let both = Both::new(&table, &ankr);
                    for choices in [CRATES, MANUALS] {
                        both.step(asked, choices, [0, 1, 5, 3], (4, 2, 6));
                        both.pass(asked, choices, &[5, 6, 5, 6]);
                    }
                }
            }
        }
    }
    // Every number of a point about how many there are, and the largest.
    for marked in [0, 1, 2, 3, 4, 5, 6, 0x3FFF, 0x4000, 0x8000, 0xFFFF] {
        for current in [0, 1, 2, 3, 4, 0xFFFF] {
            let body = Parts {
                action: BY_POINTS,
                first: FIRST,
                classes: &[4, 5],
                count: 6,
                rows: &[0, 0, 0, 0, 1, 2],
                acts: &[act(0, NONE), act(MARK, NONE), act(0, 0)],
                records: &[(marked, current)],
            }
            .body();
            let table = Rc::from(subtable(0, &body));
            Both::new(&table, &ankr).all(asked, &[CRATES], &[5, 6, 6]);
        }
    }
}

/// Lists of up to three subtables of formats 0, 1, 2, 4 and one that is left out, turned and not, both ways, under all choices.
pub fn mixed_lists(asked: &mut dyn Ask) {
    let ankr = some_ankr();
    let glyphs = [5, 6, DELETED, 6, 7, 5, 5, DELETED, 6, 8];
    let kinds: Vec<Vec<u8>> = [0, 1, 2, 3, 4]
        .into_iter()
        .flat_map(|format| [0, REVERSED].map(|bits| PLAIN.subtable(bits, format, &body_of(format))))
        .collect();
    let mut turns = 0;
    for_each_string(&(0..kinds.len()).collect::<Vec<_>>(), 3, &mut |numbers| {
        let subtables: Vec<Vec<u8>> = numbers.iter().map(|number| kinds[*number].clone()).collect();
        let table = behind_others(PLAIN.table(&subtables));
        turns += 1;
        Both::new(&table, &ankr).run(asked, MIXTURES[turns % 4], &glyphs);
    });
    // Marks of format 4 that are not for horizontal text along the line, or for variations.
    for bits in PLAIN.coverages() {
        let table = behind_others(PLAIN.table(&[PLAIN.subtable(*bits, 4, &body_of(4)), kinds[1].clone()]));
        MIXTURES.iter().for_each(|choices| Both::new(&table, &ankr).run(asked, *choices, &glyphs));
        let alone = Rc::from(PLAIN.subtable(*bits, 4, &body_of(4)));
        Both::new(&alone, &ankr).all(asked, &[CRATES], &glyphs);
    }
    for number in (0..9).chain([0x40, 0x7F, 0x84, 0xFF]) {
        let alone = Rc::from(PLAIN.subtable(0, number, &body_of(4)));
        Both::new(&alone, &ankr).all(asked, &MIXTURES, &glyphs);
    }
}

/// Subtables of every format under tuple counts, by versions that read them and versions that do not: alone, and in runs with others
/// before and behind them.
pub fn tuple_counts(asked: &mut dyn Ask) {
    let ankr = some_ankr();
    let glyphs = [5, 6, DELETED, 6, 5, 5, DELETED, 7];
    for version in [0, 2, 3, 4, 5, 0xFFFF] {
        for tuples in [0, 1, 2, 0x8000_0000, u32::MAX] {
            let counted = Edition::new(Kerning::Kerx, version, tuples);
            for format in [0, 1, 2, 3, 4, 6] {
                let alone = Rc::from(counted.subtable(0, format, &body_of(format)));
                let listed = [0, 4].map(|other| Edition { tuples: 0, ..counted }.subtable(0, other, &body_of(other)));
                let turned = counted.subtable(REVERSED, format, &body_of(format));
                let table = behind_others(counted.table(&[listed[0].clone(), turned, listed[1].clone()]));
                for choices in MIXTURES {
                    Both { version, ..Both::new(&alone, &ankr) }.all(asked, &[choices], &glyphs);
                    Both { version, ..Both::new(&table, &ankr) }.run(asked, choices, &glyphs);
                }
            }
        }
    }
}

/// Subtables of format 4 with tuples and without, cut at every byte, alone and in a list; class tables of every unit size, too.
pub fn cut_subtables(asked: &mut dyn Ask) {
    let ankr = some_ankr();
    let class_tables = UNIT_SIZES.map(|unit| trimmed(unit, FIRST, &[4, 5, 6]));
    let formats = [0, 2, 4, 6, 8, 10].map(|format| with_values(format, FIRST, &[4, 5, 6]));
    for class_table in class_tables.into_iter().chain(formats) {
        let table = Rc::from(subtable(0, &with_class_table(body_of(4), &class_table)));
        Both::new(&table, &ankr).all(asked, &MIXTURES, &[5, 6, 7, 6, 8]);
    }
    for (version, tuples) in [(2, 1), (4, 0), (4, 1)] {
        let edition = Edition::new(Kerning::Kerx, version, tuples);
        let whole = edition.subtable(0, 4, &body_of(4));
        for length in 0..=whole.len() {
            let table = Rc::from(&whole[..length]);
            Both { version, ..Both::new(&table, &ankr) }.all(asked, &[CRATES, MANUALS], &[5, 6, 7, 6]);
            let listed = behind_others(edition.table(&[whole.clone(), whole[..length].to_vec()]));
            for choices in [CRATES, MANUALS] {
                Both::new(&listed, &ankr).run(asked, choices, &[5, 6, 7]);
            }
        }
    }
}

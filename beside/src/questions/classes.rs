//! The classes of the two state tables beside the crate.

use crate::fuzz::case::Chosen;
use crate::fuzz::seeds::Seed;
use crate::fuzz::source::Source;
use crate::questions::value::{Asked, Value};
use crate::questions::{Ask, Part, Question};
use crate::reference::oracle::{self, Answer, Fault, LONGEST_TABLE};
use crate::tables::cuts::for_each_cut;
use crate::tables::lookup::{record_size, with_records, words, Record};
use crate::tables::random::Random;
use crate::tables::states::{any_classic, any_extended, classic, extended, extended_head, CLASSIC_HEAD, EXTENDED_HEAD};
use crate::tables::strings::for_each_string;
use crate::wire::entries::Entry;
use std::rc::Rc;

/// The two kinds of state table.
#[derive(Clone, Copy)]
pub enum Kind {
    Extended,
    Classic,
}

use Kind::{Classic, Extended};

/// The class of a glyph.
pub struct Class {
    pub kind: Kind,
    pub glyph: u16,
}

impl Asked for Class {
    fn entry(&self) -> Entry {
        match self.kind {
            Extended => Entry::ClassExtended,
            Classic => Entry::ClassClassic,
        }
    }

    fn tell(&self, call: &mut Vec<u8>) {
        call.extend(self.glyph.to_le_bytes());
    }

    fn answers(&self, table: &[u8], start: u64) -> Result<(Answer<u32>, Option<Answer<u32>>), Fault> {
        let answer = match self.kind {
            Extended => oracle::class_extended(table, start, self.glyph)?,
            Classic => oracle::class_classic(table, start, self.glyph)?,
        };
        Ok((answer.map(u32::from), None))
    }

    fn describe(&self) -> String {
        let kind = match self.kind {
            Extended => "extended",
            Classic => "classic",
        };
        format!("{} class of glyph {}", kind, self.glyph)
    }
}

/// Classes.
pub struct Classes;

impl Part for Classes {
    fn name(&self) -> &'static str {
        "classes"
    }

    fn every(&self) -> u64 {
        1
    }

    fn entries(&self) -> Vec<Entry> {
        vec![Entry::ClassExtended, Entry::ClassClassic]
    }

    fn ask(&self, asked: &mut dyn Ask, random: &mut Random, cases: u64) {
        examples(asked);
        cut_tables(asked);
        short_tables(asked);
        class_table_offsets(asked);
        far_offsets(asked);
        short_class_arrays(asked);
        far_starts(asked);
        long_class_tables(asked);
        long_tables(asked);
        random_tables(asked, random, cases);
    }

    fn chosen(&self, entry: Entry, chosen: Chosen, _source: &mut Source) -> Box<dyn Question> {
        let kind = if entry == Entry::ClassExtended { Extended } else { Classic };
        Value::chosen(chosen.start, Class { kind, glyph: chosen.told.glyph })
    }

    fn seed(&self, random: &mut Random, entry: Entry) -> Seed {
        let any = if entry == Entry::ClassExtended { any_extended } else { any_classic };
        Seed::any(random, |random, _| any(random))
    }
}

fn ask_glyphs(asked: &mut dyn Ask, kind: Kind, table: &Rc<[u8]>, start: usize, glyphs: impl IntoIterator<Item = u16>) {
    for glyph in glyphs {
        asked.ask(table, Box::new(Value { start: start as u64, asked: Class { kind, glyph }, written: None }));
    }
}

/// Glyphs in the small tables below and beside them.
const GLYPHS: [u16; 8] = [0, 4, 5, 6, 7, 8, 0xFFFE, 0xFFFF];

/// Class tables of every format with a class for glyphs 5 and 6, or for 5 to 7, and one that holds a deleted glyph.
fn class_tables() -> Vec<Vec<u8>> {
    let single = |glyph, value| Record { first: glyph, last: glyph, value };
    let segment = |value| Record { first: 5, last: 7, value };
    let mut by_offset = with_records(4, record_size(4), 1, &[segment(12 + 6)]);
    by_offset.extend(words(&[7, 9, 11]));
    vec![
        words(&[0, 10, 11, 12, 13, 14, 7, 9]),
        with_records(2, record_size(2), 1, &[segment(7)]),
        by_offset,
        with_records(6, record_size(6), 3, &[single(5, 7), single(6, 9), single(0xFFFF, 11)]),
        words(&[8, 5, 2, 7, 9]),
        words(&[10, 2, 5, 2, 7, 9]),
    ]
}

/// A table of either kind, whole, and what it is.
fn whole_tables() -> Vec<(Kind, Vec<u8>)> {
    let mut tables: Vec<_> = class_tables().iter().map(|classes| (Extended, extended(classes))).collect();
    tables.extend([(Classic, classic(5, 2, &[7, 9])), (Classic, classic(0xFFFE, 2, &[7, 9]))]);
    tables
}

/// What document 01 says of classes and heads.
fn examples(asked: &mut dyn Ask) {
    use Answer::{Done, Head};
    let trimmed = extended(&words(&[8, 5, 2, 7, 9]));
    let deleted = extended(&with_records(6, 4, 1, &[Record { first: 0xFFFF, last: 0xFFFF, value: 9 }]));
    let array = classic(5, 2, &[7, 9]);
    let no_classes = [&words(&[0, 8, 8, 0, 5, 1])[..], &[7]].concat();
    let states_past_end = [&words(&[4, 8, 14, 0, 5, 1])[..], &[7]].concat();
    let written: [(Kind, &[u8], u16, Answer<u32>); 18] = [
        (Extended, &trimmed, 5, Done(7)),
        (Extended, &trimmed, 6, Done(9)),
        (Extended, &trimmed, 4, Done(1)),
        (Extended, &trimmed, 7, Done(1)),
        (Extended, &trimmed, 0xFFFF, Done(2)),
        (Extended, &deleted, 0xFFFF, Done(2)),
        (Extended, &trimmed[..EXTENDED_HEAD], 5, Done(1)),
        (Extended, &trimmed[..EXTENDED_HEAD - 1], 5, Head),
        (Extended, &trimmed[..EXTENDED_HEAD - 1], 0xFFFF, Head),
        (Classic, &array, 5, Done(7)),
        (Classic, &array, 6, Done(9)),
        (Classic, &array, 4, Done(1)),
        (Classic, &array, 7, Done(1)),
        (Classic, &array, 0xFFFF, Done(2)),
        (Classic, &classic(0xFFFF, 1, &[9]), 0xFFFF, Done(2)),
        (Classic, &no_classes, 5, Done(7)),
        (Classic, &states_past_end, 5, Head),
        (Classic, &array[..array.len() - 1], 0xFFFF, Head),
    ];
    for (kind, table, glyph, answer) in written {
        asked.ask(&Rc::from(table), Box::new(Value { start: 0, asked: Class { kind, glyph }, written: Some(answer) }));
    }
}

/// Whole tables cut at every byte, at their own start and behind other bytes, as either kind.
fn cut_tables(asked: &mut dyn Ask) {
    for (_, whole) in whole_tables() {
        for_each_cut([0, 8, 0], &whole, &mut |table, start| {
            ask_glyphs(asked, Extended, table, start, GLYPHS);
            ask_glyphs(asked, Classic, table, start, GLYPHS);
        });
    }
}

/// Every head over a few small numbers, cut or not, and one number or byte behind it: parts that lie in one another.
fn short_tables(asked: &mut dyn Ask) {
    let glyphs = || [0, 1, 2, 4, 0xFFFF];
    for_each_string(&[0, 1, 2, 4, 6, 8], 5, &mut |numbers| {
        let mut table = words(numbers);
        ask_glyphs(asked, Classic, &Rc::from(&table[..]), 0, glyphs());
        table.push(0);
        ask_glyphs(asked, Classic, &Rc::from(table), 0, glyphs());
        let table: Vec<u8> = numbers.iter().flat_map(|number| (2 * u32::from(*number)).to_be_bytes()).collect();
        ask_glyphs(asked, Extended, &Rc::from(table), 0, glyphs());
    });
}

/// Every offset of a class table up to past the end, and in classic tables every one of the states too.
fn class_table_offsets(asked: &mut dyn Ask) {
    for (kind, whole) in whole_tables() {
        for offset in 0..=whole.len() as u16 + 2 {
            let mut table = whole.clone();
            match kind {
                Extended => table[4..8].copy_from_slice(&u32::from(offset).to_be_bytes()),
                Classic => table[2..4].copy_from_slice(&offset.to_be_bytes()),
            }
            ask_glyphs(asked, kind, &Rc::from(&table[..]), 0, GLYPHS);
            if let Classic = kind {
                ask_state_arrays(asked, table);
            }
        }
    }
}

fn ask_state_arrays(asked: &mut dyn Ask, mut table: Vec<u8>) {
    let length = table.len() as u16;
    for states in (0..=length + 2).chain([0x7FFF, 0x8000, 0xFFFF]) {
        table[4..6].copy_from_slice(&states.to_be_bytes());
        ask_glyphs(asked, Classic, &Rc::from(&table[..]), 0, [5, 0xFFFF]);
    }
}

/// Offsets that fewer bits, a sum of 32 bits or a signed number would take for one of the class table behind the head
/// or of the one before it.
fn far_offsets(asked: &mut dyn Ask) {
    let classes = words(&[8, 5, 2, 7, 9]);
    let start = 20_u32;
    let before = [&classes[..], &[0; 10]].concat();
    let right = EXTENDED_HEAD as u32;
    let wrapped = [0, right].map(|at| at.wrapping_sub(start));
    let longer = [1 << 8, 1 << 15, 1 << 16, 1 << 24, 1 << 31].map(|more| right + more);
    for offset in wrapped.into_iter().chain(longer).chain([0x7FFF_FFFF, u32::MAX - 15, u32::MAX - 1, u32::MAX]) {
        let head = extended_head([4, offset, 0, 0]);
        let table = Rc::from([&before[..], &head, &classes].concat());
        ask_glyphs(asked, Extended, &table, start as usize, GLYPHS);
    }
}

/// Classic tables with every short class array, which may run to the end and over it, and every class count of a few.
fn short_class_arrays(asked: &mut dyn Ask) {
    for first in [0, 1, 5, 0x00FF, 0xFFFC, 0xFFFE, 0xFFFF] {
        for size in 0..=4 {
            for count in 0..=5 {
                let classes: Vec<u8> = [4, 0, 255, 2][..size].to_vec();
                ask_class_array(asked, first, classic(first, count, &classes));
            }
        }
    }
}

/// A classic table by itself, with bytes behind it, and with other class counts and states.
fn ask_class_array(asked: &mut dyn Ask, first: u16, table: Vec<u8>) {
    let glyphs = || (0..=6).map(move |more: u16| first.wrapping_add(more).wrapping_sub(1)).chain([0, 0xFFFE, 0xFFFF]);
    let length = table.len() as u16;
    for behind in [&[][..], &[6], &[6, 8]] {
        for class_count in [0, 1, 4, 0xFFFF] {
            for states in [0, length - 1, length, length + 1] {
                let mut table = [&table[..], behind].concat();
                table[..2].copy_from_slice(&u16::to_be_bytes(class_count));
                table[4..6].copy_from_slice(&states.to_be_bytes());
                ask_glyphs(asked, Classic, &Rc::from(table), 0, glyphs());
            }
        }
    }
}

/// Starts that a number of fewer bits, or a sum without care, would take for one in the table.
fn far_starts(asked: &mut dyn Ask) {
    for (kind, table) in whole_tables() {
        let length = table.len();
        let table = Rc::from(table);
        let near = [length - 1, length, length + 1, length + 2];
        let far = [1 << 16, 1 << 31, 1 << 32, 1 << 63, usize::MAX - 15, usize::MAX - 7, usize::MAX - 3, usize::MAX];
        for start in near.into_iter().chain(far) {
            ask_glyphs(asked, kind, &table, start, GLYPHS);
        }
    }
}

/// A class for almost every glyph, and class tables that lie farther than 16 bits can say.
fn long_class_tables(asked: &mut dyn Ask) {
    let spread = || (0..=0xFFFF).step_by(257).chain([1, 0x7FFE, 0x7FFF, 0x8000, 0xFFFE]);
    let elements: Vec<u16> = (0..0xFFFF).map(|number| !number).collect();
    let lookup = words(&[&[8, 0, 0xFFFF], &elements[..]].concat());
    let far = 70_000;
    let head = extended_head([4, far as u32, 0, 0]);
    let table = [&head[..], &vec![0; far - EXTENDED_HEAD], &lookup].concat();
    ask_glyphs(asked, Extended, &Rc::from(table), 0, spread());
    for first in [0, 1, 0x8000] {
        let classes: Vec<u8> = (0..0xFFFF_u32).map(|number| (number % 251) as u8).collect();
        let head = words(&[4, CLASSIC_HEAD as u16, 0, 0, first, 0xFFFF]);
        ask_glyphs(asked, Classic, &Rc::from([&head[..], &classes].concat()), 0, spread());
    }
}

/// Tables at the limit of length and above it, with a state table at either end, and starts without one.
fn long_tables(asked: &mut dyn Ask) {
    for length in [LONGEST_TABLE, LONGEST_TABLE + 1] {
        for (kind, states) in [(Extended, extended(&words(&[8, 5, 2, 7, 9]))), (Classic, classic(5, 2, &[7, 9]))] {
            let mut table = vec![0; length];
            table[..states.len()].copy_from_slice(&states);
            table[length - states.len()..].copy_from_slice(&states);
            let table = Rc::from(table);
            for start in [0, length - states.len(), length - 1, length, length + 1, usize::MAX] {
                ask_glyphs(asked, kind, &table, start, GLYPHS);
            }
        }
    }
}

const GLYPHS_FOR_ONE_TABLE: u64 = 12;

fn random_tables(asked: &mut dyn Ask, random: &mut Random, cases: u64) {
    let mut left = cases;
    while left > 0 {
        let kind = random.among(&[Extended, Classic]);
        let made = match kind {
            Extended => any_extended(random),
            Classic => any_classic(random),
        };
        let start = made.any_start(random) as usize;
        let glyphs = left.min(GLYPHS_FOR_ONE_TABLE);
        let table = Rc::from(&made.table[..]);
        ask_glyphs(asked, kind, &table, start, (0..glyphs).map(|_| made.any_glyph(random)));
        left -= glyphs;
    }
}

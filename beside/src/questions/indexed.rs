//! Classes by an index (W-207): what is asked of the filler, and of the passes that take one.

use crate::fuzz::case::Chosen;
use crate::fuzz::seeds::{self, Seed};
use crate::fuzz::source::Source;
use crate::questions::anchored::AnchoredMarks;
use crate::questions::anchored_made::{body_of, some_ankr, CRATES, MANUALS, MIXTURES, PLAIN};
use crate::questions::indexed_calls::{Fill, KerxIndexed, Making, MorxIndexed, Start};
use crate::questions::kerx_manual::Manual;
use crate::questions::passes::OwnPasses;
use crate::questions::{Ask, Part, Question};
use crate::reference::anchored::{Anchored, Marks};
use crate::reference::indexed::MOST_ENTRIES;
use crate::reference::kerning::{Kerned, Kerning};
use crate::reference::kerning_choices::Choices;
use crate::reference::line::{Line, DELETED};
use crate::reference::oracle::LONGEST_TABLE;
use crate::reference::pass::line_of;
use crate::tables::anchored::{any_anchored_subtable, any_ankr};
use crate::tables::kerning::Edition;
use crate::tables::kerx_manual::{any_version, trimmed, UNIT_SIZES};
use crate::tables::kinds::{any_subtable, KINDS};
use crate::tables::lines::{any_glyphs, any_line_of, spoil};
use crate::tables::lookup::{with_values, words, Made};
use crate::tables::morx::{subtable, SUBTABLE_HEAD};
use crate::tables::random::Random;
use crate::tables::states::{any_extended, extended, EXTENDED_HEAD};
use crate::wire::entries::Entry;
use std::rc::Rc;

/// Calls of the filler, and of the passes by an index.
pub struct Indexes;

impl Part for Indexes {
    fn name(&self) -> &'static str {
        "indexed"
    }

    fn every(&self) -> u64 {
        2
    }

    fn entries(&self) -> Vec<Entry> {
        vec![Entry::IndexClasses, Entry::MorxPassIndexed, Entry::KerxPassIndexed]
    }

    fn ask(&self, asked: &mut dyn Ask, random: &mut Random, cases: u64) {
        fill_known(asked);
        starts(asked);
        without_classes(asked);
        whole_indexes(asked, random);
        fill_lookups(asked);
        fill_heads(asked);
        refusals(asked);
        random_fills(asked, random, cases / 5);
        random_morx(asked, random, 2 * cases / 5);
        random_kerx(asked, random, 2 * cases / 5);
        for kind in &KINDS {
            OwnPasses(kind).ask(&mut WithIndex::new(asked, 9), random, cases / 25);
        }
        AnchoredMarks.ask(&mut WithIndex::new(asked, 5), random, cases / 50);
        Manual.ask(&mut WithIndex::new(asked, 9), random, cases / 50);
    }

    fn chosen(&self, entry: Entry, chosen: Chosen, source: &mut Source) -> Box<dyn Question> {
        let Chosen { start, version, lent, .. } = chosen;
        let choices = Choices(source.byte().into());
        let making = Making {
            length: source.number().min(MOST_ENTRIES as u64 + 1) as usize,
            other: Some(source.number()).filter(|seed| *seed > 127),
            start: match source.byte() {
                1 => Start::Off(source.number()),
                2 => Start::At(source.number()),
                _ => Start::Right,
            },
        };
        let ankr: Rc<[u8]> = Rc::from(source.part());
        let (table, is_filled) = (source.0, making.is_filled());
        match entry {
            Entry::IndexClasses => Box::new(Fill { start, choices, length: making.length, written: None }),
            Entry::MorxPassIndexed => {
                let index = making.index(table, start, Choices::NONE);
                Box::new(MorxIndexed { line: lent.line, start, index, is_filled })
            }
            _ => {
                let index = making.index(table, start, choices);
                let lent = Anchored { marks: Marks::of(lent.along.len()), kerned: lent };
                Box::new(KerxIndexed { version, choices, ankr, lent, start, index, is_filled })
            }
        }
    }

    fn seed(&self, random: &mut Random, entry: Entry) -> Seed {
        let glyphs = any_glyphs(random);
        let version = random.among(&[2, 4]);
        let made = match entry {
            Entry::IndexClasses => any_extended(random),
            Entry::MorxPassIndexed => {
                let kind = &KINDS[random.below(KINDS.len())];
                Made::whole(seeds::any_subtable(random, kind, &glyphs))
            }
            _ => {
                let format = random_format(random);
                Made::whole(any_anchored_subtable(random, version, format, &glyphs))
            }
        };
        let ankr = any_ankr(random, &glyphs);
        let told = [random.below(4) as u8, random.among(&[0, 5, 20, 40, 0xFD]), random.among(&[0, 200, 201]), 0];
        let more = [&told[..], &(ankr.len() as u16).to_be_bytes(), &ankr].concat();
        Seed { version, more, ..Seed::of(glyphs, made) }
    }
}

/// The formats of kerx with classes, mostly.
fn random_format(random: &mut Random) -> u8 {
    random.among(&[0, 1, 1, 1, 2, 4, 4, 4])
}

/// Some of the same questions of passes, each by the next index.
struct WithIndex<'a> {
    asked: &'a mut dyn Ask,
    one_in: usize,
    turns: usize,
}

impl<'a> WithIndex<'a> {
    fn new(asked: &'a mut dyn Ask, one_in: usize) -> Self {
        WithIndex { asked, one_in, turns: 0 }
    }
}

/// The indexes that are lent by turns: filled ones of some lengths, others, and others' starts.
fn turned(turn: usize) -> Making {
    let other = |length| Making { length, other: Some(turn as u64), start: Start::Right };
    let start = |start| Making { start, ..Making::filled(24) };
    match turn % 13 {
        0 => Making::filled(0),
        1 => Making::filled(1),
        2 => Making::filled(5),
        3 if turn % 16 == 1 => Making::filled(MOST_ENTRIES),
        3 | 4 => Making::filled(24),
        5 => Making::filled(320),
        6 => other(11),
        7 => other(12),
        8 if turn % 32 == 1 => other(MOST_ENTRIES),
        8 | 9 => other(24),
        10 => other(320),
        11 => start(Start::Off([1, 2, u64::MAX, 1 << 32][turn / 13 % 4])),
        _ => match turn / 13 % 3 {
            0 => start(Start::At(0)),
            1 => start(Start::At(u64::MAX)),
            _ => Making { length: MOST_ENTRIES + 1, ..other(0) },
        },
    }
}

impl Ask for WithIndex<'_> {
    fn ask(&mut self, table: &Rc<[u8]>, question: Box<dyn Question>) {
        self.turns += 1;
        if self.turns % self.one_in == 0 {
            if let Some(question) = question.with_index(table, &turned(self.turns / self.one_in)) {
                self.asked.ask(table, question);
            }
        }
    }
}

fn ask_fill(asked: &mut dyn Ask, table: &Rc<[u8]>, start: usize, choices: Choices, length: usize) {
    asked.ask(table, Box::new(Fill { start: start as u64, choices, length, written: None }));
}

/// The lengths of an index that are tried everywhere.
const LENGTHS: [usize; 4] = [0, 1, 5, 40];

/// The longest that is taken, about it, and the longest of all.
const LONG_LENGTHS: [usize; 4] = [MOST_ENTRIES - 1, MOST_ENTRIES, MOST_ENTRIES + 1, MOST_ENTRIES + 50];

/// The request's own: classes of glyphs 5, 6 and 7, others of class 1, and where their table begins; one byte each by the manual.
fn fill_known(asked: &mut dyn Ask) {
    let begins = (3 + EXTENDED_HEAD) as u64;
    for (class_table, choices, numbers) in [
        (with_values(8, 5, &[4, 5, 6]), CRATES, [1, 1, 1, 1, 1, 4, 5, 6, 1]),
        (trimmed(1, 5, &[4, 5, 6]), MANUALS, [1, 1, 1, 1, 1, 4, 5, 6, 1]),
        (trimmed(1, 5, &[4, 5, 6]), CRATES, [1, 1, 1, 1, 1, 0x405, 1, 1, 1]),
    ] {
        let table = Rc::from([vec![9; 3], extended(&class_table)].concat());
        for length in 0..=9 {
            let written = Some((numbers[..length].to_vec(), begins));
            asked.ask(&table, Box::new(Fill { start: 3, choices, length, written }));
        }
    }
}

/// Class tables of every format and unit size, whole and cut at every byte.
fn fill_lookups(asked: &mut dyn Ask) {
    let values = [4, 5, 6, 0, 0xFFFF];
    let formats = [0, 2, 4, 6, 8, 10].map(|format| with_values(format, 7, &values));
    let units = UNIT_SIZES.map(|unit| trimmed(unit, 7, &values));
    let others = [words(&[3, 2, 7, 1, 4]), words(&[8, 0xFFFE, 2, 4, 5]), words(&[10, 1, 0, 0xFFFF])];
    for lookup in formats.into_iter().chain(units).chain(others) {
        let whole = [vec![0, 6], extended(&lookup)].concat();
        for cut in 0..=whole.len() {
            let table = Rc::from(&whole[..cut]);
            for choices in [CRATES, MANUALS] {
                LENGTHS.iter().for_each(|length| ask_fill(asked, &table, 2, choices, *length));
            }
        }
        let table = Rc::from(whole);
        for choices in MIXTURES {
            LONG_LENGTHS.iter().for_each(|length| ask_fill(asked, &table, 2, choices, *length));
        }
    }
}

/// Offsets of the class table up to the largest, and starts in the table and past it; refusals in every mix.
fn fill_heads(asked: &mut dyn Ask) {
    let whole = extended(&with_values(8, 5, &[4, 5, 6]));
    let length = whole.len() as u32;
    for offset in [0, 1, 8, 15, 17, length - 2, length - 1, length, 0x7FFF_FFFF, u32::MAX - 15, u32::MAX] {
        for before in [0, 1] {
            let mut table = [vec![0; before], whole.clone()].concat();
            table[before + 4..before + 8].copy_from_slice(&offset.to_be_bytes());
            ask_fill(asked, &Rc::from(table), before, CRATES, 40);
        }
    }
    for length in [whole.len(), LONGEST_TABLE, LONGEST_TABLE + 1] {
        let mut table = whole.clone();
        table.resize(length, 0);
        let table = Rc::from(table);
        let far = [1 << 31, 1 << 32, 1 << 63, usize::MAX - 15, usize::MAX];
        for start in
            [0, 1, length - 17, length - 16, length - 15, length - 1, length, length + 1].into_iter().chain(far)
        {
            for entries in [0, 9, MOST_ENTRIES + 1] {
                ask_fill(asked, &table, start, CRATES, entries);
            }
        }
    }
}

fn ask_morx(asked: &mut dyn Ask, table: &Rc<[u8]>, start: usize, line: &Line, making: &Making) {
    let start = start as u64;
    let index = making.index(table, start, Choices::NONE);
    asked.ask(table, Box::new(MorxIndexed { line: line.clone(), start, index, is_filled: making.is_filled() }));
}

fn some(glyphs: &[u16]) -> Anchored {
    let line = line_of(glyphs, glyphs.len() + 1);
    let marks = Marks::of(line.glyphs.len());
    Anchored { kerned: Kerned::of(line), marks }
}

fn ask_kerx(asked: &mut dyn Ask, table: &Rc<[u8]>, start: usize, choices: Choices, making: &Making) {
    let (version, ankr, lent, start) = (PLAIN.version, some_ankr(), some(&[5, 6, 7, DELETED, 6, 5, 6]), start as u64);
    let (index, is_filled) = (making.index(table, start, choices), making.is_filled());
    asked.ask(table, Box::new(KerxIndexed { version, choices, ankr, lent, start, index, is_filled }));
}

/// Filled indexes of every glyph, and others, by every kind and format; lines of the last glyphs, too.
fn whole_indexes(asked: &mut dyn Ask, random: &mut Random) {
    for kind in &KINDS {
        for example in (kind.examples)() {
            let table = Rc::from(subtable(kind.number, &example.body));
            for length in LONG_LENGTHS {
                ask_morx(asked, &table, 0, &example.before, &Making::filled(length));
            }
            let other = Making { other: Some(random.number()), ..Making::filled(MOST_ENTRIES) };
            ask_morx(asked, &table, 0, &example.before, &other);
        }
        for _ in 0..20 {
            let glyphs = 0xFFF8..0xFFFF;
            let table = Rc::from(subtable(kind.number, &(kind.any_body)(random, &glyphs)));
            let line = any_line_of(random, &glyphs, 12, 30);
            for length in [0xFFF8, 0xFFFB, MOST_ENTRIES - 1, MOST_ENTRIES] {
                for other in [None, Some(random.number())] {
                    ask_morx(asked, &table, 0, &line, &Making { other, ..Making::filled(length) });
                }
            }
        }
    }
    for format in [1, 4] {
        let table = Rc::from(PLAIN.subtable(0, format, &body_of(format)));
        for length in LONG_LENGTHS {
            for other in [None, Some(random.number())] {
                for choices in [CRATES, MANUALS] {
                    ask_kerx(asked, &table, 0, choices, &Making { other, ..Making::filled(length) });
                }
            }
        }
    }
}

/// Starts off by one, of another subtable, of the state table, past the table, and such as fewer bits would take for the right one.
fn starts(asked: &mut dyn Ask) {
    let off = [1, 2, 12, u64::MAX, u64::MAX - 1, u64::MAX - 11, 1 << 16, 1 << 32, 1 << 63].map(Start::Off);
    let at = [0, 12, 20, 1 << 32, u64::MAX].map(Start::At);
    let all: Vec<Start> = [&[Start::Right][..], &off, &at].concat();
    for kind in &KINDS {
        for example in (kind.examples)() {
            let one = subtable(kind.number, &example.body);
            let table = Rc::from([one.clone(), one.clone()].concat());
            for (begin, other) in [(0, one.len()), (one.len(), 0)] {
                for start in &all {
                    ask_morx(asked, &table, begin, &example.before, &Making { start: *start, ..Making::filled(40) });
                }
                let index = Making::filled(40).index(&table, other as u64, Choices::NONE);
                let (line, start) = (example.before.clone(), begin as u64);
                asked.ask(&table, Box::new(MorxIndexed { line, start, index, is_filled: true }));
            }
        }
    }
    for format in [0, 1, 2, 3, 4] {
        let one = PLAIN.subtable(0, format, &body_of(format));
        let table = Rc::from([one.clone(), one.clone()].concat());
        for begin in [0, one.len()] {
            for start in &all {
                for choices in [CRATES, MANUALS] {
                    ask_kerx(asked, &table, begin, choices, &Making { start: *start, ..Making::filled(40) });
                }
            }
        }
    }
}

/// Kinds and formats without a class table, and those that there are not, under every number; with tuples, too.
fn without_classes(asked: &mut dyn Ask) {
    let body = &(KINDS[1].examples)()[0].body;
    for number in (0..=16).chain([0x80, 0xFF]) {
        let table = Rc::from(subtable(number, body));
        for making in [Making::filled(0), Making::filled(9), Making::filled(MOST_ENTRIES + 1)] {
            ask_morx(asked, &table, 0, &line_of(&[5, 6, 7], 3), &making);
        }
    }
    for tuples in [0, 1] {
        for version in [2, 4] {
            let edition = Edition::new(Kerning::Kerx, version, tuples);
            for format in 0..=8 {
                let whole = edition.subtable(0, format, &body_of(format));
                for cut in [whole.len(), 31, 28, 27, 12, 8] {
                    let table: Rc<[u8]> = Rc::from(&whole[..cut.min(whole.len())]);
                    for making in [Making::filled(0), Making::filled(9), Making::filled(MOST_ENTRIES + 1)] {
                        for choices in [CRATES, MANUALS] {
                            let (ankr, lent) = (some_ankr(), some(&[5, 6, 7]));
                            let (index, is_filled) = (making.index(&table, 0, choices), making.is_filled());
                            let call = KerxIndexed { version, choices, ankr, lent, start: 0, index, is_filled };
                            asked.ask(&table, Box::new(call));
                        }
                    }
                }
            }
        }
    }
}

/// All that a pass is refused for, in every mix: the index last.
fn refusals(asked: &mut dyn Ask) {
    let example = &(KINDS[0].examples)()[0];
    let [no_start, too_long] = [
        Making { start: Start::Off(1), ..Making::filled(9) },
        Making { other: Some(1), ..Making::filled(MOST_ENTRIES + 1) },
    ];
    let makings = [Making::filled(9), no_start, too_long];
    for number in [0, 3] {
        let whole = subtable(number, &example.body);
        for length in [whole.len(), SUBTABLE_HEAD, LONGEST_TABLE + 1] {
            let mut table = whole.clone();
            table.resize(length, 0);
            let table = Rc::from(table);
            for start in [0, length + 1] {
                for more in [0, 1] {
                    let line = Line { used: example.before.used + more, ..example.before.clone() };
                    makings.iter().for_each(|making| ask_morx(asked, &table, start, &line, making));
                }
            }
        }
    }
    let ankrs: [Rc<[u8]>; 2] = [some_ankr(), Rc::from(vec![0; LONGEST_TABLE + 1])];
    for (tuples, format) in [(0, 1), (0, 4), (1, 4), (0, 3), (0, 0), (1, 0)] {
        let whole = Edition::new(Kerning::Kerx, 4, tuples).subtable(0, format, &body_of(format));
        for length in [whole.len(), LONGEST_TABLE + 1] {
            let mut table = whole.clone();
            table.resize(length, 0);
            let table: Rc<[u8]> = Rc::from(table);
            for ankr in &ankrs {
                for is_line in [true, false] {
                    for making in &makings {
                        for choices in [CRATES, MANUALS] {
                            let mut lent = some(&[5, 6, 7]);
                            if !is_line {
                                lent.marks.back.pop();
                            }
                            let (index, is_filled) = (making.index(&table, 0, choices), making.is_filled());
                            let (version, ankr, start) = (4, ankr.clone(), 0);
                            let call = KerxIndexed { version, choices, ankr, lent, start, index, is_filled };
                            asked.ask(&table, Box::new(call));
                        }
                    }
                }
            }
        }
    }
}

/// Any state tables.
fn random_fills(asked: &mut dyn Ask, random: &mut Random, cases: u64) {
    for _ in 0..cases {
        let made = any_extended(random);
        let table = Rc::from(&made.table[..]);
        let start = made.any_start(random);
        let length = match random.below(200) {
            0 => random.among(&LONG_LENGTHS),
            1..=9 => random.below(3_000),
            _ => random.among(&[0, 1, 5, 16, 30, 64]),
        };
        let choices = if random.once_in(3) { Choices(random.number() as u32) } else { random.among(&MIXTURES) };
        asked.ask(&table, Box::new(Fill { start, choices, length, written: None }));
    }
}

/// Any index about glyphs up to this one: as often filled as not, rarely with a start or a length that is refused.
fn any_making(random: &mut Random, highest: u16) -> Making {
    let highest = usize::from(highest);
    let length = match random.below(12) {
        0 => random.among(&[0, 1, 5]),
        1 if random.once_in(30) => random.among(&[MOST_ENTRIES, MOST_ENTRIES, MOST_ENTRIES + 1]),
        2 | 3 => random.below(highest + 2),
        _ if highest > 2_000 && !random.once_in(20) => random.below(40),
        _ => highest + random.below(3),
    };
    let other = if random.once_in(2) { Some(random.number()) } else { None };
    let start = match random.below(24) {
        0 => Start::Off(random.among(&[1, u64::MAX, 1 << 32, 12])),
        1 => Start::At(random.number() >> random.below(64)),
        _ => Start::Right,
    };
    Making { length: length.min(MOST_ENTRIES + 1), other, start }
}

const LINES_FOR_ONE_TABLE: u64 = 3;

/// Any subtables of every kind.
fn random_morx(asked: &mut dyn Ask, random: &mut Random, cases: u64) {
    let mut left = cases;
    while left > 0 {
        let glyphs = any_glyphs(random);
        let kind = &KINDS[random.among(&[0, 0, 1, 2, 2, 2, 3, 3, 3, 4, 4, 4])];
        let made = any_subtable(random, kind, &glyphs);
        let table: Rc<[u8]> = Rc::from(&made.table[..]);
        let start = made.any_start(random);
        let lines = left.min(LINES_FOR_ONE_TABLE);
        for _ in 0..lines {
            let longest = random.among(&[2, 5, 5, 12, 12, 24, 60]);
            let used = random.below(longest + 1);
            let room = used + random.among(&[0, 0, 1, 9, 40]);
            let mut line = any_line_of(random, &glyphs, used, room);
            spoil(random, &mut line);
            let making = any_making(random, glyphs.end);
            let index = making.index(&table, start, Choices::NONE);
            asked.ask(&table, Box::new(MorxIndexed { line, start, index, is_filled: making.is_filled() }));
        }
        left -= lines;
    }
}

/// Any subtables of every format.
fn random_kerx(asked: &mut dyn Ask, random: &mut Random, cases: u64) {
    let mut left = cases;
    while left > 0 {
        let glyphs = any_glyphs(random);
        let (version, format) = (any_version(random), random_format(random));
        let subtable = any_anchored_subtable(random, version, format, &glyphs);
        let made = Made::behind_others(random, subtable, Vec::new());
        let table: Rc<[u8]> = Rc::from(&made.table[..]);
        let ankr: Rc<[u8]> = Rc::from(any_ankr(random, &glyphs));
        let start = made.any_start(random);
        let lines = left.min(LINES_FOR_ONE_TABLE);
        for _ in 0..lines {
            let longest = random.among(&[2, 5, 12, 24, 60]);
            let used = random.below(longest + 1);
            let room = used + random.among(&[0, 0, 1, 9]);
            let kerned = Kerned::any(random, &glyphs, used, room);
            let marks = Marks::any(random, kerned.line.glyphs.len());
            let (lent, choices, ankr) = (Anchored { kerned, marks }, random.among(&MIXTURES), ankr.clone());
            let making = any_making(random, glyphs.end);
            let (index, is_filled) = (making.index(&table, start, choices), making.is_filled());
            asked.ask(&table, Box::new(KerxIndexed { version, choices, ankr, lent, start, index, is_filled }));
        }
        left -= lines;
    }
}

//! Anchored marks (W-211): what is asked of the pass, the run and the step that take an ankr table.

use crate::fuzz::case::Chosen;
use crate::fuzz::seeds::Seed;
use crate::fuzz::source::Source;
use crate::questions::anchored_calls::{AnchorStep, AnchoredPass, AnchoredRun};
use crate::questions::anchored_made::{some_ankr, CRATES, MIXTURES, PLAIN};
use crate::questions::kerning_choices::{any_kerned, any_longest};
use crate::questions::kerning_passes::Passes;
use crate::questions::kerning_runs::Runs;
use crate::questions::passes::for_each_table;
use crate::questions::{anchored_answers, anchored_refusals, anchored_tables, Ask, Part, Question};
use crate::reference::anchored::{Anchored, Marks, Stepped, STATE};
use crate::reference::anchored_by_copy as by_copy;
use crate::reference::kerning::Kerning;
use crate::reference::kerning_choices::Choices;
use crate::reference::line::DELETED;
use crate::tables::anchored::{any_anchored_subtable, any_anchored_table, any_ankr};
use crate::tables::kerx_manual::any_version;
use crate::tables::lines::{any_along, any_glyphs};
use crate::tables::lookup::Made;
use crate::tables::random::Random;
use crate::wire::entries::Entry;
use std::ops::Range;
use std::rc::Rc;

/// Calls of the entries that take an ankr table.
pub struct AnchoredMarks;

impl Part for AnchoredMarks {
    fn name(&self) -> &'static str {
        "anchored"
    }

    fn every(&self) -> u64 {
        2
    }

    fn entries(&self) -> Vec<Entry> {
        vec![Entry::KerxPassAnchored, Entry::KerxRunAnchored, Entry::AnchorStep]
    }

    fn ask(&self, asked: &mut dyn Ask, random: &mut Random, cases: u64) {
        anchored_answers::known_answers(asked);
        anchored_refusals::refusals(asked);
        anchored_answers::distances(asked);
        anchored_answers::short_lines(asked);
        anchored_answers::stalls(asked);
        anchored_answers::points_on_edges(asked);
        anchored_tables::lookups_of_points(asked);
        anchored_tables::offsets_of_points(asked);
        anchored_tables::records(asked, random);
        anchored_tables::mixed_lists(asked);
        anchored_tables::tuple_counts(asked);
        anchored_tables::cut_subtables(asked);
        anchored_refusals::slots(asked);
        anchored_refusals::lengths(asked);
        anchored_refusals::refused_lines(asked);
        anchored_refusals::large_adjustments(asked);
        anchored_refusals::many_heads(asked);
        anchored_refusals::long_lines(asked, random);
        random_subtables(asked, random, cases / 2);
        random_walks(asked, random, cases / 400);
        random_tables(asked, random, cases / 2);
        let asked = &mut WithMarks { asked, turns: 0 };
        Passes(Kerning::Kerx).ask(asked, random, cases / 25);
        Runs(Kerning::Kerx).ask(asked, random, cases / 25);
    }

    fn chosen(&self, entry: Entry, chosen: Chosen, source: &mut Source) -> Box<dyn Question> {
        let Chosen { start, version, right_to_left, told, lent, .. } = chosen;
        let choices = Choices(source.byte().into());
        let mut marks = Marks::of(lent.along.len());
        match source.byte() {
            1 => marks.x.push(0),
            2 => marks.y.push(0),
            3 => marks.back.push(0),
            4 => marks = Marks::none(0),
            _ => {}
        }
        let state = [(); STATE].map(|()| source.number());
        let ankr = Rc::from(source.part());
        match entry {
            Entry::KerxPassAnchored => {
                let lent = Anchored { kerned: lent, marks };
                Box::new(AnchoredPass { version, choices, ankr, lent, start, written: None })
            }
            Entry::KerxRunAnchored => {
                let lent = Anchored { kerned: lent, marks };
                Box::new(AnchoredRun { choices, ankr, lent, start, right_to_left, written: None })
            }
            _ => {
                let (length, index, glyph) = (lent.line.used, told.index, told.glyph);
                let lent = Stepped { state, along: lent.along, marks };
                Box::new(AnchorStep { version, choices, ankr, start, lent, length, index, glyph })
            }
        }
    }

    fn seed(&self, random: &mut Random, entry: Entry) -> Seed {
        let glyphs = any_glyphs(random);
        let version = random.among(&[2, 4]);
        let made = match entry {
            Entry::KerxRunAnchored => {
                let table = [vec![0; 4], any_anchored_table(random, &glyphs)].concat();
                Made { table, start: 4, edges: Vec::new() }
            }
            _ => Made::whole(any_anchored_subtable(random, version, 4, &glyphs)),
        };
        let ankr = any_ankr(random, &glyphs);
        let told = [&[random.below(4) as u8, 0, 0, 0, 0, 0][..], &(ankr.len() as u16).to_be_bytes(), &ankr].concat();
        Seed { version, more: told, ..Seed::of(glyphs, made) }
    }
}

/// The same questions of kerx's passes and runs, with marks and an ankr table, each by the next choices.
struct WithMarks<'a> {
    asked: &'a mut dyn Ask,
    turns: usize,
}

impl Ask for WithMarks<'_> {
    fn ask(&mut self, table: &Rc<[u8]>, question: Box<dyn Question>) {
        let ankr = if self.turns % 3 == 0 { Rc::from(Vec::new()) } else { some_ankr() };
        if let Some(question) = question.with_marks(MIXTURES[self.turns % 4], ankr) {
            self.turns += 1;
            self.asked.ask(table, question);
        }
    }
}

/// Any choices, as often none.
fn any_choices(random: &mut Random) -> Choices {
    match random.below(8) {
        0 => Choices(random.number() as u32),
        1..=3 => CRATES,
        _ => random.among(&MIXTURES),
    }
}

/// Any line with any adjustments and marks, mostly of few deleted glyphs; rarely longer than the largest distance.
fn any_anchored(random: &mut Random, glyphs: &Range<u16>) -> Anchored {
    let longest = if random.once_in(40) { 600 } else { any_longest(random) };
    let mut kerned = any_kerned(random, glyphs, longest);
    if !random.once_in(8) {
        let length = kerned.line.length().min(kerned.line.glyphs.len());
        for glyph in kerned.line.glyphs[..length].iter_mut().filter(|glyph| **glyph == DELETED) {
            *glyph = glyphs.start + random.below(glyphs.len()) as u16;
        }
    }
    let marks = Marks::any(random, kerned.line.glyphs.len());
    Anchored { kerned, marks }
}

const CALLS_FOR_ONE_TABLE: u64 = 4;

/// Any subtables, mostly of format 4: passes, and steps from any states.
fn random_subtables(asked: &mut dyn Ask, random: &mut Random, cases: u64) {
    let mut left = cases;
    while left > 0 {
        let glyphs = any_glyphs(random);
        let version = any_version(random);
        let format = random.among(&[0, 1, 2, 4, 4, 4, 4, 4, 4]);
        let subtable = any_anchored_subtable(random, version, format, &glyphs);
        let made = Made::behind_others(random, subtable, Vec::new());
        let table = Rc::from(&made.table[..]);
        let ankr: Rc<[u8]> = Rc::from(any_ankr(random, &glyphs));
        let start = made.any_start(random);
        let calls = left.min(CALLS_FOR_ONE_TABLE);
        for _ in 0..calls {
            let (choices, ankr) = (any_choices(random), ankr.clone());
            if random.once_in(2) {
                let step = any_step(random, &glyphs);
                asked.ask(&table, Box::new(AnchorStep { version, choices, ankr, start, ..step }));
            } else {
                let lent = any_anchored(random, &glyphs);
                asked.ask(&table, Box::new(AnchoredPass { version, choices, ankr, lent, start, written: None }));
            }
        }
        left -= calls;
    }
}

/// Any step on any short line; rarely one that is refused, and rarely one far from its mark.
fn any_step(random: &mut Random, glyphs: &Range<u16>) -> AnchorStep {
    let length = if random.once_in(12) { 250 + random.below(60) } else { random.below(12) } as u64;
    let room = length as usize + random.among(&[0, 0, 1, 5]);
    let any_glyph = |random: &mut Random| match random.below(16) {
        0 => random.word(),
        1 => DELETED,
        _ => glyphs.start + random.below(glyphs.len()) as u16,
    };
    let index = match random.below(24) {
        0 => random.among(&[length + 1, 1 << 32, u64::MAX]),
        1..=4 => length,
        _ => random.below(length as usize + 1) as u64,
    };
    let mark = if random.once_in(8) { 0 } else { random.below(index.min(length) as usize + 1) as u64 };
    let number = random.among(&[0, 0, 0, 0, 1, 1, 2, 3, 0xFFFF]);
    let mut state = [number, mark, any_glyph(random).into(), random.among(&[0, 0, 0, 1, 15, 16, 17])];
    if random.once_in(16) {
        let any = random.number() >> random.below(64);
        state[random.below(STATE)] = random.among(&[index.saturating_add(1), 17, 18, 0x1_0000, 1 << 32, u64::MAX, any]);
    }
    let length = if random.once_in(30) { room as u64 + 1 } else { length };
    let lent = Stepped { state, along: any_along(random, room), marks: Marks::any(random, room) };
    let (version, choices, ankr) = (PLAIN.version, CRATES, Rc::from(Vec::new()));
    AnchorStep { version, choices, ankr, start: 0, lent, length, index, glyph: any_glyph(random) }
}

/// The steps on the way of so many passes by any machines.
fn random_walks(asked: &mut dyn Ask, random: &mut Random, passes: u64) {
    for _ in 0..passes {
        let glyphs = any_glyphs(random);
        let version = any_version(random);
        let table: Rc<[u8]> = Rc::from(any_anchored_subtable(random, version, 4, &glyphs));
        let ankr: Rc<[u8]> = Rc::from(any_ankr(random, &glyphs));
        let line: Vec<u16> = (0..12).map(|_| glyphs.start + random.below(glyphs.len()) as u16).collect();
        let alone = Kerning::Kerx.alone(version, &table);
        let machine = match by_copy::open(&alone, &ankr) {
            Some(machine) => machine,
            None => continue,
        };
        let length = line.len() as u64;
        let show = &mut |state: &[u64; STATE], place: usize, marks: &Marks| {
            let lent = Stepped { state: *state, along: vec![0; line.len()], marks: marks.clone() };
            let (choices, ankr, index) = (CRATES, ankr.clone(), place as u64);
            let glyph = line[place];
            asked.ask(&table, Box::new(AnchorStep { version, choices, ankr, start: 0, lent, length, index, glyph }));
        };
        // A fault in the pass is for the passes to show.
        let _ = by_copy::pass(&machine, &line, &mut Marks::none(line.len()), show);
    }
}

/// Any tables in which formats are mixed.
fn random_tables(asked: &mut dyn Ask, random: &mut Random, cases: u64) {
    for_each_table(random, cases, any_anchored_table, &mut |random, table, start, glyphs, _used| {
        let lent = any_anchored(random, glyphs);
        let ankr = Rc::from(any_ankr(random, glyphs));
        let (choices, right_to_left) = (any_choices(random), random.among(&[0, 1, 2, u32::MAX]));
        asked.ask(table, Box::new(AnchoredRun { choices, ankr, lent, start, right_to_left, written: None }));
    });
}

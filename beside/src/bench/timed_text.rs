//! Passes whose times are taken over class tables that are searched, over lines that differ, and by machines of several states.

use crate::bench::sides::{ours, theirs};
use crate::bench::text::{searched, Drawn, GLYPHS};
use crate::bench::timed_kerning::{kerx_machine, KERX};
use crate::bench::timed_passes::{contextual, inserting, ligating, rearranging, run_over, Actions, CLASSED};
use crate::bench::timing::Subject;
use crate::bench::{calls_on, grouped};
use crate::reference::kerning::Kerned;
use crate::reference::line::Line;
use crate::reference::pass::line_of;
use crate::tables::lookup::with_values;
use crate::tables::morx::{in_chain, subtable};
use crate::tables::random::Random;
use crate::wire::entries::Entry;

/// A pass whose lookup table, which is a machine's class table, can be chosen.
enum Pass {
    Machine(Actions),
    Noncontextual,
    Kerning,
}

use Pass::{Kerning, Machine, Noncontextual};

fn passes() -> [(&'static str, Pass); 6] {
    [
        ("rearrangement", Machine(rearranging(true))),
        ("non-contextual", Noncontextual),
        ("contextual", Machine(contextual(true))),
        ("ligature", Machine(ligating(GLYPHS))),
        ("insertion", Machine(inserting(1))),
        ("kerx machine", Kerning),
    ]
}

impl Pass {
    /// What the lookup table has for a glyph: a class of a machine of one state, or another glyph.
    fn any_value(&self, random: &mut Random) -> u16 {
        match self {
            Noncontextual => random.below(GLYPHS.into()) as u16,
            _ => 4 + random.below(4) as u16,
        }
    }

    fn subtable(&self, table: Vec<u8>, states: u16) -> Vec<u8> {
        match self {
            Machine(actions) => actions.subtable(table, states),
            Noncontextual => subtable(4, &table),
            Kerning => kerx_machine(table, states),
        }
    }

    /// So many calls, each on a fresh copy of the next of these lines, in a room of twice its places.
    fn subject(&self, name: String, calls: usize, glyphs: Vec<Vec<u16>>, subtable: Vec<u8>) -> Subject {
        let lines: Vec<Line> = glyphs.iter().map(|glyphs| line_of(glyphs, 2 * glyphs.len())).collect();
        let entry = match self {
            Machine(actions) => actions.entry,
            Noncontextual => Entry::NoncontextualPass,
            Kerning => {
                let with_along = |line: Line| Kerned { along: vec![0; line.glyphs.len()], line };
                let lines = lines.into_iter().map(with_along).collect();
                let (version, their_table) = (KERX.version, KERX.kerning.alone(KERX.version, &subtable));
                let ours = move |kerned: &mut Kerned| ours::kerning_pass(KERX.kerning, version, kerned, &subtable);
                let theirs = move |kerned: &mut Kerned| theirs::kerning_pass(KERX.kerning, kerned, &their_table);
                return Subject::of_lines(name, calls, lines, ours, theirs);
            }
        };
        let their_table = in_chain(&subtable);
        let ours = move |line: &mut Line| ours::pass(entry, line, &subtable);
        let theirs = move |line: &mut Line| theirs::pass(line, &their_table);
        Subject::of_lines(name, calls, lines, ours, theirs)
    }
}

/// Every pass by searched lookup tables, over one line.
pub fn searches(random: &mut Random) -> Vec<Subject> {
    let mut subjects = Vec::new();
    for (name, pass) in passes() {
        for drawn in [Drawn::Text, Drawn::Different] {
            for (format, count) in [2, 4, 6].iter().flat_map(|format| [16, 256, 2_000].map(|count| (*format, count))) {
                let (table, covered) = searched(format, count, || pass.any_value(random));
                let lines = drawn.lines(random, &covered, 1, 256);
                let count = grouped(count.into());
                let name = format!("{}, format {} of {} records, {}, 256 places", name, format, count, drawn.name());
                subjects.push(pass.subject(name, calls_on(256), lines, pass.subtable(table, 1)));
            }
        }
    }
    subjects
}

/// So many lines that differ, of so many places.
pub const LINES: usize = 512;
pub const PLACES: usize = 40;

/// Every pass over lines of text that differ, by an array and by a searched lookup table, and a run.
pub fn lines(random: &mut Random) -> Vec<Subject> {
    let mut subjects = Vec::new();
    for (name, pass) in passes() {
        let values: Vec<u16> = (0..GLYPHS / 2).map(|_| pass.any_value(random)).collect();
        let array = (with_values(8, 0, &values), (0..GLYPHS / 2).collect());
        let records = searched(6, 256, || pass.any_value(random));
        for (format, (table, covered)) in [("8", array), ("6 of 256 records", records)] {
            let glyphs = Drawn::Text.lines(random, &covered, LINES, PLACES);
            let name = format!("{}, format {}, text, {} lines of {} places", name, format, LINES, PLACES);
            subjects.push(pass.subject(name, LINES, glyphs, pass.subtable(table, 1)));
        }
    }
    let covered: Vec<u16> = (0..CLASSED).collect();
    let glyphs = Drawn::Text.lines(random, &covered, LINES, PLACES);
    let name = format!("run of morx, 10 subtables, text, {} lines of {} places", LINES, PLACES);
    subjects.push(run_over(random, name, &glyphs));
    subjects
}

/// Every machine with three states, which change at one glyph in so many, over one line and over lines that differ.
pub fn states(random: &mut Random) -> Vec<Subject> {
    let mut subjects = Vec::new();
    for (name, pass) in passes() {
        if let Noncontextual = pass {
            continue;
        }
        for rate in [20, 2] {
            let class = |random: &mut Random| 4 + (random.below(4) + if random.once_in(rate) { 4 } else { 0 }) as u16;
            let classes: Vec<u16> = (0..GLYPHS).map(|_| class(random)).collect();
            let subtable = pass.subtable(with_values(8, 0, &classes), 3);
            let mut any_lines = |count, length| -> Vec<Vec<u16>> {
                let line = |_| (0..length).map(|_| random.below(GLYPHS.into()) as u16).collect();
                (0..count).map(line).collect()
            };
            let name = format!("{}, 3 states, changing at one glyph in {}", name, rate);
            let one_line = any_lines(1, 256);
            subjects.push(pass.subject(format!("{}, 256 places", name), calls_on(256), one_line, subtable.clone()));
            let glyphs = any_lines(LINES, PLACES);
            let name = format!("{}, {} lines of {} places", name, LINES, PLACES);
            subjects.push(pass.subject(name, LINES, glyphs, subtable));
        }
    }
    subjects
}

//! Passes and runs of morx whose times are taken.

use crate::bench::sides::{ours, theirs};
use crate::bench::timing::Subject;
use crate::bench::{calls_on, grouped, LENGTHS, LONG_LENGTHS};
use crate::reference::line::Line;
use crate::reference::oracle::LONGEST_TABLE;
use crate::reference::pass::line_of;
use crate::tables::ligature::{most_scans, pairs};
use crate::tables::lookup::{with_values, words};
use crate::tables::morx::{chain, in_chain, machine, morx, subtable};
use crate::tables::random::Random;
use crate::wire::entries::Entry;
use std::rc::Rc;

/// Every pass on lines of every length.
pub fn passes(random: &mut Random) -> Vec<Subject> {
    let mut subjects = Vec::new();
    for made in all_passes(random) {
        subjects.extend(LENGTHS.map(|room| made.subject(random, room)));
    }
    subjects
}

/// Runs on lines of every length, and of more and more subtables.
pub fn runs(random: &mut Random) -> Vec<Subject> {
    let mut subjects = Vec::new();
    let table = with_subtables(random, 10);
    for length in LENGTHS {
        let name = format!("run of morx, 10 subtables, {} places", grouped(length));
        subjects.push(run(random, name, &table, length));
    }
    for count in [2, 5, 10, 20, 40] {
        let name = format!("run of morx over 256 places, {} subtables", count);
        let table = with_subtables(random, count);
        subjects.push(run(random, name, &table, 256));
    }
    subjects
}

/// Lines in which every second glyph is the component of a ligature, and lines by the subtable that asks for most.
pub fn long_ligatures() -> Vec<Subject> {
    let mut subjects = Vec::new();
    for length in LONG_LENGTHS {
        let name = format!("ligature, every second glyph a component, {} places", grouped(length));
        let glyphs: Vec<u16> = [10, 11].into_iter().cycle().take(length).collect();
        subjects.push(ligatures(name, &pairs(), &glyphs));
    }
    for length in [256, 1_024].into_iter().chain(LONG_LENGTHS) {
        let name = format!("ligatures, 18 with 8 components each at each place, {} places", grouped(length));
        let subject = ligatures(name, &most_scans(), &vec![10; length]);
        subjects.push(if length < 1_000 { subject } else { subject.once() });
    }
    subjects
}

fn ligatures(name: String, body: &[u8], glyphs: &[u16]) -> Subject {
    let our_table = subtable(2, body);
    let their_table = in_chain(&our_table);
    let ours = move |line: &mut Line| ours::pass(Entry::LigaturePass, line, &our_table);
    let theirs = move |line: &mut Line| theirs::pass(line, &their_table);
    Subject::of_work(name, 1, line_of(glyphs, glyphs.len()), true, ours, theirs)
}

/// Runs that are asked for features, of as many as a font has and of as many as a table can hold; the last of them, which is asked
/// for last, chooses the subtables.
pub fn featured(random: &mut Random) -> Vec<Subject> {
    let subtables = subtables(random, 10);
    let most = (LONGEST_TABLE - 24 - subtables.concat().len()) / 12;
    let rows = [(12, 1), (12, 3), (40, 3), (40, 64), (most, 64)];
    rows.map(|(features, requests)| {
        let feature = |number: usize| [number as u32 % 0xFFFF, u32::from(number + 1 == features), u32::MAX];
        let list: Vec<u8> = (0..features).flat_map(feature).flat_map(u32::to_be_bytes).collect();
        let table = Rc::new(morx(&[chain(0, &list, &subtables)]));
        let last = (features as u32 - 1) % 0xFFFF;
        let asked: Rc<Vec<u32>> = Rc::new((1..requests).map(|number| number << 16 | 7).chain([last]).collect());
        let line = Line::any(random, 256, 256, usize::from(CLASSED));
        let (our_table, our_requests) = (table.clone(), asked.clone());
        let ours = move |line: &mut Line| ours::run_with(line, &our_table, &our_requests);
        let theirs = move |line: &mut Line| theirs::run_with(line, &table, &asked);
        let name = format!("run of morx over 256 places, {} features, {} requests", grouped(features), requests);
        let calls = if features == most { 1 } else { calls_on(256) };
        Subject::of_work(name, calls, line, true, ours, theirs)
    })
    .into()
}

/// A pass whose times are asked for.
struct Pass {
    name: &'static str,
    entry: Entry,
    table: Vec<u8>,
}

impl Pass {
    /// Passes over lines in a room of so many places, which all are used but where glyphs are put in. Where a pass leaves a
    /// line of another kind behind, each begins with the same line, which both sides have to copy.
    fn subject(&self, random: &mut Random, room: usize) -> Subject {
        let length = if self.entry == Entry::InsertionPass { room * 2 / 3 } else { room };
        let line = Line::any(random, length, room, usize::from(CLASSED));
        let is_fresh = matches!(self.entry, Entry::LigaturePass | Entry::InsertionPass);
        let (entry, our_table, their_table) = (self.entry, self.table.clone(), in_chain(&self.table));
        let ours = move |line: &mut Line| ours::pass(entry, line, &our_table);
        let theirs = move |line: &mut Line| theirs::pass(line, &their_table);
        let name = format!("{}, {} places", self.name, grouped(room));
        Subject::of_work(name, calls_on(room), line, is_fresh, ours, theirs)
    }
}

/// So many glyphs have a class of their machine's own.
pub const CLASSED: u16 = 2_000;

fn all_passes(random: &mut Random) -> Vec<Pass> {
    let mut passes = Vec::from(rearrangement_passes(random));
    passes.extend(noncontextual_passes());
    passes.extend(contextual_passes(random));
    passes.push(ligature_pass(random));
    passes.push(insertion_pass(random, 1));
    passes
}

/// A run over a line of so many places, which all are used.
fn run(random: &mut Random, name: String, table: &[u8], length: usize) -> Subject {
    let line = Line::any(random, length, length, usize::from(CLASSED));
    let [our_table, their_table] = [table.to_vec(), table.to_vec()];
    let ours = move |line: &mut Line| ours::run(line, &our_table);
    let theirs = move |line: &mut Line| theirs::run(line, &their_table);
    Subject::of_work(name, calls_on(length), line, true, ours, theirs)
}

/// A run over lines that differ, of these glyphs.
pub fn run_over(random: &mut Random, name: String, glyphs: &[Vec<u16>]) -> Subject {
    let lines: Vec<Line> = glyphs.iter().map(|glyphs| line_of(glyphs, 2 * glyphs.len())).collect();
    let table = Rc::new(with_subtables(random, 10));
    let our_table = table.clone();
    let ours = move |line: &mut Line| ours::run(line, &our_table);
    let theirs = move |line: &mut Line| theirs::run(line, &table);
    Subject::of_lines(name, lines.len(), lines, ours, theirs)
}

/// A table of so many subtables.
pub fn with_subtables(random: &mut Random, count: usize) -> Vec<u8> {
    morx(&[chain(1, &[], &subtables(random, count))])
}

/// So many subtables, of all kinds in turn; those that could put glyphs in only mark them.
fn subtables(random: &mut Random, count: usize) -> Vec<Vec<u8>> {
    let kinds = [
        rearrangement_passes(random)[1].table.clone(),
        noncontextual_passes()[0].table.clone(),
        contextual_passes(random)[1].table.clone(),
        insertion_pass(random, 0).table,
        ligature_pass(random).table,
    ];
    kinds.into_iter().cycle().take(count).collect()
}

/// A class table of this format with any of the classes 4 to 7 for a glyph.
fn any_classes(random: &mut Random, format: u16) -> Vec<u8> {
    let classes: Vec<u16> = (0..CLASSED).map(|_| 4 + random.below(4) as u16).collect();
    with_values(format, 0, &classes)
}

/// What the machines of a kind do.
pub struct Actions {
    kind: u32,
    pub entry: Entry,
    /// The entries, but for their new state, for the classes from 0 to 3 and for each from 4 to 7.
    none: Vec<u16>,
    acts: [Vec<u16>; 4],
    /// What the kind has behind its entries.
    more: Vec<Vec<u8>>,
}

impl Actions {
    /// The subtable of so many states with this class table. Where there are several, the classes from 8 to 11 do what those
    /// from 4 to 7 do, and go on to the next state.
    pub fn subtable(&self, class_table: Vec<u8>, states: u16) -> Vec<u8> {
        let classes = if states == 1 { 8 } else { 12 };
        self.machine(class_table, classes, states, |state, class| {
            let next = if class < 8 { state } else { (state + 1) % states };
            (next, if class < 4 { &self.none } else { &self.acts[usize::from(class % 4)] })
        })
    }

    /// The subtable with this class table that acts where a glyph of class 5 is next to one of class 4, as most do: what it
    /// does at class 5 otherwise at the first, and what at class 6 at the other.
    pub fn of_neighbours(&self, class_table: Vec<u8>) -> Vec<u8> {
        self.machine(class_table, 8, 3, |state, class| match (state, class) {
            (_, 4) => (2, &self.acts[1]),
            (2, 5) => (0, &self.acts[2]),
            _ => (0, &self.none),
        })
    }

    /// The subtable with these entries, each for a state and a class: the new state and what is done.
    fn machine<'a>(
        &self,
        class_table: Vec<u8>,
        classes: u16,
        states: u16,
        entry: impl Fn(u16, u16) -> (u16, &'a Vec<u16>),
    ) -> Vec<u8> {
        let rows: Vec<u16> = (0..states * classes).collect();
        let entry = |row: &u16| {
            let (next, act) = entry(row / classes, row % classes);
            [&[next], &act[..]].concat()
        };
        let entries: Vec<u16> = rows.iter().flat_map(entry).collect();
        let parts = [class_table, words(&rows), words(&entries)];
        subtable(self.kind, &machine(classes, &[&parts, &self.more[..]].concat()))
    }
}

/// Nothing, or a few glyphs are moved at one place of four.
pub fn rearranging(does_move: bool) -> Actions {
    let none = vec![0];
    let verbs = if does_move { [0, 0x8000, 0x2003, 0x2000] } else { [0; 4] };
    let acts = verbs.map(|flags| vec![flags]);
    Actions { kind: 0, entry: Entry::RearrangementPass, none, acts, more: vec![] }
}

fn rearrangement_passes(random: &mut Random) -> [Pass; 3] {
    let passes = [
        ("rearrangement, format 8, no verbs", 8, false),
        ("rearrangement, format 8, verbs", 8, true),
        ("rearrangement, format 6, verbs", 6, true),
    ];
    passes.map(|(name, format, does_move)| {
        let table = rearranging(does_move).subtable(any_classes(random, format), 1);
        Pass { name, entry: Entry::RearrangementPass, table }
    })
}

/// Every glyph's neighbour: 0 becomes 1 and 1 becomes 0, and so on.
fn neighbours(format: u16) -> Vec<u8> {
    let values: Vec<u16> = (0..CLASSED).map(|glyph| glyph ^ 1).collect();
    with_values(format, 0, &values)
}

fn noncontextual_passes() -> [Pass; 2] {
    [("non-contextual, format 8", 8), ("non-contextual, format 6", 6)].map(|(name, format)| {
        let table = subtable(4, &neighbours(format));
        Pass { name, entry: Entry::NoncontextualPass, table }
    })
}

const NO_LIST: u16 = 0xFFFF;

/// Nothing, or one glyph of four is marked, and one and the marked one change at two others.
pub fn contextual(does_change: bool) -> Actions {
    let none = vec![0, NO_LIST, NO_LIST];
    let acts = [[0, NO_LIST, NO_LIST], [0x8000, NO_LIST, NO_LIST], [0, NO_LIST, 0], [0, 0, NO_LIST]];
    let acts = acts.map(|act| if does_change { act.to_vec() } else { none.clone() });
    let more = vec![[words(&[0, 4]), neighbours(8)].concat()];
    Actions { kind: 1, entry: Entry::ContextualPass, none, acts, more }
}

fn contextual_passes(random: &mut Random) -> [Pass; 2] {
    let passes = [("contextual, format 8, no changes", false), ("contextual, format 8, changes", true)];
    passes.map(|(name, does_change)| {
        let table = contextual(does_change).subtable(any_classes(random, 8), 1);
        Pass { name, entry: Entry::ContextualPass, table }
    })
}

/// Two glyphs of four are pushed, of which one makes a ligature of two, and one of four empties the stack. All are below this
/// number.
pub fn ligating(glyphs: u16) -> Actions {
    let acts = [[0, 0], [0x8000, 0], [0xA000, 0], [0x2000, 2]].map(Vec::from);
    let actions = [[0, 0], [0x8000, 0], [0; 2]].concat();
    let actions = [actions, vec![0; 2 * 40]].concat();
    let more = vec![words(&actions), words(&vec![0; glyphs.into()]), words(&[7; 8])];
    Actions { kind: 2, entry: Entry::LigaturePass, none: vec![0, 0], acts, more }
}

fn ligature_pass(random: &mut Random) -> Pass {
    let table = ligating(CLASSED).subtable(any_classes(random, 8), 1);
    Pass { name: "ligature, format 8", entry: Entry::LigaturePass, table }
}

/// So many glyphs are put in behind one glyph of four, and one of four is marked.
pub fn inserting(count: u16) -> Actions {
    let none = vec![0, NO_LIST, NO_LIST];
    let acts = [none.clone(), vec![0x8000, NO_LIST, NO_LIST], vec![count << 5, 0, NO_LIST], none.clone()];
    Actions { kind: 5, entry: Entry::InsertionPass, none, acts, more: vec![words(&[7; 8])] }
}

fn insertion_pass(random: &mut Random, count: u16) -> Pass {
    let table = inserting(count).subtable(any_classes(random, 8), 1);
    Pass { name: "insertion, format 8", entry: Entry::InsertionPass, table }
}

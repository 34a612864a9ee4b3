//! Passes by an index of classes whose times are taken: each plain and by the index, beside the crate's, and the filler's own time.

use crate::bench::sides::{ours, theirs};
use crate::bench::timed_kerning::{kerx_machine, KERX};
use crate::bench::timed_passes::{contextual, inserting, ligating, rearranging, Actions};
use crate::bench::timing::Subject;
use crate::bench::{calls_on, grouped};
use crate::reference::anchored::{Anchored, Marks};
use crate::reference::kerning::Kerned;
use crate::reference::line::{Line, DELETED};
use crate::reference::pass::line_of;
use crate::tables::anchored::{act, with_lookup, Parts, BY_POINTS, MARK, NONE};
use crate::tables::kerx_manual::with_class_table;
use crate::tables::lookup::{record_size, with_records, with_values, Record};
use crate::tables::morx::in_chain;
use crate::tables::random::Random;
use std::rc::Rc;

/// The lengths of lines.
const LENGTHS: [usize; 3] = [256, 4_096, 32_768];

/// Glyphs are below this number, and an index has an entry for each.
const GLYPHS: u16 = 40_000;

/// A class table, and the glyphs of lines, of which every other one at least is covered by it.
struct Classes {
    name: String,
    table: Vec<u8>,
    drawn_from: Vec<u16>,
}

/// Lists of records that are searched, evenly among the glyphs, and an array.
fn class_tables(random: &mut Random) -> Vec<Classes> {
    let mut tables: Vec<Classes> = [16, 256, 2_000, 20_000].map(|count| of_records(random, count)).into();
    let values: Vec<u16> = (0..GLYPHS).map(|_| 4 + random.below(4) as u16).collect();
    let drawn_from = (0..GLYPHS).collect();
    tables.push(Classes { name: "format 8".into(), table: with_values(8, 0, &values), drawn_from });
    tables
}

fn of_records(random: &mut Random, count: u16) -> Classes {
    let stretch = GLYPHS / count;
    let mut record = |number: u16| {
        let first = number * stretch;
        Record { first, last: first, value: 4 + random.below(4) as u16 }
    };
    let records: Vec<Record> = (0..count).map(&mut record).collect();
    let table = with_records(6, record_size(6), count, &records);
    let covered: Vec<u16> = records.iter().map(|record| record.first).collect();
    let drawn_from = (0..GLYPHS).flat_map(|glyph| [glyph, covered[usize::from(glyph) % covered.len()]]).collect();
    Classes { name: format!("format 6 of {} records", grouped(count.into())), table, drawn_from }
}

impl Classes {
    fn glyphs(&self, random: &mut Random, length: usize) -> Vec<u16> {
        (0..length).map(|_| random.among(&self.drawn_from)).collect()
    }
}

/// A filled index for the subtable that a table begins with, and where its class table begins.
fn filled(table: &[u8]) -> (Vec<u16>, usize) {
    let mut index = vec![0; GLYPHS.into()];
    let start = ours::index_classes(table, 12, &mut index);
    (index, start)
}

/// Every machine over lines of three lengths and by class tables of five kinds, plain and by an index.
pub fn subjects(random: &mut Random) -> Vec<Subject> {
    let mut subjects = Vec::new();
    let machines = [
        ("rearrangement, no verbs", rearranging(false)),
        ("rearrangement", rearranging(true)),
        ("contextual", contextual(true)),
        ("ligature", ligating(GLYPHS)),
        ("insertion, none put in", inserting(0)),
    ];
    for classes in class_tables(random) {
        for (name, actions) in &machines {
            // In a longer line ligatures break off sooner or later.
            let lengths = if *name == "ligature" { &LENGTHS[..1] } else { &LENGTHS[..] };
            for &length in lengths {
                let line = line_of(&classes.glyphs(random, length), length);
                subjects.extend(morx(format!("{}, {}", name, classes.name), actions, &classes, line));
            }
        }
        for length in LENGTHS {
            let line = line_of(&classes.glyphs(random, length), length);
            subjects.extend(kerx(&classes, line));
        }
        for length in LENGTHS {
            let line = line_of(&classes.glyphs(random, length), length);
            subjects.extend(marks(&classes, line));
        }
        subjects.push(filler(&classes));
    }
    // Places whose class is not looked for, so that what a class costs can be told.
    let classes = of_records(random, 2_000);
    for length in LENGTHS {
        let line = line_of(&vec![DELETED; length], length);
        let name = "rearrangement, no verbs, glyphs that are deleted".into();
        subjects.extend(morx(name, &rearranging(false), &classes, line));
    }
    subjects
}

/// The names of a row plain and by an index.
fn names(name: &str, length: usize) -> [String; 2] {
    ["plain", "by an index"].map(|how| format!("{}, {}, {} places", name, how, grouped(length)))
}

fn morx(name: String, actions: &Actions, classes: &Classes, line: Line) -> [Subject; 2] {
    let table = Rc::new(actions.subtable(classes.table.clone(), 1));
    let their_table = Rc::new(in_chain(&table));
    let [plain, indexed] = names(&name, line.length());
    let (calls, entry) = (calls_on(line.length()), actions.entry);
    let ours = {
        let table = table.clone();
        move |line: &mut Line| ours::pass(entry, line, &table)
    };
    let theirs = |table: Rc<Vec<u8>>| move |line: &mut Line| theirs::pass(line, &table);
    let (index, start) = filled(&table);
    let by_index = move |line: &mut Line| ours::indexed_pass(line, &table, &index, start);
    [
        Subject::of_work(plain, calls, line.clone(), true, ours, theirs(their_table.clone())),
        Subject::of_work(indexed, calls, line, true, by_index, theirs(their_table)),
    ]
}

fn anchored(line: Line) -> Anchored {
    let marks = Marks::none(line.glyphs.len());
    Anchored { kerned: Kerned { along: vec![0; line.glyphs.len()], line }, marks }
}

/// A machine of format 1.
fn kerx(classes: &Classes, line: Line) -> [Subject; 2] {
    let table = Rc::new(kerx_machine(classes.table.clone(), 1));
    let version = KERX.version;
    let their_table = Rc::new(KERX.kerning.alone(version, &table));
    let [plain, indexed] = names(&format!("kerx machine, {}", classes.name), line.length());
    let calls = calls_on(line.length());
    let ours = {
        let table = table.clone();
        move |lent: &mut Anchored| ours::kerning_pass(KERX.kerning, version, &mut lent.kerned, &table)
    };
    let theirs =
        |table: Rc<Vec<u8>>| move |lent: &mut Anchored| theirs::kerning_pass(KERX.kerning, &mut lent.kerned, &table);
    let (index, start) = filled(&table);
    let by_index = move |lent: &mut Anchored| ours::indexed_kerx_pass(version, lent, &table, &[], &index, start);
    [
        Subject::of_work(plain, calls, anchored(line.clone()), false, ours, theirs(their_table.clone())),
        Subject::of_work(indexed, calls, anchored(line), false, by_index, theirs(their_table)),
    ]
}

/// Marks of format 4: of the classes from 4 to 7 the first marks, the second does nothing, and the others write.
fn marks(classes: &Classes, line: Line) -> [Subject; 2] {
    let acts = [act(0, NONE), act(MARK, NONE), act(0, NONE), act(0, 0), act(0, 1)];
    let body = Parts {
        action: BY_POINTS,
        first: 0,
        classes: &[4],
        count: 8,
        rows: &[0, 0, 0, 0, 1, 2, 3, 4],
        acts: &acts,
        records: &[(0, 0), (1, 1)],
    }
    .body();
    let body = with_class_table(body, &classes.table);
    let table = Rc::new(KERX.subtable(KERX.plain(), 4, &body));
    let points = [2_u32.to_be_bytes(), [0, 100, 0, 200], [0, 30, 0, 7]].concat();
    let ankr = Rc::new(with_lookup(&with_values(8, 0, &vec![0; GLYPHS.into()]), &points));
    let version = KERX.version;
    let their_table = KERX.kerning.alone(version, &table);
    let (behind, font) = (their_table.len(), Rc::new([&their_table[..], &ankr].concat()));
    let [plain, indexed] = names(&format!("kerx marks, {}", classes.name), line.length());
    let calls = calls_on(line.length());
    let ours = {
        let (table, ankr) = (table.clone(), ankr.clone());
        move |lent: &mut Anchored| ours::anchored_pass(version, lent, &table, &ankr)
    };
    let theirs = |font: Rc<Vec<u8>>| move |lent: &mut Anchored| theirs::anchored_pass(lent, &font, behind);
    let (index, start) = filled(&table);
    let by_index = move |lent: &mut Anchored| ours::indexed_kerx_pass(version, lent, &table, &ankr, &index, start);
    [
        Subject::of_work(plain, calls, anchored(line.clone()), false, ours, theirs(font.clone())),
        Subject::of_work(indexed, calls, anchored(line), false, by_index, theirs(font)),
    ]
}

/// The filler of an index for all glyphs, beside the crate's class of each.
fn filler(classes: &Classes) -> Subject {
    let table = Rc::new(rearranging(false).subtable(classes.table.clone(), 1));
    let name = format!("the filler, {}, {} entries", classes.name, grouped(GLYPHS.into()));
    let (their_table, mut index) = (table.clone(), vec![0; GLYPHS.into()]);
    let mut their_index = index.clone();
    let ours = move || {
        ours::index_classes(&table, 12, &mut index);
    };
    let theirs = move || theirs::classes(&their_table[12..], &mut their_index);
    Subject::of_turns(name, GLYPHS.into(), 1, ours, theirs)
}

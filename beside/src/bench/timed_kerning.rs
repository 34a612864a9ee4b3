//! Passes and runs of kern and kerx whose times are taken.

use crate::bench::sides::{ours, theirs};
use crate::bench::timing::Subject;
use crate::bench::{calls_on, grouped, LENGTHS};
use crate::reference::anchored::{Anchored, Marks};
use crate::reference::kerning::{Kerned, Kerning, ALONE_AT};
use crate::reference::line::{Line, DELETED, LARGEST_ROOM};
use crate::tables::anchored::{act, ankr, one_state, Act, Point, BY_POINTS, MARK};
use crate::tables::kerning::{classes, Edition, Entry, Pair, Parts, NONE, PUSH, RESET};
use crate::tables::lookup::with_values;
use crate::tables::random::Random;

const KERN: Edition = Edition::new(Kerning::Kern, 1, 0);
pub const KERX: Edition = Edition::new(Kerning::Kerx, 2, 0);

/// Every pass and both runs on lines of every length, and passes by lists of more and more pairs.
pub fn subjects(random: &mut Random) -> Vec<Subject> {
    let mut subjects = Vec::new();
    for (edition, name, subtable) in passes(random) {
        let name = format!("{} pass, {}", edition.kerning.name(), name);
        subjects.extend(
            LENGTHS.map(|length| {
                pass(random, format!("{}, {} places", name, grouped(length)), edition, &subtable, length)
            }),
        );
    }
    for edition in [KERN, KERX] {
        let subtables: Vec<Vec<u8>> =
            passes(random).into_iter().filter(|pass| pass.0.kerning == edition.kerning).map(|pass| pass.2).collect();
        subjects.extend(LENGTHS.map(|length| run(random, edition, &subtables, length)));
    }
    for edition in [KERN, KERX] {
        for count in [16, 64, 256, 1_024, 4_096] {
            let name = format!("{} pass over 256 places, {} pairs", edition.kerning.name(), grouped(count));
            let subtable = ordered_pairs(random, edition, count);
            subjects.push(pass(random, name, edition, &subtable, 256));
        }
    }
    subjects.extend(joined_passes(&mut Random::new(2)));
    subjects.extend(anchored_passes(&mut Random::new(3)));
    subjects
}

/// Passes of marks over lines of every length, by points that are found at once and by such that are searched.
fn anchored_passes(random: &mut Random) -> Vec<Subject> {
    let mut subjects = Vec::new();
    for format in [8, 6] {
        let (subtable, points) = marks(random, format);
        for length in LENGTHS {
            let name = format!("kerx pass, anchored marks, points by format {}, {} places", format, grouped(length));
            subjects.push(anchored_pass(random, name, &subtable, &points, length));
        }
    }
    subjects
}

/// Of the glyphs one of four is marked, and two others are written, by one point or another; each glyph has two.
fn marks(random: &mut Random, format: u16) -> (Vec<u8>, Vec<u8>) {
    let kinds = [act(MARK, NONE), act(0, NONE), act(0, 0), act(0, 1)];
    let acts: Vec<Act> = (0..GLYPHS).map(|_| random.among(&kinds)).collect();
    let mut any_point = || -> Point { (random.below(2_000) as i16 - 1_000, random.below(2_000) as i16 - 1_000) };
    let points: Vec<Vec<Point>> = (0..GLYPHS).map(|_| vec![any_point(), any_point()]).collect();
    (KERX.subtable(KERX.plain(), 4, &one_state(BY_POINTS, 0, &acts, 2)), ankr(format, 0, &points))
}

fn anchored_pass(random: &mut Random, name: String, subtable: &[u8], points: &[u8], length: usize) -> Subject {
    let Edition { kerning, version, .. } = KERX;
    let their_table = kerning.alone(version, subtable);
    let (behind, font) = (their_table.len(), [&their_table, points].concat());
    let (our_table, ankr) = (subtable.to_vec(), points.to_vec());
    let ours = move |anchored: &mut Anchored| ours::anchored_pass(version, anchored, &our_table, &ankr);
    let theirs = move |anchored: &mut Anchored| theirs::anchored_pass(anchored, &font, behind);
    let line = Anchored { kerned: any_kerned(random, length), marks: Marks::none(length) };
    Subject::of_work(name, calls_on(length), line, false, ours, theirs)
}

/// Passes by joined pairs over lines that fill the largest room, none of their glyphs deleted, and all but the first and the last.
fn joined_passes(random: &mut Random) -> Vec<Subject> {
    let mut subjects = Vec::new();
    for (edition, name, subtable) in passes(random).into_iter().filter(|pass| pass.1.ends_with("pairs")) {
        let whole = any_kerned(random, LARGEST_ROOM);
        let mut between = whole.clone();
        between.line.glyphs[1..LARGEST_ROOM - 1].fill(DELETED);
        for (deleted, line) in [("none", whole), ("all but two", between)] {
            let table = edition.kerning.name();
            let name =
                format!("{} pass, joined {}, {} deleted, {} places", table, name, deleted, grouped(LARGEST_ROOM));
            subjects.push(joined_pass(name, edition, &subtable, line));
        }
    }
    subjects
}

fn joined_pass(name: String, edition: Edition, subtable: &[u8], line: Kerned) -> Subject {
    let Edition { kerning, version, .. } = edition;
    let (our_table, their_table) = (subtable.to_vec(), kerning.alone(version, subtable));
    let ours = move |kerned: &mut Kerned| ours::joined_pass(kerning, version, kerned, &our_table);
    let theirs = move |kerned: &mut Kerned| theirs::joined_pass(kerning, kerned, &their_table);
    Subject::of_work(name, calls_on(LARGEST_ROOM), line, false, ours, theirs)
}

/// Glyphs of lines are below this number.
const GLYPHS: u16 = 256;

/// Subtables of every format.
fn passes(random: &mut Random) -> Vec<(Edition, &'static str, Vec<u8>)> {
    let [kern_pairs, kerx_pairs] = [KERN, KERX].map(|edition| ordered_pairs(random, edition, 2_000));
    let [kern_machine, kerx_machine] = [KERN, KERX].map(|edition| machine(random, edition));
    vec![
        (KERN, "2,000 ordered pairs", kern_pairs),
        (KERN, "machine", kern_machine),
        (KERX, "2,000 ordered pairs", kerx_pairs),
        (KERX, "class pairs", class_pairs(random, GLYPHS)),
        (KERX, "machine", kerx_machine),
    ]
}

/// So many different pairs of glyphs, in order.
fn ordered_pairs(random: &mut Random, edition: Edition, count: usize) -> Vec<u8> {
    let mut all: Vec<u16> = (0..=u16::MAX).collect();
    random.shuffle(&mut all);
    all.truncate(count);
    all.sort_unstable();
    let number = |pair: &u16| -> Pair { (pair / GLYPHS, pair % GLYPHS, (pair % 199) as i16 - 99) };
    let pairs: Vec<Pair> = all.iter().map(number).collect();
    edition.subtable(edition.plain(), 0, &edition.pairs(count as u32, &pairs))
}

/// Eight classes of left glyphs and eight of right ones, for all glyphs below this number.
pub fn class_pairs(random: &mut Random, glyphs: u16) -> Vec<u8> {
    let mut any_classes = |size: u16| -> Vec<u16> { (0..glyphs).map(|_| size * random.below(8) as u16).collect() };
    let [left, right] = [16, 2].map(|size| with_values(8, 0, &any_classes(size)));
    let numbers: Vec<u16> = (0..64).map(|number| number * 3).collect();
    KERX.subtable(KERX.plain(), 2, &classes(16, left, right, &numbers))
}

fn machine(random: &mut Random, edition: Edition) -> Vec<u8> {
    let class_of: Vec<u8> = (0..GLYPHS).map(|_| 4 + random.below(4) as u8).collect();
    edition.subtable(edition.plain(), 1, &of_two_states(edition, &class_of))
}

/// A machine's body that pushes one glyph of three classes, and at the next of them pushes it and kerns both.
fn of_two_states(edition: Edition, class_of: &[u8]) -> Vec<u8> {
    let rows = [[0, 0, 0, 0, 1, 1, 1, 0], [3, 3, 3, 3, 2, 2, 2, 3]].concat();
    let entries = [entry(0, 0, NONE), entry(1, PUSH, NONE), entry(0, PUSH, 0), entry(1, 0, NONE)];
    edition.machine(&Parts {
        first: 0,
        classes: class_of,
        count: 8,
        rows: &rows,
        entries: &entries,
        lists: &[20, 41, 61],
    })
}

/// A machine's body that kerns one glyph of four by itself; the classes from 8 on do what those from 4 to 7 do, and go on to the
/// next state.
fn of_states(states: u16) -> Vec<u8> {
    let rows: Vec<u8> = (0..12 * states as u8).collect();
    let act = |row: &u8| {
        let (state, class) = (u16::from(row / 12), row % 12);
        let next = if class < 8 { state } else { (state + 1) % states };
        match class {
            5 | 9 => entry(next, RESET, NONE),
            6 | 10 => entry(next, PUSH, 0),
            _ => entry(next, 0, NONE),
        }
    };
    let entries: Vec<Entry> = rows.iter().map(act).collect();
    KERX.machine(&Parts { first: 0, classes: &[], count: 12, rows: &rows, entries: &entries, lists: &[20, 41] })
}

fn entry(state: u16, flags: u16, list: u16) -> Entry {
    Entry { state, flags, list }
}

/// A subtable of kerx with a machine of two states, or of so many, and this class table.
pub fn kerx_machine(class_table: Vec<u8>, states: u16) -> Vec<u8> {
    let mut body = if states == 1 { of_two_states(KERX, &[]) } else { of_states(states) };
    let at = body.len() as u32;
    body[4..8].copy_from_slice(&at.to_be_bytes());
    body.extend(class_table);
    KERX.subtable(KERX.plain(), 1, &body)
}

fn any_kerned(random: &mut Random, length: usize) -> Kerned {
    Kerned { line: Line::any(random, length, length, usize::from(GLYPHS)), along: vec![0; length] }
}

fn pass(random: &mut Random, name: String, edition: Edition, subtable: &[u8], length: usize) -> Subject {
    let Edition { kerning, version, .. } = edition;
    let (our_table, their_table) = (subtable.to_vec(), kerning.alone(version, subtable));
    let ours = move |kerned: &mut Kerned| ours::kerning_pass(kerning, version, kerned, &our_table);
    let theirs = move |kerned: &mut Kerned| theirs::kerning_pass(kerning, kerned, &their_table);
    Subject::of_work(name, calls_on(length), any_kerned(random, length), false, ours, theirs)
}

fn run(random: &mut Random, edition: Edition, subtables: &[Vec<u8>], length: usize) -> Subject {
    let kerning = edition.kerning;
    let table = [&[0; ALONE_AT], &edition.table(subtables)[..]].concat();
    let (our_table, their_table) = (table.clone(), table);
    let ours = move |kerned: &mut Kerned| ours::kerning_run(kerning, kerned, &our_table, ALONE_AT);
    let theirs = move |kerned: &mut Kerned| theirs::kerning_run(kerning, kerned, &their_table, ALONE_AT);
    let name = format!("run of {}, {} subtables, {} places", kerning.name(), subtables.len(), grouped(length));
    Subject::of_work(name, calls_on(length), any_kerned(random, length), false, ours, theirs)
}

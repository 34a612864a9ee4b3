//! Anchored marks whose answers follow from the request: differences, distances, stalls, and points on the edges.

use crate::questions::anchored_calls::{AnchoredPass, AnchoredRun};
use crate::questions::anchored_made::{
    some_ankr, some_subtable, subtable, unmarked, Both, CRATES, FIRST, MIXTURES, PLAIN,
};
use crate::questions::kerning_runs::{behind_others, BEFORE};
use crate::questions::Ask;
use crate::reference::anchored::Mark;
use crate::reference::line::DELETED;
use crate::reference::oracle::Answer;
use crate::tables::anchored::{act, ankr, one_state, Act, Parts, Point, ACTIONS, BY_POINTS, MARK, NONE, STAY};
use crate::tables::strings::for_each_string;
use std::rc::Rc;

/// A table of one subtable, whose pass and run are known; a run that turns the line leaves the marks turned round.
fn known(asked: &mut dyn Ask, subtable: Vec<u8>, ankr: &Rc<[u8]>, glyphs: &[u16], written: (Answer<()>, &[Mark])) {
    let (answer, marks) = (written.0, written.1.to_vec());
    let listed = behind_others(PLAIN.table(&[subtable.clone()]));
    let (version, lent) = (PLAIN.version, unmarked(glyphs));
    for choices in MIXTURES {
        let (ankr, lent, written) = (ankr.clone(), lent.clone(), Some((answer, marks.clone())));
        let pass = AnchoredPass { version, choices, ankr, lent, start: 0, written };
        asked.ask(&Rc::from(&subtable[..]), Box::new(pass));
    }
    known_run(asked, &listed, ankr, glyphs, &vec![0; glyphs.len()], &marks);
}

/// A table whose run is known, and is the same, turned round, on the same line from right to left.
fn known_run(asked: &mut dyn Ask, table: &Rc<[u8]>, ankr: &Rc<[u8]>, glyphs: &[u16], along: &[i64], marks: &[Mark]) {
    for right_to_left in [0, 1] {
        let (mut glyphs, mut along, mut marks) = (glyphs.to_vec(), along.to_vec(), marks.to_vec());
        if right_to_left == 1 {
            glyphs.reverse();
            along.reverse();
            marks.reverse();
        }
        let (ankr, lent, start, written) = (ankr.clone(), unmarked(&glyphs), BEFORE as u64, Some((along, marks)));
        asked.ask(table, Box::new(AnchoredRun { choices: CRATES, ankr, lent, start, right_to_left, written }));
    }
}

const DONE: Answer<()> = Answer::Done(());
const ENDED: Answer<()> = Answer::Ended;
const OFF: Mark = (0, 0, 0);

/// The request's own answers: the difference of two points, the distance back, a mark on the glyph itself, the last one written, no
/// mark yet, no points, and no record.
pub fn known_answers(asked: &mut dyn Ask) {
    let (ankr, none) = (some_ankr(), Rc::from(Vec::new()));
    let table = some_subtable(BY_POINTS);
    known(asked, table.clone(), &ankr, &[5, 6], (DONE, &[OFF, (70, -50, 1)]));
    known(asked, table.clone(), &ankr, &[5, 6, 9, 6], (DONE, &[OFF, (70, -50, 1), OFF, (70, -50, 3)]));
    known(asked, table.clone(), &ankr, &[7, 6], (DONE, &[OFF, (-29, -248, 1)]));
    known(asked, table.clone(), &none, &[5, 6], (DONE, &[OFF, OFF]));
    known(asked, table.clone(), &ankr, &[9, 6], (DONE, &[OFF, OFF]));
    known(asked, table, &ankr, &[5, 9], (DONE, &[OFF, OFF]));
    for action in [0, 2, 3] {
        known(asked, some_subtable(action), &ankr, &[5, 6, 7], (DONE, &[OFF, OFF, OFF]));
    }
    // A mark on the glyph itself, by two of its points: a record for points 1 and 0.
    let parts = |records| Parts {
        action: BY_POINTS,
        first: FIRST,
        classes: &[4, 5, 6],
        count: 7,
        rows: &[0, 0, 0, 0, 1, 2, 3],
        acts: &[
            Act { state: 0, flags: 0, record: NONE },
            Act { state: 0, flags: MARK, record: 0 },
            Act { state: 0, flags: 0, record: 0 },
            Act { state: 0, flags: 0, record: 2 },
        ],
        records,
    };
    let itself = subtable(0, &parts(&[(1, 0)]).body());
    known(asked, itself.clone(), &ankr, &[5], (DONE, &[(-107, -192, 0)]));
    known(asked, itself.clone(), &ankr, &[5, 6], (DONE, &[(-107, -192, 0), (-37, -242, 1)]));
    // A record that is not there ends the pass, and what was written before stays.
    known(asked, itself, &ankr, &[5, 7, 5, 6], (ENDED, &[(-107, -192, 0), OFF, OFF, OFF]));
    // Before any mark the mark is place 0 with glyph 0.
    let from_0 =
        Rc::from(self::ankr(8, 0, &[vec![(1_000, 2_000)], vec![], vec![], vec![], vec![], vec![], vec![(1, 2)]]));
    let table = some_subtable(BY_POINTS);
    known(asked, table.clone(), &from_0, &[6], (DONE, &[(999, 1_998, 0)]));
    known(asked, table, &from_0, &[9, 9, 6], (DONE, &[OFF, OFF, (999, 1_998, 2)]));
    // The last one written stands: two steps at one place, by records 0 and 1.
    let twice = Parts {
        rows: &[0, 0, 0, 0, 1, 2, 2, 0, 0, 0, 0, 1, 3, 3],
        acts: &[
            Act { state: 0, flags: 0, record: NONE },
            Act { state: 0, flags: MARK, record: NONE },
            Act { state: 1, flags: STAY, record: 0 },
            Act { state: 0, flags: 0, record: 2 },
        ],
        ..parts(&[(0, 0), (1, 1)])
    };
    known(asked, subtable(0, &twice.body()), &ankr, &[5, 6], (DONE, &[OFF, (-18, 20, 1)]));
    mixed_answers(asked, &ankr);
}

/// Pairs and marks in one list, in either order.
fn mixed_answers(asked: &mut dyn Ask, ankr: &Rc<[u8]>) {
    let marks = some_subtable(BY_POINTS);
    let pairs = PLAIN.subtable(0, 0, &PLAIN.pairs(1, &[(5, 6, 10)]));
    for subtables in [[marks.clone(), pairs.clone()], [pairs, marks]] {
        let table = behind_others(PLAIN.table(&subtables));
        known_run(asked, &table, ankr, &[5, 6, 6], &[10, 0, 0], &[OFF, (70, -50, 1), (70, -50, 2)]);
    }
}

/// The distances that are tried: 255 and more write nothing.
const DISTANCES: [usize; 10] = [0, 1, 2, 3, 253, 254, 255, 256, 300, 1_000];

/// Marks so far from each other, at the beginning of a line and elsewhere; by the mark before any, too; and by steps.
pub fn distances(asked: &mut dyn Ask) {
    let points: Vec<Vec<Point>> = vec![vec![(500, -500)], vec![(1, 1)], vec![], vec![], vec![], vec![(3, 4), (5, 7)]];
    let ankr = Rc::from(ankr(6, 0, &points));
    // Glyph 1 is marked, 2 does nothing, 5 is written by record 0, and 4 is marked and written.
    let acts = [act(MARK, NONE), act(0, NONE), act(0, NONE), act(MARK, 0), act(0, 0)];
    let bytes = subtable(0, &one_state(BY_POINTS, 1, &acts, 1));
    let table = Rc::from(&bytes[..]);
    for distance in DISTANCES {
        let is_near = distance < 255;
        for before in [0, 3] {
            let (mut glyphs, mut marks) = (vec![2; before], vec![OFF; before]);
            if distance > 0 {
                glyphs.push(1);
                glyphs.resize(before + distance, 2);
                glyphs.push(5);
                marks.resize(before + distance, OFF);
                marks.push(if is_near { (1 - 3, 1 - 4, distance as u16) } else { OFF });
            } else {
                glyphs.push(5);
                marks.push((500 - 3, -500 - 4, before as u16));
            }
            known(asked, bytes.clone(), &ankr, &glyphs, (DONE, &marks));
        }
        let unmarked = [vec![2; distance], vec![5]].concat();
        let mut marks = vec![OFF; distance];
        marks.push(if is_near { (500 - 3, -500 - 4, distance as u16) } else { OFF });
        known(asked, bytes.clone(), &ankr, &unmarked, (DONE, &marks));
        for mark in [0, 7] {
            let index = mark + distance as u64;
            for glyph in [4, 5, 2, 0, DELETED] {
                for length in [index, index + 1] {
                    Both::new(&table, &ankr).step(asked, CRATES, [0, mark, 1, 0], (length, index, glyph));
                }
            }
        }
    }
}

/// Every line of up to four glyphs by every machine of one state with two entries: marked, written, both or neither.
pub fn short_lines(asked: &mut dyn Ask) {
    let ankrs = [some_ankr(), Rc::from(ankr(2, 0, &vec![vec![(9, 99), (-99, 9)]; 7]))];
    for action in ACTIONS {
        for_each_string(&[0, MARK, STAY, MARK | STAY], 2, &mut |flags| {
            for_each_string(&[0, 1, NONE], 2, &mut |records| {
                if flags.len() < 2 || records.len() < 2 {
                    return;
                }
                let acts: Vec<Act> = flags.iter().zip(records).map(|(flags, record)| act(*flags, *record)).collect();
                let table = Rc::from(subtable(0, &one_state(action, FIRST, &acts, 2)));
                let longest = if action == BY_POINTS { 4 } else { 2 };
                for_each_string(&[5, 6, DELETED], longest, &mut |glyphs| {
                    if !glyphs.is_empty() {
                        Both::new(&table, &ankrs[glyphs.len() % 2]).all(asked, &[CRATES], glyphs);
                    }
                });
            });
        });
    }
}

/// Entries that do not advance, from states that have not advanced so often.
pub fn stalls(asked: &mut dyn Ask) {
    let ankr = some_ankr();
    for flags in [STAY, STAY | MARK] {
        let table = Rc::from(subtable(0, &one_state(BY_POINTS, FIRST, &[act(MARK, NONE), act(flags, 0)], 1)));
        let both = Both::new(&table, &ankr);
        for cycles in 0..=19 {
            both.step(asked, CRATES, [0, 0, 5, cycles], (4, 2, 6));
            both.step(asked, CRATES, [0, 0, 5, cycles], (4, 2, 5));
        }
        for length in 1..6 {
            both.pass(asked, CRATES, &[&vec![5; length][..], &[6, 6, 5, 6]].concat());
        }
    }
    // A stall of two states, each of which writes another record; the one that is left is the last before the line goes on.
    let turns = Parts {
        action: BY_POINTS,
        first: FIRST,
        classes: &[4, 5, 5],
        count: 6,
        rows: &[0, 0, 0, 0, 1, 2, 0, 0, 0, 0, 1, 3],
        acts: &[
            Act { state: 0, flags: 0, record: NONE },
            Act { state: 0, flags: MARK, record: NONE },
            Act { state: 1, flags: STAY, record: 0 },
            Act { state: 0, flags: STAY, record: 2 },
        ],
        records: &[(0, 0), (1, 1)],
    };
    let table = Rc::from(subtable(0, &turns.body()));
    for glyphs in [&[5, 6][..], &[5, 6, 6], &[6, 5, 6, 7, 7, 5, 7]] {
        Both::new(&table, &ankr).all(asked, &MIXTURES, glyphs);
    }
}

/// Points with the least and the largest coordinates, whose differences do not fit 16 bits.
pub fn points_on_edges(asked: &mut dyn Ask) {
    let edges = [i16::MIN, i16::MIN + 1, -1, 0, 1, i16::MAX - 1, i16::MAX];
    let table = some_subtable(BY_POINTS);
    for marked in edges {
        for current in edges {
            for (first, second) in [((marked, current), (current, marked)), ((marked, marked), (current, current))] {
                let ankr = Rc::from(ankr(8, FIRST, &[vec![first], vec![second], vec![]]));
                let less = |one: i16, other: i16| i32::from(one) - i32::from(other);
                let mark = (less(first.0, second.0), less(first.1, second.1), 1);
                known(asked, table.clone(), &ankr, &[5, 6], (DONE, &[OFF, mark]));
            }
        }
    }
}

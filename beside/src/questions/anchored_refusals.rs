//! What calls for anchored marks are refused for, and the largest that are not.

use crate::questions::anchored_calls::{AnchorStep, AnchoredPass, AnchoredRun};
use crate::questions::anchored_made::{
    body_of, some, some_ankr, some_subtable, Both, CRATES, FIRST, MANUALS, PLAIN, REVERSED,
};
use crate::questions::kerning_runs::{behind_others, BEFORE};
use crate::questions::steps::for_each_told_length;
use crate::questions::Ask;
use crate::reference::anchored::{Anchored, Marks, Stepped, STATE};
use crate::reference::kerning::{Kerned, Kerning, LARGEST_ADJUSTMENT};
use crate::reference::kerning_choices::Choices;
use crate::reference::line::{DELETED, LARGEST_ROOM};
use crate::reference::oracle::LONGEST_TABLE;
use crate::reference::pass::line_of;
use crate::reference::run::MOST_HEADS;
use crate::tables::anchored::{ankr, BY_POINTS};
use crate::tables::kerning::Edition;
use crate::tables::lines::for_each_length;
use crate::tables::random::Random;
use std::rc::Rc;

/// Numbers about what a state may hold, in each of its slots.
pub fn slots(asked: &mut dyn Ask) {
    let ankr = Rc::from(ankr(6, 0, &vec![vec![(3, 4), (-5, 6)]; 9]));
    let table = Rc::from(some_subtable(BY_POINTS));
    let both = Both::new(&table, &ankr);
    let numbers = [0, 1, 2, 3, 4, 5, 6, 7, 8, 16, 17, 18, 0xFFFF, 0x1_0000, 0x1_0001, 1 << 32, 1 << 63, u64::MAX];
    for slot in 0..STATE {
        for number in numbers {
            for index in 0..=5 {
                for glyph in [5, 6, 7, 9, DELETED] {
                    let mut state = [0, 0, 7, 0];
                    state[slot] = number;
                    both.step(asked, CRATES, state, (4, index, glyph));
                }
            }
        }
    }
}

/// Lengths and rooms about the largest, and marks of other rooms.
pub fn lengths(asked: &mut dyn Ask) {
    let (ankr, table) = (some_ankr(), Rc::from(some_subtable(BY_POINTS)));
    let step = Both::new(&table, &ankr).step_of(CRATES, [0, 0, 5, 0], 3, 2, 6);
    for_each_told_length(&mut |room, length, index| {
        let lent = Stepped { along: vec![7; room], marks: Marks::of(room), ..step.lent.clone() };
        asked.ask(&table, Box::new(AnchorStep { length, index, lent, ..step.clone() }));
    });
    for length in [LARGEST_ROOM - 1, LARGEST_ROOM] {
        for back in 0..4 {
            let index = (length - back) as u64;
            let lent = Stepped {
                state: [0, index.saturating_sub(254), 5, 0],
                along: vec![7; LARGEST_ROOM],
                marks: Marks::of(LARGEST_ROOM),
            };
            asked.ask(&table, Box::new(AnchorStep { length: length as u64, index, lent, ..step.clone() }));
        }
    }
    for room in 0..4 {
        for wrong in 0..7 {
            for other in [0, 1, 2, 3, 4, 5] {
                let mut lent = Stepped { along: vec![7; room], marks: Marks::of(room), ..step.lent.clone() };
                lent.marks = resized(lent.marks, wrong, other);
                let (length, index) = (room as u64, room as u64 / 2);
                asked.ask(&table, Box::new(AnchorStep { length, index, lent, ..step.clone() }));
            }
        }
    }
}

/// Marks of which one part, two or all have another length.
fn resized(mut marks: Marks, which: usize, length: usize) -> Marks {
    if [0, 3, 5, 6].contains(&which) {
        marks.x.resize(length, 1);
    }
    if [1, 3, 4, 6].contains(&which) {
        marks.y.resize(length, 1);
    }
    if [2, 4, 5, 6].contains(&which) {
        marks.back.resize(length, 1);
    }
    marks
}

/// All that a pass, a run or a step is refused for, in every mix.
pub fn refusals(asked: &mut dyn Ask) {
    let whole = some_ankr().to_vec();
    let lengthened = |bytes: &[u8], length| {
        let mut bytes = bytes.to_vec();
        bytes.resize(length, 0);
        Rc::from(bytes)
    };
    let ankrs: [Rc<[u8]>; 4] =
        [0, whole.len(), LONGEST_TABLE, LONGEST_TABLE + 1].map(|length| lengthened(&whole, length));
    let edition = |tuples| Edition::new(Kerning::Kerx, 4, tuples);
    for (number, (tuples, format)) in [(0, 4), (1, 4), (1, 3), (0, 1), (1, 1), (0, 3)].into_iter().enumerate() {
        let subtable = edition(tuples).subtable(0, format, &body_of(format));
        for length in [subtable.len(), LONGEST_TABLE, LONGEST_TABLE + 1] {
            if number > 1 && length == LONGEST_TABLE {
                continue;
            }
            let table = lengthened(&subtable, length);
            for (ankr_number, ankr) in ankrs.iter().enumerate() {
                // Few of the calls with the longest tables, which take time on the pipe and in the box.
                let few = ankr_number > 1;
                for choices in [CRATES, MANUALS] {
                    for start in [0, length, length + 1] {
                        if few && start == length {
                            continue;
                        }
                        let both = Both { version: 4, ..Both::new(&table, ankr) };
                        refused_calls(asked, &both, choices, start as u64, few);
                    }
                }
            }
        }
    }
}

/// A step with each number that it is refused for, and a pass and a run on lines and none.
fn refused_calls(asked: &mut dyn Ask, both: &Both, choices: Choices, start: u64, few: bool) {
    for wrong in 0..10 {
        if few && wrong % 3 != 0 {
            continue;
        }
        let mut step = AnchorStep { start, ..both.step_of(choices, [0, 1, 5, 0], 4, 2, 6) };
        match wrong {
            1 => step.lent.along[0] = (1 << 40) + 1,
            2 => step.length = 6,
            3 => step.lent.marks.y.truncate(2),
            4 => step.index = 5,
            5 => step.lent.state[0] = 0x1_0000,
            6 => step.lent.state[1] = 3,
            7 => step.lent.state[2] = 0x1_0000,
            8 => step.lent.state[3] = 18,
            9 => (step.index, step.lent.state[1]) = (5, 6),
            _ => {}
        }
        asked.ask(both.table, Box::new(step));
    }
    for wrong in 0..5 {
        if few && wrong % 2 != 0 {
            continue;
        }
        let mut lent = some(line_of(&[5, 6, 5], 3));
        match wrong {
            1 => lent.kerned.line.used = 4,
            2 => lent.marks.x.truncate(2),
            3 => lent.kerned.along[1] = -(1 << 40) - 1,
            4 => lent.marks.back.push(1),
            _ => {}
        }
        let (version, ankr) = (both.version, both.ankr.clone());
        let pass = AnchoredPass { version, choices, ankr: ankr.clone(), lent: lent.clone(), start, written: None };
        asked.ask(both.table, Box::new(pass));
        let run = AnchoredRun { choices, ankr, lent, start, right_to_left: 0, written: None };
        asked.ask(both.table, Box::new(run));
    }
}

/// Lengths of all parts, most of them no line's, on a right subtable, on one that is refused by itself, and in a list.
pub fn refused_lines(asked: &mut dyn Ask) {
    let (ankr, version, choices) = (some_ankr(), PLAIN.version, CRATES);
    let right = some_subtable(BY_POINTS);
    let none: Rc<[u8]> = Rc::from(&right[..20]);
    let listed = behind_others(PLAIN.table(&[right.clone()]));
    let right = Rc::from(right);
    let mut turns = 0;
    for_each_length(FIRST, &mut |line| {
        let room = line.glyphs.len();
        let others = [room, room + 1, room.saturating_sub(1), 0];
        for other in others {
            turns += 1;
            let which = turns % 8;
            let along = if which == 7 { other } else { room };
            let kerned = Kerned { line: line.clone(), along: vec![0; along] };
            let lent = Anchored { kerned, marks: resized(Marks::of(room), which, other) };
            for table in [&right, &none] {
                let (ankr, lent) = (ankr.clone(), lent.clone());
                asked.ask(table, Box::new(AnchoredPass { version, choices, ankr, lent, start: 0, written: None }));
            }
            let (ankr, right_to_left, start) = (ankr.clone(), turns as u32 % 2, BEFORE as u64);
            asked.ask(&listed, Box::new(AnchoredRun { choices, ankr, lent, start, right_to_left, written: None }));
        }
    });
}

/// Adjustments about the largest: the bound concerns them alone, whatever the marks are.
pub fn large_adjustments(asked: &mut dyn Ask) {
    let (ankr, table) = (some_ankr(), Rc::from(some_subtable(BY_POINTS)));
    let largest = LARGEST_ADJUSTMENT as i64;
    for number in [largest, largest + 1, -largest, -largest - 1, i64::MIN, i64::MAX] {
        for place in 0..5 {
            let mut lent = some(line_of(&[5, 6, 6], 5));
            lent.kerned.along[place] = number;
            lent.marks.x[place] = i32::MIN;
            lent.marks.y[place] = i32::MAX;
            lent.marks.back[place] = u16::MAX;
            let (version, ankr) = (PLAIN.version, ankr.clone());
            let mut step = Both::new(&table, &ankr).step_of(CRATES, [0, 0, 5, 0], 4, 2, 6);
            step.lent.along[place] = number;
            step.lent.marks = lent.marks.clone();
            asked.ask(&table, Box::new(step));
            let pass = AnchoredPass { version, choices: CRATES, ankr, lent, start: 0, written: None };
            asked.ask(&table, Box::new(pass));
        }
    }
}

/// As many heads as are counted, one fewer and more: a subtable of marks that comes again because its size is 0.
pub fn many_heads(asked: &mut dyn Ask) {
    let ankr = some_ankr();
    for bits in [0, REVERSED, 0x8000_0000] {
        let mut again = PLAIN.subtable(bits, 4, &body_of(4));
        again[PLAIN.size_at()].fill(0);
        for count in [1, 3, MOST_HEADS - 1, MOST_HEADS, MOST_HEADS + 1, u32::MAX] {
            let table = behind_others([Kerning::Kerx.head(PLAIN.version, count), again.clone()].concat());
            Both::new(&table, &ankr).run(asked, CRATES, &[5, 6, 7]);
        }
    }
}

/// Lines that fill the largest room: marked here and there, all marked, and none.
pub fn long_lines(asked: &mut dyn Ask, random: &mut Random) {
    let (ankr, version) = (some_ankr(), PLAIN.version);
    let alone = Rc::from(some_subtable(BY_POINTS));
    let listed =
        behind_others(PLAIN.table(&[PLAIN.subtable(REVERSED, 4, &body_of(4)), PLAIN.subtable(0, 0, &body_of(0))]));
    for rarely in [1, 3, 200, 400, 40_000] {
        for used in [LARGEST_ROOM - 1, LARGEST_ROOM] {
            let glyphs: Vec<u16> =
                (0..used).map(|_| if random.once_in(rarely) { random.among(&[5, 7]) } else { 6 }).collect();
            let lent = some(line_of(&glyphs, LARGEST_ROOM));
            let (choices, written) = (CRATES, None);
            let pass = AnchoredPass { version, choices, ankr: ankr.clone(), lent: lent.clone(), start: 0, written };
            asked.ask(&alone, Box::new(pass));
            for right_to_left in [0, 1] {
                let (ankr, lent, start) = (ankr.clone(), lent.clone(), BEFORE as u64);
                asked.ask(&listed, Box::new(AnchoredRun { choices, ankr, lent, start, right_to_left, written: None }));
            }
        }
    }
}

//! kerx in the manual's reading beside the plain model of it: steps, passes and runs; and steps by all other choices.

use crate::fuzz::case::Chosen;
use crate::fuzz::seeds::Seed;
use crate::fuzz::source::Source;
use crate::questions::kerning_choices::{any_kerned, any_longest, unkerned, ByTurns};
use crate::questions::kerning_passes::Pass;
use crate::questions::kerning_runs::{behind_others, KerningRun, BEFORE};
use crate::questions::kerning_steps::{any_state, Step, Steps};
use crate::questions::passes::for_each_table;
use crate::questions::{Ask, Part, Question};
use crate::reference::kerning::{Kerned, Kerning, ALONE_AT};
use crate::reference::kerning_by_copy::{DEEPEST, STATE};
use crate::reference::kerning_choices::{Choices, JOINED_PAIRS, MANUAL_LISTS};
use crate::reference::line::{Line, DELETED};
use crate::reference::oracle::{Answer, LONGEST_TABLE};
use crate::reference::pass::line_of;
use crate::tables::kerning::{classes, Edition, Entry as Act, Parts, NONE, PUSH, RESET, STAY};
use crate::tables::kerning_examples::documented;
use crate::tables::kerx_manual::{
    any_manual_subtable, any_manual_table, any_version, in_bytes, trimmed, with_class_table, with_value_table,
    UNIT_SIZES,
};
use crate::tables::lines::{any_along, any_glyphs};
use crate::tables::lookup::{with_values, words, Made};
use crate::tables::random::Random;
use crate::tables::strings::for_each_string;
use crate::wire::entries::Entry;
use std::ops::Range;
use std::rc::Rc;

/// Calls in the manual's reading, and steps by choices.
pub struct Manual;

impl Part for Manual {
    fn name(&self) -> &'static str {
        "manual"
    }

    fn every(&self) -> u64 {
        2
    }

    fn entries(&self) -> Vec<Entry> {
        vec![Entry::KerxStepBy]
    }

    fn ask(&self, asked: &mut dyn Ask, random: &mut Random, cases: u64) {
        long_lists(asked);
        known_answers(asked);
        short_lists(asked);
        unit_sizes(asked);
        tuple_counts(asked);
        indexes(asked, random);
        refusals(asked);
        cut_subtables(asked);
        random_subtables(asked, random, cases / 2);
        random_tables(asked, random, cases / 2);
        Steps(Kerning::Kerx).ask(&mut ByTurns::new(asked), random, cases / 25);
    }

    fn chosen(&self, entry: Entry, chosen: Chosen, source: &mut Source) -> Box<dyn Question> {
        let choices = Choices(source.number() as u32);
        let plain = Steps(Kerning::Kerx).chosen(entry, chosen, source);
        plain.with_choices(choices).expect("a question that can be told choices")
    }

    fn seed(&self, random: &mut Random, entry: Entry) -> Seed {
        let plain = Steps(Kerning::Kerx).seed(random, entry);
        Seed { more: [&[random.below(4) as u8], &plain.more[..]].concat(), ..plain }
    }
}

/// All mixtures of the two choices.
const MIXTURES: [Choices; 4] =
    [Choices(0), Choices(JOINED_PAIRS), Choices(MANUAL_LISTS), Choices(JOINED_PAIRS | MANUAL_LISTS)];

const CRATES: Choices = Choices(0);
const MANUALS: Choices = Choices(MANUAL_LISTS);

/// A kerx list's edition of a version, with a tuple count.
const fn edition(version: u16, tuples: u32) -> Edition {
    Edition::new(Kerning::Kerx, version, tuples)
}

const PLAIN: Edition = edition(2, 0);

fn ask_pass(asked: &mut dyn Ask, edition: Edition, table: &Rc<[u8]>, choices: Choices, glyphs: &[u16]) {
    let lent = Kerned::of(line_of(glyphs, glyphs.len() + 1));
    asked.ask(table, Box::new(Pass { edition, choices: Some(choices), lent, start: 0, written: None }));
}

fn ask_step(asked: &mut dyn Ask, edition: Edition, table: &Rc<[u8]>, choices: Choices, step: &Step) {
    asked.ask(table, Box::new(Step { edition, choices: Some(choices), ..step.clone() }));
}

fn ask_run(asked: &mut dyn Ask, table: &Rc<[u8]>, choices: Choices, glyphs: &[u16]) {
    for right_to_left in [0, 1] {
        let (kerning, choices, start) = (Kerning::Kerx, Some(choices), BEFORE as u64);
        let lent = Kerned::of(line_of(glyphs, glyphs.len() + 1));
        asked.ask(table, Box::new(KerningRun { kerning, choices, lent, start, right_to_left, written: None }));
    }
}

/// The machine's body whose glyphs from 5 on have an entry each, its lists by bytes.
fn machine(acts: &[Act], lists: &[i16]) -> Vec<u8> {
    let nothing = Act { state: 0, flags: 0, list: NONE };
    let numbers = 0..acts.len() as u8;
    let class_of: Vec<u8> = numbers.clone().map(|number| 4 + number).collect();
    let rows: Vec<u8> = [vec![0; 4], numbers.map(|number| 1 + number).collect()].concat();
    in_bytes(PLAIN.machine(&Parts {
        first: 5,
        classes: &class_of,
        count: 4 + acts.len() as u16,
        rows: &rows,
        entries: &[&[nothing], acts].concat(),
        lists,
    }))
}

fn act(flags: u16, list: u16) -> Act {
    Act { state: 0, flags, list }
}

/// A step at the second place of a line of nine, from a state with so many places on the stack, the last of them behind the line.
fn step_of(depth: usize, glyph: u16) -> Step {
    let mut state = [0; STATE];
    state[1] = depth as u64;
    for slot in 0..DEEPEST {
        state[3 + slot] = (5 * slot as u64 + 5) % 10;
    }
    Step { edition: PLAIN, choices: None, start: 0, state, length: 9, index: 1, glyph, along: (10..20).collect() }
}

/// The request's own answers, by passes and by runs: the place of a list, its end, odd numbers, and classes of one byte.
fn known_answers(asked: &mut dyn Ask) {
    let of_manual = &documented()[0];
    let (first, line) = (of_manual.table[ALONE_AT..].to_vec(), &of_manual.line[..]);
    known(asked, first.clone(), line, CRATES, (Answer::Ended, &[0, 0]));
    known(asked, first, line, MANUALS, (Answer::Done(()), &[-11, -20]));
    let table_of = |body: &[u8]| PLAIN.table(&[PLAIN.subtable(PLAIN.plain(), 1, body)]);
    // Glyph 5 is pushed, 6 takes the list from its beginning, 7 from its second number.
    let acts = [act(PUSH, NONE), act(0, 0), act(0, 1)];
    let ended = table_of(&machine(&acts, &[-1, 20, 40]));
    known(asked, ended.clone(), &[5, 5, 6], MANUALS, (Answer::Done(()), &[0, 0, 0]));
    known(asked, ended, &[5, 5, 6, 7], MANUALS, (Answer::Done(()), &[40, 20, 0, 0]));
    let odd = table_of(&machine(&acts, &[21, 41, -1]));
    known(asked, odd.clone(), &[5, 5, 5, 6], MANUALS, (Answer::Done(()), &[0, 41, 21, 0]));
    known(asked, odd, &[5, 5, 5, 6, 7], MANUALS, (Answer::Done(()), &[41, 41, 21, 0, 0]));
    let short = table_of(&machine(&acts, &[20]));
    known(asked, short, &[5, 5, 6], MANUALS, (Answer::Ended, &[0, 20, 0]));
    // Ten classes, of which 7 and 9 act.
    let entries = [act(0, NONE), act(PUSH, 0), act(PUSH, 1)];
    let rows = [0, 0, 0, 0, 0, 0, 0, 1, 0, 2];
    let body =
        PLAIN.machine(&Parts { first: 5, classes: &[], count: 10, rows: &rows, entries: &entries, lists: &[70, 90] });
    let body = with_class_table(in_bytes(body), &[0, 10, 0, 1, 0, 5, 0, 2, 7, 9]);
    known(asked, table_of(&body), &[5, 6], MANUALS, (Answer::Done(()), &[70, 90]));
}

/// A table of one subtable, whose pass and run are known.
fn known(asked: &mut dyn Ask, table: Vec<u8>, glyphs: &[u16], choices: Choices, written: (Answer<()>, &[i64])) {
    let (answer, along) = written;
    let subtable = Rc::from(&table[8..]);
    let (choices, lent, along) = (Some(choices), unkerned(glyphs), along.to_vec());
    let written = Some((answer, along.clone()));
    asked.ask(&subtable, Box::new(Pass { edition: PLAIN, choices, lent: lent.clone(), start: 0, written }));
    let (kerning, start, written) = (Kerning::Kerx, BEFORE as u64, Some(along));
    let run = KerningRun { kerning, choices, lent, start, right_to_left: 0, written };
    asked.ask(&behind_others(table), Box::new(run));
}

/// The flags of an entry that takes a list.
const FLAGS: [u16; 5] = [0, PUSH, RESET, PUSH | RESET, PUSH | STAY];

/// Every list of up to three numbers, an end, an odd one and others, with little or nothing behind it, taken from its first or
/// its second number: by steps from stacks of all depths, and by passes.
fn short_lists(asked: &mut dyn Ask) {
    for_each_string(&[-1, 20, -31, -32_768], 3, &mut |lists| {
        for flags in FLAGS {
            for behind in [&[][..], &[0xFF], &[0xFF, 0xFF], &[0, 1, 0, 3]] {
                let body = machine(&[act(PUSH, NONE), act(flags, 0), act(flags, 1)], lists);
                let table = Rc::from([&PLAIN.subtable(0, 1, &body), behind].concat());
                for depth in 0..=DEEPEST {
                    let glyph = 6 + (depth % 2) as u16;
                    ask_step(asked, PLAIN, &table, MANUALS, &step_of(depth, glyph));
                }
                for pushed in [0, 1, 3] {
                    let glyphs = [&vec![5; pushed][..], &[6, 5, 7, DELETED, 6, 7]].concat();
                    MIXTURES.iter().for_each(|choices| ask_pass(asked, PLAIN, &table, *choices, &glyphs));
                }
            }
        }
    });
}

/// Lists longer than any stack, with an end at each place and none, from stacks of all depths.
fn long_lists(asked: &mut dyn Ask) {
    for end in 0..=DEEPEST + 2 {
        let mut lists: Vec<i16> = (1..=DEEPEST as i16 + 2).map(|number| 7 * number).collect();
        if let Some(number) = lists.get_mut(end) {
            *number = -1;
        }
        for flags in FLAGS {
            let table = Rc::from(PLAIN.subtable(0, 1, &machine(&[act(PUSH, NONE), act(flags, 0)], &lists)));
            for depth in 0..=DEEPEST {
                for choices in MIXTURES {
                    ask_step(asked, PLAIN, &table, choices, &step_of(depth, 6));
                    ask_pass(asked, PLAIN, &table, choices, &[&vec![5; depth][..], &[6, 6, 5, 6]].concat());
                }
            }
        }
    }
}

/// Indexes and value tables up to the largest, in tables that they lie in and in such that they do not.
fn indexes(asked: &mut dyn Ask, random: &mut Random) {
    const LONG: usize = 0x2_0200;
    let longer = random.bytes(LONG);
    for index in [0, 1, 2, 0x7FFE, 0x7FFF, 0x8000, 0xFFFD, 0xFFFE, 0xFFFF] {
        let body = machine(&[act(PUSH, NONE), act(0, index)], &[20, 40]);
        let end = (body.len() + LONG) as u32;
        let near = end - 2 * u32::from(index);
        for values in [0, 1, 19, 20, 0x100, near - 2, near - 1, near, end - 1, end, 0x7FFF_FFFF, u32::MAX - 1, u32::MAX]
        {
            let body = with_value_table(body.clone(), values);
            for behind in [&[][..], &longer] {
                let table = Rc::from([&PLAIN.subtable(0, 1, &body), behind].concat());
                for depth in [0, 1, 2, DEEPEST] {
                    for choices in [CRATES, MANUALS] {
                        ask_step(asked, PLAIN, &table, choices, &step_of(depth, 6));
                    }
                }
            }
        }
    }
}

/// Class tables, rows and columns of every unit size, whole and cut at every byte, and of the other formats.
fn unit_sizes(asked: &mut dyn Ask) {
    let glyphs = [10, 11, 12, 10, 13, 9, 11, 11, DELETED, 12];
    let lookups = |first: u16, values: &[u16]| -> Vec<Vec<u8>> {
        let mut made: Vec<Vec<u8>> = UNIT_SIZES.iter().map(|unit| trimmed(*unit, first, values)).collect();
        made.extend([0, 2, 4, 6, 8, 10].map(|format| with_values(format, first, values)));
        made.push(words(&[3, 2, first, 1, 4]));
        made.push(words(&[10, 1, 0, 0xFFFF]));
        made
    };
    let body = machine(&[act(PUSH, NONE), act(PUSH, 0), act(0, 1)], &[20, 40, 60, -1]);
    for class_table in lookups(10, &[4, 5, 6]) {
        let subtable = PLAIN.subtable(0, 1, &with_class_table(body.clone(), &class_table));
        for length in subtable.len() - class_table.len()..=subtable.len() {
            let table = Rc::from(&subtable[..length]);
            for choices in MIXTURES {
                ask_pass(asked, PLAIN, &table, choices, &glyphs);
                ask_step(asked, PLAIN, &table, choices, &step_of(2, 11));
            }
        }
    }
    for rows in lookups(10, &[0, 6, 12]) {
        for columns in lookups(10, &[4, 2, 0]) {
            let numbers: Vec<u16> = (1..=9).collect();
            let subtable = PLAIN.subtable(0, 2, &classes(6, rows.clone(), columns.clone(), &numbers));
            for length in [subtable.len() - 18 - columns.len(), subtable.len() - 18, subtable.len() - 1, subtable.len()]
            {
                let table = Rc::from(&subtable[..length]);
                MIXTURES.iter().for_each(|choices| ask_pass(asked, PLAIN, &table, *choices, &glyphs));
            }
        }
    }
}

const VERSIONS: [u16; 6] = [0, 2, 3, 4, 5, 0xFFFF];
const TUPLES: [u32; 5] = [0, 1, 2, 0x8000_0000, u32::MAX];

/// A body of each format, with numbers for glyphs 5 and 6; formats that are left out have one of these.
fn body_of(format: u8) -> Vec<u8> {
    match format {
        0 => PLAIN.pairs(2, &[(5, 6, 10), (6, 5, 30)]),
        2 => classes(4, trimmed(1, 5, &[0, 4]), trimmed(2, 5, &[0, 2]), &[1, 2, 3, 4]),
        _ => machine(&[act(PUSH, NONE), act(PUSH, 0)], &[100, 200, -1]),
    }
}

/// Subtables of every format under tuple counts, by versions that read them and versions that do not: alone, and in runs with
/// others before and behind them.
fn tuple_counts(asked: &mut dyn Ask) {
    let glyphs = [5, 6, DELETED, 6, 5, 5, DELETED, 6];
    for version in VERSIONS {
        for tuples in TUPLES {
            let counted = edition(version, tuples);
            for format in [0, 1, 2, 3, 4, 6] {
                let subtable = counted.subtable(0, format, &body_of(format));
                let listed = [0, 1].map(|other| edition(version, 0).subtable(0, other, &body_of(other)));
                let turned = counted.subtable(0x1000_0000, format, &body_of(format));
                let subtables = [listed[0].clone(), subtable.clone(), listed[1].clone(), turned];
                let table = behind_others(counted.table(&subtables));
                let alone = Rc::from(subtable);
                for choices in MIXTURES {
                    ask_pass(asked, counted, &alone, choices, &glyphs);
                    ask_step(asked, counted, &alone, choices, &step_of(2, 6));
                    ask_run(asked, &table, choices, &glyphs);
                }
            }
        }
    }
}

/// All that a lone pass or step is refused for, in every mix, the tuple count last.
fn refusals(asked: &mut dyn Ask) {
    for (tuples, format) in [(0, 1), (0, 3), (1, 1), (1, 0), (1, 2), (1, 3), (1, 4), (u32::MAX, 1)] {
        let edition = edition(4, tuples);
        let subtable = edition.subtable(0, format, &body_of(format));
        for length in [subtable.len(), LONGEST_TABLE + 1] {
            let mut table = subtable.clone();
            table.resize(length, 0);
            let table = Rc::from(table);
            for choices in [CRATES, MANUALS] {
                for start in [0, length, length + 1] {
                    for wrong in 0..8 {
                        let start = start as u64;
                        let mut step = Step { start, ..step_of(2, 6) };
                        match wrong {
                            1 => step.along[9] = (1 << 40) + 1,
                            2 => step.length = 11,
                            3 => step.index = 10,
                            4 => step.state[0] = 0x1_0000,
                            5 => step.state[1] = 9,
                            6 => step.state[2] = 18,
                            7 => step.state[3] = 10,
                            _ => {}
                        }
                        ask_step(asked, edition, &table, choices, &step);
                    }
                    for used in [3, 4, u64::MAX] {
                        let lent = Kerned::of(Line { used, ..line_of(&[5, 6, 5], 3) });
                        let (choices, start) = (Some(choices), start as u64);
                        asked.ask(&table, Box::new(Pass { edition, choices, lent, start, written: None }));
                    }
                }
            }
        }
    }
}

/// Subtables of every format with tuples and without, cut at every byte, alone and in a list.
fn cut_subtables(asked: &mut dyn Ask) {
    for (version, tuples) in [(2, 1), (4, 0), (4, 1)] {
        let edition = edition(version, tuples);
        for format in [0, 1, 2, 3] {
            let subtable = edition.subtable(0, format, &body_of(format));
            for length in 0..=subtable.len() {
                let table = Rc::from(&subtable[..length]);
                let listed = behind_others(edition.table(&[subtable.clone(), subtable[..length].to_vec()]));
                for choices in [CRATES, MANUALS] {
                    ask_pass(asked, edition, &table, choices, &[5, 6, 5]);
                    ask_step(asked, edition, &table, choices, &step_of(2, 6));
                    ask_run(asked, &listed, choices, &[5, 6, 5]);
                }
            }
        }
    }
}

/// Any choices, mostly of the manual's reading.
fn any_choices(random: &mut Random) -> Choices {
    match random.below(8) {
        0 => Choices(random.number() as u32),
        1 => random.among(&MIXTURES),
        2 => Choices(JOINED_PAIRS | MANUAL_LISTS),
        _ => MANUALS,
    }
}

const CALLS_FOR_ONE_TABLE: u64 = 4;

/// Any subtables: passes by all formats, and steps by machines, from any states.
fn random_subtables(asked: &mut dyn Ask, random: &mut Random, cases: u64) {
    let mut left = cases;
    while left > 0 {
        let glyphs = any_glyphs(random);
        let edition = edition(any_version(random), 0);
        let format = random.among(&[0, 1, 1, 1, 2, 2]);
        let subtable = any_manual_subtable(random, edition.version, format, &glyphs);
        let made = Made::behind_others(random, subtable, Vec::new());
        let table = Rc::from(&made.table[..]);
        let start = made.any_start(random);
        let calls = left.min(CALLS_FOR_ONE_TABLE);
        for _ in 0..calls {
            let choices = Some(any_choices(random));
            if format == 1 && random.once_in(2) {
                asked.ask(&table, Box::new(Step { edition, choices, start, ..any_step(random, &glyphs) }));
            } else {
                let longest = any_longest(random);
                let lent = any_kerned(random, &glyphs, longest);
                asked.ask(&table, Box::new(Pass { edition, choices, lent, start, written: None }));
            }
        }
        left -= calls;
    }
}

fn any_step(random: &mut Random, glyphs: &Range<u16>) -> Step {
    let length = random.below(12);
    let room = length + random.among(&[0, 0, 1, 5]);
    let state = any_state(random, length as u64);
    let index = random.below(length + 1) as u64;
    let glyph = if random.once_in(12) { DELETED } else { glyphs.start + random.below(glyphs.len()) as u16 };
    let along = any_along(random, room);
    Step { edition: PLAIN, choices: None, start: 0, state, length: length as u64, index, glyph, along }
}

/// Any tables.
fn random_tables(asked: &mut dyn Ask, random: &mut Random, cases: u64) {
    for_each_table(random, cases, any_manual_table, &mut |random, table, start, glyphs, _used| {
        let longest = any_longest(random);
        let lent = any_kerned(random, glyphs, longest);
        let (choices, right_to_left) = (Some(any_choices(random)), random.among(&[0, 1, 2, u32::MAX]));
        asked.ask(
            table,
            Box::new(KerningRun { kerning: Kerning::Kerx, choices, lent, start, right_to_left, written: None }),
        );
    });
}

//! Lone kerning steps beside the crate's copy, from fresh and from lent states.

use crate::fuzz::case::Chosen;
use crate::fuzz::seeds::{self, Seed};
use crate::fuzz::source::Source;
use crate::questions::kerning_choices::{count, describe_choices};
use crate::questions::steps::for_each_told_length;
use crate::questions::{Ask, Part, Question};
use crate::reference::kerning::{are_roomy, Kerning};
use crate::reference::kerning_by_copy::{open, DEEPEST, STATE};
use crate::reference::kerning_choices::Choices;
use crate::reference::kerx_readings::Kerx;
use crate::reference::line::LARGEST_ROOM;
use crate::reference::oracle::{Answer, Fault, LONGEST_TABLE};
use crate::reference::trace::describe_state;
use crate::tables::kerning::editions;
use crate::tables::kerning::{any_subtable, Edition};
use crate::tables::kerning_examples::{documented, pushes, runs_on_past_its_end, small_bodies, Documented};
use crate::tables::lines::{any_along, any_glyphs};
use crate::tables::random::Random;
use crate::wire::along::{add_along, along_of, describe_along, lend_along};
use crate::wire::entries::Entry;
use crate::wire::reply::{add, number, numbers};
use std::rc::Rc;

/// A call of a step.
#[derive(Clone)]
pub struct Step {
    pub edition: Edition,
    /// What is chosen, by kerx's entry that takes choices; None is the entry without them.
    pub choices: Option<Choices>,
    pub start: u64,
    pub state: [u64; STATE],
    pub length: u64,
    pub index: u64,
    pub glyph: u16,
    pub along: Vec<i64>,
}

/// The most steps in a row that do not advance.
const MOST_CYCLES: u64 = 17;

/// An answer, and the state and the adjustments that are left.
type Stepped = (Answer<usize>, [u64; STATE], Vec<i64>);

impl Step {
    /// What the call has to answer and to leave.
    fn after(&self, table: &[u8]) -> Result<Stepped, Fault> {
        let left = self.left(table)?;
        if let Some(choices) = self.choices {
            let left_by = |choices| Step { choices: Some(choices), ..self.clone() }.left(table);
            count(self.entry(), choices, |choices| Ok(left_by(choices)? != left))?;
        }
        Ok(left)
    }

    fn left(&self, table: &[u8]) -> Result<Stepped, Fault> {
        let (mut state, mut along) = (self.state, self.along.clone());
        let answer = match self.refusal(table) {
            Some(answer) => answer,
            None => self.made(table, &mut state, &mut along)?,
        };
        Ok((answer, state, along))
    }

    /// The tests before HEAD, in their order.
    fn refusal(&self, table: &[u8]) -> Option<Answer<usize>> {
        let refusals = [
            (table.len() > LONGEST_TABLE, Answer::Table),
            (!are_roomy(&self.along, self.length), Answer::Line),
            (self.index > self.length, Answer::Place),
            (!self.is_state(), Answer::State),
        ];
        refusals.into_iter().find(|refusal| refusal.0).map(|refusal| refusal.1)
    }

    fn is_state(&self) -> bool {
        let [number, depth, cycles] = [0, 1, 2].map(|slot| self.state[slot]);
        let is_deep = depth > DEEPEST as u64;
        let are_places = || self.state[3..].iter().take(depth as usize).all(|place| *place <= self.length);
        number <= 0xFFFF && !is_deep && cycles <= MOST_CYCLES && are_places()
    }

    /// The step by the crate, and where choices are told of by kerx's model, too.
    fn made(&self, table: &[u8], state: &mut [u64; STATE], along: &mut [i64]) -> Result<Answer<usize>, Fault> {
        let Edition { kerning, version, .. } = self.edition;
        let data = match table.get(self.start as usize..) {
            Some(data) => data,
            None => return Ok(Answer::Head),
        };
        let choices = match self.choices {
            Some(choices) => choices,
            None => return self.made_by_crate(data, state, along),
        };
        let reading = choices.reading(kerning);
        let mut of_model = (*state, along.to_vec());
        let length = self.length as usize;
        let subtable = Kerx::new(reading, version, data);
        let by_model = subtable.step(&mut of_model.0, self.index as usize, self.glyph, &mut of_model.1[..length]);
        let by_crate = || Ok((self.made_by_crate(data, state, along)?, (*state, along.to_vec())));
        let (answer, left) = reading.right((by_model, of_model), by_crate)?;
        *state = left.0;
        along.copy_from_slice(&left.1);
        Ok(answer)
    }

    /// The step, if the subtable can be read and has a machine.
    fn made_by_crate(&self, data: &[u8], state: &mut [u64; STATE], along: &mut [i64]) -> Result<Answer<usize>, Fault> {
        let Edition { kerning, version, .. } = self.edition;
        let table = kerning.alone(version, data);
        match open(kerning, &table) {
            Some(machine) => machine.step(state, self.index as usize, self.glyph, &mut along[..self.length as usize]),
            None => Ok(Answer::Head),
        }
    }
}

impl Question for Step {
    fn entry(&self) -> Entry {
        if self.choices.is_some() {
            return Entry::KerxStepBy;
        }
        self.edition.kerning.its(ENTRIES)
    }

    fn arguments(&self, held: u64, call: &mut Vec<u8>) {
        add(&self.state, call);
        lend_along(&self.along, call);
        add(&[self.length], call);
        call.extend(self.edition.version.to_le_bytes());
        add(&[self.start, self.index], call);
        call.extend(self.glyph.to_le_bytes());
        add(&[held], call);
        call.extend(self.choices.iter().flat_map(|choices| choices.0.to_le_bytes()));
    }

    fn reply(&self, table: &[u8], held: u64, reply: &mut Vec<u8>) -> Result<(), Fault> {
        let (answer, state, along) = self.after(table)?;
        let advance = match answer {
            Answer::Done(advance) => advance as u64,
            Answer::Ended => 0,
            _ => held,
        };
        reply.extend(answer.number().to_le_bytes());
        add_along(&along, reply);
        add(&state, reply);
        add(&[advance], reply);
        Ok(())
    }

    fn describe(&self, held: u64) -> String {
        let Edition { kerning, version, .. } = self.edition;
        let told = format!("length {}, index {}, glyph {}, lent advance {}", self.length, self.index, self.glyph, held);
        let lent = format!("state {}; {}", describe_state(&self.state), describe_along(&self.along));
        let chosen = describe_choices(self.choices);
        format!("{} step at start {}, version {}{}: {}; {}", kerning.name(), self.start, version, chosen, told, lent)
    }

    fn with_choices(&self, choices: Choices) -> Option<Box<dyn Question>> {
        match self.edition.kerning {
            Kerning::Kern => None,
            Kerning::Kerx => Some(Box::new(Step { choices: Some(choices), ..self.clone() })),
        }
    }

    fn describe_reply(&self, reply: &[u8]) -> String {
        let (along, bytes) = reply[4..].split_at(8 * self.along.len());
        let numbers = numbers(bytes);
        let (state, advance) = numbers.split_at(STATE);
        let left = format!("state {}; advance {}", describe_state(state), advance[0]);
        format!("answer {}; {}; {}", number(&reply[..4]), left, describe_along(&along_of(along)))
    }
}

const ENTRIES: [Entry; 2] = [Entry::KernStep, Entry::KerxStep];

/// Steps of kern or kerx.
pub struct Steps(pub Kerning);

impl Part for Steps {
    fn name(&self) -> &'static str {
        self.0.name()
    }

    fn entries(&self) -> Vec<Entry> {
        vec![self.0.its(ENTRIES)]
    }

    fn ask(&self, asked: &mut dyn Ask, random: &mut Random, cases: u64) {
        let kerning = self.0;
        examples(asked, kerning);
        refusals(asked, kerning);
        lengths(asked, kerning);
        slots(asked, kerning);
        short_bodies(asked, kerning, random);
        random_states(asked, kerning, random, cases);
        random_passes(asked, kerning, random, cases / 50);
    }

    fn chosen(&self, _entry: Entry, chosen: Chosen, source: &mut Source) -> Box<dyn Question> {
        let Chosen { start, version, told, lent, .. } = chosen;
        let edition = Edition::new(self.0, version, 0);
        let state = [(); STATE].map(|()| source.number());
        let (length, along) = (lent.line.used, lent.along);
        let (index, glyph) = (told.index, told.glyph);
        Box::new(Step { edition, choices: None, start, state, length, index, glyph, along })
    }

    fn seed(&self, random: &mut Random, _entry: Entry) -> Seed {
        Seed { more: vec![0; STATE], ..seeds::any_kerning(random, self.0) }
    }
}

fn ask_step(asked: &mut dyn Ask, table: &Rc<[u8]>, step: &Step) {
    asked.ask(table, Box::new(step.clone()));
}

/// A table's steps on the way of a pass.
fn ask_pass(asked: &mut dyn Ask, edition: Edition, table: &Rc<[u8]>, start: usize, glyphs: &[u16]) {
    let bytes = edition.kerning.alone(edition.version, &table[start..]);
    if let Some(machine) = open(edition.kerning, &bytes) {
        let length = glyphs.len() as u64;
        let show = &mut |state: &[u64; STATE], place: usize, along: &[i64]| {
            let along = [along, &[5]].concat();
            let (start, state, glyph) = (start as u64, *state, glyphs[place]);
            let index = place as u64;
            ask_step(asked, table, &Step { edition, choices: None, start, state, length, index, glyph, along });
        };
        // A fault in the pass is for the passes to show.
        let _ = machine.pass(glyphs, &mut vec![0; glyphs.len()], show);
    }
}

/// The documents' tables, and those that push most, step by step.
fn examples(asked: &mut dyn Ask, kerning: Kerning) {
    for example in documented().into_iter().filter(|example| example.edition.kerning == kerning) {
        let Documented { edition, table, start, line, .. } = example;
        ask_pass(asked, edition, &Rc::from(table), start, &line);
    }
    for edition in editions(kerning) {
        pushes(*edition, &mut |subtable| ask_pass(asked, *edition, &Rc::from(subtable), 0, &[10; 10]));
    }
}

/// A step that is made: one that pushes and takes a list.
fn right_step(edition: Edition) -> (Vec<u8>, Step) {
    let mut made = Vec::new();
    runs_on_past_its_end(edition, &mut |subtable| made = subtable);
    let state = [0; STATE];
    let (choices, along) = (None, vec![1, 2, 3, 4, 5]);
    (made, Step { edition, choices, start: 0, state, length: 3, index: 1, glyph: 11, along })
}

/// All that a step is refused for, in every mix.
fn refusals(asked: &mut dyn Ask, kerning: Kerning) {
    for edition in &editions(kerning)[..2] {
        let (right, step) = right_step(*edition);
        for length in [right.len(), LONGEST_TABLE + 1] {
            let mut table = right.clone();
            table.resize(length, 0);
            let table = Rc::from(table);
            for start in [0, 1, length - 1, length, length + 1, usize::MAX] {
                for length in [3, 5, 6, u64::MAX] {
                    for index in [0, 3, 4, u64::MAX] {
                        for wrong in 0..6 {
                            let mut step = Step { start: start as u64, length, index, ..step.clone() };
                            match wrong {
                                0 => {}
                                1 => step.along[4] = (1 << 40) + 1,
                                slot => step.state[slot - 2] = 1 << 33,
                            }
                            ask_step(asked, &table, &step);
                        }
                    }
                }
            }
        }
    }
}

/// Lengths and rooms about the largest.
fn lengths(asked: &mut dyn Ask, kerning: Kerning) {
    let (table, step) = right_step(editions(kerning)[0]);
    let table = Rc::from(table);
    for_each_told_length(&mut |room, length, index| {
        ask_step(asked, &table, &Step { length, index, along: vec![7; room], ..step.clone() });
    });
    // A stack of the last places, to which numbers are added.
    for length in [LARGEST_ROOM - 1, LARGEST_ROOM] {
        let mut step = Step { length: length as u64, along: vec![7; LARGEST_ROOM], ..step.clone() };
        step.state[1] = 3;
        step.state[3..6].copy_from_slice(&[length as u64 - 2, length as u64 - 1, length as u64]);
        for back in 0..4 {
            ask_step(asked, &table, &Step { index: step.length - back, ..step.clone() });
        }
    }
}

/// Numbers about what a state may hold, in each of its slots, with stacks of all depths.
fn slots(asked: &mut dyn Ask, kerning: Kerning) {
    for edition in editions(kerning) {
        let (table, step) = right_step(*edition);
        let table = Rc::from(table);
        let numbers = [0, 1, 2, 3, 4, 7, 8, 9, 16, 17, 18, 0xFFFF, 0x1_0000, 0x1_0001, 1 << 32, 1 << 63, u64::MAX];
        for depth in 0..=9 {
            for slot in 0..STATE {
                for number in numbers {
                    for glyph in [10, 11] {
                        let mut step = Step { glyph, ..step.clone() };
                        step.state[1] = depth;
                        step.state[slot] = number;
                        ask_step(asked, &table, &step);
                    }
                }
            }
        }
    }
}

/// All small machines, each from a few states.
fn short_bodies(asked: &mut dyn Ask, kerning: Kerning, random: &mut Random) {
    for edition in editions(kerning) {
        small_bodies(*edition, &mut |subtable| {
            let table = Rc::from(subtable);
            for glyph in [10, 11] {
                let mut state = any_state(random, 3);
                state[0] = 0;
                let (index, along) = (random.below(4) as u64, vec![1, 2, 3, 4]);
                let (edition, choices) = (*edition, None);
                ask_step(asked, &table, &Step { edition, choices, start: 0, state, length: 3, index, glyph, along });
            }
        });
    }
}

const STEPS_FOR_ONE_TABLE: u64 = 4;

/// Any subtables, adjustments and states.
fn random_states(asked: &mut dyn Ask, kerning: Kerning, random: &mut Random, cases: u64) {
    let mut left = cases;
    while left > 0 {
        let glyphs = any_glyphs(random);
        let edition = Edition::any(random, kerning);
        let format = if random.once_in(20) { 0 } else { 1 };
        let made = any_subtable(random, edition, format, &glyphs);
        let table = Rc::from(&made.table[..]);
        let start = made.any_start(random);
        let steps = left.min(STEPS_FOR_ONE_TABLE);
        for _ in 0..steps {
            let length = random.below(12) as u64;
            let room = length as usize + random.among(&[0, 0, 1, 5]);
            let mut state = any_state(random, length);
            spoil_state(random, &mut state, length);
            let index = match random.below(16) {
                0 => random.among(&[length + 1, 1 << 32, u64::MAX]),
                _ => random.below(length as usize + 1) as u64,
            };
            let glyph = match random.below(16) {
                0 => random.word(),
                1 => 0xFFFF,
                _ => glyphs.start + random.below(glyphs.len()) as u16,
            };
            let length = if random.once_in(30) { room as u64 + 1 } else { length };
            let along = any_along(random, room);
            ask_step(asked, &table, &Step { edition, choices: None, start, state, length, index, glyph, along });
        }
        left -= steps;
    }
}

/// Steps on the way of so many passes by any subtables.
fn random_passes(asked: &mut dyn Ask, kerning: Kerning, random: &mut Random, passes: u64) {
    for _ in 0..passes {
        let glyphs = any_glyphs(random);
        let edition = Edition::any(random, kerning);
        let made = any_subtable(random, edition, 1, &glyphs);
        let any_glyph = |_| glyphs.start + random.below(glyphs.len()) as u16;
        let line: Vec<u16> = (0..12).map(any_glyph).collect();
        ask_pass(asked, edition, &Rc::from(&made.table[..]), made.start, &line);
    }
}

/// Any state of a line this long.
pub fn any_state(random: &mut Random, length: u64) -> [u64; STATE] {
    let mut state = [0; STATE];
    state[0] = random.among(&[0, 0, 0, 1, 2, 3, 4, 0xFFFF]);
    state[1] = random.among(&[0, 1, 2, 3, 5, 7, 7, 8]);
    state[2] = random.among(&[0, 0, 1, 15, 16, 17]);
    for slot in 0..DEEPEST {
        let is_used = (slot as u64) < state[1];
        state[3 + slot] =
            if is_used || random.once_in(2) { random.below(length as usize + 1) as u64 } else { random.number() };
    }
    state
}

/// Sometimes changes a number of a state to one that may be refused.
fn spoil_state(random: &mut Random, state: &mut [u64; STATE], length: u64) {
    if random.once_in(10) {
        let slot = if random.once_in(2) { random.below(3) } else { random.below(STATE) };
        let any = random.number() >> random.below(64);
        state[slot] = random.among(&[length + 1, 8, 9, 17, 18, 0x1_0000, 1 << 32, u64::MAX, any]);
    }
}

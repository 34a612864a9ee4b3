//! Lone steps beside the crate's copy, from fresh and from lent states.

use crate::fuzz::case::Chosen;
use crate::fuzz::seeds::{self, Seed};
use crate::fuzz::source::Source;
use crate::questions::{Ask, Part, Question};
use crate::reference::line::Line;
use crate::reference::oracle::{caught, Answer, Fault, LONGEST_TABLE};
use crate::reference::pass::line_of;
use crate::reference::step::{Lent, Machine, Sees, Slot, Told, DEEPEST};
use crate::reference::steps_by_copy::open;
use crate::reference::trace::describe_state;
use crate::tables::kinds::any_subtable;
use crate::tables::lines::{any_glyphs, any_line_of, spoil, LARGE_ROOMS};
use crate::tables::lookup::Made;
use crate::tables::morx::{in_chain, subtable, CHAIN_HEADS, SUBTABLE_HEAD};
use crate::tables::random::Random;
use crate::wire::entries::Entry;
use crate::wire::reply::{add, numbers};
use std::ops::Range;
use std::rc::Rc;

/// A call of a step. What it is lent for edits and advance comes from the number held.
pub struct Step {
    machine: &'static Machine,
    start: u64,
    state: Vec<u64>,
    line: Line,
    room: u64,
    told: Told,
}

impl Step {
    /// A step from this state on a line, of which it is told or lent what it sees.
    pub fn new(machine: &'static Machine, start: u64, state: Vec<u64>, line: &Line, told: Told) -> Self {
        Step { machine, start, state, line: machine.sees.of(line), room: line.glyphs.len() as u64, told }
    }

    fn lent(&self, held: u64) -> Lent {
        let mut random = Random::new(held);
        let edits = (0..self.machine.edits).map(|_| random.number()).collect();
        Lent { state: self.state.clone(), line: self.line.clone(), room: self.room, edits }
    }

    /// The answer, and what the call has to leave.
    fn after(&self, table: &[u8], held: u64) -> Result<(Answer<usize>, Lent), Fault> {
        let mut lent = self.lent(held);
        let answer = match self.refusal(table, &lent) {
            Some(answer) => answer,
            None => self.made(table, &mut lent)?,
        };
        Ok((answer, lent))
    }

    /// The tests before HEAD, in their order.
    fn refusal(&self, table: &[u8], lent: &Lent) -> Option<Answer<usize>> {
        let length = lent.line.used;
        let refusals = [
            (table.len() > LONGEST_TABLE, Answer::Table),
            (!self.machine.is_line(lent), Answer::Line),
            (self.told.index > length, Answer::Place),
            (!self.machine.is_state(&lent.state, length), Answer::State),
        ];
        refusals.into_iter().find(|refusal| refusal.0).map(|refusal| refusal.1)
    }

    /// The step, if the subtable can be read and is of the machine's kind.
    fn made(&self, table: &[u8], lent: &mut Lent) -> Result<Answer<usize>, Fault> {
        let bytes = match table.get(self.start as usize..) {
            Some(bytes) => in_chain(bytes),
            None => return Ok(Answer::Head),
        };
        match caught(|| open(&bytes))? {
            Some(opened) if opened.machine.step == self.machine.step => {
                let answer = opened.step(self.told, lent)?;
                self.count_from_table(&mut lent.edits);
                Ok(answer)
            }
            _ => Ok(Answer::Head),
        }
    }

    /// Lists of glyphs lie in the lent table, not in the one that the crate was shown.
    fn count_from_table(&self, edits: &mut [u64]) {
        if self.machine.sees == Sees::LengthAndRoom {
            let made = edits[0] as usize;
            for edit in edits[1..].chunks_mut(3).take(made) {
                edit[2] = edit[2] + self.start - CHAIN_HEADS as u64;
            }
        }
    }

    fn line_in_words(&self, line: &Line) -> String {
        match self.machine.sees {
            Sees::Line => line.describe(),
            Sees::Length => format!("length {}", line.used),
            Sees::LengthAndRoom => format!("length {}, room {}", line.used, self.room),
        }
    }
}

impl Question for Step {
    fn entry(&self) -> Entry {
        self.machine.step
    }

    fn arguments(&self, held: u64, call: &mut Vec<u8>) {
        self.lent(held).lend(self.machine, self.start, self.told, held, call);
    }

    fn reply(&self, table: &[u8], held: u64, reply: &mut Vec<u8>) -> Result<(), Fault> {
        let (answer, lent) = self.after(table, held)?;
        let advance = match answer {
            Answer::Done(advance) => advance as u64,
            Answer::Full | Answer::Ended => 0,
            _ => held,
        };
        lent.line.reply(answer.map(|_| ()), reply);
        add(&lent.state, reply);
        add(&[advance], reply);
        add(&lent.edits, reply);
        Ok(())
    }

    fn describe(&self, held: u64) -> String {
        let Told { index, glyph, ends } = self.told;
        let told = format!("index {}, glyph {}, end flag {}", index, glyph, ends);
        let state = describe_state(&self.state);
        let line = self.line_in_words(&self.line);
        let name = self.machine.kind.name;
        format!("{} step at start {}: {}; lent state {}; {}; advance {}", name, self.start, told, state, line, held)
    }

    fn describe_reply(&self, reply: &[u8]) -> String {
        let count = self.machine.state.len() + 1 + self.machine.edits;
        let (line, bytes) = reply.split_at(reply.len() - 8 * count);
        let numbers = numbers(bytes);
        let (state, rest) = numbers.split_at(self.machine.state.len());
        let line = self.line.describe_reply(line);
        format!("{}; state {}; advance {}; edits {:?}", line, describe_state(state), rest[0], &rest[1..])
    }
}

/// The steps of a machine.
pub struct Steps(pub &'static Machine);

impl Part for Steps {
    fn name(&self) -> &'static str {
        self.0.kind.name
    }

    fn entries(&self) -> Vec<Entry> {
        vec![self.0.step]
    }

    fn ask(&self, asked: &mut dyn Ask, random: &mut Random, cases: u64) {
        let machine = self.0;
        examples(asked, machine);
        refusals(asked, machine);
        lengths(asked, machine);
        slots(asked, machine);
        short_bodies(asked, machine, random);
        limits(asked, machine);
        random_states(asked, machine, random, cases);
        random_passes(asked, machine, random, cases / 50);
    }

    fn chosen(&self, _entry: Entry, chosen: Chosen, source: &mut Source) -> Box<dyn Question> {
        let state = self.0.state.iter().map(|_| source.number()).collect();
        Box::new(Step::new(self.0, chosen.start, state, &chosen.lent.line, chosen.told))
    }

    fn seed(&self, random: &mut Random, _entry: Entry) -> Seed {
        let any = Seed::any(random, |random, glyphs| Made::whole(seeds::any_subtable(random, self.0.kind, glyphs)));
        Seed { more: vec![0; self.0.state.len()], ..any }
    }
}

fn ask_step(asked: &mut dyn Ask, machine: &'static Machine, table: &Rc<[u8]>, state: &[u64], line: &Line, told: Told) {
    ask_at(asked, machine, table, 0, state, line, told);
}

fn ask_at(
    asked: &mut dyn Ask,
    machine: &'static Machine,
    table: &Rc<[u8]>,
    start: u64,
    state: &[u64],
    line: &Line,
    told: Told,
) {
    asked.ask(table, Box::new(Step::new(machine, start, state.to_vec(), line, told)));
}

/// A table's steps on the way of a pass, every one of so many.
fn ask_pass(asked: &mut dyn Ask, machine: &'static Machine, table: &Rc<[u8]>, start: u64, line: &Line, every: usize) {
    let bytes = match table.get(start as usize..) {
        Some(bytes) if line.is_line() => in_chain(bytes),
        _ => return,
    };
    if let Some(opened) = open(&bytes).filter(|opened| opened.machine.step == machine.step) {
        let mut made = 0;
        let show = &mut |told, state: &[u64], line: &Line| {
            if made % every == 0 {
                ask_at(asked, machine, table, start, state, line, told);
            }
            made += 1;
        };
        // A fault in the pass is for the passes to show.
        let _ = opened.pass(&mut line.clone(), show);
    }
}

/// The kind's examples, step by step.
fn examples(asked: &mut dyn Ask, machine: &'static Machine) {
    for example in (machine.kind.examples)() {
        let table = Rc::from(subtable(machine.kind.number, &example.body));
        ask_pass(asked, machine, &table, 0, &example.before, 1);
    }
}

/// Some steps of the passes that bring the kind to its limits.
fn limits(asked: &mut dyn Ask, machine: &'static Machine) {
    (machine.kind.limits)(&mut |body, line| {
        let table = Rc::from(subtable(machine.kind.number, &body));
        ask_pass(asked, machine, &table, 0, &line, 1 + line.length() * 2 / 5);
    });
}

/// All that a step is refused for, in every mix.
fn refusals(asked: &mut dyn Ask, machine: &'static Machine) {
    let example = &(machine.kind.examples)()[0];
    let right = subtable(machine.kind.number, &example.body);
    let mut too_long = right.clone();
    too_long.resize(LONGEST_TABLE + 1, 0);
    let line = line_of(&[10, 11, 12], 5);
    for table in [right, too_long] {
        let table: Rc<[u8]> = Rc::from(table);
        let ends = [0, 1, SUBTABLE_HEAD, table.len() - 1, table.len(), table.len() + 1, usize::MAX];
        for start in ends {
            for length in [3, 4, 5, 6, LONGEST_TABLE as u64, u64::MAX] {
                let line = Line { used: length, ..line.clone() };
                for index in [0, 3, 4, u64::MAX] {
                    for wrong in 0..machine.state.len().min(4) + 1 {
                        let mut state = vec![0; machine.state.len()];
                        state.iter_mut().skip(wrong).take(1).for_each(|number| *number = 1 << 33);
                        let told = Told { index, glyph: 10, ends: 0 };
                        ask_at(asked, machine, &table, start as u64, &state, &line, told);
                    }
                }
            }
        }
    }
}

/// Lengths and rooms about the largest.
fn lengths(asked: &mut dyn Ask, machine: &'static Machine) {
    let example = &(machine.kind.examples)()[0];
    let table = Rc::from(subtable(machine.kind.number, &example.body));
    let state = vec![0; machine.state.len()];
    for_each_told_length(&mut |room, length, index| {
        let line = Line { used: length, ..line_of(&vec![10; room], room) };
        ask_step(asked, machine, &table, &state, &line, Told { index, glyph: 10, ends: 0 });
    });
}

/// Rooms, used lengths and indices about none and about the largest.
pub fn for_each_told_length(show: &mut dyn FnMut(usize, u64, u64)) {
    for room in [0, 1, 2].into_iter().chain(LARGE_ROOMS) {
        let few = [0, 1, 2, 3, 1 << 16, 1 << 32, 1 << 63, u64::MAX];
        let near = [0, room as u64 - u64::from(room > 0), room as u64, room as u64 + 1];
        for length in if room < 3 { &few[..] } else { &near } {
            for index in [0, *length, length.saturating_add(1)] {
                show(room, *length, index);
            }
        }
    }
}

/// Numbers about what a state may hold, in each of its slots; with stacks of some depths.
fn slots(asked: &mut dyn Ask, machine: &'static Machine) {
    let example = &(machine.kind.examples)()[0];
    let table = Rc::from(subtable(machine.kind.number, &example.body));
    let line = line_of(&[10, 11, 12, 10], 6);
    let numbers = [0, 1, 2, 3, 4, 5, 6, 16, 17, 18, 31, 32, 33, 0xFFFF, 0x1_0000, 0x1_0001, 1 << 32, 1 << 63, u64::MAX];
    let depths: &[u64] = if let Slot::Depth = machine.state[1] { &[0, 1, 5, DEEPEST] } else { &[0] };
    for depth in depths {
        for slot in 0..machine.state.len() {
            for number in numbers {
                let mut state = vec![0; machine.state.len()];
                state[1] = *depth;
                state[slot] = number;
                for (index, glyph, ends) in [(2, 10, 0), (4, 11, 0x8000_0000)] {
                    ask_step(asked, machine, &table, &state, &line, Told { index, glyph, ends });
                }
            }
        }
    }
}

/// All of the kind's small bodies, each from a few states.
fn short_bodies(asked: &mut dyn Ask, machine: &'static Machine, random: &mut Random) {
    let line = line_of(&[10, 11, 10], 5);
    (machine.kind.short_bodies)(&mut |body| {
        let table = Rc::from(subtable(machine.kind.number, &body));
        for glyph in [10, 11] {
            let mut state = any_state(random, machine, &(10..12), 3);
            state[0] = 0;
            let told = Told { index: random.below(4) as u64, glyph, ends: random.once_in(3).into() };
            ask_step(asked, machine, &table, &state, &line, told);
        }
    });
}

const STEPS_FOR_ONE_TABLE: u64 = 4;

/// Any subtables, lines and states.
fn random_states(asked: &mut dyn Ask, machine: &'static Machine, random: &mut Random, cases: u64) {
    let mut left = cases;
    while left > 0 {
        let glyphs = any_glyphs(random);
        let made = any_subtable(random, machine.kind, &glyphs);
        let table = Rc::from(&made.table[..]);
        let start = made.any_start(random);
        let used = random.among(&[0, 1, 5, 12, 40]);
        let used = random.below(used + 1);
        let room = used + random.among(&[0, 1, 2, 9, 60]);
        let steps = left.min(STEPS_FOR_ONE_TABLE);
        for _ in 0..steps {
            let mut line = any_line_of(random, &glyphs, used, room);
            let mut state = any_state(random, machine, &glyphs, used as u64);
            spoil(random, &mut line);
            spoil_state(random, &mut state, used as u64);
            let told = any_told(random, &glyphs, used as u64);
            ask_at(asked, machine, &table, start, &state, &line, told);
        }
        left -= steps;
    }
}

/// Steps on the way of so many passes by any subtables.
fn random_passes(asked: &mut dyn Ask, machine: &'static Machine, random: &mut Random, passes: u64) {
    for _ in 0..passes {
        let glyphs = any_glyphs(random);
        let made = any_subtable(random, machine.kind, &glyphs);
        let used = random.below(20);
        let room = used + random.among(&[0, 1, 9, 40]);
        let line = any_line_of(random, &glyphs, used, room);
        ask_pass(asked, machine, &Rc::from(&made.table[..]), made.start as u64, &line, 1 + random.below(3));
    }
}

/// Any state of a line this long.
fn any_state(random: &mut Random, machine: &Machine, glyphs: &Range<u16>, length: u64) -> Vec<u64> {
    let mut state: Vec<u64> = Vec::new();
    for slot in machine.state {
        let place = random.below(length as usize + 1) as u64;
        state.push(match slot {
            Slot::State => random.among(&[0, 0, 1, 2, 3, 4, 5, 0xFFFF - place]),
            Slot::Flag => random.below(2) as u64,
            Slot::Cycles => random.among(&[0, 0, 1, 15, 16, 17]),
            Slot::Place => place,
            Slot::Glyph => any_glyph(random, glyphs).into(),
            Slot::Depth => random.among(&[0, 1, 2, 3, 5, 30, 31, 32]),
            Slot::Stacked(slot) if *slot < state[1] || random.once_in(2) => place,
            Slot::Stacked(_) => random.number(),
        });
    }
    state
}

/// Sometimes changes a number of a state to one that may be refused.
fn spoil_state(random: &mut Random, state: &mut [u64], length: u64) {
    if random.once_in(10) {
        let slot = if random.once_in(2) { random.below(3) } else { random.below(state.len()) };
        let any = random.number() >> random.below(64);
        state[slot] = random.among(&[length + 1, length + 2, 2, 17, 18, 32, 33, 0x1_0000, 1 << 32, u64::MAX, any]);
    }
}

fn any_told(random: &mut Random, glyphs: &Range<u16>, length: u64) -> Told {
    let index = match random.below(20) {
        0 => length + 1,
        1 => random.among(&[1 << 16, 1 << 32, u64::MAX]),
        2 | 3 => length,
        _ => random.below(length as usize + 1) as u64,
    };
    let ends = random.among(&[0, 0, 0, 0, 0, 1, 1, 2, 0x8000_0000, u32::MAX]);
    Told { index, glyph: any_glyph(random, glyphs), ends }
}

fn any_glyph(random: &mut Random, glyphs: &Range<u16>) -> u16 {
    match random.below(20) {
        0 => 0xFFFF,
        1 => random.word(),
        _ => glyphs.start + random.below(glyphs.len()) as u16,
    }
}

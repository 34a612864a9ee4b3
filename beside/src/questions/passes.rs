//! Passes over a line beside the crate's machines in document 01's pass.

use crate::fuzz::case::Chosen;
use crate::fuzz::seeds::{self, Seed};
use crate::fuzz::source::Source;
use crate::questions::indexed_calls::{Making, MorxIndexed};
use crate::questions::{Ask, Part, Question};
use crate::reference::kerning_choices::Choices;
use crate::reference::line::{Line, DELETED, LARGEST_ROOM};
use crate::reference::oracle::{caught, Answer, Fault, LONGEST_TABLE};
use crate::reference::pass::line_of;
use crate::reference::passes_by_crate::{caught_pass, number};
use crate::reference::steps_by_copy::open;
use crate::reference::trace::describe_pass;
use crate::tables::cuts::{far_subtables, for_each_cut, for_each_longest_of};
use crate::tables::insertion;
use crate::tables::kinds::{any_subtable, far_numbers, Example, Kind, Written, KINDS};
use crate::tables::lines::{any_glyphs, any_line_of, for_each_length, spoil};
use crate::tables::lookup::{damage, Made};
use crate::tables::morx::{in_chain, subtable, the_subtable, SUBTABLE_HEAD};
use crate::tables::random::Random;
use crate::wire::entries::Entry;
use std::ops::Range;
use std::rc::Rc;

/// A pass by subtables of a kind: the kind's own, or the one that takes every kind.
#[derive(Clone, Copy)]
pub struct By {
    pub entry: Entry,
    pub kind: &'static Kind,
}

impl By {
    fn chosen(self, chosen: Chosen) -> Box<dyn Question> {
        Box::new(Pass { by: self, line: chosen.lent.line, start: chosen.start, written: None })
    }
}

/// A call of a pass.
pub struct Pass {
    pub by: By,
    pub line: Line,
    pub start: u64,
    /// What a document gives, for examples made from its sentences.
    pub written: Option<Written>,
}

impl Pass {
    /// The answer, and the line as the call has to leave it.
    fn after(&self, table: &[u8]) -> Result<(Answer<()>, Line), Fault> {
        let mut line = self.line.clone();
        let answer = match self.refusal(table) {
            Some(answer) => answer,
            None => self.made(table, &mut line)?,
        };
        match &self.written {
            Some(written) if !written.is(answer, &line) => Err(Fault::Disputed),
            _ => Ok((answer, line)),
        }
    }

    fn refusal(&self, table: &[u8]) -> Option<Answer<()>> {
        if table.len() > LONGEST_TABLE {
            Some(Answer::Table)
        } else if !self.line.is_line() {
            Some(Answer::Line)
        } else {
            None
        }
    }

    /// The pass by the crate's machine, if it can be read and is of the kind; steps by its copy have to make the same.
    fn made(&self, table: &[u8], line: &mut Line) -> Result<Answer<()>, Fault> {
        let table = match self.bytes(table) {
            Some(bytes) => in_chain(bytes),
            None => return Ok(Answer::Head),
        };
        let subtable = match caught(|| the_subtable(&table))? {
            Some(subtable) if self.by.entry == Entry::MorxPass || number(&subtable) == self.by.kind.number => subtable,
            _ => return Ok(Answer::Head),
        };
        let mut of_steps = line.clone();
        let answer = caught_pass(&subtable, line)?;
        if let Some(opened) = open(&table) {
            if opened.pass(&mut of_steps, &mut |_, _, _| {})? != answer || of_steps != *line {
                return Err(Fault::Disputed);
            }
        }
        Ok(answer)
    }

    fn bytes<'a>(&self, table: &'a [u8]) -> Option<&'a [u8]> {
        table.get(usize::try_from(self.start).ok()?..)
    }

    /// Whether the entry is lent the used length, and so hands it back.
    fn hands_length_back(&self) -> bool {
        matches!(self.by.entry, Entry::InsertionPass | Entry::MorxPass)
    }
}

impl Question for Pass {
    fn entry(&self) -> Entry {
        self.by.entry
    }

    fn arguments(&self, _held: u64, call: &mut Vec<u8>) {
        self.line.lend(call);
        call.extend(self.start.to_le_bytes());
    }

    fn reply(&self, table: &[u8], _held: u64, reply: &mut Vec<u8>) -> Result<(), Fault> {
        let (answer, line) = self.after(table)?;
        line.reply(answer, reply);
        if self.hands_length_back() {
            reply.extend(line.used.to_le_bytes());
        }
        Ok(())
    }

    fn describe(&self, _held: u64) -> String {
        let entry = if self.by.entry == Entry::MorxPass { ", by the entry for all kinds," } else { "" };
        format!("{} pass{} at start {}, lent {}", self.by.kind.name, entry, self.start, self.line.describe())
    }

    fn describe_reply(&self, reply: &[u8]) -> String {
        if self.hands_length_back() {
            self.line.describe_reply_with_used(reply)
        } else {
            self.line.describe_reply(reply)
        }
    }

    fn with_index(&self, table: &[u8], making: &Making) -> Option<Box<dyn Question>> {
        let index = making.index(table, self.start, Choices::NONE);
        Some(Box::new(MorxIndexed { line: self.line.clone(), start: self.start, index, is_filled: making.is_filled() }))
    }

    fn trace(&self, table: &[u8]) -> Vec<String> {
        match (self.refusal(table), self.bytes(table)) {
            (None, Some(bytes)) => describe_pass(&in_chain(bytes), &self.line),
            _ => Vec::new(),
        }
    }
}

/// A kind's own pass.
pub struct OwnPasses(pub &'static Kind);

impl Part for OwnPasses {
    fn name(&self) -> &'static str {
        self.0.name
    }

    fn entries(&self) -> Vec<Entry> {
        vec![self.0.pass]
    }

    fn ask(&self, asked: &mut dyn Ask, random: &mut Random, cases: u64) {
        let kind = self.0;
        let by = By { entry: kind.pass, kind };
        examples(asked, by);
        short_bodies(asked, by);
        limits(asked, by);
        cut_subtables(asked, by);
        coverages(asked, by);
        far_starts(asked, by);
        far_offsets(asked, by);
        refused_lines(asked, by);
        long_tables(asked, by);
        long_lines(asked, by, random);
        random_subtables(asked, by, random, cases);
    }

    fn chosen(&self, entry: Entry, chosen: Chosen, _source: &mut Source) -> Box<dyn Question> {
        By { entry, kind: self.0 }.chosen(chosen)
    }

    fn seed(&self, random: &mut Random, _entry: Entry) -> Seed {
        Seed::any(random, |random, glyphs| Made::whole(seeds::any_subtable(random, self.0, glyphs)))
    }
}

/// The pass that takes every kind.
pub struct Passes;

impl Part for Passes {
    fn name(&self) -> &'static str {
        "passes"
    }

    fn every(&self) -> u64 {
        25
    }

    fn entries(&self) -> Vec<Entry> {
        vec![Entry::MorxPass]
    }

    fn ask(&self, asked: &mut dyn Ask, random: &mut Random, cases: u64) {
        let of_kind = |kind| By { entry: Entry::MorxPass, kind };
        for by in KINDS.iter().map(of_kind) {
            examples(asked, by);
            cut_subtables(asked, by);
            coverages(asked, by);
            random_subtables(asked, by, random, cases);
        }
        many_subtables(asked, random, cases);
        far_starts(asked, of_kind(&KINDS[0]));
        refused_lines(asked, of_kind(&KINDS[0]));
        long_tables(asked, of_kind(&KINDS[0]));
    }

    fn chosen(&self, entry: Entry, chosen: Chosen, _source: &mut Source) -> Box<dyn Question> {
        By { entry, kind: &KINDS[0] }.chosen(chosen)
    }

    fn seed(&self, random: &mut Random, _entry: Entry) -> Seed {
        Seed::any(random, |random, glyphs| {
            let kind = &KINDS[random.below(KINDS.len())];
            Made::whole(seeds::any_subtable(random, kind, glyphs))
        })
    }
}

fn ask_pass(asked: &mut dyn Ask, by: By, table: &Rc<[u8]>, start: usize, line: &Line) {
    asked.ask(table, Box::new(Pass { by, line: line.clone(), start: start as u64, written: None }));
}

/// The subtable of an example.
fn whole(by: By, example: &Example) -> Vec<u8> {
    subtable(by.kind.number, &example.body)
}

fn examples(asked: &mut dyn Ask, by: By) {
    for example in (by.kind.examples)() {
        let table = Rc::from(whole(by, &example));
        asked.ask(&table, Box::new(Pass { by, line: example.before, start: 0, written: Some(example.written) }));
    }
}

/// The kind's bodies with lines that bring them to their limits.
fn limits(asked: &mut dyn Ask, by: By) {
    (by.kind.limits)(&mut |body, line| ask_pass(asked, by, &Rc::from(subtable(by.kind.number, &body)), 0, &line));
}

/// All of the kind's small bodies on a few lines each.
fn short_bodies(asked: &mut dyn Ask, by: By) {
    let lines: [&[u16]; 6] =
        [&[], &[10], &[10, 11], &[11, 10, 10], &[10, 10, 11, 11, 10], &[10, DELETED, 11, 10, 12, 11]];
    let rooms: &[usize] = if by.kind.number == insertion::KIND.number { &[0, 1, 2, 3, 60] } else { &[0] };
    let in_rooms = |glyphs: &[u16]| rooms.iter().map(|more| line_of(glyphs, glyphs.len() + more)).collect::<Vec<_>>();
    let lines: Vec<Line> = lines.iter().flat_map(|glyphs| in_rooms(glyphs)).collect();
    (by.kind.short_bodies)(&mut |body| {
        let table = Rc::from(subtable(by.kind.number, &body));
        for line in &lines {
            ask_pass(asked, by, &table, 0, line);
        }
    });
}

/// The examples cut at every byte, at their own start and behind other bytes, on their line and on an empty one.
fn cut_subtables(asked: &mut dyn Ask, by: By) {
    for example in (by.kind.examples)() {
        for_each_cut([0, 8, 0], &whole(by, &example), &mut |table, start| {
            ask_pass(asked, by, table, start, &example.before);
            ask_pass(asked, by, table, start, &line_of(&[], 0));
        });
    }
}

/// Every kind under coverage bits that a lone pass does not look at.
fn coverages(asked: &mut dyn Ask, by: By) {
    for example in (by.kind.examples)() {
        for bits in [0, 0x100, 0x8000_0000, 0x5000_0000, 0xFFFF_FF00] {
            for number in 0..=255 {
                let table = Rc::from(subtable(bits | number, &example.body));
                ask_pass(asked, by, &table, 0, &example.before);
            }
        }
    }
}

/// Starts about the end, and those that a number of fewer bits, or a sum without care, would take for one in the table.
fn far_starts(asked: &mut dyn Ask, by: By) {
    for example in (by.kind.examples)() {
        let table: Rc<[u8]> = Rc::from(whole(by, &example));
        for start in far_subtables(table.len(), SUBTABLE_HEAD) {
            ask_pass(asked, by, &table, start, &example.before);
        }
    }
}

/// Numbers in a body's head that fewer bits, or a sum of 32 bits, would take for the right ones or for ones in the table.
fn far_offsets(asked: &mut dyn Ask, by: By) {
    for example in (by.kind.examples)() {
        for before in [0, 64] {
            let table = [vec![0; before], whole(by, &example)].concat();
            for at in (before + SUBTABLE_HEAD..table.len() - 4).step_by(4).take(7) {
                for number in far_numbers(&table, at) {
                    let mut table = table.clone();
                    table[at..at + 4].copy_from_slice(&number.to_be_bytes());
                    ask_pass(asked, by, &Rc::from(table), before, &example.before);
                }
            }
        }
    }
}

/// Lengths of all parts, most of them no line's, on a right subtable and on one that is refused by itself.
fn refused_lines(asked: &mut dyn Ask, by: By) {
    let example = &(by.kind.examples)()[0];
    let right: Rc<[u8]> = Rc::from(whole(by, example));
    let none = Rc::from(&right[..SUBTABLE_HEAD - 1]);
    for_each_length(10, &mut |line| {
        ask_pass(asked, by, &right, 0, &line);
        ask_pass(asked, by, &none, 0, &line);
    });
}

/// Tables at the limit of length and above it, with a subtable at either end, on a line and on none.
fn long_tables(asked: &mut dyn Ask, by: By) {
    let example = &(by.kind.examples)()[0];
    let line = example.before.clone();
    let no_line = Line { used: line.used + 1, ..line.clone() };
    for_each_longest_of(&whole(by, example), &mut |table, start| {
        ask_pass(asked, by, table, start, &line);
        ask_pass(asked, by, table, start, &no_line);
    });
}

const LONG_LINES: usize = 2;

/// Lines that fill the largest room, and almost.
fn long_lines(asked: &mut dyn Ask, by: By, random: &mut Random) {
    for _ in 0..LONG_LINES {
        let glyphs = any_glyphs(random);
        let table = Rc::from(subtable(by.kind.number, &(by.kind.any_body)(random, &glyphs)));
        for used in [LARGEST_ROOM - 1, LARGEST_ROOM] {
            let line = any_line_of(random, &glyphs, used, LARGEST_ROOM);
            ask_pass(asked, by, &table, 0, &line);
        }
    }
}

const LINES_FOR_ONE_TABLE: u64 = 3;

fn random_subtables(asked: &mut dyn Ask, by: By, random: &mut Random, cases: u64) {
    let any_subtable = |random: &mut Random, glyphs: &Range<u16>| any_subtable(random, by.kind, glyphs);
    for_each_subtable(random, cases, any_subtable, &[0, 0, 1, 9, 40], &mut |_, table, start, line| {
        asked.ask(table, Box::new(Pass { by, line, start, written: None }));
    });
}

/// Hands over subtables of any glyphs, each with a few lines that are now and then none, as many lines as there are cases, with one of these
/// rooms behind each.
pub fn for_each_subtable(
    random: &mut Random,
    cases: u64,
    any_subtable: impl Fn(&mut Random, &Range<u16>) -> Made,
    rooms: &[usize],
    show: &mut dyn FnMut(&mut Random, &Rc<[u8]>, u64, Line),
) {
    let mut left = cases;
    while left > 0 {
        let glyphs = any_glyphs(random);
        let made = any_subtable(random, &glyphs);
        let table = Rc::from(&made.table[..]);
        let start = made.any_start(random);
        let lines = left.min(LINES_FOR_ONE_TABLE);
        for _ in 0..lines {
            let longest = random.among(&[2, 5, 5, 12, 12, 12, 24, 60]);
            let used = random.below(longest + 1);
            let room = used + random.among(rooms);
            let mut line = any_line_of(random, &glyphs, used, room);
            spoil(random, &mut line);
            show(random, &table, start, line);
        }
        left -= lines;
    }
}

/// Several subtables in a table, each asked for at its place.
fn many_subtables(asked: &mut dyn Ask, random: &mut Random, cases: u64) {
    for _ in 0..cases / 3 {
        let glyphs = any_glyphs(random);
        let kinds: Vec<&'static Kind> = (0..3).map(|_| &KINDS[random.below(KINDS.len())]).collect();
        let subtables: Vec<Vec<u8>> =
            kinds.iter().map(|kind| subtable(kind.number, &(kind.any_body)(random, &glyphs))).collect();
        let table = Rc::from(subtables.concat());
        let line = any_line_of(random, &glyphs, 9, 30);
        let mut start = 0;
        for (kind, subtable) in kinds.into_iter().zip(&subtables) {
            ask_pass(asked, By { entry: Entry::MorxPass, kind }, &table, start, &line);
            start += subtable.len();
        }
    }
}

/// Hands over whole tables of any glyphs, often behind other bytes and now and then damaged, each a few times, as many times as
/// there are cases: with the start, the glyphs, and a length for the line.
pub fn for_each_table(
    random: &mut Random,
    cases: u64,
    any_table: impl Fn(&mut Random, &Range<u16>) -> Vec<u8>,
    show: &mut dyn FnMut(&mut Random, &Rc<[u8]>, u64, &Range<u16>, usize),
) {
    let mut left = cases;
    while left > 0 {
        let glyphs = any_glyphs(random);
        let mut table = any_table(random, &glyphs);
        if random.once_in(4) {
            damage(random, &mut table);
        }
        let made = Made::behind_others(random, table, Vec::new());
        let table = Rc::from(&made.table[..]);
        let start = made.any_start(random);
        let lines = left.min(LINES_FOR_ONE_TABLE);
        for _ in 0..lines {
            let longest = random.among(&[2, 5, 12, 12, 24]);
            let used = random.below(longest + 1);
            show(random, &table, start, &glyphs, used);
        }
        left -= lines;
    }
}

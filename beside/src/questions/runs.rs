//! Whole runs of morx tables beside document 01's run over the crate's chains, subtables and machines.

use crate::fuzz::case::Chosen;
use crate::fuzz::seeds::{self, Seed};
use crate::fuzz::source::Source;
use crate::questions::features::any_requests;
use crate::questions::passes::for_each_table;
use crate::questions::{Ask, Part, Question};
use crate::reference::line::Line;
use crate::reference::oracle::{Answer, Fault};
use crate::reference::pass::line_of;
use crate::reference::run::{Run, MOST_HEADS};
use crate::reference::trace::describe_run;
use crate::tables::cuts::{far_chains, for_each_cut, for_each_longest};
use crate::tables::kinds::{Written, KINDS};
use crate::tables::lines::{any_line_of, for_each_length, spoil};
use crate::tables::lookup::Made;
use crate::tables::morx::{any_morx, chain, chosen_subtable, morx, puts_in, subtable, trimmed};
use crate::tables::random::Random;
use crate::tables::strings::for_each_string;
use crate::wire::entries::Entry;
use crate::wire::pipe::lend_requests;
use crate::wire::reply::{describe, number};
use std::rc::Rc;

/// A call of `aat_morx_run`, or of `aat_morx_run_with`, which is told what features are asked for.
pub struct MorxRun {
    pub line: Line,
    pub start: u64,
    /// Not 0 where the text runs from right to left.
    pub right_to_left: u32,
    pub requests: Option<Vec<u32>>,
    /// What a document gives, with the heads, for its own examples.
    pub written: Option<(Written, u32)>,
}

impl MorxRun {
    /// What it runs by.
    pub fn run<'a>(&'a self, table: &'a [u8]) -> Run<'a> {
        let requests = self.requests.as_deref().unwrap_or(&[]);
        Run { table, start: self.start, right_to_left: self.right_to_left != 0, requests }
    }

    /// The answer, the line as the call has to leave it, and the heads, where they are counted; unless it is refused, the run is made so.
    fn after(&self, table: &[u8], make: Make) -> Result<(Answer<()>, Line, Option<u32>), Fault> {
        let mut line = self.line.clone();
        let run = self.run(table);
        if let Some(answer) = run.refusal(&line) {
            return Ok((answer, line, None));
        }
        let (answer, heads) = make(&run, &mut line)?;
        match &self.written {
            Some((written, counted)) if !written.is(answer, &line) || *counted != heads => Err(Fault::Disputed),
            _ => Ok((answer, line, Some(heads))),
        }
    }

    /// Adds the reply of a run that is made so.
    pub fn reply_by(&self, table: &[u8], held: u64, make: Make, reply: &mut Vec<u8>) -> Result<(), Fault> {
        let (answer, line, heads) = self.after(table, make)?;
        line.reply(answer, reply);
        reply.extend(heads.unwrap_or(held as u32).to_le_bytes());
        reply.extend(line.used.to_le_bytes());
        Ok(())
    }
}

/// How a run that is not refused is made on a line: its answer, and the heads.
type Make<'a> = &'a dyn Fn(&Run, &mut Line) -> Result<(Answer<()>, u32), Fault>;

impl Question for MorxRun {
    fn entry(&self) -> Entry {
        self.requests.as_ref().map_or(Entry::MorxRun, |_| Entry::MorxRunWith)
    }

    fn arguments(&self, held: u64, call: &mut Vec<u8>) {
        self.line.lend(call);
        call.extend(self.start.to_le_bytes());
        call.extend(self.right_to_left.to_le_bytes());
        call.extend((held as u32).to_le_bytes());
        if let Some(requests) = &self.requests {
            lend_requests(requests, call);
        }
    }

    fn reply(&self, table: &[u8], held: u64, reply: &mut Vec<u8>) -> Result<(), Fault> {
        self.reply_by(table, held, &|run, line| run.make(line, &mut |_, _| {}), reply)
    }

    fn describe(&self, held: u64) -> String {
        let (start, flag) = (self.start, self.right_to_left);
        let run = format!("run at start {}, right to left {}, lent heads {}", start, flag, held as u32);
        let requests = self.requests.as_ref().map_or(String::new(), |requests| describe_requests(requests));
        format!("{}{}, {}", run, requests, self.line.describe())
    }

    fn with_requests(&self, table: &[u8], random: &mut Random) -> Option<Box<dyn Question>> {
        let requests = any_requests(random, table, self.start);
        let written = if requests.is_empty() { self.written.clone() } else { None };
        Some(Box::new(MorxRun { line: self.line.clone(), requests: Some(requests), written, ..*self }))
    }

    fn describe_reply(&self, reply: &[u8]) -> String {
        let heads = number(&reply[reply.len() - 12..reply.len() - 8]);
        format!("heads {}, {}", heads, self.line.describe_reply_with_used(reply))
    }

    fn trace(&self, table: &[u8]) -> Vec<String> {
        let run = self.run(table);
        match run.refusal(&self.line) {
            None => describe_run(&run, &self.line),
            Some(_) => Vec::new(),
        }
    }
}

/// The features that are asked for in words.
pub fn describe_requests(requests: &[u32]) -> String {
    let requests: Vec<String> =
        requests.iter().map(|request| format!("{}:{}", request >> 16, request & 0xFFFF)).collect();
    format!(", requests {}", describe(&requests))
}

/// Runs of morx.
pub struct Runs;

impl Part for Runs {
    fn name(&self) -> &'static str {
        "runs"
    }

    fn entries(&self) -> Vec<Entry> {
        vec![Entry::MorxRun]
    }

    fn ask(&self, asked: &mut dyn Ask, random: &mut Random, cases: u64) {
        examples(asked);
        one_subtable(asked);
        cut_tables(asked);
        far_starts(asked);
        refused_lines(asked);
        long_tables(asked);
        many_heads(asked);
        full_rooms(asked);
        random_tables(asked, random, cases);
    }

    fn chosen(&self, _entry: Entry, chosen: Chosen, _source: &mut Source) -> Box<dyn Question> {
        let Chosen { start, right_to_left, lent, .. } = chosen;
        Box::new(MorxRun { line: lent.line, start, right_to_left, requests: None, written: None })
    }

    fn seed(&self, random: &mut Random, _entry: Entry) -> Seed {
        Seed::any(random, |random, glyphs| Made::whole(seeds::any_morx(random, glyphs)))
    }
}

/// A run in either direction, with two numbers for the second.
fn ask_run(asked: &mut dyn Ask, table: &Rc<[u8]>, start: usize, line: &Line) {
    for right_to_left in [0, 1, 0x8000_0000] {
        ask_one_way(asked, table, start, line, right_to_left);
    }
}

fn ask_one_way(asked: &mut dyn Ask, table: &Rc<[u8]>, start: usize, line: &Line, right_to_left: u32) {
    let (line, start) = (line.clone(), start as u64);
    asked.ask(table, Box::new(MorxRun { line, start, right_to_left, requests: None, written: None }));
}

/// Document 01's run, and what it says of chains and subtables.
fn examples(asked: &mut dyn Ask) {
    let one = subtable(4, &trimmed());
    let of_one = |flags| chain(flags, &[], &[one.clone()]);
    let vertical = chosen_subtable(0x8000_0004, 1, &trimmed());
    let both_ways = chosen_subtable(0xA000_0004, 1, &trimmed());
    let left_out = chosen_subtable(3, 1, &trimmed());
    let changed = [7, 9, 20];
    let same = [5, 6, 20];
    let written: [(Vec<u8>, [u16; 3], u32); 8] = [
        (morx(&[of_one(1)]), changed, 2),
        (morx(&[of_one(3)]), changed, 2),
        (morx(&[of_one(2)]), same, 2),
        (morx(&[of_one(2), of_one(1)]), changed, 4),
        (morx(&[chain(1, &[7; 24], &[vertical.clone(), left_out.clone()])]), same, 3),
        (morx(&[chain(1, &[7; 12], &[vertical, left_out, both_ways])]), changed, 4),
        (morx(&[]), same, 0),
        (morx(&[chain(1, &[], &[])]), same, 1),
    ];
    for (table, glyphs, heads) in written {
        let written = Written { answer: Answer::Done(()), glyphs: glyphs.to_vec(), homes: Some(vec![0, 1, 2]) };
        let line = line_of(&same, 3);
        let run = MorxRun { line, start: 0, right_to_left: 0, requests: None, written: Some((written, heads)) };
        asked.ask(&Rc::from(table), Box::new(run));
    }
}

/// Every example of every kind, alone in a table, under every order and direction.
fn one_subtable(asked: &mut dyn Ask) {
    for kind in &KINDS {
        for example in (kind.examples)() {
            for order in 0..16 {
                let subtable = chosen_subtable(order << 28 | kind.number, 1, &example.body);
                ask_run(asked, &Rc::from(morx(&[chain(1, &[], &[subtable])])), 0, &example.before);
            }
        }
    }
}

/// Two chains, the second with two subtables.
fn two_chains() -> Vec<u8> {
    let first = chain(1, &[0; 12], &[subtable(4, &trimmed())]);
    let second = chain(1, &[], &[puts_in(0), subtable(4, &trimmed())]);
    morx(&[first, second])
}

const LINE: [u16; 4] = [5, 10, 6, 20];

/// A table cut at every byte, at its own start and behind other bytes.
fn cut_tables(asked: &mut dyn Ask) {
    for_each_cut([0, 2, 0], &two_chains(), &mut |table, start| ask_run(asked, table, start, &line_of(&LINE, 9)));
}

fn far_starts(asked: &mut dyn Ask) {
    let table: Rc<[u8]> = Rc::from(two_chains());
    for start in far_chains(table.len()) {
        ask_run(asked, &table, start, &line_of(&LINE, 9));
    }
}

/// Lengths of all parts, most of them no line's, at a start in the table and past it.
fn refused_lines(asked: &mut dyn Ask) {
    let table = Rc::from(two_chains());
    for_each_length(10, &mut |line| {
        ask_one_way(asked, &table, 0, &line, line.used as u32 & 1);
        ask_one_way(asked, &table, usize::MAX, &line, 0);
    });
}

/// Tables at the limit of length and above it.
fn long_tables(asked: &mut dyn Ask) {
    for_each_longest(two_chains(), &mut |table, length| {
        for start in [0, length - 1, length, length + 1] {
            ask_run(asked, table, start, &line_of(&LINE, 9));
            ask_run(asked, table, start, &Line { used: 10, ..line_of(&LINE, 9) });
        }
    });
}

/// As many heads as are counted, one fewer and more: subtables that come again because their length is 0, and chains. The
/// last subtable puts glyphs in, for which there is room or not.
fn many_heads(asked: &mut dyn Ask) {
    for again in [subtable(4, &trimmed()), chosen_subtable(4, 2, &trimmed()), puts_in(0)] {
        for count in [MOST_HEADS - 3, MOST_HEADS - 2, MOST_HEADS - 1, MOST_HEADS, u32::MAX] {
            let mut many = chain(1, &[], &[[&[0; 4], &again[4..]].concat()]);
            many[12..16].copy_from_slice(&count.to_be_bytes());
            for behind in [vec![], vec![chain(1, &[], &[])], vec![chain(1, &[], &[puts_in(0)])]] {
                let table = Rc::from(morx(&[vec![many.clone()], behind].concat()));
                ask_one_way(asked, &table, 0, &line_of(&LINE, 4), 0);
                ask_one_way(asked, &table, 0, &line_of(&LINE, 9), 1);
            }
        }
    }
    for count in [1, MOST_HEADS - 1, MOST_HEADS, MOST_HEADS + 1, u32::MAX] {
        let mut table = morx(&[chain(1, &[], &[])]);
        table[4..8].copy_from_slice(&count.to_be_bytes());
        table[12..16].copy_from_slice(&[0; 4]);
        ask_one_way(asked, &Rc::from(table), 0, &line_of(&LINE, 9), 0);
    }
}

/// Rooms that the insertions of several subtables fill, or not, in every order.
fn full_rooms(asked: &mut dyn Ask) {
    let orders = [0, 0x1000_0000, 0x4000_0000, 0x5000_0000];
    for_each_string(&orders, 3, &mut |orders| {
        let parts: Vec<Vec<u8>> = orders.iter().map(|order| puts_in(*order)).collect();
        let table = Rc::from(morx(&[chain(1, &[], &parts), chain(1, &[], &[subtable(4, &trimmed())])]));
        for room in [3, 4, 6, 7, 8, 10, 11, 12, 14, 15, 16, 30] {
            ask_run(asked, &table, 0, &line_of(&[10, 5, 10], room));
        }
    });
}

fn random_tables(asked: &mut dyn Ask, random: &mut Random, cases: u64) {
    for_each_table(random, cases, any_morx, &mut |random, table, start, glyphs, used| {
        let room = used + random.among(&[0, 1, 9, 40, 200]);
        let mut line = any_line_of(random, glyphs, used, room);
        spoil(random, &mut line);
        let right_to_left = random.among(&[0, 1, 2, u32::MAX]);
        asked.ask(table, Box::new(MorxRun { line, start, right_to_left, requests: None, written: None }));
    });
}

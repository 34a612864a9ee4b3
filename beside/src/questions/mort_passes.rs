//! Passes by subtables of mort beside the model of mort, and beside the crate's pass by the same subtable written as morx.

use crate::fuzz::case::Chosen;
use crate::fuzz::seeds::Seed;
use crate::fuzz::source::Source;
use crate::questions::passes::{for_each_subtable, By, Pass};
use crate::questions::{Ask, Part, Question};
use crate::reference::line::{Line, DELETED, LARGEST_ROOM};
use crate::reference::mort::pass;
use crate::reference::mort_as_morx::subtable_as_morx;
use crate::reference::oracle::{caught, Answer, Fault, LONGEST_TABLE};
use crate::reference::pass::line_of;
use crate::reference::passes_by_crate::caught_pass;
use crate::tables::cuts::{far_subtables, for_each_cut, for_each_longest_of};
use crate::tables::kerx_manual::{trimmed, UNIT_SIZES};
use crate::tables::kinds::{Written, KINDS};
use crate::tables::lines::{any_glyphs, any_line_of, for_each_length};
use crate::tables::lookup::{with_values, words, Made};
use crate::tables::mort::{
    any_chained, any_lookup, any_machine, any_subtable, rearranges, small_machine, substitutes, subtable, Classic,
    Placed, MARK_FIRST, MARK_LAST, STAY, SUBTABLE_HEAD,
};
use crate::tables::morx::{in_chain, the_subtable};
use crate::tables::random::Random;
use crate::tables::strings::for_each_string;
use crate::wire::entries::Entry;
use std::cell::Cell;
use std::rc::Rc;

/// A call of `aat_mort_pass`.
pub struct MortPass {
    pub line: Line,
    pub start: u64,
    /// What a document gives, for examples made from its sentences.
    pub written: Option<Written>,
}

thread_local! {
    static JUDGED: Cell<[u64; 2]> = Cell::new([0; 2]);
}

/// Counts a call that the crate judged, too, or could not.
pub fn count_judged(is_judged: bool) {
    let mut judged = JUDGED.with(Cell::get);
    judged[usize::from(!is_judged)] += 1;
    JUDGED.with(|cell| cell.set(judged));
}

/// How many calls of mort the crate judged, in words.
pub fn counted() -> String {
    let [judged, others] = JUDGED.with(Cell::get);
    format!("mort: {} calls judged by the crate, too, as morx; {} too long for that, or of no subtable", judged, others)
}

impl MortPass {
    /// The answer, and the line as the call has to leave it.
    fn after(&self, table: &[u8]) -> Result<(Answer<()>, Line), Fault> {
        let mut line = self.line.clone();
        let answer = if table.len() > LONGEST_TABLE {
            Answer::Table
        } else if !line.is_line() {
            Answer::Line
        } else {
            let answer = pass(table, self.start, &mut line, &mut |_| {});
            self.judge(table, answer, &line)?;
            answer
        };
        match &self.written {
            Some(written) if !written.is(answer, &line) => Err(Fault::Disputed),
            _ => Ok((answer, line)),
        }
    }

    /// Disputed where the crate's pass by the same subtable of morx leaves another line or answers otherwise.
    fn judge(&self, table: &[u8], answer: Answer<()>, left: &Line) -> Result<(), Fault> {
        let as_morx = subtable_as_morx(table, self.start)?;
        count_judged(as_morx.is_some());
        let table = match as_morx {
            Some(subtable) => in_chain(&subtable),
            None => return Ok(()),
        };
        let mut line = self.line.clone();
        let by_crate = match caught(|| the_subtable(&table))? {
            Some(subtable) => caught_pass(&subtable, &mut line)?,
            None => Answer::Head,
        };
        if by_crate == answer && line == *left {
            Ok(())
        } else {
            Err(Fault::Disputed)
        }
    }
}

impl Question for MortPass {
    fn entry(&self) -> Entry {
        Entry::MortPass
    }

    fn arguments(&self, _held: u64, call: &mut Vec<u8>) {
        self.line.lend(call);
        call.extend(self.start.to_le_bytes());
    }

    fn reply(&self, table: &[u8], _held: u64, reply: &mut Vec<u8>) -> Result<(), Fault> {
        let (answer, line) = self.after(table)?;
        line.reply(answer, reply);
        reply.extend(line.used.to_le_bytes());
        Ok(())
    }

    fn describe(&self, _held: u64) -> String {
        format!("mort pass at start {}, lent {}", self.start, self.line.describe())
    }

    fn describe_reply(&self, reply: &[u8]) -> String {
        self.line.describe_reply_with_used(reply)
    }
}

/// Passes by subtables of mort.
pub struct Passes;

impl Part for Passes {
    fn name(&self) -> &'static str {
        "mort-passes"
    }

    fn every(&self) -> u64 {
        2
    }

    fn entries(&self) -> Vec<Entry> {
        vec![Entry::MortPass]
    }

    fn ask(&self, asked: &mut dyn Ask, random: &mut Random, cases: u64) {
        examples(asked);
        coverages(asked);
        short_bodies(asked);
        cut_subtables(asked);
        far_numbers(asked);
        unit_sizes(asked);
        far_starts(asked);
        refused_lines(asked);
        long_tables(asked);
        long_lines(asked, random);
        random_subtables(asked, random, cases);
    }

    fn chosen(&self, _entry: Entry, chosen: Chosen, _source: &mut Source) -> Box<dyn Question> {
        Box::new(MortPass { line: chosen.lent.line, start: chosen.start, written: None })
    }

    fn seed(&self, random: &mut Random, _entry: Entry) -> Seed {
        Seed::any(random, |random, glyphs| Made::whole(any_chained(random, glyphs)))
    }
}

fn ask_pass(asked: &mut dyn Ask, table: &Rc<[u8]>, start: usize, line: &Line) {
    asked.ask(table, Box::new(MortPass { line: line.clone(), start: start as u64, written: None }));
}

/// The same pass put to the old entry, by the same subtable of morx.
fn ask_as_morx(asked: &mut dyn Ask, table: &[u8], start: u64, line: &Line) {
    // A fault is for the pass itself to show.
    if let Ok(Some(subtable)) = subtable_as_morx(table, start) {
        let by = By { entry: Entry::MorxPass, kind: &KINDS[0] };
        asked.ask(&Rc::from(subtable), Box::new(Pass { by, line: line.clone(), start: 0, written: None }));
    }
}

/// Subtables with lines before and after, as the documents give them.
fn written_examples() -> Vec<(Vec<u8>, Vec<u16>, Vec<u16>, Answer<()>)> {
    use Answer::{Done, Ended, Head};
    let five = vec![10, 11, 12, 13, 14];
    let machine = |entries: &[Placed]| subtable(0, &small_machine(5, 3, entries));
    let first: Placed = (0, 4, [0, MARK_FIRST]);
    let stalls: Vec<Placed> = (4..8).map(|class| (0, class, [0, STAY | MARK_LAST | 1])).collect();
    let seen_again: [Placed; 4] =
        [first, (0, 5, [1, STAY | MARK_LAST | 1]), (1, 4, [2, 0]), (2, 6, [2, MARK_LAST | 1])];
    let one = |count, entries: &[(u16, u16)]| {
        subtable(0, &Classic { first: 10, classes: &[4], count, rows: &[0, 0, 0, 0, 1], entries }.bytes())
    };
    let sentinel = subtable(4, &words(&[6, 4, 1, 4, 0, 0, DELETED, 0]));
    let trimmed = |unit, values: &[u16]| subtable(4, &trimmed(unit, 5, values));
    vec![
        (machine(&[first, (0, 8, [0, MARK_LAST | 1])]), five.clone(), vec![11, 12, 13, 14, 10], Done(())),
        (machine(&[first, (0, 8, [0, MARK_LAST | 13])]), five, vec![13, 14, 12, 11, 10], Done(())),
        (machine(&[first, (0, 2, [0, MARK_LAST | 1])]), vec![10, 11, DELETED], vec![11, DELETED, 10], Done(())),
        // The end of text is class 0, and its place behind the last is cut to the line.
        (machine(&[first, (0, 0, [0, MARK_LAST | 1])]), vec![10, 11, 12], vec![11, 12, 10], Done(())),
        (machine(&[(0, 0, [0, MARK_LAST | 1])]), vec![], vec![], Done(())),
        (machine(&[(0, 6, [0, MARK_FIRST | 3])]), vec![10, 11, 12], vec![10, 11, 12], Done(())),
        // After 17 answers that do not advance the 18th does.
        (machine(&stalls), vec![10, 11, 12, 13], vec![12, 13, 10, 11], Done(())),
        (machine(&seen_again), vec![10, 11, 12], vec![10, 12, 11], Done(())),
        // A new state whose row is not there ends the next step; what was done before stays.
        (machine(&[first, (0, 6, [9_000, MARK_LAST | 1])]), vec![10, 11, 12], vec![11, 12, 10], Ended),
        // A new state below the state array ends its own step, with nothing done.
        (one(5, &[(0, 0), (0xFFFF, MARK_LAST | 1)]), vec![11, 10], vec![11, 10], Ended),
        (one(5, &[(0, 0), (0, MARK_LAST | 1)]), vec![11, 10], vec![10, 11], Done(())),
        // A row is reached from every byte of it.
        (one(5, &[(4, 0), (3, MARK_LAST | 1)]), vec![11, 10], vec![10, 11], Done(())),
        // No classes.
        (one(0, &[(0, 0), (0, MARK_LAST | 1)]), vec![11, 10], vec![11, 10], Ended),
        (one(0, &[(0, 0), (0, MARK_LAST | 1)]), vec![], vec![], Ended),
        // A state table that can't be opened is a failed read.
        (subtable(0, &[]), vec![10], vec![10], Ended),
        (subtable(0, &words(&[5, 8, 8])), vec![], vec![], Ended),
        (subtable(0, &words(&[5, 8, 13, 8, 10, 0])), vec![10], vec![10], Ended),
        // A class table of no glyphs at the table's end, as document 01 has it, and one byte before it.
        (subtable(0, &words(&[5, 8, 8, 8, 10, 0])), vec![10], vec![10], Ended),
        (subtable(0, &[words(&[5, 8, 10, 12, 10, 0]), vec![0, 13, 0, 0]].concat()), vec![10], vec![10], Done(())),
        (subtable(4, &with_values(8, 5, &[7, 9])), vec![5, 6, 20], vec![7, 9, 20], Done(())),
        (subtable(4, &[]), vec![5], vec![5], Done(())),
        (sentinel, vec![5, DELETED], vec![5, 0], Done(())),
        // Format 10 obeys its unit size, 1 or 2; an element 0 is glyph 0.
        (trimmed(1, &[7, 0]), vec![5, 6, 20], vec![7, 0, 20], Done(())),
        (trimmed(2, &[0x0107, 9]), vec![5, 6, 20], vec![0x0107, 9, 20], Done(())),
        (trimmed(4, &[7, 9]), vec![5, 6, 20], vec![5, 6, 20], Done(())),
        // Other kinds are not taken.
        (subtable(1, &small_machine(5, 3, &[])), vec![10], vec![10], Head),
        (subtable(5, &[]), vec![10], vec![10], Head),
        (substitutes(0)[..7].to_vec(), vec![5], vec![5], Head),
    ]
}

fn examples(asked: &mut dyn Ask) {
    for (table, before, after, answer) in written_examples() {
        let table = Rc::from(table);
        let line = line_of(&before, before.len());
        let written = Some(Written { answer, glyphs: after, homes: None });
        ask_as_morx(asked, &table, 0, &line);
        asked.ask(&table, Box::new(MortPass { line, start: 0, written }));
    }
}

/// Both kinds under every coverage: the low three bits are the kind, and no others are looked at.
fn coverages(asked: &mut dyn Ask) {
    for coverage in (0..=0xFFFF_u16).filter(|coverage| coverage & 0x0FF8 == 0 || coverage % 97 < 8) {
        for made in [rearranges(0), substitutes(0)] {
            let table = Rc::from(subtable(coverage, &made[SUBTABLE_HEAD..]));
            ask_pass(asked, &table, 0, &line_of(&[10, 5, 11], 4));
        }
    }
}

/// Every entry for one glyph, with all marks and some verbs for the other, and with two for the end of text; and every lookup of few
/// values.
fn short_bodies(asked: &mut dyn Ask) {
    let all_flags =
        |verbs: &[u16]| (0..8).flat_map(|marks| verbs.iter().map(move |verb| marks << 13 | verb)).collect::<Vec<u16>>();
    let lines: [&[u16]; 5] = [&[], &[10], &[11, 10, 10], &[10, 10, 11, 11, 10], &[10, DELETED, 11, 10, 12, 11]];
    for flags in all_flags(&(0..16).collect::<Vec<u16>>()) {
        for other in all_flags(&[0, 1, 7, 14]) {
            for end in [0, MARK_LAST | 13] {
                let body = small_machine(2, 1, &[(0, 4, [0, flags]), (0, 5, [0, other]), (0, 0, [0, end])]);
                let table = Rc::from(subtable(0, &body));
                lines.iter().for_each(|glyphs| ask_pass(asked, &table, 0, &line_of(glyphs, glyphs.len())));
            }
        }
    }
    for format in [0, 2, 4, 6, 8, 10] {
        for_each_string(&[0, 10, 11, DELETED], 3, &mut |values| {
            if !values.is_empty() {
                let table = Rc::from(subtable(4, &with_values(format, 10, values)));
                lines.iter().for_each(|glyphs| ask_pass(asked, &table, 0, &line_of(glyphs, glyphs.len())));
            }
        });
    }
}

/// The examples cut at every byte, at their own start and behind other bytes, on their line and on an empty one.
fn cut_subtables(asked: &mut dyn Ask) {
    for (example, glyphs, _, _) in written_examples() {
        for_each_cut([0, 8, 0], &example, &mut |table, start| {
            ask_pass(asked, table, start, &line_of(&glyphs, glyphs.len()));
            ask_pass(asked, table, start, &line_of(&[], 0));
            ask_as_morx(asked, table, start as u64, &line_of(&glyphs, glyphs.len()));
        });
    }
}

/// Every number of the two heads and of the class table's changed to each of these.
fn far_numbers(asked: &mut dyn Ask) {
    for before in [0, 64] {
        let table = [vec![0; before], rearranges(0)].concat();
        let length = (table.len() - before - SUBTABLE_HEAD) as u16;
        for at in (before..before + SUBTABLE_HEAD + 12).step_by(2) {
            let right = u16::from_be_bytes([table[at], table[at + 1]]);
            let near = (0..=length + 2).chain([right ^ 0x100, right ^ 0x8000]);
            for number in near.chain([0x7FFF, 0x8000, 0xFF00, 0xFFF0, 0xFFFE, 0xFFFF]) {
                let mut table = table.clone();
                table[at..at + 2].copy_from_slice(&number.to_be_bytes());
                let table = Rc::from(table);
                ask_pass(asked, &table, before, &line_of(&[10, 5, 11], 3));
                ask_pass(asked, &table, before, &line_of(&[], 1));
            }
        }
    }
}

/// Lookups of format 10 of every unit size, cut at every byte.
fn unit_sizes(asked: &mut dyn Ask) {
    for unit in UNIT_SIZES {
        let table = subtable(4, &trimmed(unit, 9, &[5, 0x0106, 0, 10]));
        for length in 0..=table.len() {
            ask_pass(asked, &Rc::from(&table[..length]), 0, &line_of(&[8, 9, 10, 11, 12, 13, DELETED], 9));
        }
    }
}

/// Starts about the end, and those that a number of fewer bits, or a sum without care, would take for one in the table.
fn far_starts(asked: &mut dyn Ask) {
    for table in [rearranges(0), substitutes(0)] {
        let table: Rc<[u8]> = Rc::from(table);
        for start in far_subtables(table.len(), SUBTABLE_HEAD) {
            ask_pass(asked, &table, start, &line_of(&[10, 5, 11], 3));
        }
    }
}

/// Lengths of all parts, most of them no line's, on a right subtable and on ones that are refused by themselves.
fn refused_lines(asked: &mut dyn Ask) {
    let right: Rc<[u8]> = Rc::from(rearranges(0));
    let none = Rc::from(&right[..SUBTABLE_HEAD - 1]);
    let left_out = Rc::from(subtable(5, &right[SUBTABLE_HEAD..]));
    for_each_length(10, &mut |line| {
        for table in [&right, &none, &left_out] {
            ask_pass(asked, table, 0, &line);
        }
    });
}

/// Tables at the limit of length and above it, with a subtable at either end, on a line and on none.
fn long_tables(asked: &mut dyn Ask) {
    let line = line_of(&[10, 5, 11], 4);
    let no_line = Line { used: 5, ..line.clone() };
    for_each_longest_of(&rearranges(0), &mut |table, start| {
        ask_pass(asked, table, start, &line);
        ask_pass(asked, table, start, &no_line);
    });
}

/// Lines that fill the largest room, and almost, by both kinds.
fn long_lines(asked: &mut dyn Ask, random: &mut Random) {
    let glyphs = any_glyphs(random);
    for table in [subtable(0, &any_machine(random, &glyphs)), subtable(4, &any_lookup(random, &glyphs)), rearranges(0)]
    {
        let table = Rc::from(table);
        for used in [LARGEST_ROOM - 1, LARGEST_ROOM] {
            ask_pass(asked, &table, 0, &any_line_of(random, &glyphs, used, LARGEST_ROOM));
        }
    }
}

fn random_subtables(asked: &mut dyn Ask, random: &mut Random, cases: u64) {
    for_each_subtable(random, cases, any_subtable, &[0, 0, 1, 9], &mut |random, table, start, line| {
        if random.once_in(8) {
            ask_as_morx(asked, table, start, &line);
        }
        asked.ask(table, Box::new(MortPass { line, start, written: None }));
    });
}

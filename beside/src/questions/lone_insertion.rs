//! The lone insertion beside the crate's reader of lists and document 01's line: alone, and with what the steps of passes hand over.

use crate::fuzz::case::Chosen;
use crate::fuzz::seeds::Seed;
use crate::fuzz::source::Source;
use crate::questions::{Ask, Part, Question};
use crate::reference::line::{Line, LARGEST_ROOM};
use crate::reference::oracle::{caught_as_none, Answer, Bytes, Fault, LONGEST_TABLE};
use crate::reference::pass::line_of;
use crate::reference::step::{Lent, Sees};
use crate::reference::steps_by_copy::open;
use crate::tables::insertion::KIND;
use crate::tables::kinds::any_subtable;
use crate::tables::lines::{any_glyphs, any_line, any_line_of, spoil, LARGE_ROOMS};
use crate::tables::lookup::{words, Made};
use crate::tables::morx::{in_chain, subtable, CHAIN_HEADS};
use crate::tables::random::Random;
use crate::wire::entries::Entry;
use std::rc::Rc;

/// A call of `aat_insert`.
pub struct Insert {
    pub line: Line,
    pub start: u64,
    pub count: u16,
    pub place: u64,
    /// The glyphs and the tags of the line that has to be left, for the examples.
    pub written: Option<[Vec<u16>; 2]>,
}

impl Insert {
    /// The answer, and the line as the call has to leave it: the list is read by the crate, and put in as in a pass.
    fn after(&self, table: &[u8]) -> Result<(Answer<()>, Line), Fault> {
        let mut line = self.line.clone();
        let refusals = [
            (table.len() > LONGEST_TABLE, Answer::Table),
            (!line.is_line(), Answer::Line),
            (self.place > line.used, Answer::Place),
        ];
        if let Some((_, answer)) = refusals.into_iter().find(|refusal| refusal.0) {
            return Ok((answer, line));
        }
        let list = caught_as_none(|| Bytes::new(table).read_array::<u16>(self.start as usize, self.count.into()))?;
        let answer = match list {
            None => Answer::Ended,
            Some(list) if line.insert(self.place as usize, list.len(), list.iter()) => Answer::Done(()),
            Some(_) => Answer::Full,
        };
        if self.written.as_ref().map_or(false, |written| !line.is_written(written)) {
            return Err(Fault::Disputed);
        }
        Ok((answer, line))
    }
}

impl Line {
    fn is_written(&self, [glyphs, tags]: &[Vec<u16>; 2]) -> bool {
        self.glyphs[..self.length()] == glyphs[..] && self.tags[..self.length()] == tags[..]
    }
}

impl Question for Insert {
    fn entry(&self) -> Entry {
        Entry::Insert
    }

    fn arguments(&self, _held: u64, call: &mut Vec<u8>) {
        self.line.lend(call);
        call.extend(self.start.to_le_bytes());
        call.extend(self.count.to_le_bytes());
        call.extend(self.place.to_le_bytes());
    }

    fn reply(&self, table: &[u8], _held: u64, reply: &mut Vec<u8>) -> Result<(), Fault> {
        let (answer, line) = self.after(table)?;
        line.reply(answer, reply);
        reply.extend(line.used.to_le_bytes());
        Ok(())
    }

    fn describe(&self, _held: u64) -> String {
        let Insert { start, count, place, .. } = self;
        format!("insertion of {} glyphs from {} at place {}, lent {}", count, start, place, self.line.describe())
    }

    fn describe_reply(&self, reply: &[u8]) -> String {
        self.line.describe_reply_with_used(reply)
    }
}

/// Lone insertions.
pub struct Insertions;

impl Part for Insertions {
    fn name(&self) -> &'static str {
        "lone insertion"
    }

    fn entries(&self) -> Vec<Entry> {
        vec![Entry::Insert]
    }

    fn ask(&self, asked: &mut dyn Ask, random: &mut Random, cases: u64) {
        examples(asked);
        short_lists(asked, random);
        refusals(asked);
        largest_rooms(asked, random);
        random_lists(asked, random, cases);
        passes(asked, random, cases / 25);
    }

    /// The glyph is the number of glyphs.
    fn chosen(&self, _entry: Entry, chosen: Chosen, _source: &mut Source) -> Box<dyn Question> {
        let Chosen { start, told, lent, .. } = chosen;
        Box::new(Insert { line: lent.line, start, count: told.glyph, place: told.index, written: None })
    }

    fn seed(&self, random: &mut Random, _entry: Entry) -> Seed {
        Seed::of(0..16, Made::any(random, 12))
    }
}

fn ask_insert(asked: &mut dyn Ask, table: &Rc<[u8]>, line: &Line, start: u64, count: u16, place: u64) {
    asked.ask(table, Box::new(Insert { line: line.clone(), start, count, place, written: None }));
}

/// At the beginning, in the line and behind it; of no glyphs; and what does not fit.
fn examples(asked: &mut dyn Ask) {
    let table: Rc<[u8]> = Rc::from(words(&[9, 20, 21]));
    let written: [(u64, u16, u64, &[u16], &[u16]); 6] = [
        (2, 2, 0, &[20, 21, 10, 11, 12], &[3, 4, 0, 1, 2]),
        (2, 2, 1, &[10, 20, 21, 11, 12], &[0, 3, 4, 1, 2]),
        (2, 2, 3, &[10, 11, 12, 20, 21], &[0, 1, 2, 3, 4]),
        (1, 1, 2, &[10, 11, 0x0900, 12], &[0, 1, 3, 2]),
        (4, 0, 1, &[10, 11, 12], &[0, 1, 2]),
        (0, 3, 1, &[10, 11, 12], &[0, 1, 2]),
    ];
    for (start, count, place, glyphs, tags) in written {
        let line = line_of(&[10, 11, 12], 5);
        let written = Some([glyphs.to_vec(), tags.to_vec()]);
        asked.ask(&table, Box::new(Insert { line, start, count, place, written }));
    }
}

/// Every part of a short table, in it and past its end, at every place of short lines and past them, in rooms up to more than is
/// needed.
fn short_lists(asked: &mut dyn Ask, random: &mut Random) {
    for bytes in 0..=7 {
        let table = Rc::from(random.bytes(bytes));
        for used in 0..=3 {
            for more in 0..=4 {
                let line = any_line(random, used, used + more);
                for start in (0..=bytes as u64 + 2).chain([1 << 32, 1 << 63, u64::MAX - 1, u64::MAX]) {
                    for count in (0..=4).chain([0x7FFF, 0x8000, 0xFFFF]) {
                        for place in 0..=used as u64 + 1 {
                            ask_insert(asked, &table, &line, start, count, place);
                        }
                    }
                }
            }
        }
    }
}

/// All that a call is refused for, in every mix.
fn refusals(asked: &mut dyn Ask) {
    for length in [6, LONGEST_TABLE, LONGEST_TABLE + 1] {
        let mut table = words(&[20, 21, 22]);
        table.resize(length, 0);
        let (table, end) = (Rc::from(table), length as u64);
        let large = if length == 6 { &LARGE_ROOMS[..] } else { &[] };
        for room in [3, 5].iter().chain(large).copied() {
            for used in if room > 5 { vec![3, room as u64] } else { vec![0, 3, 4, 5, 6, u64::MAX] } {
                let line = Line { used, ..line_of(&[10, 11, 12], room) };
                for place in [0, 3, 4, used, used.saturating_add(1), 1 << 32, u64::MAX] {
                    for (start, count) in [(0, 0), (0, 2), (end - 2, 1), (end - 1, 1), (end, 0)] {
                        ask_insert(asked, &table, &line, start, count, place);
                    }
                }
            }
        }
    }
}

/// Counts about what is left of the largest room, up to the longest list.
fn largest_rooms(asked: &mut dyn Ask, random: &mut Random) {
    let table = Rc::from(random.bytes(2 * 0xFFFF + 1));
    for used in [0, 1, LARGEST_ROOM / 2, LARGEST_ROOM - 31, LARGEST_ROOM - 1, LARGEST_ROOM] {
        let line = any_line(random, used, LARGEST_ROOM);
        let left = (LARGEST_ROOM - used) as u16;
        for count in [0, 1, 31, left.saturating_sub(1), left, left + 1, 0xFFFF] {
            for place in [0, used as u64 / 2, used as u64] {
                ask_insert(asked, &table, &line, random.below(3) as u64, count, place);
            }
        }
    }
}

/// Any lists and lines, sometimes ones that are refused.
fn random_lists(asked: &mut dyn Ask, random: &mut Random, cases: u64) {
    for _ in 0..cases {
        let bytes = random.among(&[1, 4, 12, 64, 200]);
        let bytes = random.below(bytes + 1);
        let list = random.bytes(bytes);
        let made = Made::behind_others(random, list, Vec::new());
        let longest = random.among(&[2, 5, 12, 40, 300]);
        let used = random.below(longest + 1);
        let room = used + random.among(&[0, 1, 2, 9, 60]);
        let mut line = any_line(random, used, room);
        spoil(random, &mut line);
        let most = random.among(&[0, 1, 3, bytes / 2, room - used, room - used + 1]);
        let count = if random.once_in(20) { random.word() } else { random.below(most + 2) as u16 };
        let place = match random.below(20) {
            0 => used as u64 + 1,
            1 => random.number() >> random.below(64),
            2 | 3 => used as u64,
            _ => random.below(used + 1) as u64,
        };
        ask_insert(asked, &Rc::from(&made.table[..]), &line, made.any_start(random), count, place);
    }
}

/// What the steps of the kind's examples and limits hand over, and those of so many passes by any subtables.
fn passes(asked: &mut dyn Ask, random: &mut Random, passes: u64) {
    for example in (KIND.examples)() {
        ask_pass(asked, &Rc::from(subtable(KIND.number, &example.body)), 0, &example.before);
    }
    (KIND.limits)(&mut |body, line| {
        if line.length() < 100 {
            ask_pass(asked, &Rc::from(subtable(KIND.number, &body)), 0, &line);
        }
    });
    for _ in 0..passes {
        let glyphs = any_glyphs(random);
        let made = any_subtable(random, &KIND, &glyphs);
        let used = random.below(20);
        let room = used + random.among(&[0, 1, 9, 40]);
        let line = any_line_of(random, &glyphs, used, room);
        ask_pass(asked, &Rc::from(&made.table[..]), made.start as u64, &line);
    }
}

/// The edits that the steps of a pass hand over, each on the line as those before it left it: at every step that is the line of the
/// pass, and so it is at its end.
fn ask_pass(asked: &mut dyn Ask, table: &Rc<[u8]>, start: u64, line: &Line) {
    let bytes = in_chain(&table[start as usize..]);
    let opened = match open(&bytes) {
        Some(opened) if opened.machine.step == Entry::InsertionStep => opened,
        _ => return,
    };
    let mut made = line.clone();
    let show = &mut |told, state: &[u64], passed: &Line| {
        assert!(made == *passed, "a pass is not what its steps hand over");
        let (seen, room) = (Sees::LengthAndRoom.of(passed), passed.glyphs.len() as u64);
        let mut lent = Lent { state: state.to_vec(), line: seen, room, edits: vec![0; opened.machine.edits] };
        // A fault in the step is for the steps to show.
        let _ = opened.step(told, &mut lent);
        for edit in lent.edits[1..].chunks(3).take(lent.edits[0] as usize) {
            let (place, count, start) = (edit[0], edit[1] as u16, edit[2] + start - CHAIN_HEADS as u64);
            let insert = Insert { line: made.clone(), start, count, place, written: None };
            if let Ok((_, line)) = insert.after(table) {
                made = line;
            }
            asked.ask(table, Box::new(insert));
        }
    };
    let mut passed = line.clone();
    if opened.pass(&mut passed, show).is_ok() {
        assert!(made == passed, "a pass is not what its steps hand over");
    }
}

//! The lone verb beside the crate and document 01, and a fresh line beside document 01.

use crate::fuzz::case::Chosen;
use crate::fuzz::seeds::Seed;
use crate::fuzz::source::Source;
use crate::questions::{Ask, Part, Question};
use crate::reference::kerning::Kerned;
use crate::reference::line::{fresh, lone_verb, Line, LARGEST_ROOM};
use crate::reference::oracle::{caught, Answer, Fault};
use crate::reference::rearrange::rearrange;
use crate::tables::lines::{any_line, any_numbers, spoil};
use crate::tables::lookup::Made;
use crate::tables::random::Random;
use crate::tables::strings::for_each_string;
use crate::wire::entries::Entry;

/// A call of `aat_fresh` with slices of these lengths; what they hold comes from the number held.
pub struct Fresh {
    pub glyphs: usize,
    pub tags: usize,
    pub homes: usize,
}

impl Fresh {
    fn lent(&self, held: u64) -> Line {
        let mut random = Random::new(held);
        let mut numbers = |count| any_numbers(&mut random, count);
        let (glyphs, tags, homes) = (numbers(self.glyphs), numbers(self.tags), numbers(self.homes));
        Line { glyphs, tags, homes, used: held }
    }
}

impl Question for Fresh {
    fn entry(&self) -> Entry {
        Entry::Fresh
    }

    fn arguments(&self, held: u64, call: &mut Vec<u8>) {
        self.lent(held).lend(call);
    }

    fn reply(&self, _table: &[u8], held: u64, reply: &mut Vec<u8>) -> Result<(), Fault> {
        let (answer, line) = fresh(&self.lent(held));
        line.reply(answer, reply);
        reply.extend(line.used.to_le_bytes());
        Ok(())
    }

    fn describe(&self, held: u64) -> String {
        format!("fresh line, lent {}", self.lent(held).describe())
    }

    fn describe_reply(&self, reply: &[u8]) -> String {
        self.lent(0).describe_reply_with_used(reply)
    }
}

/// A call of `aat_verb`.
pub struct Verb {
    pub line: Line,
    pub verb: u16,
    pub start: u64,
    pub end: u64,
    /// The glyphs that document 01 gives, for its own examples.
    pub written: Option<Vec<u16>>,
}

impl Verb {
    /// The answer, and the line as the call has to leave it: by the crate where nothing is refused.
    fn after(&self) -> Result<(Answer<()>, Line), Fault> {
        let (answer, drawn) = lone_verb(&self.line, self.verb, self.start, self.end);
        if answer != Answer::Done(()) {
            return Ok((answer, drawn));
        }
        let line = caught(|| self.rearranged())?;
        if line != drawn || self.written.as_ref().map_or(false, |glyphs| *glyphs != line.glyphs) {
            return Err(Fault::Disputed);
        }
        Ok((answer, line))
    }

    /// The line after the crate's rearrangement, which cuts the window's end to the part it works on, but cannot add 1
    /// to the last number there is.
    fn rearranged(&self) -> Line {
        let mut line = self.line.clone();
        let used = line.used as usize;
        if let Some(rearrange) = rearrange(self.verb, self.start as usize, self.end.min(u64::MAX - 1) as usize) {
            rearrange.apply(&mut line.glyphs[..used]);
            rearrange.apply(&mut line.tags[..used]);
        }
        line
    }
}

impl Question for Verb {
    fn entry(&self) -> Entry {
        Entry::Verb
    }

    fn arguments(&self, _held: u64, call: &mut Vec<u8>) {
        self.line.lend(call);
        call.extend(self.verb.to_le_bytes());
        call.extend(self.start.to_le_bytes());
        call.extend(self.end.to_le_bytes());
    }

    fn reply(&self, _table: &[u8], _held: u64, reply: &mut Vec<u8>) -> Result<(), Fault> {
        let (answer, line) = self.after()?;
        line.reply(answer, reply);
        Ok(())
    }

    fn describe(&self, _held: u64) -> String {
        format!("verb {} from {} to {}, lent {}", self.verb, self.start, self.end, self.line.describe())
    }

    fn describe_reply(&self, reply: &[u8]) -> String {
        self.line.describe_reply(reply)
    }
}

/// Verbs and fresh lines.
pub struct Verbs;

impl Part for Verbs {
    fn name(&self) -> &'static str {
        "verbs"
    }

    fn entries(&self) -> Vec<Entry> {
        vec![Entry::Fresh, Entry::Verb]
    }

    fn ask(&self, asked: &mut dyn Ask, random: &mut Random, cases: u64) {
        fresh_lines(asked);
        examples(asked);
        short_lines(asked, random);
        short_tags(asked);
        short_homes(asked);
        refused_lengths(asked);
        longest_lines(asked, random);
        random_lines(asked, random, cases);
    }

    fn chosen(&self, entry: Entry, chosen: Chosen, _source: &mut Source) -> Box<dyn Question> {
        let Chosen { start, told, lent: Kerned { line, .. }, .. } = chosen;
        if entry == Entry::Fresh {
            return Box::new(Fresh { glyphs: line.glyphs.len(), tags: line.tags.len(), homes: line.homes.len() });
        }
        Box::new(Verb { line, verb: told.glyph, start, end: told.index, written: None })
    }

    fn seed(&self, random: &mut Random, entry: Entry) -> Seed {
        if entry == Entry::Fresh {
            return Seed::any(random, |_, _| Made::whole(Vec::new()));
        }
        Seed::of(0..16, Made { start: random.below(4), ..Made::whole(Vec::new()) })
    }
}

fn ask_verb(asked: &mut dyn Ask, line: &Line, verb: u16, start: u64, end: u64) {
    asked.ask_alone(Box::new(Verb { line: line.clone(), verb, start, end, written: None }));
}

/// Slices of all small lengths, and of those about the largest room.
fn fresh_lines(asked: &mut dyn Ask) {
    let small: Vec<usize> = (0..=9).collect();
    let large = [1, LARGEST_ROOM - 1, LARGEST_ROOM, LARGEST_ROOM + 1];
    for lengths in [&small[..], &large] {
        for glyphs in lengths {
            for tags in lengths {
                for homes in lengths {
                    asked.ask_alone(Box::new(Fresh { glyphs: *glyphs, tags: *tags, homes: *homes }));
                }
            }
        }
    }
}

/// The examples of document 01.
fn examples(asked: &mut dyn Ask) {
    let written = [
        (1, 0, 4, [11, 12, 13, 14, 10]),
        (13, 0, 4, [13, 14, 12, 11, 10]),
        (12, 1, 4, [10, 13, 14, 11, 12]),
        (12, 0, 2, [10, 11, 12, 13, 14]),
        (2, 3, 9, [10, 11, 12, 14, 13]),
    ];
    for (verb, start, end, glyphs) in written {
        let numbers: Vec<u16> = (0..5).collect();
        let line = Line { glyphs: (10..15).collect(), tags: numbers.clone(), homes: numbers, used: 5 };
        asked.ask_alone(Box::new(Verb { line, verb, start, end, written: Some(glyphs.to_vec()) }));
    }
}

/// Every verb, and numbers above 15.
fn verbs() -> impl Iterator<Item = u16> {
    (0..=17).chain([31, 32, 0x00F3, 0x0101, 0x8005, 0xFFF0, 0xFFFF])
}

/// Every verb on lines up to nine places, on every window that begins in the line or just behind it and ends in it or
/// farther on.
fn short_lines(asked: &mut dyn Ask, random: &mut Random) {
    for used in 0..=9 {
        for more in [0, 3] {
            let line = any_line(random, used, used + more);
            for verb in verbs() {
                ask_windows(asked, &line, verb);
            }
        }
    }
}

fn ask_windows(asked: &mut dyn Ask, line: &Line, verb: u16) {
    let ends: Vec<u64> = (0..line.used + 3).chain([1 << 16, 1 << 32, u64::MAX - 1, u64::MAX]).collect();
    for start in (0..line.used + 2).chain([1 << 16, 1 << 32, u64::MAX]) {
        for end in &ends {
            ask_verb(asked, line, verb, start, *end);
        }
    }
}

/// Every list of up to four tags over the right ones and some that are too large, under every used length; with windows
/// that are refused by themselves too.
fn short_tags(asked: &mut dyn Ask) {
    for_each_string(&[0, 1, 2, 3, 4, 256, 0xFFFF], 4, &mut |tags| {
        let glyphs: Vec<u16> = (10..).take(tags.len()).collect();
        for used in 0..=tags.len() as u64 + 1 {
            let line = Line { glyphs: glyphs.clone(), tags: tags.to_vec(), homes: Vec::new(), used };
            ask_verb(asked, &line, 3, 0, 3);
            ask_verb(asked, &line, 1, 1, 0);
        }
    });
}

/// Every list of up to four homes over the tags of a line and some that are too large, under every used length.
fn short_homes(asked: &mut dyn Ask) {
    for_each_string(&[0, 1, 2, 3, 256, 0xFFFF], 4, &mut |homes| {
        for used in 0..=3 {
            let line = Line { glyphs: vec![10, 11, 12], tags: vec![0, 1, 2], homes: homes.to_vec(), used };
            ask_verb(asked, &line, 1, 0, 2);
            ask_verb(asked, &line, 1, 4, 4);
        }
    });
}

/// Glyphs and tags whose lengths differ, rooms about the largest, and used lengths up to the farthest.
fn refused_lengths(asked: &mut dyn Ask) {
    let lengths = [0, 1, 2, 5, LARGEST_ROOM - 1, LARGEST_ROOM, LARGEST_ROOM + 1];
    let counting = |length: usize| (0..length as u16).collect::<Vec<u16>>();
    for glyphs in lengths {
        for tags in lengths {
            let near = [1, tags as u64, glyphs as u64, tags as u64 + 1];
            let far = [0, (1 << 16) + 1, (1 << 32) + 1, 1 << 63, u64::MAX];
            // Of the largest ones the near lengths alone.
            let far = if glyphs.max(tags) < 10 { &far[..] } else { &[] };
            for used in near.into_iter().chain(far.iter().copied()) {
                let line = Line { glyphs: counting(glyphs), tags: counting(tags), homes: Vec::new(), used };
                ask_verb(asked, &line, 1, 0, 1);
            }
        }
    }
}

/// Lines that fill the largest room, and the same with one thing wrong.
fn longest_lines(asked: &mut dyn Ask, random: &mut Random) {
    for used in [LARGEST_ROOM - 1, LARGEST_ROOM] {
        let line = any_line(random, used, LARGEST_ROOM);
        let last = used as u64 - 1;
        for verb in 0..16 {
            for (start, end) in [(0, last), (last - 3, u64::MAX)] {
                ask_verb(asked, &line, verb, start, end);
            }
        }
        for (start, end) in [(1, last - 1), (last + 1, last + 1), (last + 2, last + 2)] {
            ask_verb(asked, &line, 13, start, end);
        }
        for place in [0, 63, 64, used - 1] {
            for tag in [0, 63, 64, used as u16 - 1, used as u16, 0xFFFF] {
                ask_verb(asked, &with_tag(&line, place, tag), 3, 0, last);
                ask_verb(asked, &with_home(&line, place, tag), 3, 0, last);
            }
        }
    }
}

fn with_tag(line: &Line, place: usize, tag: u16) -> Line {
    let mut line = line.clone();
    line.tags[place] = tag;
    line
}

/// As many homes as places, and this one.
fn with_home(line: &Line, character: usize, home: u16) -> Line {
    let mut line = line.clone();
    line.homes = line.tags[..line.used as usize].to_vec();
    line.homes[character] = home;
    line
}

fn random_lines(asked: &mut dyn Ask, random: &mut Random, cases: u64) {
    for _ in 0..cases {
        let few = random.among(&[5, 5, 12, 12, 12, 70, 70, 70, 300]);
        let longest = if random.once_in(500) { LARGEST_ROOM } else { few };
        let room = random.below(longest + 1);
        let used = if random.once_in(2) { room } else { random.below(room + 1) };
        let mut line = any_line(random, used, room);
        spoil(random, &mut line);
        let (start, end) = any_window(random, used as u64);
        ask_verb(asked, &line, random.word(), start, end);
    }
}

/// A window: mostly in a line of this length, sometimes past it or none.
fn any_window(random: &mut Random, used: u64) -> (u64, u64) {
    let anywhere = random.number() >> random.below(64);
    let mut up_to = |limit: u64| random.below(limit as usize + 1) as u64;
    let start = up_to(used);
    let end = start + up_to(used - start);
    let few = up_to(6);
    match random.below(16) {
        0 => (start, start.wrapping_sub(1)),
        1 => (used, used + few),
        2 => (used + 1, used + 1 + few),
        3 => (0, used.saturating_sub(1)),
        4 => (start, anywhere),
        5 => (anywhere, end),
        6..=9 => (start, start + few),
        _ => (start, end),
    }
}

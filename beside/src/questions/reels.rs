//! Reels beside the crate's runs, and mort's model, of one line after the other; and the same lines by single calls.

use crate::fuzz::case::Chosen;
use crate::fuzz::seeds::{self, Seed};
use crate::fuzz::source::Source;
use crate::questions::features::{any_features, any_requests, feature};
use crate::questions::mort_runs::{any_mort_requests, any_table, MortRun};
use crate::questions::passes::for_each_table;
use crate::questions::runs::{describe_requests, MorxRun};
use crate::questions::{Ask, Part, Question};
use crate::reference::line::{Line, LARGEST_ROOM};
use crate::reference::oracle::{Answer, Fault, LONGEST_TABLE};
use crate::reference::pass::line_of;
use crate::reference::reel::{Edition, Reel, MOST_LINES};
use crate::reference::run::{request, Run};
use crate::tables::lines::{any_line_of, spoil};
use crate::tables::lookup::Made;
use crate::tables::mort;
use crate::tables::morx::{any_morx, chain, morx, puts_in, subtable, trimmed};
use crate::tables::random::Random;
use crate::wire::entries::Entry;
use crate::wire::pipe::{add_numbers, lend_longs, lend_numbers, lend_requests};
use crate::wire::reply::{add, describe, number, numbers};
use std::ops::Range;
use std::rc::Rc;

/// A call of `aat_morx_reel` or `aat_mort_reel`.
#[derive(Clone)]
pub struct ReelRun {
    pub edition: Edition,
    pub start: u64,
    /// Not 0 where the text runs from right to left.
    pub right_to_left: u32,
    pub requests: Vec<u32>,
    pub reel: Reel,
    /// The answers that a document gives.
    pub written: Option<(Answer<()>, Vec<Answer<()>>)>,
}

impl ReelRun {
    fn run<'a>(&'a self, table: &'a [u8]) -> Run<'a> {
        Run { table, start: self.start, right_to_left: self.right_to_left != 0, requests: &self.requests }
    }

    /// The same line by a call of its own.
    fn single(&self, line: Line) -> Box<dyn Question> {
        let (start, right_to_left, requests) = (self.start, self.right_to_left, self.requests.clone());
        match self.edition {
            Edition::Morx => Box::new(MorxRun { line, start, right_to_left, requests: Some(requests), written: None }),
            Edition::Mort => Box::new(MortRun::new(line, start, right_to_left, requests)),
        }
    }
}

impl Question for ReelRun {
    fn entry(&self) -> Entry {
        match self.edition {
            Edition::Morx => Entry::MorxReel,
            Edition::Mort => Entry::MortReel,
        }
    }

    fn arguments(&self, _held: u64, call: &mut Vec<u8>) {
        call.extend(self.start.to_le_bytes());
        call.extend(self.right_to_left.to_le_bytes());
        lend_requests(&self.requests, call);
        for longs in [&self.reel.rooms, &self.reel.characters, &self.reel.used] {
            lend_longs(longs, call);
        }
        for halves in [&self.reel.answers, &self.reel.heads] {
            lend_requests(halves, call);
        }
        for part in [&self.reel.glyphs, &self.reel.tags, &self.reel.homes] {
            lend_numbers(part, call);
        }
    }

    fn reply(&self, table: &[u8], _held: u64, reply: &mut Vec<u8>) -> Result<(), Fault> {
        let mut reel = self.reel.clone();
        let answer = reel.run(self.edition, &self.run(table))?;
        if let Some((given, answers)) = &self.written {
            let answers: Vec<u32> = answers.iter().map(Answer::number).collect();
            if answer != *given || answer == Answer::Done(()) && answers != reel.answers {
                return Err(Fault::Disputed);
            }
        }
        reply.extend(answer.number().to_le_bytes());
        add(&reel.used, reply);
        for halves in [&reel.answers, &reel.heads] {
            reply.extend(halves.iter().flat_map(|number| number.to_le_bytes()));
        }
        for part in [&reel.glyphs, &reel.tags, &reel.homes] {
            add_numbers(part, reply);
        }
        Ok(())
    }

    fn describe(&self, _held: u64) -> String {
        let edition = if self.edition == Edition::Morx { "morx" } else { "mort" };
        let (start, flag, requests) = (self.start, self.right_to_left, describe_requests(&self.requests));
        let Reel { rooms, characters, used, answers, heads, glyphs, tags, homes } = &self.reel;
        let [rooms, characters, used] = [rooms, characters, used].map(|numbers| describe(numbers));
        let numbers = format!("rooms {}; characters {}; used {}", rooms, characters, used);
        let numbers = format!("{}; {} answers, {} heads", numbers, answers.len(), heads.len());
        let [glyphs, tags, homes] = [glyphs, tags, homes].map(|numbers| describe(numbers));
        let parts = format!("glyphs {}; tags {}; homes {}", glyphs, tags, homes);
        format!("{} reel at start {}, right to left {}{}; {}; {}", edition, start, flag, requests, numbers, parts)
    }

    fn describe_reply(&self, reply: &[u8]) -> String {
        let (used, rest) = reply[4..].split_at(8 * self.reel.used.len());
        let (answers, rest) = rest.split_at(4 * self.reel.answers.len());
        let (heads, rest) = rest.split_at(4 * self.reel.heads.len());
        let (glyphs, rest) = rest.split_at(2 * self.reel.glyphs.len());
        let (tags, homes) = rest.split_at(2 * self.reel.tags.len());
        let parts = [(answers, 4), (heads, 4), (glyphs, 2), (tags, 2), (homes, 2)];
        let parts = parts.map(|(part, size)| describe(&part.chunks(size).map(number).collect::<Vec<u64>>()));
        let [answers, heads, glyphs, tags, homes] = parts;
        let used = describe(&numbers(used));
        let line = format!("glyphs {}; tags {}; homes {}", glyphs, tags, homes);
        format!("answer {}, used {}; answers {}; heads {}; {}", number(&reply[..4]), used, answers, heads, line)
    }
}

/// Reels of both editions.
pub struct Reels;

impl Part for Reels {
    fn name(&self) -> &'static str {
        "reels"
    }

    fn every(&self) -> u64 {
        5
    }

    fn entries(&self) -> Vec<Entry> {
        vec![Entry::MorxReel, Entry::MortReel]
    }

    fn ask(&self, asked: &mut dyn Ask, random: &mut Random, cases: u64) {
        examples(asked);
        numbers_of_lines(asked, random);
        endings(asked);
        limits(asked);
        sums(asked);
        lengths(asked);
        refusals(asked);
        large_rooms(asked, random);
        for edition in EDITIONS {
            random_reels(asked, random, edition, cases / 2);
        }
        largest(asked, random);
    }

    /// The line, as often as one byte says, with another in between; the numbers may be changed by two bytes.
    fn chosen(&self, entry: Entry, chosen: Chosen, source: &mut Source) -> Box<dyn Question> {
        let Chosen { start, right_to_left, lent, .. } = chosen;
        let edition = if entry == Entry::MorxReel { Edition::Morx } else { Edition::Mort };
        let short = line_of(&[5, 10], 4);
        let lines = usize::from(source.byte() % 5);
        let lines: Vec<Line> = (0..lines).flat_map(|_| [lent.line.clone(), short.clone()]).collect();
        let mut reel = Reel::of(&lines);
        let (which, number) = (source.byte(), source.number());
        let list = match which {
            1 => &mut reel.rooms,
            2 => &mut reel.characters,
            3 => &mut reel.used,
            _ => return Box::new(ReelRun { edition, start, right_to_left, requests: vec![], reel, written: None }),
        };
        list.iter_mut().last().into_iter().for_each(|last| *last = number);
        Box::new(ReelRun { edition, start, right_to_left, requests: vec![], reel, written: None })
    }

    fn seed(&self, random: &mut Random, entry: Entry) -> Seed {
        let seed = Seed::any(random, |random, glyphs| {
            Made::whole(match entry {
                Entry::MorxReel => seeds::any_morx(random, glyphs),
                _ => mort::any_mort(random, glyphs, &any_features),
            })
        });
        Seed { more: vec![random.below(5) as u8, 0, 0], ..seed }
    }
}

const EDITIONS: [Edition; 2] = [Edition::Morx, Edition::Mort];

/// A table of an edition by which 5 becomes 7 and 6 becomes 9; morx's puts two glyphs in behind each 10, and mort's turns a 10 and
/// the next 11 round. Feature 3 of setting 1 takes the first away.
fn table_of(edition: Edition) -> Rc<[u8]> {
    let features = feature(3, 1, 0, 2);
    Rc::from(match edition {
        Edition::Morx => morx(&[chain(1, &features, &[subtable(4, &trimmed())]), chain(1, &[], &[puts_in(0)])]),
        Edition::Mort => mort::mort(&[
            mort::chain(1, &features, &[mort::substitutes(0)]),
            mort::chain(1, &[], &[mort::rearranges(0)]),
        ]),
    })
}

fn ask_reel(asked: &mut dyn Ask, edition: Edition, table: &Rc<[u8]>, reel: Reel) {
    let reel = ReelRun { edition, start: 0, right_to_left: 0, requests: vec![], reel, written: None };
    asked.ask(table, Box::new(reel));
}

/// A reel of these lines, and each line by a call of its own.
fn ask_lines(asked: &mut dyn Ask, edition: Edition, table: &Rc<[u8]>, lines: &[Line], requests: &[u32]) {
    for right_to_left in [0, 1] {
        let reel = Reel::of(lines);
        let run = ReelRun { edition, start: 0, right_to_left, requests: requests.to_vec(), reel, written: None };
        lines.iter().for_each(|line| asked.ask(table, run.single(line.clone())));
        asked.ask(table, Box::new(run));
    }
}

/// A line that is refused, one that runs full where the table puts glyphs in, one that is done, and an empty one.
fn some_lines() -> [Line; 4] {
    let refused = Line { tags: vec![0, 0, 2], ..line_of(&[5, 10, 6], 3) };
    [refused, line_of(&[10, 5, 6], 4), line_of(&[5, 10, 6, 11], 8), line_of(&[], 0)]
}

/// What W-208 says of answers, with the lines in every order.
fn examples(asked: &mut dyn Ask) {
    use Answer::{Done, Full, Line as Bad};
    let lines = some_lines();
    let answers = [Bad, Full, Done(()), Done(())];
    let table = table_of(Edition::Morx);
    for number in 0..256 {
        let order = [number % 4, number / 4 % 4, number / 16 % 4, number / 64];
        let chosen: Vec<Line> = order.iter().map(|line| lines[*line].clone()).collect();
        let written = Some((Done(()), order.iter().map(|line| answers[*line]).collect()));
        let reel = Reel::of(&chosen);
        let run = ReelRun { edition: Edition::Morx, start: 0, right_to_left: 0, requests: vec![], reel, written };
        chosen.iter().for_each(|line| asked.ask(&table, run.single(line.clone())));
        asked.ask(&table, Box::new(run));
    }
    for edition in EDITIONS {
        let table = table_of(edition);
        let written = Some((Done(()), vec![]));
        let run =
            |written| ReelRun { edition, start: 0, right_to_left: 0, requests: vec![], reel: Reel::of(&[]), written };
        asked.ask(&table, Box::new(run(written)));
        // No table that is too long refuses a reel of no lines.
        asked.ask(&Rc::from(vec![0; LONGEST_TABLE + 1]), Box::new(run(Some((Done(()), vec![])))));
    }
}

/// Reels of these numbers of lines, all empty, all alike, and any.
fn numbers_of_lines(asked: &mut dyn Ask, random: &mut Random) {
    for edition in EDITIONS {
        let table = table_of(edition);
        for count in [0, 1, 2, 17, 255, 256, 257, 300] {
            let lines = some_lines();
            ask_reel(asked, edition, &table, Reel::of(&vec![line_of(&[], 0); count]));
            ask_reel(asked, edition, &table, Reel::of(&vec![line_of(&[], 3); count]));
            ask_reel(asked, edition, &table, Reel::of(&vec![lines[2].clone(); count]));
            let any: Vec<Line> = (0..count).map(|_| lines[random.below(4)].clone()).collect();
            ask_reel(asked, edition, &table, Reel::of(&any));
            if count <= 17 || count == MOST_LINES {
                ask_lines(asked, edition, &table, &any, &[]);
                ask_lines(asked, edition, &table, &any, &[request(3, 1)]);
                ask_lines(asked, edition, &table, &any, &vec![request(3, 1); 65]);
            }
        }
    }
}

/// Refused and full lines first, last and between; and a table that is too long, or a start past it, which every line is told.
fn endings(asked: &mut dyn Ask) {
    let [refused, full, done, empty] = some_lines();
    for edition in EDITIONS {
        let table = table_of(edition);
        for bad in [&refused, &full, &empty] {
            for at in 0..5 {
                let mut lines = vec![done.clone(); 5];
                lines[at] = bad.clone();
                ask_lines(asked, edition, &table, &lines, &[]);
                lines[4 - at] = refused.clone();
                ask_lines(asked, edition, &table, &lines, &[]);
            }
        }
        for length in [LONGEST_TABLE, LONGEST_TABLE + 1] {
            let mut long = table.to_vec();
            long.resize(length, 0);
            let long = Rc::from(long);
            ask_lines(asked, edition, &long, &some_lines(), &vec![request(3, 1); 65]);
            ask_lines(asked, edition, &long, &some_lines(), &[]);
        }
        for start in [table.len() as u64, table.len() as u64 + 1, 1 << 32, u64::MAX] {
            let reel = Reel::of(&some_lines());
            let run = ReelRun { edition, start, right_to_left: 0, requests: vec![], reel, written: None };
            asked.ask(&table, Box::new(run));
        }
    }
}

/// Lines that run to LIMIT, full or are refused, by a subtable that comes again and again; the heads count afresh for each.
fn limits(asked: &mut dyn Ask) {
    let [refused, full, _, empty] = some_lines();
    let limit = line_of(&[5, 6, 20], 5);
    let again = puts_in(0);
    let mut many = chain(1, &[], &[[&[0; 4], &again[4..]].concat()]);
    many[12..16].copy_from_slice(&u32::MAX.to_be_bytes());
    let of_morx = Rc::from(morx(&[many]));
    let again = mort::rearranges(0);
    let mut many = mort::chain(1, &[], &[[&[0; 2], &again[2..]].concat()]);
    many[10..12].fill(0xFF);
    let of_mort = Rc::from(mort::mort(&[many.clone(), many]));
    for (edition, table) in [(Edition::Morx, of_morx), (Edition::Mort, of_mort)] {
        let orders: [&[&Line]; 5] = [
            &[&limit, &full, &refused],
            &[&full, &limit, &full],
            &[&refused, &full, &limit],
            &[&limit, &limit],
            &[&empty, &limit, &refused, &full],
        ];
        for order in orders {
            let lines: Vec<Line> = order.iter().map(|line| (*line).clone()).collect();
            let reel = ReelRun {
                edition,
                start: 0,
                right_to_left: 1,
                requests: vec![],
                reel: Reel::of(&lines),
                written: None,
            };
            asked.ask(&table, Box::new(reel));
        }
    }
}

/// Sums that are one off, or right but for what 64 bits cut away, at the first, the last and between.
fn sums(asked: &mut dyn Ask) {
    for edition in EDITIONS {
        let table = table_of(edition);
        let right = Reel::of(&some_lines());
        let changes: [(usize, u64); 11] = [
            (0, 1),
            (0, u64::MAX),
            (1, 1),
            (2, u64::MAX),
            (3, 1),
            (3, 1 << 32),
            (0, 1 << 32),
            (1, 1 << 63),
            (2, 1 << 16),
            (0, (1 << 63) - 1),
            (3, 1 << 63),
        ];
        for (line, more) in changes {
            for back in [None, Some(0), Some(1), Some(3)] {
                for list in 0..2 {
                    let mut reel = right.clone();
                    let numbers = if list == 0 { &mut reel.rooms } else { &mut reel.characters };
                    numbers[line] = numbers[line].wrapping_add(more);
                    if let Some(back) = back {
                        numbers[back] = numbers[back].wrapping_sub(more);
                    }
                    ask_reel(asked, edition, &table, reel);
                }
            }
        }
        for (glyphs, tags, homes) in [(1, 0, 0), (0, 1, 0), (0, 0, 1), (1, 1, 0), (1, 1, 1)] {
            for is_longer in [false, true] {
                let mut reel = right.clone();
                for (slice, change) in [(&mut reel.glyphs, glyphs), (&mut reel.tags, tags), (&mut reel.homes, homes)] {
                    let length = if is_longer { slice.len() + change } else { slice.len() - change };
                    slice.resize(length, 0);
                }
                ask_reel(asked, edition, &table, reel);
            }
        }
        // Numbers that no memory could hold, of which 64 bits keep the right sum.
        for count in [2, 4, 16, 256] {
            for extra in [0, 1, 5] {
                let share = (1_u128 << 64) / count as u128;
                let mut reel = Reel::of(&vec![line_of(&[], 0); count]);
                reel.rooms = vec![share as u64; count];
                reel.rooms[0] = reel.rooms[0].wrapping_add(extra);
                reel.characters = reel.rooms.clone();
                for slice in [&mut reel.glyphs, &mut reel.tags, &mut reel.homes] {
                    slice.resize(extra as usize, 0);
                }
                ask_reel(asked, edition, &table, reel);
            }
        }
    }
}

/// Slices of numbers for lines that have one more or one fewer than the others, or many.
fn lengths(asked: &mut dyn Ask) {
    for edition in EDITIONS {
        let table = table_of(edition);
        for lines in [some_lines().to_vec(), vec![], vec![line_of(&[], 0); MOST_LINES]] {
            let right = Reel::of(&lines);
            for which in 0..5 {
                for length in [0, lines.len().saturating_sub(1), lines.len() + 1, 257] {
                    let mut reel = right.clone();
                    match which {
                        0 => reel.rooms.resize(length, 0),
                        1 => reel.characters.resize(length, 0),
                        2 => reel.used.resize(length, 0),
                        3 => reel.answers.resize(length, 7),
                        _ => reel.heads.resize(length, 7),
                    }
                    ask_reel(asked, edition, &table, reel);
                }
            }
        }
    }
}

/// REEL together with all that each line could be refused for.
fn refusals(asked: &mut dyn Ask) {
    for edition in EDITIONS {
        for length in [None, Some(LONGEST_TABLE + 1)] {
            let mut table = table_of(edition).to_vec();
            length.iter().for_each(|length| table.resize(*length, 0));
            let table = Rc::from(table);
            for start in [0, u64::MAX] {
                for requests in [0, 65] {
                    for is_reel in [true, false] {
                        let mut reel = Reel::of(&some_lines());
                        reel.rooms[1] += u64::from(!is_reel);
                        let requests = vec![request(3, 1); requests];
                        let run = ReelRun { edition, start, right_to_left: 1, requests, reel, written: None };
                        asked.ask(&table, Box::new(run));
                    }
                }
            }
        }
    }
}

/// Rooms of the largest size and one more, between rooms of none.
fn large_rooms(asked: &mut dyn Ask, random: &mut Random) {
    for edition in EDITIONS {
        let table = table_of(edition);
        for room in [LARGEST_ROOM - 1, LARGEST_ROOM, LARGEST_ROOM + 1] {
            for used in [0, 3, room] {
                let long = any_line_of(random, &(5..12), used, room);
                let lines = [line_of(&[], 0), long, line_of(&[], 0), line_of(&[5, 6], 2)];
                ask_reel(asked, edition, &table, Reel::of(&lines));
            }
        }
    }
}

/// As many lines as there may be, each of the largest room, once.
fn largest(asked: &mut dyn Ask, random: &mut Random) {
    let long = any_line_of(random, &(5..12), LARGEST_ROOM, LARGEST_ROOM);
    ask_reel(asked, Edition::Mort, &table_of(Edition::Mort), Reel::of(&vec![long; MOST_LINES]));
}

/// Any lines by any table: as a reel, and now and then by single calls, too, or with numbers that are off.
fn random_reels(asked: &mut dyn Ask, random: &mut Random, edition: Edition, cases: u64) {
    let any = |random: &mut Random, glyphs: &Range<u16>| match edition {
        Edition::Morx => any_morx(random, glyphs),
        Edition::Mort => any_table(random, glyphs),
    };
    for_each_table(random, cases, any, &mut |random, table, start, glyphs, used| {
        let count = random.among(&[0, 1, 2, 3, 5, 9, 17]);
        let lines: Vec<Line> = (0..count)
            .map(|_| {
                let used = random.below(used + 1);
                let room = used + random.among(&[0, 0, 1, 9, 40]);
                let mut line = any_line_of(random, glyphs, used, room);
                spoil(random, &mut line);
                // Rooms of a reel are those of glyphs and tags alike.
                line.tags.resize(line.glyphs.len(), 0);
                line
            })
            .collect();
        let requests = match edition {
            Edition::Morx => any_requests(random, table, start),
            Edition::Mort => any_mort_requests(random, table, start),
        };
        let right_to_left = random.among(&[0, 1, u32::MAX]);
        let mut reel = Reel::of(&lines);
        if random.once_in(12) {
            derange(random, &mut reel);
        }
        let run = ReelRun { edition, start, right_to_left, requests, reel, written: None };
        if random.once_in(8) {
            lines.iter().for_each(|line| asked.ask(table, run.single(line.clone())));
        }
        asked.ask(table, Box::new(run));
    });
}

/// Changes some number or length of a reel.
fn derange(random: &mut Random, reel: &mut Reel) {
    let lines = reel.rooms.len();
    let off = random.among(&[1, u64::MAX, 1 << 16, 1 << 32, 1 << 63]);
    match random.below(8) {
        0 if lines > 0 => {
            let line = random.below(lines);
            reel.rooms[line] = reel.rooms[line].wrapping_add(off);
        }
        1 if lines > 0 => {
            let line = random.below(lines);
            reel.characters[line] = reel.characters[line].wrapping_add(off);
        }
        2 if lines > 1 => reel.rooms.swap(0, lines - 1),
        3 if lines > 1 => reel.characters.swap(0, lines - 1),
        4 => reel.homes.push(0),
        5 => reel.glyphs.push(0),
        6 => reel.answers.push(0),
        _ => reel.used.push(0),
    }
}

//! Reports on kerning beside the plain model of them.

use crate::fuzz::case::Chosen;
use crate::fuzz::seeds::Seed;
use crate::fuzz::source::Source;
use crate::questions::{Ask, Part, Question};
use crate::reference::kerning::LARGEST_ADJUSTMENT;
use crate::reference::line::{Line, LARGEST_ROOM};
use crate::reference::oracle::{Answer, Fault};
use crate::reference::pass::line_of;
use crate::reference::report::{Report, MOST_LINES};
use crate::tables::lines::{any_along, any_line, spoil, LARGE_ROOMS};
use crate::tables::lookup::Made;
use crate::tables::random::Random;
use crate::tables::strings::for_each_string;
use crate::wire::along::{add_along, along_of, lend_along};
use crate::wire::entries::Entry;
use crate::wire::pipe::{lend_longs, lend_numbers};
use crate::wire::reply::{describe, number};

/// A call of `aat_kerning_report`.
pub struct Reported {
    pub report: Report,
    /// What the request gives: the answer, and for DONE what is written for each line and the totals.
    pub written: Option<(Answer<()>, Vec<[i64; 3]>, [i64; 3])>,
}

impl Question for Reported {
    fn entry(&self) -> Entry {
        Entry::KerningReport
    }

    fn arguments(&self, _held: u64, call: &mut Vec<u8>) {
        let Report { lines, along, sums, largest, smallest, totals } = &self.report;
        for longs in [&lines.rooms, &lines.characters, &lines.used] {
            lend_longs(longs, call);
        }
        for part in [&lines.glyphs, &lines.tags, &lines.homes] {
            lend_numbers(part, call);
        }
        for signed in [along, sums, largest, smallest] {
            lend_along(signed, call);
        }
        add_along(totals, call);
    }

    fn reply(&self, _table: &[u8], _held: u64, reply: &mut Vec<u8>) -> Result<(), Fault> {
        let mut report = self.report.clone();
        let answer = report.make();
        let Report { sums, largest, smallest, totals, .. } = &report;
        if let Some((given, lines, all)) = &self.written {
            let told =
                sums.iter().zip(largest).zip(smallest).map(|((sum, largest), smallest)| [*sum, *largest, *smallest]);
            let is_done = answer == Answer::Done(());
            if answer != *given || is_done && (told.collect::<Vec<_>>() != *lines || totals != all) {
                return Err(Fault::Disputed);
            }
        }
        reply.extend(answer.number().to_le_bytes());
        for signed in [&sums[..], largest, smallest, totals] {
            add_along(signed, reply);
        }
        Ok(())
    }

    fn describe(&self, _held: u64) -> String {
        let Report { lines, along, .. } = &self.report;
        let [rooms, characters, used] = [&lines.rooms, &lines.characters, &lines.used].map(|part| describe(part));
        let [glyphs, tags, homes] = [&lines.glyphs, &lines.tags, &lines.homes].map(|part| describe(part));
        let numbers = format!("rooms {}; characters {}; used {}", rooms, characters, used);
        let parts = format!("glyphs {}; tags {}; homes {}; along {}", glyphs, tags, homes, describe(along));
        let Report { sums, largest, smallest, totals, .. } = &self.report;
        let [sums, largest, smallest] = [sums, largest, smallest].map(|part| describe(part));
        let lent = format!("sums {}; largest {}; smallest {}; totals {:?}", sums, largest, smallest, totals);
        format!("report on {}; {}; lent {}", numbers, parts, lent)
    }

    fn describe_reply(&self, reply: &[u8]) -> String {
        format!(
            "answer {}, sums, largest, smallest and totals {}",
            number(&reply[..4]),
            describe(&along_of(&reply[4..]))
        )
    }
}

/// Reports.
pub struct Reports;

impl Part for Reports {
    fn name(&self) -> &'static str {
        "reports"
    }

    fn every(&self) -> u64 {
        2
    }

    fn entries(&self) -> Vec<Entry> {
        vec![Entry::KerningReport]
    }

    fn ask(&self, asked: &mut dyn Ask, random: &mut Random, cases: u64) {
        examples(asked);
        short_lines(asked);
        numbers_of_lines(asked, random);
        extremes(asked);
        sums(asked);
        lengths(asked);
        refused_lines(asked, random);
        random_reports(asked, random, cases);
        largest(asked);
    }

    /// The line, as often as one byte says, with another between, and adjustments of one byte each.
    fn chosen(&self, _entry: Entry, chosen: Chosen, source: &mut Source) -> Box<dyn Question> {
        let short = line_of(&[5, 10], 3);
        let count = usize::from(source.byte() % 5);
        let lines: Vec<Line> = (0..count).flat_map(|_| [chosen.lent.line.clone(), short.clone()]).collect();
        let mut any = |line: &Line| (0..line.glyphs.len()).map(|_| i64::from(source.byte() as i8)).collect();
        let along: Vec<Vec<i64>> = lines.iter().map(&mut any).collect();
        let mut report = Report::of(&lines, &along);
        let (which, number) = (source.byte(), source.number());
        match which {
            1 => report.lines.rooms.iter_mut().for_each(|room| *room = number),
            2 => report.lines.characters.iter_mut().for_each(|count| *count = number),
            3 => report.along.iter_mut().for_each(|along| *along = number as i64),
            _ => {}
        }
        Box::new(Reported { report, written: None })
    }

    fn seed(&self, random: &mut Random, _entry: Entry) -> Seed {
        let more = [vec![random.below(5) as u8], random.bytes(40)].concat();
        Seed { more, ..Seed::of(0..16, Made::whole(Vec::new())) }
    }
}

fn ask(asked: &mut dyn Ask, report: Report) {
    asked.ask_alone(Box::new(Reported { report, written: None }));
}

/// A line whose used places have these adjustments, in a room of some more, which have another.
fn line_with(along: &[i64], more: usize, other: i64) -> (Line, Vec<i64>) {
    let line = line_of(&vec![10; along.len()], along.len() + more);
    (line, [along, &vec![other; more]].concat())
}

fn report_on(lines: &[(Line, Vec<i64>)]) -> Report {
    let (lines, along): (Vec<Line>, Vec<Vec<i64>>) = lines.iter().cloned().unzip();
    Report::of(&lines, &along)
}

const LARGEST: i64 = LARGEST_ADJUSTMENT as i64;

/// What W-214 says of sums, largest and smallest: of negative lines, empty ones, and what lies behind a line.
fn examples(asked: &mut dyn Ask) {
    use Answer::{Done, Line as Bad, Reel};
    let of = |lines: &[(&[i64], usize, i64)]| {
        report_on(&lines.iter().map(|(along, more, other)| line_with(along, *more, *other)).collect::<Vec<_>>())
    };
    let cases: [(Report, Answer<()>, Vec<[i64; 3]>, [i64; 3]); 9] = [
        (of(&[]), Done(()), vec![], [0; 3]),
        (of(&[(&[], 0, 0)]), Done(()), vec![[0; 3]], [0; 3]),
        (of(&[(&[], 4, 9)]), Done(()), vec![[0; 3]], [0; 3]),
        (of(&[(&[-5, -7], 1, 3)]), Done(()), vec![[-12, -5, -7]], [-12, -5, -7]),
        // An empty line's zeros are none of the totals'.
        (of(&[(&[-5, -7], 0, 0), (&[], 2, 0)]), Done(()), vec![[-12, -5, -7], [0; 3]], [-12, -5, -7]),
        (of(&[(&[], 0, 0), (&[3, 8], 2, 99)]), Done(()), vec![[0; 3], [11, 8, 3]], [11, 8, 3]),
        (of(&[(&[LARGEST], 1, -LARGEST)]), Done(()), vec![[LARGEST; 3]], [LARGEST; 3]),
        (of(&[(&[1], 1, LARGEST + 1)]), Bad, vec![], [0; 3]),
        (report_on(&vec![line_with(&[1], 0, 0); 256]), Reel, vec![], [0; 3]),
    ];
    for (report, answer, lines, totals) in cases {
        asked.ask_alone(Box::new(Reported { report, written: Some((answer, lines, totals)) }));
    }
}

/// Every few lines of few places over a few adjustments.
fn short_lines(asked: &mut dyn Ask) {
    let numbers = [0, -1, 7, LARGEST, -LARGEST];
    for_each_string(&numbers, 3, &mut |first| {
        for_each_string(&numbers, 2, &mut |second| {
            ask(asked, report_on(&[line_with(first, 1, -9), line_with(second, 0, 0)]));
        });
    });
}

/// As many lines as are reported on, fewer and more, empty, alike and any.
fn numbers_of_lines(asked: &mut dyn Ask, random: &mut Random) {
    for count in [0, 1, 2, 17, 254, 255, 256, 257, 300] {
        ask(asked, report_on(&vec![line_with(&[], 0, 0); count]));
        ask(asked, report_on(&vec![line_with(&[], 1, -3); count]));
        ask(asked, report_on(&vec![line_with(&[-2, -4], 1, 3); count]));
        for _ in 0..3 {
            let any = |_| {
                let used = random.below(5);
                let along: Vec<i64> = (0..used).map(|_| random.below(2_000) as i64 - 1_500).collect();
                line_with(&along, random.below(3), 0)
            };
            ask(asked, report_on(&(0..count).map(any).collect::<Vec<_>>()));
        }
    }
}

/// Adjustments about the largest at every place of every line, used or not.
fn extremes(asked: &mut dyn Ask) {
    let some = [LARGEST - 1, LARGEST, LARGEST + 1, -LARGEST + 1, -LARGEST, -LARGEST - 1, i64::MIN, i64::MAX, 1 << 41];
    for number in some {
        for place in 0..9 {
            let mut report = report_on(&vec![line_with(&[4, -4], 1, 1); 3]);
            report.along[place] = number;
            ask(asked, report);
        }
    }
}

/// Sums that are one off, or right but for what 64 bits cut away.
fn sums(asked: &mut dyn Ask) {
    let right = report_on(&[line_with(&[4, -4], 1, 1), line_with(&[], 0, 0), line_with(&[7], 2, 5)]);
    for more in [1, u64::MAX, 1 << 16, 1 << 32, 1 << 63, (1 << 63) - 1] {
        for line in 0..3 {
            for back in [None, Some(0), Some(1), Some(2)] {
                for list in 0..2 {
                    let mut report = right.clone();
                    let Report { lines, .. } = &mut report;
                    let numbers = if list == 0 { &mut lines.rooms } else { &mut lines.characters };
                    numbers[line] = numbers[line].wrapping_add(more);
                    if let Some(back) = back {
                        numbers[back] = numbers[back].wrapping_sub(more);
                    }
                    ask(asked, report);
                }
            }
        }
    }
    for which in 0..16 {
        for is_longer in [false, true] {
            let mut report = right.clone();
            let length = |length: usize, bit: usize| match (which >> bit & 1, is_longer) {
                (0, _) => length,
                (_, true) => length + 1,
                _ => length - 1,
            };
            let Report { lines, along, .. } = &mut report;
            for (bit, slice) in [&mut lines.glyphs, &mut lines.tags, &mut lines.homes].into_iter().enumerate() {
                slice.resize(length(slice.len(), bit), 0);
            }
            along.resize(length(along.len(), 3), 0);
            ask(asked, report);
        }
    }
}

/// Slices of numbers for lines that have one more or one fewer than the others, or many.
fn lengths(asked: &mut dyn Ask) {
    for count in [0, 1, 3, MOST_LINES] {
        let right = report_on(&vec![line_with(&[], 0, 0); count]);
        for which in 0..6 {
            for length in [0, count.saturating_sub(1), count + 1, 256] {
                let mut report = right.clone();
                match which {
                    0 => report.lines.rooms.resize(length, 0),
                    1 => report.lines.characters.resize(length, 0),
                    2 => report.lines.used.resize(length, 0),
                    3 => report.sums.resize(length, 7),
                    4 => report.largest.resize(length, 7),
                    _ => report.smallest.resize(length, 7),
                }
                ask(asked, report);
            }
        }
    }
}

/// A line that is none, first, last and between, in a report that is REEL or not, of few lines and of the most; and rooms about the largest.
fn refused_lines(asked: &mut dyn Ask, random: &mut Random) {
    let right = line_with(&[4, -4, 2], 1, 1);
    for at in 0..4 {
        for kind in 0..6 {
            let mut lines = vec![right.clone(); 4];
            let line = &mut lines[at].0;
            match kind {
                0 => line.tags[0] = 1,
                1 => line.tags[2] = 3,
                2 => line.homes[1] = 3,
                3 => line.used = 5,
                4 => line.used = u64::MAX,
                _ => line.homes = vec![0; 4],
            }
            ask(asked, report_on(&lines));
            let mut report = report_on(&lines);
            report.lines.rooms[0] += 1;
            ask(asked, report);
        }
    }
    for count in [1, 2, MOST_LINES - 1, MOST_LINES, MOST_LINES + 1] {
        for at in [0, count / 2, count - 1] {
            let mut lines = vec![right.clone(); count];
            lines[at].0.tags[1] = 2;
            ask(asked, report_on(&lines));
            lines[at] = line_with(&[4, -4, 2], 1, -LARGEST - 1);
            ask(asked, report_on(&lines));
        }
    }
    for room in LARGE_ROOMS {
        for used in [0, 5, room] {
            let line = any_line(random, used, room);
            let along = (0..room as i64).map(|place| 3 - place).collect();
            ask(asked, report_on(&[right.clone(), (line, along), right.clone()]));
        }
    }
}

/// As many lines as there may be, each of the largest room and full of the largest adjustments, once.
fn largest(asked: &mut dyn Ask) {
    for number in [LARGEST, -LARGEST] {
        let long = line_with(&vec![number; LARGEST_ROOM], 0, 0);
        let report = report_on(&vec![long; MOST_LINES]);
        let sum = LARGEST_ROOM as i64 * number;
        let lines = vec![[sum, number, number]; MOST_LINES];
        let totals = [MOST_LINES as i64 * sum, number, number];
        asked.ask_alone(Box::new(Reported { report, written: Some((Answer::Done(()), lines, totals)) }));
    }
}

fn random_reports(asked: &mut dyn Ask, random: &mut Random, cases: u64) {
    for _ in 0..cases {
        let count = if random.once_in(200) { 250 + random.below(8) } else { random.among(&[0, 1, 2, 3, 5, 9]) };
        let lines: Vec<(Line, Vec<i64>)> = (0..count)
            .map(|_| {
                let used = random.below(9);
                let room = used + random.among(&[0, 0, 1, 5]);
                let mut line = any_line(random, used, room);
                if random.once_in(8) {
                    spoil(random, &mut line);
                    line.tags.resize(line.glyphs.len(), 0);
                }
                let along = if random.once_in(3) {
                    any_along(random, line.glyphs.len())
                } else {
                    (0..line.glyphs.len()).map(|_| random.below(400) as i64 - 300).collect()
                };
                (line, along)
            })
            .collect();
        let mut report = report_on(&lines);
        match random.below(60) {
            0 => report.along.push(0),
            1 => report.sums.push(0),
            2 => report.smallest.push(0),
            3 => report.lines.glyphs.push(0),
            4 => report.lines.tags.push(0),
            5 => report.lines.homes.push(0),
            6 if count > 0 => report.lines.rooms[0] = random.number() >> random.below(64),
            7 if count > 0 => report.lines.characters[count - 1] = random.number() >> random.below(64),
            8 if count > 0 => report.lines.used[0] = random.number() >> random.below(64),
            _ => {}
        }
        ask(asked, report);
    }
}

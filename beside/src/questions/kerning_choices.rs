//! Kerning passes and runs by document 02's choices, beside the plain models of these.

use crate::fuzz::case::Chosen;
use crate::fuzz::seeds::Seed;
use crate::fuzz::source::Source;
use crate::questions::kerning_passes::{Pass, Passes};
use crate::questions::kerning_runs::{any_table, behind_others, KerningRun, Runs, BEFORE};
use crate::questions::passes::for_each_table;
use crate::questions::{Ask, Part, Question};
use crate::reference::kerning::{Kerned, Kerning};
use crate::reference::kerning_choices::{Choices, JOINED_PAIRS, MANUAL_LISTS};
use crate::reference::line::{Line, DELETED, LARGEST_ROOM};
use crate::reference::oracle::{Answer, Fault};
use crate::reference::pass::line_of;
use crate::tables::kerning::{any_body, any_subtable, classes, editions, formats, Edition, Pair};
use crate::tables::lines::any_glyphs;
use crate::tables::lookup::{with_records, Record};
use crate::tables::random::Random;
use crate::tables::strings::for_each_string;
use crate::wire::entries::{Entry, ENTRIES};
use std::cell::Cell;
use std::ops::Range;
use std::rc::Rc;

/// Choices in words, for a question that may be told none.
pub fn describe_choices(choices: Option<Choices>) -> String {
    choices.map_or(String::new(), |choices| format!(", choices {:#x}", choices.0))
}

const PASSES_BY: [Entry; 2] = [Entry::KernPassBy, Entry::KerxPassBy];
const RUNS_BY: [Entry; 2] = [Entry::KernRunBy, Entry::KerxRunBy];

/// The choices that an entry looks at.
const LOOKED_AT: [(Entry, u32); 12] = [
    (Entry::KernPassBy, JOINED_PAIRS),
    (Entry::KerxPassBy, JOINED_PAIRS),
    (Entry::KernRunBy, JOINED_PAIRS),
    (Entry::KerxRunBy, JOINED_PAIRS),
    (Entry::KerxPassBy, MANUAL_LISTS),
    (Entry::KerxRunBy, MANUAL_LISTS),
    (Entry::KerxStepBy, MANUAL_LISTS),
    (Entry::KerxPassAnchored, JOINED_PAIRS),
    (Entry::KerxRunAnchored, JOINED_PAIRS),
    (Entry::KerxPassAnchored, MANUAL_LISTS),
    (Entry::KerxRunAnchored, MANUAL_LISTS),
    (Entry::AnchorStep, MANUAL_LISTS),
];

thread_local! {
    /// For each of these, how often it was chosen, and how often that made a difference.
    static COUNTED: Cell<[[u64; 2]; LOOKED_AT.len()]> = Cell::default();
}

/// Counts a call; what it would leave by other choices may be told from what it leaves.
pub fn count(entry: Entry, choices: Choices, differs: impl Fn(Choices) -> Result<bool, Fault>) -> Result<(), Fault> {
    let mut counted = COUNTED.with(Cell::get);
    for ((_, choice), [calls, otherwise]) in LOOKED_AT.iter().zip(&mut counted).filter(|((of, _), _)| *of == entry) {
        if choices.0 & choice != 0 {
            *calls += 1;
            *otherwise += u64::from(differs(choices.without(*choice))?);
        }
    }
    COUNTED.with(|cell| cell.set(counted));
    Ok(())
}

/// How often choices were made, and made a difference, in words.
pub fn counted() -> Vec<String> {
    let name = |entry: Entry| ENTRIES[entry as usize - 1].1;
    let line = |((entry, choice), [calls, otherwise]): (&(Entry, u32), [u64; 2])| {
        let [by, than] = match *choice {
            JOINED_PAIRS => ["by joined pairs", "by neighbours"],
            _ => ["in the manual's reading", "in the crate's"],
        };
        format!("{}: {} calls {}, {} otherwise than {}", name(*entry), calls, by, otherwise, than)
    };
    LOOKED_AT.iter().zip(COUNTED.with(Cell::get)).map(line).collect()
}

/// The bits that are named and others, alone and together.
const CHOICES: [Choices; 8] = [
    Choices(0),
    Choices(1),
    Choices(2),
    Choices(3),
    Choices(4),
    Choices(0x8000_0001),
    Choices(0xFFFF_FFFE),
    Choices(0xFFFF_FFFF),
];

/// Asks the same of the entries that take choices, each question by the next of these, and nothing else.
pub struct ByTurns<'a> {
    asked: &'a mut dyn Ask,
    turns: usize,
}

impl<'a> ByTurns<'a> {
    /// Nothing is asked yet.
    pub fn new(asked: &'a mut dyn Ask) -> Self {
        ByTurns { asked, turns: 0 }
    }
}

impl Ask for ByTurns<'_> {
    fn ask(&mut self, table: &Rc<[u8]>, question: Box<dyn Question>) {
        let choices = CHOICES[self.turns % CHOICES.len()];
        if let Some(question) = question.with_choices(choices) {
            self.turns += 1;
            self.asked.ask(table, question);
        }
    }
}

/// Passes and runs of kern or kerx by choices.
pub struct ByChoices(pub Kerning);

impl ByChoices {
    /// The part that asks the same without choices.
    fn plain(&self, entry: Entry) -> Box<dyn Part> {
        if entry == self.0.its(PASSES_BY) {
            Box::new(Passes(self.0))
        } else {
            Box::new(Runs(self.0))
        }
    }
}

impl Part for ByChoices {
    fn name(&self) -> &'static str {
        "choices"
    }

    fn every(&self) -> u64 {
        2
    }

    fn entries(&self) -> Vec<Entry> {
        [PASSES_BY, RUNS_BY].map(|entries| self.0.its(entries)).to_vec()
    }

    fn ask(&self, asked: &mut dyn Ask, random: &mut Random, cases: u64) {
        let kerning = self.0;
        short_lines(asked, kerning);
        known_answers(asked, kerning);
        runs_of_deleted(asked, kerning);
        full_rooms(asked, kerning);
        every_format(asked, kerning, random);
        random_passes(asked, kerning, random, cases / 2);
        random_runs(asked, kerning, random, cases / 2);
        let asked = &mut ByTurns::new(asked);
        self.entries().into_iter().for_each(|entry| self.plain(entry).ask(asked, random, cases / 25));
    }

    fn chosen(&self, entry: Entry, chosen: Chosen, source: &mut Source) -> Box<dyn Question> {
        let choices = Choices(source.number() as u32);
        let plain = self.plain(entry).chosen(entry, chosen, source);
        plain.with_choices(choices).expect("a question that can be told choices")
    }

    fn seed(&self, random: &mut Random, entry: Entry) -> Seed {
        Seed { more: vec![random.below(4) as u8], ..self.plain(entry).seed(random, entry) }
    }
}

/// A call of a pass by choices at the beginning of a table.
fn pass_by(edition: Edition, choices: Choices, lent: Kerned, written: Option<&[i64]>) -> Box<dyn Question> {
    let written = written.map(|written| (Answer::Done(()), written.to_vec()));
    Box::new(Pass { edition, choices: Some(choices), lent, start: 0, written })
}

/// A call of a run by choices of a table that lies behind others.
fn run_by(
    kerning: Kerning,
    choices: Choices,
    lent: Kerned,
    right_to_left: u32,
    written: Option<&[i64]>,
) -> Box<dyn Question> {
    let (choices, start, written) = (Some(choices), BEFORE as u64, written.map(<[i64]>::to_vec));
    Box::new(KerningRun { kerning, choices, lent, start, right_to_left, written })
}

/// The directions that a run is told; kern is told none.
fn ways(kerning: Kerning) -> &'static [u32] {
    match kerning {
        Kerning::Kern => &[0],
        Kerning::Kerx => &[0, 1],
    }
}

/// The formats that have pairs.
fn formats_of_pairs(kerning: Kerning) -> &'static [u8] {
    match kerning {
        Kerning::Kern => &[0],
        Kerning::Kerx => &[0, 2],
    }
}

/// The body of a format that has pairs with these numbers, one for each pair of these glyphs, by the first and then the second.
fn of_numbers(edition: Edition, format: u8, glyphs: &[u16], numbers: &[i16]) -> Vec<u8> {
    let firsts = glyphs.iter().flat_map(|first| vec![*first; glyphs.len()]);
    let pairs: Vec<Pair> = firsts
        .zip(glyphs.iter().cycle())
        .zip(numbers)
        .map(|((first, second), number)| (first, *second, *number))
        .collect();
    if format == 0 {
        return edition.pairs(pairs.len() as u32, &pairs);
    }
    let count = glyphs.len() as u16;
    let lookup = |size| {
        let record = |(class, glyph): (u16, &u16)| Record { first: *glyph, last: *glyph, value: size * class };
        with_records(6, 4, count, &(0..).zip(glyphs).map(record).collect::<Vec<_>>())
    };
    let numbers: Vec<u16> = numbers.iter().map(|number| *number as u16).collect();
    classes(2 * u32::from(count), lookup(2 * count), lookup(2), &numbers)
}

const REVERSED: u32 = 0x1000_0000;

/// A line with adjustments of 0.
pub fn unkerned(glyphs: &[u16]) -> Kerned {
    Kerned { line: line_of(glyphs, glyphs.len()), along: vec![0; glyphs.len()] }
}

/// The request's own pair, by neighbours and joined, on lines with deleted glyphs between the two and around them; in kerx on
/// the same lines turned round, too, where the number goes to the place that comes first when they are turned back.
fn known_answers(asked: &mut dyn Ask, kerning: Kerning) {
    let known: [(&[u16], &[i64], &[i64]); 5] = [
        (&[5, DELETED, 6], &[0, 0, 0], &[10, 0, 0]),
        (&[DELETED, 5, 6, DELETED], &[0, 10, 0, 0], &[0, 10, 0, 0]),
        (&[5, DELETED, DELETED, 6, 5, 6], &[0, 0, 0, 0, 10, 0], &[10, 0, 0, 0, 10, 0]),
        (&[5, 6], &[10, 0], &[10, 0]),
        (&[6, DELETED, 5], &[0, 0, 0], &[0, 0, 0]),
    ];
    for edition in editions(kerning).iter().copied() {
        for format in formats_of_pairs(kerning) {
            let body = of_numbers(edition, *format, &[5, 6], &[0, 10, 0, 0]);
            let subtable = |bits| edition.subtable(edition.plain() | bits, *format, &body);
            let [table, turning] = [0, REVERSED].map(|bits| behind_others(edition.table(&[subtable(bits)])));
            let alone = Rc::from(subtable(0));
            for (glyphs, by_neighbours, joined) in known {
                for (choices, written) in [(Choices(0), by_neighbours), (Choices(1), joined)] {
                    asked.ask(&alone, pass_by(edition, choices, unkerned(glyphs), Some(written)));
                    asked.ask(&table, run_by(kerning, choices, unkerned(glyphs), 0, Some(written)));
                    if kerning == Kerning::Kerx {
                        let glyphs: Vec<u16> = glyphs.iter().rev().copied().collect();
                        let written: Vec<i64> = written.iter().rev().copied().collect();
                        asked.ask(&table, run_by(kerning, choices, unkerned(&glyphs), 1, Some(&written)));
                        asked.ask(&turning, run_by(kerning, choices, unkerned(&glyphs), 0, Some(&written)));
                    }
                }
            }
        }
    }
}

/// Two glyphs and the deleted one, and a number for each pair of them: a pair with a deleted glyph has one, too.
const LETTERS: [u16; 3] = [5, 6, DELETED];
const NUMBERS: [i16; 9] = [1, 2, 3, 4, 5, 6, 7, 8, 9];

/// A subtable of each format that has pairs, with a number for each pair of letters.
fn subtables_of_letters(edition: Edition) -> Vec<Vec<u8>> {
    let body = |format| of_numbers(edition, format, &LETTERS, &NUMBERS);
    formats_of_pairs(edition.kerning).iter().map(|it| edition.subtable(edition.plain(), *it, &body(*it))).collect()
}

/// A table of all formats that have pairs, the last of them turned in kerx, whose numbers are large enough to be told from the
/// sums of the others.
fn table_of_letters(edition: Edition) -> Rc<[u8]> {
    let large = NUMBERS.map(|number| 100 * number);
    let format = *formats_of_pairs(edition.kerning).last().expect("a format");
    let bits = if edition.kerning == Kerning::Kerx { REVERSED } else { edition.plain() };
    let mut subtables = subtables_of_letters(edition);
    subtables.push(edition.subtable(bits, format, &of_numbers(edition, format, &LETTERS, &large)));
    behind_others(edition.table(&subtables))
}

/// A line under no choice, under joined pairs, and under the next of all: passes by each format, and a run each way.
struct OnLines<'a> {
    asked: &'a mut dyn Ask,
    tables: Vec<(Edition, Vec<Rc<[u8]>>, Rc<[u8]>)>,
    turns: usize,
}

impl<'a> OnLines<'a> {
    fn new(asked: &'a mut dyn Ask, kerning: Kerning) -> Self {
        let made = |edition: &Edition| {
            let subtables = subtables_of_letters(*edition).into_iter().map(Rc::from).collect();
            (*edition, subtables, table_of_letters(*edition))
        };
        OnLines { asked, tables: editions(kerning).iter().map(made).collect(), turns: 0 }
    }

    fn ask(&mut self, lent: &Kerned) {
        for (edition, subtables, table) in &self.tables {
            self.turns += 1;
            for choices in [Choices(0), Choices(1), CHOICES[self.turns % CHOICES.len()]] {
                for subtable in subtables {
                    self.asked.ask(subtable, pass_by(*edition, choices, lent.clone(), None));
                }
                for way in ways(edition.kerning) {
                    self.asked.ask(table, run_by(edition.kerning, choices, lent.clone(), *way, None));
                }
            }
        }
    }
}

/// Every line of up to five letters.
fn short_lines(asked: &mut dyn Ask, kerning: Kerning) {
    let mut on_lines = OnLines::new(asked, kerning);
    for_each_string(&LETTERS, 5, &mut |glyphs| on_lines.ask(&Kerned::of(line_of(glyphs, glyphs.len() + 1))));
}

/// Deleted glyphs before, between and behind three others, one of them or many, and lines of nothing else; what lies behind a
/// line, deleted or not, is not its own.
fn runs_of_deleted(asked: &mut dyn Ask, kerning: Kerning) {
    let mut on_lines = OnLines::new(asked, kerning);
    let deleted = |count| vec![DELETED; count];
    for before in [0, 1, 40] {
        for first in [0, 1, 2, 40] {
            for second in [0, 1, 3] {
                for behind in [0, 1, 40] {
                    let parts = [deleted(before), vec![5], deleted(first), vec![6], deleted(second), vec![5]];
                    let glyphs = [parts.concat(), deleted(behind)].concat();
                    on_lines.ask(&Kerned::of(line_of(&glyphs, glyphs.len())));
                }
            }
        }
    }
    for count in [1, 2, 17, 300] {
        for behind in [&[][..], &[5, 6], &[DELETED, 5]] {
            let glyphs = [&deleted(count), behind].concat();
            let homes = (0..count as u16).collect();
            on_lines.ask(&Kerned::of(Line { used: count as u64, homes, ..line_of(&glyphs, glyphs.len()) }));
        }
    }
}

/// Lines that fill the largest room: of deleted glyphs alone, but for one, and but for two that stand anywhere; of every other
/// one deleted; and of none.
fn full_rooms(asked: &mut dyn Ask, kerning: Kerning) {
    let edition = editions(kerning)[1];
    let subtables: Vec<Rc<[u8]>> = subtables_of_letters(edition).into_iter().map(Rc::from).collect();
    let table = table_of_letters(edition);
    let last = LARGEST_ROOM - 1;
    let but_for = |places: &[usize]| {
        let mut glyphs = vec![DELETED; LARGEST_ROOM];
        places.iter().zip([5, 6]).for_each(|(place, glyph)| glyphs[*place] = glyph);
        glyphs
    };
    let mut lines: Vec<Vec<u16>> =
        [&[][..], &[0], &[last], &[0, last], &[0, 1], &[last - 1, last], &[17, 2_000]].map(but_for).to_vec();
    lines.push((0..LARGEST_ROOM).map(|place| if place % 2 == 0 { 5 } else { DELETED }).collect());
    lines.push((0..LARGEST_ROOM).map(|place| LETTERS[place % 2]).collect());
    for glyphs in lines {
        let lent = Kerned::of(line_of(&glyphs, LARGEST_ROOM));
        for choices in [Choices(0), Choices(1)] {
            for subtable in &subtables {
                asked.ask(subtable, pass_by(edition, choices, lent.clone(), None));
            }
            for way in ways(kerning) {
                asked.ask(&table, run_by(kerning, choices, lent.clone(), *way, None));
            }
        }
    }
}

/// Every format, which choices of pairs touch or do not, under all choices, on lines with deleted glyphs.
fn every_format(asked: &mut dyn Ask, kerning: Kerning, random: &mut Random) {
    let glyphs = 10..13;
    for edition in editions(kerning).iter().copied() {
        for format in formats(kerning) {
            for _ in 0..20 {
                let body = any_body(random, edition, *format, &glyphs);
                let subtable = Rc::from(edition.subtable(edition.plain(), *format, &body));
                let lent = any_kerned(random, &glyphs, 12);
                for choices in CHOICES {
                    asked.ask(&subtable, pass_by(edition, choices, lent.clone(), None));
                }
            }
        }
    }
}

/// Any line of up to so many of these glyphs, with any adjustments, some of it deleted: little, much or all.
pub fn any_kerned(random: &mut Random, glyphs: &Range<u16>, longest: usize) -> Kerned {
    let used = random.below(longest + 1);
    let room = used + random.among(&[0, 0, 1, 9]);
    let mut lent = Kerned::any(random, glyphs, used, room.min(LARGEST_ROOM));
    let [deleted, of] = random.among(&[[0, 1], [1, 10], [1, 3], [1, 2], [2, 3], [9, 10], [1, 1]]);
    for glyph in &mut lent.line.glyphs {
        if random.below(of) < deleted {
            *glyph = DELETED;
        }
    }
    lent
}

/// Mostly short lines, rarely up to the largest room.
pub fn any_longest(random: &mut Random) -> usize {
    if random.once_in(400) {
        LARGEST_ROOM
    } else {
        random.among(&[2, 5, 12, 12, 24, 60])
    }
}

/// Any choices, mostly those that differ from none.
fn any_choices(random: &mut Random) -> Choices {
    match random.below(4) {
        0 => random.among(&CHOICES),
        1 => Choices(random.number() as u32),
        _ => Choices(1),
    }
}

const LINES_FOR_ONE_TABLE: u64 = 4;

/// Any subtables, mostly of pairs.
fn random_passes(asked: &mut dyn Ask, kerning: Kerning, random: &mut Random, cases: u64) {
    let mut left = cases;
    while left > 0 {
        let glyphs = any_glyphs(random);
        let edition = Edition::any(random, kerning);
        let format = if random.once_in(6) { 1 } else { random.among(formats_of_pairs(kerning)) };
        let made = any_subtable(random, edition, format, &glyphs);
        let table = Rc::from(&made.table[..]);
        let start = made.any_start(random);
        let lines = left.min(LINES_FOR_ONE_TABLE);
        for _ in 0..lines {
            let longest = any_longest(random);
            let lent = any_kerned(random, &glyphs, longest);
            let choices = Some(any_choices(random));
            asked.ask(&table, Box::new(Pass { edition, choices, lent, start, written: None }));
        }
        left -= lines;
    }
}

/// Any tables.
fn random_runs(asked: &mut dyn Ask, kerning: Kerning, random: &mut Random, cases: u64) {
    let any_table = |random: &mut Random, glyphs: &Range<u16>| any_table(random, kerning, glyphs);
    for_each_table(random, cases, any_table, &mut |random, table, start, glyphs, _used| {
        let longest = any_longest(random);
        let lent = any_kerned(random, glyphs, longest);
        let (choices, right_to_left) = (Some(any_choices(random)), random.among(&[0, 1, 2, u32::MAX]));
        asked.ask(table, Box::new(KerningRun { kerning, choices, lent, start, right_to_left, written: None }));
    });
}

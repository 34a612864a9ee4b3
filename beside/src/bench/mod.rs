//! Times the proved entries beside the crate: one process, the same tables, glyphs, names and lines, turn by turn.

mod harfbuzz;
mod sides;
mod text;
mod timed_indexes;
mod timed_kerning;
mod timed_mending;
mod timed_passes;
mod timed_reels;
mod timed_shaping;
mod timed_storing;
mod timed_text;
mod timing;

use crate::bench::sides::{ours, theirs};
use crate::bench::timing::{Group, Subject, TABLE_HEAD, TURNS};
use crate::reference::line::{Line, LARGEST_ROOM};
use crate::reference::rearrange::rearrange;
use crate::reference::shaper::SHAPER_ROOM;
use crate::tables::language::with_tags;
use crate::tables::lookup::{record_size, with_records, words, Record};
use crate::tables::random::Random;
use crate::tables::states::{classic, extended};
use std::process::ExitCode;

const GLYPHS: usize = 50_000;
const NAMES: usize = 500;
const VERBS: usize = 100;

/// bench times PROCESSOR WORD [FILE]   the rows that have this word in their name
/// bench counts WORD                   their turns for a tool that counts instructions, and their names and places
pub fn main() -> ExitCode {
    let words: Vec<String> = std::env::args().skip(1).collect();
    let words: Vec<&str> = words.iter().map(String::as_str).collect();
    match words[..] {
        ["times", processor, word] => times(processor, word, None),
        ["times", processor, word, file] => times(processor, word, Some(file)),
        ["counts", word] => counts(word),
        _ => ExitCode::from(2),
    }
}

fn times(processor: &str, word: &str, file: Option<&str>) -> ExitCode {
    let processor = format!("processor: {}", processor);
    println!("{}\ntime of a call, ours to the crate's: ratio of the medians of {} turns (quartiles)", processor, TURNS);
    println!("text: glyphs as text repeats them, from {} of which that of rank n has weight 1/n", text::TEXT_GLYPHS);
    let mut is_same = true;
    let mut tables = processor;
    for Group { heading, subjects, note } in chosen(groups(&mut Random::new(1)), word) {
        println!("\n{}", heading);
        tables += &format!("\n\n### {}\n\n{}", heading, TABLE_HEAD);
        for subject in subjects {
            let figure = subject.measured();
            println!("{}", figure.describe());
            tables += &format!("\n{}", figure.row());
            is_same &= figure.is_same();
        }
        if !note.is_empty() {
            println!("{}", note);
            tables += &format!("\n\n{}", note);
        }
    }
    if let Some(file) = file {
        if let Err(error) = std::fs::write(file, tables + "\n") {
            eprintln!("{}: {}", file, error);
            return ExitCode::from(2);
        }
    }
    if !is_same {
        println!("the two sides differ");
        return ExitCode::FAILURE;
    }
    ExitCode::SUCCESS
}

/// Of lines of 256 places that both sides go over, one line each: the places gone over, and the name.
fn counts(word: &str) -> ExitCode {
    for group in chosen(groups(&mut Random::new(1)), word) {
        let is_counted = |subject: &Subject| subject.is_compared() && subject.name.ends_with(", 256 places");
        for subject in group.subjects.into_iter().filter(is_counted) {
            let name = subject.name.clone();
            println!("{}\t{}", subject.counted(), name);
        }
    }
    ExitCode::SUCCESS
}

/// The subjects whose names have this word in them, or whose group's heading it is, in the groups that have any.
fn chosen(mut groups: Vec<Group>, word: &str) -> Vec<Group> {
    for group in &mut groups {
        let heading = group.heading;
        group.subjects.retain(|subject| heading == word || subject.name.contains(word));
    }
    groups.retain(|group| !group.subjects.is_empty());
    groups
}

fn groups(random: &mut Random) -> Vec<Group> {
    let mut looked_up = Vec::from(lookups(random));
    looked_up.extend(searches(random));
    looked_up.extend(classes(random));
    looked_up.push(languages(random));
    let mut verbs: Vec<Subject> = Vec::new();
    for length in LONG_LENGTHS {
        verbs.extend([1, 3, 5, 6, 13].map(|verb| one_verb(random, verb, length)));
    }
    let passes = timed_passes::passes(random);
    let runs = timed_passes::runs(random);
    let kerning = timed_kerning::subjects(random);
    verbs.extend(LONG_LENGTHS.map(|length| line_test(random, length)));
    let [searches, lines, states] =
        [timed_text::searches, timed_text::lines, timed_text::states].map(|made| made(random));
    vec![
        Group::new("Lookups, classes and languages", looked_up),
        Group::new("Verbs", verbs),
        Group::new("Passes of morx", passes),
        Group::new("Runs of morx", runs),
        Group::new("Ligatures in long lines", timed_passes::long_ligatures()),
        Group::new("Passes and runs of kern and kerx", kerning),
        Group::new("Passes by class tables that are searched, over one line", searches),
        Group::new("Passes over lines that differ", lines),
        Group::new("Machines of several states", states),
        timed_shaping::group(random),
        Group::new("Mended lookup tables", timed_mending::subjects(random)),
        Group::new("Stored lines", timed_storing::subjects(random)),
        Group::new("Runs of morx that are asked for features", timed_passes::featured(random)),
        Group::new("Reels", timed_reels::subjects(random)),
        Group::new("Passes by an index of classes", timed_indexes::subjects(&mut Random::new(4))),
    ]
}

fn lookups(random: &mut Random) -> [Subject; 3] {
    let elements: Vec<u16> = (0..2_000).map(|_| random.word()).collect();
    let heads: [(&[u16], usize); 3] = [(&[0], 2_000), (&[8, 500, 2_000], 3_000), (&[10, 2, 500, 2_000], 3_000)];
    heads.map(|(head, highest)| {
        let name = format!("lookup, format {}, 2,000 elements", head[0]);
        let table = words(&[head, &elements].concat());
        Subject::of_items(name, table, any_glyphs(random, highest), ours::lookup, theirs::lookup)
    })
}

/// Searches in lists of more and more records.
fn searches(random: &mut Random) -> Vec<Subject> {
    let mut subjects = Vec::new();
    for format in [2, 4, 6] {
        for count in [16, 64, 256, 1_024, 4_096] {
            let stretch = if format == 6 { 2 } else { 8 };
            let name = format!("lookup, format {}, {} records", format, grouped(count));
            let glyphs = any_glyphs(random, count * stretch);
            let table = records(format, count as u16, stretch as u16);
            subjects.push(Subject::of_items(name, table, glyphs, ours::lookup, theirs::lookup));
        }
    }
    subjects
}

fn classes(random: &mut Random) -> [Subject; 2] {
    let by_lookup = extended(&records(6, 2_000, 2));
    let by_array = classic(500, 2_000, &random.bytes(2_000));
    let [few, fewer] = [4_000, 3_000].map(|highest| any_glyphs(random, highest));
    let name = "class, extended, format 6, 2,000 records".into();
    let extended = Subject::of_items(name, by_lookup, few, ours::class_extended, theirs::class_extended);
    let name = "class, classic, 2,000 glyphs".into();
    let classic = Subject::of_items(name, by_array, fewer, ours::class_classic, theirs::class_classic);
    [extended, classic]
}

fn any_glyphs(random: &mut Random, highest: usize) -> Vec<u16> {
    (0..GLYPHS).map(|_| random.below(highest) as u16).collect()
}

/// Records for the first half of each stretch of glyphs; in format 4 all share their elements.
fn records(format: u16, count: u16, stretch: u16) -> Vec<u8> {
    let behind = 12 + record_size(format) * count;
    let record = |number| {
        let first = number * stretch;
        let value = if format == 4 { behind } else { number };
        Record { first, last: first + stretch / 2 - 1, value }
    };
    let list: Vec<Record> = (0..count).map(record).collect();
    let mut table = with_records(format, record_size(format), count, &list);
    table.extend(words(&vec![7; stretch as usize]));
    table
}

/// 200 tags of three letters, and names that are mostly among them.
fn languages(random: &mut Random) -> Subject {
    let mut any_tag = || -> String { (0..3).map(|_| random.among(b"abcdefgh") as char).collect() };
    let tags: Vec<String> = (0..200).map(|_| any_tag()).collect();
    let table = with_tags(&tags.iter().map(|tag| tag.as_bytes()).collect::<Vec<_>>());
    let mut any_name = || if random.once_in(10) { String::from("xyz") } else { tags[random.below(200)].clone() };
    let names: Vec<&'static str> = (0..NAMES).map(|_| &*Box::leak(any_name().into_boxed_str())).collect();
    Subject::of_items("language_index, 200 tags".into(), table, names, ours::language_index, theirs::language_index)
}

/// A verb on the whole line.
fn one_verb(random: &mut Random, verb: u16, length: usize) -> Subject {
    let rearrange = rearrange(verb, 0, length - 1).expect("a verb that moves something");
    let ours = move |line: &mut Line| ours::verb(line, verb);
    let theirs = move |line: &mut Line| theirs::verb(line, &rearrange);
    let line = Line::any(random, length, length, 65_536);
    Subject::of_work(format!("verb {}, {} places", verb, grouped(length)), VERBS, line, false, ours, theirs)
}

/// Verb 0, which tests the line and moves nothing; the crate has nothing like it.
fn line_test(random: &mut Random, length: usize) -> Subject {
    let line = Line::any(random, length, length, 65_536);
    let name = format!("the test of a line (verb 0), {} places", grouped(length));
    Subject::of_ours(name, VERBS, line, |line| ours::verb(line, 0))
}

/// The lengths of lines that passes and runs go over.
pub const LENGTHS: [usize; 7] = [16, 64, 256, 1_024, SHAPER_ROOM, CRAWL, LARGEST_ROOM];

/// The longest of them.
pub const LONG_LENGTHS: [usize; 3] = [SHAPER_ROOM, CRAWL, LARGEST_ROOM];

/// As long as a news crawl gets.
const CRAWL: usize = 20_000;

/// How many calls on lines of this length make a turn.
pub fn calls_on(length: usize) -> usize {
    (20_480 / length).max(1)
}

/// A number with its thousands apart.
pub fn grouped(number: usize) -> String {
    match number / 1_000 {
        0 => number.to_string(),
        thousands => format!("{},{:03}", grouped(thousands), number % 1_000),
    }
}

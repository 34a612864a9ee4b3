//! Inputs of the shaper with their results, for the sample: refusals by document 01, else the run over the crate's machines.
//!
//! A case is a byte 0, since the shaper is no exported entry, the input's length in two bytes, the input, the result's length
//! in two bytes, and the result in numbers of two bytes: answer, heads, used length and characters, then the used glyphs, the
//! used tags and the homes. A refusal has 0 for all but the answer.

use crate::compare::sample::Sample;
use crate::reference::oracle::Answer;
use crate::reference::pass::line_of;
use crate::reference::run::MOST_HEADS;
use crate::reference::shaper::{input_of, shaped, Shaped, SHAPER_ROOM, SHAPER_TABLE};
use crate::tables::kinds::KINDS;
use crate::tables::lines::any_glyphs;
use crate::tables::lookup::words;
use crate::tables::morx::{any_morx, puts_in, trimmed};
use crate::tables::morx::{chain, chosen_subtable, morx, subtable};
use crate::tables::random::Random;
use crate::tables::shaper_inputs::input_again;

/// The input of document 01's example.
const EXAMPLE: &[u8] = include_bytes!("../../../crates/shape/stdin");

/// The coverage bit of the order for which a line that runs from left to right is turned round.
const TURNED: u32 = 0x4000_0000;

const RANDOM_TABLES: usize = 60;

/// Adds every input to the sample.
pub fn add_all(sample: &mut Sample, random: &mut Random) {
    let example = Shaped { answer: Answer::Done(()), heads: 2, line: line_of(&[7, 9, 20], SHAPER_ROOM) };
    add_written(sample, EXAMPLE, &example);
    tables_refused(sample);
    lines_refused(sample);
    full_rooms(sample);
    many_heads(sample);
    one_subtable(sample);
    random_tables(sample, random);
}

/// An input whose table has these subtables.
fn input_with(subtables: &[Vec<u8>], glyphs: &[u16]) -> Vec<u8> {
    input_of(&morx(&[chain(1, &[], subtables)]), glyphs)
}

fn tables_refused(sample: &mut Sample) {
    for length in [SHAPER_TABLE as u32 + 1, 0xFFFF, 0x1_0000, u32::MAX] {
        add_refused(sample, &length.to_be_bytes(), Answer::Table);
        add_refused(sample, &[&length.to_be_bytes(), &EXAMPLE[4..]].concat(), Answer::Table);
    }
}

/// Inputs cut at every byte, the first of them empty, or longer than they say; the longest table not there; too many glyphs.
fn lines_refused(sample: &mut Sample) {
    for length in 0..EXAMPLE.len() {
        add_refused(sample, &EXAMPLE[..length], Answer::Line);
    }
    add_refused(sample, &[EXAMPLE, &[0]].concat(), Answer::Line);
    add_refused(sample, &[EXAMPLE, &[0, 5]].concat(), Answer::Line);
    add_refused(sample, &[&(SHAPER_TABLE as u32).to_be_bytes(), &EXAMPLE[4..]].concat(), Answer::Line);
    add_refused(sample, &input_of(&[], &[5; SHAPER_ROOM + 1]), Answer::Line);
}

/// Insertions into a room that has no place left, and by a subtable that comes again and again, with the line turned round.
fn full_rooms(sample: &mut Sample) {
    add_ending(sample, &input_with(&[puts_in(0)], &[10; SHAPER_ROOM]), Answer::Full);
    add_ending(sample, &input_again(&puts_in(TURNED), u32::MAX, &[10, 5, 6]), Answer::Full);
}

/// As many heads as are counted, and one more; the chain's own is one of them.
fn many_heads(sample: &mut Sample) {
    for (times, answer) in [(MOST_HEADS - 1, Answer::Done(())), (MOST_HEADS, Answer::Limit)] {
        add_ending(sample, &input_again(&subtable(4, &trimmed()), times, &[5, 6, 20]), answer);
    }
}

/// Every example of every kind, alone in a table, with the line as it is and turned round.
fn one_subtable(sample: &mut Sample) {
    for kind in &KINDS {
        for example in (kind.examples)() {
            for order in [0, TURNED] {
                let subtable = chosen_subtable(order | kind.number, 1, &example.body);
                add(sample, &input_with(&[subtable], &example.before.glyphs[..example.before.length()]));
            }
        }
    }
}

fn random_tables(sample: &mut Sample, random: &mut Random) {
    for _ in 0..RANDOM_TABLES {
        let glyphs = any_glyphs(random);
        let table = any_morx(random, &glyphs);
        let line: Vec<u16> = (0..random.below(13)).map(|_| glyphs.start + random.below(glyphs.len()) as u16).collect();
        add(sample, &input_of(&table, &line));
    }
}

/// The result in numbers.
fn numbers(shaped: &Shaped) -> Vec<u16> {
    let Shaped { answer, heads, line } = shaped;
    let used = line.length();
    let heads = u16::try_from(*heads).expect("heads within the limit");
    let counts = [answer.number() as u16, heads, used as u16, line.homes.len() as u16];
    [&counts[..], &line.glyphs[..used], &line.tags[..used], &line.homes].concat()
}

/// Adds an input with its result.
fn add(sample: &mut Sample, input: &[u8]) -> Shaped {
    let shaped = shaped(input).unwrap_or_else(|fault| panic!("an input of the shaper: {}", fault.describe()));
    sample.bytes.push(0);
    for part in [input, &words(&numbers(&shaped))] {
        let length = u16::try_from(part.len()).expect("a short input and result");
        sample.bytes.extend(length.to_be_bytes());
        sample.bytes.extend(part);
    }
    sample.cases += 1;
    shaped
}

/// The same, for an input that ends in this answer by document 01.
fn add_ending(sample: &mut Sample, input: &[u8], answer: Answer<()>) {
    assert!(add(sample, input).answer == answer, "an input of the shaper ends otherwise than document 01 says");
}

/// The same, for an input that is refused by this answer.
fn add_refused(sample: &mut Sample, input: &[u8], answer: Answer<()>) {
    add_written(sample, input, &Shaped::refused(answer));
}

/// The same, for an input whose whole result document 01 gives.
fn add_written(sample: &mut Sample, input: &[u8], written: &Shaped) {
    let given = numbers(&add(sample, input));
    assert!(given == numbers(written), "an input of the shaper has another result than document 01 gives");
}

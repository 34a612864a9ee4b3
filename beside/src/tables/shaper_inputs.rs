//! Inputs of the shaper's program: document 01's, those at its limits, and from a seed.

use crate::reference::run::MOST_HEADS;
use crate::reference::shaper::{input_of, SHAPER_ROOM, SHAPER_TABLE};
use crate::tables::lines::{any_glyphs, any_line_of};
use crate::tables::lookup::damage;
use crate::tables::morx::{any_morx, puts_in, trimmed};
use crate::tables::morx::{chain, morx, subtable};
use crate::tables::random::Random;
use crate::wire::hex::bytes;

/// Document 01's input.
pub const KNOWN_INPUT: &str = "0000002E 0002 0000 00000001 00000001 00000026 00000000 00000001
    00000016 00000004 00000001 0008 0005 0002 0007 0009 0003 0005 0006 0014";

/// What document 01 has it print.
pub const KNOWN_PRINT: &str = "answer 0\nheads 2\nlength 3\n0 7 0\n1 9 1\n2 20 2\nhomes 0 1 2\n";

/// Every input that is not random.
pub fn fixed_inputs() -> Vec<Vec<u8>> {
    let mut inputs = Vec::new();
    let show = &mut |input| inputs.push(input);
    short_and_long(show);
    stated_lengths(show);
    stated_counts(show);
    largest(show);
    full_rooms(show);
    many_heads(show);
    inputs
}

/// Document 01's input, cut at every byte and with bytes behind it.
fn short_and_long(show: &mut dyn FnMut(Vec<u8>)) {
    let known = bytes(KNOWN_INPUT);
    (0..known.len()).for_each(|length| show(known[..length].to_vec()));
    for more in [1, 2, 3, 8_192, 100_000] {
        show([&known[..], &vec![0; more]].concat());
    }
}

/// Tables that are not as long as is stated.
fn stated_lengths(show: &mut dyn FnMut(Vec<u8>)) {
    let longest = SHAPER_TABLE as u32;
    for length in [0, 1, 2, 44, 45, 47, 48, 52, longest - 1, longest, longest + 1, 0x1_0000, 1 << 31, u32::MAX] {
        let mut input = bytes(KNOWN_INPUT);
        input[..4].copy_from_slice(&length.to_be_bytes());
        show(input);
        show(length.to_be_bytes().to_vec());
    }
}

/// Lines that are not as long as is stated.
fn stated_counts(show: &mut dyn FnMut(Vec<u8>)) {
    for count in [0, 1, 2, 4, 0x100, 0x1000, 0x1001, 0x8000, u16::MAX] {
        let mut input = bytes(KNOWN_INPUT);
        let at = input.len() - 8;
        input[at..at + 2].copy_from_slice(&count.to_be_bytes());
        show(input);
    }
}

/// The longest table and the longest line, each alone and both, almost and one more; and bytes behind the longest input.
fn largest(show: &mut dyn FnMut(Vec<u8>)) {
    let line: Vec<u16> = [5, 6, 20, 0xFFFF].into_iter().cycle().take(SHAPER_ROOM + 1).collect();
    for length in [0, 46, SHAPER_TABLE - 1, SHAPER_TABLE, SHAPER_TABLE + 1] {
        let mut table = morx(&[chain(1, &[], &[subtable(4, &trimmed())])]);
        table.resize(length, 0);
        for count in [0, 1, SHAPER_ROOM - 1, SHAPER_ROOM, SHAPER_ROOM + 1] {
            show(input_of(&table, &line[..count]));
        }
    }
    let longest = input_of(&[0; SHAPER_TABLE], &line[..SHAPER_ROOM]);
    for more in [1, 2, 100_000] {
        show([&longest[..], &vec![0; more]].concat());
    }
}

/// Lines that insertions make as long as the room, and longer: FULL.
fn full_rooms(show: &mut dyn FnMut(Vec<u8>)) {
    let table = morx(&[chain(1, &[], &[puts_in(0), subtable(4, &trimmed())]), chain(1, &[], &[puts_in(0x4000_0000)])]);
    for count in [1, 400, 455, 456, 820, 1_365, 1_366, SHAPER_ROOM - 1, SHAPER_ROOM] {
        show(input_of(&table, &vec![10; count]));
    }
}

/// An input whose subtable comes again and again, as many times as told, since its length is 0.
pub fn input_again(subtable: &[u8], times: u32, glyphs: &[u16]) -> Vec<u8> {
    let mut again = chain(1, &[], &[[&[0; 4], &subtable[4..]].concat()]);
    again[12..16].copy_from_slice(&times.to_be_bytes());
    input_of(&morx(&[again]), glyphs)
}

/// As many heads as are counted, and more: LIMIT.
fn many_heads(show: &mut dyn FnMut(Vec<u8>)) {
    for times in [MOST_HEADS - 2, MOST_HEADS - 1, MOST_HEADS, u32::MAX] {
        show(input_again(&subtable(4, &trimmed()), times, &[5, 6, 20]));
    }
}

/// Any table and line, and now and then an input that is damaged.
pub fn any_input(random: &mut Random) -> Vec<u8> {
    let glyphs = any_glyphs(random);
    let mut table = any_morx(random, &glyphs);
    if random.once_in(4) {
        damage(random, &mut table);
    }
    let longest = random.among(&[2, 12, 12, 60, SHAPER_ROOM]);
    let used = random.below(longest + 1);
    let mut input = input_of(&table, &any_line_of(random, &glyphs, used, used).glyphs);
    if random.once_in(12) {
        damage(random, &mut input);
    }
    input
}

//! An index of classes on the pipe.

use crate::wire::pipe::lend_numbers;
use crate::wire::reply::{describe, number};

/// Adds an index: how many numbers it has, those that it begins with, with their count, and nothing for those behind them, which are 0.
pub fn lend_index(numbers: &[u16], call: &mut Vec<u8>) {
    let told = numbers.iter().rposition(|number| *number != 0).map_or(0, |last| last + 1);
    call.extend((numbers.len() as u32).to_le_bytes());
    lend_numbers(&numbers[..told], call);
}

/// A sum that hangs on each number and on its place.
pub fn sum(numbers: &[u16]) -> u64 {
    numbers.iter().fold(0, |sum: u64, number| sum.wrapping_mul(31).wrapping_add(u64::from(*number) + 1))
}

/// So many numbers of an index stand in a reply.
const SHOWN: usize = 64;

/// Adds an index as a reply has it: its first numbers, and the sum of all.
pub fn add_index(numbers: &[u16], reply: &mut Vec<u8>) {
    let first = &numbers[..numbers.len().min(SHOWN)];
    reply.extend(first.iter().flat_map(|number| number.to_le_bytes()));
    reply.extend(sum(numbers).to_le_bytes());
}

/// The same in words.
pub fn describe_index(bytes: &[u8]) -> String {
    let (first, sum) = bytes.split_at(bytes.len() - 8);
    let numbers: Vec<u64> = first.chunks_exact(2).map(number).collect();
    format!("index {}, sum {}", describe(&numbers), number(sum))
}

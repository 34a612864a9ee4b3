//! Tables that are cut, tables that are too long, and starts that are none.

use crate::reference::oracle::LONGEST_TABLE;
use std::rc::Rc;

/// A table cut at every byte, at its own start and behind up to three other bytes; hands over its start, too.
pub fn for_each_cut(before: [u8; 3], table: &[u8], show: &mut dyn FnMut(&Rc<[u8]>, usize)) {
    for start in [0, 1, 3] {
        let table = [&before[..start], table].concat();
        for length in 0..=table.len() {
            show(&Rc::from(&table[..length]), start);
        }
    }
}

/// A table at the limit of length, and one above it, with zeros behind it; hands over the length, too.
pub fn for_each_longest(mut table: Vec<u8>, show: &mut dyn FnMut(&Rc<[u8]>, usize)) {
    for length in [LONGEST_TABLE, LONGEST_TABLE + 1] {
        table.resize(length, 0);
        show(&Rc::from(&table[..]), length);
    }
}

/// The same with a subtable at either end, from starts in the table, about its end and far from it.
pub fn for_each_longest_of(subtable: &[u8], show: &mut dyn FnMut(&Rc<[u8]>, usize)) {
    for length in [LONGEST_TABLE, LONGEST_TABLE + 1] {
        let mut table = vec![0; length];
        table[..subtable.len()].copy_from_slice(subtable);
        table[length - subtable.len()..].copy_from_slice(subtable);
        let table = Rc::from(table);
        for start in [0, length - subtable.len(), length - 1, length, length + 1, usize::MAX] {
            show(&table, start);
        }
    }
}

/// Starts of a subtable, with a head of so many bytes, about the end of a table, and those that a number of fewer bits, or a sum without
/// care, would take for one in it.
pub fn far_subtables(length: usize, head: usize) -> Vec<usize> {
    let near = [1, length - head, length - 1, length, length + 1];
    let far = [1 << 16, 1 << 31, 1 << 32, 1 << 63, usize::MAX - (head - 1), usize::MAX - 3, usize::MAX];
    [&near[..], &far].concat()
}

/// The same of a table with chains.
pub fn far_chains(length: usize) -> Vec<usize> {
    let near = [1, 8, length - 8, length - 1, length, length + 1];
    let far = [1 << 16, 1 << 31, 1 << 32, (1 << 32) + 1, 1 << 63, usize::MAX - 7, usize::MAX];
    [&near[..], &far].concat()
}

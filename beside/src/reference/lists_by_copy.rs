//! An element of one of morx's lists, from any cursor on, by the crate's copy.

use crate::reference::opened::aat::morx::{chains, Chain, Chains, Features, Subtables};
use crate::reference::opened::Bytes;

/// A list of morx.
#[derive(Clone, Copy, PartialEq)]
pub enum List {
    Chains,
    Features,
    Subtables,
}

/// The place of a list's next element in the table, and how many are left.
pub type Cursor = [u64; 2];

const CHAIN_HEAD: usize = 16;
const FEATURE: u64 = 12;

/// The cursor of the chains of the table that begins at a start in the bytes or just behind them.
pub fn chains_from(table: &[u8], start: u64) -> Cursor {
    let Chains { offset, len, .. } = chains(table, start as u32);
    [start + offset as u64, len.into()]
}

/// The cursors of a chain's features and subtables, from what it has.
pub fn lists_of_chain(fields: &[u64]) -> [Cursor; 2] {
    [[fields[1], fields[2]], [fields[3], fields[4]]]
}

/// What an element has, and where its list goes on; None at the list's end. The crate counts in 32 bits and does not look at a
/// count but for being 0; a place of more bits is past every table.
pub fn next(list: List, table: &[u8], [place, left]: Cursor) -> Option<(Vec<u64>, Cursor)> {
    let offset = place.min(u32::MAX.into()) as usize;
    let len = left.min(u32::MAX.into()) as u32;
    let data = Bytes::new(table);
    let (fields, behind) = match list {
        List::Chains => next_chain(Chains { data, offset, len, cur: 0 })?,
        List::Features => (feature(table, offset, len)?, offset as u64 + FEATURE),
        List::Subtables => next_subtable(Subtables { inner: chain(data, 0, 0), offset, len, cur: 0 })?,
    };
    Some((fields, [behind, left - 1]))
}

fn next_chain(mut list: Chains) -> Option<(Vec<u64>, u64)> {
    let chain = list.next()?;
    let Subtables { offset, len, .. } = chain.subtables();
    let features = [(chain.offset + CHAIN_HEAD) as u64, chain.feature_count.into()];
    let fields = [vec![chain.default_flags.into()], features.to_vec(), vec![offset as u64, len.into()]].concat();
    Some((fields, list.offset as u64))
}

/// The crate has features behind the head of their chain, so the table is put behind one.
fn feature(table: &[u8], place: usize, left: u32) -> Option<Vec<u64>> {
    let table = [&[0; CHAIN_HEAD], table].concat();
    let inner = chain(Bytes::new(&table), place, left);
    let feature = Features { inner, cur: 0 }.next()?;
    let selectors = [feature.selector, feature.setting_selector].map(u64::from);
    Some([selectors, [feature.enable_flags, feature.disable_flags].map(u64::from)].concat())
}

fn next_subtable(mut list: Subtables) -> Option<(Vec<u64>, u64)> {
    let subtable = list.next()?;
    let [coverage, flags, kind] = [subtable.coverage, subtable.flags, subtable.kind].map(u64::from);
    Some((vec![subtable.offset as u64, coverage, flags, kind, subtable.order() as u64], list.offset as u64))
}

fn chain(data: Bytes, offset: usize, feature_count: u32) -> Chain {
    Chain { data, offset, default_flags: 0, feature_count, subtable_count: 0 }
}

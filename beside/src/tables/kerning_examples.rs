//! kern and kerx tables whose adjustments follow from the documents, and small ones that bring the machines to their limits.

use crate::reference::kerning::{Kerning, ALONE_AT};
use crate::reference::oracle::Answer::{self, Done, Ended, Head};
use crate::tables::kerning::{Edition, Entry, Parts, NONE, PUSH, RESET, STAY};
use crate::tables::lookup::words;
use crate::wire::hex::bytes;

/// A whole table, a line, and what the pass by its first subtable and the run from left to right give.
pub struct Documented {
    pub edition: Edition,
    pub table: Vec<u8>,
    /// Where its first subtable begins.
    pub start: usize,
    pub line: Vec<u16>,
    pub pass: (Answer<()>, Vec<i64>),
    pub run: Vec<i64>,
}

impl Documented {
    fn new(kerning: Kerning, table: Vec<u8>, line: &[u16], answer: Answer<()>, along: &[i64]) -> Self {
        let version = u16::from_be_bytes([table[0], table[1]]);
        Documented {
            edition: Edition::new(kerning, version, 0),
            table: [&[0; ALONE_AT], &table[..]].concat(),
            start: ALONE_AT + 8,
            line: line.to_vec(),
            pass: (answer, along.to_vec()),
            run: along.to_vec(),
        }
    }

    fn run(mut self, along: &[i64]) -> Self {
        self.run = along.to_vec();
        self
    }
}

/// Tables on which the crate and the manual, or its engines, part; what is here is the crate's.
pub fn documented() -> Vec<Documented> {
    use Kerning::{Kern, Kerx};
    vec![
        // kerx's value table is multiplied with the tuple size, too.
        Documented::new(
            Kerx,
            bytes(
                "00020000000000010000004e000000010000000000000006000000140000001e0000002a0000003c0008000500020004\
                 000500000000000000000001000200000000ffff00008000ffff000080000000ffecfff50064",
            ),
            &[5, 6],
            Ended,
            &[0, 0],
        ),
        // kerx's list does not end at 0xFFFF.
        Documented::new(Kerx, pushes_and_takes(&[-1, 20, 40]), &[5, 5, 6], Done(()), &[20, -1, 0]),
        // kerx's reset comes after push and list.
        Documented::new(
            Kerx,
            bytes(
                "00020000000000010000009c00000001000000000000000700000014000000200000002e000000460008000500030004\
                 00050006000000000000000000010002000300000000ffff00008000ffff0000a000ffff000000000000001500290000\
                 000000000000000000000000000000000000000000000000000000000000000000000000000000000000000000000000\
                 0000000000000000000000000000150029",
            ),
            &[5, 6, 7],
            Done(()),
            &[0, 0, 0],
        ),
        // There is no step at end of text.
        Documented::new(
            Kern,
            bytes(
                "00010000000000010000002c000100000005000a00100016002200050001040102000000010000100000001080000010\
                 00220015",
            ),
            &[5],
            Done(()),
            &[0],
        ),
        // After the last number the rest of kern's stack is dropped.
        Documented::new(
            Kern,
            bytes(
                "000100000000000100000038000100000007000a0012001a002a00050003040506010000000001020300001200000012\
                 80000012802a0012002c00150029003d",
            ),
            &[5, 6, 7],
            Done(()),
            &[0, 20, 0],
        ),
        // kern's entry without flags empties the stack.
        Documented::new(
            Kern,
            bytes(
                "000100000000000100000030000100000007000a0012001a002600050003040506010000000001000200001200000012\
                 8000001200260015",
            ),
            &[5, 6, 7],
            Done(()),
            &[0, 0, 0],
        ),
        // A new state before kern's state array.
        Documented::new(
            Kern,
            bytes(
                "00010000000000010000003a000100000007000a00190020003000050003040506010000000001000200000000000300\
                 001900000012800000120030001200000015",
            ),
            &[6, 5, 7],
            Ended,
            &[0, 0, 0],
        ),
        // kerx's array counts in bytes, and glyphs without a class have no number.
        Documented::new(Kerx, bytes(CLASSES), &[5, 6], Done(()), &[512, 0]),
        Documented::new(Kerx, bytes(CLASSES), &[5, 7], Done(()), &[0, 0]),
        // kerx's pairs do not look at tuples.
        Documented::new(
            Kerx,
            bytes("0004000000000001000000240000000000000001000000010000000000000000000000000005000600220007"),
            &[5, 6],
            Done(()),
            &[34, 0],
        ),
        // kerx turns the line round for pairs, too; a lone pass does not.
        Documented::new(
            Kerx,
            bytes("00020000000000010000002210000000000000000000000100000000000000000000000000050006000a"),
            &[5, 6],
            Done(()),
            &[10, 0],
        )
        .run(&[0, 0]),
        // kern's minimum and override are added like any other.
        minimum_and_override(),
        // kern's version 2 is read as 1.
        Documented::new(
            Kern,
            bytes("00020000000000010000001600000000000100060000000000050006000a"),
            &[5, 6],
            Done(()),
            &[10, 0],
        ),
        // kerx adds the number that puts kern's cross-stream back; a run does not come to it.
        Documented::new(Kerx, pushes_and_takes_across(&[-32_768]), &[5, 6], Done(()), &[-32_768, 0]).run(&[0, 0]),
        // kern's format 2 is left out.
        Documented::new(
            Kern,
            bytes("00010000000000010000001e00020000000200100016001c00050001001c000600010000000a"),
            &[5, 6],
            Head,
            &[0, 0],
        ),
        // A head of which the table has only what is read.
        Documented::new(Kern, bytes("0001000000000001000000160000"), &[5, 6], Head, &[0, 0]),
        Documented::new(Kerx, bytes("00020000000000010000001400000000"), &[5, 6], Head, &[0, 0]),
        // kern does not look at variations.
        Documented::new(
            Kern,
            bytes("00010000000000010000001620000000000100060000000000050006000a"),
            &[5, 6],
            Done(()),
            &[10, 0],
        ),
    ]
}

/// A kerx table whose glyph 5 is pushed and whose glyph 6 takes this list, along the stream.
fn pushes_and_takes(list: &[i16]) -> Vec<u8> {
    let edition = Edition::new(Kerning::Kerx, 2, 0);
    takes(edition, both_streams(edition)[0], list)
}

/// The same across it.
fn pushes_and_takes_across(list: &[i16]) -> Vec<u8> {
    let edition = Edition::new(Kerning::Kerx, 2, 0);
    takes(edition, both_streams(edition)[1], list)
}

fn takes(edition: Edition, bits: u32, list: &[i16]) -> Vec<u8> {
    let body = two_entries(edition, 5, PUSH_ONLY, Entry { state: 0, flags: 0, list: 0 }, list);
    edition.table(&[edition.subtable(bits, 1, &body)])
}

/// A kern table of version 0 with a pair's number, its minimum, and one that overrides it.
fn minimum_and_override() -> Documented {
    let edition = Edition::new(Kerning::Kern, 0, 0);
    let pair = |number| words(&[1, 6, 0, 0, 5, 6, number]);
    let subtables = [(1, 10), (3, 20), (9, 3)].map(|(bits, number)| edition.subtable(bits, 0, &pair(number)));
    let table = [&[0; ALONE_AT], &edition.table(&subtables)[..]].concat();
    let start = table.len() - subtables.concat().len();
    Documented { edition, table, start, line: vec![5, 6], pass: (Done(()), vec![10, 0]), run: vec![33, 0] }
}

const CLASSES: &str =
    "0002000000000001000000340000000200000000000000040000001c000000240000002c000800050001000200080006\
                       000100010001000200030004";

const PUSH_ONLY: Entry = Entry { state: 0, flags: PUSH, list: NONE };

/// A machine of one state: these entries for a glyph and the one after it, and nothing for others.
fn two_entries(edition: Edition, glyph: u16, first: Entry, second: Entry, lists: &[i16]) -> Vec<u8> {
    let entries = [Entry { state: 0, flags: 0, list: NONE }, first, second];
    edition.machine(&Parts {
        first: glyph,
        classes: &[4, 5],
        count: 6,
        rows: &[0, 0, 0, 0, 1, 2],
        entries: &entries,
        lists,
    })
}

/// The bits of a subtable that goes along the stream, and of one that goes across it.
fn both_streams(edition: Edition) -> [u32; 2] {
    let crossed = match (edition.kerning, edition.version) {
        (Kerning::Kern, 0) => 4,
        (Kerning::Kern, _) => 0x4000,
        (Kerning::Kerx, _) => 0x4000_0000,
    };
    [edition.plain(), edition.plain() | crossed]
}

/// Subtables whose glyph 11 takes a list, of many equal numbers and the last of the table, with nothing or little behind it.
pub fn runs_on_past_its_end(edition: Edition, hand_over: &mut dyn FnMut(Vec<u8>)) {
    for flags in [0, PUSH, STAY, PUSH | STAY] {
        for number in [-1, 20, -32_768, -32_767] {
            for count in 0..=9 {
                for behind in [&[][..], &[0], &[0, 7], &[1, 0, 0, 9]] {
                    let taking = Entry { state: 0, flags, list: 0 };
                    let body = two_entries(edition, 10, PUSH_ONLY, taking, &vec![number; count]);
                    for bits in both_streams(edition) {
                        hand_over([&edition.subtable(bits, 1, &body), behind].concat());
                    }
                }
            }
        }
    }
}

/// Subtables whose glyph 10 pushes, and stays or not, and whose glyph 11 takes a list.
pub fn pushes(edition: Edition, hand_over: &mut dyn FnMut(Vec<u8>)) {
    let numbers: Vec<i16> = (1..20).map(|number| 2 * number).collect();
    for pushing in [PUSH, PUSH | STAY] {
        for taking in [0, PUSH, RESET, PUSH | RESET] {
            if taking & RESET != 0 && edition.kerning == Kerning::Kern {
                continue;
            }
            for list in [NONE, 0, 12] {
                let (first, second) =
                    (Entry { state: 0, flags: pushing, list: NONE }, Entry { state: 0, flags: taking, list });
                let body = two_entries(edition, 10, first, second, &numbers);
                hand_over(edition.subtable(edition.plain(), 1, &body));
            }
        }
    }
}

/// Every entry for one glyph, with every one for the other.
pub fn small_bodies(edition: Edition, hand_over: &mut dyn FnMut(Vec<u8>)) {
    let entries = all_entries(edition.kerning);
    let bits = if edition.kerning == Kerning::Kern { both_streams(edition).to_vec() } else { vec![0] };
    for first in &entries {
        for second in &entries {
            let body = two_entries(edition, 10, *first, *second, &[20, -31, -32_768, 40, -1, -32_767, 50]);
            bits.iter().for_each(|bits| hand_over(edition.subtable(*bits, 1, &body)));
        }
    }
}

fn all_entries(kerning: Kerning) -> Vec<Entry> {
    let mut entries = Vec::new();
    for reset in if kerning == Kerning::Kerx { &[0, RESET][..] } else { &[0] } {
        for flags in [0, PUSH, STAY, PUSH | STAY] {
            for list in [NONE, 0, 2, 6] {
                entries.push(Entry { state: 0, flags: flags | reset, list });
            }
        }
    }
    entries
}

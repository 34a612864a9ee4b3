//! Anchored marks as they are lent with a line, and an ankr table: on the pipe, and in words.

use crate::reference::anchored::{Anchored, Marks};
use crate::reference::oracle::Answer;
use crate::wire::pipe::{add_numbers, lend_bytes, lend_numbers};
use crate::wire::reply::{describe, number};

/// Adds an ankr table: its length, the bytes that it begins with, with their count, and nothing for those behind them, which are 0.
pub fn lend_ankr(ankr: &[u8], call: &mut Vec<u8>) {
    let mut told = ankr;
    while let Some(before) = told.strip_suffix(&[0; 4_096]).or_else(|| told.strip_suffix(&[0])) {
        told = before;
    }
    call.extend((ankr.len() as u32).to_le_bytes());
    lend_bytes(told, call);
}

fn add_longs(numbers: &[i32], reply: &mut Vec<u8>) {
    reply.extend(numbers.iter().flat_map(|number| number.to_le_bytes()));
}

impl Marks {
    /// Adds each part with its count, as a call has them.
    pub fn lend(&self, call: &mut Vec<u8>) {
        for numbers in [&self.x, &self.y] {
            call.extend((numbers.len() as u32).to_le_bytes());
            add_longs(numbers, call);
        }
        lend_numbers(&self.back, call);
    }

    /// Adds the parts alone, as a reply has them.
    pub fn reply(&self, reply: &mut Vec<u8>) {
        [&self.x, &self.y].into_iter().for_each(|numbers| add_longs(numbers, reply));
        add_numbers(&self.back, reply);
    }

    /// How many bytes they have in a reply.
    pub fn bytes(&self) -> usize {
        4 * (self.x.len() + self.y.len()) + 2 * self.back.len()
    }

    /// The parts in words.
    pub fn describe(&self) -> String {
        format!("x {}; y {}; back {}", describe(&self.x), describe(&self.y), describe(&self.back))
    }

    /// Those in these bytes of a reply, of which each part is as long as here.
    pub fn of_reply(&self, bytes: &[u8]) -> Self {
        let (x, rest) = bytes.split_at(4 * self.x.len());
        let (y, back) = rest.split_at(4 * self.y.len());
        let longs = |bytes: &[u8]| bytes.chunks_exact(4).map(|bytes| number(bytes) as i32).collect();
        let back = back.chunks_exact(2).take(self.back.len()).map(|bytes| number(bytes) as u16).collect();
        Marks { x: longs(x), y: longs(y), back }
    }
}

impl Anchored {
    /// Adds the line, the start and the adjustments, the ankr table, and the marks, as a call has them.
    pub fn lend(&self, start: u64, ankr: &[u8], call: &mut Vec<u8>) {
        self.kerned.lend(start, call);
        lend_ankr(ankr, call);
        self.marks.lend(call);
    }

    /// Adds an answer, the line, the adjustments and the marks, as a reply has them.
    pub fn reply(&self, answer: Answer<()>, reply: &mut Vec<u8>) {
        self.kerned.reply(answer, reply);
        self.marks.reply(reply);
    }

    /// The same in words.
    pub fn describe(&self) -> String {
        format!("{}; {}", self.kerned.describe(), self.marks.describe())
    }

    /// A reply in words.
    pub fn describe_reply(&self, reply: &[u8]) -> String {
        let (kerned, marks) = reply.split_at(reply.len() - self.marks.bytes());
        format!("{}; {}", self.kerned.describe_reply(kerned), self.marks.of_reply(marks).describe())
    }
}

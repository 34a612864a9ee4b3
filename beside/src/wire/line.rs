//! A line as it is lent: on the pipe, and in words.

use crate::reference::line::Line;
use crate::reference::oracle::Answer;
use crate::wire::pipe::{add_numbers, lend_numbers};
use crate::wire::reply::{describe, number};

impl Line {
    /// Adds the slices and the used length, as a call has them.
    pub fn lend(&self, call: &mut Vec<u8>) {
        for numbers in self.slices() {
            lend_numbers(numbers, call);
        }
        call.extend(self.used.to_le_bytes());
    }

    /// Adds an answer and the slices, as a reply has them.
    pub fn reply(&self, answer: Answer<()>, reply: &mut Vec<u8>) {
        reply.extend(answer.number().to_le_bytes());
        for numbers in self.slices() {
            add_numbers(numbers, reply);
        }
    }

    fn slices(&self) -> [&[u16]; 3] {
        [&self.glyphs, &self.tags, &self.homes]
    }

    /// The line in words.
    pub fn describe(&self) -> String {
        format!("used length {}, {}", self.used, describe_slices(self.slices()))
    }

    /// The answer and the slices of a reply in words; they are as long as those lent.
    pub fn describe_reply(&self, reply: &[u8]) -> String {
        let numbers: Vec<u16> = reply[4..].chunks_exact(2).map(|bytes| number(bytes) as u16).collect();
        let (glyphs, rest) = numbers.split_at(self.glyphs.len());
        let (tags, rest) = rest.split_at(self.tags.len());
        format!("answer {}, {}", number(&reply[..4]), describe_slices([glyphs, tags, &rest[..self.homes.len()]]))
    }

    /// The same with the used length, which the reply ends with.
    pub fn describe_reply_with_used(&self, reply: &[u8]) -> String {
        let used = number(&reply[reply.len() - 8..]);
        format!("used length {}, {}", used, self.describe_reply(reply))
    }
}

fn describe_slices(slices: [&[u16]; 3]) -> String {
    let [glyphs, tags, homes] = slices.map(describe);
    format!("glyphs {}; tags {}; homes {}", glyphs, tags, homes)
}

//! Adjustments as they are lent with a line: on the pipe, and in words.

use crate::reference::kerning::Kerned;
use crate::reference::oracle::Answer;
use crate::wire::reply::{describe, number};

/// Adds the count of adjustments, and these.
pub fn lend_along(along: &[i64], call: &mut Vec<u8>) {
    call.extend((along.len() as u32).to_le_bytes());
    add_along(along, call);
}

/// Adds adjustments alone, as a reply has them.
pub fn add_along(along: &[i64], reply: &mut Vec<u8>) {
    reply.extend(along.iter().flat_map(|number| number.to_le_bytes()));
}

/// Adjustments in words.
pub fn describe_along(along: &[i64]) -> String {
    format!("adjustments {}", describe(along))
}

/// The adjustments in these bytes of a reply.
pub fn along_of(bytes: &[u8]) -> Vec<i64> {
    bytes.chunks_exact(8).map(|bytes| number(bytes) as i64).collect()
}

impl Kerned {
    /// Adds the line and the start, then the adjustments, as a call has them.
    pub fn lend(&self, start: u64, call: &mut Vec<u8>) {
        self.line.lend(call);
        call.extend(start.to_le_bytes());
        lend_along(&self.along, call);
    }

    /// Adds an answer, the line and the adjustments, as a reply has them.
    pub fn reply(&self, answer: Answer<()>, reply: &mut Vec<u8>) {
        self.line.reply(answer, reply);
        add_along(&self.along, reply);
    }

    /// The same in words.
    pub fn describe(&self) -> String {
        format!("{}; {}", self.line.describe(), describe_along(&self.along))
    }

    /// A reply in words.
    pub fn describe_reply(&self, reply: &[u8]) -> String {
        let line = 4 + 2 * (self.line.glyphs.len() + self.line.tags.len() + self.line.homes.len());
        let along = along_of(&reply[line..line + 8 * self.along.len()]);
        format!("{}; {}", self.line.describe_reply(&reply[..line]), describe_along(&along))
    }
}

//! Calls of the entries that are told a start and hand back one number.

use crate::questions::Question;
use crate::reference::oracle::{Answer, Fault};
use crate::reference::reasons::Why;
use crate::wire::entries::Entry;
use crate::wire::reply::number;

/// What such an entry is asked for.
pub trait Asked {
    /// The entry.
    fn entry(&self) -> Entry;
    /// Adds what it is told besides table and start.
    fn tell(&self, call: &mut Vec<u8>);
    /// The right answer, and those that other rules give, which have to be the same.
    fn answers(&self, table: &[u8], start: u64) -> Result<(Answer<u32>, Option<Answer<u32>>), Fault>;
    /// The same, asked of the entry that also says why nothing was found, where there is one.
    fn with_reason(&self, _start: u64, _written: Option<Answer<u32>>) -> Option<Box<dyn Question>> {
        None
    }
    /// Why the crate finds nothing; None where it finds something.
    fn why(&self, _table: &[u8], _start: u64) -> Result<Option<Why>, Fault> {
        Ok(None)
    }
    /// What is asked for in words.
    fn describe(&self) -> String;
    /// Adds the case as the sample has it.
    fn sample(&self, _start: u64, _answer: Answer<u32>, _sample: &mut Vec<u8>) {
        panic!("the sample has no form for {}", self.describe())
    }
}

/// A call of such an entry.
pub struct Value<T> {
    pub start: u64,
    pub asked: T,
    /// The answer that a document gives, for its own examples.
    pub written: Option<Answer<u32>>,
}

impl<T: Asked + 'static> Value<T> {
    /// The call that bytes chose.
    pub fn chosen(start: u64, asked: T) -> Box<dyn Question> {
        Box::new(Value { start, asked, written: None })
    }
}

impl<T: Asked> Value<T> {
    fn answer(&self, table: &[u8]) -> Result<Answer<u32>, Fault> {
        let (answer, other) = self.asked.answers(table, self.start)?;
        if [self.written, other].iter().flatten().any(|other| *other != answer) {
            return Err(Fault::Disputed);
        }
        Ok(answer)
    }
}

impl<T: Asked> Question for Value<T> {
    fn entry(&self) -> Entry {
        self.asked.entry()
    }

    fn arguments(&self, held: u64, call: &mut Vec<u8>) {
        call.extend(self.start.to_le_bytes());
        self.asked.tell(call);
        call.extend((held as u32).to_le_bytes());
    }

    fn reply(&self, table: &[u8], held: u64, reply: &mut Vec<u8>) -> Result<(), Fault> {
        let answer = self.answer(table)?;
        reply.extend(answer.number().to_le_bytes());
        reply.extend(answer.done().unwrap_or(held as u32).to_le_bytes());
        Ok(())
    }

    fn sample(&self, table: &[u8], sample: &mut Vec<u8>) -> Result<(), Fault> {
        self.asked.sample(self.start, self.answer(table)?, sample);
        Ok(())
    }

    fn describe(&self, held: u64) -> String {
        format!("{} at start {}, lent value {}", self.asked.describe(), self.start, held as u32)
    }

    fn with_reason(&self) -> Option<Box<dyn Question>> {
        self.asked.with_reason(self.start, self.written)
    }

    fn describe_reply(&self, reply: &[u8]) -> String {
        format!("answer {}, value {}", number(&reply[..4]), number(&reply[4..]))
    }
}

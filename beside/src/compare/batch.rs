//! Calls to the box, each with the reply that is right, a batch at a time.

use crate::questions::Question;
use crate::reference::oracle::Fault;
use crate::wire::pipe::{lend_table, TheBox};
use std::io;
use std::rc::Rc;

/// A number to lend that changes from case to case.
pub fn held(case: u64) -> u64 {
    case.wrapping_mul(0x9E37_79B9_7F4A_7C15).rotate_left(32)
}

/// Calls that the box has not answered yet.
pub struct Batch {
    the_box: TheBox,
    lent: Option<Rc<[u8]>>,
    calls: Vec<u8>,
    expected: Vec<u8>,
    /// Where each right reply ends.
    ends: Vec<usize>,
}

/// A call, by its number in the batch, whose reply is not the right one.
pub struct Difference {
    pub number: usize,
    pub right: Vec<u8>,
    pub given: Vec<u8>,
}

impl Batch {
    /// None waits.
    pub fn new(the_box: TheBox) -> Self {
        Batch { the_box, lent: None, calls: Vec::new(), expected: Vec::new(), ends: Vec::new() }
    }

    /// Adds a call, unless there is no right reply to it.
    pub fn add(&mut self, table: &Rc<[u8]>, question: &dyn Question, held: u64) -> Result<(), Fault> {
        if let Err(fault) = question.reply(table, held, &mut self.expected) {
            self.expected.truncate(self.ends.last().copied().unwrap_or(0));
            return Err(fault);
        }
        if !self.lent.as_ref().map_or(false, |lent| Rc::ptr_eq(lent, table)) {
            lend_table(table, &mut self.calls);
            self.lent = Some(table.clone());
        }
        self.calls.push(question.entry() as u8);
        question.arguments(held, &mut self.calls);
        self.ends.push(self.expected.len());
        Ok(())
    }

    /// How many bytes the calls and the right replies have.
    pub fn bytes(&self) -> usize {
        self.calls.len() + self.expected.len()
    }

    /// Has the box answer all calls; those that it answers otherwise.
    pub fn answer(&mut self) -> io::Result<Vec<Difference>> {
        let replies = self.the_box.exchange(&self.calls, self.expected.len())?;
        let mut differences = Vec::new();
        let mut begins = 0;
        for (number, ends) in self.ends.drain(..).enumerate() {
            let [right, given] = [&self.expected, &replies].map(|replies| &replies[begins..ends]);
            if right != given {
                differences.push(Difference { number, right: right.to_vec(), given: given.to_vec() });
            }
            begins = ends;
        }
        self.calls.clear();
        self.expected.clear();
        Ok(differences)
    }

    /// Ends the box; whether it ended as it should.
    pub fn end(self) -> io::Result<bool> {
        self.the_box.end()
    }
}

//! Parts of the questions, each as far as its time goes.

use crate::questions::{Ask, Question};
use std::rc::Rc;
use std::time::{Duration, Instant};

/// Passes questions on, for so many seconds in each part; 0 is no limit.
pub struct Limited<'a> {
    asked: &'a mut dyn Ask,
    seconds: u64,
    until: Option<Instant>,
    /// How many questions came too late.
    pub left_out: u64,
}

impl<'a> Limited<'a> {
    /// No part has begun.
    pub fn new(asked: &'a mut dyn Ask, seconds: u64) -> Self {
        Limited { asked, seconds, until: None, left_out: 0 }
    }

    /// Begins a part.
    pub fn part(&mut self) -> &mut Self {
        self.until = (self.seconds > 0).then(|| Instant::now() + Duration::from_secs(self.seconds));
        self
    }
}

impl Ask for Limited<'_> {
    fn ask(&mut self, table: &Rc<[u8]>, question: Box<dyn Question>) {
        if self.until.map_or(false, |until| Instant::now() > until) {
            self.left_out += 1;
        } else {
            self.asked.ask(table, question);
        }
    }
}

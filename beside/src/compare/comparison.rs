//! Questions to both sides, their answers compared, and what is said of a difference.

use crate::compare::batch::{held, Batch, Difference};
use crate::compare::progress::Progress;
use crate::questions::{Ask, Question};
use crate::reference::oracle::Fault;
use crate::wire::hex;
use crate::wire::pipe::TheBox;
use std::rc::Rc;

/// Counts the questions and asks nobody.
#[derive(Default)]
pub struct Count(pub u64);

impl Ask for Count {
    fn ask(&mut self, _table: &Rc<[u8]>, _question: Box<dyn Question>) {
        self.0 += 1;
    }
}

/// How the comparison went.
#[derive(Default)]
pub struct Totals {
    pub cases: u64,
    pub differences: u64,
    /// Those of the differences where the crate panicked.
    pub panics: u64,
}

/// Puts each question to the crate and to the box, a batch at a time.
pub struct Comparison {
    batch: Batch,
    /// The questions of the batch.
    waiting: Vec<Waiting>,
    progress: Progress,
    traces: bool,
    totals: Totals,
}

/// A question that the box has not answered yet.
struct Waiting {
    table: Rc<[u8]>,
    question: Box<dyn Question>,
    held: u64,
}

const BATCH_BYTES: usize = 1 << 18;

/// The most differences that are shown.
pub const DIFFERENCES_SHOWN: u64 = 10;

impl Ask for Comparison {
    fn ask(&mut self, table: &Rc<[u8]>, question: Box<dyn Question>) {
        self.totals.cases += 1;
        let held = held(self.totals.cases);
        match self.batch.add(table, &*question, held) {
            Ok(()) => self.waiting.push(Waiting { table: table.clone(), question, held }),
            Err(fault) => self.count_fault(table, &*question, held, fault),
        }
        if self.batch.bytes() >= BATCH_BYTES {
            self.compare_batch();
        }
    }
}

impl Comparison {
    /// A comparison with this box, which shows the steps of cases that differ or does not.
    pub fn new(the_box: TheBox, progress: Progress, traces: bool) -> Self {
        let batch = Batch::new(the_box);
        Comparison { batch, waiting: Vec::new(), progress, traces, totals: Totals::default() }
    }

    /// Compares what is left and ends the box.
    pub fn finish(mut self) -> Totals {
        self.compare_batch();
        match self.batch.end() {
            Ok(true) => self.totals,
            Ok(false) => give_up("it did not end as it should"),
            Err(error) => give_up(error),
        }
    }

    fn compare_batch(&mut self) {
        let differences = self.batch.answer().unwrap_or_else(|error| {
            let (last, cases) = (self.waiting.len(), self.totals.cases);
            give_up(format!("it broke off in the last {} of {} cases: {}", last, cases, error))
        });
        for Difference { number, right, given } in differences {
            let Waiting { table, question, held } = &self.waiting[number];
            self.totals.differences += 1;
            if self.totals.differences <= DIFFERENCES_SHOWN {
                self.print_case(table, &**question, *held);
                println!("  right: {}", question.describe_reply(&right));
                println!("  box:   {}", question.describe_reply(&given));
            }
        }
        self.waiting.clear();
        self.progress.show(self.totals.cases);
    }

    fn count_fault(&mut self, table: &[u8], question: &dyn Question, held: u64, fault: Fault) {
        self.totals.differences += 1;
        self.totals.panics += u64::from(fault.is_panic());
        if self.totals.differences <= DIFFERENCES_SHOWN {
            self.print_case(table, question, held);
            println!("  {}", fault.describe());
        }
    }

    fn print_case(&self, table: &[u8], question: &dyn Question, held: u64) {
        println!("difference: {}", question.describe(held));
        println!("  table of {}", hex::describe(table));
        if self.traces {
            question.trace(table).iter().for_each(|step| println!("    {}", step));
        }
    }
}

fn give_up(why: impl std::fmt::Display) -> ! {
    eprintln!("the box: {}", why);
    std::process::exit(2)
}

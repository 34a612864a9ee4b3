//! The shaper's program beside the crate: all that it prints, byte for byte.

use crate::compare::comparison::DIFFERENCES_SHOWN;
use crate::reference::oracle::Fault;
use crate::reference::shaper::printed;
use crate::tables::random::Random;
use crate::tables::shaper_inputs::{any_input, fixed_inputs, KNOWN_INPUT, KNOWN_PRINT};
use crate::wire::hex;
use std::io::{self, Write};
use std::process::{Command, Output, Stdio};
use std::thread;
use std::time::{Duration, Instant};

/// How the comparison went.
#[derive(Default)]
pub struct Totals {
    pub cases: u64,
    pub differences: u64,
    /// Random inputs that came when the time was over.
    pub left_out: u64,
}

/// The program, and what was found so far.
struct Comparison<'a> {
    command: &'a [String],
    totals: Totals,
}

/// Gives the program each input; so many are random, as far as the seconds go (0 is no limit).
pub fn compare(command: &[String], cases: u64, seed: u64, seconds: u64) -> io::Result<Totals> {
    let mut comparison = Comparison { command, totals: Totals::default() };
    comparison.give(&hex::bytes(KNOWN_INPUT), Some(KNOWN_PRINT))?;
    for input in fixed_inputs() {
        comparison.give(&input, None)?;
    }
    let until = Instant::now() + Duration::from_secs(seconds);
    let random = &mut Random::new(seed);
    for given in 0..cases {
        if seconds > 0 && Instant::now() > until {
            comparison.totals.left_out = cases - given;
            break;
        }
        comparison.give(&any_input(random), None)?;
    }
    Ok(comparison.totals)
}

impl Comparison<'_> {
    /// Compares what the program prints for an input; a document may say it, too.
    fn give(&mut self, input: &[u8], written: Option<&str>) -> io::Result<()> {
        let given = output_of(self.command, input)?;
        let right = match printed(input) {
            Ok(right) if written.map_or(false, |written| written != right) => Err(Fault::Disputed),
            right => right,
        };
        self.totals.cases += 1;
        match right {
            Ok(right) if given.status.success() && given.stdout == right.as_bytes() => {}
            right => self.count_difference(input, right, &given),
        }
        Ok(())
    }

    fn count_difference(&mut self, input: &[u8], right: Result<String, Fault>, given: &Output) {
        self.totals.differences += 1;
        if self.totals.differences > DIFFERENCES_SHOWN {
            return;
        }
        println!("difference: the program shape, input of {}", hex::describe(input));
        let given = String::from_utf8_lossy(&given.stdout);
        match right {
            Err(fault) => println!("  {}", fault.describe()),
            Ok(right) if right == given => println!("  it ended in failure"),
            Ok(right) => {
                let same = right.lines().zip(given.lines()).take_while(|(right, given)| right == given).count();
                let line_of = |text: &str| text.lines().nth(same).unwrap_or("nothing").to_string();
                println!("  line {}, right:   {}", same + 1, line_of(&right));
                println!("  line {}, program: {}", same + 1, line_of(&given));
            }
        }
    }
}

/// All that the program prints for an input, and how it ends. It may end before it has read all.
fn output_of(command: &[String], input: &[u8]) -> io::Result<Output> {
    let mut process =
        Command::new(&command[0]).args(&command[1..]).stdin(Stdio::piped()).stdout(Stdio::piped()).spawn()?;
    let mut to = process.stdin.take().expect("a piped input");
    thread::scope(|both| {
        both.spawn(move || to.write_all(input));
        process.wait_with_output()
    })
}

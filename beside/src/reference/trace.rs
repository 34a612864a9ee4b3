//! What the crate does, step by step, in words.

use crate::reference::line::Line;
use crate::reference::oracle::{Answer, Fault};
use crate::reference::run::{Run, Visit};
use crate::reference::steps_by_copy::{open, Opened};

/// The most steps that are shown of one pass or run.
const STEPS_SHOWN: usize = 300;

/// The steps of the pass by the subtable of a table of one chain, each with the state and the line before it.
pub fn describe_pass(table: &[u8], line: &Line) -> Vec<String> {
    let mut steps = Vec::new();
    if let Some(opened) = open(table) {
        add_steps(&opened, line.clone(), &mut steps);
    }
    steps
}

/// The subtables of a run, each with the steps of its pass.
pub fn describe_run(run: &Run, line: &Line) -> Vec<String> {
    let mut steps = Vec::new();
    let show = &mut |visit: Visit, line: &Line| {
        let chosen = if visit.is_chosen { "chosen" } else { "passed over" };
        let turned = if visit.is_turned { ", turned" } else { "" };
        let head = format!("subtable of coverage {:08x}, flags {:08x}", visit.coverage, visit.flags);
        steps.push(format!("{}: {}{}; {}", head, chosen, turned, line.describe()));
        if visit.is_chosen {
            let mut line = line.clone();
            if visit.is_turned {
                line.reverse();
            }
            if let Some(opened) = visit.opened.and_then(|(_, subtable)| Opened::of(subtable, run.table)) {
                add_steps(&opened, line, &mut steps);
            }
        }
    };
    let mut line = line.clone();
    let answer = run.make(&mut line, show);
    end_run(&mut steps, answer, &line.describe());
    steps
}

fn add_steps(opened: &Opened, mut line: Line, steps: &mut Vec<String>) {
    let answer = opened.pass(&mut line, &mut |told, state, line| {
        let end = if told.ends == 0 { "" } else { ", end of text" };
        let told = format!("{} step at place {}, glyph {}{}", opened.machine.kind.name, told.index, told.glyph, end);
        steps.push(format!("{}; state {}; {}", told, describe_state(state), line.describe()));
    });
    end_pass(steps, answer, &line.describe());
}

/// Ends the steps of a pass with its answer and what it left.
pub fn end_pass(steps: &mut Vec<String>, answer: Result<Answer<()>, Fault>, left: &str) {
    end(steps, answer.map(|answer| format!("answer {}", answer.number())), left);
}

/// Ends the steps of a run with its answer, the heads and what it left.
pub fn end_run(steps: &mut Vec<String>, answer: Result<(Answer<()>, u32), Fault>, left: &str) {
    end(steps, answer.map(|(answer, heads)| format!("answer {}, heads {}", answer.number(), heads)), left);
}

fn end(steps: &mut Vec<String>, answer: Result<String, Fault>, left: &str) {
    let answer = answer.unwrap_or_else(|fault| fault.describe().into());
    steps.truncate(STEPS_SHOWN);
    steps.push(format!("{}; {}", answer, left));
}

/// A state, with the count of zeros where many follow each other.
pub fn describe_state(state: &[u64]) -> String {
    let mut words = Vec::new();
    let mut left = state;
    while let [first, rest @ ..] = left {
        let zeros = left.iter().take_while(|number| **number == 0).count();
        if zeros > 4 {
            words.push(format!("({} zeros)", zeros));
            left = &left[zeros..];
        } else {
            words.push(first.to_string());
            left = rest;
        }
    }
    words.join(" ")
}

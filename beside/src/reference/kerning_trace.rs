//! What the crate's kerning does, step by step, in words.

use crate::reference::kerning::{Kerned, Kerning, Subtable};
use crate::reference::kerning_by_copy::{machines, open, Machine};
use crate::reference::kerning_choices::Choices;
use crate::reference::kerning_run::{Run, Visit};
use crate::reference::oracle::Answer;
use crate::reference::trace::{describe_state, end_pass, end_run};
use crate::wire::along::describe_along;

/// The steps of the pass by the one subtable of a table made by `alone`, and by these choices.
pub fn describe_pass(kerning: Kerning, table: &[u8], choices: Choices, lent: &Kerned) -> Vec<String> {
    let mut steps = Vec::new();
    if let Ok(Some(subtable)) = Subtable::alone(kerning, table) {
        add_steps(&subtable, open(kerning, table), choices, lent.clone(), &mut steps);
    }
    steps
}

/// The subtables of a run, each with the steps of its pass.
pub fn describe_run(run: &Run, lent: &Kerned) -> Vec<String> {
    let mut steps = Vec::new();
    let mut copies = machines(run.kerning, run.table, run.start as u32);
    let show = &mut |visit: &Visit, lent: &Kerned| {
        let machine = copies.next().flatten();
        let over = if visit.passed_over.is_some() { ", passed over" } else { "" };
        let turned = if visit.is_turned { ", turned" } else { "" };
        let name = visit.subtable.as_ref().map_or("nothing that can be read", Subtable::name);
        steps.push(format!("subtable of {} with {}{}{}", run.kerning.name(), name, over, turned));
        if let (Some(subtable), false) = (&visit.subtable, visit.passed_over.is_some()) {
            let mut lent = lent.clone();
            if visit.is_turned {
                lent.reverse();
            }
            add_steps(subtable, machine, run.choices, lent, &mut steps);
        }
    };
    let mut lent = lent.clone();
    let answer = run.make_showing(&mut lent, show);
    end_run(&mut steps, answer, &lent.describe());
    steps
}

impl Subtable<'_> {
    /// What it has, in words.
    pub fn name(&self) -> &'static str {
        match self {
            Subtable::KernPairs(_) | Subtable::KerxPairs(_) => "ordered pairs",
            Subtable::KerxClasses(_) => "class pairs",
            Subtable::KernMachine(_) | Subtable::KerxMachine(_) => "a machine",
        }
    }
}

/// The steps of a machine, each with the state and the adjustments before it, or the pairs, each with its number.
fn add_steps(
    subtable: &Subtable,
    machine: Option<Machine>,
    choices: Choices,
    mut lent: Kerned,
    steps: &mut Vec<String>,
) {
    let (glyphs, along) = lent.used();
    let answer = match machine {
        Some(machine) => machine.pass(glyphs, along, &mut |state, place, along| {
            let told = format!("step at place {}, glyph {}", place, glyphs[place]);
            steps.push(format!("{}; state {}; {}", told, describe_state(state), describe_along(along)));
        }),
        None => {
            for (first, second) in choices.pairs(glyphs) {
                let [left, right] = [first, second].map(|place| glyphs[place]);
                let number = match subtable.get(left, right) {
                    Answer::Done(number) => number.to_string(),
                    _ => "nothing".into(),
                };
                steps.push(format!("pair at places {} {}, glyphs {} {}: {}", first, second, left, right, number));
            }
            subtable.pass_by(choices, glyphs, along)
        }
    };
    end_pass(steps, answer, &describe_along(along));
}

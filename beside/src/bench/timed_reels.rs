//! Reels whose times are taken, beside the crate's runs of the same lines and beside single calls of ours.

use crate::bench::grouped;
use crate::bench::sides::{ours, theirs};
use crate::bench::timed_passes::{with_subtables, CLASSED};
use crate::bench::timing::Subject;
use crate::reference::line::{Line, LARGEST_ROOM};
use crate::reference::reel::{Reel, MOST_LINES};
use crate::tables::random::Random;
use std::rc::Rc;

/// Reels of as many lines as there may be, and the largest of them once.
pub fn subjects(random: &mut Random) -> Vec<Subject> {
    let table = Rc::new(with_subtables(random, 10));
    let mut subjects = Vec::new();
    for length in [16, 64, 256] {
        let lines = any_lines(random, length);
        subjects.push(beside_the_crate(&table, &lines, length));
        subjects.push(beside_single_calls(&table, &lines, length));
    }
    let lines = any_lines(random, LARGEST_ROOM);
    subjects.push(beside_the_crate(&table, &lines, LARGEST_ROOM).once());
    subjects
}

fn any_lines(random: &mut Random, length: usize) -> Rc<Vec<Line>> {
    Rc::new((0..MOST_LINES).map(|_| Line::any(random, length, length, usize::from(CLASSED))).collect())
}

fn name(length: usize, beside: &str) -> String {
    format!("reel of {} lines of {} places, {}", MOST_LINES, grouped(length), beside)
}

/// A call that begins with a copy of the same reel each time.
fn on_copies(lines: &[Line], table: &Rc<Vec<u8>>, call: impl Fn(&mut Reel, &[u8])) -> impl FnMut() {
    let (fresh, table) = (Reel::of(lines), table.clone());
    let mut reel = fresh.clone();
    move || {
        reel.clone_from(&fresh);
        call(&mut reel, &table);
    }
}

fn beside_the_crate(table: &Rc<Vec<u8>>, lines: &Rc<Vec<Line>>, length: usize) -> Subject {
    let ours = on_copies(lines, table, ours::reel);
    let (table, lines) = (table.clone(), lines.clone());
    let mut left = lines.to_vec();
    let theirs = move || {
        for (line, fresh) in left.iter_mut().zip(lines.iter()) {
            line.clone_from(fresh);
            theirs::run(line, &table);
        }
    };
    Subject::of_turns(name(length, "beside the crate's runs"), MOST_LINES * length, 1, ours, theirs)
}

fn beside_single_calls(table: &Rc<Vec<u8>>, lines: &[Line], length: usize) -> Subject {
    let [reel, calls] = [ours::reel, ours::runs_of_reel].map(|call| on_copies(lines, table, call));
    Subject::of_turns(name(length, "beside single calls of ours"), MOST_LINES * length, 1, reel, calls)
}

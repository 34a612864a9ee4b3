//! How the times of two sides are taken, turn by turn, and told.

use std::rc::Rc;

/// What both sides do, or ours alone: in a turn, each makes so many calls and gives a sum of what they found.
pub struct Subject {
    pub name: String,
    /// How many places a call goes over.
    pub places: usize,
    calls: usize,
    ours: Turn,
    theirs: Option<Turn>,
    turns: usize,
}

/// Subjects under a heading, and what is to be said of them.
pub struct Group {
    pub heading: &'static str,
    pub subjects: Vec<Subject>,
    pub note: String,
}

impl Group {
    /// Subjects of which nothing is to be said.
    pub fn new(heading: &'static str, subjects: Vec<Subject>) -> Self {
        Group { heading, subjects, note: String::new() }
    }
}

type Turn = Box<dyn FnMut() -> u64>;

/// So many turns are taken, ours and theirs one after the other.
pub const TURNS: usize = 101;

/// What calls change.
pub trait Worked: Clone + 'static {
    /// How many places it has.
    fn places(&self) -> usize;

    /// A number that depends on what calls change, but takes little time.
    fn glance(&self) -> u64;
}

impl Subject {
    /// A call for each glyph or name.
    pub fn of_items<T: Copy + 'static>(
        name: String,
        table: Vec<u8>,
        items: Vec<T>,
        ours: impl Fn(&[u8], T) -> Option<u32> + 'static,
        theirs: impl Fn(&[u8], T) -> Option<u32> + 'static,
    ) -> Self {
        let calls = items.len();
        let asked = Rc::new((table, items));
        let [ours, theirs] = [turn(asked.clone(), ours), turn(asked, theirs)];
        Subject { name, places: 1, calls, ours, theirs: Some(theirs), turns: TURNS }
    }

    /// So many calls on one line, again and again, or each on a fresh copy of it; both sides begin with the same line.
    pub fn of_work<T: Worked>(
        name: String,
        calls: usize,
        first: T,
        is_fresh: bool,
        ours: impl Fn(&mut T) + 'static,
        theirs: impl Fn(&mut T) + 'static,
    ) -> Self {
        if is_fresh {
            return Subject::of_lines(name, calls, vec![first], ours, theirs);
        }
        let places = first.places();
        let [ours, theirs] = [turn_on(calls, first.clone(), ours), turn_on(calls, first, theirs)];
        Subject { name, places, calls, ours, theirs: Some(theirs), turns: TURNS }
    }

    /// So many calls, each on a fresh copy of the next of these lines, which both sides have to copy.
    pub fn of_lines<T: Worked>(
        name: String,
        calls: usize,
        lines: Vec<T>,
        ours: impl Fn(&mut T) + 'static,
        theirs: impl Fn(&mut T) + 'static,
    ) -> Self {
        let places = lines[0].places();
        let lines = Rc::new(lines);
        let [ours, theirs] = [turn_over(calls, lines.clone(), ours), turn_over(calls, lines, theirs)];
        Subject { name, places, calls, ours, theirs: Some(theirs), turns: TURNS }
    }

    /// So many calls in each turn of either side, each over so many places.
    pub fn of_turns(
        name: String,
        places: usize,
        calls: usize,
        ours: impl FnMut() + 'static,
        theirs: impl FnMut() + 'static,
    ) -> Self {
        Subject { name, places, calls, ours: summed(ours), theirs: Some(summed(theirs)), turns: TURNS }
    }

    /// So many calls that the crate has no counterpart of, on one line, again and again.
    pub fn of_ours<T: Worked>(name: String, calls: usize, line: T, ours: impl Fn(&mut T) + 'static) -> Self {
        Subject { name, places: line.places(), calls, ours: turn_on(calls, line, ours), theirs: None, turns: TURNS }
    }

    /// The same in one turn, as it takes long.
    pub fn once(mut self) -> Self {
        self.turns = 1;
        self
    }

    /// Whether the crate has a counterpart.
    pub fn is_compared(&self) -> bool {
        self.theirs.is_some()
    }

    /// Takes few turns and more of them, ours and then theirs, for a tool that counts instructions; and gives the places that
    /// they go over beyond those of the few.
    pub fn counted(mut self) -> usize {
        for side in [Some(&mut self.ours), self.theirs.as_mut()].into_iter().flatten() {
            [FEW_TURNS, MORE_TURNS].into_iter().for_each(|turns| counted_turns(side, turns));
        }
        self.places * self.calls * (MORE_TURNS - FEW_TURNS)
    }

    /// How long the sides take.
    pub fn measured(mut self) -> Figure {
        let mut turns = Vec::new();
        for _ in 0..self.turns {
            let ours = time(&mut self.ours, self.calls);
            turns.push((ours, self.theirs.as_mut().map(|theirs| time(theirs, self.calls))));
        }
        let [_, ours, _] = quartiles(turns.iter().map(|(ours, _)| ours.0));
        let pairs = || turns.iter().filter_map(|(ours, theirs)| Some((ours, theirs.as_ref()?)));
        let beside = self.theirs.map(|_| {
            let [_, theirs, _] = quartiles(pairs().map(|(_, theirs)| theirs.0));
            let [lower, _, upper] = quartiles(pairs().map(|(ours, theirs)| ours.0 / theirs.0));
            Beside { theirs, lower, upper, is_same: pairs().all(|(ours, theirs)| ours.1 == theirs.1) }
        });
        Figure { name: self.name, ours, beside }
    }
}

/// A turn that finds nothing to compare.
fn summed(mut turn: impl FnMut() + 'static) -> Turn {
    Box::new(move || {
        turn();
        0
    })
}

fn turn_on<T: Worked>(calls: usize, mut line: T, call: impl Fn(&mut T) + 'static) -> Turn {
    Box::new(move || {
        (0..calls).for_each(|_| call(&mut line));
        line.glance()
    })
}

/// Each turn begins one line further, so that the glance at its end is at another.
fn turn_over<T: Worked>(calls: usize, lines: Rc<Vec<T>>, call: impl Fn(&mut T) + 'static) -> Turn {
    let mut line = lines[0].clone();
    let mut first = 0;
    Box::new(move || {
        first = (first + 1) % lines.len();
        for fresh in lines.iter().cycle().skip(first).take(calls) {
            line.clone_from(fresh);
            call(&mut line);
        }
        line.glance()
    })
}

const FEW_TURNS: usize = 1;
const MORE_TURNS: usize = 3;

/// So many turns; the tool knows it by its name.
#[no_mangle]
#[inline(never)]
fn counted_turns(turn: &mut Turn, turns: usize) {
    for _ in 0..turns {
        turn();
    }
}

fn turn<T: Copy + 'static>(asked: Rc<(Vec<u8>, Vec<T>)>, call: impl Fn(&[u8], T) -> Option<u32> + 'static) -> Turn {
    Box::new(move || {
        let (table, items) = &*asked;
        let found = items.iter().filter_map(|item| call(table, *item));
        found.map(|value| u64::from(value) + 1).sum()
    })
}

/// Nanoseconds for one of a turn's calls, and the sum of what they found.
fn time(turn: &mut Turn, calls: usize) -> (f64, u64) {
    let began = nanoseconds();
    let sum = turn();
    ((nanoseconds() - began) as f64 / calls as f64, sum)
}

extern "C" {
    fn clock_gettime(clock: i32, time: &mut [i64; 2]) -> i32;
}

/// The clock that goes on only while this thread is at work, so that other work on the machine counts for little.
const OWN_TIME: i32 = 3;

fn nanoseconds() -> i64 {
    let mut time = [0; 2];
    let answer = unsafe { clock_gettime(OWN_TIME, &mut time) };
    assert_eq!(answer, 0, "a clock");
    time[0] * 1_000_000_000 + time[1]
}

/// The numbers that a quarter, a half and three quarters are not above.
fn quartiles(numbers: impl Iterator<Item = f64>) -> [f64; 3] {
    let mut numbers: Vec<f64> = numbers.collect();
    numbers.sort_by(f64::total_cmp);
    [1, 2, 3].map(|quarter| numbers[numbers.len() * quarter / 4])
}

/// The median time of a call, and what stands beside it.
pub struct Figure {
    name: String,
    ours: f64,
    beside: Option<Beside>,
}

/// The median time of the other side's call, and the quartiles of the ratios of turns.
struct Beside {
    theirs: f64,
    lower: f64,
    upper: f64,
    is_same: bool,
}

impl Figure {
    /// Whether both sides found the same, where there are two.
    pub fn is_same(&self) -> bool {
        self.beside.as_ref().map_or(true, |beside| beside.is_same)
    }

    /// The figure in a line.
    pub fn describe(&self) -> String {
        let Figure { name, ours, beside } = self;
        match beside {
            None => format!("{:78} {:.1} ns", name, ours),
            Some(Beside { theirs, lower, upper, .. }) => {
                let ratio = ours / theirs;
                format!("{:78} {:.2} ({:.2} to {:.2}): {:.1} ns to {:.1} ns", name, ratio, lower, upper, ours, theirs)
            }
        }
    }

    /// The figure as a row of a table, which has this head.
    pub fn row(&self) -> String {
        let Figure { name, ours, beside } = self;
        match beside {
            None => format!("| {} | | | {:.1} ns | |", name, ours),
            Some(Beside { theirs, lower, upper, .. }) => {
                let ratio = ours / theirs;
                format!(
                    "| {} | {:.2} | {:.2} to {:.2} | {:.1} ns | {:.1} ns |",
                    name, ratio, lower, upper, ours, theirs
                )
            }
        }
    }
}

/// The head of a table of figures.
pub const TABLE_HEAD: &str = "| Call | Ratio | Quartiles | Ours | The crate's |\n|---|---|---|---|---|";

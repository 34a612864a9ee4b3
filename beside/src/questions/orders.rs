//! kerx tables whose subtables are put into other orders (W-214): where its hypotheses hold, the crate and the box have to give the same
//! along numbers in every order; where one is broken on purpose, how often they differ is counted.

use crate::fuzz::case::Chosen;
use crate::fuzz::seeds::Seed;
use crate::fuzz::source::Source;
use crate::questions::kerning_choices::unkerned;
use crate::questions::kerning_runs::{behind_others, KerningRun, BEFORE};
use crate::questions::{Ask, Part, Question};
use crate::reference::kerning::{Kerned, Kerning};
use crate::reference::kerning_choices::Choices;
use crate::reference::kerx_readings::{Kerx, Reading};
use crate::reference::oracle::{Answer, Fault};
use crate::reference::run::MOST_HEADS;
use crate::tables::kerning::{any_body, Edition, Entry as Act, Parts, NONE, PUSH};
use crate::tables::kerx_manual::{any_manual_body, any_tuples};
use crate::tables::lines::{any_glyphs, any_line_of};
use crate::tables::random::Random;
use crate::wire::entries::Entry;
use std::cell::{Cell, RefCell};
use std::ops::Range;
use std::rc::Rc;

/// Tables in any order.
pub struct Orders;

impl Part for Orders {
    fn name(&self) -> &'static str {
        "orders"
    }

    fn entries(&self) -> Vec<Entry> {
        Vec::new()
    }

    fn ask(&self, asked: &mut dyn Ask, random: &mut Random, cases: u64) {
        needed(asked);
        every_choice(asked, random);
        random_tables(asked, random, cases);
    }

    fn chosen(&self, _entry: Entry, _chosen: Chosen, _source: &mut Source) -> Box<dyn Question> {
        panic!("no entry of its own")
    }

    fn seed(&self, _random: &mut Random, _entry: Entry) -> Seed {
        panic!("no entry of its own")
    }
}

/// What is done to the hypotheses.
#[derive(Clone, Copy, PartialEq)]
enum Broken {
    Nothing,
    /// The bytes of a subtable, and the size that its head states, are one fewer.
    Short,
    /// The lists of a subtable begin with its last number.
    LongList,
    /// A subtable states the size 0.
    NoSize,
    /// The last subtable is not wholly in the table.
    Cut,
    /// By an example that is known to differ.
    Known,
}

const ON_PURPOSE: [Broken; 4] = [Broken::Short, Broken::LongList, Broken::NoSize, Broken::Cut];

/// What tables are counted by: all holds, with a subtable that ends at its 9th push or without; or something is broken.
#[derive(Clone, Copy, PartialEq)]
enum Kind {
    Whole,
    Ending,
    Otherwise(Broken),
}

const KINDS: [(Kind, &str); 8] = [
    (Kind::Whole, "where all hypotheses hold"),
    (Kind::Ending, "where they do and a subtable ends early"),
    (Kind::Otherwise(Broken::Short), "with a byte less"),
    (Kind::Otherwise(Broken::LongList), "with lists at a subtable's end"),
    (Kind::Otherwise(Broken::NoSize), "with a size of 0"),
    (Kind::Otherwise(Broken::Cut), "with a last subtable that is cut"),
    (Kind::Otherwise(Broken::Nothing), "where a read leaves its subtable by chance"),
    (Kind::Otherwise(Broken::Known), "of the examples"),
];

thread_local! {
    /// For each of these the tables, and those of them that gave other numbers in another order.
    static COUNTED: Cell<[[u64; 2]; KINDS.len()]> = Cell::default();
}

fn count(kind: Kind, [tables, otherwise]: [u64; 2]) {
    let mut counted = COUNTED.with(Cell::get);
    for (_, counts) in KINDS.iter().zip(&mut counted).filter(|((of, _), _)| *of == kind) {
        *counts = [counts[0] + tables, counts[1] + otherwise];
    }
    COUNTED.with(|cell| cell.set(counted));
}

/// How many tables gave other numbers in another order, in words.
pub fn counted() -> Vec<String> {
    let line = |((_, name), [tables, otherwise]): (&(Kind, &str), [u64; 2])| {
        format!("kerx in other orders: {} tables {}, {} with other numbers", tables, name, otherwise)
    };
    KINDS.iter().zip(COUNTED.with(Cell::get)).map(line).collect()
}

/// A list's version, its subtables, and how it is run.
struct List {
    version: u16,
    subtables: Vec<Vec<u8>>,
    choices: Choices,
    right_to_left: u32,
    lent: Kerned,
}

impl List {
    /// Its table with the subtables in an order, behind other bytes, and without so many of its last.
    fn table(&self, order: &[usize], cut: usize) -> Rc<[u8]> {
        let subtables: Vec<Vec<u8>> = order.iter().map(|number| self.subtables[*number].clone()).collect();
        let mut table = Edition::new(Kerning::Kerx, self.version, 0).table(&subtables);
        table.truncate(table.len() - cut);
        behind_others(table)
    }

    fn run(&self) -> KerningRun {
        KerningRun {
            kerning: Kerning::Kerx,
            choices: Some(self.choices),
            lent: self.lent.clone(),
            start: BEFORE as u64,
            right_to_left: self.right_to_left,
            written: None,
        }
    }

    fn reading(&self) -> Reading {
        self.choices.reading(Kerning::Kerx)
    }

    /// The answer of the pass by one of its subtables on its own bytes alone, where these are as many as stated and no read leaves them.
    fn alone(&self, subtable: &[u8]) -> Option<Answer<()>> {
        let kerx = Kerx::new(self.reading(), self.version, subtable);
        kerx.alone(self.choices, self.right_to_left != 0, &self.lent)
    }

    /// What its tables are counted by. A pass whose reads all succeed can only end at a 9th push.
    fn kind(&self, broken: Broken) -> Kind {
        let answers: Option<Vec<Answer<()>>> = self.subtables.iter().map(|subtable| self.alone(subtable)).collect();
        match answers {
            Some(_) if broken == Broken::Cut || broken == Broken::Known => Kind::Otherwise(broken),
            Some(answers) if answers.contains(&Answer::Ended) => Kind::Ending,
            Some(_) => Kind::Whole,
            None => Kind::Otherwise(broken),
        }
    }
}

/// A list that is asked for in several orders.
struct Tried {
    list: List,
    broken: Broken,
    /// What the order that was asked for first left, and by what it is counted.
    first: RefCell<Option<(Kind, Vec<i64>)>>,
    differs: Cell<bool>,
}

impl Tried {
    /// Puts it in each of these orders, without so many of the table's last bytes.
    fn ask(list: List, broken: Broken, cut: usize, orders: &[Vec<usize>], asked: &mut dyn Ask) {
        let tried = Rc::new(Tried { list, broken, first: RefCell::default(), differs: Cell::default() });
        for (number, order) in orders.iter().enumerate() {
            let is_last = number + 1 == orders.len();
            let ordered = Ordered { tried: tried.clone(), run: tried.list.run(), is_last };
            asked.ask(&tried.list.table(order, cut), Box::new(ordered));
        }
    }

    /// Compares what another order left, and counts.
    fn compare(&self, along: &[i64], is_last: bool) -> Result<(), Fault> {
        let mut first = self.first.borrow_mut();
        let (kind, first) = first.get_or_insert_with(|| {
            let kind = self.list.kind(self.broken);
            count(kind, [1, 0]);
            (kind, along.to_vec())
        });
        if along != first && !self.differs.replace(true) {
            count(*kind, [0, 1]);
        }
        let is_right = match kind {
            Kind::Whole | Kind::Ending => !self.differs.get(),
            Kind::Otherwise(Broken::Known) => self.differs.get() || !is_last,
            Kind::Otherwise(_) => true,
        };
        is_right.then_some(()).ok_or(Fault::Disputed)
    }
}

/// The run of a list in one of its orders.
struct Ordered {
    tried: Rc<Tried>,
    run: KerningRun,
    is_last: bool,
}

impl Question for Ordered {
    fn entry(&self) -> Entry {
        self.run.entry()
    }

    fn arguments(&self, held: u64, call: &mut Vec<u8>) {
        self.run.arguments(held, call);
    }

    fn reply(&self, table: &[u8], _held: u64, reply: &mut Vec<u8>) -> Result<(), Fault> {
        let (answer, lent, heads) = self.run.made_on(table)?;
        self.tried.compare(&lent.along, self.is_last)?;
        lent.reply(answer, reply);
        reply.extend(heads.to_le_bytes());
        Ok(())
    }

    fn describe(&self, held: u64) -> String {
        format!("{}, in one of its orders", self.run.describe(held))
    }

    fn describe_reply(&self, reply: &[u8]) -> String {
        self.run.describe_reply(reply)
    }

    fn trace(&self, table: &[u8]) -> Vec<String> {
        self.run.trace(table)
    }
}

/// A machine that pushes at every glyph, so that its 9th push ends it, and takes a list at the glyphs of class 5.
fn pushing(random: &mut Random, edition: Edition, glyphs: &Range<u16>) -> Vec<u8> {
    let classes: Vec<u8> = glyphs.clone().map(|_| if random.once_in(6) { 5 } else { 4 }).collect();
    let entries = [
        Act { state: 0, flags: 0, list: NONE },
        Act { state: 0, flags: PUSH, list: NONE },
        Act { state: 0, flags: PUSH, list: 0 },
    ];
    let lists: Vec<i16> = (0..9).map(|_| random.below(99) as i16).collect();
    let (first, classes, rows) = (glyphs.start, &classes, &[0, 0, 0, 0, 1, 2]);
    edition.machine(&Parts { first, classes, count: 6, rows, entries: &entries, lists: &lists })
}

/// Any subtable of format 0, 1 or 2 in a list of a version.
fn any_listed(random: &mut Random, version: u16, glyphs: &Range<u16>) -> Vec<u8> {
    let tuples = if version >= 4 { any_tuples(random).min(3) } else { 0 };
    let edition = Edition::new(Kerning::Kerx, version, tuples);
    let format = random.among(&[0, 1, 1, 2]);
    let body = match (format, random.below(4)) {
        (1, 0) => pushing(random, edition, glyphs),
        (_, 1) => any_manual_body(random, version, format, glyphs),
        _ => any_body(random, edition, format, glyphs),
    };
    let bits = if random.once_in(8) { random.among(edition.coverages()) } else { random.among(&[0, 0, 0x1000_0000]) };
    edition.subtable(bits, format, &body)
}

/// Any list of so many subtables with a line of up to 40 places, by these choices in this direction; mostly no read for a subtable leaves it.
fn any_list(random: &mut Random, count: usize, choices: u32, right_to_left: u32) -> List {
    let glyphs = any_glyphs(random);
    let version = random.among(&[2, 3, 4, 4]);
    let used = random.among(&[2, 5, 12, 12, 24, 40]);
    let room = used + random.among(&[0, 0, 1, 9]);
    let lent = Kerned::of(any_line_of(random, &glyphs, used, room));
    let mut list = List { version, subtables: Vec::new(), choices: Choices(choices), right_to_left, lent };
    let takes_any = random.once_in(6);
    while list.subtables.len() < count {
        let subtable = any_listed(random, version, &glyphs);
        if takes_any || list.alone(&subtable).is_some() {
            list.subtables.push(subtable);
        }
    }
    list
}

/// Every order of so many.
fn every_order(count: usize) -> Vec<Vec<usize>> {
    let mut orders = vec![Vec::new()];
    for number in 0..count {
        let put_in = |order: Vec<usize>| {
            (0..=order.len()).map(move |place| [&order[..place], &[number], &order[place..]].concat())
        };
        orders = orders.into_iter().flat_map(put_in).collect();
    }
    orders
}

/// All orders of up to six, and some of more.
fn orders_of(random: &mut Random, count: usize) -> Vec<Vec<usize>> {
    if count <= 6 {
        return every_order(count);
    }
    (0..6)
        .map(|_| {
            let mut order: Vec<usize> = (0..count).collect();
            random.shuffle(&mut order);
            order
        })
        .collect()
}

/// Lists of two to six subtables by every choice in both directions.
fn every_choice(asked: &mut dyn Ask, random: &mut Random) {
    for count in 2..=6 {
        for (choices, right_to_left) in (0..4).flat_map(|choices| [(choices, 0), (choices, 1)]) {
            let list = any_list(random, count, choices, right_to_left);
            Tried::ask(list, Broken::Nothing, 0, &every_order(count), asked);
        }
    }
}

/// How many subtables a list has: two to six, but more rarely the more orders they have, or many.
fn any_count(random: &mut Random) -> usize {
    match random.below(60) {
        0 => 6,
        1..=3 => 5,
        4..=13 => 4,
        14..=32 => 3,
        33..=51 => 2,
        _ => 7 + random.below(30),
    }
}

/// Any tables, in one of three of which something is broken on purpose.
fn random_tables(asked: &mut dyn Ask, random: &mut Random, cases: u64) {
    for _ in 0..cases {
        let count = any_count(random);
        let [choices, right_to_left] = [random.below(4) as u32, random.below(2) as u32];
        let mut list = any_list(random, count, choices, right_to_left);
        let mut broken = if random.once_in(3) { random.among(&ON_PURPOSE) } else { Broken::Nothing };
        let one = random.below(count);
        if broken == Broken::LongList && list.subtables[one][7] != 1 {
            broken = Broken::Nothing;
        }
        list.spoil(one, broken);
        let orders = orders_of(random, count);
        Tried::ask(list, broken, usize::from(broken == Broken::Cut), &orders, asked);
    }
}

impl List {
    /// Breaks something of one of its subtables.
    fn spoil(&mut self, one: usize, broken: Broken) {
        let unit = self.unit(one);
        let subtable = &mut self.subtables[one];
        match broken {
            Broken::Nothing | Broken::Cut | Broken::Known => {}
            Broken::NoSize => subtable[..4].fill(0),
            Broken::Short => {
                subtable.pop();
                let size = subtable.len() as u32;
                subtable[..4].copy_from_slice(&size.to_be_bytes());
            }
            Broken::LongList => {
                let at = (subtable.len() as u32 - 12 - 2) / unit;
                subtable[28..32].copy_from_slice(&at.to_be_bytes());
            }
        }
    }

    /// What the place of a machine's value table is counted in.
    fn unit(&self, one: usize) -> u32 {
        match self.reading() {
            Reading::Manual => 1,
            Reading::Crate if self.version < 4 => 2,
            Reading::Crate => 2 * u32::from(self.subtables[one][11]).max(1),
        }
    }
}

/// For each hypothesis the smallest pair of tables that differ when it alone is dropped.
fn needed(asked: &mut dyn Ask) {
    let edition = Edition::new(Kerning::Kerx, 2, 0);
    let pair = |number| edition.subtable(0, 0, &edition.pairs(1, &[(5, 6, number)]));
    let list = |subtables: Vec<Vec<u8>>| List {
        version: 2,
        subtables,
        choices: Choices(0),
        right_to_left: 0,
        lent: unkerned(&[5, 6]),
    };
    let mut show = |broken: Broken, first: Vec<u8>| {
        let mut list = list(vec![first, pair(1)]);
        list.spoil(0, broken);
        Tried::ask(list, Broken::Known, usize::from(broken == Broken::Cut), &every_order(2), asked);
    };
    // A size, and the bytes, one fewer: the number's last byte is the next subtable's first.
    show(Broken::Short, pair(0x0A14));
    show(Broken::NoSize, pair(20));
    show(Broken::Cut, pair(20));
    // A list that reads on into the next subtable, of whose size it takes the low half.
    let taking = [Act { state: 0, flags: PUSH, list: 1 }];
    let parts = Parts { first: 5, classes: &[4, 4], count: 5, rows: &[0; 5], entries: &taking, lists: &[] };
    show(Broken::Nothing, edition.subtable(0, 1, &edition.machine(&parts)));
    // One head more than are counted.
    let mut many = vec![edition.subtable(0, 0, &edition.pairs(0, &[])); MOST_HEADS as usize];
    many.push(pair(1));
    let order: Vec<usize> = (0..many.len()).collect();
    let turned: Vec<usize> = order.iter().rev().copied().collect();
    Tried::ask(list(many), Broken::Known, 0, &[order, turned], asked);
}

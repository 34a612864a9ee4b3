//! morx's chains, features and subtables, as cursors go through them, beside the crate's iterators.

use crate::fuzz::case::Chosen;
use crate::fuzz::seeds::{self, Seed};
use crate::fuzz::source::Source;
use crate::questions::{Ask, Part, Question};
use crate::reference::lists_by_copy::{chains_from, lists_of_chain, next, Cursor, List};
use crate::reference::oracle::aat::morx::{chains, Chain, Feature, Subtable};
use crate::reference::oracle::{caught, Answer, Fault, LONGEST_TABLE};
use crate::tables::cuts::{for_each_cut, for_each_longest};
use crate::tables::lookup::{damage, Made};
use crate::tables::morx::{any_heads, chain, chosen_subtable, in_chain, morx, subtable};
use crate::tables::random::Random;
use crate::wire::entries::Entry;
use crate::wire::reply::{add, number, numbers};
use std::rc::Rc;

/// A call of `aat_morx_chains`.
pub struct Start {
    pub start: u64,
}

impl Start {
    fn answer(&self, table: &[u8]) -> Result<Answer<Cursor>, Fault> {
        if table.len() > LONGEST_TABLE {
            Ok(Answer::Table)
        } else if self.start > table.len() as u64 {
            Ok(Answer::Head)
        } else {
            caught(|| Answer::Done(chains_from(table, self.start)))
        }
    }
}

impl Question for Start {
    fn entry(&self) -> Entry {
        Entry::MorxChains
    }

    fn arguments(&self, held: u64, call: &mut Vec<u8>) {
        call.extend(self.start.to_le_bytes());
        add(&lent(held, 2), call);
    }

    fn reply(&self, table: &[u8], held: u64, reply: &mut Vec<u8>) -> Result<(), Fault> {
        let answer = self.answer(table)?;
        reply.extend(answer.number().to_le_bytes());
        add(&answer.done().map_or(lent(held, 2), |cursor| cursor.to_vec()), reply);
        Ok(())
    }

    fn describe(&self, held: u64) -> String {
        format!("chains at start {}, lent cursor {:?}", self.start, lent(held, 2))
    }

    fn describe_reply(&self, reply: &[u8]) -> String {
        format!("answer {}, cursor {:?}", number(&reply[..4]), numbers(&reply[4..]))
    }
}

/// A call of an entry that goes on with a list.
pub struct Next {
    pub list: List,
    pub cursor: Cursor,
    /// What the crate's own iterator, from the list's start on, tells of the element.
    pub told: Option<Vec<u64>>,
}

impl Next {
    /// TABLE, or DONE with what the call leaves in cursor and fields.
    fn answer(&self, table: &[u8]) -> Result<Option<(Cursor, Vec<u64>)>, Fault> {
        if table.len() > LONGEST_TABLE {
            return Ok(None);
        }
        let (cursor, fields) = match caught(|| next(self.list, table, self.cursor))? {
            Some((fields, behind)) => (behind, [vec![1], fields].concat()),
            None => (self.cursor, vec![0; self.list.fields()]),
        };
        match &self.told {
            Some(told) if *told != self.list.told(&fields) => Err(Fault::Disputed),
            _ => Ok(Some((cursor, fields))),
        }
    }
}

impl List {
    /// The entry that goes on with it.
    pub fn entry(self) -> Entry {
        match self {
            List::Chains => Entry::MorxNextChain,
            List::Features => Entry::MorxNextFeature,
            List::Subtables => Entry::MorxNextSubtable,
        }
    }

    /// How many fields an element has, with the one that says whether it was found.
    fn fields(self) -> usize {
        match self {
            List::Features => 5,
            List::Chains | List::Subtables => 6,
        }
    }

    /// Those of an element's fields that the crate's own iterators tell, too: not where things lie.
    fn told(self, fields: &[u64]) -> Vec<u64> {
        match self {
            List::Chains => fields[..2].to_vec(),
            List::Features => fields.to_vec(),
            List::Subtables => [&fields[..1], &fields[2..]].concat(),
        }
    }
}

impl Question for Next {
    fn entry(&self) -> Entry {
        self.list.entry()
    }

    fn arguments(&self, held: u64, call: &mut Vec<u8>) {
        add(&self.cursor, call);
        add(&lent(held, self.list.fields()), call);
    }

    fn reply(&self, table: &[u8], held: u64, reply: &mut Vec<u8>) -> Result<(), Fault> {
        let answer = self.answer(table)?;
        let number = answer.as_ref().map_or(Answer::Table, |_| Answer::Done(())).number();
        let (cursor, fields) = answer.unwrap_or_else(|| (self.cursor, lent(held, self.list.fields())));
        reply.extend(number.to_le_bytes());
        add(&cursor, reply);
        add(&fields, reply);
        Ok(())
    }

    fn describe(&self, held: u64) -> String {
        let list = match self.list {
            List::Chains => "chain",
            List::Features => "feature",
            List::Subtables => "subtable",
        };
        format!("next {} of cursor {:?}, lent fields {:?}", list, self.cursor, lent(held, self.list.fields()))
    }

    fn describe_reply(&self, reply: &[u8]) -> String {
        let numbers = numbers(&reply[4..]);
        format!("answer {}, cursor {:?}, fields {:?}", number(&reply[..4]), &numbers[..2], &numbers[2..])
    }
}

/// A call of `aat_morx_order`, or, with a direction, of `aat_morx_should_reverse`.
pub struct Coverage {
    pub coverage: u32,
    /// Not 0 where the text runs from right to left.
    pub right_to_left: Option<u32>,
}

impl Coverage {
    /// What the crate's subtable of this coverage says.
    fn told(&self) -> Option<u32> {
        let table = in_chain(&subtable(self.coverage, &[]));
        let subtable = chains(&table, 0).next()?.subtables().next()?;
        Some(match self.right_to_left {
            None => subtable.order() as u32,
            Some(right_to_left) => subtable.should_reverse(right_to_left != 0).into(),
        })
    }
}

impl Question for Coverage {
    fn entry(&self) -> Entry {
        self.right_to_left.map_or(Entry::MorxOrder, |_| Entry::MorxShouldReverse)
    }

    fn arguments(&self, held: u64, call: &mut Vec<u8>) {
        call.extend(self.coverage.to_le_bytes());
        if let Some(right_to_left) = self.right_to_left {
            call.extend(right_to_left.to_le_bytes());
        }
        call.extend((held as u32).to_le_bytes());
    }

    fn reply(&self, _table: &[u8], _held: u64, reply: &mut Vec<u8>) -> Result<(), Fault> {
        let told = caught(|| self.told())?.ok_or(Fault::Disputed)?;
        reply.extend(Answer::Done(()).number().to_le_bytes());
        reply.extend(told.to_le_bytes());
        Ok(())
    }

    fn describe(&self, held: u64) -> String {
        let asked = match self.right_to_left {
            None => "order".into(),
            Some(right_to_left) => format!("whether a line is turned, right to left {},", right_to_left),
        };
        format!("{} for coverage {:08x}, lent value {}", asked, self.coverage, held as u32)
    }

    fn describe_reply(&self, reply: &[u8]) -> String {
        format!("answer {}, value {}", number(&reply[..4]), number(&reply[4..]))
    }
}

/// So many numbers to lend.
pub fn lent(held: u64, count: usize) -> Vec<u64> {
    (0..count as u32).map(|number| held.rotate_left(number)).collect()
}

/// morx's lists, and the orders of its subtables.
pub struct Lists;

impl Part for Lists {
    fn name(&self) -> &'static str {
        "lists"
    }

    fn entries(&self) -> Vec<Entry> {
        [&[Entry::MorxChains][..], &LISTS.map(List::entry), &[Entry::MorxOrder, Entry::MorxShouldReverse]].concat()
    }

    fn ask(&self, asked: &mut dyn Ask, random: &mut Random, cases: u64) {
        examples(asked);
        cut_tables(asked);
        counts_and_sizes(asked);
        far_starts(asked);
        far_cursors(asked);
        long_tables(asked);
        coverages(asked, random);
        random_tables(asked, random, cases);
    }

    fn chosen(&self, entry: Entry, chosen: Chosen, source: &mut Source) -> Box<dyn Question> {
        let Chosen { start, right_to_left, told, right, .. } = chosen;
        let coverage = u32::from(told.glyph) << 16 | u32::from(right);
        match entry {
            Entry::MorxChains => Box::new(Start { start }),
            Entry::MorxOrder => Box::new(Coverage { coverage, right_to_left: None }),
            Entry::MorxShouldReverse => Box::new(Coverage { coverage, right_to_left: Some(right_to_left) }),
            _ => Box::new(Next { list: list_of(entry), cursor: [(); 2].map(|()| source.long()), told: None }),
        }
    }

    fn seed(&self, random: &mut Random, entry: Entry) -> Seed {
        if matches!(entry, Entry::MorxOrder | Entry::MorxShouldReverse) {
            return Seed::of(0..0xFFFF, Made::whole(Vec::new()));
        }
        let any = Seed::any(random, seeds::any_lists);
        match entry {
            Entry::MorxChains => any,
            _ => any.with_cursor(|made| some_cursor(random, list_of(entry), made)),
        }
    }
}

fn ask_next(asked: &mut dyn Ask, table: &Rc<[u8]>, list: List, cursor: Cursor) {
    asked.ask(table, Box::new(Next { list, cursor, told: None }));
}

/// The most elements of a list that are asked for, as sizes of 0 make lists very long.
pub const ELEMENTS: usize = 24;

/// Goes through all lists of the table that begins at a start, beside the crate's iterators.
fn ask_lists(asked: &mut dyn Ask, table: &Rc<[u8]>, start: u64) {
    asked.ask(table, Box::new(Start { start }));
    if table.len() > LONGEST_TABLE || start > table.len() as u64 {
        return;
    }
    let chains = chains(table, start as u32);
    let told = |chain: &Chain| vec![chain.default_flags().into()];
    ask_list(asked, table, List::Chains, chains_from(table, start), chains, told, &mut |asked, chain, fields| {
        let [features, subtables] = lists_of_chain(fields);
        ask_list(asked, table, List::Features, features, chain.features(), told_of_feature, &mut |_, _, _| {});
        let ask_more =
            &mut |asked: &mut dyn Ask, subtable: &Subtable, _: &[u64]| ask_coverage(asked, subtable.coverage());
        ask_list(asked, table, List::Subtables, subtables, chain.subtables(), told_of_subtable, ask_more);
    });
}

/// Goes through one list, and does more with each element and its fields.
fn ask_list<T>(
    asked: &mut dyn Ask,
    table: &Rc<[u8]>,
    list: List,
    mut cursor: Cursor,
    mut elements: impl Iterator<Item = T>,
    told: impl Fn(&T) -> Vec<u64>,
    more: &mut dyn FnMut(&mut dyn Ask, &T, &[u64]),
) {
    for _ in 0..ELEMENTS {
        let element = elements.next();
        let seen = match &element {
            Some(element) => [vec![1], told(element)].concat(),
            None => list.told(&vec![0; list.fields()]),
        };
        asked.ask(table, Box::new(Next { list, cursor, told: Some(seen) }));
        match (element, next(list, table, cursor)) {
            (Some(element), Some((fields, behind))) => {
                more(asked, &element, &fields);
                cursor = behind;
            }
            _ => return,
        }
    }
}

fn told_of_feature(feature: &Feature) -> Vec<u64> {
    let Feature { selector, setting_selector, enable_flags, disable_flags } = *feature;
    vec![selector.into(), setting_selector.into(), enable_flags.into(), disable_flags.into()]
}

fn told_of_subtable(subtable: &Subtable) -> Vec<u64> {
    let coverage = subtable.coverage();
    vec![coverage.into(), subtable.flags().into(), (coverage & 0xFF).into(), subtable.order() as u64]
}

/// Its order, and whether it turns lines of either direction, with two numbers for the second.
fn ask_coverage(asked: &mut dyn Ask, coverage: u32) {
    for right_to_left in [None, Some(0), Some(1), Some(0x8000_0000)] {
        asked.ask_alone(Box::new(Coverage { coverage, right_to_left }));
    }
}

/// Two chains: one of three features and no subtables, one of no features and a subtable of every order and kind.
fn two_chains() -> Vec<u8> {
    let features: Vec<u8> = (1..=36).collect();
    let any_kind = |number: u32| chosen_subtable(number << 28 | number % 7, !number, &vec![9; number as usize]);
    let subtables: Vec<Vec<u8>> = (0..16).map(any_kind).collect();
    morx(&[chain(0xA5A5_0001, &features, &[]), chain(0x8000_0000, &[], &subtables)])
}

fn examples(asked: &mut dyn Ask) {
    for table in [morx(&[]), morx(&[chain(1, &[], &[])]), two_chains(), morx(&vec![two_chains()[8..].to_vec(); 12])] {
        ask_lists(asked, &Rc::from(table), 0);
    }
}

/// A table cut at every byte, at its own start and behind other bytes.
fn cut_tables(asked: &mut dyn Ask) {
    for_each_cut([0, 2, 0], &two_chains(), &mut |table, start| ask_lists(asked, table, start as u64));
}

/// Every count and size of a table changed to each of these numbers.
fn counts_and_sizes(asked: &mut dyn Ask) {
    let first = 8;
    let second = first + 16 + 36;
    let places = [4, first + 4, first + 8, first + 12, second + 4, second + 8, second + 12, second + 16, second + 28];
    for at in places {
        for number in [0, 1, 2, 3, 11, 12, 16, 17, 0xFFFF, 0x7FFF_FFFF, 0x8000_0000, u32::MAX - 1, u32::MAX] {
            let mut table = two_chains();
            table[at..at + 4].copy_from_slice(&u32::to_be_bytes(number));
            ask_lists(asked, &Rc::from(table), 0);
        }
    }
}

/// Starts and places that a number of fewer bits, or a sum without care, would take for one in the table.
pub fn far_places(length: u64) -> Vec<u64> {
    let near = [1, 8, length - 16, length - 12, length - 1, length, length + 1];
    let far = [1 << 16, 1 << 31, (1 << 32) - 1, 1 << 32, (1 << 32) + 8, 1 << 63, u64::MAX - 15, u64::MAX - 7, u64::MAX];
    [&near[..], &far].concat()
}

fn far_starts(asked: &mut dyn Ask) {
    let table: Rc<[u8]> = Rc::from(two_chains());
    for start in far_places(table.len() as u64) {
        ask_lists(asked, &table, start);
    }
}

/// The lists.
pub const LISTS: [List; 3] = [List::Chains, List::Features, List::Subtables];

/// Cursors that no call has made.
fn far_cursors(asked: &mut dyn Ask) {
    let table: Rc<[u8]> = Rc::from(two_chains());
    for list in LISTS {
        for_each_far_cursor(table.len() as u64, &mut |cursor| ask_next(asked, &table, list, cursor));
    }
}

/// Cursors at every place of a table of this length and at far ones, with few elements left and many.
pub fn for_each_far_cursor(length: u64, show: &mut dyn FnMut(Cursor)) {
    for place in (0..=length + 1).chain(far_places(length)) {
        for left in [0, 1, 2, u32::MAX.into(), 1 << 32, u64::MAX] {
            show([place, left]);
        }
    }
}

/// Tables at the limit of length and above it.
fn long_tables(asked: &mut dyn Ask) {
    for_each_longest(two_chains(), &mut |table, length| {
        let length = length as u64;
        for start in [0, length - 8, length, length + 1, u64::MAX] {
            asked.ask(table, Box::new(Start { start }));
        }
        for list in LISTS {
            for place in [8, length - 16, length - 12, length - 11, length, length + 1] {
                ask_next(asked, table, list, [place, 1]);
                ask_next(asked, table, list, [place, 0]);
            }
        }
    });
}

/// Every order under other bits.
fn coverages(asked: &mut dyn Ask, random: &mut Random) {
    for order in 0..16 {
        for others in [0, 1, 0xFF, 0x0FFF_FFFF, random.number() as u32 >> 4] {
            ask_coverage(asked, order << 28 | others);
        }
    }
}

fn random_tables(asked: &mut dyn Ask, random: &mut Random, cases: u64) {
    for_each_heads(asked, random, cases, any_heads, &mut |asked, random, table, start| {
        ask_lists(asked, table, start);
        for list in LISTS {
            ask_next(asked, table, list, any_cursor(random, table.len()));
        }
    });
}

/// Hands over any tables of heads, often behind other bytes and now and then damaged, with a start, until so many questions were asked.
pub fn for_each_heads(
    asked: &mut dyn Ask,
    random: &mut Random,
    cases: u64,
    any_heads: fn(&mut Random) -> Vec<u8>,
    show: &mut dyn FnMut(&mut dyn Ask, &mut Random, &Rc<[u8]>, u64),
) {
    let asked = &mut Counted::new(asked, cases);
    while asked.are_left() {
        let mut table = any_heads(random);
        if random.once_in(3) {
            damage(random, &mut table);
        }
        let made = Made::behind_others(random, table, Vec::new());
        let start = made.any_start(random);
        show(asked, random, &Rc::from(&made.table[..]), start);
    }
}

/// A cursor, mostly in a table of this length.
pub fn any_cursor(random: &mut Random, length: usize) -> Cursor {
    let mut any = |limit: usize| match random.below(8) {
        0 => random.number() >> random.below(64),
        _ => random.below(limit) as u64,
    };
    [any(length + 2), any(5)]
}

/// The list that an entry goes on with.
fn list_of(entry: Entry) -> List {
    LISTS.into_iter().find(|list| list.entry() == entry).expect("a list with this entry")
}

/// A cursor for a list: mostly one that the crate comes to, else any.
fn some_cursor(random: &mut Random, list: List, made: &Made) -> Cursor {
    let own = if random.once_in(4) { None } else { own_cursor(random, list, made) };
    own.unwrap_or_else(|| any_cursor(random, made.table.len()))
}

/// A cursor of a list as the crate goes through it; None where it comes to no chain.
fn own_cursor(random: &mut Random, list: List, made: &Made) -> Option<Cursor> {
    let chains = chains_from(&made.table, made.start as u64);
    let of_chain = further(random, List::Chains, &made.table, chains);
    if list == List::Chains {
        return Some(of_chain);
    }
    let (fields, _) = next(List::Chains, &made.table, of_chain)?;
    let [features, subtables] = lists_of_chain(&fields);
    let first = if list == List::Features { features } else { subtables };
    Some(further(random, list, &made.table, first))
}

/// The cursor some elements further on, as far as there are any.
fn further(random: &mut Random, list: List, table: &[u8], first: Cursor) -> Cursor {
    let elements = std::iter::successors(Some(first), |cursor| Some(next(list, table, *cursor)?.1));
    elements.take(1 + random.below(4)).last().unwrap_or(first)
}

/// Passes questions on and counts them down.
pub struct Counted<'a> {
    asked: &'a mut dyn Ask,
    left: u64,
}

impl<'a> Counted<'a> {
    /// Counts down from so many.
    pub fn new(asked: &'a mut dyn Ask, left: u64) -> Self {
        Counted { asked, left }
    }

    /// Whether there are questions left.
    pub fn are_left(&self) -> bool {
        self.left > 0
    }
}

impl Ask for Counted<'_> {
    fn ask(&mut self, table: &Rc<[u8]>, question: Box<dyn Question>) {
        self.left = self.left.saturating_sub(1);
        self.asked.ask(table, question);
    }
}

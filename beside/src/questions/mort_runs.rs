//! Whole runs of mort tables beside the model of mort, and beside the crate's run of the same table written as morx; and calls of both
//! editions on one line, each from what the one before left.

use crate::font::history::moves_of;
use crate::fuzz::case::Chosen;
use crate::fuzz::seeds::Seed;
use crate::fuzz::source::Source;
use crate::questions::features::{any_features, feature};
use crate::questions::mort_passes::{count_judged, MortPass};
use crate::questions::passes::{for_each_table, By, Pass};
use crate::questions::runs::MorxRun;
use crate::questions::{Ask, Part, Question};
use crate::reference::carried::{Carried, Moved};
use crate::reference::line::Line;
use crate::reference::lists_by_copy::chains_from;
use crate::reference::mort;
use crate::reference::mort::next_chain;
use crate::reference::mort_as_morx::table_as_morx;
use crate::reference::oracle::{Answer, Fault, LONGEST_TABLE};
use crate::reference::pass::line_of;
use crate::reference::run::{request, Run, MOST_HEADS, MOST_REQUESTS};
use crate::tables::cuts::{far_chains, for_each_cut};
use crate::tables::kinds::{Written, KINDS};
use crate::tables::lines::{any_glyphs, any_line_of, for_each_length, spoil};
use crate::tables::lookup::{with_values, Made};
use crate::tables::mort::{
    any_body, any_mort, chain, chosen_subtable, mort as table_of, rearranges, substitutes, subtable, BITS,
};
use crate::tables::morx::{any_morx, in_chain, subtable as as_subtable};
use crate::tables::random::Random;
use crate::tables::strings::for_each_string;
use crate::wire::entries::Entry;
use std::ops::Range;
use std::rc::Rc;

/// A call of `aat_mort_run`, which is told what morx's run with features is told.
pub struct MortRun(pub MorxRun);

impl MortRun {
    /// One of these parts.
    pub fn new(line: Line, start: u64, right_to_left: u32, requests: Vec<u32>) -> Self {
        MortRun(MorxRun { line, start, right_to_left, requests: Some(requests), written: None })
    }

    /// The run by the model of mort, which the crate judges.
    fn make(&self, run: &Run, line: &mut Line) -> Result<(Answer<()>, u32), Fault> {
        let made = mort::run(run, line, &mut |_| {});
        self.judge(run.table, made, line)?;
        Ok(made)
    }

    /// Disputed where the crate's run of the same table of morx leaves another line, answers otherwise or counts other heads.
    fn judge(&self, table: &[u8], given: (Answer<()>, u32), left: &Line) -> Result<(), Fault> {
        let MortRun(told) = self;
        let as_morx = table_as_morx(table, told.start, &told.line)?;
        count_judged(as_morx.is_some());
        let table = match &as_morx {
            Some(table) => table,
            None => return Ok(()),
        };
        let mut line = told.line.clone();
        let by_crate = Run { table, start: 0, ..told.run(table) }.make(&mut line, &mut |_, _| {})?;
        if by_crate == given && line == *left {
            Ok(())
        } else {
            Err(Fault::Disputed)
        }
    }
}

impl Question for MortRun {
    fn entry(&self) -> Entry {
        Entry::MortRun
    }

    fn arguments(&self, held: u64, call: &mut Vec<u8>) {
        self.0.arguments(held, call);
    }

    fn reply(&self, table: &[u8], held: u64, reply: &mut Vec<u8>) -> Result<(), Fault> {
        self.0.reply_by(table, held, &|run, line| self.make(run, line), reply)
    }

    fn describe(&self, held: u64) -> String {
        format!("mort {}", self.0.describe(held))
    }

    fn describe_reply(&self, reply: &[u8]) -> String {
        self.0.describe_reply(reply)
    }
}

/// Runs of mort.
pub struct Runs;

impl Part for Runs {
    fn name(&self) -> &'static str {
        "mort-runs"
    }

    fn every(&self) -> u64 {
        2
    }

    fn entries(&self) -> Vec<Entry> {
        vec![Entry::MortRun]
    }

    fn ask(&self, asked: &mut dyn Ask, random: &mut Random, cases: u64) {
        examples(asked);
        coverages(asked);
        features(asked);
        cut_tables(asked);
        counts_and_sizes(asked);
        far_starts(asked);
        refusals(asked);
        many_heads(asked);
        orders(asked);
        random_tables(asked, random, cases - cases / 4);
        mixed_calls(asked, random, cases / 4);
    }

    /// The requests are as many as one byte says, each of a type and a setting of one byte.
    fn chosen(&self, _entry: Entry, chosen: Chosen, source: &mut Source) -> Box<dyn Question> {
        let Chosen { start, right_to_left, lent, .. } = chosen;
        let count = usize::from(source.byte()) % (MOST_REQUESTS + 3);
        let requests = (0..count).map(|_| request(source.byte().into(), source.byte().into())).collect();
        Box::new(MortRun::new(lent.line, start, right_to_left, requests))
    }

    fn seed(&self, random: &mut Random, _entry: Entry) -> Seed {
        let seed = Seed::any(random, |random, glyphs| Made::whole(any_table(random, glyphs)));
        Seed { more: vec![1, random.among(&[0, 3, 37]), random.among(&[0, 1])], ..seed }
    }
}

fn ask_run(asked: &mut dyn Ask, table: &Rc<[u8]>, start: usize, line: &Line, requests: &[u32]) {
    for right_to_left in [0, 1, 0x8000_0000] {
        ask_one_way(asked, table, start, line, right_to_left, requests);
    }
}

fn ask_one_way(asked: &mut dyn Ask, table: &Rc<[u8]>, start: usize, line: &Line, right_to_left: u32, requests: &[u32]) {
    asked.ask(table, Box::new(MortRun::new(line.clone(), start as u64, right_to_left, requests.to_vec())));
}

/// The same run put to the old entry, by the same table of morx.
fn ask_as_morx(asked: &mut dyn Ask, table: &[u8], MortRun(told): &MortRun) {
    if told.run(table).refusal(&told.line).is_some() {
        return;
    }
    // A fault is for the run itself to show.
    if let Ok(Some(as_morx)) = table_as_morx(table, told.start, &told.line) {
        let (line, requests) = (told.line.clone(), told.requests.clone());
        asked.ask(&Rc::from(as_morx), Box::new(MorxRun { line, start: 0, requests, written: None, ..*told }));
    }
}

const LINE: [u16; 5] = [5, 10, 6, 11, 20];

/// What W-212 says of chains, kinds, flags, coverage, order and sizes.
fn examples(asked: &mut dyn Ask) {
    let one = substitutes(0);
    let of_one = |flags| chain(flags, &[], &[one.clone()]);
    let vertical = substitutes(0x8000);
    let both_ways = substitutes(0xA000);
    let others: Vec<Vec<u8>> = [1, 2, 3, 5, 6, 7].iter().map(|kind| subtable(*kind, &one[8..])).collect();
    let (changed, same) = ([7, 10, 9, 11, 20], LINE);
    let (moved, turned) = ([5, 6, 11, 10, 20], [5, 10, 6, 20, 11]);
    let none_opened = subtable(0, &[0; 7]);
    let mut other_version = table_of(&[of_one(1)]);
    other_version[..4].fill(0xFF);
    let written: [(Vec<u8>, u32, [u16; 5], u32); 19] = [
        (table_of(&[of_one(1)]), 0, changed, 2),
        (other_version, 0, changed, 2),
        (table_of(&[of_one(3)]), 1, changed, 2),
        (table_of(&[of_one(2)]), 0, same, 2),
        (table_of(&[of_one(2), of_one(1)]), 0, changed, 4),
        (table_of(&[chain(1, &[7; 24], &[vertical.clone()])]), 0, same, 2),
        (table_of(&[chain(1, &[7; 12], &[vertical, both_ways])]), 0, changed, 3),
        // Kinds that are not taken are counted.
        (table_of(&[chain(1, &[], &others)]), 0, same, 7),
        (table_of(&[chain(1, &[], &[others, vec![one.clone()]].concat())]), 0, changed, 8),
        // One that can't be opened ends alone.
        (table_of(&[chain(1, &[], &[none_opened, one.clone()])]), 0, changed, 3),
        (table_of(&[]), 0, same, 0),
        (table_of(&[chain(1, &[], &[])]), 0, same, 1),
        (table_of(&[chain(1, &[], &[rearranges(0)])]), 0, moved, 2),
        // A turned line has its 11 first, and the 20 before it goes behind it.
        (table_of(&[chain(1, &[], &[rearranges(0)])]), 1, turned, 2),
        (table_of(&[chain(1, &[], &[rearranges(0x4000)])]), 0, turned, 2),
        (table_of(&[chain(1, &[], &[rearranges(0x4000)])]), 1, moved, 2),
        // 0x1000 is not looked at.
        (table_of(&[chain(1, &[], &[rearranges(0x1000)])]), 0, moved, 2),
        (table_of(&[chain(1, &[], &[rearranges(0x5000)])]), 1, moved, 2),
        // The kind is the low three bits.
        (table_of(&[chain(1, &[], &[subtable(0x00FC, &one[8..])])]), 0, changed, 2),
    ];
    for (table, right_to_left, glyphs, heads) in written {
        let written = Written { answer: Answer::Done(()), glyphs: glyphs.to_vec(), homes: Some(vec![0, 1, 2, 3, 4]) };
        let line = line_of(&LINE, 5);
        let mut run = MortRun::new(line, 0, right_to_left, Vec::new());
        run.0.written = Some((written, heads));
        ask_as_morx(asked, &table, &run);
        asked.ask(&Rc::from(table), Box::new(run));
    }
}

/// Both kinds under every coverage, both ways; the bits that are not looked at are not all tried together.
fn coverages(asked: &mut dyn Ask) {
    for coverage in (0..=0xFFFF_u16).filter(|coverage| coverage & 0x0FF8 == 0 || coverage % 89 < 8) {
        for made in [rearranges(0), substitutes(0)] {
            let table = Rc::from(table_of(&[chain(1, &[], &[subtable(coverage, &made[8..])])]));
            for right_to_left in [0, 1] {
                ask_one_way(asked, &table, 0, &line_of(&[10, 6, 11, 10], 5), right_to_left, &[]);
            }
        }
    }
}

/// Features that set, clear and keep, asked for and not; lists of many, cut, and counts that are wrong.
fn features(asked: &mut dyn Ask) {
    let line = line_of(&LINE, 6);
    let all: [&[u32]; 6] =
        [&[], &[request(37, 1)], &[request(37, 0)], &[request(0, 1)], &[request(37, 1), request(0, 1)], &[0, 1, 2, 3]];
    let lists = [
        vec![],
        vec![feature(37, 1, 1, u32::MAX)],
        vec![feature(37, 1, 0, !1)],
        vec![feature(37, 1, 1, 0), feature(0, 1, 0, 0)],
        vec![feature(0, 1, 0, 0), feature(37, 1, 1, u32::MAX)],
        vec![feature(37, 1, 2, 2); 70],
    ];
    for list in &lists {
        for flags in [0, 1, 2, 3] {
            let subtables = [substitutes(0), chosen_subtable(0, 2, &rearranges(0)[8..])];
            let table = table_of(&[chain(flags, &list.concat(), &subtables), chain(1, &[], &[substitutes(0x4000)])]);
            for requests in all {
                ask_run(asked, &Rc::from(&table[..]), 0, &line, requests);
            }
            if flags == 0 && list.len() < 3 {
                for length in 0..=table.len() {
                    ask_one_way(asked, &Rc::from(&table[..length]), 0, &line, 0, &[request(37, 1)]);
                }
                for count in (0..8).chain([0xFF, 0x100, 0x7FFF, 0xFFFF]) {
                    let mut table = table.clone();
                    table[16..18].copy_from_slice(&u16::to_be_bytes(count));
                    ask_one_way(asked, &Rc::from(table), 0, &line, 0, &[request(37, 1), request(0, 22)]);
                }
            }
        }
    }
    let table = Rc::from(table_of(&[chain(0, &feature(3, 1, 1, 0), &[substitutes(0)])]));
    for count in [0, 1, 63, 64, 65, 66, 1_000] {
        let mut requests = vec![request(9, 9); count];
        requests.iter_mut().last().into_iter().for_each(|last| *last = request(3, 1));
        ask_run(asked, &table, 0, &line, &requests);
    }
}

/// Two chains, the second with subtables of both kinds.
fn two_chains() -> Vec<u8> {
    let first = chain(1, &[0; 12], &[substitutes(0)]);
    let second = chain(1, &[], &[rearranges(0x4000), subtable(1, &[1, 2, 3]), rearranges(0)]);
    table_of(&[first, second])
}

/// A table cut at every byte, at its own start and behind other bytes.
fn cut_tables(asked: &mut dyn Ask) {
    for_each_cut([0, 1, 0], &two_chains(), &mut |table, start| ask_run(asked, table, start, &line_of(&LINE, 9), &[]));
}

/// Every count and size changed to each of these numbers, 0 among them, by which the same comes again.
fn counts_and_sizes(asked: &mut dyn Ask) {
    let second = 8 + 12 + 12 + substitutes(0).len();
    let longs = [4, 12, second + 4].map(|at| (at, 4));
    let words = [16, 18, 32, second + 8, second + 10, second + 12].map(|at| (at, 2));
    for (at, size) in longs.into_iter().chain(words) {
        for number in [0, 1, 2, 3, 7, 8, 11, 12, 13, 40, 0xFF, 0x100, 0x7FFF, 0x8000, 0xFFFF, 0x8000_0000, u32::MAX] {
            let mut table = two_chains();
            table[at..at + size].copy_from_slice(&u32::to_be_bytes(number)[4 - size..]);
            let table = Rc::from(table);
            for right_to_left in [0, 1] {
                ask_one_way(asked, &table, 0, &line_of(&LINE, 7), right_to_left, &[]);
            }
        }
    }
}

fn far_starts(asked: &mut dyn Ask) {
    let table: Rc<[u8]> = Rc::from(two_chains());
    for start in far_chains(table.len()) {
        ask_run(asked, &table, start, &line_of(&LINE, 9), &[]);
    }
}

/// Lengths of all parts, most of them no line's, at a start in the table and past it; and too many requests, with tables, lines and
/// starts that are refused or not, in every mix.
fn refusals(asked: &mut dyn Ask) {
    let table = Rc::from(two_chains());
    for_each_length(10, &mut |line| {
        ask_one_way(asked, &table, 0, &line, line.used as u32 & 1, &[]);
        ask_one_way(asked, &table, usize::MAX, &line, 0, &[]);
    });
    for length in [None, Some(LONGEST_TABLE), Some(LONGEST_TABLE + 1)] {
        let mut table = two_chains();
        length.iter().for_each(|length| table.resize(*length, 0));
        let length = table.len();
        let table = Rc::from(table);
        for start in [0, length, length + 1, usize::MAX] {
            for count in [0, 1, 64, 65] {
                for used in [5, 10] {
                    let line = Line { used, ..line_of(&LINE, 9) };
                    ask_one_way(asked, &table, start, &line, 1, &vec![request(3, 1); count]);
                }
            }
        }
    }
}

/// As many heads as are counted, one fewer and more: subtables that come again because their size is 0, and chains.
fn many_heads(asked: &mut dyn Ask) {
    let line = line_of(&LINE, 6);
    for again in [substitutes(0), chosen_subtable(4, 2, &substitutes(0)[8..]), rearranges(0), subtable(3, &[])] {
        for count in [0xFFFC, 0xFFFD, 0xFFFE, 0xFFFF_u16] {
            let mut many = chain(1, &[], &[[&[0; 2], &again[2..]].concat()]);
            many[10..12].copy_from_slice(&count.to_be_bytes());
            for behind in [vec![], vec![chain(1, &[], &[])], vec![chain(1, &[], &[rearranges(0x4000)])]] {
                let table = Rc::from(table_of(&[vec![many.clone()], behind].concat()));
                ask_one_way(asked, &table, 0, &line, 0, &[]);
                ask_one_way(asked, &table, 0, &line, 1, &[]);
            }
        }
    }
    for count in [1, MOST_HEADS / 2, MOST_HEADS / 2 + 1, MOST_HEADS - 1, MOST_HEADS, MOST_HEADS + 1, u32::MAX] {
        for subtables in [vec![], vec![rearranges(0)]] {
            let mut table = table_of(&[chain(1, &[], &subtables)]);
            table[4..8].copy_from_slice(&count.to_be_bytes());
            table[12..16].fill(0);
            ask_one_way(asked, &Rc::from(table), 0, &line, 0, &[]);
        }
    }
}

/// Both kinds in every order and direction, three of them one after the other.
fn orders(asked: &mut dyn Ask) {
    let parts = [rearranges(0), rearranges(0x4000), substitutes(0), subtable(4, &with_values(8, 9, &[10, 11]))];
    let parts = [&parts[0][..], &parts[1], &parts[2], &parts[3]];
    for_each_string(&parts, 4, &mut |chosen| {
        let subtables: Vec<Vec<u8>> = chosen.iter().map(|part| part.to_vec()).collect();
        let table = Rc::from(table_of(&[chain(1, &[], &subtables)]));
        for right_to_left in [0, 1] {
            ask_one_way(asked, &table, 0, &line_of(&[10, 6, 5, 10, 9, 11, 20], 7), right_to_left, &[]);
        }
    });
}

pub fn any_table(random: &mut Random, glyphs: &Range<u16>) -> Vec<u8> {
    any_mort(random, glyphs, &any_features)
}

/// The most features of a table that requests are taken from.
const FEATURES_LOOKED_AT: usize = 20;

/// Any requests: mostly none, or some of those that the features of the table answer to, with others among them.
pub fn any_mort_requests(random: &mut Random, table: &[u8], start: u64) -> Vec<u32> {
    let count = random.among(&[0, 0, 1, 1, 2, 3, 63, 64, 65]);
    if count == 0 || start > table.len() as u64 {
        return Vec::new();
    }
    let mut known = vec![random.number() as u32];
    let mut chains = chains_from(table, start);
    while let Some((chain, behind)) = next_chain(table, chains) {
        let at = chain.features[0] as usize;
        let features = table[at.min(table.len())..].chunks_exact(12).take(chain.features[1].min(9) as usize);
        known.extend(features.map(|feature| u32::from_be_bytes([feature[0], feature[1], feature[2], feature[3]])));
        if known.len() > FEATURES_LOOKED_AT {
            break;
        }
        chains = [behind[0].max(chains[0] + 1), behind[1].min(8)];
    }
    (0..count).map(|_| random.among(&known)).collect()
}

fn random_tables(asked: &mut dyn Ask, random: &mut Random, cases: u64) {
    for_each_table(random, cases, any_table, &mut |random, table, start, glyphs, used| {
        let room = used + random.among(&[0, 1, 9, 40]);
        let mut line = any_line_of(random, glyphs, used, room);
        spoil(random, &mut line);
        let right_to_left = random.among(&[0, 1, 2, u32::MAX]);
        let requests = any_mort_requests(random, table, start);
        let run = MortRun::new(line, start, right_to_left, requests);
        if random.once_in(8) {
            ask_as_morx(asked, table, &run);
        }
        asked.ask(table, Box::new(run));
    });
}

/// Calls of both editions on one line, each from what the one before left; by the history of all, over places alone, each character has
/// to be where the line has it.
fn mixed_calls(asked: &mut dyn Ask, random: &mut Random, cases: u64) {
    let mut left = cases;
    while left > 0 {
        let glyphs = any_glyphs(random);
        let used = random.below(13);
        let room = used + random.among(&[0, 1, 9, 40]);
        let mut line = any_line_of(random, &glyphs, used, room);
        if random.once_in(2) {
            line = line_of(&line.glyphs[..used], room);
        }
        let mut carried = Carried::of(&line);
        for _ in 0..left.min(1 + random.below(8) as u64) {
            // A fault is for the call itself to show.
            let moves = match any_call(asked, random, &glyphs, &mut line) {
                Ok(moves) => moves,
                Err(_) => break,
            };
            moves.iter().for_each(|edit| carried.make(edit));
            assert!(carried.is(&line), "a character is elsewhere than its history takes it");
            left -= 1;
        }
    }
}

/// Asks any call of either edition, makes it, and gives its history.
fn any_call(
    asked: &mut dyn Ask,
    random: &mut Random,
    glyphs: &Range<u16>,
    line: &mut Line,
) -> Result<Vec<Moved>, Fault> {
    let (lent, right_to_left) = (line.clone(), random.below(2) as u32);
    let mut moves = Vec::new();
    let see = &mut |edit| moves.push(edit);
    let run_of = |table, right_to_left: u32| Run { table, start: 0, right_to_left: right_to_left != 0, requests: &[] };
    match random.below(5) {
        0 | 1 => {
            let table = Rc::from(any_table(random, glyphs));
            mort::run(&run_of(&table, right_to_left), line, see);
            asked.ask(&table, Box::new(MortRun::new(lent, 0, right_to_left, Vec::new())));
        }
        2 => {
            let (kind, bits) = (random.among(&[0, 0, 4]), random.among(&BITS));
            let table = Rc::from(subtable(bits | kind, &any_body(random, kind, glyphs)));
            mort::pass(&table, 0, line, see);
            asked.ask(&table, Box::new(MortPass { line: lent, start: 0, written: None }));
        }
        3 => {
            let kind = &KINDS[random.below(KINDS.len())];
            let table = as_subtable(kind.number, &(kind.any_body)(random, glyphs));
            moves = moves_of(&run_of(&in_chain(&table), 0), line)?;
            let by = By { entry: Entry::MorxPass, kind };
            asked.ask(&Rc::from(table), Box::new(Pass { by, line: lent, start: 0, written: None }));
        }
        _ => {
            let table = Rc::from(any_morx(random, glyphs));
            moves = moves_of(&run_of(&table, right_to_left), line)?;
            let run = MorxRun { line: lent, start: 0, right_to_left, requests: None, written: None };
            asked.ask(&table, Box::new(run));
        }
    }
    Ok(moves)
}

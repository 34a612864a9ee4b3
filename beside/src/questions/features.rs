//! Runs with features asked for, as W-202 lets them be, over the crate's own lists of features.

use crate::fuzz::case::Chosen;
use crate::fuzz::seeds::{self, Seed};
use crate::fuzz::source::Source;
use crate::questions::passes::for_each_table;
use crate::questions::runs::{MorxRun, Runs};
use crate::questions::{Ask, Part, Question};
use crate::reference::line::{Line, LARGEST_ROOM};
use crate::reference::oracle::aat::morx::chains;
use crate::reference::oracle::{Answer, LONGEST_TABLE};
use crate::reference::pass::line_of;
use crate::reference::run::{request, MOST_REQUESTS};
use crate::tables::kinds::{self, Written};
use crate::tables::lines::{any_line_of, spoil};
use crate::tables::lookup::{with_values, Made};
use crate::tables::morx::{any_chained, chain, chosen_subtable, morx, puts_in, subtable, trimmed};
use crate::tables::random::Random;
use crate::wire::entries::Entry;
use crate::wire::hex;
use std::ops::Range;
use std::rc::Rc;

/// A feature as bytes: type, setting, the flags that it sets, and those that it keeps.
pub fn feature(kind: u16, setting: u16, enables: u32, keeps: u32) -> Vec<u8> {
    [request(kind, setting), enables, keeps].map(u32::to_be_bytes).concat()
}

/// Runs that are asked for features.
pub struct Features;

impl Part for Features {
    fn name(&self) -> &'static str {
        "features"
    }

    fn every(&self) -> u64 {
        2
    }

    fn entries(&self) -> Vec<Entry> {
        vec![Entry::MorxRunWith]
    }

    fn ask(&self, asked: &mut dyn Ask, random: &mut Random, cases: u64) {
        examples(asked);
        every_bit(asked);
        long_lists(asked, random);
        cut_lists(asked);
        far_counts(asked);
        counts_of_requests(asked, random);
        refusals(asked);
        longest_list(asked, random);
        random_tables(asked, random, cases / 2);
        let own = &mut Random::new(random.number());
        Runs.ask(&mut Requesting { asked, random: own }, random, cases / 2);
    }

    /// The requests are as many as one byte says, each of a type and a setting of one byte.
    fn chosen(&self, _entry: Entry, chosen: Chosen, source: &mut Source) -> Box<dyn Question> {
        let Chosen { start, right_to_left, lent, .. } = chosen;
        let count = usize::from(source.byte()) % (MOST_REQUESTS + 3);
        let requests = (0..count).map(|_| request(source.byte().into(), source.byte().into())).collect();
        Box::new(MorxRun { line: lent.line, start, right_to_left, requests: Some(requests), written: None })
    }

    fn seed(&self, random: &mut Random, _entry: Entry) -> Seed {
        let seed = Seed::any(random, |random, glyphs| {
            let kind = &kinds::KINDS[random.below(kinds::KINDS.len())];
            let subtable = seeds::any_subtable(random, kind, glyphs);
            Made::whole(morx(&[chain(0, &any_features(random, 3), &[subtable])]))
        });
        let mut any = |numbers: &[u16]| random.among(numbers) as u8;
        Seed { more: vec![2, any(&KINDS), any(&SETTINGS), any(&KINDS), any(&SETTINGS)], ..seed }
    }
}

/// Asks every question of another part with any requests, where that can be.
struct Requesting<'a> {
    asked: &'a mut dyn Ask,
    random: &'a mut Random,
}

impl Ask for Requesting<'_> {
    fn ask(&mut self, table: &Rc<[u8]>, question: Box<dyn Question>) {
        if let Some(question) = question.with_requests(table, self.random) {
            self.asked.ask(table, question);
        }
    }
}

/// The most features of a table that requests are taken from.
const FEATURES_LOOKED_AT: usize = 100;

/// Any requests: none, or some of those that the features of the table at this start answer to, with others among them.
pub fn any_requests(random: &mut Random, table: &[u8], start: u64) -> Vec<u32> {
    let count = random.among(&[0, 1, 1, 2, 3, 5, 63, 64, 65]);
    if count == 0 || start > table.len() as u64 || table.len() > LONGEST_TABLE {
        return Vec::new();
    }
    let features = chains(table, start as u32).take(8).flat_map(|chain| chain.features().take(FEATURES_LOOKED_AT));
    let known: Vec<u32> =
        features.take(FEATURES_LOOKED_AT).map(|feature| request(feature.selector, feature.setting_selector)).collect();
    let any = |_| match random.below(8) {
        0 => random.number() as u32,
        1 => request(random.among(&KINDS), random.among(&SETTINGS)),
        2 if !known.is_empty() => random.among(&known) ^ 1 << random.below(32),
        _ if known.is_empty() => random.below(40) as u32,
        _ => random.among(&known),
    };
    (0..count).map(any).collect()
}

fn ask_with(asked: &mut dyn Ask, table: &Rc<[u8]>, requests: &[u32]) {
    let (line, requests) = (line_of(&LINE, 9), Some(requests.to_vec()));
    asked.ask(table, Box::new(MorxRun { line, start: 0, right_to_left: 0, requests, written: None }));
}

const LINE: [u16; 4] = [5, 10, 6, 20];

/// Document 01's table with its flags 0 and one feature, and what W-202 says of lists, flags and requests.
fn examples(asked: &mut dyn Ask) {
    let known = "0002 0000 00000001 00000000 00000032 00000001 00000001 0025 0001 00000001 FFFFFFFF \
                 00000016 00000004 00000001 0008 0005 0002 0007 0009";
    let with = |flags, features: &[Vec<u8>]| morx(&[chain(flags, &features.concat(), &[subtable(4, &trimmed())])]);
    let small_capitals = feature(37, 1, 1, u32::MAX);
    let all_off = feature(0, 1, 0, 0);
    let [one, off] = [request(37, 1), request(0, 1)];
    let (changed, same) = ([7, 9, 20], [5, 6, 20]);
    let written: [(Vec<u8>, &[u32], [u16; 3]); 21] = [
        (hex::bytes(known), &[], same),
        (hex::bytes(known), &[one], changed),
        (with(0, &[small_capitals.clone()]), &[one], changed),
        (with(0, &[small_capitals.clone()]), &[request(37, 0)], same),
        (with(0, &[small_capitals.clone()]), &[request(36, 1)], same),
        (with(0, &[small_capitals.clone()]), &[request(1, 37)], same),
        (with(0, &[small_capitals.clone()]), &[0, one, one, u32::MAX, 0], changed),
        // What is set is set after all else was cleared, and what is kept was there before.
        (with(0, &[feature(37, 1, 1, 0)]), &[one], changed),
        (with(0, &[feature(37, 1, 0, u32::MAX)]), &[one], same),
        (with(1, &[feature(37, 1, 0, 1)]), &[one], changed),
        (with(1, &[feature(37, 1, 0, !1)]), &[one], same),
        (with(1, &[feature(37, 1, 2, u32::MAX)]), &[one], changed),
        (with(1, &[feature(37, 1, 2, 2)]), &[one], same),
        // The table's order decides, and not that of the requests; none is passed over behind the first.
        (with(0, &[small_capitals.clone(), all_off.clone()]), &[one, off], same),
        (with(0, &[small_capitals.clone(), all_off.clone()]), &[off, one], same),
        (with(0, &[all_off.clone(), small_capitals.clone()]), &[one, off], changed),
        (with(0, &[all_off.clone(), small_capitals.clone()]), &[off, one], changed),
        (with(0, &[small_capitals.clone(), all_off.clone()]), &[one], changed),
        // Two features answer to one request.
        (with(0, &[small_capitals.clone(), feature(37, 1, 0, !1)]), &[one], same),
        (with(0, &[feature(37, 1, 0, !1), small_capitals]), &[one], changed),
        // What stands behind the features is none: a subtable that begins with 0 and its 22 bytes, and then has 4 twice.
        (morx(&[chain(0, &all_off, &[chosen_subtable(4, 4, &trimmed())])]), &[request(0, 22)], same),
    ];
    for (table, requests, glyphs) in written {
        let written = Written { answer: Answer::Done(()), glyphs: glyphs.to_vec(), homes: Some(vec![0, 1, 2]) };
        let (line, requests) = (line_of(&same, 3), Some(requests.to_vec()));
        let run = MorxRun { line, start: 0, right_to_left: 0, requests, written: Some((written, 2)) };
        asked.ask(&Rc::from(table), Box::new(run));
    }
}

/// A chain with a subtable for each of two halves of the flags, in which a bit is set, cleared, kept or none of these.
fn every_bit(asked: &mut dyn Ask) {
    for bit in (0..32).map(|bit| 1 << bit) {
        for default in [0, bit, !bit, u32::MAX] {
            for enables in [0, bit, !bit] {
                for keeps in [0, bit, !bit, u32::MAX] {
                    let halves = [(bit, [7, 9]), (!bit, [8, 10])];
                    let subtables = halves.map(|(flags, to)| chosen_subtable(4, flags, &with_values(8, 5, &to)));
                    let features = feature(bit as u16, (bit >> 16) as u16, enables, keeps);
                    let table = Rc::from(morx(&[chain(default, &features, &subtables)]));
                    ask_with(asked, &table, &[request(bit as u16, (bit >> 16) as u16)]);
                    ask_with(asked, &table, &[request((bit >> 16) as u16, bit as u16)]);
                    ask_with(asked, &table, &[]);
                }
            }
        }
    }
}

/// A chain of these features, of flags 2, and two subtables, which flags 1 and 2 choose; then one of no features.
fn two_chains(features: &[u8]) -> Vec<u8> {
    let subtables =
        [chosen_subtable(4, 1, &with_values(8, 5, &[7, 9])), chosen_subtable(4, 2, &with_values(8, 10, &[11]))];
    morx(&[chain(2, features, &subtables), chain(1, &[], &[puts_in(0)])])
}

/// Lists of 0 to 70 features, in each of which one, some or all are asked for.
fn long_lists(asked: &mut dyn Ask, random: &mut Random) {
    for count in 0..=70_u16 {
        let mut features: Vec<u8> =
            (0..count).flat_map(|kind| feature(kind, 1, 1 << (kind % 3), !(1 << (kind % 2)))).collect();
        if count % 2 == 1 {
            features = any_features(random, count.into());
        }
        let table = Rc::from(two_chains(&features));
        for place in [0, 1, count / 2, count.saturating_sub(2), count.saturating_sub(1), count] {
            ask_with(asked, &table, &[request(place, 1)]);
            ask_with(asked, &table, &[request(place, 0), request(place / 2, 1)]);
        }
        let all: Vec<u32> = (0..count.min(64)).map(|kind| request(kind, 1)).collect();
        ask_with(asked, &table, &all);
        for _ in 0..6 {
            ask_with(asked, &table, &any_requests(random, &table, 0));
        }
    }
}

/// Three features and two chains, cut at every byte, with requests for each and for all.
fn cut_lists(asked: &mut dyn Ask) {
    let features = [feature(3, 1, 1, u32::MAX), feature(3, 2, 0, !2), feature(4, 1, 4, !1)].concat();
    let table = two_chains(&features);
    for length in 0..=table.len() {
        let table = Rc::from(&table[..length]);
        for requests in [&[][..], &[request(3, 1)], &[request(3, 2)], &[request(4, 1), request(3, 1)], &[0, 1, 2, 3, 4]]
        {
            ask_with(asked, &table, requests);
        }
    }
}

/// Counts of features, chain lengths and counts of chains that are right and far from it.
fn far_counts(asked: &mut dyn Ask) {
    let features = [feature(3, 1, 1, u32::MAX), feature(3, 2, 0, !2)].concat();
    for count in [0, 1, 2, 3, 4, 20, 0xFFFF, 0x0015_5555, 0x1555_5555, 0x1555_5556, 0x2AAA_AAAB, u32::MAX] {
        for length in [None, Some(0), Some(16), Some(28), Some(u32::MAX)] {
            for chains in [1, 2, 3, 40] {
                let mut table = two_chains(&features);
                table[4..8].copy_from_slice(&u32::to_be_bytes(chains));
                table[16..20].copy_from_slice(&count.to_be_bytes());
                if let Some(length) = length {
                    table[12..16].copy_from_slice(&length.to_be_bytes());
                }
                let table = Rc::from(table);
                for requests in
                    [&[][..], &[request(3, 1)], &[request(3, 2)], &[request(3, 2), request(3, 1), request(0, 22)]]
                {
                    ask_with(asked, &table, requests);
                }
            }
        }
    }
}

/// As many requests as are taken, fewer and more, of which one, the first, the last or none is answered, shuffled and repeated.
fn counts_of_requests(asked: &mut dyn Ask, random: &mut Random) {
    let features = [feature(3, 1, 1, u32::MAX), feature(3, 2, 0, !2), feature(0, 1, 1, 0)].concat();
    let table = Rc::from(two_chains(&features));
    for count in [0, 1, 2, 63, 64, 65, 66, 128, 1_000] {
        for known in
            [&[][..], &[request(3, 1)], &[request(3, 1), request(3, 2)], &[request(0, 1), request(3, 1), request(3, 2)]]
        {
            let others: Vec<u32> = (0..count as u32).map(|number| request(9, 0) + number).collect();
            let mut requests = [known, &others].concat();
            requests.truncate(count);
            for _ in 0..4 {
                ask_with(asked, &table, &requests);
                random.shuffle(&mut requests);
            }
            let repeated: Vec<u32> =
                known.iter().cycle().take(if known.is_empty() { 0 } else { count }).copied().collect();
            ask_with(asked, &table, &repeated);
        }
    }
}

/// Too many requests or not, with tables, lines and starts that are refused or not, in every mix.
fn refusals(asked: &mut dyn Ask) {
    for length in [None, Some(LONGEST_TABLE), Some(LONGEST_TABLE + 1)] {
        let mut table = two_chains(&feature(3, 1, 1, u32::MAX));
        length.iter().for_each(|length| table.resize(*length, 0));
        let starts = [0, table.len() as u64, table.len() as u64 + 1, u64::MAX];
        let table = Rc::from(table);
        for start in starts {
            for count in [0, 1, 64, 65] {
                for used in [4, 10] {
                    for room in [9, LARGEST_ROOM + 1] {
                        let line = Line { used, ..line_of(&LINE, room) };
                        let requests = Some(vec![request(3, 1); count]);
                        asked.ask(&table, Box::new(MorxRun { line, start, right_to_left: 1, requests, written: None }));
                    }
                }
            }
        }
    }
}

/// As many features as a table can hold, the last of which answers to the last of all requests.
fn longest_list(asked: &mut dyn Ask, random: &mut Random) {
    let lookup = subtable(4, &trimmed());
    let count = (LONGEST_TABLE - 24 - lookup.len()) / 12;
    let mut features: Vec<u8> =
        (1..count).flat_map(|number| feature(8, number as u16, 0, random.number() as u32)).collect();
    features.extend(feature(9, 9, 1, u32::MAX));
    let table = Rc::from(morx(&[chain(0, &features, &[lookup])]));
    let others = (0..MOST_REQUESTS as u32 - 1).map(|number| request(10, 0) + number);
    ask_with(asked, &table, &others.chain([request(9, 9)]).collect::<Vec<u32>>());
    ask_with(asked, &table, &[]);
}

/// The types and settings of random features.
const KINDS: [u16; 4] = [0, 1, 3, 37];
const SETTINGS: [u16; 4] = [0, 1, 2, 3];

/// So many features with few types, settings and flags.
pub fn any_features(random: &mut Random, count: usize) -> Vec<u8> {
    let any = |_| {
        let some = random.number() as u32;
        let flags = [0, 1, 2, 3, 0x8000_0000, 0x8000_0001, some];
        let (enables, keeps) = (random.among(&flags), random.among(&flags));
        let keeps = if random.once_in(2) { u32::MAX } else { !keeps };
        feature(random.among(&KINDS), random.among(&SETTINGS), enables, keeps)
    };
    (0..count).flat_map(any).collect()
}

/// Any table of chains with features; now and then a count or a length is wrong.
fn any_featured(random: &mut Random, glyphs: &Range<u16>) -> Vec<u8> {
    let chains: Vec<Vec<u8>> = (0..1 + random.below(3))
        .map(|_| {
            let subtables: Vec<Vec<u8>> = (0..random.below(4)).map(|_| any_chained(random, glyphs)).collect();
            let count = random.among(&[0, 1, 2, 4, 9, 70]);
            let mut made = chain(random.among(&[0, 0, 1, 2, 3, 0x8000_0000]), &any_features(random, count), &subtables);
            match random.below(20) {
                0 => made[11] = random.number() as u8,
                1 => made[8..12].copy_from_slice(&random.among(&[0x0100_0000, 0x1555_5555, u32::MAX]).to_be_bytes()),
                2 => made[4..8].copy_from_slice(&[0; 4]),
                3 => made[7] = random.number() as u8,
                _ => {}
            }
            made
        })
        .collect();
    morx(&chains)
}

/// Any tables and requests, and now and then the same once more, shuffled and repeated.
fn random_tables(asked: &mut dyn Ask, random: &mut Random, cases: u64) {
    for_each_table(random, cases, any_featured, &mut |random, table, start, glyphs, used| {
        let room = used + random.among(&[0, 1, 9, 40]);
        let mut line = any_line_of(random, glyphs, used, room);
        spoil(random, &mut line);
        let right_to_left = random.among(&[0, 1, u32::MAX]);
        let mut requests = any_requests(random, table, start);
        let mut ask = |requests: &[u32]| {
            let (line, requests) = (line.clone(), Some(requests.to_vec()));
            asked.ask(table, Box::new(MorxRun { line, start, right_to_left, requests, written: None }));
        };
        ask(&requests);
        if !requests.is_empty() && requests.len() < MOST_REQUESTS && random.once_in(8) {
            requests.push(random.among(&requests));
            random.shuffle(&mut requests);
            ask(&requests);
        }
    });
}

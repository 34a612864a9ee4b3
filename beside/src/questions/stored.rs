//! Stored lines beside a codec of W-203 and W-209: written, read, and run on after both.

use crate::fuzz::case::Chosen;
use crate::fuzz::seeds::Seed;
use crate::fuzz::source::Source;
use crate::questions::passes::for_each_table;
use crate::questions::runs::MorxRun;
use crate::questions::{Ask, Part, Question};
use crate::reference::line::{Line, LARGEST_ROOM};
use crate::reference::oracle::{Answer, Fault, LONGEST_TABLE};
use crate::reference::pass::line_of;
use crate::reference::run::Run;
use crate::reference::stored::{line_in, read, record_of, store, LONGEST_OF_FIRST, MARK};
use crate::tables::lines::{any_line, any_line_of, any_numbers, spoil};
use crate::tables::lookup::{damage, words, Made};
use crate::tables::morx::any_morx;
use crate::tables::random::Random;
use crate::tables::strings::for_each_string;
use crate::wire::entries::Entry;
use crate::wire::hex;
use crate::wire::pipe::lend_bytes;
use crate::wire::reply::{add, number, numbers};
use std::rc::Rc;

/// A call of `aat_store_line` with a buffer of so many bytes; what they are comes from the number held.
pub struct Store {
    pub line: Line,
    pub buffer: usize,
    /// The record that has to be written, for the examples.
    pub written: Option<Vec<u8>>,
}

impl Question for Store {
    fn entry(&self) -> Entry {
        Entry::StoreLine
    }

    fn arguments(&self, held: u64, call: &mut Vec<u8>) {
        self.line.lend(call);
        lend_bytes(&Random::new(held).bytes(self.buffer), call);
        add(&[held], call);
    }

    fn reply(&self, _table: &[u8], held: u64, reply: &mut Vec<u8>) -> Result<(), Fault> {
        let (answer, buffer) = store(&self.line, Random::new(held).bytes(self.buffer));
        let size = answer.done();
        if self.written.as_ref().map_or(false, |record| size.map(|size| &buffer[..size as usize]) != Some(record)) {
            return Err(Fault::Disputed);
        }
        self.line.reply(answer.map(|_| ()), reply);
        add(&[size.unwrap_or(held)], reply);
        reply.extend(buffer);
        Ok(())
    }

    fn describe(&self, held: u64) -> String {
        format!("line to be stored in {} bytes, lent size {}, {}", self.buffer, held, self.line.describe())
    }

    fn describe_reply(&self, reply: &[u8]) -> String {
        let (line, buffer) = reply.split_at(reply.len() - self.buffer);
        let (line, size) = line.split_at(line.len() - 8);
        let line = self.line.describe_reply(line);
        format!("size {}, {}; {}", number(size), line, hex::describe(buffer))
    }
}

/// A call of `aat_read_line` with slices of these lengths; what they hold comes from the number held. The record is the table.
pub struct Read {
    pub glyphs: usize,
    pub tags: usize,
    pub homes: usize,
    /// The answer and the line that a document gives, for the examples.
    pub written: Option<(Answer<[u64; 2]>, Line)>,
}

impl Read {
    fn lent(&self, held: u64) -> Line {
        let mut random = Random::new(held);
        let [glyphs, tags, homes] = [self.glyphs, self.tags, self.homes].map(|count| any_numbers(&mut random, count));
        Line { glyphs, tags, homes, used: held }
    }
}

impl Question for Read {
    fn entry(&self) -> Entry {
        Entry::ReadLine
    }

    fn arguments(&self, held: u64, call: &mut Vec<u8>) {
        self.lent(held).lend(call);
        add(&[!held], call);
    }

    fn reply(&self, table: &[u8], held: u64, reply: &mut Vec<u8>) -> Result<(), Fault> {
        let (answer, line) = read(table, self.lent(held));
        let is_written = |(given, other): &(Answer<[u64; 2]>, Line)| *given == answer && other.is_begun_by(&line);
        if !self.written.as_ref().map_or(true, is_written) {
            return Err(Fault::Disputed);
        }
        line.reply(answer.map(|_| ()), reply);
        add(&answer.done().unwrap_or([held, !held]), reply);
        Ok(())
    }

    fn describe(&self, held: u64) -> String {
        format!("record to be read, lent characters {}, {}", !held, self.lent(held).describe())
    }

    fn describe_reply(&self, reply: &[u8]) -> String {
        let (line, counts) = reply.split_at(reply.len() - 16);
        let counts = numbers(counts);
        let line = self.lent(0).describe_reply(line);
        format!("used length {}, characters {}, {}", counts[0], counts[1], line)
    }
}

impl Line {
    /// Whether the slices of the other begin with all of these.
    fn is_begun_by(&self, other: &Line) -> bool {
        let pairs = [(&self.glyphs, &other.glyphs), (&self.tags, &other.tags), (&self.homes, &other.homes)];
        pairs.iter().all(|(all, other)| other.starts_with(all))
    }
}

/// Stored lines.
pub struct StoredLines;

impl Part for StoredLines {
    fn name(&self) -> &'static str {
        "stored"
    }

    fn every(&self) -> u64 {
        2
    }

    fn entries(&self) -> Vec<Entry> {
        vec![Entry::StoreLine, Entry::ReadLine]
    }

    fn ask(&self, asked: &mut dyn Ask, random: &mut Random, cases: u64) {
        examples(asked);
        short_lines(asked);
        short_records(asked);
        short_heads(asked, random);
        changed_records(asked, random);
        longest_lines(asked, random);
        rooms(asked, random);
        longest_buffers(asked, random);
        random_lines(asked, random, cases / 4);
        random_records(asked, random, cases / 4);
        run_on(asked, random, cases / 4);
    }

    /// The buffer of a store is as long as the index says, and a little longer than the record where that is odd. The room of a
    /// reader is the line's.
    fn chosen(&self, entry: Entry, chosen: Chosen, _source: &mut Source) -> Box<dyn Question> {
        let Chosen { told, lent, .. } = chosen;
        let line = lent.line;
        if entry == Entry::ReadLine {
            let [glyphs, tags, homes] = [&line.glyphs, &line.tags, &line.homes].map(Vec::len);
            return Box::new(Read { glyphs, tags, homes, written: None });
        }
        let few = told.index.min(300) as usize;
        let buffer = if few % 2 == 0 { few } else { size_of(&line) + few };
        Box::new(Store { line, buffer, written: None })
    }

    fn seed(&self, random: &mut Random, _entry: Entry) -> Seed {
        let used = random.below(5);
        let line = any_line(random, used, used);
        Seed::of(0..16, Made::whole(record_of(&line)))
    }
}

/// The size that the record of a line would have.
fn size_of(line: &Line) -> usize {
    9 + 4 * line.used.min(LARGEST_ROOM as u64) as usize + 2 * line.homes.len()
}

fn ask_store(asked: &mut dyn Ask, line: &Line, buffer: usize) {
    asked.ask_alone(Box::new(Store { line: line.clone(), buffer, written: None }));
}

/// With a buffer one byte short, just long enough, and longer.
fn ask_store_about(asked: &mut dyn Ask, line: &Line) {
    let size = size_of(line);
    for buffer in [size - 1, size, size + 3] {
        ask_store(asked, line, buffer);
    }
}

fn ask_read(asked: &mut dyn Ask, record: &Rc<[u8]>, places: usize, homes: usize) {
    asked.ask(record, Box::new(Read { glyphs: places, tags: places, homes, written: None }));
}

/// A record and what is said of it, in a room of five places and five homes.
fn ask_written(asked: &mut dyn Ask, record: &[u8], written: (Answer<[u64; 2]>, Line)) {
    asked.ask(&Rc::from(record), Box::new(Read { glyphs: 5, tags: 5, homes: 5, written: Some(written) }));
}

/// Document 01's shaped example and an empty line, and of each sentence on refusals the smallest records.
fn examples(asked: &mut dyn Ask) {
    let shaped = hex::bytes("534C4E 0001 0003 0003 0007 0000 0009 0001 0014 0002 0000 0001 0002");
    let empty = hex::bytes("534C4E 0001 0000 0000");
    for (record, line) in [(&shaped, line_of(&[7, 9, 20], 3)), (&empty, line_of(&[], 0))] {
        for more in [0, 2] {
            let (line, buffer) = (line.clone(), record.len() + more);
            asked.ask_alone(Box::new(Store { line, buffer, written: Some(record.clone()) }));
        }
        let counts = [line.used, line.homes.len() as u64];
        ask_written(asked, record, (Answer::Done(counts), line));
    }
    let refused = [
        ("", Answer::Record),
        ("53", Answer::Record),
        ("534C4E", Answer::Record),
        ("534C4E 00", Answer::Record),
        ("534C4E 0001", Answer::Record),
        ("534C4E 0001 0000 00", Answer::Record),
        ("534C4E 0001 0000 0000 00", Answer::Record),
        ("534C4F 0001 0000 0000", Answer::Record),
        ("534C4F 0002 0000 0000", Answer::Record),
        ("4E4C53 0001 0000 0000", Answer::Record),
        ("534C4E 0000", Answer::Version),
        ("534C4E 0002", Answer::Record),
        ("534C4E 0002 0000 0000", Answer::Record),
        ("534C4E 0003", Answer::Version),
        ("534C4E 0003 0000 0000", Answer::Version),
        ("534C4E 0100 0000 0000", Answer::Version),
        ("534C4E FFFF 0000 0000 00", Answer::Version),
        ("534C4E 0001 0001 0000 0005 0001", Answer::Record),
        ("534C4E 0001 0002 0000 0005 0000 0006 0000", Answer::Record),
        ("534C4E 0001 0001 0001 0005 0000 0001", Answer::Record),
        ("534C4E 0001 0001 0002 0005 0000 0000 0000", Answer::Record),
        ("534C4E 0001 0000 0001 0000", Answer::Record),
    ];
    for (record, answer) in refused {
        ask_written(asked, &hex::bytes(record), (answer, Line::none()));
    }
}

/// Every list of up to three tags over the right ones and some that are too large, under every used length, and of up to three
/// homes; with buffers about the record's size.
fn short_lines(asked: &mut dyn Ask) {
    let letters = [0, 1, 2, 3, 256, 0xFFFF];
    for_each_string(&letters, 3, &mut |tags| {
        for used in 0..=tags.len() as u64 + 1 {
            let glyphs = (0x0A0B..).take(tags.len()).collect();
            ask_store_about(asked, &Line { glyphs, tags: tags.to_vec(), homes: vec![0; tags.len().min(1)], used });
        }
    });
    for_each_string(&letters, 3, &mut |homes| {
        for used in 0..=3 {
            ask_store_about(asked, &Line { homes: homes.to_vec(), used, ..line_of(&[10, 11, 12], 3) });
        }
    });
    for buffer in 0..30 {
        ask_store(asked, &line_of(&[7, 9, 20], 5), buffer);
    }
}

/// A record of these numbers behind the mark.
fn record(numbers: &[u16]) -> Rc<[u8]> {
    Rc::from([MARK, &words(numbers)].concat())
}

/// Every record of up to three places and four characters over a few numbers, in a room that is large enough and in one that may
/// not be.
fn short_records(asked: &mut dyn Ask) {
    let letters = [0, 1, 2, 3, 0x0100];
    for_each_string(&letters, 3, &mut |tags| {
        let places: Vec<u16> = (0x0506..).zip(tags).flat_map(|(glyph, tag)| [glyph, *tag]).collect();
        for_each_string(&letters[..4], 4, &mut |homes| {
            let head = [1, tags.len() as u16, homes.len() as u16];
            let record = record(&[&head, &places[..], homes].concat());
            ask_read(asked, &record, 4, 4);
            if line_in(&record).is_ok() {
                ask_read(asked, &record, tags.len(), homes.len());
                ask_read(asked, &record, 2, 2);
            }
        });
    });
}

/// Every version, length and count of characters about those of short records, and far ones, before bodies of every length.
fn short_heads(asked: &mut dyn Ask, random: &mut Random) {
    let body = words(&[[20, 0], [21, 1], [0, 1], [0, 1]].concat());
    for version in [0, 1, 2, 3, 0x0100, 0x0101, 0x8001, 0xFFFF] {
        for length in [0, 1, 2, 3, 0x0100, 0x1000, 0x1001, 0x8000, 0x8001, 0xFFFF] {
            for characters in [0, 1, 2, 3, 4, 0x0100, 0x1000, 0x8002, 0xFFFC, 0xFFFF] {
                let head = record(&[version, length, characters]);
                for behind in 0..=body.len() {
                    let record = Rc::from([&head[..], &body[..behind]].concat());
                    ask_read(asked, &record, random.among(&[1, 2, 3, 5]), random.among(&[1, 2, 4]));
                }
            }
        }
    }
}

/// Records of any lines with each byte changed, cut at each byte, and with a byte put in at each place.
fn changed_records(asked: &mut dyn Ask, random: &mut Random) {
    for used in 0..=5 {
        for _ in 0..2 {
            let record = record_of(&any_line(random, used, used));
            for place in 0..record.len() {
                for change in 1..=0xFF {
                    let mut changed = record.clone();
                    changed[place] ^= change;
                    ask_read(asked, &Rc::from(changed), used, used);
                }
            }
            for place in 0..=record.len() {
                let (before, behind) = record.split_at(place);
                ask_read(asked, &Rc::from(before), used, used);
                for more in [vec![0], vec![1], vec![0xFF], vec![0, 0], vec![0, 1], vec![0, used as u8]] {
                    ask_read(asked, &Rc::from([before, &more, behind].concat()), used + 1, used + 1);
                }
            }
        }
    }
}

/// Slices of all lengths about those that are needed, and some about the largest room, for records that are accepted, that are none
/// and that are of another version; some rooms for such as are too long, too.
fn rooms(asked: &mut dyn Ask, random: &mut Random) {
    let accepted = record_of(&Line { homes: vec![1, 1], ..any_line(random, 3, 3) });
    let [mut none, mut other_version] = [&accepted; 2].map(Clone::clone);
    none[8] = 4;
    other_version[4] = 3;
    let records = [accepted, none, other_version];
    for record in &records {
        let record = Rc::from(&record[..]);
        for_each_room(&[0, 1, 2, 3, 4], &[0, 1, 2, 3, 4], &mut |room| asked.ask(&record, Box::new(room)));
    }
    let largest = [2, 3, LARGEST_ROOM - 1, LARGEST_ROOM, LARGEST_ROOM + 1];
    let record = Rc::from(&records[0][..]);
    for_each_room(&largest, &[1, 2, LARGEST_ROOM + 64], &mut |room| asked.ask(&record, Box::new(room)));
    for length in [LONGEST_TABLE, LONGEST_TABLE + 1] {
        for record in &records {
            let mut long = record.clone();
            long.resize(length, 0);
            let record = Rc::from(long);
            for_each_room(&[2, 3], &[1, 2], &mut |room| asked.ask(&record, Box::new(room)));
        }
    }
}

/// Every room whose glyphs and tags, and whose homes, have one of these lengths.
fn for_each_room(places: &[usize], characters: &[usize], show: &mut dyn FnMut(Read)) {
    for glyphs in places {
        for tags in places {
            for homes in characters {
                show(Read { glyphs: *glyphs, tags: *tags, homes: *homes, written: None });
            }
        }
    }
}

/// Lines about as long as those of either version can be, in records of every version, and with one thing wrong.
fn longest_lines(asked: &mut dyn Ask, random: &mut Random) {
    for longest in [LONGEST_OF_FIRST, LARGEST_ROOM] {
        for used in [longest - 1, longest, longest + 1] {
            let mut line = any_line(random, used, used);
            for characters in [0, used] {
                line.homes = (0..characters).map(|_| random.below(used) as u16).collect();
                ask_store_about(asked, &line);
            }
            let record = record_of(&line);
            ask_read(asked, &Rc::from(&record[..]), used, used);
            ask_read(asked, &Rc::from(&record[..]), used - 1, used);
            ask_read(asked, &Rc::from(&record[..]), used, used - 1);
            ask_read(asked, &Rc::from(&record[..record.len() - 1]), used, used);
            ask_read(asked, &Rc::from([&record[..], &[0]].concat()), used, used);
            for version in 0..4 {
                ask_read(asked, &Rc::from([&record[..4], &[version], &record[5..]].concat()), used, used);
            }
            let last = used - 1;
            for (place, tag) in [(0, used), (63, 64), (64, 63), (last, used), (last, 0), (last, 0xFFFF), (used / 2, 0)]
            {
                for at in [11 + 4 * place, 9 + 4 * used + 2 * place] {
                    let mut other = record.clone();
                    other[at..at + 2].copy_from_slice(&(tag as u16).to_be_bytes());
                    ask_read(asked, &Rc::from(other), used, used);
                }
            }
        }
    }
}

/// Buffers of the longest length that a table may have, and longer: they are no table.
fn longest_buffers(asked: &mut dyn Ask, random: &mut Random) {
    let line = any_line(random, 3, 5);
    ask_store(asked, &line, LONGEST_TABLE + 1);
    ask_store(asked, &Line { used: 6, ..line }, LONGEST_TABLE + 1);
}

/// Mostly few, rarely as many as there can be, or about as many as a record of version 1 has.
fn any_used(random: &mut Random) -> usize {
    match random.below(1_000) {
        0 => random.below(LARGEST_ROOM + 1),
        1 => LONGEST_OF_FIRST - 2 + random.below(5),
        _ => {
            let longest = random.among(&[2, 5, 12, 40, 300]);
            random.below(longest + 1)
        }
    }
}

/// Any lines, sometimes ones that are refused, with buffers of any length.
fn random_lines(asked: &mut dyn Ask, random: &mut Random, cases: u64) {
    for _ in 0..cases {
        let used = any_used(random);
        let room = used + random.among(&[0, 1, 9]);
        let mut line = any_line(random, used, room);
        spoil(random, &mut line);
        let size = size_of(&line);
        let any = random.below(2 * size);
        ask_store(asked, &line, random.among(&[any, size - 1, size, size, size + 1, size + 7]));
    }
}

/// Records of any lines, often damaged, in rooms that are sometimes too small.
fn random_records(asked: &mut dyn Ask, random: &mut Random, cases: u64) {
    for _ in 0..cases {
        let used = any_used(random);
        let line = any_line(random, used, used);
        let mut record = record_of(&line);
        if random.once_in(8) {
            record[4] = random.below(4) as u8;
        }
        if random.once_in(2) {
            damage(random, &mut record);
        }
        let mut about = |right: usize| match random.below(12) {
            0 => right.saturating_sub(1),
            1 => random.below(right + 9),
            2 if random.once_in(40) => LARGEST_ROOM + random.below(3),
            3 => right + 1,
            _ => right,
        };
        let (glyphs, homes) = (about(used), about(line.homes.len()));
        let tags = if about(0) == 1 { about(used) } else { glyphs };
        asked.ask(&Rc::from(record), Box::new(Read { glyphs, tags, homes, written: None }));
    }
}

/// Lines after runs by any tables, stored, read into another room, and run on there as the line that was never stored is.
fn run_on(asked: &mut dyn Ask, random: &mut Random, cases: u64) {
    for_each_table(random, cases / 3, any_morx, &mut |random, table, start, glyphs, used| {
        let room = used + random.among(&[0, 1, 9, 40]);
        let mut never_stored = any_line_of(random, glyphs, used, room);
        let run = Run { table, start, right_to_left: random.once_in(2), requests: &[] };
        // A fault in the run is for the runs to show.
        if run.refusal(&never_stored).is_some() || run.make(&mut never_stored, &mut |_, _| {}).is_err() {
            return;
        }
        let record = Rc::from(record_of(&never_stored));
        ask_store(asked, &never_stored, size_of(&never_stored));
        ask_read(asked, &record, room, never_stored.homes.len() + random.below(3));
        let mut stored = line_in(&record).unwrap_or_else(|_| panic!("a line after a run has no record"));
        stored.glyphs.resize(room, 7);
        stored.tags.resize(room, 7);
        let right_to_left = random.below(2) as u32;
        ask_same_run(asked, table, start, right_to_left, &[never_stored, stored]);
    });
}

/// The same run on two lines, which have to have the same places and homes before and after.
fn ask_same_run(asked: &mut dyn Ask, table: &Rc<[u8]>, start: u64, right_to_left: u32, lines: &[Line; 2]) {
    let mut left = lines.clone();
    for line in &mut left {
        let _ = Run { table, start, right_to_left: right_to_left != 0, requests: &[] }.make(line, &mut |_, _| {});
    }
    for [one, other] in [lines, &left] {
        let [one, other] = [one, other].map(|line| (record_of(line), line.used));
        assert!(one == other, "a line that was stored runs on otherwise");
    }
    for line in lines {
        asked.ask(table, Box::new(MorxRun { line: line.clone(), start, right_to_left, requests: None, written: None }));
    }
}

//! `language_index` beside the crate where a name is UTF-8, and beside the plain rule for every name.

use crate::fuzz::case::Chosen;
use crate::fuzz::seeds::Seed;
use crate::fuzz::source::{Source, LONGEST_NAME};
use crate::questions::value::{Asked, Value};
use crate::questions::{Ask, Part, Question};
use crate::reference::ltag;
use crate::reference::oracle::{self, Answer, Fault, LONGEST_TABLE};
use crate::tables::cuts::for_each_cut;
use crate::tables::language::{any_ltag, any_tag, with_ranges, with_tags, Range, HEAD};
use crate::tables::lines::any_glyphs;
use crate::tables::random::Random;
use crate::tables::strings::for_each_string;
use crate::wire::entries::Entry;
use crate::wire::pipe::lend_bytes;
use std::rc::Rc;

/// The index of a name.
pub struct Language {
    pub name: Rc<[u8]>,
}

impl Asked for Language {
    fn entry(&self) -> Entry {
        Entry::LanguageIndex
    }

    fn tell(&self, call: &mut Vec<u8>) {
        lend_bytes(&self.name, call);
    }

    fn answers(&self, table: &[u8], start: u64) -> Result<(Answer<u32>, Option<Answer<u32>>), Fault> {
        let by_crate = match std::str::from_utf8(&self.name) {
            Ok(name) => Some(oracle::language_index(table, start, name)?),
            Err(_) => None,
        };
        Ok((ltag::language_index(table, start, &self.name), by_crate))
    }

    fn describe(&self) -> String {
        let shown = String::from_utf8_lossy(&self.name[..self.name.len().min(100)]);
        format!("index of name {:?} of {} bytes", shown, self.name.len())
    }
}

/// Indices of languages.
pub struct Languages;

impl Part for Languages {
    fn name(&self) -> &'static str {
        "language"
    }

    fn every(&self) -> u64 {
        2
    }

    fn entries(&self) -> Vec<Entry> {
        vec![Entry::LanguageIndex]
    }

    fn ask(&self, asked: &mut dyn Ask, random: &mut Random, cases: u64) {
        examples(asked);
        cut_tables(asked);
        short_tables(asked);
        far_starts(asked);
        long_names(asked);
        many_tags(asked);
        long_tables(asked);
        random_tables(asked, random, cases);
    }

    fn chosen(&self, _entry: Entry, chosen: Chosen, source: &mut Source) -> Box<dyn Question> {
        Value::chosen(chosen.start, Language { name: source.name().into() })
    }

    fn seed(&self, random: &mut Random, _entry: Entry) -> Seed {
        let glyphs = any_glyphs(random);
        let (made, tags) = any_ltag(random);
        let more = name(if tags.is_empty() { b"en" } else { &tags[random.below(tags.len())] });
        Seed { more, ..Seed::of(glyphs, made) }
    }
}

fn ask_names<'a>(asked: &mut dyn Ask, table: &Rc<[u8]>, start: u64, names: impl IntoIterator<Item = &'a [u8]>) {
    for name in names {
        asked.ask(table, Box::new(Value { start, asked: Language { name: Rc::from(name) }, written: None }));
    }
}

/// Names in the small tables below, and names that are nearly theirs.
const NAMES: [&[u8]; 12] =
    [b"", b"e", b"en", b"EN", b"enx", b"sr", b"Sr", b"sr-Latn", b"fr", b"\xC3\xA9", b"\xC3", b"\xFF\xFE"];

/// What the documents say: case counts, a bad range hides the tags behind it, and an empty tag lies inside the table.
fn examples(asked: &mut dyn Ask) {
    use Answer::{Done, Nothing};
    let two = with_tags(&[b"en", b"sr"]);
    let empty_inside = with_tags(&[b"en", b"", b"sr"]);
    let empty_at_end = with_tags(&[b"en", b"sr", b""]);
    let bad_between = with_bad_range(&[b"en", b"sr", b"fr"], 1);
    let written: [(&[u8], &[u8], Answer<u32>); 9] = [
        (&two, b"en", Done(0)),
        (&two, b"sr", Done(1)),
        (&two, b"SR", Nothing),
        (&two, b"s", Nothing),
        (&two, b"", Nothing),
        (&empty_inside, b"", Done(1)),
        (&empty_at_end, b"", Nothing),
        (&bad_between, b"en", Done(0)),
        (&bad_between, b"fr", Nothing),
    ];
    for (table, name, answer) in written {
        let asked_name = Language { name: Rc::from(name) };
        asked.ask(&Rc::from(table), Box::new(Value { start: 0, asked: asked_name, written: Some(answer) }));
    }
}

/// A table of these tags, but that one of them lies past its end.
fn with_bad_range(tags: &[&[u8]], bad: usize) -> Vec<u8> {
    let mut table = with_tags(tags);
    let past_end = (table.len() as u16 + 1).to_be_bytes();
    let range = HEAD + 4 * bad;
    table[range..range + 2].copy_from_slice(&past_end);
    table
}

/// Whole tables cut at every byte, at their own start and behind other bytes.
fn cut_tables(asked: &mut dyn Ask) {
    let tags: [&[u8]; 7] = [b"en", b"sr", b"sr-Latn", b"", b"\xC3\xA9", b"\xC3", b"fr"];
    for_each_cut([0, 1, 0], &with_tags(&tags), &mut |table, start| ask_names(asked, table, start as u64, NAMES));
}

/// Up to two ranges, each anywhere about the parts of the table, under every count of a few.
fn short_tables(asked: &mut dyn Ask) {
    for size in 0..=2 {
        let strings = b"enen";
        let behind = HEAD + 4 * size;
        let end = behind + strings.len();
        let offsets = [0, 8, 11, HEAD, behind, behind + 1, behind + 2, end - 1, end, end + 1, 0xFFFF];
        let ranges: Vec<Range> = offsets
            .iter()
            .flat_map(|offset| [0, 1, 2, 4, 0xFFFF].map(|length| Range { offset: *offset as u16, length }))
            .collect();
        for_each_string(&ranges, size, &mut |list| {
            for count in [0, 1, 2, 3, 0x1_0000, u32::MAX] {
                let table = Rc::from(with_ranges(count, list, strings));
                ask_names(asked, &table, 0, [&b""[..], b"e", b"n", b"en", b"ne"]);
            }
        });
    }
}

/// Starts at and about the end, and those that a number of fewer bits would take for one in the table.
fn far_starts(asked: &mut dyn Ask) {
    let table = with_tags(&[b"en", b"sr", b""]);
    let length = table.len() as u64;
    let table = Rc::from(table);
    let near = [0, 1, 8, length - 12, length - 1, length, length + 1];
    let far =
        [1 << 16, 1 << 31, u32::MAX.into(), 1 << 32, (1 << 32) + 1, 1 << 63, u64::MAX - 11, u64::MAX - 7, u64::MAX];
    for start in near.into_iter().chain(far) {
        ask_names(asked, &table, start, NAMES);
    }
}

/// A tag as long as a range can say, and names as long, longer, shorter and different at either end; and a name whose
/// length has the lower 16 bits of a short tag's.
fn long_names(asked: &mut dyn Ask) {
    let longest: Vec<u8> = (0..0xFFFF_u32).map(|number| b'a' + (number % 23) as u8).collect();
    let table = Rc::from(with_tags(&[b"en", b"", &longest]));
    let changed = |at: usize| {
        let mut name = longest.clone();
        name[at] = b'-';
        name
    };
    let longer = [&longest[..], b"a"].concat();
    let as_short = [&b"en"[..], &longest, b"a"].concat();
    let names = [&longest, &longest[1..], &longest[..0xFFFE], &longer, &as_short, &as_short[2..]];
    ask_names(asked, &table, 0, names);
    for name in [changed(0), changed(0x8000), changed(0xFFFE)] {
        ask_names(asked, &table, 0, [&name[..]]);
    }
}

/// More tags than 16 bits can count: all are the first two letters of the table, but the last, which is the next two.
fn many_tags(asked: &mut dyn Ask) {
    let size = 70_000;
    let mut ranges = vec![Range { offset: 0, length: 2 }; size - 1];
    ranges.push(Range { offset: 2, length: 2 });
    for count in [size - 1, size, size + 1, size - 0x1_0000, u32::MAX as usize] {
        let mut table = with_ranges(count as u32, &ranges, b"");
        table[..4].copy_from_slice(b"ensr");
        ask_names(asked, &Rc::from(table), 0, [&b"en"[..], b"sr", b"fr", b""]);
    }
}

/// Tables at the limit of length and above it, with an ltag table at either end, and starts without one.
fn long_tables(asked: &mut dyn Ask) {
    let ltag = with_tags(&[b"en", b"sr", b""]);
    for length in [LONGEST_TABLE, LONGEST_TABLE + 1] {
        let mut table = vec![0; length];
        table[..ltag.len()].copy_from_slice(&ltag);
        table[length - ltag.len()..].copy_from_slice(&ltag);
        let table = Rc::from(table);
        for start in [0, length - ltag.len(), length - 1, length, length + 1, usize::MAX] {
            ask_names(asked, &table, start as u64, NAMES);
        }
    }
}

const NAMES_FOR_ONE_TABLE: u64 = 8;

fn random_tables(asked: &mut dyn Ask, random: &mut Random, cases: u64) {
    let mut left = cases;
    while left > 0 {
        let (made, tags) = any_ltag(random);
        let start = made.any_start(random);
        let table = Rc::from(&made.table[..]);
        let names = left.min(NAMES_FOR_ONE_TABLE);
        for _ in 0..names {
            ask_names(asked, &table, start, [&any_name(random, &tags)[..]]);
        }
        left -= names;
    }
}

/// A name to ask for: mostly one of the tags, or nearly one.
fn any_name(random: &mut Random, tags: &[Vec<u8>]) -> Vec<u8> {
    if tags.is_empty() || random.once_in(5) {
        return any_tag(random);
    }
    let mut name = tags[random.below(tags.len())].clone();
    match random.below(10) {
        0 => drop(name.pop()),
        1 => name.push(b'x'),
        2 => name.make_ascii_uppercase(),
        3 => name.reverse(),
        _ => {}
    }
    name
}

/// The length and the bytes of a name, as far as they are taken.
fn name(tag: &[u8]) -> Vec<u8> {
    let name = &tag[..tag.len().min(usize::from(LONGEST_NAME) - 1)];
    [&[name.len() as u8], name].concat()
}

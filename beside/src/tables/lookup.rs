//! Lookup tables as bytes: of every format from a seed, whole and damaged.

use crate::tables::random::Random;

/// A table with what is asked about from `start` on, and the glyphs at which its parts begin and end.
pub struct Made {
    pub table: Vec<u8>,
    pub start: usize,
    pub edges: Vec<u16>,
}

/// A record of format 2, 4 or 6; format 6 has its first glyph alone.
#[derive(Clone, Copy)]
pub struct Record {
    pub first: u16,
    pub last: u16,
    pub value: u16,
}

/// The key of the record that closes a list.
const SENTINEL: Record = Record { first: 0xFFFF, last: 0xFFFF, value: 0 };

/// Numbers of 16 bits, big-endian.
pub fn words(numbers: &[u16]) -> Vec<u8> {
    numbers.iter().flat_map(|number| number.to_be_bytes()).collect()
}

/// The numbers of 16 bits that these bytes are.
pub fn numbers(bytes: &[u8]) -> impl Iterator<Item = u16> + '_ {
    bytes.chunks_exact(2).map(|number| u16::from_be_bytes([number[0], number[1]]))
}

/// How many bytes a record of format 2, 4 or 6 has.
pub fn record_size(format: u16) -> u16 {
    match format {
        6 => 4,
        _ => 6,
    }
}

/// A table of format 2, 4 or 6 that states this unit size and this count.
pub fn with_records(format: u16, unit: u16, count: u16, records: &[Record]) -> Vec<u8> {
    let selector = 15_u32.saturating_sub(count.leading_zeros());
    let power = count & 1 << selector;
    let searched = [unit.wrapping_mul(power), selector as u16, unit.wrapping_mul(count - power)];
    let mut table = words(&[format, unit, count]);
    table.extend(words(&searched));
    for record in records {
        table.extend(match format {
            6 => words(&[record.first, record.value]),
            _ => words(&[record.last, record.first, record.value]),
        });
    }
    table
}

/// A lookup table of this format with these values for as many glyphs from the first on; format 0 has the first value for
/// those before it too.
pub fn with_values(format: u16, first: u16, values: &[u16]) -> Vec<u8> {
    let count = values.len() as u16;
    let last = first + (count - 1);
    let single = |(glyph, value): (u16, &u16)| Record { first: glyph, last: glyph, value: *value };
    let singles: Vec<Record> = (first..=last).zip(values).map(single).collect();
    let all = Record { first, last, value: 12 + record_size(4) };
    match format {
        0 => words(&[&[0], &vec![values[0]; first as usize][..], values].concat()),
        2 | 6 => with_records(format, record_size(format), count, &singles),
        4 => [with_records(4, record_size(4), 1, &[all]), words(values)].concat(),
        8 => words(&[&[8, first, count], values].concat()),
        10 => words(&[&[10, 2, first, count], values].concat()),
        _ => panic!("no format {}", format),
    }
}

/// The same of any format, but of 0 only where few glyphs come before.
pub fn any_with_values(random: &mut Random, first: u16, values: &[u16]) -> Vec<u8> {
    let least = if first < 100 { 0 } else { 1 };
    with_values(2 * (least + random.below(6 - least)) as u16, first, values)
}

impl Made {
    /// A table that begins with its first byte.
    pub fn whole(table: Vec<u8>) -> Self {
        Made { table, start: 0, edges: Vec::new() }
    }

    /// Any lookup table: of any format, often damaged, often behind other bytes.
    pub fn any(random: &mut Random, most_records: usize) -> Self {
        let (mut lookup, edges) = any_lookup(random, most_records);
        damage(random, &mut lookup);
        Made::behind_others(random, lookup, edges)
    }

    /// These bytes, often behind others.
    pub fn behind_others(random: &mut Random, bytes: Vec<u8>, edges: Vec<u16>) -> Self {
        let before = random.among(&[0, 0, 1, 2, 40]);
        let mut table = random.bytes(before);
        table.extend(bytes);
        Made { table, start: before, edges }
    }

    /// A start to ask at: mostly the right one.
    pub fn any_start(&self, random: &mut Random) -> u64 {
        if !random.once_in(8) {
            return self.start as u64;
        }
        let (start, length) = (self.start as u64, self.table.len() as u64);
        let near = [0, 1, start + 1, length.saturating_sub(2), length.saturating_sub(1), length, length + 1];
        let far = [1 << 31, u32::MAX as u64, 1 << 32, 1 << 63, u64::MAX, u64::MAX - 1, u64::MAX - 11, random.number()];
        if random.once_in(3) {
            random.among(&far)
        } else {
            random.among(&near)
        }
    }

    /// A glyph to ask for: mostly at or beside an edge.
    pub fn any_glyph(&self, random: &mut Random) -> u16 {
        match random.below(8) {
            0 => random.among(&[0, 1, 0xFFFE, 0xFFFF]),
            1 => random.below(16) as u16,
            _ if self.edges.is_empty() => random.word(),
            _ => random.among(&self.edges).wrapping_add(random.among(&[0, 0, 0, 1, 0xFFFF])),
        }
    }
}

fn any_lookup(random: &mut Random, most_records: usize) -> (Vec<u8>, Vec<u16>) {
    match random.below(16) {
        0 | 1 => simple_array(random, most_records),
        2 | 3 => trimmed_array(random, 8, most_records),
        4 | 5 => trimmed_array(random, 10, most_records),
        6 => unknown_format(random),
        _ => record_list(random, most_records),
    }
}

/// Mostly few, sometimes many.
pub fn any_size(random: &mut Random, most: usize) -> usize {
    let limit = random.among(&[3, 8, 8, 20, 20, 20, 200, most]).min(most);
    random.below(limit + 1)
}

/// The count that a table of so many parts states: mostly the right one.
pub fn any_count(random: &mut Random, right: usize) -> u16 {
    let right = right as u16;
    match random.below(12) {
        0 => right.wrapping_add(1),
        1 => right.saturating_sub(1),
        2 => random.below(2 * right as usize + 8) as u16,
        3 => random.among(&[0, 1, 0x7FFF, 0x8000, 0xFFFF]),
        _ => right,
    }
}

fn simple_array(random: &mut Random, most: usize) -> (Vec<u8>, Vec<u16>) {
    let size = any_size(random, most);
    let mut lookup = words(&[0]);
    lookup.extend(random.bytes(2 * size));
    (lookup, last_glyphs(0, &[1, size / 2, size]))
}

fn trimmed_array(random: &mut Random, format: u16, most: usize) -> (Vec<u8>, Vec<u16>) {
    let size = any_size(random, most);
    let first = if random.once_in(2) { random.below(10) as u16 } else { random.word() };
    let count = any_count(random, size);
    let mut lookup = words(&[format]);
    if format == 10 {
        lookup.extend(words(&[random.among(&[0, 1, 2, 2, 2, 4, 8])]));
    }
    lookup.extend(words(&[first, count]));
    lookup.extend(random.bytes(2 * size));
    (lookup, last_glyphs(first, &[1, size / 2, size, count as usize]))
}

/// The last glyph of so many from the first one on, for each of the counts.
pub fn last_glyphs(first: u16, counts: &[usize]) -> Vec<u16> {
    counts.iter().map(|count| first.wrapping_add(*count as u16).wrapping_sub(1)).collect()
}

fn unknown_format(random: &mut Random) -> (Vec<u8>, Vec<u16>) {
    let format = random.among(&[1, 3, 5, 7, 9, 11, 12, 0x0100, 0x0600, 0x0800, 0xFFFF]);
    let mut lookup = words(&[format]);
    let size = random.below(30);
    lookup.extend(random.bytes(size));
    (lookup, Vec::new())
}

fn record_list(random: &mut Random, most: usize) -> (Vec<u8>, Vec<u16>) {
    let format = random.among(&[2, 4, 6]);
    let size = any_size(random, most);
    let mut records = records_in_order(random, size);
    disturb(random, &mut records);
    let mut counted = records.len();
    if random.once_in(4) {
        records.push(SENTINEL);
        counted += random.below(2);
    }
    let elements = if format == 4 { place_elements(random, &mut records) } else { Vec::new() };
    let unit = if random.once_in(6) { random.among(&[0, 2, 4, 6, 8, 0xFFFF]) } else { record_size(format) };
    let count = any_count(random, counted);
    let mut lookup = with_records(format, unit, count, &records);
    lookup.extend(elements);
    let last = |record: &Record| {
        if format == 6 {
            record.first
        } else {
            record.last
        }
    };
    let edges = records.iter().flat_map(|record| [record.first, last(record)]).collect();
    (lookup, edges)
}

/// Records that the survey passes: each in its own stretch of the glyphs.
fn records_in_order(random: &mut Random, size: usize) -> Vec<Record> {
    let widest = 65_536 / size.max(1);
    let stretch = random.among(&[1, 2, 5, widest]).min(widest);
    let base = if random.once_in(2) { 0 } else { random.below(65_537 - size * stretch) };
    let side_by_side = random.once_in(3);
    let any_record = |begin: usize| {
        let skipped = if side_by_side { 0 } else { random.below(stretch) };
        let more = if side_by_side { stretch - 1 } else { random.below(stretch - skipped) };
        Record { first: (begin + skipped) as u16, last: (begin + skipped + more) as u16, value: random.word() }
    };
    (0..size).map(|number| base + number * stretch).map(any_record).collect()
}

/// Any records of a table that is to be mended: in order, turned round or shuffled, often with some that are the same, reversed or
/// shared.
pub fn any_records(random: &mut Random, format: u16, most: usize) -> Vec<Record> {
    let size = random.below(most + 1);
    let mut records = records_in_order(random, size);
    match random.below(4) {
        0 => {}
        1 => records.reverse(),
        _ => random.shuffle(&mut records),
    }
    let spoiled = if random.once_in(2) { 0 } else { random.below(size.min(6) + 1) };
    for _ in 0..spoiled {
        let place = random.below(records.len());
        let (one, other) = (records[place], random.among(&records));
        records[place] = match (format, random.below(6)) {
            (6, _) | (_, 0) => Record { first: other.first, ..one },
            (_, 1) => Record { last: other.last, ..one },
            _ => Record { first: one.last, last: one.first.wrapping_sub(1), ..one },
        };
    }
    records
}

/// Often puts something out of order.
fn disturb(random: &mut Random, records: &mut Vec<Record>) {
    if records.is_empty() {
        return;
    }
    let one = random.below(records.len());
    let other = random.below(records.len());
    match random.below(14) {
        0 => records.swap(one, other),
        1 => random.shuffle(records),
        2 => records.reverse(),
        3 => records[one] = turned(records[one]),
        4 => records[one].last = records[other].first,
        5 => records.insert(one, records[other]),
        6 => records.iter_mut().for_each(|record| record.last = random.word()),
        7 => records.iter_mut().for_each(|record| record.first = random.below(8) as u16),
        _ => {}
    }
}

fn turned(record: Record) -> Record {
    Record { first: record.last, last: record.first, ..record }
}

/// The elements of format 4, behind the records, which are told their places; now and then any other place.
fn place_elements(random: &mut Random, records: &mut [Record]) -> Vec<u8> {
    let behind = 12 + 6 * records.len();
    let mut place = behind;
    for record in records {
        record.value = if random.once_in(12) { random.word() } else { place as u16 };
        place += 2 * (record.last.saturating_sub(record.first) as usize + 1);
    }
    random.bytes((place - behind).min(4_000))
}

/// Often changes, cuts or lengthens the bytes, if there are any.
pub fn damage(random: &mut Random, lookup: &mut Vec<u8>) {
    let length = lookup.len();
    if length == 0 {
        return;
    }
    match random.below(12) {
        0 => (0..4).for_each(|_| change_byte(random, lookup, length)),
        1 => change_byte(random, lookup, length.min(12)),
        2 => lookup.truncate(random.below(length)),
        3 => lookup.truncate(length.saturating_sub(1 + random.below(6))),
        4 => {
            let more = random.below(40);
            lookup.extend(random.bytes(more));
        }
        _ => {}
    }
}

fn change_byte(random: &mut Random, lookup: &mut [u8], within: usize) {
    lookup[random.below(within)] = random.number() as u8;
}
